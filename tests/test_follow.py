"""Tests of tools/follow, which drives the program: logs that a run explains, and logs of which it names a line."""
from __future__ import annotations

import pathlib
import subprocess
import tempfile
import unittest
from typing import List, Sequence, Tuple

from support import EXAMPLES, PROGRAM, TESTS, Ended, read, read_lines, run_tool, write_lines

from caldrouz import stores

THREE = ("1", "2", "3")
FIVE = ("1", "2", "3", "4", "5")


def follow(lines: Sequence[str], *words: str, members: Sequence[str] = THREE) -> Ended:
    """What follow makes of a log, and what it says."""
    with tempfile.TemporaryDirectory() as folder:
        log = write_lines(pathlib.Path(folder) / "log", lines)
        return run_tool("follow", log, *members, "--program", PROGRAM, *words)


def frames_of(lines: Sequence[str]) -> List[Tuple[str, ...]]:
    return [tuple(line.split(" ")[2].lower().split("#")) for line in lines]


def real_bus(last: int) -> List[str]:
    """The first lines of the log of examples/a_real_bus."""
    return read_lines(EXAMPLES / "a_real_bus/log")[:last]


def recorded(name: str) -> List[str]:
    return read_lines(TESTS / "logs" / f"{name}.log")


class FollowCase(unittest.TestCase):
    def replayed(self, schedule: str, members: Sequence[str]) -> Tuple[List[Tuple[str, ...]], List[str]]:
        """The frames on the bus of a run, and its last lines."""
        done = Ended([PROGRAM, "replay", "1000000", *members], input=schedule.encode())
        self.assertEqual(done.status, 0, done.written[-200:])
        rows, lines = schedule.splitlines(), done.written.splitlines()
        frames: List[Tuple[str, ...]] = []
        for row, line in zip(rows, lines):
            if row.startswith("send"):
                frames.append(tuple(line.split(" ")[4:6]))
            elif row.startswith("ext"):
                frames.append(tuple(row.split(" ")[1:3]))
        return frames, lines[len(rows) :]

    def is_explained(
        self, lines: Sequence[str], unlogged: int = 0, members: Sequence[str] = THREE, frames: Sequence[str] = ()
    ) -> List[str]:
        """The run of the schedule has the log's frames, or the frames of these lines, in their order, and so many
        besides."""
        found = follow(lines, members=members)
        self.assertEqual(found.status, 0, found.errors)
        on_bus, rest = self.replayed(found.written, members)
        wanted = iter(frames_of(frames or lines))
        following, more = next(wanted, None), 0
        for frame in on_bus:
            if frame == following:
                following = next(wanted, None)
            else:
                more += 1
        self.assertEqual((following, more), (None, unlogged))
        self.said, self.schedule = found.errors, found.written
        return rest

    def is_named(self, lines: Sequence[str], line: int, *besides: str) -> None:
        """The log is not explained, and this line of it is named."""
        found = follow(lines)
        self.assertEqual(found.status, 1, found.errors)
        for text in (f"line {line}: ", *besides):
            self.assertIn(text, found.errors)


class Explained(FollowCase):
    def test_a_real_bus(self) -> None:
        """The leader was killed; at the end the run has what the stores of the real processes had."""
        rest = self.is_explained(real_bus(10_000))
        for node in (1, 2, 3):
            store = stores.read(str(EXAMPLES / f"a_real_bus/alloc-{node}.store"))
            stored = [f"{place} {entry.node} {entry.unique_id}" for place, entry in enumerate(store.committed, 1)]
            at = rest.index(f"log {node} {len(stored)}")
            self.assertEqual(rest[at + 1 : at + 1 + len(stored)], stored, f"member {node}")
        self.assertEqual(self.schedule, read(EXAMPLES / "a_real_bus/schedule"))

    def test_a_calm_bus(self) -> None:
        self.is_explained(recorded("calm"), unlogged=6)

    def test_a_clock_that_was_set(self) -> None:
        """The clock of the machine was set forward by an hour, and the leader was killed behind that."""
        self.is_explained(recorded("clock_set_forward"))

    def test_bridges_that_came_late(self) -> None:
        self.is_explained(recorded("late_bridges"), unlogged=13)

    def test_bridges_that_came_late_and_a_kill(self) -> None:
        self.is_explained(recorded("late_and_killed"), unlogged=6)

    def test_five_members(self) -> None:
        self.is_explained(recorded("five_and_killed"), members=FIVE)

    def test_losses(self) -> None:
        """The run has two answers that the log does not have; who gave them may as well have lost the requests."""
        self.is_explained(recorded("lossy"), unlogged=2)

    def test_a_line_that_is_missing(self) -> None:
        lines = real_bus(200)
        answers = [at for at, line in enumerate(lines) if "1E1E0182#" in line]
        self.is_explained(lines[: answers[3]] + lines[answers[3] + 1 :], unlogged=1)

    def test_a_clock_that_jumps(self) -> None:
        def moved(line: str, by: int) -> str:
            stamp, rest = line[1:].split(")", 1)
            return f"({float(stamp) + by:.6f}){rest}"

        lines = real_bus(200)
        there = [moved(line, 3600) for line in lines[90:150]]
        self.is_explained(lines[:90] + there + [moved(line, -7) for line in lines[150:]])

    def test_a_log_that_begins_late(self) -> None:
        self.is_explained(real_bus(200)[12:], unlogged=12)

    def test_a_log_with_each_line_twice(self) -> None:
        lines = real_bus(60)
        self.is_explained([line for line in lines for _ in (1, 2)], frames=lines)
        self.assertIn("tell a frame once more", self.said)

    def test_a_bus_that_was_logged_on_two_interfaces(self) -> None:
        lines, name = real_bus(60), real_bus(1)[0].split(" ")[1]
        both = [copy for line in lines for copy in (line, line.replace(f" {name} ", " other "))]
        self.is_explained(both, frames=lines)


class Named(FollowCase):
    def test_another_node_id_is_told(self) -> None:
        """The answer to the device, with the node ID 124 in place of 125. Its CRC is that of the other payload."""
        lines = real_bus(190)
        at = next(at for at, line in enumerate(lines) if line.endswith("1E000101#2E25FA0011223382"))
        lines[at] = lines[at].replace("2E25FA", "2E25F8")
        self.is_named(lines, at + 1, "the run has 1e000101#2e25fa0011223382 there")

    def test_a_second_vote(self) -> None:
        lines = real_bus(40)
        at = next(at for at, line in enumerate(lines) if "1E1F0183#" in line)
        self.is_named(lines[: at + 1] + [lines[at]] + lines[at + 1 :], at + 2, "member 3 was not asked for it")

    def test_a_vote_that_was_not_given(self) -> None:
        lines = real_bus(40)
        at = next(at for at, line in enumerate(lines) if "1E1F0183#0100000080" in line)
        lines[at] = lines[at].replace("0100000080", "0100000000")
        self.is_named(lines, at + 1, "the run has 1e1f0183#0100000080c0 there")

    def test_two_nodes_with_the_id_of_a_member(self) -> None:
        """Each NodeStatus of one has a lower uptime than that of the other before it."""
        lines = real_bus(60)
        status = next(line for line in lines if "1E015501#" in line).split(" ")[2]
        doubled = []
        for line in lines:
            front, interface, frame = line.split(" ")
            doubled += [line, f"{front} {interface} {status}"] if "1E015501#" in line and frame != status else [line]
        ended = follow(doubled)
        self.assertEqual(ended.status, 1, ended.errors)
        self.assertNotIn("Traceback", ended.errors)

    def test_a_frame_with_a_stamp_from_before_all_openings(self) -> None:
        """It is the last one of the first spell of its member, which opened later."""
        status = ["(100.0) can0 1E015501#05000000000000C0", "(101.0) can0 1E015501#01000000000000C1"]
        ended = follow([status[0], "(3.0) can0 1E018601#0301C0", status[1]], members=("1",))
        self.assertEqual(ended.status, 1, ended.errors)
        self.assertNotIn("Traceback", ended.errors)


class Refusals(unittest.TestCase):
    def is_refused(self, status: int, *words: object) -> None:
        ended = run_tool("follow", *words)
        self.assertEqual((ended.status, ended.written), (status, ""), ended.errors)
        self.assertNotIn("Traceback", ended.errors)

    def test_words_stores_and_programs(self) -> None:
        calm, store = TESTS / "logs/calm.log", EXAMPLES / "a_real_bus/alloc-1.store"
        self.is_refused(3, calm, 1, 2, 3, "--store", f"1={store}", "--program", PROGRAM)
        self.is_refused(2, calm, 1, 2, 3, "--store", "9=x")
        self.is_refused(2, calm, 1, 2, 3, "--store", "²=x")
        self.is_refused(2, calm, 1, 2, 3, "--store", f"1={calm}")
        self.is_refused(2, TESTS / "no such log", 1)
        self.is_refused(2, calm, 1, 1)
        self.is_refused(3, calm, 7, 8)
        self.is_refused(4, calm, 1, 2, 3, "--program", "no such program")
        self.is_refused(4, calm, 1, 2, 3, "--program", "/bin/false")
        self.assertEqual(run_tool("follow", "--help").status, 0)

    def test_a_program_that_answers_another_row(self) -> None:
        """Of a frame from outside it says that a member stops."""
        request = "(1.5) can0 1E000500#FB001122334455C0"
        with tempfile.TemporaryDirectory() as folder:
            program = write_lines(pathlib.Path(folder) / "program", [
                "#!/bin/sh",
                "[ $1 = replay ] || exit 2",
                "[ $2 = 1 ] || echo '1 1 open 0 0 0 0' && echo '2 1 stop'",
                "cat > /dev/null",
            ])
            program.chmod(0o755)
            log = write_lines(pathlib.Path(folder) / "log", [request, "(2.0) can0 1E015501#01000000000000C0"])
            self.is_refused(4, log, 1, "--program", program)

    def test_a_schedule_that_cannot_be_written(self) -> None:
        with open("/dev/full", "wb") as full, tempfile.TemporaryDirectory() as folder:
            log = write_lines(pathlib.Path(folder) / "log", real_bus(5))
            ended = run_tool("follow", log, 1, 2, 3, "--program", PROGRAM, stdout=full)
        self.assertEqual(ended.status, 6, ended.errors)
        self.assertNotIn("Traceback", ended.errors)


def setUpModule() -> None:
    """Where the program is not built, this builds it."""
    words: List[str] = [PROGRAM, "replay", "1", "1"]
    if subprocess.run(words, stdin=subprocess.DEVNULL, stdout=subprocess.DEVNULL).returncode:
        raise RuntimeError(f"the program does not run: {PROGRAM}")
