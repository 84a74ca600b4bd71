"""Tests of logs and tools that others wrote: can-utils (its programs) and python-can (its module `can`)."""
from __future__ import annotations

import importlib.util
import pathlib
import random
import re
import shutil
import subprocess
import tempfile
import unittest
from typing import Any, Callable, List, NamedTuple, Sequence

from support import EXAMPLES, PROGRAM, Ended, read

from caldrouz import logs


class DataFrame(NamedTuple):
    """A line of a log as `convert` writes it."""

    moment: str
    name: str
    identifier: int
    data: bytes

    @property
    def frame(self) -> Any:
        return self.identifier, self.data


def needs(*programs: str, module: str = "") -> Callable[[Any], Any]:
    """Passes a test over where one of these is not installed."""
    missing = [name for name in programs if not shutil.which(name)]
    if module and not importlib.util.find_spec(module):
        missing.append(f"the module {module}")
    return unittest.skipIf(bool(missing), f"there is no {' and no '.join(missing)}")


def written_by(words: Sequence[str], log: str) -> str:
    """What a program wrote that was given this log."""
    done = subprocess.run(words, input=log.encode(), stdout=subprocess.PIPE, stderr=subprocess.DEVNULL, check=True)
    return done.stdout.decode()


class LogCase(unittest.TestCase):
    def converted(self, lines: str, before: str, after: str) -> str:
        """What the program makes of a log."""
        done = Ended([PROGRAM, "convert", before, after, "1000000"], input=lines.encode())
        self.assertEqual(done.status, 0, done.written[-200:])
        written: str = done.written
        return written

    def data_frames(self, log: str) -> List[DataFrame]:
        found = []
        for line in log.splitlines():
            parts = re.fullmatch(r"\((\d{10}\.\d{6})\) (\S+) ([0-9A-F]{8})#([0-9A-F]+)", line)
            assert parts, line
            found.append(DataFrame(parts[1], parts[2], int(parts[3], 16), bytes.fromhex(parts[4])))
        return found

    def example(self) -> str:
        """The data lines of examples/a_log."""
        return self.converted(read(EXAMPLES / "a_log/log"), "candump", "candump")


class ByTheProgram(LogCase):
    def test_a_log_of_candump_is_taken_as_it_is(self) -> None:
        """candump wrote this log; each of its lines is one of data, and is written as candump wrote it."""
        log = read(EXAMPLES / "a_real_bus/log")
        self.assertEqual(self.converted(log, "candump", "candump"), log)

    def test_the_way_to_slcan_and_back_keeps_the_frames(self) -> None:
        log = read(EXAMPLES / "a_real_bus/log")
        frames = self.data_frames(self.converted(self.converted(log, "candump", "slcan"), "slcan", "candump"))
        self.assertEqual([frame.frame for frame in frames], [frame.frame for frame in self.data_frames(log)])
        self.assertEqual({(frame.moment, frame.name) for frame in frames}, {("0000000000.000000", "slcan0")})

    @needs("log2long", "log2asc")
    def test_can_utils_read_what_is_written(self) -> None:
        log = self.example()
        frames, shown = self.data_frames(log), []
        for line in written_by(["log2long"], log).splitlines():
            parts = re.match(r"\((\S+)\) +(\S+) +([0-9A-F]+) +\[\d\] +((?:[0-9A-F]{2} ?)+)", line)
            assert parts, line
            shown.append(DataFrame(parts[1], parts[2], int(parts[3], 16), bytes.fromhex(parts[4])))
        self.assertEqual(shown, frames)
        asc = written_by(["log2asc", frames[0].name], log)
        words = [line.split() for line in asc.splitlines() if line.startswith(" ")]
        in_asc = [(int(one[2].rstrip("x"), 16), bytes.fromhex("".join(one[6:]))) for one in words]
        self.assertEqual(in_asc, [frame.frame for frame in frames])

    @needs("log2asc", "asc2log")
    def test_a_log_of_asc2log_is_read(self) -> None:
        """It writes a direction behind each line."""
        log = read(EXAMPLES / "a_log/log")
        again = written_by(["asc2log"], written_by(["log2asc", "vx4"], log))
        self.assertTrue(again.splitlines()[0].endswith(" R"))
        taken = self.data_frames(self.converted(again, "candump", "candump"))
        self.assertEqual([frame.frame for frame in taken], [frame.frame for frame in self.data_frames(self.example())])


@needs(module="can")
class ByPythonCan(LogCase):
    def setUp(self) -> None:
        folder = tempfile.TemporaryDirectory()
        self.addCleanup(folder.cleanup)
        self.path = pathlib.Path(folder.name) / "bus.log"

    def test_python_can_reads_what_is_written(self) -> None:
        import can

        log = self.example()
        self.path.write_text(log, encoding="ascii")
        messages = list(can.CanutilsLogReader(str(self.path)))
        self.assertTrue(all(one.is_extended_id and not one.is_remote_frame and not one.is_fd for one in messages))
        shown = [
            DataFrame(f"{one.timestamp:017.6f}", one.channel, one.arbitration_id, bytes(one.data)) for one in messages
        ]
        self.assertEqual(shown, self.data_frames(log))

    def test_a_log_of_python_can_is_read(self) -> None:
        """Messages of all kinds: each line is read, and those with 29 bits and 1 to 8 bytes of data are kept."""
        import can

        draw, kept = random.Random(1), []
        writer = can.CanutilsLogWriter(str(self.path))
        for at in range(300):
            extended, remote, fd, error = (draw.random() < share for share in (0.6, 0.1, 0.1, 0.05))
            remote = remote and not fd
            identifier, moment = draw.getrandbits(29 if extended else 11), 1_600_000_000 + at / 64
            data = bytes(draw.getrandbits(8) for _ in range(draw.randrange(9)))
            message = can.Message(
                timestamp=moment,
                arbitration_id=identifier,
                is_extended_id=extended,
                is_remote_frame=remote,
                is_fd=fd,
                is_error_frame=error,
                channel=draw.choice(["can0", "vcan1", 3, None]),
                data=None if remote else data,
            )
            writer.on_message_received(message)
            if extended and data and not (remote or fd or error):
                kept.append((f"{moment:017.6f}", identifier, data))
        writer.stop()
        taken = self.data_frames(self.converted(read(self.path), "candump", "candump"))
        self.assertEqual([(frame.moment, frame.identifier, frame.data) for frame in taken], kept)

    def test_a_file_that_is_none_of_its_form_cannot_be_read(self) -> None:
        for form in logs.BY_PYTHON_CAN:
            path = self.path.with_suffix(form)
            path.write_bytes(bytes(range(256)) * 4)
            with self.subTest(form=form):
                try:
                    logs.read(str(path))
                except logs.CannotRead as error:
                    self.assertIn(path.name, str(error))


class Lines(unittest.TestCase):
    """What tools/follow makes of single lines."""

    def test_a_data_line_is_a_record(self) -> None:
        for line in ("(1.5) can0 1E000101#00C0", "  (1.500000)  can0 1e000101#00c0 R", "(1.5009) can0 1E000101#00C0 T"):
            [found] = logs.read_lines(["", line]).frames
            self.assertEqual((found.line, found.stamp, found.interface), (2, 1500, "can0"))
            self.assertEqual(str(found.frame), "1e000101#00c0")

    def test_other_traffic_is_passed_over(self) -> None:
        for frame in ("123#00", "1E000101#R", "1E000101##0", "FE000101#00"):
            self.assertEqual(logs.read_lines([f"(1.5) can0 {frame}"]), logs.Log([], 1, []), frame)
        self.assertEqual(logs.read_lines(["\n"]), logs.Log([], 1, []))

    def test_what_is_no_line_is_none(self) -> None:
        for line in ("x", "(1.5) can0", "(².5) can0 1E000101#00C0", "1.5 can0 1E000101#00C0"):
            self.assertEqual(logs.read_lines([line]), logs.Log([], 0, [1]), line)
