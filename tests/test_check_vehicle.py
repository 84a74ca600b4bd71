"""Tests of tools/check_vehicle: what a machine, a bus and a log tell of what the promise assumes."""
from __future__ import annotations

import importlib.machinery
import importlib.util
import itertools
import json
import os
import pathlib
import tempfile
import time
import unittest
from typing import Any, Dict, List, Tuple
from unittest import mock

import images
from acts import ONE, Act
from support import EXAMPLES, ROOT, TESTS, Ended, run_tool, write_lines

from caldrouz import causes, logs, machine, stores, timing, wire

MOUNTS = r"""21 1 254:0 / / rw,relatime - ext4 /dev/vda rw
22 21 0:21 / /proc rw - proc proc rw
30 21 0:30 / /var rw - overlay overlay rw,lowerdir=/a:/b
31 30 8:1 / /var/lib/with\040space rw,noatime shared:1 - ext4 /dev/sda1 rw,nobarrier
32 21 0:32 / /net rw - nfs4 host:/x rw
33 21 0:33 / /run rw - tmpfs tmpfs rw
"""


def vehicle_tool() -> Any:
    """The script as a module."""
    loader = importlib.machinery.SourceFileLoader("check_vehicle", str(ROOT / "tools/check_vehicle"))
    spec = importlib.util.spec_from_loader("check_vehicle", loader)
    assert spec is not None
    module = importlib.util.module_from_spec(spec)
    loader.exec_module(module)
    return module


def check(*words: object, **environment: str) -> Ended:
    return run_tool("check_vehicle", "--settings", os.devnull, *words, env={**os.environ, **environment})


class Disks(unittest.TestCase):
    def test_the_file_system_of_a_path(self) -> None:
        with tempfile.TemporaryDirectory() as folder:
            mounts = str(write_lines(pathlib.Path(folder) / "mountinfo", MOUNTS.splitlines()))

            def kind(path: str) -> str:
                disk = machine.disk_of(path, mounts)
                return f"{disk.kind}: {disk.wrong()}" if disk else "none"

            self.assertEqual(kind("/home/x"), "ext4: ")
            self.assertIn("is reset", kind("/var/lib/caldrouz"))
            self.assertIn("what was synced may be lost", kind("/var/lib/with space/1"))
            self.assertIn("of the network", kind("/net/store"))
            self.assertIn("gone with the power", kind("/run/store"))
            self.assertEqual(kind("/runner"), "ext4: ")
        self.assertIsNone(machine.disk_of("/", "no such file"))

    def test_a_store_in_memory_is_told(self) -> None:
        said = check("--stores", "/dev/shm")
        self.assertEqual(said.status, 1)
        self.assertRegex(said.written, r"A1 +NOT SO: +/dev/shm: tmpfs is in memory")

    def test_a_member_that_is_told_its_list_has_no_store_in_memory(self) -> None:
        def said(*words: object, **environment: str) -> Ended:
            kept = {name: value for name, value in os.environ.items() if name != machine.ANY_DISK}
            return run_tool("on_can", "no-such-can", "true", *words, cwd="/dev/shm", env={**kept, **environment})

        refused = said("can", "1,2,3", "1")
        self.assertEqual(refused.status, 12)
        self.assertIn("on_can: /dev/shm: tmpfs is in memory", refused.errors)
        for other in (said("can", "1,2,3", "1", CALDROUZ_ANY_DISK="1"), said("can", "3", "1000", "1")):
            self.assertTrue(other.errors.startswith("on_can: no-such-can: "), other.errors)

    def test_stores_of_a_folder(self) -> None:
        said = check("--stores", EXAMPLES / "a_real_bus")
        self.assertRegex(said.written, r"A9 +ok: +the store of member 1 can be read: term 2, 3 entries, 3 committed")
        with tempfile.TemporaryDirectory(dir=TESTS) as folder:
            (pathlib.Path(folder) / "alloc-1.store").write_bytes(b"\xff" * 8844)
            said = check("--stores", folder)
        self.assertEqual(said.status, 1)
        self.assertRegex(said.written, r"A9 +NOT SO: .*damaged at key 0")

    def test_a_store_that_others_may_write(self) -> None:
        with tempfile.TemporaryDirectory(dir=TESTS) as folder:
            store = pathlib.Path(folder) / "alloc-1.store"
            store.write_bytes(bytes(8844))
            for mode, told in ((0o600, False), (0o620, True), (0o602, True)):
                store.chmod(mode)
                said = check("--stores", folder).written
                self.assertEqual("others than its user may write it" in said, told, said)

    def test_a_store_without_a_version_is_told(self) -> None:
        with tempfile.TemporaryDirectory(dir=TESTS) as folder:
            (pathlib.Path(folder) / "alloc-1.store").write_bytes(bytes(8844))
            said = check("--stores", folder)
        self.assertEqual(said.status, 1)
        self.assertRegex(said.written, r"A9 +NOT SO: .*alloc-1.store: it has no version")


class Clocks(unittest.TestCase):
    """The clock of the members, while a daemon slews it by 8 %, and while none does."""

    def error(self, rate: float) -> Tuple[float, float]:
        now = itertools.count(100.0, 0.5)
        raw: Dict[str, float] = {}

        def clock(number: int) -> float:
            if number == time.CLOCK_MONOTONIC_RAW:
                return raw["last"]
            raw["last"] = next(now)
            return 5.0 + rate * raw["last"]

        with mock.patch.object(time, "clock_gettime", clock), mock.patch.object(time, "sleep") as slept:
            found = machine.Clocks().error(3.0)
            slept.assert_called_once_with(2.5)
        return found

    def test_a_slewed_clock_is_found(self) -> None:
        for rate in (1.08, 1.0, 0.92):
            error, seconds = self.error(rate)
            self.assertAlmostEqual(error, rate - 1)
            self.assertAlmostEqual(seconds, 1.0)

    def test_that_of_this_machine_is_told(self) -> None:
        self.assertRegex(check().written, r"A10 +(ok|NOT SO): +the clock of the members goes [+-]\d+\.\d\d % wrong now")


class Lists(unittest.TestCase):
    """Whom members call, in a log of 9 s, and what is said of the lists 1, 2, 3, by `why` and here alike."""

    def said(self, calls: Dict[int, List[int]], answerer: int = 0, members: Tuple[int, ...] = (1, 2, 3)) -> List[str]:
        act = Act()
        for caller, called in calls.items():
            act.calls(caller, called, 0, 9)
        if answerer:
            act.node(answerer, 0, 9)
            act.device(ONE, 5, answerer, 125)
        found = causes.find(act.scene(members))
        return [cause.text.split(": they")[0] for cause in found if cause.name == "another-list"]

    def test_one_list(self) -> None:
        self.assertEqual(self.said({1: [2, 3]}, 1), [])
        self.assertEqual(self.said({1: [2, 3], 2: [1, 3]}), [])
        self.assertEqual(self.said({1: [2, 3], 2: [1, 3]}, members=()), [])
        self.assertEqual(self.said({}, 7, members=(7,)), [])

    def test_another_list(self) -> None:
        self.assertEqual(self.said({3: [1, 4]}), ["Member 3 calls 1 and 4, and the members are to be 1, 2 and 3"])
        self.assertEqual(self.said({3: [1]}), ["Member 3 calls 1, and the members are to be 1, 2 and 3"])

    def test_a_list_with_one_member(self) -> None:
        self.assertEqual(
            self.said({2: [1, 3]}, 1),
            ["Member 1 answers devices, and calls no other member, though the members are to be 1, 2 and 3: it was "
             "told that it is alone"],
        )

    def test_what_a_log_shows(self) -> None:
        log = EXAMPLES / "a_real_bus/log"
        said = check("--log", log, "--members", "1,2,3")
        self.assertRegex(said.written, r"A3 +ok: +whom members 1.* call is the list")
        said = check("--log", log, "--members", "1,2,3,4")
        self.assertRegex(said.written, r"A3 +NOT SO: +Member 1 calls 2 and 3, and the members are to be 1, 2, 3 and 4")
        self.assertRegex(said.written, r"A3 +not tested: +the list of .*4, who called nobody")


class BeginningAnew(unittest.TestCase):
    def test_beginning_anew_is_left_to_a_person(self) -> None:
        self.assertRegex(check().written, r"A8 +that where all stores are made anew nobody starts before .* for 6 s")


class Processes(unittest.TestCase):
    def test_processes_of_members(self) -> None:
        with tempfile.TemporaryDirectory() as name:
            proc = pathlib.Path(name)
            lines = {7: "allocator node 3 5000 9 1", 8: "/usr/bin/allocator node 1,2,3 5200 9 1 2", 9: "less node"}
            lines[10] = "/usr/lib/caldrouz/allocator can 1,2,3 9 3"
            lines[11] = "allocator can 1,2,3 2"
            lines[12] = "allocator can 1,2,3"
            for number, words in lines.items():
                (proc / str(number)).mkdir()
                (proc / str(number) / "cmdline").write_text(words.replace(" ", "\0") + "\0")
                (proc / str(number) / "cwd").symlink_to(name)
            found = machine.members_running(name)
        self.assertEqual([(it.process, it.members) for it in found], [(7, [1]), (8, [1, 2]), (10, [3]), (11, [2])])
        told = [(it.mode, it.told) for it in found]
        self.assertEqual(told, [("node", "3"), ("node", "1,2,3"), ("can", "1,2,3"), ("can", "1,2,3")])


class Interfaces(unittest.TestCase):
    """`ip` and `journalctl` are scripts of the test."""

    def told(self, scripts: Dict[str, str]) -> machine.Interface:
        with tempfile.TemporaryDirectory() as name:
            for script, text in scripts.items():
                path = pathlib.Path(name) / script
                path.write_text(f"#!/bin/sh\n{text}\n")
                path.chmod(0o755)
            before, os.environ["PATH"] = os.environ["PATH"], f"{name}:{os.environ['PATH']}"
            try:
                found = machine.interface("can0")
                self.journal = machine.journal("caldrouz-bridge@can0")
            finally:
                os.environ["PATH"] = before
        assert found is not None
        return found

    def test_what_ip_tells(self) -> None:
        found = self.told(
            {
                "ip": """echo '[{"flags":["NOARP","UP"],"txqlen":1000,"linkinfo":{"info_kind":"can","info_data":
                {"state":"ERROR-PASSIVE","restart_ms":100,"bittiming":{"bitrate":500000}}}}]'""",
                "journalctl": "echo to_bus=5 own=3",
            }
        )
        self.assertEqual(found, machine.Interface(True, False, "can", 1000, 100, 500000, "ERROR-PASSIVE"))
        self.assertEqual(self.journal, "to_bus=5 own=3\n")

    def test_error_counters(self) -> None:
        text = """echo '[{"flags":["UP"],"linkinfo":{"info_kind":"can","info_data":{"state":"BUS-OFF",
        "berr_counter":{"tx":248,"rx":3}},"info_xstats":{"restarts":1,"bus_off":2}}}]'"""
        found = self.told({"ip": text})
        self.assertEqual((found.errors, found.bus_off, found.restarts), (248, 2, 1))
        said = list(causes.interface("can0", found))
        self.assertEqual([(it.name, it.stops) for it in said], [("bad-interface", True)])
        self.assertIn("can0 left the bus (BUS-OFF), with error counters up to 248", said[0].text)
        passive = list(causes.interface("can0", found._replace(state="ERROR-PASSIVE")))
        self.assertEqual([(it.name, it.stops) for it in passive], [("bad-interface", False)])
        self.assertEqual(list(causes.interface("can0", found._replace(state="ERROR-ACTIVE", bus_off=0))), [])
        self.assertEqual(list(causes.interface("can0", None)), [])

    def test_a_controller_that_came_back_and_a_queue_that_is_long(self) -> None:
        """The fields of iproute2's ip/iplink_can.c, after linux/can/netlink.h: struct can_device_stats."""
        text = """echo '[{"ifname":"can0","flags":["NOARP","UP","LOWER_UP","ECHO"],"mtu":16,"txqlen":1000,
        "link_type":"can","linkinfo":{"info_kind":"can","info_data":{"state":"ERROR-ACTIVE",
        "berr_counter":{"tx":0,"rx":7},"restart_ms":100,"bittiming":{"bitrate":1000000,"sample_point":"0.750"}},
        "info_xstats":{"restarts":3,"bus_error":0,"arbitration_lost":9,"error_warning":5,"error_passive":4,
        "bus_off":3}},
        "stats64":{"rx":{"bytes":80,"packets":10,"errors":2,"dropped":0},
        "tx":{"packets":5,"errors":1,"dropped":6}}}]'"""
        found = self.told({"ip": text})
        self.assertEqual((found.restarts, found.passive, found.dropped, found.queue), (3, 4, 6, 1000))
        said = [it.text for it in causes.interface("can0", found)]
        self.assertEqual(said[0], "can0 left the bus 3 times since it is there, and was brought back 3 times")
        self.assertIn("can0 keeps up to 1000 frames that nobody acknowledges", said[1])
        self.assertEqual(len(list(causes.interface("vcan0", found._replace(kind="vcan", bus_off=None)))), 0)

    def test_who_tells_when_a_frame_was_on_the_bus(self) -> None:
        for flags, kind, echo in (('"ECHO"', "can", True), ("", "slcan", False), ("", "vcan", True)):
            text = f'[{{"flags":[{flags}],"linkinfo":{{"info_kind":"{kind}"}}}}]'
            self.assertEqual(self.told({"ip": f"echo '{text}'"}).echo, echo, kind)

    def test_a_pair_behind_can_gw_is_a_warning(self) -> None:
        for kind, states in (("vcan", ["ok"]), ("vxcan", ["warning", "ok"])):
            report = vehicle_tool().Report(True)
            text = f'[{{"flags":["UP"],"txqlen":10,"linkinfo":{{"info_kind":"{kind}"}}}}]'
            with mock.patch.object(machine, "interface", lambda _, found=self.told({"ip": f"echo '{text}'"}): found):
                vehicle_tool().check_interface(report, "can0")
            self.assertEqual([it["state"] for it in report.premises], states)

    def test_what_makes_no_sense(self) -> None:
        for text in ("", "[]", "[5]", "{}", "nonsense"):
            with tempfile.TemporaryDirectory() as name:
                path = pathlib.Path(name) / "ip"
                path.write_text(f"#!/bin/sh\necho '{text}'\n")
                path.chmod(0o755)
                before, os.environ["PATH"] = os.environ["PATH"], f"{name}:{os.environ['PATH']}"
                try:
                    self.assertIsNone(machine.interface("can0"), text)
                finally:
                    os.environ["PATH"] = before


class Logs(unittest.TestCase):
    log = EXAMPLES / "a_real_bus/log"

    def of(self, lines: List[str], *words: str) -> Ended:
        with tempfile.TemporaryDirectory() as folder:
            log = write_lines(pathlib.Path(folder) / "log", lines)
            return check("--log", log, "--members", "1,2,3", "--hold", "3500", *words)

    def lines(self) -> List[str]:
        return self.log.read_text(encoding="ascii").splitlines()

    def test_a_calm_log(self) -> None:
        said = self.of(self.lines())
        self.assertEqual(said.status, 0, said.written)
        self.assertIn("2 AppendEntries request to 3: 12559 ms, at line 520", said.written)
        self.assertIn("1 Allocation message: -", said.written)

    def test_a_frame_that_came_twice(self) -> None:
        lines = self.lines()
        said = self.of(lines[:100] + [lines[99]] + lines[100:])
        self.assertEqual(said.status, 0, said.written)
        self.assertRegex(said.written, r"A7 +ok: +frames of one identifier came in order; 1 came twice at once")

    def test_frames_that_changed_places(self) -> None:
        lines = self.lines()
        pairs = [at for at in range(len(lines) - 1) if "1E1E8281#" in lines[at] and "1E1E8281#" in lines[at + 1]]
        at = pairs[3]
        lines[at], lines[at + 1] = lines[at + 1], lines[at]
        said = self.of(lines)
        self.assertEqual(said.status, 1)
        self.assertRegex(said.written, r"A7 +NOT SO: +the frame in line \d+ does not go on where its transfer stands")

    def test_an_answer_that_is_late(self) -> None:
        def moved(line: str, by: float) -> str:
            stamp, _, rest = line[1:].partition(")")
            return f"({float(stamp) + by:.6f}){rest}"

        lines = self.lines()
        at = next(at for at, line in enumerate(lines) if "1E1E0182#" in line)
        said = self.of(lines[:at] + [moved(line, 8) for line in lines[at:]])
        self.assertEqual(said.status, 1)
        self.assertRegex(said.written, r"A6 +NOT SO: +member .*: its answer in line \d+ came 8\d\d\d ms after it")

    def test_a_member_that_came_back_at_once(self) -> None:
        said = check("--log", self.log, "--members", "1,2,3", "--hold", "15000")
        self.assertRegex(said.written, r"A8 +NOT SO: +member 1 began anew \d+ ms after its last frame")

    def allocations(self, apart: float) -> Ended:
        """64 Allocations of member 1, so many seconds from each to the next."""
        begin = 1_600_000_000
        data = [f"0001020304050{at % 10}{0xC0 | at % 32:02X}" for at in range(64)]
        return self.of([f"({begin + at * apart:.6f}) can0 1E000101#{data[at]}" for at in range(64)])

    def test_allocations_that_use_an_id_again(self) -> None:
        """A frame may be 3,500 ms late, a session lasts 2,000 ms, and a clock goes wrong by less than 500 ms."""
        for apart, passed in ((0.1, 3200), (0.175, 5600)):
            said = self.allocations(apart)
            soon = f"member 1 Allocation message: a transfer ID was used again after {passed} ms"
            self.assertRegex(said.written, rf"A8 +NOT SO: +{soon}")
        self.assertRegex(self.allocations(0.1875).written, r"A8 +ok: +transfer IDs came round later")

    def sent(self, name: str, to: int, apart: float) -> str:
        """What is said of 33 transfers of member 1 to another node, so many seconds from each to the next."""
        identifier = wire.identifier_of(1, name, to)
        lines = [f"({5 + at * apart:.6f}) can0 {identifier:08X}#{at:014X}{0xC0 | at % 32:02X}" for at in range(33)]
        return self.of(lines).written

    def test_of_requests_and_responses_those_of_get_node_info_between_members_count(self) -> None:
        soon = "a transfer ID was used again after 6880 ms, at line 33"
        self.assertRegex(self.sent("info", 2, 0.215), f"A8 +NOT SO: +member 1 GetNodeInfo response to 2: {soon}")
        for name, to, apart in (("info", 2, 0.22), ("info", 9, 0.1), ("infoq", 9, 0.1), ("appq", 2, 0.1)):
            self.assertRegex(self.sent(name, to, apart), "A8 +ok: +transfer IDs came round later", name)

    def test_words(self) -> None:
        self.assertEqual(run_tool("check_vehicle", "--help").status, 0)
        self.assertEqual(check("--log", self.log).status, 2)
        self.assertEqual(check("--log", self.log, "--members", "3").status, 2)  # (how many there are)
        self.assertEqual(check("--log", self.log, "--members", "8,9").status, 3)
        self.assertEqual(check("--log", "no such log", "--members", "1,").status, 3)
        self.assertEqual(check("--members", "0").status, 2)
        self.assertEqual(run_tool("check_vehicle", "--settings", "no such file").status, 3)
        self.assertEqual(check("nocan0", "--seconds", "1").status, 3)


class Processed(unittest.TestCase):
    """What processes of this machine tell."""

    def test_lists_of_processes(self) -> None:
        report = vehicle_tool().Report(True)
        running = [machine.Running(7, [1], "/", "node", "1,2,3"), machine.Running(8, [3], "/", "node", "1,3,4")]
        with mock.patch.object(machine, "members_running", lambda: running):
            vehicle_tool().check_told(report, [1, 2, 3], None)
        self.assertEqual([it["state"] for it in report.premises], ["NOT SO"])
        self.assertIn("(process 8), told the members 1,3,4", report.premises[0]["text"])

    def test_why_tells_of_processes_with_another_list(self) -> None:
        one = machine.Running(7, [1], "/", "node", "1,2,3", 5000)
        other = machine.Running(8, [3], "/", "node", "1,3,4", 5000)
        beside = machine.Running(9, [4], "/", "node", "4,5,6", 5200)
        found = list(causes.lists_here([one, other, beside], [1, 2, 3], 5000))
        self.assertEqual([it.name for it in found], ["another-list"])
        self.assertIn("Member 3 runs here (process 8), told the members 1,3,4", found[0].text)
        self.assertEqual(list(causes.lists_here([one, beside], [1, 2, 3], 5000)), [])
        self.assertEqual(list(causes.lists_here([one, beside], [1, 2, 3], None)), [])
        self.assertEqual(list(causes.lists_here([one], (), None)), [])
        self.assertEqual(list(causes.lists_here([one, beside._replace(base=5000)], [1, 2, 3], 5000)), [])

    def test_counts_of_a_bridge_that_members_left(self) -> None:
        report = vehicle_tool().Report(True)
        running = [machine.Running(7, [1], "/", "can", "1,2,3")]
        with mock.patch.object(machine, "members_running", lambda: running), mock.patch.object(
            machine, "journal", lambda _: "own=787"
        ):
            vehicle_tool().check_own(report, "can0")
        self.assertEqual([it["state"] for it in report.premises], ["not tested"])


class AsJson(unittest.TestCase):
    def test_the_object(self) -> None:
        said = check("--stores", "/dev/shm", "--json")
        told = json.loads(said.written)
        self.assertEqual((told["status"], said.status), ("bad", 1))
        self.assertIn(("A1", "NOT SO"), [(it["number"], it["state"]) for it in told["premises"]])
        self.assertTrue(told["person"])


class Timings(unittest.TestCase):
    def test_answers_and_the_least_time_until_an_id_is_used_again(self) -> None:
        said = timing.Timing([1, 2])
        lines = [
            "(1.000000) can0 1E1E8281#1209010000000080",
            "(1.001000) can0 1E1E8281#000000000060",
            "(1.002000) can0 1E1E0182#0100000080C0",
            "(2.000000) can0 1E1E8281#1209010000000080",
            "(5.000000) can0 1E1E8281#1209010000000080",
        ]
        for record in logs.read_lines(lines).frames:
            said.take(record)
        way = timing.Way(1, "appq", 2)
        self.assertEqual(said.reuse[way], timing.Span(1000, 4))
        self.assertEqual(said.answers, {way: timing.Span(2, 3)})

    def test_a_member_that_answers_before_its_first_status_was_silent_until_then(self) -> None:
        lines = [
            "(10.000000) can0 1E015501#09000000000000C8",
            "(10.500000) can0 1E1E0281#0100000080C0",
            "(23.200000) can0 1E1E0281#0100000080C0",
            "(24.000000) can0 1E015501#01000000000000C0",
        ]
        said = timing.Timing([1, 2])
        for record in logs.read_lines(lines).frames:
            said.take(record)
        self.assertEqual(said.pauses, {1: [timing.Span(12500, 4)]})


class Settings(unittest.TestCase):
    def test_settings_of_the_units(self) -> None:
        with tempfile.TemporaryDirectory() as name:
            folder = pathlib.Path(name)
            path = write_lines(folder / "caldrouz", ["# a comment", "CLUSTER=1,2,3", 'MEMBERS="1 2"', "nonsense"])
            self.assertEqual(machine.settings(str(path)), {"CLUSTER": "1,2,3", "MEMBERS": "1 2"})
            image = images.image(stores.Store(2, 1, 0, 0, []))
            (folder / "alloc-1.store").write_bytes(image)
            said = run_tool("check_vehicle", "--settings", path, "--stores", folder)
            self.assertIn("the store of member 1 can be read", said.written)


if __name__ == "__main__":
    unittest.main()
