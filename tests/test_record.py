"""Tests of tools/record: what it writes of frames that come by UDP, and who reads its folder."""
from __future__ import annotations

import pathlib
import signal
import socket
import subprocess
import sys
import tempfile
import time
import unittest
from typing import List
from unittest import mock

import members
from acts import ONE, Act
from support import ROOT, run_tool, write_lines

from caldrouz import buses, logs, wire

RECORD = ROOT / "tools" / "record"
FRAME = wire.Frame(0x1E015501, bytes.fromhex("0b000000000000c1"))


class Case(unittest.TestCase):
    def setUp(self) -> None:
        folder = tempfile.TemporaryDirectory()
        self.addCleanup(folder.cleanup)
        self.folder = pathlib.Path(folder.name)

    def names(self) -> List[str]:
        return sorted(path.name for path in self.folder.iterdir())


class Recorded(Case):
    def setUp(self) -> None:
        super().setUp()
        self.base = members.free_base()

    def record(self, count: int, *words: str) -> None:
        """A start, in which so many frames come."""
        running = subprocess.Popen([sys.executable, "-B", RECORD, str(self.base), self.folder, *words])
        with socket.socket(socket.AF_INET, socket.SOCK_DGRAM) as link:
            port = "127.0.0.1", self.base + buses.TOOL_PORTS[0]
            end = time.monotonic() + 30
            while f":{port[1]:04X} " not in pathlib.Path("/proc/net/udp").read_text() and time.monotonic() < end:
                time.sleep(0.02)
            for _ in range(count):
                link.sendto(wire.to_datagram(FRAME), port)
            link.sendto(b"junk", port)
        time.sleep(0.3)
        running.send_signal(signal.SIGTERM)
        self.assertEqual(running.wait(30), 0)

    def test_each_start_has_its_log(self) -> None:
        begin = time.time()
        self.record(2)
        self.record(1)
        self.assertEqual(self.names(), ["000001-0001.log", "000002-0001.log"])
        lines = (self.folder / "000001-0001.log").read_text().splitlines()
        self.assertEqual([line.split()[1:] for line in lines], [["udp", "1E015501#0B000000000000C1"]] * 2)
        self.assertTrue(all(begin <= float(line[1:].split(")")[0]) <= time.time() for line in lines))
        self.assertEqual(len(logs.read(str(self.folder)).frames), 1)  # of the last start

    def test_parts_have_a_size_and_the_oldest_go(self) -> None:
        self.record(9, "--part", "0.00009", "--keep", "3")  # a line has 51 bytes, and a part 94
        self.assertEqual(self.names(), [f"000001-000{part}.log" for part in (1, 2, 3, 4, 5)[-3:]])
        self.assertEqual(len(logs.read(str(self.folder)).frames), 5)

    def test_words(self) -> None:
        self.assertEqual(run_tool("record", "5000").status, 2)
        self.assertEqual(run_tool("record", "5000", self.folder, "--keep", "0").status, 2)
        self.assertEqual(run_tool("record", "nocan0", self.folder).status, 3)
        self.assertEqual(run_tool("record", self.base, "/proc/none").status, 6)


class Read(Case):
    def test_why_reads_the_parts_of_the_last_start(self) -> None:
        """The start before had no member 3; in this one all is well, and its first part alone would not tell so."""
        before, act = Act(), Act()
        before.cluster([1, 2, 3], 0, 9, away=[2, 3])
        act.cluster([1, 2, 3], 0, 9)
        act.device(ONE, 5, 1, 125)
        act.node(125, 5.5, 9, 0)
        lines = act.log()
        write_lines(self.folder / "000007-0001.log", before.log())
        write_lines(self.folder / "000008-0001.log", lines[:40])
        write_lines(self.folder / "000008-0002.log", lines[40:])
        said = run_tool("why", self.folder, "--members", "1,2,3")
        self.assertEqual(said.status, 0)
        self.assertIn(f"{len(lines)} frames in 9 s", said.written)

    def test_a_folder_without_a_log(self) -> None:
        said = run_tool("why", self.folder)
        self.assertEqual(said.status, 3)
        self.assertNotIn("Traceback", said.errors)


class Filters(unittest.TestCase):
    def test_what_is_left_out_and_what_is_not(self) -> None:
        """By the standard: a message has its type in bits 8 to 23, a service its destination in bits 8 to 14."""
        for identifier, wanted in (
            (0x1E015532, True),  # NodeStatus of node 50
            (0x1E000100, True),  # an anonymous request for a node ID
            (0x1E1E8281, True),  # a call of member 1 for member 2: AppendEntries
            (0x1E0181B2, True),  # a request of node 50 to member 1: GetNodeInfo
            (0x1E01C0B2, False),  # one to node 64
            (0x0803F732, False),  # another message of node 50
            (0x0803F701, True),  # the same of member 1: a node that has its ID
        ):
            taken = any((identifier ^ bits) & mask == 0 for bits, mask in buses.filters([1, 2]))
            with self.subTest(f"{identifier:08x}"):
                self.assertIs(taken, wanted)

    def test_an_interface_gives_what_the_members_take(self) -> None:
        link = mock.Mock()
        with mock.patch.object(buses, "open_bus", lambda _: mock.Mock(link=link)):
            buses.Stamped("can0", [1, 2])
            self.assertIn(socket.CAN_RAW_FILTER, [call.args[1] for call in link.setsockopt.call_args_list])
            link.setsockopt.reset_mock()
            buses.Stamped("can0")
            self.assertNotIn(socket.CAN_RAW_FILTER, [call.args[1] for call in link.setsockopt.call_args_list])


if __name__ == "__main__":
    unittest.main()
