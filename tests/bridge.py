"""The tests of tools/can_bridge. They are started by tests/bridge."""
from __future__ import annotations

import errno
import importlib.machinery
import importlib.util
import io
import os
import pty
import select
import shutil
import socket
import statistics
import struct
import subprocess
import sys
import tempfile
import time
import tty
import unittest
from collections import deque
from contextlib import redirect_stderr
from typing import Any, Callable
from unittest import mock

import members
import packets
import support

from caldrouz import machine, notify
from caldrouz.words import Ended

os.environ[machine.ANY_DISK] = "1"  # (the folders of these tests are in memory maybe)
BRIDGE = str(support.ROOT / "tools" / "can_bridge")
MEMBERS = [1, 2]
NODE_STATUS_OF_7 = 0x10015507
NODE_STATUS_OF_1 = 0x10015501
OTHER = 0x10B0AA32  # a message that no allocator takes
DATA = bytes.fromhex("0b000000000000c0")
ERROR, RESTARTED = 0x20000000, 0x100
PATIENCE = 60.0  # seconds: some elections on a slow machine


def load() -> Any:
    loader = importlib.machinery.SourceFileLoader("can_bridge", BRIDGE)
    spec = importlib.util.spec_from_loader("can_bridge", loader)
    assert spec is not None
    module = importlib.util.module_from_spec(spec)
    sys.modules["can_bridge"] = module
    loader.exec_module(module)
    return module


bridge = load()
LONGEST_WAIT = bridge.LONGEST_WAIT


def datagram(identifier: int, data: bytes = DATA) -> bytes:
    return identifier.to_bytes(4, "big") + bytes([len(data)]) + data


def can_frame(identifier: int, data: bytes = DATA) -> bytes:
    return struct.pack("=IB3x8s", identifier | 0x80000000, len(data), data)


class RawCan:
    """Stands in for a raw CAN socket: what it was sent, and what it has."""

    def __init__(self) -> None:
        self.options: dict[tuple[int, int], Any] = {}
        self.sent: list[bytes] = []
        self.has: deque[Any] = deque()  # an error, or bytes, flags, how long they waited, and drops
        self.full = False

    def setsockopt(self, level: int, option: int, value: Any) -> None:
        self.options[level, option] = value

    def bind(self, address: tuple[str]) -> None:
        self.address = address

    def setblocking(self, blocks: bool) -> None:
        assert not blocks

    def fileno(self) -> int:
        return 0

    def send(self, frame: bytes) -> None:
        if self.full:
            raise OSError(errno.ENOBUFS, "No buffer space available")
        self.sent.append(frame)

    def recvmsg(self, length: int, room: int) -> tuple[bytes, list[Any], int, Any]:
        if not self.has:
            raise BlockingIOError
        item = self.has.popleft()
        if isinstance(item, OSError):
            raise item
        data, flags, waited, drops = item
        moment = time.time() - waited
        stamp = struct.pack("@ll", int(moment), int(moment % 1 * 1e9))
        return data, [(socket.SOL_SOCKET, 35, stamp), (socket.SOL_SOCKET, 40, struct.pack("=I", drops))], flags, None

    def gives(self, frame: bytes, flags: int = 0, waited: float = 0.0, drops: int = 0) -> None:
        self.has.append((frame, flags, waited, drops))

    def echoes(self) -> None:
        self.gives(self.sent[-1], socket.MSG_CONFIRM)


class Waiting(unittest.TestCase):
    def old_after(self, seconds: float) -> None:
        """For how long a frame may wait from here on."""
        patch = mock.patch.object(bridge, "LONGEST_WAIT", seconds)
        patch.start()
        self.addCleanup(patch.stop)


class Case(Waiting):
    """A bridge over a stand-in for a CAN socket, with members at the first base whose ports are free. A frame is old
    after a minute: so none is dropped because the machine that runs the test stands still for a while."""

    def setUp(self) -> None:
        self.old_after(60.0)
        self.raw = RawCan()
        self.errors = io.StringIO()
        self.open(bridge.SocketCan(self.raw, "can0", MEMBERS))
        self.addCleanup(self.close)

    def open(self, bus: Any) -> None:
        journal = bridge.Journal(bus.counts)
        for base in range(33000, 34000, 130):
            try:
                self.ears = {node: self.ear(base + node) for node in (*MEMBERS, 3)}
                self.bridge = bridge.Bridge(bus, bridge.Ports(base, MEMBERS, journal), journal, notify.Service())
                self.base = base
                return
            except (OSError, Ended):
                self.close()
        self.fail("no ports are free")

    def ear(self, port: int) -> socket.socket:
        link = socket.socket(socket.AF_INET, socket.SOCK_DGRAM)
        link.bind(("127.0.0.1", port))
        link.settimeout(2)
        return link

    def close(self) -> None:
        for link in self.ears.values():
            link.close()
        if hasattr(self, "bridge"):
            self.bridge.members.close()

    def says(self, node: int, data: bytes) -> None:
        self.ears[node].sendto(data, ("127.0.0.1", self.base + 119))

    def turn(self) -> None:
        with redirect_stderr(self.errors):
            self.bridge.take_from_members()
            self.bridge.hand_on_from_bus()
            self.bridge.give_to_bus()

    def told(self, node: int) -> list[bytes]:
        """What the bridge handed to a member."""
        found = []
        while select.select([self.ears[node]], [], [], 0)[0]:
            found.append(self.ears[node].recv(64))
        return found

    def counts(self, *names: str) -> list[int]:
        return [self.bridge.counts[name] for name in names]


class Counts(Case):
    def test_they_are_written_now_and_then(self) -> None:
        with tempfile.TemporaryDirectory() as folder:
            path = os.path.join(folder, "bridge.prom")
            journal = bridge.Journal(self.bridge.counts, "can0", path)
            self.bridge.counts["own"] = 7
            journal.write_counts()
            with open(path, encoding="utf-8") as file:
                text = file.read()
            self.assertIn('caldrouz_bridge_frames_total{bus="can0",count="own"} 7\n', text)
            self.assertIn("# TYPE caldrouz_bridge_frames_total counter\n", text)
            os.remove(path)
            journal.write_counts()
            self.assertFalse(os.path.exists(path))

    def test_a_file_that_cannot_be_written_ends_nothing(self) -> None:
        journal = bridge.Journal(self.bridge.counts, "can0", "/none/bridge.prom")
        with redirect_stderr(self.errors):
            journal.write_counts()
        self.assertIn("/none/bridge.prom: No such file or directory", self.errors.getvalue())


class FromMembers(Case):
    def test_a_frame_of_a_member_goes_to_the_bus(self) -> None:
        self.says(1, datagram(NODE_STATUS_OF_1))
        self.turn()
        self.assertEqual(self.raw.sent, [can_frame(NODE_STATUS_OF_1)])
        self.assertEqual(self.counts("to_bus", "stranger", "junk"), [1, 0, 0])

    def test_nothing_of_another_port_goes_to_the_bus(self) -> None:
        for identifier in (NODE_STATUS_OF_1, OTHER, 0x1E000103, 0x0804060A, 0x1E000500):
            self.says(3, datagram(identifier))
        with socket.socket(socket.AF_INET, socket.SOCK_DGRAM) as link:
            link.sendto(datagram(NODE_STATUS_OF_1), ("127.0.0.1", self.base + 119))
        self.turn()
        self.assertEqual(self.raw.sent, [])
        self.assertEqual(self.counts("stranger"), [6])
        self.assertIn(f"a datagram of port {self.base + 3} with the frame 10015501 was dropped", self.errors.getvalue())
        self.assertEqual(self.errors.getvalue().count("\n"), 1)

    def test_a_member_speaks_for_itself_alone(self) -> None:
        for identifier in (NODE_STATUS_OF_1 + 1, NODE_STATUS_OF_7, OTHER, 0x1E000500):
            self.says(1, datagram(identifier))
        self.turn()
        self.assertEqual(self.raw.sent, [])
        self.assertEqual(self.counts("stranger"), [4])

    def test_a_flood_of_one_side_leaves_the_other_its_turn(self) -> None:
        for _ in range(100):
            self.says(3, datagram(NODE_STATUS_OF_1))
        self.raw.gives(can_frame(NODE_STATUS_OF_7))
        self.turn()
        self.assertEqual(self.counts("stranger", "to_members"), [64, 1])

    def test_what_is_no_frame_is_junk(self) -> None:
        whole = datagram(NODE_STATUS_OF_1)
        for data in (b"", whole[:5], whole[:-1], whole + b"x", b"\xff" + whole[1:]):
            self.says(1, data)
        self.turn()
        self.assertEqual((self.raw.sent, self.counts("junk")), ([], [5]))


class OneAtATime(Case):
    def test_the_next_frame_waits_for_the_echo(self) -> None:
        for number in range(3):
            self.says(1, datagram(NODE_STATUS_OF_1, bytes([number, 0xC0])))
        self.turn()
        self.turn()
        self.assertEqual(len(self.raw.sent), 1)
        self.raw.echoes()
        self.turn()
        self.assertEqual(len(self.raw.sent), 2)
        self.assertEqual(self.told(1) + self.told(2), [])
        self.assertEqual(self.counts("own"), [0])

    def test_a_frame_that_nobody_acknowledges_ends_the_bridge(self) -> None:
        for number in range(2):
            self.says(1, datagram(NODE_STATUS_OF_1, bytes([number, 0xC0])))
        self.turn()
        self.assertEqual(self.errors.getvalue(), "")
        self.old_after(0.0)
        with self.assertRaisesRegex(Ended, "is the cable of can0 loose") as raised:
            self.turn()
        self.assertEqual(raised.exception.status, 17)
        self.assertEqual(len(self.raw.sent), 1, "nothing is written behind it")

    def test_an_echo_that_waits_in_the_socket_is_in_time(self) -> None:
        """This process did not run for a while: the frame was out long before."""
        self.says(1, datagram(NODE_STATUS_OF_1))
        self.turn()
        self.old_after(0.0)
        self.raw.echoes()
        with redirect_stderr(self.errors):
            self.bridge.give_to_bus()
        self.assertEqual(self.errors.getvalue(), "")

    def frees(self, what: Callable[[], None]) -> None:
        for _ in range(2):
            self.says(1, datagram(NODE_STATUS_OF_1))
        self.turn()
        what()
        self.turn()
        self.assertEqual(len(self.raw.sent), 2)

    def test_an_interface_that_was_down_has_nothing(self) -> None:
        self.frees(lambda: self.raw.has.append(OSError(errno.ENETDOWN, "Network is down")))

    def test_a_controller_that_was_started_again_has_nothing(self) -> None:
        self.frees(lambda: self.raw.gives(struct.pack("=IB3x8s", ERROR | RESTARTED, 8, bytes(8))))

    def test_an_echo_may_be_among_what_the_kernel_dropped(self) -> None:
        self.frees(lambda: self.raw.gives(can_frame(NODE_STATUS_OF_7), drops=1))

    def test_a_full_queue_is_counted_once_for_each_frame(self) -> None:
        self.raw.full = True
        self.says(1, datagram(NODE_STATUS_OF_1))
        for _ in range(5):
            self.turn()
        self.raw.full = False
        self.turn()
        self.assertEqual(self.counts("refused", "to_bus"), [1, 1])

    def test_the_options_of_the_socket(self) -> None:
        options = self.raw.options
        self.assertEqual(options[socket.SOL_CAN_RAW, socket.CAN_RAW_RECV_OWN_MSGS], 1)
        pairs = struct.iter_unpack("=II", options[socket.SOL_CAN_RAW, socket.CAN_RAW_FILTER])
        passes = [(bits, mask) for bits, mask in pairs]

        def passed(identifier: int) -> bool:
            return any((0x80000000 | identifier) & mask == bits & mask for bits, mask in passes)

        self.assertTrue(passed(NODE_STATUS_OF_7) and passed(NODE_STATUS_OF_1) and passed(0x1E1E8187))
        self.assertFalse(passed(OTHER) or passed(0x1E1E8487))

    def test_another_error_ends_the_bridge(self) -> None:
        self.raw.has.append(OSError(errno.ENODEV, "No such device"))
        with self.assertRaisesRegex(Ended, "can0: No such device"):
            self.turn()


class FromTheBus(Case):
    def test_a_frame_goes_to_each_member(self) -> None:
        self.raw.gives(can_frame(NODE_STATUS_OF_7))
        self.turn()
        self.assertEqual(self.told(1) + self.told(2), [datagram(NODE_STATUS_OF_7)] * 2)
        self.assertEqual(self.told(3), [])

    def test_what_waited_for_longer_than_half_a_second_is_dropped(self) -> None:
        self.old_after(LONGEST_WAIT)
        self.raw.gives(can_frame(NODE_STATUS_OF_7), waited=0.6)
        self.raw.gives(can_frame(NODE_STATUS_OF_7), waited=-3600)  # the clock was set
        self.turn()
        self.assertEqual((self.told(1), self.counts("too_old")), ([], [2]))

    def test_another_node_with_the_id_of_a_member_is_told_at_once(self) -> None:
        for _ in range(3):
            self.raw.gives(can_frame(NODE_STATUS_OF_1))
        self.turn()
        self.assertEqual((self.told(1) + self.told(2), self.counts("own")), ([], [3]))
        self.assertIn("with the node ID 1, of a member of this machine", self.errors.getvalue())
        self.assertEqual(self.errors.getvalue().count("\n"), 1)
        self.bridge.journal.told["own"] = time.monotonic() - 1  # a minute later
        self.raw.gives(can_frame(NODE_STATUS_OF_1))
        self.turn()
        self.assertEqual(self.errors.getvalue().count("\n"), 2)

    def test_other_and_empty_frames_are_not_handed_on(self) -> None:
        self.raw.gives(can_frame(OTHER))
        self.raw.gives(can_frame(NODE_STATUS_OF_7, b""))
        self.turn()
        self.assertEqual((self.told(1), self.counts("to_members", "empty")), ([], [0, 1]))

    def test_a_member_that_cannot_be_reached_does_not_end_the_bridge(self) -> None:
        self.bridge.members.close()

        class Filtered:
            def recvmsg(self, *_: Any) -> None:
                raise BlockingIOError

            def sendto(self, *_: Any) -> None:
                raise OSError(errno.EPERM, "Operation not permitted")

            def close(self) -> None:
                pass

        self.bridge.members.link = Filtered()
        self.raw.gives(can_frame(NODE_STATUS_OF_7))
        self.turn()
        self.assertIn(f"port {self.base + 1}: Operation not permitted", self.errors.getvalue())


class SerialLine(Case):
    """The adapter is a pair of pseudo terminals: `adapter` is its end of the line."""

    def setUp(self) -> None:
        self.old_after(60.0)
        self.adapter, line = pty.openpty()
        tty.setraw(self.adapter)
        self.errors = io.StringIO()
        self.bus = bridge.Serial(os.ttyname(line), 500_000, settle=0)
        os.close(line)
        self.open(self.bus)
        self.addCleanup(self.close)

    def writes(self, text: bytes) -> None:
        os.write(self.adapter, text)

    def after(self, seconds: float = 30.0, many: int = 1) -> list[bytes]:
        """What the member 1 is told within so many seconds, or until so many frames have come."""
        end, found = time.monotonic() + seconds, list[bytes]()
        while len(found) < many and time.monotonic() < end:
            select.select([self.bus], [], [], 0.05)
            self.turn()
            if select.select([self.ears[1]], [], [], 0.01)[0]:
                found += self.told(1)
        return found

    def line_of(self, identifier: int) -> bytes:
        return b"T%08X8%s\r" % (identifier, DATA.hex().encode())

    def test_the_adapter_is_opened_with_its_rate(self) -> None:
        self.assertEqual(os.read(self.adapter, 64), b"C\rS6\rO\r")
        bridge.Serial(os.ttyname(self.bus.line), None, settle=0)
        self.assertEqual(os.read(self.adapter, 64), b"C\rO\r")
        with self.assertRaisesRegex(Ended, "no bit rate 300000"):
            bridge.Serial("/dev/null", 300_000, settle=0)

    def test_a_wanted_line_behind_three_others_in_one_write(self) -> None:
        self.writes(self.line_of(OTHER) * 2 + b"Z\r" + self.line_of(NODE_STATUS_OF_7))
        self.assertEqual(self.after(), [datagram(NODE_STATUS_OF_7)])

    def test_nothing_waits_in_a_burst_of_unwanted_lines(self) -> None:
        """Bursts of three unwanted lines each 10 ms, and a wanted one in each tenth. A single wait may be long, where
        the machine stands still."""
        waits = []
        for burst in range(100):
            self.writes(self.line_of(OTHER) * 3 + (self.line_of(NODE_STATUS_OF_7) if burst % 10 == 0 else b""))
            if burst % 10 == 0:
                begun = time.monotonic()
                self.assertEqual(self.after(), [datagram(NODE_STATUS_OF_7)])
                waits.append(time.monotonic() - begun)
            time.sleep(0.01)
        self.assertLess(statistics.median(waits), 0.25)

    def test_torn_lines_are_counted_and_end_nothing(self) -> None:
        self.writes(b"T1E01Z501..\r\xff\xfe\rT1E\r" + b"x" * 300 + b"\r" + self.line_of(NODE_STATUS_OF_7))
        self.assertEqual(self.after(), [datagram(NODE_STATUS_OF_7)])
        self.assertEqual(self.counts("torn"), [4])

    def test_other_frames_and_answers_are_passed_over(self) -> None:
        self.writes(b"\r\aZ\rz\rV1013\rN1234\rF00\rs00\rt1230\rr1238\rR000001238\r\n" + self.line_of(NODE_STATUS_OF_7))
        self.writes(self.line_of(NODE_STATUS_OF_7)[:-1] + b"12AB\r")  # with a stamp
        self.assertEqual(self.after(many=2), [datagram(NODE_STATUS_OF_7)] * 2)
        self.assertEqual(self.counts("torn"), [0])

    def test_what_came_while_the_process_did_not_run_is_old(self) -> None:
        """The thread was last seen to look at an empty line longer ago than a frame may wait."""
        self.bus.put(time.monotonic() - 90, [self.line_of(NODE_STATUS_OF_7)[:-1]])
        self.assertEqual((self.after(0.1), self.counts("too_old")), ([], [1]))

    def test_a_frame_is_written(self) -> None:
        os.read(self.adapter, 64)
        self.says(1, datagram(NODE_STATUS_OF_1, b"\x0b\xc0"))
        self.turn()
        self.assertEqual(os.read(self.adapter, 64), b"T1001550120BC0\r")

    def test_the_rest_of_a_line_goes_out_first_unless_it_is_old(self) -> None:
        os.read(self.adapter, 64)
        for since, rest in ((time.monotonic(), b"BC0\r"), (time.monotonic() - 90, b"\r")):
            self.bus.unsent, self.bus.since = b"BC0\r", since
            self.says(1, datagram(NODE_STATUS_OF_1, b"\x0b\xc0"))
            self.turn()
            wanted, written = rest + b"T1001550120BC0\r", b""
            while len(written) < len(wanted):
                written += os.read(self.adapter, 64)
            self.assertEqual(written, wanted)

    def test_an_adapter_that_goes_away_ends_the_bridge(self) -> None:
        os.close(self.adapter)
        with self.assertRaises(Ended):
            self.after()


class Started:
    """Stands in for a process of a member: the test has its end of the pair."""

    status = 0

    def __init__(self, command: list[str], stdin: int, env: dict[str, str]) -> None:
        self.command, self.environment = command, env
        self.link = socket.socket(fileno=os.dup(stdin))

    def wait(self, _timeout: float) -> int:
        return self.status

    def terminate(self) -> None:
        self.link.close()


class OwnProcesses(Waiting):
    """Members that the bridge runs, behind an adapter that the test plays: `adapter` is its end of the line."""

    def setUp(self) -> None:
        self.adapter, line = pty.openpty()
        tty.setraw(self.adapter)
        self.errors = io.StringIO()
        self.old_after(60.0)
        self.bus = bridge.Serial(os.ttyname(line), 500_000, True, settle=0)
        os.close(line)
        self.written(b"C\rS6\rO\r")
        with mock.patch.object(bridge.subprocess, "Popen", Started), redirect_stderr(self.errors):
            self.journal = bridge.Journal(self.bus.counts)
            self.members = bridge.Processes(["./allocator"], "1,2,3", MEMBERS, self.journal, self.bus)
        self.bridge = bridge.Bridge(self.bus, self.members, self.journal, notify.Service())
        self.links = {node: self.members.processes[node].link for node in MEMBERS}
        self.addCleanup(self.members.close)

    def written(self, wanted: bytes) -> None:
        """What the adapter was given, to the last byte."""
        found = b""
        while len(found) < len(wanted) and select.select([self.adapter], [], [], 5)[0]:
            found += os.read(self.adapter, 64)
        self.assertEqual(found + self.rest(), wanted)

    def rest(self) -> bytes:
        return os.read(self.adapter, 64) if select.select([self.adapter], [], [], 0.02)[0] else b""

    def turn(self) -> None:
        with redirect_stderr(self.errors):
            self.bridge.take_from_members()
            self.bridge.hand_on_from_bus()
            self.bridge.give_to_bus()

    def answers(self, text: bytes) -> None:
        os.write(self.adapter, text)
        select.select([self.bus], [], [], 5)
        self.turn()

    def heard(self, node: int) -> list[bytes]:
        found = []
        while select.select([self.links[node]], [], [], 0.02)[0]:
            found.append(self.links[node].recv(64))
        return found

    def test_it_goes_on_for_as_long_as_each_member_is_heard(self) -> None:
        for senders, goes_on in (([MEMBERS[0]], False), (MEMBERS, True), (MEMBERS[1:], False)):
            for node in senders:
                self.links[node].send(packets.packet_of(0x1E015500 | node, b"12345678"))
            self.turn()
            self.assertIs(self.members.go_on(), goes_on)

    def test_how_members_are_started(self) -> None:
        words = ["./allocator", "can", "1,2,3"]
        self.assertEqual([it.command for it in self.members.processes.values()], [[*words, "1"], [*words, "2"]])
        self.assertEqual({link.type & 0xF for link in self.links.values()}, {socket.SOCK_SEQPACKET})
        self.assertFalse(any(os.get_blocking(link.fileno()) for link in self.links.values()))
        with mock.patch.object(bridge.subprocess, "Popen", Started):
            alone = bridge.Processes(["./allocator"], "7,", [7], self.journal, self.bus)
        self.assertEqual(alone.processes[7].command, ["./allocator", "can", "7,", "7"])
        alone.close()

    def test_on_a_slow_bus_a_frame_may_be_on_its_way_for_longer(self) -> None:
        for rate, told, longer in ((125_000, "125000", 0.5), (250_000, "250000", 0.0), (None, None, 0.0)):
            self.bus.rate = rate
            with mock.patch.object(bridge.subprocess, "Popen", Started):
                members = bridge.Processes(["./allocator"], "7,", [7], self.journal, self.bus)
            environment = members.processes[7].environment
            self.assertEqual((environment.get("CALDROUZ_BIT_RATE"), self.bus.longer), (told, longer))
            members.close()

    def test_a_member_is_echoed_once_the_adapter_answered_and_the_other_hears_it(self) -> None:
        for answer in (b"Z\r", b"z\r", b"\r"):
            frame = can_frame(NODE_STATUS_OF_1, b"\x0b\xc0")
            self.links[1].send(frame)
            self.turn()
            self.written(b"T1001550120BC0\r")
            self.turn()
            self.assertEqual((self.heard(1), self.heard(2)), ([], []))
            self.answers(answer)
            self.assertEqual((self.heard(1), self.heard(2)), ([frame], [frame]), answer)

    def test_the_next_frame_waits_for_the_answer(self) -> None:
        self.links[1].send(can_frame(NODE_STATUS_OF_1))
        self.links[2].send(can_frame(NODE_STATUS_OF_1 + 1))
        self.turn()
        first = b"T1001550180B000000000000C0\r"
        self.written(first)
        self.turn()
        self.assertEqual(self.rest(), b"")
        self.answers(b"Z\r")
        self.written(first.replace(b"5501", b"5502"))

    def test_the_echo_stands_before_what_came_after_the_answer(self) -> None:
        self.links[1].send(can_frame(NODE_STATUS_OF_1))
        self.turn()
        line = b"T%08X8%s\r"
        before, after = NODE_STATUS_OF_7, NODE_STATUS_OF_7 + 1
        self.answers(line % (before, DATA.hex().encode()) + b"Z\r" + line % (after, DATA.hex().encode()))
        self.assertEqual(self.heard(1), list(map(can_frame, (before, NODE_STATUS_OF_1, after))))

    def test_an_adapter_without_room_is_asked_again(self) -> None:
        self.links[1].send(can_frame(NODE_STATUS_OF_1, b"\x0b\xc0"))
        self.turn()
        self.written(b"T1001550120BC0\r")
        self.answers(b"\a\r")
        self.written(b"T1001550120BC0\r")
        self.assertEqual(self.heard(1), [])
        self.answers(b"Z\r")
        self.assertEqual((len(self.heard(1)), self.bridge.counts["refused"]), (1, 1))

    def test_an_answer_to_nothing_is_none(self) -> None:
        self.answers(b"Z\r\a\r")
        self.links[1].send(can_frame(NODE_STATUS_OF_1))
        self.turn()
        self.turn()
        self.assertEqual(self.heard(1), [])

    def test_an_answer_that_is_withheld_ends_all(self) -> None:
        self.links[1].send(can_frame(NODE_STATUS_OF_1, b"\x0b\xc0"))
        self.turn()
        self.written(b"T1001550120BC0\r")
        self.links[2].send(can_frame(NODE_STATUS_OF_1 + 1))
        self.old_after(0.0)
        with self.assertRaisesRegex(Ended, "answered no frame") as raised:
            self.turn()
        self.assertEqual(raised.exception.status, 17)
        self.bus.close()
        self.written(b"\rC\r")
        self.assertEqual(self.heard(1), [])

    def test_a_member_that_saw_it_first_is_not_blamed(self) -> None:
        self.links[1].send(can_frame(NODE_STATUS_OF_1))
        self.turn()
        self.members.processes[1].status = 17
        self.links[1].close()
        with self.assertRaisesRegex(Ended, "answered no frame") as raised:
            self.turn()
        self.assertEqual(raised.exception.status, 17)

    def test_a_mute_adapter_counts_as_one_that_took_it(self) -> None:
        self.bus.answers = False
        self.links[1].send(can_frame(NODE_STATUS_OF_1))
        self.turn()
        self.assertEqual((len(self.heard(1)), len(self.heard(2))), (1, 1))

    def test_over_an_interface_of_the_system_the_kernel_answers(self) -> None:
        raw = RawCan()
        self.bridge.bus = bridge.SocketCan(raw, "can0", MEMBERS)
        self.links[1].send(can_frame(NODE_STATUS_OF_1))
        self.turn()
        self.assertEqual((raw.sent, self.heard(1)), ([can_frame(NODE_STATUS_OF_1)], []))
        raw.echoes()
        raw.gives(can_frame(NODE_STATUS_OF_7))
        self.turn()
        self.assertEqual(self.heard(2), [can_frame(NODE_STATUS_OF_1), can_frame(NODE_STATUS_OF_7)])

    def test_a_frame_of_the_bus_goes_to_each(self) -> None:
        self.answers(b"T%08X8%s\r" % (NODE_STATUS_OF_7, DATA.hex().encode()))
        self.assertEqual((self.heard(1), self.heard(2)), ([can_frame(NODE_STATUS_OF_7)],) * 2)
        self.answers(b"T%08X8%s\r" % (OTHER, DATA.hex().encode()))
        self.assertEqual(self.heard(1), [])

    def test_members_hear_another_node_with_their_id_and_not_an_echo_of_the_adapter(self) -> None:
        line = b"T%08X8%s\r" % (NODE_STATUS_OF_1, DATA.hex().encode())
        self.answers(line)
        self.assertEqual((len(self.heard(1)), len(self.heard(2))), (1, 1))
        self.assertIn("with the node ID 1, of a member of this machine", self.errors.getvalue())
        self.links[1].send(can_frame(NODE_STATUS_OF_1))
        self.turn()
        self.answers(b"Z\r" + line)
        self.assertEqual((len(self.heard(1)), self.bridge.counts["own"]), (1, 2))

    def test_a_member_speaks_for_itself_alone(self) -> None:
        self.links[1].send(can_frame(NODE_STATUS_OF_1 + 1))
        self.links[1].send(b"no frame")
        self.turn()
        self.assertEqual((self.rest(), self.bridge.counts["stranger"], self.bridge.counts["junk"]), (b"", 1, 1))

    def test_a_frame_that_waited_is_dropped(self) -> None:
        """The pair was last seen empty longer ago than a frame may wait."""
        self.old_after(LONGEST_WAIT)
        self.members.was_empty[1] = time.monotonic() - 0.6
        self.links[1].send(can_frame(NODE_STATUS_OF_1))
        self.turn()
        self.assertEqual((self.rest(), self.bridge.counts["too_old"]), (b"", 1))

    def test_a_member_that_ends_ends_the_bridge_with_its_status(self) -> None:
        for status, wanted in ((11, 11), (-9, 1)):
            self.members.processes[2].status = status
            self.links[2].close()
            with self.assertRaisesRegex(Ended, f"member 2 ended with {status}, so all end") as raised:
                self.turn()
            self.assertEqual(raised.exception.status, wanted)

    def test_a_member_that_reads_nothing_is_named(self) -> None:
        with redirect_stderr(self.errors):
            for _ in range(2000):
                self.members.hand_on(bridge.Frame(NODE_STATUS_OF_7, DATA))
        self.assertEqual(self.errors.getvalue().count("reads nothing"), 1)


class OnAnAdapter(unittest.TestCase):
    """The bridge and the program as processes, behind an adapter that the test plays on a bus of its own."""

    def setUp(self) -> None:
        members.need_program(self)
        self.room = tempfile.TemporaryDirectory()
        self.addCleanup(self.room.cleanup)
        self.adapter, line = pty.openpty()
        tty.setraw(self.adapter)
        self.line = os.ttyname(line)
        self.addCleanup(os.close, line)
        self.frames: list[bytes] = []  # of members, as the adapter was told them
        self.begun, self.acknowledges = b"", True

    def start(self, *words: str) -> subprocess.Popen[bytes]:
        quiet = subprocess.DEVNULL
        running = subprocess.Popen(words, cwd=self.room.name, stdin=quiet, stdout=quiet, stderr=quiet)
        self.addCleanup(running.wait)
        self.addCleanup(running.terminate)
        return running

    def served(self, device: packets.Device) -> int | None:
        """The node ID that the device is given."""
        end = time.monotonic() + PATIENCE
        while device.node is None and time.monotonic() < end:
            self.turn(device)
        return device.node

    def turn(self, device: packets.Device) -> bytes:
        """Plays the adapter for a while: each frame of a member is answered, and heard by the device. What is no frame
        is the answer."""
        other = b""
        if select.select([self.adapter], [], [], 0.01)[0]:
            *lines, self.begun = (self.begun + os.read(self.adapter, 4096)).split(b"\r")
            for line in lines:
                match = bridge.SLCAN_FRAME.fullmatch(line)
                if match is None:
                    other += line + b"\r"
                    continue
                self.frames.append(line)
                if self.acknowledges:
                    os.write(self.adapter, b"Z\r")
                    device.hears(packets.packet_of(int(match[1], 16), bytes.fromhex(match[3].decode())))
        request = device.request()
        if request is not None:
            identifier, data = packets.frame_of(request)
            os.write(self.adapter, b"T%08X%d%s\r" % (identifier, len(data), data.hex().encode()))
        return other


class Vehicle(OnAnAdapter):
    def setUp(self) -> None:
        super().setUp()
        subprocess.run([members.program(), "new", "1", "2"], cwd=self.room.name, check=True, stdout=subprocess.DEVNULL)
        self.running = self.start(BRIDGE, self.line, "--members", "1,2", "1", "2", "--", members.program())

    def children(self) -> list[int]:
        listed = subprocess.run(["ps", "-o", "pid=", "--ppid", str(self.running.pid)], capture_output=True, text=True)
        return [int(word) for word in listed.stdout.split()]

    def test_two_members_serve_a_device_have_no_port_and_end_where_no_frame_is_answered(self) -> None:
        device = packets.Device(1)
        self.assertEqual(self.served(device), 125)
        for process in (self.running.pid, *self.children()):
            self.assertEqual(members.ports_of(process), [])
        self.acknowledges, other, before = False, b"", len(self.frames)
        end = time.monotonic() + PATIENCE
        while self.running.poll() is None and time.monotonic() < end:
            other += self.turn(device)
        self.assertEqual((self.running.returncode, len(self.frames) - before), (17, 1))
        self.assertEqual((other + self.turn(device))[-2:], b"C\r")
        self.assertEqual(self.children(), [])


class OverUdp(OnAnAdapter):
    """The bridge over UDP, and a lone member of the program behind it."""

    def setUp(self) -> None:
        super().setUp()
        subprocess.run([members.program(), "new", "1"], cwd=self.room.name, check=True, stdout=subprocess.DEVNULL)
        base = str(members.free_base())
        self.start(members.program(), "node", "1,", base, "1000000000", "1")
        self.start(BRIDGE, base, self.line, "1", "--interface", "slcan")

    def test_a_device_on_the_adapter_is_served(self) -> None:
        self.assertEqual(self.served(packets.Device(1)), 125)


class AdapterOfPythonCan(Case):
    def setUp(self) -> None:
        if importlib.util.find_spec("can") is None:
            self.skipTest("without the module can")
        self.can = importlib.import_module("can")
        self.old_after(60.0)
        self.far = self.can.Bus("bridge", interface="virtual")
        self.errors = io.StringIO()
        self.bus = bridge.PythonCan("virtual", "bridge", MEMBERS, None)
        self.open(self.bus)
        self.addCleanup(self.close)

    def test_frames_go_both_ways(self) -> None:
        for identifier in (OTHER, OTHER, OTHER, NODE_STATUS_OF_7):
            self.far.send(self.can.Message(arbitration_id=identifier, data=DATA, is_extended_id=True))
        select.select([self.bus], [], [], 2)
        self.turn()
        self.assertEqual(self.told(1), [datagram(NODE_STATUS_OF_7)])
        self.says(1, datagram(NODE_STATUS_OF_1))
        self.turn()
        self.assertEqual(self.far.recv(2).arbitration_id, NODE_STATUS_OF_1)


class Words(unittest.TestCase):
    def ended(self, *words: str) -> tuple[int, str]:
        done = subprocess.run([sys.executable, BRIDGE, *words], capture_output=True, text=True, timeout=30)
        return done.returncode, done.stderr

    def test_wrong_words_are_2(self) -> None:
        for words in (["1023", "can0", "1"], ["5000", "can0", "119"], ["5000", "can0", "0"], ["5000", "can0"],
                      ["5000", "can0", *map(str, range(1, 7))], ["5000", "can0", "1", "--bitrate", "fast"],
                      ["5000", "can0", "1", "--", "true"], ["can0", "--members", "1,2,3", "1"],
                      ["can0", "--members", "1,2,3", "4", "--", "true"], ["can0", "--members", "1,2,3", "--", "true"],
                      ["can0", "--members", "3", "3", "--", "true"]):
            self.assertEqual(self.ended(*words)[0], 2, words)

    def test_an_adapter_that_is_not_there_is_1(self) -> None:
        status, said = self.ended("33000", "/dev/no-adapter", "1", "--interface", "slcan")
        self.assertEqual((status, said), (1, "can_bridge: /dev/no-adapter: No such file or directory\n"))
        status, said = self.ended("/dev/no-adapter", "--members", "1,2,3", "1", "--", "true")
        self.assertEqual((status, said), (1, "can_bridge: /dev/no-adapter: No such file or directory\n"))
        status, said = self.ended("33000", "no-interface", "1")
        self.assertEqual((status, said.split(":")[:2]), (1, ["can_bridge", " no-interface"]))

    def test_members_have_no_store_in_memory(self) -> None:
        words = [sys.executable, BRIDGE, "/dev/no-adapter", "--members", "1,2,3", "1", "--", "true"]
        environment = {name: value for name, value in os.environ.items() if name != machine.ANY_DISK}
        done = subprocess.run(words, capture_output=True, text=True, timeout=30, cwd="/dev/shm", env=environment)
        self.assertEqual(done.returncode, 12)
        self.assertIn("can_bridge: /dev/shm: tmpfs is in memory", done.stderr)

    def test_over_udp_it_says_that_this_is_for_trials(self) -> None:
        adapter, line = pty.openpty()
        words = [sys.executable, BRIDGE, "33000", os.ttyname(line), "1"]
        running = subprocess.Popen(words, stderr=subprocess.PIPE, text=True)
        assert running.stderr is not None
        self.assertIn("over UDP, for trials on one machine", running.stderr.readline())
        running.terminate()
        self.assertEqual(running.wait(30), 0)
        running.stderr.close()
        os.close(adapter)
        os.close(line)

    def test_it_runs_alone(self) -> None:
        """In one file, for a machine that has Python and nothing else."""
        with tempfile.TemporaryDirectory() as folder:
            alone = os.path.join(folder, "can_bridge")
            subprocess.run([support.ROOT / "tools/make_standalone", "can_bridge", alone], check=True)
            words = [sys.executable, "-I", alone, "33000", "no-interface", "1"]
            done = subprocess.run(words, capture_output=True, text=True, timeout=30)
        self.assertEqual((done.returncode, done.stderr.split(":")[:2]), (1, ["can_bridge", " no-interface"]))

    @unittest.skipUnless(shutil.which("mypy"), "without mypy")
    def test_types(self) -> None:
        words = ["mypy", "--cache-dir", os.devnull, BRIDGE]
        done = subprocess.run(words, cwd=support.ROOT, capture_output=True, text=True)
        self.assertEqual(done.returncode, 0, done.stdout)


def main() -> int:
    words = support.parser("tests/bridge", "The tests of the bridge.")
    return support.run("tests/bridge", ["__main__"], words.parse_args().patterns)


if __name__ == "__main__":
    sys.exit(main())
