"""Tests of the buses that the tools listen to. A pair of sockets stands for a CAN interface."""
from __future__ import annotations

import errno
import socket
import struct
import unittest
from typing import Any
from unittest import mock

import members
from support import run_tool

from caldrouz import buses, wire

FRAME = wire.Frame(0x1E015501, bytes.fromhex("0100000000000000"))


class Words(unittest.TestCase):
    def test_base_ports(self) -> None:
        self.assertTrue(all(map(buses.is_base, ("1024", "5000", "65410"))))
        self.assertFalse(any(map(buses.is_base, ("1023", "65411", "can0", "", "-5000", "5000 ", "٥٠٠٠", "9" * 5000))))

    def test_names_that_no_interface_has(self) -> None:
        for name in ("", "an_interface_that_is_too_long", "can\0"):
            with self.assertRaises(OSError):
                buses.open_bus(name)


class Echo(unittest.TestCase):
    """What the kernel tells of interfaces. The flags are those of `ip link show`, as <NOARP,UP,LOWER_UP,ECHO>."""

    def answer(self, flags: int, kind: bytes, rate: int = 0) -> bytes:
        def attribute(number: int, value: bytes) -> bytes:
            return struct.pack("=HH", 4 + len(value), number) + value + bytes(-len(value) % 4)

        timing = attribute(5, bytes(8)) + attribute(1, struct.pack("=8I", rate, 875, 125, 6, 7, 2, 1, 32))
        info = attribute(1, kind + b"\0") + (attribute(2, timing) if rate else b"")
        body = attribute(3, b"can0\0") + attribute(18 | 1 << 15, info)
        return struct.pack("=IHHIIBxHiII", 32 + len(body), 16, 0, 1, 0, 0, 280, 3, flags, 0) + body

    def test_a_driver_with_an_echo_of_its_own_and_a_bus_without_a_wire(self) -> None:
        self.assertIs(buses.has_true_echo(self.answer(0x400C1, b"can")), True)
        self.assertIs(buses.has_true_echo(self.answer(0xC1, b"can")), False)
        self.assertIs(buses.has_true_echo(self.answer(0xC1, b"slcan")), False)
        self.assertIs(buses.has_true_echo(self.answer(0xC1, b"vcan")), True)

    def test_what_is_no_description_tells_nothing(self) -> None:
        self.assertIsNone(buses.has_true_echo(b""))
        self.assertIsNone(buses.has_true_echo(struct.pack("=IHHII", 36, 2, 0, 1, 0) + bytes(20)))

    def test_the_bit_rate(self) -> None:
        for kind, rate, told in ((b"can", 125_000, 125_000), (b"can", 0, None), (b"vxcan", 125_000, None)):
            self.assertEqual(buses.told_bit_rate(self.answer(0x400C1, kind, rate)), told)
        self.assertIs(buses.has_true_echo(self.answer(0x400C1, b"can", 125_000)), True)
        self.assertIsNone(buses.told_bit_rate(b""))

    def test_an_echo_is_late_later_on_a_slow_bus(self) -> None:
        for rate, seconds in ((None, 0.5), (1_000_000, 0.5), (125_001, 0.5), (125_000, 1.0), (10_000, 1.0)):
            self.assertEqual(buses.late_echo(rate), seconds)

    def test_a_member_is_told_the_bit_rate_that_is_known_alone(self) -> None:
        environment = {buses.BIT_RATE: "50000", "HOME": "/"}
        buses.tell_bit_rate(environment, 125_000)
        self.assertEqual(environment, {"CALDROUZ_BIT_RATE": "125000", "HOME": "/"})
        buses.tell_bit_rate(environment, None)
        self.assertEqual(environment, {"HOME": "/"})

    def test_interfaces_of_this_machine(self) -> None:
        self.assertIsNone(buses.bit_rate("lo"))
        self.assertIs(buses.tells_what_is_out("lo"), False)
        self.assertIsNone(buses.tells_what_is_out("no-interface"))


class Down(unittest.TestCase):
    def test_an_interface_that_goes_down_gives_nothing(self) -> None:
        link = mock.Mock()
        link.recv.side_effect = OSError(errno.ENETDOWN, "down")
        link.recvmsg.side_effect = link.recv.side_effect
        for kind in (buses.CanBus, buses.Stamped):
            bus: Any = object.__new__(kind)
            bus.link, bus.is_udp = link, False
            self.assertIsNone(bus.receive(0.1))
        link.recv.side_effect = OSError(errno.ENODEV, "gone")
        with self.assertRaises(OSError):
            buses._receive(link, 0.1)


class OverUdp(unittest.TestCase):
    def test_frames_go_to_the_ports_of_all_nodes(self) -> None:
        base = members.free_base()
        here, there = buses.UdpBus(base), buses.UdpBus(base)
        with here.link, there.link:
            self.assertEqual(here.link.getsockname()[1], base + buses.TOOL_PORTS[0])
            self.assertEqual(there.link.getsockname()[1], base + buses.TOOL_PORTS[1])
            here.send(FRAME)
            self.assertEqual(there.receive(5), FRAME)
            self.assertIsNone(here.receive(0.01))
            here.link.sendto(b"junk", there.link.getsockname())
            self.assertIsNone(there.receive(5))

    def test_who_sends_takes_the_place_of_a_bridge_that_is_not_there(self) -> None:
        base = members.free_base()
        first, second = buses.UdpBus(base, True), buses.UdpBus(base, True)
        with first.link, second.link:
            self.assertEqual(first.link.getsockname()[1], base + buses.BRIDGE_PORT)
            self.assertEqual(second.link.getsockname()[1], base + buses.TOOL_PORTS[0])

    def test_no_port_is_free(self) -> None:
        base = members.free_base()
        taken = [buses.UdpBus(base) for _ in buses.TOOL_PORTS]
        try:
            said = run_tool("why", base, "--seconds", "1")
            self.assertEqual(said.status, 3)
            self.assertIn(f"port {base + buses.TOOL_PORTS[0]}: Address already in use", said.errors)
        finally:
            for bus in taken:
                bus.link.close()


class OnCan(unittest.TestCase):
    def setUp(self) -> None:
        ours, self.other = socket.socketpair(socket.AF_UNIX, socket.SOCK_DGRAM)
        self.bus = buses.CanBus.__new__(buses.CanBus)
        self.bus.link = ours

    def tearDown(self) -> None:
        self.bus.link.close()
        self.other.close()

    def test_frames_both_ways(self) -> None:
        self.bus.send(FRAME)
        packet = self.other.recv(64)
        self.assertEqual(packet, wire.to_can(FRAME))
        self.other.send(packet)
        self.assertEqual(self.bus.receive(5), FRAME)

    def test_other_packets_are_none(self) -> None:
        self.other.send(b"short")
        self.assertIsNone(self.bus.receive(5))
        self.other.send(bytes(72))
        self.assertIsNone(self.bus.receive(5))

    def test_a_full_queue_is_tried_again(self) -> None:
        link = mock.Mock(wraps=self.bus.link)
        link.send.side_effect = [OSError(errno.ENOBUFS, "full"), OSError(errno.ENOBUFS, "full"), 16]
        self.bus.link, kept = link, self.bus.link
        self.bus.send(FRAME)
        self.assertEqual(link.send.call_count, 3)
        link.send.side_effect = OSError(errno.ENETDOWN, "down")
        with self.assertRaises(OSError):
            self.bus.send(FRAME)
        self.bus.link = kept


if __name__ == "__main__":
    unittest.main()
