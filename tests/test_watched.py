"""Tests of tools/watched, and of what services tell systemd. A socket stands for systemd, and a script for a member."""
from __future__ import annotations

import os
import pathlib
import signal
import socket
import subprocess
import sys
import tempfile
import unittest
from typing import List, Optional, Tuple

import members
from support import ROOT, run_tool

from caldrouz import buses, notify, wire

# Sends the NodeStatus of a node ID from the port of one, 20 times a second; each line that it reads is what it does
# next.
MEMBER = """
import select, signal, socket, sys, time
base, node, port = map(int, sys.argv[1:4])
link = socket.socket(socket.AF_INET, socket.SOCK_DGRAM)
link.bind(("127.0.0.1", base + port))
while True:
    for to in (123, 124, 125):
        link.sendto(bytes([0x1E, 1, 0x55, node, 8]) + bytes(7) + b"\\xc0", ("127.0.0.1", base + to))
    if select.select([sys.stdin], [], [], 0.05)[0]:
        exec(sys.stdin.readline() or "sys.exit()")
"""
HANGS = b"time.sleep(60)\n"


class Case(unittest.TestCase):
    def setUp(self) -> None:
        folder = tempfile.TemporaryDirectory()
        self.addCleanup(folder.cleanup)
        self.path = os.path.join(folder.name, "notify")
        self.systemd = socket.socket(socket.AF_UNIX, socket.SOCK_DGRAM)
        self.addCleanup(self.systemd.close)
        self.systemd.bind(self.path)
        self.base = members.free_base()

    def told(self, seconds: float) -> Optional[bytes]:
        """What systemd is told next, within so many seconds."""
        self.systemd.settimeout(seconds)
        try:
            return self.systemd.recv(64)
        except socket.timeout:
            return None

    def start(self, *words: object) -> "subprocess.Popen[bytes]":
        running = subprocess.Popen(
            list(map(str, words)), stdin=subprocess.PIPE, env={**os.environ, "NOTIFY_SOCKET": self.path}
        )
        self.addCleanup(running.communicate)
        self.addCleanup(running.kill)
        return running

    def member(self, node: int = 1, port: int = 1) -> "subprocess.Popen[bytes]":
        """Member 1 is watched; what runs sends as this node from this port."""
        program = [sys.executable, "-c", MEMBER, self.base, node, port]
        return self.start(ROOT / "tools/watched", self.base, 1, "--", *program)

    def does(self, running: "subprocess.Popen[bytes]", line: bytes) -> None:
        assert running.stdin is not None
        running.stdin.write(line)
        running.stdin.flush()


class Watched(Case):
    def test_a_member_that_goes_on_and_then_hangs(self) -> None:
        running = self.member()
        self.assertEqual([self.told(20), self.told(3), self.told(3)], [b"READY=1", b"WATCHDOG=1", b"WATCHDOG=1"])
        self.does(running, HANGS)
        self.told(0.5)  # what was on its way
        self.assertIsNone(self.told(2.5))

    def test_frames_of_others_do_not_speak_for_it(self) -> None:
        for node, port in ((2, 2), (1, 2), (2, 1)):
            with self.subTest(node=node, port=port):
                running = self.member(node, port)
                self.assertIsNone(self.told(1.5))
                running.terminate()
                running.wait(20)

    def test_it_ends_as_the_program_does(self) -> None:
        ends: List[Tuple[bytes, int]] = [
            (b"sys.exit(17)\n", 17),
            (b"sys.exit(0)\n", 0),
            (b"signal.raise_signal(signal.SIGKILL)\n", -signal.SIGKILL),
        ]
        for line, status in ends:
            with self.subTest(status):
                running = self.member()
                self.told(20)
                self.does(running, line)
                self.assertEqual(running.wait(20), status)

    def test_signals_go_on_to_the_program(self) -> None:
        running = self.member()
        self.told(20)
        running.terminate()
        self.assertEqual(running.wait(20), -signal.SIGTERM)
        with self.assertRaises(OSError), socket.socket(socket.AF_INET, socket.SOCK_DGRAM) as link:
            link.bind(("127.0.0.1", self.base + 1))
            raise OSError  # the port is free

    def test_words(self) -> None:
        self.assertEqual(run_tool("watched", "5000", "1").status, 2)
        self.assertEqual(run_tool("watched", "5000", "1", "--").status, 2)
        self.assertEqual(run_tool("watched", "5000", "126", "--", "true").status, 2)
        self.assertEqual(run_tool("watched", "nocan0", "1", "--", "true").status, 12)
        self.assertEqual(run_tool("watched", self.base, "1", "--", "/no/program").status, 127)


class OnAnInterface(unittest.TestCase):
    def test_what_this_machine_sends_counts_alone(self) -> None:
        class Link:
            def __init__(self, source: int, flags: int) -> None:
                data = wire.to_can(wire.Frame(0x1E015500 | source, bytes(8)))
                self.packet: Tuple[bytes, List[object], int, Tuple[str]] = data, [], flags, ("can0",)

            def recvmsg(self, _: int) -> object:
                return self.packet

        sender = object.__new__(buses.Sender)
        sender.member, sender.port = 1, None
        for source, flags, counts in ((1, socket.MSG_DONTROUTE, True), (1, 0, False), (2, socket.MSG_DONTROUTE, False)):
            sender.link = Link(source, flags)  # type: ignore[assignment]
            self.assertIs(sender.heard(), counts)


class Bridge(Case):
    def test_over_udp_it_goes_on_by_itself(self) -> None:
        ours, its = os.openpty()
        self.addCleanup(os.close, ours)
        self.addCleanup(os.close, its)
        self.start(ROOT / "tools/can_bridge", self.base, os.ttyname(its), "1")
        self.assertEqual([self.told(20), self.told(3)], [b"READY=1", b"WATCHDOG=1"])


class Service(Case):
    def test_nobody_is_told_where_there_is_none(self) -> None:
        os.environ.pop("NOTIFY_SOCKET", None)
        notify.Service().goes_on()

    def test_what_it_starts_does_not_speak_for_it(self) -> None:
        os.environ["NOTIFY_SOCKET"] = self.path
        service = notify.Service()
        self.assertNotIn("NOTIFY_SOCKET", os.environ)
        service.goes_on()
        service.goes_on()
        self.assertEqual((self.told(1), self.told(0.1)), (b"READY=1", None))


class Units(unittest.TestCase):
    def test_members_and_bridges_are_watched(self) -> None:
        """A unit that says that it is watched starts what tells so, with a way to systemd."""
        for name in ("node", "can-node", "serial", "bridge"):
            with self.subTest(name):
                text = pathlib.Path(ROOT / f"packaging/caldrouz-{name}@.service").read_text(encoding="utf-8")
                values = dict(line.split("=", 1) for line in text.splitlines() if "=" in line)
                self.assertEqual(values["Type"], "notify")
                self.assertGreaterEqual(int(values["WatchdogSec"]), 5)
                self.assertEqual(values["WatchdogSignal"], "SIGKILL")
                self.assertRegex(values["ExecStart"], "/tools/(watched|can_bridge) ")
                self.assertIn("AF_UNIX", values["RestrictAddressFamilies"].split())


if __name__ == "__main__":
    unittest.main()
