"""Tests of tools/monitor: what it tells of frames that come by UDP, as members send them."""
from __future__ import annotations

import contextlib
import json
import os
import pathlib
import pty
import signal
import socket
import subprocess
import tempfile
import time
import unittest
from typing import Any, Dict, List

import members
from support import ROOT, run_tool

from caldrouz import buses, table, wire

MONITOR = ROOT / "tools" / "monitor"
ONE = "00112233445566778899aabbccddee01"


class Told(unittest.TestCase):
    def setUp(self) -> None:
        self.base = members.free_base()
        self.link = socket.socket(socket.AF_INET, socket.SOCK_DGRAM)
        self.counts: Dict[int, int] = {}

    def tearDown(self) -> None:
        self.link.close()

    def send(self, source: int, name: str, payload: bytes, to: int = 0) -> None:
        identifier = wire.identifier_of(source, name, to)
        transfer_id = self.counts[identifier] = (self.counts.get(identifier, -1) + 1) % 32
        port = "127.0.0.1", self.base + buses.TOOL_PORTS[0]
        for data in wire.cut(table.TRANSFERS[name].data_type, transfer_id, payload):
            self.link.sendto(wire.to_datagram(wire.Frame(identifier, data)), port)

    def a_scene(self) -> None:
        for node, uptime in ((1, 5), (2, 5), (50, 9)):
            self.send(node, "stat", uptime.to_bytes(4, "little") + bytes(3))
        self.send(1, "voteq", bytes([3, 0, 0, 0]) + bytes(5), 2)
        entry = bytes([3, 0, 0, 0]) + bytes.fromhex(ONE) + bytes([42])
        self.send(1, "appq", bytes([3, 0, 0, 0]) + bytes(6) + entry, 2)
        self.send(50, "info", bytes(24) + b"\xaa" * 16 + bytes(1) + b"org.example\x1b[2J", 1)
        self.send(1, "alloc", bytes([42 << 1]) + bytes.fromhex(ONE))
        self.send(50, "stat", bytes(7))

    def watch(self, *words: str) -> str:
        """What it wrote of the scene, until it was ended; it ended with 0."""
        running = subprocess.Popen([str(MONITOR), str(self.base), *words], stdout=subprocess.PIPE, text=True)
        self.wait_for_it()
        self.a_scene()
        time.sleep(0.5)
        running.send_signal(signal.SIGTERM)
        written = running.communicate(timeout=30)[0]
        self.assertEqual(running.returncode, 0)
        return written

    def wait_for_it(self) -> None:
        """Until it listens, as the system tells."""
        end, port = time.monotonic() + 30, f":{self.base + buses.TOOL_PORTS[0]:04X} "
        while time.monotonic() < end:
            if port in pathlib.Path("/proc/net/udp").read_text(encoding="ascii"):
                return
            time.sleep(0.05)
        self.fail("it does not listen")

    def test_a_line_for_each_event(self) -> None:
        lines = [line[9:] for line in self.watch().splitlines()]
        self.assertEqual(
            lines,
            [
                "node 1 is there, up 5 s",
                "node 2 is there, up 5 s",
                "node 50 is there, up 9 s",
                "member 1 stands for election in term 3",
                f"place 1 of the log: node ID 42 for {ONE}, of term 3",
                "member 1 leads in term 3",
                f"node 50 has the unique ID {'aa' * 16}, and the name org.example?[2J",
                f"node ID 42 is told to {ONE} by member 1",
                "node 50 started again, up 0 s",
            ],
        )

    def test_lines_of_json(self) -> None:
        events: List[Dict[str, Any]] = [json.loads(line) for line in self.watch("--json").splitlines()]
        self.assertTrue(all(event["time"] > 1.7e9 for event in events))
        told = next(event for event in events if event["event"] == "told")
        self.assertEqual((told["node"], told["unique_id"], told["by"]), (42, ONE, 1))
        recorded = next(event for event in events if event["event"] == "recorded")
        self.assertEqual(recorded["entry"], {"term": 3, "unique_id": ONE, "node": 42})

    def test_entries_of_the_journal(self) -> None:
        with tempfile.TemporaryDirectory() as folder, socket.socket(socket.AF_UNIX, socket.SOCK_DGRAM) as journal:
            path = os.path.join(folder, "socket")
            journal.bind(path)
            journal.setblocking(False)
            self.assertEqual(self.watch("--journal", path), "")
            entries = []
            with contextlib.suppress(BlockingIOError):
                while True:
                    entries.append(dict(line.split("=", 1) for line in journal.recv(4096).decode().splitlines()))
        events = [entry["CALDROUZ_EVENT"] for entry in entries]
        self.assertEqual(events[:6], ["appeared"] * 3 + ["stood", "recorded", "led"])
        self.assertTrue(all(entry["CALDROUZ_BUS"] == str(self.base) for entry in entries))
        led = entries[events.index("led")]
        self.assertEqual(led["MESSAGE"], "member 1 leads in term 3")
        self.assertEqual((led["CALDROUZ_NODE"], led["CALDROUZ_TERM"], led["PRIORITY"]), ("1", "3", "6"))
        recorded = entries[events.index("recorded")]
        self.assertEqual(recorded["CALDROUZ_UNIQUE_ID"], ONE)
        self.assertEqual((recorded["CALDROUZ_PLACE"], recorded["CALDROUZ_NODE"]), ("1", "42"))

    def test_there_is_no_journal(self) -> None:
        said = run_tool("monitor", str(self.base), "--journal", "/none/socket", "--seconds", "0.2")
        self.assertEqual((said.status, "Traceback" in said.errors), (3, False))

    def test_a_number_says_how_many_members_there_are(self) -> None:
        """As CLUSTER=3 of the settings: 1 and 2 are members, which find each other."""
        written = self.watch("--members", "3")
        self.assertIn("member 1 leads in term 3", written)
        self.assertNotIn("is no member", written)

    def test_the_unit_leaves_the_members_to_the_settings(self) -> None:
        unit = (ROOT / "packaging/caldrouz-monitor@.service").read_text(encoding="utf-8")
        self.assertNotIn("--members", unit)

    def test_a_screen_on_a_terminal(self) -> None:
        ours, its = pty.openpty()
        environment = {**os.environ, "COLUMNS": "120", "LINES": "40"}
        running = subprocess.Popen([str(MONITOR), str(self.base)], stdout=its, env=environment)
        self.wait_for_it()
        self.a_scene()
        time.sleep(2.5)
        running.send_signal(signal.SIGINT)
        self.assertEqual(running.wait(timeout=30), 0)
        os.close(its)
        screen = os.read(ours, 1 << 16).decode()
        os.close(ours)
        self.assertIn("member 1 leads in term 3", screen)
        self.assertIn("org.example?[2J", screen)
        self.assertIn("node ID 42 is told", screen)

    def test_words(self) -> None:
        self.assertEqual(run_tool("monitor", "--help").status, 0)
        self.assertEqual(run_tool("monitor").status, 2)
        self.assertEqual(run_tool("monitor", "5000", "--lines", "--json").status, 2)
        self.assertEqual(run_tool("monitor", "nocan0", "--seconds", "1").status, 3)
        self.assertEqual(run_tool("monitor", str(self.base), "--seconds", "0.2").status, 0)

    def test_a_pipe_that_is_closed(self) -> None:
        tool = f"{MONITOR} {self.base} --seconds 2 | true; exit ${{PIPESTATUS[0]}}"
        running = subprocess.Popen(["bash", "-c", tool], stderr=subprocess.PIPE, text=True)
        self.wait_for_it()
        self.a_scene()
        self.assertNotIn("Traceback", running.communicate(timeout=30)[1])
        self.assertEqual(running.returncode, 6)


if __name__ == "__main__":
    unittest.main()
