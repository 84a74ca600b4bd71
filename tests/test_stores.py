"""Tests of tools/node_status, and of the file that stands alone."""
from __future__ import annotations

import os
import pathlib
import socket
import subprocess
import sys
import tempfile
import threading
import time
import unittest
from typing import Dict, List

from support import EXAMPLES, ROOT, Ended, run_tool

from caldrouz import table, wire

WHOLE = EXAMPLES / "a_real_bus"


def status_of(*words: object) -> Ended:
    return run_tool("node_status", 5000, *words, "--seconds", "0")


class StoreCase(unittest.TestCase):
    def setUp(self) -> None:
        folder = tempfile.TemporaryDirectory()
        self.addCleanup(folder.cleanup)
        self.folder = pathlib.Path(folder.name)

    def keep(self, node: int, key: int = 0, value: bytes = b"", whole: bool = True) -> None:
        """A store of the example, in which a key has this value."""
        self.keep_all(node, {key: value} if whole else {})

    def keep_all(self, node: int, values: Dict[int, bytes]) -> None:
        """A store of the example, in which these keys have these values."""
        image = bytearray((WHOLE / "alloc-1.store").read_bytes())
        for key, value in values.items():
            at = table.KEY_SIZE * key
            at += 1 + table.COPY_SIZE * (image[at] % 2)
            image[at : at + 1 + len(value)] = bytes([len(value)]) + value
        (self.folder / f"alloc-{node}.store").write_bytes(image)


class Stores(StoreCase):
    def test_whole_stores_are_told(self) -> None:
        told = status_of(WHOLE)
        self.assertEqual((told.status, told.errors), (0, ""))
        lines = told.written.splitlines()
        self.assertEqual([line.partition(": ")[2] for line in lines[::4]], [
            "term 2, voted for nobody, 3 entries, 3 committed, version 2",
            "term 2, voted for 2, 3 entries, 3 committed, version 2",
            "term 2, voted for 2, 3 entries, 3 committed, version 2",
        ])
        self.assertEqual(lines[1], "    1 125 for 00112233445566778899aabbccddee01, term 1, by the exchange")

    def test_a_store_that_breaks_a_rule_is_told_with_its_key_and_the_next_ones_are_read(self) -> None:
        """Each of these is what the program ends with 11 for, at this key (docs/FORMATS.md, "Store image")."""
        pair = bytes(4) + bytes(16) + bytes([7, 0])
        for key, value in [
            (table.KEY_VERSION, b"\3"),
            (table.KEY_TERM, b"\1\0"),
            (table.KEY_VOTE, b"\x7e"),
            (table.KEY_LAST, b"\xc8"),
            (table.KEY_COMMIT, b"\4"),
            (table.KEY_FIRST_ENTRY, b"\0\0\0\0"),
            (table.KEY_FIRST_ENTRY, pair[:21]),
            (table.KEY_FIRST_ENTRY, pair[:21] + b"\5"),
            (table.KEY_FIRST_ENTRY + 1, pair),
        ]:
            with self.subTest(key=key, value=value.hex()):
                self.keep(1, key, value)
                self.keep(2, whole=False)
                told = status_of(self.folder)
                self.assertEqual((told.status, told.errors), (1, ""))
                first, second, *_ = told.written.splitlines()
                self.assertTrue(first.endswith(f"alloc-1.store: damaged at key {key}"), first)
                self.assertIn("alloc-2.store: term 2, ", second)

    def test_a_log_of_blanks_is_warned_of(self) -> None:
        """A leader that begins while an entry is not committed adds a blank; 127 entries are a full log."""
        blank = bytes([2, 0, 0, 0]) + bytes(17) + bytes([4])
        many = "blanks: leaders are lost before they commit; mend the bus before the log is full"
        stuck = "full, and not committed: no later leader can commit anything, and no new device is served any more"
        for last, commit, warning in [(15, 0, ""), (16, 0, f"16 {many}"), (127, 126, stuck), (127, 127, f"127 {many}")]:
            with self.subTest(last=last, commit=commit):
                values = {table.KEY_LAST: bytes([last]), table.KEY_COMMIT: bytes([commit])}
                self.keep_all(1, {**values, **{table.KEY_FIRST_ENTRY + place: blank for place in range(last)}})
                told = status_of(self.folder)
                self.assertEqual((told.status, told.errors), (0, ""))
                self.assertEqual([line for line in told.written.splitlines()[1:] if "blank, " not in line],
                                 [f"  {warning}"] if warning else [])

    def test_a_damaged_store_is_named_as_audit_names_it(self) -> None:
        folder = EXAMPLES / "audit/a_damaged_store"
        node, key = (folder / "report").read_text().split()[1:]
        self.assertIn(f"alloc-{node}.store: damaged at key {key}\n", status_of(folder / "files").written)

    def test_a_file_of_another_length_is_told(self) -> None:
        for length in (0, table.IMAGE - 1, table.IMAGE + 1, 10 * table.IMAGE):
            (self.folder / "alloc-1.store").write_bytes(bytes(length))
            told = status_of(self.folder)
            self.assertEqual((told.status, told.errors), (1, ""))
            self.assertIn("bytes, and not 8844", told.written)

    def test_a_folder_without_stores_that_is_named_is_told(self) -> None:
        for folder in (self.folder, self.folder / "no such folder"):
            told = status_of(folder, WHOLE)
            self.assertEqual((told.status, told.errors), (1, ""))
            self.assertIn(f"{folder}: ", told.written.splitlines()[0])
            self.assertIn("alloc-3.store: term 2", told.written)

    @unittest.skipIf(os.geteuid() == 0 and not pathlib.Path("/usr/bin/setpriv").exists(), "root reads each folder")
    def test_a_folder_that_may_not_be_read_is_told(self) -> None:
        """As another user, where the tests are run as root: the folder is root's alone."""
        self.keep(1, whole=False)
        self.folder.chmod(0o700 if os.geteuid() == 0 else 0)
        as_nobody = ["setpriv", "--reuid=65534", "--regid=65534", "--clear-groups"] if os.geteuid() == 0 else []
        with tempfile.TemporaryDirectory() as free:
            os.chmod(free, 0o755)
            alone = pathlib.Path(free) / "node_status"
            subprocess.run([ROOT / "tools/make_standalone", "node_status", alone], check=True)
            told = Ended([*as_nobody, alone, 5000, self.folder, "--seconds", "0"])
        self.folder.chmod(0o700)
        self.assertEqual((told.status, told.errors), (1, ""))
        self.assertEqual(told.written, f"{self.folder}: Permission denied\n")


class Words(unittest.TestCase):
    def test_a_base_that_has_no_ports_is_refused(self) -> None:
        for words in (["99999"], ["0"], ["65411"], ["x"], ["5000", "--seconds", "nan"], ["5000", "--seconds", "-1"]):
            ended = run_tool("node_status", *words)
            self.assertEqual((ended.status, ended.written), (2, ""), ended.errors)
            self.assertNotIn("Traceback", ended.errors)

    def test_an_interface_that_is_not_there_is_told(self) -> None:
        ended = run_tool("node_status", 5000, "--can", "none0", "--seconds", "1")
        self.assertEqual((ended.status, ended.written), (1, ""), ended.errors)
        self.assertNotIn("Traceback", ended.errors)


class Listening(unittest.TestCase):
    def told_of(self, datagrams: List[bytes]) -> List[str]:
        """What is told where these datagrams come."""
        base = 20000 + os.getpid() % 40000
        port, ends = ("127.0.0.1", base + 118), threading.Event()

        def send() -> None:
            with socket.socket(socket.AF_INET, socket.SOCK_DGRAM) as link:
                while not ends.is_set():
                    for datagram in datagrams:
                        link.sendto(datagram, port)
                    time.sleep(0.05)

        sender = threading.Thread(target=send)
        sender.start()
        ended = run_tool("node_status", base, "--seconds", "1", cwd=EXAMPLES)
        ends.set()
        sender.join()
        self.assertEqual((ended.status, ended.errors), (0, ""))
        lines: List[str] = ended.written.splitlines()
        return lines

    def test_members_and_the_leader_are_told(self) -> None:
        frames = [wire.Frame(0x1E015501, b"\7\0\0\0\0\0\0\xc0"), wire.Frame(0x1E018602, b"\3\2\xc0")]
        frames.append(wire.Frame(0x1E1E8281, b"\0\0\5\0\0\0\0\x80"))
        told = self.told_of([wire.to_datagram(frame) for frame in frames])
        self.assertRegex(told[0], r"^[1-9]\d* frames in 1 s$")
        self.assertEqual(told[1], "node 1: up 7 s, leads in term 5")
        self.assertRegex(told[2], r"^node 2: no status heard, [1-9]\d* Discoveries of a cluster of 3$")

    def test_what_is_no_frame_is_passed_over(self) -> None:
        short = b"\x1e\1\x55\1"
        told = self.told_of([b"", b"\0", short, bytes(5), b"\xff" * 13, short + b"\7\1\0\0\0\xc0", bytes(60)])
        self.assertEqual(told[0], "0 frames in 1 s")
        self.assertNotIn("node ", told[1])
        self.assertIn("that of another machine is heard by --can alone", told[1])


class Alone(StoreCase):
    def test_a_tool_in_one_file_says_the_same_without_the_repository(self) -> None:
        status = ["5000", str(WHOLE), "--seconds", "0"]
        view = [str(WHOLE / "schedule"), str(WHOLE / "report")]
        for tool, words in [("node_status", status), ("view", view), ("follow", ["--help"])]:
            alone = self.folder / tool
            subprocess.run([ROOT / "tools/make_standalone", tool, alone], check=True)
            again = self.folder / "again"
            subprocess.run([ROOT / "tools/make_standalone", tool, again], check=True)
            self.assertEqual(alone.read_bytes(), again.read_bytes())
            there, here = Ended([sys.executable, "-I", alone, *words]), run_tool(tool, *words)
            self.assertEqual((there.status, there.written, there.errors), (here.status, here.written, here.errors))
