"""Tests of tools/assign: tables, what it does not ask for, and 120 pairs that go through export and new stores."""
from __future__ import annotations

import pathlib
import random
import tempfile
import unittest
from typing import List

import images
import members
from support import EXAMPLES, Ended, run_tool, write_lines

from caldrouz import asking, buses, stores, table, wire

ONE = "00112233445566778899aabbccddee01"
TWO = "00112233445566778899aabbccddee02"


class Tables(unittest.TestCase):
    def ends(self, status: int, text: str, lines: List[str]) -> None:
        with tempfile.TemporaryDirectory() as folder:
            said = run_tool("assign", "64000", write_lines(pathlib.Path(folder) / "table", lines))
        self.assertEqual(said.status, status, said.errors)
        self.assertIn(text, said.errors)

    def test_tables_that_it_does_not_read(self) -> None:
        self.ends(2, "line 2: a node ID of 1 to 125", ["# a table", f"126 {ONE}"])
        self.ends(2, "line 1: a node ID of 1 to 125", [f"5 {ONE}ff"])
        self.ends(2, "line 1: a node ID of 1 to 125", ["5 x\x00y"])
        self.ends(2, "line 3: node ID 5 stands in line 1 too", [f"5 {ONE}", "", f"5 {TWO}"])
        self.ends(2, f"line 2: {ONE} stands in line 1 too", [f"5 {ONE}", f"6 {ONE.upper()}"])
        self.ends(2, "line 1: no device has a unique ID of zeros", [f"5 {'0' * 32}"])

    def test_words(self) -> None:
        self.assertEqual(run_tool("assign", "--help").status, 0)
        self.assertEqual(run_tool("assign", "export", "--help").status, 0)
        self.assertEqual(run_tool("assign", "64000").status, 2)
        self.assertEqual(run_tool("assign", "64000", "no such table").status, 3)
        self.assertEqual(run_tool("assign", "export", "126").status, 2)
        self.assertEqual(run_tool("assign", "export", "--stores", "no such folder").status, 3)
        stores_there = "--stores", EXAMPLES / "a_real_bus"
        self.assertEqual(run_tool("assign", "export", *stores_there, "--program", "no program").status, 4)

    def test_a_bus_where_nobody_is(self) -> None:
        with tempfile.TemporaryDirectory() as folder:
            said = run_tool("assign", "64000", write_lines(pathlib.Path(folder) / "table", [f"5 {ONE}"]))
        self.assertEqual(said.status, 3)
        self.assertIn("nothing is heard on this bus", said.errors)


class Requests(unittest.TestCase):
    def test_the_three_requests_of_a_device(self) -> None:
        unique_id = bytes.fromhex(ONE)
        frames = [asking.request(unique_id, stage, 42, 7) for stage in range(3)]
        data = ["55001122334455c7", "5466778899aabbc7", "54ccddee01c7"]
        self.assertEqual([frame.data.hex() for frame in frames], data)
        self.assertTrue(all(frame.heading.kind == "alloc" and frame.heading.source == 0 for frame in frames))

    def test_an_answer_with_a_wrong_crc_is_none(self) -> None:
        payload = bytes([42 << 1]) + bytes.fromhex(ONE)
        frames = [wire.Frame(wire.identifier_of(1, "alloc"), data) for data in wire.cut(table.ALLOCATION, 3, payload)]
        answers = wire.Transfers()
        self.assertEqual([answers.take(None, frame) for frame in frames], [None, None, payload])
        spoilt = frames[1]._replace(data=b"\0" + frames[1].data[1:])
        self.assertEqual([answers.take(None, frame) for frame in (frames[0], spoilt, frames[2])], [None, None, None])


class WithMembers(unittest.TestCase):
    def setUp(self) -> None:
        members.need_program(self)

    def export(self, folder: pathlib.Path) -> Ended:
        return run_tool("assign", "export", "--stores", folder, "--program", members.program())

    def test_a_table_goes_to_new_stores_and_comes_back(self) -> None:
        """120 pairs: from stores by export, by assign to a new cluster, and by export from its stores."""
        draw = random.Random(7)
        pairs = [(node, draw.randbytes(16).hex()) for node in draw.sample(range(4, 126), 120)]
        entries = [wire.Entry(1, unique_id, node, 0) for node, unique_id in pairs]
        with tempfile.TemporaryDirectory() as name, members.three() as cluster:
            old = pathlib.Path(name)
            for member in (1, 2, 3):
                image = images.image(stores.Store(2, 1, 0, 120, entries))
                (old / f"alloc-{member}.store").write_bytes(image)
            before = self.export(old)
            self.assertEqual(before.status, 0, before.errors)
            self.assertEqual(len(before.written.splitlines()), 121)
            given = run_tool("assign", cluster.base, write_lines(old / "table", before.written.splitlines()))
            self.assertEqual(given.status, 0, given.written + given.errors)
            self.assertIn("assign: 120 of 120 pairs", given.errors)
            cluster.end()
            after = self.export(cluster.folder)
            self.assertEqual(after.written, before.written)

    def test_what_it_does_not_ask_for_and_what_it_is_told(self) -> None:
        with tempfile.TemporaryDirectory() as name, members.three() as cluster:
            folder = pathlib.Path(name)
            first = run_tool("assign", cluster.base, write_lines(folder / "table", [f"42 {ONE}"]))
            self.assertEqual((first.written, first.status), (f"42 {ONE} ok\n", 0), first.errors)
            lines = [f"43 {ONE}", f"42 {TWO}", f"2 {'aa' * 16}", f"60 {'bb' * 16}"]
            second = run_tool("assign", cluster.base, write_lines(folder / "table", lines))
            self.assertEqual(second.status, 1)
            self.assertEqual(
                second.written.splitlines(),
                [
                    f"43 {ONE} told 42: it stood in the log with it, or 43 is taken there",
                    f"42 {TWO} not asked for: it was told to {ONE}",
                    f"2 {'aa' * 16} not asked for: it is the node ID of a member",
                    f"60 {'bb' * 16} ok",
                ],
            )

    def test_a_device_is_served(self) -> None:
        with members.three() as cluster:
            bus = buses.UdpBus(cluster.base)
            with bus.link:
                self.assertEqual(asking.ask(bus, bytes.fromhex(ONE), 42, 30), 42)


if __name__ == "__main__":
    unittest.main()
