"""Tests of tools/why. The logs of tests/logs/no_id were made by bench/no_id with real members, one for each cause."""
from __future__ import annotations

import pathlib
import tempfile
import unittest
from typing import List, Optional

import images
from support import EXAMPLES, TESTS, Ended, run_tool, write_lines

from caldrouz import causes, logs, scene, stores, table, wire

LOGS = TESTS / "logs" / "no_id"
ONE = "00112233445566778899aabbccddee01"
TWO = "00112233445566778899aabbccddee02"


def why(*words: object) -> Ended:
    return run_tool("why", *words)


def named(said: Ended) -> List[str]:
    """The names of the causes, but for warnings."""
    first = [line.replace("guess: ", "", 1).split(": ")[0] for line in said.written.splitlines()]
    return [name for name in first if name in NAMES]


NAMES = (
    "silence no-members missing-members another-size strange-member no-majority no-leader not-committed "
    "unidentified-node second-server log-full ids-full crossed-requests never-goes-on unheard-answer unanswered "
    "starts-again "
    "wrong-address one-id-twice one-unique-id bad-interface ended-member terms-used-up frames-twice "
    "two-clusters another-list ids-run-out newcomers-wait lossy-bus another-log wrong-request zero-unique-id "
    "other-protocol"
).split()
WARNINGS = "deaf-member two-unique-ids many-blanks log-nearly-full lost-store".split()


class RecordedCauses(unittest.TestCase):
    def test_each_cause_is_named_in_its_log(self) -> None:
        """A log has the name of its cause, with a dot and more where a cause has several."""
        paths = sorted(LOGS.glob("*.log"))
        self.assertGreater(len(paths), 20)
        for path in paths:
            cause, store = path.name.split(".")[0], path.with_suffix(".store")
            with self.subTest(path.name):
                heard = scene.Scene()
                for record in logs.read(str(path)).frames:
                    heard.take(record.stamp / 1000, record.frame)
                found = causes.find(heard, [(store.name, stores.read(str(store)))] if store.exists() else [])
                self.assertTrue(cause == "well" or cause in [it.name for it in found], found)
                self.assertEqual(any(it.stops for it in found), cause in NAMES, found)

    def test_it_says_what_is_so_and_what_to_do(self) -> None:
        said = why(LOGS / "missing-members.log")
        self.assertEqual((named(said), said.status), (["missing-members"], 1))
        self.assertIn("1 and 2 of 3 members tell that they search for the others", said.written)
        self.assertIn("and nothing was heard of 1 more", said.written)
        self.assertIn("Start the members that are missing", said.written)

    def test_each_cause_is_explained(self) -> None:
        names = run_tool("why", "--names")
        self.assertEqual(names.status, 0)
        self.assertEqual({line.split()[0] for line in names.written.splitlines()}, {*NAMES, *WARNINGS})

    def test_a_bus_that_is_well(self) -> None:
        said = why(EXAMPLES / "a_real_bus/log")
        self.assertEqual(said.status, 0)
        self.assertIn("Member 2 leads in term 2.", said.written)
        self.assertIn("Nothing stands in the way that can be seen.", said.written)

    def test_the_last_seconds_of_a_log(self) -> None:
        """When the leader was killed, 14 s into the log, nobody led."""
        lines = (EXAMPLES / "a_real_bus/log").read_text(encoding="ascii").splitlines()
        with tempfile.TemporaryDirectory() as folder:
            log = write_lines(pathlib.Path(folder) / "log", lines)
            self.assertIn("42 s of", why(log).written)
            self.assertIn("5 s of", why(log, "--seconds", "5").written)


class Words(unittest.TestCase):
    def ends(self, status: int, text: str, *words: object) -> None:
        said = why(*words)
        self.assertEqual(said.status, status, said.errors)
        self.assertIn(text, said.errors)
        self.assertNotIn("Traceback", said.errors)

    def test_words_that_it_does_not_read(self) -> None:
        log = EXAMPLES / "a_real_bus/log"
        self.ends(2, "BUS")
        self.ends(2, "a cluster has 1 to 5", log, "--members", "1,1")
        self.ends(2, "with commas", log, "--members", "one")
        self.ends(2, "a time is", log, "--seconds", "nan")
        self.ends(2, "cannot be asked", log, "--ask")
        self.ends(2, "3 members are named", log, "--members", "1,2,3", "--size", "5")
        self.assertEqual(why("--help").status, 0)

    def test_what_cannot_be_read(self) -> None:
        with tempfile.TemporaryDirectory() as name:
            folder = pathlib.Path(name)
            self.ends(3, "no store (alloc-<id>.store)", EXAMPLES / "a_real_bus/log", "--store", folder)
            self.ends(3, "No such file", EXAMPLES / "a_real_bus/log", "--store", folder / "alloc-1.store")
            (folder / "alloc-1.store").write_bytes(b"short")
            self.ends(3, "it has 5 bytes", EXAMPLES / "a_real_bus/log", "--store", folder)
            self.ends(3, "no line of it is one of `candump -L`", write_lines(folder / "text", ["no log"]))
            self.ends(3, "no log of tools/record", folder)
            self.ends(3, "nocan0: ", "nocan0")
            self.ends(3, "a CAN interface can have", "an_interface_that_is_too_long")

    def test_a_base_where_nothing_is(self) -> None:
        said = why("64000", "--seconds", "0.3")
        self.assertEqual((named(said), said.status), (["silence"], 1))


class Heard:
    """A scene to which transfers come, at moments in seconds."""

    def __init__(self, *members: int) -> None:
        self.scene, self.counts = scene.Scene(members), {}  # type: ignore[var-annotated]
        self.events: List[scene.Event] = []

    def take(
        self, moment: float, source: int, name: str, payload: bytes, to: int = 0, transfer_id: Optional[int] = None
    ) -> None:
        identifier = wire.identifier_of(source, name, to)
        if transfer_id is None:
            transfer_id = self.counts[identifier] = (self.counts.get(identifier, -1) + 1) % 32
        for data in wire.cut(table.TRANSFERS[name].data_type, transfer_id, payload):
            self.events += self.scene.take(moment, wire.Frame(identifier, data))

    def status(self, moment: float, node: int, uptime: int, transfer_id: Optional[int] = None) -> None:
        self.take(moment, node, "stat", uptime.to_bytes(4, "little") + bytes(3), 0, transfer_id)

    def tells(self, moment: float, node: int, unique_id: str, name: str = "") -> None:
        self.take(moment, node, "info", bytes(24) + bytes.fromhex(unique_id) + bytes(1) + name.encode(), 1)

    def names(self, *entries: wire.Entry) -> List[str]:
        store = stores.Store(2, 1, 0, len(entries), list(entries))
        return [cause.name for cause in causes.find(self.scene, [("alloc-1.store", store)] if entries else [])]

    def kinds(self, node: int) -> List[str]:
        return [type(event).__name__ for event in self.events if getattr(event, "node", None) == node]


class WhatIsHeard(unittest.TestCase):
    def test_a_node_that_starts_again_is_one_node(self) -> None:
        heard = Heard()
        for second in range(5):
            heard.status(second, 50, 100 + second)
        for second in range(20):
            heard.status(10 + second, 50, second)
        self.assertIsNone(heard.scene.nodes[50].doubled)
        self.assertEqual(heard.kinds(50), ["Appeared", "Vanished", "Appeared"])

    def test_a_node_that_starts_again_and_again_is_one_node(self) -> None:
        heard = Heard()
        for life in range(10):
            for second in range(6):
                heard.status(10 * life + second, 50, second, second)
        self.assertIsNone(heard.scene.nodes[50].doubled)

    def test_a_quick_restart_is_told(self) -> None:
        heard = Heard()
        heard.status(0, 50, 100)
        heard.status(1, 50, 0)
        self.assertEqual(heard.kinds(50), ["Appeared", "Restarted"])

    def test_a_late_status_is_none_of_another_node(self) -> None:
        heard = Heard()
        for second in range(30):
            heard.status(second + (2.5 if second % 7 == 3 else 0), 50, second)
        self.assertIsNone(heard.scene.nodes[50].doubled)

    def test_two_uptimes_in_turn_are_two_nodes(self) -> None:
        heard = Heard()
        for second in range(3):
            heard.status(second, 50, 100 + second)
            heard.status(second + 0.5, 50, 20 + second, second)
        self.assertEqual(heard.names(), ["no-members", "one-id-twice"])

    def test_two_nodes_that_were_switched_on_together_are_two(self) -> None:
        heard = Heard()
        for second in range(8):
            heard.status(second, 50, second, second)
            heard.status(second + 0.4, 50, second, second)
        self.assertIn("one-id-twice", heard.names())

    def test_a_lost_status_and_one_at_two_hertz_are_of_one_node(self) -> None:
        heard = Heard()
        for half in range(40):
            if half % 5:
                heard.status(half / 2, 50, half // 2, half % 32)
        self.assertIsNone(heard.scene.nodes[50].doubled)

    def test_a_fixed_address_that_the_log_gives_to_another(self) -> None:
        heard = Heard(1, 2, 3)
        heard.status(0, 42, 5)
        heard.tells(0.1, 42, ONE, "org.example")
        self.assertIn("wrong-address", heard.names(wire.Entry(1, TWO, 42, 1)))
        self.assertNotIn("wrong-address", heard.names(wire.Entry(1, ONE, 42, 1)))
        self.assertEqual(heard.scene.nodes[42].identity, scene.Introduced(42, ONE, "org.example"))

    def test_two_nodes_that_tell_one_unique_id(self) -> None:
        heard = Heard()
        for node in (60, 61):
            heard.status(0, node, 5)
            heard.tells(0.1, node, ONE)
        self.assertIn("one-unique-id", heard.names())

    def test_nodes_without_a_unique_id_are_not_one(self) -> None:
        heard = Heard()
        for node in (60, 61):
            heard.status(0, node, 5)
            heard.tells(0.1, node, wire.NO_UNIQUE_ID)
        self.assertNotIn("one-unique-id", heard.names())

    def test_a_leader_that_nobody_answers(self) -> None:
        heard = Heard(1, 2, 3)
        for second in range(6):
            for member in (1, 2, 3):
                heard.status(second, member, second)
            for to in (2, 3):
                heard.take(second + 0.1, 1, "appq", bytes([7, 0, 0, 0]) + bytes(6), to)
        found = [cause for cause in causes.find(heard.scene) if cause.name == "no-majority"]
        self.assertEqual(len(found), 1)
        self.assertIn("Member 1 leads in term 7, and 2 and 3 answer none", found[0].text)

    def test_who_answers_devices_and_is_no_member(self) -> None:
        heard = Heard(1, 2, 3)
        heard.take(0, 10, "alloc", bytes([70 << 1]) + bytes.fromhex(ONE))
        self.assertIn("second-server", heard.names())
        self.assertIn(scene.Strange(10, "alloc"), heard.events)

    def test_who_asks_for_votes_and_is_not_called_by_the_leader(self) -> None:
        heard = Heard()
        heard.take(0, 9, "voteq", bytes([5, 0, 0, 0]) + bytes(5), 1)
        for second in range(4):
            for member in (1, 2, 3, 9):
                heard.status(second, member, second)
            for to in (2, 3):
                heard.take(second + 0.1, 1, "appq", bytes([7, 0, 0, 0]) + bytes(6), to)
                heard.take(second + 0.2, to, "app", bytes([7, 0, 0, 0, 0x80]), 1)
        self.assertEqual((heard.scene.members(), heard.scene.size()), ({1, 2, 3}, 3))
        self.assertEqual(heard.names(), ["strange-member"])

    def test_a_device_that_was_told_crosses_nobody_who_asks_later(self) -> None:
        heard = Heard(1)
        heard.status(0, 1, 10)
        heard.take(0.1, 0, "alloc", b"\1" + bytes.fromhex(ONE)[:6])
        heard.take(0.2, 1, "alloc", bytes([70 << 1]) + bytes.fromhex(ONE))
        for second in range(1, 6):
            heard.status(second, 1, 10 + second)
            heard.take(second, 0, "alloc", b"\1" + bytes([9] * 6))
        self.assertEqual(heard.names(), ["unanswered"])

    def test_a_lone_allocator_is_no_second_server(self) -> None:
        heard = Heard()
        heard.status(0, 1, 10)
        heard.take(0.1, 1, "alloc", bytes([70 << 1]) + bytes.fromhex(ONE))
        self.assertEqual(heard.names(), [])

    def test_frames_of_no_sense_are_passed_over(self) -> None:
        heard = Heard()
        for name in table.TRANSFERS:
            for length in range(20):
                to = 0 if name in ("alloc", "disc", "stat") else 6
                heard.take(0, 0 if name == "alloc" else 5, name, bytes(length), to)
        heard.scene.take(1, wire.Frame(0x1FFFFFFF, b"\xc0"))
        causes.find(heard.scene)
        list(causes.notes(heard.scene))

    def test_what_is_kept_is_bounded(self) -> None:
        heard = Heard()
        for number in range(2000):
            heard.status(4 * number, 50, 0)
            heard.take(4 * number, 0, "alloc", bytes([1]) + number.to_bytes(6, "big"))
            heard.take(4 * number, 1, "alloc", bytes([2]) + number.to_bytes(16, "big"))
        self.assertLessEqual(len(heard.scene.requests), 256)
        self.assertLessEqual(len(heard.scene.answers), 256)
        self.assertLessEqual(len(heard.scene.nodes[50].came), 32)
        self.assertLessEqual(len(heard.scene.nodes[50].openings), 32)


class Images(unittest.TestCase):
    def test_a_store_without_a_version_is_named(self) -> None:
        """Its first sector reads as zeros: the log of the rest is still there, and reads as none."""
        image = images.image(stores.Store(2, 7, 3, 1, [wire.Entry(7, ONE, 42, 1)]))
        with tempfile.TemporaryDirectory() as folder:
            path = pathlib.Path(folder) / "alloc-1.store"
            for lost in (512, len(image)):
                path.write_bytes(bytes(lost) + image[lost:])
                said = why(EXAMPLES / "a_real_bus/log", "--store", path)
                self.assertIn("warning: lost-store: alloc-1.store: it has no version", said.written)
            path.write_bytes(image)
            self.assertNotIn("lost-store", why(EXAMPLES / "a_real_bus/log", "--store", path).written)

    def test_an_image_reads_as_its_store(self) -> None:
        store = stores.Store(2, 7, 3, 1, [wire.Entry(5, ONE, 42, 1), wire.Entry(7, wire.NO_UNIQUE_ID, 0, 4)])
        self.assertEqual(stores.read_image(images.image(store)), store)


if __name__ == "__main__":
    unittest.main()
