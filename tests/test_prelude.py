"""Tests of `tools/follow --store`: rows that bring the stores to what files have, and logs of a later power-on."""
from __future__ import annotations

import pathlib
import tempfile
import unittest
from typing import Dict, List, Tuple

import images
import support
from support import EXAMPLES, TESTS, Ended, read_lines, run_tool, write_lines

from caldrouz import stores, wire
from caldrouz.follow import partner, prelude

LATER = TESTS / "logs" / "later_power_on"
Entry = Tuple[int, int]  # term, node ID: 0 of a blank, below 0 of one that is kept back


def store(term: int, vote: int, commit: int, *entries: Entry) -> stores.Store:
    """A store whose entries have unique IDs that follow from their node IDs."""
    made = [
        wire.Entry(of, f"{node:032x}" if node > 0 else wire.NO_UNIQUE_ID, abs(node), 0) for of, node in entries
    ]
    return stores.Store(2, term, vote, commit, made)


class Preludes(unittest.TestCase):
    def setUp(self) -> None:
        try:
            partner.prepare(support.PROGRAM)
        except partner.Broken as why:
            self.skipTest(str(why))

    def words(self, members: Dict[int, stores.Store]) -> List[str]:
        return [support.PROGRAM, "replay", "1000000", *map(str, members)]

    def reaches(self, **wanted: stores.Store) -> List[str]:
        """The members open with what the files have, and their committed logs are those of the files."""
        members = {int(name[1:]): its for name, its in wanted.items()}
        before = prelude.bring(self.words(members), members)
        rows = before.rows + [f"open {member} 0 0" for member in members]
        done = Ended(self.words(members), input=("\n".join(rows) + "\n").encode())
        self.assertEqual(done.status, 0)
        lines = done.written.splitlines()[len(before.rows) :]
        for member, its in members.items():
            opened = f"{member} open {its.term} {its.vote} {len(its.entries)} {its.commit}"
            self.assertTrue(any(line.endswith(f" {opened}") for line in lines), (opened, lines))
            committed = [f"{place} {it.node} {it.unique_id}" for place, it in enumerate(its.committed, 1)]
            at = lines.index(f"log {member} {its.commit}") + 1
            self.assertEqual(lines[at : at + its.commit], committed)
        return before.rows

    def test_new_stores_need_no_rows(self) -> None:
        empty = store(0, 0, 0)
        self.assertEqual(prelude.bring(["no program"], {1: empty, 2: empty}), prelude.NOTHING)

    def test_the_stores_of_a_real_bus(self) -> None:
        folder = EXAMPLES / "a_real_bus"
        self.reaches(**{f"m{node}": stores.read(str(folder / f"alloc-{node}.store")) for node in (1, 2, 3)})

    def test_followers_that_were_not_told_the_last_commit(self) -> None:
        log = (1, 125), (1, 124)
        self.reaches(m1=store(1, 1, 2, *log), m2=store(1, 1, 1, *log), m3=store(1, 0, 1, *log))

    def test_an_entry_that_nobody_else_has_and_the_blank_of_the_next_leader(self) -> None:
        self.reaches(
            m1=store(1, 1, 1, (1, 125), (1, 124)),
            m2=store(2, 2, 2, (1, 125), (2, -7)),
            m3=store(2, 2, 2, (1, 125), (2, -7)),
        )
        log = (1, 125), (1, 60), (4, 0), (4, 61)
        self.reaches(m1=store(1, 1, 1, *log[:2]), m2=store(4, 2, 4, *log), m3=store(4, 2, 3, *log))

    def test_terms_without_entries_and_votes_for_oneself(self) -> None:
        self.reaches(m1=store(9, 1, 1, (3, 125)), m2=store(9, 0, 1, (3, 125)), m3=store(12, 3, 1, (3, 125)))

    def test_new_stores_above_one_term(self) -> None:
        rows = self.reaches(m1=store(5000, 1, 0), m2=store(5000, 2, 0), m3=store(5000, 3, 0))
        self.assertLess(len(rows), 6000)

    def test_five_members_of_which_two_were_away(self) -> None:
        log = (2, 125), (2, 60), (5, 0), (5, 61)
        self.reaches(
            m1=store(2, 1, 2, *log[:2]),
            m2=store(5, 2, 4, *log),
            m3=store(5, 2, 4, *log),
            m4=store(6, 4, 3, *log),
            m5=store(1, 5, 0),
        )

    def test_a_voter_that_got_entries_later(self) -> None:
        """Member 3 voted in term 5 for member 1, whose log had less than it has now: it has the rest from member 2."""
        self.reaches(
            m1=store(12, 1, 2, (1, 125), (4, 0), (5, 60), (7, 0), (9, 0)),
            m2=store(12, 0, 2, (1, 125), (4, 0), (4, 124), (6, 0), (8, 0), (11, 0)),
            m3=store(12, 1, 2, (1, 125), (4, 0), (4, 124)),
        )

    def test_an_allocator_alone(self) -> None:
        self.reaches(m7=store(3, 7, 3, (1, 125), (1, -50), (1, 124)))

    def test_a_full_log(self) -> None:
        log = [(1, node) for node in range(4, 126)] + [(term, 0) for term in range(2, 7)]
        self.reaches(m1=store(6, 1, 127, *log), m2=store(6, 1, 125, *log), m3=store(6, 1, 121, *log[:122]))

    def cannot(self, text: str, **wanted: stores.Store) -> None:
        members = {int(name[1:]): its for name, its in wanted.items()}
        with self.assertRaises(prelude.CannotReach) as raised:
            prelude.bring(self.words(members), members)
        self.assertIn(text, str(raised.exception))

    def test_stores_that_no_cluster_leaves(self) -> None:
        new, one = store(0, 0, 0), store(1, 1, 1, (1, 125))
        self.cannot("different entries of term 1 or before at place 1", m1=one, m2=store(1, 1, 1, (1, 124)))
        self.cannot("nobody can have led in term 1", m1=store(1, 2, 0, (1, 125)), m2=store(1, 1, 0), m3=new)
        self.cannot("by its own file did not stand", m1=store(2, 2, 0), m2=store(1, 0, 0), m3=new)
        self.cannot("its file has term 1, vote 1, 1 entries, 1 committed", m1=one, m2=new, m3=store(1, 1, 0))

    # --- logs

    def follow(self, log: pathlib.Path, folder: pathlib.Path, *words: object) -> Ended:
        pairs = [f"--store={node}={folder / f'alloc-{node}.store'}" for node in (1, 2, 3)]
        return run_tool("follow", log, 1, 2, 3, "--program", support.PROGRAM, *pairs, *words)

    def test_a_log_of_a_later_power_on_is_explained_with_the_stores_of_before(self) -> None:
        found = self.follow(LATER / "log", LATER)
        self.assertEqual(found.status, 0, found.errors)
        self.assertIn("The stores of the members come to what the files have by the rows up to ", found.errors)
        done = Ended([support.PROGRAM, "replay", 1000000, 1, 2, 3], input=found.written.encode())
        self.assertEqual(done.status, 0)
        frames = [line.split(" ")[4:6] for line in done.written.splitlines() if " send " in line]
        logged = [line.split(" ")[2].lower().split("#") for line in read_lines(LATER / "log")]
        mine = iter(frames)
        self.assertTrue(all(frame in mine for frame in logged if int(frame[0], 16) & 0x7F), "in their order")

    def test_words_of_stores(self) -> None:
        log = LATER / "log"
        self.assertEqual(run_tool("follow", log, 1, 2, 3, "--store", "9=x").status, 2)
        self.assertEqual(run_tool("follow", log, 1, 2, 3, "--store", "1=no such file").status, 2)
        with tempfile.TemporaryDirectory() as name:
            folder = pathlib.Path(name)
            for node in (1, 2, 3):
                (folder / f"alloc-{node}.store").write_bytes(images.image(store(1, node, 1, (1, 10 + node))))
            found = self.follow(log, folder)
            self.assertEqual(found.status, 3)
            self.assertIn("no rows were found that bring the stores to what the files have", found.errors)

    def test_a_log_of_another_form_says_so(self) -> None:
        with tempfile.TemporaryDirectory() as name:
            log = write_lines(pathlib.Path(name) / "log", ["  can0  1E015501   [8]  01 00 00 00 00 00 00 C0"])
            found = run_tool("follow", log, 1, 2, 3, "--program", support.PROGRAM)
        self.assertEqual(found.status, 2)
        self.assertIn("no line of it is one of `candump -L`", found.errors)


class FractionsOfMilliseconds(unittest.TestCase):
    def test_logs_of_members_on_a_socket_of_the_system(self) -> None:
        """Calls follow the receipt that made them within a millisecond; who leads calls for no votes any more."""
        try:
            partner.prepare(support.PROGRAM)
        except partner.Broken as why:
            self.skipTest(str(why))
        for path in sorted((TESTS / "logs" / "no_bridge").glob("*.log")):
            with self.subTest(path.name):
                found = run_tool("follow", path, 1, 2, 3, "--program", support.PROGRAM)
                self.assertEqual(found.status, 0, found.errors)


if __name__ == "__main__":
    unittest.main()
