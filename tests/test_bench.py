"""Tests of what the benches draw and judge; the benches are no part of the gate."""
from __future__ import annotations

import random
import sys
import unittest
from typing import List

from support import EXAMPLES, ROOT

sys.path.append(str(ROOT / "bench"))

import broken_tools  # noqa: E402
import judged  # noqa: E402


class Least(random.Random):
    """Draws the least of whatever is asked for."""

    def random(self) -> float:
        return 0.0

    def expovariate(self, lambd: float = 1.0) -> float:
        return 0.0


class Drawn(unittest.TestCase):
    def test_a_store_may_be_empty(self) -> None:
        self.assertEqual(broken_tools.broken_store(Least(1)), b"")

    def test_stores_of_many_seeds(self) -> None:
        for seed in range(300):
            broken_tools.broken_store(random.Random(seed))


class Judged(unittest.TestCase):
    """What `bench/premises` says of a trace: the premises of README that it breaks."""

    def broken(self, example: str, pace: int = 1) -> List[str]:
        rows, lines = ((EXAMPLES / example / name).read_text().splitlines() for name in ("schedule", "report"))
        return sorted(judged.of(rows, lines, pace).broken)

    def test_schedules_that_a_premise_excludes(self) -> None:
        for example, broken in {
            "three_lose_their_leader": [], "a_transfer_with_a_gap": [], "many_allocations": ["A8b"],
            "eleven_elections": ["A6"], "an_answer_to_the_life_before": ["A8a"],
            "a_restart_within_two_seconds": ["A8a", "A8b"],
        }.items():
            with self.subTest(example):
                self.assertEqual(self.broken(example), broken)

    def test_a_clock_that_is_slow_and_frames_that_overtake(self) -> None:
        self.assertEqual(self.broken("three_lose_their_leader", 2), ["A10"])
        rows = ["copen 1 0 0", "copen 2 0 0", "tick 1 1000 0", "send 1", "tick 1 2000 0", "send 1", "rx 2 2 2000"]
        lines = ["1 1 open 0 0 0 0", "2 2 open 0 0 0 0", "3 1 F 0 0 0 1 tick +stat:0",
                 "4 1 send 1 1e015501 01000000000000c0", "5 1 F 0 0 0 1 tick +stat:0",
                 "6 1 send 2 1e015501 02000000000000c1", "7 2 F 0 0 0 0 took"]
        self.assertEqual(judged.of(rows, lines).broken, {})
        judge = judged.of([*rows, "rx 2 1 2000"], [*lines, "8 2 F 0 0 0 0 drop:4"])
        self.assertEqual(judge.broken, {"A7": "row 8: frame 1 comes behind frame 2"})

    def test_what_is_told_twice_is_seen_and_logs_that_differ(self) -> None:
        one, other = (125, "0a"), (124, "0b")
        self.assertFalse(judged.do_differ([[one, other], [one], []]))
        self.assertTrue(judged.do_differ([[one, other], [other]]))
        judge = judged.Judge()
        for number, unique_id in enumerate(("01" * 16, "02" * 16), 1):
            judge.asks(0, ["aopen", str(number), unique_id, "0", "0", "0"])
            judge.hears(0, ["aopen", str(number), unique_id, "0", "0", "0"], ["1", f"a{number}", "open"])
            judge.asks(0, ["atick", str(number), "0", "0"])
            self.assertFalse(judge.is_told_twice())
            judge.hears(0, ["atick", str(number), "0", "0"], ["2", f"a{number}", "hold:125", "0", "tick"])
        self.assertTrue(judge.is_told_twice())


if __name__ == "__main__":
    unittest.main()
