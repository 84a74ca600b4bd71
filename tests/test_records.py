"""Tests that the worked store of the crate `mirrored_disk` is what its definition gives."""
from __future__ import annotations

import re
import unittest

from records import head_of, new_image, record_of
from support import ROOT

CASES = ROOT / "crates/mirrored_disk/src/tests.rt"


class Records(unittest.TestCase):
    def test_a_record_fills_what_is_used_of_a_block(self) -> None:
        self.assertEqual(len(record_of(head_of(1, [1, 2, 3]), 1, new_image())), 8900)

    def test_the_digests_of_the_worked_store_are_those_of_its_records(self) -> None:
        text = CASES.read_text(encoding="utf-8")
        for number in (1, 2):
            digest = record_of(head_of(1, [1, 2, 3]), number, new_image())[-32:]
            found = re.search(rf"const DIGEST_OF_{number}: \[u8; 32\] = \[([^\]]*)\]", text)
            assert found is not None
            self.assertEqual(bytes(int(byte, 16) for byte in re.findall(r"0x(\w\w)", found[1])), digest)


if __name__ == "__main__":
    unittest.main()
