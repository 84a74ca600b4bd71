"""Checks of all Python here, by folders: types by mypy, rules by flake8 or ruff, where installed; and that each script
which somebody calls by hand tells what it is for."""
from __future__ import annotations

import os
import shutil
import tempfile
import unittest
from typing import List

from support import ROOT, Ended

OF_HELP = "tools", "docs", "bench", "examples"
FOLDERS = "tools", "tests", "bench", "web", "packaging", "docs", "examples"


def sources() -> List[str]:
    """The files of Python: by their names, and scripts by their first lines."""
    found = []
    for folder in FOLDERS:
        for path in sorted((ROOT / folder).rglob("*")):
            if path.is_file() and "__pycache__" not in path.parts:
                with open(path, "rb") as file:
                    first = file.readline()
                if path.suffix == ".py" or first.startswith(b"#!") and b"python3" in first:
                    found.append(str(path.relative_to(ROOT)))
    return found


class Sources(unittest.TestCase):
    def passes(self, *words: str) -> None:
        ended = Ended([*words, *sources()], cwd=ROOT)
        self.assertEqual(ended.status, 0, f"\n{ended.written}{ended.errors}")

    @unittest.skipUnless(shutil.which("mypy"), "there is no mypy")
    def test_types(self) -> None:
        self.passes("mypy")

    @unittest.skipUnless(shutil.which("ruff") or shutil.which("flake8"), "there is neither ruff nor flake8")
    def test_rules(self) -> None:
        self.passes(*(["ruff", "check"] if shutil.which("ruff") else ["flake8"]))


class Help(unittest.TestCase):
    def test_each_script_tells_its_words(self) -> None:
        """`--help` writes to standard output, ends with 0, and does nothing else."""
        scripts = [name for name in sources() if name.split("/")[0] in OF_HELP and os.access(ROOT / name, os.X_OK)]
        self.assertGreater(len(scripts), 25)
        with tempfile.TemporaryDirectory() as folder:
            for name in scripts:
                with self.subTest(name):
                    ended = Ended([ROOT / name, "--help"], cwd=folder, timeout=60)
                    self.assertEqual((ended.status, ended.errors, os.listdir(folder)), (0, "", []))
                    self.assertTrue(ended.written.strip())
