"""What the tests of Python share: places, the tools as processes, and a runner with one closing line."""
from __future__ import annotations

import argparse
import os
import pathlib
import subprocess
import sys
import unittest
from typing import Any, List, Optional, Sequence, Set, Tuple

ROOT = pathlib.Path(__file__).resolve().parent.parent
TESTS, EXAMPLES = ROOT / "tests", ROOT / "examples"
sys.dont_write_bytecode = True
sys.path.insert(0, str(ROOT / "tools"))
# The program that is driven: of the words of `tests/tools`, else the repository's.
PROGRAM = os.environ.get("CALDROUZ_PROGRAM", str(ROOT / "allocator"))


class Ended:
    """What a tool wrote, what it wrote on standard error, and its exit code."""

    def __init__(self, words: Sequence[object], **options: Any) -> None:
        options = {"stdin": subprocess.DEVNULL, "stdout": subprocess.PIPE, "timeout": 600, **options}
        if "input" in options:
            del options["stdin"]
        done = subprocess.run(list(map(str, words)), stderr=subprocess.PIPE, **options)
        self.written: str = done.stdout.decode("utf-8", "backslashreplace") if done.stdout is not None else ""
        self.errors: str = done.stderr.decode("utf-8", "backslashreplace")
        self.status = done.returncode


def run_tool(name: str, *words: object, **options: Any) -> Ended:
    return Ended([ROOT / "tools" / name, *words], **options)


def read(path: pathlib.Path) -> str:
    return path.read_text(encoding="ascii", errors="backslashreplace")


def read_lines(path: pathlib.Path) -> List[str]:
    return read(path).splitlines()


def write_lines(path: pathlib.Path, lines: Sequence[str]) -> pathlib.Path:
    path.write_text("".join(line + "\n" for line in lines), encoding="utf-8")
    return path


class Result(unittest.TestResult):
    """Counts tests, and of a test with parts its parts; says at once what failed, and why one was passed over."""

    def __init__(self, script: str) -> None:
        super().__init__()
        self.script, self.passed, self.failed = script, 0, 0
        self.parted: Set[unittest.TestCase] = set()

    def _fails(self, test: object, text: str) -> None:
        self.failed += 1
        print(f"{self.script}: {test} FAILED\n{text}", file=sys.stderr, flush=True)

    def addSuccess(self, test: unittest.TestCase) -> None:
        self.passed += test not in self.parted

    def addSubTest(self, test: unittest.TestCase, subtest: unittest.TestCase, err: Optional[Any]) -> None:
        self.parted.add(test)
        if err is None:
            self.passed += 1
        else:
            self._fails(subtest, self._text(err, test))

    def addFailure(self, test: unittest.TestCase, err: Any) -> None:
        self._fails(test, self._text(err, test))

    addError = addFailure

    def addSkip(self, test: unittest.TestCase, reason: str) -> None:
        super().addSkip(test, reason)
        print(f"{self.script}: {test} is passed over: {reason}", file=sys.stderr, flush=True)

    def _text(self, err: Tuple[Any, Any, Any], test: unittest.TestCase) -> str:
        return str(self._exc_info_to_string(err, test))  # type: ignore[attr-defined]


def run(script: str, modules: Sequence[str], patterns: Sequence[str]) -> int:
    """Runs the tests of these modules whose names have one of the patterns, if there are any. 1 where one failed."""
    loader, result = unittest.TestLoader(), Result(script)
    loader.testNamePatterns = [f"*{pattern}*" for pattern in patterns] or None
    loader.loadTestsFromNames(modules).run(result)
    skipped = f", {len(result.skipped)} skipped" if result.skipped else ""
    print(f"{result.passed} passed, {result.failed} failed{skipped}")
    return 0 if result.passed and not result.failed else 1


def parser(script: str, what: str) -> argparse.ArgumentParser:
    """The words of a script, with the one that all have."""
    words = argparse.ArgumentParser(prog=script, description=what)
    names = "tests with such names alone"
    words.add_argument("-k", dest="patterns", metavar="PART", action="append", default=[], help=names)
    return words
