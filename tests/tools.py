"""Runs the tests of tests/test_*.py, for `tests/tools`."""
import os
import pathlib
import sys

import support


def main() -> int:
    words = support.parser("tests/tools", "The tests of the tools.")
    words.add_argument("program", metavar="PROGRAM", nargs="?", help="the program that follow drives")
    given = words.parse_args()
    if given.program:
        support.PROGRAM = os.path.abspath(given.program)
    modules = sorted(path.stem for path in pathlib.Path(__file__).parent.glob("test_*.py"))
    return support.run("tests/tools", modules, given.patterns)


if __name__ == "__main__":
    sys.exit(main())
