"""A run of `replay` that a script of this folder feeds row by row, so that a row may depend on the lines before it."""
from __future__ import annotations

import subprocess
from typing import List, Sequence

import scripts  # noqa: F401 (it makes tools/ known)

from caldrouz import table

ROWS = 1_000_000


class Refused(Exception):
    """`replay` ended before the case did; the text is its last line. `told` has the words of the lines before it that
    are of rows handed over with the one that ended it."""

    def __init__(self, text: str, told: Sequence[List[str]] = ()) -> None:
        super().__init__(text)
        self.told = told


def word_of(node: int, members: Sequence[int]) -> int:
    """The word that `node` gives a member that is told this list."""
    lower = sum(other < node for other in members)
    return table.LEAST_WORD + lower * table.MOST_LONGER // max(1, len(members) - 1)


class Replay:
    """A run of `replay`, whose lines are read while its rows are still written."""

    def __init__(self, program: Sequence[str], members: Sequence[int]) -> None:
        words = [*program, str(ROWS), *map(str, members)]
        self.process = subprocess.Popen(words, stdin=subprocess.PIPE, stdout=subprocess.PIPE)
        self.rows = 0

    def ask(self, rows: Sequence[str]) -> List[List[str]]:
        """Hands these rows over, and gives the words of the line of each."""
        assert self.process.stdin and self.process.stdout
        if self.rows + len(rows) > ROWS:
            raise Refused("too many rows")
        try:
            self.process.stdin.write("".join(f"{row}\n" for row in rows).encode())
            self.process.stdin.flush()
        except BrokenPipeError:
            pass
        told: List[List[str]] = []
        for _ in rows:
            words = self.process.stdout.readline().decode().split()
            self.rows += 1
            if len(words) < 2 or words[0] != str(self.rows):
                # without a last line the program was ended, as by a signal
                raise Refused(" ".join(words) or f"ended with status {self.process.wait()}", told)
            told.append(words)
        return told

    def end(self) -> List[List[str]]:
        """Ends the schedule, and gives the words of the lines that come then."""
        rest, _ = self.process.communicate()
        return [line.split() for line in rest.decode().splitlines()]

    def kill(self) -> None:
        """Ends the program, whatever it has told."""
        self.process.kill()
        self.process.communicate()
