"""`replay` as a partner: a row goes in, and its line comes out. The program is the judge of what is lawful."""
from __future__ import annotations

import subprocess
from typing import List, Optional, Sequence

from .. import report

AT_ONCE = 100  # rows that are written before their lines are read: they fit into a pipe
NOT_PROVED = 20  # what ./allocator ends with that has no proved program, and was asked for a node


class Refused(Exception):
    """The program does not take a row."""


class Broken(Exception):
    """The program cannot be run, or ends where it should not."""


def prepare(program: str) -> None:
    """Sees that the program runs, and answers row by row: an unproved answer of ./allocator takes all rows first."""
    try:
        # (words of which no program takes a turn)
        if _ended_with([program, "node", "1", "0", "0", "1"], subprocess.DEVNULL) == NOT_PROVED:
            raise Broken(f"no proved program is built, and only that answers row by row: {program} build")
        status = _ended_with([program, "replay", "1", "1"])
    except (OSError, ValueError) as error:  # (ValueError: the path has a zero byte)
        raise Broken(f"{program}: {getattr(error, 'strerror', None) or error}") from None
    if status:
        raise Broken(f"{program} replay 1 1 ends with status {status}")


def _ended_with(words: List[str], errors: Optional[int] = None) -> int:
    return subprocess.run(words, stdin=subprocess.DEVNULL, stdout=subprocess.DEVNULL, stderr=errors).returncode


class Process:
    def __init__(self, words: List[str]) -> None:
        try:
            self.running = subprocess.Popen(
                words, stdin=subprocess.PIPE, stdout=subprocess.PIPE, stderr=subprocess.DEVNULL
            )
        except OSError as error:
            raise Broken(f"{words[0]}: {error.strerror}") from None
        self.taken = 0

    def write(self, rows: List[str]) -> None:
        assert self.running.stdin
        try:
            self.running.stdin.write("".join(row + "\n" for row in rows).encode())
            self.running.stdin.flush()
        except OSError:
            raise Broken("the program took no more rows") from None

    def read(self) -> str:
        assert self.running.stdout
        line = self.running.stdout.readline().decode("ascii", "replace")
        if not line.endswith("\n"):
            raise Broken(f"the program ended at row {self.taken + 1}")
        return line[:-1]

    def kill(self) -> None:
        self.running.kill()
        self.running.communicate()

    def end(self) -> List[str]:
        """What it writes behind the lines of the rows."""
        rest, _ = self.running.communicate()
        if self.running.returncode:
            raise Broken(f"the program ends with status {self.running.returncode}")
        return rest.decode("ascii", "replace").splitlines()


class Partner:
    """The rows that were taken, with their lines. They can be taken back: the program then begins anew. Those that it
    begins with were taken by another one."""

    def __init__(self, words: List[str], rows: Sequence[str] = (), lines: Sequence[str] = ()) -> None:
        self.words = words
        self.rows: List[str] = list(rows)
        self.lines: List[str] = list(lines)
        self.process: Optional[Process] = None
        self.beginnings = 0

    def _catch_up(self) -> Process:
        """A process that has exactly the rows that stand."""
        if self.process is None:
            self.process = Process(self.words)
            self.beginnings += 1
        process = self.process
        while process.taken < len(self.rows):
            rows = self.rows[process.taken : process.taken + AT_ONCE]
            process.write(rows)
            for row in rows:
                line = process.read()
                if line != self.lines[process.taken]:
                    raise Broken(f"the program gave another line for row {process.taken + 1}, '{row}': '{line}'")
                process.taken += 1
        return process

    def row(self, text: str) -> report.Event:
        """What the row did. A row that is refused leaves nothing."""
        process = self._catch_up()
        process.write([text])
        line = process.read()
        if line.startswith(("unlawful", "bad row", "limit")):
            self.drop()
            raise Refused(f"'{text}' would be refused: {line}")
        try:
            event = report.read_line(line)
        except report.NotALine as error:
            raise Broken(str(error)) from None
        self.rows.append(text)
        self.lines.append(line)
        process.taken += 1
        return event

    def take_back(self, count: int) -> None:
        """Only the first so many rows stand."""
        if count < len(self.rows):
            del self.rows[count:], self.lines[count:]
            if self.process is not None and self.process.taken > count:
                self.drop()

    def change(self, place: int, text: str) -> None:
        """A row gets another text, by which no line changes."""
        self.rows[place] = text
        self.drop()

    def drop(self) -> None:
        """The process ends; the rows stand."""
        if self.process is not None:
            self.process.kill()
        self.process = None

    def end(self) -> List[str]:
        """What the program writes behind the lines of the rows."""
        rest, self.process = self._catch_up().end(), None
        return rest
