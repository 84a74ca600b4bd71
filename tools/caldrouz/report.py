"""Rows of schedules and lines of reports, by docs/FORMATS.md: the one reader of both. Not proved.

    row = report.read_row("rx 1 7 2010")               # a Row; NotARow
    event = report.read_line("12 1 L 1 1 1 4 took +alloc:0")   # one of the types of Event, here a Step; NotALine
    report.End().take(line)                            # the lines behind those of the rows
"""
from __future__ import annotations

import re
from dataclasses import dataclass, field
from typing import Dict, List, NamedTuple, Optional, Tuple, Union

from . import texts
from .wire import Frame

FOLLOWER, CANDIDATE, LEADER = "F", "C", "L"
ROLES = {FOLLOWER: "follower", CANDIDATE: "candidate", LEADER: "leader"}

OPENINGS = ("open", "copen")  # of a member that is told how many there are, and of one that is told who they are
ROWS, DROPS = texts.ROWS, texts.DROPS
_NUMBER = re.compile(r"0|[1-9][0-9]{0,18}", re.A)
_DATA = re.compile(r"(?:[0-9a-fA-F]{2}){1,8}", re.A)
_IDENTIFIER = re.compile(r"[01][0-9a-fA-F]{7}", re.A)


class NotARow(ValueError):
    """A text that is no row of a schedule."""


class NotALine(ValueError):
    """A text that is no line of a report."""


def number(word: str) -> int:
    """A number as rows and lines have it: decimal, without sign and without leading zeros. Else ValueError."""
    if not _NUMBER.fullmatch(word):
        raise ValueError(f"'{word}' is no number")
    return int(word)


def frame(identifier: str, data: str) -> Frame:
    """A frame as rows and lines have it; else ValueError."""
    if not _IDENTIFIER.fullmatch(identifier) or not _DATA.fullmatch(data):
        raise ValueError(f"'{identifier} {data}' is no frame")
    return Frame(int(identifier, 16), bytes.fromhex(data))


# --- rows


class Row(NamedTuple):
    """A row of a schedule. `subject` is that of its line; `frame`, of `rx` and `arx`, is the number of a frame."""

    name: str
    subject: str
    words: List[str]
    moment: Optional[int]
    frame: int


def read_row(text: str) -> Row:
    words = text.split(" ")
    name = words[0]
    length, place = ROWS.get(name, (0, None))
    if len(words) != length:
        raise NotARow(f"'{text}' is no row")
    try:
        moment = None if place is None else number(words[place])
        if name != "ext":
            number(words[1])
        subject = "ext" if name == "ext" else f"a{words[1]}" if name[0] == "a" else words[1]
        return Row(name, subject, words, moment, number(words[2]) if name in ("rx", "arx") else 0)
    except ValueError:
        raise NotARow(f"'{text}' is no row") from None


# --- lines


class Mark(NamedTuple):
    """A transfer that was offered, and whether it fitted into the queue. `destination` is 0 for all."""

    fitted: bool
    name: str
    destination: int


class Opening(NamedTuple):
    """A member opened, with this stored state."""

    term: int
    vote: int
    last: int
    commit: int


class Step(NamedTuple):
    """A step of a member, with what is so after it."""

    role: str
    term: int
    last: int
    commit: int
    queued: int
    seen: str
    marks: List[Mark]


class DeviceStep(NamedTuple):
    """A step of a device. `holds` is its node ID, 0 while it waits for one."""

    holds: int
    queued: int
    seen: str
    marks: List[Mark]


class Sent(NamedTuple):
    """A frame of a member or a device came on the bus, under this number."""

    number: int
    frame: Frame


class Outside(NamedTuple):
    """A frame from outside came on the bus, under this number."""

    number: int


class Plain(NamedTuple):
    """A line of one word: of a member stop, fault or armed, of a device open or end."""

    word: str


Event = Union[Opening, Step, DeviceStep, Sent, Outside, Plain]


def read_line(text: str) -> Event:
    """What a line says behind the number of its row and its subject (a member; `a1`, a device; `ext`)."""
    try:
        row, subject, *words = text.split(" ")
        number(row)
        return _read_event(subject, words)
    except (ValueError, IndexError):
        raise NotALine(f"'{text}' is no line of a row") from None


def _read_event(subject: str, words: List[str]) -> Event:
    first, count = words[0], len(words)
    if subject == "ext":
        _expect(count == 1)
        return Outside(number(first))
    device = subject[0] == "a"
    number(subject[1:] if device else subject)
    if first in ROLES and not device:
        _expect(count >= 6)
        term, last, commit, queued = map(number, words[1:5])
        return Step(first, term, last, commit, queued, words[5], _read_marks(words[6:]))
    if first == "send":
        _expect(count == 4)
        return Sent(number(words[1]), frame(words[2], words[3]))
    if first == "open" and not device:
        _expect(count == 5)
        return Opening(*map(number, words[1:]))
    if count == 1 and first in (("open", "end") if device else ("stop", "fault", "armed")):
        return Plain(first)
    _expect(device and count >= 3)
    state, _, holds = first.partition(":")
    _expect(first == "wait" or state == "hold")
    return DeviceStep(number(holds) if holds else 0, number(words[1]), words[2], _read_marks(words[3:]))


def _expect(holds: bool) -> None:
    if not holds:
        raise ValueError


def _read_marks(words: List[str]) -> List[Mark]:
    marks = []
    for word in words:
        name, _, destination = word[1:].partition(":")
        _expect(word[0] in "+-" and name.isalpha())
        marks.append(Mark(word[0] == "+", name, number(destination)))
    return marks


# --- what stands behind the lines of the rows


@dataclass
class End:
    """The lines behind those of the rows: the committed logs by member, as (node ID, unique ID), and the last line."""

    logs: Dict[int, List[Tuple[int, str]]] = field(default_factory=dict)
    last: List[str] = field(default_factory=list)
    _member: Optional[int] = None

    def take(self, text: str) -> None:
        self.last = words = text.split(" ")
        if len(words) != 3:
            return
        try:
            if words[0] == "log":
                self._member = number(words[1])
                self.logs[self._member] = []
            elif self._member is not None and number(words[0]):
                self.logs[self._member].append((number(words[1]), words[2]))
        except ValueError:
            return

    def places(self) -> List[Tuple[int, int, str, List[int]]]:
        """The places of the committed logs: (place, node ID, unique ID, the members that have it), in order."""
        found: Dict[Tuple[int, int, str], List[int]] = {}
        for member, log in self.logs.items():
            for place, entry in enumerate(log, 1):
                found.setdefault((place, *entry), []).append(member)
        return [(*key, found[key]) for key in sorted(found)]
