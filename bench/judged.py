"""Reads a trace of a bus, row by row with its time and its line, and says which of README's premises it breaks, and
what came of it. It knows nothing but what a schedule, its report and these times have.

    judge = judged.Judge()
    judge.asks(time, row)          # the words of a row, before it is taken or refused
    judge.hears(time, row, line)   # the words of its line, where it was taken
    judge.broken                   # {"A6": "row 75: frame 10 comes 10506 ms after its making"}
"""
from __future__ import annotations

from collections import Counter, deque
from dataclasses import dataclass, field
from typing import Deque, Dict, List, NamedTuple, Optional, Sequence, Set, Tuple

import scripts  # noqa: F401 (it finds the tools)

from caldrouz import report, table, texts, wire

# What PREMISES asks, in milliseconds
HOLD = 3_500  # A6
REST = 5_500  # A8a
ALLOCATIONS, RESPONSES = 6_000, 7_000  # A8b: Allocations; responses of GetNodeInfo
DRIFT, TURN, MINUTE = 499, 1_000, 60_000  # A10
APART = {"alloc": ALLOCATIONS, "info": RESPONSES}
LONG_HELD = 3_000  # frames that come so late are counted
BEGINS = ("part", "took", "bad", "drop:5", "drop:6", "drop:7")  # what is said of a first frame that was not passed over
WRONG_CRC = "drop:5"


class Transfer(NamedTuple):
    """A transfer, and when it was made. `number` tells it apart; it is 0 of what comes from outside."""

    number: int
    made: int
    name: str


class Sent(NamedTuple):
    """A frame on the bus."""

    heading: wire.Heading
    tail: wire.Tail
    transfer: Transfer


class Heard(NamedTuple):
    """The latest transfer of a transfer ID of which somebody heard a frame. It is parted where he then heard the first
    frame of one whose ID is neither this one nor the one before."""

    transfer: Transfer
    is_parted: bool


@dataclass
class Session:
    """What somebody has heard under one identifier."""

    last: int = 0  # the number of the frame
    heard: Dict[int, Heard] = field(default_factory=dict)  # by transfer ID
    pieces: List[Transfer] = field(default_factory=list)  # the transfers of the frames that it keeps


class Clock:
    """How far a clock was ahead of the time within the last minute."""

    def __init__(self) -> None:
        self.most: Deque[Tuple[int, int]] = deque()  # times, and what it was ahead then, which falls
        self.least: Deque[Tuple[int, int]] = deque()  # and rises

    def goes_on(self, time: int, moment: int, wrong: int) -> bool:
        """Whether it went on as the time did, with this reading, but for so much."""
        ahead = moment - time
        for values, sign in ((self.most, 1), (self.least, -1)):
            while values and values[0][0] < time - MINUTE:
                values.popleft()
            while values and sign * values[-1][1] <= sign * ahead:
                values.pop()
            values.append((time, ahead))
        return self.most[0][1] - ahead <= wrong and ahead - self.least[0][1] <= wrong


@dataclass
class Maker:
    """A member or a device: its clock since it was opened, what it made and has not sent, and when it made its last
    transfer, in any life."""

    clock: Clock = field(default_factory=Clock)
    now: int = 0
    waiting: Dict[int, Deque[Transfer]] = field(default_factory=dict)  # by identifier; a device has 0
    last: Optional[int] = None
    unique_id: str = ""


class Judge:
    """Reads one trace."""

    def __init__(self) -> None:
        self.rows = 0
        self.broken: Dict[str, str] = {}  # the first breach of each premise
        self.joined = ""  # the first transfer of frames that were not made together, which its CRC kept out
        self.counts: Counter[str] = Counter()
        self.makers: Dict[str, Maker] = {}
        self.frames: List[Sent] = []
        self._transfers = 0
        self._sessions: Dict[Tuple[str, int], Session] = {}
        self._whole = wire.Transfers()
        self._given: Dict[str, Set[str]] = {}  # by node ID, and by unique ID

    # --- what it breaks

    def asks(self, time: int, row: Sequence[str]) -> None:
        self.rows += 1
        name = row[0]
        place = texts.ROWS[name][1]
        if place is None:
            return
        subject = self._subject(row)
        maker = self.makers.setdefault(subject, Maker())
        if name in report.OPENINGS or name == "aopen":
            maker.clock, maker.now = Clock(), 0
            if name == "aopen":
                maker.unique_id = row[2]
            elif maker.last is not None and time < maker.last + REST:
                self._breaks("A8a", f"member {subject} is opened {time - maker.last} ms after its last transfer")
        maker.now = max(maker.now, int(row[place]))
        if not maker.clock.goes_on(time, maker.now, DRIFT if subject[0] == "a" else DRIFT + TURN):
            self._breaks("A10", f"the clock of {subject} is wrong by more than half a second, and a turn")
        if name in ("rx", "arx"):
            self._comes(time, subject, int(row[2]))

    @staticmethod
    def _subject(row: Sequence[str]) -> str:
        return "a" + row[1] if row[0][0] == "a" else row[1]

    def _comes(self, time: int, to: str, number: int) -> None:
        heading, tail, transfer = self.frames[number - 1]
        late = time - transfer.made
        self.counts["frames held for 3 s"] += late >= LONG_HELD
        if late > HOLD:
            self._breaks("A6", f"frame {number} comes {late} ms after its making")
        if not heading.source:
            return
        session = self._sessions.setdefault((to, heading.identifier), Session())
        if number < session.last:
            self._breaks("A7", f"frame {number} comes behind frame {session.last}")
        self.counts["frames repeated"] += number == session.last
        session.last = number
        if transfer.name in APART:
            self._uses(session, transfer, tail)

    def _uses(self, session: Session, transfer: Transfer, tail: wire.Tail) -> None:
        earlier = session.heard.get(tail.transfer_id)
        if earlier is None or earlier.transfer.number != transfer.number:
            if earlier is not None and not earlier.is_parted:
                apart = transfer.made - earlier.transfer.made
                if apart < APART[transfer.name]:
                    self._breaks("A8b", f"a transfer ID of {transfer.name} is used again after {apart} ms")
            session.heard[tail.transfer_id] = Heard(transfer, False)
        if tail.starts:
            near = (tail.transfer_id, (tail.transfer_id + 1) % table.TRANSFER_IDS)
            for transfer_id, heard in session.heard.items():
                if transfer_id not in near and not heard.is_parted:
                    session.heard[transfer_id] = Heard(heard.transfer, True)

    def _breaks(self, premise: str, text: str) -> None:
        self.broken.setdefault(premise, f"row {self.rows}: {text}")

    # --- what came of it

    def hears(self, time: int, row: Sequence[str], line: Sequence[str]) -> None:
        name = row[0]
        if name in ("send", "asend"):
            self._sends(self._subject(row), line)
        elif name == "ext":
            heading = wire.read_heading(int(row[1], 16))
            self.frames.append(Sent(heading, wire.read_tail(int(row[2][-2:], 16)), Transfer(0, time, heading.kind)))
        elif line[2] in report.ROLES:
            self._steps(time, row, line[7], line[8:])
        elif name in ("atick", "arx"):
            self._steps(time, row, line[4], line[5:])
            if line[2] != "wait":
                self._gives(line[2][len("hold:"):], self.makers[self._subject(row)].unique_id)
        elif line[2] in ("open", "stop", "fault", "end"):
            self.makers.setdefault(self._subject(row), Maker()).waiting.clear()
            self.counts["openings"] += line[2] == "open" and name != "aopen"

    def _steps(self, time: int, row: Sequence[str], seen: str, marks: Sequence[str]) -> None:
        subject = self._subject(row)
        maker = self.makers[subject]
        if row[0] in ("rx", "arx"):
            self._took(subject, int(row[2]), seen)
        for mark in marks:
            if mark[0] == "+":
                name, _, to = mark[1:].partition(":")
                self._transfers += 1
                at = 0 if subject[0] == "a" else wire.identifier_of(int(subject), name, int(to))
                maker.waiting.setdefault(at, deque()).append(Transfer(self._transfers, time, name))
                maker.last = time

    def _sends(self, subject: str, line: Sequence[str]) -> None:
        frame = wire.Frame(int(line[4], 16), bytes.fromhex(line[5]))
        heading, tail = frame.heading, frame.tail
        waiting = self.makers[subject].waiting[frame.identifier if heading.source else 0]
        self.frames.append(Sent(heading, tail, waiting[0]))
        if tail.ends:
            waiting.popleft()
        payload = self._whole.take(subject, frame) if heading.kind == "alloc" else None
        told = None if payload is None else wire.told(heading, payload)
        if told is not None:
            self._gives(str(told[0]), told[1])

    def _gives(self, node: str, unique_id: str) -> None:
        self._given.setdefault(node, set()).add(unique_id)
        self._given.setdefault(unique_id, set()).add(node)

    def _took(self, subject: str, number: int, seen: str) -> None:
        """Follows which frames a receiver keeps. Frames of two transfers may be kept out by their CRC alone."""
        heading, tail, transfer = self.frames[number - 1]
        session = self._sessions.get((subject, heading.identifier))
        if session is None:
            return
        if tail.starts and seen in BEGINS:
            session.pieces.clear()
        if seen == "part":
            session.pieces.append(transfer)
        elif seen == WRONG_CRC and not self.joined and any(it.number != transfer.number for it in session.pieces):
            self.joined = f"row {self.rows}: a {transfer.name} of {len(session.pieces) + 1} frames"

    def is_told_twice(self) -> bool:
        """Whether two devices were told, or hold, one node ID, or one device two."""
        return any(len(them) > 1 for them in self._given.values())


def do_differ(logs: Sequence[List[Tuple[int, str]]]) -> bool:
    """Whether one of these committed logs is not the beginning of another one."""
    longest: List[Tuple[int, str]] = max(logs, key=len, default=[])
    return any(log != longest[: len(log)] for log in logs)


def of(rows: Sequence[str], lines: Sequence[str], pace: int = 1) -> Judge:
    """The judgement of a schedule by its report, where the time of a row is the latest moment so far, times `pace`."""
    judge, time = Judge(), 0
    for row, line in zip(rows, lines):
        time = max(time, report.read_row(row).moment or 0)
        judge.asks(pace * time, row.split())
        if line.startswith("unlawful "):
            break
        judge.hears(pace * time, row.split(), line.split())
    return judge
