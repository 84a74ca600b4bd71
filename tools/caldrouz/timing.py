"""What a recorded log of the bus says of times, order and transfer IDs of the members. Not proved.

    said = timing.Timing([1, 2, 3])
    said.take(record)                     # each Record of a log, in its order
    said.reuse, said.answers, .repeats, .pauses

A receiver can take frames of two transfers for one, or a late answer for another, only where a transfer ID comes round
sooner than frames may be late (docs/PROTOCOL.md, "Held frames, and a process that slept").
"""
from __future__ import annotations

from dataclasses import dataclass
from typing import Collection, Dict, List, NamedTuple, Optional, Tuple

from . import logs, table, wire

AT_ONCE = 50  # milliseconds within which the same frame is one that came twice

NAMES = {name: f"{kind.data_type.name} {kind.kind}" for name, kind in table.TRANSFERS.items()}


class Way(NamedTuple):
    """Transfers of one kind from a member, to one destination or to all."""

    source: int
    kind: str
    destination: int

    def __str__(self) -> str:
        return f"{self.source} {NAMES[self.kind]}" + (f" to {self.destination}" if self.destination else "")


class Span(NamedTuple):
    """How many milliseconds went by up to a line of the log."""

    time: int
    line: int


@dataclass
class Sent:
    """The last use of a transfer ID: when, and whether it was a request that got its answer."""

    stamp: int
    answered: bool = False


class Timing:
    """What was found so far, for these members."""

    def __init__(self, members: Collection[int]) -> None:
        self.members = members
        self.reuse: Dict[Way, Optional[Span]] = {}  # the least time after which an ID was used again; None: none was
        self.answers: Dict[Way, Span] = {}  # of requests: the latest answer, from its request on
        self.repeats: List[int] = []  # lines with a frame that came twice
        self.disorder: List[int] = []  # lines with a frame that does not go on where its transfer stands
        self.pauses: Dict[int, List[Span]] = {}  # by member: for how long it was silent before it began anew
        self._used: Dict[Tuple[Way, int], Sent] = {}
        self._last: Dict[int, logs.Record] = {}  # by identifier: the last frame
        self._since: Dict[int, List[int]] = {}  # by member: when its frames came, from its last NodeStatus on
        self._up: Dict[int, int] = {}

    def take(self, record: logs.Record) -> None:
        heading, tail, stamp = record.frame.heading, record.frame.tail, record.stamp
        if heading.source not in self.members or heading.kind == wire.OTHER:
            return
        self._look_at_order(record)
        self._since.setdefault(heading.source, []).append(stamp)
        if heading.kind == "stat" and len(record.frame.data) == table.FRAME_BYTES + 1:
            self._look_at_uptime(record)
        if not tail.starts:
            return
        way = Way(heading.source, heading.kind, heading.destination)
        before = self._used.get((way, tail.transfer_id))
        least = self.reuse.setdefault(way, None)
        if before is not None:
            span = Span(stamp - before.stamp, record.line)
            self.reuse[way] = min(span, least or span)
        self._used[way, tail.transfer_id] = Sent(stamp)
        if way.kind in wire.REQUESTS:
            self._look_at_answer(way, tail.transfer_id, record)

    def _look_at_answer(self, way: Way, transfer_id: int, record: logs.Record) -> None:
        asked = Way(way.destination, wire.REQUESTS[way.kind], way.source)
        request = self._used.get((asked, transfer_id))
        if request is not None and not request.answered:
            request.answered = True
            late = Span(record.stamp - request.stamp, record.line)
            self.answers[asked] = max(self.answers.get(asked, late), late)

    def _look_at_order(self, record: logs.Record) -> None:
        """A frame that is the last one of its identifier again came twice; one whose toggle does not go on is out of
        order, or the one before it is missing."""
        before = self._last.get(record.frame.identifier)
        self._last[record.frame.identifier] = record
        if before is None:
            return
        if before.frame == record.frame and record.stamp - before.stamp <= AT_ONCE:
            self.repeats.append(record.line)
        last, tail = before.frame.tail, record.frame.tail
        goes_on = last.transfer_id == tail.transfer_id and not last.ends and last.toggle != tail.toggle
        if not tail.starts and not goes_on:
            self.disorder.append(record.line)

    def _look_at_uptime(self, record: logs.Record) -> None:
        member, uptime = record.frame.heading.source, wire.number(record.frame.data)
        if uptime < self._up.get(member, 0):
            # The first NodeStatus comes a second after the opening. Other frames of the new life may come before it, so
            # the last one of the old life is that behind which it was silent for longest.
            opened, came = record.stamp - 1000 * uptime, self._since[member]
            pause = max(min(after, opened) - before for before, after in zip(came, came[1:]))
            self.pauses.setdefault(member, []).append(Span(pause, record.line))
        self._up[member] = uptime
        self._since[member] = [record.stamp]
