"""A log as `follow` needs it: which frames are of which member and which of its starts, and by which clock. Not proved.

A member's clock is not in the log. Its NodeStatus tells the seconds since its opening, so each of them says how much
later than its clock the log shows a frame; between them the least of the neighbours is taken.
"""
from __future__ import annotations

import bisect
import functools
from typing import Dict, Iterator, List, NamedTuple, Optional, Tuple

from .. import logs, wire
from ..logs import Log, Record
from ..table import STATUS_INTERVAL

NEIGHBOURS = 4  # NodeStatus before and after a moment by which the member's clock is known
ANSWERED_WITHIN = 2000  # milliseconds of the log between a request and its answer
SHOWN_WITHIN = 3000  # milliseconds of the log within which a transfer that is offered is sent
REPEATED_WITHIN = 1  # milliseconds within which a frame does not come again on a bus
SOON, LATE = "soon", "late"


class Logged:
    """A frame of the log that is a matter of allocators."""

    __slots__ = ("index", "line", "stamp", "frame", "heading", "tail", "spell")

    def __init__(self, index: int, record: Record) -> None:
        self.index, self.line, self.stamp, self.frame = index, record.line, record.stamp, record.frame
        self.heading, self.tail = record.frame.heading, record.frame.tail
        self.spell: Optional[Spell] = None


class Shown(NamedTuple):
    """A transfer that the log has: the index and the stamp of its last frame there, and the stamp of its first one."""

    end: int
    stamp: int
    first_stamp: int
    transfer_id: int


class Spell:
    """A member from an opening on: until it stops, or the log ends. `statuses` are its NodeStatus, by their uptimes."""

    def __init__(self, member: int, statuses: List[Tuple[int, Logged]], frames: List[Logged]) -> None:
        self.member = member
        self.statuses = {uptime: frame.index for uptime, frame in statuses}
        self.opened = _opened(statuses)
        self.stamps = [frame.stamp for _, frame in statuses]
        # of each status, by how much it is later than the opening says
        self.late = [frame.stamp - STATUS_INTERVAL * uptime - self.opened for uptime, frame in statuses]
        self.first, self.last = frames[0], frames[-1]
        self.late_start = not self.first.tail.starts or min(self.statuses) > 1  # its first frames never came to the log
        self.shown: Dict[int, List[Shown]] = {}  # by identifier
        for frame in frames:
            frame.spell, transfer_id = self, frame.tail.transfer_id
            shown = self.shown.setdefault(frame.frame.identifier, [])
            begins = frame.tail.starts or not shown or shown[-1].transfer_id != transfer_id
            first_stamp = frame.stamp if begins else shown.pop().first_stamp
            shown.append(Shown(frame.index, frame.stamp, first_stamp, transfer_id))

    def clock(self, stamp: int) -> int:
        """The member's clock, as a moment of the log, when a frame was made that has this stamp."""
        at = bisect.bisect(self.stamps, stamp)
        return stamp - min(self.late[max(0, at - NEIGHBOURS) : at + NEIGHBOURS])

    def begins(self, identifier: int, transfer_id: int, index: int) -> Optional[int]:
        """The stamp at which the log has this transfer, where it is the next of its identifier; else None."""
        shown = next(self._from(identifier, index), None)
        return shown.first_stamp if shown and shown.transfer_id == transfer_id else None

    def next(self, identifier: int, transfer_id: int, index: int, stamp: int) -> Optional[str]:
        """When the log has this transfer, at the index or later: SOON; LATE, where it is the next of its identifier
        but not soon; or None."""
        for shown in self._from(identifier, index):
            if shown.stamp > stamp + SHOWN_WITHIN:
                break
            if shown.transfer_id == transfer_id:
                return SOON
        return None if self.begins(identifier, transfer_id, index) is None else LATE

    def _from(self, identifier: int, index: int) -> Iterator[Shown]:
        """The transfers of this identifier that are not over before this index."""
        shown = self.shown.get(identifier, [])
        return (shown[at] for at in range(bisect.bisect_left(shown, (index,)), len(shown)))


def _opened(statuses: List[Tuple[int, Logged]]) -> int:
    return min(frame.stamp - STATUS_INTERVAL * uptime for uptime, frame in statuses[:5])


class Recording:
    """The frames of a log, by members and spells."""

    def __init__(self, log: Log, members: List[int]) -> None:
        self.members = members
        records, self.repeated = without_repeats(log.frames)
        told = [(at, it.frame.heading.source, _uptime(it.frame)) for at, it in enumerate(records)]
        records, self.jumps = logs.mend_stamps(records, [(at, node, up) for at, node, up in told if up is not None])
        self.frames: List[Logged] = []
        for record in records:
            heading = record.frame.heading
            if heading.kind != wire.OTHER or heading.source in members:
                self.frames.append(Logged(len(self.frames), record))
        self.others = len(records) - len(self.frames)
        self.spells = {member: self._spells(member) for member in members}
        self.answers = self._answers()
        self.begin = min((spell.opened for spells in self.spells.values() for spell in spells), default=0)

    @property
    def begins_late(self) -> bool:
        """Whether the log has not the first frames of a member."""
        return any(spells[0].late_start for spells in self.spells.values() if spells)

    @functools.cached_property
    def opening(self) -> str:
        """The row that opens a member: who is told the members does not look for them."""
        looks = any(frame.heading.kind == "disc" and frame.heading.source in self.members for frame in self.frames)
        return "open" if looks or self.begins_late or len(self.members) == 1 else "copen"

    def _spells(self, member: int) -> List[Spell]:
        mine = [frame for frame in self.frames if frame.heading.source == member]
        groups: List[List[Tuple[int, Logged]]] = []
        for frame in mine:
            uptime = _uptime(frame.frame)
            if uptime is not None:
                if not groups or uptime <= groups[-1][-1][0]:
                    groups.append([])
                groups[-1].append((uptime, frame))
        frames: List[List[Logged]] = [[] for _ in groups]
        openings = [_opened(group) for group in groups]
        for frame in mine:
            if groups:
                before = (at for at, opened in enumerate(openings) if opened <= frame.stamp)
                frames[max(before, default=0)].append(frame)
        return [Spell(member, group, own) for group, own in zip(groups, frames) if own]

    def _answers(self) -> Dict[int, Optional[int]]:
        """For each last frame of a request to a member: the index of the answer's first frame, if the log has one."""
        waiting: Dict[Tuple[str, int, int, int], Logged] = {}
        found: Dict[int, Optional[int]] = {}
        for frame in self.frames:
            _, kind, source, destination = frame.heading
            if kind in wire.RESPONSES and frame.tail.ends and destination in self.members:
                waiting[(kind, source, destination, frame.tail.transfer_id)] = frame
                found[frame.index] = None
            elif kind in wire.REQUESTS and frame.tail.starts and source in self.members:
                request = waiting.pop((wire.REQUESTS[kind], destination, source, frame.tail.transfer_id), None)
                if request is not None and frame.stamp - request.stamp <= ANSWERED_WITHIN:
                    found[request.index] = frame.index
        return found


def _uptime(frame: wire.Frame) -> Optional[int]:
    """The seconds that a NodeStatus tells; None of another frame."""
    return wire.number(frame.data) if frame.heading.kind == "stat" and len(frame.data) == 8 else None


def without_repeats(records: List[Record]) -> Tuple[List[Record], List[int]]:
    """Takes out what was logged twice, and says which lines these are: frames that come again at once by another
    interface, a NodeStatus that comes again at once, and, where a third of all comes again at once, all that does. A
    single other frame that does is left: then it was on the bus twice, and no run has that."""
    last: Dict[wire.Frame, Record] = {}
    again = []
    for index, record in enumerate(records):
        before = last.get(record.frame)
        if before is not None and abs(record.stamp - before.stamp) <= REPEATED_WITHIN:
            again.append((index, before))
        last[record.frame] = record
    if 3 * len(again) < len(records):
        again = [
            (index, before)
            for index, before in again
            if records[index].interface != before.interface or records[index].frame.heading.kind == "stat"
        ]
    repeated = {index for index, _ in again}
    return (
        [record for index, record in enumerate(records) if index not in repeated],
        [records[index].line for index in sorted(repeated)],
    )
