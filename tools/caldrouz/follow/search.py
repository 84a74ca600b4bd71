"""From a log to a schedule: the search for a lawful run whose members send exactly the frames of the log. Not proved.

Each member is taken no further than its next frame in the log asks for: the frames of the bus that it must have had by
then are received, its clock is read, and the frame that it then sends is compared. Where that is another frame, less or
more is received before, or an earlier choice of this member is taken back. Only the program says what a row does.
"""
from __future__ import annotations

import functools
from dataclasses import dataclass
from typing import Callable, Dict, List, NamedTuple, Optional, Sequence, Tuple

from .. import wire
from . import plans
from .cluster import Cluster, Conflict, Foreign, Kept, Unlogged
from .partner import Broken, Partner, Refused
from .prelude import Before
from .recording import Logged, Recording

AFTER_THE_LAST = 500  # milliseconds after its last frame at which a member that opens again has stopped, it is taken
SILENT = 3000  # milliseconds before the end of the log without a frame of a member: it has stopped, it is taken
DELAYS = (20, 60, 0, 150)  # milliseconds by which a frame may be received before its stamp, the likeliest first
CHOICES = 1000  # places to which the search may go back
BEGINNINGS = 40  # how often the run is begun anew for one line of the log

OPEN, STOP = 0, 1
Key = Tuple[str, int]  # a place of the search: "frame" or "happening", and which
Progress = Callable[[int, int], None]  # is told which frame is looked for, of how many
Act = Callable[[Cluster, int], None]  # tries a plan of a member


class Happening(NamedTuple):
    """An opening or a stop of a member, by the stamp at which it is passed, for the spell at this place."""

    stamp: int
    place: int
    what: int
    node: int


class Choice(NamedTuple):
    """A place at which the search chose: it can go back there."""

    key: Key
    node: int
    kept: Kept
    happened: int
    number: int
    plans: int


@dataclass
class Failure:
    """The line of the log that is not explained, and why."""

    frame: Logged
    reason: str


@dataclass
class Found:
    """What a search found: the rows with their lines, the end of the report, and what is not explained, if anything. So
    many rows come before the log."""

    rows: List[str]
    lines: List[str]
    rest: List[str]
    unlogged: List[Unlogged]
    heard: bool
    before: int
    failure: Optional[Failure] = None


class NotExplained(Exception):
    """No run was found that goes on as the log does."""


class Search:
    """One search, with one delay of receipts, and one answer to what was heard before the log began."""

    def __init__(self, recording: Recording, partner: Partner, early: int, heard: bool, progress: Progress) -> None:
        self.recording, self.partner, self.progress = recording, partner, progress
        self.before = len(partner.rows)
        self.cluster = Cluster(recording, partner, early, heard)
        self.happened, self.happenings = 0, _happenings(recording)
        self.choices: List[Choice] = []
        self.chosen: Dict[Key, int] = {}
        self.reasons: Dict[Key, str] = {}
        self.blamed: Optional[int] = None
        self.furthest, self.beginnings = -1, 0
        self.found: Optional[Found] = None

    def follow(self) -> Found:
        """Goes through the log. What is found has a failure where a line is not explained."""
        try:
            if self.cluster.heard:
                self._warm_up()
            while self._go_on():
                pass
            self._finish()
            return self._note(None, self.partner.end())
        except NotExplained:
            self.partner.drop()
            assert self.found
            return self.found
        except (Conflict, Refused) as reason:  # of a row that each program takes, and in one way
            raise Broken(str(reason)) from None

    def _note(self, failure: Optional[Failure], rest: Sequence[str] = ()) -> Found:
        rows, lines, unlogged = list(self.partner.rows), list(self.partner.lines), list(self.cluster.unlogged)
        self.found = Found(rows, lines, list(rest), unlogged, self.cluster.heard, self.before, failure)
        return self.found

    def _fail(self, frame: Logged, reason: str) -> NotExplained:
        self._note(Failure(frame, reason))
        return NotExplained()

    def _go_on(self) -> bool:
        """Passes the next frame or happening, or goes back. False at the end of the log."""
        cluster, frames = self.cluster, self.recording.frames
        self.progress(cluster.index, len(frames))
        frame = frames[cluster.index] if cluster.index < len(frames) else None
        happening = self.happenings[self.happened] if self.happened < len(self.happenings) else None
        if happening and (frame is None or happening.stamp <= frame.stamp):
            key, node = ("happening", self.happened), happening.node
            tried: List[Act] = [functools.partial(Cluster.open, place=happening.place)]
            if happening.what == STOP:
                tried = [plan.act for plan in plans.of_stop(cluster, node)]
        elif frame is None:
            return False
        elif frame.heading.source in cluster.recording.members:
            key, node = ("frame", cluster.index), frame.heading.source
            tried = [plan.act for plan in plans.of_frame(cluster, frame)]
        else:
            try:
                cluster.outside(frame)
            except Foreign as reason:
                raise self._fail(frame, str(reason)) from None
            cluster.index += 1
            return True
        if self._choose(key, node, tried):
            cluster.index += key[0] == "frame"
            self.happened += key[0] == "happening"
            return True
        self._note_failure(frame or frames[-1], key)
        if not self._go_back(key, node):
            raise NotExplained
        return True

    def _note_failure(self, frame: Logged, key: Key) -> None:
        """Keeps how far the run came, where it came no further before."""
        if self.cluster.index > self.furthest:
            self.furthest, self.beginnings = self.cluster.index, self.partner.beginnings
            unasked = f"member {frame.heading.source} was not asked for it, or gave it already"
            is_answer = frame.heading.kind in wire.REQUESTS
            reason = self.reasons.get(key, unasked if is_answer else "it is not what this member has next")
            self._note(Failure(frame, reason))

    def _choose(self, key: Key, node: int, tried: Sequence[Act]) -> bool:
        """Takes the first plan that goes, of those that were not taken back."""
        kept, first, self.blamed = self.cluster.keep(), self.chosen.get(key, 0), None
        for number in range(first, len(tried)):
            try:
                tried[number](self.cluster, node)
            except (Conflict, Refused) as reason:
                self.reasons.setdefault(key, str(reason))
                self.blamed = reason.row if isinstance(reason, Conflict) and len(tried) == 1 else None
                self.cluster.restore(kept)
                continue
            self.chosen[key] = number
            if len(tried) > 1:
                self.choices.append(Choice(key, node, kept, self.happened, number, len(tried)))
                del self.choices[:-CHOICES]
            return True
        return False

    def _go_back(self, key: Key, node: int) -> bool:
        """To the latest choice of this member that has another plan, and that may change what did not fit."""
        while self.choices and self.partner.beginnings - self.beginnings < BEGINNINGS:
            choice = self.choices.pop()
            if choice.node != node or self.blamed is not None and choice.kept.rows > self.blamed:
                continue
            self.chosen.pop(key, None)
            if choice.number + 1 < choice.plans:
                self.cluster.restore(choice.kept)
                self.happened = choice.happened
                self.chosen[choice.key] = choice.number + 1
                return True
            self.chosen.pop(choice.key, None)
            key = choice.key
        return False

    # --- before and behind the log

    def _warm_up(self) -> None:
        """What the members did before the log began: they found each other, and told that they were there."""
        frames = self.recording.frames
        if not frames:
            return
        try:
            while self.happened < len(self.happenings) and self.happenings[self.happened].stamp <= frames[0].stamp:
                happening = self.happenings[self.happened]
                if happening.what == OPEN:
                    self.cluster.open(happening.node, happening.place)
                self.happened += 1
            while self._warm_up_one():
                pass
        except (Conflict, Refused) as reason:
            raise self._fail(frames[0], str(reason)) from None

    def _warm_up_one(self) -> bool:
        """The member whose NodeStatus is due next before the log began makes it. False where none is."""
        cluster = self.cluster
        due = [
            (member.status_due(), member.node)
            for member in cluster.members.values()
            if member.running and member.uptime < min(member.spell.statuses)
        ]
        if not due:
            return False
        moment, node = min(due)
        member = cluster.members[node]
        for position in cluster.inbox(member):
            if cluster.moment(cluster.bus[position].stamp) + cluster.early <= moment:
                cluster.receive(member, position)
        cluster.tick(member, moment)
        cluster.send_unshown(member)
        return True

    def _finish(self) -> None:
        """What is left on the bus is received; whoever was not heard for long is taken to have stopped."""
        cluster, frames = self.cluster, self.recording.frames
        end = frames[-1].stamp if frames else 0
        for member in cluster.members.values():
            if member.running and member.spell.last.stamp < end - SILENT:
                cluster.stop(member)
        for node in cluster.members:
            member = cluster.members[node]
            for position in cluster.inbox(member) if member.running else []:
                kept = cluster.keep()
                try:
                    cluster.receive(cluster.members[node], position)
                except (Conflict, Refused):
                    cluster.restore(kept)
                    break


def _happenings(recording: Recording) -> List[Happening]:
    """In their order; of a member in turn, also where the stamps are not."""
    found = []
    for node, spells in recording.spells.items():
        stamp = spells[0].opened if spells else 0
        for place, spell in enumerate(spells):
            stamp = max(stamp, spell.opened)
            found.append(Happening(stamp, place, OPEN, node))
            if place + 1 < len(spells):
                stamp = max(stamp, min(spell.last.stamp + AFTER_THE_LAST, spells[place + 1].opened))
                found.append(Happening(stamp, place, STOP, node))
    return sorted(found)


def search(recording: Recording, words: List[str], before: Before, progress: Progress) -> Found:
    """The run that goes furthest, of those by different delays; the first that explains the whole log."""
    recording.begin -= before.moment
    failed: Dict[int, Found] = {}  # by the index of the frame that is not explained
    for heard in (False, True) if recording.begins_late else (False,):
        for early in DELAYS:
            partner = Partner(words, before.rows, before.lines)
            found = Search(recording, partner, early, heard, progress).follow()
            if found.failure is None:
                return found
            failed.setdefault(found.failure.frame.index, found)
    return failed[max(failed)]
