"""The run so far: what its members have done, and the rows that carry it on. Only the program says what a row does."""
from __future__ import annotations

import itertools
from typing import Dict, List, NamedTuple, Optional, Tuple

from .. import report, wire
from ..report import Opening, Outside, Plain, Sent, Step
from ..table import ELECTION_WAIT
from .member import LONGEST_WORD, Member, Queued
from .partner import Partner, Refused
from .recording import LATE, SOON, Logged, Recording

AFTER_DUE = 100  # milliseconds after which the log shows a call that was made when it was due
NEAR = 500  # milliseconds of the log in which an election may show later than an answer that was given in it


class Conflict(Exception):
    """The run that was tried does not go on as the log does. What no choice after a row can change has this row."""

    def __init__(self, reason: str, row: Optional[int] = None) -> None:
        super().__init__(reason)
        self.row = row


class Foreign(Exception):
    """A frame of another node that no lawful run has."""


class OnBus(NamedTuple):
    """A frame on the bus of the run: its number there, and where the log has it, if it does."""

    number: int
    frame: wire.Frame
    stamp: int
    logged: Optional[int]
    heard: bool = True


Unlogged = Tuple[int, int, wire.Frame]  # a row, its member, and a frame of the run that never came to the log


class Kept(NamedTuple):
    """The run as it was at some place."""

    rows: int
    frames: int
    unlogged: int
    sought: int
    members: Dict[int, Member]


class Cluster:
    """`index` is the frame of the log that is looked for. `early`: how many milliseconds before its stamp a frame is
    received, as a member takes a frame at a reading of its clock from before; `heard`: whether what a member sent
    before its first frame in the log was heard by the others (the log began late), or not (the member came to the bus
    late)."""

    def __init__(self, recording: Recording, partner: Partner, early: int, heard: bool) -> None:
        self.recording, self.partner, self.early, self.heard = recording, partner, early, heard
        self.members: Dict[int, Member] = {}
        self.bus: List[OnBus] = []
        self.unlogged: List[Unlogged] = []
        self.index = 0

    def keep(self) -> Kept:
        members = {node: member.copy() for node, member in self.members.items()}
        return Kept(len(self.partner.rows), len(self.bus), len(self.unlogged), self.index, members)

    def restore(self, kept: Kept) -> None:
        self.partner.take_back(kept.rows)
        del self.bus[kept.frames :], self.unlogged[kept.unlogged :]
        self.index = kept.sought
        self.members = {node: member.copy() for node, member in kept.members.items()}
        for member in self.members.values():
            if member.word_row is not None:
                self._set_word(member, member.word)

    # --- moments

    def moment(self, stamp: int) -> int:
        return max(0, stamp - self.recording.begin)

    def clock(self, member: Member, stamp: int) -> int:
        return self.moment(member.spell.clock(stamp))

    # --- rows

    def outside(self, logged: Logged) -> None:
        """A frame of another node, or of a device."""
        try:
            event = self.partner.row(f"ext {logged.frame.identifier:08x} {logged.frame.data.hex()}")
        except Refused:
            raise Foreign(
                "a frame from outside may not be of a type that members send each other, nor an "
                "Allocation with a source: another cluster or allocator is on this bus"
            ) from None
        if not isinstance(event, Outside):
            raise Conflict(f"the run has {event} there")
        self.bus.append(OnBus(event.number, logged.frame, logged.stamp, logged.index))

    def open(self, node: int, place: int) -> None:
        """A member opens, for the spell at this place of the log."""
        spell = self.recording.spells[node][place]
        opened, row = self.moment(spell.opened), len(self.partner.rows)
        event = self.partner.row(f"{self.recording.opening} {node} {opened} {LONGEST_WORD}")
        if not isinstance(event, Opening):
            raise Conflict(f"the run has {event} there")
        self.members[node] = Member(node, spell, opened, event.term, row, len(self.bus))

    def stop(self, member: Member) -> None:
        self.partner.row(f"crash {member.node} 0 old")
        member.stop()

    def _step(self, member: Member, row: str, request: Optional[wire.Frame] = None) -> Optional[Step]:
        """A row that makes a step. What it offers is in the queue then. None where the member stopped in it."""
        role = member.role
        step = self.partner.row(row)
        if step == Plain("stop"):
            member.stop()
            return None
        if not isinstance(step, Step):
            raise Conflict(f"the run has {step} there")
        member.role, member.term = step.role, step.term
        for mark in step.marks:
            if mark.fitted:
                member.offer(mark.name, mark.destination, len(self.partner.rows) - 1, request)
        if member.role == report.FOLLOWER and role != report.FOLLOWER:
            member.since = member.clock
        return step

    def tick(self, member: Member, moment: int) -> None:
        member.clock = max(member.clock, moment)
        term, row = member.term, len(self.partner.rows)
        step = self._step(member, f"tick {member.node} {member.clock} {LONGEST_WORD}")
        if step is None or member.term <= term:
            return
        member.since, member.word_row, member.word = member.clock, row, LONGEST_WORD
        for mark in step.marks:
            if mark.fitted and mark.name == "voteq":
                identifier = wire.identifier_of(member.node, "voteq", mark.destination)
                if not self._shown(member, identifier, (member.counters[identifier] - 1) % 32):
                    raise Conflict(f"the run has an election of term {member.term} there, of which the log has nothing")

    def receive(self, member: Member, position: int) -> None:
        on_bus = self.bus[position]
        moment = self.clock(member, on_bus.stamp) - self.early
        self.tick_unshown(member, moment)
        member.clock = max(member.clock, min(moment, member.bound(self.index), member.before_calls()))
        term = member.term
        step = self._step(member, f"rx {member.node} {on_bus.number} {member.clock}", on_bus.frame)
        member.at = position + 1
        if step is None:
            return
        answers = any(mark.fitted and mark.name == "app" for mark in step.marks)
        kind = on_bus.frame.heading.kind
        if kind == "appq" and answers and self._term_of(position) >= term:
            member.since = member.clock
        # (of a last frame of a request that the log has without an answer)
        unanswered = on_bus.logged is not None and self.recording.answers.get(on_bus.logged, 0) is None
        if kind in wire.RESPONSES and step.seen == "took" and unanswered:
            self.send_unshown(member)

    def _term_of(self, position: int) -> int:
        """The term in a request of more than one frame that ends at this position of the bus."""
        identifier = self.bus[position].frame.identifier
        for at in range(position, -1, -1):
            frame = self.bus[at].frame
            if frame.identifier == identifier and frame.tail.starts:
                return wire.number(frame.data, 2)
        return 0

    def _send(self, member: Member) -> Sent:
        """The next frame of the queue comes on the bus."""
        sent, head = self.partner.row(f"send {member.node}"), member.queue[0]
        if not isinstance(sent, Sent) or sent.frame.identifier != head.identifier:
            raise Conflict("the run sends another frame than its marks say")
        if sent.frame.tail.ends:
            del member.queue[0]
        if head.name == "vote" and sent.frame.data[4] & 0x80:
            member.since = max(member.since, head.moment)
        return sent

    def send_unshown(self, member: Member) -> None:
        """Sends what waits at the head of the queue and never came to the log."""
        while member.queue and not self._is_shown(member, member.queue[0]):
            self._send_one_unshown(member)

    def _send_one_unshown(self, member: Member) -> None:
        sent = self._send(member)
        stamp = self.recording.begin + member.clock
        heard = self.heard or not member.spell.late_start or stamp >= member.spell.first.stamp
        self.unlogged.append((len(self.partner.rows), member.node, sent.frame))
        self.bus.append(OnBus(sent.number, sent.frame, stamp, None, heard))

    def is_sent(self, member: Member, logged: Logged) -> bool:
        """Whether the member's next frame is this one; it is sent then, after what never came to the log."""
        if self.bus and self.bus[-1].logged == logged.index:
            return True
        while member.queue:
            head = member.queue[0]
            if head.is_of(logged):
                sent = self._send(member)
                if sent.frame == logged.frame:
                    self.bus.append(OnBus(sent.number, sent.frame, logged.stamp, logged.index))
                    return True
                if logged.tail.starts or sent.frame.tail.ends:
                    raise Conflict(f"the run has {sent.frame} there", head.row)
                self.unlogged.append((len(self.partner.rows), member.node, sent.frame))
                self.bus.append(OnBus(sent.number, sent.frame, logged.stamp, None))
            elif self._is_shown(member, head):
                before = head.identifier < logged.frame.identifier
                if before or any(queued.is_of(logged) for queued in member.queue):
                    raise Conflict("another frame comes before it, which the log has later")
                return False
            else:
                self._send_one_unshown(member)
        return False

    # --- what the log says of a member

    def _is_shown(self, member: Member, queued: Queued) -> bool:
        return self._shown(member, queued.identifier, queued.transfer_id)

    def _shown(self, member: Member, identifier: int, transfer_id: int) -> bool:
        """Whether the log has this transfer of the member soon. One that it has much later is not offered yet."""
        frames = self.recording.frames
        if self.index >= len(frames):
            return False
        when = member.spell.next(identifier, transfer_id, self.index, frames[self.index].stamp)
        if when == LATE and wire.read_heading(identifier).kind not in wire.REQUESTS:
            raise Conflict(f"the run has a transfer {identifier:08x} there that the log has much later")
        return when == SOON

    def inbox(self, member: Member) -> List[int]:
        """The positions on the bus of the frames that are for this member and that it was not given yet."""
        found = []
        for position in range(member.at, len(self.bus)):
            on_bus = self.bus[position]
            _, kind, source, destination = on_bus.frame.heading
            if source == member.node or not on_bus.heard or position in member.skipped:
                continue
            if destination == member.node or kind in ("stat", "disc") or kind == "alloc" and not source:
                found.append(position)
        return found

    def is_answered_later(self, position: int) -> bool:
        """Whether the log has the answer to this frame, behind the frame that is looked for."""
        logged = self.bus[position].logged
        answer = None if logged is None else self.recording.answers.get(logged)
        return answer is not None and answer > self.index

    # --- ticks

    def tick_calls(self, member: Member, moment: int) -> None:
        """Ticks at the moments before this one at which calls are due, where the log has the call then."""
        for due, identifier in sorted(member.calls_due()):
            shown = member.spell.begins(identifier, member.counters[identifier], self.index)
            if member.clock < due < moment and shown is not None and self.clock(member, shown) <= due + AFTER_DUE:
                self.tick(member, due)

    def tick_unshown(self, member: Member, moment: int) -> None:
        """Ticks for each NodeStatus up to this moment that never came to the log."""
        shown = member.spell.statuses
        while member.uptime not in shown and member.uptime < max(shown) and member.status_due() <= moment:
            self.tick(member, member.status_due())
            self.send_unshown(member)

    # --- elections

    def next_election(self, member: Member) -> Optional[Logged]:
        """The first frame by which the log shows the next election of this member, where it is near; else None."""
        frames = self.recording.frames
        for frame in itertools.islice(frames, self.index, None):
            if frame.stamp > frames[self.index].stamp + NEAR:
                break
            if frame.heading.source == member.node and frame.heading.kind == "voteq" and frame.tail.starts:
                return frame if wire.number(frame.frame.data, 2) > member.term else None
        return None

    def elect(self, member: Member, frame: Logged) -> None:
        """A tick at which the member stands for election. The word that it had before makes it wait until then."""
        moment = max(member.clock, min(self.clock(member, frame.stamp), member.bound(self.index)))
        wait = moment - member.since
        if wait < ELECTION_WAIT:
            raise Conflict(
                f"it asks for votes {wait} ms after it had a reason to wait, which lasts {ELECTION_WAIT} ms or more"
            )
        self._set_word(member, min(LONGEST_WORD, wait - ELECTION_WAIT))
        self.tick(member, moment)

    def _set_word(self, member: Member, word: int) -> None:
        """The word from which the member's wait follows, in the row that gave it."""
        assert member.word_row is not None
        head, _, old = self.partner.rows[member.word_row].rpartition(" ")
        if int(old) != word:
            self.partner.change(member.word_row, f"{head} {word}")
        member.word = word
