"""What may be tried so that the run goes on as the log does, the likeliest first, and how it is tried."""
from __future__ import annotations

from typing import List, NamedTuple, Set, Tuple

from .. import wire
from .cluster import Cluster, Conflict
from .member import Member
from .recording import Logged

SURE = 100  # milliseconds before a frame's stamp: what was on the bus by then, its sender had received
EARLY = 250  # how much earlier than the stamp says a frame may have been made
MOST_CALLS = 60  # device calls of a step after which a stop is looked for


class Plan(NamedTuple):
    """What a member does for its next frame of the log: it receives the frames of the bus at these positions, and loses
    others. `how`: "send", what waits is sent; "rx", a receipt makes the frame; "elect", so does the last one, behind an
    election; "tick", a tick makes it behind all receipts; "any", a tick or a receipt."""

    frame: Logged
    how: str
    positions: List[int]
    lost: List[int]

    def act(self, cluster: Cluster, node: int) -> None:
        """Takes the member to where it sends the frame."""
        member = cluster.members[node]
        if self.lost:
            member.skipped = member.skipped | frozenset(self.lost)
        if self.how != "tick" and cluster.is_sent(member, self.frame):
            return
        for position in self.positions:
            if self._receive(cluster, member, position):
                return
        if self.how in ("any", "tick"):
            self._tick(cluster, member)
        if not cluster.is_sent(member, self.frame):
            raise Conflict(
                f"no run of member {node} has it there (it is {member.role} of term {member.term}"
                + (f", and {len(member.queue)} transfers wait)" if member.queue else ")")
            )

    def _receive(self, cluster: Cluster, member: Member, position: int) -> bool:
        """Whether the frame is sent before or at this receipt."""
        if self.how == "elect" and position == self.positions[-1]:
            election = cluster.next_election(member)
            if election is None:
                raise Conflict("the log has no election of it there")
            cluster.elect(member, election)
        elif self.how == "any" and self._tick_when_due(cluster, member, position):
            return True
        cluster.receive(member, position)
        return self.how != "tick" and cluster.is_sent(member, self.frame)

    def _tick_when_due(self, cluster: Cluster, member: Member, position: int) -> bool:
        """Ticks where the frame is due before this receipt, and says whether it is sent then."""
        moment = cluster.clock(member, cluster.bus[position].stamp) - cluster.early
        for due in member.due(self.frame):
            if member.clock <= due <= min(moment, member.bound(cluster.index)):
                cluster.tick(member, due)
                if cluster.is_sent(member, self.frame):
                    return True
        return False

    def _tick(self, cluster: Cluster, member: Member) -> None:
        for moment in self._moments(cluster, member):
            if cluster.is_sent(member, self.frame):
                return
            cluster.tick_unshown(member, moment)
            if cluster.is_sent(member, self.frame):
                return
            cluster.tick_calls(member, moment)
            if not cluster.is_sent(member, self.frame):
                cluster.tick(member, moment)

    def _moments(self, cluster: Cluster, member: Member) -> List[int]:
        """The moments at which a tick may make the frame, the likeliest first."""
        kind, data = self.frame.heading.kind, self.frame.frame.data
        if kind == "stat":
            return [member.opened + 1000 * wire.number(data)]
        if kind == "voteq" and self.frame.tail.starts and wire.number(data, 2) > member.term:
            cluster.elect(member, self.frame)
            return []
        clock, bound, due = cluster.clock(member, self.frame.stamp), member.bound(cluster.index), member.due(self.frame)
        first = max([clock - EARLY] + [moment for moment in due if moment <= clock])
        moments = [first, clock] + sorted(moment for moment in due if moment > clock)
        return list(dict.fromkeys(max(member.clock, min(moment, bound)) for moment in moments))


class Stop(NamedTuple):
    """A member stops after the frames at these positions; with calls, inside the step of the next one."""

    positions: List[int]
    inside: int
    calls: int

    def act(self, cluster: Cluster, node: int) -> None:
        member = cluster.members[node]
        for position in self.positions:
            cluster.receive(member, position)
            cluster.send_unshown(member)
        if not self.calls:
            cluster.stop(member)
            return
        cluster.partner.row(f"crash {node} {self.calls} new")
        cluster.receive(member, self.inside)
        if member.running:
            raise Conflict("the step has fewer device calls")


# --- which plans there are


def of_stop(cluster: Cluster, node: int) -> List[Stop]:
    member = cluster.members[node]
    inbox = cluster.inbox(member)
    counts = _counts(cluster, inbox, member.spell.last.stamp, 1)
    plans = [Stop(inbox[:count], 0, 0) for count in counts]
    for count in counts:
        if count < len(inbox) and _may_store(cluster, inbox[count]):
            plans += [Stop(inbox[:count], inbox[count], calls) for calls in range(3, MOST_CALLS, 4)]
    return plans


def _may_store(cluster: Cluster, position: int) -> bool:
    frame = cluster.bus[position].frame
    return frame.heading.kind in ("voteq", "appq", "vote", "app", "alloc") and frame.tail.ends


def _counts(cluster: Cluster, inbox: List[int], stamp: int, sign: int) -> List[int]:
    """How many frames of the inbox may have been received by this stamp, the likeliest first."""
    sure = sum(cluster.bus[position].stamp <= stamp - SURE for position in inbox)
    return sorted(range(len(inbox) + 1), key=lambda count: (abs(count - sure), sign * count))


def of_frame(cluster: Cluster, frame: Logged) -> List[Plan]:
    """What may be tried so that this frame is its member's next."""
    member, kind = cluster.members.get(frame.heading.source), frame.heading.kind
    if member is None or not member.running or frame.spell is not member.spell:
        return []
    if member.queue and member.queue[0].is_of(frame) or not frame.tail.starts and not member.spell.late_start:
        return [Plan(frame, "send", [], [])]
    inbox = cluster.inbox(member)
    if kind in wire.REQUESTS:
        return _of_answer(cluster, member, frame, inbox)
    answered = (count for count, position in enumerate(inbox) if cluster.is_answered_later(position))
    allowed = inbox[: next(answered, len(inbox))]
    if member.spell.late_start and frame is member.spell.first and not cluster.heard:
        cuts = [len(inbox) - count for count in range(len(inbox) + 1)]
        return [Plan(frame, "tick", inbox[at:], inbox[:at]) for at in cuts]
    first = [Plan(frame, "any", allowed, [])] if kind in ("appq", "alloc") else []
    ticks = [Plan(frame, "tick", allowed[:count], []) for count in _counts(cluster, allowed, frame.stamp, -1)]
    return first + ticks + _with_losses(cluster, frame, allowed, "tick")


def _of_answer(cluster: Cluster, member: Member, frame: Logged, inbox: List[int]) -> List[Plan]:
    """All up to the request is received; else without one or the other of the requests that nobody answered."""
    request = None
    for count, position in enumerate(inbox):
        heading, tail = cluster.bus[position].frame.heading, cluster.bus[position].frame.tail
        asks = heading.kind == wire.REQUESTS[frame.heading.kind] and heading.source == frame.heading.destination
        if asks and tail.ends and tail.transfer_id == frame.tail.transfer_id:
            request = count
    if request is None:
        return []
    inbox = inbox[: request + 1]
    plans = [Plan(frame, "rx", inbox, [])]
    if cluster.next_election(member):
        plans.append(Plan(frame, "elect", inbox, []))
    return plans + _with_losses(cluster, frame, inbox, "rx")


def _with_losses(cluster: Cluster, frame: Logged, inbox: List[int], how: str) -> List[Plan]:
    """One transfer of those that were on the bus was not received by this member, the latest first."""

    def transfer(position: int) -> Tuple[int, int]:
        return cluster.bus[position].frame.identifier, cluster.bus[position].frame.tail.transfer_id

    plans: List[Plan] = []
    seen: Set[Tuple[int, int]] = set()
    for position in reversed(inbox):
        key, logged = transfer(position), cluster.bus[position].logged
        if key in seen or logged is not None and cluster.recording.answers.get(logged) is not None:
            continue
        seen.add(key)
        lost = [other for other in inbox if transfer(other) == key]
        plans.append(Plan(frame, how, [other for other in inbox if other not in lost], lost))
    return plans
