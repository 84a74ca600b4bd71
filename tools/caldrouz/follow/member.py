"""What is known of a member of the run: what it has queued and counted, and what its clock says. Not proved."""
from __future__ import annotations

import copy
from typing import Dict, FrozenSet, List, NamedTuple, Optional, Tuple

from .. import report, table, wire
from .recording import Logged, Spell

LONGEST_WORD = table.ELECTION_SPREAD - 1  # of a wait before an election
# milliseconds after the last one of a kind at which the next may be due
DUE_AGAIN = {
    "appq": (table.HEARTBEAT_INTERVAL, table.CALL_TIMEOUT),
    "voteq": (table.CALL_TIMEOUT,),
    "infoq": (table.QUERY_INTERVAL,),
    "disc": (table.DISCOVERY_INTERVAL,),
}
CALLER = {"appq": report.LEADER, "infoq": report.LEADER, "voteq": report.CANDIDATE}  # who makes such a call again
NEVER = 10**9  # milliseconds: later than anything of a log


class Queued(NamedTuple):
    """A transfer that waits for the bus, the moment at which it was offered, and the place of the row that did."""

    identifier: int
    transfer_id: int
    name: str
    moment: int
    row: int

    def is_of(self, frame: Logged) -> bool:
        return (self.identifier, self.transfer_id) == (frame.frame.identifier, frame.tail.transfer_id)


class Member:
    """A member of the run, from an opening on. Moments are those of the run."""

    def __init__(self, node: int, spell: Spell, opened: int, term: int, row: int, at: int) -> None:
        self.node, self.spell, self.running = node, spell, True
        self.opened = self.clock = opened
        self.since = opened  # the beginning of its wait for an election
        self.uptime = 1  # of the NodeStatus that is due next
        self.role, self.term = report.FOLLOWER, term
        self.queue: List[Queued] = []  # as they will be sent
        self.counters: Dict[int, int] = {}  # by identifier: the next transfer ID
        self.made: Dict[int, int] = {}  # by identifier: when the last one was offered
        self.at = at  # it was given what it needs of the frames of the bus before this position,
        self.skipped: FrozenSet[int] = frozenset()  # and lost these behind it
        self.word_row: Optional[int] = row  # the row whose word its wait for an election follows from
        self.word = LONGEST_WORD

    def copy(self) -> Member:
        other = copy.copy(self)
        other.queue, other.counters, other.made = list(self.queue), dict(self.counters), dict(self.made)
        return other

    def stop(self) -> None:
        self.running, self.queue, self.word_row = False, [], None

    def offer(self, name: str, destination: int, row: int, request: Optional[wire.Frame]) -> None:
        """It queued a transfer; an answer has the transfer ID of its request."""
        identifier = wire.identifier_of(self.node, name, destination)
        if name in wire.REQUESTS and request is not None:
            transfer_id = request.tail.transfer_id
        else:
            transfer_id = self.counters.get(identifier, 0)
            self.counters[identifier] = (transfer_id + 1) % table.TRANSFER_IDS
        place = len(self.queue)
        while place and self.queue[place - 1].identifier > identifier:
            place -= 1
        self.queue.insert(place, Queued(identifier, transfer_id, name, self.clock, row))
        self.made[identifier] = self.clock
        self.uptime += name == "stat"

    def status_due(self) -> int:
        return self.opened + table.STATUS_INTERVAL * self.uptime

    def due(self, frame: Logged) -> List[int]:
        """The moments at which calls and messages of the kind of this frame are due again."""
        made, kind = self.made.get(frame.frame.identifier), frame.heading.kind
        if made is None:
            return [self.opened + table.DISCOVERY_INTERVAL] if kind == "disc" else []
        return [made + step for step in DUE_AGAIN.get(kind, ())]

    def calls_due(self) -> List[Tuple[int, int]]:
        """When calls may be due again, as (moment, identifier), where the clock has not passed it."""
        found = []
        for identifier, made in self.made.items():
            kind = wire.read_heading(identifier).kind
            if CALLER.get(kind) == self.role:
                for step in DUE_AGAIN[kind]:
                    if made + step > self.clock:
                        found.append((made + step, identifier))
        return found

    def before_calls(self) -> int:
        """The last moment before a call may be due: a tick makes it, as ticks come more often."""
        return min((due for due, _ in self.calls_due()), default=self.clock + NEVER) - 1

    def bound(self, index: int) -> int:
        """The last moment before the NodeStatus that the log has next of this member, from this index on."""
        status = self.spell.statuses.get(self.uptime)
        if status is None or status < index:
            return self.clock + NEVER
        return max(self.clock, self.status_due() - 1)
