"""Rows by which the members' stores come to what files have, so that a log of any power-on can be followed.

    before = prelude.bring(words, {1: store, 2: store, 3: store})   # CannotReach, where no such rows are found
    before.rows, before.lines, before.moment                        # the moment of the last row

A run begins with empty stores. So the terms of the files are gone through in their order. Whoever has a vote in one
stands, or asks for it. A member that has all entries of a term leads in it, with votes of members whose files allow it.
It records each entry of the term: a node with that node ID is heard, is asked for its unique ID, and tells it (zeros,
where the entry keeps the ID back). Each entry is handed on to the members whose files have it, and each is told what is
committed up to what its file says. Nothing is given to anybody else, and nobody else does anything. How an entry came
into a store (its origin) is not brought about: it is local, and changes no frame.

Whether the files are reached is looked at in the end, by opening each member once more.
"""
from __future__ import annotations

from dataclasses import dataclass, field
from typing import Dict, Iterator, List, NamedTuple, Optional, Sequence, Tuple

from .. import report, table, wire
from ..stores import Store
from .partner import Broken, Partner, Refused

MOST_ELECTIONS = 520_000  # by which terms are raised: as far as new stores begin, and some more
MOST_TRIES = 8  # with other leaders
EACH_NODE = 50  # milliseconds between two nodes: a member has sessions for some 80 of them at a time
TERM_AND_NO_VOTE = 9  # the device call of an election before which the term is stored, and no vote


class CannotReach(Exception):
    """No prelude was found that brings the stores to what the files have; it says why."""


class Offer(NamedTuple):
    """A transfer that a member put on the bus: what it is, and the numbers of its frames."""

    heading: wire.Heading
    transfer_id: int
    payload: bytes
    frames: List[int]


class Aim:
    """What the files have, and what follows for each term: the log of its leader."""

    def __init__(self, stores: Dict[int, Store]) -> None:
        self.members = sorted(stores)
        self.quorum = len(stores) // 2 + 1
        self.stores = stores
        # (without origins: these are local)
        self.logs = {member: [wire.Entry(*it[:3]) for it in store.entries] for member, store in stores.items()}
        terms = {entry.term for log in self.logs.values() for entry in log}
        self.terms = sorted(terms | {store.term for store in stores.values()} - {0})
        self.leads = {term: self._log_of(term) for term in sorted(terms)}

    def _log_of(self, term: int) -> List[wire.Entry]:
        """The longest log that ends in an entry of this term; all others have a prefix of it there."""
        parts = [[it for it in log if it.term <= term] for log in self.logs.values()]
        parts = [part for part in parts if part and part[-1].term == term]
        longest = max(parts, key=len)
        for part in parts:
            if part != longest[: len(part)]:
                place = next(at for at, (a, b) in enumerate(zip(part, longest), 1) if a != b)
                raise CannotReach(f"the stores have different entries of term {term} or before at place {place}")
        return longest

    def before(self, term: int) -> int:
        """How many entries a leader of this term has when it is elected."""
        return sum(entry.term < term for entry in self.leads[term])

    def begins_with_blank(self, term: int) -> bool:
        return self.leads[term][self.before(term)].node == 0

    def shares(self, member: int, term: int) -> int:
        """Up to which place a member's file has the log of the leader of this term; 0 where it takes no part."""
        if self.stores[member].term < term:
            return 0
        common = 0
        for mine, its in zip(self.logs[member], self.leads[term]):
            if mine != its:
                break
            common += 1
        return common

    def votes_with(self, member: int, term: int) -> int:
        """How many of its entries a member may have when it votes for the leader of this term: no better log."""
        before = self.leads[term][: self.before(term)]
        best = (before[-1].term if before else 0, len(before))
        log = self.logs[member]
        lasts = [0] + [entry.term for entry in log]
        return max(length for length, last in enumerate(lasts) if (last, length) <= best)

    def may_vote(self, member: int, term: int, candidate: int) -> bool:
        store = self.stores[member]
        return store.term > term or store.term == term and store.vote == candidate

    def leaders(self, term: int) -> List[int]:
        """Who may have led in this term, the likeliest first: whoever made an entry, whoever has votes."""

        def likely(member: int) -> Tuple[bool, int]:
            made = any(it.term == term and it.origin for it in self.stores[member].entries)
            votes = sum(store.term == term and store.vote == member for store in self.stores.values())
            return not made, -votes

        able = [
            member
            for member in self.members
            if self.may_vote(member, term, member)
            and self.shares(member, term) == len(self.leads[term])
            and sum(self.may_vote(other, term, member) for other in self.members) >= self.quorum
        ]
        return sorted(able, key=likely)


@dataclass
class Life:
    """A member of the prelude, as it is now."""

    running: bool = False
    term: int = 0
    last: int = 0
    commit: int = 0
    role: str = report.FOLLOWER
    queued: int = 0
    calls: Dict[int, Offer] = field(default_factory=dict)  # the latest call of a leader, by whom it is for


class Prelude:
    """The rows of one try: who leads in which term is chosen."""

    def __init__(self, partner: Partner, aim: Aim, leaders: Dict[int, int]) -> None:
        self.partner, self.aim, self.leaders = partner, aim, leaders
        self.voters = {term: self._voters(term, leader) for term, leader in leaders.items()}
        self.now = 0
        self.lives = {member: Life() for member in aim.members}
        self._transfers = wire.Transfers()
        self._numbers: Dict[int, List[int]] = {}  # by identifier: those of the frames of its last transfer

    def _voters(self, term: int, leader: int) -> List[int]:
        """Who votes for a leader: those whose files say so; and as many others as it needs, those first that then may
        have all their entries of before."""

        def lacks(member: int) -> int:
            return sum(entry.term < term for entry in self.aim.logs[member]) - self.aim.votes_with(member, term)

        stores = self.aim.stores
        forced = [it for it in stores if it != leader and (stores[it].term, stores[it].vote) == (term, leader)]
        others = [it for it in stores if it != leader and stores[it].term > term and not self._led_better(it, term)]
        needed = max(0, self.aim.quorum - 1 - len(forced))
        return forced + sorted(others, key=lacks)[:needed]

    def _led_better(self, member: int, term: int) -> bool:
        """Whether a member led before this term with a log that is better than that of this term's leader."""
        led = [other for other, leader in self.leaders.items() if leader == member and other < term]
        return any(len(self.aim.leads[other]) > self.aim.votes_with(member, term) for other in led)

    def _wants(self, member: int, term: int) -> int:
        """Up to which place a member takes the log of the leader of this term: what its file shares with it, and no
        more than what lets it vote later."""
        limits = [
            self.aim.votes_with(member, other)
            for other, voters in self.voters.items()
            if other > term and member in voters
        ]
        return min([self.aim.shares(member, term)] + limits)

    def run(self) -> int:
        for term in self.aim.terms:
            self._go_through(term)
        self._stop_all()
        self._compare()
        return self.now

    # --- rows

    def _step(self, member: int, row: str) -> List[Offer]:
        """A row that makes a step, and what the member then puts on the bus."""
        life, event = self.lives[member], self.partner.row(row)
        if isinstance(event, report.Plain) and event.word == "stop":
            self.lives[member] = Life()
            return []
        if not isinstance(event, report.Step):
            raise CannotReach(f"member {member} fails at '{row}'")
        life.role, life.term, life.last, life.commit = event.role, event.term, event.last, event.commit
        life.queued = event.queued
        return list(self._drain(member))

    def _drain(self, member: int) -> Iterator[Offer]:
        """What waits at a member comes on the bus."""
        life = self.lives[member]
        while life.queued:
            sent = self.partner.row(f"send {member}")
            if not isinstance(sent, report.Sent):
                raise Broken(f"the program says {sent} of a frame that waits")
            life.queued -= 1
            offer = self._join(sent)
            if offer is not None:
                if offer.heading.kind == "appq":
                    life.calls[offer.heading.destination] = offer
                yield offer

    def _join(self, sent: report.Sent) -> Optional[Offer]:
        frame = sent.frame
        if frame.tail.starts:
            self._numbers.pop(frame.identifier, None)
        numbers = self._numbers.setdefault(frame.identifier, [])
        numbers.append(sent.number)
        payload = self._transfers.take(None, frame)
        if not frame.tail.ends:
            return None
        if payload is None or len(payload) not in wire.SIZES.get(frame.heading.kind, ()):
            raise Broken(f"the program sends {frame}, which ends nothing that a member says")
        return Offer(frame.heading, frame.tail.transfer_id, payload, numbers)

    def _tick(self, member: int) -> List[Offer]:
        return self._step(member, f"tick {member} {self.now} 0")

    def _give(self, member: int, offer: Offer) -> List[Offer]:
        offered: List[Offer] = []
        for number in offer.frames:
            offered += self._step(member, f"rx {member} {number} {self.now}")
        return offered

    def _outside(self, member: int, source: int, name: str, transfer_id: int, payload: bytes) -> None:
        """A member hears a node."""
        identifier = wire.identifier_of(source, name, member if name == "info" else 0)
        for data in wire.cut(table.TRANSFERS[name].data_type, transfer_id, payload):
            told = self.partner.row(f"ext {identifier:08x} {data.hex()}")
            if not isinstance(told, report.Outside):
                raise Broken(f"the program says {told} of a frame from outside")
            self._step(member, f"rx {member} {told.number} {self.now}")

    def _stop_all(self) -> None:
        for member, life in self.lives.items():
            if life.running:
                self.partner.row(f"crash {member} 0 old")
            self.lives[member] = Life()

    def _open(self, member: int) -> report.Opening:
        opening = self.partner.row(f"open {member} {self.now} 0")
        if not isinstance(opening, report.Opening):
            raise CannotReach(f"member {member} does not open")
        self.lives[member] = Life(True, opening.term, opening.last, opening.commit)
        return opening

    def _open_all(self) -> None:
        """All members begin anew, and find each other."""
        self._stop_all()
        for member in self.aim.members:
            self._open(member)
        self.now += table.DISCOVERY_INTERVAL
        offered = [offer for member in self.aim.members for offer in self._tick(member)]
        for offer in offered:
            for member in self.aim.members:
                if offer.heading.kind == "disc" and member != offer.heading.source:
                    self._give(member, offer)

    # --- a term

    def _go_through(self, term: int) -> None:
        stores, leader = self.aim.stores, self.leaders.get(term)
        voters = {member: it.vote for member, it in stores.items() if it.term == term}
        standing = {vote for vote in voters.values() if vote} | ({leader} if leader else set())
        for candidate in standing:
            if candidate not in stores or not self.aim.may_vote(candidate, term, candidate):
                who = [member for member, vote in voters.items() if vote == candidate]
                why = f"voted for {candidate} in term {term}, which by its own file did not stand"
                raise CannotReach(f"member {' and '.join(map(str, who))} {why}")
        self._open_all()
        # (who leads stands last: its calls for votes are given up a second later)
        order = sorted(standing, key=lambda candidate: (candidate == leader, candidate))
        if self._raise_all(order, term - 1):
            self._open_all()
        asked = {candidate: self._stand(candidate, term) for candidate in order}
        for candidate, offers in asked.items():
            self._collect_votes(candidate, term, voters, offers)
        if leader is not None:
            self._lead(leader, term)
        for member, vote in voters.items():
            if not vote and self.lives[member].term < term:
                self._take_term_alone(member, term)

    def _raise_all(self, members: Sequence[int], term: int) -> bool:
        """Members come up to a term, where they are not there: one stands, and the others take it from its call."""
        behind = [member for member in members if self.lives[member].term < term]
        if len(behind) > 1:
            if self._raise(behind[0], term - 1):
                self._open_all()
            for offer in self._stand(behind[0], term):
                if offer.heading.kind == "voteq" and offer.heading.destination in behind:
                    self._give(offer.heading.destination, offer)
        for member in behind:
            self._raise(member, term)
        return bool(behind)

    def _raise(self, member: int, term: int) -> bool:
        """A member stands again and again, unheard, up to a term."""
        behind = term - self.lives[member].term
        if behind > MOST_ELECTIONS:
            raise CannotReach(f"member {member} would have to stand {behind:,} times to reach term {term + 1:,}")
        for _ in range(behind):
            self.now += table.ELECTION_WAIT
            self.partner.row(f"tick {member} {self.now} 0")
        return behind > 0

    def _stand(self, member: int, term: int) -> List[Offer]:
        self.now += table.ELECTION_WAIT
        offers = self._tick(member)
        if self.lives[member].term != term:
            raise CannotReach(f"member {member} does not stand for election in term {term}")
        return offers

    def _collect_votes(self, candidate: int, term: int, voters: Dict[int, int], offers: Sequence[Offer]) -> None:
        """Whose file says so votes; and where the candidate leads, so do as many others as it needs."""
        leads = self.leaders.get(term) == candidate
        calls = {it.heading.destination: it for it in offers if it.heading.kind == "voteq"}
        for member, offer in calls.items():
            mine = voters.get(member) == candidate
            helps = leads and member in self.voters[term]
            if not mine and not (helps and self.lives[candidate].role != report.LEADER):
                continue
            answers = [it for it in self._give(member, offer) if it.heading.kind == "vote"]
            granted = bool(answers) and bool(answers[0].payload[4] & 0x80)
            if mine and not granted:
                raise CannotReach(f"member {member} does not vote for {candidate} in term {term}, whose log has less")
            if leads and answers and self.lives[candidate].role != report.LEADER:
                self._give(candidate, answers[0])
        if leads and self.lives[candidate].role != report.LEADER:
            raise CannotReach(f"member {candidate} is not elected in term {term}")

    def _take_term_alone(self, member: int, term: int) -> None:
        """A member whose file has a term and no vote: it stands, and stops before it stores its vote."""
        if self._raise(member, term - 1):
            self._open_all()
        self.partner.row(f"crash {member} {TERM_AND_NO_VOTE} old")
        self.now += table.ELECTION_WAIT
        self._tick(member)

    # --- a leader

    def _cap(self, member: int, term: int) -> int:
        """Up to which place a member may know by the end of a term that entries are committed: what its file says; and
        where it later leads with a blank, not all that it has then."""
        later = [
            self.aim.before(other) - 1
            for other, leader in self.leaders.items()
            if other > term and leader == member and self.aim.begins_with_blank(other)
        ]
        return min([self.aim.stores[member].commit] + later)

    def _lead(self, leader: int, term: int) -> None:
        log, life = self.aim.leads[term], self.lives[leader]
        first = self.aim.before(term) + 1
        if (life.last == first) != self.aim.begins_with_blank(term):
            known = "not all" if self.aim.begins_with_blank(term) else "all"
            why = f"would have to know in term {term} that {known} of its entries are committed"
            raise CannotReach(f"member {leader} {why}")
        matched = {member: 0 for member in self.aim.members if member != leader}
        for member in matched:
            wanted = self._wants(member, term)
            if self.lives[member].last < wanted < first:
                self._hand_on(leader, member, term, wanted)
        for place in range(first, len(log) + 1):
            entry = log[place - 1]
            if place > life.last:
                if entry.node == 0:
                    raise CannotReach(f"the blank at place {place} is not the first entry of term {term}")
                self._record(leader, entry, place)
            answers = {
                member: self._hand_on(leader, member, term, place)
                for member in matched
                if self._wants(member, term) >= place
            }
            for member, answer in answers.items():
                having = 2 + sum(had >= place for it, had in matched.items() if it != member)
                commits = having >= self.aim.quorum
                if answer is not None and (not commits or place <= self._cap(leader, term)):
                    matched[member] = place
                    self._give(leader, answer)
            # (the call with the next entry tells it to those who get one)
            self._tell(leader, term, [it for it in answers if matched[it] == place == self._wants(it, term)])

    def _record(self, leader: int, entry: wire.Entry, place: int) -> None:
        """A node tells its unique ID, and the leader makes the entry of it."""
        unique_id, node = entry.unique_id, entry.node
        self.now += EACH_NODE
        self._outside(leader, node, "stat", 0, bytes([1]) + bytes(6))
        asked = [it for it in self._tick(leader) if it.heading.kind == "infoq" and it.heading.destination == node]
        if not asked:
            raise CannotReach(f"member {leader} does not ask node {node}, whose entry is at place {place}")
        told = bytes(24) + bytes.fromhex(unique_id) + bytes(1)
        self._outside(leader, node, "info", asked[0].transfer_id, told)
        self._tick(leader)
        if self.lives[leader].last != place:
            raise CannotReach(f"member {leader} does not record node {node} at place {place}")

    def _call(self, leader: int, member: int) -> Offer:
        call = self.lives[leader].calls.pop(member, None)
        for _ in range(2):
            if call is not None:
                return call
            self.now += table.CALL_TIMEOUT
            self._tick(leader)
            call = self.lives[leader].calls.pop(member, None)
        raise CannotReach(f"member {leader} does not call member {member}")

    def _hand_on(self, leader: int, member: int, term: int, place: int) -> Optional[Offer]:
        """A member gets the entry at a place, and those before it that it lacks. Its answer is not given yet."""
        while True:
            call = self._call(leader, member)
            ends = call.payload[8] + (len(call.payload) > 10)
            follows = call.payload[8] <= self.lives[member].last  # else it is refused, and changes nothing
            if follows and (ends > place or min(call.payload[9], ends) > self._cap(member, term)):
                raise CannotReach(f"member {member} would know more in term {term} than its file has at place {place}")
            answers = [it for it in self._give(member, call) if it.heading.kind == "app"]
            if not answers:
                raise CannotReach(f"member {member} does not answer member {leader}")
            if ends == place and answers[0].payload[4] & 0x80:
                return answers[0]
            self._give(leader, answers[0])

    def _tell(self, leader: int, term: int, members: List[int]) -> None:
        """Members are told what is committed, as far as their files know it."""
        for member in members:
            commit = self.lives[leader].commit
            if self.lives[member].commit >= commit or commit > self._cap(member, term):
                continue
            self.lives[leader].calls.pop(member, None)
            call = self._call(leader, member)
            for answer in self._give(member, call):
                if answer.heading.kind == "app":
                    self._give(leader, answer)

    def _compare(self) -> None:
        for member, store in self.aim.stores.items():
            wanted = report.Opening(store.term, store.vote, len(store.entries), store.commit)
            opening = self._open(member)
            if opening != wanted:
                has = f"comes to {_said(opening)}, and its file has {_said(wanted)}"
                raise CannotReach(f"the store of member {member} {has}")
        self._stop_all()


class Before(NamedTuple):
    """The rows of a prelude with their lines, and the moment of the last one."""

    rows: List[str]
    lines: List[str]
    moment: int


NOTHING = Before([], [], 0)  # for stores that are new


def _said(it: report.Opening) -> str:
    return f"term {it.term}, vote {it.vote}, {it.last} entries, {it.commit} committed"


def bring(words: List[str], stores: Dict[int, Store]) -> Before:
    """The rows, found by a program that is run by these words."""
    if not any(store.term or store.entries for store in stores.values()):
        return NOTHING
    aim = Aim(stores)
    able = {term: aim.leaders(term) for term in aim.leads}
    for term, members in able.items():
        if not members:
            raise CannotReach(f"by the terms and votes of the files nobody can have led in term {term} with its log")
    leaders = {term: members[0] for term, members in able.items()}
    reason = ""
    for _ in range(MOST_TRIES):
        partner = Partner(words)
        try:
            moment = Prelude(partner, aim, leaders).run()
            return Before(partner.rows, partner.lines, moment)
        except (CannotReach, Refused) as why:
            reason = reason or str(why)
        finally:
            partner.drop()
        others = [term for term in able if able[term].index(leaders[term]) + 1 < len(able[term])]
        if not others:
            break
        leaders[others[0]] = able[others[0]][able[others[0]].index(leaders[others[0]]) + 1]
    raise CannotReach(reason)
