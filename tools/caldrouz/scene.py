"""What can be heard on a bus about its nodes, its allocators and the devices that ask them. Not proved.

    scene = scene.Scene()
    events = scene.take(12.5, frame)      # at a moment in seconds: what this frame tells that is new, mostly nothing
    events = scene.pass_time(13.0)        # what is so since nothing came
    scene.members(), scene.nodes[50], scene.leader(), scene.requests

It keeps no more than a bounded number of whatever comes again and again, so it can listen for months.
"""
from __future__ import annotations

from collections import deque
from dataclasses import dataclass, field
from typing import Deque, Dict, Iterable, List, NamedTuple, Optional, Set, Tuple, Union

from . import table, wire

ONLINE = table.ONLINE_TIMEOUT / 1000  # seconds for which a node is there after its NodeStatus
ALL_CALLED = 1.5  # seconds after which a leader has called each member
LEADS_FOR = 2.5  # seconds for which who called as a leader is taken to lead
LATE_CALL = 0.9 * table.CALL_TIMEOUT / 1000  # seconds after a call that was answered in which the next one is due
JITTER = 1.5  # seconds by which the openings that uptimes tell may differ, as they are whole seconds
LATE = 5.0  # seconds by which a NodeStatus may be late
REPEATS = 4  # so many more transfer IDs that do not go on than half of all are those of two nodes
KEPT = 256  # of requests and answers
FEW = 32  # of what is kept of each node
TWICE_WITHIN = 0.1  # seconds within which the same frame is no new one
ALLOCATOR_NAME = "uavcan.allocator"  # what a member answers to GetNodeInfo
HIGHEST_TERM = (1 << 32) - 1
WILD_STEP = 1_000_000  # by so much no term rises at once
HEALTH = "ok", "warning", "error", "critical"
MODES = {0: "operational", 1: "initialization", 2: "maintenance", 3: "software update", 7: "offline"}


# --- events


class Appeared(NamedTuple):
    """A node is there that was not, for the so manieth time; `uptime` is what it told."""

    node: int
    uptime: int
    times: int


class Vanished(NamedTuple):
    """Nothing was heard of a node for three seconds."""

    node: int


class Restarted(NamedTuple):
    """A node that was there began anew."""

    node: int
    uptime: int


class Doubled(NamedTuple):
    """Two nodes use one node ID: the uptimes of two openings come in turn."""

    node: int


class Introduced(NamedTuple):
    """A node told its unique ID and its name."""

    node: int
    unique_id: str
    name: str


class Led(NamedTuple):
    """A member leads, in a term."""

    node: int
    term: int


class Unled(NamedTuple):
    """No leader calls any more."""

    node: int
    term: int


class Stood(NamedTuple):
    """A member asks for votes, in a term."""

    node: int
    term: int


class Told(NamedTuple):
    """A device was told its node ID, by a node."""

    node: int
    unique_id: str
    by: int


class Recorded(NamedTuple):
    """A leader hands on an entry."""

    place: int
    entry: wire.Entry


class Met(NamedTuple):
    """A node tells whom it knows as members of its cluster, otherwise than before."""

    node: int
    size: int
    known: List[int]


class Strange(NamedTuple):
    """A node does what members alone do, and is none: `does` is the kind of its transfer."""

    node: int
    does: str


Event = Union[Appeared, Vanished, Restarted, Doubled, Introduced, Led, Unled, Stood, Told, Recorded, Met, Strange]


# --- what is kept


@dataclass
class Node:
    """What was heard of a node ID."""

    last: float  # its last NodeStatus, or its first frame
    uptime: Optional[int] = None
    health: int = 0
    mode: int = 0
    here: bool = False
    came: Deque[float] = field(default_factory=lambda: deque(maxlen=FEW))
    openings: Deque[float] = field(default_factory=lambda: deque(maxlen=FEW))  # moment less uptime, where they differ
    doubled: Optional[float] = None  # when it was last seen that two nodes use this ID
    transfer_id: Optional[int] = None
    repeats: int = 0  # 2 for each NodeStatus whose transfer ID did not go on, less 1 for each other one
    told: List[Introduced] = field(default_factory=list)  # the latest last; another unique ID is another line
    asked: int = 0  # how often a member asked it for its unique ID since it last answered
    asked_last: float = 0.0

    @property
    def identity(self) -> Optional[Introduced]:
        return self.told[-1] if self.told else None


class Listing(NamedTuple):
    """A Discovery: the size of the cluster, and the members that its sender knows."""

    moment: float
    size: int
    known: Tuple[int, ...]


@dataclass
class Call:
    """The calls of a leader to one member: what the last one said and when, how many were not answered since, when one
    was agreed to, and how many in a row came as late as after a call without an answer, though there was one."""

    term: int
    place: int = 0  # the place that the call goes on behind, or that of its entry
    commit: int = 0
    unanswered: int = 0
    agreed: Optional[float] = None
    moment: float = 0.0
    as_unanswered: int = 0


class Lead(NamedTuple):
    """The leader that was heard last: since when it is known, and its last call."""

    node: int
    term: int
    since: float
    moment: float


@dataclass
class Caller:
    """Whom a node calls, as a candidate or a leader, and how often each. Members call all others of their list."""

    since: float
    last: float
    term: int
    peers: Dict[int, int] = field(default_factory=dict)
    led: Optional[float] = None  # when it last called as a leader
    first_led: float = 0.0


@dataclass
class Exchange:
    """The requests of one member to another of one kind: the transfer IDs of those that were heard and not answered,
    that of the last answer, and when answers came that refuse, since the last one that agreed."""

    asked: Deque[int] = field(default_factory=lambda: deque(maxlen=FEW))
    answered: Optional[int] = None
    refused: Deque[float] = field(default_factory=lambda: deque(maxlen=KEPT))


class Grown(NamedTuple):
    """A leader has a new entry: when it was first handed on, at which place, and what it is."""

    moment: float
    place: int
    entry: wire.Entry


class Wild(NamedTuple):
    """A frame with a term that no cluster comes to by itself: in whose name it is, and whom it is to."""

    moment: float
    node: int
    term: int


class Vote(NamedTuple):
    """An answer to a request for a vote: of which member, to which candidate, in which term, and whether it is one."""

    moment: float
    by: int
    to: int
    term: int
    granted: bool


class Request(NamedTuple):
    """A request of a device: its stage, 0 to 2, and the bytes of the unique ID that it tells."""

    moment: float
    stage: int
    part: str


class Malformed(NamedTuple):
    """A request of a device that no allocator takes: its source (0: none), its bytes, and what is wrong with it."""

    moment: float
    source: int
    part: str
    wrong: str


class Answer(NamedTuple):
    """An Allocation of a node: the bytes of the unique ID that it has, and the node ID that it tells, or 0."""

    moment: float
    by: int
    part: str
    node: int


class Scene:
    """What was heard so far. `members` are those that are known beforehand, `size` how many there are, and `unheard`
    those that cannot be heard here: at a base port the members of other machines."""

    def __init__(
        self, members: Iterable[int] = (), size: Optional[int] = None, unheard: Iterable[int] = ()
    ) -> None:
        self.given, self.given_size, self.unheard = set(members), size, set(unheard)
        self.frames = 0
        self.begin: Optional[float] = None
        self.now = 0.0
        self.nodes: Dict[int, Node] = {}
        self.listings: Dict[int, Listing] = {}
        self.calls: Dict[Tuple[int, int], Call] = {}
        self.lead: Optional[Lead] = None
        self.elections: Deque[Tuple[float, Stood]] = deque(maxlen=KEPT)
        self.votes: Deque[Vote] = deque(maxlen=KEPT)
        self.requests: Deque[Request] = deque(maxlen=KEPT)
        self.answers: Deque[Answer] = deque(maxlen=KEPT)
        self.log: Dict[int, wire.Entry] = {}  # by place, as leaders handed it on
        self.strangers: Set[Tuple[int, str]] = set()  # nodes, and the kinds of their transfers
        self.callers: Dict[int, Caller] = {}
        self.grown: Deque[Grown] = deque(maxlen=KEPT)
        self.wild: Deque[Wild] = deque(maxlen=FEW)
        self.malformed: Deque[Malformed] = deque(maxlen=KEPT)
        self.gaps: Deque[float] = deque(maxlen=KEPT)  # when a member answered that had left out an answer
        self.others: Dict[int, Deque[float]] = {}  # by source (0: none): when frames of Cyphal came
        self.exchanges: Dict[Tuple[int, int, str], Exchange] = {}
        self._transfers = wire.Transfers()
        self._anchor: Optional[int] = None  # who was heard leading last
        self._before: Dict[wire.Frame, float] = {}  # frames of the last moments
        self._sent: Dict[int, List[int]] = {}  # by source: its frames, and those of them that came twice

    # --- what is asked of it

    @property
    def heard_for(self) -> float:
        """Seconds from the first frame on."""
        return 0.0 if self.begin is None else self.now - self.begin

    def size(self) -> Optional[int]:
        """How many members the cluster has, as far as it is known: by the words, by most lists, or by calls."""
        if self.given_size or self.given:
            return self.given_size or len(self.given)
        sizes = [listing.size for listing in self.listings.values()]
        if sizes:
            return max(sorted(set(sizes)), key=sizes.count)
        return len(self._called()) or None

    def members(self) -> Set[int]:
        """The nodes that are taken for members: those of the words, or those that do what only members do."""
        if self.given:
            return set(self.given)
        strange = {node for node, _ in self.strangers}
        listings = {node: listing for node, listing in self.listings.items() if node not in strange}
        listed = {node for listing in listings.values() for node in listing.known}
        known = listed | set(listings) | self._called()
        named = {node for node, it in self.nodes.items() if it.identity and it.identity.name == ALLOCATOR_NAME}
        return known or named

    def called_by(self, node: int) -> Set[int]:
        """A node and whom it calls: its list, once it called each."""
        caller = self.callers.get(node)
        return {node, *caller.peers} if caller else set()

    def _called(self) -> Set[int]:
        """The list of who led last; where nobody led, the lists of all who stood for election."""
        if self._anchor is not None:
            return self.called_by(self._anchor)
        return {node for caller in self.callers for node in self.called_by(caller)}

    def strange(self) -> Set[int]:
        """The nodes that do what members do, and are none of those that are known."""
        strange = {node for node, kind in self.strangers if kind in ("disc", "voteq", "appq")}
        return (strange | (set(self.callers) if self._all_called() else set())) - self.members()

    def _all_called(self) -> bool:
        """Whether a leader is known for so long that it has called each member."""
        return self.lead is not None and self.now - self.lead.since > ALL_CALLED

    def is_online(self, node: int) -> bool:
        return node in self.nodes and self.nodes[node].here

    def online(self) -> List[int]:
        return sorted(node for node, it in self.nodes.items() if it.here)

    def leader(self) -> Optional[Lead]:
        """Who leads now, as far as it was heard; a cluster of one calls nobody."""
        return self.lead if self.lead and self.now - self.lead.moment <= LEADS_FOR else None

    def comes_twice(self) -> bool:
        """Whether each frame comes twice, of more than one node: not those of two devices with one node ID."""
        several = [of for of in self._sent.values() if of[0] >= 2]
        twice = sum(copies > 0.35 * count for count, copies in several)
        return self.frames >= 16 and twice >= 2 and 2 * twice > len(several)

    # --- what comes

    def pass_time(self, now: float) -> List[Event]:
        """Time went by: who is not heard any more is away."""
        self.now = max(self.now, now)
        events: List[Event] = []
        for node, it in self.nodes.items():
            if it.here and self.now - it.last > ONLINE:
                it.here = False
                events.append(Vanished(node))
        if self.lead and not self.leader():
            events.append(Unled(self.lead.node, self.lead.term))
            self.lead = None
        return events

    def take(self, moment: float, frame: Optional[wire.Frame]) -> List[Event]:
        """A frame was on the bus, or time went by without one."""
        events = self.pass_time(moment)
        if frame is None:
            return events
        self.begin = moment if self.begin is None else self.begin
        self.frames += 1
        heading = frame.heading
        self._count(frame)
        if wire.is_of_cyphal(frame):
            source = 0 if wire.asks_by_cyphal(frame) else heading.source
            self.others.setdefault(source, deque(maxlen=FEW)).append(moment)
            return events
        if heading.kind == "alloc" and not heading.source and self._is_malformed(frame):
            return events
        if heading.kind != wire.OTHER:
            payload = self._transfers.take(heading.source, frame)
            if payload is not None and len(payload) in wire.SIZES[heading.kind]:
                events += getattr(self, f"_{heading.kind}")(heading, payload, frame.tail.transfer_id)
        return events

    def _count(self, frame: wire.Frame) -> None:
        """Counts the frames of a source, and those that came just before."""
        of = self._sent.setdefault(frame.heading.source, [0, 0])
        of[0] += 1
        of[1] += self.now - self._before.get(frame, -1.0) <= TWICE_WITHIN
        self._before[frame] = self.now
        if len(self._before) > 4 * KEPT:
            self._before = {it: then for it, then in self._before.items() if self.now - then <= TWICE_WITHIN}

    def _is_malformed(self, frame: wire.Frame) -> bool:
        """Whether a frame without a source, of a device that asks, is one that no allocator takes."""
        tail, length = frame.tail, len(frame.data) - 2
        wrong = ""
        if not (tail.starts and tail.ends):
            wrong = "is one of several frames"
        elif tail.toggle:
            wrong = "has its toggle bit set"
        elif length not in (4, 6):
            wrong = f"has {max(0, length)} bytes of its unique ID, where 6, 6 and 4 are to come"
        if wrong:
            self.malformed.append(Malformed(self.now, 0, frame.data[1:-1].hex(), wrong))
        return bool(wrong)

    def _stat(self, heading: wire.Heading, payload: bytes, transfer_id: int) -> List[Event]:
        events: List[Event] = []
        uptime, node = wire.number(payload), self._node(heading.source)
        if not node.here:
            node.here = True
            node.came.append(self.now)
            events.append(Appeared(heading.source, uptime, len(node.came)))
        events += self._note_opening(heading.source, node, uptime, transfer_id)
        node.last, node.uptime, node.transfer_id = self.now, uptime, transfer_id
        node.health, node.mode = payload[4] >> 6, payload[4] >> 3 & 7
        return events

    def _node(self, number: int) -> Node:
        return self.nodes.setdefault(number, Node(self.now))

    def _note_opening(self, number: int, node: Node, uptime: int, transfer_id: int) -> List[Event]:
        """Uptimes tell when a node was opened. Where an earlier opening speaks again, there are two nodes; and so there
        are where uptimes go on and transfer IDs do not."""
        opening = self.now - uptime
        before = node.openings[-1] if node.openings else opening
        doubled = False
        if node.openings and abs(before - opening) <= JITTER:
            node.openings[-1] += (opening - before) / 8  # clocks drift
            if node.transfer_id is not None:
                step = (transfer_id - node.transfer_id) % table.TRANSFER_IDS
                goes_on = 0 < step <= table.TRANSFER_IDS // 2
                node.repeats = max(0, node.repeats - 1) if goes_on else node.repeats + 2
            doubled = node.repeats >= REPEATS
        else:
            far = abs(before - opening) > LATE
            doubled = far and any(abs(earlier - opening) <= JITTER for earlier in list(node.openings)[:-1])
            if far or not node.openings:
                node.openings.append(opening)
            if not doubled:
                return [Restarted(number, uptime)] if uptime < (node.uptime or 0) and node.came[-1] < self.now else []
        if not doubled:
            return []
        is_new, node.doubled = node.doubled is None, self.now
        return [Doubled(number)] if is_new else []

    def _disc(self, heading: wire.Heading, payload: bytes, __: int) -> List[Event]:
        listing = Listing(self.now, payload[0], tuple(payload[1:]))
        before, events = self.listings.get(heading.source), self._strange(heading)
        self.listings[heading.source] = listing
        if before is None or before[1:] != listing[1:]:
            events.append(Met(heading.source, listing.size, list(listing.known)))
        return events

    def _strange(self, heading: wire.Heading) -> List[Event]:
        """A node does what members do, while all members are known and it is none of them: their lists are complete, or
        a leader called all of them."""
        known, key = self.members(), (heading.source, heading.kind)
        sizes = [self.given_size or len(self.given)] if self.given or self.given_size else []
        size = max(sizes + [listing.size for listing in self.listings.values()], default=None)
        if heading.source in known or not self._all_called() and (size is None or len(known) < size):
            return []
        is_new = key not in self.strangers
        if is_new and len(self.strangers) >= KEPT:
            return []
        self.strangers.add(key)
        return [Strange(*key)] if is_new else []

    def _infoq(self, heading: wire.Heading, _: bytes, __: int) -> List[Event]:
        node = self._node(heading.destination)
        node.asked, node.asked_last = node.asked + 1, self.now
        return []

    def _info(self, heading: wire.Heading, payload: bytes, __: int) -> List[Event]:
        node = self._node(heading.source)
        name = payload[41 + payload[40] :].decode("ascii", "replace")
        name = "".join(letter if letter.isprintable() else "?" for letter in name)
        node.asked = 0
        told = Introduced(heading.source, payload[24:40].hex(), name)
        is_new = told not in node.told
        node.told = [it for it in node.told if it.unique_id != told.unique_id][-3:] + [told]
        return [told] if is_new else []

    def _calls(self, heading: wire.Heading, term: int, transfer_id: int) -> bool:
        """A node calls another one. Whether it is a call of a cluster, and not one with a wild term."""
        usual = self.lead.term if self.leader() and self.lead else term
        if term == HIGHEST_TERM or term - usual > WILD_STEP:
            self.wild.append(Wild(self.now, heading.source, term))
            return False
        caller = self.callers.setdefault(heading.source, Caller(self.now, self.now, term))
        caller.last, caller.term = self.now, max(term, caller.term)
        caller.peers[heading.destination] = caller.peers.get(heading.destination, 0) + 1
        exchange = self.exchanges.setdefault((heading.source, heading.destination, heading.kind), Exchange())
        if transfer_id != exchange.answered:
            exchange.asked.append(transfer_id)
        return True

    def _answered(self, heading: wire.Heading, granted: bool, transfer_id: int) -> None:
        """A member answers. Where requests before were heard, and not answered, it left them out. (In a log that was
        made of datagrams an answer may stand before its request.)"""
        key = heading.destination, heading.source, wire.REQUESTS[heading.kind]
        exchange = self.exchanges.setdefault(key, Exchange())
        later = [it for it in exchange.asked if 0 < (it - transfer_id) % table.TRANSFER_IDS < table.TRANSFER_IDS // 2]
        if any(it != transfer_id and it not in later for it in exchange.asked):
            self.gaps.append(self.now)
        exchange.asked, exchange.answered = deque(later, maxlen=FEW), transfer_id
        if granted:
            exchange.refused.clear()
        else:
            exchange.refused.append(self.now)

    def _voteq(self, heading: wire.Heading, payload: bytes, transfer_id: int) -> List[Event]:
        if not self._calls(heading, wire.number(payload), transfer_id):
            return []
        events = self._strange(heading)
        stood = Stood(heading.source, wire.number(payload))
        if not any(before == stood for _, before in self.elections):
            self.elections.append((self.now, stood))
            events.append(stood)
        return events

    def _vote(self, heading: wire.Heading, payload: bytes, transfer_id: int) -> List[Event]:
        granted = bool(payload[4] & 0x80)
        self.votes.append(Vote(self.now, heading.source, heading.destination, wire.number(payload), granted))
        self._answered(heading, True, transfer_id)
        return []

    def _appq(self, heading: wire.Heading, payload: bytes, transfer_id: int) -> List[Event]:
        term, place, commit = wire.number(payload), payload[8], payload[9]
        if not self._calls(heading, term, transfer_id):
            return []
        events = self._strange(heading)
        caller = self.callers[heading.source]
        if caller.led is None or self.now - caller.led > LEADS_FOR:
            caller.first_led = self.now
        caller.led = self.now
        if len(payload) >= 31:
            place += 1
            entry = wire.read_entry(payload[10:31])
            if self.log.get(place) != entry:
                self.log[place] = entry
                events.append(Recorded(place, entry))
                if entry.node and place > commit:  # (what is committed already is handed on to one who had it not)
                    self.grown.append(Grown(self.now, place, entry))
        call = self.calls.get((heading.source, heading.destination))
        if call is None or call.term != term:
            call = self.calls[heading.source, heading.destination] = Call(term)
        is_late = call.agreed is not None and not call.unanswered and self.now - call.moment >= LATE_CALL
        call.as_unanswered = call.as_unanswered + 1 if is_late else 0
        call.place, call.commit, call.unanswered, call.moment = place, commit, call.unanswered + 1, self.now
        if self.given and heading.source not in self.given:
            return events
        if self.lead is None or (term, heading.source) != (self.lead.term, self.lead.node):
            if self.lead is None or term > self.lead.term:
                events.append(Led(heading.source, term))
                self.lead = Lead(heading.source, term, self.now, self.now)
                self._anchor = heading.source
        else:
            self.lead = self.lead._replace(moment=self.now)
        return events

    def _app(self, heading: wire.Heading, payload: bytes, transfer_id: int) -> List[Event]:
        call = self.calls.get((heading.destination, heading.source))
        if call is not None:
            call.unanswered = 0
            call.agreed = self.now if payload[4] & 0x80 else call.agreed
        self._answered(heading, bool(payload[4] & 0x80), transfer_id)
        return []

    def _alloc(self, heading: wire.Heading, payload: bytes, __: int) -> List[Event]:
        node, part = payload[0] >> 1, payload[1:].hex()
        if heading.source == 0:
            asked = wire.asked_part(heading, payload)
            if asked is not None:
                self.requests.append(Request(self.now, asked[0] // 6, asked[1]))
            return []
        if payload[0] & 1 and heading.source not in self.members():
            self.malformed.append(Malformed(self.now, heading.source, part, "has a source"))
            return []
        events = self._strange(heading)
        pair = wire.told(heading, payload)
        self.answers.append(Answer(self.now, heading.source, part, node if pair else 0))
        return events + ([Told(node, part, heading.source)] if pair else [])
