"""What is on a bus in the tests of `why`: members, nodes and devices as the standard has them, over time.

    act = acts.Act()
    act.cluster([1, 2, 3], 0, 10, leader=1)       # from 0 to 10 s: each shows itself, and 1 calls the others
    act.device(acts.ONE, 2.0, 1)                  # a device asks at 2 s, and member 1 answers up to its node ID
    act.scene([1, 2, 3])                          # what `why` knows when it has heard all that
    act.log()                                     # the same as lines of `candump -L`

Times are those of the standard: NodeStatus each second, a call of a leader each 0.4 s, and an answer 10 ms later.
"""
from __future__ import annotations

from dataclasses import dataclass
from typing import Callable, Dict, Iterable, Iterator, List, NamedTuple, Optional, Sequence, Tuple

from caldrouz import scene, table, wire

ONE, TWO = "00112233445566778899aabbccddee01", "ff112233445566778899aabbccddee02"
STATUS, CALL, ANSWER = 1.0, 0.4, 0.01  # seconds
STAMP = 1_700_000_000  # of the first second of a log


class Timed(NamedTuple):
    moment: float
    order: int
    frame: wire.Frame


@dataclass
class Transfer:
    """A transfer of a moment. Its transfer ID is counted when all are known, or is that of what it answers."""

    moment: float
    source: int
    name: str
    payload: bytes
    to: int
    answers: Optional["Transfer"] = None
    transfer_id: int = 0

    @property
    def identifier(self) -> int:
        return wire.identifier_of(self.source, self.name, self.to)

    def frames(self) -> Iterator[Tuple[float, wire.Frame]]:
        """Each 1 ms after the one before."""
        for at, data in enumerate(wire.cut(table.TRANSFERS[self.name].data_type, self.transfer_id, self.payload)):
            yield self.moment + at / 1000, wire.Frame(self.identifier, data)


def moments(begin: float, end: float, period: float) -> Iterable[float]:
    count = 0
    while begin + count * period < end:
        yield begin + count * period
        count += 1


def number(value: int) -> bytes:
    return value.to_bytes(4, "little")


class Act:
    def __init__(self) -> None:
        self.lone: List[Tuple[float, wire.Frame]] = []
        self.transfers: List[Transfer] = []
        self.asked = 0

    def put(self, moment: float, frame: wire.Frame) -> None:
        self.lone.append((moment, frame))

    def send(self, moment: float, source: int, name: str, payload: bytes, to: int = 0) -> Transfer:
        self.transfers.append(Transfer(moment, source, name, payload, to))
        return self.transfers[-1]

    def respond(self, request: Transfer, payload: bytes) -> None:
        """An answer to a request, with its transfer ID."""
        name = wire.RESPONSES[request.name]
        it = Transfer(request.moment + ANSWER, request.to, name, payload, request.source, request)
        self.transfers.append(it)

    # --- members and nodes

    def node(self, node: int, begin: float, end: float, uptime: int = 100, period: float = STATUS) -> None:
        """A node shows itself."""
        for moment in moments(begin, end, period):
            self.send(moment, node, "stat", number(uptime + int(moment - begin)) + bytes(3))

    def tells(self, moment: float, node: int, unique_id: str, to: int = 1) -> None:
        """A node tells its unique ID to who asks for it."""
        asked = self.send(moment, to, "infoq", b"", node)
        self.respond(asked, bytes(24) + bytes.fromhex(unique_id) + bytes(1) + b"org.x")

    def calls(
        self, leader: int, peers: Sequence[int], begin: float, end: float, term: int = 5, place: int = 10,
        commit: Optional[int] = None, heard: Callable[[float, int], bool] = lambda _, __: True,
    ) -> None:
        """A leader calls its peers. `heard`: whether a call of a moment to a peer is answered."""
        for moment in moments(begin, end, CALL):
            for at, peer in enumerate(peers):
                then = moment + at / 100
                known = number(term) + bytes([place, place if commit is None else commit])
                call = self.send(then, leader, "appq", number(term) + known, peer)
                if heard(then, peer):
                    self.respond(call, number(term) + b"\x80")

    def stands(
        self, candidate: int, peers: Sequence[int], moment: float, term: int, votes: Sequence[int] = ()
    ) -> None:
        """A member asks its peers for their votes, and these vote for it."""
        for peer in peers:
            asked = self.send(moment, candidate, "voteq", number(term) + number(4) + bytes([10]), peer)
            if peer in votes:
                self.respond(asked, number(term) + b"\x80")

    def cluster(
        self, members: Sequence[int], begin: float, end: float, leader: int = 1, term: int = 5, place: int = 10,
        commit: Optional[int] = None, away: Sequence[int] = (),
    ) -> None:
        """Members that are told their list, one of which leads, and some of which are away."""
        for member in members:
            if member not in away:
                self.node(member, begin + member / 100, end, 1000)
        if leader not in away:
            peers = [member for member in members if member != leader]
            self.calls(leader, peers, begin + 0.05, end, term, place, commit, lambda _, peer: peer not in away)

    def enters(self, moment: float, leader: int, peers: Sequence[int], place: int, unique_id: str, node: int,
               term: int = 5) -> None:
        """A leader hands a new entry on, which nobody has yet."""
        entry = number(term) + bytes.fromhex(unique_id) + bytes([node])
        for peer in peers:
            payload = number(term) + number(term) + bytes([place - 1, place - 1]) + entry
            self.respond(self.send(moment, leader, "appq", payload, peer), number(term) + b"\x80")

    # --- devices

    def asks(self, moment: float, part: bytes, first: bool = True, wish: int = 0, tail: int = 0xC0) -> None:
        """A frame of a device that has no node ID: some bytes of its unique ID."""
        self.asked += 1
        identifier = wire.identifier_of(0, "alloc") | (self.asked * 37 % (1 << 14)) << 10
        self.put(moment, wire.Frame(identifier, bytes([wish << 1 | first]) + part + bytes([tail | self.asked % 32])))

    def answers(self, moment: float, by: int, part: bytes, node: int = 0) -> None:
        self.send(moment, by, "alloc", bytes([node << 1]) + part)

    def device(self, unique_id: str, moment: float, by: int = 0, node: int = 0, stages: int = 3) -> None:
        """A device asks, in so many stages; a member answers each, where it is there, the last with a node ID, if it
        has one to tell."""
        whole = bytes.fromhex(unique_id)
        for stage in range(stages):
            self.asks(moment + 0.05 * stage, whole[6 * stage : 6 * stage + 6], stage == 0)
            is_last = stage == 2
            if not by:
                return
            if not is_last or node:
                self.answers(moment + 0.05 * stage + 0.02, by, whole[: 6 * stage + 6], node if is_last else 0)

    # --- what comes of it

    def frames(self) -> List[Timed]:
        """All frames in their order."""
        counts: Dict[int, int] = {}
        for it in sorted(self.transfers, key=lambda it: it.moment):
            if it.answers is None:
                counts[it.identifier] = counts.get(it.identifier, -1) + 1
                it.transfer_id = counts[it.identifier] % table.TRANSFER_IDS
            else:
                it.transfer_id = it.answers.transfer_id
        every = self.lone + [frame for it in self.transfers for frame in it.frames()]
        return sorted(Timed(moment, at, frame) for at, (moment, frame) in enumerate(every))

    def twice(self) -> "Act":
        """The same with each frame twice."""
        other = Act()
        for it in self.frames():
            other.put(it.moment, it.frame)
            other.put(it.moment + 0.0004, it.frame)
        return other

    def scene(self, members: Iterable[int] = (), end: Optional[float] = None) -> scene.Scene:
        heard = scene.Scene(members)
        for it in self.frames():
            heard.take(it.moment, it.frame)
        if end is not None:
            heard.pass_time(end)
        return heard

    def log(self) -> List[str]:
        return [
            f"({STAMP + it.moment:.6f}) can0 {it.frame.identifier:08X}#{it.frame.data.hex().upper()}"
            for it in self.frames()
        ]
