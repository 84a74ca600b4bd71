"""A CAN bus in the time of a schedule, for scripts beside this one: members whose steps are rows of `replay`, devices
that ask, other nodes of a vehicle and what they send. The lowest identifier has the wire.

A frame takes its bits and the most stuff bits that CAN has for its length. One in 10,000 is lost to one receiver, and
one comes twice, as where its sender alone saw an error. Frames that no member takes only fill the wire. A member has
one frame on its way, its clock is up to 200 millionths off, and a step takes the time of its syncs. A member whose
frame waits for half a second, or for a second at 125 kbit/s or less, ends, as in `can`: its interface forgets the
frame, and it is opened again 12 s later.
"""
from __future__ import annotations

import functools
import heapq
import itertools
import os
import random
from collections import deque
from dataclasses import dataclass, field
from typing import Callable, Deque, Dict, List, NamedTuple, Optional, Tuple

import scripts
from replays import Replay, word_of

from caldrouz import asking, buses, table, wire

PROGRAM = os.environ.get("PROGRAM", scripts.PROGRAM)
MEMBERS = (1, 2, 3)
FIRST_NODE = 20  # the node ID of the first one of the other nodes
MS, SECOND = 1_000, 1_000_000  # in microseconds, in which all moments are
TICK, TURN = 20 * MS, MS
BETWEEN_USES = 8 * SECOND  # with one transfer ID an Allocation goes out once in so long
RARE = 1e-4
DRIFT = 200e-6
BACK = 12 * SECOND  # from a kill until the member is opened again
PATIENCE = 120 * SECOND
OVERHEAD, STUFFED = 67, 54  # bits of a frame with 29 bits of identifier beside its data; those of them that are stuffed
ANSWER_FRAMES = (7, 53)
LEAST, MOST, FOLLOW_UP = 600 * MS, 1_000 * MS, 400 * MS  # a device asks anew between these; it goes on within the last


class Stream(NamedTuple):
    """What nodes of a vehicle send: a message by its public number, how often in a second, and its bytes."""

    name: str
    number: int
    priority: int
    rate: float
    size: int
    nodes: int


STREAMS = (
    Stream("esc.RawCommand", 1030, 0, 400, 7, 1),
    Stream("esc.Status", 1034, 16, 50, 14, 4),
    Stream("actuator.ArrayCommand", 1010, 8, 50, 16, 1),
    Stream("actuator.Status", 1011, 16, 10, 8, 4),
    Stream("gnss.Fix2", 1063, 16, 10, 60, 2),
    Stream("gnss.Auxiliary", 1061, 20, 1, 16, 2),
    Stream("ahrs.MagneticFieldStrength2", 1002, 16, 50, 7, 2),
    Stream("air_data.StaticPressure", 1028, 16, 50, 6, 1),
    Stream("air_data.StaticTemperature", 1029, 16, 10, 4, 1),
    Stream("power.BatteryInfo", 1092, 20, 1, 42, 2),
    Stream("param.GetSet, the answers", 11, 24, 20, 30, 1),
    Stream("file.Read of an update, the answers", 48, 24, 10, 262, 1),
)


class Conditions(NamedTuple):
    """A bus: its bits in a second, the share of them that is taken, and how long a sync takes; how long a frame of a
    member waits until it ends, by the bit rate where that is 0, how long it sends no other request of GetNodeInfo, for
    how long it leaves out an Allocation with a transfer ID that it sent, and how long it takes no step where nothing
    comes."""

    bitrate: int
    share: float
    sync: int
    late: int = 0
    space: int = 0
    apart: int = BETWEEN_USES
    tick: int = TICK


def bits(frame: wire.Frame) -> int:
    """The most bits that this frame takes, with the three behind it."""
    data = 8 * len(frame.data)
    return OVERHEAD + data + (STUFFED + data - 1) // 4


@dataclass
class Station:
    """Who is on the bus: its frames in their order, each with the moment from which it waits."""

    waiting: Deque[Tuple[wire.Frame, int]] = field(default_factory=deque)
    longest: int = 0
    has_wire: bool = False
    is_off: bool = False  # its plug is
    told: Callable[[], None] = lambda: None  # is called when a frame of it was sent

    def forget(self) -> None:
        """What waits is thrown away, but for a frame that is on the wire."""
        if not self.has_wire:
            self.waiting.clear()


class Bus:
    """The wire, and the moments of all that happens."""

    def __init__(self, conditions: Conditions, chance: random.Random) -> None:
        self.conditions, self.chance = conditions, chance
        self.now = 0
        self.events: List[Tuple[int, int, Callable[[], None]]] = []
        self.numbers = itertools.count()
        self.heads: List[Tuple[int, int, int, Station]] = []
        self.is_taken = False
        self.taken = 0
        self.loss = RARE  # of a frame on its way to one receiver
        self.hear: Callable[[Station, wire.Frame], None] = lambda sender, frame: None

    def at(self, moment: int, event: Callable[[], None]) -> None:
        heapq.heappush(self.events, (max(moment, self.now), next(self.numbers), event))

    def put(self, station: Station, frame: wire.Frame) -> None:
        station.waiting.append((frame, self.now))
        if len(station.waiting) == 1:
            self._stands(station)

    def _stands(self, station: Station) -> None:
        """The first frame of the station waits for the wire."""
        frame, since = station.waiting[0]
        heapq.heappush(self.heads, (frame.identifier, next(self.numbers), since, station))
        self._begin()

    def _begin(self) -> None:
        """The lowest identifier has the wire, if it is free."""
        while self.heads and not self.is_taken:
            identifier, _, since, station = heapq.heappop(self.heads)
            if station.is_off:
                continue
            if station.waiting and (station.waiting[0][0].identifier, station.waiting[0][1]) == (identifier, since):
                station.has_wire = self.is_taken = True
                length = bits(station.waiting[0][0]) * SECOND // self.conditions.bitrate
                self.taken += length
                self.at(self.now + length, functools.partial(self._end, station))

    def _end(self, station: Station) -> None:
        frame, since = station.waiting[0]
        station.has_wire = self.is_taken = False
        self.hear(station, frame)
        if self.chance.random() >= RARE:  # else it comes again
            station.waiting.popleft()
            station.longest = max(station.longest, self.now - since)
            station.told()
        if station.waiting:
            self._stands(station)
        self._begin()

    def plug(self, station: Station, is_off: bool) -> None:
        """Its plug comes off, or is on again: then what waits there stands for the wire."""
        station.is_off = is_off
        if station.waiting and not station.has_wire and not is_off:
            self._stands(station)

    def until(self, end: int, is_over: Callable[[], bool] = lambda: False) -> None:
        while self.events and self.events[0][0] <= end and not is_over():
            self.now, _, event = heapq.heappop(self.events)
            event()
        self.now = self.now if is_over() else end


class Member:
    """A member, whose steps are rows of `replay`."""

    def __init__(self, bus: Bus, replay: Replay, node: int) -> None:
        self.bus, self.replay, self.node = bus, replay, node
        self.station = Station(told=self._send_soon)
        self.pace = 1 + bus.chance.uniform(-DRIFT, DRIFT)
        self.runs, self.role = False, "F"
        self.term = self.last = self.commit = self.queued = 0
        self.rows: Deque[str] = deque()
        self.free_at, self.is_working, self.frame, self.ends = 0, False, 0, 0
        self.next_query = self.stepped = 0
        self.last_out: Dict[int, int] = {}
        self.under_way: Optional[int] = None

    def open(self) -> None:
        self.runs, self.role, self.queued = True, "F", 0
        self.last_out, self.under_way = {}, None
        self._ask(f"copen {self.node} {self._clock()} {self._word()}")
        self._tick()

    def kill(self) -> None:
        """Ends it, for so long as a unit takes to start it again, and the rest that it takes then."""
        self.runs = False
        self.bus.at(self.bus.now + BACK, self.open)
        self.rows.clear()
        self.replay.ask([f"crash {self.node} 0 old"])  # (the frame that is in its controller still comes out)

    def hears(self, number: int) -> None:
        if self.runs:
            self._takes(f"rx {self.node} {number}")

    def _clock(self) -> int:
        return round(self.bus.now * self.pace / MS)

    def _word(self) -> int:
        return word_of(self.node, MEMBERS)

    def _tick(self) -> None:
        if self.runs:
            if not self.rows and self.bus.now >= self.stepped + self.bus.conditions.tick:
                self._takes(f"tick {self.node}")
            self.bus.at(max(self.stepped + self.bus.conditions.tick, self.bus.now + TURN), self._tick)

    def _takes(self, row: str) -> None:
        self.rows.append(row)
        self._work()

    def _work(self) -> None:
        """Takes the rows that wait, each once the one before it is stored."""
        while self.rows and self.free_at <= self.bus.now:
            row = self.rows.popleft()
            self._ask(f"{row} {self._clock()} {self._word()}" if row.startswith("tick") else f"{row} {self._clock()}")
        if self.rows and not self.is_working:
            self.is_working = True
            self.bus.at(self.free_at, self._work_again)

    def _work_again(self) -> None:
        self.is_working = False
        self._work()

    def _ask(self, row: str) -> None:
        self.stepped = self.bus.now
        words = self.replay.ask([row])[0]
        if words[2] == "open":
            self.term, self.last, self.commit = int(words[3]), int(words[5]), int(words[6])
            return
        role, (term, last, commit, self.queued) = words[2], map(int, words[3:7])
        puts = 2 * (term > self.term) + (role == "C" and term > self.term)
        puts += any(mark[1:].startswith("vote:") for mark in words[8:])
        puts += 2 * max(0, last - self.last) + (last < self.last) + (commit > self.commit)
        self.role, self.term, self.last, self.commit = role, term, last, commit
        self.free_at = self.bus.now + 2 * puts * self.bus.conditions.sync
        self._send_soon()

    def _send_soon(self) -> None:
        if self.queued and not self.station.waiting:
            self.bus.at(max(self.bus.now, self.free_at) + self.bus.chance.randrange(TURN), self._send)

    def _send(self) -> None:
        if self.runs and self.queued and not self.station.waiting:
            words = self.replay.ask([f"send {self.node}"])[0]
            self.queued -= 1
            self.frame = int(words[3])
            frame = wire.Frame(int(words[4], 16), bytes.fromhex(words[5]))
            if frame.heading.kind == "infoq":
                if self.bus.now < self.next_query:
                    self._send_soon()
                    return
                self.next_query = self.bus.now + self.bus.conditions.space
            if frame.heading.kind == "alloc" and not self._lets_out(frame.tail):
                self._send_soon()
                return
            self.bus.put(self.station, frame)
            late = self.bus.conditions.late or round(buses.late_echo(self.bus.conditions.bitrate) * SECOND)
            self.bus.at(self.bus.now + late, functools.partial(self._looks_for_echo, self.frame))

    def _lets_out(self, tail: wire.Tail) -> bool:
        """Whether its link lets a frame of an Allocation out."""
        number, now = tail.transfer_id, self.bus.now
        if tail.starts:
            goes = now - self.last_out.get(number, -PATIENCE) >= self.bus.conditions.apart
        else:
            goes = self.under_way == number
        if tail.starts and goes:
            self.last_out[number] = now
        self.under_way = number if goes and not tail.ends else None
        return goes

    def _looks_for_echo(self, frame: int) -> None:
        if self.runs and self.station.waiting and self.frame == frame:
            self.ends += 1
            self.station.forget()
            self.kill()


class Device:
    """Asks for a node ID by the rules of the standard."""

    def __init__(self, bus: Bus) -> None:
        self.bus, self.station = bus, Station()
        self.unique_id = bus.chance.randbytes(16)
        self.transfers, self.transfer_id = wire.Transfers(), bus.chance.randrange(table.TRANSFER_IDS)
        self.had, self.next, self.begun = 0, 0, 0
        self.node: Optional[int] = None
        self.served: Optional[int] = None

    def begin(self) -> None:
        self.begun = self.bus.now
        self._waits(0, MOST)

    def _waits(self, least: int, most: int) -> None:
        self.next = self.bus.now + self.bus.chance.randrange(least, most)
        self.bus.at(self.next, functools.partial(self._asks, self.next))

    def _asks(self, moment: int) -> None:
        if self.node is None and moment == self.next:
            if not self.station.waiting:
                frame = asking.request(self.unique_id, self.had // asking.STAGE, 0, self.transfer_id)
                self.transfer_id = (self.transfer_id + 1) % table.TRANSFER_IDS
                self.bus.put(self.station, frame)
            self.had = 0
            self._waits(LEAST, MOST)

    def hears(self, frame: wire.Frame) -> None:
        if self.node is not None or self.bus.chance.random() < RARE:
            return
        if not frame.heading.source:
            self._waits(LEAST, MOST)
            return
        payload = self.transfers.take(None, frame)
        if payload is None:
            return
        self.had = 0
        self._waits(LEAST, MOST)
        if not self.unique_id.startswith(payload[1:]):
            return
        if len(payload) == asking.UNIQUE_ID + 1 and payload[0] >> 1:
            self.node, self.served = payload[0] >> 1, self.bus.now - self.begun
        elif len(payload) - 1 in (asking.STAGE, 2 * asking.STAGE):
            self.had = len(payload) - 1
            self._waits(0, FOLLOW_UP)


class Node:
    """Another node of the vehicle, with a node ID of its own."""

    def __init__(self, bus: Bus, node: int) -> None:
        self.bus, self.node, self.station = bus, node, Station()
        self.unique_id = bus.chance.randbytes(16)
        self.frames = bus.chance.randint(*ANSWER_FRAMES)
        self.uptime = 0
        self.bus.at(bus.chance.randrange(SECOND), self._status)

    def _status(self) -> None:
        self._sends("stat", self.uptime % table.TRANSFER_IDS, self._state())
        self.uptime += 1
        self.bus.at(self.bus.now + SECOND, self._status)

    def _state(self) -> bytes:
        return self.uptime.to_bytes(4, "little") + bytes(3)

    def _sends(self, name: str, transfer_id: int, payload: bytes, to: int = 0) -> None:
        for data in wire.cut(table.TRANSFERS[name].data_type, transfer_id, payload):
            self.bus.put(self.station, wire.Frame(wire.identifier_of(self.node, name, to), data))

    def hears(self, frame: wire.Frame) -> None:
        heading = frame.heading
        if heading.kind == "infoq" and heading.destination == self.node:
            head = self._state() + bytes(15) + b"\1\0" + self.unique_id + b"\0"
            answer = head + bytes(self.frames * table.FRAME_BYTES - table.CRC_BYTES - len(head))
            later = self.bus.now + self.bus.chance.randrange(20 * MS)
            self.bus.at(later, functools.partial(self._sends, "info", frame.tail.transfer_id, answer, heading.source))


class Traffic:
    """What the other nodes of a vehicle send, so often that all of it takes this share of the wire."""

    def __init__(self, bus: Bus, share: float) -> None:
        self.bus = bus
        taken = sum(it.rate * it.nodes * sum(map(bits, self._cut(it, 0, 0))) for it in STREAMS)
        self.pace = share * bus.conditions.bitrate / taken
        for stream in STREAMS:
            for node in range(stream.nodes):
                begins = bus.chance.randrange(SECOND)
                bus.at(begins, functools.partial(self._sends, stream, Station(), FIRST_NODE + node, 0))

    @staticmethod
    def _cut(stream: Stream, node: int, number: int) -> List[wire.Frame]:
        identifier = stream.priority << 24 | stream.number << 8 | node
        data_type = table.DataType(stream.name, stream.number, 0)
        pieces = wire.cut(data_type, number % table.TRANSFER_IDS, bytes(stream.size))
        return [wire.Frame(identifier, piece) for piece in pieces]

    def _sends(self, stream: Stream, station: Station, node: int, number: int) -> None:
        if not station.waiting:  # (else it is late, and leaves this one out)
            for frame in self._cut(stream, node, number):
                self.bus.put(station, frame)
        gap = SECOND / (stream.rate * self.pace)
        self.bus.at(self.bus.now + round(gap * self.bus.chance.uniform(0.95, 1.05)),
                    functools.partial(self._sends, stream, station, node, number + 1))


class Vehicle:
    """All of it, from power-on."""

    def __init__(self, conditions: Conditions, nodes: int, devices: int, seed: int) -> None:
        chance = random.Random(seed)
        random.seed(seed)  # (for the discriminators of the devices)
        self.bus = Bus(conditions, chance)
        self.bus.hear = self._hear
        self.replay = Replay([PROGRAM, "replay"], MEMBERS)
        self.members = [Member(self.bus, self.replay, node) for node in MEMBERS]
        self.devices = [Device(self.bus) for _ in range(devices)]
        self.nodes = [Node(self.bus, FIRST_NODE + at) for at in range(nodes)]
        self.traffic = Traffic(self.bus, conditions.share)
        self.told: Dict[int, str] = {}
        self.twice: List[int] = []
        self.transfers = wire.Transfers()

    def _hear(self, sender: Station, frame: wire.Frame) -> None:
        heading = frame.heading
        if heading.kind == wire.OTHER:
            return
        number = next((it.frame for it in self.members if it.station is sender), 0)
        if not number:
            number = int(self.replay.ask([f"ext {frame.identifier:08x} {frame.data.hex()}"])[0][2])
        for member in self.members:
            is_for = heading.destination in (0, member.node)
            is_there = member.station is not sender and not member.station.is_off
            if is_there and is_for and self.bus.chance.random() >= self.bus.loss:
                member.hears(number)
        if heading.kind == "infoq":
            for node in self.nodes:
                node.hears(frame)
        elif heading.kind == "alloc":
            for device in self.devices:
                device.hears(frame)
            self._note(sender, frame)

    def _note(self, sender: Station, frame: wire.Frame) -> None:
        payload = self.transfers.take(id(sender), frame)
        pair = None if payload is None else wire.told(frame.heading, payload)
        if pair is not None and self.told.setdefault(*pair) != pair[1]:
            self.twice.append(pair[0])

    def serve(self, asking_ones: List[Device]) -> List[Optional[int]]:
        """How long each of these devices, which begin now, waits for its node ID; None where it gets none."""
        for device in asking_ones:
            device.begin()
        self.bus.until(self.bus.now + PATIENCE, lambda: all(it.node is not None for it in asking_ones))
        return [it.served for it in asking_ones]

    def another(self) -> Device:
        self.devices.append(Device(self.bus))
        return self.devices[-1]
