"""A simulated CAN bus for the scripts beside this one: members of `can`, each a process behind a pair of sockets, and
devices that ask for node IDs, tell their NodeStatus and answer GetNodeInfo. Parts of the bus may be cut from each
other, and frames be lost. It notes which node IDs were told and held, who leads, and how members ended.

Like a unit, it starts a member again that ended by itself, unless its status is one that a person has to look at."""
from __future__ import annotations

import os
import pty
import random
import re
import select
import shutil
import socket
import subprocess
import sys
import time
import tty
from collections import deque
from dataclasses import dataclass, field
from typing import Callable, Deque, Dict, Iterable, Iterator, List, Optional, Sequence, Set, Tuple, Union

import scripts

sys.path.insert(0, os.path.join(scripts.TOP, "tests"))
import packets  # noqa: E402 (it stands in tests/)

from caldrouz import machine, table, wire  # noqa: E402

PROGRAM = os.path.abspath(os.environ.get("PROGRAM", scripts.PROGRAM))
TURNS = "1000000000"
WORDS, DISK_FAULT, DAMAGED, DIFFER, LATE_ECHO, STRANGER, OTHER_LOG = 2, 10, 11, 14, 17, 18, 19  # exit codes
FOR_A_PERSON = {WORDS, DISK_FAULT, DAMAGED, STRANGER, OTHER_LOG}
KEPT = 11  # frames that an interface keeps
RESTART = 6.0  # seconds until a unit starts a member again
LEADS_FOR = 2.5  # seconds for which who called as a leader is taken to lead
AT_ONCE = 32  # packets that are taken of one member in a turn
SPREAD = 0.3  # seconds by which a device's tries differ
BRIDGE = os.path.join(scripts.TOP, "tools", "can_bridge")
SLCAN_FRAME = re.compile(rb"T([0-9A-Fa-f]{8})[1-8]((?:[0-9A-Fa-f]{2})*)")
os.environ[machine.ANY_DISK] = "1"  # of members behind a bridge


def store_of(node: int) -> str:
    return f"alloc-{node}.store"


class Device(packets.Device):
    """A device at a place of the bus. It holds its node ID until it is switched off."""

    def __init__(self, place: str, number: int) -> None:
        super().__init__(number)
        self.place, self.is_on, self.seen_at, self.uptime = place, False, 0.0, 0
        self.queries: List[Tuple[int, int]] = []  # who asked for its unique ID, and by which transfer ID

    def power(self, is_on: bool = True) -> None:
        self.is_on, self.node, self.told, self.asked, self.uptime = is_on, None, 0, None, 0
        self.answer.clear()
        self.queries.clear()
        self.next = time.monotonic() + random.uniform(0, SPREAD)

    def sends(self) -> Iterator[bytes]:
        """What it sends now."""
        if not self.is_on:
            return
        request = self.request()
        if request is not None:
            self.next += random.uniform(0, SPREAD)
            yield request
        if self.node is None:
            return
        now = time.monotonic()
        if now >= self.seen_at:
            self.seen_at = now + 1
            status = self.uptime.to_bytes(4, "little") + bytes(3)
            yield from self._cut("stat", self.uptime % 32, status)
            self.uptime += 1
        while self.queries:
            to, transfer = self.queries.pop()
            status = self.uptime.to_bytes(4, "little") + bytes(3)
            yield from self._cut("info", transfer, status + bytes(15) + b"\1\0" + self.unique_id + b"\0device", to)

    def _cut(self, name: str, transfer: int, payload: bytes, to: int = 0) -> Iterator[bytes]:
        assert self.node is not None
        for data in wire.cut(table.TRANSFERS[name].data_type, transfer, payload):
            yield packets.packet_of(wire.identifier_of(self.node, name, to), data)

    def hears(self, packet: bytes) -> None:
        if not self.is_on:
            return
        heading = wire.read_heading(packets.frame_of(packet)[0])
        if heading.kind == "infoq" and heading.destination == self.node:
            self.queries.append((heading.source, packets.frame_of(packet)[1][-1] % 32))
        else:
            super().hears(packet)


class SerialEnd:
    """The end of a serial line, as an adapter on the bus has it that answers each frame, for a bridge on the other end.
    It is used like a socket of packets."""

    def __init__(self) -> None:
        self.line, self.name = pty.openpty()
        tty.setraw(self.line)
        os.set_blocking(self.line, False)
        self.begun, self.lines, self.own = b"", deque[bytes](), b""

    def fileno(self) -> int:
        return self.line

    @property
    def path(self) -> str:
        return os.ttyname(self.name)

    def recv(self, _: int) -> bytes:
        """The next frame that the bridge wrote."""
        while True:
            while self.lines:
                match = SLCAN_FRAME.fullmatch(self.lines.popleft())
                if match is not None:
                    os.write(self.line, b"Z\r")
                    self.own = packets.packet_of(int(match[1], 16), bytes.fromhex(match[2].decode()))
                    return self.own
            *lines, self.begun = (self.begun + os.read(self.line, 4096)).split(b"\r")
            self.lines.extend(lines)

    def send(self, packet: bytes) -> None:
        if packet != self.own:  # (it hears others alone)
            identifier, data = packets.frame_of(packet)
            os.write(self.line, b"T%08X%d%s\r" % (identifier, len(data), data.hex().encode()))

    def close(self) -> None:
        os.close(self.line)
        os.close(self.name)


@dataclass
class Member:
    """A member at a place of the bus, with the words that it is started with."""

    name: str
    told: str
    words: Sequence[str]  # those in place of the ones with the list
    process: "subprocess.Popen[bytes]"
    end: Union[socket.socket, SerialEnd]  # ours


@dataclass
class Lab:
    """`folder` is empty. The places of members and devices have names; those of one vehicle begin alike."""

    folder: str
    loss: float = 0.0
    members: Dict[str, Member] = field(default_factory=dict)
    devices: List[Device] = field(default_factory=list)
    cut: Set[Tuple[str, str]] = field(default_factory=set)  # who is not heard by whom
    told: Dict[int, Dict[str, str]] = field(default_factory=dict)  # node ID: unique ID: by whom
    held: Dict[int, Set[str]] = field(default_factory=dict)  # node IDs that two devices had at one moment
    leads: Dict[str, Tuple[int, float]] = field(default_factory=dict)  # term, and the moment of the last call
    ended: List[Tuple[str, int]] = field(default_factory=list)  # by themselves
    back: Dict[str, Tuple[float, Member]] = field(default_factory=dict)  # who is started again, and when
    kept: Dict[str, Deque[bytes]] = field(default_factory=dict)  # by the interfaces whose plug is off
    front: Dict[str, Sequence[str]] = field(default_factory=dict)  # words of another program that runs a member
    has_units: bool = True  # whether the interface of a member is taken down whose echo was late
    watch: Callable[[str, bytes], None] = lambda name, packet: None  # is told each packet of a member before it comes

    def __post_init__(self) -> None:
        self._transfers = wire.Transfers()

    # --- what happens

    def new(self, *names: str) -> None:
        """Makes the stores of members. A name ends in the node ID."""
        for name in names:
            folder = os.path.join(self.folder, name)
            os.makedirs(folder, exist_ok=True)
            words = [PROGRAM, "new", str(node_of(name))]
            subprocess.run(words, cwd=folder, stdout=subprocess.DEVNULL, check=True)

    def path(self, name: str) -> str:
        return os.path.join(self.folder, name, store_of(node_of(name)))

    def start(self, *names: str, told: str = "1,2,3", words: Sequence[str] = ()) -> None:
        """Starts members that are told this list; or with these words before their node ID."""
        for name in names:
            ours, theirs = socket.socketpair(socket.AF_UNIX, socket.SOCK_SEQPACKET)
            with theirs:
                for end in (ours, theirs):
                    end.setblocking(False)
                command = [*self.front.get(name, ()), PROGRAM, *(words or ("can", told, TURNS)), str(node_of(name))]
                process = self._run(command, name, theirs.fileno())
            self.members[name] = Member(name, told, words, process, ours)

    def start_behind_bridge(self, name: str, told: str = "1,2,3") -> None:
        """Starts a member behind a serial adapter."""
        end = SerialEnd()
        words = [sys.executable, BRIDGE, end.path, "--members", told, str(node_of(name)), "--", PROGRAM]
        self.members[name] = Member(name, told, (), self._run(words, name, subprocess.DEVNULL), end)

    def _run(self, words: List[str], name: str, stdin: int) -> "subprocess.Popen[bytes]":
        folder = os.path.join(self.folder, name)
        with open(os.path.join(folder, "said"), "ab") as said:
            return subprocess.Popen(words, cwd=folder, stdin=stdin, stdout=said, stderr=said)

    def kill(self, *names: str) -> None:
        """Kills members, those that are not there any more left out."""
        for name in names:
            self.back.pop(name, None)
            self.leads.pop(name, None)
            member = self.members.pop(name, None)
            if member is not None:
                member.process.kill()
                member.process.wait()
                member.end.close()

    def signal(self, name: str, number: int) -> None:
        if name in self.members:
            self.members[name].process.send_signal(number)

    def add(self, place: str, numbers: Iterable[int]) -> List[Device]:
        found = [Device(place, number) for number in numbers]
        self.devices += found
        return found

    def part(self, *groups: Iterable[str]) -> None:
        """Cuts the bus into these parts; without any it is one again."""
        parts = [list(group) for group in groups]
        self.cut = {
            (one, other) for a in parts for b in parts if a is not b for one in a for other in b
        }

    def unplug(self, name: str) -> None:
        """Its interface keeps what it sends, as a CAN controller and its queue do, and hears nothing."""
        self.kept.setdefault(name, deque())

    def plug(self, name: str) -> int:
        """What the interface kept comes out. How many frames."""
        kept = self.kept.pop(name)
        for packet in kept:
            self.put(name, packet)
        return len(kept)

    def forget(self) -> None:
        """What was told and held so far counts no more: all is begun anew."""
        self.told.clear()
        self.held.clear()

    # --- the bus

    def put(self, sender: str, packet: bytes) -> None:
        """A packet is on the bus."""
        for name, member in self.members.items():
            if name not in self.kept and (name == sender or self._reaches(sender, name)):
                try:
                    member.end.send(packet)
                except OSError:
                    pass  # (its queue is full, or it ended)
        for device in self.devices:
            if self._reaches(sender, device.place):
                device.hears(packet)
        self._note(sender, packet)

    def _reaches(self, sender: str, place: str) -> bool:
        return (sender, place) not in self.cut and (not self.loss or random.random() >= self.loss)

    def _note(self, sender: str, packet: bytes) -> None:
        identifier, data = packets.frame_of(packet)
        frame = wire.Frame(identifier, data)
        payload = self._transfers.take(sender, frame) if data else None
        if payload is None:
            return
        pair = wire.told(frame.heading, payload)
        if pair is not None:
            self.told.setdefault(pair[0], {}).setdefault(pair[1], sender)
        elif frame.heading.kind == "appq":
            self.leads[sender] = wire.number(payload), time.monotonic()

    def turn(self) -> None:
        """Hands on what members and devices send, for some milliseconds."""
        ends = {member.end: member for member in self.members.values()}
        for end in select.select(list(ends), [], [], 0.005)[0]:
            self._take(ends[end])
        for member in list(self.members.values()):
            if isinstance(member.end, SerialEnd) and member.process.poll() is not None:
                self._ends(member)  # (whose line tells nothing, as this side holds both ends)
        self.go_on()

    def go_on(self) -> None:
        """What devices do now, who is started again, and which node IDs are held."""
        for device in self.devices:
            for packet in device.sends():
                self.put(device.place, packet)
        now = time.monotonic()
        for name, (moment, member) in list(self.back.items()):
            if now > moment:
                del self.back[name]
                if isinstance(member.end, SerialEnd):
                    self.start_behind_bridge(name, member.told)
                else:
                    self.start(name, told=member.told, words=member.words)
        holders: Dict[int, Set[str]] = {}
        for device in self.devices:
            if device.is_on and device.node is not None:
                holders.setdefault(device.node, set()).add(device.unique_id.hex())
        for node, ids in holders.items():
            if len(ids) > 1:
                self.held.setdefault(node, set()).update(ids)

    def _take(self, member: Member) -> None:
        for _ in range(AT_ONCE):
            try:
                packet = member.end.recv(64)
            except BlockingIOError:
                return
            except OSError:
                packet = b""
            if not packet:
                self._ends(member)
                return
            self.watch(member.name, packet)
            kept = self.kept.get(member.name)
            if kept is None:
                self.put(member.name, packet)
            elif len(kept) < KEPT:
                kept.append(packet)

    def _ends(self, member: Member) -> None:
        status = member.process.wait()
        member.end.close()
        del self.members[member.name]
        self.leads.pop(member.name, None)
        self.ended.append((member.name, status))
        if status == LATE_ECHO and self.has_units and member.name in self.kept:
            self.kept[member.name].clear()
        if status not in FOR_A_PERSON:
            self.back[member.name] = time.monotonic() + RESTART, member

    # --- what is asked of it

    def until(self, holds: Callable[[], bool], seconds: float) -> bool:
        """Runs the bus until this holds. Whether it did within so many seconds."""
        end = time.monotonic() + seconds
        while time.monotonic() < end:
            if holds():
                return True
            self.turn()
        return holds()

    def run(self, seconds: float) -> None:
        self.until(lambda: False, seconds)

    def serve(self, devices: Sequence[Device], seconds: float = 60.0) -> bool:
        """Whether these devices, which are switched on where they are not, have a node ID within so many seconds."""
        for device in devices:
            if not device.is_on:
                device.power()
        return self.until(lambda: all(device.node is not None for device in devices), seconds)

    def leader(self, names: Sequence[str]) -> Optional[str]:
        """Who leads now, of these: who called last in the highest term."""
        since = time.monotonic() - LEADS_FOR
        found = [(term, moment, name) for name, (term, moment) in self.leads.items()
                 if moment > since and name in self.members and name in names]
        return max(found)[2] if found else None

    def await_leader(self, names: Sequence[str], seconds: float = 40.0) -> str:
        """Who leads of these, once somebody does; the first of them where nobody does in so many seconds."""
        self.until(lambda: self.leader(names) is not None, seconds)
        return self.leader(names) or names[0]

    def statuses(self) -> Set[int]:
        return {status for _, status in self.ended}

    def audit(self, *names: str) -> int:
        """The status of `audit` over the stores of these members."""
        place = os.path.join(self.folder, "all")
        shutil.rmtree(place, ignore_errors=True)
        os.makedirs(place)
        for name in names:
            shutil.copy(self.path(name), place)
        words = [PROGRAM, "audit", *(str(node_of(name)) for name in names)]
        return subprocess.run(words, cwd=place, stdout=subprocess.DEVNULL, stderr=subprocess.DEVNULL).returncode

    def twice(self) -> List[str]:
        """In words, which node IDs two devices had, or were told."""
        found = [f"{node} was held by {len(ids)} devices at one moment" for node, ids in sorted(self.held.items())]
        found += [
            f"{node} was told to {len(by)} devices, by {', '.join(sorted(set(by.values())))}"
            for node, by in sorted(self.told.items())
            if len(by) > 1 and node not in self.held
        ]
        return found

    def close(self) -> None:
        self.back.clear()
        self.kill(*list(self.members))


def node_of(name: str) -> int:
    """The node ID that the name of a place ends in: 2 of a2 and of 2."""
    return int("".join(filter(str.isdigit, name)))
