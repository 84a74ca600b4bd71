"""Calls of another log: a member that is told its list ends at one, says whose it is, and goes on after any other call.

another_log.py PROGRAM BASE: in an empty folder. The status is 1 where it is not so.
"""
from __future__ import annotations

import pathlib
import socket
import struct
import subprocess
import sys
import time
from typing import Dict, List, NamedTuple, Optional, Tuple

import images

from caldrouz import buses, stores, table, wire

MEMBERS, CALLER = "1,2,3,4,5", 5
REST = 20.0  # seconds within which a member has begun
ANSWER = 1.0  # within which it answers
ANOTHER_LOG = 19

PAIRS = (1, 125), (2, 124), (3, 123), (4, 122)
FIRST, SECOND, THIRD, NEW = (wire.Entry(1, f"{device:02}" * 16, node) for device, node in PAIRS)
ZEROS = "00" * 16
# The first two entries are committed, and the third is not.
STORE = stores.Store(term=2, vote=0, commit=2, entries=[FIRST, SECOND, THIRD], version=table.NEWEST)


class Call(NamedTuple):
    """A request of AppendEntries."""

    term: int
    previous: int
    previous_term: int
    entry: Optional[wire.Entry] = None

    def payload(self) -> bytes:
        head = struct.pack("<IIBB", self.term, self.previous_term, self.previous, 0)
        it = self.entry
        return head if it is None else head + struct.pack("<I16sB", it.term, bytes.fromhex(it.unique_id), it.node)


# In rounds, by member, each call that ends it.
ENDS: Tuple[Dict[int, Call], ...] = (
    {
        1: Call(2, 0, 0, FIRST._replace(unique_id="09" * 16)),
        2: Call(2, 1, 1, SECOND._replace(node=9)),
        3: Call(3, 0, 0, FIRST._replace(term=2)),
        4: Call(2, 2, 2),
    },
    # The terms agree, and the entry behind the committed ones has a node ID or a unique ID of theirs.
    {
        1: Call(2, 2, 1, NEW._replace(term=2, unique_id=SECOND.unique_id)),
        2: Call(2, 3, 1, NEW._replace(term=2, unique_id=FIRST.unique_id)),
        3: Call(2, 2, 1, NEW._replace(term=2, node=FIRST.node)),
        4: Call(2, 2, 1, wire.Entry(2, ZEROS, SECOND.node)),
    },
)
# What a member goes on after: its own entries, others at a place that is not committed (a new pair, one that repeats
# what is not committed, a blank, a reservation), and calls of an earlier term, which come late.
GOES_ON: Tuple[Call, ...] = (
    Call(2, 0, 0, FIRST),
    Call(2, 1, 1, SECOND),
    Call(2, 2, 1, THIRD._replace(term=2, node=9)),
    Call(2, 2, 1, NEW._replace(term=2)),
    Call(2, 3, 1, THIRD),
    Call(2, 2, 1, wire.Entry(2, ZEROS, 0)),
    Call(2, 2, 1, wire.Entry(2, ZEROS, 9)),
    Call(2, 2, 1),
    Call(1, 0, 0, FIRST._replace(node=9)),
    Call(1, 2, 1, SECOND),
    Call(1, 1, 7),
)


class Bus:
    """Speaks in the place of a bridge, for whatever node."""

    def __init__(self, base: int) -> None:
        self.base = base
        self.transfers: Dict[Tuple[int, str, int], int] = {}  # how many were sent, by their sessions
        self.link = socket.socket(socket.AF_INET, socket.SOCK_DGRAM)
        self.link.bind(("127.0.0.1", base + buses.BRIDGE_PORT))

    def __enter__(self) -> "Bus":
        return self

    def __exit__(self, *_: object) -> None:
        self.link.close()

    def send(self, source: int, kind: str, member: int, payload: bytes) -> None:
        identifier, session = wire.identifier_of(source, kind, member), (source, kind, member)
        sent = self.transfers.get(session, 0)
        for data in wire.cut(table.TRANSFERS[kind].data_type, sent % table.TRANSFER_IDS, payload):
            self.link.sendto(wire.to_datagram(wire.Frame(identifier, data)), ("127.0.0.1", self.base + member))
        self.transfers[session] = sent + 1

    def call(self, source: int, member: int, call: Call) -> None:
        self.send(source, "appq", member, call.payload())

    def hears(self, member: int, kind: str, seconds: float) -> bool:
        """Whether a frame of this kind comes from a member."""
        end = time.monotonic() + seconds
        while (left := end - time.monotonic()) > 0:
            self.link.settimeout(left)
            try:
                frame = wire.from_datagram(self.link.recv(64))
            except socket.timeout:
                break
            if frame and (frame.heading.source, frame.heading.kind) == (member, kind):
                return True
        return False


def start(program: str, told: str, base: int, turns: int, member: int) -> "subprocess.Popen[bytes]":
    words = [program, "node", told, str(base), str(turns), str(member)]
    return subprocess.Popen(words, stdin=subprocess.DEVNULL, stdout=subprocess.PIPE)


def faults_of_told(program: str, base: int, bus: Bus, ends: Dict[int, Call]) -> List[str]:
    faults: List[str] = []
    for member in ends:
        pathlib.Path(f"alloc-{member}.store").write_bytes(images.image(STORE))
    running = {member: start(program, MEMBERS, base, 1000000000, member) for member in ends}
    if not bus.hears(1, "stat", REST):
        faults.append("member 1 does not begin")
    for call in GOES_ON:
        bus.call(CALLER, 1, call)
        if not bus.hears(1, "app", ANSWER):
            faults.append(f"no answer to {call}")
    for member, call in ends.items():
        bus.call(CALLER, member, call)
        try:
            written = running[member].communicate(timeout=ANSWER)[0]
        except subprocess.TimeoutExpired:
            running[member].kill()
            written = running[member].communicate()[0]
        ended = running[member].returncode, written
        if ended != (ANOTHER_LOG, b"another log %d %d\n" % (member, CALLER)):
            faults.append(f"member {member} ended so after {call}: {ended}")
    return faults


def faults_of_number(program: str, base: int, bus: Bus) -> List[str]:
    """Who is told the number alone learns the caller, and ends after its turns."""
    faults: List[str] = []
    with start(program, "5", base, 4000, 2) as member_2:
        if not bus.hears(2, "disc", REST):
            faults.append("member 2 does not begin")
        bus.send(CALLER, "disc", 2, bytes([5, CALLER]))
        for ends in ENDS:
            bus.call(CALLER, 2, ends[2])
            if not bus.hears(2, "app", ANSWER):
                faults.append("member 2 gives no answer")
        member_2.communicate(timeout=REST)
    if member_2.returncode:
        faults.append(f"who is told the number ends with {member_2.returncode}")
    return faults


def faults_of(program: str, base: int) -> List[str]:
    faults: List[str] = []
    for ends in ENDS:
        with Bus(base) as bus:
            faults += faults_of_told(program, base, bus, ends)
    with Bus(base) as bus:
        faults += faults_of_number(program, base, bus)
    return faults


def main() -> int:
    faults = faults_of(sys.argv[1], int(sys.argv[2]))
    for fault in faults:
        print(fault)
    return 1 if faults else 0


if __name__ == "__main__":
    sys.exit(main())
