"""Terms that are far ahead: three members that are told their list take no call and no answer with one, go on, and
serve a device. A term is taken that is 1,000,000 above the first one of a member, and the next one is not.

far_terms.py PROGRAM BASE: in an empty folder. The status is 1 where it is not so.
"""
from __future__ import annotations

import contextlib
import pathlib
import struct
import subprocess
import sys
import time
from typing import Iterator, List, Optional

import images
from another_log import Bus, start

from caldrouz import stores, table, wire

MEMBERS, TOLD = (1, 2, 3), "1,2,3"
BEGINS = 20.0  # seconds within which a member has begun and stood for election
ANSWER = 1.0  # within which it answers
SERVED = 60.0
HIGHEST = 4294967295
MOST_TERMS = 1000000
DEVICE = pathlib.Path(__file__).resolve().parent.parent / "examples/node/device.py"
UNIQUE_ID = "00112233445566778899aabbccddee01"
STORE = stores.Store(term=5, vote=0, commit=0, entries=[], version=table.NEWEST)


@contextlib.contextmanager
def running(program: str, base: int, *members: int) -> Iterator[None]:
    processes = [start(program, TOLD, base, 1000000000, member) for member in members]
    try:
        yield
    finally:
        for process in processes:
            process.kill()
            process.communicate()


def vote_request(term: int) -> bytes:
    return struct.pack("<IIB", term, term, 250)


def forge(bus: Bus, term: int) -> None:
    """Every call and answer to each member in the name of each other one."""
    verdict = struct.pack("<I", term) + b"\x80"
    for member in MEMBERS:
        for source in set(MEMBERS) - {member}:
            bus.send(source, "voteq", member, vote_request(term))
            bus.send(source, "appq", member, struct.pack("<IIBB", term, 0, 0, 0))
            for _ in range(table.TRANSFER_IDS):
                bus.send(source, "vote", member, verdict)
                bus.send(source, "app", member, verdict)


def faults_of_forged(program: str, base: int) -> List[str]:
    """Three members that are forged the highest term, twice."""
    for member in MEMBERS:
        subprocess.run([program, "new", str(member)], stdout=subprocess.DEVNULL, check=True)
    with Bus(base) as bus, running(program, base, *MEMBERS):
        if not any(bus.hears(member, "appq", BEGINS / 3) for member in MEMBERS):
            return ["no member leads"]
        for _ in range(2):
            forge(bus, HIGHEST)
            time.sleep(6.0)
        words = [sys.executable, "-B", str(DEVICE), str(base), UNIQUE_ID]
        try:
            told = subprocess.run(words, stdout=subprocess.PIPE, timeout=SERVED).stdout
        except subprocess.TimeoutExpired:
            told = b""
    faults = [] if told.strip().isdigit() else [f"the device was told {told!r}"]
    for member in MEMBERS:
        store = stores.read(f"alloc-{member}.store")
        if store.term > 1000 or [entry.unique_id for entry in store.entries if entry.node].count(UNIQUE_ID) != 1:
            faults.append(f"member {member} has {store}")
    return faults


def first_term(bus: Bus, member: int) -> Optional[int]:
    """The term in which a member stands for election first."""
    transfers, end = wire.Transfers(), time.monotonic() + BEGINS
    while (left := end - time.monotonic()) > 0:
        bus.link.settimeout(left)
        with contextlib.suppress(OSError):
            frame = wire.from_datagram(bus.link.recv(64))
            payload = transfers.take(member, frame) if frame and frame.heading.source == member else None
            if frame and payload is not None and frame.heading.kind == "voteq":
                return int.from_bytes(payload[:4], "little")
    return None


def faults_of_far(program: str, base: int) -> List[str]:
    """Member 1 alone, which has the term 5."""
    pathlib.Path("alloc-1.store").write_bytes(images.image(STORE))
    with Bus(base) as bus, running(program, base, 1):
        own = first_term(bus, 1)
        if own != STORE.term + 1:
            return [f"the first term is {own}"]
        faults = []
        bus.send(2, "voteq", 1, vote_request(own + MOST_TERMS + 1))
        if bus.hears(1, "vote", ANSWER):
            faults.append("a term is taken that is 1,000,001 above the first one")
        bus.send(2, "voteq", 1, vote_request(own + MOST_TERMS))
        if not bus.hears(1, "vote", ANSWER):
            faults.append("a term is not taken that is 1,000,000 above the first one")
        return faults


def main() -> int:
    program, base = sys.argv[1], int(sys.argv[2])
    faults = faults_of_forged(program, base) + faults_of_far(program, base)
    for fault in faults:
        print(fault)
    return 1 if faults else 0


if __name__ == "__main__":
    sys.exit(main())
