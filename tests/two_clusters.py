"""Two clusters of one list that meet: all is begun anew while the machine of member 3 is away, and at the next power-on
it is there with its old store. Where the two led in different terms, a member ends with 19. Where their terms are
alike, one log is followed, and nothing but an audit shows that. For tests/program.

two_clusters.py PROGRAM: in an empty folder; it ends with 1, and says why, where this is not so."""
from __future__ import annotations

import os
import subprocess
import sys
import time
from typing import List

sys.dont_write_bytecode = True
import packets  # noqa: E402 (it stands beside this file)

MEMBERS = 1, 2, 3
AWAY = 3
PATIENCE = 20.0  # seconds that a device waits for a node ID
MEET = 25.0  # seconds in which a member has ended: a rest, and some elections
GO_ON = 12.0  # where nobody ends: a rest, an election, and some calls
DIFFER, ANOTHER_LOG = 14, 19


def make(program: str, words: List[str], *members: int) -> None:
    """Makes new stores of these members in the place of those that are there."""
    for member in members:
        if os.path.exists(f"alloc-{member}.store"):
            os.remove(f"alloc-{member}.store")
    subprocess.run([program, "new", *words, *map(str, members)], stdout=subprocess.DEVNULL, check=True)


def bus_of(program: str, *members: int) -> packets.Bus:
    bus = packets.Bus(os.getcwd(), lambda member, _: [program, "can", "1,2,3", str(member)], at_input=True)
    for member in members:
        bus.start(member)
    return bus


def faults_of(program: str, old: List[str], new: List[str], ends: List[int], seconds: float) -> List[str]:
    """What is not as it has to be, where stores were made with these words, and members end so in as many seconds."""
    make(program, old, *MEMBERS)
    bus = bus_of(program, *MEMBERS)
    first = bus.serve(packets.Device(1), PATIENCE)
    bus.rest(1.5)  # (until member 3 has committed that too)
    bus.end()
    make(program, new, *(member for member in MEMBERS if member != AWAY))
    bus = bus_of(program, *(member for member in MEMBERS if member != AWAY))
    second = bus.serve(packets.Device(2), PATIENCE)
    bus.rest(1.5)
    bus.end()
    bus = bus_of(program, *MEMBERS)
    end = time.monotonic() + seconds
    while all(process.poll() is None for process in bus.processes.values()) and time.monotonic() < end:
        bus.turn()
    bus.rest(0.1)
    ended = [code for code in (process.poll() for process in bus.processes.values()) if code is not None]
    bus.end()
    audit = subprocess.run([program, "audit", *map(str, MEMBERS)], stdout=subprocess.DEVNULL).returncode
    told = f"{old} and {new}: node IDs {first} and {second}, members ended with {ended}, audit with {audit}"
    print(told)
    return [] if first == second is not None and set(ended) == set(ends) and audit == DIFFER else [told]


def main() -> int:
    program = sys.argv[1]
    faults = faults_of(program, [], [], [], GO_ON)
    faults += faults_of(program, ["above", "300000"], ["above", "5"], [ANOTHER_LOG], MEET)
    faults += faults_of(program, ["above", "5"], ["above", "300000"], [ANOTHER_LOG], MEET)
    return 1 if faults else 0


if __name__ == "__main__":
    sys.exit(main())
