"""Members of `can` that are told a list, and hear that one is wrong: a process with the node ID of another one, members
with different lists, a server that is no member, and an allocator that answers as one end whoever hears them with 18
and a line that says who was heard. What devices and other nodes may send ends nobody. For tests/program.

packet_strangers.py PROGRAM: in an empty folder; it ends with 1, and says what is not so."""
from __future__ import annotations

import os
import re
import shlex
import subprocess
import sys
import time
from typing import Dict, List, NamedTuple, Optional, Tuple

sys.dont_write_bytecode = True
sys.path.insert(0, os.path.join(os.path.dirname(os.path.dirname(os.path.abspath(__file__))), "tools"))
import packets  # noqa: E402 (it stands beside this file)

from caldrouz import stores  # noqa: E402

STRANGER, TERMINATED = 18, -15  # how a process ends
PATIENCE = 20.0  # seconds until a process has to have ended, or a device to have a node ID
ALL = "1,2,3"
TOOL = 100  # a node with a fixed address
ANSWERED, ASKED = 0x80, 0x8080  # the bits of a service's response and request
SPELLING = b"VCAN-AL"  # the fifth frame of an allocator's answer to GetNodeInfo, before its tail
FIELDS = 0xFFFFFF  # of an identifier, but for the priority
LAST_LINE = re.compile(r"stranger (\d+) ([0-9a-f]{8})")


class Process(NamedTuple):
    """A process of one member, and what it is told."""

    member: int
    told: str


def message(number: int, source: int) -> int:
    return 16 << 24 | number << 8 | source


def service(number: int, bits: int, destination: int, source: int) -> int:
    return 16 << 24 | number << 16 | bits | destination << 8 | source


class Bus(packets.Bus):
    """Processes on one bus, each in a folder of its own with a new store."""

    def __init__(self, program: str, processes: List[Process]) -> None:
        folder = os.path.join(os.getcwd(), f"bus-{time.monotonic_ns()}")
        for place, process in enumerate(processes):
            os.makedirs(self.folder_of(folder, place))
            words = [program, "new", str(process.member)]
            subprocess.run(words, cwd=self.folder_of(folder, place), stdout=subprocess.DEVNULL, check=True)

        def command(place: int, _socket: int) -> List[str]:
            words = [program, "can", processes[place].told, "1000000000", str(processes[place].member)]
            run = f"cd {shlex.quote(self.folder_of(folder, place))} && exec {shlex.join(words)} >report"
            return ["sh", "-c", run]

        super().__init__(folder, command, at_input=True)
        for place in range(len(processes)):
            self.start(place)

    @staticmethod
    def folder_of(folder: str, place: int) -> str:
        return os.path.join(folder, str(place))

    def ended(self, seconds: float, count: int) -> Dict[int, int]:
        """How processes ended, once so many have, or so many seconds have passed."""
        end = time.monotonic() + seconds
        while True:
            codes = {place: code for place, one in self.processes.items() if (code := one.poll()) is not None}
            if len(codes) >= count or time.monotonic() > end:
                return codes
            self.turn()

    def heard(self, place: int) -> Optional[Tuple[int, int]]:
        """The member and the identifier in the last line of a process."""
        with open(os.path.join(self.folder_of(self.folder, place), "report"), encoding="ascii") as report:
            found = LAST_LINE.fullmatch(report.read().splitlines()[-1])
        return (int(found[1]), int(found[2], 16)) if found else None


def clone(program: str) -> str:
    """Member 1 runs twice."""
    bus = Bus(program, [Process(1, ALL), Process(1, ALL), Process(3, ALL)])
    codes = bus.ended(PATIENCE, 1)
    heard = [bus.heard(place) for place in codes]
    bus.end()
    if not codes or set(codes.values()) != {STRANGER} or 2 in codes:
        return f"the processes ended so: {codes}"
    if any(one is None or one[0] != 1 or one[1] & 0x7F != 1 for one in heard):
        return f"they heard {heard}"
    return ""


def lists(program: str) -> str:
    """Member 1 is told itself alone. The others go on, and serve."""
    bus = Bus(program, [Process(1, "1,"), Process(2, ALL), Process(3, ALL)])
    codes = bus.ended(PATIENCE, 1)
    heard = [bus.heard(place) for place in codes]
    given = bus.serve(packets.Device(1), PATIENCE)
    later, _ = bus.end()
    if codes != {0: STRANGER} or [later[1], later[2]] != [TERMINATED] * 2:
        return f"the processes ended so: {codes}, then {later}"
    if heard[0] is None or heard[0][0] != 1 or heard[0][1] & 0x7F not in (2, 3):
        return f"it heard {heard}"
    return "" if given else "no device was served"


def unlisted(program: str) -> str:
    """Member 1 is told another list. It leads, and asks member 3, which is not on it: the answer ends it, before a pair
    of it is recorded."""
    bus = Bus(program, [Process(1, "1,2,4"), Process(2, ALL), Process(3, ALL)])
    codes = bus.ended(PATIENCE, 1)
    heard = bus.heard(0)
    given = bus.serve(packets.Device(1), PATIENCE)
    bus.end()
    entries = stores.read(os.path.join(bus.folder_of(bus.folder, 0), "alloc-1.store")).entries
    if codes != {0: STRANGER} or heard is None or heard[1] & FIELDS != service(1, ANSWERED, 1, 3) & FIELDS:
        return f"the processes ended so: {codes}, and heard {heard}"
    if any(entry.node == 3 for entry in entries):
        return f"it recorded {entries}"
    return "" if given else "no device was served"


def server(program: str) -> str:
    """A node that is no member answers a device, searches for members, asks for votes or with entries, or answers as an
    allocator."""
    alone = bytes(7) + b"\xc0"
    of_members = [
        (message(1, TOOL), alone),
        (message(390, TOOL), alone),
        (service(30, ASKED, 1, TOOL), alone),
        (service(31, ASKED, 125, TOOL), alone),
        (service(30, ANSWERED, 125, TOOL), alone),
        (service(31, ANSWERED, 1, TOOL), alone),
        (service(1, ANSWERED, 1, TOOL), SPELLING + b"\x1f"),
    ]
    for identifier, data in of_members:
        bus = Bus(program, [Process(1, ALL)])
        bus.rest(0.3)
        bus.put(packets.packet_of(identifier, data))
        codes = bus.ended(PATIENCE, 1)
        heard = bus.heard(0) if codes else None
        bus.end()
        if codes != {0: STRANGER} or heard != (1, identifier):
            return f"by {identifier:08x} it ended so: {codes}, and heard {heard}"
    return ""


def lawful(program: str) -> str:
    """What devices, tools and other nodes may send, and what is no frame of UAVCAN v0."""
    identifiers = [
        message(341, TOOL),  # NodeStatus
        message(20000, 126),
        *(message(number, TOOL) for number in (0, 2, 30, 31, 256, 389, 391, 65535)),  # (others than those of members)
        *(service(number, bits, 1, TOOL) for number in (1, 29, 32, 255) for bits in (ASKED, ANSWERED)),
        service(1, ASKED, 5, TOOL),
        service(30, ASKED, 0, TOOL),  # (nobody's)
        service(30, ASKED, 1, 0),
        packets.ANONYMOUS_ALLOCATION | 0x3FFF << 10,
        message(2, 0),
    ]
    bus = Bus(program, [Process(1, ALL), Process(2, ALL), Process(3, ALL)])
    bus.rest(1.0)
    for identifier in identifiers:
        bus.put(packets.packet_of(identifier, b"\x00\xc0"))
        bus.rest(0.02)
    for tail in (b"\x20", b"\x40", b"\x80"):  # (none that spells an allocator: with toggle, last, first)
        bus.put(packets.packet_of(service(1, ANSWERED, 1, TOOL), SPELLING + tail))
    for other in (service(1, ASKED, 1, TOOL), service(1, ANSWERED, 99, TOOL), service(2, ANSWERED, 1, TOOL)):
        bus.put(packets.packet_of(other, SPELLING + b"\x00"))
    for own in (message(341, 1), service(30, ASKED, 2, TOOL)):
        bus.put(packets.packet_of(own, b""))  # (no data: none of UAVCAN)
    bus.put(bytes(16))
    given = [bus.serve(packets.Device(number), PATIENCE) for number in (1, 2)]
    codes, _ = bus.end()
    if set(codes.values()) != {TERMINATED}:
        return f"the processes ended so: {codes}"
    return "" if None not in given and given[0] != given[1] else f"two devices were given {given}"


def main() -> int:
    program = os.path.abspath(sys.argv[1])
    faults = 0
    for trial in (clone, lists, unlisted, server, lawful):
        said = trial(program)
        if said:
            print(f"{trial.__name__}: {said}")
            faults += 1
    return 1 if faults else 0


if __name__ == "__main__":
    sys.exit(main())
