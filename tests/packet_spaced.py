"""A leader on a packet socket that finds many nodes with fixed node IDs at once, and announces each by an Allocation:
with one transfer ID an Allocation goes out once in 8 s at the most, whole or not at all. A device is served then. One
that is told its number alone lets all go out. For tests/program.

packet_spaced.py PROGRAM: it ends with 1, and says why, where this is not so."""
from __future__ import annotations

import select
import signal
import subprocess
import sys
import tempfile
import time
from typing import Dict, List, NamedTuple, Optional

sys.dont_write_bytecode = True
import images  # noqa: E402,F401 (it finds the tools)
import packets  # noqa: E402 (both stand beside this file)

from caldrouz import table, wire  # noqa: E402

MEMBER, FIRST_NODE, NODES = 7, 20, 60  # more nodes than there are transfer IDs, also where some answers are lost
APART = 8.0  # seconds between two Allocations with one transfer ID
LATE = 0.1  # a packet may be read so much later than it was sent
FOUND, PATIENCE = 12.0, 30.0  # seconds until all nodes are found, and that a device waits for a node ID then
INFO = bytes(4 + 3 + 15) + b"\1\0"  # of GetNodeInfo, before the unique ID


class Sent(NamedTuple):
    """A frame of an Allocation that the member sent, and when it was read."""

    at: float
    frame: wire.Frame


class Bus(packets.Bus):
    """One member, and nodes that say each second that they are there, and answer who asks for their names."""

    def __init__(self, program: str, told: str, room: str) -> None:
        def command(member: int, _socket: int) -> List[str]:
            return [program, "can", told, "1000000000", str(member)]

        super().__init__(room, command, at_input=True)
        self.begun = self.next = time.monotonic()
        self.allocations: List[Sent] = []
        self.start(MEMBER)

    def _send(self, node: int, name: str, transfer_id: int, payload: bytes, to: int = 0) -> None:
        identifier = wire.identifier_of(node, name, to)
        for data in wire.cut(table.TRANSFERS[name].data_type, transfer_id, payload):
            self.put(packets.packet_of(identifier, data))

    def _answer(self, frame: wire.Frame) -> None:
        node = frame.heading.destination
        answer = INFO + bytes([node] * 16) + b"\0"
        self._send(node, "info", frame.tail.transfer_id, answer, MEMBER)

    def take(self, device: Optional[packets.Device]) -> None:
        """Hands on what the member sends and what the others do, for a hundredth of a second at most."""
        one = self.sockets[MEMBER]
        if select.select([one], [], [], 0.01)[0]:
            packet = one.recv(16)
            one.send(packet)
            frame = wire.from_can(packet)
            if frame is not None and frame.heading.kind == "infoq":
                self._answer(frame)
            if frame is not None and frame.heading.kind == "alloc":
                self.allocations.append(Sent(time.monotonic() - self.begun, frame))
                if device is not None:
                    device.hears(packet)
        if time.monotonic() >= self.next:
            self.next += 1.0
            for node in range(FIRST_NODE, FIRST_NODE + NODES):
                self._send(node, "stat", int(self.next) % table.TRANSFER_IDS, bytes(7))
        request = None if device is None else device.request()
        if request:
            self.put(request)


def allocations_of(program: str, told: str, device: packets.Device) -> List[Sent]:
    """The frames of Allocations that a member sends which is told this, from its start until it has served a device."""
    with tempfile.TemporaryDirectory() as room:
        subprocess.run([program, "new", str(MEMBER)], cwd=room, stdout=subprocess.DEVNULL, check=True)
        bus = Bus(program, told, room)
        while time.monotonic() - bus.begun < FOUND:
            bus.take(None)
        while device.node is None and time.monotonic() - bus.begun < FOUND + PATIENCE:
            bus.take(device)
        bus.end(signal.SIGKILL)
    return bus.allocations


def soonest(sent: List[Sent]) -> float:
    """How soon a transfer ID was used again."""
    last: Dict[int, float] = {}
    found = PATIENCE
    for it in sent:
        if it.frame.tail.starts:
            found = min(found, it.at - last.get(it.frame.tail.transfer_id, -PATIENCE))
            last[it.frame.tail.transfer_id] = it.at
    return found


def is_whole(sent: List[Sent]) -> bool:
    """Whether each frame begins a transfer, or goes on with that of the frame before it; the last may be cut off."""
    under_way: Optional[int] = None
    for it in sent:
        tail = it.frame.tail
        if tail.starts == (under_way is not None) or under_way not in (None, tail.transfer_id):
            return False
        under_way = None if tail.ends else tail.transfer_id
    return True


def faults_of(program: str, told: str, is_spaced: bool) -> List[str]:
    device = packets.Device(1)
    sent = allocations_of(program, told, device)
    begun, soon = sum(it.frame.tail.starts for it in sent), soonest(sent)
    said = f"a member that is told {told}: {begun} Allocations, a transfer ID again after {soon:.2f} s, device served"
    print(f"{said} after {device.seconds:.2f} s")
    faults = []
    if device.node is None:
        faults.append("the device was not served")
    if not is_whole(sent):
        faults.append("an Allocation went out in part")
    if begun < table.TRANSFER_IDS or is_spaced != (soon >= APART - LATE):
        faults.append("its Allocations are not as far apart as they should be")
    return faults


def main() -> int:
    program = sys.argv[1]
    faults = [*faults_of(program, f"{MEMBER},", True), *faults_of(program, "1", False)]
    for fault in faults:
        print(fault)
    return 1 if faults else 0


if __name__ == "__main__":
    sys.exit(main())
