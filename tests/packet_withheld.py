"""A leader on a packet socket that is stopped while frames wait to be sent, until it is no longer followed: the first
frame of an Allocation is withheld then, and nothing that waited behind it comes out. For tests/program.

packet_withheld.py PROGRAM: in an empty folder; it ends with 1, and says why, where this is not so."""
from __future__ import annotations

import os
import select
import signal
import subprocess
import sys
import time
from typing import List, Optional, Tuple

sys.dont_write_bytecode = True
import packets  # noqa: E402 (it stands beside this file)

NAMES = ["1", "2", "3"]
PATIENCE = 20.0  # seconds that a device waits for a node ID, and that a frame is waited for
FOLLOWED = 5.0  # seconds behind its last answer for which a member follows
BETWEEN = 0.02  # seconds in which a member takes a frame that came, while it waits for the echo of its own
AFTER = 1.5  # seconds for which it is looked at what a leader sends


def is_answer(packet: bytes) -> bool:
    """Whether this frame is one of an Allocation that an allocator sends."""
    identifier, _ = packets.frame_of(packet)
    return not identifier & 0x80 and bool(identifier & 0x7F) and identifier >> 8 & 0xFFFF == 1


def flags_of(packet: bytes) -> int:
    return packets.frame_of(packet)[1][-1] & (packets.FIRST | packets.LAST)


class Bus(packets.Bus):
    """Of three members, which know a device, and are asked by it once more."""

    def __init__(self, program: str) -> None:
        def command(member: int, _socket: int) -> List[str]:
            return [program, "can", ",".join(NAMES), "1000000000", NAMES[member]]

        super().__init__(os.getcwd(), command, at_input=True)
        for member in range(len(NAMES)):
            self.start(member)

    def packet(self, seconds: float, wanted: Optional[int] = None) -> Tuple[int, bytes]:
        """The next packet of any member, or of this one."""
        sockets = {one: member for member, one in self.sockets.items() if wanted in (None, member)}
        ready, _, _ = select.select(list(sockets), [], [], seconds)
        return (sockets[ready[0]], ready[0].recv(16)) if ready else (0, b"")

    def first_of_several(self, device: packets.Device) -> Tuple[int, bytes]:
        """Who answers the second part of the unique ID, and the first frame of that, which has no echo yet."""
        end = time.monotonic() + PATIENCE
        while time.monotonic() < end:
            request = device.request()
            if request:
                self.put(request)
            member, packet = self.packet(0.01)
            if packet and is_answer(packet) and flags_of(packet) == packets.FIRST:
                return member, packet
            if packet:
                self.put(packet)
                device.hears(packet)
        raise RuntimeError("no member answered")


def sent_after(program: str, stopped: float) -> List[int]:
    """The flags of the frames of Allocations that a leader sends once it was stopped for so many seconds. Before that
    it has the last frame of an answer to send, and behind it the three by which the device is given its node ID."""
    subprocess.run([program, "new", *NAMES], stdout=subprocess.DEVNULL, check=True)
    bus, device = Bus(program), packets.Device(1)
    if bus.serve(device, PATIENCE) is None:
        raise RuntimeError("no node ID was given")
    again = packets.Device(1)
    leader, first = bus.first_of_several(again)
    again.told, again.next = 2 * packets.REQUEST_SIZE, 0.0
    third_part = again.request()
    assert third_part is not None
    bus.sockets[leader].send(third_part)
    bus.sockets[leader].send(first)
    _, packet = bus.packet(PATIENCE, leader)
    while packet and not is_answer(packet):
        bus.sockets[leader].send(packet)
        _, packet = bus.packet(PATIENCE, leader)
    time.sleep(BETWEEN)
    bus.processes[leader].send_signal(signal.SIGSTOP)
    time.sleep(stopped)
    bus.sockets[leader].send(packet)
    bus.processes[leader].send_signal(signal.SIGCONT)
    flags = []
    end = time.monotonic() + AFTER
    while time.monotonic() < end:
        _, packet = bus.packet(max(0.0, end - time.monotonic()), leader)
        if packet:
            bus.sockets[leader].send(packet)
        if packet and is_answer(packet):
            flags.append(flags_of(packet))
    bus.end(signal.SIGKILL)
    for name in os.listdir():
        os.remove(name)
    return flags


def main() -> int:
    program = sys.argv[1]
    wanted = [packets.FIRST, 0, packets.LAST]
    at_once, late = sent_after(program, 0.0), sent_after(program, FOLLOWED + 1.0)
    if at_once[-3:] != wanted:
        print(f"without a stop: {at_once}, not {wanted} at the end")
    if late:
        print(f"after a stop it sent what had waited: {late}")
    return 0 if at_once[-3:] == wanted and not late else 1


if __name__ == "__main__":
    sys.exit(main())
