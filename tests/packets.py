"""A bus of packet sockets, for members that take CAN frames from a socket: each packet is a `struct can_frame`, and
comes to every member, to its sender as an echo. With a device that asks for a node ID."""
from __future__ import annotations

import os
import select
import signal
import socket
import struct
import subprocess
import time
from typing import IO, Callable, Dict, List, Optional, Tuple

EXTENDED = 1 << 31
ANONYMOUS_ALLOCATION = 0x1E000100  # and 14 bits that a device chooses, from bit 10 on
FIRST, LAST, REQUEST_SIZE = 0x80, 0x40, 6
AGAIN, FOLLOW_UP = 0.8, 0.02  # seconds until a device asks anew, and until it tells the next part


def packet_of(identifier: int, data: bytes) -> bytes:
    return struct.pack("<IB3x8s", identifier | EXTENDED, len(data), data)


def frame_of(packet: bytes) -> Tuple[int, bytes]:
    identifier, count, data = struct.unpack("<IB3x8s", packet)
    return identifier & ~EXTENDED, data[:count]


class Device:
    """Asks for a node ID, any: the three parts of its unique ID, each once the part before it was answered."""

    def __init__(self, number: int) -> None:
        self.unique_id = bytes([number, *(7 * number + k & 255 for k in range(15))])
        self.identifier = ANONYMOUS_ALLOCATION | (0x100 + number) << 10
        self.told = 0  # bytes of the unique ID that an allocator has answered
        self.transfer = 0
        self.next = time.monotonic()
        self.asked: Optional[float] = None
        self.answer: Dict[int, Tuple[int, bytes]] = {}  # by its source: bytes of CRC before it, and what has come
        self.node: Optional[int] = None
        self.seconds = 0.0

    def request(self) -> Optional[bytes]:
        """The frame that it sends now, if there is one."""
        now = time.monotonic()
        if self.node is not None or now < self.next:
            return None
        part = self.unique_id[self.told : self.told + REQUEST_SIZE]
        data = bytes([self.told == 0]) + part + bytes([FIRST | LAST | self.transfer])
        self.transfer = (self.transfer + 1) % 32
        self.asked = self.asked or now
        self.told, self.next = 0, now + AGAIN
        return packet_of(self.identifier, data)

    def hears(self, packet: bytes) -> None:
        identifier, data = frame_of(packet)
        if self.node is not None or identifier & 0x80 or not identifier & 0x7F or identifier >> 8 & 0xFFFF != 1:
            return
        tail, source = data[-1], identifier & 0x7F
        if tail & FIRST:
            self.answer[source] = (0 if tail & LAST else 2, b"")
        if source not in self.answer:
            return
        crc, before = self.answer[source]
        self.answer[source] = crc, before + data[:-1]
        if tail & LAST:
            del self.answer[source]
            self._answered((before + data[:-1])[crc:])

    def _answered(self, payload: bytes) -> None:
        node, told = payload[0] >> 1, payload[1:]
        now = time.monotonic()
        if told != self.unique_id[: len(told)]:
            self.told, self.next = 0, now + AGAIN
        elif len(told) == 16 and node:
            self.node, self.seconds = node, now - (self.asked or now)
        elif len(told) in (REQUEST_SIZE, 2 * REQUEST_SIZE):
            self.told, self.next = len(told), now + FOLLOW_UP


class Bus:
    """Members as processes. `command(member, descriptor)` is what a member is started with, and `at_input` tells that
    its socket is its standard input."""

    def __init__(self, folder: str, command: Callable[[int, int], List[str]], at_input: bool = False) -> None:
        self.folder, self.command, self.at_input = folder, command, at_input
        self.sockets: Dict[int, socket.socket] = {}
        self.processes: Dict[int, subprocess.Popen[bytes]] = {}
        self.errors: Dict[int, IO[str]] = {}
        self.frames = 0

    def start(self, member: int) -> None:
        ours, theirs = socket.socketpair(socket.AF_UNIX, socket.SOCK_SEQPACKET)
        ours.setblocking(False)
        theirs.setblocking(False)
        self.errors[member] = open(os.path.join(self.folder, f"errors-{member}"), "w+")
        self.processes[member] = subprocess.Popen(
            self.command(member, theirs.fileno()),
            cwd=self.folder,
            stdin=theirs.fileno() if self.at_input else subprocess.DEVNULL,
            stdout=subprocess.DEVNULL,
            stderr=self.errors[member],
            pass_fds=[] if self.at_input else [theirs.fileno()],
        )
        theirs.close()
        self.sockets[member] = ours

    def kill(self, member: int) -> None:
        self.processes[member].send_signal(signal.SIGKILL)
        self.processes[member].wait()
        self.sockets.pop(member).close()

    def put(self, packet: bytes) -> None:
        self.frames += 1
        for member, one in list(self.sockets.items()):
            try:
                one.send(packet)
            except BlockingIOError:
                pass  # (its queue is full: the frame is lost to it)
            except OSError:
                self.sockets.pop(member).close()

    def turn(self, device: Optional[Device] = None) -> None:
        """Hands on what members send, and what the device does, for a hundredth of a second at most."""
        ready, _, _ = select.select(list(self.sockets.values()), [], [], 0.01)
        for member, one in list(self.sockets.items()):
            if one not in ready:
                continue
            try:
                packet = one.recv(16)
            except OSError:
                packet = b""
            if not packet:
                self.sockets.pop(member).close()
                continue
            self.put(packet)
            if device is not None:
                device.hears(packet)
        request = None if device is None else device.request()
        if request:
            self.put(request)

    def serve(self, device: Device, seconds: float) -> Optional[int]:
        """The node ID that the device is given within so many seconds."""
        end = time.monotonic() + seconds
        while device.node is None and time.monotonic() < end:
            self.turn(device)
        return device.node

    def rest(self, seconds: float) -> None:
        end = time.monotonic() + seconds
        while time.monotonic() < end:
            self.turn()

    def end(self, number: signal.Signals = signal.SIGTERM) -> Tuple[Dict[int, int], Dict[int, str]]:
        """Ends all members, and answers their exit codes and what they wrote to standard error."""
        for process in self.processes.values():
            if process.poll() is None:
                process.send_signal(number)
        codes = {member: process.wait(10) for member, process in self.processes.items()}
        said = {}
        for member, file in self.errors.items():
            file.seek(0)
            said[member] = file.read()
            file.close()
        return codes, said
