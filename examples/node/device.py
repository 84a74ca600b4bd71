#!/usr/bin/env python3
"""A device without a node ID: it asks the allocators of this machine in three stages, and prints the ID it was given.

device.py BASE UNIQUE_ID [PORT_ID]
  BASE       the base port of the allocators
  UNIQUE_ID  32 hexadecimal digits
  PORT_ID    the device listens at the port BASE + PORT_ID, 120 where nothing else is said: no allocator may have it
"""
from __future__ import annotations

import random
import socket
import sys
import time
from typing import Dict, Optional

ALLOCATION = 1
CRC_OF_TYPE = 0xF258  # of the signature of the data type
LIMIT = 120.0  # seconds


def crc(value: int, data: bytes) -> int:
    for byte in data:
        value ^= byte << 8
        for _ in range(8):
            value = (value << 1) ^ 0x1021 if value & 0x8000 else value << 1
            value &= 0xFFFF
    return value


def request(unique_id: bytes, stage: int, transfer: int) -> bytes:
    """The frame of a stage: which bytes of the unique ID it tells, and whether it is the first stage."""
    data = bytes([(0x7D << 1) | (stage == 0)]) + unique_id[6 * stage:6 * stage + 6]
    frame = data + bytes([0xC0 | transfer])
    identifier = (30 << 24) | (random.randrange(1, 1 << 14) << 10) | ((ALLOCATION & 3) << 8)
    return identifier.to_bytes(4, "big") + bytes([len(frame)]) + frame


class Answers:
    """Joins the frames of Allocation messages, by their source."""

    def __init__(self) -> None:
        self.parts: Dict[int, bytes] = {}

    def take(self, datagram: bytes) -> Optional[bytes]:
        """The payload of a message that is whole with this datagram, or None."""
        if len(datagram) < 6 or len(datagram) != 5 + datagram[4]:
            return None
        identifier = int.from_bytes(datagram[:4], "big")
        source, is_service, number = identifier & 0x7F, identifier & 0x80, (identifier >> 8) & 0xFFFF
        if is_service or source == 0 or number != ALLOCATION:
            return None
        data, tail = datagram[5:-1], datagram[-1]
        if tail & 0x80:
            self.parts[source] = b""
        if source not in self.parts:
            return None
        self.parts[source] += data
        if not tail & 0x40:
            return None
        payload = self.parts.pop(source)
        if tail & 0x80:
            return payload
        return payload[2:] if crc(CRC_OF_TYPE, payload[2:]) == int.from_bytes(payload[:2], "little") else None


class Bus:
    """A bus on which frames are told as datagrams."""

    def send(self, datagram: bytes) -> None:
        raise NotImplementedError

    def receive(self, seconds: float) -> Optional[bytes]:
        raise NotImplementedError


class UdpBus(Bus):
    """The bus of this machine, as datagrams; the device is heard at the port BASE + PORT_ID."""

    def __init__(self, base: int, port_id: int) -> None:
        self.link = socket.socket(socket.AF_INET, socket.SOCK_DGRAM)
        self.link.bind(("127.0.0.1", base + port_id))
        self.ports = [("127.0.0.1", base + node) for node in range(1, 126) if node != port_id]

    def send(self, datagram: bytes) -> None:
        for port in self.ports:
            self.link.sendto(datagram, port)

    def receive(self, seconds: float) -> Optional[bytes]:
        """The next datagram, or None where none comes for so long."""
        self.link.settimeout(seconds)
        try:
            return self.link.recv(64)
        except (socket.timeout, ConnectionRefusedError):
            return None


def ask_on(bus: Bus, unique_id: bytes, limit: float) -> Optional[int]:
    """The node ID that the allocators of a bus give to this unique ID, or None where the time is over."""
    answers, transfer, end = Answers(), 0, time.monotonic() + limit
    told = 0  # how many bytes of the unique ID the allocators have
    while time.monotonic() < end:
        bus.send(request(unique_id, told // 6, transfer))
        transfer, told = (transfer + 1) % 32, 0
        until = time.monotonic() + random.uniform(0.6, 1.0)
        while (left := until - time.monotonic()) > 0:
            datagram = bus.receive(left)
            payload = None if datagram is None else answers.take(datagram)
            if payload is None or not unique_id.startswith(payload[1:]):
                continue
            if len(payload) == 17:
                return payload[0] >> 1
            if len(payload) in (7, 13):
                told = len(payload) - 1
                time.sleep(random.uniform(0.0, 0.1))
                break
    return None


def ask(base: int, unique_id: bytes, port_id: int, limit: float = LIMIT) -> Optional[int]:
    """The same of the bus of this machine."""
    return ask_on(UdpBus(base, port_id), unique_id, limit)


def main() -> None:
    if sys.argv[1:] in (["-h"], ["--help"]):
        print(__doc__)
        return
    if len(sys.argv) not in (3, 4):
        sys.exit(__doc__)
    port_id = int(sys.argv[3]) if len(sys.argv) == 4 else 120
    node = ask(int(sys.argv[1]), bytes.fromhex(sys.argv[2]), port_id)
    if node is None:
        sys.exit("no node ID was given")
    print(node)


if __name__ == "__main__":
    main()
