"""Records of a store of version 3, made from their definition alone: what a block of the worked store has."""
from __future__ import annotations

import hashlib
from typing import Sequence


def new_image() -> bytes:
    """The image of a new store."""
    image = bytearray(8844)
    image[0], image[34], image[35] = 1, 1, 2
    return bytes(image)


def head_of(member: int, members: Sequence[int]) -> bytes:
    return (b"caldrouz" + bytes([3, member, *sorted(members)])).ljust(16, b"\0")


def record_of(head: bytes, number: int, image: bytes) -> bytes:
    body = head + number.to_bytes(8, "little") + image
    return body + hashlib.sha256(body).digest()
