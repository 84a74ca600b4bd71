"""Asks the allocators of a bus for node IDs, as devices do. Not proved.

    node = asking.ask(bus, unique_id, wish, 20.0)   # the node ID that is told, or None: none is in so many seconds
    frame = asking.request(unique_id, 0, wish, 7)   # the request of a stage, 0 to 2, with a transfer ID
"""
from __future__ import annotations

import random
import time
from typing import Callable, Optional

from . import buses, table, wire

STAGE = 6  # bytes of the unique ID that a request tells
UNIQUE_ID = 16
LEAST_WAIT, SPREAD = 0.6, 0.4  # seconds after which a device begins anew
DISCRIMINATORS = 1 << 14


def request(unique_id: bytes, stage: int, wish: int, transfer_id: int) -> wire.Frame:
    """The request of a stage. It has no source; a random discriminator stands where others have part of their type."""
    data = bytes([wish << 1 | (stage == 0)]) + unique_id[STAGE * stage : STAGE * (stage + 1)]
    tail = wire.START | wire.END | transfer_id
    return wire.Frame(wire.identifier_of(0, "alloc") | random.randrange(DISCRIMINATORS) << 10, data + bytes([tail]))


def ask(
    bus: buses.Bus, unique_id: bytes, wish: int, limit: float, hear: Callable[[wire.Frame], None] = lambda _: None
) -> Optional[int]:
    """The node ID that the allocators tell to this unique ID, or None where none is told in so many seconds. Whatever
    comes meanwhile is handed to `hear`."""
    transfers, transfer_id, had = wire.Transfers(), random.randrange(table.TRANSFER_IDS), 0
    end = time.monotonic() + limit
    while time.monotonic() < end:
        bus.send(request(unique_id, had // STAGE, wish, transfer_id))
        transfer_id, had = (transfer_id + 1) % table.TRANSFER_IDS, 0
        until = min(end, time.monotonic() + LEAST_WAIT + SPREAD * random.random())
        while had == 0 and (left := until - time.monotonic()) > 0:
            frame = bus.receive(left)
            if frame is None:
                continue
            hear(frame)
            is_answer = frame.heading.kind == "alloc" and frame.heading.source
            payload = transfers.take(None, frame) if is_answer else None
            if payload is None or len(payload) < 2 or not unique_id.startswith(payload[1:]):
                continue
            if len(payload) == UNIQUE_ID + 1 and payload[0] >> 1:
                return payload[0] >> 1
            if len(payload) - 1 in (STAGE, 2 * STAGE):
                had = len(payload) - 1
    return None
