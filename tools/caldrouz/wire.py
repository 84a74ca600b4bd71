"""Frames of the bus and the transfers that they are cut from, by docs/PROTOCOL.md. Not proved.

    frame = wire.from_datagram(datagram)          # or from_can: a Frame, or None where it is none
    frame.heading.kind, .source, .destination     # "alloc", "stat", .. by their names in a report, or OTHER
    frame.tail.starts, .ends, .transfer_id
    transfers = wire.Transfers()
    payload = transfers.take(sender, frame)       # bytes, where a transfer is whole with this frame
    wire.Teller(members).says(heading, payload)   # in words
"""
from __future__ import annotations

import binascii
import functools
import struct
from typing import Dict, Hashable, Iterable, List, NamedTuple, Optional, Tuple

from . import table

PRIORITY = 30  # of whatever a member sends
START, END, TOGGLE = 0x80, 0x40, 0x20
SERVICE, REQUEST = 0x80, 0x8000
FIRST_WIDE = 1 << 29  # identifiers are below it
NO_UNIQUE_ID = "0" * 32
OTHER = "other"  # the kind of a frame that no allocator takes

_NUMBERS = {(kind.kind, kind.data_type.number): name for name, kind in table.TRANSFERS.items()}
RESPONSES = {  # request: response
    name: _NUMBERS["response", it.data_type.number] for name, it in table.TRANSFERS.items() if it.kind == "request"
}
REQUESTS = {response: request for request, response in RESPONSES.items()}
_MOST = table.LONGEST_PAYLOAD + 1
SIZES = {  # by the name of a transfer: the sizes of payloads that have a reading
    "alloc": range(1, 18), "disc": range(1, 7), "stat": range(5, _MOST), "infoq": range(_MOST),
    "info": range(41, _MOST), "voteq": range(9, _MOST), "vote": range(5, _MOST), "appq": range(10, _MOST),
    "app": range(5, _MOST),
}

CAN_FRAME = struct.Struct("=IB3x8s")  # struct can_frame of linux/can.h
EXTENDED, REMOTE, ERROR = 1 << 31, 1 << 30, 1 << 29  # in its identifier


class Heading(NamedTuple):
    """What an identifier says: the kind of the transfer, its source, and its destination (0: for all)."""

    identifier: int
    kind: str
    source: int
    destination: int


class Tail(NamedTuple):
    """The last byte of a frame."""

    starts: bool
    ends: bool
    toggle: bool
    transfer_id: int


class Frame(NamedTuple):
    """A frame of the bus: an identifier of 29 bits and 1 to 8 bytes of data."""

    identifier: int
    data: bytes

    @property
    def heading(self) -> Heading:
        return read_heading(self.identifier)

    @property
    def tail(self) -> Tail:
        return read_tail(self.data[-1])

    def __str__(self) -> str:
        return f"{self.identifier:08x}#{self.data.hex()}"


@functools.lru_cache(maxsize=4096)
def read_heading(identifier: int) -> Heading:
    source, destination = identifier & 0x7F, 0
    if identifier & SERVICE:
        destination = identifier >> 8 & 0x7F
        part = "request" if identifier & REQUEST else "response"
        kind = _NUMBERS.get((part, identifier >> 16 & 0xFF), OTHER) if source and destination else OTHER
    elif source == 0:  # it tells the two low bits of its number alone, behind a discriminator
        kind = "alloc" if identifier >> 8 & 3 == table.TRANSFERS["alloc"].data_type.number else OTHER
    else:
        kind = _NUMBERS.get(("message", identifier >> 8 & 0xFFFF), OTHER)
    return Heading(identifier, kind, source, destination)


@functools.lru_cache(maxsize=None)
def read_tail(tail: int) -> Tail:
    return Tail(bool(tail & START), bool(tail & END), bool(tail & TOGGLE), tail % table.TRANSFER_IDS)


def identifier_of(source: int, name: str, destination: int = 0) -> int:
    """The identifier of a transfer that a member offers, from the name and the destination of a mark."""
    kind, data_type = table.TRANSFERS[name]
    if kind == "message":
        return PRIORITY << 24 | data_type.number << 8 | source
    request = REQUEST if kind == "request" else 0
    return PRIORITY << 24 | data_type.number << 16 | request | destination << 8 | SERVICE | source


# --- frames of Cyphal (UAVCAN v1), whose bits its specification has in "Cyphal/CAN"

_CYPHAL_FIXED, _CYPHAL_MESSAGE = 1 << 25 | 1 << 23 | 3 << 21 | 1 << 7, 3 << 21
_ANONYMOUS = 1 << 24
_SUBJECTS_OF_IDS = 8165, 8166  # uavcan.pnp.NodeIDAllocationData, of both versions


def is_of_cyphal(frame: Frame) -> bool:
    """Whether it begins a message of Cyphal: there the toggle bit of a first frame is set, and here it never is."""
    tail = frame.tail
    return tail.starts and tail.toggle and frame.identifier & _CYPHAL_FIXED == _CYPHAL_MESSAGE


def asks_by_cyphal(frame: Frame) -> bool:
    """Whether such a frame asks for a node ID."""
    subject = frame.identifier >> 8 & 0x1FFF
    return bool(frame.identifier & _ANONYMOUS) and subject in _SUBJECTS_OF_IDS


# --- how frames come


def from_datagram(datagram: bytes) -> Optional[Frame]:
    """The frame of a datagram (docs/FORMATS.md, "Datagrams"), or None where it is none."""
    identifier, data = int.from_bytes(datagram[:4], "big"), datagram[table.DATAGRAM_HEAD:]
    whole = 1 <= len(data) <= table.DATAGRAM_MOST_DATA and datagram[table.DATAGRAM_HEAD - 1] == len(data)
    return Frame(identifier, data) if whole and identifier < FIRST_WIDE else None


def to_datagram(frame: Frame) -> bytes:
    return frame.identifier.to_bytes(4, "big") + bytes([len(frame.data)]) + frame.data


def from_can(packet: bytes) -> Optional[Frame]:
    """The frame of a packet of a raw CAN socket, or None where it is no data frame with 29 bits and data."""
    if len(packet) != CAN_FRAME.size:
        return None
    identifier, length, data = CAN_FRAME.unpack(packet)
    if identifier & (EXTENDED | REMOTE | ERROR) != EXTENDED or not 1 <= length <= 8:
        return None
    return Frame(identifier % FIRST_WIDE, data[:length])


def to_can(frame: Frame) -> bytes:
    return CAN_FRAME.pack(frame.identifier | EXTENDED, len(frame.data), frame.data)


# --- transfers


def transfer_crc(data_type: table.DataType, payload: bytes) -> bytes:
    """CRC-16/CCITT-FALSE over the signature of the type and the payload."""
    crc = binascii.crc_hqx(data_type.signature.to_bytes(8, "little") + payload, 0xFFFF)
    return crc.to_bytes(table.CRC_BYTES, "little")


def cut(data_type: table.DataType, transfer_id: int, payload: bytes) -> List[bytes]:
    """The data of the frames of a transfer."""
    if len(payload) > table.FRAME_BYTES:
        payload = transfer_crc(data_type, payload) + payload
    pieces = [payload[at : at + table.FRAME_BYTES] for at in range(0, len(payload), table.FRAME_BYTES)] or [b""]
    last = len(pieces) - 1
    return [
        piece + bytes([(at == 0) * START | (at == last) * END | (at % 2) * TOGGLE | transfer_id])
        for at, piece in enumerate(pieces)
    ]


class Transfers:
    """Joins frames into transfers. A sender's frames come here in the order in which it put them on the bus."""

    def __init__(self) -> None:
        self._begun: Dict[Tuple[Hashable, int, int], bytes] = {}

    def take(self, sender: Hashable, frame: Frame) -> Optional[bytes]:
        """The payload of the transfer that is whole with this frame, or None, also where its CRC is that of another
        payload. `sender` tells equal sources apart."""
        tail, kind = frame.tail, frame.heading.kind
        key = (sender, frame.identifier, tail.transfer_id)
        begun = self._begun.pop(key, None)
        body = b"" if tail.starts else begun
        if body is None:
            return None
        body += frame.data[:-1]
        if not tail.ends:
            self._begun[key] = body
            return None
        if tail.starts:
            return body
        crc, payload = body[:table.CRC_BYTES], body[table.CRC_BYTES:]
        return payload if kind == OTHER or crc == transfer_crc(table.TRANSFERS[kind].data_type, payload) else None


# --- what transfers say


def number(data: bytes, at: int = 0) -> int:
    """The number of 4 bytes, low byte first."""
    return int.from_bytes(data[at : at + 4], "little")


class Entry(NamedTuple):
    """An entry of a log, as it stands in 21 bytes of a request or a store. A store has its origin behind these."""

    term: int
    unique_id: str
    node: int
    origin: int = table.ORIGIN_LEADER  # how it came into the store, one of stores.ORIGINS

    def __str__(self) -> str:
        return entry_words(self.node, self.unique_id)


def read_entry(data: bytes) -> Entry:
    return Entry(number(data), data[4:20].hex(), data[20] & 0x7F, *data[21:22])


def entry_words(node: int, unique_id: str) -> str:
    """An entry of a log in words."""
    if node == 0:
        return "a blank"
    if unique_id == NO_UNIQUE_ID:
        return f"node ID {node} kept back"
    return f"node ID {node} for {unique_id}"


def told(heading: Heading, payload: bytes) -> Optional[Tuple[int, str]]:
    """The node ID and the unique ID that an Allocation tells, or None."""
    if heading.kind == "alloc" and heading.source and len(payload) == 17 and payload[0] >> 1:
        return payload[0] >> 1, payload[1:].hex()
    return None


def asked_part(heading: Heading, payload: bytes) -> Optional[Tuple[int, str]]:
    """Where in the unique ID the bytes of a device's request belong, and these bytes; or None."""
    if heading.kind != "alloc" or heading.source or not 4 <= len(payload) - 1 <= 6:
        return None
    at = 0 if payload[0] & 1 else 6 if len(payload) == 7 else 12
    return at, payload[1:].hex()


class Teller:
    """Says in words what a whole transfer says."""

    def __init__(self, members: Iterable[int]) -> None:
        self.members = set(members)

    def name(self, node: int) -> str:
        if node == 0:
            return "a device"
        return f"member {node}" if node in self.members else f"node {node}"

    def says(self, heading: Heading, payload: bytes) -> str:
        try:
            return self._says(heading, payload)
        except IndexError:
            return f"{self.name(heading.source)} sends a payload of {heading.kind} that has no reading: {payload.hex()}"

    def _says(self, heading: Heading, payload: bytes) -> str:
        kind, source = heading.kind, self.name(heading.source)
        to = self.name(heading.destination) if heading.destination else ""
        if kind == "alloc":
            return self._allocation(heading, payload)
        if kind == "stat":
            return f"{source} is there, up {number(payload)} s"
        if kind == "disc":
            known = ", ".join(map(str, payload[1:])) or "nobody"
            return f"{source} knows {known}, in a cluster of {payload[0]}"
        if kind == "infoq":
            return f"{source} asks {to} for its unique ID"
        if kind == "info":
            return f"{source} tells {to} its unique ID {payload[24:40].hex()}"
        if kind == "voteq":
            log = f"its log ends at place {payload[8]}" + (f" of term {number(payload, 4)}" if payload[8] else "")
            return f"{source} asks {to} for its vote in term {number(payload)}; {log}"
        if kind == "vote":
            verb = "votes for" if payload[4] & 0x80 else "denies its vote to"
            return f"{source} {verb} {to} in term {number(payload)}"
        if kind == "appq":
            what = f"{source} leads {to} in term {number(payload)}"
            if len(payload) > 10:
                entry = read_entry(payload[10:31])
                return f"{what}, and hands on place {payload[8] + 1}: {entry}, of term {entry.term}"
            return f"{what}, behind place {payload[8]}, {payload[9]} committed"
        if kind == "app":
            return f"{source} tells {to} {'yes' if payload[4] & 0x80 else 'no'} in term {number(payload)}"
        return f"{source} sends something else: {payload.hex()}"

    def _allocation(self, heading: Heading, payload: bytes) -> str:
        node, part = payload[0] >> 1, payload[1:].hex()
        if heading.source == 0:
            stage = "first" if payload[0] & 1 else "second" if len(payload) == 7 else "third"
            wish = f", and would like node ID {node}" if node else ""
            return f"a device asks, {stage} stage: {part}{wish}"
        if node:
            return f"{self.name(heading.source)} tells node ID {node} to {part}"
        return f"{self.name(heading.source)} has {len(payload) - 1} bytes of the unique ID: {part}"
