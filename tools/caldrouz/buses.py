"""A bus that is there now: the datagrams of the members on this machine, or a CAN interface. Not proved.

    bus = buses.open_bus("5000")          # or "can0": a Bus, or OSError; "5000" is the base port of the members
    bus = buses.open_bus("5000", True)    # one that is to send as well
    frame = bus.receive(0.5)              # a Frame, or None where none comes for so many seconds
    bus.send(frame)                       # as a node on the bus would
    sender = buses.Sender("5000", 1)      # what member 1 of this machine sends there, and nobody else
    bus = buses.Stamped("can0", [1, 2])   # what the allocators with these node IDs take or send, with its moments
    buses.is_base("5000")                 # whether a word is a base port
    buses.tells_what_is_out("can0")       # whether the driver gives a frame back once it was on the bus
    buses.bit_rate("can0")                # its bits a second, or None where it has no wire or does not tell
    buses.late_echo(125_000)              # after how many seconds an echo is late there, or where the rate is None
"""
from __future__ import annotations

import errno
import socket
import struct
import sys
import time
from typing import Dict, Iterator, List, MutableMapping, Optional, Sequence, Tuple, Union

from . import table, texts, wire

LEAST_BASE, GREATEST_BASE = texts.LEAST_BASE, texts.GREATEST_BASE
# Tools listen at these ports, counted from the base: a member has none of them (1 to 117), nor the bridge (119).
TOOL_PORTS = 118, 121, 122, 123, 124, 125
WATCH_PORTS = *reversed(TOOL_PORTS), 120  # of those who watch the members of this machine; a device listens at 120
BRIDGE_PORT = 119  # from here members that were told their list take frames of any node
ROOM = 1 << 20  # bytes that a socket is asked to keep
FULL_FOR = 0.5  # seconds for which a full queue of an interface is tried again
IFF_ECHO = 1 << 18  # of linux/if.h
WITHOUT_A_WIRE = "vcan", "vxcan"  # what is sent on these is out at once
MESSAGE = struct.Struct("=IHHIIBxHiII")  # a struct nlmsghdr and a struct ifinfomsg of Linux
GET_LINK, NEW_LINK, IS_REQUEST = 18, 16, 1
LINK_INFO, INFO_KIND, INFO_DATA, BIT_TIMING = 18, 1, 2, 1
NESTED = 1 << 15  # may stand in the kind of an attribute
BIT_RATE = "CALDROUZ_BIT_RATE"  # in the environment of a member: the bit rate of the bus behind its socket
CAN_FILTER = struct.Struct("=II")
SOURCE = 0x7F  # of an identifier
SO_TIMESTAMPNS, TIMESPEC = 35, struct.Struct("@ll")  # the time of arrival, in seconds and nanoseconds


def is_base(word: str) -> bool:
    return word.isascii() and word.isdigit() and LEAST_BASE <= int(word[:9]) <= GREATEST_BASE and len(word) < 9


def tells_what_is_out(channel: str) -> Optional[bool]:
    """Whether a frame comes back on this interface once it was on the bus, and no sooner; None where the system does
    not tell. Where the driver has no echo of its own, the kernel gives a frame back before the driver has it."""
    return has_true_echo(_described(channel))


def bit_rate(channel: str) -> Optional[int]:
    """The bit rate of this interface; None where it has none, or the system does not tell."""
    return told_bit_rate(_described(channel))


def late_echo(rate: Optional[int]) -> float:
    """After how many seconds an echo is late, for a member of `can`, on a bus with this bit rate."""
    is_slow = rate is not None and rate <= table.CAN_SLOW
    return (table.CAN_LATE_WHERE_SLOW if is_slow else table.CAN_LATE) / 1000


def tell_bit_rate(environment: MutableMapping[str, str], rate: Optional[int]) -> None:
    """Puts the bit rate into the environment of a member, and nothing where it is not known."""
    environment.pop(BIT_RATE, None)
    if rate:
        environment[BIT_RATE] = str(rate)


def _described(channel: str) -> bytes:
    """The kernel's description of an interface; empty where the system gives none."""
    try:
        with socket.socket(socket.AF_NETLINK, socket.SOCK_RAW, 0) as link:
            link.settimeout(1.0)
            number = socket.if_nametoindex(channel)
            link.send(MESSAGE.pack(MESSAGE.size, GET_LINK, IS_REQUEST, 1, 0, 0, 0, number, 0, 0))
            return link.recv(1 << 16)
    except OSError:
        return b""


def has_true_echo(answer: bytes) -> Optional[bool]:
    """What the kernel's description of an interface says of its echo; None where it is none."""
    described = _flags_and_info(answer)
    if described is None:
        return None
    flags, info = described
    return bool(flags & IFF_ECHO) or _kind(info) in WITHOUT_A_WIRE


def told_bit_rate(answer: bytes) -> Optional[int]:
    """The bit rate that the kernel's description of an interface has; None where it has none."""
    described = _flags_and_info(answer)
    if described is None or _kind(described[1]) != "can":
        return None
    timing = _attributes(described[1].get(INFO_DATA, b"")).get(BIT_TIMING, b"")
    return int.from_bytes(timing[:4], sys.byteorder) or None


def _flags_and_info(answer: bytes) -> Optional[Tuple[int, Dict[int, bytes]]]:
    if len(answer) < MESSAGE.size:
        return None
    _, kind, _, _, _, _, _, _, flags, _ = MESSAGE.unpack_from(answer)
    if kind != NEW_LINK:
        return None
    return flags, _attributes(_attributes(answer[MESSAGE.size:]).get(LINK_INFO, b""))


def _kind(info: Dict[int, bytes]) -> str:
    return info.get(INFO_KIND, b"").rstrip(b"\0").decode()


def _attributes(data: bytes) -> Dict[int, bytes]:
    found = {}
    while len(data) >= 4:
        length, kind = struct.unpack_from("=HH", data)
        if length < 4:
            break
        found[kind & ~NESTED] = data[4:length]
        data = data[length + 3 & ~3:]
    return found


class UdpBus:
    """The members of this machine. Each sends each frame to the ports of all other node IDs, so also to this one. To
    send, it takes the place of a bridge, where none is there."""

    def __init__(self, base: int, sends: bool = False) -> None:
        self.link = socket.socket(socket.AF_INET, socket.SOCK_DGRAM)
        self.link.setsockopt(socket.SOL_SOCKET, socket.SO_RCVBUF, ROOM)
        mine = _first_free(self.link, base, (BRIDGE_PORT, *TOOL_PORTS) if sends else TOOL_PORTS)
        self._ports = [("127.0.0.1", base + node) for node in range(1, table.LAST + 1) if node != mine]

    def receive(self, seconds: float) -> Optional[wire.Frame]:
        packet = _receive(self.link, seconds)
        return None if packet is None else wire.from_datagram(packet)

    def send(self, frame: wire.Frame) -> None:
        datagram = wire.to_datagram(frame)
        for port in self._ports:
            self.link.sendto(datagram, port)


class CanBus:
    def __init__(self, channel: str) -> None:
        if "\0" in channel or not 1 <= len(channel.encode(errors="surrogateescape")) <= 15:
            raise OSError(errno.ENODEV, "neither a base port, nor a name that a CAN interface can have")
        self.link = socket.socket(socket.AF_CAN, socket.SOCK_RAW, socket.CAN_RAW)
        self.link.setsockopt(socket.SOL_SOCKET, socket.SO_RCVBUF, ROOM)
        self.link.bind((channel,))

    def receive(self, seconds: float) -> Optional[wire.Frame]:
        packet = _receive(self.link, seconds)
        return None if packet is None else wire.from_can(packet)

    def send(self, frame: wire.Frame) -> None:
        end = time.monotonic() + FULL_FOR
        while True:
            try:
                self.link.send(wire.to_can(frame))
                return
            except OSError as error:
                if error.errno != errno.ENOBUFS or time.monotonic() > end:
                    raise
                time.sleep(0.001)


Bus = Union[UdpBus, CanBus]


def filters(members: Sequence[int]) -> Iterator[Tuple[int, int]]:
    """The identifiers that the allocators of these members take, those of Allocations, by which they know a stranger,
    and those with one of them as their source, as pairs of bits and mask over 29 bits."""
    for kind, data_type in table.TRANSFERS.values():
        number = data_type.number
        if data_type == table.ALLOCATION:
            yield number << 8, 3 << 8 | 0xFF  # an anonymous message tells the two low bits of its number alone
        if kind == "message":
            yield number << 8, 0xFFFF << 8 | wire.SERVICE
        elif kind == "request":  # and its responses
            for node in members:
                yield number << 16 | node << 8 | wire.SERVICE, 0xFF << 16 | SOURCE << 8 | wire.SERVICE
    yield from ((node, SOURCE) for node in members)


def can_filters(members: Sequence[int]) -> bytes:
    """The same for a raw CAN socket, which gives extended data frames alone."""
    pairs = [(wire.EXTENDED | bits, wire.EXTENDED | wire.REMOTE | mask) for bits, mask in filters(members)]
    return b"".join(CAN_FILTER.pack(*pair) for pair in pairs)


class Stamped:
    """A bus with the moments at which the system had its frames, in seconds since 1970; of an interface what the
    allocators of these members take or send, or all where none is named."""

    def __init__(self, word: str, members: Sequence[int] = ()) -> None:
        self.is_udp, self.link = is_base(word), open_bus(word).link
        self.link.setsockopt(socket.SOL_SOCKET, SO_TIMESTAMPNS, 1)
        if members and not self.is_udp:
            self.link.setsockopt(socket.SOL_CAN_RAW, socket.CAN_RAW_FILTER, can_filters(members))

    def receive(self, seconds: float) -> Optional[Tuple[float, wire.Frame]]:
        """The next frame; None where none comes for so many seconds."""
        self.link.settimeout(seconds)
        try:
            packet, ancillary, _, _ = self.link.recvmsg(64, socket.CMSG_SPACE(TIMESPEC.size))
        except OSError as error:
            _raise_but_nothing(error)
            return None
        frame = wire.from_datagram(packet) if self.is_udp else wire.from_can(packet)
        moment = time.time()
        for level, kind, value in ancillary:
            if (level, kind) == (socket.SOL_SOCKET, SO_TIMESTAMPNS):
                whole, nanoseconds = TIMESPEC.unpack(value)
                moment = whole + nanoseconds * 1e-9
        return None if frame is None else (moment, frame)


class Sender:
    """A member of this machine, as it is heard where it sends. Waiting for it wakes up when there is something."""

    def __init__(self, word: str, member: int) -> None:
        self.member = member
        self.port = ("127.0.0.1", int(word) + member) if is_base(word) else None
        if self.port is not None:
            self.link = socket.socket(socket.AF_INET, socket.SOCK_DGRAM)
            _first_free(self.link, int(word), WATCH_PORTS)
        else:
            self.link = CanBus(word).link
            own = CAN_FILTER.pack(wire.EXTENDED | member, wire.EXTENDED | wire.REMOTE | SOURCE)
            self.link.setsockopt(socket.SOL_CAN_RAW, socket.CAN_RAW_FILTER, own)
        self.link.setblocking(False)

    def fileno(self) -> int:
        return self.link.fileno()

    def heard(self) -> Optional[bool]:
        """Whether the next of what came is a frame of it, sent by this machine; None where nothing waits."""
        try:
            data, _, flags, sender = self.link.recvmsg(64)
        except OSError as error:
            _raise_but_nothing(error)
            return None
        frame = wire.from_datagram(data) if self.port is not None else wire.from_can(data)
        is_from_here = sender == self.port if self.port is not None else bool(flags & socket.MSG_DONTROUTE)
        return frame is not None and is_from_here and frame.heading.source == self.member


def open_bus(word: str, sends: bool = False) -> Bus:
    """The bus of a base port, or of a CAN interface with this name; OSError where it cannot be listened to."""
    return UdpBus(int(word), sends) if is_base(word) else CanBus(word)


def _first_free(link: socket.socket, base: int, nodes: Sequence[int]) -> int:
    """Binds a socket to the first of these ports that nobody has."""
    taken: List[Tuple[int, OSError]] = []
    for node in nodes:
        try:
            link.bind(("127.0.0.1", base + node))
            return node
        except OSError as error:
            taken.append((base + node, error))
    port, first = taken[0]
    raise OSError(first.errno, f"port {port}: {first.strerror}")


def _receive(link: socket.socket, seconds: float) -> Optional[bytes]:
    link.settimeout(max(seconds, 1e-6))
    try:
        return link.recv(64)
    except OSError as error:
        _raise_but_nothing(error)
        return None


def _raise_but_nothing(error: OSError) -> None:
    """Nothing came: none was there, an earlier datagram was refused, or the interface is down, and may come up again.
    Else it is raised."""
    if not isinstance(error, (BlockingIOError, ConnectionRefusedError, socket.timeout)):
        if error.errno != errno.ENETDOWN:
            raise error
