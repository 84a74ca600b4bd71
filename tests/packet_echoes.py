"""A member of `can` alone on a packet socket, looked at packet by packet: one frame is on its way at a time, a member
whose echo is late writes nothing more and ends, nothing old is sent after a stop, and who of one process hears what.
For tests/program.

packet_echoes.py PROGRAM: in an empty folder; it ends with 1, and says what is not so, and with 77 where there is no
strace and all else is so."""
from __future__ import annotations

import contextlib
import functools
import glob
import os
import shutil
import signal
import socket
import subprocess
import sys
import time
from typing import Callable, Dict, Iterator, List, Optional, Tuple

sys.dont_write_bytecode = True
import packets  # noqa: E402 (it stands beside this file)

LINK_FAULT, LATE_ECHO, PASSED_OVER = 9, 17, 77
FAILURES = [  # which call fails how, in the words of strace, and how the member ends
    ("write:error=ENOBUFS:when=3", None),  # the interface has no room
    ("write:error=ENETDOWN:when=3", None),  # it is down, and the next read says so
    ("write:error=EINTR:when=3", None),
    ("write:error=ENODEV:when=3", LINK_FAULT),
    ("read:error=EINTR:when=3", None),
    ("read:error=ENETDOWN:when=3", LINK_FAULT),
]
ECHOES = 10  # frames behind which a call has failed
TRIES = 3  # a machine that is busy for half a second fails one
APPEND_ENTRIES = 30  # the number of the service
LATE = 0.5  # seconds until an echo is late
SOON = 0.02  # seconds for which a frame waits for the echo of the one before it
STOPPED = 2.5  # seconds for which a process is stopped: what it has to send is too old then
PATIENCE = 20.0  # seconds until a member has to have sent something, or to have ended


class Members:
    """One process of `can` with these members, whose cluster has three, and the other end of its socket."""

    def __init__(self, program: str, nodes: List[int], injected: str = "") -> None:
        """`injected` says by which error a call on the socket fails once, in the words of strace."""
        names = list(map(str, nodes))
        subprocess.run([program, "new", *names], stdout=subprocess.DEVNULL, check=True)
        self.end, theirs = socket.socketpair(socket.AF_UNIX, socket.SOCK_SEQPACKET)
        theirs.setblocking(False)
        words = [program, "can", "1,2,3", "1000000000", *names]
        if injected:
            path = f"socket:[{os.fstat(theirs.fileno()).st_ino}]"
            strace = ["strace", "-f", "-qq", "-o", "calls", "-P", path, "-e", "trace=read,write"]
            words = [*strace, "-e", f"inject={injected}", *words]
        with theirs, open("report", "wb") as report:
            self.process = subprocess.Popen(words, stdin=theirs.fileno(), stdout=report)

    def packet(self, seconds: float) -> Optional[bytes]:
        """The next packet that the process writes; None where it writes none for so many seconds, or ended."""
        self.end.settimeout(seconds)
        try:
            return self.end.recv(64) or None
        except OSError:
            return None

    def packets(self, seconds: float) -> Iterator[bytes]:
        end = time.monotonic() + seconds
        while time.monotonic() < end and (packet := self.packet(max(0.001, end - time.monotonic()))):
            yield packet

    def give(self, packet: bytes) -> None:
        self.end.send(packet)

    def status(self, seconds: float) -> Optional[int]:
        """How the process ended; None where it has not ended after so many seconds."""
        try:
            return self.process.wait(seconds)
        except subprocess.TimeoutExpired:
            return None

    def close(self) -> None:
        self.end.close()  # (a process that is traced is not killed with its tracer, but ends by this)
        if self.status(1.0) is None:
            self.process.kill()
            self.process.wait()
        for name in (*glob.glob("alloc-*.store"), "report", "calls"):
            with contextlib.suppress(FileNotFoundError):
                os.remove(name)


def withheld(program: str, echoed: int) -> Tuple[bool, str]:
    """After so many echoes none comes any more: the next frame is the last one, and its process ends."""
    members = Members(program, [1])
    try:
        for _ in range(echoed):
            packet = members.packet(PATIENCE)
            if packet is None:
                return False, "it wrote nothing"
            members.give(packet)
        if members.packet(PATIENCE) is None:
            return False, "it wrote nothing"
        written, begun = time.monotonic(), len(list(members.packets(PATIENCE)))
        status, lasted = members.status(PATIENCE), time.monotonic() - written
        said = f"{begun} further frames, status {status} after {lasted:.2f} s"
        return begun == 0 and status == LATE_ECHO and LATE <= lasted < 10 * LATE, said
    finally:
        members.close()


def delayed(program: str) -> Tuple[bool, str]:
    """An echo that comes a little less than late is none that is late; and what another sends is no echo."""
    members = Members(program, [1])
    try:
        for _ in range(4):
            packet = members.packet(PATIENCE)
            if packet is None:
                return False, f"it ended with {members.process.poll()}"
            identifier, data = packets.frame_of(packet)
            members.give(packets.packet_of(identifier ^ 1 ^ 2, data))  # the same, of member 2
            if list(members.packets(LATE / 5)):
                return False, "it took another frame for its echo"
            members.give(packet)
        return True, ""
    finally:
        members.close()


def behind(program: str) -> Tuple[bool, str]:
    """A frame waits until the echo of the one before it has come, and is not lost: here the second one of a transfer.
    A packet that lacks a byte is no echo."""
    members = Members(program, [1])
    second = False
    try:
        end = time.monotonic() + PATIENCE
        while time.monotonic() < end:
            packet = members.packet(PATIENCE)
            if packet is None:
                return False, f"it ended with {members.process.poll()}"
            tail = packets.frame_of(packet)[1][-1]
            if second:
                members.give(packet[:-1])
                early = list(members.packets(SOON))
                return not tail & packets.FIRST and not early, f"{packet.hex()}, then {[one.hex() for one in early]}"
            second = bool(tail & packets.FIRST and not tail & packets.LAST)
            time.sleep(SOON)
            members.give(packet)
        return False, "it sent no transfer of several frames"
    finally:
        members.close()


def stopped(program: str) -> Tuple[bool, str]:
    """What a process has to send when it is stopped for long is not sent any more: here the second frame of a transfer,
    for which it waits until the first one was on the bus."""
    members = Members(program, [1])
    try:
        end = time.monotonic() + PATIENCE
        while time.monotonic() < end:
            came = members.packet(PATIENCE)
            if came is None:
                return False, f"it ended with {members.process.poll()}"
            packet = came
            tail = packets.frame_of(packet)[1][-1]
            if tail & packets.FIRST and not tail & packets.LAST:
                break
            members.give(packet)
        members.process.send_signal(signal.SIGSTOP)
        time.sleep(STOPPED)
        members.give(packet)
        members.process.send_signal(signal.SIGCONT)
        after = members.packet(PATIENCE)
        if after is None:
            return False, f"it ended with {members.process.poll()}"
        return bool(packets.frame_of(after)[1][-1] & packets.FIRST), f"{after.hex()} behind {packet.hex()}"
    finally:
        members.close()


def fails_once(program: str, injected: str, wanted: Optional[int]) -> Tuple[bool, str]:
    """A call on the socket fails once with this error: the member goes on, or ends with the status that is wanted."""
    members = Members(program, [1], injected)
    try:
        for _ in range(ECHOES):
            packet = members.packet(PATIENCE)
            if packet is None:
                break
            members.give(packet)
        status = members.status(0.0 if wanted is None else PATIENCE)
        with open("calls", encoding="ascii", errors="replace") as calls:
            count = calls.read().count("INJECTED")
        return status == wanted and count == 1, f"status {status}, {count} calls failed"
    finally:
        members.close()


def two_of_one_process(program: str) -> Tuple[bool, str]:
    """Of two members of one process each hears the other, once that was on the bus, and never itself: the one that is
    elected by the other calls it, and is answered by it, and by nobody else."""
    members = Members(program, [1, 2])
    answers: Dict[Tuple[int, int], int] = {}
    try:
        end = time.monotonic() + PATIENCE
        while time.monotonic() < end and not answers:
            packet = members.packet(PATIENCE)
            if packet is None:
                return False, f"it ended with {members.process.poll()}"
            members.give(packet)
            identifier, _ = packets.frame_of(packet)
            is_response = identifier & 0x80 and not identifier & 0x8000
            if is_response and identifier >> 16 & 0xFF == APPEND_ENTRIES:
                pair = identifier & 0x7F, identifier >> 8 & 0x7F
                answers[pair] = answers.get(pair, 0) + 1
        return set(answers) in ({(1, 2)}, {(2, 1)}), f"answers: {answers}"
    finally:
        members.close()


def main() -> int:
    program = sys.argv[1]
    tries: List[Tuple[str, Callable[[], Tuple[bool, str]]]] = [
        ("an echo that never comes ends the member", lambda: withheld(program, 0)),
        ("a later echo that does not come ends it too", lambda: withheld(program, 5)),
        ("an echo in time, and another's frame", lambda: delayed(program)),
        ("a frame waits for the echo before it", lambda: behind(program)),
        ("what is old after a stop is not sent", lambda: stopped(program)),
        ("two members of one process hear each other", lambda: two_of_one_process(program)),
    ]
    if shutil.which("strace"):
        for injected, wanted in FAILURES:
            fails = functools.partial(fails_once, program, injected, wanted)
            tries.append((f"a call on the socket fails: {injected}", fails))
    failed = 0
    for text, one in tries:
        for _ in range(TRIES):
            is_so, said = one()
            if is_so:
                break
            print(f"not so: {text}: {said}")
        else:
            failed += 1
    return 1 if failed else 0 if shutil.which("strace") else PASSED_OVER


if __name__ == "__main__":
    sys.exit(main())
