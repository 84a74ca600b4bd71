"""Looks at the system calls by which the program keeps its stores, under strace.

store_calls.py WAY PROGRAM BASE: in an empty folder. WAY is `order`, `write`, `part`, `sync`, `opening`, `twice` or
`again`. The status is 0 where all is as it has to be, and 1 where it is not, or where there is no strace that may
trace.
"""
from __future__ import annotations

import os
import pathlib
import re
import subprocess
import sys
from typing import Dict, List, Tuple

TOP = pathlib.Path(__file__).resolve().parent.parent
sys.path.insert(0, str(TOP / "examples" / "node"))
import device  # noqa: E402 (it stands beside the examples)

MEMBERS = (1, 2, 3)
KEY_BYTES = 67  # a key of the store: its selector, and two copies of 33 bytes
UNIQUE_ID = bytes(range(16))
DISK_FAULT = 10

STORE = re.compile(r'openat\(AT_FDCWD, "alloc-(\d+)\.store", .*\) = (\d+)$')
SOCKET = re.compile(r"bind\((\d+), .*sin_port=htons\((\d+)\).*\) = 0$")
CALL = re.compile(r"(pwrite64|fdatasync|sendto)\((\d+)[,)]")
PLACE = re.compile(r", (\d+), (\d+)\) += ")
FOLDER = re.compile(r'openat\(AT_FDCWD, "\.", .*\) = (\d+)$', re.M)
FAILED_SYNC = re.compile(r"fsync\((\d+)\) += -1 .*\(INJECTED\)$", re.M)
PORT = re.compile(r"sendto\(.*sin_port=htons\((\d+)\).*\) = \d+$")
# A new store is marked by these two bytes, before its member runs.
MARK = (1, 2)


def strace(log: str, *words: str) -> List[str]:
    return ["strace", "-qq", "-s", "0", "-o", log, "-e", "trace=openat,bind,pwrite64,fsync,fdatasync,sendto", *words]


def can_trace() -> bool:
    try:
        return subprocess.run(strace("/dev/null", "true"), check=False, stderr=subprocess.DEVNULL).returncode == 0
    except FileNotFoundError:
        return False


class Member:
    """What one member has done so far: its puts, and the write of a put that is not synced yet."""

    def __init__(self) -> None:
        self.puts, self.unsynced, self.datagrams = 0, False, 0
        self.writes: List[Tuple[int, int]] = []  # at which byte, and how many
        self.faults: List[str] = []

    def takes(self, call: str, line: str) -> None:
        if call == "pwrite64":
            if self.unsynced:
                self.faults.append("writes again before a sync")
            size, at = map(int, PLACE.findall(line)[0])
            self.writes.append((at, size))
            self.unsynced = True
        elif call == "fdatasync":
            self.unsynced = False
            if self.writes == [MARK] and not self.datagrams:
                self.writes = []
            if len(self.writes) == 2:
                self.end_put()
        else:
            self.datagrams += 1
            if self.unsynced or self.writes:
                self.faults.append("sends amid a put")

    def end_put(self) -> None:
        (copy, _), (selector, size) = self.writes
        if selector % KEY_BYTES or size != 1 or not selector < copy < selector + KEY_BYTES:
            self.faults.append(f"a put writes at {copy} and {selector}")
        self.puts, self.writes = self.puts + 1, []


def read_log(log: str, base: int) -> Dict[int, Member]:
    """The members of a log, with what they did."""
    members = {node: Member() for node in MEMBERS}
    stores: Dict[str, int] = {}
    sockets: Dict[str, int] = {}
    for line in pathlib.Path(log).read_text(encoding="ascii", errors="replace").splitlines():
        store, socket, call = STORE.match(line), SOCKET.match(line), CALL.match(line)
        if store:
            stores[store.group(2)] = int(store.group(1))
        elif socket:
            sockets[socket.group(1)] = int(socket.group(2)) - base
        elif call:
            number = call.group(2)
            node = sockets.get(number) if call.group(1) == "sendto" else stores.get(number)
            if node in members:
                members[node].takes(call.group(1), line)
    return members


def order(program: str, base: int) -> List[str]:
    """One election and one allocation: each datagram comes when the puts before it are synced, twice each."""
    nodes = [str(node) for node in MEMBERS]
    subprocess.run([program, "new", *nodes], check=True, stdout=subprocess.DEVNULL)
    words = [program, "node", ",".join(nodes), str(base), "1000000000", *nodes]
    with subprocess.Popen(strace("log", *words), stdout=subprocess.DEVNULL) as tracer:
        try:
            given = device.ask(base, UNIQUE_ID, 120, 30.0)
        finally:
            children = pathlib.Path(f"/proc/{tracer.pid}/task/{tracer.pid}/children").read_text(encoding="ascii")
            for child in children.split():
                os.kill(int(child), 9)
    members = read_log("log", base)
    faults = [f"member {node} {fault}" for node, member in members.items() for fault in member.faults]
    if given is None:
        faults.append("no node ID was given")
    # A term, a vote and an entry are put by two members at least, and each of these sends.
    busy = [member for member in members.values() if member.puts >= 3 and member.datagrams]
    if len(busy) < 2:
        faults.append(f"the puts are {[member.puts for member in members.values()]}")
    return faults


def fails(program: str, base: int, call: str, when: int = 1) -> List[str]:
    """A call that fails ends the member with 10, and what comes after it in the log."""
    subprocess.run([program, "new", "1"], check=True, stdout=subprocess.DEVNULL)
    injected = ("-e", f"inject={call}:error=EIO:when={when}")
    words = strace("log", *injected, program, "node", "1,", str(base), "100000", "1")
    done = subprocess.run(words, check=False, stdout=subprocess.PIPE)
    lines = pathlib.Path("log").read_text(encoding="ascii", errors="replace").splitlines()
    failed = [place for place, line in enumerate(lines) if "(INJECTED)" in line]
    faults = [] if failed else [f"no {call} was made"]
    if done.returncode != DISK_FAULT or done.stdout != b"disk fault 1\n":
        faults.append(f"the status is {done.returncode}, and this was written: {done.stdout!r}")
    after = [line for line in lines[failed[0] + 1 :] if CALL.match(line)] if failed else []
    return faults + [f"after it comes {line}" for line in after]


def opening(program: str, base: int) -> List[str]:
    """An opening syncs the file of a store and then its folder, and no member runs where either fails."""
    faults = fails(program, base, "fsync", 1)
    os.remove("alloc-1.store")
    faults += fails(program, base, "fsync", 2)
    log = pathlib.Path("log").read_text(encoding="ascii", errors="replace")
    if not {*FAILED_SYNC.findall(log)} & {*FOLDER.findall(log)}:
        faults.append("the second sync is not that of the folder")
    return faults


def part(program: str, base: int) -> List[str]:
    """A call that writes one byte of several is made again for the others."""
    subprocess.run([program, "new", "1"], check=True, stdout=subprocess.DEVNULL)
    words = strace("log", "-e", "inject=pwrite64:retval=1:when=1", program, "node", "1,", str(base), "1", "1")
    subprocess.run(words, check=False, stdout=subprocess.DEVNULL)
    lines = pathlib.Path("log").read_text(encoding="ascii", errors="replace").splitlines()
    for line, after in zip(lines, lines[1:]):
        if "(INJECTED)" in line:
            size, at = map(int, PLACE.findall(line)[0])
            is_again = after.startswith("pwrite64") and PLACE.findall(after) == [(str(size - 1), str(at + 1))]
            return [] if size > 1 and is_again else [f"after {line} comes {after}"]
    return ["no part was written"]


def twice(program: str, _base: int) -> List[str]:
    """A store that somebody may write to is read twice: one that stays is compared, one that changes is not."""
    subprocess.run([program, "new", "1"], check=True, stdout=subprocess.DEVNULL)
    # The first read lasts half a second longer, so that bytes can change before the second.
    slow = ("-P", os.path.abspath("alloc-1.store"), "-e", "inject=pread64:delay_exit=500000:when=1")
    traced = ["strace", "-qq", "-o", "log", "-e", "trace=pread64", *slow]
    faults: List[str] = []
    for changes, expected in ((False, (0, b"agree 0\n")), (True, (DISK_FAULT, b"disk fault 1\n"))):
        with subprocess.Popen([*traced, program, "audit", "1"], stdout=subprocess.PIPE) as tracer:
            with open("alloc-1.store", "r+b", buffering=0) as store:
                number = 0
                while changes and tracer.poll() is None:
                    number += 1
                    # Behind the length of a copy that is not chosen: no value has these bytes.
                    os.pwrite(store.fileno(), number.to_bytes(8, "little"), KEY_BYTES - 8)
            written = tracer.communicate()[0]
        if (tracer.returncode, written) != expected:
            faults.append(f"changes: {changes}; the status is {tracer.returncode}, and this was written: {written!r}")
    return faults


def again(program: str, base: int) -> List[str]:
    """Neither a signal that comes first nor an answer to an earlier datagram, that nobody listens where it went, ends a
    call that receives or sends: it is made again."""
    return [fault for error in ("EINTR", "ECONNREFUSED") for fault in again_after(error, program, base)]


def again_after(error: str, program: str, base: int) -> List[str]:
    pathlib.Path("alloc-1.store").unlink(missing_ok=True)
    subprocess.run([program, "new", "1"], check=True, stdout=subprocess.DEVNULL)
    # The frames of a lone member: each goes to 124 ports.
    injected = [word for call in ("recvfrom", "sendto") for word in ("-e", f"inject={call}:error={error}:when=2+5")]
    traced = ["strace", "-qq", "-o", "log", "-e", "trace=recvfrom,sendto", *injected]
    done = subprocess.run([*traced, program, "node", "1,", str(base), "3000", "1"], check=False, stdout=subprocess.PIPE)
    lines = pathlib.Path("log").read_text(encoding="ascii", errors="replace").splitlines()
    ports = [int(found[1]) - base for found in map(PORT.search, lines) if found]
    faults = []
    if done.returncode or not done.stdout.endswith(b"end 3000\n"):
        faults.append(f"{error}: the status is {done.returncode}, and this was written: {done.stdout[-99:]!r}")
    for call in ("recvfrom", "sendto"):
        if not any(line.startswith(call) and "(INJECTED)" in line for line in lines):
            faults.append(f"{error}: no {call} failed")
    if not ports or ports != list(range(2, 126)) * (len(ports) // 124):
        faults.append(f"{error}: {len(ports)} datagrams went out, and not each frame once to each port")
    return faults


def main() -> int:
    way, program, base = sys.argv[1], sys.argv[2], int(sys.argv[3])
    if not can_trace():
        print("strace is not installed, or may not trace")
        return 1
    if way in ("write", "sync"):
        faults = fails(program, base, {"write": "pwrite64", "sync": "fdatasync"}[way])
    else:
        ways = {"order": order, "part": part, "opening": opening, "twice": twice, "again": again}
        faults = ways[way](program, base)
    for fault in faults[:5]:
        print(fault)
    return 1 if faults else 0


if __name__ == "__main__":
    sys.exit(main())
