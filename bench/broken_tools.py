"""Broken inputs for the tools of Python, for `bench/fuzz tools`: each tool ends with a status of its own, and without a
traceback.

view         schedules and reports of examples, of which bytes, words and lines are changed, doubled or left out
follow       logs, broken likewise; `replay` is a stand-in, which answers each row with a line of some form for it
why, check_vehicle    such logs and stores
check_settings        settings, broken likewise
assign       broken tables
node_status  stores of an example, of which bytes are changed, and random ones; and datagrams, while it listens
monitor      datagrams, while it listens
can_bridge   datagrams, and lines of a serial adapter that is a pair of pseudo terminals, while it runs

But for what listens, the tools run in this process, one after the other, so that Python need not start each time. The
commands of the system that check_vehicle asks are not there for it.
"""
from __future__ import annotations

import collections
import contextlib
import glob
import io
import os
import pty
import random
import signal
import socket
import subprocess
import sys
import tempfile
import time
import traceback
import tty
from types import CodeType
from typing import Callable, Counter, Dict, List, NamedTuple, Sequence, Set, Tuple

from scripts import TOP

from caldrouz import asking, causes, machine, page, report, scene, table, timing, words
from caldrouz.follow import partner, prelude, story

TOOLS = os.path.join(TOP, "tools")
EXAMPLES = os.path.join(TOP, "examples")
SECONDS = 60  # after which a run goes on and on
SETTLE = 10.0  # seconds in which a tool that listens has begun to
TRACEBACK = 99
BASE = 43000
MEMORY = "/dev/shm" if os.path.isdir("/dev/shm") else None
IMPORTED = asking, causes, machine, page, prelude, scene, story, timing, words  # with all that they import
MOST_BYTES = 12_000  # of an example of which runs are made


class Tool(NamedTuple):
    """A tool, the statuses that it may end with, and what writes an input into a folder and gives its words."""

    name: str
    statuses: Set[int]
    write: Callable[[random.Random, str], List[str]]


# --- inputs


def read(*path: str) -> bytes:
    with open(os.path.join(EXAMPLES, *path), "rb") as file:
        return file.read()


def keep(folder: str, name: str, content: bytes) -> str:
    path = os.path.join(folder, name)
    with open(path, "wb") as file:
        file.write(content)
    return path


def broken(draw: random.Random, text: bytes, most: int = 60) -> bytes:
    """Some lines of a text, from its beginning on, with up to four places changed."""
    lines = text.split(b"\n")[: 1 + draw.randrange(most)]
    for _ in range(draw.randrange(5)):
        at, other = draw.randrange(len(lines)), draw.choice(lines)
        line, words = lines[at], lines[at].split(b" ")
        place, word = draw.randrange(len(line) + 1), draw.randrange(len(words))
        number = draw.choice([b"", b"-1", b"0", b"00", b"x", b"9" * 5000, b"%d" % draw.getrandbits(40), b"\xb2"])
        changed: List[List[bytes]] = (
            [
                [line[:place] + bytes([draw.randrange(256)]) + line[place + 1 :]],
                [line[:place] + line[place + 1 :]],
                [b" ".join(words[:word] + [number] + words[word + 1 :])],
                [b" ".join(words[:word] + words[word + 1 :])],
                [line, line],
                [other],
                [other, line],
                [b""],
            ]
        )
        lines[at : at + 1] = draw.choice(changed)
    return b"\n".join(lines) + draw.choice([b"\n", b"\n", b"\n", b""])


def write_run(draw: random.Random, folder: str) -> List[str]:
    name = draw.choice(RUNS)
    schedule, lines = read(name, "schedule"), read(name, "report")
    if draw.random() < 0.1:
        schedule = random_bytes(draw, 300)
    words = [keep(folder, "schedule", broken(draw, schedule, 2000) if draw.random() < 0.5 else schedule)]
    words.append(keep(folder, "report", broken(draw, lines, 2000) if draw.random() < 0.8 else lines))
    return words + draw.choice([[], [], ["--rows", draw.choice(["1-5", "3-200", "9-3", "x", "1-\xb2", "0-1"])]])


def broken_log(draw: random.Random, folder: str) -> str:
    log = broken(draw, draw.choice(LOGS), 120)
    if draw.random() < 0.2:
        log = b"\n".join(line for one in log.split(b"\n") for line in [one] * draw.choice([1, 2, 2, 3]))
    if draw.random() < 0.05:
        log = random_bytes(draw, 500)
    return keep(folder, "log", log)


def write_log(draw: random.Random, folder: str) -> List[str]:
    store = ["--store", "1=" + keep(folder, "store", broken_store(draw))] if draw.random() < 0.1 else []
    members = draw.choice(["1 2 3", "1", "3 4"]).split()
    return [broken_log(draw, folder), *members, *store, "--program", "true"]


def write_why(draw: random.Random, folder: str) -> List[str]:
    store = ["--store", keep(folder, "alloc-1.store", broken_store(draw))] if draw.random() < 0.3 else []
    members = draw.choice(["", "--members 1,2,3", "--members 1,x", "--size 3", "--seconds 5 --json"]).split()
    return [broken_log(draw, folder), *members, *store]


def write_vehicle(draw: random.Random, folder: str) -> List[str]:
    keep(folder, "alloc-1.store", broken_store(draw))
    settings = b"MEMBERS=%s\nCLUSTER=%s\nBASE=5000\n" % (random_bytes(draw, 3), draw.choice([b'"1 2 3"', b"x", b""]))
    given = ["--stores", folder, "--settings", keep(folder, "settings", settings)]
    return ["--log", broken_log(draw, folder), *given, *draw.choice(["", "--members 1,2,3", "--hold x"]).split()]


def write_settings(draw: random.Random, folder: str) -> List[str]:
    """Settings of one or two machines, of which bytes are changed."""
    text = b'# a comment\nCLUSTER=1,2,3\nBASE=5000\nMEMBERS="1 2"\nBITRATE=1000000\n'
    files = [keep(folder, f"settings{at}", broken(draw, text, 5)) for at in range(draw.choice([1, 1, 2]))]
    return files + draw.choice([[], ["--json"]])


def write_table(draw: random.Random, folder: str) -> List[str]:
    """A table that no allocator is asked for: its last line is none."""
    rows = b"\n".join(b"%d %s" % (draw.randrange(130), b"%032x" % draw.getrandbits(128)) for _ in range(5))
    return [str(BASE), keep(folder, "table", broken(draw, rows, 5).rstrip(b"\n") + b"\nx\n"), "--members", "1"]


def broken_store(draw: random.Random) -> bytes:
    image = bytearray(draw.choice([it for it in STORES if len(it) == table.IMAGE]))
    for _ in range(draw.randrange(8)):
        at = draw.randrange(table.KEY_SIZE * 12) if draw.randrange(4) else draw.randrange(len(image))
        image[at] = draw.choice([0, 1, 2, 3, 21, 22, 33, draw.randrange(256)])
    if draw.random() < 0.1:
        image = bytearray(random_bytes(draw, table.IMAGE))
    return bytes(image[: draw.choice([len(image)] * 9 + [draw.randrange(len(image) + 1)])])  # (it may be empty)


def write_stores(draw: random.Random, folder: str) -> List[str]:
    for node in draw.sample(range(1, 126), draw.randrange(3)):
        keep(folder, f"alloc-{node}.store", broken_store(draw))
    if draw.random() < 0.05:
        os.makedirs(os.path.join(folder, "alloc-126.store"))
    return [draw.choice(["5000", "5000", "5000", "99999", "x"]), "--seconds", "0", folder]


def random_bytes(draw: random.Random, mean: int) -> bytes:
    return draw.randbytes(int(draw.expovariate(1 / mean)))


def datagram(draw: random.Random) -> bytes:
    size = draw.randrange(1, 9)
    frame = draw.getrandbits(29).to_bytes(4, "big") + bytes([size]) + draw.randbytes(size)
    near = bytearray(frame)
    near[draw.randrange(len(near))] = draw.getrandbits(8)
    return draw.choice([frame, bytes(near), frame[: draw.randrange(len(frame))], random_bytes(draw, 30)[:60]])


def adapter_line(draw: random.Random) -> bytes:
    line = bytearray(b"T%08X8%s\r" % (draw.getrandbits(29), b"0b000000000000c0"))
    for _ in range(draw.randrange(3)):
        line[draw.randrange(len(line))] = draw.getrandbits(8)
    return draw.choice([bytes(line), bytes(line[: draw.randrange(len(line))]), random_bytes(draw, 20), b"z\r", b"\x07"])


# --- a program that answers each row of a schedule with a line of some form for it


class StandIn(partner.Process):
    """The answer to a row depends on the row, its number and the words alone, so a run that begins anew is the same."""

    def __init__(self, words: List[str]) -> None:
        self.words, self.taken, self.rows = words, 0, 0
        self.answers: List[str] = []

    def write(self, rows: List[str]) -> None:
        for text in rows:
            self.rows += 1
            told = self.answer(report.read_row(text), random.Random(f"{self.rows} {text}"))
            self.answers.append(f"{self.rows} {told}")

    def answer(self, row: report.Row, draw: random.Random) -> str:
        if draw.random() < 0.01:
            return draw.choice(["x", "1 stop", "", "unlawful 1 2", "1 F", "1 send 1 x 00"])
        if row.name == "ext":
            return f"ext {self.rows}"
        node = row.subject
        if row.name == "open":
            return f"{node} open 0 0 0 0"
        if row.name == "send":
            kind = draw.choice([0x1E015500, 0x1E018600, 0x1E1F8280, 0x1E1E8280]) | int(node)
            return f"{node} send {self.rows} {kind:08x} {draw.randbytes(8).hex()}"
        if row.name in ("crash", "fault"):
            return f"{node} {'stop' if row.words[2] == '0' else 'armed'}"
        marks = " ".join(draw.sample(["+stat:0", "+disc:0", "+voteq:2", "-app:2", "+vote:1", "+appq:3", "+alloc:0"], 2))
        return f"{node} {draw.choice('FFCL')} {draw.randrange(3)} 0 0 2 {draw.choice(['took', 'tick', 'part'])} {marks}"

    def read(self) -> str:
        if not self.answers:
            raise partner.Broken("the program ended")
        return self.answers.pop(0)

    def kill(self) -> None:
        self.answers = []

    def end(self) -> List[str]:
        return [f"end {self.rows}"]


class NoCommands:
    """Stands for the module subprocess, where no command of the system is installed."""

    TimeoutExpired = subprocess.TimeoutExpired

    def run(self, *_: object, **__: object) -> None:
        raise FileNotFoundError("no command")


# --- runs


class TooLong(BaseException):
    """A run goes on and on."""


def ends_too_late(*_: object) -> None:
    raise TooLong


def run_once(code: CodeType, words: Sequence[str]) -> Tuple[int, str]:
    """The status of a tool, and what it wrote on standard error."""
    said = io.StringIO()
    sys.argv = [code.co_filename, *words]
    signal.alarm(SECONDS)
    try:
        with contextlib.redirect_stderr(said), contextlib.redirect_stdout(io.StringIO()):
            exec(code, {"__name__": "__main__", "__file__": code.co_filename, "__doc__": code.co_consts[0]})
        status = 0
    except SystemExit as end:
        status = end.code if isinstance(end.code, int) else 0 if end.code is None else 1
    except BaseException:
        said.write(traceback.format_exc())
        status = TRACEBACK
    signal.alarm(0)
    return status, said.getvalue()


def run_tool(tool: Tool, count: int, seed: int) -> bool:
    """Whether a tool took so many inputs, which are drawn by the seed, the tool and the number of the input."""
    path = os.path.join(TOOLS, tool.name)
    with open(path, encoding="utf-8") as file:
        code = compile(file.read(), path, "exec", dont_inherit=True)
    ended: Counter[str] = collections.Counter()
    failed = False
    for number in range(count):
        with tempfile.TemporaryDirectory(dir=MEMORY) as folder:
            status, said = run_once(code, tool.write(random.Random(f"{seed} {tool.name} {number}"), folder))
        ended[f"status {status}"] += 1
        if status not in tool.statuses:
            failed = True
            print(f"{tool.name}, input {number} of seed {seed}: status {status}\n{said[-1500:]}")
    tell(tool.name, count, ended)
    return not failed


def tell(name: str, count: int, ended: Dict[str, int]) -> None:
    counts = ", ".join(f"{times} with {end}" for end, times in sorted(ended.items()))
    print(f"{name}: {count} inputs, {counts}", flush=True)


def run_while(name: str, words: List[str], seed: int, feed: Callable[[random.Random], None], ends: bool) -> bool:
    """A tool that runs while it is fed. One that does not end by itself is ended by SIGTERM, and has to end with 0."""
    with subprocess.Popen([sys.executable, os.path.join(TOOLS, name), *words], stdout=-1, stderr=-1) as process:
        time.sleep(SETTLE)
        feed(random.Random(seed))
        time.sleep(1.0)
        if not ends:
            process.terminate()
        said = b"".join(process.communicate(timeout=SECONDS)).decode("utf-8", "replace")
    print(f"  {name} {' '.join(words)}: status {process.returncode}, {said.strip().splitlines()[-1:]}")
    if process.returncode or "Traceback" in said:
        print(said[-3000:])
        return False
    return True


def feed_datagrams(port: int, count: int) -> Callable[[random.Random], None]:
    def feed(draw: random.Random) -> None:
        with socket.socket(socket.AF_INET, socket.SOCK_DGRAM) as link:
            for number in range(count):
                link.sendto(datagram(draw), ("127.0.0.1", port))
                if number % 50 == 49:
                    time.sleep(0.01)  # (so that the socket of the other loses few)

    return feed


def run_bridge(count: int, seed: int) -> bool:
    """The bridge with an adapter that is a pseudo terminal, fed from both sides."""
    adapter, terminal = pty.openpty()
    tty.setraw(adapter)
    tty.setraw(terminal)
    os.set_blocking(adapter, False)

    def feed(draw: random.Random) -> None:
        to_bridge = feed_datagrams(BASE + 119, 50)
        for number in range(count):
            if number % 50 == 0:
                to_bridge(draw)
            with contextlib.suppress(BlockingIOError):
                os.write(adapter, adapter_line(draw))
            with contextlib.suppress(BlockingIOError):
                os.read(adapter, 65536)

    return run_while("can_bridge", [str(BASE), os.ttyname(terminal), "1", "--interface", "slcan"], seed, feed, False)


def run(count: int, seed: int) -> bool:
    """Whether every tool took every input."""
    vars(partner).update(Process=StandIn, prepare=lambda program: None)
    vars(machine)["subprocess"] = NoCommands()
    signal.signal(signal.SIGALRM, ends_too_late)
    good = all([run_tool(tool, count, seed) for tool in RUN_ONCE])
    signal.signal(signal.SIGPIPE, signal.SIG_IGN)
    seconds = str(2 * SETTLE + count * 0.001)
    listening = [str(BASE), "--seconds", seconds, os.path.join(EXAMPLES, "a_real_bus")]
    print(f"and {count} datagrams, and {count} lines and as many datagrams:")
    good &= run_while("node_status", listening, seed, feed_datagrams(BASE + 118, count), True)
    good &= run_while("monitor", [str(BASE), "--lines"], seed, feed_datagrams(BASE + 118, count), False)
    with tempfile.TemporaryDirectory(dir=MEMORY) as folder:
        good &= run_while("record", [str(BASE), folder], seed, feed_datagrams(BASE + 118, count), False)
    return run_bridge(count, seed) and good


RUNS = [
    os.path.basename(os.path.dirname(path))
    for path in sorted(glob.glob(os.path.join(EXAMPLES, "*", "schedule")))
    if os.path.exists(os.path.join(os.path.dirname(path), "report")) and os.path.getsize(path) < MOST_BYTES
]
LOGS = [read(path) for path in [*sorted(glob.glob(os.path.join(TOP, "tests", "logs", "*.log"))), "a_real_bus/log"]]
STORES = [read(path) for path in sorted(glob.glob(os.path.join(EXAMPLES, "**", "alloc-*.store"), recursive=True))]
RUN_ONCE = [
    Tool("view", {0, 1, 2, 3}, write_run),
    Tool("follow", {0, 1, 2, 3, 4}, write_log),
    Tool("why", {0, 1, 2, 3, 5}, write_why),
    Tool("check_settings", {0, 1, 2, 3}, write_settings),
    Tool("check_vehicle", {0, 1, 2, 3, 5}, write_vehicle),
    Tool("assign", {2}, write_table),
    Tool("node_status", {0, 1, 2}, write_stores),
]
