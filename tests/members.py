"""What the tests of tools on a live bus share: members that run, and a base port for them."""
from __future__ import annotations

import contextlib
import os
import pathlib
import socket
import subprocess
import tempfile
import unittest
from typing import Dict, Iterator, List

import support

from caldrouz import buses

FIRST_BASE, LAST_BASE, STEP = 20000, 24000, 200
NONE_OF_ITS_WORDS = 2  # what the program ends with that is given words of no turn


def program() -> str:
    """The built program. The repository's command stands for the one beside it: a signal ends that at once."""
    if pathlib.Path(support.PROGRAM) == support.ROOT / "allocator":
        return str(support.ROOT / "crates/allocator/out/allocator")
    return support.PROGRAM


def need_program(test: unittest.TestCase) -> None:
    """Passes a test over where no members can be run."""
    try:
        status = support.Ended([program(), "node", "1", "0", "0", "1"]).status
    except OSError:
        status = None
    if status != NONE_OF_ITS_WORDS:
        test.skipTest("the program is not built")


def free_base() -> int:
    """A base port at which no member listens, nor a tool."""
    for base in range(FIRST_BASE + os.getpid() % 16 * STEP, LAST_BASE, STEP):
        with contextlib.ExitStack() as links:
            try:
                for node in (1, 2, 3, buses.TOOL_PORTS[0]):
                    link = links.enter_context(socket.socket(socket.AF_INET, socket.SOCK_DGRAM))
                    link.bind(("127.0.0.1", base + node))
                return base
            except OSError:
                continue
    raise unittest.SkipTest("no base port is free")


def ports_of(process: int) -> List[str]:
    """The sockets of a process that another one could send to over a network."""
    found = []
    for kind in ("udp", "udp6", "tcp", "tcp6", "raw", "raw6"):
        with contextlib.suppress(FileNotFoundError):
            lines = pathlib.Path(f"/proc/{process}/net/{kind}").read_text().splitlines()[1:]
            of_process = {os.readlink(path) for path in pathlib.Path(f"/proc/{process}/fd").iterdir()}
            found += [line for line in lines if f"socket:[{line.split()[9]}]" in of_process]
    return found


class Members:
    """Members of a cluster of three, with their stores in a folder."""

    def __init__(self, base: int, folder: pathlib.Path) -> None:
        self.base, self.folder = base, folder
        self.running: Dict[int, "subprocess.Popen[bytes]"] = {}

    def start(self, *members: int) -> None:
        for member in members:
            words = [program(), "node", "3", str(self.base), "1000000000", str(member)]
            quiet = subprocess.DEVNULL
            self.running[member] = subprocess.Popen(words, cwd=self.folder, stdin=quiet, stdout=quiet, stderr=quiet)

    def end(self) -> None:
        for process in self.running.values():
            process.kill()
            process.wait()
        self.running.clear()


@contextlib.contextmanager
def three() -> Iterator[Members]:
    """Three members, with new stores."""
    with tempfile.TemporaryDirectory() as folder:
        members = Members(free_base(), pathlib.Path(folder))
        try:
            members.start(1, 2, 3)
            yield members
        finally:
            members.end()
