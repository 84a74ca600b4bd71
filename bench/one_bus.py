"""Members over UDP, joined as a CAN bus joins them: one frame after the other, each heard by all, and logged."""
import os
import selectors
import socket
import subprocess
import sys
import threading
import time
from collections import deque
from typing import Deque, Dict, List, TextIO, Tuple

TOP = os.path.dirname(os.path.dirname(os.path.abspath(__file__)))
sys.path.insert(0, os.path.join(TOP, "tools"))
from caldrouz import asking, wire  # noqa: E402

BRIDGE = 119  # the port, counted from the base, at which a bridge hears its member
STEP = 200  # between the base ports of two members
FRAME_TIME = 0.0002  # seconds that a frame takes


class OneBus(threading.Thread):
    """Each member has a base port of its own, and is bridged to the bus by this thread."""

    def __init__(self, base: int, members: List[int], program: str, folder: str, log: TextIO) -> None:
        super().__init__(daemon=True)
        self.members, self.program, self.folder, self.log = members, program, folder, log
        self.bases = {member: base + STEP * at for at, member in enumerate(members)}
        self.running: Dict[int, "subprocess.Popen[bytes]"] = {}
        self.links: Dict[int, socket.socket] = {}
        self.ended = False
        self.waiting: Deque[Tuple[int, wire.Frame]] = deque()
        self.heard: Deque[wire.Frame] = deque(maxlen=4096)
        for member, its_base in self.bases.items():
            link = self.links[member] = socket.socket(socket.AF_INET, socket.SOCK_DGRAM)
            link.bind(("127.0.0.1", its_base + BRIDGE))
            link.setblocking(False)

    def start_member(self, member: int) -> None:
        words = [self.program, "node", str(len(self.members)), str(self.bases[member]), "1000000000", str(member)]
        quiet = subprocess.DEVNULL
        self.running[member] = subprocess.Popen(words, cwd=self.folder, stdin=quiet, stdout=quiet, stderr=quiet)

    def kill(self, member: int) -> None:
        self.running[member].kill()
        self.running.pop(member).wait()

    def send(self, frame: wire.Frame) -> None:
        """A frame of a node that is no member."""
        self.waiting.append((0, frame))

    def receive(self, seconds: float) -> "wire.Frame | None":
        """The next frame of the bus, for a device."""
        end = time.monotonic() + seconds
        while time.monotonic() < end:
            if self.heard:
                return self.heard.popleft()
            time.sleep(0.0005)
        return None

    def ask(self, unique_id: bytes, wish: int, limit: float = 20.0) -> "int | None":
        self.heard.clear()
        return asking.ask(self, unique_id, wish, limit)  # type: ignore[arg-type]

    def run(self) -> None:
        ready = selectors.DefaultSelector()
        for member, link in self.links.items():
            ready.register(link, selectors.EVENT_READ, member)
        while not self.ended:
            for key, _ in ready.select(0.002):
                try:
                    frame = wire.from_datagram(self.links[key.data].recv(64))
                except BlockingIOError:
                    continue
                if frame is not None:
                    self.waiting.append((key.data, frame))
            while self.waiting:
                self._put(*self.waiting.popleft())

    def _put(self, sender: int, frame: wire.Frame) -> None:
        """The frame is on the bus: it is logged, and then heard by all others."""
        time.sleep(FRAME_TIME)
        self.log.write(f"({time.time():.6f}) can0 {frame.identifier:08X}#{frame.data.hex().upper()}\n")
        self.heard.append(frame)
        for member, base in self.bases.items():
            if member != sender:
                self.links[member].sendto(wire.to_datagram(frame), ("127.0.0.1", base + member))

    def end(self) -> None:
        for member in list(self.running):
            self.kill(member)
        self.ended = True
        self.join()
        for link in self.links.values():
            link.close()
