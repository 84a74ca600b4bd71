"""A stand-in for a serial adapter that speaks SLCAN, for packaging/try_package: a pseudo terminal, with a link to it as
FILE, beside a CAN interface. Like a good adapter it answers a frame once that was on the bus. At SIGUSR1 its plug comes
off, and at the next one it is on again: without a plug it hears nothing, answers no frame, and keeps what it was given
until its channel is closed; what it still has goes out when the plug is on. Each change, and how many frames went out
or were thrown away, is a line of its output.

serial_adapter.py FILE INTERFACE
"""
from __future__ import annotations

import os
import pty
import re
import select
import signal
import socket
import struct
import sys
import tty
from typing import List

FRAME = re.compile(rb"T([0-9A-Fa-f]{8})([0-8])((?:[0-9A-Fa-f]{2})*)")
CAN_FRAME, EXTENDED = struct.Struct("=IB3x8s"), 1 << 31


class Adapter:
    def __init__(self, file: str, interface: str) -> None:
        self.line, name = pty.openpty()
        tty.setraw(name)
        self.path = os.ttyname(name)
        os.symlink(self.path, file)
        self.bus = socket.socket(socket.AF_CAN, socket.SOCK_RAW, socket.CAN_RAW)
        self.bus.bind((interface,))
        self.begun, self.is_off = b"", False
        self.kept: List[bytes] = []

    def toggle(self) -> None:
        self.is_off = not self.is_off
        kept, self.kept = self.kept, []
        for frame in kept:
            self.bus.send(frame)
        print("off" if self.is_off else f"on, and {len(kept)} frames go out", flush=True)

    def take_lines(self) -> None:
        *lines, self.begun = (self.begun + os.read(self.line, 4096)).split(b"\r")
        for line in lines:
            found = FRAME.fullmatch(line)
            if found is None:
                if line == b"C" and self.kept:
                    print(f"closed, and {len(self.kept)} frames are gone", flush=True)
                    self.kept = []
                os.write(self.line, b"\r")
                continue
            data = bytes.fromhex(found[3].decode())
            frame = CAN_FRAME.pack(int(found[1], 16) | EXTENDED, len(data), data)
            if self.is_off:
                self.kept.append(frame)
            else:
                self.bus.send(frame)
                os.write(self.line, b"Z\r")

    def take_frame(self) -> None:
        identifier, length, data = CAN_FRAME.unpack(self.bus.recv(CAN_FRAME.size))
        if identifier & EXTENDED and not self.is_off:
            os.write(self.line, b"T%08X%d%s\r" % (identifier % EXTENDED, length, data[:length].hex().upper().encode()))


def main() -> None:
    adapter = Adapter(*sys.argv[1:])
    signal.signal(signal.SIGUSR1, lambda *_: adapter.toggle())
    while True:
        for ready in select.select([adapter.line, adapter.bus], [], [])[0]:
            if ready is adapter.bus:
                adapter.take_frame()
            else:
                adapter.take_lines()


if __name__ == "__main__":
    main()
