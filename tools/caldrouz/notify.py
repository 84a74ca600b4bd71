"""What a service tells systemd: that it is ready, and that it goes on. Not proved.

    service = notify.Service()            # of the socket that NOTIFY_SOCKET names; where there is none, nobody is told
    service.goes_on()                     # ready, the first time; then that it is well, at most once a second
"""
from __future__ import annotations

import contextlib
import os
import socket
import time

READY, GOES_ON = b"READY=1", b"WATCHDOG=1"
EACH = 1.0  # seconds


class Service:
    """A process that a unit of Type=notify started. What it starts itself does not speak for it."""

    def __init__(self) -> None:
        address = os.environ.pop("NOTIFY_SOCKET", "")
        self.address = "\0" + address[1:] if address.startswith("@") else address
        self.is_ready, self.due = False, 0.0

    def goes_on(self) -> None:
        now = time.monotonic()
        if now < self.due:
            return
        self._tell(GOES_ON if self.is_ready else READY)
        self.is_ready, self.due = True, now + EACH

    def _tell(self, what: bytes) -> None:
        if not self.address:
            return
        with contextlib.suppress(OSError), socket.socket(socket.AF_UNIX, socket.SOCK_DGRAM) as link:
            link.sendto(what, self.address)  # (where it is lost, the next one comes in time)
