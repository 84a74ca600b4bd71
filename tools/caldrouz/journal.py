"""Entries of systemd's journal, with fields by which they are found. Not proved.

    journal = journal.Journal("caldrouz-monitor")   # OSError where there is no journal
    journal.write("member 1 leads in term 3", {"CALDROUZ_NODE": 1, "CALDROUZ_TERM": 3})
"""
from __future__ import annotations

import contextlib
import socket
from typing import Mapping

SOCKET = "/run/systemd/journal/socket"
INFORMATION = 6  # of the priorities of syslog


class Journal:
    def __init__(self, name: str, path: str = SOCKET) -> None:
        self.name, self.path = name, path
        self.link = socket.socket(socket.AF_UNIX, socket.SOCK_DGRAM)
        self.link.connect(path)

    def write(self, message: str, fields: Mapping[str, object]) -> None:
        """An entry. One that comes while the journal is started anew is lost."""
        front = {"MESSAGE": message, "PRIORITY": INFORMATION, "SYSLOG_IDENTIFIER": self.name}
        text = "".join(f"{key}={_line(str(value))}\n" for key, value in {**front, **fields}.items())
        with contextlib.suppress(OSError):
            self.link.sendto(text.encode(), self.path)


def _line(text: str) -> str:
    """In one line: another one would be another field."""
    return " ".join(text.splitlines())
