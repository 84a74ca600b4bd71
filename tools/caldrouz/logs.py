"""Logs of a CAN bus: candump's own form by itself, other forms by python-can where that is installed. Not proved.

    log = logs.read(path)                 # CannotRead where it cannot be read; log.frames, .passed_over, .broken
    log = logs.read_lines(lines)          # of `candump -L`
    logs.parts(folder)                    # those that tools/record wrote, the oldest first: (start, part, path)

Of a folder of tools/record the log of the last start is read, all its parts in order, as one.
"""
from __future__ import annotations

import os
import re
from dataclasses import dataclass, field
from typing import Dict, Iterable, List, NamedTuple, Optional, Tuple

from .wire import FIRST_WIDE, Frame

_LINE = re.compile(r"\((\d{1,10})\.(\d{1,9})\) +(\S+) +([0-9A-Fa-f]{8})#((?:[0-9A-Fa-f]{2}){1,8})(?: +[TR])?", re.A)
_OTHER_LINE = re.compile(r"\(\d+\.\d+\) +\S+ +[0-9A-Fa-f]+#", re.A)  # 11 bits, remote and error frames, CAN FD
_PART = re.compile(r"(\d{6})-(\d{4})\.log", re.A)
BY_PYTHON_CAN = (".asc", ".blf", ".csv", ".db", ".trc", ".mf4")
JUMP = 400  # milliseconds by which stamps and uptimes may differ before the stamps are said to have jumped


class CannotRead(Exception):
    """A log that cannot be read."""


class Record(NamedTuple):
    """A frame of a log: its line, its stamp in milliseconds, its interface, and the frame."""

    line: int
    stamp: int
    interface: str
    frame: Frame


@dataclass
class Log:
    """The frames of a log; how many lines were passed over, as other traffic or empty; and the lines that are none."""

    frames: List[Record] = field(default_factory=list)
    passed_over: int = 0
    broken: List[int] = field(default_factory=list)


def name_of(start: int, part: int) -> str:
    """The name of a part of the log of a start, each counted from 1. In the order of their names they are in order."""
    return f"{start % 10 ** 6:06}-{part % 10 ** 4:04}.log"


def parts(folder: str) -> List[Tuple[int, int, str]]:
    found = [(match, name) for name in os.listdir(folder) for match in [_PART.fullmatch(name)] if match]
    return sorted((int(match[1]), int(match[2]), os.path.join(folder, name)) for match, name in found)


def _of_last_start(folder: str) -> Iterable[str]:
    found = parts(folder)
    for start, _, path in found:
        if start == found[-1][0]:
            with open(path, encoding="ascii", errors="replace") as file:
                yield from file


def read(path: str) -> Log:
    if os.path.isdir(path):
        try:
            if not parts(path):
                raise CannotRead(f"{path}: no log of tools/record (000001-0001.log) is in this folder")
            return read_lines(_of_last_start(path))
        except OSError as error:
            raise CannotRead(f"{path}: {error.strerror}") from None
    if path.lower().endswith(BY_PYTHON_CAN):
        return _read_by_python_can(path)
    try:
        with open(path, encoding="ascii", errors="replace") as file:
            return read_lines(file)
    except OSError as error:
        raise CannotRead(f"{path}: {error.strerror}") from None


def read_lines(lines: Iterable[str]) -> Log:
    log = Log()
    for number, line in enumerate(map(str.strip, lines), 1):
        found = _LINE.fullmatch(line)
        if found and int(found[4], 16) < FIRST_WIDE:
            stamp = int(found[1]) * 1000 + int((found[2] + "000")[:3])
            log.frames.append(Record(number, stamp, found[3], Frame(int(found[4], 16), bytes.fromhex(found[5]))))
        elif found or _OTHER_LINE.match(line) or not line:
            log.passed_over += 1
        else:
            log.broken.append(number)
    return log


def _read_by_python_can(path: str) -> Log:
    try:
        from can import LogReader  # (its own types are not complete)
    except ImportError:
        raise CannotRead(f"{path}: logs of this form are read by python-can, which is not installed") from None
    log = Log()
    try:
        for number, message in enumerate(LogReader(path), 1):
            is_other = message.is_error_frame or message.is_remote_frame or message.is_fd
            if message.is_extended_id and not is_other and 1 <= len(message.data) <= 8:
                frame = Frame(message.arbitration_id, bytes(message.data))
                log.frames.append(Record(number, int(message.timestamp * 1000), str(message.channel), frame))
            else:
                log.passed_over += 1
    except Exception as error:  # each form has a reader of its own, with errors of its own
        raise CannotRead(f"{path}: {error or type(error).__name__}") from None
    return log


Uptime = Tuple[int, int, int]  # of a NodeStatus of the log: the index of its frame, its source, its seconds


def mend_stamps(frames: List[Record], uptimes: List[Uptime]) -> Tuple[List[Record], List[Tuple[int, int]]]:
    """Takes jumps of the logging clock out of the stamps, and says where they were: [(line, milliseconds)].

    `uptimes` are the NodeStatus of the log. Two of one node tell how much time went by. Where the stamps tell another,
    and that of the node's next one too, they jumped: between those two lines of the log that are the furthest from each
    other in that direction.
    """
    moved: Dict[int, int] = {}
    after: Dict[int, Optional[Tuple[int, int]]] = {}  # by the index of a NodeStatus: that of the same node after it
    before: Dict[int, Tuple[int, int]] = {}
    for index, source, seconds in reversed(uptimes):
        after[index], before[source] = before.get(source), (index, seconds)

    def wrong(was: int, had: int, index: int, seconds: int) -> int:
        """By how much the stamps between two lines differ from the uptimes, without the jumps that are known."""
        known = sum(by for at, by in moved.items() if was < at <= index)
        return frames[index].stamp - frames[was].stamp - known - 1000 * (seconds - had)

    before = {}
    for index, source, seconds in uptimes:
        was, had = before.get(source, (index, seconds))
        before[source] = (index, seconds)
        if not 0 < seconds - had <= 60:
            continue
        by = wrong(was, had, index, seconds)
        later = after[index]
        if later and later[1] > seconds and by * wrong(was, had, *later) > 0:
            by = min(by, wrong(was, had, *later), key=abs)
        elif abs(by) < 1000:
            continue  # one that is late alone
        if abs(by) <= JUMP + 10 * (seconds - had):
            continue
        steps = [(frames[at].stamp - frames[at - 1].stamp - moved.get(at, 0), at) for at in range(was + 1, index + 1)]
        step, at = max(steps) if by > 0 else min(steps)
        if step * by > 0 and abs(step) > abs(by) / 2:
            moved[at] = moved.get(at, 0) + by
    shift, mended = 0, []
    for index, frame in enumerate(frames):
        shift += moved.get(index, 0)
        mended.append(frame._replace(stamp=frame.stamp - shift))
    return mended, [(frames[at].line, by) for at, by in sorted(moved.items())]
