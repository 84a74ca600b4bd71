"""Stores of members, by docs/FORMATS.md ("Store image"). Not proved.

    store = stores.read(path)                  # a Store, or Damaged, or OSError
    store.term, .vote, .commit, .entries, .committed, str(entry)
"""
from __future__ import annotations

import os
import re
from typing import Callable, List, NamedTuple, Tuple

from . import table, wire

ORIGINS = "from a leader", "by the exchange", "by GetNodeInfo", "a reservation", "its own as leader"
TRIES = 10
NO_VERSION = "it has no version, as where its first block was lost: a member that is told its list ends with 11"
MANY_BLANKS = 16  # more are no accident: a bus that is bad for minutes adds a few
_NAME = re.compile(r"alloc-([1-9][0-9]{0,2})\.store")


class Damaged(Exception):
    """A store that no member opens; it says why."""


class Store(NamedTuple):
    """What a store has. Place 1 is the first of the entries."""

    version: int
    term: int
    vote: int
    commit: int
    entries: List[wire.Entry]

    @property
    def committed(self) -> List[wire.Entry]:
        return self.entries[: self.commit]

    @property
    def blanks(self) -> int:
        """How many entries are blanks: each is of a leader that began while an entry was not committed."""
        return sum(entry.node == 0 for entry in self.entries)

    @property
    def is_stuck(self) -> bool:
        """Whether the log is full and not committed to its end, so that no later leader can commit anything."""
        return len(self.entries) == table.LOG_LIMIT and self.commit < table.LOG_LIMIT


NEW = Store(table.NEWEST, 0, 0, 0, [])  # as `new` makes it


def read(path: str) -> Store:
    """The store in a file. While its member writes, the file is read again until it is twice the same, some times."""
    with open(path, "rb", buffering=0) as file:
        image = file.read(table.IMAGE + 1)
        for _ in range(TRIES):
            file.seek(0)
            before, image = image, file.read(table.IMAGE + 1)
            if image == before:
                break
    return read_image(image)


def read_image(image: bytes) -> Store:
    """The store of an image; Damaged where a member would not open it, with the key that the program names."""
    if len(image) != table.IMAGE:
        raise Damaged(f"it has {len(image) if len(image) < table.IMAGE else 'more'} bytes, and not {table.IMAGE}")
    values = [_value(image, key) for key in range(table.KEYS)]

    def rule(key: int, lengths: Tuple[int, ...], holds: Callable[[bytes], bool] = lambda _: True) -> int:
        if len(values[key]) not in lengths or not holds(values[key]):
            raise Damaged(f"damaged at key {key}")
        return int.from_bytes(values[key], "little")

    version = rule(table.KEY_VERSION, (0, 1), lambda it: not it or 1 <= it[0] <= table.NEWEST)
    term = rule(table.KEY_TERM, (0, 4))
    vote = rule(table.KEY_VOTE, (0, 1), lambda it: not it or it[0] <= table.LAST)
    last = rule(table.KEY_LAST, (0, 1), lambda it: not it or it[0] <= table.LOG_LIMIT)
    commit = rule(table.KEY_COMMIT, (0, 1), lambda it: not it or it[0] <= last)
    entries: List[wire.Entry] = []
    for key in range(table.KEY_FIRST_ENTRY, table.KEY_FIRST_ENTRY + last):
        rule(key, (22,) if version == table.NEWEST else (21, 22))
        entry = wire.read_entry(values[key])
        if not _follows(entries, entry, term):
            raise Damaged(f"damaged at key {key}")
        entries.append(entry)
    return Store(version, term, vote, commit, entries)


def _value(image: bytes, key: int) -> bytes:
    """The copy of a key that its selector chooses."""
    at = table.KEY_SIZE * key
    copy = at + 1 + table.COPY_SIZE * (image[at] % 2)
    if image[copy] > table.VALUE:
        raise Damaged(f"damaged at key {key}")
    return image[copy + 1 : copy + 1 + image[copy]]


def _follows(entries: List[wire.Entry], entry: wire.Entry, term: int) -> bool:
    """Whether a log may go on with this entry: it is well formed, its term does not fall, and no ID stands twice."""
    blank, reserves = entry.node == 0, entry.unique_id == wire.NO_UNIQUE_ID
    return (
        (reserves if blank else entry.node <= table.LAST)
        and entry.origin < len(ORIGINS)
        and (entries[-1].term if entries else 0) <= entry.term <= term
        and (blank or all(entry.node != other.node for other in entries))
        and (reserves or all(entry.unique_id != other.unique_id for other in entries))
    )


def in_folder(folder: str) -> List[Tuple[int, str]]:
    """The stores of a folder: the node ID and the path of each, by rising node ID. OSError where it cannot be read."""
    found = [(match, name) for name in os.listdir(folder) for match in [_NAME.fullmatch(name)] if match]
    return sorted((int(match[1]), os.path.join(folder, name)) for match, name in found)
