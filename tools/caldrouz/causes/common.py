"""What the causes share: their type, their times, and words of sentences. Not proved."""
from __future__ import annotations

from typing import Collection, Iterable, Iterator, NamedTuple, Sequence, Tuple

from ..scene import Scene
from ..stores import Store

RECENT = 10.0  # seconds before the end in which what is told as going on has to be heard
LATELY = 60.0  # seconds in which what comes again and again is counted; a node that came twice comes and goes
ELECTED_BY = 5.0  # seconds within which members that have each other elect somebody


class Cause(NamedTuple):
    """Why devices get no node ID: its name, what is so, and what to do. One that does not stop is a warning. A guess is
    what explains best what was heard; other causes are facts."""

    name: str
    text: str
    remedy: str
    stops: bool = True
    guess: bool = False


NamedStore = Tuple[str, Store]  # what it is called, and what it has
Found = Iterator[Cause]
Stores = Sequence[NamedStore]


def ids(nodes: Iterable[int]) -> str:
    """Node IDs in words: 1, 2 and 3."""
    return enumeration(str(node) for node in sorted(nodes)) or "nobody"


def enumeration(items: Iterable[str]) -> str:
    words = list(items)
    return " and ".join([", ".join(words[:-1])] * (len(words) > 1) + words[-1:])


def seconds(value: float) -> str:
    return f"{value:.0f} s"


def times(count: int, word: str) -> str:
    return f"{count} {word}{'' if count == 1 else 's'}"


def verb(nodes: Collection[object], one: str, many: str) -> str:
    return one if len(nodes) < 2 else many


def age(scene: Scene, moment: float) -> float:
    return scene.now - moment
