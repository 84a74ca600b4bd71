"""The numbers that definitions of specs/ give: of numerals, of other such definitions, and of the fields of a pace."""
from __future__ import annotations

import re
from typing import Dict, Iterable, List, Mapping, NamedTuple, Tuple, Union

from support import ROOT

# A definition whose value is a number: its name, what it is told, and what it is.
NUMBER = re.compile(r"^abbrev pub (\w+) : [^\n]*ℕ\n\1((?: \w+)*) =([^\n]*\n(?: +[^\n]*\n)*)", re.M)
TOKEN = re.compile(r"\s*(\d+|[\w.]+|\S)")

Value = Union[int, Mapping[str, int]]


class Definition(NamedTuple):
    told: List[str]
    words: List[str]


class Definitions:
    """Those of these files and folders below crates/. None may stand in two places with two values."""

    def __init__(self, places: Iterable[str]) -> None:
        self.all: Dict[str, Definition] = {}
        for place in places:
            for path in sorted((ROOT / "crates").glob(place)):
                for name, told, body in NUMBER.findall(path.read_text(encoding="utf-8")):
                    found = Definition(told.split(), TOKEN.findall(body))
                    if self.all.setdefault(name, found) != found:
                        raise ValueError(f"{path}: {name} is defined elsewhere too")

    def value(self, name: str, told: Mapping[str, Value]) -> int:
        """That of a definition, of which each argument has the name that it has there."""
        return self._value(self.all[name].words, told)

    def value_of(self, text: str, told: Mapping[str, Value]) -> int:
        return self._value(TOKEN.findall(text), told)

    def _value(self, words: List[str], told: Mapping[str, Value]) -> int:
        value, rest = self._sum(words, told)
        if rest or not isinstance(value, int):
            raise ValueError(f"not read: {' '.join(rest)} of {' '.join(words)}")
        return value

    def _sum(self, words: List[str], told: Mapping[str, Value]) -> Tuple[Value, List[str]]:
        value, words = self._product(words, told)
        while words and words[0] in "+-":
            sign = 1 if words[0] == "+" else -1
            more, words = self._product(words[1:], told)
            assert isinstance(value, int) and isinstance(more, int)
            value = max(0, value + sign * more)
        return value, words

    def _product(self, words: List[str], told: Mapping[str, Value]) -> Tuple[Value, List[str]]:
        value, words = self._call(words, told)
        while words and words[0] == "*":
            more, words = self._call(words[1:], told)
            assert isinstance(value, int) and isinstance(more, int)
            value *= more
        return value, words

    def _call(self, words: List[str], told: Mapping[str, Value]) -> Tuple[Value, List[str]]:
        """A definition with what it is told, or what stands for itself."""
        if words[0] not in self.all or words[0] in told:
            return self._atom(words, told)
        name, words = words[0], words[1:]
        given: Dict[str, Value] = {}
        for argument in self.all[name].told:
            given[argument], words = self._atom(words, told)
        return self.value(name, given), words

    def _atom(self, words: List[str], told: Mapping[str, Value]) -> Tuple[Value, List[str]]:
        word, words = words[0], words[1:]
        if word == "(":
            value, words = self._sum(words, told)
            return value, words[1:]
        if word.isdigit():
            return int(word), words
        name, _, field = word.partition(".")
        value = told[name] if name in told else self.value(name, {})
        return (value[field] if field and not isinstance(value, int) else value), words
