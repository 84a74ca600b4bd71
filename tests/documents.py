"""Checks of the documents against the sources, of the numbers that tools have against the program's, and of the times
that the documents state against the definitions, for `tests/documents`."""
from __future__ import annotations

import os
import pathlib
import re
import runpy
import sys
import unittest
from typing import Callable, Dict, Iterable, Iterator, List, NamedTuple, Set, Tuple

import support
from definitions import Definitions
from support import ROOT, Ended

from caldrouz import table

# Limits, in words but for that of a row of a table, which is in characters.
LONGEST_ROW = 500
README_WORDS = 1300
PAGES_WORDS = 24000
LONGEST_PARAGRAPH = 90
LONGEST_SENTENCE = 35
# So many names of definitions may stand in more than one crate: a goal that has one cannot be read without its imports.
# `StandsFor`, the relation of a layer to its definition, is one on purpose. The count may only fall.
NAMES_TWICE = 209
DEFINITION = re.compile(
    r"(?:abbrev |unfoldable |opaque )?pub (?:abbrev |unfoldable )?(record |data )?([A-Za-z_][\w']*)"
)
# The pages of docs/ that are written by hand.
PAGES = (
    "ARCHITECTURE GLOSSARY PROOFS PREMISES OPERATING TROUBLE FORMATS PROTOCOL EMBEDDING AUDIT DECISIONS"
).split()
# The pages that are made of the sources, for a release: what makes each.
MADE = {"HEADLINE": ["make_headline"], "CALLS": ["make_calls"], "CLAIMS": ["make_claims"]}


class Fact(NamedTuple):
    """What stands in one page alone; the others link to it."""

    name: str
    pattern: str
    page: str


FACTS = [
    Fact("the rest before a first turn", r"\b5[.,]5(00)? ?m?s\b", "PREMISES"),
    Fact("the size of a store", r"\b8,?844\b", "FORMATS"),
    Fact("the entries of a log", r"\b127 (entries|places)\b", "OPERATING"),
    Fact("the days of turns", r"\b12 days\b", "OPERATING"),
]


class Time(NamedTuple):
    """The definition of the time in which a law comes true, and that of the time from which PROOFS counts it."""

    law: str
    within: str
    behind: str = ""


TIMES = [
    Time("elections_end", "election_within"),
    Time("leaders_come", "led_within"),
    Time("clusters_come_back", "back_within", "led_within"),
    Time("devices_are_served", "served_within", "led_within"),
    Time("known_devices_are_told_in_calm", "time_to_be_told"),
    Time("new_devices_are_served_in_calm", "time_to_be_served"),
]
COUNTS = {word: count for count, word in enumerate("one two three four five six seven eight nine ten".split(), 1)}
WORD = re.compile(r"[A-Za-z_][A-Za-z0-9_']*")
SPAN = re.compile(r"`([^`\n]+)`")
LINK = re.compile(r"\[[^\]\n]*\]\(([^)\s]+)\)")
ITEM = re.compile(r"\s*([-*]|\d+\.) ")
PART = re.compile(r"<!-- (make_\w+): \w+ -->.*?<!-- \1 ends -->", re.S)
ANCHOR = re.compile(r'<a id="([\w-]+)"></a>')

# Words in back-ticks that stand in no source here: of the toolchain, of the standard, and those that stand for any.
ELSEWHERE = set(
    """
    rattle kit logic uavcan protocol dynamic_node_id GetNodeInfo NAME caldrouz_VERSION_amd64 caldrouz_VERSION_ARCH
    Name uintB voidB _9 ttyACM0 TYPE_bytes TYPE_of SpellsType
""".split()
)
# Commands of the system and of the toolchain: what follows one is not looked at.
COMMANDS = set("rt apt-cache apt-get canbusload candump ip journalctl sha256sum ss systemctl".split())
IMAGES = (".png", ".jpg", ".svg")


def documents() -> List[pathlib.Path]:
    found = [ROOT / f"{name}.md" for name in ("README", "CONTRIBUTING", "SECURITY", "CHANGELOG")]
    for folder in ("docs", "examples", "bench", "tools", "web"):
        found += sorted((ROOT / folder).rglob("*.md"))
    return [path for path in found if path.is_file()]


def text_of(path: pathlib.Path) -> str:
    return path.read_text(encoding="utf-8", errors="replace")


def without_comments(path: pathlib.Path) -> str:
    text = text_of(path)
    if path.suffix == ".rt":
        return re.sub(r"//.*", " ", text)
    if path.suffix == ".antt":
        return re.sub(r"--.*", " ", text)
    return text


def files(folder: str) -> Iterator[pathlib.Path]:
    """The files below a folder, but for what the toolchain and Python keep there."""
    for place, folders, names in os.walk(ROOT / folder):
        folders[:] = sorted(name for name in folders if name not in ("out", "__pycache__"))
        for name in sorted(names):
            yield pathlib.Path(place) / name


def source_words() -> Set[str]:
    """The words of all sources, and the names of their folders and files. What is said in comments does not count."""
    words = set(ELSEWHERE)
    for folder in ("crates", "include", "examples", "bench", "tools", "web", "packaging", "tests", "docs", ".ci"):
        for path in files(folder):
            words.update(word for part in path.relative_to(ROOT).parts for word in WORD.findall(part))
            if folder not in ("tests", "docs") and path.suffix not in (".md", *IMAGES):
                words.update(WORD.findall(without_comments(path)))
    for name in ("allocator", "crates.txt", "HANDLES", "pyproject.toml"):
        words.update(WORD.findall(f"{name} {text_of(ROOT / name)}"))
    return words


def prose(text: str) -> Iterator[Tuple[int, str]]:
    """The lines of a document, with those of code blocks left empty."""
    fenced, before = False, ""
    for number, line in enumerate(text.split("\n"), 1):
        if line.lstrip().startswith("```"):
            fenced = not fenced
            yield number, ""
            continue
        indented = line.startswith("    ") and not ITEM.match(line) and not ITEM.match(before)
        yield number, "" if fenced or indented else line
        if line.strip() and not indented:
            before = line


def is_name(word: str) -> bool:
    return len(word) > 1 and not re.fullmatch(r"[0-9a-fx]+", word)


def unknown_names(text: str, folder: pathlib.Path, words: Set[str]) -> Iterator[str]:
    for number, line in prose(text):
        for span in SPAN.findall(line):
            first = span.split()[0]
            if first in COMMANDS:
                continue
            if "/" in span and ((ROOT / first.split(":")[0]).exists() or (folder / first).exists()):
                continue
            for word in WORD.findall(re.sub(r"<[a-z]+>", " ", span)):
                if is_name(word) and word not in words:
                    yield f"line {number}: `{span}`: no source has {word}"


def slug(heading: str) -> str:
    text = re.sub(r"\[([^\]]*)\]\([^)]*\)", r"\1", heading)
    text = re.sub(r"[`*]", "", text).strip().lower()
    return re.sub(r"[^\w\- ]", "", text).replace(" ", "-")


def anchors(text: str) -> Iterator[str]:
    """The headings of a page as links name them, and the anchors that stand in it by themselves."""
    slugs: Dict[str, int] = {}
    for _, line in prose(text):
        yield from ANCHOR.findall(line)
        match = re.match(r"#+ (.*)", line)
        if match:
            name = slug(match.group(1))
            count = slugs.get(name, 0)
            slugs[name] = count + 1
            yield name if count == 0 else f"{name}-{count}"


def broken_links(text: str, path: pathlib.Path) -> Iterator[str]:
    """The links of a text that stands at this path, or would."""
    for number, line in prose(text):
        for target in LINK.findall(line):
            if re.match(r"[a-z]+:", target):
                continue
            name, _, anchor = target.partition("#")
            place = (path.parent / name).resolve() if name else path
            if name and not place.exists():
                yield f"line {number}: no file {name}"
            elif anchor and place.suffix == ".md" and anchor not in set(anchors(text_of(place) if name else text)):
                yield f"line {number}: {place.name} has no heading #{anchor}"


def words_of(text: str) -> int:
    return sum(bool(re.search(r"[^\W_]", word)) for word in text.split())


def by_hand(path: pathlib.Path) -> str:
    """A page without the parts that a script makes."""
    return PART.sub("", text_of(path))


def paragraphs(text: str) -> Iterator[Tuple[int, str]]:
    """Each paragraph and each item of a list, with its first line. Tables, headings and code are none."""
    begin = 0
    lines: List[str] = []
    for number, line in [*prose(text), (0, "")]:
        apart = not line.strip() or line.startswith(("|", "#", "<", "![")) or ITEM.match(line)
        if apart and lines:
            yield begin, " ".join(lines)
            lines = []
        if line.strip() and not line.startswith(("|", "#", "<", "![")):
            begin = begin if lines else number
            item = ITEM.match(line)
            lines.append(line[item.end() :] if item is not None else line.strip())


def sentences(paragraph: str) -> List[str]:
    return re.split(r"(?<=[^.][.!?])[)*\"]*\s+(?=[^a-z])", paragraph)


def too_long(text: str) -> Iterator[str]:
    for number, paragraph in paragraphs(text):
        if words_of(paragraph) > LONGEST_PARAGRAPH:
            yield f"line {number}: a paragraph of {words_of(paragraph)} words, above {LONGEST_PARAGRAPH}"
        for sentence in sentences(paragraph):
            if words_of(sentence) > LONGEST_SENTENCE:
                yield f"line {number}: a sentence of {words_of(sentence)} words, above {LONGEST_SENTENCE}: {sentence}"


def names_twice() -> Dict[str, Set[str]]:
    """The names of definitions that more than one crate has, each with these crates."""
    crates: Dict[str, Set[str]] = {}
    for path in sorted(ROOT.glob("crates/*/specs/**/*.antt")):
        crate = path.relative_to(ROOT).parts[1]
        for line in path.read_text(encoding="utf-8").splitlines():
            found = DEFINITION.match(line)
            if found and (found[1] or not line.startswith("pub ")):
                crates.setdefault(found[2], set()).add(crate)
    return {name: among for name, among in crates.items() if len(among) > 1 and name != "StandsFor"}


def long_rows(path: pathlib.Path) -> Iterator[str]:
    for number, line in prose(text_of(path)):
        if line.startswith("|") and len(line) > LONGEST_ROW:
            yield f"line {number}: a row of a table has {len(line)} characters, above {LONGEST_ROW}"


class Checked(unittest.TestCase):
    def has_none(self, faults: Iterable[str]) -> None:
        found = "\n".join(faults)
        if found:
            self.fail(f"\n{found}")


class Documents(Checked):
    def each(self, faults: Callable[[pathlib.Path], Iterable[str]], but: Iterable[str] = ()) -> None:
        for path in documents():
            name = str(path.relative_to(ROOT))
            if name not in but:
                with self.subTest(document=name):
                    self.has_none(faults(path))

    def test_links_lead_somewhere(self) -> None:
        self.each(lambda path: broken_links(text_of(path), path))

    def test_rows_of_tables_are_short(self) -> None:
        self.each(long_rows)

    def test_names_stand_in_the_sources(self) -> None:
        words = source_words()
        self.each(lambda path: unknown_names(text_of(path), path.parent, words))


class Limits(Checked):
    def pages(self) -> Iterator[pathlib.Path]:
        for name in PAGES:
            yield ROOT / f"docs/{name}.md"

    def test_the_readme_is_one_page(self) -> None:
        self.assertLessEqual(len(text_of(ROOT / "README.md").split()), README_WORDS)

    def test_the_pages_together_are_no_longer_than_they_may_be(self) -> None:
        counts = {path.stem: words_of(by_hand(path)) for path in self.pages()}
        self.assertLessEqual(sum(counts.values()), PAGES_WORDS, counts)

    def test_all_pages_are_listed(self) -> None:
        there = {path.stem for path in (ROOT / "docs").glob("*.md")}
        self.assertEqual(there - set(PAGES), set())

    def test_paragraphs_and_sentences_are_short(self) -> None:
        for path in [ROOT / "README.md", *self.pages()]:
            with self.subTest(document=path.name):
                self.has_none(too_long(by_hand(path)))

    def test_each_fact_stands_in_one_page(self) -> None:
        for fact in FACTS:
            for path in [ROOT / "README.md", *self.pages()]:
                found = re.search(fact.pattern, by_hand(path))
                with self.subTest(fact=fact.name, document=path.name):
                    self.assertEqual(bool(found), path.stem == fact.page, f"it stands in docs/{fact.page}.md alone")


class Pages(Checked):
    def made(self, words: List[str]) -> str:
        made = Ended([sys.executable, ROOT / "docs" / words[0], *words[1:]])
        self.assertEqual((made.status, made.errors), (0, ""))
        return made.written

    def test_the_pages_of_a_release_lead_somewhere_and_name_what_is_there(self) -> None:
        known = source_words()
        for name, words in MADE.items():
            page = self.made(words)
            with self.subTest(page=name):
                self.has_none(broken_links(page, ROOT / f"docs/{name}.md"))
                self.has_none(unknown_names(page, ROOT / "docs", known))

    def test_the_claims_find_what_they_name(self) -> None:
        page = self.made(MADE["CLAIMS"])
        self.assertNotIn("**not found**", page)
        self.assertIn("Named here and not in the sources: none.", page)
        told = re.findall(r"^### (A\d+): .*\n\n- Definition: `.*\n- Ask: .+\n- Tests: .+$", page, re.M)
        self.assertEqual(told, [f"A{number}" for number in range(1, 11)])

    def test_the_architecture_is_that_of_the_sources(self) -> None:
        made = Ended([sys.executable, ROOT / "docs/make_architecture", "--check"])
        self.assertEqual(made.status, 0, made.written + made.errors)

    def test_each_crate_stands_on_its_own_group_or_lower_ones(self) -> None:
        architecture = runpy.run_path(str(ROOT / "docs/make_architecture"))
        groups = architecture["groups_of"](text_of(ROOT / "crates.txt"))
        self.assertGreater(len(groups), 1)
        self.has_none(architecture["edges_up"](groups))

    def test_names_of_definitions_stand_in_one_crate(self) -> None:
        twice = names_twice()
        self.assertLessEqual(len(twice), NAMES_TWICE, "\n".join(f"{name}: {sorted(twice[name])}" for name in twice))

    def test_the_text_of_the_example_is_the_one_that_the_laws_speak_of(self) -> None:
        profile = re.search(r'b"([^"]*)"', text_of(ROOT / "crates/dsdl_text_codec_laws/src/text.rt"))
        assert profile is not None
        self.assertEqual(profile[1], text_of(ROOT / "examples/decode/text"))


class Numbers(Checked):
    def test_the_tools_have_the_numbers_of_the_program(self) -> None:
        made = Ended([sys.executable, ROOT / "tools/make_table", "--check"])
        self.assertEqual(made.status, 0, made.written + made.errors)

    def test_the_dissector_has_the_numbers_of_the_program(self) -> None:
        """It is in Lua, and imports nothing."""
        text = text_of(ROOT / "tools/uavcan_v0.lua")
        kinds = [kind for kind in table.TRANSFERS.values() if kind.kind != "response"]
        for name, kind in (("messages", "message"), ("services", "request")):
            found = re.search(rf"local {name} = {{(.*)}}", text)
            assert found is not None, name
            there = {int(number): word for number, word in re.findall(r'\[(\d+)\] = "(\w+)"', found[1])}
            here = {of.data_type.number: of.data_type.name for of in kinds if of.kind == kind}
            self.assertEqual(there, here, name)


class Times(unittest.TestCase):
    """What README and PROOFS say of times is computed from the definitions that the laws use."""

    def setUp(self) -> None:
        self.service = Definitions(["service_*/specs/*.antt", "can_frame/specs/Timing.antt"])
        self.readme, self.proofs, self.premises = (
            " ".join(text_of(ROOT / name).split("\n")) for name in ("README.md", "docs/PROOFS.md", "docs/PREMISES.md")
        )

    def found(self, pattern: str, text: str) -> Tuple[int, ...]:
        """The numbers of a sentence, in figures or in words."""
        found = re.search(pattern, text)
        assert found is not None, f"nothing stands there of this form: {pattern}"
        return tuple(COUNTS[word] if word in COUNTS else int(word) for word in found.groups())

    def time(self, name: str, period: int, delay: int, size: int, longest: int) -> int:
        pace = {"period": period, "delay": delay}
        return self.service.value(name, {"pace": pace, "size": size, "longest": longest})

    def row(self, law: str) -> Tuple[str, str]:
        """By when the law comes true, as an expression of P, d, n and L, and its instance."""
        by_then = r"([^|:]*?)(?: more| after `\w+`)?: [^|]*"
        found = re.search(rf"\| `{law}`[^|]*\|[^|]*\| {by_then}\| ([^|]*) \|", self.proofs)
        assert found is not None, law
        text = re.sub(r"([\d.]+) s\b", lambda it: str(round(1000 * float(it[1]))), found[1])
        return re.sub(r"([nL]) \(", r"\1 * (", re.sub(r"(\d)([Pd])", r"\1 * \2", text)), found[2]

    def test_the_times_of_the_laws_are_those_of_the_definitions(self) -> None:
        instance = self.found(r"instance has (\w+) members, (\w+) ms, (\w+) ms and (\w+) entries", self.proofs)
        size, period, delay, longest = instance
        for law, within, behind in TIMES:
            by_then, stated = self.row(law)
            for P, d, n, L in ((0, 0, 0, 0), (1, 0, 0, 0), (0, 1, 0, 0), (0, 0, 1, 0), (0, 0, 0, 1), (3, 5, 7, 11)):
                told = self.time(within, P, d, n, L) - (self.time(behind, P, d, n, L) if behind else 0)
                with self.subTest(law=law, P=P, d=d, n=n, L=L):
                    self.assertEqual(self.service.value_of(by_then, {"P": P, "d": d, "n": n, "L": L}), told)
            with self.subTest(law=law):
                tenths = (self.time(within, period, delay, size, longest) + 50) // 100
                self.assertEqual(stated, f"{tenths // 10}.{tenths % 10} s")

    def test_the_readme_has_the_times_of_a_calm(self) -> None:
        size, longest, served = self.found(
            r"(\w+) members that know each other, with at most (\w+) entries in a log, give .* within (\w+) s,",
            self.readme,
        )
        period, waits, travels = self.found(
            r"every (\w+) ms; frames wait (\w+) ms at most, and travel (\w+) ms", self.readme
        )
        (apart,) = self.found(r"stand for election within (\w+) ms of each other", self.readme)
        (delays,) = self.found(r"`leaders_come`[^|]*\|[^|]*stand within (\w+)d of", self.proofs)
        self.assertEqual((waits, apart), (travels, delays * travels))
        self.assertEqual(served, -(-self.time("served_within", period, travels, size, longest) // 1000))

    def test_the_premises_have_the_numbers_of_a_vehicle(self) -> None:
        """Those of the law `the_numbers_of_a_vehicle_are_enough`."""
        vehicle = Definitions(
            ["allocator_app/specs/Vehicle.antt", "host_pace/specs/*.antt", "bus_physics/specs/Physics.antt"]
            + ["can_frame/specs/Timing.antt"]
        )
        hold, drift, turn, vote_round, wait = (
            vehicle.value(name, {}) / 1000
            for name in ("longest_hold", "most_drift", "longest_turn", "vote_round", "election_wait")
        )
        self.assertIn(f"a frame arrives within {hold:g} s of its making", self.readme)
        self.assertIn("a clock gains or loses less than 0.49 s in any part of a minute", self.readme)
        self.assertIn("a member's turn takes a second at most", self.readme)
        self.assertEqual((drift, turn), (0.499, 1))
        said = f"Two holds of {hold:g} s and a drift below 0.5 s are below the rest and {wait:g} s. "
        self.assertIn(f"{said}With a turn of {turn:g} s they are below {vote_round:g} s", self.premises)
        device, member = hold + 2 + 0.5, hold + 2 + 0.5 + turn
        self.assertIn(f"in the {hold + member:g} s before it (`window`)", self.premises)
        self.assertIn(f"none again within {device:g} s of Allocations", self.premises)
        self.assertIn(f"within {member:g} s of responses of GetNodeInfo", self.premises)
        self.assertIn(f"A member is opened {table.REST / 1000:g} s after its last transfer", self.premises)


if __name__ == "__main__":
    sys.exit(support.run("tests/documents", ["__main__"], support.parser("tests/documents", "").parse_args().patterns))
