"""Tests of docs/tables: what several programs say is as the sources do it, and no program has a copy of its own."""
from __future__ import annotations

import pathlib
import re
import sys
import unittest
from typing import Dict, Iterator, List, Set

from support import EXAMPLES, ROOT, Ended, read, read_lines, run_tool

TABLES = ROOT / "docs/tables"
BLOCK = re.compile(r"^[^\n]*make_texts: \w+[^\n]*\n.*?^[^\n]*make_texts ends[^\n]*$", re.M | re.S)


def table(name: str) -> List[Dict[str, str]]:
    columns, *rows = [line.split("\t") for line in read_lines(TABLES / f"{name}.tsv") if not line.startswith("#")]
    return [dict(zip(columns, row)) for row in rows]


def source(path: str) -> str:
    return (ROOT / "crates" / path).read_text(encoding="utf-8")


def sayers() -> Iterator[pathlib.Path]:
    """The files in which a sentence of a table may be copied, but for those that are written whole."""
    yield ROOT / "allocator"
    for folder in ("tools", "web", "packaging", "docs"):  # (CALLS is the comments of the sources)
        for path in sorted((ROOT / folder).rglob("*")):
            made = path.name in ("texts.py", "CALLS.md")
            if path.is_file() and path.suffix not in (".tsv", ".png", ".pyc") and not made:
                yield path


class Tables(unittest.TestCase):
    def test_each_file_is_as_the_tables_have_it(self) -> None:
        made = Ended([sys.executable, ROOT / "tools/make_texts", "--check"])
        self.assertEqual(made.status, 0, made.written + made.errors)

    def test_no_program_has_a_sentence_of_its_own(self) -> None:
        said = [row["sentence"] for row in table("refusals")]
        said += [row["meaning"] for row in table("exits") if row["code"] != "0"]
        said += [row["the frame is dropped since"] for row in table("drops")]
        parts = {part for text in said for part in re.split(r"[{}|<>]", text) if len(part) > 30}
        for path in sayers():
            text = BLOCK.sub("", path.read_text(encoding="utf-8", errors="replace"))
            for part in parts:
                self.assertTrue(part not in text, f"{path}: '{part}'")

    def test_causes_are_those_of_the_definition(self) -> None:
        """The number of each cause, and the kinds of rows that `cause` can refuse for it."""
        text = source("bus_spec/specs/Lawful.antt")
        found = re.findall(r"^number_of (?:unlawful\.)?(\w+) = (\d+)", text, re.M)
        numbers = {name: int(number) for name, number in found}
        self.assertEqual({row["name"]: int(row["cause"]) for row in table("refusals")}, numbers)
        bodies = re.findall(r"^(\w+) [^\n=]*= (.*?)(?=^\S|\Z)", text, re.M | re.S)
        of: Dict[str, Set[str]] = {}  # the causes that a definition can answer
        for name, body in (one for _ in range(3) for one in bodies):
            if name == "cause":
                continue
            words = set(re.findall(r"[A-Za-z_]+", body))
            of.setdefault(name, set()).update(words & set(numbers), *(of[word] for word in words & set(of)))
        rows: Dict[str, Set[str]] = {name: set() for name in numbers}
        for kind, body in re.findall(r"^cause w \((\w+)[^)]*\) = (.*?)(?=^\S|\Z)", text, re.M | re.S):
            for word in re.findall(r"[A-Za-z_]+", body):
                for name in of.get(word, {word} & set(numbers)):
                    rows[name].add(kind.lower())
        for name in ("NoNode", "Running"):  # (`copen` is an `Open` that is told the list)
            rows[name].add("copen")
        rows["Stale"].discard("arx")  # (a device makes no calls: nothing that it hears is judged `Stale`)
        self.assertEqual({row["name"]: set(row["rows"].split(",")) for row in table("refusals")}, rows)

    def test_exit_codes_are_those_of_the_program(self) -> None:
        text = source("cmd_io/src/status.rt")
        arms = re.findall(r"(Status::[^=\n]*)=> (\d+)", text)
        codes = {name: int(code) for arm, code in arms for name in re.findall(r"Status::(\w+)", arm)}
        there = {row["status"]: int(row["code"]) for row in table("exits") if row["status"] != "-"}
        self.assertEqual(there, codes)

    def test_units_start_a_member_again_as_the_table_says(self) -> None:
        ended = sorted({int(row["code"]) for row in table("exits") if row["again"] == "no"})
        for unit in ("node", "can-node", "serial"):
            name = f"caldrouz-{unit}@.service"
            found = re.search(r"^RestartPreventExitStatus=(.*)$", read(ROOT / "packaging" / name), re.M)
            assert found is not None, name
            self.assertEqual(list(map(int, found[1].split())), ended, name)

    def test_words_are_those_of_the_program(self) -> None:
        text = re.sub(r"\s*\n/// ", " ", source("allocator_app/src/words.rt"))
        for row in table("words"):
            # (main puts a base into the words of can, and the turns where they are left out)
            words = re.sub("^can <members> <id>$", "can <members> <turns> <id>..", row["words"])
            words = words.replace("can <members>", "node <members> <base>")
            self.assertIn(f"`{words}`", text)

    def test_rows_are_those_that_the_program_reads(self) -> None:
        names = set(re.findall(r'b"([a-z]+)"', source("replay_text/src/schedule.rt"))) - {"old", "new"}
        self.assertEqual({row["words"].split()[0] for row in table("rows")}, names)

    def test_causes_of_drops_are_those_of_the_program(self) -> None:
        found = re.search(r"pub enum Why \{(.*?)^\}", source("can_frame/src/step.rt"), re.M | re.S)
        assert found is not None
        self.assertEqual([row["cause"] for row in table("drops")], re.findall(r"= (\d+)", found[1]))

    def test_limits_are_those_of_the_sources(self) -> None:
        usage = (ROOT / "allocator").read_text(encoding="utf-8")
        for row in table("limits"):
            with self.subTest(row["name"]):
                self.assertIn(row["text"], source(row["source"]))
                set_there = [int(number.replace("_", "")) for number in re.findall(r"\b\d[\d_]*\b", row["text"])]
                self.assertEqual(set_there[-1], int(row["most"]))
                if len(set_there) > 1:
                    self.assertEqual(set_there[-2], int(row["least"]))
                if row["name"] in ("rows", "lines", "rounds", "turns", "base"):
                    said = re.search(rf"^  {row['name']} .*", usage, re.M)
                    assert said is not None
                    self.assertIn(f", {row['least']} to {row['most']}", said[0])

    def test_others_say_the_same_limits(self) -> None:
        most = {row["name"]: int(row["most"]) for row in table("limits")}
        least = {row["name"]: int(row["least"]) for row in table("limits")}
        page = read(ROOT / "web/app.js")
        for name in ("rows", "lines", "rounds"):
            self.assertIn(f"{least[name]} to {most[name]:,} {name}", page)
        manual = read(ROOT / "packaging/allocator.1")
        for said in (f"1 to {most['rows']:,}", f"at most {most['turns']:,}", f"at most {most['rounds']:,}"):
            self.assertIn(said, manual)
        self.assertIn(f"the store of a member, {most['store']:,} bytes", manual)
        self.assertIn(f"#define CALDROUZ_STORE_BYTES {most['store']}\n", read(ROOT / "include/caldrouz.h"))
        settings = read(ROOT / "packaging/caldrouz.default")
        self.assertIn(f"{least['members']} to {most['members']} of them", settings)

    def test_man_page_and_completion_have_each_mode(self) -> None:
        for path in ("packaging/allocator.1", "packaging/allocator.completion"):
            text = read(ROOT / path)
            for row in table("words"):
                self.assertRegex(text, rf"\b{row['words'].split()[0]}\b", path)


class Refusals(unittest.TestCase):
    def test_each_example_is_explained_by_its_own_row(self) -> None:
        """A device's row is not blamed on a member, nor the other way round."""
        refused = [path.parent for path in sorted(EXAMPLES.glob("*/status")) if read(path).strip() == "4"]
        self.assertGreater(len(refused), 10)
        for folder in refused:
            with self.subTest(folder.name):
                row, cause = map(int, read_lines(folder / "report")[-1].split()[1:])
                kind = read_lines(folder / "schedule")[row - 1].split()[0]
                self.assertIn(kind, table("refusals")[cause - 1]["rows"].split(","))
                page = run_tool("view", folder / "schedule", folder / "report").written
                said = re.search(r"is refused, since ([^\"]*?) \(cause", page)
                assert said is not None
                other = "member" if kind[0] == "a" else "device"
                self.assertNotRegex(said[1], rf"\bits {other}\b|\bmember or device\b")
