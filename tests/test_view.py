"""Tests of tools/view: the facts of pages, beside the schedules and reports that they are of."""
from __future__ import annotations

import hashlib
import json
import pathlib
import re
import shutil
import sys
import tempfile
import unittest
from typing import Any, Dict, List, Sequence, Tuple

from support import EXAMPLES, ROOT, Ended, read, read_lines, run_tool, write_lines

ENDS = {"0": "whole", "3": "refused", "4": "refused", "8": "refused"}  # by the exit code of the run
Facts = Dict[str, Any]


def read_facts(text: str) -> Facts:
    """The JSON block of a page."""
    begin = '<script type="application/json" id="facts">'
    facts: Facts = json.loads(text.split(begin, 1)[1].split("</script>", 1)[0])
    return facts


def lane(facts: Facts, name: str) -> Dict[str, Any]:
    return next(lane for lane in facts["lanes"] if lane["name"] == name)


def marks(facts: Facts, what: str) -> List[Tuple[int, str, str]]:
    return [(row, facts["lanes"][at]["name"], text) for row, at, kind, text in facts["marks"] if kind == what]


class ViewCase(unittest.TestCase):
    def setUp(self) -> None:
        folder = tempfile.TemporaryDirectory()
        self.addCleanup(folder.cleanup)
        self.folder = pathlib.Path(folder.name)

    def view(self, schedule: pathlib.Path, report: pathlib.Path, *words: str) -> Facts:
        made = run_tool("view", schedule, report, *words)
        self.assertEqual((made.status, made.errors), (0, ""))
        return read_facts(made.written)

    def view_example(self, name: str, *words: str) -> Facts:
        return self.view(EXAMPLES / name / "schedule", EXAMPLES / name / "report", *words)

    def written(self, rows: Sequence[str], lines: Sequence[str]) -> Tuple[pathlib.Path, pathlib.Path]:
        """Files of a schedule and a report; the lines get their numbers where they are of rows."""
        numbered = [f"{row} {line}" for row, line in enumerate(lines[: len(rows)], 1)]
        return (
            write_lines(self.folder / "schedule", rows),
            write_lines(self.folder / "report", [*numbered, *lines[len(rows) :]]),
        )


class Pages(ViewCase):
    def test_examples_have_pages_of_their_reports(self) -> None:
        """Each example that is replayed has its rows and lines, an arrow for each receipt, and its end."""
        for words in sorted(EXAMPLES.glob("*/words")):
            if read(words).startswith("replay"):
                with self.subTest(example=words.parent.name):
                    self.is_page_of(words.parent)

    def is_page_of(self, folder: pathlib.Path) -> None:
        facts, lines = self.view_example(folder.name), read_lines(folder / "report")
        self.assertEqual(facts["end"], ENDS[read(folder / "status").strip()])
        self.assertEqual(facts["rows"], read_lines(folder / "schedule")[: facts["total"]])
        self.assertEqual([f"{row} {line}" for row, line in enumerate(facts["lines"], 1)], lines[: facts["total"]])
        received = [row for row, text in enumerate(facts["rows"], 1) if text.startswith(("rx ", "arx "))]
        self.assertEqual(sorted(arrow[1] for arrow in facts["arrows"]), received)
        for one in facts["lanes"]:
            if one["kind"] != "member":
                continue
            of_it = re.compile(one["name"][7:] + r" ([FCL]|open|stop|fault)\b")
            told = [line.split() for line in facts["lines"] if of_it.match(line)]
            if told and told[-1][1] in "FCL":
                self.assertEqual([str(value) for value in one["states"][-1][1:5]], told[-1][1:5], one["name"])

    def test_a_device_is_told(self) -> None:
        facts = self.view_example("ordinary_path")
        self.assertEqual(marks(facts, "told")[0], (15, "member 1", "125"))
        devices = [one["name"] for one in facts["lanes"] if one["kind"] == "heard"]
        self.assertEqual(devices, ["000102030405060708090a0b0c0d0e0f"])
        self.assertEqual(facts["events"][-1], 15)

    def test_a_lost_leader(self) -> None:
        """What examples/README.md says of the example."""
        facts = self.view_example("five_with_a_lost_leader")
        self.assertIn([252, "L", 1], lane(facts, "member 2")["spans"])
        self.assertIn([634, "L", 2], lane(facts, "member 4")["spans"])
        self.assertIn((237, "member 4", ""), marks(facts, "stop"))
        self.assertIn((324, "member 4", ""), marks(facts, "open"))

    def test_a_frame_that_was_lost(self) -> None:
        self.assertIn(26, [frame for *_, frame in self.view_example("a_lost_frame")["lost"]])

    def test_what_ended_a_run(self) -> None:
        facts = self.view_example("refused_forged")
        self.assertRegex(facts["end_words"], "`ext .*cause 6")
        report = self.folder / "report"
        report.write_text("".join(line + "\n" for line in read_lines(EXAMPLES / "ordinary_path/report")[:7]) + "8 1 L")
        facts = self.view(EXAMPLES / "ordinary_path/schedule", report)
        self.assertEqual(facts["end"], "cut")
        self.assertIn("after row 7", facts["end_words"])

    def test_a_device_waits_asks_and_holds(self) -> None:
        unique_id = "000102030405060708090a0b0c0d0e0f"
        rows = ["open 1 0 0", "tick 1 2000 0", f"aopen 1 {unique_id} 125 2000 0", "atick 1 2600 1", "asend 1"]
        rows += ["rx 1 1 2610", "send 1", "arx 1 2 2700 0", "aend 1"]
        lines = ["1 open 0 0 0 0", "1 L 1 0 0 1 tick +stat:0", "a1 open", "a1 wait 1 tick +alloc:0"]
        lines += ["a1 send 1 1e000500 fb000102030405c0", "1 L 1 0 0 2 took +alloc:0"]
        lines += ["1 send 2 1e000101 00000102030405c0", "a1 hold:125 0 took", "a1 end", "log 1 0", "end 9"]
        facts = self.view(*self.written(rows, lines))
        spans = [span[:2] for span in lane(facts, unique_id)["spans"]]
        self.assertEqual(spans, [[1, "never"], [3, "wait"], [8, "hold"], [9, "gone"]])
        self.assertEqual([arrow[:2] for arrow in facts["arrows"]], [[5, 6], [7, 8]])

    def test_a_stop_inside_the_writes_is_shown(self) -> None:
        """The example is armed for a device call of a vote; its page says at which, and that the member stops in it."""
        facts = self.view_example("stop_inside_a_vote")
        armed, stops = marks(facts, "armed"), marks(facts, "stop")
        self.assertTrue(armed and stops)
        row, name, call = armed[0]
        self.assertIn(f"a stop is armed for device call {call}", facts["said"][row - 1])
        self.assertEqual(stops[0][1], name)
        self.assertIn("stops inside its", facts["said"][stops[0][0] - 1])

    def test_what_a_step_stored_before_its_stop_is_said_at_the_next_opening(self) -> None:
        """The worked case of docs/FORMATS.md, "Where a stop or a failure falls", and one whose term is not kept."""
        rows = ["open 1 0 0", "crash 1 12 00", "tick 1 2000 0", "open 1 3000 0"]
        for opened, stored in [("1 1 0 0", "the term"), ("0 0 0 0", "neither term, entries nor commit index")]:
            lines = ["1 open 0 0 0 0", "1 armed", "1 stop", f"1 open {opened}", "log 1 0", "end 4"]
            said = self.view(*self.written(rows, lines))["said"]
            self.assertEqual(said[2], "member 1 stops inside its tick")
            self.assertTrue(said[3].endswith(f" committed; its tick stored {stored} before it stopped"), said[3])

    def test_some_rows_alone(self) -> None:
        facts = self.view_example("five_with_a_lost_leader", "--rows", "600-700")
        self.assertEqual([facts[key] for key in ("first", "last", "total")], [600, 700, 900])
        self.assertEqual(len(facts["rows"]), 101)
        self.assertEqual(lane(facts, "member 2")["spans"][0], [600, "L", 1])

    def test_rows_that_are_not_asked_for_are_not_kept(self) -> None:
        """Ten times the rows take no more than a few megabytes more, where the same are asked for."""
        code = "import runpy, sys; sys.path.insert(0, sys.argv[1]); sys.argv[:2] = []\n"
        code += "runpy.run_path(sys.argv[0], run_name='view')['main']()\n"
        code += "print(*(line for line in open('/proc/self/status') if line.startswith('VmHWM')), file=sys.stderr)"

        def kilobytes(rounds: int) -> int:
            rows = ["open 1 0 0", "tick 1 2000 0", *(f"tick 1 {2001 + at} 0" for at in range(rounds))]
            lines = ["1 open 0 0 0 0", "1 L 1 0 0 1 tick +stat:0", *["1 L 1 0 0 1 tick"] * rounds, "log 1 0"]
            files = self.written(rows, [*lines, f"end {len(rows)}"])
            words = [code, ROOT / "tools", ROOT / "tools/view", *files, "--rows", "1-10"]
            done = Ended([sys.executable, "-B", "-c", *words])
            self.assertEqual(done.status, 0, done.errors)
            return int(done.errors.split()[1])

        self.assertLess(kilobytes(200_000) - kilobytes(20_000), 4096)

    def test_the_page_of_a_real_bus_is_the_one_that_is_stored(self) -> None:
        folder = EXAMPLES / "a_real_bus"
        stored = (folder / "page.html").read_text(encoding="utf-8")
        title = read_facts(stored)["title"]
        made = run_tool("view", folder / "schedule", folder / "report", "--title", title)
        self.assertEqual((made.status, made.written), (0, stored))

    def test_the_picture_of_the_readme_is_of_that_page(self) -> None:
        """`bench/pages --picture` writes it, and the sum of the page that it is of."""
        page = (EXAMPLES / "a_real_bus/page.html").read_bytes()
        self.assertEqual(hashlib.sha256(page).hexdigest() + "\n", read(ROOT / "docs/a_real_bus.sum"))


@unittest.skipUnless(shutil.which("node"), "there is no node on the PATH")
class Stories(ViewCase):
    """What a page says in words before its picture."""

    def story(self, facts: Facts) -> Tuple[str, List[str], int]:
        code = """
            const Story = require(process.argv[1]), facts = JSON.parse(require("fs").readFileSync(0, "utf8"));
            const {main, left} = Story.events(facts);
            process.stdout.write(JSON.stringify([Story.outcome(facts), main.map(one => one.join(" ")), left]));
        """
        words = ["node", "-e", code, ROOT / "tools/caldrouz/story.js"]
        outcome, events, left = json.loads(Ended(words, input=json.dumps(facts).encode()).written)
        return outcome, events, left

    def test_it_says_who_has_which_node_id_who_led_and_what_happened(self) -> None:
        """What examples/README.md says of the example, whose row 122 stops the leader."""
        outcome, events, left = self.story(self.view_example("three_lose_their_leader"))
        self.assertEqual(
            outcome,
            "The device … 0b0c0d0e0f was told node ID 125 and the device … 4030201000 was told node ID 124. "
            "Member 1 led in term 1 and member 2 led in term 2.",
        )
        self.assertEqual(left, 0)
        self.assertEqual([events[0], events[6]], ["1 member 1 starts", "122 member 1 stops"])
        self.assertIn("133 member 2 leads, in term 2", events)
        self.assertEqual(events[-1], "208 the device … 4030201000 is told node ID 124")

    def test_a_row_that_is_refused_is_its_last_event(self) -> None:
        facts = self.view_example("a_torn_transfer_to_an_allocatee")
        outcome, events, _ = self.story(facts)
        self.assertEqual(outcome, "No device was told a node ID. Member 1 led in term 1.")
        self.assertIn("row 80", events[-1])
        self.assertIn("cause 7", events[-1])

    def test_of_many_events_the_main_ones_are_told(self) -> None:
        """Openings, each an event; then one who leads, which no opening may hide."""
        rows = [row for at in range(8) for row in (f"open 1 {at} 0", "crash 1 0 old")]
        rows += ["open 1 90 0", "tick 1 2000 0"]
        lines = [*["1 open 0 0 0 0", "1 stop"] * 8, "1 open 0 0 0 0", "1 L 1 0 0 1 tick", "log 1 0", f"end {len(rows)}"]
        _, events, left = self.story(self.view(*self.written(rows, lines)))
        self.assertEqual((len(events), left), (10, 8))
        self.assertEqual(events[-1], "18 member 1 leads, in term 1")


class Refusals(ViewCase):
    def is_refused(self, status: int, text: str, *words: object) -> None:
        ended = run_tool("view", *words)
        self.assertEqual((ended.status, ended.written), (status, ""), ended.errors)
        self.assertNotIn("Traceback", ended.errors)
        self.assertIn(text, ended.errors)

    def test_words_and_files(self) -> None:
        schedule, report = EXAMPLES / "ordinary_path/schedule", EXAMPLES / "ordinary_path/report"
        self.is_refused(1, "row", schedule, EXAMPLES / "five_with_a_lost_leader/report")
        self.is_refused(2, "No such file", schedule, EXAMPLES / "no such report")
        self.is_refused(2, "REPORT", schedule)
        self.is_refused(3, "1 to 15", schedule, report, "--rows", "99-100")
        self.assertEqual(run_tool("view", "--help").status, 0)

    def test_rows_that_are_no_numbers(self) -> None:
        schedule, report = EXAMPLES / "ordinary_path/schedule", EXAMPLES / "ordinary_path/report"
        for rows in ("²-3", "1", "-", "1-2-3", "9" * 5000 + "-1"):
            self.is_refused(2, "two numbers", schedule, report, "--rows", rows)

    def test_a_row_that_is_none_is_named(self) -> None:
        for row in ("tick x 2000 0", "open 1 y 0", "tick 1 " + "9" * 5000 + " 0", "tick 1 -1 0", "tick ² 1 0"):
            files = self.written(["open 1 0 0", "send 1"], ["1 open 0 0 0 0", f"{row.split()[1]} L 1 0 0 1 tick"])
            files[0].write_text(f"open 1 0 0\n{row}\n", encoding="utf-8")
            self.is_refused(1, "row 2", *files)

    def test_a_report_that_no_program_writes_is_named(self) -> None:
        """A list of members of which the last frame did not come; ends without their numbers."""
        rows = ["open 1 0 0", "ext 1e018602 03028001", "rx 1 1 10"]
        lines = ["1 open 0 0 0 0", "ext 1", "1 F 0 0 0 0 took"]
        self.is_refused(1, "line 3", *self.written(rows, lines))

    def test_a_last_line_that_no_program_writes_is_no_end(self) -> None:
        for last in ("unlawful x y", "unlawful 2 ²", "bad row", "limit", "log x 1", "end x"):
            files = self.written(["open 1 0 0", "send 1"], ["1 open 0 0 0 0"])
            files[1].write_text(f"1 1 open 0 0 0 0\n{last}\n", encoding="utf-8")
            self.assertEqual(self.view(*files)["end"], "cut", last)
