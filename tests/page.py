"""The tests of the page that runs the program. They are started by tests/page."""
from __future__ import annotations

import base64
import functools
import itertools
import json
import pathlib
import re
import shutil
import sys
import tempfile
import time
import unittest
from typing import Any, Dict, List, Type

import browsers
import support
from support import EXAMPLES, TESTS, Ended, run_tool

from caldrouz import report

PAGE = pathlib.Path()  # set by the words
FACTS = re.compile(r'<script type="application/json" id="facts">(.*?)</script>', re.DOTALL)
PATIENCE = 60  # seconds

# For each example: the exit code, what was written, and the facts of its picture.
ANSWERS = """
(async () => {
  const all = {};
  for (const [name, {words, input}] of Object.entries(await Page.examples())) {
    const {status, output, errors} = await Page.answer_of(name);
    let report = "";
    for (const byte of output) report += String.fromCharCode(byte);
    all[name] = {status, output: btoa(report), errors: errors.length, facts: null};
    if (!words.startsWith("replay ")) continue;
    const run = new Facts.Run(input ?? "", report);
    all[name].facts = Facts.facts(run, "", 1, run.rows.length);
  }
  return JSON.stringify(all);
})()
"""


def examples() -> Dict[str, pathlib.Path]:
    found = {path.parent.relative_to(EXAMPLES).as_posix(): path.parent for path in sorted(EXAMPLES.rglob("words"))}
    # (The page cannot write, as `replace` does.)
    return {name: folder for name, folder in found.items() if not name.startswith("replace/")}


@functools.lru_cache(maxsize=None)
def facts_of_view(folder: pathlib.Path) -> Any:
    page = run_tool("view", "--title", "", folder / "schedule", folder / "report").written
    found = FACTS.search(page)
    assert found
    facts = json.loads(found[1])
    facts["title"] = ""
    return facts


class Engine(unittest.TestCase):
    """What every engine has to answer."""

    answers: Dict[str, Any]

    def test_each_example_has_the_bytes_and_the_exit_code_of_the_repository(self) -> None:
        self.assertEqual(sorted(self.answers), sorted(examples()))
        for name, folder in examples().items():
            with self.subTest(name):
                answer = self.answers[name]
                self.assertEqual(answer["status"], int((folder / "status").read_text()))
                self.assertEqual(base64.b64decode(answer["output"]), (folder / "report").read_bytes())
                self.assertEqual(answer["errors"], 0)

    def ask(self, code: str) -> Any:
        raise NotImplementedError

    def test_a_file_that_begins_with_any_row_is_a_schedule(self) -> None:
        rows = {name: f"{name}{' 1' * (length - 1)}\n" for name, (length, _) in report.ROWS.items()}
        others = {"no row": "opened 1 0 0\n", "a log": "(1.0) can0 1E0101AA#00\n", "a text": "@ Name\n", "nothing": ""}
        given = json.dumps({**rows, **others})
        code = f"JSON.stringify(Object.entries({given}).filter(one => Facts.is_schedule(one[1])).map(one => one[0]))"
        self.assertEqual(json.loads(self.ask(code)), list(rows))

    def test_the_picture_of_each_example_has_the_facts_of_view(self) -> None:
        for name, folder in examples().items():
            if not (folder / "words").read_text().startswith("replay "):
                continue
            with self.subTest(name):
                self.assertEqual(self.answers[name]["facts"], facts_of_view(folder))


@unittest.skipUnless(shutil.which("node"), "there is no node on the PATH")
class InNode(Engine):
    @classmethod
    def setUpClass(cls) -> None:
        cls.answers = json.loads(cls.asked(ANSWERS))

    @staticmethod
    def asked(code: str) -> Any:
        return json.loads(Ended(["node", TESTS / "page_in_node.js", PAGE, code]).written)

    def ask(self, code: str) -> Any:
        return self.asked(code)


class Browsed(Engine):
    """What a browser has to show."""

    kind: Type[browsers.Browser]
    browser: Any

    @classmethod
    def setUpClass(cls) -> None:
        program = browsers.found(cls.kind)
        if program is None:
            raise unittest.SkipTest(f"{cls.kind.name} is not installed")
        room = tempfile.mkdtemp()
        cls.addClassCleanup(shutil.rmtree, room, ignore_errors=True)
        cls.browser = cls.kind(program, pathlib.Path(room) / "profile")
        cls.addClassCleanup(cls.browser.end)
        cls.browser.open(PAGE)
        cls.answers = json.loads(cls.browser.ask(ANSWERS))

    def ask(self, code: str) -> Any:
        return self.browser.ask(code)

    def open(self, fragment: str = "") -> None:
        self.browser.open(f"{PAGE}{fragment}")
        self.wait()

    def wait(self) -> None:
        """Until the page has answered what was asked last."""
        self.until("!Page.is_busy() && Boolean(document.getElementById('status').textContent)")

    def until(self, holds: str) -> None:
        end = time.monotonic() + PATIENCE
        while not self.browser.ask(holds):
            self.assertLess(time.monotonic(), end, holds)
            time.sleep(0.05)

    def text(self, id_: str) -> str:
        return str(self.browser.ask(f"document.getElementById('{id_}').textContent"))

    def last_roles(self) -> Dict[str, List[Any]]:
        lanes = self.browser.ask("Picture.facts.lanes.map(lane => [lane.name, lane.spans.at(-1)])")
        return {name: span[1:] for name, span in lanes if name.startswith("member")}

    def test_a_newcomer_sees_the_leader_lost_takes_one_row_out_and_sees_what_comes_of_it(self) -> None:
        self.open()
        before = self.text("sum")
        self.assertEqual(self.text("status"), "All 208 rows were taken. Exit code 0.")
        self.assertIn("member 1 stops", self.browser.ask("document.querySelector('#near tr.now').textContent"))
        self.assertEqual(self.last_roles(), {"member 1": ["stopped", 1], "member 2": ["L", 2], "member 3": ["F", 2]})
        self.browser.ask("""(() => {
            const area = document.getElementById("input"), at = area.value.indexOf("crash 1 0 old\\n");
            area.setRangeText("", at, at + 14);
            area.dispatchEvent(new Event("input"));
        })()""")
        self.wait()
        self.assertEqual(self.text("status"), "All 207 rows were taken. Exit code 0.")
        self.assertNotEqual(self.text("sum"), before)
        self.assertEqual(self.last_roles(), {"member 1": ["L", 1], "member 2": ["L", 2], "member 3": ["F", 2]})

    def test_what_the_page_offers_to_try_comes_to_what_it_says(self) -> None:
        self.open()
        said = []
        for number in range(self.browser.ask("document.querySelectorAll('#tries button').length")):
            self.browser.ask(f"document.querySelectorAll('#tries button')[{number}].click()")
            self.wait()
            told = self.browser.ask("Picture.facts.marks.filter(mark => mark[2] === 'hold').map(mark => mark[3])")
            said.append((self.text("status")[-12:], told))
        self.assertEqual(said, [
            ("Exit code 0.", ["125", "124"]),
            ("Exit code 0.", ["42", "125"]),
            ("Exit code 0.", ["125", "124"]),
            ("Exit code 4.", ["125"]),
        ])
        self.browser.ask("document.querySelector('#offers button:last-child').click()")
        self.wait()
        self.assertIn("70 rows that could not happen any more were left out. All 137 rows", self.text("status"))
        self.assertEqual(self.last_roles(), {"member 1": ["stopped", 1], "member 2": ["C", 2], "member 3": ["F", 1]})

    def test_a_link_brings_back_what_was_given(self) -> None:
        self.open()
        self.browser.ask("document.querySelectorAll('#tries button')[1].click()")
        self.wait()
        self.browser.ask("document.getElementById('link').click()")
        time.sleep(0.5)
        fragment, before = self.browser.ask("location.hash"), self.text("sum")
        self.assertRegex(fragment, "^#run=[A-Za-z0-9_-]+(&row=[0-9]+)?$")
        self.open("#example=a_soak")
        self.assertNotEqual(self.text("sum"), before)
        self.open(fragment)
        self.assertEqual(self.text("sum"), before)
        self.assertEqual(self.text("size"), "208 rows")

    def test_each_example_says_in_words_what_came_of_it(self) -> None:
        for name, words in {
            "a_soak": "All 2,000 rounds are over: 2,432 frames, 29 stops, and 35 devices with a node ID. Exit code 0.",
            "a_log/list": "All 196 lines were read: 137 transfers. Exit code 0.",
            "a_log/to_slcan": "All lines were read, and 193 lines written. Exit code 0.",
            "audit/two_clusters": "Nodes 1 and 2 have committed different entries at place 1; none before it differ. "
            "Exit code 14.",
            "audit/a_damaged_store": "The store of node 2 is damaged, first at key 5. Exit code 11.",
            "decode/no_part": "The text has no such type, or the type has no such part. Exit code 15.",
            "beyond_the_limit": "Row 2 is one more than the words allow. Exit code 8.",
        }.items():
            with self.subTest(name):
                self.open(f"#example={name}")
                self.assertEqual(self.text("status"), words)

    def test_a_schedule_of_told_members_that_is_opened_after_a_log_is_replayed(self) -> None:
        self.open("#example=a_log/list")
        self.browser.ask("""(() => {
            const data = new DataTransfer(), area = document.getElementById("file");
            data.items.add(new File(["copen 1 0 0\\n"], "schedule"));
            area.files = data.files;
            area.dispatchEvent(new Event("change"));
        })()""")
        end = time.monotonic() + PATIENCE
        while "were taken" not in self.text("status"):
            self.assertLess(time.monotonic(), end, self.text("status"))
            time.sleep(0.05)

    def test_a_broken_link_and_an_unknown_example_are_said(self) -> None:
        self.open("#run=abc")
        self.assertEqual(self.text("status"), "The link was cut, or is none of this page.")
        self.open("#example=none")
        self.assertEqual(self.text("status"), "The page has no example none.")


class InChromium(Browsed):
    kind = browsers.Chromium

    def test_it_asks_no_network_and_its_console_stays_empty(self) -> None:
        self.open()
        self.browser.ask("document.querySelector('#tries button').click()")
        self.wait()
        self.assertEqual([one for one in self.browser.requests if not one.startswith(("file:", "blob:", "data:"))], [])
        self.assertEqual(self.browser.console, [])

    def test_a_phone_shows_the_answer_and_the_picture_at_once_and_no_label_over_another(self) -> None:
        self.open()
        self.browser.become_phone()
        width, height = browsers.PHONE
        self.until(f"innerWidth === {width} && document.getElementById('picture').clientWidth < {width}")
        self.assertEqual(self.browser.ask("document.documentElement.scrollWidth"), width)
        told, strip, slide = self.browser.ask("""["outcome", "strip", "slide"].map(id => {
            const {top, bottom} = document.getElementById(id).getBoundingClientRect();
            return [top, bottom];
        })""")
        self.assertLess(told[1], strip[0] + 1)
        self.assertLess(strip[1], slide[0] + 1)
        self.assertLess(slide[1], height)
        boxes = self.browser.ask("""[...document.querySelectorAll("svg .toldtext")].map(one => {
            const {left, right, top, bottom} = one.getBoundingClientRect();
            return [left, right, top, bottom];
        })""")
        self.assertGreater(len(boxes), 2)
        for one, other in itertools.combinations(boxes, 2):
            self.assertFalse(one[0] < other[1] and other[0] < one[1] and one[2] < other[3] and other[2] < one[3], boxes)


class InFirefox(Browsed):
    kind = browsers.Firefox


del Engine, Browsed  # these are no tests by themselves


def main() -> int:
    global PAGE
    words = support.parser("tests/page", "The tests of the page that runs the program.")
    words.add_argument("page", metavar="PAGE", type=pathlib.Path, help="the page, as web/build makes it")
    given = words.parse_args()
    PAGE = given.page.resolve()
    return support.run("tests/page", ["__main__"], given.patterns)


if __name__ == "__main__":
    sys.exit(main())
