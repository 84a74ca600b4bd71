"""The tests of the library for C, for `tests/embedding`."""
from __future__ import annotations

import itertools
import os
import pathlib
import re
import shutil
import socket
import sys
import tempfile
import time
import unittest
from typing import Any, Dict, Iterator, List, Optional, Sequence, Set, Tuple

import packets
import support
from support import EXAMPLES, ROOT, TESTS, Ended

INCLUDE = ROOT / "include"
PROGRAM = ROOT / "crates" / "allocator" / "out" / "allocator"
BUILD_SECONDS = 180  # what the gate proved is taken from there; without that it would take many minutes
TIMED_OUT = 124  # the status of timeout
STRICT = ["-Wall", "-Wextra", "-Wpedantic", "-Wconversion", "-Wshadow", "-Werror"]
SANITIZED = ["-g", "-O1", "-fsanitize=address,undefined", "-fno-sanitize-recover=all"]
SIX_FUNCTIONS = {"pread", "pwrite", "fdatasync", "memcpy", "memmove", "memset"}
MEMBERS = (1, 2, 3)
STORE_BYTES = 8844
HIGHEST_START = 500000  # the highest term above which a store is made
NEW_STORE = b"\1" + bytes(33) + b"\1\2" + bytes(STORE_BYTES - 36)  # as `new 1` of the program makes it
USED_STORE = b"\1\1\2" + NEW_STORE[3:]  # the same, once a member ran with it
NOT_OPENED, STORE_FAILED, LATE_ECHO = 12, 14, 17
REST = 5.5  # seconds of a member whose store is not new
PATIENCE = 30  # seconds that a device waits: a rest, and some elections
C_EXAMPLES = EXAMPLES / "c"
# What a caller has beside the code of the pages, which stands in the last function.
CALLER = """#include "caldrouz.h"
uint64_t now_ms(void);
uint32_t random_word(void);
int receive(caldrouz_frame *frame);
int has_room(void);
void transmit(const caldrouz_frame *frame);
void run(int store);
void run(int store) {
%s
}
"""


class Place:
    """The folder of a run, with the archive installed there."""

    folder = pathlib.Path(tempfile.gettempdir())
    prefix = folder
    archive: Optional[str] = None  # one that is given
    programs = itertools.count(1)

    @classmethod
    def prepare(cls, folder: str) -> str:
        """Installs the archive in this folder, and answers why it cannot, or nothing."""
        cls.folder = pathlib.Path(folder)
        cls.prefix = cls.folder / "prefix"
        given = [] if cls.archive is None else ["--archive", cls.archive]
        if not given and not shutil.which("rt"):
            return "there is no archive, and no Rattle toolchain to build one"
        limit = ["timeout", "--kill-after=5", BUILD_SECONDS]  # (it ends all that the build has started)
        ended = Ended([*limit, ROOT / "packaging" / "build-c", *given, cls.prefix])
        if ended.status == TIMED_OUT:
            return f"the archive was not built within {BUILD_SECONDS} s"
        return str(ended.errors).strip() if ended.status else ""


def there(*names: str) -> List[str]:
    """Those of these programs that are there; without any the test is passed over."""
    found = [name for name in names if shutil.which(name)]
    if not found:
        raise unittest.SkipTest(f"there is none of {', '.join(names)}")
    return found


def compilers() -> List[str]:
    """Those of C that are there. The tests of syncs need one: they are not passed over."""
    found = [name for name in ("gcc", "clang") if shutil.which(name)]
    if not found:
        raise AssertionError("there is no gcc and no clang, so no sync is tried")
    return found


def done(*words: object, **options: Any) -> str:
    """What a command wrote that ended well."""
    ended = Ended(words, **options)
    if ended.status:
        raise AssertionError(f"{words} ended with {ended.status}\n{ended.written}{ended.errors}")
    return str(ended.written)


def above(store: bytes, term: int, member: int) -> bytes:
    """This new store above a term: that, and a vote for its member, in copy A of keys 1 and 2."""
    return store[:68] + b"\4" + term.to_bytes(4, "little") + store[73:135] + bytes([1, member]) + store[137:]


def built(compiler: str, *sources: pathlib.Path, flags: Sequence[str] = ()) -> str:
    """A program of these sources and the archive."""
    program = str(Place.folder / f"{compiler}-{next(Place.programs)}")
    archive = Place.prefix / "lib" / "libcaldrouz.a"
    done(compiler, "-std=c99", *STRICT, *flags, "-I", INCLUDE, *sources, archive, "-lm", "-o", program)
    return program


class Header(unittest.TestCase):
    def test_it_is_c_and_cpp(self) -> None:
        """Each compiler takes it without a warning, as C99, as C17 and as two versions of C++."""
        text = '#include "caldrouz.h"\n#include "caldrouz.h"\nint main(void) { return CALDROUZ_DONE; }\n'
        for compiler in there("gcc", "clang", "g++", "clang++"):
            is_cpp = compiler.endswith("++")
            source = Place.folder / ("header.cc" if is_cpp else "header.c")
            source.write_text(text)
            for standard in ("c++11", "c++17") if is_cpp else ("c99", "c17"):
                done(compiler, f"-std={standard}", *STRICT, "-I", INCLUDE, "-c", source, "-o", os.devnull)

    def test_the_code_of_the_pages_compiles(self) -> None:
        """What EMBEDDING and the head of the header show is taken as it stands there."""
        page = (ROOT / "docs/EMBEDDING.md").read_text(encoding="utf-8")
        start = page.partition("\n## The start, and a turn\n")[2].partition("\n## ")[0]
        head = (INCLUDE / "caldrouz.h").read_text(encoding="utf-8").partition("*/")[0]
        for text, mark in ((start, "    "), (head, " *     ")):
            code = [line[len(mark) :] for line in text.splitlines() if line.startswith(mark)]
            self.assertGreaterEqual(sum("caldrouz_" in line for line in code), 6)
            source = Place.folder / "page.c"
            source.write_text(CALLER % "\n".join(code))
            for compiler in there("gcc", "clang"):
                done(compiler, "-std=c99", *STRICT, "-I", INCLUDE, "-c", source, "-o", os.devnull)


class Archive(unittest.TestCase):
    def test_it_calls_six_functions(self) -> None:
        """The three of the store, and three that every compiler may call."""
        there("nm")
        undefined: Set[str] = set()
        defined: Set[str] = set()
        for line in done("nm", "-g", Place.prefix / "lib" / "libcaldrouz.a").splitlines():
            match = re.fullmatch(r"[0-9a-f ]*\s([A-Za-z]) (\S+)", line)
            if match:
                (undefined if match[1] == "U" else defined).add(match[2])
        self.assertEqual(undefined - defined, SIX_FUNCTIONS)
        self.assertLessEqual({"caldrouz_size", "caldrouz_make", "caldrouz_call"}, defined)

    def test_pkg_config_leads_to_it(self) -> None:
        there("pkg-config")
        settings = dict(os.environ, PKG_CONFIG_PATH=str(Place.prefix / "lib" / "pkgconfig"))
        flags = done("pkg-config", "--cflags", "--libs", "caldrouz", env=settings).split()
        program = Place.folder / "by-pkg-config"
        sources = [C_EXAMPLES / "lone_allocator.c", C_EXAMPLES / "array_store.c"]
        done(there("gcc", "clang")[0], *sources, *flags, "-lm", "-o", program)
        self.assertIn("is given 125", done(program))

    def test_cmake_leads_to_it(self) -> None:
        there("cmake")
        there("make")
        folder = Place.folder / "by-cmake"
        folder.mkdir()
        sources = f"{C_EXAMPLES / 'lone_allocator.c'} {C_EXAMPLES / 'array_store.c'}"
        (folder / "CMakeLists.txt").write_text(
            "cmake_minimum_required(VERSION 3.13)\nproject(try C)\nfind_package(caldrouz CONFIG REQUIRED)\n"
            f"add_executable(try {sources})\ntarget_link_libraries(try caldrouz::caldrouz m)\n"
        )
        done("cmake", "-S", folder, "-B", folder / "built", f"-DCMAKE_PREFIX_PATH={Place.prefix}")
        done("cmake", "--build", folder / "built")
        self.assertIn("is given 125", done(folder / "built" / "try"))


class LoneAllocator(unittest.TestCase):
    def test_a_device_is_served(self) -> None:
        """Over an array, and over an FRAM, the device of the example is given the highest node ID that is free."""
        stores: List[Tuple[str, List[str]]] = [("array_store.c", []), ("fram_store.c", ["-DSIMULATED_FRAM"])]
        for compiler, (store, flags) in zip(itertools.cycle(there("gcc", "clang")), stores):
            sources = [C_EXAMPLES / "lone_allocator.c", C_EXAMPLES / store]
            program = built(compiler, *sources, flags=[*SANITIZED, *flags])
            self.assertEqual(done(program).splitlines()[-1], "the device is given 125; the list has 1 entries")


def rows_for_nodes(folder: pathlib.Path) -> Iterator[str]:
    """The rows of a schedule for its members. The frame that an allocatee sends comes from outside here, as its line
    has it; the other rows of allocatees are left out."""
    told = [line.split() for line in support.read_lines(folder / "report")]
    sent = {int(words[0]): words for words in told if words[0].isdigit() and words[2:3] == ["send"]}
    for number, row in enumerate(support.read_lines(folder / "schedule"), 1):
        word = row.split()[0]
        if word == "asend":
            yield f"ext {sent[number][4]} {sent[number][5]}\n"
        elif word not in ("aopen", "atick", "arx", "aend"):
            yield row + "\n"


def lines_of_nodes(folder: pathlib.Path) -> List[str]:
    """What the report says of members: openings, steps (role, numbers, queue), frames sent, stops, failures, logs."""
    lines: List[str] = []
    is_log = False
    for line in support.read_lines(folder / "report"):
        first, *words = line.split(" ")
        is_log = is_log or first == "log"
        if first == "end":
            continue
        if is_log:
            lines.append(line)
        elif words[0].isdigit() and words[1] != "armed":
            lines.append(" ".join(words[:6] if words[1] in "FCL" else words))
    return lines


class WorkedSchedules(unittest.TestCase):
    def test_nodes_do_what_replay_says(self) -> None:
        """Of each worked schedule without a refused row, the nodes of the library have the roles and numbers, send the
        frames and keep the logs of the report; and no frame is taken while its store waits for a sync."""
        tried = set()
        for compiler, flags in zip(compilers(), (SANITIZED, ["-O2"])):
            program = built(compiler, TESTS / "c" / "replay.c", flags=flags)
            for path in sorted(EXAMPLES.glob("*/words")):
                folder, words = path.parent, support.read(path).split()
                if words[0] != "replay" or support.read(folder / "status").strip() != "0":
                    continue
                rows = "".join(rows_for_nodes(folder))
                wrote = done(program, *words[2:], input=rows.encode()).splitlines()
                self.assertEqual(wrote, lines_of_nodes(folder), folder.name)
                tried.add(folder)
        self.assertGreaterEqual(len(tried), 20)


class CallsThatFail(unittest.TestCase):
    """What the library makes of a call on the store that fails, by the rows of a schedule of a lone member."""

    def setUp(self) -> None:
        self.program = built(compilers()[0], TESTS / "c" / "replay.c", flags=SANITIZED)

    def comes_to(self, *rows: str) -> List[str]:
        return done(self.program, "1", input="".join(row + "\n" for row in rows).encode()).splitlines()

    def test_each_call_of_an_opening(self) -> None:
        """A sync, a read, and the put of the version: each of them fails once, and the next opening goes well."""
        for call in range(1, 7):
            lines = self.comes_to(f"fault 1 {call}", "open 1 0 0", "open 1 0 0")
            self.assertEqual(lines, ["1 fault", "1 open 0 0 0 0", "log 1 0"], call)

    def test_each_call_of_a_put(self) -> None:
        """The two writes and the two syncs by which a term is stored: no call of the member goes well from then on."""
        for call in range(1, 5):
            lines = self.comes_to("open 1 0 0", f"fault 1 {call}", "tick 1 2000 0", "tick 1 2001 0")
            self.assertEqual(lines, ["1 open 0 0 0 0", "1 fault", "1 fault"], call)


class Start(unittest.TestCase):
    """How `socketcan_node` begins."""

    program = ""

    @classmethod
    def setUpClass(cls) -> None:
        cls.program = built(there("gcc", "clang")[0], C_EXAMPLES / "socketcan_node.c", flags=SANITIZED)

    def test_a_store_is_made_by_new_alone_and_once(self) -> None:
        folder = pathlib.Path(tempfile.mkdtemp(dir=Place.folder))
        store = folder / "alloc-1.store"
        ours, theirs = socket.socketpair(socket.AF_UNIX, socket.SOCK_SEQPACKET)
        with ours, theirs:
            for bus in (f"fd:{theirs.fileno()}", "fd:999"):
                words = [self.program, bus, "1", "1,2,3", store]
                ended = Ended(words, pass_fds=[theirs.fileno()], timeout=PATIENCE)
                self.assertEqual((ended.status, store.exists()), (NOT_OPENED, False), bus)
        self.assertEqual(Ended([self.program, "new", store, "1"]).status, 0)
        made = store.read_bytes()
        term = int.from_bytes(made[69:73], "little")
        self.assertTrue(1 <= term <= HIGHEST_START, term)
        self.assertEqual(made, above(NEW_STORE, term, 1))
        store.write_bytes(b"1" * STORE_BYTES)
        self.assertEqual(Ended([self.program, "new", store, "1"]).status, NOT_OPENED)
        self.assertEqual(store.read_bytes(), b"1" * STORE_BYTES)

    def test_a_store_without_a_version_is_refused(self) -> None:
        """Zeros, and a used store that lost its first block or sector."""
        folder = pathlib.Path(tempfile.mkdtemp(dir=Place.folder))
        store = folder / "alloc-1.store"
        ours, theirs = socket.socketpair(socket.AF_UNIX, socket.SOCK_SEQPACKET)
        with ours, theirs:
            for image in (bytes(STORE_BYTES), bytes(512) + b"\1" * (STORE_BYTES - 512)):
                store.write_bytes(image)
                words = [self.program, f"fd:{theirs.fileno()}", "1", "1,", store]
                ended = Ended(words, pass_fds=[theirs.fileno()], timeout=PATIENCE)
                self.assertEqual((ended.status, store.read_bytes()), (STORE_FAILED, image), ended.errors)
                self.assertIn("no version", ended.errors)

    def test_a_member_that_stored_nothing_marks_its_store(self) -> None:
        """One of three, whom nobody calls, puts nothing in the 2 s before its first election; its next one rests."""
        folder = pathlib.Path(tempfile.mkdtemp(dir=Place.folder))
        store = folder / "alloc-1.store"
        store.write_bytes(NEW_STORE)
        bus = packets.Bus(
            str(folder), lambda _, descriptor: [self.program, f"fd:{descriptor}", "1", "1,2,3", "alloc-1.store"]
        )
        bus.start(1)
        end = time.monotonic() + PATIENCE
        while bus.frames == 0 and time.monotonic() < end:
            bus.turn()
        bus.kill(1)
        self.assertEqual(store.read_bytes(), USED_STORE)

    def test_it_rests_where_its_store_is_not_new(self) -> None:
        """A lone member speaks at once at its first start, and after 5.5 s at its second."""
        folder = tempfile.mkdtemp(dir=Place.folder)
        done(self.program, "new", "alloc-1.store", "1", cwd=folder)
        bus = packets.Bus(folder, lambda _, descriptor: [self.program, f"fd:{descriptor}", "1", "1", "alloc-1.store"])
        waits = []
        for _ in range(2):
            bus.start(1)
            begun, before = time.monotonic(), bus.frames
            while bus.frames == before and time.monotonic() - begun < PATIENCE:
                bus.turn()
            waits.append(time.monotonic() - begun)
            bus.rest(6)  # (it has elected itself by then, and stored that)
            bus.kill(1)
        self.assertLess(waits[0], REST)
        self.assertGreaterEqual(waits[1], REST)
        self.assertLess(waits[1], PATIENCE)

    def test_a_late_echo_ends_it(self) -> None:
        """Nobody acknowledges: its first frame is its last one, until somebody looked at the cable."""
        folder = tempfile.mkdtemp(dir=Place.folder)
        done(self.program, "new", "alloc-1.store", "1", cwd=folder)
        ours, theirs = socket.socketpair(socket.AF_UNIX, socket.SOCK_SEQPACKET)
        with ours, theirs:
            words = [self.program, f"fd:{theirs.fileno()}", "1", "1,", "alloc-1.store"]
            ended = Ended(words, cwd=folder, pass_fds=[theirs.fileno()], timeout=PATIENCE)
            theirs.close()
            self.assertEqual(ended.status, LATE_ECHO, ended.errors)
            self.assertIn("nobody acknowledges", ended.errors)
            self.assertEqual(len(ours.recv(64)), 16)
            self.assertEqual(ours.recv(64), b"")


class Cluster(unittest.TestCase):
    def served(self, bus: packets.Bus, number: int) -> int:
        """The node ID that a device is given."""
        node = bus.serve(packets.Device(number), PATIENCE)
        self.assertIsNotNone(node, f"device {number} was given none within {PATIENCE} s")
        return node or 0

    def test_three_members_serve_through_kills(self) -> None:
        """Six devices are given six node IDs, one of them the same before and after kills; the members' lists agree."""
        source = C_EXAMPLES / "socketcan_node.c"
        programs = [built(compiler, source, flags=SANITIZED) for compiler in there("clang", "gcc")]
        folder = tempfile.mkdtemp(dir=Place.folder)

        def command(member: int, descriptor: int) -> List[str]:
            program = programs[member % len(programs)]
            return [program, f"fd:{descriptor}", str(member), "1,2,3", f"alloc-{member}.store"]

        bus = packets.Bus(folder, command)
        for member in MEMBERS:
            done(programs[0], "new", f"alloc-{member}.store", str(member), cwd=folder)
            bus.start(member)
        given: Dict[int, int] = {}
        for number in range(1, 7):
            given[number] = self.served(bus, number)
            if number in (2, 4):
                bus.kill(number // 2)
            elif number in (3, 5):
                bus.start(number // 2)
        self.assertEqual(self.served(bus, 1), given[1])
        bus.rest(REST + 2)  # (the member that was started last takes part again)
        codes, said = bus.end()
        self.assertEqual(codes, {1: 0, 2: 0, 3: 0}, said)
        self.assertEqual(len(set(given.values())), 6, given)
        lists = [re.findall(r"^\d+ \d+ [0-9a-f]{32}$", said[member], re.MULTILINE) for member in MEMBERS]
        longest = max(lists, key=len)
        self.assertGreaterEqual(len(longest), 6)
        for one in lists:
            self.assertEqual(one, longest[: len(one)])
        if PROGRAM.exists():
            audit = done(PROGRAM, "audit", "1", "2", "3", cwd=folder)
            self.assertRegex(audit.splitlines()[-1], "^agree ")


def main() -> int:
    words = support.parser("tests/embedding", "The tests of the library for C.")
    words.add_argument("archive", metavar="ARCHIVE", nargs="?", help="another one than that of crates/caldrouz")
    given = words.parse_args()
    Place.archive = given.archive and os.path.abspath(given.archive)
    with tempfile.TemporaryDirectory() as folder:
        missing = Place.prepare(folder)
        if missing:
            print(f"tests/embedding: skipped, {missing}\n0 passed, 0 failed")
            return 0
        return support.run("tests/embedding", ["__main__"], given.patterns)


if __name__ == "__main__":
    sys.exit(main())
