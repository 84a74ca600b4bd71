"""The tests of the program for ARM64. They are started by tests/arm64."""
from __future__ import annotations

import os
import pathlib
import random
import shutil
import subprocess
import sys
import tempfile
import unittest
from concurrent.futures import ThreadPoolExecutor
from typing import List, Sequence, Tuple

import support
from support import EXAMPLES, ROOT, Ended

HOST = ROOT / "packaging" / "arm64"
QEMU = [shutil.which("qemu-aarch64") or "qemu-aarch64-static", "-L", "/usr/aarch64-linux-gnu"]
ARM64, X86_64 = [*QEMU], [""]  # the programs, set by the words
INPUTS = ("schedule", "log", "text")
MEMBERS = ("1", "2", "3")
TURNS = 10000  # some 11 s
UNIQUE_ID = "00112233445566778899aabbccddeeff"
PATIENCE = 120  # seconds
AT_ONCE = os.cpu_count() or 1


Answer = Tuple[int, bytes, bytes]  # exit code, standard output, standard error


def run(program: Sequence[str], words: Sequence[str], folder: str, given: bytes = b"") -> Answer:
    done = subprocess.run([*program, *words], input=given, capture_output=True, cwd=folder, timeout=PATIENCE)
    return done.returncode, done.stdout, done.stderr


def input_of(folder: pathlib.Path) -> bytes:
    """The input of an example, which stands beside its words or in the folder above."""
    places = [place / name for place in (folder, folder.parent) for name in INPUTS]
    return next((path.read_bytes() for path in places if path.is_file()), b"")


class Program(unittest.TestCase):
    def setUp(self) -> None:
        room = tempfile.TemporaryDirectory()
        self.addCleanup(room.cleanup)
        self.room = room.name

    def example(self, folder: pathlib.Path) -> Answer:
        place = tempfile.mkdtemp(dir=self.room)
        if (folder / "files").is_dir():
            shutil.copytree(folder / "files", place, dirs_exist_ok=True)
        return run(ARM64, (folder / "words").read_text().split(), place, input_of(folder))

    def test_each_example_has_the_bytes_and_the_exit_code_of_the_repository(self) -> None:
        folders = sorted(path.parent for path in EXAMPLES.rglob("words"))
        self.assertGreater(len(folders), 80)
        with ThreadPoolExecutor(AT_ONCE) as pool:
            for folder, answer in zip(folders, pool.map(self.example, folders)):
                with self.subTest(example=str(folder.relative_to(EXAMPLES))):
                    report, status = (folder / "report").read_bytes(), int((folder / "status").read_text())
                    self.assertEqual(answer, (status, report, b""))

    def test_eighteen_soaks_are_those_of_x86_64(self) -> None:
        soaks = [["soak", str(seed), "2000", size] for seed in range(1, 7) for size in "135"]
        with ThreadPoolExecutor(AT_ONCE) as pool:
            ours = pool.map(lambda words: run(ARM64, words, self.room), soaks)
            theirs = pool.map(lambda words: run(X86_64, words, self.room), soaks)
            for words, one, other in zip(soaks, ours, theirs):
                with self.subTest(words=" ".join(words)):
                    self.assertEqual(one[0], 0)
                    self.assertEqual(one, other)

    def serve(self, programs: List[List[str]]) -> None:
        """Three members give a device its node ID, and end by themselves; the stores that they left agree, and both
        architectures tell the same of them."""
        base = str(random.randrange(20000, 60000))
        members = [
            subprocess.Popen([*program, "node", "3", base, str(TURNS), member], cwd=self.room, stdout=subprocess.PIPE)
            for program, member in zip(programs, MEMBERS)
        ]
        device = [sys.executable, str(EXAMPLES / "node" / "device.py"), base, UNIQUE_ID]
        try:
            told = subprocess.run(device, capture_output=True, text=True, timeout=PATIENCE).stdout.split()
            ends = [member.communicate(timeout=PATIENCE)[0].splitlines()[-1] for member in members]
        finally:
            for member in members:
                member.kill()
        self.assertEqual([member.returncode for member in members], [0, 0, 0])
        self.assertEqual(ends, [b"end %d" % TURNS] * len(MEMBERS))
        self.assertEqual(told, ["125"])
        status, report, errors = run(X86_64, ["audit", *MEMBERS], self.room)
        self.assertEqual((status, errors), (0, b""))
        self.assertEqual(report.splitlines()[0].split()[:3], [b"1", b"125", UNIQUE_ID.encode()])
        self.assertEqual(run(ARM64, ["audit", *MEMBERS], self.room), (status, report, errors))

    def test_three_members_serve_a_device_and_the_other_architecture_reads_their_stores(self) -> None:
        self.serve([ARM64, ARM64, ARM64])

    def test_a_cluster_of_both_architectures_serves_a_device(self) -> None:
        self.serve([ARM64, X86_64, ARM64])


class Host(unittest.TestCase):
    def test_the_c_answers_as_the_archives_of_the_toolchain_that_it_stands_for(self) -> None:
        archives = pathlib.Path(os.path.realpath(shutil.which("rt") or "")).parent.parent / "c"
        ours, theirs = [HOST / "rattle_host.c"], [archives / "libos_c.a", archives / "liblibc_c.a"]
        flags = ["-std=gnu11", "-O2", "-Wall", "-Wextra", "-Werror"]
        with tempfile.TemporaryDirectory() as room:
            said = {}
            cases: List[Tuple[str, str, List[pathlib.Path], List[str]]] = [
                ("x86-64", "gcc", ours, []),
                ("x86-64, by the archives", "gcc", theirs, []),
                ("ARM64", "aarch64-linux-gnu-gcc", ours, QEMU),
            ]
            for name, compiler, host, front in cases:
                path = os.path.join(room, name)
                made = Ended([compiler, *flags, "-o", path, HOST / "try_host.c", *host])
                self.assertEqual((made.status, made.errors), (0, ""))
                (pathlib.Path(room) / "locked").write_bytes(b"")
                words = [*front, path, "one", "", "seventeen", "locked"]
                said[name] = Ended(words, cwd=room).written
            self.assertIn("by another, 15: -1, errno 11", said["ARM64"])
            self.assertEqual(said["x86-64"], said["x86-64, by the archives"])
            self.assertEqual(said["ARM64"], said["x86-64"])


def main() -> int:
    words = support.parser("tests/arm64", "The tests of the program for ARM64.")
    words.add_argument("program", metavar="PROGRAM", help="the program for ARM64, as packaging/arm64/build makes it")
    words.add_argument("native", metavar="NATIVE", help="the program of this machine")
    given = words.parse_args()
    ARM64.append(os.path.abspath(given.program))
    X86_64[:] = [os.path.abspath(given.native)]
    return support.run("tests/arm64", ["__main__"], given.patterns)


if __name__ == "__main__":
    sys.exit(main())
