"""Where the scripts beside this one find the program, the package of tools/, and the device of examples/node; and their
words."""
from __future__ import annotations

import os
import sys
from typing import List, Optional

TOP = os.path.dirname(os.path.dirname(os.path.abspath(__file__)))
PROGRAM = os.path.join(TOP, "crates", "allocator", "out", "allocator")
sys.dont_write_bytecode = True
sys.path[:0] = [os.path.join(TOP, "tools"), os.path.join(TOP, "examples", "node")]


def words(about: Optional[str]) -> List[str]:
    """The words of a script. Where they ask for help, it prints what it is about, and ends."""
    given = sys.argv[1:]
    if given in (["-h"], ["--help"]):
        print((about or "").strip())
        sys.exit(0)
    return given
