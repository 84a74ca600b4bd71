#!/usr/bin/env python3
"""Gives the table of functions of a WebAssembly module limits of 32 bits.

lower_table.py MODULE OUT: binaryen lowers a memory of 64 bits, and not yet a table. That is sound where no code uses
the table by an address of 64 bits: to_wasm looks for that before.
"""
from __future__ import annotations

import sys
from typing import Tuple, Union

TABLES = 4  # the number of the section
FUNCTIONS = 0x70  # the type of what stands in a table
WITH_MOST = 1  # the flag of limits that have an upper one; 4 is that of limits of 64 bits


def number(data: Union[bytes, bytearray], at: int) -> Tuple[int, int]:
    """A LEB128 number, and where it ends."""
    value = shift = 0
    while True:
        byte = data[at]
        value, shift, at = value | (byte & 127) << shift, shift + 7, at + 1
        if byte < 128:
            return value, at


def lowered(module: bytes) -> bytes:
    data, at = bytearray(module), 8
    while at < len(data):
        section = data[at]
        size, body = number(data, at + 1)
        if section == TABLES:
            count, kind = data[body], data[body + 1]
            if (count, kind) != (1, FUNCTIONS):
                sys.exit("lower_table.py: the module has other tables than one of functions")
            data[body + 2] &= WITH_MOST
        at = body + size
    return bytes(data)


def main() -> None:
    if sys.argv[1:] in (["-h"], ["--help"]):
        print(__doc__)
        return
    source, target = sys.argv[1:]
    with open(source, "rb") as file:
        data = file.read()
    with open(target, "wb") as file:
        file.write(lowered(data))


if __name__ == "__main__":
    main()
