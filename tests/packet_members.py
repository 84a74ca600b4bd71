"""Members of `can` on packet sockets that give back what is sent: they serve devices, and go on after kill -9 of one of
them; and two of one process hear each other. For tests/program.

packet_members.py PROGRAM: in an empty folder; it ends with 1, and says why, where this is not so."""
from __future__ import annotations

import os
import subprocess
import sys
from typing import List

sys.dont_write_bytecode = True
import packets  # noqa: E402 (it stands beside this file)

PATIENCE = 20.0  # seconds that a device waits for a node ID


def serves(program: str, processes: List[List[int]]) -> bool:
    """Whether these processes of one cluster give two devices two node IDs, the first process killed between them."""
    members = sorted(member for process in processes for member in process)
    names = list(map(str, members))
    subprocess.run([program, "new", *names], stdout=subprocess.DEVNULL, check=True)

    def command(process: int, _socket: int) -> List[str]:
        ids = list(map(str, processes[process]))
        turns = ["1000000000"] if len(ids) > 1 else []  # (one member has them where they are left out)
        return [program, "can", ",".join(names), *turns, *ids]

    bus = packets.Bus(os.getcwd(), command, at_input=True)
    for process in range(len(processes)):
        bus.start(process)
    first = bus.serve(packets.Device(1), PATIENCE)
    bus.kill(0)
    bus.start(0)
    second = bus.serve(packets.Device(2), PATIENCE)
    bus.end()
    audit = subprocess.run([program, "audit", *names], stdout=subprocess.DEVNULL).returncode
    print(f"members {processes}: node IDs {first} and {second}; audit ended with {audit}")
    for name in names:
        os.remove(f"alloc-{name}.store")
    return None not in (first, second) and first != second and audit == 0


def main() -> int:
    program = sys.argv[1]
    return 0 if serves(program, [[1], [2], [3]]) and serves(program, [[4, 5], [6]]) else 1


if __name__ == "__main__":
    sys.exit(main())
