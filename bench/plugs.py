"""The plug of a CAN interface, which comes off and is on again, for scripts that have interfaces of Linux. What nobody
acknowledges stays in the interface: here its queue keeps it, by tc of iproute2. Needs the modules in MODULES.

    plug = Plug("can0", deafen)       # deafen(True): the interface hears nothing; deafen(False): it hears again
    plug.arm(identifier)              # from now on frames of this identifier wait in the interface
    plug.waiting()                    # how many frames wait there
    plug.off()                        # now all frames wait, and it hears nothing
    plug.on()                         # what waits goes out, and all is as it was
"""
from __future__ import annotations

import re
import subprocess
import time
from typing import Callable, Sequence

MODULES = "sch_plug", "sch_prio", "cls_basic", "em_canid"
SETTLE = 0.3  # seconds until what waited is out


class Plug:
    """`within` are words before each command, as those that run it in a network namespace."""

    def __init__(self, interface: str, deafen: Callable[[bool], None], within: Sequence[str] = ()) -> None:
        self.interface, self.deafen, self.within = interface, deafen, within

    def arm(self, identifier: int) -> None:
        self._tc("qdisc add dev", "root handle 1: prio bands 2 priomap" + 16 * " 1")
        self._tc("qdisc add dev", "parent 1:1 handle 10: plug")
        match = f"canid(eff {identifier:#x})"
        self._tc("filter add dev", "parent 1: protocol all basic match", match, "flowid", "1:1")

    def waiting(self) -> int:
        words = *self.within, "tc", "-s", "qdisc", "show", "dev", self.interface
        found = re.search(r"qdisc plug .*?backlog \S+ (\d+)p", subprocess.check_output(words, text=True), re.S)
        return int(found[1]) if found else 0

    def off(self) -> None:
        self._tc("qdisc change dev", "root handle 1: prio bands 2 priomap" + 16 * " 0")
        self.deafen(True)

    def on(self) -> None:
        self.deafen(False)
        self._tc("qdisc change dev", "parent 1:1 handle 10: plug release_indefinite")
        time.sleep(SETTLE)
        self._tc("qdisc delete dev", "root")

    def _tc(self, what: str, how: str, *more: str) -> None:
        words = *self.within, "tc", *what.split(), self.interface, *how.split(), *more
        subprocess.run(words, check=True, stdout=subprocess.DEVNULL)
