"""The causes that a machine tells of itself: of its CAN interface, and of its processes. Not proved."""
from __future__ import annotations

from typing import Collection, Optional, Sequence

from ..machine import LONGEST_QUEUE, Interface, Running
from .common import Cause, Found

LOOK = "look at the cable, termination, bit rate, and whether another node is there (TROUBLE.md, \"Bring-up of a bus\")"


def interface(name: str, it: Optional[Interface]) -> Found:
    """None where the system does not tell, or all is well."""
    if it is None:
        return
    errors = f", with error counters up to {it.errors}" if it.errors else ""
    if not it.up:
        yield Cause(
            "bad-interface",
            f"{name} is down",
            f"where a member ended with 17, look at its cable: its unit takes {name} down then, and up with the next "
            f"start; else ip link set {name} up",
        )
    elif it.state == "BUS-OFF":
        yield Cause("bad-interface", f"{name} left the bus (BUS-OFF){errors}", LOOK)
    elif it.state in ("ERROR-WARNING", "ERROR-PASSIVE"):
        yield Cause("bad-interface", f"{name} is {it.state}{errors}", LOOK, stops=False)
    elif it.bus_off:
        back = f", and was brought back {it.restarts} times" if it.restarts else ""
        text = f"{name} left the bus {it.bus_off} times since it is there{back}"
        yield Cause("bad-interface", text, LOOK, stops=False)
    if it.up and it.kind == "can" and it.queue is not None and it.queue > LONGEST_QUEUE:
        yield Cause(
            "bad-interface",
            f"{name} keeps up to {it.queue} frames that nobody acknowledges, and sends them later",
            f"ip link set {name} txqueuelen {LONGEST_QUEUE}; the unit caldrouz-can@{name} does it",
            stops=False,
        )


def lists_here(running: Sequence[Running], members: Collection[int], base: Optional[int]) -> Found:
    """Processes of this machine that are told another list than the others, or than the members are to be. `base`: of
    those alone that have this base, where it is known. One whose list has none of the members is of another cluster,
    which is heard."""
    told = {
        it.process: (it.members, it.told)
        for it in running
        if "," in it.told and (base is None or it.base == base) and (base is not None or set(it.members) & set(members))
    }
    lists = sorted({text for _, text in told.values()})
    wanted = ",".join(map(str, members)) if members else lists[0] if lists else ""
    for process, (here, text) in sorted(told.items()):
        has_some = set(text.split(",")) & set(wanted.split(","))
        if has_some and text.rstrip(",") != wanted.rstrip(","):
            yield Cause(
                "another-list",
                f"Member {', '.join(map(str, here))} runs here (process {process}), told the members {text}, and they "
                f"are to be {wanted}: two majorities may have no member in common, and one node ID may be given twice",
                "end it, give it the CLUSTER of the others, and audit the stores before it runs again",
            )
