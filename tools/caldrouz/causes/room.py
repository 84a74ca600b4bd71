"""The causes of logs and node IDs that are used up, and of stores. Not proved."""
from __future__ import annotations

from dataclasses import dataclass
from typing import List, Optional

from .. import table, wire
from ..scene import Grown, Scene
from ..stores import MANY_BLANKS, NO_VERSION, Store
from .cluster import BEGIN_ANEW, members_of
from .common import LATELY, Cause, Found, Stores, age, ids, seconds, times
from .devices import MANY_ASKED, recent_askers

FEW_PLACES = 8
UNUSED = 5  # so many new pairs of nodes that are not there are none of a power-on
UNUSED_SOON, LONG_ENOUGH = 3, 20.0  # so many are a guess, where so many seconds were not heard yet
MANY_PAIRS = 30  # new pairs within a minute that are worth a word, even where their nodes are there
PLACES_AT_ONCE = 100  # beyond so many members that are told their list let newcomers in slowly
TO_BE_ASKED = 5.0  # seconds after which a node that is there was asked
TO_SHOW = 2.0  # seconds after which a device that was told its ID shows itself
EXPORT = f"export the pairs, drop those of devices that are gone, and {BEGIN_ANEW}"


@dataclass(frozen=True)
class Room:
    """How full the log is, and how many node IDs are left for devices. Where no store tells how many entries are
    blanks, there may be as many IDs more."""

    last: int
    commit: int
    for_devices: int
    free: int
    blanks_known: bool


def room(scene: Scene, stores: Stores) -> Optional[Room]:
    """What calls and stores tell; None where neither does."""
    members = members_of(scene, stores)
    calls = [call for (by, _), call in scene.calls.items() if by in members]
    longest = longest_of(stores)
    if not calls and longest is None:
        return None
    last = max([call.place for call in calls] + [len(store.entries) for _, store in stores])
    commit = max([call.commit for call in calls] + [store.commit for _, store in stores])
    for_devices = table.LAST - len(members)
    if longest is None:
        return Room(last, commit, for_devices, max(0, for_devices - last), False)
    given = {entry.node for entry in longest.entries if entry.node}
    free = len(set(range(1, table.LAST + 1)) - given - members)
    since = last - len(longest.entries)  # what came after the store was read
    return Room(last, commit, for_devices, max(0, free - since), since == 0)


def longest_of(stores: Stores) -> Optional[Store]:
    known = [store for _, store in stores]
    return max(known, key=lambda it: (it.commit, len(it.entries))) if known else None


def lost_stores(_: Scene, stores: Stores) -> Found:
    """A store that was written over with zeros, or whose first block was, reads as one that has nothing."""
    for name, store in stores:
        if not store.version:
            yield Cause(
                "lost-store",
                f"{name}: {NO_VERSION}",
                "replace it, as that of a machine; one that was just made by an older program is made anew",
                stops=False,
            )


def full(scene: Scene, stores: Stores) -> Found:
    """Logs and node IDs that are used up."""
    it, most = room(scene, stores), table.LOG_LIMIT
    if it is None:
        return
    if it.last >= most and it.commit >= most:
        yield Cause(
            "log-full",
            f"The log is full ({most} entries): devices that are in it are answered, and no other gets an ID",
            EXPORT,
        )
    elif it.last >= most:
        yield Cause(
            "log-full",
            f"The log is full ({most} entries), and {it.commit} of them are committed: no entry can be added that "
            "would let the rest be committed, so no new device is ever served",
            f"{BEGIN_ANEW}; tell the members their list, which does not use up places so",
        )
    if not it.free and it.blanks_known:
        yield Cause(
            "ids-full",
            f"No node ID is left: all {it.for_devices} that devices may have stand in the log",
            EXPORT,
        )
    elif not it.free and it.last < most:
        yield Cause(
            "ids-full",
            f"The log has {it.last} entries, and there are {it.for_devices} node IDs for devices: none is left, but as "
            "many as there are blanks among the entries",
            f"look into a store (--store), which tells the blanks. Where there are none: {EXPORT}",
            guess=True,
        )


def newcomers(scene: Scene, stores: Stores) -> Found:
    """Devices that ask, and nodes that show themselves, beyond the places that are free for everybody."""
    it, longest = room(scene, stores), longest_of(stores)
    if it is None or not PLACES_AT_ONCE <= it.last < table.LOG_LIMIT or not it.free:
        return
    known = {entry.unique_id for entry in longest.entries} if longest else set()
    devices = [
        asking for asking in recent_askers(scene)
        if not asking.told and not asking.answered and len(asking.firsts) > MANY_ASKED
        and not any(unique_id.startswith(asking.part) for unique_id in known)
    ]
    logged = {entry.node for entry in longest.entries} if longest else set(scene.nodes)
    nodes = [
        number for number, node in scene.nodes.items()
        if number not in logged | members_of(scene, stores) and scene.is_online(number) and not node.asked
        and node.came and age(scene, node.came[-1]) > TO_BE_ASKED
    ]
    if devices or nodes:
        who = f"a device whose unique ID begins with {devices[0].part}" if devices else f"node {ids(nodes[:1])}"
        yield Cause(
            "newcomers-wait",
            f"The log has {it.last} entries, and {who} waits: beyond {PLACES_AT_ONCE} places members that are told "
            "their list let one newcomer in each ten minutes",
            "unplug what babbles (`monitor` tells who came), and wait: where devices of the log are gone for good, "
            f"{EXPORT}",
            guess=longest is None,
        )


def warnings(scene: Scene, stores: Stores) -> Found:
    """What is not used up yet."""
    longest, it = longest_of(stores), room(scene, stores)
    if longest is not None and longest.blanks >= MANY_BLANKS:
        yield Cause(
            "many-blanks",
            f"{longest.blanks} of {len(longest.entries)} entries are blanks, each of a leader that began while an "
            "entry was not committed: the bus loses much, or members come and go",
            "look at the counts of the bridges and at the interfaces; a log has 127 places and gets none back",
            stops=False,
        )
    left = min(it.free, table.LOG_LIMIT - it.last) if it else 0
    if it and 0 < left <= FEW_PLACES:
        yield Cause(
            "log-nearly-full",
            f"The log has {it.last} of {table.LOG_LIMIT} entries, and {times(it.free, 'node ID')} "
            f"{'are' if it.free != 1 else 'is'} free{'' if it.blanks_known else ' at the least'}: "
            f"{times(left, 'device')} more can be served, or fewer",
            f"plan to {BEGIN_ANEW}",
            stops=False,
        )


def run_out(scene: Scene, stores: Stores) -> Found:
    """Node IDs that are being used up: many new pairs within a minute."""
    recent = [it for it in scene.grown if age(scene, it.moment) <= LATELY]
    reserved = [it for it in recent if it.entry.unique_id == wire.NO_UNIQUE_ID]
    answered = {number for number, node in scene.nodes.items() if node.told}  # (while the log took another pair)
    kept_back = [it for it in reserved if it.entry.node not in answered]
    unused = [it for it in recent if it not in reserved and _is_unused(scene, it)]
    wasted, is_short = len(kept_back) + len(unused), scene.heard_for < LONG_ENOUGH
    stops = wasted >= (UNUSED_SOON if is_short else UNUSED)
    if not stops and len(recent) < MANY_PAIRS:
        return
    parts: List[str] = [f"{len(kept_back)} are kept back, since nobody answered"] if kept_back else []
    parts += [f"{len(unused)} are of nodes that are not there"] if unused else []
    lasts = seconds(max(1.0, recent[-1].moment - recent[0].moment))
    pace = 60 * len(recent) / max(1.0, recent[-1].moment - recent[0].moment)
    it = room(scene, stores)
    left = f"; {times(it.free, 'ID')} {'are' if it.free != 1 else 'is'} left" if it else ""
    yield Cause(
        "ids-run-out",
        f"{len(recent)} new pairs came into the log within {lasts}, {pace:.0f} a minute"
        f"{': ' if parts else ''}{', '.join(parts)}{left}. Each ID is gone for good",
        "find the device that asks with one unique ID after the other, or shows itself under one node ID after the "
        "other, and unplug it (`monitor` names each). Where `assign` runs, all is well" if stops else
        "was so much switched on just now? Else find the device that shows itself under one node ID after the other",
        stops=stops,
        guess=stops and wasted < UNUSED,
    )


def _is_unused(scene: Scene, it: Grown) -> bool:
    return not scene.is_online(it.entry.node) and age(scene, it.moment) > TO_SHOW
