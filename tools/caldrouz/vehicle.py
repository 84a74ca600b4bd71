"""The settings of the units: which members a cluster has, and what of it runs on this machine. Not proved.

    it = vehicle.of_bus("can0")           # the Vehicle whose settings the units of this bus read, or None
    it = vehicle.read([path])             # OSError where a file cannot be read
    it.members, it.size, it.here, it.base, it.folders
    vehicle.faults(it)                    # what is wrong in them, in words
    vehicle.between_machines([it, other]) # what is wrong between those of several machines; between_buses: of one
    vehicle.between_units(["caldrouz-bridge@can0", ..]) # which units start with the machine, and cannot run together

The units read /etc/default/caldrouz, and then, where it is there, /etc/caldrouz/NAME.conf, whose settings hold: NAME is
the interface of a bridge, or the node ID of a member, whose file may be a link to that of its interface.
"""
from __future__ import annotations

import glob
import os
import re
from dataclasses import dataclass, field
from typing import Dict, Iterator, List, Optional, Sequence, Tuple

from . import buses, machine, table

SETTINGS = "/etc/default/caldrouz"
FOLDER = "/etc/caldrouz"
STATE = "/var/lib/caldrouz"
NAMES = "CLUSTER", "BASE", "MEMBERS", "BITRATE", "ADAPTER"
HIGHEST_MEMBER = 117  # a node ID above it has the port of a tool or of the bridge
RATES = range(10_000, 1_000_001)  # bits a second of classic CAN
PORTS = 126  # ports from a base on that one cluster uses


@dataclass(frozen=True)
class Vehicle:
    """The settings of a cluster on one machine: the files that they are of, and each by its name."""

    source: str
    told: Dict[str, str] = field(default_factory=dict)

    @property
    def cluster(self) -> str:
        return self.told.get("CLUSTER", "")

    @property
    def members(self) -> List[int]:
        """All members, where a list is told."""
        return numbers(self.cluster) if "," in self.cluster else []

    @property
    def size(self) -> Optional[int]:
        """How many members there are."""
        told = numbers(self.cluster)
        return len(told) if "," in self.cluster else told[0] if told else None

    @property
    def here(self) -> List[int]:
        """The members of this machine."""
        return numbers(self.told.get("MEMBERS", ""))

    @property
    def base(self) -> Optional[int]:
        base = self.told.get("BASE", "")
        return int(base) if buses.is_base(base) else None

    @property
    def folders(self) -> List[str]:
        """The folders of the stores of this machine."""
        return [os.path.join(STATE, str(member)) for member in self.here]


def numbers(text: str) -> List[int]:
    return [int(word) for word in re.findall(r"[0-9]{1,3}", text)]


def read(paths: Sequence[str]) -> Vehicle:
    """The settings of files, of which a later one holds."""
    told: Dict[str, str] = {}
    for path in paths:
        told.update(machine.settings(path))
    return Vehicle(paths[-1], told)


def files(settings: str = SETTINGS, folder: str = FOLDER) -> Iterator[List[str]]:
    """The files of each bus of this machine; those of members that are links to one of these are passed over."""
    common = [settings] if os.path.exists(settings) else []
    own = [path for path in sorted(glob.glob(os.path.join(folder, "*.conf"))) if not os.path.islink(path)]
    yield from ([*common, path] for path in own)
    if common:
        yield common


def of_bus(word: str, settings: str = SETTINGS, folder: str = FOLDER) -> Optional[Vehicle]:
    """The settings of a bus, by the name of its interface or by a base port. None where none can be read, or none is of
    this base."""
    try:
        if not buses.is_base(word):
            own = os.path.join(folder, f"{os.path.basename(word)}.conf")
            named = [path for path in (settings, own) if os.path.exists(path)]
            return read(named) if named else None
        found = [it for it in map(read, files(settings, folder)) if it.base == int(word)]
    except OSError:
        return None
    return found[0] if found else None


# --- what is wrong


def faults(it: Vehicle) -> List[str]:
    """What is wrong in the settings of one machine, in words."""
    return [*_names(it), *_cluster(it), *_base(it), *_members(it), *_bit_rate(it)]


def _names(it: Vehicle) -> Iterator[str]:
    yield from (f"{name} is not set" for name in NAMES[:3] if name not in it.told)
    yield from (f"{name} is none of the settings: {', '.join(NAMES)}" for name in it.told if name not in NAMES)


def _cluster(it: Vehicle) -> Iterator[str]:
    text, told = it.cluster, numbers(it.cluster)
    if not text:
        return
    if re.search(r"\s", text):
        yield f"no spaces in CLUSTER: '{text}' is to be {','.join(map(str, told)) or '1,2,3'}"
    elif not re.fullmatch(r"\d+,|\d+(,\d+)+", text) and not text.isdigit():
        yield f"CLUSTER is a list of node IDs with commas between them, as 1,2,3, and not '{text}'"
    elif text.isdigit():
        yield f"CLUSTER={text} says how many members there are, which is for trials: a vehicle has their list, as 1,2,3"
        return
    if len(told) > table.MOST_MEMBERS:
        yield f"CLUSTER names {len(told)} members, and a cluster has {table.MOST_MEMBERS} at most"
    yield from (f"CLUSTER names {one} twice" for one in sorted(set(told)) if told.count(one) > 1)
    wrong = [one for one in told if not 1 <= one <= HIGHEST_MEMBER]
    yield from (f"CLUSTER names {one}: the node ID of a member is 1 to {HIGHEST_MEMBER}" for one in wrong)


def _base(it: Vehicle) -> Iterator[str]:
    base = it.told.get("BASE", "")
    if base and not buses.is_base(base):
        yield f"BASE is a port, {buses.LEAST_BASE} to {buses.GREATEST_BASE}, and not '{base}'"


def _members(it: Vehicle) -> Iterator[str]:
    text = it.told.get("MEMBERS", "")
    if "MEMBERS" in it.told and not re.fullmatch(r"\s*\d+(\s+\d+)*\s*", text):
        yield f"MEMBERS are node IDs with spaces between them, as \"1 2\", and not '{text}'"
    yield from (f"MEMBERS names {one} twice" for one in sorted(set(it.here)) if it.here.count(one) > 1)
    strange = [one for one in it.here if it.members and one not in it.members]
    yield from (f"MEMBERS names {one}, which is none of CLUSTER={it.cluster}" for one in strange)


def _bit_rate(it: Vehicle) -> Iterator[str]:
    rate = it.told.get("BITRATE")
    if rate is not None and not (rate.isdigit() and int(rate) in RATES):
        yield f"BITRATE is a number of bits a second, as 1000000, and not '{rate}'"


def between_buses(of: Sequence[Vehicle]) -> List[str]:
    """What is wrong between the settings of several buses of one machine."""
    return [text for one, other in _pairs(of) for text in _of_one_machine(one, other)]


def _pairs(of: Sequence[Vehicle]) -> Iterator[Tuple[Vehicle, Vehicle]]:
    return ((one, other) for at, one in enumerate(of) for other in of[at + 1 :])


def _of_one_machine(one: Vehicle, other: Vehicle) -> Iterator[str]:
    names = f"{one.source} and {other.source}"
    if one.base is not None and other.base is not None and abs(one.base - other.base) < PORTS:
        yield f"{names}: BASE {one.base} and {other.base} share ports: they are to be {PORTS} apart"
    for member in sorted(set(one.here) & set(other.here)):
        yield f"{names}: MEMBERS of both name {member}, which has one unit and one store on a machine"


def between_units(enabled: Sequence[str]) -> List[str]:
    """Which of these units run a member twice, or a bridge beside members of an interface: one ends the other."""
    ways: Dict[str, List[str]] = {}
    for unit in sorted(enabled):
        kind, _, instance = unit.partition("@")
        if kind in ("caldrouz-node", "caldrouz-can-node", "caldrouz-serial"):
            ways.setdefault(instance, []).append(unit)
    found = [f"{' and '.join(units)} are enabled together: they run one member" for units in ways.values() if units[1:]]
    members = [unit for unit in enabled if unit.startswith("caldrouz-can-node@")]
    if members and "caldrouz-bridge@can0" in enabled:
        found.append(
            f"caldrouz-bridge@can0 and {min(members)} are enabled together: members of an interface run without a "
            "bridge, so disable that and its members (OPERATING.md, \"Other adapters\")"
        )
    return found


def between_machines(of: Sequence[Vehicle]) -> List[str]:
    """What is wrong between the settings of one cluster on several machines."""
    found = [
        f"{one.source} and {other.source}: {name} is {one.told[name]} and {other.told[name]}, and is to be one"
        for one, other in _pairs(of)
        for name in ("CLUSTER", "BASE", "BITRATE")
        if name in one.told and name in other.told and one.told[name] != other.told[name]
    ]
    for one, other in _pairs(of):
        for member in sorted(set(one.here) & set(other.here)):
            found.append(f"{one.source} and {other.source}: MEMBERS of both name {member}: it is to run on one machine")
    here = {member for it in of for member in it.here}
    nowhere = sorted({member for it in of for member in it.members} - here)
    return found + [f"member {member} is in CLUSTER, and no MEMBERS name it" for member in nowhere]
