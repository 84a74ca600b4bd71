"""How a cluster is, for people, programs and alarms: one reading of what was heard and of stores. Not proved.

    it = health.of(scene, stores, ends)   # a Health: .status, .causes, .leader, .term, .entries, ..
    health.as_object(it)                  # for JSON
    health.metrics("can0", it, moment)    # for the textfile collector of node_exporter
    health.metrics_of_interface("can0", machine.interface("can0"))
    health.write(path, text)              # so that a reader sees the whole of it or what was there before
"""
from __future__ import annotations

import os
from dataclasses import dataclass
from typing import Dict, Iterable, Iterator, List, Mapping, Optional, Sequence, Tuple, Union

from . import causes, machine, table
from .causes import room
from .causes.common import LATELY, Stores
from .scene import Scene

WELL, WARNING, BAD = "well", "warning", "bad"  # no redundancy left, nearly full and the like are warnings


@dataclass(frozen=True)
class Health:
    """What is so; None where nothing tells. Elections and new pairs are those of the last minute."""

    status: str
    causes: List[causes.Cause]
    members: List[int]
    there: List[int]
    size: Optional[int]
    leader: Optional[int]
    term: Optional[int]
    entries: Optional[int]
    committed: Optional[int]
    places_left: Optional[int]
    ids_left: Optional[int]
    blanks: Optional[int]
    elections: int
    pairs: int
    frames: int


def status_of(found: Iterable[causes.Cause]) -> str:
    stops = [cause.stops for cause in found]
    return BAD if any(stops) else WARNING if stops else WELL


def of(
    scene: Scene,
    stores: Stores = (),
    ends: Optional[Mapping[int, machine.End]] = None,
    here: Sequence[causes.Cause] = (),
) -> Health:
    found, members, lead = causes.find(scene, stores, ends, here), scene.members(), scene.leader()
    full, longest = room.room(scene, stores), room.longest_of(stores)
    since = scene.now - LATELY
    return Health(
        status=status_of(found),
        causes=found,
        members=sorted(members),
        there=sorted(filter(scene.is_online, members)),
        size=scene.size(),
        leader=lead.node if lead else None,
        term=lead.term if lead else None,
        entries=full.last if full else None,
        committed=full.commit if full else None,
        places_left=table.LOG_LIMIT - full.last if full else None,
        ids_left=full.free if full else None,
        blanks=longest.blanks if longest else None,
        elections=len({stood.term for moment, stood in scene.elections if moment >= since}),
        pairs=sum(it.moment >= since for it in scene.grown),
        frames=scene.frames,
    )


def as_object(it: Health) -> Dict[str, object]:
    """What a program reads: `kind` of a cause is fact, guess or warning."""
    told: Dict[str, object] = {name: getattr(it, name) for name in it.__dataclass_fields__ if name != "causes"}
    told["causes"] = [
        {"name": cause.name, "kind": kind_of(cause), "text": cause.text, "remedy": cause.remedy} for cause in it.causes
    ]
    return told


def kind_of(cause: causes.Cause) -> str:
    return "warning" if not cause.stops else "guess" if cause.guess else "fact"


# --- metrics

Labels = Dict[str, str]
Sample = Tuple[Labels, Union[int, float]]


def metrics(bus: str, it: Health, moment: float) -> str:
    """The metrics of a bus. What is not known is left out."""
    lines: List[str] = []
    for name, what, value in (
        ("status", "0 well, 1 a warning, 2 devices get no node ID", (WELL, WARNING, BAD).index(it.status)),
        ("members", "Members of the cluster", it.size),
        ("members_heard", "Members that were heard within 3 s", len(it.there)),
        ("leader", "Node ID of the member that leads, 0 for none", it.leader or 0),
        ("term", "Term of the leader", it.term),
        ("log_entries", "Entries of the log", it.entries),
        ("log_committed", "Entries of the log that most members have", it.committed),
        ("log_places_left", "Places of the log that are left", it.places_left),
        ("node_ids_left", "Node IDs that are left for devices, at the least", it.ids_left),
        ("log_blanks", "Entries that are blanks", it.blanks),
        ("elections_last_minute", "Elections within the last minute", it.elections),
        ("new_pairs_last_minute", "Pairs that came into the log within the last minute", it.pairs),
        ("frames_heard", "Frames that were heard since the start", it.frames),
        ("written_seconds", "When this was written, in seconds since 1970", round(moment, 1)),
    ):
        if value is not None:
            lines += metric(name, what, [({"bus": bus}, value)])
    heard: List[Sample] = [({"bus": bus, "member": str(node)}, int(node in it.there)) for node in it.members]
    named = {cause.name: kind_of(cause) for cause in it.causes}
    causes_now: List[Sample] = [({"bus": bus, "cause": name, "kind": kind}, 1) for name, kind in sorted(named.items())]
    lines += metric("member_heard", "Whether a member was heard within 3 s", heard)
    lines += metric("cause", "A cause that why names", causes_now)
    return "".join(line + "\n" for line in lines)


STATES = "ERROR-ACTIVE", "ERROR-WARNING", "ERROR-PASSIVE", "BUS-OFF", "STOPPED", "SLEEPING"


def metrics_of_interface(name: str, it: Optional[machine.Interface]) -> str:
    """The metrics of a CAN interface. What `ip` does not tell is left out."""
    lines: List[str] = []
    if it is None:
        return ""
    state = STATES.index(it.state) if it.state in STATES else None
    for key, what, value, kind in (
        ("up", "Whether the interface is up", int(it.up), "gauge"),
        ("state", f"The state of its controller, by its place in {', '.join(STATES)}", state, "gauge"),
        ("error_counter", "The greater of its controller's error counters", it.errors, "gauge"),
        ("queue_frames", "How many frames it may keep that nobody acknowledges", it.queue, "gauge"),
        ("bus_off_total", "How often its controller left the bus", it.bus_off, "counter"),
        ("restarts_total", "How often it was brought back to the bus", it.restarts, "counter"),
        ("error_passive_total", "How often it became ERROR-PASSIVE", it.passive, "counter"),
        ("dropped_total", "Frames to be sent that it dropped", it.dropped, "counter"),
    ):
        if value is not None:
            lines += metric(f"interface_{key}", what, [({"bus": name}, value)], kind)
    return "".join(line + "\n" for line in lines)


def metric(name: str, what: str, samples: Iterable[Sample], kind: str = "gauge") -> Iterator[str]:
    """The lines of one metric; none where it has no sample."""
    for at, (labels, value) in enumerate(samples):
        if at == 0:
            yield f"# HELP caldrouz_{name} {what}."
            yield f"# TYPE caldrouz_{name} {kind}"
        told = ",".join(f'{key}="{_escaped(label)}"' for key, label in labels.items())
        yield f"caldrouz_{name}{{{told}}} {value}"


def _escaped(label: str) -> str:
    return label.replace("\\", "\\\\").replace('"', '\\"').replace("\n", "\\n")


def write(path: str, text: str) -> None:
    """Puts a text in the place of a file; node_exporter reads those that end in .prom. OSError where it cannot."""
    begun = f"{path}.{os.getpid()}"
    try:
        with open(begun, "w", encoding="utf-8") as file:
            file.write(text)
            os.fchmod(file.fileno(), 0o644)  # the umask of the units closes it to node_exporter
        os.replace(begun, path)
    except OSError:
        if os.path.exists(begun):
            os.remove(begun)
        raise
