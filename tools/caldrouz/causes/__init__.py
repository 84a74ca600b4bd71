"""Why devices get no node ID: the causes that can be seen in what was heard and in stores. Not proved.

    found = causes.find(scene, stores)    # the causes, facts that stop everybody first; none where all is well
    found[0].name, .text, .remedy         # "missing-members", what is so, and what to do
    found[0].stops, .guess                # whether it stops devices, or is a warning; whether it is a guess
    causes.notes(scene)                   # what is so otherwise

docs/TROUBLE.md has a row for each name.
"""
from __future__ import annotations

from typing import Iterator, List, Mapping, Optional, Sequence

from ..machine import End
from ..scene import Scene
from . import cluster, devices, nodes, room
from .interface import interface, lists_here
from .common import LATELY as COMES_OFTEN
from .common import Cause, NamedStore, ids

__all__ = ["COMES_OFTEN", "Cause", "NamedStore", "find", "interface", "lists_here", "notes"]

# What is certain, what stops everybody first.
FACTS = (
    room.lost_stores, cluster.terms, cluster.twice, cluster.lists, cluster.second_server, devices.with_a_source,
    room.full, room.run_out, room.newcomers, cluster.lossy, cluster.majority, cluster.refused, nodes.unidentified,
    nodes.doubles, nodes.addresses, devices.wrong_requests, devices.of_cyphal, devices.zeros, devices.stuck,
    devices.unheard, devices.unseen, room.warnings,
)
# What follows from another cause, and is not said beside it.
FOLLOWS = {
    "frames-twice": {"one-id-twice", "lossy-bus", "another-log", "never-goes-on", "deaf-member"},
    "ids-run-out": {"unheard-answer"},
    "lossy-bus": {"strange-member", "no-leader", "not-committed", "deaf-member"},
}
BESIDE_CROSSED = {"never-goes-on", "unheard-answer", "one-id-twice", "one-unique-id", "wrong-address"}


def find(
    scene: Scene,
    stores: Sequence[NamedStore] = (),
    ends: Optional[Mapping[int, End]] = None,
    here: Sequence[Cause] = (),
) -> List[Cause]:
    """The causes that can be seen: facts that stop everybody, guesses, and warnings. `ends` says how
    members of this machine ended; `here` are causes that the machine tells of itself."""
    known = [*here, *cluster.ended(scene, ends or {})]
    if not scene.frames:
        return [*known, cluster.silence()]
    found = [*known, *(cause for maker in FACTS for cause in maker(scene, stores))]
    names = {cause.name for cause in found if cause.stops}
    follows = {name for cause in names for name in FOLLOWS.get(cause, ())}
    found = [cause for cause in found if cause.name not in follows]
    told = {cause.name for cause in here}  # (what the machine knows need not be said again as it is heard)
    found = [cause for cause in found if cause.name not in told or cause in here]
    if names <= BESIDE_CROSSED:
        found += devices.crossed(scene)
    found += devices.two_unique_ids(scene)
    if not any(cause.stops for cause in found):
        found += devices.unanswered(scene)
    return sorted(found, key=lambda it: (not it.stops, it.guess))


def notes(scene: Scene) -> Iterator[str]:
    """What is so, in sentences, whether or not there is a cause."""
    size, members, lead = scene.size(), scene.members(), scene.leader()
    if scene.unheard:
        away = ids(filter(lambda node: not scene.is_online(node), members - scene.unheard))
        elsewhere = ids(scene.unheard)
        yield f"Members {elsewhere} run on other machines, and are not heard at a base port: listen at the bus."
        if away != "nobody":
            yield f"Of this machine {away} is not heard."
    if members:
        there = set(filter(scene.is_online, members))
        if size == 1 and there:
            yield f"Member {ids(there)} is there, and is alone in its cluster."
        else:
            of = "" if not size else f", all {size}" if len(there) == size else f" (of {size})"
            yield f"Members that are there: {ids(there)}{of}."
    if lead:
        yield f"Member {lead.node} leads in term {lead.term}."
    elif scene.frames and size != 1:
        yield "Nobody leads."
    silent = members - set(scene.callers) - set(scene.listings)
    if lead and silent and size != 1:
        yield f"What list a follower was told is not heard: {ids(silent)} (check_settings compares the settings)."
    clusters = {node for group in cluster.other_clusters(scene, members) for node in group}
    others = [node for node in scene.online() if node not in members | clusters]
    if others:
        yield f"Other nodes that are there: {ids(others)}."
    told = {answer.part: answer for answer in scene.answers if answer.node}
    for unique_id, answer in told.items():
        yield f"Node {answer.by} told node ID {answer.node} to {unique_id}."
    if scene.frames and not scene.requests and not scene.malformed:
        yield "No device asked for an ID: it has one, or it is not on this bus, or it is set to a fixed address."
