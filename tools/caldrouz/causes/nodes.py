"""The causes of nodes that have node IDs: silent ones, doubles, and wrong addresses. Not proved."""
from __future__ import annotations

from typing import Dict, List, Set, Tuple

from .. import table, wire
from ..scene import Node, Scene
from .common import LATELY, RECENT, Cause, Found, Stores, age, ids, seconds

MANY_UNKNOWN = 4  # node IDs within a minute that answer no query: of one node, rather than of so many


def unidentified(scene: Scene, _: Stores) -> Found:
    """A node that is there and tells no unique ID keeps everybody from an ID."""
    unknown = _unknown(scene)
    if len(unknown) >= MANY_UNKNOWN:
        yield Cause(
            "unidentified-node",
            f"{len(unknown)} node IDs were heard within {seconds(min(LATELY, scene.heard_for))} that answered no query "
            f"for their unique ID ({ids(unknown)}): while such a node is there, no new device is served",
            "find the node, and unplug it: one that shows itself under one node ID after the other is set aside only "
            "when each ID was asked five times",
        )
        return
    for number, node in sorted(unknown.items()):
        comes = _comes(scene, node)
        if not (node.here or len(comes) > 1) or age(scene, node.asked_last) > RECENT:
            continue
        since = f"for {seconds(age(scene, node.came[0]))}" if node.came else "now"
        within = seconds(min(LATELY, scene.heard_for))
        often = f", and came {len(comes)} times in {within}" if len(comes) > 1 else ""
        queries = "query" if node.asked == 1 else "queries"
        yield Cause(
            "unidentified-node",
            f"Node {number} was heard {since}{often}, and answered none of {node.asked} {queries} for its unique ID: "
            "while such a node is there, no new device is served",
            f"find node {number}, and mend or unplug it. One that stays for {table.QUERY_LIMIT + 1} s is set aside; "
            "one that comes and goes is not, by members that were told a number alone",
        )


def _comes(scene: Scene, node: Node) -> List[float]:
    return [moment for moment in node.came if age(scene, moment) <= LATELY]


def _unknown(scene: Scene) -> Dict[int, Node]:
    """The nodes that were asked within a minute, and told nothing."""
    members, kept = scene.members(), {entry.node for entry in scene.log.values()}
    return {
        number: node
        for number, node in scene.nodes.items()
        if number not in members
        and number not in kept
        and node.asked
        and age(scene, node.asked_last) <= LATELY
        and (node.asked > 1 or age(scene, node.asked_last) >= 2 * table.QUERY_INTERVAL / 1000)
    }


def doubles(scene: Scene, _: Stores) -> Found:
    """Two devices with one node ID, or with one unique ID."""
    mute = {number for number, node in scene.nodes.items() if node.asked and not node.told}
    for number, node in sorted(scene.nodes.items()):
        if number in mute and len(mute) >= MANY_UNKNOWN:
            continue  # (one node has all of these IDs)
        recent = [it for it in node.told if it.unique_id != wire.NO_UNIQUE_ID]
        if node.doubled is not None:
            yield Cause(
                "one-id-twice",
                f"Two nodes use node ID {number}: the uptimes and transfer IDs of its NodeStatus are those of two",
                f"unplug one of the devices with node ID {number}. Do they have one unique ID (clones), or has one a "
                "fixed address?" + (" Is one member started twice?" if number in scene.members() else ""),
            )
        elif len(recent) > 1:
            told = " and ".join(it.unique_id for it in recent[-2:])
            yield Cause(
                "one-id-twice",
                f"Node {number} told two unique IDs, {told}: two devices use this node ID, or one took the place of "
                "another",
                f"unplug one of the devices with node ID {number}",
            )
    owners: Dict[str, Set[int]] = {}
    for number, node in scene.nodes.items():
        for it in node.told:
            if it.unique_id != wire.NO_UNIQUE_ID:
                owners.setdefault(it.unique_id, set()).add(number)
    for unique_id, numbers in sorted(owners.items()):
        if len(numbers) > 1:
            yield Cause(
                "one-unique-id",
                f"Nodes {ids(numbers)} tell one unique ID, {unique_id}: to the allocators they are one device, and "
                "have one node ID",
                "give the clones unique IDs of their own (their maker's tools), or one of them a fixed address",
            )


def addresses(scene: Scene, stores: Stores) -> Found:
    """A device with a fixed address that the log gives to another one."""
    pairs: Dict[int, Tuple[str, str]] = {}
    for place, entry in scene.log.items():
        if entry.node and entry.unique_id != wire.NO_UNIQUE_ID:
            pairs[entry.node] = entry.unique_id, f"place {place} of the log"
    for answer in scene.answers:
        if answer.node:
            pairs[answer.node] = answer.part, f"what node {answer.by} told"
    for name, store in stores:
        for place, stored in enumerate(store.committed, 1):
            if stored.node and stored.unique_id != wire.NO_UNIQUE_ID:
                pairs.setdefault(stored.node, (stored.unique_id, f"place {place} of {name}"))
    for number, node in sorted(scene.nodes.items()):
        identity = node.identity
        if identity is None or number not in pairs or pairs[number][0] == identity.unique_id:
            continue
        unique_id, where = pairs[number]
        yield Cause(
            "wrong-address",
            f"Node {number} tells the unique ID {identity.unique_id}, and by {where} this node ID belongs to "
            f"{unique_id}: both will use it when both are there",
            f"give the device {identity.unique_id} another fixed address, or none",
        )
