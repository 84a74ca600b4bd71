"""The causes of devices that ask: requests that nobody takes, and exchanges that come to no end. Not proved."""
from __future__ import annotations

from typing import Dict, List, NamedTuple, Optional, Sequence, Tuple

from .. import table
from ..scene import Answer, Malformed, Request, Scene
from .common import LATELY, RECENT, Cause, Found, Stores, age, ids, times

MANY_ASKED = 3  # requests that are told
MANY_HURRIED = 12  # first requests, of which the standard lets a device send two in a second at the most
FIRST_BYTES = 12  # of a unique ID, in hexadecimal digits: those of the first request
TO_BEGIN = 1.0  # seconds from the first answer, after which a node that is switched on had started again
AT_ONCE = 0.5  # seconds behind an answer within which a device goes on
SHOWS_BY = 5.0  # seconds after its answer by which a device shows itself
LEAST_PERIOD = 0.6  # seconds that a device waits at the least before it asks anew
SOON = 15.0  # seconds within which one device starts again as another


def with_a_source(scene: Scene, _: Stores) -> Found:
    """Requests with a source, by which members that are told their list end."""
    return _wrong(scene, True)


def wrong_requests(scene: Scene, _: Stores) -> Found:
    """Other requests that no allocator takes."""
    yield from _wrong(scene, False)
    yield from _flagged_again(scene)
    lone = _without_a_first(scene)
    if lone:
        yield Cause(
            "wrong-request",
            f"A device sent {lone[-1].part} {times(len(lone), 'time')} without the flag of the first part, and nobody "
            "had answered it before: no allocator takes that",
            "mend the device's firmware: its first request has the flag first_part_of_unique_id",
        )


def _wrong(scene: Scene, has_source: bool) -> Found:
    kinds: Dict[Tuple[int, str], List[Malformed]] = {}
    for it in scene.malformed:
        if age(scene, it.moment) <= 2 * RECENT and bool(it.source) == has_source:
            kinds.setdefault((it.source, it.wrong), []).append(it)
    ends = ". Members that are told their list end with 18 where they hear it: start them after that"
    for (source, wrong), requests in sorted(kinds.items()):
        if len(requests) >= MANY_ASKED:
            who = f"Node {source} asks for a node ID, and its request" if source else "A request of a device"
            yield Cause(
                "wrong-request",
                f"{who} {wrong} ({times(len(requests), 'time')}, bytes {requests[-1].part}): no allocator takes it",
                "mend the device's firmware: it asks without a source node ID, in single frames, with 6, 6 and 4 bytes "
                f"(PROTOCOL.md){ends if source else ''}",
            )


def flagged_again(scene: Scene) -> Dict[str, str]:
    """First parts of unique IDs, and the second parts that a device told with the flag of the first: whoever sent these
    did so whenever that first part was answered, and at no other time."""
    found: Dict[str, str] = {}
    asked = [it for it in recent_askers(scene) if not it.told and len(it.firsts) > MANY_ASKED and not _hurries(it)]
    for one in asked:
        begun = [it.moment for it in scene.answers if it.part == one.part]
        for other in asked:
            behind = [any(0 <= moment - then <= AT_ONCE for then in begun) for moment in other.firsts]
            if other is not one and behind.count(False) <= 1:  # (the first may be behind one that was not heard)
                found[one.part] = other.part
    return {one: other for one, other in found.items() if other not in found}


def _flagged_again(scene: Scene) -> Found:
    for one, other in flagged_again(scene).items():
        yield Cause(
            "wrong-request",
            f"A device whose unique ID begins with {one} tells the next bytes, {other}, with the flag of the first "
            "part: so they begin the exchange of another device",
            "mend the device's firmware: its first request alone has the flag first_part_of_unique_id",
            guess=True,
        )


def _without_a_first(scene: Scene) -> List[Request]:
    """Requests of a later stage, where no device is in the middle of an exchange."""
    recent = [it for it in scene.requests if age(scene, it.moment) <= 2 * RECENT]
    if any(it.stage == 0 for it in recent):
        return []
    lone = [it for it in recent if it.stage == 1]
    return lone if len(lone) >= MANY_ASKED else []


def of_cyphal(scene: Scene, _: Stores) -> Found:
    """Frames of the protocol that came after this one."""
    recent = {
        source: count for source, moments in scene.others.items()
        if (count := sum(age(scene, it) <= 2 * RECENT for it in moments)) >= MANY_ASKED
    }
    nodes = [source for source in recent if source]
    if 0 in recent:
        yield Cause(
            "other-protocol",
            f"A device asks for a node ID by Cyphal (UAVCAN v1), {times(recent[0], 'time')}: allocators of UAVCAN v0 "
            "do not understand it",
            "set the device to UAVCAN v0 (DroneCAN), or give it a fixed address; else it needs an allocator of Cyphal",
        )
    elif nodes:
        yield Cause(
            "other-protocol",
            f"Frames of Cyphal (UAVCAN v1) come from {ids(nodes)}: members do not see such a node, and may give its "
            "node ID to a device",
            "set it to UAVCAN v0 (DroneCAN), or keep the two protocols on two buses",
            stops=False,
        )


def zeros(scene: Scene, _: Stores) -> Found:
    """A unique ID of zeros is given nothing."""
    asked = [it for it in scene.requests if age(scene, it.moment) <= 2 * RECENT and _is_zero(it.part)]
    if any(it.stage == 0 for it in asked) and len(asked) >= MANY_ASKED and not _told_zeros(scene):
        yield Cause(
            "zero-unique-id",
            f"A device asks with a unique ID that begins with zeros ({times(len(asked), 'request')}): one of zeros "
            "alone is given nothing, since it stands for no device",
            "give the device a unique ID of its own (its maker's tools), or a fixed address",
        )


def _is_zero(part: str) -> bool:
    return bool(part) and not part.strip("0")


def _told_zeros(scene: Scene) -> bool:
    """Whether a device whose unique ID begins with zeros was told an ID."""
    return any(it.node and _is_zero(it.part[:FIRST_BYTES]) for it in scene.answers)


class Asking(NamedTuple):
    """A device as far as its requests tell: the first bytes of its unique ID, and what came of it."""

    part: str
    firsts: List[float]  # the moments of its requests of the first stage
    answered: int  # how many bytes an answer had at the most
    went_on: bool  # it sent a second stage in time
    late: Optional[float]  # seconds after the answer at which its second stage came, where that was too late
    told: List[Answer]  # those with a node ID


def askers(scene: Scene) -> List[Asking]:
    since = scene.now - 2 * RECENT
    requests = [it for it in scene.requests if it.moment >= since]
    answers = [it for it in scene.answers if it.moment >= since]
    parts = dict.fromkeys(it.part for it in requests if it.stage == 0)
    return [_asker(part, requests, answers, len(parts) == 1) for part in parts if not _is_zero(part)]


def _asker(part: str, requests: Sequence[Request], answers: Sequence[Answer], is_alone: bool) -> Asking:
    firsts = [it.moment for it in requests if it.stage == 0 and it.part == part]
    mine = [it for it in answers if it.part.startswith(part)]
    longer = [it.part for it in mine if len(it.part) >= 2 * FIRST_BYTES]
    begun = [it.moment for it in mine if len(it.part) == FIRST_BYTES]
    seconds = [it.moment for it in requests if it.stage == 1]
    in_time = table.STAGE_TIMEOUT / 1000
    waits = [second - max(moment for moment in begun if moment <= second) for second in seconds if begun
             and begun[0] <= second]
    went_on = bool(longer) or any(wait <= in_time for wait in waits)
    late = min(waits) if waits and not went_on and is_alone else None
    answered = max((len(it.part) // 2 for it in mine), default=0)
    return Asking(part, firsts, answered, went_on, late, [it for it in mine if it.node])


def recent_askers(scene: Scene) -> List[Asking]:
    return [it for it in askers(scene) if age(scene, it.firsts[-1]) <= RECENT]


def _is_stuck(it: Asking) -> bool:
    return not it.told and len(it.firsts) > MANY_ASKED and it.answered >= 6 and not it.went_on


def _ends_early(scene: Scene, it: Asking) -> bool:
    """Whether it was answered as to two of its requests, and no device sent a third one."""
    since = scene.now - 2 * RECENT
    later = any(one.stage == 2 and one.moment >= since for one in scene.requests)
    return (
        not it.told and it.answered == 12 and len(it.firsts) > MANY_ASKED and not later
        and not any(one.moment >= since for one in scene.malformed)
    )


def unheard(scene: Scene, _: Stores) -> Found:
    for it in recent_askers(scene):
        if not it.told or _starts_as_two(scene):
            continue
        anew = [moment for moment in it.firsts if moment > it.told[0].moment]
        last, often, began_anew = it.told[-1], times(len(it.told), "time"), _began_anew(scene, it)
        was_told_again = last.moment > it.told[0].moment + TO_BEGIN
        if len(anew) > 2 or anew and was_told_again and began_anew:
            if began_anew:
                yield Cause(
                    "starts-again",
                    f"The device {last.part} was told {often} that it has node ID {last.node}, a node "
                    "with this ID came after that and began anew, and it asks on: it starts again and again",
                    "look at the device: its power supply, its watchdog, its firmware. Its ID stays the same",
                )
                continue
            yield Cause(
                "unheard-answer",
                f"The device {last.part} was told {often} that it has node ID {last.node}, and asks on: "
                "it does not hear the answer, or does not take it",
                "look at the device: it has to receive frames of other nodes (its acceptance filters, its bit timing, "
                "its end of the bus), and to take an Allocation that it did not ask for by itself",
            )


def unseen(scene: Scene, _: Stores) -> Found:
    """Devices that were told their ID, and neither show themselves under it nor ask on."""
    gone: List[Answer] = []
    for part, answer in {it.part: it for it in scene.answers if it.node}.items():
        node = scene.nodes.get(answer.node)
        is_seen = node is not None and node.uptime is not None and node.last > answer.moment
        firsts = (it for it in scene.requests if it.stage == 0 and part.startswith(it.part))
        asks_on = any(it.moment > answer.moment + AT_ONCE for it in firsts)
        if is_seen or asks_on or not SHOWS_BY <= age(scene, answer.moment) <= LATELY:
            continue
        others = [number for number in scene.online() if any(it.unique_id == part for it in scene.nodes[number].told)]
        if others:
            yield Cause(
                "wrong-address",
                f"The device {part} was told node ID {answer.node}, and it is node {others[0]}: it does not use the ID "
                "that it was given, and its own is kept back",
                "give it the fixed address that it was told, or have it use what it is told",
                stops=False,
            )
        else:
            gone.append(answer)
    if gone:
        last = gone[-1]
        more = f" (and so {times(len(gone) - 1, 'device')} more)" if len(gone) > 1 else ""
        yield Cause(
            "unheard-answer",
            f"The device {last.part}{more} was told node ID {last.node} {age(scene, last.moment):.0f} s ago, and no "
            f"node {last.node} shows itself since: it did not hear the answer, is off, or has another ID",
            "look at the device. Where it was switched off, or `assign` asked for it, all is well",
            stops=False,
            guess=True,
        )


def _began_anew(scene: Scene, it: Asking) -> bool:
    """Whether the node with the ID that the device was told shows itself since, and was switched on since."""
    node = scene.nodes.get(it.told[-1].node)
    return node is not None and node.uptime is not None and node.last - node.uptime > it.told[0].moment + TO_BEGIN


def _hurries(it: Asking) -> bool:
    """Whether it begins anew far more often than the standard lets a device."""
    lasts = it.firsts[-1] - it.firsts[0]
    return not it.told and len(it.firsts) >= MANY_HURRIED and lasts < LEAST_PERIOD / 2 * (len(it.firsts) - 1)


def stuck(scene: Scene, _: Stores) -> Found:
    recent, flagged = recent_askers(scene), flagged_again(scene)
    recent = [it for it in recent if it.part not in flagged and it.part not in flagged.values()]
    hurried = [it for it in recent if _hurries(it)]
    for it in hurried if len(hurried) == 1 else ():
        each = (it.firsts[-1] - it.firsts[0]) / (len(it.firsts) - 1)
        yield Cause(
            "never-goes-on",
            f"A device whose unique ID begins with {it.part} begins anew every {each:.1f} s, and the standard lets a "
            f"device do so every {LEAST_PERIOD} s: each of its requests begins everybody's exchange anew. (So do many "
            "devices whose unique IDs begin alike.)",
            "unplug this device, and mend its firmware",
        )
    recent = [it for it in recent if it not in hurried or len(hurried) > 1]
    if len(recent) == 1 and _ends_early(scene, recent[0]):
        yield Cause(
            "never-goes-on",
            f"A device whose unique ID begins with {recent[0].part} asked {len(recent[0].firsts)} times, was answered "
            f"up to {recent[0].answered} of 16 bytes, and never sent its third request",
            "look at this device: the answer that it does not take is the first one of two frames, with a CRC and a "
            "toggle bit",
        )
    for it in filter(_is_stuck, recent):
        went = "never sent its second request"
        if it.late is not None:
            went = (
                f"sent its second request {round(1000 * it.late, -2):.0f} ms after the answer, and a member takes it "
                f"within {table.STAGE_TIMEOUT} ms"
            )
        yield Cause(
            "never-goes-on",
            f"A device whose unique ID begins with {it.part} asked {len(it.firsts)} times, was answered, and "
            f"{went}: each of its requests begins everybody's exchange anew",
            "look at this device: does it hear the answers, and answer at once? Where others wait for it, unplug it",
        )


def crossed(scene: Scene) -> Found:
    """Several devices that ask at a time, where somebody could be served."""
    recent, flagged = recent_askers(scene), flagged_again(scene)
    if flagged or sum(map(_hurries, recent)) == 1:
        return
    stuck_ones = [it for it in recent if _is_stuck(it)]
    others = [it for it in recent if not it.told and it not in stuck_ones]
    # (one that was told before another one began to ask was in nobody's way)
    those = [
        it
        for it in recent
        if not it.told or any(one.firsts[0] < it.told[0].moment for one in recent if one is not it)
    ]
    if len(those) > 1 and (others or len(stuck_ones) > 1):
        told = {True: " and was told", False: ""}
        said = ", ".join(f"{it.part}.. {len(it.firsts)} times{told[bool(it.told)]}" for it in those[:6])
        yield Cause(
            "crossed-requests",
            f"{len(those)} devices ask at a time ({said}): the requests of one begin the exchange of the other anew",
            "wait: devices that keep the standard's times are served one after the other. Where it goes on, unplug all "
            "but one, and look which of them asks too often",
            guess=True,
        )


def unanswered(scene: Scene) -> Found:
    """A device that asks and is not told, where nothing else is seen."""
    for it in recent_askers(scene):
        if not it.told and len(it.firsts) > MANY_ASKED:
            how = f"is answered up to {it.answered} of 16 bytes" if it.answered else "nobody answers"
            yield Cause(
                "unanswered",
                f"A device whose unique ID begins with {it.part} asked {len(it.firsts)} times, {how}, and it is told "
                "no ID",
                "give `why` the stores (--store): is the log full, or no node ID left? Does the leader hear the "
                "devices (its bridge)?",
                guess=True,
            )
            return


def _starts_as_two(scene: Scene) -> Optional[Tuple[Answer, Answer]]:
    """Two pairs of which one was told soon after the node of the other had gone, and again the other way round: one
    device with two unique IDs, or two that are plugged in turn."""
    told = {it.part: it for it in scene.answers if it.node and age(scene, it.moment) <= LATELY}
    for first in told.values():
        for second in told.values():
            if first.part < second.part and _in_turn(scene, first.node, second.node):
                return (first, second) if first.moment < second.moment else (second, first)
    return None


def _in_turn(scene: Scene, one: int, other: int) -> bool:
    """Whether one of two nodes came after the other, and that one again, each soon after."""
    nodes = [scene.nodes.get(node) for node in (one, other)]
    came = [(moment, at) for at, node in enumerate(nodes) if node for moment in node.came]
    order = [at for _, at in sorted(came)]
    both_now = all(scene.is_online(node) for node in (one, other))
    close = all(later - earlier <= SOON for (earlier, _), (later, _) in zip(sorted(came), sorted(came)[1:]))
    return sum(a != b for a, b in zip(order, order[1:])) >= 2 and not both_now and close


def two_unique_ids(scene: Scene) -> Found:
    pair = _starts_as_two(scene)
    if pair:
        first, second = pair
        yield Cause(
            "two-unique-ids",
            f"Nodes {ids((first.node, second.node))} are there in turn, and never both: {first.part} and {second.part} "
            "seem to be one device, whose boot loader and application tell two unique IDs",
            "have its maker use one unique ID; else it has two node IDs here, of which each takes its place in the log",
            stops=False,
            guess=True,
        )
