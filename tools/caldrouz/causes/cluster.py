"""The causes of the allocators: who they are, whether they have one list, a leader, terms and a bus. Not proved."""
from __future__ import annotations

import re
from typing import Collection, Dict, Iterable, List, Mapping, Optional, Sequence, Set

from .. import scene as scenes
from .. import texts
from ..machine import End
from ..scene import Lead, Listing, Scene
from .common import ELECTED_BY, LATELY, RECENT, Cause, Found, Stores, age, enumeration, ids, seconds, times, verb

SEARCHES = 2.5  # seconds after which a member that still searched would have told so again
UNHEARD_ANSWERS = 5  # so many answers in a row that a leader seems not to have heard are told
UNANSWERED_CALLS = 3  # so many calls in a row without an answer are told
STANDS_BY = 8.0  # seconds of its uptime within which a member that hears no leader has stood for election
MANY_ROUNDS = 8  # calls to one member, after which one that was never called is in no list
MANY_ELECTIONS = 3  # within 20 s, of members that lead in turn
MANY_WON = 2  # so many elections that were won, and never used, are of one that does not hear
GAPS = 4  # so often within 20 s a member that answers does not, where frames are lost
REFUSALS = 200  # more in a row than a log has places
OF_ONE_LIST = (
    "end the member whose CLUSTER is another (`check_settings` compares them), and audit the stores before it runs "
    "again"
)
BEGIN_ANEW = "begin anew with the same IDs"
LOOK_HOW_IT_ENDED = (
    "read in the journals with which exit code a member ended that is away, and do what OPERATING.md has for it: after "
    "18 or 19 mend what is named there before a start. Else start it, or mend its interface and bridge"
)


def silence() -> Cause:
    return Cause(
        "silence",
        "Nothing is heard at all",
        "on CAN: is the plug on (where it is off, members of this machine end with 17), the interface up, its bit rate "
        "that of the bus, both ends of the bus terminated, and any node powered? On a base port: do members run there?",
    )


def members_of(scene: Scene, stores: Stores) -> Set[int]:
    """The members as they are told or heard; else those whose stores are named."""
    named = (re.fullmatch(r"alloc-(\d+)\.store", name) for name, _ in stores)
    return scene.members() or {int(found[1]) for found in named if found}


# --- who is a member


def ended(scene: Scene, ends: Mapping[int, End]) -> Found:
    """Members of this machine that ended: why, by the exit code. One that was started again, and goes on, is told where
    it ended more than once."""
    size = scene.size() or len(scene.members())
    goes_on = scene.leader() is not None or size == 1 and not ends
    for member, (status, count) in sorted(ends.items()):
        if status == 0 or count == 1 and scene.is_online(member):
            continue
        unknown = "the table of exit codes does not have it", "see its journal"
        meaning, remedy = texts.MEMBER_EXITS.get(status, unknown)
        often = f", {times(count, 'time')} within a minute" if count > 1 else ""
        yield Cause("ended-member", f"Member {member} ended with {status}{often}: {meaning}", remedy, stops=not goes_on)


def lists(scene: Scene, stores: Stores) -> Found:
    """Members that do not find each other, or have other lists."""
    size, members = scene.size(), scene.members()
    if not members:
        if not scene.answers and not members_of(scene, stores):
            yield _no_members(scene)
        return
    listings = {node: it for node, it in scene.listings.items() if age(scene, it.moment) <= RECENT}
    others = {node: it.size for node, it in listings.items() if it.size != size}
    short = {node: it for node, it in searching(scene).items() if it.size == size}
    if others:
        told = ", ".join(f"node {node} says {other}" for node, other in sorted(others.items()))
        agree = [node for node, it in listings.items() if it.size == size]
        yield Cause(
            "another-size",
            f"The cluster is taken to have {size} members ({ids(agree)} say so), and {told}: they never find each "
            "other",
            "give all members the same CLUSTER, a number or a list, and start those again that had another",
        )
    elif short:
        yield _missing(short, members, size or 0)
    yield from _clusters(scene, members)
    yield from _other_lists(scene, members)
    yield from _strange_members(scene, members, size or 0)


def _no_members(scene: Scene, members: Collection[int] = ()) -> Cause:
    what = f"none of members {ids(members)}" if members else "none shows a member"
    alone = ". One that is alone in its cluster shows none until a device asks (`--members 1,` names it)"
    return Cause(
        "no-members",
        f"{times(scene.frames, 'frame')} came, and {what}{'' if members else alone}",
        "start the members (`systemctl status 'caldrouz-*'`); of those that ended, the journals say by which exit "
        "code, and OPERATING.md has what to do. Where they run over UDP, start the bridge, and see that both have one "
        "base port. Where they run and nobody leads, are their terms used up (--store)?",
    )


def _missing(short: Dict[int, Listing], members: Set[int], size: int) -> Cause:
    know = "; ".join(f"{node} knows {ids(it.known)}" for node, it in sorted(short.items()))
    unheard = {node for it in short.values() for node in members - set(it.known)}
    missing = f", and {ids(unheard)} did not reach them all" if unheard else ""
    if size > len(members):
        missing = f", and nothing was heard of {size - len(members)} more"
    return Cause(
        "missing-members",
        f"{ids(members)} of {size} members tell that they search for the others ({know}){missing}. Members that were "
        "told a number alone elect nobody before each of them was heard once since power-on",
        "start the members that are missing, or mend their interface and bridge; or tell all members the list "
        "(`node 1,2,3 ..`), so that most of them are enough",
    )


def searching(scene: Scene) -> Dict[int, Listing]:
    """The members that search for others: one tells its list each second until it is complete."""
    return {
        node: it
        for node, it in scene.listings.items()
        if len(it.known) < it.size and age(scene, it.moment) <= SEARCHES
    }


def other_clusters(scene: Scene, members: Set[int]) -> List[Set[int]]:
    """The lists of nodes that call others, and have no member in their lists."""
    found: List[Set[int]] = []
    for node, caller in sorted(scene.callers.items()):
        listed = scene.called_by(node)
        if node in members or listed & members or age(scene, caller.last) > LATELY:
            continue
        merged = [it for it in found if it & listed]
        found = [it for it in found if it not in merged] + [listed.union(*merged)]
    return found


def _led_by(scene: Scene, nodes: Set[int]) -> str:
    led = [(it.led, node, it.term) for node, it in scene.callers.items() if node in nodes and it.led is not None]
    return f", led by {max(led)[1]} in term {max(led)[2]}" if led else ", which elects"


def _clusters(scene: Scene, members: Set[int]) -> Found:
    others = other_clusters(scene, members)
    if others:
        groups = [members, *others]
        told = "; and ".join(f"{ids(group)}{_led_by(scene, group)}" for group in groups)
        yield Cause(
            "two-clusters",
            f"{len(groups)} clusters are on this bus: {told}. Each answers devices, and knows nothing of the other's "
            "answers: they may give one node ID twice",
            "switch one of them off, or part the buses; then look for node IDs that both gave (`--ask`, and "
            "OPERATING.md, \"Buses that are joined\")",
        )


def _other_lists(scene: Scene, members: Set[int]) -> Found:
    """Members that call nodes which are no members to others, or never call one. Calls may be lost: so what is not
    called counts only where many calls were heard, and the leader's own list once it led for a while."""
    lead = scene.leader()
    if not scene.given and (scene.listings or lead is None or age(scene, lead.since) < ELECTED_BY):
        return
    if scene.listings and scene.strange():
        return  # members that were told their number alone call whom they met
    reference = set(scene.given) or members
    for node in sorted(members & set(scene.callers)):
        listed, rounds = scene.called_by(node), max(scene.callers[node].peers.values())
        if listed - reference or rounds >= MANY_ROUNDS and reference - listed:
            yield _another_list(scene, node, lead, reference)
    for answer in {it.by: it for it in scene.answers if it.by in scene.given and it.node in scene.given}.values():
        yield Cause(
            "another-list",
            f"Member {answer.by} told node ID {answer.node} to {answer.part}, and {answer.node} is a member: the list "
            f"that {answer.by} was told does not have it",
            OF_ONE_LIST,
        )
    for node in sorted({answer.by for answer in scene.answers if _led_long_enough(scene, answer)} & reference):
        if node not in scene.callers and len(reference) > 1:
            yield Cause(
                "another-list",
                f"Member {node} answers devices, and calls no other member, though the members are to be "
                f"{ids(reference)}: it was told that it is alone",
                OF_ONE_LIST,
            )


def _led_long_enough(scene: Scene, answer: scenes.Answer) -> bool:
    """Whether who gave this answer would have been heard to call others: who answers devices leads."""
    return scene.begin is not None and answer.moment - scene.begin > scenes.ALL_CALLED


def _another_list(scene: Scene, node: int, lead: Optional[Lead], reference: Set[int]) -> Cause:
    other = f"the members are to be {ids(reference)}"
    if lead and scene.called_by(lead.node) != scene.called_by(node):
        other = f"member {lead.node} calls {ids(scene.callers[lead.node].peers)}"
    return Cause(
        "another-list",
        f"Member {node} calls {ids(scene.callers[node].peers)}, and {other}: they were told different lists, so two "
        "majorities may have no member in common, and one node ID may be given twice",
        OF_ONE_LIST,
    )


def _strange_members(scene: Scene, members: Set[int], size: int) -> Found:
    named = {node for group in other_clusters(scene, members) for node in group}
    if 0 < size < len(members):
        yield Cause(
            "strange-member",
            f"{ids(members)} are {len(members)} members, in a cluster of {size}",
            "end the one that is none of this vehicle; a list that has it stays wrong until its member starts again",
        )
    for node in sorted(scene.strange() - named):
        yield Cause(
            "strange-member",
            f"Node {node} does what members do, and the members of this cluster of {size} are {ids(members)}",
            "one of these nodes is none of this vehicle, or has another node ID than it should: end it, and then start "
            "all members again, since a list keeps whom it has. Two clusters on one bus give one ID twice",
        )


def second_server(scene: Scene, _: Stores) -> Found:
    members = scene.members()
    clusters = {node for group in other_clusters(scene, members) for node in group}
    answerers = {answer.by for answer in scene.answers} - clusters
    strange = answerers - members if members else answerers if len(answerers) > 1 else set()
    if strange:
        who = f"Nodes {ids(strange)} all answer devices"
        who = f"Node {ids(strange)} answers devices and is no member" if members else who
        yield Cause(
            "second-server",
            f"{who}: there are two servers for node IDs on this bus, which know nothing of each other's answers",
            "switch off the server of the autopilot, or of the tool on the laptop; then look whether two devices have "
            "one ID",
        )


# --- terms


def terms(scene: Scene, stores: Stores) -> Found:
    """Terms that are used up: no member stands for election any more."""
    remedy = (
        f"find the node that sends in a member's name, then {BEGIN_ANEW} (TROUBLE.md): no new start helps"
    )
    full = [name for name, store in stores if store.term >= scenes.HIGHEST_TERM]
    heard = [it for it in scene.wild if age(scene, it.moment) <= LATELY or not scene.leader()]
    if full:
        yield Cause(
            "terms-used-up",
            f"{enumeration(full)} {verb(full, 'has', 'have')} the term {scenes.HIGHEST_TERM}, which is the last: no "
            "leader is elected any more, and nobody is served, also none of the log",
            remedy,
        )
    elif heard:
        last = heard[-1]
        who = "member" if last.node in scene.members() else "node"
        goes_on = scene.leader() is not None
        then = "the members took no notice of it" if goes_on else "since then nobody leads"
        yield Cause(
            "terms-used-up",
            f"A frame in the name of {who} {last.node} had the term {last.term}, which no cluster comes to by itself, "
            f"and {then}",
            "find the node that sends in a member's name (PREMISES.md, A5), audit the stores" if goes_on else remedy,
            stops=not goes_on,
        )
    elif _nobody_stands(scene):
        yield Cause(
            "terms-used-up",
            f"{ids(filter(scene.is_online, scene.members()))} are there, and nobody led or stood for election in "
            f"{seconds(scene.heard_for)}, which a member does within 5 s: their terms seem to be used up",
            f"read their stores (--store), which tell the term. Where it is {scenes.HIGHEST_TERM}, {remedy}",
            guess=True,
        )


def _nobody_stands(scene: Scene) -> bool:
    """Whether most members are there, told their list, for longer than one waits before it stands, and none does."""
    size, members = scene.size(), scene.members()
    there = [scene.nodes[node] for node in members if scene.is_online(node)]
    rested = all((node.uptime or 0) > STANDS_BY for node in there)
    return (
        bool(size and size > 1 and len(there) > size // 2)
        and rested
        and not scene.unheard
        and not scene.callers
        and not scene.listings
        and scene.heard_for >= ELECTED_BY
    )


# --- the bus


def twice(scene: Scene, _: Stores) -> Found:
    if scene.comes_twice():
        yield Cause(
            "frames-twice",
            "Each frame comes twice, of more than one node",
            "a second bridge or gateway joins this bus to itself, an adapter gives back what it sent, or the log has "
            "two interfaces of one bus: end the second way (PREMISES.md, A7). Members that are told their list ended "
            "with 18 where they heard it: start them after that",
        )


def lossy(scene: Scene, _: Stores) -> Found:
    gaps = [moment for moment in scene.gaps if age(scene, moment) <= 2 * RECENT]
    terms_of = {stood.term for moment, stood in scene.elections if age(scene, moment) <= 2 * RECENT}
    lasts = min(scene.heard_for, 2 * RECENT)
    few = max(2, round(GAPS * lasts / (2 * RECENT)))  # of a short time that has elections as well
    if len(gaps) >= (few if terms_of else GAPS):
        elections = f", and there were {times(len(terms_of), 'election')}" if terms_of else ""
        yield Cause(
            "lossy-bus",
            f"Members leave out answers and answer again, {len(gaps)} times in {seconds(lasts)}{elections}: frames are "
            "lost on their way, or come late",
            "mend the bus first: termination, bit rate, load, errors (`ip -details -statistics link show`), the counts "
            "of the bridges, and the load of the machines. Other names beside this one may follow from it",
        )
        return
    led = [node for node, it in scene.callers.items() if it.led is not None and age(scene, it.led) <= 2 * RECENT]
    if len(terms_of) >= MANY_ELECTIONS and len(led) > 1:
        yield Cause(
            "lossy-bus",
            f"There were {len(terms_of)} elections within {seconds(lasts)}, and {ids(led)} led in turn: frames are "
            "lost or late, or the machine of a leader stalls",
            "look at the load of the machines, their disks (a sync takes 100 ms at most), and at the errors of the bus",
            guess=True,
        )


# --- a leader and its followers


def majority(scene: Scene, stores: Stores) -> Found:
    """Nobody leads, or the leader is not answered."""
    size, members, lead = scene.size(), scene.members(), scene.leader()
    if not size or not members or scene.unheard:
        return
    quorum = size // 2 + 1
    there = set(filter(scene.is_online, members))
    if not there and not any(scene.nodes[node].came for node in members if node in scene.nodes):
        if not scene.callers and not scene.answers and not scene.listings:
            yield _no_members(scene, members)
            return
    if len(there) < quorum:
        yield _no_majority(scene, there, members, size)
    elif size == 1:
        return
    elif (deaf := _deaf_candidate(scene, quorum)) is not None:
        yield deaf
    elif lead is None and not searching(scene):
        yield from _no_leader(scene)
    elif lead is not None:
        yield from _unanswered(scene, lead, size)


def _gone(scene: Scene, away: Iterable[int]) -> str:
    """When members that are away were last heard, where they were: they hang, or ended."""
    heard = [(node, scene.nodes[node]) for node in sorted(away) if node in scene.nodes and scene.nodes[node].came]
    told = [f"{node} was last heard {seconds(age(scene, it.last))} ago" for node, it in heard]
    return f". {'; '.join(told)}: it hangs, or ended" if len(told) == 1 else f". {'; '.join(told)}" if told else ""


def _no_majority(scene: Scene, there: Set[int], members: Set[int], size: int) -> Cause:
    away = sorted(members - there)
    unheard = size - len(members)
    missing = [f"{ids(away)} {verb(away, 'is', 'are')} away"] if away else []
    missing += [f"nothing was heard of {unheard} more"] if unheard > 0 else []
    here = f"{ids(there)} {'alone is' if len(there) == 1 else 'are'} there" if there else "none is there"
    return Cause(
        "no-majority",
        f"Of {times(size, 'member')} {here}, {', '.join(missing)}, and {size // 2 + 1} "
        f"{'is' if size == 1 else 'are'} needed{_gone(scene, away)}",
        LOOK_HOW_IT_ENDED,
    )


def _no_leader(scene: Scene) -> Found:
    since = scene.now - 2 * RECENT
    members = scene.members()
    elections = [it for it in scene.elections if it[0] >= since and it[1].node in members]
    if elections:
        terms = sorted({stood.term for _, stood in elections})
        votes = [vote.granted for vote in scene.votes if vote.moment >= since]
        answers = f"of the {len(votes)} answers {sum(votes)} were votes" if votes else "no answer was heard"
        text = f"terms {terms[0]} to {terms[-1]}" if len(terms) > 1 else f"term {terms[0]}"
        if len(elections) == 1 and age(scene, elections[0][0]) < ELECTED_BY:
            return
        yield Cause(
            "no-leader",
            f"Nobody leads: {ids({stood.node for _, stood in elections})} stood in {text}, and {answers}",
            "frames between the members are lost, or come late: look at the counts of the bridges and the load of the "
            "machines",
        )
    elif scene.heard_for >= ELECTED_BY and not _nobody_stands(scene) and not scene.wild:
        yield Cause(
            "no-leader",
            f"Nobody leads, and nobody stood for election in {seconds(scene.heard_for)}",
            "wait: members that are told their list stand within 12 s of their start. Those that were told a number "
            "alone have to hear each other once: do they?",
        )


def _deaf_candidate(scene: Scene, quorum: int) -> Optional[Cause]:
    """A member that was given the votes of most again and again, and never led."""
    elections = [it for it in scene.elections if age(scene, it[0]) <= 2 * RECENT]
    for node in sorted({stood.node for _, stood in elections} & scene.members()):
        stood_in = sorted({stood.term for _, stood in elections if stood.node == node})
        won = [
            term
            for term in stood_in
            if len({vote.by for vote in scene.votes if (vote.to, vote.term, vote.granted) == (node, term, True)}) + 1
            >= quorum
        ]
        led = scene.callers[node].led if node in scene.callers else None
        since = min(moment for moment, stood in elections if stood.node == node)
        if len(won) >= MANY_WON and (led is None or led < since):
            return Cause(
                "deaf-member",
                f"Member {node} stood in terms {stood_in[0]} to {stood_in[-1]}, was given the votes of most in "
                f"{len(won)} of them, and never led: it seems to hear nothing, and its elections keep the others from "
                "a leader",
                f"stop member {node}, so that another one leads; then mend its receiver, interface or bridge",
                guess=True,
            )
    return None


def _unanswered(scene: Scene, lead: Lead, size: int) -> Found:
    calls = {to: call for (by, to), call in scene.calls.items() if by == lead.node and call.term == lead.term}
    deaf = {to for to, call in calls.items() if call.unanswered >= UNANSWERED_CALLS}
    behind = [call for call in calls.values() if call.place > call.commit]
    if size - len(deaf) < size // 2 + 1:
        yield Cause(
            "no-majority",
            f"Member {lead.node} leads in term {lead.term}, and {ids(deaf)} answer none of its calls: nothing can be "
            "committed, so nobody is told an ID",
            "start these members, or mend their interface and bridge",
        )
    elif deaf:
        yield from _deaf(scene, lead, sorted(deaf), size)
    unheard = {to for to, call in calls.items() if call.as_unanswered >= UNHEARD_ANSWERS}
    if size - len(unheard) < size // 2 + 1:
        yield Cause(
            "deaf-member",
            f"Member {lead.node} leads in term {lead.term}, {ids(unheard)} answer its calls, and it goes on as one "
            "that hears no answer: then it hears no device either",
            f"mend its receiver, interface or bridge; or stop member {lead.node}, so that another one leads",
            guess=True,
        )
    agreed = any(call.agreed is not None and age(scene, call.agreed) <= ELECTED_BY for call in calls.values())
    if behind and not agreed and not deaf:
        yield Cause(
            "not-committed",
            f"The log of member {lead.node}, which leads, has its last entry at place {behind[0].place}, and "
            f"{behind[0].commit} of its entries are committed: devices are denied until the others have the rest",
            "look whether the other members' disks and bridges work",
        )


def _deaf(scene: Scene, lead: Lead, deaf: Sequence[int], size: int) -> Found:
    """Members that do not answer, where most do."""
    more = (size - 1) // 2 - len(deaf)
    bears = f"bears the loss of {more} more" if more else "bears no further loss"
    for node in deaf:
        if scene.is_online(node) and _never_stands(scene, node):
            what = (
                f"shows itself, and neither answers the calls of member {lead.node}, which leads, nor stands for "
                "election, as a member that hears nothing would by now: another node may have its node ID"
            )
            remedy = (
                "does this member run? Else give that node another ID before it is started: it ends with 18 where it "
                "hears its own"
            )
        elif scene.is_online(node):
            what = f"shows itself, and answers none of the calls of member {lead.node}, which leads"
            remedy = "does this member run? Then mend its interface and bridge. Else another node may have its ID"
        else:
            heard = _gone(scene, [node])
            what = f"is not there, and answers none of the calls of member {lead.node}, which leads{heard}"
            remedy = LOOK_HOW_IT_ENDED
        yield Cause("deaf-member", f"Member {node} {what}. The cluster goes on, and {bears}", remedy, stops=False)


def _never_stands(scene: Scene, node: int) -> bool:
    """Whether a node that shows itself is none that waits for a leader: it would have stood for election."""
    uptime = scene.nodes[node].uptime or 0
    return uptime > STANDS_BY and scene.heard_for > ELECTED_BY and node not in scene.callers


def refused(scene: Scene, _: Stores) -> Found:
    """Calls that are refused more often than a log has places: the logs do not come together."""
    for (by, to, kind), exchange in sorted(scene.exchanges.items()):
        lately = [moment for moment in exchange.refused if age(scene, moment) <= RECENT]
        if kind == "appq" and len(lately) >= REFUSALS:
            yield Cause(
                "another-log",
                f"Member {to} refused {len(lately)} calls of member {by} within {seconds(RECENT)}: their logs have no "
                "beginning in common",
                f"stop member {by}, audit the stores of all, and replace the one that is of another vehicle or of an "
                "earlier time, as that of a machine",
            )
