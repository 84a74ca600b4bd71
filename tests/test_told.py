"""Tests of `why` about members that are told their list, the mode that the package ships: each cause is named first, in
words that are true, whether or not the members are known beforehand, from what is heard, from a log and with stores.

What is on the bus in each case is written here by the standard (acts.py), and what is to be said by a person."""
from __future__ import annotations

import json
import os
import pathlib
import random
import tempfile
import time
import unittest
from typing import Callable, Dict, List, NamedTuple, Sequence, Tuple
from unittest import mock

import images
from acts import ONE, TWO, Act
from support import run_tool, write_lines

from caldrouz import causes, machine, scene, stores, table, vehicle, wire, words

THREE, OTHERS = [1, 2, 3], [4, 5, 6]
END = 12.0
HIGHEST = (1 << 32) - 1


def entries(count: int, blanks: int = 0) -> List[wire.Entry]:
    """So many entries, of which the last are blanks."""
    pairs = [wire.Entry(1, f"{place:032x}", 3 + place, 1) for place in range(1, count - blanks + 1)]
    return pairs + [wire.Entry(2 + at, wire.NO_UNIQUE_ID, 0, 4) for at in range(blanks)]


def store(count: int, blanks: int = 0, term: int = 200) -> stores.Store:
    return stores.Store(table.NEWEST, term, 1, count, entries(count, blanks))


# --- well


def three(act: Act) -> None:
    act.cluster(THREE, 0, END)
    act.device(ONE, 5, 1, 125)
    act.node(125, 5.5, END, 0)


def five(act: Act) -> None:
    act.cluster([1, 2, 3, 4, 5], 0, END, leader=4)
    act.device(ONE, 5, 4, 125)
    act.node(125, 5.5, END, 0)


def one(act: Act) -> None:
    act.cluster([1], 0, END)
    act.device(ONE, 5, 1, 125)
    act.node(125, 5.5, END, 0)


def a_power_on(act: Act) -> None:
    """Twenty devices get their IDs at once, and use them."""
    act.cluster(THREE, 0, END)
    for at in range(20):
        unique_id = f"{at + 1:02x}" * 16
        act.enters(2 + at / 5, 1, [2, 3], 11 + at, unique_id, 60 + at)
        act.device(unique_id, 2 + at / 5, 1, 60 + at)
        act.node(60 + at, 2.2 + at / 5, END, 0)


# --- who is there


def two_clusters(act: Act) -> None:
    act.cluster(THREE, 0, END)
    act.cluster(OTHERS, 0.2, END, leader=5, term=9)
    act.device(ONE, 5, 1, 125)
    act.device(TWO, 7, 5, 125)


def another_list(act: Act) -> None:
    """Member 3 was told 1, 3 and 4, and member 2 leads: 3 takes none of its calls, and stands again and again."""
    act.node(1, 0, END)
    act.node(2, 0.1, END)
    act.node(3, 0.2, END)
    act.calls(2, [1, 3], 0.3, END, heard=lambda _, peer: peer == 1)
    for at in range(4):
        act.stands(3, [1, 4], 1.0 + 3 * at, 6 + at)


def a_longer_list(act: Act) -> None:
    """Member 3 was told 1, 2, 3 and 4, and leads."""
    for member in THREE:
        act.node(member, member / 10, END)
    for at in range(9):
        act.stands(1, [2, 3], 0.3 + at / 20, 1 + at)
    act.stands(3, [1, 2, 4], 1.0, 12, [1, 2])
    act.calls(3, [1, 2, 4], 1.1, END, term=12, heard=lambda _, peer: peer != 4)


def leaders_that_stall(act: Act) -> None:
    """Each leads for 4 s, and is silent then."""
    for member in THREE:
        act.node(member, member / 10, 20)
    for at, leader in enumerate((1, 2, 1, 3)):
        peers = [it for it in THREE if it != leader]
        act.stands(leader, peers, 5.0 * at + 0.2, 5 + at, peers)
        act.calls(leader, peers, 5.0 * at + 0.4, 5.0 * at + 4, 5 + at)


def a_vote_request_that_was_lost(act: Act) -> None:
    """Member 3 stood once, and one of its two requests was not heard."""
    act.cluster(THREE, 0, END, leader=2)
    act.stands(3, [1], 1.0, 4)


def only_one_of_three(act: Act) -> None:
    act.node(2, 0, END)
    for at in range(4):
        act.stands(2, [1, 3], 1.0 + 3 * at, 6 + at)
    for at in range(8):
        act.device(ONE, 2 + at)


def the_leader_alone(act: Act) -> None:
    act.cluster(THREE, 0, END, away=[2, 3])


def one_away(act: Act) -> None:
    act.cluster(THREE, 0, END, away=[3])


def tells_an_id_of_the_list(act: Act) -> None:
    """Members 1 and 2 were told that they are all, and end when they hear member 3."""
    for member in THREE:
        act.node(member, member / 10, END if member == 3 else 2)
    act.calls(1, [2], 0.5, 2)
    act.device(ONE, 1, 1, 3)


def a_leader_that_hears_nobody(act: Act) -> None:
    """It calls each second, as after a call without an answer."""
    for member in THREE:
        act.node(member, member / 10, END)
    for at in range(11):
        act.calls(1, [2, 3], 0.5 + at, 0.6 + at)
        act.device(ONE, 1 + at)


def votes_that_do_not_help(act: Act) -> None:
    for member in THREE:
        act.node(member, member / 10, END)
    for at in range(4):
        act.stands(1, [2, 3], 1 + 2.5 * at, 5 + at, [2, 3])


def a_candidate_that_hears_nobody(act: Act) -> None:
    """Member 3 sends and does not receive: it stands again and again, and ends each leader's term."""
    for member in THREE:
        act.node(member, member / 10, END)
    for at in range(4):
        act.calls(1, [2, 3], 0.3 + 3 * at, 0.8 + 3 * at, 5 + 2 * at, heard=lambda _, peer: peer == 2)
        act.stands(3, [1, 2], 1 + 3 * at, 6 + 2 * at, [1, 2])


def one_that_hangs(act: Act) -> None:
    """Member 3 is heard for 4 s."""
    act.cluster(THREE, 0, END, away=[3])
    act.node(3, 0.1, 4)


def one_of_five_away(act: Act) -> None:
    act.cluster([1, 2, 3, 4, 5], 0, END, away=[3])


def a_node_in_place_of_a_member(act: Act) -> None:
    """Member 3 is off, and a device has its node ID."""
    act.cluster(THREE, 0, END, away=[3])
    act.node(3, 0.3, END, 50)


# --- what is used up


def ids_are_full(act: Act) -> None:
    act.cluster(THREE, 0, END, place=122)
    for at in range(8):
        act.device(ONE, 2 + at, 1)
        act.device(TWO, 2.4 + at, 1)


def ids_are_full_and_nobody_asks(act: Act) -> None:
    act.cluster(THREE, 0, END, place=122)


def the_log_is_full(act: Act) -> None:
    act.cluster(THREE, 0, END, place=127)
    for at in range(8):
        act.device(ONE, 2 + at, 1)
        act.device(TWO, 2.4 + at, 1)


def newcomers_wait(act: Act) -> None:
    act.cluster(THREE, 0, END, place=104)
    for at in range(8):
        act.device(ONE, 2 + at)


def nobody_waits(act: Act) -> None:
    act.cluster(THREE, 0, END, place=104)


def the_log_is_nearly_full(act: Act) -> None:
    act.cluster(THREE, 0, END, place=117)


def ids_run_out_by_asking(act: Act) -> None:
    """A device asks with one unique ID after the other, 15 a second, and uses no ID."""
    act.cluster(THREE, 0, END, place=10)
    for at in range(60):
        unique_id = f"{at + 1:02x}" * 16
        act.enters(3 + at / 15, 1, [2, 3], 11 + at, unique_id, 120 - at)
        act.device(unique_id, 3 + at / 15, 1, 120 - at)


def ids_run_out_by_status(act: Act) -> None:
    """A node shows itself under one node ID after the other, and answers nobody: they are kept back."""
    act.cluster(THREE, 0, END, place=10)
    for at in range(60):
        act.node(20 + at, 1 + at / 20, END)
        for query in range(5):
            act.send(1.1 + at / 20 + query, 1, "infoq", b"", 20 + at)
        if at < 40:
            act.enters(6.2 + at / 20, 1, [2, 3], 11 + at, wire.NO_UNIQUE_ID, 20 + at)


def many_fixed_nodes(act: Act) -> None:
    """Nodes that answer, while the log takes another pair each time: their IDs are kept back."""
    act.cluster(THREE, 0, END, place=10)
    for at in range(8):
        act.node(50 + at, 1, END)
        act.tells(2 + at / 50, 50 + at, f"{at + 1:02x}" * 16)
        act.enters(7 + at / 2, 1, [2, 3], 11 + at, wire.NO_UNIQUE_ID, 50 + at)


def terms_end(act: Act) -> None:
    """Two frames in the name of member 3 have the highest term, and then nobody stands any more."""
    act.cluster(THREE, 0, 3)
    act.send(3, 3, "voteq", number(HIGHEST) + number(HIGHEST) + bytes([250]), 2)
    for member in THREE:
        act.node(member, 3 + member / 10, 20, 1003)
    for at in range(8):
        act.device(ONE, 10 + at)


def terms_ended(act: Act) -> None:
    """The same, heard only later."""
    for member in THREE:
        act.node(member, member / 10, END, 1003)


def terms_that_nobody_took(act: Act) -> None:
    """Members that take no such term go on."""
    act.cluster(THREE, 0, END)
    act.send(3, 3, "voteq", number(HIGHEST) + number(HIGHEST) + bytes([250]), 2)


# --- the bus


def a_lossy_bus(share: float, seed: int = 1) -> Callable[[Act], None]:
    """So many of the frames do not reach the members; whoever listens hears all that was sent."""

    def make(act: Act) -> None:
        draw = random.Random(seed)
        for member in THREE:
            act.node(member, member / 10, 20)
        for at, leader in enumerate((1, 2, 1, 3)):
            begin, peers = 5.0 * at, [it for it in THREE if it != leader]
            act.stands(leader, peers, begin + 0.2, 5 + at, [peers[0]])
            act.calls(leader, peers, begin + 0.4, begin + 4.6, 5 + at, heard=lambda _, __: draw.random() > share)
        for at in range(16):
            act.device(ONE, 2 + at, stages=1)

    return make


def each_frame_twice(act: Act) -> None:
    three(act)
    act.lone, act.transfers = act.twice().lone, []


def each_frame_twice_ends_members(act: Act) -> None:
    """Each member ends with the first frame that comes back."""
    for member in THREE:
        act.node(member, member / 10, 0.5)
    for at in range(10):
        act.device(ONE, 2 + at)
    act.lone, act.transfers = act.twice().lone, []


# --- devices


def zeros(act: Act) -> None:
    act.cluster(THREE, 0, END)
    for at in range(8):
        act.device("00" * 16, 2 + at, 1)


def zeros_beside_another(act: Act) -> None:
    zeros(act)
    for at in range(4):
        act.device(ONE, 2.4 + at, 1, stages=1)


def two_unique_ids(act: Act) -> None:
    """A boot loader and its application: each is told an ID, and starts again."""
    act.cluster(THREE, 0, 20)
    for at in range(3):
        act.device(ONE, 2 + 6 * at, 1, 125)
        act.node(125, 2.3 + 6 * at, 4 + 6 * at, 0)
        act.device(TWO, 4.6 + 6 * at, 1, 124)
        act.node(124, 5 + 6 * at, 7 + 6 * at, 0)


def with_a_source(act: Act) -> None:
    act.cluster(THREE, 0, END)
    act.node(99, 0, END)
    act.tells(0.5, 99, TWO)
    for at in range(8):
        act.send(2 + at, 99, "alloc", b"\1" + bytes.fromhex(ONE)[:6])


def with_a_source_ends_members(act: Act) -> None:
    act.cluster(THREE, 0, 3)
    for at in range(8):
        act.send(2 + at, 99, "alloc", b"\1" + bytes.fromhex(ONE)[:6])


def without_the_first_flag(act: Act) -> None:
    act.cluster(THREE, 0, END)
    for at in range(8):
        act.asks(2 + at, bytes.fromhex(ONE)[:6], first=False)


def with_a_toggle(act: Act) -> None:
    act.cluster(THREE, 0, END)
    for at in range(8):
        act.asks(2 + at, bytes.fromhex(ONE)[:6], tail=0xE0)


def with_a_short_end(act: Act) -> None:
    act.cluster(THREE, 0, END)
    for at in range(8):
        act.device(ONE, 2 + at, 1, stages=2)
        act.asks(2.1 + at, bytes.fromhex(ONE)[12:15], first=False)


def a_late_second_request(act: Act) -> None:
    act.cluster(THREE, 0, END)
    for at in range(5):
        act.device(ONE, 2 + 2 * at, 1, stages=1)
        act.asks(2.72 + 2 * at, bytes.fromhex(ONE)[6:12], first=False)


def never_goes_on(act: Act) -> None:
    act.cluster(THREE, 0, END)
    for at in range(8):
        act.device(ONE, 2 + at, 1, stages=1)


def takes_no_answer_of_two_frames(act: Act) -> None:
    act.cluster(THREE, 0, END)
    for at in range(8):
        act.device(ONE, 2 + at, 1, stages=2)


def starts_again(act: Act) -> None:
    """A device is told its ID, shows itself for 2 s, and begins anew."""
    act.cluster(THREE, 0, END)
    for at in range(4):
        act.device(ONE, 2 + 2.5 * at, 1, 125)
        act.node(125, 2.3 + 2.5 * at, 4 + 2.5 * at, 0)


def does_not_hear(act: Act) -> None:
    act.cluster(THREE, 0, END)
    for at in range(8):
        act.device(ONE, 2 + at, 1, 125)


def told_and_gone(act: Act) -> None:
    act.cluster(THREE, 0, END)
    act.device(ONE, 2, 1, 125)


def begins_again_at_once(act: Act) -> None:
    """It asks each 100 ms, and another one waits."""
    act.cluster(THREE, 0, END)
    for at in range(80):
        act.device(TWO, 2 + at / 10, 1, stages=1)
    for at in range(8):
        act.device(ONE, 2.05 + at, 1, stages=1)


def the_flag_in_each_part(act: Act) -> None:
    act.cluster(THREE, 0, END)
    for at in range(8):
        act.device(ONE, 2 + at, 1, stages=1)
        act.asks(2.07 + at, bytes.fromhex(ONE)[6:12])
        act.answers(2.09 + at, 1, bytes.fromhex(ONE)[6:12])


def by_cyphal(act: Act) -> None:
    """A node that shows itself by Cyphal, and a device that asks: Heartbeat is subject 7509, the request 8166."""
    act.cluster(THREE, 0, END)
    for at in range(10):
        act.put(1 + at, wire.Frame(4 << 26 | 3 << 21 | 7509 << 8 | 44, bytes(7) + bytes([0xE0 + at])))
        act.put(1.5 + at, wire.Frame(6 << 26 | 1 << 24 | 3 << 21 | 8166 << 8 | 99 + at, bytes(7) + bytes([0xE0 + at])))


def a_node_of_cyphal(act: Act) -> None:
    by_cyphal(act)
    act.lone = [(moment, frame) for moment, frame in act.lone if not frame.identifier >> 24 & 1]


def cross_each_other(act: Act) -> None:
    act.cluster(THREE, 0, END)
    for at in range(40):
        act.device(ONE, 2 + at / 5, 1, stages=1 + at % 2)
        act.device(TWO, 2.06 + at / 5, 1, stages=1 + at % 2)


def a_server_beside(act: Act) -> None:
    act.cluster(THREE, 0, END)
    act.node(10, 0, END)
    act.tells(0.5, 10, TWO)
    act.device(ONE, 4, 10, 70)


def a_mute_node(act: Act) -> None:
    act.cluster(THREE, 0, END)
    act.node(50, 7.6, END)
    for second in range(4):
        act.send(8 + second, 1, "infoq", b"", 50)
    for at in range(8):
        act.device(ONE, 3 + at, 1, stages=2)
        act.device(TWO, 3.4 + at, 1, stages=2)


def mute_nodes_in_turn(act: Act) -> None:
    """Each 3 s another node ID, once."""
    act.cluster(THREE, 0, 20)
    for at in range(6):
        act.node(50 + at, 1 + 3 * at, 1.5 + 3 * at)
        for query in range(3):
            act.send(1.1 + 3 * at + query, 1, "infoq", b"", 50 + at)
    for at in range(16):
        act.device(ONE, 3 + at, 1, stages=2)
        act.device(TWO, 3.4 + at, 1, stages=2)


def a_babbling_node(act: Act) -> None:
    """It shows itself under eight node IDs in turn, with uptimes at random, and answers nobody."""
    act.cluster(THREE, 0, END)
    for at in range(8):
        act.node(50 + at, 1, END, 0)
        act.node(50 + at, 1.5, END, 5000)
        act.send(2 + at / 50, 1, "infoq", b"", 50 + at)


def refused_calls(act: Act) -> None:
    """The leader has another log: member 2 refuses each of its calls."""
    for member in THREE:
        act.node(member, member / 10, END)
    for at in range(550):
        payload = number(5) + number(4) + bytes([127 - at % 128, 0])
        act.respond(act.send(1 + at / 50, 1, "appq", payload, 2), number(5) + b"\0")
    act.calls(1, [3], 1, END)


def number(value: int) -> bytes:
    return value.to_bytes(4, "little")


class Row(NamedTuple):
    """A case: what is on the bus, which members the words name, what is said first, and what has to stand there.
    A name with `?` is of a guess, one with `!` of a warning, and none is of a bus that is well."""

    make: Callable[[Act], None]
    first: str
    members: Tuple[Sequence[int], ...] = (THREE, ())
    says: Tuple[str, ...] = ()
    never: Tuple[str, ...] = ()


ROWS: Dict[str, Row] = {
    "three": Row(three, "", says=("Members that are there: 1, 2 and 3, all 3", "Member 1 leads in term 5")),
    "five": Row(five, "", ([1, 2, 3, 4, 5], ()), ("all 5",)),
    "one": Row(one, "", ([1],), ("Member 1 is there, and is alone in its cluster",)),
    "one that is not known": Row(one, "", ((),)),
    "twenty devices at once": Row(a_power_on, ""),
    "two clusters": Row(
        two_clusters, "two-clusters", says=("1, 2 and 3", "4, 5 and 6", "one node ID twice"), never=("of 6",)
    ),
    "another list": Row(another_list, "another-list", says=("Member 3 calls 1 and 4", "member 2 calls 1 and 3")),
    "a longer list": Row(a_longer_list, "another-list", says=("Member 3 calls 1, 2 and 4",)),
    "a vote request that was lost": Row(a_vote_request_that_was_lost, ""),
    "one of three": Row(
        only_one_of_three, "no-majority", says=("Of 3 members 2 alone is there", "1 and 3 are away", "2 are needed")
    ),
    "the leader alone": Row(the_leader_alone, "no-majority", says=("2 and 3",)),
    "one is away": Row(one_away, "!deaf-member", says=("Member 3 is not there", "no further loss", "18 or 19")),
    "tells an ID of the list": Row(
        tells_an_id_of_the_list, "another-list", (THREE,), ("Member 1 told node ID 3", "3 is a member")
    ),
    "a leader that hears nobody": Row(a_leader_that_hears_nobody, "?deaf-member", says=("hears no answer",)),
    "votes that do not help": Row(votes_that_do_not_help, "?deaf-member", says=("Member 1 stood in terms 5 to 8",)),
    "a candidate that hears nobody": Row(
        a_candidate_that_hears_nobody, "?deaf-member", says=("Member 3 stood", "hear nothing", "stop member 3")
    ),
    "one hangs": Row(one_that_hangs, "!deaf-member", says=("3 was last heard 9 s ago", "hangs, or ended")),
    "one of five is away": Row(one_of_five_away, "!deaf-member", ([1, 2, 3, 4, 5],), ("the loss of 1 more",)),
    "a node has its ID": Row(
        a_node_in_place_of_a_member, "!deaf-member", says=("another node may have its node ID", "18")
    ),
    "IDs are full": Row(ids_are_full, "?ids-full", says=("122 entries", "122 node IDs"), never=("crossed",)),
    "IDs are full, nobody asks": Row(ids_are_full_and_nobody_asks, "?ids-full"),
    "the log is full": Row(the_log_is_full, "log-full", never=("crossed", "unplug all but one")),
    "newcomers wait": Row(newcomers_wait, "?newcomers-wait", says=("104 entries", "each ten minutes")),
    "nobody waits": Row(nobody_waits, ""),
    "the log is nearly full": Row(the_log_is_nearly_full, "!log-nearly-full"),
    "IDs run out by asking": Row(ids_run_out_by_asking, "ids-run-out", says=("60 new pairs", "a minute")),
    "IDs run out by NodeStatus": Row(ids_run_out_by_status, "ids-run-out", says=("40 new pairs", "kept back")),
    "many fixed nodes": Row(many_fixed_nodes, ""),
    "terms end": Row(terms_end, "terms-used-up", says=("4294967295", "member 3"), never=("start the members",)),
    "terms ended": Row(terms_ended, "?terms-used-up", (THREE,), ("--store",)),
    "terms that nobody took": Row(terms_that_nobody_took, "!terms-used-up", says=("in the name of member 3",)),
    "30 % lost": Row(a_lossy_bus(0.3), "lossy-bus", never=("strange", "the log full", "crossed")),
    "50 % lost": Row(a_lossy_bus(0.5), "lossy-bus", never=("strange", "the log full", "crossed")),
    "leaders that stall": Row(leaders_that_stall, "?lossy-bus", says=("4 elections", "stalls")),
    "each frame twice": Row(each_frame_twice, "frames-twice", never=("Two nodes use",)),
    "each frame twice ends members": Row(each_frame_twice_ends_members, "frames-twice", (THREE,), ("18",)),
    "zeros": Row(zeros, "zero-unique-id", says=("zeros",)),
    "zeros beside another": Row(zeros_beside_another, "zero-unique-id", never=("unplug all but one",)),
    "two unique IDs": Row(two_unique_ids, "!two-unique-ids", says=(ONE, TWO, "boot loader")),
    "with a source": Row(with_a_source, "wrong-request", says=("Node 99", "source"), never=("answers devices",)),
    "with a source, and members end": Row(with_a_source_ends_members, "wrong-request", (THREE,), ("Node 99", "18")),
    "without the first flag": Row(without_the_first_flag, "wrong-request", says=("first part",)),
    "with a toggle": Row(with_a_toggle, "wrong-request", says=("toggle",)),
    "with a short end": Row(with_a_short_end, "wrong-request", says=("3 bytes",)),
    "a late second request": Row(a_late_second_request, "never-goes-on", says=("700 ms", "500 ms")),
    "never goes on": Row(never_goes_on, "never-goes-on", says=("never sent its second request",)),
    "takes no answer of two frames": Row(
        takes_no_answer_of_two_frames, "never-goes-on", says=("never sent its third request",), never=("log full",)
    ),
    "starts again": Row(starts_again, "starts-again", says=("again and again",), never=("does not hear",)),
    "does not hear": Row(does_not_hear, "unheard-answer"),
    "told and gone": Row(told_and_gone, "!unheard-answer", says=("no node 125 shows itself",)),
    "begins again at once": Row(begins_again_at_once, "never-goes-on", says=(TWO[:12], "every 0.1 s", "0.6 s")),
    "the flag in each part": Row(
        the_flag_in_each_part, "?wrong-request", says=(ONE[:12], ONE[12:24]), never=("crossed", "never sent")
    ),
    "by Cyphal": Row(by_cyphal, "other-protocol", says=("Cyphal", "10 times")),
    "a node of Cyphal": Row(a_node_of_cyphal, "!other-protocol", says=("come from 44",)),
    "cross each other": Row(cross_each_other, "?crossed-requests"),
    "a server beside": Row(a_server_beside, "second-server", says=("Node 10 answers devices",)),
    "a mute node": Row(a_mute_node, "unidentified-node", says=("Node 50",), never=("crossed",)),
    "mute nodes in turn": Row(mute_nodes_in_turn, "unidentified-node", says=("6 node IDs",), never=("crossed",)),
    "a babbling node": Row(a_babbling_node, "unidentified-node", says=("8 node IDs",), never=("Two nodes use",)),
    "refused calls": Row(refused_calls, "another-log", says=("Member 2 refused", "member 1")),
}


def sign(cause: causes.Cause) -> str:
    """The name of a cause, as a row has it."""
    return f"{'' if cause.stops else '!'}{'?' if cause.guess and cause.stops else ''}{cause.name}"


def heading(line: str) -> str:
    """The sign in a line of what `why` says, or nothing."""
    for word, mark in (("warning: ", "!"), ("guess: ", "?"), ("", "")):
        name = line[len(word) :].split(": ")[0]
        if line.startswith(word) and name in NAMES:
            return mark + name
    return ""


NAMES = set(run_tool("why", "--names").written.split("\n  ")[0].split()) | {
    row.first.lstrip("!?") for row in ROWS.values()
} - {""}


class TrueWords(unittest.TestCase):
    def test_each_cause_is_named_first(self) -> None:
        for name, row in ROWS.items():
            act = Act()
            row.make(act)
            for members in row.members:
                with self.subTest(name, members=members):
                    heard = act.scene(members)
                    found = causes.find(heard)
                    said = "\n".join([f"{it.name}: {it.text}. {it.remedy}" for it in found] + list(causes.notes(heard)))
                    self.assertEqual(sign(found[0]) if found else "", row.first, said)
                    for text in row.says:
                        self.assertIn(text.lower(), said.lower())
                    for text in row.never:
                        self.assertNotIn(text.lower(), said.lower())

    def test_a_log_says_the_same(self) -> None:
        """By the tool itself, with its exit code: 0 where all is well, 5 for a warning, 1 for what stops devices."""
        with tempfile.TemporaryDirectory() as folder:
            for name in ("three", "two clusters", "one is away", "IDs are full", "terms end", "each frame twice"):
                row, act = ROWS[name], Act()
                row.make(act)
                log = write_lines(pathlib.Path(folder) / "log", act.log())
                said = run_tool("why", log, "--members", "1,2,3")
                with self.subTest(name):
                    signs = [heading(line) for line in said.written.splitlines() if heading(line)]
                    self.assertEqual((signs or [""])[0], row.first, said.written + said.errors)
                    self.assertEqual(said.status, 0 if not row.first else 5 if row.first[0] == "!" else 1)


class WithStores(unittest.TestCase):
    def said(self, make: Callable[[Act], None], *named: Tuple[str, stores.Store]) -> List[str]:
        act = Act()
        make(act)
        return [sign(it) for it in causes.find(act.scene(THREE), named)]

    def test_ids_that_are_used_up_are_certain_by_a_store(self) -> None:
        self.assertEqual(self.said(ids_are_full, ("alloc-1.store", store(122)))[0], "ids-full")

    def test_blanks_use_no_id(self) -> None:
        self.assertEqual(self.said(ids_are_full_and_nobody_asks, ("alloc-1.store", store(122, 20))), [
            "!many-blanks", "!log-nearly-full"
        ])

    def test_a_store_that_was_read_before_says_nothing_of_what_came_since(self) -> None:
        act = Act()
        act.cluster(THREE, 0, END, place=122)
        found = causes.find(act.scene(THREE), [("alloc-1.store", store(4))])
        self.assertNotIn("118 node IDs are free", " ".join(it.text for it in found))

    def test_terms_that_are_used_up(self) -> None:
        found = self.said(terms_ended, ("alloc-2.store", store(3, term=HIGHEST)))
        self.assertEqual(found[0], "terms-used-up")

    def test_zeros_in_a_store(self) -> None:
        act = Act()
        act.cluster(THREE, 0, END, away=[3])
        zero = stores.read_image(bytes(table.IMAGE))
        found = causes.find(act.scene(THREE), [("alloc-1.store", store(3)), ("alloc-3.store", zero)])
        self.assertEqual([sign(it) for it in found], ["!lost-store", "!deaf-member"])
        self.assertIn("alloc-3.store: it has no version", found[0].text)

    def test_a_new_store_is_none_of_zeros(self) -> None:
        self.assertEqual(self.said(three, ("alloc-1.store", stores.NEW)), [])

    def test_stores_tell_a_lone_member(self) -> None:
        act = Act()
        act.node(7, 0, END)
        self.assertEqual(causes.find(act.scene(), [("alloc-7.store", store(3))]), [])

    def test_a_store_in_a_file(self) -> None:
        with tempfile.TemporaryDirectory() as name:
            folder, act = pathlib.Path(name), Act()
            ids_are_full(act)
            log = write_lines(folder / "log", act.log())
            (folder / "alloc-1.store").write_bytes(images.image(store(122)))
            said = run_tool("why", log, "--members", "1,2,3", "--store", folder)
            self.assertIn("\nids-full: No node ID is left", said.written)
            self.assertEqual(said.status, 1)


class EndedMembers(unittest.TestCase):
    def test_an_exit_code_is_said_by_the_table(self) -> None:
        act = Act()
        act.cluster(THREE, 0, END, away=[3])
        found = causes.find(act.scene(THREE), [], {3: machine.End(11)})
        self.assertEqual(sign(found[0]), "!ended-member")
        self.assertIn("Member 3 ended with 11: the store of the member", found[0].text)
        self.assertIn("replace the store", found[0].remedy)

    def test_one_that_ends_as_it_should_is_none(self) -> None:
        act = Act()
        act.cluster(THREE, 0, END)
        self.assertEqual(causes.find(act.scene(THREE), [], {1: machine.End(0)}), [])

    def test_one_that_ends_again_and_again_is_told_while_it_runs(self) -> None:
        act = Act()
        act.cluster(THREE, 0, END)
        for times, is_told in ((1, False), (3, True)):
            found = causes.find(act.scene(THREE), [], {3: machine.End(17, times)})
            self.assertEqual([sign(it) for it in found], ["!ended-member"] * is_told)
        self.assertIn("Member 3 ended with 17, 3 times within a minute", found[0].text)


JOURNAL = {"UNIT": "caldrouz-can-node@2.service", "EXIT_CODE": "exited", "EXIT_STATUS": "17", "COMMAND": "ExecStart"}
AWAY = "Id=caldrouz-can-node@1.service\nActiveState=failed\nExecMainCode=1\nExecMainStatus=18\n"
WELL = "Id=caldrouz-node@1.service\nActiveState=inactive\nExecMainCode=0\nExecMainStatus=0\n"


class WhatTheSystemTells(unittest.TestCase):
    """By commands that stand in for those of systemd."""

    def ends(self, **commands: str) -> Dict[int, machine.End]:
        with tempfile.TemporaryDirectory() as folder:
            for name, does in commands.items():
                path = pathlib.Path(folder) / name
                path.write_text(f"#!/bin/sh\n{does}\n", encoding="ascii")
                path.chmod(0o755)
            with mock.patch.dict(os.environ, PATH=f"{folder}:/bin:/usr/bin"):
                return machine.member_ends([1, 2])

    def test_how_members_ended(self) -> None:
        changes: List[Dict[str, str]] = [
            {}, {}, {"UNIT": "ssh.service"}, {"COMMAND": "ExecStopPost"}, {"EXIT_CODE": "killed", "EXIT_STATUS": "9"}
        ]
        lines = "".join(json.dumps({**JOURNAL, **it}) + "\n" for it in changes)
        told = self.ends(systemctl=f"cat <<'END'\n{AWAY}\n{WELL}END", journalctl=f"cat <<'END'\n{lines}null\n[\nEND")
        self.assertEqual(told, {1: machine.End(18), 2: machine.End(17, 2)})

    def test_commands_that_hang_tell_nothing(self) -> None:
        with mock.patch.object(machine, "TELLS_WITHIN", 0.3):
            begin = time.monotonic()
            self.assertEqual(self.ends(systemctl="exec sleep 60", journalctl="exec sleep 60"), {})
            self.assertLess(time.monotonic() - begin, 20)


class OfOneMachine(unittest.TestCase):
    """At a base port the members of other machines are not heard."""

    def heard(self, act: Act) -> scene.Scene:
        it = scene.Scene(THREE, None, [2, 3])
        for timed in act.frames():
            it.take(timed.moment, timed.frame)
        return it

    def test_a_member_that_leads_and_one_that_follows(self) -> None:
        leads, follows = Act(), Act()
        leads.node(1, 0, END)
        leads.calls(1, [2, 3], 0.1, END, heard=lambda _, __: False)  # their answers come by the bridge, to it alone
        follows.node(1, 0, END)
        for act in (leads, follows):
            it = self.heard(act)
            self.assertEqual([cause.name for cause in causes.find(it)], [])
            self.assertIn("Members 2 and 3 run on other machines", " ".join(causes.notes(it)))

    def test_a_member_of_this_machine_that_is_away(self) -> None:
        act = Act()
        act.node(2, 0, END)
        it = scene.Scene(THREE, None, [2, 3])
        for timed in act.frames():
            it.take(timed.moment, timed.frame)
        self.assertIn("Of this machine 1 is not heard", " ".join(causes.notes(it)))

    def test_who_is_not_heard(self) -> None:
        cluster, here = words.Cluster(THREE, 3), vehicle.Vehicle("x", {"MEMBERS": "1 2"})
        self.assertEqual(words.unheard("5000", cluster, here), [3])
        self.assertEqual(words.unheard("can0", cluster, here), [])
        self.assertEqual(words.unheard("5000", cluster, None), [])


if __name__ == "__main__":
    unittest.main()
