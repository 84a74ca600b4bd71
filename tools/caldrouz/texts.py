"""What several programs say alike. tools/make_texts makes this file from docs/tables."""
from typing import Dict, Optional, Tuple

# why a row is refused, by the number of the cause
_REFUSALS: Dict[int, str] = {
    1: "its number is that of no member of the cluster",
    2: "its member does not run",
    3: "its member runs already",
    4: "no frame on the bus has this number yet, or it is 0",
    5: "nothing waits in the queue of its {subject}",
    6: (
        "a frame from outside may not have a member as its source, nor, with a source, be of a type that only "
        "members send: Allocation, Discovery, AppendEntries, RequestVote"
    ),
    7: "its {subject} would put together a transfer of frames that were not made together",
    8: "its member would take the response to an earlier call for that to a later one",
    9: "no device has this number: they are 1 to 8",
    10: "its device is not on the bus",
    11: "its device is on the bus already",
}
LEAST_BASE, GREATEST_BASE = 1024, 65410
MOST_ROWS = 1000000
# By the name of a row: how many words it has, and which of them is its moment, if one is.
ROWS: Dict[str, Tuple[int, Optional[int]]] = {
    "open": (4, 2),
    "copen": (4, 2),
    "tick": (4, 2),
    "send": (2, None),
    "rx": (4, 3),
    "ext": (3, None),
    "crash": (4, None),
    "fault": (3, None),
    "aopen": (6, 4),
    "atick": (4, 2),
    "arx": (5, 3),
    "asend": (2, None),
    "aend": (2, None),
}
# what came of a frame that a receiver drops, as a line says it
DROPS = {
    "drop:1": "it is not for it",
    "drop:2": "its start bit does not fit",
    "drop:3": "its toggle is not the next one",
    "drop:4": "its transfer ID is not the expected one",
    "drop:5": "the CRC of its transfer is another",
    "drop:6": "its length is none of a cutting",
    "drop:7": "no block is free for it",
    "drop:8": "no session is free for it",
    "drop:9": "its identifier has no reading",
}
# the causes that `why` names, and what was heard
CAUSES: Dict[str, str] = {
    "silence": "nothing at all: \"Bring-up of a bus\"",
    "bad-interface": (
        "an interface of this machine is down, or left the bus (BUS-OFF): \"Bring-up of a bus\". A warning "
        "where its controller saw errors, or its queue is long"
    ),
    "ended-member": (
        "a member of this machine ended, or did again and again: its exit code, in words. A warning where the "
        "others go on"
    ),
    "terms-used-up": (
        "a store has the highest term, or a frame one that is far ahead; or, as a guess, members are there "
        "and none stands for election: \"Terms are used up\", below"
    ),
    "frames-twice": "each frame comes twice (A7): a second bridge or gateway, an echo, a log of two interfaces",
    "no-members": "frames, none of a member. One that is alone in its cluster shows itself only when a device asks",
    "missing-members": (
        "members tell each second that they search for others, and who is missing. Where a majority is there, "
        "they were told their number alone (examples/node)"
    ),
    "another-size": "Discovery with two sizes",
    "two-clusters": (
        "two leaders, whose lists have no node in common. Both answer devices: one node ID may be given twice"
    ),
    "another-list": (
        "a member calls other nodes than the leader does, or than CLUSTER says (A3). Where it follows, "
        "nothing shows it: compare the settings"
    ),
    "strange-member": "a node does what members do, and is none; or there are more members than the size says",
    "second-server": "a node that is no member answers devices: \"Autopilots and tools\"",
    "log-full": "no place is left; or none, and not all committed: \"A full log\"",
    "ids-full": "no node ID is left: the same. Without --store a guess, since blanks use none",
    "ids-run-out": (
        "many new pairs within a minute, of nodes that are not there or do not answer. A warning where they "
        "are there, a guess where few were heard"
    ),
    "newcomers-wait": (
        "the log has 100 entries or more, and a new device or node waits: \"A full log\". A guess without "
        "--store"
    ),
    "lossy-bus": (
        "members leave out answers, and answer again: mend the bus first. A guess, where they lead in turn, "
        "for seconds each"
    ),
    "no-majority": "most members are away, and which; or they do not answer the leader",
    "no-leader": (
        "all are there, and nobody wins an election: frames between members are lost or late. Beside many "
        "calls a second: the leader has another log"
    ),
    "not-committed": "the leader has entries that the others do not get",
    "another-log": (
        "a member refuses more calls of the leader than a log has places: \"A leader has another log\", below"
    ),
    "unidentified-node": (
        "a node that is there answers no query for its unique ID; or many node IDs within a minute. No new "
        "device is served until it is gone or set aside, which takes 6 s where it stays: then its ID is kept "
        "back. One NodeStatus each second is standard"
    ),
    "one-id-twice": (
        "the uptimes or transfer IDs of a node's NodeStatus are those of two; or it told two unique IDs. Of a "
        "member: it is started twice. Audit the stores"
    ),
    "one-unique-id": "two nodes tell one unique ID: to the allocators clones are one device, with one ID",
    "wrong-address": (
        "a node has an ID that the log gives to another unique ID (often needs --store and --ask). A warning "
        "where it has another one than it was told"
    ),
    "wrong-request": (
        "a request that no allocator takes: it has a source, several frames, a toggle bit, another length, no "
        "flag of the first part, or one in each"
    ),
    "other-protocol": "a device asks by Cyphal (UAVCAN v1). A warning where a node of that is there",
    "zero-unique-id": "a device asks with a unique ID of zeros, and is given nothing",
    "never-goes-on": (
        "a device asks, is answered, and sends its second request never, or later than 500 ms, or no third "
        "one: it does not hear, or is broken. Or it begins anew far too often"
    ),
    "unheard-answer": (
        "a device was told its ID again and again, and asks on. A warning where it neither shows itself nor "
        "asks"
    ),
    "starts-again": "the same, and its node begins anew each time",
    "crossed-requests": (
        "a guess, where nothing else is found: several devices ask, and begin each other's exchange anew. "
        "Those that keep the standard's times are served one after the other"
    ),
    "unanswered": "a guess: a device asks, and nobody answers, though all looks well",
    "deaf-member": (
        "a warning: a member is away, or shows itself and does not answer; and how many more losses the "
        "cluster bears. No warning, but a guess, of one that leads as if nobody answered, or wins elections "
        "and never leads"
    ),
    "two-unique-ids": (
        "a warning, as a guess: two nodes are there in turn, and never both: a boot loader and its "
        "application"
    ),
    "many-blanks": "a warning: 16 blanks or more in the log. Each is a place for good",
    "log-nearly-full": "a warning: 8 places or IDs are left: \"A full log\", before it is",
    "lost-store": "a warning: a store without a version (needs --store): its first block was lost",
}
# why a member ended, by its exit code: what it means, and what to do
MEMBER_EXITS: Dict[int, Tuple[str, str]] = {
    0: (
        "its turns are over",
        "nothing: it is started again",
    ),
    2: (
        (
            "with the last line listed the log of a member has a node ID of its list; else the words are none "
            "that it reads"
        ),
        (
            "caldrouz-check-settings says what is wrong (as spaces in CLUSTER); or the number behind @ does not "
            "stand in CLUSTER; after listed, compare CLUSTER with the other machines first: where it differs, "
            "give the member the list that all others have. Else replace its store, as that of a machine, where "
            "it is of another cluster; and where the list is new on purpose, begin anew"
        ),
    ),
    6: (
        "standard output could not be written",
        "look at the journal, or at where you sent it",
    ),
    7: (
        "there is not enough memory to begin with",
        "it needs 2 MB",
    ),
    9: (
        "the link of the member in the last line failed: its socket took or gave no frame any more",
        (
            "of can: look whether the interface is there and up; setting it down ends its members so. Of node, "
            "once: nothing; if it comes again, look at the limits and filters of the system"
        ),
    ),
    10: (
        "the disk of the member in the last line failed: its store could not be written or synced, or was replaced",
        (
            "look at the kernel's log. A disk that failed once may have lost what later reads show: replace it, "
            "as a machine, or restart the machine where the cause is known and gone"
        ),
    ),
    11: (
        (
            "the store of the member in the last line is damaged, first at the key there; nothing was sent. Key 0 "
            "also stands for a store without a version, as zeros"
        ),
        "replace the store, as that of a machine",
    ),
    12: (
        "a link or a disk was not opened",
        "look at the journal, and at the list below",
    ),
    17: (
        (
            "the echo of a frame is late: no other node acknowledged it for half a second, or a second at 125 "
            "kbit/s or less, and it waits in the interface"
        ),
        "its unit takes the interface down and up. By hand do so before the cable is mended",
    ),
    18: (
        (
            "the member in the last line heard a stranger, by the frame there: another node has its node ID; or "
            "one that is not on its list does what members do, or answers as an allocator"
        ),
        (
            "compare CLUSTER on all machines; echo $((0xidentifier & 127)) tells who it was. Then stop all, and "
            "audit. Where a log has a member's ID, begin anew with the same IDs, without that line. Else mend the "
            "wrong list, replace that store, switch devices off and on"
        ),
    ),
    19: (
        (
            "what the second member in the last line sent contradicts what the first has committed: one of the "
            "two has the log of another cluster, or an old store"
        ),
        (
            "stop all members: those that go on may be the wrong ones. Audit all stores: which machine came from "
            "another vehicle, ran with another list, or was away when all was begun anew? Replace that one; else "
            "begin anew. Switch devices off and on"
        ),
    ),
    127: (
        "the program, or what starts it, is not there",
        "install the package again",
    ),
}


def refusal(cause: int, row: str) -> str:
    """Why this row of a schedule is refused for this cause; where the row is not known it is empty."""
    subject = ("device" if row[0] == "a" else "member") if row else "member or device"
    return _REFUSALS.get(cause, f"cause {cause}").replace("{subject}", subject)
