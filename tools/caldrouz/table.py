"""Data types, timers and sizes of the program. tools/make_table makes this file from the sources."""
from typing import Dict, NamedTuple


class DataType(NamedTuple):
    name: str
    number: int
    signature: int


class TransferType(NamedTuple):
    """What a transfer is on the bus: a message, a request or a response."""

    kind: str
    data_type: DataType


ALLOCATION = DataType("Allocation", 1, 0x0B2A812620A11D40)
NODE_STATUS = DataType("NodeStatus", 341, 0x0F0868D0C1A7C6F1)
DISCOVERY = DataType("Discovery", 390, 0x821AE2F525F69F21)
GET_NODE_INFO = DataType("GetNodeInfo", 1, 0xEE468A8121C46A9E)
APPEND_ENTRIES = DataType("AppendEntries", 30, 0x8032C7097B48A3CC)
REQUEST_VOTE = DataType("RequestVote", 31, 0xCDDE07BB89A56356)

# by its name in a report
TRANSFERS: Dict[str, TransferType] = {
    "alloc": TransferType("message", ALLOCATION),
    "disc": TransferType("message", DISCOVERY),
    "stat": TransferType("message", NODE_STATUS),
    "infoq": TransferType("request", GET_NODE_INFO),
    "info": TransferType("response", GET_NODE_INFO),
    "voteq": TransferType("request", REQUEST_VOTE),
    "vote": TransferType("response", REQUEST_VOTE),
    "appq": TransferType("request", APPEND_ENTRIES),
    "app": TransferType("response", APPEND_ENTRIES),
}

# Times in milliseconds, and what an allocator counts up to (can_frame)
STAGE_TIMEOUT = 500  # The next request of a device comes at most so long after the last one that was accepted.
ELECTION_WAIT = 2000  # The least wait before an election.
ELECTION_SPREAD = 2001  # What a random word leaves modulo this is added to the wait before an election.
HEARTBEAT_INTERVAL = 400
CALL_TIMEOUT = 1000  # After it a call to a peer is given up.
ONLINE_TIMEOUT = 3000  # A node is online for so long after its last NodeStatus.
QUERY_INTERVAL = 1000  # The time between two queries of a node. A response counts for so long too.
QUERY_LIMIT = 5  # A node that answers none of so many queries counts as silent.
DISCOVERY_INTERVAL = 1000  # The time between two Discoveries.
STATUS_INTERVAL = 1000  # The time between two NodeStatus.
TRANSFER_TIMEOUT = 2000

# Sizes of an allocator (can_frame)
MOST_MEMBERS = 5  # A cluster has at most so many members: a Discovery of the standard names up to five.
LOG_LIMIT = 127  # A log has at most so many entries.
LONGEST_PAYLOAD = 376  # The longest payload of a transfer, in bytes.

# The CAN bus transport layer of UAVCAN v0 (transfer_rx)
TRANSFER_IDS = 32  # Transfer IDs are counted modulo this.
FRAME_BYTES = 7  # The bytes of a full frame, without its tail.
CRC_BYTES = 2  # The bytes of the CRC in front of a transfer of several frames.

# A datagram (udp_link)
DATAGRAM_HEAD = 5  # The bytes of a datagram before the data: the identifier, and the number of data bytes.
DATAGRAM_MOST_DATA = 8  # The most data bytes of a frame.

# The highest node ID of a member (udp_link)
LAST = 125  # The highest node ID that has a port.

# How long a frame may wait in a link, in ms (host_pace)
LONGEST_WAIT = 1000

# When an echo is late on a CAN bus, in ms (can_link)
CAN_LATE = 500
CAN_LATE_WHERE_SLOW = 1000  # The same on a slow bus, where others that go first may have the wire for longer.
CAN_SLOW = 125000  # A bus with no more bits in a second is slow.

# How long a process rests before its first turn, in ms (allocator_app)
REST = 5500

# Words of members that are told their list (cmd_node)
LEAST_WORD = 1000  # The word of the lowest member, where the members are told their list.
MOST_LONGER = 1000  # By so much the highest member waits longer than the lowest, in milliseconds.

# An image of a store (disk_model)
IMAGE = 8844  # The size of a disk in bytes.

# The keys and values of a store (kv_store)
KEYS = 132  # How many keys a store has.
VALUE = 32  # How many bytes a value has at most.
COPY_SIZE = 33  # How many bytes a copy of a value has on the disk: its length and `VALUE` bytes.
KEY_SIZE = 67  # How many bytes a key has on the disk: its selector and two copies.

# What a key of a store has (raft_log)
KEY_VERSION = 0
KEY_TERM = 1
KEY_VOTE = 2
KEY_LAST = 3  # The place of the last entry.
KEY_COMMIT = 4
KEY_FIRST_ENTRY = 5  # The entry at place 1; the others follow.

# How an entry came into a log (raft_log)
ORIGIN_LEADER = 0  # From a leader, or stored before origins were.
ORIGIN_EXCHANGE = 1
ORIGIN_NODE_INFO = 2  # A node that has a node ID told its unique ID (uavcan.protocol.GetNodeInfo).
ORIGIN_RESERVATION = 3  # A reservation of a node ID.
ORIGIN_WIN = 4  # A leader's blank, which this member appended as the leader.

# The version of a store (raft_log)
NEWEST = 2  # The version of a store in which each entry has its origin.
