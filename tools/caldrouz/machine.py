"""What a machine tells of itself: the disk below a store, processes of members, a CAN interface, its clock. Not proved.

    machine.disk_of(path)                 # a Disk: the kind of its file system, where it is mounted, with which options
    machine.refusal(".")                  # why a member that is told its list may not have its store there, or nothing
    machine.members_running()             # the processes that run members
    machine.interface("can0")             # an Interface, or None where `ip` cannot tell
    machine.Clocks().error(1.0)           # by which part of itself the clock of the members goes too fast now
    machine.slept()                       # seconds for which the machine was suspended since its start
"""
from __future__ import annotations

import contextlib
import glob
import json
import os
import re
import subprocess
import time
from typing import Dict, List, NamedTuple, Optional, Sequence, Tuple

from . import buses

LASTING = {"btrfs", "ext2", "ext3", "ext4", "f2fs", "jffs2", "jfs", "reiserfs", "ubifs", "vfat", "xfs", "zfs"}
IN_MEMORY = {"tmpfs", "ramfs", "devtmpfs", "rootfs"}
OF_NETWORK = {"nfs", "nfs4", "cifs", "smb3", "9p", "ceph", "afs", "fuse.sshfs", "glusterfs", "virtiofs"}
LAYERS = {"overlay", "aufs", "squashfs", "iso9660", "erofs"}
UNSAFE_OPTIONS = {"nobarrier", "barrier=0"}
ANY_DISK = "CALDROUZ_ANY_DISK"  # in the environment: whoever tries something says that its stores need not last
TELLS_WITHIN = 10.0  # seconds that a command of the system has to tell what it is asked
LONGEST_QUEUE = 10  # frames that an interface may keep
BEFORE_IDS = {"node": 5, "can": 4}  # words before the node IDs, by mode
MEMBER_UNITS = "caldrouz-can-node@{}.service", "caldrouz-serial@{}.service", "caldrouz-node@{}.service"
PROCESS_ENDED = "98e322203f7a4ed290d09fe03c09fe15"  # what systemd's messages say that tell how a process ended
SETTING = re.compile(r"\s*([A-Z_]+)=(.*)")


class Disk(NamedTuple):
    kind: str
    mounted: str
    options: List[str]

    def wrong(self) -> str:
        """Why it is none for a store, or nothing."""
        if self.kind in IN_MEMORY:
            return f"{self.kind} is in memory, and gone with the power"
        if self.kind in OF_NETWORK:
            return f"{self.kind} is a file system of the network"
        if self.kind in LAYERS:
            return f"{self.kind} is a layer of a container or an image, which is reset"
        unsafe = UNSAFE_OPTIONS & set(self.options)
        return f"it is mounted with {min(unsafe)}: what was synced may be lost" if unsafe else ""


def disk_of(path: str, mounts: str = "/proc/self/mountinfo") -> Optional[Disk]:
    """The file system below a path, or None where the system does not tell."""
    place, found = os.path.realpath(path), None
    try:
        with open(mounts, encoding="utf-8", errors="surrogateescape") as file:
            for line in file:
                front, _, back = line.partition(" - ")
                words, kinds = front.split(), back.split()
                if len(words) < 6 or len(kinds) < 3:
                    continue
                mounted = re.sub(r"\\([0-7]{3})", lambda it: chr(int(it[1], 8)), words[4])
                inside = place == mounted or place.startswith(mounted.rstrip("/") + "/")
                if inside and (found is None or len(mounted) >= len(found.mounted)):
                    found = Disk(kinds[0], mounted, words[5].split(",") + kinds[2].split(","))
    except OSError:
        return None
    return found


def refusal(folder: str) -> str:
    """Why members that are told their list are not started in this folder, or nothing. What the system does not tell is
    no reason."""
    disk = None if os.environ.get(ANY_DISK) else disk_of(folder)
    why = disk.wrong() if disk else ""
    trial = f"({ANY_DISK}=1 lets a trial be there)"
    return f"{os.path.realpath(folder)}: {why}: no place for a store {trial}" if why else ""


class Running(NamedTuple):
    """A process that runs members."""

    process: int
    members: List[int]
    folder: str
    mode: str  # node or can
    told: str  # the list of all members, or their number
    base: Optional[int] = None  # of node


def members_running(proc: str = "/proc") -> List[Running]:
    """The processes `.. node <members> <base> <turns> <id>..`, `.. can <members> <turns> <id>..` and
    `.. can <members> <id>` of this machine, as far as they may be seen."""
    found = []
    for name in sorted(filter(str.isdigit, os.listdir(proc)), key=int):
        try:
            with open(os.path.join(proc, name, "cmdline"), "rb") as file:
                words = file.read().decode("utf-8", "replace").split("\0")[:-1]
            folder = os.readlink(os.path.join(proc, name, "cwd"))
        except OSError:
            continue
        if len(words) < 2 or words[1] not in BEFORE_IDS or "allocator" not in os.path.basename(words[0]):
            continue
        before = 3 if words[1] == "can" and len(words) == 4 else BEFORE_IDS[words[1]]
        ids = [int(word) for word in words[before:] if word.isascii() and word.isdigit()]
        if not ids:
            continue
        base = int(words[3]) if words[1] == "node" and buses.is_base(words[3]) else None
        found.append(Running(int(name), ids, folder, words[1], words[2], base))
    return found


class Interface(NamedTuple):
    """A CAN interface, as `ip` tells it; None where it does not. `echo`: a frame comes back once it was on the bus.
    `errors` are the controller's error counters, the greater of both. How often since it is there: `bus_off` it left
    the bus, `restarts` it was brought back, `passive` it became ERROR-PASSIVE, `dropped` a frame to send was lost."""

    up: bool
    echo: bool
    kind: str
    queue: Optional[int]
    restart: Optional[int]
    bit_rate: Optional[int]
    state: Optional[str]
    errors: Optional[int] = None
    bus_off: Optional[int] = None
    restarts: Optional[int] = None
    passive: Optional[int] = None
    dropped: Optional[int] = None


def _said(*words: str) -> Optional[str]:
    """What a command of the system wrote; None where it is not there, or cannot tell."""
    try:
        done = subprocess.run(words, capture_output=True, text=True, errors="replace", timeout=TELLS_WITHIN)
    except (OSError, subprocess.TimeoutExpired):
        return None
    return done.stdout if done.returncode == 0 and done.stdout.strip() else None


def interface(name: str) -> Optional[Interface]:
    try:
        told = json.loads(_said("ip", "-json", "-details", "-statistics", "link", "show", "dev", name) or "")[0]
    except (ValueError, LookupError):
        return None
    info = _part(told, "linkinfo")
    data = _part(info, "info_data")
    counters = [count for count in map(_number, _part(data, "berr_counter").values()) if count is not None]
    flags = told.get("flags") if isinstance(told, dict) else None
    if not isinstance(flags, list):
        return None
    kind = str(info.get("info_kind", told.get("link_type", "")))
    counted = _part(info, "info_xstats")
    return Interface(
        "UP" in flags,
        "ECHO" in flags or kind in buses.WITHOUT_A_WIRE,
        kind,
        _number(told.get("txqlen")),
        _number(data.get("restart_ms")),
        _number(_part(data, "bittiming").get("bitrate")),
        str(data["state"]) if "state" in data else None,
        max(counters, default=None),
        _number(counted.get("bus_off")),
        _number(counted.get("restarts")),
        _number(counted.get("error_passive")),
        _number(_part(_part(told, "stats64"), "tx").get("dropped")),
    )


def _part(told: object, name: str) -> Dict[str, object]:
    """An object in an object of JSON; an empty one where there is none."""
    part = told.get(name) if isinstance(told, dict) else None
    return part if isinstance(part, dict) else {}


def _number(value: object) -> Optional[int]:
    return value if isinstance(value, int) else None


class Clocks:
    """The clock of the members beside the hardware's, from here on. A daemon that sets the time may slew it."""

    def __init__(self) -> None:
        self._begun = self._read()

    @staticmethod
    def _read() -> List[float]:
        return [time.clock_gettime(clock) for clock in (time.CLOCK_MONOTONIC, time.CLOCK_MONOTONIC_RAW)]

    def error(self, least: float) -> Tuple[float, float]:
        """By which part of itself it went too fast, as 0.01 where it is 1 %, and for how many seconds it was looked at:
        so many at the least, which are waited for."""
        time.sleep(max(0.0, least - (self._read()[1] - self._begun[1])))
        passed, truly = (now - then for now, then in zip(self._read(), self._begun))
        return passed / truly - 1, truly


def slept() -> float:
    """Seconds for which the machine was suspended since its start."""
    return time.clock_gettime(time.CLOCK_BOOTTIME) - time.clock_gettime(time.CLOCK_MONOTONIC)


def settings(path: str) -> Dict[str, str]:
    """The settings of the units, NAME=value. OSError where they cannot be read."""
    with open(path, encoding="utf-8", errors="replace") as file:
        found = [SETTING.match(line) for line in file]
    return {it[1]: it[2].strip().strip("\"'") for it in found if it}


def journal(unit: str) -> Optional[str]:
    """What a unit wrote to the journal since the machine's start, or None where that is not told."""
    return _said("journalctl", "-q", "-b", "-o", "cat", "--no-pager", "-n", "5000", "-u", unit)


def unit_value(unit: str, name: str) -> Optional[str]:
    """A property of a unit of systemd, or None where that is not told."""
    return _said("systemctl", "show", "-p", name, "--value", unit)


def units_enabled(folder: str = "/etc/systemd/system") -> List[str]:
    """The units of the package that start with the machine, without their endings: `systemctl enable` makes a link for
    each where a target wants it."""
    links = glob.glob(os.path.join(glob.escape(folder), "*.wants", "caldrouz-*@*.service"))
    return sorted({os.path.basename(path)[: -len(".service")] for path in links})


class End(NamedTuple):
    """How a member ended: its exit code, and how often within the last minute; 0 where that is longer ago."""

    status: int
    times: int = 0


def member_ends(members: Sequence[int]) -> Dict[int, End]:
    """How members ended that a unit of this machine has started: those that do not run now, and those that were started
    again since."""
    units = {unit.format(member): member for member in members for unit in MEMBER_UNITS}
    found: Dict[int, End] = {}
    told = _said("systemctl", "show", "-p", "Id,ActiveState,ExecMainCode,ExecMainStatus", *units) if units else None
    for part in (told or "").split("\n\n"):
        values = dict(line.split("=", 1) for line in part.splitlines() if "=" in line)
        is_away = values.get("ActiveState") in ("failed", "activating")
        status = values.get("ExecMainStatus", "")
        if is_away and values.get("ExecMainCode") == "1" and status.isdigit() and values.get("Id") in units:
            found[units[values["Id"]]] = End(int(status))
    recent = _said("journalctl", "-q", "-o", "json", "--no-pager", "--since=-60s", f"MESSAGE_ID={PROCESS_ENDED}")
    for line in (recent or "").splitlines():
        with contextlib.suppress(ValueError, KeyError, TypeError):
            entry = json.loads(line)
            member, ended = units[entry["UNIT"]], int(entry["EXIT_STATUS"])
            if entry["EXIT_CODE"] == "exited" and entry.get("COMMAND", "ExecStart") == "ExecStart" and ended:
                found[member] = End(ended, found.get(member, End(0)).times + 1)
    return found
