"""The command lines of the tools: their words, their exit codes, how they end, and what they are given. Not proved."""
from __future__ import annotations

import argparse
import contextlib
import errno
import math
import os
import pathlib
import re
import shutil
import signal
import sys
import time
from typing import Callable, Iterator, List, NamedTuple, NoReturn, Optional, Sequence, Tuple

from . import buses, causes, health, logs, machine, stores, table, vehicle, wire

DONE, FOUND, WORDS, CANNOT, PROGRAM, WARNING, WRITE = 0, 1, 2, 3, 4, 5, 6  # exit codes
OF_HEALTH = {health.WELL: DONE, health.WARNING: WARNING, health.BAD: FOUND}
MEMBERS_ARE = f"a cluster has 1 to {table.MOST_MEMBERS} different members, of 1 to {table.LAST}"


class Ended(Exception):
    """A tool ends with a status, and says why."""

    def __init__(self, status: int, text: str) -> None:
        super().__init__(text)
        self.status = status


def parser(name: str, about: str, usage: str) -> argparse.ArgumentParser:
    """A parser that shows a module's text, in which the exit codes come last. An installed tool goes by the name of its
    command."""
    command = os.environ.get("CALDROUZ_COMMAND", name)
    usage = re.sub(rf"^( *){name}\b", rf"\1{command}", usage, flags=re.MULTILINE)
    about = re.sub(rf"^{name} ", f"{command} ", about, flags=re.MULTILINE)
    what, begin, codes = about.partition("exit codes")
    form = argparse.RawDescriptionHelpFormatter
    end = begin + codes
    made = argparse.ArgumentParser(prog=command, usage=usage, description=what, epilog=end, formatter_class=form)
    made.add_argument("--version", action="version", version=version(), help="of which version the tool is")
    return made


def version() -> str:
    """That of the package where a tool is installed, as the program tells it too; else that of the sources."""
    above = pathlib.Path(__file__).resolve().parents[2]
    for place, form in (above / "BUILD", "{}"), (above / "VERSION", "caldrouz {}"):
        if place.is_file():
            return form.format(place.read_text(encoding="ascii").split("\n")[0])
    return "caldrouz, of a version that it does not know"


def run(name: str, main: Callable[[], int]) -> NoReturn:
    """Runs a tool to its exit code: an end says why, and neither Ctrl-C nor a closed pipe shows a trace."""
    try:
        status = main()
        sys.stdout.flush()
    except Ended as end:
        print(f"{name}: {end}", file=sys.stderr)
        status = end.status
    except KeyboardInterrupt:
        status = 130
    except OSError as error:  # standard output: what else can fail is looked at where it is done
        if not isinstance(error, BrokenPipeError):
            print(f"{name}: {error.strerror}", file=sys.stderr)
        os.dup2(os.open(os.devnull, os.O_WRONLY), sys.stdout.fileno())
        status = WRITE
    sys.exit(status)


def end_by_signals() -> None:
    """From here on SIGTERM and SIGINT end the tool, and nothing is wrong then."""
    for number in (signal.SIGTERM, signal.SIGINT):
        signal.signal(number, lambda *_: sys.exit(DONE))


def are_members(nodes: Sequence[int]) -> bool:
    """Whether a cluster may have these members."""
    return len(set(nodes)) == len(nodes) <= table.MOST_MEMBERS and all(1 <= node <= table.LAST for node in nodes)


def node_ids(text: str) -> List[int]:
    """The node IDs of members, with commas between them, for argparse. One alone may end in a comma."""
    words = text[:-1].split(",") if text.endswith(",") else text.split(",")
    if not all(word.isascii() and word.isdigit() and len(word) <= 3 for word in words):
        raise argparse.ArgumentTypeError("node IDs with commas between them are asked for, as 1,2,3")
    nodes = [int(word) for word in words]
    if not are_members(nodes):
        raise argparse.ArgumentTypeError(MEMBERS_ARE)
    return nodes


class Cluster(NamedTuple):
    """Whom a cluster has, as far as it is told: its members, or their number alone, or nothing. `of`: by whom."""

    members: Sequence[int] = ()
    size: Optional[int] = None
    of: str = ""


def cluster(text: str) -> Cluster:
    """What CLUSTER of the settings may say, for argparse: a list with a comma, or how many members there are."""
    if text.isascii() and text.isdigit() and 1 <= len(text) <= 3:
        if not 1 <= int(text) <= table.MOST_MEMBERS:
            raise argparse.ArgumentTypeError(MEMBERS_ARE)
        return Cluster(size=int(text))
    nodes = node_ids(text)
    return Cluster(nodes, len(nodes))


def add_cluster(parser: argparse.ArgumentParser) -> None:
    """The words by which a tool knows the cluster of a bus."""
    what = "the node IDs of all members; a number alone is how many there are; else as the settings say"
    parser.add_argument("--members", type=cluster, metavar="ID,ID..", help=what)
    what = "the settings of the units; else those of this bus on this machine"
    parser.add_argument("--settings", metavar="FILE", help=what)


def vehicle_of(told: argparse.Namespace, bus: Optional[str]) -> Optional[vehicle.Vehicle]:
    """The settings that are named; else those of this bus on this machine, where there are some; an empty name is any
    bus."""
    if told.settings:
        with naming(told.settings):
            return vehicle.read([told.settings])
    return vehicle.of_bus(bus) if bus is not None else None


def cluster_of(told: argparse.Namespace, settings: Optional[vehicle.Vehicle]) -> Cluster:
    """The cluster of the words, or that of the settings, as far as these are right."""
    if told.members:
        return Cluster(told.members.members, told.members.size)
    if settings is None or not settings.size or not (are_members(settings.members) or not settings.members):
        return Cluster()
    if settings.size > table.MOST_MEMBERS:
        return Cluster()
    return Cluster(settings.members, settings.size, settings.source)


def unheard(bus: str, cluster: Cluster, settings: Optional[vehicle.Vehicle]) -> List[int]:
    """The members that cannot be heard on a bus: at a base port those of other machines."""
    here = settings.here if settings else []
    return [node for node in cluster.members if here and node not in here] if buses.is_base(bus) else []


def seconds(text: str) -> float:
    """A time in seconds, up to a day, for argparse."""
    try:
        value = float(text)
    except ValueError:
        value = -1.0
    if not 0 <= value <= 86400:
        raise argparse.ArgumentTypeError("a time is 0 to 86400 seconds")
    return value


@contextlib.contextmanager
def naming(name: str, status: int = CANNOT) -> Iterator[None]:
    """Ends the tool where what has this name cannot be opened, read or sent to within."""
    try:
        yield
    except (OSError, stores.Damaged) as error:
        why = str(error.strerror) if isinstance(error, OSError) else str(error)
        hint = ": is the kernel's module `can` there?" if getattr(error, "errno", 0) == errno.EAFNOSUPPORT else ""
        raise Ended(status, f"{name}: {why}{hint}") from None


def open_bus(word: str, sends: bool = False, status: int = CANNOT) -> buses.Bus:
    with naming(word, status):
        return buses.open_bus(word, sends)


def hear(
    bus: buses.Bus, name: str, seconds: float = math.inf, tick: float = 0.2
) -> Iterator[Tuple[float, Optional[wire.Frame]]]:
    """What comes to a bus within so many seconds, each with its moment; None, where nothing came for a tick."""
    end = time.monotonic() + seconds
    while (left := end - time.monotonic()) > 0:
        with naming(name):
            frame = bus.receive(min(tick, left))
        yield time.monotonic(), frame


def read_log(path: str, status: int = CANNOT) -> logs.Log:
    """A log that has frames; the status is that of one that cannot be read."""
    try:
        log = logs.read(path)
    except logs.CannotRead as error:
        raise Ended(status, str(error)) from None
    if not log.frames:
        nothing = "it has no data frame with 29 bits: no node was heard (TROUBLE.md, \"Bring-up of a bus\")"
        what = "no line of it is one of `candump -L`" if log.broken else nothing
        raise Ended(status if log.broken else CANNOT, f"{path}: {what}")
    return log


def stores_of(folder: str) -> List[Tuple[int, str]]:
    """The stores of a folder that has some."""
    with naming(folder):
        found = stores.in_folder(folder)
    if not found:
        raise Ended(CANNOT, f"{folder}: no store (alloc-<id>.store) is in this folder")
    return found


def read_stores(paths: Sequence[str]) -> List[Tuple[str, stores.Store]]:
    """The stores of files, and those in folders, with their names."""
    found = []
    for path in paths:
        for file in [file for _, file in stores_of(path)] if os.path.isdir(path) else [path]:
            with naming(file):
                found.append((os.path.basename(file), stores.read(file)))
    return found


def readable_stores(settings: Optional[vehicle.Vehicle]) -> List[Tuple[str, stores.Store]]:
    """The stores of the members of this machine by its settings, as far as they are there and may be read."""
    found = []
    for member, folder in zip(settings.here, settings.folders) if settings else ():
        name = f"alloc-{member}.store"
        with contextlib.suppress(OSError, stores.Damaged):
            found.append((name, stores.read(os.path.join(folder, name))))
    return found


def seen_here(bus: str, members: Sequence[int] = ()) -> List[causes.Cause]:
    """What the machine tells of a bus: its CAN interface, and the lists that processes of members were told."""
    base = int(bus) if buses.is_base(bus) else None
    found = list(causes.lists_here(machine.members_running(), members, base))
    return found if base is not None else [*causes.interface(bus, machine.interface(bus)), *found]


def default_program() -> str:
    """The repository's ./allocator, or the one that is installed."""
    here = os.path.join(os.path.dirname(os.path.dirname(os.path.realpath(sys.argv[0]))), "allocator")
    return here if os.path.exists(here) else shutil.which("allocator") or "allocator"
