"""Members of a cluster that are killed while devices ask them, and what has to hold of their stores, for the scripts
beside this one."""
from __future__ import annotations

import os
import random
import subprocess
import threading
import time
from typing import Dict, List, Optional, Tuple

from scripts import PROGRAM

import device
from caldrouz import stores

MEMBERS = (1, 2, 3)
KILLS_OF_A_CLUSTER = 50  # a new cluster then: a log has 127 places

Log = List[Tuple[bytes, int]]  # unique ID, node ID


def committed(path: str) -> Log:
    """The committed entries of a store, as (unique ID, node ID); blanks too."""
    return [(bytes.fromhex(entry.unique_id), entry.node) for entry in stores.read(path).committed]


class Cluster:
    def __init__(self, folder: str, base: int, preloaded: str = "") -> None:
        self.environment = {**os.environ, **({"LD_PRELOAD": preloaded} if preloaded else {})}
        self.folder, self.base, self.program = folder, base, os.path.abspath(os.environ.get("PROGRAM", PROGRAM))
        self.running: Dict[int, subprocess.Popen[bytes]] = {}
        self.known: Dict[int, Log] = {node: [] for node in MEMBERS}
        for node in MEMBERS:
            self.start(node)

    def store(self, node: int) -> str:
        return os.path.join(self.folder, f"alloc-{node}.store")

    def start(self, node: int) -> None:
        words = [self.program, "node", str(len(MEMBERS)), str(self.base), "1000000000", str(node)]
        self.running[node] = subprocess.Popen(
            words, cwd=self.folder, env=self.environment, stdout=subprocess.PIPE, stderr=subprocess.DEVNULL
        )

    def kill(self, node: int) -> None:
        self.running[node].kill()
        self.running[node].communicate()

    def ended(self, node: int) -> Optional[str]:
        """What a member wrote that ended by itself, or None."""
        process = self.running[node]
        return None if process.poll() is None else process.communicate()[0].decode().strip()


class Asker(threading.Thread):
    """A device that asks for one unique ID after the other."""

    def __init__(self, base: int, port_id: int, seed: int) -> None:
        super().__init__(daemon=True)
        self.base, self.port_id, self.random = base, port_id, random.Random(seed)
        self.told: Log = []
        self.ends = False

    def run(self) -> None:
        bus = device.UdpBus(self.base, self.port_id)
        while not self.ends:
            unique_id = bytes(self.random.randrange(256) for _ in range(16))
            node = device.ask_on(bus, unique_id, 20.0)
            if node is not None:
                self.told.append((unique_id, node))


def is_front(a: Log, b: Log) -> bool:
    return a == b[: len(a)] or b == a[: len(b)]


def check_start(cluster: Cluster, node: int, faults: List[str]) -> None:
    """After a kill, before the start and once it runs."""
    log = committed(cluster.store(node))
    if cluster.known[node] != log[: len(cluster.known[node])]:
        faults.append(f"member {node} lost what it had committed")
    for other in MEMBERS:
        if not is_front(log, cluster.known[other]):
            faults.append(f"members {node} and {other} have committed different logs")
    cluster.known[node] = log
    cluster.start(node)
    time.sleep(0.05)
    ended = cluster.ended(node)
    if ended is not None:
        faults.append(f"member {node} ended at its start: {ended}")
        cluster.start(node)


def end_cluster(cluster: Cluster, askers: List[Asker], faults: List[str]) -> Tuple[int, int]:
    for asker in askers:
        asker.ends = True
    for asker in askers:
        asker.join()
    for node in MEMBERS:
        cluster.kill(node)
    logs = [committed(cluster.store(node)) for node in MEMBERS]
    longest = max(logs, key=len)
    for log in logs:
        if not is_front(log, longest):
            faults.append("two members have committed different logs")
    pairs = [entry for entry in longest if any(entry[0])]
    if len({node for _, node in pairs}) != len(pairs) or len({uid for uid, _ in pairs}) != len(pairs):
        faults.append("a node ID or a unique ID stands twice in the log")
    told = [pair for asker in askers for pair in asker.told]
    given: Dict[int, bytes] = {}
    for unique_id, node in told:
        if given.setdefault(node, unique_id) != unique_id:
            faults.append(f"node ID {node} was given twice")
        if (unique_id, node) not in longest:
            faults.append(f"the pair of node ID {node} is in no committed log")
    return len(told), len(pairs)
