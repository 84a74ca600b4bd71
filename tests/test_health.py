"""Tests of what programs read: metrics, `monitor --once`, and the alarm rules over them."""
from __future__ import annotations

import json
import pathlib
import re
import stat
import tempfile
import unittest

import members
from acts import ONE, Act
from support import ROOT, run_tool

from caldrouz import health, machine, stores, table, wire


def metrics_of(act: Act, *known: int) -> str:
    store = stores.Store(table.NEWEST, 5, 1, 2, [wire.Entry(1, wire.NO_UNIQUE_ID, 0, 4), wire.Entry(2, ONE, 42, 1)])
    return health.metrics("can0", health.of(act.scene(known), [("alloc-1.store", store)] if known else []), 1.7e9)


class Metrics(unittest.TestCase):
    def test_a_cluster_with_one_away(self) -> None:
        act = Act()
        act.cluster([1, 2, 3], 0, 9, place=2, away=[3])
        act.stands(1, [2, 3], 0.04, 5, [2])
        text = metrics_of(act, 1, 2, 3)
        for line in (
            'caldrouz_status{bus="can0"} 1',
            'caldrouz_leader{bus="can0"} 1',
            'caldrouz_term{bus="can0"} 5',
            'caldrouz_members{bus="can0"} 3',
            'caldrouz_members_heard{bus="can0"} 2',
            'caldrouz_member_heard{bus="can0",member="3"} 0',
            'caldrouz_log_entries{bus="can0"} 2',
            'caldrouz_log_places_left{bus="can0"} 125',
            'caldrouz_node_ids_left{bus="can0"} 121',
            'caldrouz_log_blanks{bus="can0"} 1',
            'caldrouz_elections_last_minute{bus="can0"} 1',
            'caldrouz_new_pairs_last_minute{bus="can0"} 0',
            'caldrouz_cause{bus="can0",cause="deaf-member",kind="warning"} 1',
        ):
            self.assertIn(line + "\n", text)

    def test_each_line_has_the_form_of_a_metric(self) -> None:
        act = Act()
        act.cluster([1, 2, 3], 0, 9)
        form = r'# (HELP|TYPE) caldrouz_\w+ .+|caldrouz_\w+\{(\w+="[^"]*",?)+\} -?[0-9.]+'
        for line in metrics_of(act).splitlines():
            self.assertRegex(line, f"^({form})$")

    def test_what_is_not_known_is_left_out(self) -> None:
        self.assertNotIn("log_entries", health.metrics("can0", health.of(Act().scene()), 0.0))

    def test_an_interface(self) -> None:
        it = machine.Interface(True, True, "can", 10, 100, 500000, "BUS-OFF", 248, 2, 1, 4, 6)
        lines = [line for line in health.metrics_of_interface("can1", it).splitlines() if line[0] != "#"]
        self.assertEqual(
            lines,
            [
                'caldrouz_interface_up{bus="can1"} 1',
                'caldrouz_interface_state{bus="can1"} 3',
                'caldrouz_interface_error_counter{bus="can1"} 248',
                'caldrouz_interface_queue_frames{bus="can1"} 10',
                'caldrouz_interface_bus_off_total{bus="can1"} 2',
                'caldrouz_interface_restarts_total{bus="can1"} 1',
                'caldrouz_interface_error_passive_total{bus="can1"} 4',
                'caldrouz_interface_dropped_total{bus="can1"} 6',
            ],
        )
        virtual = machine.Interface(True, True, "vcan", 1000, None, None, None)
        lines = health.metrics_of_interface("can1", virtual).splitlines()
        self.assertEqual(len(lines), 6)  # up and queue, 3 lines each
        self.assertEqual(health.metrics_of_interface("can1", None), "")

    def test_labels_that_need_care(self) -> None:
        lines = list(health.metric("x", "X", [({"bus": 'a"b\\c'}, 1)]))
        self.assertEqual(lines[-1], 'caldrouz_x{bus="a\\"b\\\\c"} 1')

    def test_a_file_that_others_may_read(self) -> None:
        with tempfile.TemporaryDirectory() as folder:
            path = pathlib.Path(folder) / "bus.prom"
            health.write(str(path), "a\n")
            health.write(str(path), "b\n")
            self.assertEqual([it.name for it in pathlib.Path(folder).iterdir()], ["bus.prom"])
            self.assertEqual(path.read_text(), "b\n")
            self.assertEqual(stat.S_IMODE(path.stat().st_mode), 0o644)
            with self.assertRaises(OSError):
                health.write(str(pathlib.Path(folder) / "none" / "bus.prom"), "a\n")

    def test_alarms_name_metrics_and_counts_that_there_are(self) -> None:
        act = Act()
        act.cluster([1, 2, 3], 0, 9)
        bridge = (ROOT / "tools/can_bridge").read_text(encoding="utf-8")
        it = machine.Interface(True, True, "can", 10, 100, 500000, "BUS-OFF", 248, 2, 1, 4, 6)
        text = metrics_of(act, 1, 2, 3) + health.metrics_of_interface("can0", it)
        there = set(re.findall(r"^caldrouz_\w+", text, re.M)) | {"caldrouz_bridge_frames_total"}
        rules = (ROOT / "packaging/caldrouz-alarms.yml").read_text(encoding="utf-8")
        expressions = "\n".join(re.findall(r"expr: (.*)", rules))
        self.assertEqual(set(re.findall(r"caldrouz_\w+", expressions)) - there, set())
        for name in re.findall(r'count=~"([^"]*)"', expressions):
            for count in name.split("|"):
                self.assertIn(f'"{count}"', bridge)


class Once(unittest.TestCase):
    def test_a_base_where_nothing_is(self) -> None:
        said = run_tool("monitor", members.free_base(), "--once", "--seconds", "0.3", "--json")
        told = json.loads(said.written)
        self.assertEqual((said.status, told["status"], told["causes"][0]["name"]), (1, "bad", "silence"))

    def test_metrics_that_cannot_be_written(self) -> None:
        said = run_tool("monitor", members.free_base(), "--seconds", "6", "--metrics", "/none/bus.prom")
        self.assertEqual(said.status, 3)
        self.assertNotIn("Traceback", said.errors)


if __name__ == "__main__":
    unittest.main()
