"""Tests of the settings of the units: what tools/check_settings says of them, and which of them a tool reads."""
from __future__ import annotations

import json
import pathlib
import tempfile
import unittest
from typing import Dict, List

from acts import Act
from support import ROOT, Ended, run_tool, write_lines

from caldrouz import machine, table, vehicle

WELL = {"CLUSTER": "1,2,3", "BASE": "5000", "MEMBERS": '"1"', "BITRATE": "1000000"}


class Case(unittest.TestCase):
    def setUp(self) -> None:
        folder = tempfile.TemporaryDirectory()
        self.addCleanup(folder.cleanup)
        self.folder = pathlib.Path(folder.name)

    def keep(self, name: str, **settings: str) -> pathlib.Path:
        path = self.folder / name
        path.parent.mkdir(exist_ok=True)
        return write_lines(path, [f"{key}={value}" for key, value in settings.items()])

    def faults(self, **settings: str) -> List[str]:
        return vehicle.faults(vehicle.read([str(self.keep("one", **{**WELL, **settings}))]))

    def of_machine(self, *words: object) -> Ended:
        settings, folder = self.folder / "default", self.folder / "buses"
        return run_tool("check_settings", "--settings", settings, "--folder", folder, *words)


class Words(Case):
    def test_settings_that_are_right(self) -> None:
        self.assertEqual(self.faults(), [])
        self.assertEqual(self.faults(CLUSTER="1,"), [])
        self.assertEqual(self.faults(CLUSTER="7,20,31", MEMBERS='"7 31"'), [])
        self.assertEqual(run_tool("check_settings", ROOT / "packaging/caldrouz.default").status, 0)

    def test_what_is_wrong_is_said_in_words(self) -> None:
        rows: Dict[str, Dict[str, str]] = {
            "no spaces in CLUSTER: '1, 2, 3' is to be 1,2,3": {"CLUSTER": '"1, 2, 3"'},
            "CLUSTER is a list of node IDs with commas between them, as 1,2,3, and not '1;2;3'": {"CLUSTER": "1;2;3"},
            "CLUSTER=3 says how many members there are": {"CLUSTER": "3"},
            "CLUSTER names 6 members": {"CLUSTER": "1,2,3,4,5,6"},
            "CLUSTER names 2 twice": {"CLUSTER": "1,2,2"},
            "CLUSTER names 118": {"CLUSTER": "1,2,118"},
            "BASE is a port, 1024 to 65410, and not '500'": {"BASE": "500"},
            "MEMBERS are node IDs with spaces between them": {"MEMBERS": "1,2,3"},
            "MEMBERS names 4, which is none of CLUSTER=1,2,3": {"MEMBERS": '"1 4"'},
            "BITRATE is a number of bits a second, as 1000000, and not '1M'": {"BITRATE": "1M"},
            "MEMBER is none of the settings": {"MEMBER": "1"},
        }
        for text, settings in rows.items():
            with self.subTest(text):
                self.assertIn(text, "\n".join(self.faults(**settings)))

    def test_settings_that_are_missing(self) -> None:
        it = vehicle.read([str(self.keep("one", CLUSTER="1,2,3"))])
        self.assertEqual(vehicle.faults(it), ["BASE is not set", "MEMBERS is not set"])


class Machines(Case):
    def said(self, *of: Dict[str, str]) -> Ended:
        return run_tool("check_settings", *(self.keep(f"m{at}", **{**WELL, **one}) for at, one in enumerate(of)))

    def test_a_lost_store_is_not_made_anew(self) -> None:
        self.keep("default", **{**WELL, "CLUSTER": "115,116,117", "MEMBERS": "117"})
        said = self.of_machine("--stores")
        self.assertEqual(said.status, 1)
        self.assertIn("117 has no store: caldrouz-new@117 makes it for one that never had any", said.written)

    def test_three_machines_that_agree(self) -> None:
        self.assertEqual(self.said({}, {"MEMBERS": "2"}, {"MEMBERS": "3"}).status, 0)

    def test_another_list(self) -> None:
        said = self.said({}, {"MEMBERS": "2"}, {"MEMBERS": "3", "CLUSTER": "1,3,4"})
        self.assertEqual(said.status, 1)
        self.assertIn("CLUSTER is 1,2,3 and 1,3,4, and is to be one", said.written)

    def test_another_order(self) -> None:
        self.assertIn("CLUSTER is", self.said({}, {"MEMBERS": '"2 3"', "CLUSTER": "3,2,1"}).written)

    def test_a_member_on_two_machines(self) -> None:
        self.assertIn("MEMBERS of both name 1", self.said({}, {"MEMBERS": '"1 2 3"'}).written)

    def test_a_member_on_no_machine(self) -> None:
        self.assertIn("member 3 is in CLUSTER, and no MEMBERS name it", self.said({}, {"MEMBERS": "2"}).written)

    def test_json(self) -> None:
        path = self.keep("one", **{**WELL, "BASE": "x"})
        told = json.loads(run_tool("check_settings", path, "--json").written)
        self.assertEqual((told["status"], len(told["wrong"])), ("bad", 1))


class TwoBuses(Case):
    def setUp(self) -> None:
        super().setUp()
        self.keep("default", **WELL)
        second = {**WELL, "CLUSTER": "4,5,6", "BASE": "5200", "MEMBERS": "4"}
        self.keep("buses/can1.conf", **second)
        (self.folder / "buses/4.conf").symlink_to("can1.conf")

    def of(self, bus: str) -> List[int]:
        found = vehicle.of_bus(bus, str(self.folder / "default"), str(self.folder / "buses"))
        return found.members if found else []

    def test_each_bus_has_its_settings(self) -> None:
        self.assertEqual((self.of("can0"), self.of("can1")), ([1, 2, 3], [4, 5, 6]))
        self.assertEqual((self.of("5000"), self.of("5200"), self.of("5400")), ([1, 2, 3], [4, 5, 6], []))

    def test_both_are_looked_at(self) -> None:
        said = self.of_machine()
        self.assertEqual((said.status, len(said.written.splitlines())), (0, 2), said.written)

    def test_buses_that_are_in_each_others_way(self) -> None:
        self.keep("buses/can1.conf", **{**WELL, "BASE": "5100"})
        said = self.of_machine()
        self.assertIn("BASE 5100 and 5000 share ports", said.written)
        self.assertIn("MEMBERS of both name 1", said.written)

    def test_a_machine_without_settings(self) -> None:
        (self.folder / "default").unlink()
        (self.folder / "buses/can1.conf").unlink()
        said = self.of_machine()
        self.assertEqual(said.status, 3)
        self.assertNotIn("Traceback", said.errors)

    def test_the_units_read_the_file_of_their_bus(self) -> None:
        for unit in sorted((ROOT / "packaging").glob("caldrouz-*@.service")):
            text = unit.read_text(encoding="utf-8")
            if "EnvironmentFile=" in text:
                with self.subTest(unit.name):
                    both = "EnvironmentFile=/etc/default/caldrouz\nEnvironmentFile=-/etc/caldrouz/%i.conf\n"
                    self.assertIn(both, text)


class Units(unittest.TestCase):
    def test_a_plug_may_be_loose_for_hours(self) -> None:
        text = (ROOT / "packaging/caldrouz-can-node@.service").read_text(encoding="utf-8")
        pause, most = (int(text.partition(f"\n{name}=")[2].split()[0]) for name in ("RestartSec", "StartLimitBurst"))
        self.assertGreater(most, 3600 / (pause + table.REST / 1000))  # (each life ends with a late echo after the rest)

    def test_a_member_on_the_interface_ends_the_bridge(self) -> None:
        """Beside it the bridge would drop the member's frames as those of a member behind it."""
        text = (ROOT / "packaging/caldrouz-can-node@.service").read_text(encoding="utf-8")
        conflicts = [line for line in text.splitlines() if line.startswith("Conflicts=")]
        self.assertEqual(len(conflicts), 1)
        self.assertIn("caldrouz-bridge@can0.service", conflicts[0].split("=")[1].split())


class Enabled(unittest.TestCase):
    def test_which_start_with_the_machine(self) -> None:
        with tempfile.TemporaryDirectory() as folder:
            for target, unit in (("multi-user", "caldrouz-node@1"), ("other", "caldrouz-node@1"), ("other", "ssh")):
                wants = pathlib.Path(folder) / f"{target}.target.wants"
                wants.mkdir(exist_ok=True)
                (wants / f"{unit}.service").symlink_to("/no/unit")
            self.assertEqual(machine.units_enabled(folder), ["caldrouz-node@1"])

    def test_units_that_cannot_run_together(self) -> None:
        rows = {
            "caldrouz-node@1 caldrouz-bridge@can0 caldrouz-monitor@can0": "",
            "caldrouz-can-node@1 caldrouz-can-node@2 caldrouz-record@can0": "",
            "caldrouz-can-node@1 caldrouz-bridge@can1 caldrouz-node@4": "",
            "caldrouz-can-node@1 caldrouz-node@2 caldrouz-bridge@can0": (
                "caldrouz-bridge@can0 and caldrouz-can-node@1 are"
            ),
            "caldrouz-can-node@1 caldrouz-node@1": "caldrouz-can-node@1 and caldrouz-node@1 are enabled together",
            "caldrouz-serial@3 caldrouz-can-node@3": "caldrouz-can-node@3 and caldrouz-serial@3 are enabled together",
        }
        for units, text in rows.items():
            with self.subTest(units):
                found = vehicle.between_units(units.split())
                self.assertEqual(len(found), bool(text))
                self.assertIn(text, "".join(found))


class Tools(Case):
    """`why` knows the members by settings."""

    def test_settings_that_are_named(self) -> None:
        act = Act()
        act.cluster([1, 2, 3], 0, 9, away=[3])
        log = write_lines(self.folder / "log", act.log())
        said = run_tool("why", log, "--settings", self.keep("one", **{**WELL, "CLUSTER": "1,2"}))
        self.assertIn("another-list: Member 1 calls 2 and 3, and the members are to be 1 and 2", said.written)
        self.assertIn(f"The members are told by {self.folder / 'one'}", said.written)
        self.assertEqual(run_tool("why", log, "--settings", "no such file").status, 3)

    def test_a_number_says_how_many(self) -> None:
        act = Act()
        act.cluster([1, 2, 3], 0, 9)
        said = run_tool("why", write_lines(self.folder / "log", act.log()), "--members", "3", "--json")
        told = json.loads(said.written)
        self.assertEqual((said.status, told["status"], told["members"], told["size"]), (0, "well", [1, 2, 3], 3))


if __name__ == "__main__":
    unittest.main()
