"""What a run did, as facts to draw, from its schedule and its report. Not proved."""
from __future__ import annotations

from dataclasses import dataclass, field
from typing import Any, Dict, Iterable, Iterator, List, NamedTuple, Optional, Set, Tuple

from . import report, texts, wire
from .report import Row


class Mismatch(Exception):
    """A schedule and a report that are not of one run, or cannot be read."""


class Window(NamedTuple):
    """The rows of which all is kept, from the first to the last."""

    first: int
    last: int

    def has(self, row: int) -> bool:
        return self.first <= row <= self.last


EVERYTHING = Window(1, 1 << 62)


class Changes:
    """What a lane had, from which row on: [(row, *values)]. What held before the window is told as of its first row."""

    def __init__(self, window: Window) -> None:
        self.window = window
        self.kept: List[Tuple[Any, ...]] = []
        self.now: Optional[Tuple[Any, ...]] = None

    def note(self, row: int, *values: Any) -> bool:
        """Whether this is another than before."""
        if values == self.now:
            return False
        self.now = values
        if row <= self.window.first:
            self.kept = [(self.window.first, *values)]
        elif row <= self.window.last:
            self.kept.append((row, *values))
        return True


class Lane:
    """What is drawn of one member, of one device, or of the outside."""

    def __init__(self, kind: str, key: str, name: str, window: Window) -> None:
        self.kind, self.key, self.name = kind, key, name
        self.mode = "never"  # never, run, stopped, failed; of devices also wait, hold, gone
        self.role, self.term = report.FOLLOWER, 0
        self.last = self.commit = self.queued = 0
        self.moment, self.holds = 0, 0
        self.known: List[int] = []
        self.is_told = False  # who the members are
        self.inside = ""  # the row in whose step it stopped, or its disk failed, until it opens again
        self.wins = 0  # how often it began to lead
        self.spans = Changes(window)  # what, term
        self.logs = Changes(window)  # last, commit
        self.states = Changes(window)  # what, term, last, commit, queued, moment, known

    @property
    def node(self) -> int:
        """The node ID of a member."""
        return int(self.key)

    def what(self) -> str:
        return self.role if self.mode == "run" else self.mode

    def note(self, row: int) -> None:
        what = self.what()
        if self.spans.note(row, what, self.term):
            self.wins += what == report.LEADER
        self.logs.note(row, self.last, self.commit)
        known = "all" if self.is_told else " ".join(map(str, self.known))
        self.states.note(row, what, self.term, self.last, self.commit, self.queued, self.moment, known)


class BusFrame:
    __slots__ = ("number", "row", "lane", "heading", "payload")

    def __init__(self, number: int, row: int, lane: Lane, heading: wire.Heading, payload: Optional[bytes]) -> None:
        self.number, self.row, self.lane, self.heading = number, row, lane, heading
        self.payload = payload  # of the transfer that is whole with this frame


class Arrow(NamedTuple):
    """A receipt of a frame. `how` is changed, took, part, bad, dropped or unwanted."""

    frame: BusFrame
    row: int
    to: Lane
    how: str


class Mark(NamedTuple):
    """What happened at a row. `what` is open, stop, fault, armed, full, told, commit or hold."""

    row: int
    lane: Lane
    what: str
    text: str


@dataclass
class Run:
    """A run, as far as it goes, and all of the rows of a window."""

    window: Window
    rows: List[str] = field(default_factory=list)  # of the window, as they are
    lines: List[str] = field(default_factory=list)  # theirs, without their numbers
    said: List[str] = field(default_factory=list)  # a sentence for each; "" where it changed nothing, and of frames
    moments: List[int] = field(default_factory=list)  # of each: its own, its member's latest, or that of the row before
    arrows: List[Arrow] = field(default_factory=list)
    lost: List[Tuple[BusFrame, Lane]] = field(default_factory=list)  # a frame, and a member that was never given it
    marks: List[Mark] = field(default_factory=list)
    events: Set[int] = field(default_factory=set)
    frames: Dict[int, BusFrame] = field(default_factory=dict)  # of the whole run, by number
    given: Dict[int, Set[Lane]] = field(default_factory=dict)  # by number: who was given a frame of the window
    member_lanes: Dict[int, Lane] = field(default_factory=dict)
    device_lanes: List[Lane] = field(default_factory=list)
    total: int = 0  # rows of the whole run
    stops: int = 0  # of members, as faults are
    faults: int = 0
    first_moment: Optional[int] = None
    last_moment: int = 0
    end: str = ""  # whole, refused or cut
    end_words: str = ""
    tail: report.End = field(default_factory=report.End)

    def __post_init__(self) -> None:
        self.outside = Lane("outside", "", "outside", self.window)

    @property
    def lanes(self) -> List[Lane]:
        """The outside, devices by unique ID in the order of their coming, and members by rising node ID."""
        return [self.outside, *self.device_lanes, *self.member_lanes.values()]

    def words(self, frame: BusFrame) -> str:
        teller = wire.Teller(self.member_lanes)
        if frame.payload is not None:
            return teller.says(frame.heading, frame.payload)
        unnamed = not frame.heading.source and frame.lane.kind in ("member", "device")
        sender = f"of {frame.lane.name}" if unnamed else f"from {teller.name(frame.heading.source)}"
        return f"a frame of {frame.heading.kind} {sender}"


def read(rows: Iterable[str], lines: Iterable[str], window: Window = EVERYTHING) -> Run:
    """The run of a schedule and a report, both line by line with their line feeds."""
    run = Run(window)
    reader, unfinished = _Reader(run), ""
    schedule = (row[:-1] if row.endswith("\n") else row for row in rows)
    in_tail = False
    for line in lines:
        if not line.endswith("\n"):
            unfinished = line
            break
        text = line[:-1]
        first, _, rest = text.partition(" ")
        if in_tail or first != str(run.total + 1) or " " not in rest:
            in_tail = True
            run.tail.take(text)
            continue
        row = next(schedule, None)
        if row is None:
            raise Mismatch(f"the report has a line for row {first}, and the schedule has {run.total} rows")
        run.total += 1
        reader.take(run.total, row, text)
    run.end, run.end_words = _read_end(run, unfinished, next(schedule, None))
    run.member_lanes = dict(sorted(run.member_lanes.items()))
    _give_devices_their_lanes(run)
    run.lost = list(_find_lost(run))
    return run


def _read_end(run: Run, unfinished: str, following: Optional[str]) -> Tuple[str, str]:
    """How the report ends: a key, and a sentence. `following` is the row behind those that have a line."""
    count, last = run.total, run.tail.last

    def row(word: str) -> str:
        return f"row {word}" + (f", `{following}`," if following and word == str(count + 1) else "")

    if last == ["end", str(count)]:
        return "whole", f"All {count:,} rows were taken."
    if last[:1] == ["unlawful"] and len(last) == 3 and last[2].isdigit():
        cause = texts.refusal(int(last[2][:9]), (following or "") if last[1] == str(count + 1) else "")
        return "refused", f"The run ends here: {row(last[1])} is refused, since {cause} (cause {last[2]})."
    if last[:2] == ["bad", "row"] and len(last) == 3:
        return "refused", (
            f"The run ends here: {row(last[2])} cannot be read: "
            "it is no row, has more than 120 bytes, or has no line feed."
        )
    if last[:1] == ["limit"] and len(last) == 2:
        return "refused", f"The run ends here: row {last[1]} is one more than the words of `replay` allow."
    where = f"after row {count}" + (f", inside the line '{unfinished}'" if unfinished else "")
    return "cut", (
        f"The report stops {where} and has no last line: its reading or writing failed "
        "(exit code 5 or 6), or it was cut afterwards."
    )


class _Reader:
    def __init__(self, run: Run) -> None:
        self.run, self.window = run, run.window
        self.slots: Dict[str, Lane] = {}  # the devices that are there, by their subject
        self.transfers = wire.Transfers()
        self.now = 0

    def take(self, number: int, text: str, line_text: str) -> None:
        try:
            row = report.read_row(text)
        except report.NotARow:
            raise Mismatch(
                f"row {number} of the schedule, '{text}', is no row, and the report has a line for it"
            ) from None
        if row.moment is not None:
            self.now = row.moment
        words = line_text.split(" ", 2)
        if words[1] != row.subject:
            raise Mismatch(
                f"line {number} of the report, '{line_text}', is not that of row {number} of the schedule, '{text}'"
            )
        try:
            said = self._change(number, row, report.read_line(line_text))
        except (LookupError, ValueError):
            raise Mismatch(f"line {number} of the report, '{line_text}', is none of row '{text}'") from None
        run = self.run
        run.first_moment = self.now if run.first_moment is None else min(run.first_moment, self.now)
        run.last_moment = max(run.last_moment, self.now)
        if self.window.has(number):
            run.rows.append(text)
            run.lines.append(line_text.partition(" ")[2])
            run.said.append(said)
            run.moments.append(self.now)

    def _change(self, number: int, row: Row, event: report.Event) -> str:
        if isinstance(event, report.Outside):
            self._put(number, self.run.outside, event.number, report.frame(row.words[1], row.words[2]))
            return ""
        lane = self._device_lane(row) if row.name[0] == "a" else self._member_lane(row)
        if isinstance(event, report.Sent):
            self.now = lane.moment
            lane.queued = max(0, lane.queued - 1)
            self._put(number, lane, event.number, event.frame)
            said = ""
        elif lane.kind == "device":
            said = self._device(number, row, event, lane)
        else:
            said = self._member(number, row, event, lane)
        lane.note(number)
        return said

    def _mark(self, number: int, lane: Lane, what: str, text: str = "") -> None:
        if lane.kind == "member":
            self.run.stops += what == "stop"
            self.run.faults += what == "fault"
        if self.window.has(number):
            self.run.marks.append(Mark(number, lane, what, text))
        self._event(number)

    def _event(self, number: int) -> None:
        if self.window.has(number):
            self.run.events.add(number)

    def _put(self, number: int, lane: Lane, frame_number: int, frame: wire.Frame) -> None:
        heading, payload = frame.heading, self.transfers.take(lane, frame)
        if payload is not None and lane.kind == "member":
            pair = wire.told(heading, payload)
            if pair:
                self._mark(number, lane, "told", str(pair[0]))
        self.run.frames[frame_number] = BusFrame(frame_number, number, lane, heading, payload)

    def _draw(self, number: int, frame: BusFrame, lane: Lane, how: str) -> None:
        if self.window.has(frame.row):
            self.run.given.setdefault(frame.number, set()).add(lane)
        if self.window.has(number):
            self.run.arrows.append(Arrow(frame, number, lane, how))

    # --- members

    def _member_lane(self, row: Row) -> Lane:
        node = int(row.subject)
        if node not in self.run.member_lanes:
            self.run.member_lanes[node] = lane = Lane("member", row.subject, f"member {node}", self.window)
            lane.note(1)
        return self.run.member_lanes[node]

    def _member(self, number: int, row: Row, event: report.Event, lane: Lane) -> str:
        what = event.word if isinstance(event, report.Plain) else ""
        if row.name == "rx" and what in ("stop", "fault"):
            seen = "unwanted" if lane.mode == "failed" else "changed"  # it ended in this step, or had failed before
            self._draw(number, self.run.frames[row.frame], lane, seen)
        if row.moment is not None and what != "fault":
            lane.moment = self.now if row.name in report.OPENINGS else max(lane.moment, self.now)
        if isinstance(event, report.Step):
            return self._step(number, row, event, lane)
        if isinstance(event, report.Opening):
            stored = _stored(lane, event)
            lane.mode, lane.role, lane.queued, lane.inside = "run", report.FOLLOWER, 0, ""
            lane.known, lane.is_told = [lane.node], row.name == "copen"
            lane.term, lane.last, lane.commit = event.term, event.last, event.commit
            vote = f", its vote is for {event.vote}" if event.vote else ""
            self._mark(number, lane, "open")
            return f"{lane.name} opens: term {lane.term}{vote}, {lane.last} entries, {lane.commit} committed{stored}"
        if what in ("stop", "fault") and row.name in ("tick", "rx") and lane.mode == "run":
            lane.inside = row.name
        if what == "stop":
            lane.mode, lane.queued, lane.known, lane.is_told = "stopped", 0, [], False
            self._mark(number, lane, "stop")
            return f"{lane.name} stops" + ("" if row.name == "crash" else f" inside its {row.name}")
        if what == "fault":
            if row.name in report.OPENINGS or lane.mode != "failed":
                self._mark(number, lane, "fault")
            if row.name not in report.OPENINGS:
                lane.mode, lane.queued = "failed", 0
            return f"{lane.name}: its disk failed"
        if what == "armed":
            self._mark(number, lane, "armed", row.words[2])
            end = "stop" if row.name == "crash" else "failure"
            return f"{lane.name}: a {end} is armed for device call {row.words[2]}"
        raise ValueError

    def _step(self, number: int, row: Row, step: report.Step, lane: Lane) -> str:
        role, term, last, commit, known = lane.role, lane.term, lane.last, lane.commit, lane.known
        lane.mode, lane.role, lane.term = "run", step.role, step.term
        lane.last, lane.commit, lane.queued = step.last, step.commit, step.queued
        said = []
        if (role, term) != (step.role, step.term):
            what = {"F": "follows", "C": "asks to lead", "L": "leads"}[lane.role]
            said.append(f"{lane.name} {what} in term {lane.term}")
            self._event(number)
        if last != step.last:
            said.append(f"{lane.name} has {lane.last} entries")
        if step.commit > commit:
            said.append(f"{lane.name} commits up to place {lane.commit}")
            self._mark(number, lane, "commit", str(lane.commit))
        if not all(mark.fitted for mark in step.marks):
            said.append("a transfer does not fit into its queue")
            self._mark(number, lane, "full")
        if row.name == "rx":
            frame = self.run.frames[row.frame]
            if step.seen == "took" and frame.heading.kind == "disc":
                _hear(lane, frame)
            changed = (role, term, last, commit) != (step.role, step.term, step.last, step.commit)
            changed = changed or len(known) != len(lane.known)
            answers = any(not mark.fitted or mark.name not in ("stat", "disc", "app", "infoq") for mark in step.marks)
            asks = frame.heading.kind in ("vote", "voteq", "info", "infoq")
            self._receive(number, frame, lane, step.seen, changed or answers or asks)
            if len(known) != len(lane.known):
                said.append(f"{lane.name} knows {', '.join(map(str, lane.known))}")
        return "; ".join(said)

    def _receive(self, number: int, frame: BusFrame, lane: Lane, seen: str, changed: bool) -> None:
        how = seen if seen in ("part", "bad") else "unwanted" if seen == "drop:1" else "dropped"
        if seen == "took":
            how = "changed" if changed else "took"
        self._draw(number, frame, lane, how)

    # --- devices

    def _device_lane(self, row: Row) -> Lane:
        """The lane of a device: of one that comes, the one that its unique ID had, unless a device that is there has
        that still."""
        if row.name != "aopen":
            return self.slots[row.subject]
        unique_id = row.words[2].lower()
        there = self.slots.values()
        lane = next((it for it in self.run.device_lanes if it.key == unique_id and it not in there), None)
        if lane is None:
            lane = Lane("device", unique_id, unique_id, self.window)
            lane.note(1)
            self.run.device_lanes.append(lane)
        self.slots[row.subject] = lane
        return lane

    def _device(self, number: int, row: Row, event: report.Event, lane: Lane) -> str:
        if isinstance(event, report.DeviceStep):
            return self._device_step(number, row, event, lane)
        if row.name == "aopen":
            lane.mode, lane.holds, lane.queued, lane.moment = "wait", 0, 0, self.now
            self._mark(number, lane, "open")
            wish = f", and would like node ID {row.words[3]}" if row.words[3] != "0" else ""
            return f"the device {lane.key} is there ({row.subject}){wish}"
        if row.name == "aend":
            lane.mode, lane.queued = "gone", 0
            self._mark(number, lane, "stop")
            del self.slots[row.subject]
            return f"the device {row.subject} goes"
        raise ValueError

    def _device_step(self, number: int, row: Row, step: report.DeviceStep, lane: Lane) -> str:
        lane.moment = max(lane.moment, self.now)
        before, said = (lane.mode, lane.holds), []
        lane.mode, lane.queued = "hold" if step.holds else "wait", step.queued
        lane.holds = lane.term = step.holds
        if (lane.mode, lane.holds) != before:
            said.append(f"the device {lane.key} holds node ID {lane.holds}")
            self._mark(number, lane, "hold", str(lane.holds))
        if not all(mark.fitted for mark in step.marks):
            said.append("a request does not fit into its queue")
            self._mark(number, lane, "full")
        if row.name == "arx":
            frame = self.run.frames[row.frame]
            payload = frame.payload or b""
            mine = bool(frame.heading.source) and len(payload) > 1 and lane.key.startswith(payload[1:].hex())
            self._receive(number, frame, lane, step.seen, mine and before[0] == "wait")
        return "; ".join(said)


def _stored(lane: Lane, opening: report.Opening) -> str:
    """What the step stored in which a member stopped, or its disk failed, as its next opening shows it."""
    if not lane.inside:
        return ""
    before = {"the term": lane.term, "entries": lane.last, "the commit index": lane.commit}
    after = opening.term, opening.last, opening.commit
    other = " and ".join(name for (name, had), has in zip(before.items(), after) if had != has)
    return f"; its {lane.inside} stored {other or 'neither term, entries nor commit index'} before it stopped"


def _hear(lane: Lane, frame: BusFrame) -> None:
    """A list that a member heard is joined to its own, as far as the cluster's size goes."""
    if not frame.payload:
        raise ValueError
    size = frame.payload[0]
    if frame.heading.source != lane.node and not lane.is_told:
        for node in [frame.heading.source, *frame.payload[1:]]:
            if node not in lane.known and 1 <= node <= 125 and len(lane.known) < size:
                lane.known = lane.known + [node]


# --- the whole run


def _find_lost(run: Run) -> Iterator[Tuple[BusFrame, Lane]]:
    for frame in run.frames.values():
        kind, to = frame.heading.kind, frame.heading.destination
        if not run.window.has(frame.row) or kind == wire.OTHER or kind == "alloc" and frame.heading.source:
            continue  # (no member takes these)
        for member in [to] if to else run.member_lanes:
            lane = run.member_lanes.get(member)
            if lane and lane not in run.given.get(frame.number, ()) and lane is not frame.lane:
                yield frame, lane


def _give_devices_their_lanes(run: Run) -> None:
    """Requests from outside go to the lanes of the unique IDs that they are of, as far as these are known."""
    lanes = {lane.key: lane for lane in run.device_lanes}
    whole = [(frame, frame.payload) for frame in run.frames.values() if frame.payload is not None]
    told = [(frame, wire.told(frame.heading, payload)) for frame, payload in whole]
    pairs = [(frame, *pair) for frame, pair in told if pair]
    unique_ids = dict.fromkeys([*lanes, *(unique_id for _, _, unique_id in pairs)])
    for log in run.tail.logs.values():
        unique_ids.update(dict.fromkeys(u for node, u in log if node and u != wire.NO_UNIQUE_ID))
    later: Optional[str] = None
    first_rows: Dict[Lane, int] = {}
    for frame, payload in reversed(whole):
        part = wire.asked_part(frame.heading, payload) if frame.lane is run.outside else None
        if part is None:
            continue
        at, digits = part
        fit = [u for u in unique_ids if u[2 * at : 2 * at + len(digits)] == digits]
        if len(fit) != 1 and later not in fit:
            continue
        if later is None or later not in fit:  # (several fit: it is of the device whose next stage follows)
            later = fit[0]
        if later not in lanes:
            lanes[later] = Lane("heard", later, later, run.window)
            run.device_lanes.append(lanes[later])
        frame.lane = lanes[later]
        first_rows[frame.lane] = frame.row
    run.device_lanes.sort(key=lambda lane: first_rows[lane] if lane.kind == "heard" else 0)
    for frame, node, unique_id in pairs:
        lane = lanes.get(unique_id)
        if lane and lane.kind == "heard" and frame.lane.kind == "member" and run.window.has(frame.row):
            run.marks.append(Mark(frame.row, lane, "told", str(node)))
