"""What `follow` found, in words. Not proved."""
from __future__ import annotations

from typing import Iterator, List

from .. import report, runs, wire
from ..logs import Log
from .recording import Logged, Recording
from .search import Found

SHOWN = 5  # of a list, at the most


def some(items: List[str]) -> str:
    rest = len(items) - SHOWN
    return ", ".join(items[:SHOWN]) + (f" and {rest} more" if rest > 0 else "")


def tell(log: Log, recording: Recording, found: Found) -> Iterator[str]:
    total = len(recording.frames)
    yield (
        f"{total:,} frames of the log are a matter of allocators; "
        f"{log.passed_over + recording.others:,} lines are other traffic."
    )
    if log.broken:
        yield f"Lines that cannot be read: {some(list(map(str, log.broken)))}."
    if recording.repeated:
        yield f"Lines that tell a frame once more, and are passed over: {some(list(map(str, recording.repeated)))}."
    for line, by in recording.jumps:
        yield f"The clock of the log jumps by {by:+,} ms at line {line}."
    yield from tell_members(recording, found)
    if found.unlogged:
        frames = [f"{frame} of member {node} (row {row})" for row, node, frame in found.unlogged]
        many = f"{len(frames)} frames of the run" if len(frames) > 1 else "One frame of the run"
        yield f"{many} never came to the log: {some(frames)}."
    if found.heard and recording.begins_late:
        yield "The log begins after the members did: they are taken to have heard each other from the beginning."
    if found.failure:
        frame = found.failure.frame
        yield f"{frame.index:,} of {total:,} frames are explained, up to row {len(found.rows):,}."
        yield f"line {frame.line}: {frame.frame} is not explained: {found.failure.reason}."
        yield from hint(recording, frame)
    else:
        yield f"All {total:,} frames are explained, by {len(found.rows):,} rows."


def tell_members(recording: Recording, found: Found) -> Iterator[str]:
    """When each member opened, stopped and led, by the run's own report."""
    window = runs.Window(found.before + 1, max(found.before + 1, len(found.rows)))
    run = runs.read([row + "\n" for row in found.rows], [line + "\n" for line in found.lines + found.rest], window)
    if found.before:
        yield f"The stores of the members come to what the files have by the rows up to {found.before:,}."
    for node, lane in run.member_lanes.items():
        parts = list(spans_in_words(run, lane, found.before))
        heard_late = [spell for spell in recording.spells[node] if spell.late_start]
        if heard_late and not found.heard:
            parts.append(f"comes to the bus late, {(heard_late[0].first.stamp - recording.begin) / 1000:.1f} s")
        yield f"Member {node}: {'; '.join(parts)}."
    told = [
        f"node ID {mark.text} by {mark.lane.name} (row {mark.row})"
        for mark in run.marks
        if mark.what == "told" and mark.lane.kind == "member" and mark.row > found.before
    ]
    if told:
        yield f"Told: {', '.join(told)}."
    for place, node, unique_id, members in run.tail.places():
        yield f"Place {place}: {wire.entry_words(node, unique_id)}, committed by {', '.join(map(str, members))}."


def spans_in_words(run: runs.Run, lane: runs.Lane, rows_before: int) -> Iterator[str]:
    before = "never"
    for row, what, term in lane.spans.kept:
        moment = f"{(run.moments[row - rows_before - 1] - run.moments[0]) / 1000:.1f} s"
        if what == report.LEADER:
            yield f"leads in term {term} from {moment} on"
        elif what == report.FOLLOWER and before == report.LEADER:
            yield f"follows from {moment} on"
        elif what == "stopped" and row > rows_before + 1:
            yield f"stops at {moment}"
        elif what == report.FOLLOWER and before in ("never", "stopped"):
            yield f"opens at {moment}"
        before = what


def hint(recording: Recording, frame: Logged) -> Iterator[str]:
    """What may be behind a line that is not explained."""
    _, kind, source, _ = frame.heading
    if source in recording.members and kind == wire.OTHER:
        yield f"Members send nothing of this kind: another node has the node ID {source}."
    calls = ("voteq", "vote", "appq", "app")
    before = (other.heading.kind for other in recording.frames[: frame.index])
    if kind in calls and not any(other in calls for other in before):
        yield (
            "It is the first of the log by which an election shows. If it is not of the first election, the log begins "
            "too late, or the stores were not empty: a log has to begin with the first power-on."
        )
