"""The page of a run: its facts as one JSON block, and what draws them. Not proved.

The block is the element `facts` of the page; tests compare pages by it, and web/facts.js makes the same:

    rows, lines, said, moments   one each row
    lanes    of members and devices, with spans (row, role, term), logs (row, last, committed) and states (row, role,
             term, last, committed, queued, moment, known), each from its row on
    arrows   row of the frame, row of the receipt, from lane, to lane, kind, what came of it (changed, took, part, bad,
             dropped, unwanted), frame
    lost     row, from lane, to lane, kind, frame
    marks    row, lane, what, text
    events, frames, places       rows of events, frames in words, and the places of the committed logs
"""
from __future__ import annotations

import html
import json
import pkgutil
import re
from typing import Any, Dict

from . import report
from .runs import Run

FIELD = re.compile("@([A-Z]+)@")


def facts(run: Run, title: str) -> Dict[str, Any]:
    """All that the page has, in lists without names where there are many."""
    index = {lane: at for at, lane in enumerate(run.lanes)}
    frames = {frame.number: run.words(frame) for frame in run.frames.values() if run.window.has(frame.row)}
    frames.update({arrow.frame.number: run.words(arrow.frame) for arrow in run.arrows})
    return {
        "title": title,
        "first": run.window.first,
        "last": min(run.window.last, run.total),
        "total": run.total,
        "end": run.end,
        "end_words": run.end_words,
        "lanes": [
            {"kind": it.kind, "name": it.name, "spans": it.spans.kept, "logs": it.logs.kept, "states": it.states.kept}
            for it in run.lanes
        ],
        "rows": run.rows,
        "lines": run.lines,
        "said": run.said,
        "moments": run.moments,
        "frames": frames,
        "arrows": [
            [it.frame.row, it.row, index[it.frame.lane], index[it.to], it.frame.heading.kind, it.how, it.frame.number]
            for it in run.arrows
        ],
        "lost": [[it.row, index[it.lane], index[to], it.heading.kind, it.number] for it, to in run.lost],
        "marks": [[mark.row, index[mark.lane], mark.what, mark.text] for mark in run.marks],
        "events": sorted(run.events),
        "places": run.tail.places(),
        "roles": report.ROLES,
        "drops": report.DROPS,
    }


def _count(number: int, one: str, many: str = "") -> str:
    return f"{number} {one if number == 1 else many or one + 's'}"


def summary(run: Run) -> str:
    devices = sum(lane.kind in ("device", "heard") for lane in run.lanes)
    parts = [
        f"{run.total:,} row{'s' * (run.total != 1)}",
        _count(len(run.member_lanes), "member"),
        "no moment" if run.first_moment is None else f"{run.first_moment:,} to {run.last_moment:,} ms",
        _count(run.stops, "stop"),
        _count(run.faults, "failure"),
        _count(sum(lane.wins for lane in run.lanes), "election won", "elections won"),
        _count(devices, "device known by unique ID", "devices known by unique ID"),
    ]
    return ", ".join(parts) + "."


def part(name: str) -> str:
    """One of the files that a page is made of."""
    data = pkgutil.get_data(__package__, name)
    assert data is not None
    return data.decode("utf-8")


def page(run: Run, title: str) -> str:
    fields = {
        "TITLE": html.escape(title),
        "SUMMARY": html.escape(summary(run)),
        "END": re.sub(r"`([^`]*)`", r"<code>\1</code>", html.escape(run.end_words)),
        "ENDKIND": run.end,
        "DATA": json.dumps(facts(run, title), separators=(",", ":")).replace("<", "\\u003c"),
        "STYLE": part("page.css"),
        "PICTURE": part("picture.html"),
        "SCRIPT": part("story.js") + part("picture.js"),
    }
    return FIELD.sub(lambda field: fields[field[1]], part("view.html"))
