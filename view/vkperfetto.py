#!/usr/bin/env python3
"""vkperfetto.py TRACE TEXT > trace.json: a trace and what `vkreplay run` printed for it, in the Trace Event Format.

Perfetto (ui.perfetto.dev) and chrome://tracing read it: calls are slices on their threads, reports instant events with
their arguments, overlaps flows from the one call to the other, and the living objects of each type a counter. Times
are the places of events, one a microsecond, or what a recorder's comments say where the trace has them."""
import bisect
import json
import os
import sys
from collections import Counter

sys.dont_write_bytecode = True

import words  # noqa: E402
from runs import Run  # noqa: E402
from traces import Call, Report, Trace  # noqa: E402

PROCESS = 1


class Clock:
    """The time of each event's place. Between two times that a trace gives, and before and behind all of them, events
    stand at even steps, none before time 0."""

    def __init__(self, trace: Trace):
        self.marks: list[tuple[int, float]] = []
        for place, time in trace.times:
            if not self.marks or (place > self.marks[-1][0] and time >= self.marks[-1][1]):
                self.marks.append((place, float(time)))
        if len(self.marks) < 2:
            self.marks = []
        self.places = [place for place, _ in self.marks]
        self.recorded = bool(self.marks)

    def at(self, place: int) -> float:
        """Microseconds at a place."""
        if not self.marks:
            return float(place)
        after = min(max(bisect.bisect_right(self.places, place), 1), len(self.marks) - 1)
        (first, start), (second, stop) = self.marks[after - 1], self.marks[after]
        return max(0.0, round(start + (place - first) * (stop - start) / (second - first), 3))


def event(phase: str, name: str, thread: int, time: float, **more: object) -> dict[str, object]:
    """One event of the format."""
    return {"ph": phase, "name": name, "pid": PROCESS, "tid": thread, "ts": time, **more}


def heads(run: Run, trace: str) -> list[dict[str, object]]:
    """The names of the process and its threads."""
    out = [event("M", "process_name", 0, 0, args={"name": f"vkreplay {trace}"})]
    for at, thread in enumerate(run.trace.threads):
        out.append(event("M", "thread_name", thread, 0, args={"name": f"thread {thread}"}))
        out.append(event("M", "thread_sort_index", thread, 0, args={"sort_index": at}))
    return out


def slice_of(call: Call, clock: Clock) -> dict[str, object]:
    """A call as a slice."""
    told: dict[str, object] = {"call": call.number, "answer": call.answer, "skipped": call.skipped}
    for at, (names, many) in enumerate(zip(call.arguments, call.lists)):
        name = call.row.parameters[at].name if call.row else f"argument {at + 1}"
        told[name] = names if many else names[0]
    if call.results:
        told["results"], told["born"] = call.results, call.born
    if call.payload:
        told["payload"] = call.payload
    start = clock.at(call.begin)
    kind = "skipped" if call.skipped else "call"
    return event("X", call.command, call.thread, start, dur=round(clock.at(call.end) - start, 3), cat=kind, args=told)


def instant(report: Report, call: Call, clock: Clock) -> dict[str, object]:
    """A report as an instant event."""
    told: dict[str, object] = {
        "call": report.call, "place": report.place, "argument": report.argument, "sentence": report.words,
    }
    for name, value in (("index", report.index), ("children", report.children), ("with", report.other)):
        if value is not None:
            told[name] = value
    if report.label:
        told["name"] = report.label
    time, kind = clock.at(call.begin), f"report,{report.rule}"
    return event("i", report.identifier, call.thread, time, s="t", cat=kind, args=told)


def flow(number: int, call: Call, other: Call, clock: Clock) -> list[dict[str, object]]:
    """An overlap as a flow out of the open call, where the other begins in it."""
    time = clock.at(call.begin)
    return [
        event("s", "overlap", other.thread, time, id=number, cat="overlap"),
        event("f", "overlap", call.thread, time, id=number, cat="overlap", bp="e"),
    ]


def counters(run: Run, clock: Clock) -> list[dict[str, object]]:
    """How many objects of each type live, wherever that changes."""
    changes: list[tuple[int, int, str]] = []
    for found in run.objects.all:
        changes.append((found.born_at, 1, found.type))
        if found.ended_at is not None:
            changes.append((found.ended_at, -1, found.type))
    living: Counter[str] = Counter()
    at_place: dict[tuple[int, str], int] = {}
    for place, step, kind in sorted(changes):
        living[kind] += step
        at_place[place, kind] = living[kind]
    return [
        event("C", f"living {kind}", 0, clock.at(place), args={"objects": many})
        for (place, kind), many in at_place.items()
    ]


def events(run: Run, trace: str) -> list[dict[str, object]]:
    """All events of a run."""
    clock = Clock(run.trace)
    out = heads(run, trace)
    out += [slice_of(call, clock) for call in run.calls]
    for number, report in enumerate(run.reports, 1):
        call = run.calls[report.call - 1]
        out.append(instant(report, call, clock))
        if report.other is not None:
            out += flow(number, call, run.calls[report.other - 1], clock)
    return out + counters(run, clock)


def show(run: Run, trace: str, text: str) -> str:
    """The file, an event a line."""
    lines = ",\n".join(json.dumps(e, separators=(",", ":")) for e in events(run, os.path.basename(trace)))
    told = {
        "trace": os.path.basename(trace), "text": os.path.basename(text),
        "calls": len(run.calls), "skipped": run.skipped, "reports": run.told_reports,
        "times": "recorded microseconds" if Clock(run.trace).recorded else "places of events",
    }
    return f'{{"displayTimeUnit":"ms","otherData":{json.dumps(told)},"traceEvents":[\n{lines}\n]}}\n'


if __name__ == "__main__":
    sys.exit(words.main("vkperfetto", "vkperfetto.py TRACE TEXT > trace.json", False, show))
