#!/usr/bin/env python3
"""vkview.py TRACE TEXT [--names FILE] > page.html: a trace and what `vkreplay run` or `vknames` printed for it, as one
page.

The page stands alone: its script and its style are in it, and its policy allows no other and no network. What came
from the files stands in it as JSON with each `<` escaped, and the script sets it as text alone, so that no name, path
or payload becomes anything else."""
import base64
import hashlib
import json
import os
import pathlib
import sys

sys.dont_write_bytecode = True

import words  # noqa: E402
from runs import Chain, Run  # noqa: E402
from traces import Call, Report  # noqa: E402

HERE = pathlib.Path(__file__).resolve().parent
MOST_CALLS = 100_000
MOST_REPORTS = 50_000
MOST_OBJECTS = 100_000
SCRIPTS = ("page.js", "lanes.js", "lists.js", "tree.js")
KINDS = ("create", "retrieve", "end", "record", "queue", "other")


def kind_of(call: Call) -> int:
    """The kind of a command, by which its bar is coloured."""
    effect = call.row.effect.kind if call.row else "none"
    if effect == "create" or call.command.startswith("vkCreate"):
        return KINDS.index("create")
    if effect == "retrieve":
        return KINDS.index("retrieve")
    if effect != "none" or call.command.startswith("vkDestroy"):
        return KINDS.index("end")
    if call.command.startswith("vkCmd"):
        return KINDS.index("record")
    return KINDS.index("queue" if call.command.startswith("vkQueue") else "other")


def chosen(run: Run) -> tuple[list[Call], list[Report]]:
    """The calls and reports that the page has: all, or the first reports with their calls and then the first other
    calls."""
    reports = run.reports[:MOST_REPORTS]
    if len(run.calls) <= MOST_CALLS:
        return run.calls, reports
    wanted = {r.call for r in reports} | {r.other for r in reports if r.other is not None}
    room = MOST_CALLS - len(wanted)
    for call in run.calls:
        if room == 0:
            break
        if call.number not in wanted:
            wanted.add(call.number)
            room -= 1
    return [call for call in run.calls if call.number in wanted], reports


def left_out(run: Run, calls: list[Call], reports: list[Report]) -> list[str]:
    """What the page hasn't, in sentences."""
    out = []
    if len(calls) < len(run.calls):
        out.append(f"The page has {len(calls):,} of {len(run.calls):,} calls: those with a report, those that they "
                   "overlap with, and the first of the others.")
    if len(reports) < len(run.reports):
        out.append(f"It has the first {len(reports):,} of {len(run.reports):,} reports.")
    if len(run.objects.all) > MOST_OBJECTS:
        out.append(f"It has the first {MOST_OBJECTS:,} of {len(run.objects.all):,} objects.")
    if len(run.reports) < run.told_reports:
        out.append(f"The text shows {len(run.reports):,} of {run.told_reports:,} reports; its mutes or its repeat "
                   "limit left out the others.")
    return out


def indexed(values: list[str]) -> tuple[list[str], list[int]]:
    """The different values, and each value's place among them."""
    table = sorted(set(values))
    place = {value: at for at, value in enumerate(table)}
    return table, [place[value] for value in values]


def call_columns(run: Run, calls: list[Call]) -> dict[str, object]:
    """The calls as columns, which is short and quick to read."""
    commands, command = indexed([c.command for c in calls])
    answers, answer = indexed([c.answer for c in calls])
    lane = {thread: at for at, thread in enumerate(run.trace.threads)}
    kinds = {c.command: kind_of(c) for c in calls}
    names = {c.command: [p.name for p in c.row.parameters] for c in calls if c.row}
    return {
        "commands": commands, "answers": answers,
        "kinds": [kinds[c] for c in commands], "parameters": [names.get(c) for c in commands],
        "number": [c.number for c in calls], "lane": [lane[c.thread] for c in calls],
        "command": command, "answer": answer,
        "begin": [c.begin for c in calls], "end": [c.end for c in calls],
        "skipped": [int(c.skipped) for c in calls], "born": [c.born for c in calls],
        "arguments": [c.written() for c in calls], "results": [",".join(c.results) for c in calls],
        "payload": {str(c.number): c.payload for c in calls if c.payload},
    }


def report_rows(reports: list[Report]) -> list[dict[str, object]]:
    """The reports with their sentences."""
    return [
        {
            "call": r.call, "place": r.place, "who": r.who, "identifier": r.identifier, "rule": r.rule,
            "argument": r.argument, "index": r.index, "children": r.children, "with": r.other, "label": r.label,
            "words": r.words,
        }
        for r in reports
    ]


def chain_row(chain: Chain) -> dict[str, object]:
    """A chain."""
    return {
        "call": chain.call, "refused": chain.refused, "notes": chain.notes, "layers": chain.layers,
        "parts": chain.parts, "drivers": chain.drivers,
    }


def object_rows(run: Run, calls: list[Call]) -> list[dict[str, object]]:
    """The objects in the order of their births, with the calls of the page that use them."""
    shown = {c.number for c in calls}
    whole = len(calls) == len(run.calls)
    return [
        {
            "names": o.names, "label": next((run.labels[n] for n in o.names if n in run.labels), ""),
            "type": o.type, "owner": o.owner, "created": o.created,
            "born": o.born_by, "from": o.born_at, "ended": o.ended_by, "to": o.ended_at,
            "used": len(o.uses), "uses": o.uses if whole else [n for n in o.uses if n in shown],
        }
        for o in run.objects.all[:MOST_OBJECTS]
    ]


def data(run: Run, trace: str, text: str) -> dict[str, object]:
    """All that the page shows."""
    calls, reports = chosen(run)
    return {
        "trace": os.path.basename(trace), "text": os.path.basename(text),
        "threads": run.trace.threads, "events": len(run.trace.events),
        "told": {
            "calls": len(run.calls), "skipped": run.skipped,
            "reports": run.told_reports, "objects": len(run.objects.all),
        },
        "left": left_out(run, calls, reports), "calls": call_columns(run, calls), "reports": report_rows(reports),
        "notes": run.notes, "chains": [chain_row(c) for c in run.chains], "objects": object_rows(run, calls),
    }


def digest(text: str) -> str:
    """What a policy calls a script or a style by."""
    return "'sha256-" + base64.b64encode(hashlib.sha256(text.encode()).digest()).decode() + "'"


def show(run: Run, trace: str, text: str) -> str:
    """The page."""
    script = "(() => {\n" + "".join((HERE / name).read_text() for name in SCRIPTS) + "})();\n"
    style = (HERE / "page.css").read_text()
    policy = (f"default-src 'none'; script-src {digest(script)}; style-src {digest(style)}; base-uri 'none'; "
              "form-action 'none'")
    told = json.dumps(data(run, trace, text), separators=(",", ":")).replace("<", "\\u003c")
    page = (HERE / "page.html").read_text()
    front, rest = page.split("<!--style-->")
    middle, back = rest.split("<!--script-->")
    front = front.replace("<!--policy-->", f'<meta http-equiv="Content-Security-Policy" content="{policy}">')
    return "".join([
        front, "<style>", style, "</style>", middle,
        '<script type="application/json" id="run">', told, "</script>\n<script>", script, "</script>", back,
    ])


if __name__ == "__main__":
    sys.exit(words.main("vkview", "vkview.py TRACE TEXT [--names FILE] > page.html", True, show))
