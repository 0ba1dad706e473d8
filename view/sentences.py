"""Says reports in plain words, from what is known of the objects where the report stands."""
from __future__ import annotations

from typing import TYPE_CHECKING

from objects import Object
from traces import Call, Report

if TYPE_CHECKING:
    from runs import Run


def sentence(report: Report, call: Call, other: Call | None, run: Run) -> str:
    """What a report says, in one or two sentences."""
    if report.rule == "overlap" and other is not None:
        return _overlap(report, call, other, run)
    if report.rule == "parent":
        return _parent(report, call, run)
    if report.rule == "children":
        many = report.children or 0
        things = "an object that was made from it and lives"
        if many != 1:
            things = f"{many} objects that were made from it and live"
        return f"{call.command} destroys {_shown(report.argument, run)} while it still owns {things}."
    return _parameter(report, call, run)


def _shown(name: str, run: Run) -> str:
    """A name with its object's type and its own name."""
    found = run.objects.named(name)
    kind = found.type if found else run.trace.types.get(name, "")
    label = run.labels.get(name)
    return " ".join(word for word in (kind, name, f'"{label}"' if label else "") if word)


def _place(report: Report) -> str:
    """Where an argument stands."""
    return report.parameter if report.index is None else f"{report.parameter}[{report.index}]"


def _parameter(report: Report, call: Call, run: Run) -> str:
    """An argument that stands for no living object."""
    head = f"The argument {_place(report)} of {call.command} "
    if report.argument == "null":
        return head + "is null, which isn't allowed there."
    head += f"is {_shown(report.argument, run)}, which stands for no living object: "
    found = run.objects.named(report.argument)
    if found and found.ended_by is not None:
        return head + f"{_ender(found, run)}."
    maker = run.trace.makers[report.argument]
    if not maker.answer or maker.end > call.begin:
        return head + f"call {maker.number}, {maker.command}, which makes it, hasn't returned yet."
    why = "didn't make it" if maker.answer in ("VK_SUCCESS", "void") else f"answered {maker.answer}"
    return head + f"call {maker.number}, {maker.command}, {'was skipped' if maker.skipped else why}."


def _ender(found: Object, run: Run) -> str:
    """Which call ended an object, by itself or with its owner."""
    call = run.calls[(found.ended_by or 1) - 1]
    named = {name for names in call.arguments for name in names}
    by = f"call {call.number}, {call.command} on thread {call.thread}"
    return f"{by}, ended it" if named & set(found.names) else f"{by}, ended what owns it"


def _parent(report: Report, call: Call, run: Run) -> str:
    """An argument that belongs to something else."""
    found = run.objects.named(report.argument)
    owner = run.objects.all[found.owner] if found and found.owner is not None else None
    first = call.arguments[0][0] if call.arguments else ""
    whose = f"belongs to {_shown(owner.names[0], run)}" if owner else "belongs to something else"
    parameter = next((p for p in call.row.parameters if p.name == report.parameter), None) if call.row else None
    if parameter and parameter.owned_by is not None:
        asked = f"it must belong to {_shown(call.arguments[parameter.owned_by][0], run)}"
    else:
        asked = f"it must be of the same device as {_shown(first, run)}"
    return f"The argument {_place(report)} of {call.command}, {_shown(report.argument, run)}, {whose}; {asked}."


def _overlap(report: Report, call: Call, other: Call, run: Run) -> str:
    """Two threads that use one object at once."""
    found = run.objects.named(report.argument)
    direct = found is not None and any(name in found.names for names in other.arguments for name in names)
    same = "the same object" if direct else "an object that goes with it"
    return (f"Thread {call.thread} begins {call.command} with {_shown(report.argument, run)} as {_place(report)} "
            f"while thread {other.thread} is in call {other.number}, {other.command}, with {same}. At least one of "
            "the two must have it for itself alone.")
