"""Reads a trace and the text that `vkreplay run` or `vknames` printed for it into one run.

The text is walked along the trace's events, line by line, so that a text of another trace, or one that is cut, is
found out. Reports may be missing, since `vknames` mutes and thins them out; no other line may."""
import re
from dataclasses import dataclass, field

import sentences
from objects import Objects
from traces import NAME, Call, Refused, Report, Trace, read_trace

REPORT = re.compile(
    r"report (?P<call>\d{1,18}) (?P<place>\d{1,18}) (?P<identifier>(?:VUID|VKR)-(?P<command>vk\w+)-(?P<parameter>\w+)"
    r"-(?P<rule>parameter|parent|children|overlap)) (?P<argument>null|%\d{1,18}\.\d{1,18})"
    r"(?: index=(?P<index>\d{1,18}))?(?: children=(?P<children>\d{1,18}))?(?: with=(?P<other>\d{1,18}))?"
    r"(?: \"(?P<label>[^\"]{1,128})\")?"
)
RET = re.compile(r"ret (\d{1,18}) (vk\w+) (\w+)(?: born=(\d{1,18}))?")
END = re.compile(r"end calls=(\d{1,18}) skipped=(\d{1,18}) reports=(\d{1,18})")
CHAIN = re.compile(
    r"chain (\d{1,18}) (ok layers=(\d{1,18}) parts=(\d{1,18}) drivers=(\d{1,18})|no-driver|(layer-not-present|unguarded) (.+))"
)
NOTE = re.compile(r"note (\S+) (.+)")
LAYER = re.compile(r"layer (\d{1,18}) (\S+) (.+)")
PART = re.compile(r"part (\d{1,18}) (threads|lifetimes|unique) (\S+)")
DRIVER = re.compile(r"driver (\d{1,18}) (.*?\.json) (.+)|driver (\d{1,18}) (\S+) (.+)")
REFUSED = {
    "layer": "VK_ERROR_LAYER_NOT_PRESENT",
    "no": "VK_ERROR_INCOMPATIBLE_DRIVER",
    "unguarded": "VK_ERROR_INITIALIZATION_FAILED",
}
OTHER_TRACE = "is it the text of another trace?"
MOST_NAMES = 1_048_576


@dataclass(slots=True)
class Chain:
    """The chain that a call of vkCreateInstance has, or why it has none."""

    call: int
    refused: str = ""
    notes: list[tuple[str, str]] = field(default_factory=list)
    layers: list[tuple[str, str]] = field(default_factory=list)
    parts: list[tuple[str, str]] = field(default_factory=list)
    drivers: list[tuple[str, str]] = field(default_factory=list)


@dataclass(slots=True)
class Run:
    """What a trace and its text say together."""

    trace: Trace
    notes: list[tuple[str, str]]
    chains: list[Chain]
    objects: Objects
    reports: list[Report]
    skipped: int
    told_reports: int
    labels: dict[str, str]

    @property
    def calls(self) -> list[Call]:
        return self.trace.calls


class _Walk:
    """A walk over the text's lines along the trace. `dead_only`: whether only dead arguments skip a call, as
    `--keep-going` has it."""

    def __init__(self, trace: Trace, lines: list[str], labels: dict[str, str], dead_only: bool):
        self.lines = lines
        self.at = 0
        self.dead_only = dead_only
        self.thinned = False
        self.force: Chain | None = None
        self.open: dict[int, Call] = {}
        self.run = Run(trace, [], [], Objects(), [], 0, 0, labels)

    def line(self) -> str:
        """The next line."""
        if self.at >= len(self.lines):
            raise Refused(f"text line {self.at + 1}: the trace goes on here: the text is cut, or the run stopped")
        return self.lines[self.at]

    def take(self, pattern: re.Pattern[str], what: str) -> re.Match[str]:
        """The next line, which must have this form."""
        found = pattern.fullmatch(self.line())
        if not found:
            raise self.stranger(what)
        self.at += 1
        return found

    def stranger(self, what: str) -> Refused:
        """A line that isn't what the trace asks for."""
        shown = self.line() if len(self.line()) <= 80 else self.line()[:77] + "..."
        return Refused(f"text line {self.at + 1}: {what} was expected, not {shown!r}: {OTHER_TRACE}")

    def whole(self) -> Run:
        """All lines."""
        end = END.fullmatch(self.lines[-1]) if self.lines else None
        if not end:
            raise Refused(f"text line {len(self.lines) + 1}: the text has no end line: it is cut, or the run stopped")
        self.run.told_reports = int(end[3])
        self.thinned = sum(line.startswith("report ") for line in self.lines) < int(end[3])
        while self.line().startswith("note "):
            self.run.notes.append(self.take(NOTE, "a note of a manifest").group(1, 2))
        for call, begins in self.run.trace.events:
            self.begin(call) if begins else self.leave(call)
        numbers = [int(n) for n in self.take(END, "the end line").groups()]
        if numbers != [len(self.run.calls), self.run.skipped, numbers[2]] or len(self.run.reports) > numbers[2]:
            raise Refused(f"text line {self.at}: the end line counts other calls or reports: {OTHER_TRACE}")
        if self.at < len(self.lines):
            raise self.stranger("nothing")
        return self.run

    def begin(self, call: Call) -> None:
        """The lines of a begin: a chain, and reports."""
        call.reports, call.skipped = [], False
        if call.command == "vkCreateInstance":
            call.skipped = bool(self.chain(call).refused)
        while self.line().startswith(f"report {call.number} "):
            self.report(call, self.take(REPORT, "a report"))
        call.skipped = call.skipped or self.stops(call)
        self.run.skipped += call.skipped
        self.run.objects.enter(call)
        self.open[call.number] = call

    def report(self, call: Call, found: re.Match[str]) -> None:
        """One report, which must be one of this call and its arguments."""
        number = {k: None if found[k] is None else int(found[k]) for k in ("index", "children", "other")}
        report = Report(call.number, int(found["place"]), *found.group("identifier", "rule", "parameter", "argument"),
                        number["index"], number["children"], number["other"], label=found["label"] or "")
        other = self.open.get(report.other) if report.other else None
        there = report.place <= len(self.force.parts if self.force else [])
        fits = there and found["command"] == call.command and _is_written(call, report)
        if not fits or (report.rule == "overlap") != (other is not None and other.thread != call.thread):
            self.at -= 1
            raise self.stranger(f"a report that fits call {call.number}, {call.written() or 'without arguments'},")
        report.who = self.who(report.place)
        report.label = report.label or self.run.labels.get(report.argument, "")
        report.words = sentences.sentence(report, call, other, self.run)
        call.reports.append(report)
        self.run.reports.append(report)

    def who(self, place: int) -> str:
        """Who reports at a place: the loader, or a part of a layer of the chain in force."""
        if place == 0 or self.force is None:
            return "the loader"
        kind, layer = self.force.parts[place - 1]
        return f"part {place}, {kind}, of {layer}"

    def stops(self, call: Call) -> bool:
        """Whether a report skips the call. Those that a text leaves out are judged by the objects."""
        rules = [r.rule for r in call.reports if r.rule != "overlap" and not (r.place == 0)]
        if self.thinned:
            checked = self.force is not None and any(kind == "lifetimes" for kind, _ in self.force.parts)
            rules += self.run.objects.failures(call, checked)
        by_loader = any(r.place == 0 for r in call.reports)
        return by_loader or any(not self.dead_only or rule == "parameter" for rule in rules)

    def leave(self, call: Call) -> None:
        """The line of a return."""
        found = self.take(RET, f"the return of call {call.number}, {call.command},")
        call.answer = found[3]
        told = None if found[4] is None else int(found[4])
        call.born = self.run.objects.leave(call, told)
        makes = call.row.effect.makes if call.row else told is not None
        answers = [self.answer(call)] if call.row else [self.answer(call), call.code]
        same = found.group(1, 2) == (str(call.number), call.command)
        if not same or call.answer not in answers or (told is not None) != makes:
            self.at -= 1
            raise self.stranger(f"the return of call {call.number}, {call.command} {self.answer(call)},")
        if makes and told != call.born:
            self.at -= 1
            raise self.stranger(f"born={call.born}")
        del self.open[call.number]
        if call.command == "vkCreateInstance" and call.born:
            self.force = self.run.chains[-1]
            self.run.objects.drivers = len(self.force.drivers)

    def answer(self, call: Call) -> str:
        """What a call answers."""
        if call.command == "vkCreateInstance" and call.skipped:
            return REFUSED[self.run.chains[-1].refused.replace("-", " ").split()[0]]
        if call.skipped:
            return "void" if call.code == "void" else "VK_ERROR_VALIDATION_FAILED_EXT"
        if call.command == "vkEnumeratePhysicalDevices" and call.code in ("VK_SUCCESS", "VK_INCOMPLETE"):
            return "VK_INCOMPLETE" if 0 < len(call.results) < self.run.objects.drivers else "VK_SUCCESS"
        return call.code

    def chain(self, call: Call) -> Chain:
        """The lines of a chain."""
        found = self.take(CHAIN, f"the chain of call {call.number}")
        chain = Chain(call.number, "" if found[2].startswith("ok ") else found[2])
        if int(found[1]) != call.number:
            self.at -= 1
            raise self.stranger(f"the chain of call {call.number}")
        self.run.chains.append(chain)
        if chain.refused:
            return chain
        while self.line().startswith("note "):
            chain.notes.append(self.take(NOTE, "a note of the chain").group(1, 2))
        for many, pattern, what, out in (
            (found[3], LAYER, "layer", chain.layers),
            (found[4], PART, "part", chain.parts),
            (found[5], DRIVER, "driver", chain.drivers),
        ):
            for number in range(1, int(many) + 1):
                out.append(self.numbered(pattern, f"{what} {number}", number))
        return chain

    def numbered(self, pattern: re.Pattern[str], what: str, number: int) -> tuple[str, str]:
        """A line of a chain with its number."""
        words = [word for word in self.take(pattern, what).groups() if word is not None]
        if words[0] != str(number):
            self.at -= 1
            raise self.stranger(what)
        return words[1], words[2]


def _is_written(call: Call, report: Report) -> bool:
    """Whether the argument of a report stands at its parameter."""
    if not call.row:
        return any(report.argument in names for names in call.arguments)
    for parameter, names in zip(call.row.parameters, call.arguments):
        if parameter.name == report.parameter:
            at = report.index if parameter.many else 0
            return at is not None and at < len(names) and names[at] == report.argument
    return False


def read_names(data: bytes) -> dict[str, str]:
    """A names file: a name of the trace, a space, and the object's name, a line."""
    if len(data) > MOST_NAMES:
        raise Refused(f"names: the file has more than {MOST_NAMES} bytes")
    labels: dict[str, str] = {}
    lines = data.decode("latin-1").split("\n")
    for number, line in enumerate(lines[:-1] if lines[-1] == "" else lines, 1):
        name, _, label = line.partition(" ")
        good = NAME.fullmatch(name) and 1 <= len(label) <= 128 and re.fullmatch(r"[ !#-~]+", label)
        if not good or name in labels:
            raise Refused(f"names line {number}: this is no name of a trace, a space and 1 to 128 printable "
                          "characters without a quote, or the name has a line above")
        labels[name] = label
    return labels


def read_run(trace: bytes, text: bytes, names: bytes = b"") -> Run:
    """The run of these files."""
    labels = read_names(names)
    read = read_trace(trace)
    if text[-1:] != b"\n":
        raise Refused("text: its last line has no end: it is cut, or nothing was printed")
    lines = text.decode("utf-8", "backslashreplace").split("\n")[:-1]
    try:
        return _Walk(read, lines, labels, False).whole()
    except Refused as why:
        try:
            return _Walk(read, lines, labels, True).whole()
        except Refused:
            raise why from None
