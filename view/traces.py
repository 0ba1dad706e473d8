"""Reads a trace, of version 1 or 2, into calls and the order of their events.

What `vkreplay run` would refuse is refused here too, with the line: a picture of half a trace would say what didn't
happen."""
import re
from dataclasses import dataclass, field

from commands import COMMANDS
from tables import Row

NAME = re.compile(r"%([1-9]\d{0,3})\.([1-9]\d{0,6})")
RETURN = re.compile(r"r ([1-9]\d{0,3})")
BEGIN = re.compile(
    r"b (?P<thread>[1-9]\d{0,3}) (?P<command>vk\w+)(?P<arguments>(?: (?:%\d+\.\d+|null|\[[^ \]]*\]))*)"
    r"(?: = (?P<results>\S+))? (?P<code>VK_[A-Z0-9_]+|void)(?: : (?P<payload>.+))?"
)
TIME = re.compile(r"#.*?\b(?:time[ =:]+(\d{1,18})|(\d{1,18}) (?:us|microseconds))\b")
MOST_THREADS = 1024


class Refused(Exception):
    """Why there is no picture, in one line."""


@dataclass(slots=True)
class Report:
    """A rule that fails at a call, as the text has it."""

    call: int
    place: int
    identifier: str
    rule: str
    parameter: str
    argument: str
    index: int | None = None
    children: int | None = None
    other: int | None = None
    who: str = ""
    label: str = ""
    words: str = ""


@dataclass(slots=True)
class Call:
    """A call: what the trace says of it, and what the text says came of it. Its row is none where the table hasn't the
    command."""

    number: int
    thread: int
    command: str
    arguments: list[list[str]]
    lists: list[bool]
    results: list[str]
    code: str
    payload: str
    begin: int
    row: Row | None
    end: int = -1
    answer: str = ""
    born: int = 0
    skipped: bool = False
    reports: list[Report] = field(default_factory=list)

    def written(self) -> str:
        """The arguments as the trace has them."""
        pairs = zip(self.arguments, self.lists)
        return " ".join(f"[{','.join(names)}]" if many else names[0] for names, many in pairs)


@dataclass(slots=True)
class Trace:
    """The calls, by their numbers; the events in order, each as a call and whether it is its begin; the times that
    comments give, each with the place of the event behind it; and of each name its type and the call that makes it."""

    version: int
    calls: list[Call]
    events: list[tuple[Call, bool]]
    threads: list[int]
    times: list[tuple[int, int]]
    types: dict[str, str]
    makers: dict[str, Call]


class _Reader:
    """What is known of a trace at a line."""

    def __init__(self, version: int):
        self.trace = Trace(version, [], [], [], [], {}, {})
        self.open: dict[int, Call] = {}
        self.next: dict[int, int] = {}

    def begin(self, line: str) -> None:
        """A line that begins a call."""
        found = BEGIN.fullmatch(line)
        if not found:
            raise Refused("this is no begin of a call")
        thread = _thread(found["thread"])
        words = found["arguments"].split()
        call = Call(
            number=len(self.trace.calls) + 1,
            thread=thread,
            command=found["command"],
            arguments=[_places(word) for word in words],
            lists=[word.startswith("[") for word in words],
            results=found["results"].split(",") if found["results"] else [],
            code=found["code"],
            payload=found["payload"] or "",
            begin=len(self.trace.events),
            row=COMMANDS.get(found["command"]),
        )
        if thread in self.open:
            raise Refused(f"thread {thread} begins a call while its call {self.open[thread].number} is open")
        self._arguments(call)
        self._results(call)
        self.open[thread] = call
        self.trace.calls.append(call)
        self.trace.events.append((call, True))

    def _arguments(self, call: Call) -> None:
        """Whether the arguments are those of the command's row, and name what an earlier line has made."""
        row = call.row
        if row is None and self.trace.version == 1:
            raise Refused(f"{call.command} is no command of the table")
        if row and call.lists != [p.many for p in row.parameters]:
            raise Refused(f"{call.command} has other arguments")
        if row and row.answers_code == (call.code == "void"):
            raise Refused(f"{call.command} has another answer than {call.code}")
        for at, names in enumerate(call.arguments):
            for name in names:
                kind = "" if name == "null" else self.trace.types.get(name)
                if kind is None:
                    raise Refused(f"{name} is no result of an earlier line")
                if row and kind and kind != row.parameters[at].type:
                    wanted = row.parameters[at]
                    raise Refused(f"{name} is a {kind}, and {wanted.name} takes a {wanted.type}")

    def _results(self, call: Call) -> None:
        """Whether the results are named as their thread's next ones, and as many as the row has."""
        row = call.row
        many = len(call.results)
        if row and not (many == 0 if not row.effect.makes else row.effect.many or many == 1):
            raise Refused(f"{call.command} has another number of results")
        kind = row.effect.type if row else guessed_type(call.command)
        for name in call.results:
            number = self.next.get(call.thread, 0) + 1
            if name != f"%{call.thread}.{number}":
                raise Refused(f"the thread's next result is %{call.thread}.{number}, not {name}")
            self.next[call.thread] = number
            self.trace.types[name] = kind
            self.trace.makers[name] = call

    def finish(self, line: str) -> None:
        """A line of a return."""
        found = RETURN.fullmatch(line)
        if not found:
            raise Refused("this is neither a begin nor a return")
        call = self.open.pop(_thread(found[1]), None)
        if call is None:
            raise Refused(f"thread {found[1]} has no open call")
        call.end = len(self.trace.events)
        self.trace.events.append((call, False))


def guessed_type(command: str) -> str:
    """The type of what a command makes that the table hasn't: the name says it well enough for a picture."""
    name = re.sub(r"^vk(Create|Allocate|Get|Enumerate)?", "", command)
    return re.sub(r"(KHR|EXT)$", "", name)


def _thread(word: str) -> int:
    if int(word) > MOST_THREADS:
        raise Refused(f"there is no thread {word}: they are numbered to {MOST_THREADS}")
    return int(word)


def _places(word: str) -> list[str]:
    """The places of an argument: one, or those of its list."""
    names = word[1:-1].split(",") if word.startswith("[") else [word]
    names = [] if word == "[]" else names
    for name in names:
        if name != "null" and not NAME.fullmatch(name):
            raise Refused(f"{name} is neither a name nor null")
    return names


def time_of(comment: str) -> int | None:
    """The time in microseconds that a comment gives, as a recorder writes it: `# time N`, or `# .. N microseconds`."""
    found = TIME.match(comment)
    return int(found[1] or found[2]) if found else None


def _line(reader: _Reader, line: str) -> None:
    """One line after the first."""
    if not line.isascii() or not line.isprintable():
        raise Refused("a byte is outside the printable ASCII ones")
    if line.startswith("#") and reader.trace.version == 2:
        time = time_of(line)
        if time is not None:
            reader.trace.times.append((len(reader.trace.events), time))
    elif line.startswith("b "):
        reader.begin(line)
    else:
        reader.finish(line)


def read_trace(data: bytes) -> Trace:
    """The trace of these bytes."""
    lines = data.decode("latin-1").split("\n")
    if lines[-1] == "":
        lines.pop()
    if not lines or lines[0] not in ("vktrace 1", "vktrace 2"):
        raise Refused("trace line 1: this is no trace: its first line is neither vktrace 1 nor vktrace 2")
    reader = _Reader(int(lines[0][-1]))
    for number, line in enumerate(lines[1:], 2):
        try:
            _line(reader, line)
        except Refused as why:
            raise Refused(f"trace line {number}: {why}") from None
    if reader.open:
        call = min(reader.open.values(), key=lambda c: c.number)
        still = f"call {call.number}, {call.command}, is open at the end"
        raise Refused(f"trace line {len(lines) + 1}: {still}: the trace is cut")
    reader.trace.threads = sorted({call.thread for call in reader.trace.calls})
    return reader.trace
