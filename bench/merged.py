"""What .ci/check-streams and bench/merges.py share: a stream file's sections, runs of the built programs, and whether what `vkreplay_mt` printed
is one merge of the file's streams with the text that `vkreplay run` prints for it."""
import os, pathlib, re, subprocess

TOP = pathlib.Path(__file__).resolve().parent.parent
# the built programs, which the environment may name instead
ALONE = pathlib.Path(os.environ.get("VKREPLAY", TOP / "crates/vkreplay/out/vkreplay")).resolve()
THREADS = pathlib.Path(os.environ.get("VKREPLAY_MT", TOP / "crates/vkreplay_mt/out/vkreplay_mt")).resolve()
MACHINE = TOP / "examples/machine"
VALIDATED = {"VK_INSTANCE_LAYERS": "VK_LAYER_KHRONOS_validation"}
SECONDS = 120


class Wrong(Exception):
    """Something that isn't as it must be."""


class Sections:
    """The event lines of a stream file, section by section."""

    def __init__(self, text):
        lines = text.splitlines()
        assert lines[:2] == ["vkstreams 1", "setup"]
        self.setup, self.streams, self.teardown = [], {}, []
        section = self.setup
        for line in lines[2:]:
            if line == "teardown":
                section = self.teardown
            elif line.startswith("stream "):
                section = self.streams.setdefault(line.removeprefix("stream "), [])
            else:
                section.append(line)


def ran(program, words, given, variables):
    """The status of a run, and what it wrote and said. It has no variables but these."""
    try:
        run = subprocess.run([program, *words], input=given.encode(), capture_output=True, env=variables, timeout=SECONDS)
    except subprocess.TimeoutExpired:
        raise Wrong(f"it hadn't ended after {SECONDS} seconds") from None
    return run.returncode, run.stdout.decode(), run.stderr.decode()


def parted(output):
    """The trace that stands before the line `text`, and the text behind it."""
    lines = output.splitlines(keepends=True)
    if "text\n" not in lines:
        raise Wrong("there is no line `text`")
    at = lines.index("text\n")
    return "".join(lines[:at]), "".join(lines[at + 1:])


def thread_of(line):
    """The thread of an event line."""
    found = re.match(r"[br] (\d+)\b", line)
    return found.group(1) if found else None


def merge_in(sections, trace):
    """The events of a trace between those of setup and those of teardown, where they are a merge of the streams."""
    lines = trace.splitlines()
    first, last = 1 + len(sections.setup), len(lines) - len(sections.teardown)
    if first > last or lines[:first] != ["vktrace 1", *sections.setup] or lines[last:] != sections.teardown:
        raise Wrong("the trace isn't the setup, something and the teardown")
    rest = {thread: iter(lines) for thread, lines in sections.streams.items()}
    for line in lines[first:last]:
        if next(rest.get(thread_of(line), iter(())), None) != line:
            raise Wrong(f"this event isn't the next one of its stream: {line}")
    for thread, left in rest.items():
        if next(left, None) is not None:
            raise Wrong(f"the stream of thread {thread} isn't whole")
    return lines[first:last]


def merged(sections, given, words, variables):
    """Runs `vkreplay_mt` on a file. Gives its status, the trace that it printed, the merge in it, and the text behind it."""
    status, wrote, said = ran(THREADS, words, given, variables)
    if status not in (0, 1) or said:
        raise Wrong(f"status {status}; said: {said}")
    trace, text = parted(wrote)
    return status, trace, merge_in(sections, trace), text


def replayed(trace, words, variables):
    """What `vkreplay run` prints for a trace, with its status."""
    status, wrote, said = ran(ALONE, ["run", *words], trace, variables)
    if said:
        raise Wrong(f"vkreplay run: status {status}; said: {said}")
    return status, wrote


def compare(got, wanted):
    """That two answers, each a status and a text, are the same."""
    if got[0] != wanted[0]:
        raise Wrong(f"status {got[0]}, where vkreplay run has {wanted[0]}")
    for number, (one, other) in enumerate(zip(got[1].splitlines() + [""], wanted[1].splitlines() + [""]), 1):
        if one != other:
            raise Wrong(f"line {number} of the text is `{one}`, where vkreplay run prints `{other}`")
    if got[1] != wanted[1]:
        raise Wrong("the text isn't as long as that of vkreplay run")
