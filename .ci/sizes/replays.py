"""Replays of what is long: lines and lists of the most bytes and of one more, many lines, the most names, traces and
stream files that are cut, and generated traces. What is wanted follows from the rule that stands beside it."""
import limits
from runs import ALONE, MACHINE, THREADS, TOP, VALIDATED, Wrong, ran, run
from traces import BARE, DEVICE, DEVICE_TEXT, INSTANCE, LONGEST, START, WAIT, calls_of, end, generated, waited

STARTED = BARE + DEVICE_TEXT
RUN = ["run", *MACHINE]
NO_LINE = "limit LineBytes 65536"

# a number, how many turns, and the bytes, the lines and the sum of SHA-256 of the trace, computed apart from the
# program by the generator's rule
GENERATED = [
    (7, 10_000, 492_866, 20_347, "09920a7e7a7383efc3a0e8dfb7a1d8887378e94d49e3508fc1c320bc091f13f1"),
    (2**64 - 1, 10_000, 489_236, 20_137, "f0f337c9eba0fb37ea3c3e2379f6e6883eaf5be46347ee2facbbb5a3e7d15ec2"),
    (7, 1_000_000, 50_676_621, 2_000_483, "814218e01863c7eb95413afc51e25afce4c330dff842f21a1c03e94f9a6cceac"),
    (2**64 - 1, 1_000_000, 50_691_831, 2_000_819, "cf34d5f5a40ebb02e78b439c76779dedac6dfbd1da249bca0be938b68b912dbc"),
    (2**64 - 2, 999_999, 50_748_070, 2_003_155, "0c1d2a6ff1addffae732d83a0c9cf3365dfac7ae770d178e53435830f717f9d4"),
]


def longest_lines():
    """A line has 65,536 bytes at most, also the first and the last one; a longer one is no fault of the trace."""
    most, more = "x" * LONGEST, "x" * (LONGEST + 1)
    yield "the longest line", run, ALONE, RUN, ("", "line 2: Letter", 3), "vktrace 1\n" + most
    yield "the longest first line", run, ALONE, RUN, ("", "line 1: Header", 3), most
    yield "a longer last line", run, ALONE, RUN, ("", NO_LINE, 6), "vktrace 1\n" + more
    yield "a longer line", run, ALONE, RUN, ("", NO_LINE, 6), f"vktrace 1\n{more}\nr 1\n"
    yield "a longer first line", run, ALONE, RUN, ("", NO_LINE, 6), more
    front = WAIT.partition("\n")[0] + " : "
    right = STARTED + waited(4, 1) + end(4), "", 0
    for size, last in [(65_535, "\n"), (LONGEST, "\n"), (LONGEST + 1, "\n"), (LONGEST + 1, ""), (200_000, "\n")]:
        given = START + front.ljust(size, "x") + last + ("r 1\n" if last else "")
        wanted = right if size <= LONGEST else (STARTED, NO_LINE, 6)
        yield f"a call of {size} bytes and {last!r}", run, ALONE, RUN, wanted, given
    given = START + front.ljust(LONGEST, "x")
    yield "a last call of 65536 bytes", run, ALONE, RUN, (STARTED, "line 9: OpenAtEnd", 3), given


def longest_payloads():
    """Before the payload of a vkCreateInstance stand 41 bytes."""
    one = BARE + DEVICE_TEXT.partition("ret 2")[0] + end(1)
    for commas, fits in ((LONGEST - 41, True), (LONGEST - 40, False)):
        call = f"{INSTANCE} : {',' * commas}\nr 1\n"
        wanted = (one, "", 0) if fits else ("", NO_LINE, 6)
        yield f"{commas} commas", run, ALONE, RUN, wanted, f"vktrace 1\n{call}".removesuffix("\n")
        wanted = (f"vktrace 1\n{call}text\n{one}", "", 0) if fits else wanted
        yield f"{commas} commas in setup", run, THREADS, MACHINE, wanted, f"vkstreams 1\nsetup\n{call}teardown\n"


def full_lines():
    """A line of the most places and the most bytes, with a short one behind it, twice; then more than a megabyte
    through both programs."""
    reset = "b 1 vkResetFences %1.3 [" + ",".join(["%1.4"] * 1_024) + "] VK_SUCCESS : "
    twice = 2 * (reset.ljust(LONGEST, "a") + "\nr 1\nb 1 vkResetFences %1.3 [%1.4] VK_SUCCESS\nr 1\n")
    given = START + "b 1 vkCreateFence %1.3 = %1.4 VK_SUCCESS\nr 1\n" + twice
    answers = "".join(f"ret {k} vkResetFences VK_SUCCESS\n" for k in range(5, 9))
    wanted = STARTED + "ret 4 vkCreateFence VK_SUCCESS born=1\n" + answers + end(8), "", 0
    yield "the most places and the most bytes, twice", run, ALONE, RUN, wanted, given
    calls = 60_000
    text = STARTED + waited(4, calls) + end(calls + 3)
    yield f"{len(START + WAIT * calls)} bytes", run, ALONE, RUN, (text, "", 0), START + WAIT * calls
    setup, stream = DEVICE + WAIT * (calls // 2), WAIT * (calls // 2)
    wanted = f"{START}{WAIT * calls}text\n{text}", "", 0
    given = f"vkstreams 1\nsetup\n{setup}stream 1\n{stream}teardown\n"
    yield f"a stream file of {len(given)} bytes", run, THREADS, MACHINE, wanted, given


def most_names():
    """A trace with the most names, 4,194,304, all but five of which are the results of calls that fail: one name
    more, and the most, of which one is used as if it had another type."""
    pool = "b 1 vkCreateCommandPool %1.3 = %1.4 VK_SUCCESS\nr 1\nb 2 vkCreateFence %1.3 = %2.1 VK_SUCCESS\nr 2\n"
    front, back = "b 1 vkAllocateCommandBuffers %1.3 %1.4 = ", " VK_ERROR_UNKNOWN\nr 1\n"

    def called(last):
        return "".join(front + ",".join(f"%1.{number}" for number in range(first, min(first + 1_024, last + 1))) + back
                       for first in range(5, last + 1, 1_024))

    answers = STARTED + "ret 4 vkCreateCommandPool VK_SUCCESS born=1\nret 5 vkCreateFence VK_SUCCESS born=1\n"
    answers += "".join(f"ret {k} vkAllocateCommandBuffers VK_ERROR_UNKNOWN born=0\n" for k in range(6, 4_101))
    wanted = answers, "limit Names 4194304", 6
    yield "a name too many", run, ALONE, RUN, wanted, lambda: START + pool + called(4_194_304)
    # 11 lines and 4,096 calls stand before it
    wrong = answers + "ret 4101 vkAllocateCommandBuffers VK_ERROR_UNKNOWN born=0\n", "line 8204: WrongType", 3
    used = "b 2 vkDestroyCommandPool %1.4194300 %1.4 void\nr 2\n"
    what = "the most names, and one of another type"
    yield what, run, ALONE, RUN, wrong, lambda: START + pool + called(4_194_303) + used


def most_devices():
    """Streams name 16 devices at most, where setup may make more; and there are 64 streams at most."""
    made = "".join(f"b 1 vkCreateDevice %1.2 = %1.{k} VK_SUCCESS\nr 1\n" for k in range(4, 21))
    text = "".join(f"ret {call} vkCreateDevice VK_SUCCESS born=1\n" for call in range(4, 21)) + waited(21, 16)
    waits = [f"b 2 vkDeviceWaitIdle %1.{k} VK_SUCCESS\nr 2\n" for k in range(3, 20)]
    file, most = f"vkstreams 1\nsetup\n{DEVICE}{made}stream 2\n", "".join(waits[:16])
    whole = f"{START}{made}{most}text\n{STARTED}{text}{end(36)}", "", 0
    yield "16 devices of 18", run, THREADS, MACHINE, whole, file + most + "teardown\n"
    yield "17 devices", run, THREADS, MACHINE, ("", "limit Devices 16", 6), file + "".join(waits) + "teardown\n"
    streams = ["vkstreams 1\nsetup\n", *(f"stream {k}\n" for k in range(1, 66))]
    nothing = "vktrace 1\ntext\n" + end(0), "", 0
    yield "64 streams", run, THREADS, MACHINE, nothing, "".join(streams[:65]) + "teardown\n"
    yield "65 streams", run, THREADS, MACHINE, ("", "line 67: Section", 3), "".join(streams) + "teardown\n"


def more_of_files():
    """Stream files with the most events and the most names, and one more of them in teardown."""
    more = "teardown\nb 1024 vkCreateFence %1.3 = %1024.1 VK_SUCCESS\nr 1024\n"
    for what, made in (("Events", limits.many_events), ("Names", limits.many_names), ("Names", limits.names_before)):
        wanted = "", f"limit {what} 262144", 6
        given = lambda made=made: "".join(made()).replace("teardown\n", more)
        yield f"{made.__name__} and one more", run, THREADS, MACHINE, wanted, given


def cut_traces():
    """A trace in which each begin returns at once, cut behind each byte. It ends well where it is cut behind a return,
    or before the end of its line, and has then its end line; else it stops. Before the first begin nothing is printed,
    then the chain, and a line for each return."""
    case = TOP / "cases/vkreplay/rows/a_command_buffer_is_recorded_and_submitted"
    trace = (case / "stdin").read_text()
    text = (case / "stdout").read_text().splitlines(keepends=True)
    for count in range(len(trace) + 1):
        front = trace[:count]
        whole = front.endswith("\n") or trace[count:count + 1] == "\n" or count == len(trace)
        lines = front.count("\n") + (whole and not front.endswith("\n"))
        printed = "".join(text[:6 + (lines - 1) // 2]) if lines > 1 else ""
        ends = whole and lines % 2 == 1
        yield f"cut behind {count} bytes", cut, front, printed + end(lines // 2) * ends, 0 if ends else 3


def cut(given, text, status):
    """That a trace which is cut comes to this text and this status; which fault a cut line has isn't asked."""
    ended, wrote, said = ran(ALONE, RUN, given, VALIDATED)
    if (ended, wrote, said.count("\n")) != (status, text.encode(), int(status != 0)):
        raise Wrong(f"status {ended}, wanted {status}; said: {said}")


def cut_files():
    """A stream file cut behind each line isn't whole before teardown, its fifteenth line, and then not where a call is
    open."""
    first = "stream 1\nb 1 vkCreateBuffer %1.3 = %1.4 VK_SUCCESS\nr 1\n"
    second = "stream 2\nb 2 vkCreateFence %1.3 = %2.1 VK_SUCCESS\nr 2\n"
    ended = "b 1 vkDestroyBuffer %1.3 %1.4 void\nr 1\nb 1 vkDestroyFence %1.3 %2.1 void\nr 1\n"
    file = f"vkstreams 1\nsetup\n{DEVICE}{first}{second}teardown\n{ended}".splitlines(keepends=True)
    for count in range(len(file) + 1):
        if count < 15 or count % 2 == 0:
            kind = "Section" if count < 15 else "OpenAtEnd"
            wanted = ("", f"line {count + 1}: {kind}", 3)
            yield f"cut behind line {count}", run, THREADS, MACHINE, wanted, "".join(file[:count])
        else:
            yield f"whole behind line {count}", is_whole, "".join(file[:count]), 5 + (count - 15) // 2


def is_whole(given, calls):
    """That a stream file is replayed to its end."""
    ended, wrote, said = ran(THREADS, MACHINE, given)
    if (ended, said) != (0, "") or not wrote.endswith(end(calls).encode()):
        raise Wrong(f"status {ended}; said: {said}")


def generated_traces():
    """A generated trace is the one that its rule makes, and its replay through the validation layer has no report."""
    for number, calls in ((0, 0), (1, 1), (7, 10_000), (2**64 - 1, 500)):
        given = ["--number", str(number), "--calls", str(calls)]
        trace, begun = generated(number, calls), calls_of(number, calls)
        yield f"gen {number} {calls}", run, ALONE, ["gen", *given], (trace, "", 0)
        yield f"soak {number} {calls}", run, ALONE, ["soak", *given, *MACHINE], (end(begun), "", 0), "", VALIDATED
        yield f"run {number} {calls}", is_clean, trace, begun
    for number, calls, *known in GENERATED:
        given = ["--number", str(number), "--calls", str(calls)]
        yield f"gen {number} {calls}", run, ALONE, ["gen", *given], (tuple(known), "", 0)
        yield f"soak {number} {calls}", run, ALONE, ["soak", *given, *MACHINE], (end(known[1] // 2), "", 0)


def is_clean(trace, calls):
    """That a trace is replayed with a line for each call and no report."""
    ended, wrote, _ = ran(ALONE, RUN, trace, VALIDATED)
    lines = wrote.decode().splitlines(keepends=True)
    returns = [line.split(" ")[:2] for line in lines if line.startswith("ret ")]
    if ended or lines[-1] != end(calls) or returns != [["ret", str(k)] for k in range(1, calls + 1)]:
        raise Wrong(f"status {ended}, and {len(returns)} returns of {calls}")


def cases():
    yield from longest_lines()
    for part in (longest_payloads, full_lines, most_names, most_devices, more_of_files, cut_traces, cut_files):
        yield from part()
    yield from generated_traces()
