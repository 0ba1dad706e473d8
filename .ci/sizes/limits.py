"""Runs at a limit and above it, each measured: its greatest memory is compared with the bound that stands beside it.

As a program, `limits.py ROW FOLDER` runs one row. It makes what is given as it goes and compares what is written as it
comes. The memory of whoever starts a program counts for it until it runs; so the row is a process of its own, which
holds little as it starts the program: what is below that start's 11 MB can't be told apart. Its line tells the
greatest MB, the seconds of wall time and of the processors, and what is wrong, if anything."""
import os, sys, threading, time

from traces import BARE, CHECKED, DEVICE, DEVICE_TEXT, LONGEST, START, WAIT, calls_of, end, waited

TOP = os.path.dirname(os.path.dirname(os.path.dirname(os.path.abspath(__file__))))
MACHINE = f"{TOP}/examples/machine"
VALIDATED = {"VK_INSTANCE_LAYERS": "VK_LAYER_KHRONOS_validation"}
ENABLED = {"VK_LOADER_LAYERS_ENABLE": "c*"}
# how many seconds a row may take
PATIENCE = 170
MOST_NAMES = 4_194_304
# the names of buffers in the greatest traces: three others come before them
BUFFERS = range(4, MOST_NAMES + 1)
BEGIN = WAIT.partition("\n")[0] + "\n"
CALL = BEGIN.strip() + " : "


def parts(numbers):
    """A range of numbers in parts."""
    return (numbers[at:at + 2_000] for at in range(0, len(numbers), 2_000))


def nothing():
    return ()


def soaked(calls):
    """What is left of a generated trace."""
    return lambda: [end(calls_of(1, calls))]


def greatest(last):
    """A trace of 16,777,215 lines and the most names: each buffer is made and destroyed at once. Then a last part."""
    def made():
        yield START
        for part in parts(BUFFERS):
            yield "".join([f"b 1 vkCreateBuffer %1.3 = %1.{name} VK_SUCCESS\nr 1\n"
                           f"b 1 vkDestroyBuffer %1.3 %1.{name} void\nr 1\n" for name in part])
        yield WAIT * 2 + last
    return made


def greatest_text(chain):
    """What it comes to: the lines of three calls, of two for each buffer, and of two."""
    def made():
        yield chain + DEVICE_TEXT
        for part in parts(range(4, 4 + 2 * len(BUFFERS), 2)):
            yield "".join([f"ret {call} vkCreateBuffer VK_SUCCESS born=1\n"
                           f"ret {call + 1} vkDestroyBuffer void\n" for call in part])
        yield waited(4 + 2 * len(BUFFERS), 2)
    return made


def living(last):
    """A trace of 8,388,609 lines and the most names, whose buffers all live. Then a last line."""
    def made():
        yield START
        for part in parts(BUFFERS):
            yield "".join([f"b 1 vkCreateBuffer %1.3 = %1.{name} VK_SUCCESS\nr 1\n" for name in part])
        yield last
    return made


def living_text(chain):
    def made():
        yield chain + DEVICE_TEXT
        for part in parts(range(4, 4 + len(BUFFERS))):
            yield "".join([f"ret {call} vkCreateBuffer VK_SUCCESS born=1\n" for call in part])
    return made


def long_lines():
    """200 calls of the most bytes, and one with a byte more."""
    yield START
    for _ in range(200):
        yield CALL.ljust(LONGEST, "x") + "\nr 1\n"
    yield CALL.ljust(LONGEST + 1, "x") + "\nr 1\n"


def long_text():
    return [BARE + DEVICE_TEXT + waited(4, 200)]


def machines(room):
    """A machine with 64 validation layers, and one with as many and the most manifest files of each kind."""
    from runs import driver, layer, layers, link, numbered, plant
    names = numbered(64, "c")
    listed = layers([layer(name, "libVkLayer_khronos_validation.so") for name in names])
    plant(f"{room}/layers", {"/etc/vulkan/icd.d/a.json": driver(), "/etc/vulkan/explicit_layer.d/l.json": listed})
    files = numbered(4_096, "m", 10_000)
    off = layer("off", enable_environment={"ON": "1"})
    root = plant(f"{room}/files", {
        "/etc/vulkan/icd.d/m10000": driver(size=65_536),
        "/etc/vulkan/implicit_layer.d/m10000": layers([off], 65_536),
        "/etc/vulkan/explicit_layer.d/m10000": listed,
    })
    for kind in ("icd", "implicit_layer", "explicit_layer"):
        link(root, f"/etc/vulkan/{kind}.d", ["m10000", *(f"{name}.json" for name in files)])


def files_text():
    """What comes of the start of a trace on the second of these. Of 4,096 physical devices one is asked for."""
    from runs import chain_text, numbered
    names, folder = numbered(64, "c"), "/etc/vulkan/explicit_layer.d"
    drivers = [(f"/etc/vulkan/icd.d/{name}.json", "libd.so") for name in numbered(4_096, "m", 10_000)]
    parted = [(kind, name) for name in names for kind in ("threads", "lifetimes", "unique")]
    yield chain_text([(name, f"{folder}/m10000.json") for name in names], drivers, parted, 1)
    yield DEVICE_TEXT.replace("Devices VK_SUCCESS", "Devices VK_INCOMPLETE") + end(3)


# in stream files the names of 16 devices follow on an instance and a physical device
DEVICES = range(3, 19)


def stream_file(setup, stream, teardown):
    """A stream file with 16 devices and 64 streams, of which each is asked for by its thread and a device."""
    made = [f"b 1 vkCreateDevice %1.2 = %1.{device} VK_SUCCESS\nr 1\n" for device in DEVICES]
    yield "vkstreams 1\nsetup\n" + DEVICE.partition("b 1 vkCreateDevice")[0] + "".join(made) + setup
    for thread in range(2, 66):
        yield f"stream {thread}\n" + stream(thread, DEVICES[thread % 16])
    ended = [f"b 1 vkDestroyDevice %1.{device} void\nr 1\n" for device in DEVICES]
    yield "teardown\n" + teardown + "".join(ended) + "b 1 vkDestroyInstance %1.1 void\nr 1\n"


def many_events():
    """The most events, 262,144: 35 calls of devices, 93 in setup, and 2,046 of each stream, which makes and destroys
    buffers."""
    def stream(t, device):
        return "".join([f"b {t} vkCreateBuffer %1.{device} = %{t}.{name} VK_SUCCESS\nr {t}\n"
                        f"b {t} vkDestroyBuffer %1.{device} %{t}.{name} void\nr {t}\n" for name in range(1, 1_024)])
    return stream_file(WAIT * 93, stream, "")


def named(thread, first, count):
    return ",".join([f"%{thread}.{name}" for name in range(first, first + count)])


def many_names():
    """The most names, 262,144: 18 of setup, 174 fences there, and 4,093 of each stream, a pool and what is of it."""
    def stream(t, device):
        called = [f"b {t} vkCreateCommandPool %1.{device} = %{t}.1 VK_SUCCESS\nr {t}\n"]
        for first in range(2, 4_094, 1_023):
            names = named(t, first, 1_023)
            called.append(f"b {t} vkAllocateCommandBuffers %1.{device} %{t}.1 = {names} VK_SUCCESS\nr {t}\n")
        return "".join(called) + f"b {t} vkDestroyCommandPool %1.{device} %{t}.1 void\nr {t}\n"
    fences = range(19, 193)
    setup = "".join([f"b 1 vkCreateFence %1.3 = %1.{name} VK_SUCCESS\nr 1\n" for name in fences])
    return stream_file(setup, stream, "".join([f"b 1 vkDestroyFence %1.3 %1.{name} void\nr 1\n" for name in fences]))


def names_before():
    """The most names again, all of them in setup: 262 pools, each with 1,000 command buffers or less. Each stream waits
    once."""
    setup, first = [], 19
    while first <= 262_144:
        count = min(1_000, 262_144 - first)
        setup.append(f"b 1 vkCreateCommandPool %1.3 = %1.{first} VK_SUCCESS\nr 1\n")
        if count:
            names = named(1, first + 1, count)
            setup.append(f"b 1 vkAllocateCommandBuffers %1.3 %1.{first} = {names} VK_SUCCESS\nr 1\n")
        first += count + 1
    pools = range(19, 262_145, 1_001)
    ended = "".join([f"b 1 vkDestroyCommandPool %1.3 %1.{name} void\nr 1\n" for name in pools])

    def stream(t, device):
        return f"b {t} vkDeviceWaitIdle %1.{device} VK_SUCCESS\nr {t}\n"
    return stream_file("".join(setup), stream, ended)


RUN = ["run", "--root", MACHINE]
SOAK = ["soak", "--number", "1", "--calls"]

# What it is, the words, the variables, what is given, the text, the line that is said, the status, and the bound in MB,
# about 1.5 times what was measured, which stands behind it. ROOM stands for the folder of the machines.
TRACES = [
    ("a million turns", [*SOAK, "1000000", "--root", MACHINE], {}, nothing, soaked(1_000_000), "", 0, 16),  # 10.6
    ("a million turns, validated", [*SOAK, "1000000", "--root", MACHINE], VALIDATED, nothing, soaked(1_000_000), "", 0,
     41),  # 27.0
    ("10,000 turns through 64 validation layers", [*SOAK, "10000", "--root", "ROOM/layers"], ENABLED, nothing,
     soaked(10_000), "", 0, 41),  # 27.1
    ("16,777,216 lines, 4,194,304 names", RUN, {}, greatest(BEGIN), greatest_text(BARE), "line 16777217: OpenAtEnd", 3,
     105),  # 69.9
    ("a line more, validated", RUN, VALIDATED, greatest(WAIT), greatest_text(CHECKED), "limit Lines 16777216", 6,
     450),  # 298.9
    ("a name more, all living", RUN, {}, living("b 2 vkCreateFence %1.3 = %2.1 VK_SUCCESS\n"), living_text(BARE),
     "limit Names 4194304", 6, 875),  # 582.1
    ("a number more, all living, validated", RUN, VALIDATED, living("b 1 vkCreateFence %1.3 = %1.4194305 VK_SUCCESS\n"),
     living_text(CHECKED), "line 8388610: Results", 3, 1220),  # 810.7
    ("lines of 65,536 bytes and of one more", RUN, {}, long_lines, long_text, "limit LineBytes 65536", 6, 16),  # 10.5
    ("4,096 manifests of each kind, 64 layers", ["run", "--root", "ROOM/files"], ENABLED, lambda: [START], files_text,
     "", 0, 16),  # 10.6
]

# The same of stream files, which are never at fault: what is wanted of them is the calls that they have.
FILES = [
    ("64 streams, 16 devices, 262,144 events", {}, many_events, 131_072, 285),  # 189
    ("64 streams, 16 devices, 262,144 events, validated", VALIDATED, many_events, 131_072, 285),  # 188
    ("262,144 names, most of streams", {}, many_names, 767, 145),  # 95
    ("262,144 names, most of streams, validated", VALIDATED, many_names, 767, 180),  # 118
    ("262,144 names of setup", {}, names_before, 885, 1370),  # 913
]


def started(program, words, variables):
    """Starts a program, with a pipe at each of its standard streams: its number and our ends."""
    given, wrote, said = os.pipe(), os.pipe(), os.pipe()
    theirs = given[0], wrote[1], said[1]
    actions = [(os.POSIX_SPAWN_DUP2, end, stream) for stream, end in enumerate(theirs)]
    process = os.posix_spawn(program, [program, *words], variables, file_actions=actions)
    for end in theirs:
        os.close(end)
    return process, given[1], wrote[0], said[0]


def feed(writer, pieces):
    """Writes what is given, until nobody reads it."""
    try:
        with open(writer, "wb", buffering=0) as source:
            for piece in pieces:
                left = memoryview(piece.encode())
                while left:
                    left = left[source.write(left):]
    except BrokenPipeError:
        pass


def compared(wrote, text):
    """What differs in what is written, or nothing."""
    at = 0
    for piece in text():
        wanted = piece.encode()
        got = wrote.read(len(wanted))
        if got != wanted:
            differs = next((k for k, pair in enumerate(zip(got, wanted)) if pair[0] != pair[1]), len(got))
            return f"byte {at + differs}: {got[differs:differs + 80]}, wanted {wanted[differs:differs + 80]}"
        at += len(wanted)
    more = wrote.read(80)
    return f"it wrote more than {at} bytes: {more}" if more else ""


def merged(wrote, given, variables, calls):
    """The same of a stream file: what is written is a merge of its streams, and what the other program makes of it."""
    sys.path.insert(0, f"{TOP}/bench")
    import merged
    try:
        trace, text = merged.parted(wrote.read().decode())
        merged.merge_in(merged.Sections("".join(given())), trace)
        merged.compare((0, text), merged.replayed(trace, ["--root", MACHINE], variables))
    except merged.Wrong as cause:
        return str(cause)
    return "" if text.endswith("\n" + end(calls)) else f"it ends with {text[-80:]!r}"


def measure(program, words, variables, given, check, line, status):
    """One run: the greatest MB, the seconds of wall time and of the processors, and what differs, or nothing."""
    begun = time.monotonic()
    process, writer, reader, errs = started(program, words, variables)
    clock = threading.Timer(PATIENCE, os.kill, (process, 9))
    clock.daemon = True
    clock.start()
    feeder = threading.Thread(target=feed, args=(writer, given()))
    feeder.start()
    with open(reader, "rb", buffering=1 << 18) as wrote, open(errs, "rb") as said:
        fault, said = check(wrote), said.read().decode()
    _, ended, used = os.wait4(process, 0)
    clock.cancel()
    seconds = time.monotonic() - begun
    feeder.join()
    ended = os.waitstatus_to_exitcode(ended)
    if (ended, said) != (status, f"vkreplay: {line}\n" if line else ""):
        fault = f"status {ended}, wanted {status} and `{line}`; said: {said[:200]!r}; {fault}"
    return used.ru_maxrss / 1024, seconds, used.ru_utime + used.ru_stime, fault


def measured(number, room):
    """Measures a row of both tables."""
    programs = [os.environ.get(name, f"{TOP}/crates/{crate}/out/{crate}")
                for name, crate in (("VKREPLAY", "vkreplay"), ("VKREPLAY_MT", "vkreplay_mt"))]
    if number < len(TRACES):
        _, words, variables, given, text, line, status, _ = TRACES[number]
        words = [word.replace("ROOM", room) for word in words]
        return measure(programs[0], words, variables, given, lambda wrote: compared(wrote, text), line, status)
    _, variables, given, calls, _ = FILES[number - len(TRACES)]
    words = ["--root", MACHINE]
    return measure(programs[1], words, variables, given, lambda wrote: merged(wrote, given, variables, calls), "", 0)


def bounded(number, room, took):
    """That a row is as it must be, measured by a process of its own, within its bound."""
    import subprocess
    from runs import Wrong
    what, *_, bound = [*TRACES, *FILES][number]
    words = [sys.executable, "-S", "-E", "-B", __file__, str(number), room]
    said = subprocess.run(words, stdout=subprocess.PIPE, text=True).stdout
    if not said:
        raise Wrong("it wasn't measured")
    memory, wall, used, fault = said.split(" ", 3)
    took.append(f"{memory:>7} MB of {bound:>5}, {wall:>5} s, {used:>5} s of processors: {what}")
    if fault.strip():
        raise Wrong(fault.strip())
    if float(memory) > bound:
        raise Wrong(f"it took {memory} MB, where {bound} are its bound")


def cases(room, took):
    """The rows as cases; what they took is appended to a list."""
    machines(room)
    for number, (what, *_) in enumerate([*TRACES, *FILES]):
        yield what, bounded, number, str(room), took


if __name__ == "__main__":
    print("{:.1f} {:.1f} {:.1f} {}".format(*measured(int(sys.argv[1]), sys.argv[2])))
