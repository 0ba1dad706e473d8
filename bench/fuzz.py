#!/usr/bin/env python3
"""fuzz.py ROUNDS [SEED]: runs the built program over so many changed traces and so many changed trees of each stored
trace, through the validation layer, and checks what holds of a run whatever came.

The output is whole lines. Where the run came to its end, the one end line is the last line and counts the returns, the
skipped calls and the reports, the status says whether there is a report, and nothing is said; otherwise there is no
end line, and one line is said. A run again, and one under a driver of another policy, comes to the same. A trace's
first lines come to the first lines of what the whole comes to."""
import os, pathlib, re, subprocess, sys, tempfile
from concurrent.futures import ThreadPoolExecutor

TOP = pathlib.Path(__file__).resolve().parent.parent
PROGRAM = pathlib.Path(os.environ.get("VKREPLAY", TOP / "crates/vkreplay/out/vkreplay")).resolve()
VALIDATED = {"VK_INSTANCE_LAYERS": "VK_LAYER_KHRONOS_validation"}
FILES = ["etc/vulkan/icd.d/a.json", "usr/share/vulkan/explicit_layer.d/v.json"]
SECONDS = 60
# two threads that submit to one queue, a buffer that is used behind its end, and sets that end with their pool
MIXED = b"""vktrace 1
b 1 vkCreateInstance = %1.1 VK_SUCCESS
r 1
b 1 vkEnumeratePhysicalDevices %1.1 = %1.2 VK_SUCCESS
r 1
b 1 vkCreateDevice %1.2 = %1.3 VK_SUCCESS
r 1
b 1 vkGetDeviceQueue %1.3 = %1.4 void
r 1
b 1 vkCreateBuffer %1.3 = %1.5 VK_SUCCESS
r 1
b 1 vkQueueSubmit %1.4 [] [] [] null VK_SUCCESS
b 2 vkQueueSubmit %1.4 [] [] [] null VK_SUCCESS
r 1
r 2
b 2 vkDestroyBuffer %1.3 %1.5 void
r 2
b 1 vkGetBufferMemoryRequirements %1.3 %1.5 void
r 1
b 1 vkCreateCommandPool %1.3 = %1.6 VK_SUCCESS
r 1
b 1 vkAllocateCommandBuffers %1.3 %1.6 = %1.7,%1.8 VK_SUCCESS
r 1
b 1 vkDestroyCommandPool %1.3 %1.6 void
r 1
b 2 vkBeginCommandBuffer %1.8 VK_SUCCESS
r 2
b 1 vkDestroyDevice %1.3 void
r 1
b 1 vkDestroyInstance %1.1 void
r 1
"""


class Dice:
    """Knuth's MMIX generator."""

    def __init__(self, number):
        self.number = number

    def below(self, bound):
        self.number = (self.number * 6364136223846793005 + 1442695040888963407) % 2**64
        return (self.number >> 33) % bound if bound else 0


def with_bytes_changed(dice, text):
    """A byte that is another or has a bit flipped, a piece that is missing or doubled, or an end that is missing."""
    kind, at = dice.below(5), dice.below(len(text))
    behind = at + dice.below(12)
    other, bit = 32 + dice.below(95), 1 << dice.below(8)
    if kind == 0:
        return text[:at] + bytes([other]) + text[at + 1:]
    if kind == 1:
        return text[:at] + text[behind:]
    if kind == 2:
        return text[:at]
    if kind == 3:
        return text[:behind] + text[at:]
    return text[:at] + bytes(byte ^ bit for byte in text[at:at + 1]) + text[at + 1:]


def with_parts_changed(dice, text, between):
    """Of the lines, or other parts, two have changed places, or one stands in the place of another."""
    parts = text.split(between)
    first, second = dice.below(len(parts)), dice.below(len(parts))
    swapped = dice.below(2) == 0
    changed = list(parts)
    changed[first] = parts[second]
    if swapped:
        changed[second] = parts[first]
    return between.join(changed)


def changed(dice, text, between):
    return with_parts_changed(dice, text, between) if dice.below(2) == 0 else with_bytes_changed(dice, text)


def changed_traces(dice, stored, manifests, rounds):
    """Traces that change more and more, and begin again now and then."""
    for turn in range(rounds):
        trace = changed(dice, stored if turn % 4 == 0 else trace, b"\n")
        yield trace, manifests


def changed_trees(dice, stored, manifests, rounds):
    """The same of manifests: their bytes, what stands between their commas, or which of the two files has them."""
    for turn in range(rounds):
        driver, layer = manifests if turn % 4 == 0 else (driver, layer)
        kind = dice.below(8)
        if kind == 0:
            driver = layer
        elif kind == 1:
            layer = driver
        elif kind < 4:
            driver = changed(dice, driver, b",")
        else:
            layer = changed(dice, layer, b",")
        yield stored, (driver, layer)


def ran(folder, trace, policy):
    """The status of a run, what it wrote and what it said."""
    words = [PROGRAM, "run", "--driver", policy, "--root", folder]
    run = subprocess.run(words, input=trace, env=VALIDATED, capture_output=True, timeout=SECONDS)
    return run.returncode, run.stdout, run.stderr


def skipped_in(lines):
    """How many calls are skipped: those with a report that isn't of an overlap, and the instances that are refused."""
    refused = {line[1] for line in lines if line[0] == b"chain" and line[2] != b"ok"}
    reported = {line[1] for line in lines if line[0] == b"report" and not line[3].endswith(b"-overlap")}
    return len(refused | reported)


def ends_well(status, wrote, said):
    """Whether the end is that of the status."""
    lines = [line.split(b" ") for line in wrote.splitlines()]
    counts = {kind: sum(line[0] == kind for line in lines) for kind in (b"ret", b"report", b"end")}
    if status > 1:
        return counts[b"end"] == 0 and re.fullmatch(rb"vkreplay: [^\n]+\n", said) is not None
    wanted = b"end calls=%d skipped=%d reports=%d\n" % (counts[b"ret"], skipped_in(lines), counts[b"report"])
    is_clean = counts[b"report"] == 0
    return counts[b"end"] == 1 and wrote.endswith(wanted) and said == b"" and (status == 0) == is_clean


def fault_of(folder, trace, front):
    """What doesn't hold of a run, or nothing."""
    status, wrote, said = came = ran(folder, trace, "fresh")
    if wrote and not wrote.endswith(b"\n"):
        return "its last line isn't whole"
    if not ends_well(*came):
        return f"it ends wrongly, with status {status}"
    if any(ran(folder, trace, policy) != came for policy in ("fresh", "reuse", "share")):
        return "another run came to something else"
    first = re.sub(rb"^end .*\n", b"", ran(folder, front, "fresh")[1], flags=re.M)
    return None if wrote.startswith(first) else "its first lines come to something else"


def tried(room, number, given, dice):
    """A run over a changed trace and changed manifests, each file below a folder of its own."""
    trace, manifests = given
    folder = room / str(number)
    for path, text in zip(FILES, manifests):
        (folder / path).parent.mkdir(parents=True, exist_ok=True)
        (folder / path).write_bytes(text)
    lines = trace.splitlines(keepends=True)
    return folder, trace, b"".join(lines[:dice.below(len(lines))])


def main():
    if len(sys.argv) not in (2, 3) or not all(word.isdigit() for word in sys.argv[1:]):
        sys.exit(__doc__)
    rounds, seed = int(sys.argv[1]), int(sys.argv[2]) if len(sys.argv) == 3 else 11
    if not os.access(PROGRAM, os.X_OK):
        sys.exit(f"fuzz: there is no {PROGRAM}")
    stored = [(TOP / "examples/twice.trace").read_bytes(), MIXED]
    manifests = tuple((TOP / "examples/machine" / path).read_bytes() for path in FILES)
    traces, trees, dice = Dice(seed), Dice(seed + 2), Dice(seed + 4)
    given = [one for trace in stored for one in changed_traces(traces, trace, manifests, rounds)]
    given += [one for trace in stored for one in changed_trees(trees, trace, manifests, rounds)]
    with tempfile.TemporaryDirectory() as folder, ThreadPoolExecutor(os.cpu_count()) as pool:
        runs = [tried(pathlib.Path(folder), number, one, dice) for number, one in enumerate(given)]
        faults = list(pool.map(lambda run: fault_of(*run), runs))
    wrong = [(fault, one) for fault, one in zip(faults, given) if fault]
    for fault, (trace, texts) in wrong:
        print(f"fuzz: {fault}: {trace!r} over {texts!r}")
    print(f"fuzz: {len(given) - len(wrong)} runs as they must be, {len(wrong)} not")
    sys.exit(1 if wrong else 0)


if __name__ == "__main__":
    main()
