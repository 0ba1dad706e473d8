#!/usr/bin/env python3
"""scale.py [--runs N] [--calls N] [ROW ..]: what `vkreplay_mt` needs for stream files that it makes.

The first four rows are the same calls, half of them creations of buffers and half their ends, in other places: all in
setup, in one stream, in four streams on a device each, in four on one device. The others are files of odd shapes: many
queues that 64 streams wait for, 200,000 command buffers of one pool beside 64 streams of one call on 16 devices, and
50,000 creations beside one call with a list of 1,024. Each row is run with no layers and through the validation layer's
three parts, N times (3), and the best of each is printed: processor and wall seconds, greatest resident memory, and the
greatest address space. A run that hasn't ended after 120 seconds is stopped, and its row says so. It needs Linux;
`VKREPLAY_MT` may name another program."""
import argparse, os, pathlib, subprocess, sys, tempfile, time

TOP = pathlib.Path(__file__).resolve().parent.parent
sys.dont_write_bytecode = True
sys.path.insert(0, str(TOP / "bench"))
from merged import MACHINE, THREADS, VALIDATED

SECONDS = 120
INSTANCE = ["b 1 vkCreateInstance = %1.1 VK_SUCCESS", "r 1", "b 1 vkEnumeratePhysicalDevices %1.1 = %1.2 VK_SUCCESS", "r 1"]


def call(thread, words):
    """The lines of a call."""
    return [f"b {thread} {words}", f"r {thread}"]


def calls(thread, texts):
    return [line for words in texts for line in call(thread, words)]


def devices(count):
    """The first `count` devices, %1.3 and on."""
    return calls(1, (f"vkCreateDevice %1.2 = %1.{3 + k} VK_SUCCESS" for k in range(count)))


def ends(count):
    """Their ends, and the instance's."""
    return calls(1, [*(f"vkDestroyDevice %1.{3 + k} void" for k in range(count)), "vkDestroyInstance %1.1 void"])


def pairs(thread, device, count, first):
    """So many buffers, each created and destroyed."""
    return [line for n in range(first, first + count) for line in calls(thread, (
        f"vkCreateBuffer %1.{device} = %{thread}.{n} VK_SUCCESS", f"vkDestroyBuffer %1.{device} %{thread}.{n} void"))]


def written(setup, streams, teardown):
    lines = ["vkstreams 1", "setup", *setup]
    for thread, events in streams:
        lines += [f"stream {thread}", *events]
    return "\n".join([*lines, "teardown", *teardown]) + "\n"


def in_setup(n):
    return written(INSTANCE + devices(4) + pairs(1, 3, n // 2, 7), [], ends(4))


def in_streams(n, streams, on):
    """The calls in so many streams, on so many devices in turn."""
    parts = [(k + 2, pairs(k + 2, 3 + k % on, n // 2 // streams, 1)) for k in range(streams)]
    return written(INSTANCE + devices(4), parts, ends(4))


def waits(queues):
    """64 streams that wait 30 times each for a device with so many queues."""
    setup = INSTANCE + devices(1) + calls(1, (f"vkGetDeviceQueue %1.3 = %1.{4 + k} void : {k},0" for k in range(queues)))
    return written(setup, [(t, call(t, "vkDeviceWaitIdle %1.3 VK_SUCCESS") * 30) for t in range(1, 65)], ends(1))


def names(first, count):
    return ",".join(f"%1.{first + k}" for k in range(count))


def buffers():
    """200,000 command buffers of one pool, and 64 streams of one call on 16 devices."""
    setup = INSTANCE + devices(16) + call(1, "vkCreateCommandPool %1.3 = %1.19 VK_SUCCESS")
    setup += calls(1, (f"vkAllocateCommandBuffers %1.3 %1.19 = {names(20 + 1000 * k, 1000)} VK_SUCCESS" for k in range(200)))
    streams = [(t, call(t, f"vkDeviceWaitIdle %1.{3 + t % 16} VK_SUCCESS")) for t in range(1, 65)]
    return written(setup, streams, call(1, "vkDestroyCommandPool %1.3 %1.19 void") + ends(16))


def lists():
    """50,000 creations in one stream, and one call with a list of 1,024 in another."""
    setup = INSTANCE + devices(1) + call(1, "vkCreateCommandPool %1.3 = %1.4 VK_SUCCESS") + call(1, "vkGetDeviceQueue %1.3 = %1.5 void : 0,0")
    setup += call(1, f"vkAllocateCommandBuffers %1.3 %1.4 = {names(6, 1024)} VK_SUCCESS")
    made = calls(2, (f"vkCreateFence %1.3 = %2.{1 + k} VK_SUCCESS" for k in range(50000)))
    gone = calls(1, (f"vkDestroyFence %1.3 %2.{1 + k} void" for k in range(50000)))
    submit = call(3, f"vkQueueSubmit %1.5 [] [{names(6, 1024)}] [] null VK_SUCCESS")
    return written(setup, [(2, made), (3, submit)], gone + call(1, "vkDestroyCommandPool %1.3 %1.4 void") + ends(1))


ROWS = {
    "setup": lambda n: in_setup(n),
    "one stream": lambda n: in_streams(n, 1, 1),
    "four on four": lambda n: in_streams(n, 4, 4),
    "four on one": lambda n: in_streams(n, 4, 1),
    "400 queues": lambda n: waits(400),
    "1000 queues": lambda n: waits(1000),
    "buffers": lambda n: buffers(),
    "lists": lambda n: lists(),
}


def peak(pid):
    """The greatest address space of a process so far, in MB."""
    try:
        for line in pathlib.Path(f"/proc/{pid}/status").read_text().splitlines():
            if line.startswith("VmPeak"):
                return int(line.split()[1]) / 1024
    except OSError:
        pass
    return 0


def run(path, variables):
    """The status, processor and wall seconds, resident MB and MB of address space of a run."""
    began, space = time.monotonic(), 0
    with open(path, "rb") as given, open(os.devnull, "wb") as nowhere:
        child = subprocess.Popen([THREADS, "--root", MACHINE], stdin=given, stdout=nowhere, env=variables)
    while True:
        pid, status, used = os.wait4(child.pid, os.WNOHANG)
        if pid:
            break
        space = max(space, peak(child.pid))
        if time.monotonic() - began > SECONDS:
            child.kill()
            os.waitpid(child.pid, 0)
            return None
        time.sleep(0.002)
    return os.waitstatus_to_exitcode(status), used.ru_utime + used.ru_stime, time.monotonic() - began, used.ru_maxrss / 1024, space


def main():
    words = argparse.ArgumentParser(description=__doc__, formatter_class=argparse.RawDescriptionHelpFormatter)
    words.add_argument("--runs", type=int, default=3)
    words.add_argument("--calls", type=int, default=100000)
    words.add_argument("rows", nargs="*", metavar="ROW")
    asked = words.parse_args()
    if unknown := set(asked.rows) - set(ROWS):
        words.error(f"no such row: {', '.join(sorted(unknown))}; there are {', '.join(ROWS)}")
    print("| file | layers | lines | status | processor s | wall s | resident MB | address space MB |\n|---|---|---|---|---|---|---|---|")
    with tempfile.TemporaryDirectory() as folder:
        for row in asked.rows or ROWS:
            text = ROWS[row](asked.calls)
            path = pathlib.Path(folder) / "file.streams"
            path.write_text(text)
            for layers, variables in (("none", {}), ("validated", VALIDATED)):
                front = f"| {row} | {layers} | {text.count(chr(10))} |"
                done = [run(path, variables) for _ in range(asked.runs)]
                if None in done:
                    print(f"{front} not ended | | above {SECONDS} | | |", flush=True)
                    continue
                status, *best = max(one[0] for one in done), *(min(one[k] for one in done) for k in range(1, 5))
                print(front, status, "|", " | ".join(f"{x:.2f}" for x in best[:2]), "|", " | ".join(f"{x:.0f}" for x in best[2:]), "|", flush=True)


main()
