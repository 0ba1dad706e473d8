#!/usr/bin/env python3
"""compare.py PROGRAM [--plain PATH] [--no-instructions] [--no-seconds] [NUMBER [CALLS ..]]: measures the built program beside the plain
one of bench/plain, which does the same and of which nothing is proved.

For each number of turns (10000, 100000 and 1000000) it makes the generated trace with both, checks that both make the same one, and prints
a row for `run` on the trace in a file and one for `soak`, each with no layers and through the validation layer; and then the same rows for
`run` on the three kinds of traces that traces.py makes, of about as many calls. Each row also checks that both write the same text.

Instructions are counted below `valgrind --tool=callgrind`, in rows of at most 100000 turns. `--no-instructions` leaves their columns out,
`--no-seconds` those of seconds. PATH is the built plain program; without it rustc builds it. README.md says how to read the rows."""
import argparse
import filecmp
import os
import pathlib
import re
import shutil
import subprocess
import sys
import tempfile

import traces

HERE = pathlib.Path(__file__).resolve().parent
MACHINE = HERE.parent / "examples" / "machine"
LAYERS = [("", {}), (", validated", {"VK_INSTANCE_LAYERS": "VK_LAYER_KHRONOS_validation"})]
RUSTC = ["rustc", "--edition", "2021", "-C", "opt-level=3", "-C", "lto=fat", "-C", "codegen-units=1", "-C", "panic=abort"]
RUNS = 5
# A run takes some fifty times as long where its instructions are counted.
MOST_COUNTED = 100_000
INSTRUCTIONS = ["instructions a line", "plain instructions a line", "instructions / plain"]
MEMORY = ["MB", "plain MB"]
SECONDS = ["s", "calls a second", "s a call, to the size before", "plain s", "s / plain s"]

# A process of its own runs and waits for the program, since the memory of whoever starts one counts for it until it runs.
WAITER = """
import os, sys
pid = os.posix_spawn(sys.argv[1], sys.argv[1:], dict(os.environ))
_, status, used = os.wait4(pid, 0)
print(os.waitstatus_to_exitcode(status), used.ru_utime + used.ru_stime, used.ru_maxrss / 1024, file=sys.stderr)
"""


def run(words, env, stdin, output):
    """Runs once: status, processor seconds and resident MB, of which those below a bare Python's can't be told apart."""
    with open(stdin, "rb") as source, open(output, "wb") as sink:
        waiter = [sys.executable, "-S", "-E", "-c", WAITER, *words]
        said = subprocess.run(waiter, env=env, stdin=source, stdout=sink, stderr=subprocess.PIPE, check=True).stderr
    status, seconds, memory = said.splitlines()[-1].split()
    return int(status), float(seconds), float(memory)


def count(words, env, stdin, room):
    """The instructions of one run."""
    log = f"{room}/counted"
    below = ["valgrind", "--tool=callgrind", "--callgrind-out-file=/dev/null", f"--log-file={log}"]
    path = {"PATH": os.environ["PATH"]}
    with open(stdin, "rb") as source:
        subprocess.run([*below, *words], env={**path, **env}, stdin=source, stdout=subprocess.DEVNULL, check=True)
    return int(re.search(r"Collected : (\d+)", pathlib.Path(log).read_text()).group(1))


def lines_in(path):
    with open(path, "rb") as file:
        return sum(1 for _ in file)


def last_line(path):
    with open(path, "rb") as file:
        file.seek(max(0, os.path.getsize(path) - 4096))
        return file.read().rstrip(b"\n").rsplit(b"\n", 1)[-1]


def calls_of(line):
    return int(line.split(b"calls=")[1].split()[0])


class Comparison:
    def __init__(self, programs, room, wants):
        self.programs = programs
        self.room = room
        self.seconds, self.instructions = wants.seconds, wants.instructions
        self.valgrind = shutil.which("valgrind")
        if self.instructions and not self.valgrind:
            print("compare.py: no valgrind, so no instructions are counted", file=sys.stderr)
        self.columns = (INSTRUCTIONS if self.instructions else []) + MEMORY + (SECONDS if self.seconds else [])
        # Seconds a call of the size before.
        self.before = {}
        # Whether instructions are counted at this size.
        self.counts = False

    def head(self):
        names = ["what", "turns", "lines", *self.columns]
        print("| " + " | ".join(names) + " |\n" + "|---" * len(names) + "|", flush=True)

    def used(self, words, env, stdin):
        """Seconds and memory of both, the best of some runs in turns, so that both see the same machine; and the last line of their text,
        which has to be the same."""
        texts = [f"{self.room}/text", f"{self.room}/other"]
        runs = RUNS if self.seconds else 1
        goes = [[run([program, *words], env, stdin, text) for program, text in zip(self.programs, texts)] for _ in range(runs)]
        statuses = {status for go in goes for status, _, _ in go}
        if statuses != {0} or not filecmp.cmp(*texts, shallow=False):
            sys.exit(f"{words}: statuses {statuses}, {last_line(texts[0])} and {last_line(texts[1])}")
        best = [[min(go[side][what] for go in goes) for side in (0, 1)] for what in (1, 2)]
        return best[0], best[1], last_line(texts[0])

    def counted(self, words, env, stdin, lines):
        mine, plain = (count([program, *words], env, stdin, self.room) for program in self.programs)
        return dict(zip(INSTRUCTIONS, (f"{mine / lines:.0f}", f"{plain / lines:.0f}", f"{mine / plain:.2f}")))

    def measure(self, title, turns, words, env, stdin, lines):
        """Prints the row of one way to replay a trace of so many lines."""
        seconds, memory, last = self.used(words, env, stdin)
        cells = dict(zip(MEMORY, (f"{m:.1f}" for m in memory)))
        calls = calls_of(last)
        cost = seconds[0] / calls
        growth = f"{cost / self.before[title]:.2f}" if title in self.before else ""
        self.before[title] = cost
        times = f"{seconds[0]:.3f}", f"{calls / seconds[0]:.0f}", growth, f"{seconds[1]:.3f}", f"{seconds[0] / seconds[1]:.2f}"
        cells |= dict(zip(SECONDS, times))
        if self.counts:
            cells |= self.counted(words, env, stdin, lines)
        row = [title, str(turns), str(lines), *(cells.get(column, "") for column in self.columns)]
        print("| " + " | ".join(row) + " |", flush=True)

    def generated(self, made):
        """Makes the generated trace with both programs."""
        trace, other = f"{self.room}/trace", f"{self.room}/other"
        for program, path in zip(self.programs, (trace, other)):
            run([program, "gen", *made], {}, os.devnull, path)
        if not filecmp.cmp(trace, other, shallow=False):
            sys.exit(f"another trace of {made}")
        return trace

    def rows(self, number, turns):
        self.counts = self.instructions and self.valgrind and turns <= MOST_COUNTED
        made = ["--number", number, "--calls", str(turns)]
        root = ["--root", str(MACHINE)]
        trace = self.generated(made)
        lines = lines_in(trace)
        for title, env in LAYERS:
            self.measure("run" + title, turns, ["run", *root], env, trace, lines)
        for title, env in LAYERS:
            self.measure("soak" + title, turns, ["soak", *root, *made], env, os.devnull, lines)
        for kind, calls in traces.CALLS.items():
            with open(trace, "w") as file:
                traces.write(kind, turns // calls, file)
            lines = lines_in(trace)
            for title, env in LAYERS:
                self.measure(kind + title, turns // calls, ["run", *root], env, trace, lines)


def main():
    if len(sys.argv) < 2:
        sys.exit(__doc__)
    words = argparse.ArgumentParser(usage=__doc__)
    words.add_argument("program", type=os.path.abspath)
    words.add_argument("--plain", type=os.path.abspath)
    words.add_argument("--no-instructions", dest="instructions", action="store_false")
    words.add_argument("--no-seconds", dest="seconds", action="store_false")
    words.add_argument("number", nargs="?", default="7")
    words.add_argument("calls", nargs="*", type=int)
    wants = words.parse_intermixed_args()
    with tempfile.TemporaryDirectory() as room:
        plain = wants.plain or f"{room}/plain"
        if not wants.plain:
            subprocess.run([*RUSTC, "-o", plain, HERE / "plain" / "main.rs"], check=True)
        comparison = Comparison([wants.program, plain], room, wants)
        comparison.head()
        for turns in wants.calls or [10_000, 100_000, 1_000_000]:
            comparison.rows(wants.number, turns)


if __name__ == "__main__":
    main()
