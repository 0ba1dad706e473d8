#!/usr/bin/env python3
"""gate.py [--session PID] [COMMAND WORD ..]: what a gate costs. Runs the command (none: `bash .ci/run`) at the top of the repository, or watches the
session of a process that runs one, and prints a table of processor seconds by crate: proof, tests (their proof and build), edits, and the rest."""
import os, pathlib, re, subprocess, sys, time
from collections import defaultdict

TOP = pathlib.Path(__file__).resolve().parent.parent
TICK = os.sysconf("SC_CLK_TCK")
PAUSE = 0.5


def fields(pid):
    """The session of a process and its processor seconds."""
    parts = pathlib.Path(f"/proc/{pid}/stat").read_text().rsplit(")", 1)[1].split()
    return int(parts[3]), (int(parts[11]) + int(parts[12])) / TICK


def kind(pid):
    """The crate for which a process of the toolchain works, and at what."""
    words = pathlib.Path(f"/proc/{pid}/cmdline").read_bytes().decode(errors="replace").split("\0")
    if "--crate-name" not in words:
        return None
    crate = words[words.index("--crate-name") + 1]
    if "rt-edit" in os.readlink(f"/proc/{pid}/cwd"):
        return crate, "edits"
    return crate, "tests" if "--test" in words else "proof"


def watch(session, ended):
    """The greatest processor time that was seen of each process of the toolchain in a session."""
    seen = {}
    while not ended():
        for name in os.listdir("/proc"):
            if not name.isdigit():
                continue
            try:
                whose, seconds = fields(name)
                if whose == session and (what := seen.get(name, (kind(name), 0))[0]):
                    seen[name] = what, seconds
            except (OSError, IndexError):
                continue
        time.sleep(PAUSE)
    return seen.values()


def table(seen):
    """Rows by crate, the most costly first, and their sum."""
    rows = defaultdict(lambda: defaultdict(float))
    for (crate, what), seconds in seen:
        rows[crate][what] += seconds
        rows["all"][what] += seconds
    yield "| crate | proof s | tests s | edits s | all s |"
    yield "|---|---|---|---|---|"
    for crate, row in sorted(rows.items(), key=lambda it: -sum(it[1].values())):
        cells = [f"{row[what]:.0f}" for what in ("proof", "tests", "edits")]
        yield f"| {crate} | {' | '.join(cells)} | {sum(row.values()):.0f} |"


def main():
    words = sys.argv[1:]
    if words[:1] == ["--session"]:
        pid = int(words[1])
        seen = watch(fields(pid)[0], lambda: not os.path.exists(f"/proc/{pid}"))
    else:
        run = subprocess.Popen(words or ["bash", ".ci/run"], cwd=TOP, start_new_session=True)
        seen = watch(run.pid, lambda: run.poll() is not None)
    print("\n".join(table(seen)))


if __name__ == "__main__":
    main()
