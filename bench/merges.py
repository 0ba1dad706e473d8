#!/usr/bin/env python3
"""merges.py [RUNS [FILE]]: runs `vkreplay_mt` so many times, else 1,000, on a stream file, else on examples/streams/shared.streams, through the
validation layer on the small machine of the examples, and says how many different merges came.

Each output has to be one merge of the file's streams with the text that `vkreplay run` prints for it; that is run once for each different
merge. The programs are the built ones, or those that VKREPLAY and VKREPLAY_MT name. It is no part of the gate."""
import collections, pathlib, sys

sys.dont_write_bytecode = True
from merged import MACHINE, THREADS, TOP, VALIDATED, Sections, Wrong, compare, merged, replayed

WORDS = ["--root", str(MACHINE)]


class Seen:
    """The merges that came: how often each did, and what `vkreplay run` prints for its trace."""

    def __init__(self, path):
        self.given = path.read_text()
        self.sections = Sections(self.given)
        self.came = collections.Counter()
        self.wanted = {}

    def run(self):
        status, trace, merge, text = merged(self.sections, self.given, WORDS, VALIDATED)
        merge = tuple(merge)
        if merge not in self.wanted:
            self.wanted[merge] = replayed(trace, WORDS, VALIDATED)
        compare((status, text), self.wanted[merge])
        self.came[merge] += 1

    def reports(self):
        """The numbers of reports that came, least and greatest."""
        counts = [text.count("\nreport ") for _, text in self.wanted.values()]
        return min(counts), max(counts)


def main():
    if len(sys.argv) > 3 or not all(word.isdigit() for word in sys.argv[1:2]):
        sys.exit(__doc__)
    runs = int(sys.argv[1]) if len(sys.argv) > 1 else 1000
    seen = Seen(pathlib.Path(sys.argv[2]) if len(sys.argv) > 2 else TOP / "examples/streams/shared.streams")
    wrong = 0
    for number in range(1, runs + 1):
        try:
            seen.run()
        except Wrong as cause:
            wrong += 1
            print(f"merges: run {number} of {THREADS.name}: {cause}")
    if seen.came:
        least, most = seen.reports()
        often = seen.came.most_common(1)[0][1]
        print(f"merges: {len(seen.came)} different ones in {runs} runs, the commonest in {often} of them; {least} to {most} reports")
    print(f"merges: {runs - wrong} runs as they must be, {wrong} not")
    sys.exit(1 if wrong else 0)


if __name__ == "__main__":
    main()
