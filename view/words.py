"""What both programs do with their words: they read the files, and say in one line why there is nothing to show."""
import gc
import sys
from collections.abc import Callable

from runs import Run, read_run
from traces import Refused


def _read(path: str) -> bytes:
    """A file's bytes."""
    try:
        with open(path, "rb") as file:
            return file.read()
    except OSError as why:
        raise Refused(f"{path!r}: {why.strerror}") from None


def paths_of(words: list[str], names: bool) -> tuple[str, str, str | None] | None:
    """The paths of the trace, the text and, where `names` allows them, the names; or none where the words aren't
    understood."""
    rest, found = [], None
    waiting = list(words)
    while waiting:
        word = waiting.pop(0)
        if names and found is None and word == "--names" and waiting:
            found = waiting.pop(0)
        elif names and found is None and word.startswith("--names="):
            found = word[len("--names="):]
        elif word.startswith("--"):
            return None
        else:
            rest.append(word)
    return (rest[0], rest[1], found) if len(rest) == 2 else None


def main(program: str, usage: str, names: bool, show: Callable[[Run, str, str], str]) -> int:
    """Reads what the words name and prints what `show` makes of the run and its two paths: 0, or 2 with one line on
    standard error."""
    paths = paths_of(sys.argv[1:], names)
    if paths is None:
        print(f"usage: {usage}", file=sys.stderr)
        return 2
    gc.disable()  # all of a run lives to the end, and looking through it again and again took half of the time
    try:
        run = read_run(_read(paths[0]), _read(paths[1]), _read(paths[2]) if paths[2] is not None else b"")
    except Refused as why:
        print(f"{program}: {why}", file=sys.stderr)
        return 2
    try:
        sys.stdout.buffer.write(show(run, paths[0], paths[1]).encode())
        sys.stdout.flush()
    except OSError as why:
        print(f"{program}: standard output: {why.strerror}", file=sys.stderr)
        return 2
    return 0
