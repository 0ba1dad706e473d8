#!/usr/bin/env python3
"""generate.py [--check]: writes view/commands.py from the command table of crates/command_tables, or says whether it
is what would be written.

The pages have to know who owns what and what a call ends. The replayer's table says so, and a copy by hand would drift
from it."""
import pathlib
import re
import sys

HERE = pathlib.Path(__file__).resolve().parent
SOURCES = HERE.parent / "crates/command_tables/src"
OUT = HERE / "commands.py"
ROW = re.compile(r'^\s*\w+ "(vk\w+)" \((.*)\) \(([^()]*)\) (code|void);$', re.M)
PARAMETER = re.compile(r"(\w+): (\w+) \[([^\]]*)\]")
MARKS = {"many": "many=True", "or_null": "optional=True", "written": "written=True", "same_device": "same_device=True"}
IMPLIED = {"with_pool", "with_sets", "with_queues"}
HEAD = '''"""The command table, written by generate.py from crates/command_tables. Don't change it by hand."""
from tables import Effect, Parameter, Row

'''


def parameter(name: str, kind: str, marks: str) -> str:
    """One parameter as Python. Implied uses are left out: the pages draw what an argument names."""
    words = [f'"{name}"', f'"{kind}"']
    for mark in marks.split():
        owner = re.fullmatch(r"owned_by\((\d+)\)", mark)
        if owner:
            words.append(f"owned_by={owner[1]}")
        elif mark not in IMPLIED:
            words.append(MARKS[mark])
    return f"Parameter({', '.join(words)})"


def effect(text: str) -> str:
    """What a command does, as Python."""
    if text == "none":
        return "Effect()"
    ends = re.fullmatch(r"(destroy|free|reset) (\d+)", text)
    if ends:
        return f'Effect("{ends[1]}", target={ends[2]})'
    makes = re.fullmatch(r"(new|get)(_many)? (\w+) of (nobody|(owner_of )?(\d+))", text)
    if not makes:
        raise SystemExit(f"generate.py: an effect that isn't known: {text}")
    words = [f'"{"create" if makes[1] == "new" else "retrieve"}"', f'"{makes[3]}"']
    words += ["many=True"] if makes[2] else []
    words += [f"owner={makes[6]}"] if makes[6] else []
    words += ["owners_owner=True"] if makes[5] else []
    return f"Effect({', '.join(words)})"


def row(name: str, parameters: str, what: str, answer: str) -> str:
    """One row as Python, a parameter a line."""
    lines = [f'    "{name}": Row("{name}", (']
    lines += [f"        {parameter(*p)}," for p in PARAMETER.findall(parameters)]
    return "\n".join(lines) + f"\n    ), {effect(what)}, {answer == 'code'}),\n"


def generated() -> str:
    """The whole file."""
    text = "\n".join(p.read_text() for p in sorted(SOURCES.glob("*.rt")))
    rows = sorted(ROW.findall(text))
    if len(rows) < 92 or len({r[0] for r in rows}) != len(rows):
        raise SystemExit(f"generate.py: {len(rows)} rows below {SOURCES} are too few or have a name twice")
    return HEAD + "COMMANDS: dict[str, Row] = {\n" + "".join(row(*r) for r in rows) + "}\n"


def main() -> int:
    if sys.argv[1:] not in ([], ["--check"]):
        print("usage: generate.py [--check]", file=sys.stderr)
        return 2
    if not sys.argv[1:]:
        OUT.write_text(generated())
        return 0
    if OUT.read_text() == generated():
        return 0
    print("generate.py: view/commands.py isn't what the command table makes; run view/generate.py", file=sys.stderr)
    return 1


if __name__ == "__main__":
    sys.exit(main())
