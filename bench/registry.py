#!/usr/bin/env python3
"""registry.py REGISTRY [TABLE]: compares the rows of the command table with the Khronos registry vk.xml.

REGISTRY is a release of vk.xml, as Debian's libvulkan-dev has it in /usr/share/vulkan/registry; TABLE another file of
rows than crates/command_tables/src/table.rt. It prints one line for each difference, in the order of the table: the
command, the handle or what else differs, what the row has and what the registry has, and whether the tables of
docs/DECISIONS.md, below "Rows beside the registry", have it. A line of these tables that meets no difference is
printed, too. The last line has counts. The status is 1 if a difference isn't explained, and 2 if nothing can be
compared. It is no part of the gate."""
import argparse, fnmatch, pathlib, re, runpy, sys
import xml.etree.ElementTree as ElementTree
from typing import NamedTuple

sys.dont_write_bytecode = True
TOP = pathlib.Path(__file__).resolve().parent.parent
sys.path.insert(0, str(TOP / "recorder"))
import generate

TABLE = TOP / "crates/command_tables/src/table.rt"
DECISIONS = TOP / "docs/DECISIONS.md"
HEADING = "\n## Rows beside the registry\n"
IMPLIED = {"with_pool": "VkCommandPool", "with_sets": "VkDescriptorSet", "with_queues": "VkQueue"}
SAME = {("or_null", "optional"), ("not null", "not optional"), ("written", "externsync"),
        ("not written", "no externsync")}


class Handle(NamedTuple):
    """A handle that a call is given, as a row or the registry has it: the name of the parameter or of the structure's
    member, the way to it, its type, and whether it may be null and is externally synchronized."""
    name: str
    place: str
    form: str
    null: str
    sync: str


class Command(NamedTuple):
    """A command as a row or the registry has it. What is used besides its handles is by their names."""
    handles: list
    implied: list
    result: str
    answer: str
    unplaced: list


class Difference(NamedTuple):
    """Where a row and the registry differ: at a handle or something else of a command, and what each has."""
    command: str
    what: str
    row: str
    registry: str

    def text(self):
        """Its line."""
        return f"{self.command} {self.what}: row {self.row}; registry {self.registry}"


def stop(why):
    """Says why nothing is compared, and ends."""
    print(f"registry: {why}", file=sys.stderr)
    sys.exit(2)


def form(kind, many):
    """A type of handle, or a list of it, as it is printed."""
    return f"list of {kind}" if many else kind


# ---------------------------------------------------------------- the rows


def row_handle(registry, name, kind, marks):
    """A parameter of a row, its type by the registry's name."""
    vulkan = generate.vulkan_type(registry, kind) or f"Vk{kind}"
    return Handle(name, name, form(vulkan, "many" in marks), "or_null" if "or_null" in marks else "not null",
                  "written" if "written" in marks else "not written")


def row_result(registry, effect):
    """What the effect of a row makes or gives."""
    word, *rest = effect.split()
    if not word.startswith(("new", "get")):
        return "nothing"
    return form(generate.vulkan_type(registry, rest[0]) or f"Vk{rest[0]}", word.endswith("many"))


def read_rows(path, registry):
    """The rows of a table by the names of their commands, in its order."""
    shapes, rows = runpy.run_path(str(TOP / ".ci/command-rows")), {}
    try:
        text = path.read_text()
    except OSError as cause:
        stop(cause)
    for name, params, effect, answer in shapes["ROW"].findall(text):
        found = [(p, kind, marks.split()) for p, kind, marks in shapes["PARAM"].findall(params)]
        implied = [(p, IMPLIED[mark]) for p, _, marks in found for mark in marks if mark in IMPLIED]
        handles = [row_handle(registry, *param) for param in found]
        rows[name] = Command(handles, implied, row_result(registry, effect), answer, [])
    if not rows or len(rows) != len(re.findall(r'^ *\w+ "vk', text, re.M)):
        stop(f"{path}: not all rows can be read")
    return rows


# ---------------------------------------------------------------- the registry


class Marks:
    """The attributes of parameters and members, and what commands use besides, which the recorder doesn't need."""

    def __init__(self, root):
        self.of = {}
        self.implicit = {}
        for element in root.findall("types/type[@category='struct']"):
            self.add(element.get("name"), element.findall("member"))
        for element in root.findall("commands/command"):
            name = element.findtext("proto/name")
            if name and generate.for_vulkan(element) and name not in self.implicit:
                self.add(name, element.findall("param"))
                implicit = element.findall("implicitexternsyncparams/param")
                self.implicit[name] = ["".join(param.itertext()) for param in implicit]

    def add(self, owner, parts):
        """Keeps the attributes of the parameters of a command, or of the members of a structure."""
        for part in parts:
            if generate.for_vulkan(part):
                self.of[owner, part.findtext("name")] = dict(part.attrib)

    def at(self, owner, part, key):
        """An attribute of a parameter or member; where it has none, an empty text."""
        return self.of.get((owner, part), {}).get(key, "")


def read_registry(path):
    """The registry as the recorder reads it, its further marks, and its release."""
    try:
        root = ElementTree.parse(path).getroot()
    except (OSError, ElementTree.ParseError) as cause:
        stop(f"{path}: {cause}")
    registry, marks = generate.Registry(), Marks(root)
    generate.read_types(root, registry)
    generate.read_commands(root, registry)
    defined = ["".join(t.itertext()) for t in root.findall("types/type[@category='define']") if generate.for_vulkan(t)]
    release = re.search(r"VK_HEADER_VERSION (\d+)", "\n".join(defined))
    return registry, marks, release[1] if release else "unknown"


def is_path(word):
    """Whether a mark of external synchronization names places inside a parameter, and isn't a word as `true`."""
    return bool(re.search(r"->|\.|\[", word))


def named_places(mark):
    """The places that a mark of external synchronization names, written as those of handles."""
    return [re.sub(r"\[.*?\]", "", word).replace("->", ".") for word in mark.split(",") if is_path(word)]


def sync_text(mark):
    """What an attribute `externsync` says of its own parameter or member."""
    if not mark or mark == "false" or is_path(mark):
        return "no externsync"
    return "externsync" if mark == "true" else f"externsync={mark}"


def null_text(marks, owner, member):
    """Whether a handle may be null; of a list, whether its elements may. The pointers to it aren't looked at."""
    words = marks.at(owner, member.name, "optional").split(",")
    depth = member.text.count("*")
    if words[depth:depth + 1] == ["true"]:
        return "optional"
    return "noautovalidity" if marks.at(owner, member.name, "noautovalidity") == "true" else "not optional"


def registry_handle(registry, marks, command, path):
    """The handle at a path from a parameter to it."""
    struct = path[-2].type if len(path) > 1 else command.name
    owner, last = registry.struct_aliases.get(struct, struct), path[-1]
    place = ".".join(step.name for step in path)
    sync = sync_text(marks.at(owner, last.name, "externsync"))
    if place in named_places(marks.at(command.name, path[0].name, "externsync")):
        sync = "externsync"
    many = any(step.array or (step.pointer and step.length) for step in path)
    return Handle(last.name, place, form(last.type, many), null_text(marks, owner, last), sync)


def implied_of(texts):
    """What a command uses besides, as its parameter and the type, where a text names these; else the text itself."""
    found = []
    for text in texts:
        kind, param = re.search(r"\bVk\w+", text), re.search(r"pname:(\w+)", text)
        found.append((param[1], kind[0]) if kind and param else ("(implicit)", text))
    return found


def unplaced_of(marks, command, handles):
    """Marks of external synchronization at what is no handle that the call is given."""
    places, found = {h.place for h in handles}, []
    for param in command.params:
        mark = marks.at(command.name, param.name, "externsync")
        found += [(place, "externsync") for place in named_places(mark) if place not in places]
        if sync_text(mark) != "no externsync" and param.name not in places:
            found.append((param.name, sync_text(mark)))
    return found


def registry_command(registry, marks, command):
    """A command as the registry has it."""
    handles = [registry_handle(registry, marks, command, p) for p in generate.handle_paths(registry, command)]
    made = [form(p.type, p.length) for p in command.params
            if p.type in registry.handles and p.pointer and not p.constant]
    answer = {"VkResult": "code"}.get(command.result, command.result)
    return Command(handles, implied_of(marks.implicit[command.name]), ", ".join(made) or "nothing", answer,
                   unplaced_of(marks, command, handles))


# ---------------------------------------------------------------- what differs


def of_handle(name, what, given, place):
    """The differences of a row's parameter from a handle of its name."""
    pairs = [(given.form, place.form), (given.null, place.null), (given.sync, place.sync)]
    return [Difference(name, what, ours, theirs) for ours, theirs in pairs
            if ours != theirs and (ours, theirs) not in SAME]


def of_handles(name, row, registry):
    """The differences in a command's handles. Where several have one name, they are told apart by their places."""
    found = []
    for given in row.handles:
        places = [h for h in registry.handles if h.name == given.name]
        for place in places:
            found += of_handle(name, given.name if len(places) == 1 else place.place, given, place)
        if not places:
            found.append(Difference(name, given.name, given.form, "absent"))
    names = {given.name for given in row.handles}
    found += [Difference(name, h.place, "absent", h.form) for h in registry.handles if h.name not in names]
    return found + [Difference(name, what, "absent", mark) for what, mark in registry.unplaced]


def of_command(name, row, registry):
    """The differences of a row from the registry's command."""
    found = of_handles(name, row, registry)
    found += [Difference(name, param, f"with {kind}", "nothing implicit") for param, kind in row.implied
              if (param, kind) not in registry.implied]
    found += [Difference(name, param, "nothing implied", f"implicit {kind}") for param, kind in registry.implied
              if (param, kind) not in row.implied]
    if row.result != registry.result:
        found.append(Difference(name, "(result)", row.result, registry.result))
    if row.answer != registry.answer:
        found.append(Difference(name, "(answer)", row.answer, registry.answer))
    return found


def of_row(registry, marks, rows, name):
    """The differences of a row, its name's among them: other names of its command need rows of their own."""
    base = registry.base(name)
    if base not in registry.commands:
        return [Difference(name, "(name)", "there", "absent")]
    found = [] if base == name else [Difference(name, "(name)", "there", f"another name of {base}")]
    found += of_command(name, rows[name], registry_command(registry, marks, registry.commands[base]))
    others = [other for other in [base, *registry.aliases] if registry.base(other) == base and other not in rows]
    return found + [Difference(name, "(name)", "alone", f"also {other}") for other in others]


# ---------------------------------------------------------------- what is explained


class Explained(NamedTuple):
    """A line of a table of docs/DECISIONS.md: what may stand in each cell of a difference, commands as globs."""
    commands: list
    whats: list
    rows: list
    registries: list

    def has(self, found):
        """Whether it explains a difference."""
        return (any(fnmatch.fnmatchcase(found.command, glob) for glob in self.commands) and found.what in self.whats
                and found.row in self.rows and found.registry in self.registries)

    def text(self):
        """Its cells."""
        return "; ".join(", ".join(cell) for cell in self)


def explanations():
    """The lines of the tables of docs/DECISIONS.md that say why a row differs."""
    _, _, behind = DECISIONS.read_text().partition(HEADING)
    lines = [line for line in behind.split("\n## ")[0].splitlines() if line.startswith("| `")]
    cells = [[re.findall(r"`([^`]+)`", cell) for cell in line.split("|")[1:5]] for line in lines]
    if not cells or not all(len(line) == 4 and all(line) for line in cells):
        stop(f"{DECISIONS}: no tables below{HEADING.rstrip()}, or a line with an empty cell")
    return [Explained(*line) for line in cells]


def main():
    asked = argparse.ArgumentParser(description=__doc__, formatter_class=argparse.RawDescriptionHelpFormatter)
    asked.add_argument("registry", metavar="REGISTRY")
    asked.add_argument("table", nargs="?", metavar="TABLE", type=pathlib.Path, default=TABLE)
    asked = asked.parse_args()
    registry, marks, release = read_registry(asked.registry)
    rows = read_rows(asked.table, registry)
    known = explanations()
    found = [d for name in rows for d in of_row(registry, marks, rows, name)]
    open_ones = [d for d in found if not any(line.has(d) for line in known)]
    unmet = [line for line in known if not any(line.has(d) for d in found)]
    for difference in found:
        print(difference.text() + (" (NOT EXPLAINED)" if difference in open_ones else ""))
    for line in unmet:
        print(f"explained, but no difference: {line.text()}")
    print(f"registry: VK_HEADER_VERSION {release}: {len(rows)} rows, {len(found)} differences, "
          f"{len(found) - len(open_ones)} explained and {len(open_ones)} not; {len(unmet)} explained without one")
    sys.exit(1 if open_ones else 0)


if __name__ == "__main__":
    main()
