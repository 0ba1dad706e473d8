#!/usr/bin/env python3
"""generate.py TABLE FURTHER NEWER REGISTRY BY_HAND OUT: writes OUT/rows.h and OUT/wrappers.h, from which layer and
converter are built.

TABLE is table.rt of the crate command_tables, FURTHER a file of rows in the same form (those of trace version 2),
NEWER a list of newer commands with the older ones whose rows they take, REGISTRY Debian's vk.xml, and BY_HAND the
header whose functions `arguments_of_COMMAND` and `results_of_COMMAND` log the handles of those commands whose members
count under conditions, and whose functions `observe_COMMAND` log something else of commands without a row."""
import re
import sys
import xml.etree.ElementTree as ElementTree
from dataclasses import dataclass, field
from pathlib import Path

PLATFORMS = {None, "xcb", "xlib", "wayland"}
BY_LOADER = {"vkCreateInstance", "vkDestroyInstance", "vkCreateDevice", "vkDestroyDevice", "vkGetInstanceProcAddr",
             "vkGetDeviceProcAddr"}
DEVICE_HANDLES = {"VkDevice", "VkQueue", "VkCommandBuffer"}
DEEPEST = 4

# ---------------------------------------------------------------- the rows


@dataclass
class RowParam:
    name: str
    type: str
    many: bool
    optional: bool


@dataclass
class Row:
    name: str
    params: list
    effect: str
    returns_code: bool
    version: int


def read_rows(path, version):
    """The rows of a file in the form of table.rt."""
    shape = re.compile(r'^\s*\w+ "(vk\w+)" \((.*)\) \(([^()]*)\) (code|void);$')
    rows = []
    for line in path.read_text().splitlines():
        match = shape.match(line)
        if match:
            params = [RowParam(name, kind, "many" in marks.split(), "or_null" in marks.split())
                      for name, kind, marks in re.findall(r"(\w+): (\w+) \[([^\]]*)\]", match[2])]
            rows.append(Row(match[1], params, match[3], match[4] == "code", version))
    if not rows:
        sys.exit(f"{path}: no rows")
    return rows


def read_newer(path):
    """Newer commands, each with the older one whose row it takes."""
    lines = (line.split("#")[0].split() for line in path.read_text().splitlines())
    return {words[0]: words[1] for words in lines if words}


# ---------------------------------------------------------------- the registry


@dataclass
class Member:
    """A parameter of a command or a member of a structure."""
    name: str
    type: str
    text: str
    pointer: bool
    constant: bool
    length: str
    array: str


@dataclass
class Command:
    name: str
    result: str
    params: list
    in_part: bool = False


@dataclass
class Registry:
    handles: dict = field(default_factory=dict)
    structs: dict = field(default_factory=dict)
    struct_aliases: dict = field(default_factory=dict)
    commands: dict = field(default_factory=dict)
    aliases: dict = field(default_factory=dict)
    wanted: list = field(default_factory=list)
    of_platform: set = field(default_factory=set)

    def base(self, name):
        """The command that a name stands for."""
        while name in self.aliases:
            name = self.aliases[name]
        return name


def for_vulkan(element):
    """Whether an element counts for Vulkan itself, not for Vulkan SC alone."""
    return element.get("api") is None or "vulkan" in element.get("api").split(",")


def read_member(element):
    """A parameter or member; its text is its declaration in C."""
    for comment in element.findall("comment"):
        element.remove(comment)
    text = re.sub(r"\s+", " ", "".join(element.itertext())).strip()
    kind = element.find("type").text
    array = re.search(r"\[(\w+)\]", text)
    length = (element.get("len") or "").split(",")[0]
    return Member(element.find("name").text, kind, text, "*" in text, "const" in text.split(kind)[0],
                  "" if length == "null-terminated" else length, array[1] if array else "")


def read_types(root, registry):
    """The handles and structures of the registry."""
    for element in root.findall("types/type"):
        name, alias = element.get("name"), element.get("alias")
        if element.get("category") == "handle" and not alias:
            registry.handles[element.find("name").text] = element.find("type").text == "VK_DEFINE_HANDLE"
        if element.get("category") == "struct" and alias:
            registry.struct_aliases[name] = alias
        elif element.get("category") == "struct":
            registry.structs[name] = [read_member(m) for m in element.findall("member") if for_vulkan(m)]


def read_commands(root, registry):
    """Its commands and their other names."""
    for element in root.findall("commands/command"):
        if element.get("alias"):
            registry.aliases[element.get("name")] = element.get("alias")
        elif for_vulkan(element):
            proto = element.find("proto")
            params = [read_member(p) for p in element.findall("param") if for_vulkan(p)]
            part = "VK_PIPELINE_COMPILE_REQUIRED" in (element.get("successcodes") or "")
            name = proto.find("name").text
            registry.commands.setdefault(name, Command(name, proto.find("type").text, params, part))


def read_wanted(root, registry):
    """The commands of Vulkan and of those extensions that need no platform but Linux's."""
    features = [f for f in root.findall("feature") if for_vulkan(f)]
    extensions = [e for e in root.findall("extensions/extension")
                  if "vulkan" in e.get("supported").split(",") and e.get("platform") in PLATFORMS]
    seen = set()
    for source in features + extensions:
        for element in source.findall("require/command"):
            name = element.get("name")
            if name in seen or registry.base(name) not in registry.commands:
                continue
            seen.add(name)
            registry.wanted.append(name)
            if source.get("platform"):
                registry.of_platform.add(name)


def read_registry(path):
    root = ElementTree.parse(path).getroot()
    registry = Registry()
    read_types(root, registry)
    read_commands(root, registry)
    read_wanted(root, registry)
    return registry


# ---------------------------------------------------------------- where a command's handles stand


def handle_paths(registry, command):
    """All handles that a command is given, but in pNext and pAllocator: for each the steps from a parameter to it."""
    found = []

    def walk(member, steps, depth):
        steps = steps + [member]
        if member.pointer and not member.constant:
            return
        if member.type in registry.handles:
            found.append(steps)
            return
        kind = registry.struct_aliases.get(member.type, member.type)
        if depth < DEEPEST and kind != "VkAllocationCallbacks":
            for inner in registry.structs.get(kind, []):
                if inner.name != "pNext" and inner.type != member.type:
                    walk(inner, steps, depth + 1)

    for param in command.params:
        walk(param, [], 0)
    return found


def vulkan_type(registry, kind):
    """The handle type of an object type of the table, which leaves the letters of an extension's author out."""
    shape = re.compile(f"Vk{kind}[A-Z]*")
    return next((handle for handle in registry.handles if shape.fullmatch(handle)), None)


def paths_of(registry, command, param):
    """The paths to a row's parameter: those of its name and type, else the only one of its type."""
    of_type = [p for p in handle_paths(registry, command) if p[-1].type == vulkan_type(registry, param.type)]
    named = [p for p in of_type if p[-1].name == param.name]
    if not named and len(of_type) != 1:
        sys.exit(f"{command.name}: no handle for parameter {param.name} of its row")
    return named or of_type


def loops(path, what):
    """C++ lines that do `what(expression)` for each handle at a path."""
    heads, context, expression = [], "", ""
    for depth, step in enumerate(path):
        expression = context + step.name
        index = f"i{depth}"
        length = step.array or (step.length if step.pointer else "")
        if length:
            place = length if depth == 0 or step.array else context + length
            test = f"if ({expression} != nullptr) " if not step.array else ""
            heads.append(f"{test}for (uint32_t {index} = 0; {index} < {place}; {index}++)")
            expression += f"[{index}]"
            context = expression + "."
        elif step.pointer:
            heads.append(f"if ({expression} != nullptr)")
            context, expression = expression + "->", "*" + expression
        else:
            context = expression + "."
    lines = ["    " * depth + head for depth, head in enumerate(heads)]
    return lines + ["    " * len(heads) + what(expression)]


# ---------------------------------------------------------------- the wrappers


def argument_lines(registry, command, row, by_hand):
    """C++ lines that log a call's handles in the order of its row."""
    if f"arguments_of_{command.name}" in by_hand:
        names = ", ".join(p.name for p in command.params)
        return [f"arguments_of_{command.name}(call, {names});"]
    lines = []
    for param in row.params:
        paths = paths_of(registry, command, param)
        if param.many:
            lines.append("call.open_list();")
            for path in paths:
                lines += loops(path, lambda e: f"call.item({e});")
            lines.append("call.close_list();")
        elif len(paths[0]) == 1:
            lines.append(f"call.one({paths[0][0].name});")
        else:
            lines.append("call.one(" + member_of(paths[0]) + ");")
    return lines


def member_of(path):
    """The expression of a single handle inside structures, null where there is no structure."""
    expression, tests = path[0].name, []
    for step, inner in zip(path, path[1:]):
        if step.pointer:
            tests.append(f"{expression} != nullptr")
        expression += ("->" if step.pointer else ".") + inner.name
    if not tests:
        return expression
    return f"{' && '.join(tests)} ? {expression} : {path[-1].type}{{}}"


def result_line(registry, command, row, by_hand):
    """The C++ line that logs the handles that a call gave, or none."""
    if f"results_of_{command.name}" in by_hand:
        names = ", ".join(p.name for p in command.params)
        return [f"results_of_{command.name}(call, result, {names});"]
    made = [p for p in command.params if p.type in registry.handles and p.pointer and not p.constant]
    if not row.effect.startswith(("new", "get")) or not made:
        return []
    given = made[0].name
    if row.effect.startswith("get_many"):
        count = f"{given} != nullptr && result >= 0 ? *{made[0].length} : 0"
    else:
        count = made[0].length or "1"
        if command.in_part:
            count = f"result != VK_ERROR_VALIDATION_FAILED_EXT ? {count} : 0"
        elif command.result == "VkResult":
            count = f"result >= 0 ? {count} : 0"
    return [f"call.results({count}, {given});"]


def down_line(command, name):
    """The call of what stands below."""
    arguments = ", ".join(p.name for p in command.params)
    return f"next_of({command.params[0].name}).{name}({arguments});"


def wrapper(registry, name, row, by_hand, numbers):
    """The C++ function that stands for a command."""
    command = registry.commands[registry.base(name)]
    declaration = ", ".join(p.text for p in command.params)
    nothing = command.result == "void"
    if row is None:
        first = f"count_call({numbers[name]});"
        if f"observe_{command.name}" in by_hand:
            first = f"observe_{command.name}({', '.join(p.name for p in command.params)});"
        body = [first, ("" if nothing else "return ") + down_line(command, name)]
    else:
        body = [f"Call call({numbers[row.name]});"]
        body += argument_lines(registry, command, row, by_hand)
        body.append("call.goes_down();")
        body.append(("" if nothing else f"const {command.result} result = ") + down_line(command, name))
        body += result_line(registry, command, row, by_hand)
        body.append("call.returned(result);" if command.result == "VkResult" else "call.returned();")
        if not nothing:
            body.append("return result;")
    lines = [f"VKAPI_ATTR {command.result} VKAPI_CALL record_{name}({declaration}) {{"]
    return "\n".join(lines + ["    " + line for line in body] + ["}"])


def wrapped_names(registry):
    """The commands that get a wrapper: all with a dispatchable first parameter, but for those of layer.cpp."""
    def dispatchable(name):
        first = registry.commands[registry.base(name)].params[:1]
        return bool(first) and registry.handles.get(first[0].type, False)
    return [n for n in registry.wanted if dispatchable(n) and n not in BY_LOADER]


def is_of_device(registry, name):
    return registry.commands[registry.base(name)].params[0].type in DEVICE_HANDLES


PLATFORM_TYPES = """struct xcb_connection_t;
struct _XDisplay;
struct wl_display;
typedef uint32_t xcb_visualid_t;
typedef struct _XDisplay Display;
typedef unsigned long VisualID;
"""


def platform_types(registry):
    """Declarations for the commands of window systems, so that no header of theirs is needed."""
    lines = [PLATFORM_TYPES]
    for name in sorted(registry.of_platform):
        command = registry.commands[name]
        for param in command.params:
            if param.type.startswith("Vk") and param.type.endswith("SurfaceCreateInfoKHR"):
                lines.append(f"struct {param.type};")
        text = ", ".join(p.text for p in command.params)
        lines.append(f"typedef {command.result} (VKAPI_PTR *PFN_{name})({text});")
    return "\n".join(lines)


def next_table(registry, names):
    """The table of what stands below, and the functions that fill it."""
    members = names + ["vkDestroyInstance", "vkDestroyDevice"]
    lines = ["struct Next {"] + [f"    PFN_{n} {n} = nullptr;" for n in members] + ["};", ""]
    lines += ["inline void fill_of_instance(Next& next, VkInstance instance, PFN_vkGetInstanceProcAddr get) {"]
    lines += [f'    next.{n} = reinterpret_cast<PFN_{n}>(get(instance, "{n}"));'
              for n in members if n != "vkDestroyDevice" and not is_of_device(registry, n)]
    lines += ["}", "", "inline void fill_of_device(Next& next, VkDevice device, PFN_vkGetDeviceProcAddr get) {"]
    lines += [f'    next.{n} = reinterpret_cast<PFN_{n}>(get(device, "{n}"));'
              for n in members if n != "vkDestroyInstance" and is_of_device(registry, n)]
    lines += ["}", "", "namespace {", "template <class Handle>", "const Next& next_of(Handle handle);", "}"]
    return "\n".join(lines)


def wrapper_list(registry, names):
    """All wrappers by name, in byte order."""
    def text(name):
        of_device = str(is_of_device(registry, name)).lower()
        return f'    {{"{name}", reinterpret_cast<PFN_vkVoidFunction>(record_{name}), {of_device}}},'

    lines = ["struct Wrapper {", "    const char* name;", "    PFN_vkVoidFunction function;", "    bool of_device;",
             "};", "", "const Wrapper wrappers[] = {"]
    lines += [text(name) for name in sorted(names)]
    return "\n".join(lines + ["};"])


# ---------------------------------------------------------------- the rows for C++


def effect_text(effect):
    """An effect as the initializer of the structure Effect."""
    words = effect.split()
    if words[0] == "none":
        return "{EffectKind::none, ObjectType::Instance, Owner::nobody, 0}"
    if words[0] in ("destroy", "free", "reset"):
        return f"{{EffectKind::{words[0]}_object, ObjectType::Instance, Owner::nobody, {words[1]}}}"
    owner = {"nobody": "nobody", "owner_of": "owner_of_parameter"}.get(words[3], "parameter")
    place = words[-1] if words[-1].isdigit() else "0"
    return f"{{EffectKind::{words[0]}_object, ObjectType::{words[1]}, Owner::{owner}, {place}}}"


def row_text(row):
    """A row as the initializer of the structure Row."""
    def flag(value):
        return "true" if value else "false"
    params = ", ".join(f"{{ObjectType::{p.type}, {flag(p.many)}, {flag(p.optional)}}}" for p in row.params)
    return (f'    {{"{row.name}", {row.version}, {len(row.params)}, {{{{{params}}}}}, {effect_text(row.effect)}, '
            f"{flag(row.returns_code)}}},")


def rows_header(rows, unlisted):
    """The header of rows that layer and converter share."""
    types = []
    for row in rows:
        made = [row.effect.split()[1]] if row.effect.startswith(("new", "get")) else []
        types += [t for t in [p.type for p in row.params] + made if t not in types]
    lines = ["// Made by generate.py.", "#pragma once", "#include <cstdint>", "", "enum class ObjectType : uint8_t {"]
    lines += [f"    {t}," for t in types] + ["};", "", '#include "row.h"', "", "inline constexpr Row rows[] = {"]
    lines += [row_text(row) for row in rows] + ["};", ""]
    lines += ["inline constexpr const char* commands_without_row[] = {"]
    lines += [f'    "{n}",' for n in unlisted] + ["};", ""]
    lines += [f"inline constexpr uint16_t row_of_{row.name} = {k};" for k, row in enumerate(rows)]
    return "\n".join(lines) + "\n"


def main():
    table, further, newer_path, registry_path, hand_path, out = map(Path, sys.argv[1:7])
    rows = read_rows(table, 1) + read_rows(further, 2)
    by_name = {row.name: row for row in rows}
    newer = read_newer(newer_path)
    registry = read_registry(registry_path)
    by_hand = set(re.findall(r"((?:arguments_of|results_of|observe)_vk\w+)\(", hand_path.read_text()))
    names = wrapped_names(registry)

    def row_of(name):
        base = registry.base(name)
        return by_name.get(newer.get(base, base))

    unlisted = sorted(n for n in names if row_of(n) is None)
    numbers = {row.name: f"row_of_{row.name}" for row in rows} | {n: k for k, n in enumerate(unlisted)}
    wrappers = [wrapper(registry, n, row_of(n), by_hand, numbers) for n in names]
    out.mkdir(parents=True, exist_ok=True)
    (out / "rows.h").write_text(rows_header(rows, unlisted))
    parts = ["// Made by generate.py.", platform_types(registry), next_table(registry, names),
             '#include "arguments.h"', "namespace {", "\n\n".join(wrappers), wrapper_list(registry, names),
             "}  // namespace"]
    (out / "wrappers.h").write_text("\n\n".join(parts) + "\n")


if __name__ == "__main__":
    main()
