"""Searches and chains of the greatest size and of one more: manifests, files in folders, names, variables and layers.
What is given is made in a folder; what is wanted follows from how it was made."""
import os, pathlib

from runs import (ALONE, DRIVER, ENABLED, EXPLICIT, IMPLICIT, MACHINE, THREADS, VALIDATED, chain_text, driver, layer,
                  layers, link, meta, numbered, plant, run)
from traces import CHECKED, DEVICE, DEVICE_TEXT, INSTANCE, end

MOST_FILES = 4_096
MOST_BYTES = 1_048_576
NO_MANIFESTS = ("", "limit Manifests 4096", 6)
NO_CHAIN = ("", "limit Chain 64", 6)
FOLDER = "/etc/vulkan/icd.d"
PART = {
    "threads": "libVkLayer_thread_safety.so",
    "unique": "libVkLayer_unique_objects.so",
    "all": "libVkLayer_khronos_validation.so",
}

# how many layers there are, the part of the last one, which are enabled, what the application names, whether there
# is a driver, and why there is no chain, or that there is one of 64 layers
REFUSED = [
    (65, "threads", "*", "X", False, "layer-not-present X"),
    (65, "threads", "*", "X", True, "layer-not-present X"),
    (65, "threads", "*", "last", False, "no-driver"),
    (65, "threads", "*", "last", True, NO_CHAIN),
    (100, "", "*", "", True, NO_CHAIN),
    (64, "threads", "*", "last", True, "unguarded last"),
    (64, "unique", "*", "", True, 64),
    (65, "", "n*", "", True, 64),
    (65, "", "n*", "last", True, NO_CHAIN),
]


def shown(what, wanted, root, variables=None, app="", folder=None):
    """A case of `chain`: what it is, what comes of it, the tree, the variables, and the application's layers."""
    words = ["chain", "--root", root, *(["--layers", app] if app else [])]
    return what, run, ALONE, words, wanted, "", variables, folder


def chain(found, drivers=((DRIVER, "libd.so"),), parts=(), before=""):
    """What comes of a chain of layers behind some notes."""
    return before + chain_text(found, drivers, parts), "", 0


def override(*folders):
    """A manifest of an override that searches folders, and that the variable OVER turns off."""
    entry = meta("VK_LAYER_LUNARG_override", [])
    return layers([{**entry, "override_paths": folders, "disable_environment": {"OVER": "1"}}])


def manifests(room):
    """Manifests of one layer, of 30 as real ones have, and of the most bytes; and one with a byte more."""
    for count, described, size in [(1, 10, 0), (30, 1_200, 40_000), (30, 30_000, MOST_BYTES)]:
        text = "d" * described
        here, there, given = (numbered(count, f"VK_LAYER_{kind}") for kind in "eio")
        files = {
            DRIVER: driver(size=size, **{name: text for name in numbered(count, "extension_")}),
            EXPLICIT: layers([layer(name, description=text) for name in here], size),
        }
        listed = {IMPLICIT: layers([layer(name, description=text) for name in there], size)}
        root, what = plant(room / f"manifests-{size}", {**files, **listed}), f"manifests of {size} bytes"
        explicit, implicit = [(name, EXPLICIT) for name in here], [(name, IMPLICIT) for name in there]
        yield shown(what, chain(implicit + explicit), root, ENABLED)
        yield shown(f"{what}, implicit layers off", chain(explicit), root, {**ENABLED, "OFF": ""})
        listed = {IMPLICIT: override("/o"), "/o/l.json": layers([layer(name) for name in given], size)}
        root = plant(room / f"overridden-{size}", {**files, **listed})
        yield shown(f"{what}, in a given folder", chain([(name, "/o/l.json") for name in given]), root, ENABLED)
    large = {DRIVER: driver(size=MOST_BYTES), "/large.json": driver(size=MOST_BYTES + 1)}
    root = plant(room / "too-large", {**large, f"{FOLDER}/e.json": " " * (MOST_BYTES + 1)})
    named = {"VK_DRIVER_FILES": f"/large.json:{DRIVER}", "VK_LAYER_PATH": "/large.json"}
    note = "note TooLarge /large.json\n"
    yield shown("a manifest with a byte too many", chain([], before=note * 2), root, named)
    yield shown("one of blanks in a folder", chain([], before=f"note TooLarge {FOLDER}/e.json\n"), root)


def named_files(room):
    """Variables that name the most files, and one file more."""
    root = plant(room / "named", {DRIVER: driver(), IMPLICIT: override("/o")})
    for count in (MOST_FILES, MOST_FILES + 1):
        paths = [f"/{k}.json" for k in range(count)]
        # the first path again: a file counts once
        text = ":".join([*paths, paths[0]])
        notes = "".join(f"note Absent {path}\n" for path in paths)
        drivers, explicit, over = (notes + "chain 0 no-driver\n", "", 0), chain([], before=notes), chain([])
        if count > MOST_FILES:
            drivers = explicit = over = NO_MANIFESTS
        yield shown(f"{count} named drivers", drivers, root, {"VK_DRIVER_FILES": text})
        yield shown(f"{count} named layers", explicit, root, {"VK_LAYER_PATH": text, "OVER": ""})
        yield shown(f"{count} named layers before an override", over, root, {"VK_LAYER_PATH": text})


def folders(room):
    """Folders with the most files, and with one more."""
    place = "/o/vulkan/implicit_layer.d"
    names = [f"{number:04}.json" for number in range(MOST_FILES + 1)]
    first = {DRIVER: driver(), IMPLICIT: override(place), f"{place}/0000.json": driver("lib/many.so")}
    full, over = (plant(room / name, first) for name in ("full", "over"))
    link(full, place, names[:-1])
    link(over, place, names)
    paths = [f"{place}/{name}" for name in names[:-1]]
    validating = numbered(64, "layer")
    most = plant(room / "longest", {EXPLICIT: layers([layer(name, PART["all"]) for name in validating])})
    (most / "o").symlink_to(full / "o")
    parts = [(kind, name) for name in validating for kind in ("threads", "lifetimes", "unique")]
    libraries = [(path, f"{place}/lib/many.so") for path in paths]
    wanted = chain([(name, EXPLICIT) for name in validating], libraries, parts)
    yield shown("the longest chain", wanted, most, {**ENABLED, "VK_DRIVER_FILES": place})
    notes = "".join(f"note Missing:layer {path}\n" for path in paths)
    yield shown("4096 files in an override's folder", chain([], before=notes), full)
    yield shown("4097 files in an override's folder", NO_MANIFESTS, over)
    yield shown("4097 files in the folder of an override that is off", chain([]), over, {"OVER": ""})
    yield shown("4097 files in a folder of implicit layers", NO_MANIFESTS, over, {"XDG_DATA_DIRS": "/o"})


def listed_files(room):
    """A folder with 5,000 files, of which 4,096 are manifest files, 4,097 or all: the last one is a driver, and those
    before it have no version. Its other files count for nothing."""
    nothing = "vkstreams 1\nsetup\nteardown\n"
    for count in (MOST_FILES, MOST_FILES + 1, 5_000):
        names = [f"{number}.json" for number in range(10_000, 10_000 + count - 1)]
        others = [f"{number}.{('jso', 'JSON', 'json~')[number % 3]}" for number in range(10_000, 15_000 - count)]
        root = plant(room / f"listed-{count}", {f"{FOLDER}/{names[0]}": "{}", f"{FOLDER}/z.json": driver()})
        link(root, FOLDER, [*names, *others])
        notes = "".join(f"note NoVersion {FOLDER}/{name}\n" for name in names)
        wanted = chain([], [(f"{FOLDER}/z.json", "libd.so")], before=notes) if count == MOST_FILES else NO_MANIFESTS
        yield shown(f"5000 files with {count} manifests", wanted, root)
        words, what = ["--root", root], f"of 5000 files with {count} manifests"
        ended = (notes + end(0), "", 0) if count == MOST_FILES else NO_MANIFESTS
        yield f"a run {what}", run, ALONE, ["run", *words], ended, "vktrace 1\n"
        ended = ("vktrace 1\ntext\n" + ended[0], *ended[1:]) if count == MOST_FILES else NO_MANIFESTS
        yield f"a stream file {what}", run, THREADS, words, ended, nothing


def machines(room):
    """Machines of one layer of each kind and one driver that is named, of 30 and of 1,000, with as many variables."""
    for count in (1, 30, 1_000):
        root = plant(room / f"machine-{count}", {
            "/n1.json": driver(),
            EXPLICIT: layers([layer(name) for name in numbered(count)]),
            IMPLICIT: layers([layer(name) for name in numbered(count, "in")]),
        })
        variables = {"VK_DRIVER_FILES": ":".join(f"/{name}.json" for name in numbered(count))}
        before = "".join(f"note Absent /{name}.json\n" for name in numbered(count - 1, first=2))
        found, drivers = [(name, IMPLICIT) for name in numbered(count, "in")], [("/n1.json", "libd.so")]
        # the notes stand before the chain that is too long
        too_long = (before, *NO_CHAIN[1:])
        wanted = chain([*found, ("n1", EXPLICIT)], drivers, before=before) if count < 64 else too_long
        yield shown(f"a machine of {count} layers", wanted, root, variables, "n1")
        wanted, off = chain([("n1", EXPLICIT)], drivers, before=before), {"VK_LOADER_LAYERS_DISABLE": "~implicit~"}
        yield shown(f"a machine of {count} layers, without implicit ones", wanted, root, {**variables, **off}, "n1")


def filters(room):
    """Lists that disable one layer, 30 and 4,096 by their names, among as many variables."""
    for count in (1, 30, 4_096):
        names = [*numbered(1), f"n{count}", f"n{count + 1}"][0 if count > 1 else 1:]
        entries = [layer(name, disable_environment={f"D_{name}": "1"}) for name in names]
        entries.append(layer("other", enable_environment={f"n{count}": "x"}))
        root = plant(room / f"filters-{count}", {DRIVER: driver(), IMPLICIT: layers(entries)})
        variables = {**{name: "x" for name in numbered(count)}, "VK_LOADER_LAYERS_DISABLE": ",".join(numbered(count))}
        found = [(f"n{count + 1}", IMPLICIT), ("other", IMPLICIT)]
        yield shown(f"a list of {count} names", chain(found), root, variables)


def variables_in_turn():
    """200 variables, of which one counts, at each of some places; both programs."""
    trace, text = "vktrace 1\n" + DEVICE, CHECKED + DEVICE_TEXT + end(3)
    for place in (0, 63, 64, 127, 128, 198, 199):
        names = numbered(199, "NO_MEANING_")
        names[place:place] = VALIDATED
        variables = {name: VALIDATED.get(name, "x" * 100) for name in names}
        yield f"variable {place + 1} of 200", run, ALONE, ["run", *MACHINE], (text, "", 0), trace, variables
        given, wanted = f"vkstreams 1\nsetup\n{DEVICE}teardown\n", (f"{trace}text\n{text}", "", 0)
        yield f"variable {place + 1} of 200, a stream file", run, THREADS, MACHINE, wanted, given, variables


def named_layers(room):
    """The last of so many explicit layers, the last one first; and the components of one."""
    for count, named in [(1, 1), (40, 30), (4_096, 64), (4_096, 65)]:
        files = {DRIVER: driver(), EXPLICIT: layers([layer(name) for name in numbered(count)])}
        root = plant(room / f"explicit-{count}-{named}", files)
        names = [f"n{count - place}" for place in range(named)]
        wanted = chain([(name, EXPLICIT) for name in names]) if named < 65 else NO_CHAIN
        yield shown(f"{named} of {count} layers", wanted, root, None, ",".join(names))
    for count in (1, 30, 64, 4_096):
        entries = [layer(name) for name in numbered(count)] + [meta("M", numbered(count)), meta("L", ["M"])]
        root = plant(room / f"components-{count}", {DRIVER: driver(), EXPLICIT: layers(entries)})
        wanted = chain([(name, EXPLICIT) for name in numbered(count)]) if count < 65 else NO_CHAIN
        yield shown(f"a meta-layer of {count} components", wanted, root, None, "L")


def refusals(room):
    """In which order refusals come where a chain has 64 layers, or more."""
    for number, (count, part, enabled, app, driven, wanted) in enumerate(REFUSED):
        names = [*numbered(count - 1), "last"]
        entries = [*(layer(name) for name in names[:-1]), layer("last", PART.get(part, "a.so"))]
        root = plant(room / f"refused-{number}", {EXPLICIT: layers(entries), **({DRIVER: driver()} if driven else {})})
        if isinstance(wanted, str):
            wanted = (f"chain 0 {wanted}\n", "", 0)
        elif wanted == 64:
            wanted = chain([(name, EXPLICIT) for name in names[:64]], parts=[("unique", "last")] if part else [])
        yield shown(f"{count} layers, row {number}", wanted, root, {"VK_LOADER_LAYERS_ENABLE": enabled}, app)


def file_names(room):
    """File names that a stored case can't have: without a folder, not of UTF-8, and the longest path; and the longest
    names of a folder, a file, a library, a layer and a variable."""
    root = plant(room / "names", {"/here.json": driver("./libh.so"), DRIVER: driver()})
    given = [("here.json", "././libh.so"), (DRIVER, "libd.so")]
    wanted, named = chain([], given, before="note Absent none.json\n"), f"here.json:{DRIVER}:none.json"
    yield shown("a manifest without a folder", wanted, root, {"VK_DRIVER_FILES": named}, "", root)
    root = plant(room / "other", {DRIVER: driver()})
    with open(os.fsencode(f"{root}{FOLDER}/") + b"\xff.json", "w") as other:
        other.write(driver())
    yield shown("a file's name that isn't UTF-8", chain([]), root)
    path = "/folder" * 580 + "/f.json"
    absent = chain([], before=f"note Absent {path}\n")
    yield shown(f"a path of {len(path)} bytes", absent, pathlib.Path("."), {"VK_LAYER_PATH": path}, "", root)
    data, name, kept = "/" + "d" * 255, "VK_LAYER_".ljust(255, "n"), "OFF_".ljust(255, "v")
    driven, listed = (f"{data}/vulkan/{kind}.d/{'f' * 250}.json" for kind in ("icd", "implicit_layer"))
    entries = layers([layer(name, "lib".ljust(255, "l"), disable_environment={kept: "1"})])
    root = plant(room / "longest-names", {driven: driver("lib".ljust(255, "l")), listed: entries})
    drivers, home = [(driven, "lib".ljust(255, "l"))], {"XDG_DATA_HOME": data}
    yield shown("names of 255 bytes", chain([(name, listed)], drivers), root, home)
    yield shown("names of 255 bytes, the layer off", chain([], drivers), root, {kept: "", **home})
    root = plant(room / "longer-name", {DRIVER: driver(), EXPLICIT: layers([layer(name + "n")])})
    yield shown("a layer's name of 256 bytes", chain([], before=f"note WrongKind:name {EXPLICIT}\n"), root)


def longest_chains(room):
    """A chain has 64 layers at most, of the environment or of a vkCreateInstance, whose line's fault comes first."""
    files = {f"/usr/share/vulkan/explicit_layer.d/{name}.json": layers([layer(name)]) for name in numbered(65, "p")}
    root = ["--root", plant(room / "layers", {"/etc/vulkan/icd.d/a.json": driver("libvulkan_a.so"), **files})]
    most, more = ({"VK_INSTANCE_LAYERS": ":".join(numbered(count, "p"))} for count in (64, 65))
    trace, soak = f"vktrace 1\n{INSTANCE}\nr 1\n", ["soak", "--number", "0", "--calls", "3"]
    yield "64 layers are shown", run, ALONE, ["chain", *root], (longest_chain(0), "", 0), "", most
    yield "65 layers aren't shown", run, ALONE, ["chain", *root], NO_CHAIN, "", more
    yield "65 layers of a run", run, ALONE, ["run", *root], NO_CHAIN, trace, more
    yield "65 layers of a soak", run, ALONE, [*soak, *root], NO_CHAIN, "", more
    yield from named_chains(root)
    yield from chains_of_files(root, most, more)


def longest_chain(call):
    """The lines of a chain of 64 of them."""
    found = [(name, f"/usr/share/vulkan/explicit_layer.d/{name}.json") for name in numbered(64, "p")]
    return chain_text(found, [("/etc/vulkan/icd.d/a.json", "libvulkan_a.so")], call=call)


def named_chains(root):
    """Two calls of which the first names 64 layers or 65, and isn't answered with success, and the second 65."""
    failed = "b 1 vkCreateInstance = %1.1 VK_ERROR_OUT_OF_HOST_MEMORY : "
    first = longest_chain(1) + "ret 1 vkCreateInstance VK_ERROR_OUT_OF_HOST_MEMORY born=0\n"
    most, asked = (",".join(numbered(count, "p")) for count in (64, 65))
    ends = ("%1.2 VK_SUCCESS", "limit Chain 64", 6), ("%1.3 VK_SUCCESS", "line 4: Sequence", 3)
    for results, line, status in (*ends, ("%1.2 void", "line 4: Code", 3)):
        given = f"vktrace 1\n{failed}{most}\nr 1\nb 1 vkCreateInstance = {results} : {asked}\nr 1\n"
        yield f"a second call, {line}", run, ALONE, ["run", *root], (first, line, status), given
    yield "65 layers of a first call", run, ALONE, ["run", *root], NO_CHAIN, f"vktrace 1\n{failed}{asked}\nr 1\n"


def chains_of_files(root, most, more):
    """The same of a stream file, where an instance in teardown counts too, and a fault of the file comes first."""
    asked, file = ",".join(numbered(65, "p")), f"vkstreams 1\nsetup\n{DEVICE}"
    whole = f"vktrace 1\n{DEVICE}text\n{longest_chain(1)}{DEVICE_TEXT}{end(3)}"
    yield "64 layers of a stream file", run, THREADS, root, (whole, "", 0), file + "teardown\n", most
    yield "65 layers of a stream file", run, THREADS, root, NO_CHAIN, file + "teardown\n", more
    given = f"vkstreams 1\nsetup\n{INSTANCE} : {asked}\nr 1\nteardown\n"
    yield "65 layers in setup", run, THREADS, root, NO_CHAIN, given
    given = f"{file}stream 1\nteardown\nb 1 vkCreateInstance = %1.4 VK_ERROR_UNKNOWN : {asked}\nr 1\n"
    yield "65 layers in teardown", run, THREADS, root, NO_CHAIN, given
    given, wanted = f"{file}stream 1\nb 1 vkDestroyDevice %1.3 void\nr 1\nteardown\n", ("", "line 10: NotInStream", 3)
    yield "a fault of the file comes first", run, THREADS, root, wanted, given, more


def cases(room):
    parts = (manifests, named_files, folders, listed_files, machines, filters, named_layers, refusals, file_names)
    for part in (*parts, longest_chains):
        yield from part(room)
    yield from variables_in_turn()
