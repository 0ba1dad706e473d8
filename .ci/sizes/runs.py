"""What the parts of .ci/check-sizes share: the built programs, a run of one, and small machines."""
import hashlib, json, os, pathlib, subprocess

TOP = pathlib.Path(__file__).resolve().parents[2]
# the built programs, which the environment may name instead
ALONE = pathlib.Path(os.environ.get("VKREPLAY", TOP / "crates/vkreplay/out/vkreplay")).resolve()
THREADS = pathlib.Path(os.environ.get("VKREPLAY_MT", TOP / "crates/vkreplay_mt/out/vkreplay_mt")).resolve()
MACHINE = ["--root", str(TOP / "examples/machine")]
VALIDATED = {"VK_INSTANCE_LAYERS": "VK_LAYER_KHRONOS_validation"}
ENABLED = {"VK_LOADER_LAYERS_ENABLE": "*"}
SECONDS = 120

DRIVER = "/etc/vulkan/icd.d/d.json"
EXPLICIT = "/etc/vulkan/explicit_layer.d/l.json"
IMPLICIT = "/etc/vulkan/implicit_layer.d/l.json"


class Wrong(Exception):
    """Something that isn't as it must be."""


def ran(program, words, given="", variables=None, folder=None):
    """The status of a run, the bytes that it wrote, and what it said. It has no variables but these."""
    given = given.encode() if isinstance(given, str) else given
    try:
        run = subprocess.run([program, *words], input=given, env=variables or {}, cwd=folder, capture_output=True,
                             timeout=SECONDS)
    except subprocess.TimeoutExpired:
        raise Wrong(f"it hadn't ended after {SECONDS} seconds") from None
    return run.returncode, run.stdout, run.stderr.decode(errors="replace")


def run(program, words, wanted, given="", variables=None, folder=None):
    """That a run comes to what is wanted: the text, the line that is said behind `vkreplay: `, and the status. A long
    text may be wanted by its bytes, its lines and its sum of SHA-256. What is long to be given comes of a function."""
    text, line, status = wanted
    ended, wrote, said = ran(program, words, given() if callable(given) else given, variables, folder)
    if (ended, said) != (status, f"vkreplay: {line}\n" if line else ""):
        raise Wrong(f"status {ended}, wanted {status} and `{line}`; said: {said[:200]!r}")
    compare(wrote, text() if callable(text) else text)


def compare(wrote, wanted):
    """That what was written is what is wanted."""
    if isinstance(wanted, tuple):
        found = len(wrote), wrote.count(b"\n"), hashlib.sha256(wrote).hexdigest()
        if found != wanted:
            raise Wrong(f"it wrote {found}, wanted {wanted}")
        return
    wanted = wanted.encode() if isinstance(wanted, str) else wanted
    if wrote == wanted:
        return
    for number, (a, b) in enumerate(zip(wrote.split(b"\n"), wanted.split(b"\n")), 1):
        if a != b:
            raise Wrong(f"line {number} is {a[:200]}, wanted {b[:200]}")
    raise Wrong(f"it wrote {len(wrote)} bytes, wanted {len(wanted)}")


def plant(root, files):
    """A tree with these files."""
    for path, text in files.items():
        place = pathlib.Path(f"{root}{path}")
        place.parent.mkdir(parents=True, exist_ok=True)
        place.write_text(text)
    return root


def link(root, folder, names):
    """Gives the first of these names in a folder of a tree, which is there, to all others too."""
    place = pathlib.Path(f"{root}{folder}")
    for name in names[1:]:
        os.link(place / names[0], place / name)


def driver(library="libd.so", size=0, **more):
    """A manifest of a driver, with blanks behind it up to so many bytes."""
    icd = {**more, "library_path": library, "api_version": "1.3.275"}
    return json.dumps({"file_format_version": "1.0.1", "ICD": icd}, separators=(",", ":")).ljust(size)


def layer(name, library="lib.so", **more):
    """The entry of a layer, which the variable OFF turns off where it is an implicit one."""
    entry = {"name": name, "type": "GLOBAL", "library_path": library, "api_version": "1.3.275"}
    return {**entry, "implementation_version": "1", "description": "", "disable_environment": {"OFF": "1"}, **more}


def meta(name, components):
    """The entry of a meta-layer."""
    entry = layer(name, component_layers=components)
    del entry["library_path"]
    return entry


def layers(entries, size=0):
    """A manifest of layers, with blanks behind it up to so many bytes."""
    return json.dumps({"file_format_version": "1.2.0", "layers": entries}, separators=(",", ":")).ljust(size)


def numbered(count, front="n", first=1):
    return [f"{front}{k}" for k in range(first, first + count)]


def chain_text(found, drivers=((DRIVER, "libd.so"),), parts=(), call=0):
    """The lines of a chain of layers, given as names and paths."""
    lines = [f"chain {call} ok layers={len(found)} parts={len(parts)} drivers={len(drivers)}"]
    lines += [f"layer {k} {name} {path}" for k, (name, path) in enumerate(found, 1)]
    lines += [f"part {k} {kind} {name}" for k, (kind, name) in enumerate(parts, 1)]
    lines += [f"driver {k} {path} {library}" for k, (path, library) in enumerate(drivers, 1)]
    return "\n".join(lines) + "\n"


def fault_of(case):
    """What differs in a case, or nothing: what it is, what checks it, and what that is given."""
    what, check, *given = case
    try:
        check(*given)
    except Wrong as cause:
        return f"sizes: {what}: {cause}"
