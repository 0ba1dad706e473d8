"""What only the system can hand a program: an environment with a name twice or with what is none, a file that takes
a part of a write, a connection that breaks, and files that can't be opened."""
import os, socket, subprocess, sys

from runs import (ALONE, DRIVER, MACHINE, SECONDS, THREADS, VALIDATED, Wrong, chain_text, driver, layer, layers, link,
                  plant, run)
from traces import BARE, DEVICE, DEVICE_TEXT, START, WAIT, waited

# A program is started by another one, which sets what the calls of Python don't: the entries of its environment, and
# how many bytes a file may have.
EXECUTE = """
import ctypes, os, resource, signal, sys
entries, most, *words = sys.argv[1:]
if most:
    signal.signal(signal.SIGXFSZ, signal.SIG_IGN)
    resource.setrlimit(resource.RLIMIT_FSIZE, (int(most), int(most)))
array = lambda texts: (ctypes.c_char_p * (len(texts) + 1))(*texts, None)
entries = [bytes.fromhex(entry) for entry in entries.split(",")]
ctypes.CDLL(None).execve(os.fsencode(words[0]), array([os.fsencode(word) for word in words]), array(entries))
"""
FOLDER = "/etc/vulkan/icd.d"


def executed(program, words, entries=(b"",), most=""):
    """The words by which another program starts this one."""
    return ["-S", "-E", "-c", EXECUTE, ",".join(entry.hex() for entry in entries), str(most), str(program),
            *map(str, words)]


# The entries of an environment, in which VK_DRIVER_FILES names the drivers' manifests, and the driver that counts.
ENVIRONMENTS = [
    ("of two values the first one counts", [b"VK_DRIVER_FILES=/a.json", b"VK_DRIVER_FILES=/b.json"], "/a.json"),
    ("a value that is no text sets nothing", [b"VK_DRIVER_FILES=/\xff.json", b"VK_DRIVER_FILES=/b.json"], "/b.json"),
    ("an entry without = sets nothing", [b"VK_DRIVER_FILES", b"VK_DRIVER_FILES=/b.json"], "/b.json"),
    ("an entry without a name sets nothing", [b"=/a.json", b"=VK_DRIVER_FILES=/a.json"], DRIVER),
    ("a value may have =", [b"VK_DRIVER_FILES=/a=b.json"], "/a=b.json"),
    ("an empty value that comes first counts", [b"VK_DRIVER_FILES=", b"VK_DRIVER_FILES=/b.json"], DRIVER),
    ("a name counts with its case", [b"vk_driver_files=/a.json", b"VK_DRIVER_FILES_=/a.json"], DRIVER),
    ("a long entry", [b"X=" + b"x" * 9_995, b"VK_DRIVER_FILES=" + b"/n.json:" * 1_250 + b"/b.json"], "/b.json"),
    ("a long entry that sets nothing", [b"X" * 60_000, b"VK_DRIVER_FILES=/b.json"], "/b.json"),
    ("the last of many", [b"X%d=x" % k for k in range(1_000)] + [b"VK_DRIVER_FILES=/b.json"], "/b.json"),
]


def environments(room):
    root = plant(room / "variables", {path: driver() for path in ("/a.json", "/b.json", "/a=b.json", DRIVER)})
    for what, entries, path in ENVIRONMENTS:
        notes = "note Absent /n.json\n" if entries[-1].count(b"/n.json") else ""
        shown = notes + chain_text([], [(path, "libd.so")])
        words = executed(ALONE, ["chain", "--root", root], entries)
        yield what, run, sys.executable, words, (shown, "", 0)
        replayed = f"vktrace 1\ntext\n{notes}end calls=0 skipped=0 reports=0\n"
        words = executed(THREADS, ["--root", root], entries)
        yield f"{what}, a stream file", run, sys.executable, words, (replayed, "", 0), "vkstreams 1\nsetup\nteardown\n"


def short_writes(room):
    """A file that takes so many bytes has a front of the output, which is made in one write or in several."""
    trace, text = START + WAIT * 3_000, BARE + DEVICE_TEXT + waited(4, 3_000)
    file = f"vkstreams 1\nsetup\n{DEVICE}{WAIT * 3_000}teardown\n"
    for most in (1, 1_000, 70_000):
        for program, words, given, whole in ((ALONE, ["run", *MACHINE], trace, text), (THREADS, MACHINE, file, trace)):
            words, path = executed(program, words, most=most), room / f"{program.name}-{most}"
            yield f"a file of {most} bytes, {program.name}", takes_a_front, path, words, given, whole[:most]


def takes_a_front(path, words, given, front):
    with open(path, "wb") as out:
        ended = subprocess.run([sys.executable, *words], input=given.encode(), stdout=out, stderr=subprocess.PIPE,
                               env={}, timeout=SECONDS)
    if (ended.returncode, ended.stderr, path.read_bytes()) != (5, b"vkreplay: write fault\n", front.encode()):
        raise Wrong(f"status {ended.returncode}; said: {ended.stderr[:200]}; {path.stat().st_size} bytes stand there")


def breaks(program, words, given, text):
    """That a connection which breaks behind what was given, once its text has come, is a fault of reading."""
    ours, theirs = socket.socketpair()
    theirs.send(b"nobody reads this, so it breaks where it would end")
    pipes = dict.fromkeys(("stdout", "stderr"), subprocess.PIPE)
    with subprocess.Popen([program, *words], stdin=theirs, env={}, **pipes) as ran:
        theirs.close()
        ours.sendall(given.encode())
        wrote = ran.stdout.read(len(text)) if text else b""
        ours.close()
        more, said = ran.communicate(timeout=SECONDS)
    if (ran.returncode, said, wrote + more) != (4, b"vkreplay: read fault\n", text.encode()):
        raise Wrong(f"status {ran.returncode}; said: {said[:200]}; wrote: {(wrote + more)[:200]}")


def broken_connections():
    yield "a connection that breaks at once", breaks, ALONE, ["run", *MACHINE], "", ""
    whole, text = START + WAIT * 100, BARE + DEVICE_TEXT + waited(4, 100)
    yield "a connection that breaks", breaks, ALONE, ["run", *MACHINE], whole, text
    within = whole + WAIT.partition(" %1.3")[0]
    yield "a connection that breaks in a line", breaks, ALONE, ["run", *MACHINE], within, text
    yield "a stream file that breaks", breaks, THREADS, MACHINE, f"vkstreams 1\nsetup\n{DEVICE}teardown\n", ""


def closed_files(room):
    """A link to itself can't be opened: a file, a folder, and a folder of layers behind a driver."""
    file = plant(room / "file", {DRIVER: driver()})
    (file / "etc/vulkan/icd.d/loop.json").symlink_to("loop.json")
    folder = plant(room / "folder", {"/etc/vulkan/none": ""})
    (folder / "etc/vulkan/icd.d").symlink_to("icd.d")
    behind = plant(room / "behind", {DRIVER: driver()})
    (behind / "etc/vulkan/explicit_layer.d").symlink_to("explicit_layer.d")
    for root in (file, folder, behind):
        faulty = ("", "read fault", 4)
        yield f"a {root.name} that can't be opened", run, ALONE, ["chain", "--root", root], faulty
        yield f"a {root.name} that can't be opened, a run", run, ALONE, ["run", "--root", root], faulty, START
        yield f"a {root.name} that can't be opened, a stream file", run, THREADS, ["--root", root], faulty, ""


def cases(room):
    room.mkdir()
    for part in (environments, short_writes, closed_files):
        yield from part(room)
    yield from broken_connections()
