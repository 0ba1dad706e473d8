"""Replays of what comes bit by bit: a byte at a time, and line by line, where what a line comes to must be there
before the next line is given."""
import os, select, subprocess, threading, time

from runs import ALONE, MACHINE, SECONDS, THREADS, VALIDATED, Wrong, compare, driver, plant, run
from traces import BARE, CHECKED, DEVICE, DEVICE_TEXT, INSTANCE, START, WAIT, end, waited

# how long a line's output may take
PATIENCE = 30


def cases(room):
    """The same trace and stream file a byte at a time and at once, and a trace line by line."""
    long = WAIT.replace("\n", " : " + "x" * 5_000 + "\n", 1)
    calls, text = (long + WAIT * 20) * 2, BARE + DEVICE_TEXT + waited(4, 42) + end(45)
    trace, file = START + calls, f"vkstreams 1\nsetup\n{DEVICE}{calls}stream 7\nteardown\n{calls}"
    twice = BARE + DEVICE_TEXT + waited(4, 84) + end(87)
    words = ALONE, ["run", *MACHINE], (text, "", 0), trace
    files = THREADS, MACHINE, (f"{trace}{calls}text\n{twice}", "", 0), file
    yield f"{len(trace)} bytes at once", run, *words
    yield f"{len(trace)} bytes, one at a time", trickled, *words
    yield f"a stream file of {len(file)} bytes at once", run, *files
    yield f"a stream file of {len(file)} bytes, one at a time", trickled, *files
    faulty = START + "b 1 vkDeviceWaitIdle %1.3 void\n"
    yield "a fault in single bytes", trickled, ALONE, words[1], (BARE + DEVICE_TEXT, "line 8: Code", 3), faulty
    yield "a last line that isn't ended", trickled, *words[:3], trace.removesuffix("\n")
    yield "line by line", answered, ["run", *MACHINE], VALIDATED, [("vktrace 1\n", ""), *pieces(CHECKED)]
    folder, note = "/etc/vulkan/icd.d", ("", "note NoVersion /etc/vulkan/icd.d/b.json\n")
    root = plant(room / "noted", {f"{folder}/a.json": driver("libvulkan_a.so"), f"{folder}/b.json": "{}"})
    noted = [note, ("vktrace 1\n", ""), *pieces(BARE)]
    yield "line by line, behind a note", answered, ["run", "--root", root], {}, noted


def pieces(chain):
    """The lines of 405 calls, each with what it comes to. Through the validation layer each third one behind the first
    five is reported, since it asks about a buffer that was destroyed. Then the end."""
    yield INSTANCE + "\n", chain
    returns = iter(DEVICE_TEXT.splitlines(keepends=True))
    for line in DEVICE.splitlines(keepends=True)[1:]:
        yield line, next(returns) if line == "r 1\n" else ""
    yield "b 1 vkCreateBuffer %1.3 = %1.4 VK_SUCCESS\n", ""
    yield "r 1\n", "ret 4 vkCreateBuffer VK_SUCCESS born=1\n"
    yield "b 1 vkDestroyBuffer %1.3 %1.4 void\n", ""
    yield "r 1\n", "ret 5 vkDestroyBuffer void\n"
    reported = range(6, 406, 3) if chain == CHECKED else ()
    for call in range(6, 406):
        if call in reported:
            report = f"report {call} 2 VUID-vkGetBufferMemoryRequirements-buffer-parameter %1.4\n"
            yield "b 1 vkGetBufferMemoryRequirements %1.3 %1.4 void\n", report
            yield "r 1\n", f"ret {call} vkGetBufferMemoryRequirements void\n"
        else:
            begin, _, back = WAIT.partition("\n")
            yield begin + "\n", ""
            yield back, waited(call, 1)
    yield None, end(405, len(reported), len(reported))


def answered(words, variables, given):
    """That each of these lines comes to its text before the next one is given."""
    pipes = dict.fromkeys(("stdin", "stdout", "stderr"), subprocess.PIPE)
    with subprocess.Popen([ALONE, *words], env=variables, bufsize=0, **pipes) as running:
        try:
            for number, (line, text) in enumerate(given):
                if line is None:
                    running.stdin.close()
                    running.stdin = None
                elif line:
                    running.stdin.write(line.encode())
                got = comes(running.stdout.fileno(), len(text))
                if got != text.encode():
                    raise Wrong(f"behind piece {number}, {line!r}, came {got}, wanted {text!r}")
            more, said = running.communicate(timeout=PATIENCE)
        except BrokenPipeError:
            raise Wrong(f"at piece {number} nobody read any more") from None
        except subprocess.TimeoutExpired:
            raise Wrong(f"it hadn't ended {PATIENCE} seconds behind its last line") from None
        finally:
            running.kill()
    reported = " reports=0\n" not in text
    if (running.returncode, said, more) != (int(reported), b"", b""):
        raise Wrong(f"status {running.returncode}; said: {said}; wrote behind its end: {more[:200]}")


def comes(source, count):
    """What comes, up to so many bytes, before the output ends or patience does."""
    got, until = b"", time.monotonic() + PATIENCE
    while len(got) < count and select.select([source], [], [], max(0, until - time.monotonic()))[0]:
        piece = os.read(source, count - len(got))
        if not piece:
            break
        got += piece
    return got


def trickled(program, words, wanted, given, variables=None):
    """That a run which is given single bytes comes to what is wanted. A read of a pipe in packet mode gets what one
    write gave, and no more."""
    reader, writer = os.pipe2(os.O_DIRECT | os.O_CLOEXEC)
    call = {"stdin": reader, "stdout": subprocess.PIPE, "stderr": subprocess.PIPE, "env": variables or {}}
    with subprocess.Popen([program, *words], **call) as running:
        os.close(reader)
        feeder = threading.Thread(target=feed, args=(writer, given.encode()))
        feeder.start()
        try:
            wrote, said = running.communicate(timeout=SECONDS)
        except subprocess.TimeoutExpired:
            running.kill()
            raise Wrong(f"it hadn't ended after {SECONDS} seconds") from None
        finally:
            feeder.join()
    text, line, status = wanted
    line = f"vkreplay: {line}\n" if line else ""
    if (running.returncode, said.decode()) != (status, line):
        raise Wrong(f"status {running.returncode}, wanted {status} and {line!r}; said: {said[:200]}")
    compare(wrote, text)


def feed(writer, given):
    """Writes single bytes until nobody reads them."""
    try:
        for at in range(len(given)):
            os.write(writer, given[at:at + 1])
    except BrokenPipeError:
        pass
    finally:
        os.close(writer)
