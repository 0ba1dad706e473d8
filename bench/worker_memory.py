#!/usr/bin/env python3
"""worker_memory.py: runs the built program `vkreplay_mt` on stream files that it makes, of 1, 4, 16 and 64 streams with few and with a hundred times as many
calls each, through the validation layer's three parts, and counts for how many pieces of memory the program's threads ask: the first thread, which reads, makes
all room, makes the steps of one stream, merges and prints; and the others, which make the steps of the other streams.

The others also start further threads. For each the system takes memory, which is counted by itself, and the caller asks for one piece, its record of the
thread. They must ask for no other: then no step takes memory between the making of the devices' locked state and its end. It prints a line for each
file, and ends with 1 where that isn't so, where there weren't as many threads as streams, or where a run ended otherwise than it must. It needs Linux and a C
compiler, for a small library that stands before the calls that give memory. `VKREPLAY_MT` may name another program."""
import os, pathlib, struct, subprocess, sys, tempfile

TOP = pathlib.Path(__file__).resolve().parent.parent
sys.dont_write_bytecode = True
sys.path.insert(0, str(TOP / "bench"))
from merged import MACHINE, THREADS, VALIDATED

SHIM = r"""
#define _GNU_SOURCE
#include <dlfcn.h>
#include <errno.h>
#include <fcntl.h>
#include <pthread.h>
#include <stdatomic.h>
#include <stdlib.h>
#include <sys/mman.h>
#include <sys/syscall.h>
#include <unistd.h>
void *__libc_malloc(size_t);
void *__libc_calloc(size_t, size_t);
void *__libc_realloc(void *, size_t);
void *__libc_memalign(size_t, size_t);
/* They stand in the file, since the program ends without a word to its libraries. */
struct counts { atomic_long by_first, by_others, of_starts, of_first, of_others; };
static struct counts unseen, *counts = &unseen;
__attribute__((constructor)) static void start(void) {
    int file = open(getenv("COUNTS_FILE"), O_RDWR);
    void *at = file < 0 ? MAP_FAILED : mmap(0, sizeof *counts, PROT_READ | PROT_WRITE, MAP_SHARED, file, 0);
    if (at != MAP_FAILED) counts = at;
}
static __thread int starts __attribute__((tls_model("initial-exec")));
static int is_first(void) { return syscall(SYS_gettid) == getpid(); }
static void count(void) {
    if (starts) ++counts->of_starts;
    else if (is_first()) ++counts->of_first;
    else ++counts->of_others;
}
void *malloc(size_t size) { count(); return __libc_malloc(size); }
void *calloc(size_t many, size_t size) { count(); return __libc_calloc(many, size); }
void *realloc(void *old, size_t size) { count(); return __libc_realloc(old, size); }
void *memalign(size_t by, size_t size) { count(); return __libc_memalign(by, size); }
void *aligned_alloc(size_t by, size_t size) { count(); return __libc_memalign(by, size); }
int posix_memalign(void **out, size_t by, size_t size) {
    count();
    void *made = __libc_memalign(by, size);
    if (!made) return ENOMEM;
    *out = made;
    return 0;
}
int pthread_create(pthread_t *thread, const pthread_attr_t *how, void *(*run)(void *), void *given) {
    int (*next)(pthread_t *, const pthread_attr_t *, void *(*)(void *), void *) = dlsym(RTLD_NEXT, "pthread_create");
    if (is_first()) ++counts->by_first; else ++counts->by_others;
    starts = 1;
    int done = next(thread, how, run, given);
    starts = 0;
    return done;
}
"""


class Counted:
    """The program with the library, in a folder."""

    def __init__(self, folder):
        self.counts_file, self.library = folder / "counts", folder / "shim.so"
        (folder / "shim.c").write_text(SHIM)
        compiler = os.environ.get("CC", "cc")
        subprocess.run([compiler, "-O1", "-shared", "-fPIC", "-o", self.library, folder / "shim.c", "-ldl"], check=True)

    def run(self, file):
        """The status; how many threads the first one and the others started; for how many pieces the system asked for that, and the first thread and the others beside it."""
        self.counts_file.write_bytes(bytes(40))
        variables = {**VALIDATED, "LD_PRELOAD": str(self.library), "COUNTS_FILE": str(self.counts_file)}
        words = [THREADS, "--root", str(MACHINE)]
        done = subprocess.run(words, input=file.encode(), capture_output=True, env=variables, timeout=60)
        return done.returncode, struct.unpack("5q", self.counts_file.read_bytes())


def made(streams, turns):
    """A file of so many streams, each of which so often makes a fence on one device, asks for its state, and destroys it."""
    lines = ["vkstreams 1", "setup", "b 1 vkCreateInstance = %1.1 VK_SUCCESS", "r 1", "b 1 vkEnumeratePhysicalDevices %1.1 = %1.2 VK_SUCCESS", "r 1"]
    lines += ["b 1 vkCreateDevice %1.2 = %1.3 VK_SUCCESS", "r 1"]
    for thread in range(2, 2 + streams):
        lines.append(f"stream {thread}")
        for turn in range(1, 1 + turns):
            fence = f"%{thread}.{turn}"
            lines += [f"b {thread} vkCreateFence %1.3 = {fence} VK_SUCCESS", f"r {thread}", f"b {thread} vkGetFenceStatus %1.3 {fence} VK_SUCCESS", f"r {thread}"]
            lines += [f"b {thread} vkDestroyFence %1.3 {fence} void", f"r {thread}"]
    return "\n".join([*lines, "teardown", ""])


def main():
    if len(sys.argv) > 1:
        sys.exit(__doc__)
    wrong = 0
    with tempfile.TemporaryDirectory() as folder:
        counted = Counted(pathlib.Path(folder))
        for streams in (1, 4, 16, 64):
            for turns in (2, 200):
                status, (by_first, by_others, of_starts, of_first, of_others) = counted.run(made(streams, turns))
                is_right = status == 0 and by_first + by_others == streams - 1 and of_first > 0 and of_others == by_others
                wrong += not is_right
                told = f"{streams} streams of {3 * turns} calls: the first thread started {by_first} and asked for {of_first} pieces of memory; the others started {by_others} and asked for {of_others}; starting took {of_starts}"
                print(told + ("" if is_right else f", status {status}: WRONG"))
    print(f"workers' memory: {8 - wrong} runs as they must be, {wrong} not")
    return 1 if wrong else 0


if __name__ == "__main__":
    sys.exit(main())
