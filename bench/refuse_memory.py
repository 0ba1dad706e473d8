#!/usr/bin/env python3
"""refuse_memory.py PROGRAM: runs the built program over two traces again and again, refusing it another piece of memory each time: that
piece alone, and then that piece and all behind it.

Each run must write whole lines that are a front of the trace's text, say that there was no memory and end with status 7; or it must
come to the trace's own result, as it may where it can do without that piece. It prints how many pieces of memory each trace takes, and
how many runs came to which of the two. It needs Linux and a C compiler, for a small library that stands before malloc and realloc."""
import collections, os, pathlib, subprocess, sys, tempfile

SHIM = r"""
#include <fcntl.h>
#include <stdio.h>
#include <stdlib.h>
#include <unistd.h>
void *__libc_malloc(size_t);
void *__libc_realloc(void *, size_t);
static long asked, refused;
static int is_refused(void) {
    if (!refused) refused = getenv("REFUSED_PIECE") ? atol(getenv("REFUSED_PIECE")) : -1;
    ++asked;
    return getenv("REFUSED_BEHIND") ? refused > 0 && asked >= refused : asked == refused;
}
void *malloc(size_t size) { return is_refused() ? 0 : __libc_malloc(size); }
void *realloc(void *old, size_t size) { return is_refused() ? 0 : __libc_realloc(old, size); }
__attribute__((destructor)) static void tell(void) {
    char text[32];
    int file = getenv("PIECES_FILE") ? open(getenv("PIECES_FILE"), O_WRONLY | O_CREAT | O_TRUNC, 0600) : -1;
    if (file >= 0 && write(file, text, snprintf(text, sizeof text, "%ld", asked)) > 0) close(file);
}
"""

FILES = {
    "etc/vulkan/icd.d/a.json": '{"file_format_version":"1.0.1","ICD":{"library_path":"libvulkan_a.so","api_version":"1.3.275"}}',
    "usr/share/vulkan/explicit_layer.d/v.json": '{"file_format_version":"1.2.0","layer":{"name":"VK_LAYER_KHRONOS_validation",'
    '"type":"GLOBAL","library_path":"libVkLayer_khronos_validation.so","api_version":"1.3.275","implementation_version":"1",'
    '"description":"Khronos Validation Layer","platforms":["LINUX"],"features":{"presets":[]}}}',
}

FIRST = """vktrace 1
b 1 vkCreateInstance = %1.1 VK_SUCCESS
r 1
b 1 vkEnumeratePhysicalDevices %1.1 = %1.2 VK_SUCCESS
r 1
b 1 vkCreateDevice %1.2 = %1.3 VK_SUCCESS
r 1
"""

FIRST_TEXT = """chain 1 ok layers=1 parts=3 drivers=1
layer 1 VK_LAYER_KHRONOS_validation /usr/share/vulkan/explicit_layer.d/v.json
part 1 threads VK_LAYER_KHRONOS_validation
part 2 lifetimes VK_LAYER_KHRONOS_validation
part 3 unique VK_LAYER_KHRONOS_validation
driver 1 /etc/vulkan/icd.d/a.json libvulkan_a.so
ret 1 vkCreateInstance VK_SUCCESS born=1
ret 2 vkEnumeratePhysicalDevices VK_SUCCESS born=1
ret 3 vkCreateDevice VK_SUCCESS born=1
"""

# The trace behind the first three calls, its text, and its status.
TRACES = {
    "three calls": ("", "end calls=3 skipped=0 reports=0\n", 0),
    "an overlap": (
        """b 1 vkCreateCommandPool %1.3 = %1.4 VK_SUCCESS
r 1
b 1 vkAllocateCommandBuffers %1.3 %1.4 = %1.5,%1.6 VK_SUCCESS
r 1
b 1 vkBeginCommandBuffer %1.5 VK_SUCCESS
b 2 vkBeginCommandBuffer %1.6 VK_SUCCESS
r 1
r 2
""",
        """ret 4 vkCreateCommandPool VK_SUCCESS born=1
ret 5 vkAllocateCommandBuffers VK_SUCCESS born=2
report 7 1 VKR-vkBeginCommandBuffer-commandBuffer-overlap %1.6 with=6
ret 6 vkBeginCommandBuffer VK_SUCCESS
ret 7 vkBeginCommandBuffer VK_SUCCESS
end calls=7 skipped=0 reports=1
""",
        1,
    ),
}


class Trial:
    """The program with the library, and the folder of its manifests."""

    def __init__(self, program, folder):
        self.program, self.folder = program, folder
        self.pieces_file = folder / "pieces"
        (folder / "shim.c").write_text(SHIM)
        compiler = os.environ.get("CC", "cc")
        subprocess.run([compiler, "-O1", "-shared", "-fPIC", "-o", folder / "shim.so", folder / "shim.c"], check=True)
        for path, text in FILES.items():
            file = folder / "root" / path
            file.parent.mkdir(parents=True, exist_ok=True)
            file.write_text(text)

    def run(self, trace, refused, behind=False):
        """The status, the output, what is said, and how many pieces were asked for, where the piece with this number is refused, or also
        those behind it."""
        self.pieces_file.unlink(missing_ok=True)
        variables = {
            "HOME": "/home/u",
            "VK_INSTANCE_LAYERS": "VK_LAYER_KHRONOS_validation",
            "LD_PRELOAD": str(self.folder / "shim.so"),
            "REFUSED_PIECE": str(refused),
            "PIECES_FILE": str(self.pieces_file),
        }
        if behind:
            variables["REFUSED_BEHIND"] = "1"
        words = [self.program, "run", "--root", str(self.folder / "root")]
        done = subprocess.run(words, input=trace, capture_output=True, text=True, env=variables, timeout=60)
        pieces = int(self.pieces_file.read_text()) if self.pieces_file.exists() else 0
        return (done.returncode, done.stdout, done.stderr), pieces


def verdict(ended, own):
    """What a run came to, or None where it is wrong."""
    status, out, said = ended
    if ended == own:
        return "own result"
    whole = out == "" or out.endswith("\n")
    if status == 7 and said == "vkreplay: no memory\n" and whole and own[1].startswith(out):
        return "status 7"
    return None


def try_each(trial, name, trace, own, pieces, behind):
    """Refuses each piece in turn, and says what that came to; whether each run was right."""
    came, lines = collections.Counter(), collections.Counter()
    for number in range(1, pieces + 1):
        ended, _ = trial.run(trace, number, behind)
        kind = verdict(ended, own)
        came[kind] += 1
        if kind == "status 7":
            lines[ended[1].count("\n")] += 1
        if kind is None:
            print(f"{name}: without piece {number}: {ended}")
    which = "each and all behind it" if behind else "each alone"
    fronts = ", ".join(f"{count} behind {number} lines" for number, count in sorted(lines.items()))
    print(f"{name}, {which}: {pieces} runs, {came['own result']} with the own result, {came['status 7']} with status 7: {fronts}")
    return came[None] == 0


def try_all(trial, name, trace, own):
    """The same in both ways."""
    ended, pieces = trial.run(trace, 0)
    if ended != own:
        print(f"{name}: with all its memory the program ends otherwise: {ended}")
        return False
    if pieces == 0:
        print(f"{name}: no piece of memory was counted: is the program linked with the system's libc?")
        return False
    print(f"{name}: {pieces} pieces of memory")
    return all([try_each(trial, name, trace, own, pieces, behind) for behind in (False, True)])


def main():
    if len(sys.argv) != 2:
        sys.exit(__doc__)
    program = str(pathlib.Path(sys.argv[1]).resolve())
    with tempfile.TemporaryDirectory() as folder:
        trial = Trial(program, pathlib.Path(folder))
        right = True
        for name, (trace, text, status) in TRACES.items():
            right &= try_all(trial, name, FIRST + trace, (status, FIRST_TEXT + text, ""))
    sys.exit(0 if right else 1)


if __name__ == "__main__":
    main()
