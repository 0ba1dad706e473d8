"""Traces that are told call by call, each with the text that it comes to by the rules: every command by its name, a
call at each place of a chain, and pools, queues, swapchains and owners of few and of many objects. Some are told to
the streams of a device, whose tables are copies of what setup left."""
import itertools, runpy, sys

from runs import (ALONE, DRIVER, EXPLICIT, MACHINE, THREADS, TOP, VALIDATED, Wrong, chain_text, driver, layer, layers,
                  numbered, plant, ran, run)
from traces import BARE, CHECKED, DEVICE, DEVICE_TEXT, LONGEST, end

RUN = ["run", *MACHINE]
LIBRARIES = {"threads": "libVkLayer_thread_safety.so", "lifetimes": "libVkLayer_object_lifetimes.so",
             "unique": "libVkLayer_unique_objects.so"}
VALIDATION = "libVkLayer_khronos_validation.so"
MANY = (0, 3, 400, 10_000)


class Story:
    """A trace behind a device, %1.3, and its text."""

    def __init__(self, chain=CHECKED):
        self.events, self.file, self.text = [DEVICE], [DEVICE], [chain + DEVICE_TEXT]
        self.calls, self.skipped, self.reports, self.names, self.open = 3, 0, 0, {1: 3}, {}

    def section(self, heading):
        self.file.append(heading + "\n")

    def tell(self, line):
        self.events.append(line)
        self.file.append(line)

    def begin(self, call, results=0, code="VK_SUCCESS", thread=1, payload="", born=None):
        """A call begins: the names of its results, of which so many are born, by default all."""
        first = self.names.get(thread, 0) + 1
        self.names[thread] = first + results - 1
        names = [f"%{thread}.{number}" for number in range(first, first + results)]
        made = f" = {','.join(names)}" if results else ""
        self.calls += 1
        self.tell(f"b {thread} {call}{made} {code}{payload and ' : ' + payload}\n")
        born = f" born={results if born is None else born}" if results else ""
        self.last = thread
        self.open[thread] = f"ret {self.calls} {call.split(' ')[0]} {code}{born}\n"
        return names

    def report(self, place, identifier, name, more="", skips=True):
        """The call that began last is reported, and by default skipped: it answers that."""
        self.text.append(f"report {self.calls} {place} {identifier} {name}{more}\n")
        self.reports += 1
        self.skipped += skips
        if skips:
            self.open[self.last] = self.open[self.last].replace("VK_SUCCESS", "VK_ERROR_VALIDATION_FAILED_EXT")

    def back(self, thread=1):
        self.tell(f"r {thread}\n")
        self.text.append(self.open.pop(thread))

    def call(self, call, results=0, code="VK_SUCCESS", thread=1, **more):
        names = self.begin(call, results, code, thread, **more)
        self.back(thread)
        return names

    def make(self, command, *args, thread=1):
        return self.call(" ".join([f"vkCreate{command}", "%1.3", *args]), 1, thread=thread)[0]

    def dead(self, place, call, parameter, name, code="VK_SUCCESS", thread=1, more=""):
        """A call is skipped, since this argument is none of a living object."""
        self.begin(call, code=code, thread=thread)
        self.report(place, f"VUID-{call.split(' ')[0]}-{parameter}-parameter", name, more)
        self.back(thread)

    def overlap(self, first, second, parameter, name, found, place=1):
        """While thread 2 is in a call, thread 1 makes another, which is reported or not."""
        self.begin(*first, thread=2)
        other = self.calls
        self.begin(*second)
        if found:
            self.report(place, f"VKR-{second[0].split(' ')[0]}-{parameter}-overlap", name, f" with={other}", False)
        self.back(1)
        self.back(2)

    def whole(self):
        return "".join(self.text) + end(self.calls, self.skipped, self.reports)

    def case(self, what, words=RUN, variables=VALIDATED):
        wanted = self.whole(), "", int(self.reports > 0)
        return what, run, ALONE, words, wanted, "vktrace 1\n" + "".join(self.events), variables

    def stream_case(self, what, words=MACHINE, variables=VALIDATED):
        """The same of the file, whose streams are in turn: there is just one."""
        text = f"vktrace 1\n{''.join(self.events)}text\n{self.whole()}"
        given = "vkstreams 1\nsetup\n" + "".join(self.file)
        return what, run, THREADS, words, (text, "", int(self.reports > 0)), given, variables


def commands():
    """Each command of the table is found by its name, and not by the name less its last byte or with one more."""
    rows = runpy.run_path(str(TOP / ".ci/command-rows"))
    names = [name for name, *_ in rows["ROW"].findall(rows["TABLE"].read_text())]
    for name in names:
        for other in (name[:-1], name + "s", name.lower(), name[1:]):
            yield f"no {other}", run, ALONE, RUN, ("", "line 2: Command", 3), f"vktrace 1\nb 1 {other}\n"
        yield f"{name} alone", is_found, name
    if len(names) != 92 or names != sorted(names):
        yield f"{len(names)} commands in order", run, ALONE, ["92"], ("", "", 0)


def is_found(name):
    """That a line of a command's name has another fault than that there is no such command."""
    ended, wrote, said = ran(ALONE, RUN, f"vktrace 1\nb 1 {name}\n")
    if (ended, wrote) != (3, b"") or not said.startswith("vkreplay: line 2: ") or "Command" in said:
        raise Wrong(f"status {ended}; said: {said}")


def places(room):
    """A call at each chain of up to six parts whose checking parts have a unique part below them. The first lifetimes
    part stops it, and so no part below hears of it; a threads part that has heard of it finds the other call."""
    listed = [layer(f"{kind}{k}", library) for kind, library in LIBRARIES.items() for k in range(6)]
    root = plant(room / "places", {DRIVER: driver(), EXPLICIT: layers(listed)})
    for count in range(7):
        for kinds in itertools.product(LIBRARIES, repeat=count):
            if not kinds or kinds[-1] == "unique":
                yield stopped(root, kinds)


def stopped(root, kinds):
    """Memory is freed before it is bound to a buffer, which another thread reads meanwhile; then the buffer ends."""
    names = [f"{kind}{k}" for k, kind in enumerate(kinds)]
    story = Story(chain_text([(n, EXPLICIT) for n in names], parts=list(zip(kinds, names)), call=1))
    at = kinds.index("lifetimes") + 1 if "lifetimes" in kinds else 0
    heard = [k for k, kind in enumerate(kinds, 1) if kind == "threads" and (not at or k < at)]
    buffer, memory = story.make("Buffer"), story.call("vkAllocateMemory %1.3", 1)[0]
    story.call(f"vkFreeMemory %1.3 {memory}", code="void")
    story.begin(f"vkBindBufferMemory %1.3 {buffer} {memory}")
    first = story.calls
    if at:
        story.report(at, "VUID-vkBindBufferMemory-memory-parameter", memory)
    read = f"vkGetBufferMemoryRequirements %1.3 {buffer}"
    story.begin(read, code="void", thread=2)
    for place in heard:
        story.report(place, "VKR-vkGetBufferMemoryRequirements-buffer-overlap", buffer, f" with={first}", False)
    story.back(2)
    story.back(1)
    story.call(read, code="void", thread=2)
    story.call(f"vkDestroyBuffer %1.3 {buffer}", code="void")
    story.begin(f"vkCreateBufferView %1.3 {buffer}", 1, born=0 if at else 1)
    if at:
        story.report(at, "VUID-vkCreateBufferView-buffer-parameter", buffer)
    story.back()
    story.make("Buffer")
    variables = {"VK_INSTANCE_LAYERS": ":".join(names)} if names else {}
    return story.case(f"a chain of {' '.join(kinds)}", ["run", "--root", root], variables)


def get_queue(story, device, payload):
    return story.call(f"vkGetDeviceQueue {device}", 1, "void", payload=payload)[0]


def queues_among(buffers):
    """A device's queues are found by a wait for it, whatever else it owned between them; and they end with it."""
    story = Story()
    first, other = get_queue(story, "%1.3", "0,0"), story.call("vkCreateDevice %1.2", 1)[0]
    apart = get_queue(story, other, "0,0")
    for _ in range(buffers):
        story.call(f"vkDestroyBuffer %1.3 {story.make('Buffer')}", code="void")
    second = get_queue(story, "%1.3", "0,1")
    wait = ("vkDeviceWaitIdle %1.3",)
    for queue, found in ((first, True), (second, True), (apart, False)):
        story.overlap((f"vkQueueWaitIdle {queue}",), wait, "device", "%1.3", found)
    story.call("vkDestroyDevice %1.3", code="void")
    for queue in (first, second):
        story.dead(0, f"vkQueueWaitIdle {queue}", "queue", queue)
    story.call(f"vkQueueWaitIdle {apart}")
    return story


def queues_twice(story, count, device="%1.3"):
    """So many queues of a device, each by another payload, and each given twice: both names are of one queue."""
    queues = [get_queue(story, device, f"0,{k}") for k in range(count)]
    again = [get_queue(story, device, f"0,{k}") for k in range(count)]
    return list(zip(queues, again))


def queues(count):
    story = Story()
    both = queues_twice(story, count)
    for one, other in (both[0], both[-1]):
        story.overlap((f"vkQueueWaitIdle {one}",), (f"vkQueueWaitIdle {other}",), "queue", other, True)
        story.overlap((f"vkQueueWaitIdle {other}",), ("vkDeviceWaitIdle %1.3",), "device", "%1.3", True)
    if count > 1:
        story.overlap((f"vkQueueWaitIdle {both[0][0]}",), (f"vkQueueWaitIdle {both[-1][0]}",), "queue", "", False)
    return story


def take_sets(story, pool, count):
    """So many sets of a pool, of which one call allocates 1,024 at most."""
    sets = []
    while len(sets) < count:
        sets += story.call(f"vkAllocateDescriptorSets %1.3 {pool} []", min(1_024, count - len(sets)))
    return sets


def update(descriptor_set):
    return f"vkUpdateDescriptorSets %1.3 [{descriptor_set}] [] [] [] []", 0, "void"


def sets(count):
    """A reset writes the living sets of its pool and ends them; then, again and again, just the one set there is."""
    story = Story()
    pool, other = story.make("DescriptorPool"), story.make("DescriptorPool")
    made, apart = take_sets(story, pool, count), take_sets(story, other, 1)[0]
    reset = f"vkResetDescriptorPool %1.3 {pool}"
    found = "descriptorPool", pool
    story.overlap(update(made[-1]), (reset,), *found, True)
    story.overlap(update(apart), (reset,), *found, False)
    made = take_sets(story, pool, count)
    freed = f"vkFreeDescriptorSets %1.3 {pool} "
    story.call(f"{freed}[{made[0]},null,{made[0]}]")
    story.dead(2, f"{freed}[null,{made[0]}]", "pDescriptorSets", made[0], more=" index=1")
    for _ in range(count):
        story.call(reset)
        made = take_sets(story, pool, 1)
    story.overlap(update(made[0]), (reset,), *found, True)
    story.call(f"vkDestroyDescriptorPool %1.3 {other}", code="void")
    story.call(f"vkDestroyDescriptorPool %1.3 {pool}", code="void")
    story.dead(2, reset, "descriptorPool", pool)
    return story


def swapchains(story, count, images, times=3):
    """So many swapchains, each with its names for each image, of which the calls that give them make a new one."""
    surface, made = story.call("vkCreateXcbSurfaceKHR %1.1", 1)[0], []
    for _ in range(count):
        swapchain = story.make("SwapchainKHR", surface, "null")
        get = f"vkGetSwapchainImagesKHR %1.3 {swapchain}"
        made.append((swapchain, list(zip(*(story.call(get, images) for _ in range(times))))))
    return made


def images(count, each):
    """An image has a name of each call that gave it, and ends with its swapchain under all of them."""
    story = Story()
    made = swapchains(story, count, each)
    for swapchain, given in (made[0], made[-1]) if count > 1 else made:
        for name in {*given[0], *given[-1]}:
            story.call(f"vkDestroyImageView %1.3 {story.make('ImageView', name)}", code="void")
        story.overlap((f"vkGetImageMemoryRequirements %1.3 {given[-1][0]}", 0, "void"),
                      (f"vkGetImageMemoryRequirements %1.3 {given[-1][-1]}", 0, "void"), "image", "", False)
        story.call(f"vkDestroySwapchainKHR %1.3 {swapchain}", code="void")
        for name in sorted({*given[0], *given[-1]}):
            story.begin(f"vkCreateImageView %1.3 {name}", 1, born=0)
            story.report(2, "VUID-vkCreateImageView-image-parameter", name)
            story.back()
    return story


def owners(count):
    """What is owned at depths 1, 2 and 3 ends with the device, and with the instance, and nothing else does."""
    for ended in ("vkDestroyDevice %1.3", "vkDestroyInstance %1.1"):
        story = Story(BARE)
        other = story.call("vkCreateDevice %1.2", 1)[0]
        there = story.call(f"vkCreateCommandPool {other}", 1)[0]
        apart = story.call(f"vkAllocateCommandBuffers {other} {there}", 1)[0]
        pools = [story.make("CommandPool") for _ in range(count)]
        buffers = [story.call(f"vkAllocateCommandBuffers %1.3 {pool}", 2)[1] for pool in pools]
        story.call(ended, code="void")
        story.dead(0, f"vkBeginCommandBuffer {buffers[0]}", "commandBuffer", buffers[0])
        story.dead(0, f"vkBeginCommandBuffer {buffers[-1]}", "commandBuffer", buffers[-1])
        if ended.startswith("vkDestroyDevice"):
            story.call(f"vkBeginCommandBuffer {apart}")
            story.call("vkGetPhysicalDeviceFeatures %1.2", code="void")
        else:
            story.dead(0, f"vkBeginCommandBuffer {apart}", "commandBuffer", apart)
            story.dead(0, "vkGetPhysicalDeviceFeatures %1.2", "physicalDevice", "%1.2", "void")
        yield story.case(f"{count} pools that end by {ended}", RUN, {})


def returned(count):
    """Each second of many command buffers is freed, and as many are allocated again. Which handles a driver gives them
    shows nowhere."""
    story = Story()
    pool = story.make("CommandPool")
    for _ in range(count):
        made = story.call(f"vkAllocateCommandBuffers %1.3 {pool}", 1_024)
        story.call(f"vkFreeCommandBuffers %1.3 {pool} [{','.join(made[1::2])}]", code="void")
        made = made[::2] + story.call(f"vkAllocateCommandBuffers %1.3 {pool}", 514)
        story.call(f"vkFreeCommandBuffers %1.3 {pool} [{','.join(made[:1_024])}]", code="void")
        story.call(f"vkBeginCommandBuffer {made[-1]}")
    return story


def copied(count, streams):
    """A stream on a device whose setup left so much: what is copied for the device is found, ends and goes on."""
    story = Story()
    other = story.call("vkCreateDevice %1.2", 1)[0]
    buffers, pool = [story.make("Buffer") for _ in range(count)], story.make("DescriptorPool")
    made = take_sets(story, pool, count)
    both = queues_twice(story, min(count, 400))
    shown = swapchains(story, count // 10, 10)
    story.section("stream 2")
    make = story.make("Fence", thread=2)
    story.call(f"vkDestroyFence %1.3 {make}", code="void", thread=2)
    for buffer in {*buffers[:1], *buffers[-1:]}:
        story.call(f"vkDestroyBuffer %1.3 {buffer}", code="void", thread=2)
        story.dead(2, f"vkDestroyBuffer %1.3 {buffer}", "buffer", buffer, "void", 2)
    story.call(f"vkResetDescriptorPool %1.3 {pool}", thread=2)
    for name in made[-1:]:
        story.dead(2, f"vkFreeDescriptorSets %1.3 {pool} [{name}]", "pDescriptorSets", name, thread=2, more=" index=0")
    for _, second in both[-1:]:
        story.call(f"vkQueueWaitIdle {second}", thread=2)
    for _, given in shown[-1:]:
        story.call(f"vkCreateImageView %1.3 {given[-1][-1]}", 1, thread=2)
    for name in buffers[1:-1]:
        story.call(f"vkGetBufferMemoryRequirements %1.3 {name}", code="void", thread=2)
    story.call("vkDeviceWaitIdle %1.3", thread=2)
    if streams > 1:
        story.section("stream 3")
        fence = story.call(f"vkCreateFence {other}", 1, thread=3)[0]
        story.call(f"vkDestroyFence {other} {fence}", code="void", thread=3)
    story.section("teardown")
    story.call(f"vkDestroyDevice {other}", code="void")
    return story


def is_merged(story, words, variables):
    """That what is written of a file of several streams is a merge of them, with the text of its trace."""
    sys.path.insert(0, str(TOP / "bench"))
    import merged
    given = "vkstreams 1\nsetup\n" + "".join(story.file)
    try:
        status, trace, _, text = merged.merged(merged.Sections(given), given, words, variables)
        merged.compare((status, text), merged.replayed(trace, words, variables))
    except merged.Wrong as cause:
        raise Wrong(str(cause)) from None
    if not text.endswith("\n" + end(story.calls, story.skipped, story.reports)):
        raise Wrong(f"it ends with {text[-80:]!r}")


def copies():
    for count in MANY:
        yield copied(count, 1).stream_case(f"a device with {count} objects of each type, copied")
        yield f"two devices, one with {count} objects of each type", is_merged, copied(count, 2), MACHINE, VALIDATED


def longest_chain(room):
    """Lines of the most places and of the most bytes through the longest chain, in a trace and in a stream."""
    names = numbered(64, "c")
    listed = layers([layer(name, VALIDATION) for name in names])
    root = plant(room / "longest", {DRIVER: driver(), EXPLICIT: listed})
    parted = [(kind, name) for name in names for kind in ("threads", "lifetimes", "unique")]
    story = Story(chain_text([(name, EXPLICIT) for name in names], parts=parted, call=1))
    fence = story.make("Fence")
    story.section("stream 2")
    reset = "b 2 vkResetFences %1.3 [" + ",".join([fence] * 1_024) + "] VK_SUCCESS : "
    for _ in range(2):
        call = reset.removeprefix("b 2 ").removesuffix(" VK_SUCCESS : ")
        story.call(call, thread=2, payload="a" * (LONGEST - len(reset)))
        story.call(f"vkResetFences %1.3 [{fence}]", thread=2)
    story.section("teardown")
    variables = {"VK_LOADER_LAYERS_ENABLE": "*"}
    yield story.case("the longest lines through 64 layers", ["run", "--root", root], variables)
    yield story.stream_case("the longest lines through 64 layers, in a stream", ["--root", root], variables)


def cases(room):
    yield from commands()
    yield from places(room)
    for buffers in (10, 1_000, 50_000):
        yield queues_among(buffers).case(f"queues among {buffers} buffers")
    for count in (1, 40, 2_000):
        yield queues(count).case(f"{count} queues by their payloads")
    for count in (1, 40, 3_000):
        yield sets(count).case(f"{count} sets and resets of a pool")
    for count, each in ((1, 1), (40, 3), (10, 1_000), (1_000, 10)):
        yield images(count, each).case(f"{count} swapchains of {each} images")
    for count in (1, 40, 10_000):
        yield from owners(count)
    for policy in ("fresh", "reuse", "share"):
        for count in (1, 20):
            what = f"{count} times 1,024 command buffers, {policy}"
            yield returned(count).case(what, [*RUN, "--driver", policy])
    yield from copies()
    yield from longest_chain(room)
