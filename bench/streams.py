#!/usr/bin/env python3
"""streams.py [FOLDER]: writes the stored stream files, each NAME.streams, into examples/streams or another folder.

A file has the events of its setup, of each of its streams and of its teardown. Each function below makes one, and its first line says what
it is for; the same run makes the same files, byte for byte. `.ci/check-streams` replays them, and `bench/merges.py` one of them many times."""
import pathlib, sys

TOP = pathlib.Path(__file__).resolve().parent.parent
# commands that answer nothing, beside those whose names begin with vkCmd or vkDestroy
ANSWERLESS = {
    "vkFreeCommandBuffers", "vkFreeMemory", "vkGetBufferMemoryRequirements", "vkGetDeviceQueue", "vkGetImageMemoryRequirements",
    "vkGetPhysicalDeviceFeatures", "vkGetPhysicalDeviceMemoryProperties", "vkGetPhysicalDeviceProperties",
    "vkGetPhysicalDeviceQueueFamilyProperties", "vkUnmapMemory", "vkUpdateDescriptorSets",
}


def answerless(command):
    return command.startswith(("vkCmd", "vkDestroy")) or command in ANSWERLESS


def spelled(arg):
    """An argument as a line has it: a name, None for null, or a list of these."""
    if isinstance(arg, list):
        return "[" + ",".join(spelled(one) for one in arg) + "]"
    return arg or "null"


class File:
    """The lines of a stream file so far."""

    def __init__(self):
        self.lines = ["vkstreams 1", "setup"]
        self.named = {}

    def section(self, heading):
        self.lines.append(heading)

    def begin(self, thread, command, *args, results=0, code=None, payload=""):
        """A call's begin. Gives the names of its results."""
        before = self.named.get(thread, 0)
        names = [f"%{thread}.{before + k}" for k in range(1, results + 1)]
        self.named[thread] = before + results
        words = ["b", str(thread), command, *map(spelled, args)]
        words += ["=", ",".join(names)] if names else []
        words.append(code or ("void" if answerless(command) else "VK_SUCCESS"))
        words += [":", payload] if payload else []
        self.lines.append(" ".join(words))
        return names

    def end(self, thread):
        self.lines.append(f"r {thread}")

    def call(self, thread, command, *args, **more):
        names = self.begin(thread, command, *args, **more)
        self.end(thread)
        return names

    def one(self, thread, command, *args, **more):
        """A call with one result, whose name it gives."""
        return self.call(thread, command, *args, results=1, **more)[0]

    def machine(self, devices=1, physical=1):
        """An instance, its physical devices, and devices of the first, all made by thread 1."""
        instance = self.one(1, "vkCreateInstance")
        found = self.call(1, "vkEnumeratePhysicalDevices", instance, results=physical)
        return instance, found, [self.one(1, "vkCreateDevice", found[0]) for _ in range(devices)]

    def leave(self, instance, devices, thread=1):
        for device in devices:
            self.call(thread, "vkDestroyDevice", device)
        self.call(thread, "vkDestroyInstance", instance)


def nothing(f):
    """No event at all, and no stream."""
    f.section("teardown")


def idle(f):
    """Streams without a call, beside one that makes some."""
    instance, _, [device] = f.machine()
    f.section("stream 4")
    f.section("stream 2")
    event = f.one(2, "vkCreateEvent", device)
    f.call(2, "vkSetEvent", device, event)
    f.call(2, "vkGetEventStatus", device, event, code="VK_EVENT_SET")
    f.section("stream 3")
    f.section("teardown")
    f.call(1, "vkDestroyEvent", device, event)
    f.leave(instance, [device])


def one_stream(f):
    """One stream, so there is one merge: a buffer with its memory."""
    instance, _, [device] = f.machine()
    f.section("stream 1")
    buffer = f.one(1, "vkCreateBuffer", device)
    f.call(1, "vkGetBufferMemoryRequirements", device, buffer)
    memory = f.one(1, "vkAllocateMemory", device)
    f.call(1, "vkBindBufferMemory", device, buffer, memory)
    f.call(1, "vkMapMemory", device, memory)
    f.call(1, "vkFlushMappedMemoryRanges", device, [memory, memory])
    f.call(1, "vkUnmapMemory", device, memory)
    view = f.one(1, "vkCreateBufferView", device, buffer)
    f.call(1, "vkDestroyBufferView", device, view)
    f.call(1, "vkDestroyBuffer", device, buffer)
    f.call(1, "vkFreeMemory", device, memory)
    f.section("teardown")
    f.leave(instance, [device])


def pair(f):
    """Two streams that submit to one queue: a report stands where both calls are open at once."""
    instance, _, [device] = f.machine()
    queue = f.one(1, "vkGetDeviceQueue", device, payload="0,0")
    f.section("stream 1")
    fence = f.one(1, "vkCreateFence", device)
    f.call(1, "vkQueueSubmit", queue, [], [], [], fence)
    f.section("stream 2")
    f.call(2, "vkQueueSubmit", queue, [], [], [], None)
    f.section("teardown")
    f.call(1, "vkDestroyFence", device, fence)
    f.leave(instance, [device])


def two_devices(f):
    """Two devices, a stream on each and one on both."""
    instance, _, devices = f.machine(devices=2)
    for thread, device in enumerate(devices, 1):
        f.section(f"stream {thread}")
        f.call(thread, "vkDeviceWaitIdle", device)
        image = f.one(thread, "vkCreateImage", device)
        view = f.one(thread, "vkCreateImageView", device, image)
        f.call(thread, "vkDestroyImageView", device, view)
        f.call(thread, "vkDestroyImage", device, image)
    f.section("stream 3")
    for device in devices * 2:
        queue = f.one(3, "vkGetDeviceQueue", device, payload="0,0")
        f.call(3, "vkQueueWaitIdle", queue)
    f.section("teardown")
    f.leave(instance, devices)


def used_after_destroy(f):
    """Streams that use what they have destroyed: the lifetimes part skips these calls, in every order."""
    instance, _, [device] = f.machine()
    for thread in (1, 2):
        f.section(f"stream {thread}")
        buffer = f.one(thread, "vkCreateBuffer", device)
        f.call(thread, "vkDestroyBuffer", device, buffer)
        f.call(thread, "vkGetBufferMemoryRequirements", device, buffer)
        f.call(thread, "vkDestroyBuffer", device, buffer)
        pool = f.one(thread, "vkCreateCommandPool", device)
        [commands] = f.call(thread, "vkAllocateCommandBuffers", device, pool, results=1)
        f.call(thread, "vkDestroyCommandPool", device, pool)
        f.call(thread, "vkBeginCommandBuffer", commands)
        lost = f.call(thread, "vkAllocateCommandBuffers", device, pool, results=2)
        f.call(thread, "vkEndCommandBuffer", lost[1])
    f.section("teardown")
    f.leave(instance, [device])


def overlaps(f):
    """Three streams on one queue, of which there are two names, and one that waits for all queues: a report stands where calls overlap."""
    instance, _, [device] = f.machine()
    first = f.one(1, "vkGetDeviceQueue", device, payload="0,0")
    second = f.one(1, "vkGetDeviceQueue", device, payload="0,0")
    for thread, queue in ((1, first), (2, second), (3, first)):
        f.section(f"stream {thread}")
        for _ in range(3):
            f.call(thread, "vkQueueSubmit", queue, [], [], [], None)
        f.call(thread, "vkQueueWaitIdle", queue)
    f.section("stream 4")
    for _ in range(3):
        f.call(4, "vkDeviceWaitIdle", device)
    f.section("teardown")
    f.leave(instance, [device])


def raced_destroy(f):
    """What the setup made, one stream destroys while others use it: which calls are skipped depends on the order."""
    instance, _, [device] = f.machine()
    buffers = [f.one(1, "vkCreateBuffer", device) for _ in range(3)]
    for thread in (2, 3, 4):
        f.section(f"stream {thread}")
        for buffer in buffers:
            f.call(thread, "vkGetBufferMemoryRequirements", device, buffer)
        f.call(thread, "vkDestroyBuffer", device, buffers[thread - 2])
        for buffer in reversed(buffers):
            f.call(thread, "vkGetBufferMemoryRequirements", device, buffer)
    f.section("teardown")
    for buffer in buffers:
        f.call(1, "vkDestroyBuffer", device, buffer)
    f.leave(instance, [device])


def children(f):
    """Streams leave objects alive, so a device and the instance can't be destroyed under the validation layer."""
    instance, _, devices = f.machine(devices=2)
    f.section("stream 1")
    image = f.one(1, "vkCreateImage", devices[0])
    view = f.one(1, "vkCreateImageView", devices[0], image)
    f.section("stream 2")
    pool = f.one(2, "vkCreateCommandPool", devices[0])
    f.call(2, "vkAllocateCommandBuffers", devices[0], pool, results=3)
    f.section("stream 3")
    buffer = f.one(3, "vkCreateBuffer", devices[1])
    f.call(3, "vkDestroyBuffer", devices[1], buffer)
    f.section("teardown")
    f.call(1, "vkDestroyDevice", devices[1])
    f.call(1, "vkDestroyDevice", devices[0])
    f.call(2, "vkDestroyCommandPool", devices[0], pool)
    f.call(1, "vkDestroyImageView", devices[0], view)
    f.call(1, "vkDestroyDevice", devices[0])
    f.call(1, "vkDestroyInstance", instance)
    f.call(1, "vkDestroyImage", devices[0], image)
    f.leave(instance, [devices[0]])


def other_driver(f):
    """A device of each of two drivers. On a machine with one driver the second isn't there, and the calls on it are reported and skipped."""
    instance, physical, [device] = f.machine(physical=2)
    other = f.one(1, "vkCreateDevice", physical[1])
    for thread, own in ((1, device), (2, other)):
        f.section(f"stream {thread}")
        fence = f.one(thread, "vkCreateFence", own)
        queue = f.one(thread, "vkGetDeviceQueue", own, payload="0,0")
        f.call(thread, "vkQueueSubmit", queue, [], [], [], fence)
        f.call(thread, "vkWaitForFences", own, [fence])
        f.call(thread, "vkDestroyFence", own, fence)
    f.section("stream 3")
    for own in (device, other, device):
        f.call(3, "vkDeviceWaitIdle", own)
    f.section("teardown")
    f.leave(instance, [device, other])


def nulls(f):
    """Null arguments: where the command allows them, and where it doesn't."""
    instance, _, [device] = f.machine()
    queue = f.one(1, "vkGetDeviceQueue", device, payload="0,0")
    f.section("stream 1")
    f.call(1, "vkDestroyBuffer", device, None)
    f.call(1, "vkFreeMemory", device, None)
    f.call(1, "vkQueueSubmit", queue, [], [], [], None)
    pool = f.one(1, "vkCreateCommandPool", device)
    [commands] = f.call(1, "vkAllocateCommandBuffers", device, pool, results=1)
    f.call(1, "vkCmdBindVertexBuffers", commands, [None, None])
    f.call(1, "vkFreeCommandBuffers", device, pool, [None, commands, None])
    f.call(1, "vkDestroyCommandPool", device, pool)
    f.section("stream 2")
    module = f.one(2, "vkCreateShaderModule", device)
    [layout] = f.call(2, "vkCreatePipelineLayout", device, [None], results=1)
    made = f.call(2, "vkCreateGraphicsPipelines", device, None, [module, module], [layout, None], [None], results=2)
    f.call(2, "vkBindBufferMemory", device, None, None)
    [lost] = f.call(2, "vkAllocateCommandBuffers", device, None, results=1)
    for gone in (made[0], None, made[1]):
        f.call(2, "vkDestroyPipeline", device, gone)
    f.call(2, "vkDestroyPipelineLayout", device, layout)
    f.call(2, "vkDestroyShaderModule", device, module)
    f.section("teardown")
    f.call(2, "vkCmdDispatch", lost)
    f.call(1, "vkUpdateDescriptorSets", device, [], [None], [None], [None], [None])
    f.leave(instance, [device])


def sixteen_devices(f):
    """As many devices as streams may name: a stream on each, and one on all."""
    instance, _, devices = f.machine(devices=16)
    for thread, device in enumerate(devices, 1):
        f.section(f"stream {thread}")
        fence = f.one(thread, "vkCreateFence", device)
        f.call(thread, "vkResetFences", device, [fence])
        f.call(thread, "vkGetFenceStatus", device, fence, code="VK_NOT_READY")
        f.call(thread, "vkDestroyFence", device, fence)
    f.section("stream 17")
    for device in devices:
        f.call(17, "vkDeviceWaitIdle", device)
    f.section("teardown")
    f.leave(instance, devices)


def sixty_four_streams(f):
    """As many streams as there may be, four on each of sixteen devices; they stand from the greatest thread down."""
    instance, _, devices = f.machine(devices=16)
    for thread in range(64, 0, -1):
        device = devices[thread % 16]
        f.section(f"stream {thread}")
        event = f.one(thread, "vkCreateEvent", device)
        f.call(thread, "vkSetEvent", device, event)
        f.call(thread, "vkDestroyEvent", device, event)
    f.section("teardown")
    f.leave(instance, devices)


def shared(f):
    """Eight streams on one device with two queues, of which there are three names, and two command pools between them."""
    instance, _, [device] = f.machine()
    queues = [f.one(1, "vkGetDeviceQueue", device, payload=key) for key in ("0,0", "0,0", "0,1")]
    pools = [f.one(1, "vkCreateCommandPool", device) for _ in range(2)]
    own = [f.call(1, "vkAllocateCommandBuffers", device, pools[k % 2], results=1)[0] for k in range(8)]
    fence = f.one(1, "vkCreateFence", device)
    for thread in range(1, 9):
        pool, queue, commands = pools[(thread - 1) % 2], queues[thread % 3], own[thread - 1]
        f.section(f"stream {thread}")
        f.call(thread, "vkBeginCommandBuffer", commands)
        f.call(thread, "vkCmdDispatch", commands)
        f.call(thread, "vkEndCommandBuffer", commands)
        f.call(thread, "vkQueueSubmit", queue, [], [commands], [], None)
        more = f.call(thread, "vkAllocateCommandBuffers", device, pool, results=2)
        f.call(thread, "vkBeginCommandBuffer", more[1])
        f.call(thread, "vkQueueSubmit", queues[(thread + 1) % 3], [], [], [], fence if thread % 4 == 0 else None)
        f.call(thread, "vkFreeCommandBuffers", device, pool, more)
        f.call(thread, "vkQueueWaitIdle", queue)
    f.section("teardown")
    for pool in pools:
        f.call(1, "vkDestroyCommandPool", device, pool)
    f.call(1, "vkDestroyFence", device, fence)
    f.leave(instance, [device])


def descriptor_sets(f):
    """Streams that allocate, write, free and reset the sets of one descriptor pool."""
    instance, _, [device] = f.machine()
    sampler = f.one(1, "vkCreateSampler", device)
    layout = f.one(1, "vkCreateDescriptorSetLayout", device, [sampler])
    buffer = f.one(1, "vkCreateBuffer", device)
    pool = f.one(1, "vkCreateDescriptorPool", device)
    sets = f.call(1, "vkAllocateDescriptorSets", device, pool, [layout, layout], results=2)
    for thread in (1, 2):
        f.section(f"stream {thread}")
        more = f.call(thread, "vkAllocateDescriptorSets", device, pool, [layout], results=2)
        f.call(thread, "vkUpdateDescriptorSets", device, [more[0], sets[thread - 1]], [sampler, None], [None], [buffer], [])
        f.call(thread, "vkFreeDescriptorSets", device, pool, [more[1], None])
        f.call(thread, "vkUpdateDescriptorSets", device, [more[1]], [sampler], [], [], [])
    f.section("stream 3")
    f.call(3, "vkUpdateDescriptorSets", device, sets, [None], [], [buffer, buffer], [])
    f.call(3, "vkResetDescriptorPool", device, pool)
    f.call(3, "vkUpdateDescriptorSets", device, sets, [], [], [], [])
    f.section("teardown")
    f.call(1, "vkDestroyDescriptorPool", device, pool)
    f.call(1, "vkDestroyBuffer", device, buffer)
    f.call(1, "vkDestroyDescriptorSetLayout", device, layout)
    f.call(1, "vkDestroySampler", device, sampler)
    f.leave(instance, [device])


def swapchain(f):
    """A swapchain of the setup: one stream acquires and presents, others look at its images."""
    instance, physical, [device] = f.machine()
    surface = f.one(1, "vkCreateXcbSurfaceKHR", instance)
    f.call(1, "vkGetPhysicalDeviceSurfaceSupportKHR", physical[0], surface)
    chain = f.one(1, "vkCreateSwapchainKHR", device, surface, None)
    queue = f.one(1, "vkGetDeviceQueue", device, payload="0,0")
    ready = f.one(1, "vkCreateSemaphore", device)
    images = f.call(1, "vkGetSwapchainImagesKHR", device, chain, results=2)
    f.section("stream 1")
    for code in ("VK_SUCCESS", "VK_SUBOPTIMAL_KHR"):
        f.call(1, "vkAcquireNextImageKHR", device, chain, ready, None)
        f.call(1, "vkQueuePresentKHR", queue, [ready], [chain], code=code)
    f.section("stream 2")
    for image in images:
        view = f.one(2, "vkCreateImageView", device, image)
        f.call(2, "vkDestroyImageView", device, view)
    f.call(2, "vkDestroyImage", device, images[0])
    f.section("stream 3")
    own = f.call(3, "vkGetSwapchainImagesKHR", device, chain, results=3, code="VK_INCOMPLETE")
    for image in own:
        f.call(3, "vkGetImageMemoryRequirements", device, image)
    f.call(3, "vkAcquireNextImageKHR", device, chain, None, None, code="VK_TIMEOUT")
    f.section("teardown")
    f.call(1, "vkDestroySwapchainKHR", device, chain)
    f.call(3, "vkGetImageMemoryRequirements", device, own[2])
    f.call(1, "vkDestroySemaphore", device, ready)
    f.call(1, "vkDestroyDevice", device)
    f.call(1, "vkDestroySurfaceKHR", instance, surface)
    f.call(1, "vkDestroyInstance", instance)


def setup_threads(f):
    """Setup and teardown of several threads whose calls overlap; the greatest thread that there may be has a stream."""
    instance, _, [device] = f.machine()
    queue = f.one(1024, "vkGetDeviceQueue", device, payload="0,0")
    f.begin(7, "vkQueueSubmit", queue, [], [], [], None)
    f.begin(1024, "vkQueueSubmit", queue, [], [], [], None)
    [fence] = f.begin(1, "vkCreateFence", device, results=1)
    f.end(7)
    f.end(1)
    f.end(1024)
    f.section("stream 1024")
    f.call(1024, "vkResetFences", device, [fence])
    f.call(1024, "vkQueueSubmit", queue, [], [], [], fence)
    f.section("stream 7")
    f.call(7, "vkGetFenceStatus", device, fence)
    f.call(7, "vkWaitForFences", device, [fence, fence])
    f.section("stream 2")
    semaphore = f.one(2, "vkCreateSemaphore", device)
    f.section("teardown")
    f.begin(7, "vkDestroyFence", device, fence)
    f.begin(2, "vkDestroySemaphore", device, semaphore)
    f.begin(1024, "vkGetFenceStatus", device, fence)
    f.end(2)
    f.end(1024)
    f.end(7)
    f.leave(instance, [device], thread=7)


def unborn_device(f):
    """A device whose creation failed: the loader reports and skips each call on it, and what stands on another device goes on."""
    instance, physical, [device] = f.machine()
    failed = f.one(1, "vkCreateDevice", physical[0], code="VK_ERROR_INITIALIZATION_FAILED")
    f.section("stream 1")
    buffer = f.one(1, "vkCreateBuffer", failed)
    f.call(1, "vkGetBufferMemoryRequirements", failed, buffer)
    f.section("stream 2")
    image = f.one(2, "vkCreateImage", device)
    f.call(2, "vkDeviceWaitIdle", failed)
    f.call(2, "vkDestroyImage", device, image)
    f.section("teardown")
    f.leave(instance, [failed, device])


def codes(f):
    """Calls that answer errors, calls without results, and payloads of every visible byte."""
    instance, _, [device] = f.machine()
    f.section("stream 1")
    lost = f.one(1, "vkCreateBuffer", device, code="VK_ERROR_OUT_OF_DEVICE_MEMORY")
    f.call(1, "vkGetBufferMemoryRequirements", device, lost)
    pool = f.one(1, "vkCreateCommandPool", device, payload="flags=2 : index=0")
    f.call(1, "vkAllocateCommandBuffers", device, pool)
    f.call(1, "vkAllocateCommandBuffers", device, pool, results=2, code="VK_ERROR_OUT_OF_HOST_MEMORY")
    f.call(1, "vkResetCommandPool", device, pool, code="VK_ERROR_OUT_OF_DEVICE_MEMORY")
    f.call(1, "vkDestroyCommandPool", device, pool)
    f.section("stream 2")
    every = "".join(map(chr, range(0x20, 0x7F)))
    memory = f.one(2, "vkAllocateMemory", device, payload=every)
    f.call(2, "vkMapMemory", device, memory, code="VK_ERROR_MEMORY_MAP_FAILED", payload="offset=0")
    f.call(2, "vkFreeMemory", device, memory, payload="r 2")
    f.call(2, "vkDeviceWaitIdle", device, code="VK_ERROR_DEVICE_LOST")
    f.section("teardown")
    f.leave(instance, [device])


def long(f):
    """Six streams with seventy drawn calls each, two on each of three devices."""
    instance, _, devices = f.machine(devices=3)
    drawn = 7
    for thread in range(1, 7):
        device, living = devices[thread % 3], []
        f.section(f"stream {thread}")
        for _ in range(70):
            drawn = (drawn * 6364136223846793005 + 1442695040888963407) % 2**64
            turn, place = (drawn >> 33) % 4, (drawn >> 40) % max(len(living), 1)
            if turn == 0 or not living:
                living.append(f.one(thread, "vkCreateFence", device))
            elif turn == 1:
                f.call(thread, "vkDestroyFence", device, living.pop(place))
            elif turn == 2:
                f.call(thread, "vkResetFences", device, living[place:])
            else:
                f.call(thread, "vkGetFenceStatus", device, living[place], code="VK_NOT_READY")
        for fence in living:
            f.call(thread, "vkDestroyFence", device, fence)
    f.section("teardown")
    f.leave(instance, devices)


FILES = [
    nothing, idle, one_stream, pair, two_devices, used_after_destroy, overlaps, raced_destroy, children, other_driver, nulls, sixteen_devices,
    sixty_four_streams, shared, descriptor_sets, swapchain, setup_threads, unborn_device, codes, long,
]


def text_of(make):
    """The text of one of the files."""
    f = File()
    make(f)
    return "".join(line + "\n" for line in f.lines)


def main():
    if len(sys.argv) > 2:
        sys.exit(__doc__)
    folder = pathlib.Path(sys.argv[1]) if len(sys.argv) == 2 else TOP / "examples/streams"
    folder.mkdir(parents=True, exist_ok=True)
    for make in FILES:
        (folder / f"{make.__name__}.streams").write_text(text_of(make))


if __name__ == "__main__":
    main()
