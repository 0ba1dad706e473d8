#!/usr/bin/env python3
"""traces.py KIND TURNS: writes a trace as a recorder might take it, of objects that generated traces don't touch. The same words always give the same bytes.

KIND is `threads` (sixteen threads beside each other, each with its own command pool and buffers), `frames` (command buffers, descriptor
sets and queues, a frame a turn) or `ownership` (swapchains with images, views and framebuffers, pools with sets, freed in another order
than born, and devices that end with all that they own)."""
import random
import sys


class Trace:
    """Lines of calls. A name of a thread is its next number."""

    def __init__(self, out):
        self.out = out
        self.names = {}
        out.write("vktrace 1\n")

    def begin(self, thread, command, args=(), results=0, code="VK_SUCCESS", payload=""):
        first = self.names.get(thread, 1)
        self.names[thread] = first + results
        made = [f"%{thread}.{first + k}" for k in range(results)]
        words = ["b", str(thread), command]
        words += [arg if isinstance(arg, str) else "[" + ",".join(arg) + "]" for arg in args]
        words += ["=", ",".join(made)] if made else []
        self.out.write(" ".join(words + [code]) + (f" : {payload}" if payload else "") + "\n")
        return made

    def end(self, thread):
        self.out.write(f"r {thread}\n")

    def call(self, command, args=(), results=0, code="VK_SUCCESS", payload="", thread=1):
        made = self.begin(thread, command, args, results, code, payload)
        self.end(thread)
        return made

    def void(self, command, *args):
        self.call(command, args, code="void")

    def machine(self):
        instance = self.call("vkCreateInstance", results=1)[0]
        physical = self.call("vkEnumeratePhysicalDevices", [instance], 1)[0]
        return instance, physical


def worker(trace, thread, device, pick):
    """The calls of one thread, each a step: it gives back control between a call's begin and its return."""

    def call(command, args=(), results=0, code="VK_SUCCESS"):
        made = trace.begin(thread, command, args, results, code)
        yield
        trace.end(thread)
        return made

    pool = (yield from call("vkCreateCommandPool", [device], 1))[0]
    commands = (yield from call("vkAllocateCommandBuffers", [device, pool], 2))
    while True:
        buffer = (yield from call("vkCreateBuffer", [device], 1))[0]
        memory = (yield from call("vkAllocateMemory", [device], 1))[0]
        yield from call("vkGetBufferMemoryRequirements", [device, buffer], code="void")
        yield from call("vkBindBufferMemory", [device, buffer, memory])
        for command_buffer in commands:
            yield from call("vkBeginCommandBuffer", [command_buffer])
            for _ in range(pick.randrange(8)):
                yield from call("vkCmdBindVertexBuffers", [command_buffer, [buffer]], code="void")
                yield from call("vkCmdDraw", [command_buffer], code="void")
            yield from call("vkEndCommandBuffer", [command_buffer])
        yield from call("vkDestroyBuffer", [device, buffer], code="void")
        yield from call("vkFreeMemory", [device, memory], code="void")


def threads(trace, turns, pick):
    _, physical = trace.machine()
    device = trace.call("vkCreateDevice", [physical], 1)[0]
    workers = {thread: worker(trace, thread, device, pick) for thread in range(2, 18)}
    begun = set()
    for _ in range(turns):
        thread = pick.randrange(2, 18)
        next(workers[thread])
        begun.add(thread)
    for thread in sorted(begun):
        trace.end(thread)


def frames(trace, turns, pick):
    instance, physical = trace.machine()
    device = trace.call("vkCreateDevice", [physical], 1)[0]
    queue = trace.call("vkGetDeviceQueue", [device], 1, "void", "0,0")[0]
    layout = trace.call("vkCreateDescriptorSetLayout", [device, []], 1)[0]
    pipeline_layout = trace.call("vkCreatePipelineLayout", [device, [layout]], 1)[0]
    module = trace.call("vkCreateShaderModule", [device], 1)[0]
    pipeline = trace.call("vkCreateComputePipelines", [device, "null", [module], [pipeline_layout]], 1)[0]
    buffers = [trace.call("vkCreateBuffer", [device], 1)[0] for _ in range(64)]
    pool = trace.call("vkCreateCommandPool", [device], 1)[0]
    sets = trace.call("vkCreateDescriptorPool", [device], 1)[0]
    fence = trace.call("vkCreateFence", [device], 1)[0]
    for _ in range(turns):
        made = trace.call("vkAllocateDescriptorSets", [device, sets, [layout] * 4], 4)
        for one in made:
            trace.void("vkUpdateDescriptorSets", device, [one], [], [], [pick.choice(buffers)], [])
        commands = trace.call("vkAllocateCommandBuffers", [device, pool], 2)
        for command_buffer in commands:
            trace.call("vkBeginCommandBuffer", [command_buffer])
            trace.void("vkCmdBindPipeline", command_buffer, pipeline)
            for one in made:
                trace.void("vkCmdBindDescriptorSets", command_buffer, pipeline_layout, [one])
                trace.void("vkCmdDispatch", command_buffer)
            trace.call("vkEndCommandBuffer", [command_buffer])
        trace.call("vkQueueSubmit", [queue, [], commands, [], fence])
        trace.call("vkWaitForFences", [device, [fence]])
        trace.call("vkResetFences", [device, [fence]])
        trace.void("vkFreeCommandBuffers", device, pool, commands)
        trace.call("vkResetDescriptorPool", [device, sets])
    trace.call("vkDeviceWaitIdle", [device])


def swapchain_of(trace, device, surface, render_pass):
    chain = trace.call("vkCreateSwapchainKHR", [device, surface, "null"], 1)[0]
    views = []
    for image in trace.call("vkGetSwapchainImagesKHR", [device, chain], 3):
        view = trace.call("vkCreateImageView", [device, image], 1)[0]
        views.append((view, trace.call("vkCreateFramebuffer", [device, render_pass, [view]], 1)[0]))
    return chain, views


def ownership(trace, turns, pick):
    instance, physical = trace.machine()
    surface = trace.call("vkCreateXcbSurfaceKHR", [instance], 1)[0]
    for turn in range(turns):
        device = trace.call("vkCreateDevice", [physical], 1)[0]
        render_pass = trace.call("vkCreateRenderPass", [device], 1)[0]
        for _ in range(4):
            chain, views = swapchain_of(trace, device, surface, render_pass)
            for view, framebuffer in views:
                trace.void("vkDestroyFramebuffer", device, framebuffer)
                trace.void("vkDestroyImageView", device, view)
            trace.void("vkDestroySwapchainKHR", device, chain)
        layout = trace.call("vkCreateDescriptorSetLayout", [device, []], 1)[0]
        pool = trace.call("vkCreateDescriptorPool", [device], 1)[0]
        for _ in range(4):
            made = trace.call("vkAllocateDescriptorSets", [device, pool, [layout] * 16], 16)
            pick.shuffle(made)
            trace.call("vkFreeDescriptorSets", [device, pool, made[:12]])
            trace.call("vkResetDescriptorPool", [device, pool])
        trace.void("vkDestroyDescriptorPool", device, pool)
        trace.void("vkDestroyDescriptorSetLayout", device, layout)
        trace.void("vkDestroyRenderPass", device, render_pass)
        trace.void("vkDestroyDevice", device)
    trace.void("vkDestroySurfaceKHR", instance, surface)
    trace.void("vkDestroyInstance", instance)


KINDS = {"threads": threads, "frames": frames, "ownership": ownership}
# About so many calls has a turn.
CALLS = {"threads": 1, "frames": 33, "ownership": 80}


def write(kind, turns, out):
    KINDS[kind](Trace(out), turns, random.Random(kind))


if __name__ == "__main__":
    if len(sys.argv) != 3 or sys.argv[1] not in KINDS or not sys.argv[2].isdigit():
        sys.exit(__doc__)
    write(sys.argv[1], int(sys.argv[2]), sys.stdout)
