"""Traces and their texts, as the parts of .ci/check-sizes share them. This imports nothing, since limits.py has to be
small."""

LONGEST = 65_536
DRIVER_LINE = "driver 1 /etc/vulkan/icd.d/a.json libvulkan_a.so\n"
BARE = "chain 1 ok layers=0 parts=0 drivers=1\n" + DRIVER_LINE
CHECKED = """chain 1 ok layers=1 parts=3 drivers=1
layer 1 VK_LAYER_KHRONOS_validation /usr/share/vulkan/explicit_layer.d/v.json
part 1 threads VK_LAYER_KHRONOS_validation
part 2 lifetimes VK_LAYER_KHRONOS_validation
part 3 unique VK_LAYER_KHRONOS_validation
""" + DRIVER_LINE
INSTANCE = "b 1 vkCreateInstance = %1.1 VK_SUCCESS"

# an instance, a physical device and a device, with the returns of their calls
DEVICE = INSTANCE + """
r 1
b 1 vkEnumeratePhysicalDevices %1.1 = %1.2 VK_SUCCESS
r 1
b 1 vkCreateDevice %1.2 = %1.3 VK_SUCCESS
r 1
"""
DEVICE_TEXT = """ret 1 vkCreateInstance VK_SUCCESS born=1
ret 2 vkEnumeratePhysicalDevices VK_SUCCESS born=1
ret 3 vkCreateDevice VK_SUCCESS born=1
"""
START = "vktrace 1\n" + DEVICE
WAIT = "b 1 vkDeviceWaitIdle %1.3 VK_SUCCESS\nr 1\n"


def end(calls, skipped=0, reports=0):
    return f"end calls={calls} skipped={skipped} reports={reports}\n"


def waited(first, count):
    """The returns of so many waits, of which the first is the call of this number."""
    return "".join(f"ret {call} vkDeviceWaitIdle VK_SUCCESS\n" for call in range(first, first + count))


def turns(number, calls):
    """What a generated trace does behind its start: a generator of numbers tells whether a buffer is made, asked about
    or destroyed, and at the end those that are left are destroyed. Gives the command and the buffer's number."""
    living, name, x = [], 4, number
    for _ in range(calls):
        x = (x * 6364136223846793005 + 1442695040888963407) % 2**64
        drawn = x >> 33
        if not living or drawn % 3 == 0:
            yield "vkCreateBuffer", name
            living.append(name)
            name += 1
            continue
        place = drawn // 3 % len(living)
        if drawn % 3 == 1:
            yield "vkGetBufferMemoryRequirements", living[place]
        else:
            yield "vkDestroyBuffer", living.pop(place)
    for name in living:
        yield "vkDestroyBuffer", name


def calls_of(number, calls):
    """How many calls a generated trace has: three at its start and two at its end."""
    return 5 + sum(1 for _ in turns(number, calls))


def generated(number, calls):
    """The generated trace."""
    lines = [START]
    for command, name in turns(number, calls):
        if command == "vkCreateBuffer":
            lines.append(f"b 1 vkCreateBuffer %1.3 = %1.{name} VK_SUCCESS\nr 1\n")
        else:
            lines.append(f"b 1 {command} %1.3 %1.{name} void\nr 1\n")
    return "".join(lines) + "b 1 vkDestroyDevice %1.3 void\nr 1\nb 1 vkDestroyInstance %1.1 void\nr 1\n"
