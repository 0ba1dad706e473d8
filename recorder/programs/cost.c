// cost [CALLS]: records so many vkCmdBindIndexBuffer, two million where no number is given, into command buffers of a
// thousand, and prints the processor time of a call in nanoseconds.
#define _GNU_SOURCE
#include <stdio.h>
#include <stdlib.h>
#include <time.h>
#include <vulkan/vulkan.h>

enum { calls_of_buffer = 1000 };

static VkInstance instance;
static VkPhysicalDevice physical_device;
static VkDevice device;

static void must(VkResult result) {
    if (result == VK_SUCCESS) return;
    fprintf(stderr, "cost: a call answered %d\n", result);
    exit(1);
}

static double seconds(void) {
    struct timespec now;
    clock_gettime(CLOCK_PROCESS_CPUTIME_ID, &now);
    return (double)now.tv_sec + (double)now.tv_nsec * 1e-9;
}

static void setup(void) {
    VkInstanceCreateInfo instance_info = {.sType = VK_STRUCTURE_TYPE_INSTANCE_CREATE_INFO};
    must(vkCreateInstance(&instance_info, NULL, &instance));
    uint32_t count = 1;
    vkEnumeratePhysicalDevices(instance, &count, &physical_device);
    float priority = 1;
    VkDeviceQueueCreateInfo queue_info = {VK_STRUCTURE_TYPE_DEVICE_QUEUE_CREATE_INFO, NULL, 0, 0, 1, &priority};
    VkDeviceCreateInfo info = {
        .sType = VK_STRUCTURE_TYPE_DEVICE_CREATE_INFO, .queueCreateInfoCount = 1, .pQueueCreateInfos = &queue_info};
    must(vkCreateDevice(physical_device, &info, NULL, &device));
}

static VkBuffer make_buffer(VkDeviceMemory *memory) {
    VkBufferCreateInfo info = {
        .sType = VK_STRUCTURE_TYPE_BUFFER_CREATE_INFO, .size = 256, .usage = VK_BUFFER_USAGE_INDEX_BUFFER_BIT};
    VkBuffer buffer;
    must(vkCreateBuffer(device, &info, NULL, &buffer));
    VkMemoryRequirements needs;
    vkGetBufferMemoryRequirements(device, buffer, &needs);
    VkMemoryAllocateInfo memory_info = {VK_STRUCTURE_TYPE_MEMORY_ALLOCATE_INFO, NULL, needs.size, 0};
    must(vkAllocateMemory(device, &memory_info, NULL, memory));
    must(vkBindBufferMemory(device, buffer, *memory, 0));
    return buffer;
}

int main(int count, char **words) {
    const long calls = count > 1 ? atol(words[1]) : 2000000;
    setup();
    VkDeviceMemory memory;
    VkBuffer buffer = make_buffer(&memory);
    VkCommandPoolCreateInfo pool_info = {.sType = VK_STRUCTURE_TYPE_COMMAND_POOL_CREATE_INFO,
                                         .flags = VK_COMMAND_POOL_CREATE_RESET_COMMAND_BUFFER_BIT};
    VkCommandPool pool;
    must(vkCreateCommandPool(device, &pool_info, NULL, &pool));
    VkCommandBufferAllocateInfo allocate = {VK_STRUCTURE_TYPE_COMMAND_BUFFER_ALLOCATE_INFO, NULL, pool,
                                            VK_COMMAND_BUFFER_LEVEL_PRIMARY, 1};
    VkCommandBuffer commands;
    must(vkAllocateCommandBuffers(device, &allocate, &commands));
    VkCommandBufferBeginInfo begin = {.sType = VK_STRUCTURE_TYPE_COMMAND_BUFFER_BEGIN_INFO};
    const double before = seconds();
    for (long done = 0; done < calls; done += calls_of_buffer) {
        must(vkBeginCommandBuffer(commands, &begin));
        for (int i = 0; i < calls_of_buffer; i++) vkCmdBindIndexBuffer(commands, buffer, 0, VK_INDEX_TYPE_UINT16);
        must(vkEndCommandBuffer(commands));
    }
    printf("%.1f\n", (seconds() - before) / (double)calls * 1e9);
    vkDestroyCommandPool(device, pool, NULL);
    vkDestroyBuffer(device, buffer, NULL);
    vkFreeMemory(device, memory, NULL);
    vkDestroyDevice(device, NULL);
    vkDestroyInstance(instance, NULL);
    return 0;
}
