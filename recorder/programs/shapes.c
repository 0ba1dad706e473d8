// Programs about the shape of what is recorded: several instances, long lists, newer commands, names, failures and
// ends.
#include "base.h"

#include <signal.h>
#include <stddef.h>
#include <stdlib.h>
#include <string.h>

//! two_instances: ours nothing; layer nothing; traces 2
static void two_instances(void) {
    setup();
    VkBuffer buffer = make_buffer();
    struct Machine first = machine;
    VkInstanceCreateInfo info = {.sType = VK_STRUCTURE_TYPE_INSTANCE_CREATE_INFO};
    vkCreateInstance(&info, NULL, &machine.instance);
    uint32_t count = 1;
    vkEnumeratePhysicalDevices(machine.instance, &count, &machine.physical_device);
    VkPhysicalDeviceProperties properties;
    vkGetPhysicalDeviceProperties(machine.physical_device, &properties);
    vkDestroyInstance(machine.instance, NULL);
    machine = first;
    vkDestroyBuffer(machine.device, buffer, NULL);
    teardown();
}

//! long_lists: ours nothing; layer nothing
static void long_lists(void) {
    enum { sets = 2000, writes = 3000 };
    static VkDescriptorSetLayout layouts[sets];
    static VkDescriptorSet all[sets];
    static VkWriteDescriptorSet infos[writes];
    setup();
    VkBuffer buffer = make_buffer();
    VkDeviceMemory memory = bind_buffer(buffer);
    VkDescriptorSetLayout layout = make_set_layout(1);
    VkDescriptorPool pool = make_descriptor_pool();
    for (int i = 0; i < sets; i++) layouts[i] = layout;
    VkDescriptorSetAllocateInfo info = {VK_STRUCTURE_TYPE_DESCRIPTOR_SET_ALLOCATE_INFO, NULL, pool, sets, layouts};
    vkAllocateDescriptorSets(machine.device, &info, all);
    VkDescriptorBufferInfo what = {buffer, 0, VK_WHOLE_SIZE};
    for (int i = 0; i < writes; i++) {
        infos[i] = (VkWriteDescriptorSet){.sType = VK_STRUCTURE_TYPE_WRITE_DESCRIPTOR_SET,
                                          .dstSet = all[i % sets],
                                          .descriptorCount = 1,
                                          .descriptorType = VK_DESCRIPTOR_TYPE_STORAGE_BUFFER,
                                          .pBufferInfo = &what};
    }
    vkUpdateDescriptorSets(machine.device, writes, infos, 0, NULL);
    vkFreeDescriptorSets(machine.device, pool, sets, all);
    vkDestroyDescriptorPool(machine.device, pool, NULL);
    vkDestroyDescriptorSetLayout(machine.device, layout, NULL);
    vkDestroyBuffer(machine.device, buffer, NULL);
    vkFreeMemory(machine.device, memory, NULL);
    teardown();
}

//! newer_commands: ours nothing; layer nothing
static void newer_commands(void) {
    setup();
    VkBuffer buffers[2] = {make_buffer(), make_buffer()};
    VkBufferMemoryRequirementsInfo2 which = {VK_STRUCTURE_TYPE_BUFFER_MEMORY_REQUIREMENTS_INFO_2, NULL, buffers[0]};
    VkMemoryRequirements2 needs = {.sType = VK_STRUCTURE_TYPE_MEMORY_REQUIREMENTS_2};
    vkGetBufferMemoryRequirements2(machine.device, &which, &needs);
    which.buffer = buffers[1];
    vkGetBufferMemoryRequirements2(machine.device, &which, &needs);
    VkDeviceMemory memory = make_memory(4096);
    VkBindBufferMemoryInfo pairs[2] = {{VK_STRUCTURE_TYPE_BIND_BUFFER_MEMORY_INFO, NULL, buffers[0], memory, 0},
                                       {VK_STRUCTURE_TYPE_BIND_BUFFER_MEMORY_INFO, NULL, buffers[1], memory, 1024}};
    vkBindBufferMemory2(machine.device, 2, pairs);
    VkQueue queue;
    VkDeviceQueueInfo2 info = {.sType = VK_STRUCTURE_TYPE_DEVICE_QUEUE_INFO_2};
    vkGetDeviceQueue2(machine.device, &info, &queue);
    VkSubmitInfo2 empty = {.sType = VK_STRUCTURE_TYPE_SUBMIT_INFO_2};
    vkQueueSubmit2(queue, 1, &empty, VK_NULL_HANDLE);
    vkQueueWaitIdle(machine.queue);
    vkDestroyBuffer(machine.device, buffers[0], NULL);
    vkDestroyBuffer(machine.device, buffers[1], NULL);
    vkFreeMemory(machine.device, memory, NULL);
    teardown();
}

//! newer_dead_buffer: ours VUID-vkGetBufferMemoryRequirements-buffer-parameter*1; layer
//!    VUID-VkBufferMemoryRequirementsInfo2-buffer-parameter
static void newer_dead_buffer(void) {
    setup();
    VkBuffer buffer = make_buffer();
    vkDestroyBuffer(machine.device, buffer, NULL);
    VkBufferMemoryRequirementsInfo2 which = {VK_STRUCTURE_TYPE_BUFFER_MEMORY_REQUIREMENTS_INFO_2, NULL, buffer};
    VkMemoryRequirements2 needs = {.sType = VK_STRUCTURE_TYPE_MEMORY_REQUIREMENTS_2};
    vkGetBufferMemoryRequirements2(machine.device, &which, &needs);
    teardown();
}

//! newer_freed_memory: ours VUID-vkBindBufferMemory-memory-parameter*2; layer
//!    VUID-VkBindBufferMemoryInfo-memory-parameter
static void newer_freed_memory(void) {
    setup();
    VkBuffer buffers[2] = {make_buffer(), make_buffer()};
    VkDeviceMemory memory = make_memory(4096);
    vkFreeMemory(machine.device, memory, NULL);
    VkBindBufferMemoryInfo pairs[2] = {{VK_STRUCTURE_TYPE_BIND_BUFFER_MEMORY_INFO, NULL, buffers[0], memory, 0},
                                       {VK_STRUCTURE_TYPE_BIND_BUFFER_MEMORY_INFO, NULL, buffers[1], memory, 1024}};
    vkBindBufferMemory2(machine.device, 2, pairs);
    vkDestroyBuffer(machine.device, buffers[0], NULL);
    vkDestroyBuffer(machine.device, buffers[1], NULL);
    teardown();
}

//! physical_device_groups: ours nothing; layer nothing
static void physical_device_groups(void) {
    setup();
    VkPhysicalDeviceGroupProperties groups[4];
    for (int i = 0; i < 4; i++)
        groups[i] = (VkPhysicalDeviceGroupProperties){.sType = VK_STRUCTURE_TYPE_PHYSICAL_DEVICE_GROUP_PROPERTIES};
    uint32_t count = 4;
    vkEnumeratePhysicalDeviceGroups(machine.instance, &count, groups);
    machine.physical_device = groups[0].physicalDevices[0];
    vkDestroyDevice(make_device(), NULL);
    teardown();
}

static void name_buffer(VkBuffer buffer, const char *name) {
    PFN_vkSetDebugUtilsObjectNameEXT set_name =
        (PFN_vkSetDebugUtilsObjectNameEXT)vkGetInstanceProcAddr(machine.instance, "vkSetDebugUtilsObjectNameEXT");
    VkDebugUtilsObjectNameInfoEXT info = {VK_STRUCTURE_TYPE_DEBUG_UTILS_OBJECT_NAME_INFO_EXT, NULL,
                                          VK_OBJECT_TYPE_BUFFER, (uint64_t)buffer, name};
    set_name(machine.device, &info);
}

//! labels: ours VUID-vkDestroyBuffer-buffer-parameter*1; layer VUID-vkDestroyBuffer-buffer-parameter; labels 2
static void labels(void) {
    setup();
    VkBuffer vertices = make_buffer();
    VkBuffer indices = make_buffer();
    name_buffer(vertices, "first");
    name_buffer(vertices, "vertex data");
    name_buffer(indices, "\"indices\"");
    vkDestroyBuffer(machine.device, vertices, NULL);
    vkDestroyBuffer(machine.device, indices, NULL);
    vkDestroyBuffer(machine.device, indices, NULL);
    teardown();
}

//! failed_creation: ours nothing; alone
static void failed_creation(void) {
    setup();
    VkDeviceMemory memory = make_memory((VkDeviceSize)1 << 50);
    vkFreeMemory(machine.device, memory, NULL);
    teardown();
}

//! right_pipelines: ours nothing; layer nothing
static void right_pipelines(void) {
    setup();
    VkShaderModule shader = make_shader();
    VkPipelineLayout layout = make_pipeline_layout(NULL);
    VkPipelineCreateFlags flags[2] = {0, 0};
    VkPipeline pipelines[2] = {VK_NULL_HANDLE, VK_NULL_HANDLE};
    make_pipelines(shader, layout, 2, flags, pipelines);
    vkDestroyShaderModule(machine.device, shader, NULL);
    VkCommandPool pool = make_command_pool();
    VkCommandBuffer commands = make_command_buffer(pool);
    begin_commands(commands);
    vkCmdBindPipeline(commands, VK_PIPELINE_BIND_POINT_COMPUTE, pipelines[1]);
    vkCmdDispatch(commands, 1, 1, 1);
    vkEndCommandBuffer(commands);
    submit(commands, VK_NULL_HANDLE);
    vkQueueWaitIdle(machine.queue);
    vkDestroyCommandPool(machine.device, pool, NULL);
    vkDestroyPipeline(machine.device, pipelines[0], NULL);
    vkDestroyPipeline(machine.device, pipelines[1], NULL);
    vkDestroyPipelineLayout(machine.device, layout, NULL);
    teardown();
}

//! pipelines_in_part: ours nothing; layer nothing
static void pipelines_in_part(void) {
    setup();
    VkShaderModule shader = make_shader();
    VkPipelineLayout layout = make_pipeline_layout(NULL);
    VkPipelineCreateFlags flags[2] = {0, VK_PIPELINE_CREATE_FAIL_ON_PIPELINE_COMPILE_REQUIRED_BIT};
    VkPipeline pipelines[2] = {VK_NULL_HANDLE, VK_NULL_HANDLE};
    make_pipelines(shader, layout, 2, flags, pipelines);
    for (int i = 0; i < 2; i++) vkDestroyPipeline(machine.device, pipelines[i], NULL);
    vkDestroyPipelineLayout(machine.device, layout, NULL);
    vkDestroyShaderModule(machine.device, shader, NULL);
    teardown();
}

static void *crash(void *user, size_t size, size_t alignment, VkSystemAllocationScope scope) {
    (void)user, (void)size, (void)alignment, (void)scope;
    raise(SIGSEGV);
    return NULL;
}

static void *move(void *user, void *old, size_t size, size_t alignment, VkSystemAllocationScope scope) {
    (void)user, (void)alignment, (void)scope;
    return realloc(old, size);
}

static void give_back(void *user, void *old) {
    (void)user;
    free(old);
}

//! crash_in_call: ours nothing; layer nothing; status 139
static void crash_in_call(void) {
    setup();
    VkAllocationCallbacks callbacks = {NULL, crash, move, give_back, NULL, NULL};
    VkFenceCreateInfo info = {.sType = VK_STRUCTURE_TYPE_FENCE_CREATE_INFO};
    VkFence fence;
    vkCreateFence(machine.device, &info, &callbacks, &fence);
}

//! crash_between: ours VUID-vkDestroyBuffer-buffer-parameter*1; layer VUID-vkDestroyBuffer-buffer-parameter;
//!    status 134
static void crash_between(void) {
    setup();
    VkBuffer buffer = make_buffer();
    vkDestroyBuffer(machine.device, buffer, NULL);
    vkDestroyBuffer(machine.device, buffer, NULL);
    abort();
}

//! killed: ours nothing; layer nothing; status 137
static void killed(void) {
    setup();
    make_buffer();
    raise(SIGKILL);
}

//! left_early: ours nothing; layer nothing; status 3
static void left_early(void) {
    setup();
    make_buffer();
    exit(3);
}

const struct Entry shape_programs[] = {
    {"two_instances", two_instances},
    {"long_lists", long_lists},
    {"newer_commands", newer_commands},
    {"newer_dead_buffer", newer_dead_buffer},
    {"newer_freed_memory", newer_freed_memory},
    {"physical_device_groups", physical_device_groups},
    {"labels", labels},
    {"failed_creation", failed_creation},
    {"right_pipelines", right_pipelines},
    {"pipelines_in_part", pipelines_in_part},
    {"crash_in_call", crash_in_call},
    {"crash_between", crash_between},
    {"killed", killed},
    {"left_early", left_early},
    {NULL, NULL},
};
