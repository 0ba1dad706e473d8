// Programs about the lives of objects.
#include "base.h"

#include <stdio.h>

//! right_objects: ours nothing; layer nothing
static void right_objects(void) {
    setup();
    VkImage image = make_image();
    VkDeviceMemory memory = bind_image(image);
    VkImageView view = make_view(image);
    VkRenderPass render_pass = make_render_pass();
    VkFramebuffer framebuffer = make_framebuffer(render_pass, view);
    VkBuffer buffer = make_buffer();
    VkDeviceMemory buffer_memory = bind_buffer(buffer);
    VkCommandPool pool = make_command_pool();
    VkCommandBuffer commands = make_command_buffer(pool);
    begin_commands(commands);
    vkCmdFillBuffer(commands, buffer, 0, 16, 1);
    vkEndCommandBuffer(commands);
    VkFence fence = make_fence();
    submit(commands, fence);
    vkWaitForFences(machine.device, 1, &fence, VK_TRUE, UINT64_MAX);
    vkDestroyFence(machine.device, fence, NULL);
    vkDestroyCommandPool(machine.device, pool, NULL);
    vkDestroyBuffer(machine.device, buffer, NULL);
    vkFreeMemory(machine.device, buffer_memory, NULL);
    vkDestroyFramebuffer(machine.device, framebuffer, NULL);
    vkDestroyRenderPass(machine.device, render_pass, NULL);
    vkDestroyImageView(machine.device, view, NULL);
    vkDestroyImage(machine.device, image, NULL);
    vkFreeMemory(machine.device, memory, NULL);
    teardown();
}

//! right_pools: ours nothing; layer nothing
static void right_pools(void) {
    setup();
    VkBuffer buffer = make_buffer();
    VkDeviceMemory memory = bind_buffer(buffer);
    VkDescriptorSetLayout layout = make_set_layout(2);
    VkDescriptorPool pool = make_descriptor_pool();
    write_set(make_set(pool, layout), 0, buffer);
    vkResetDescriptorPool(machine.device, pool, 0);
    VkDescriptorSet set = make_set(pool, layout);
    write_set(set, 1, buffer);
    vkFreeDescriptorSets(machine.device, pool, 1, &set);
    make_set(pool, layout);
    vkDestroyDescriptorPool(machine.device, pool, NULL);
    vkDestroyDescriptorSetLayout(machine.device, layout, NULL);
    vkDestroyBuffer(machine.device, buffer, NULL);
    vkFreeMemory(machine.device, memory, NULL);
    teardown();
}

//! right_null: ours nothing; layer nothing
static void right_null(void) {
    setup();
    vkDestroyBuffer(machine.device, VK_NULL_HANDLE, NULL);
    vkDestroyFence(machine.device, VK_NULL_HANDLE, NULL);
    vkDestroyPipeline(machine.device, VK_NULL_HANDLE, NULL);
    vkFreeMemory(machine.device, VK_NULL_HANDLE, NULL);
    vkDestroyDevice(VK_NULL_HANDLE, NULL);
    vkDestroyInstance(VK_NULL_HANDLE, NULL);
    teardown();
}

//! use_after_destroy: ours VUID-vkGetBufferMemoryRequirements-buffer-parameter*1; layer
//!    VUID-vkGetBufferMemoryRequirements-buffer-parameter
static void use_after_destroy(void) {
    setup();
    VkBuffer buffer = make_buffer();
    vkDestroyBuffer(machine.device, buffer, NULL);
    VkMemoryRequirements needs;
    vkGetBufferMemoryRequirements(machine.device, buffer, &needs);
    teardown();
}

//! destroy_twice: ours VUID-vkDestroyBuffer-buffer-parameter*1; layer VUID-vkDestroyBuffer-buffer-parameter
static void destroy_twice(void) {
    setup();
    VkBuffer buffer = make_buffer();
    vkDestroyBuffer(machine.device, buffer, NULL);
    vkDestroyBuffer(machine.device, buffer, NULL);
    teardown();
}

//! leak: ours VKR-vkDestroyDevice-device-children*1 VKR-vkDestroyInstance-instance-children*1; layer
//!    VUID-vkDestroyDevice-device-00378
static void leak(void) {
    setup();
    make_buffer();
    make_fence();
    make_semaphore();
    make_event();
    make_image();
    teardown();
}

//! leak_device: ours VKR-vkDestroyInstance-instance-children*1; layer UNASSIGNED-ObjectTracker-ObjectLeak
static void leak_device(void) {
    setup();
    make_device();
    teardown();
}

//! other_device: ours VUID-vkGetBufferMemoryRequirements-buffer-parent*1 VUID-vkDestroyBuffer-buffer-parent*1;
//!    layer VUID-vkGetBufferMemoryRequirements-buffer-parent VUID-vkDestroyBuffer-buffer-parent
static void other_device(void) {
    setup();
    VkDevice other = make_device();
    VkBuffer buffer = make_buffer();
    VkMemoryRequirements needs;
    vkGetBufferMemoryRequirements(other, buffer, &needs);
    vkDestroyBuffer(other, buffer, NULL);
    vkDestroyBuffer(machine.device, buffer, NULL);
    vkDestroyDevice(other, NULL);
    teardown();
}

//! set_after_reset: ours VUID-vkUpdateDescriptorSets-dstSet-parameter*1; layer VUID-VkWriteDescriptorSet-dstSet-00320
static void set_after_reset(void) {
    setup();
    VkBuffer buffer = make_buffer();
    VkDescriptorSetLayout layout = make_set_layout(1);
    VkDescriptorPool pool = make_descriptor_pool();
    VkDescriptorSet set = make_set(pool, layout);
    vkResetDescriptorPool(machine.device, pool, 0);
    write_set(set, 0, buffer);
    vkDestroyDescriptorPool(machine.device, pool, NULL);
    vkDestroyDescriptorSetLayout(machine.device, layout, NULL);
    vkDestroyBuffer(machine.device, buffer, NULL);
    teardown();
}

//! free_set_twice: ours VUID-vkFreeDescriptorSets-pDescriptorSets-parameter*1; layer
//!    VUID-vkFreeDescriptorSets-pDescriptorSets-00310
static void free_set_twice(void) {
    setup();
    VkDescriptorSetLayout layout = make_set_layout(1);
    VkDescriptorPool pool = make_descriptor_pool();
    VkDescriptorSet set = make_set(pool, layout);
    vkFreeDescriptorSets(machine.device, pool, 1, &set);
    vkFreeDescriptorSets(machine.device, pool, 1, &set);
    vkDestroyDescriptorPool(machine.device, pool, NULL);
    vkDestroyDescriptorSetLayout(machine.device, layout, NULL);
    teardown();
}

//! set_of_other_pool: ours VUID-vkFreeDescriptorSets-pDescriptorSets-parent*1; layer
//!    VUID-vkFreeDescriptorSets-pDescriptorSets-parent
static void set_of_other_pool(void) {
    setup();
    VkDescriptorSetLayout layout = make_set_layout(1);
    VkDescriptorPool pool = make_descriptor_pool();
    VkDescriptorPool other = make_descriptor_pool();
    VkDescriptorSet set = make_set(pool, layout);
    vkFreeDescriptorSets(machine.device, other, 1, &set);
    vkDestroyDescriptorPool(machine.device, pool, NULL);
    vkDestroyDescriptorPool(machine.device, other, NULL);
    vkDestroyDescriptorSetLayout(machine.device, layout, NULL);
    teardown();
}

//! freed_commands_submitted: ours VUID-vkQueueSubmit-pCommandBuffers-parameter*1; layer
//!    VUID-VkSubmitInfo-pCommandBuffers-parameter
static void freed_commands_submitted(void) {
    setup();
    VkCommandPool pool = make_command_pool();
    VkCommandBuffer commands = make_command_buffer(pool);
    begin_commands(commands);
    vkEndCommandBuffer(commands);
    vkFreeCommandBuffers(machine.device, pool, 1, &commands);
    submit(commands, VK_NULL_HANDLE);
    vkDestroyCommandPool(machine.device, pool, NULL);
    teardown();
}

//! dead_view: ours VUID-vkCreateFramebuffer-pAttachments-parameter*1; layer VUID_Undefined
static void dead_view(void) {
    setup();
    VkImage image = make_image();
    VkDeviceMemory memory = bind_image(image);
    VkImageView view = make_view(image);
    VkRenderPass render_pass = make_render_pass();
    vkDestroyImageView(machine.device, view, NULL);
    make_framebuffer(render_pass, view);
    vkDestroyRenderPass(machine.device, render_pass, NULL);
    vkDestroyImage(machine.device, image, NULL);
    vkFreeMemory(machine.device, memory, NULL);
    teardown();
}

//! dead_render_pass: ours VUID-vkCreateFramebuffer-renderPass-parameter*1; layer
//!    VUID-VkFramebufferCreateInfo-renderPass-parameter
static void dead_render_pass(void) {
    setup();
    VkImage image = make_image();
    VkDeviceMemory memory = bind_image(image);
    VkImageView view = make_view(image);
    VkRenderPass render_pass = make_render_pass();
    vkDestroyRenderPass(machine.device, render_pass, NULL);
    make_framebuffer(render_pass, view);
    vkDestroyImageView(machine.device, view, NULL);
    vkDestroyImage(machine.device, image, NULL);
    vkFreeMemory(machine.device, memory, NULL);
    teardown();
}

//! dead_image: ours VUID-vkCreateImageView-image-parameter*1; layer VUID-VkImageViewCreateInfo-image-parameter
static void dead_image(void) {
    setup();
    VkImage image = make_image();
    vkDestroyImage(machine.device, image, NULL);
    make_view(image);
    teardown();
}

//! freed_memory: ours VUID-vkBindBufferMemory-memory-parameter*1; layer VUID-vkBindBufferMemory-memory-parameter
static void freed_memory(void) {
    setup();
    VkBuffer buffer = make_buffer();
    VkDeviceMemory memory = make_memory(4096);
    vkFreeMemory(machine.device, memory, NULL);
    vkBindBufferMemory(machine.device, buffer, memory, 0);
    vkDestroyBuffer(machine.device, buffer, NULL);
    teardown();
}

//! unmap_freed_memory: ours VUID-vkUnmapMemory-memory-parameter*1; layer VUID-vkUnmapMemory-memory-parameter
static void unmap_freed_memory(void) {
    setup();
    VkDeviceMemory memory = make_memory(4096);
    vkFreeMemory(machine.device, memory, NULL);
    vkUnmapMemory(machine.device, memory);
    teardown();
}

//! dead_fence: ours VUID-vkWaitForFences-pFences-parameter*1 VUID-vkResetFences-pFences-parameter*1; layer
//!    VUID-vkWaitForFences-pFences-parameter VUID-vkResetFences-pFences-parameter
static void dead_fence(void) {
    setup();
    VkFence fences[2] = {make_fence(), make_fence()};
    vkDestroyFence(machine.device, fences[1], NULL);
    vkWaitForFences(machine.device, 2, fences, VK_TRUE, 0);
    vkResetFences(machine.device, 2, fences);
    vkDestroyFence(machine.device, fences[0], NULL);
    teardown();
}

//! dead_semaphore: ours VUID-vkQueueSubmit-pWaitSemaphores-parameter*1; layer
//!    VUID-VkSubmitInfo-pWaitSemaphores-parameter
static void dead_semaphore(void) {
    setup();
    VkSemaphore semaphore = make_semaphore();
    vkDestroySemaphore(machine.device, semaphore, NULL);
    submit_waiting(semaphore);
    teardown();
}

//! dead_event: ours VUID-vkSetEvent-event-parameter*1 VUID-vkGetEventStatus-event-parameter*1; layer
//!    VUID-vkSetEvent-event-parameter VUID-vkGetEventStatus-event-parameter
static void dead_event(void) {
    setup();
    VkEvent event = make_event();
    vkDestroyEvent(machine.device, event, NULL);
    vkSetEvent(machine.device, event);
    vkGetEventStatus(machine.device, event);
    teardown();
}

//! dead_set_layout: ours VUID-vkCreatePipelineLayout-pSetLayouts-parameter*1; layer
//!    VUID-VkPipelineLayoutCreateInfo-pSetLayouts-parameter
static void dead_set_layout(void) {
    setup();
    VkDescriptorSetLayout layout = make_set_layout(1);
    vkDestroyDescriptorSetLayout(machine.device, layout, NULL);
    make_pipeline_layout(&layout);
    teardown();
}

//! dead_vertex_buffer: ours VUID-vkCmdBindVertexBuffers-pBuffers-parameter*1; layer
//!    VUID-vkCmdBindVertexBuffers-pBuffers-parameter
static void dead_vertex_buffer(void) {
    setup();
    VkBuffer buffer = make_buffer();
    vkDestroyBuffer(machine.device, buffer, NULL);
    VkCommandPool pool = make_command_pool();
    VkCommandBuffer commands = make_command_buffer(pool);
    begin_commands(commands);
    VkDeviceSize offset = 0;
    vkCmdBindVertexBuffers(commands, 0, 1, &buffer, &offset);
    vkEndCommandBuffer(commands);
    vkDestroyCommandPool(machine.device, pool, NULL);
    teardown();
}

//! null_index_buffer: ours VUID-vkCmdBindIndexBuffer-buffer-parameter*1; layer
//!    UNASSIGNED-GeneralParameterError-RequiredParameter
static void null_index_buffer(void) {
    setup();
    VkCommandPool pool = make_command_pool();
    VkCommandBuffer commands = make_command_buffer(pool);
    begin_commands(commands);
    vkCmdBindIndexBuffer(commands, VK_NULL_HANDLE, 0, VK_INDEX_TYPE_UINT16);
    vkEndCommandBuffer(commands);
    vkDestroyCommandPool(machine.device, pool, NULL);
    teardown();
}

//! dead_shader: ours VUID-vkCreateComputePipelines-module-parameter*1; layer
//!    VUID-VkPipelineShaderStageCreateInfo-module-parameter
static void dead_shader(void) {
    setup();
    VkShaderModule shader = make_shader();
    vkDestroyShaderModule(machine.device, shader, NULL);
    VkPipelineLayout layout = make_pipeline_layout(NULL);
    VkPipelineCreateFlags flags[1] = {0};
    VkPipeline pipeline = VK_NULL_HANDLE;
    make_pipelines(shader, layout, 1, flags, &pipeline);
    vkDestroyPipelineLayout(machine.device, layout, NULL);
    teardown();
}

//! value_again: ours nothing; alone
static void value_again(void) {
    setup();
    for (int i = 0; i < 50; i++) {
        VkBuffer buffer = make_buffer();
        VkMemoryRequirements needs;
        vkGetBufferMemoryRequirements(machine.device, buffer, &needs);
        vkDestroyBuffer(machine.device, buffer, NULL);
    }
    teardown();
}

//! value_again_dead: ours VUID-vkGetBufferMemoryRequirements-buffer-parameter*1; alone
static void value_again_dead(void) {
    setup();
    VkBuffer first = make_buffer();
    vkDestroyBuffer(machine.device, first, NULL);
    VkBuffer second = make_buffer();
    for (int i = 0; i < 50 && second != first; i++) {
        vkDestroyBuffer(machine.device, second, NULL);
        second = make_buffer();
    }
    if (second != first) fprintf(stderr, "the driver gave no value again\n");
    vkDestroyBuffer(machine.device, second, NULL);
    VkMemoryRequirements needs;
    vkGetBufferMemoryRequirements(machine.device, first, &needs);
    teardown();
}

//! dead_copy_source: ours nothing; ours2 VUID-vkCmdCopyBuffer-srcBuffer-parameter*1; layer
//!    VUID-vkCmdCopyBuffer-srcBuffer-parameter
static void dead_copy_source(void) {
    setup();
    VkBuffer from = make_buffer();
    VkBuffer to = make_buffer();
    VkDeviceMemory memory = bind_buffer(to);
    vkDestroyBuffer(machine.device, from, NULL);
    VkCommandPool pool = make_command_pool();
    VkCommandBuffer commands = make_command_buffer(pool);
    begin_commands(commands);
    VkBufferCopy region = {0, 0, 16};
    vkCmdCopyBuffer(commands, from, to, 1, &region);
    vkEndCommandBuffer(commands);
    vkDestroyCommandPool(machine.device, pool, NULL);
    vkDestroyBuffer(machine.device, to, NULL);
    vkFreeMemory(machine.device, memory, NULL);
    teardown();
}

//! leak_query_pool: ours nothing; ours2 VKR-vkDestroyDevice-device-children*1
//!    VKR-vkDestroyInstance-instance-children*1; layer VUID-vkDestroyDevice-device-00378
static void leak_query_pool(void) {
    setup();
    VkQueryPoolCreateInfo info = {
        .sType = VK_STRUCTURE_TYPE_QUERY_POOL_CREATE_INFO, .queryType = VK_QUERY_TYPE_OCCLUSION, .queryCount = 4};
    VkQueryPool pool;
    vkCreateQueryPool(machine.device, &info, NULL, &pool);
    teardown();
}

const struct Entry lifetime_programs[] = {
    {"right_objects", right_objects},
    {"right_pools", right_pools},
    {"right_null", right_null},
    {"use_after_destroy", use_after_destroy},
    {"destroy_twice", destroy_twice},
    {"leak", leak},
    {"leak_device", leak_device},
    {"other_device", other_device},
    {"set_after_reset", set_after_reset},
    {"free_set_twice", free_set_twice},
    {"set_of_other_pool", set_of_other_pool},
    {"freed_commands_submitted", freed_commands_submitted},
    {"dead_view", dead_view},
    {"dead_render_pass", dead_render_pass},
    {"dead_image", dead_image},
    {"freed_memory", freed_memory},
    {"unmap_freed_memory", unmap_freed_memory},
    {"dead_fence", dead_fence},
    {"dead_semaphore", dead_semaphore},
    {"dead_event", dead_event},
    {"dead_set_layout", dead_set_layout},
    {"dead_vertex_buffer", dead_vertex_buffer},
    {"null_index_buffer", null_index_buffer},
    {"dead_shader", dead_shader},
    {"value_again", value_again},
    {"value_again_dead", value_again_dead},
    {"dead_copy_source", dead_copy_source},
    {"leak_query_pool", leak_query_pool},
    {NULL, NULL},
};
