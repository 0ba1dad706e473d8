// Programs of which vkreplay and the validation layer say different things: what a trace can't show, and what it shows
// too simply.
#include "base.h"

#include <stddef.h>

//! barrier_of_dead_image: ours nothing; layer VUID-VkImageMemoryBarrier-image-parameter
static void barrier_of_dead_image(void) {
    setup();
    VkImage image = make_image();
    vkDestroyImage(machine.device, image, NULL);
    VkCommandPool pool = make_command_pool();
    VkCommandBuffer commands = make_command_buffer(pool);
    begin_commands(commands);
    VkImageMemoryBarrier barrier = {.sType = VK_STRUCTURE_TYPE_IMAGE_MEMORY_BARRIER,
                                    .newLayout = VK_IMAGE_LAYOUT_GENERAL,
                                    .srcQueueFamilyIndex = VK_QUEUE_FAMILY_IGNORED,
                                    .dstQueueFamilyIndex = VK_QUEUE_FAMILY_IGNORED,
                                    .image = image,
                                    .subresourceRange = {VK_IMAGE_ASPECT_COLOR_BIT, 0, 1, 0, 1}};
    vkCmdPipelineBarrier(commands, VK_PIPELINE_STAGE_ALL_COMMANDS_BIT, VK_PIPELINE_STAGE_ALL_COMMANDS_BIT, 0, 0, NULL,
                         0, NULL, 1, &barrier);
    vkEndCommandBuffer(commands);
    vkDestroyCommandPool(machine.device, pool, NULL);
    teardown();
}

//! copy_of_freed_set: ours nothing; layer VUID-VkCopyDescriptorSet-srcSet-parameter
static void copy_of_freed_set(void) {
    setup();
    VkDescriptorSetLayout layout = make_set_layout(1);
    VkDescriptorPool pool = make_descriptor_pool();
    VkDescriptorSet set = make_set(pool, layout);
    VkDescriptorSet freed = make_set(pool, layout);
    vkFreeDescriptorSets(machine.device, pool, 1, &freed);
    VkCopyDescriptorSet copy = {.sType = VK_STRUCTURE_TYPE_COPY_DESCRIPTOR_SET,
                                .srcSet = freed,
                                .dstSet = set,
                                .descriptorCount = 1};
    vkUpdateDescriptorSets(machine.device, 0, NULL, 1, &copy);
    vkDestroyDescriptorPool(machine.device, pool, NULL);
    vkDestroyDescriptorSetLayout(machine.device, layout, NULL);
    teardown();
}

//! inherited_dead_framebuffer: ours nothing; layer VUID-VkCommandBufferBeginInfo-flags-00055
static void inherited_dead_framebuffer(void) {
    setup();
    VkImage image = make_image();
    VkDeviceMemory memory = bind_image(image);
    VkImageView view = make_view(image);
    VkRenderPass render_pass = make_render_pass();
    VkFramebuffer framebuffer = make_framebuffer(render_pass, view);
    vkDestroyFramebuffer(machine.device, framebuffer, NULL);
    VkCommandPool pool = make_command_pool();
    VkCommandBufferAllocateInfo allocate = {VK_STRUCTURE_TYPE_COMMAND_BUFFER_ALLOCATE_INFO, NULL, pool,
                                            VK_COMMAND_BUFFER_LEVEL_SECONDARY, 1};
    VkCommandBuffer commands;
    vkAllocateCommandBuffers(machine.device, &allocate, &commands);
    VkCommandBufferInheritanceInfo inherited = {.sType = VK_STRUCTURE_TYPE_COMMAND_BUFFER_INHERITANCE_INFO,
                                                .renderPass = render_pass,
                                                .framebuffer = framebuffer};
    VkCommandBufferBeginInfo info = {.sType = VK_STRUCTURE_TYPE_COMMAND_BUFFER_BEGIN_INFO,
                                     .flags = VK_COMMAND_BUFFER_USAGE_RENDER_PASS_CONTINUE_BIT,
                                     .pInheritanceInfo = &inherited};
    vkBeginCommandBuffer(commands, &info);
    vkDestroyCommandPool(machine.device, pool, NULL);
    vkDestroyRenderPass(machine.device, render_pass, NULL);
    vkDestroyImageView(machine.device, view, NULL);
    vkDestroyImage(machine.device, image, NULL);
    vkFreeMemory(machine.device, memory, NULL);
    teardown();
}

static VkSampler make_sampler(void) {
    VkSamplerCreateInfo info = {.sType = VK_STRUCTURE_TYPE_SAMPLER_CREATE_INFO};
    VkSampler sampler = VK_NULL_HANDLE;
    vkCreateSampler(machine.device, &info, NULL, &sampler);
    return sampler;
}

//! immutable_sampler: ours VUID-vkUpdateDescriptorSets-sampler-parameter*1; layer nothing
static void immutable_sampler(void) {
    setup();
    VkSampler immutable = make_sampler();
    VkSampler dead = make_sampler();
    vkDestroySampler(machine.device, dead, NULL);
    VkImage image = make_image();
    VkDeviceMemory memory = bind_image(image);
    VkImageView view = make_view(image);
    VkDescriptorSetLayoutBinding binding = {0, VK_DESCRIPTOR_TYPE_COMBINED_IMAGE_SAMPLER, 1,
                                            VK_SHADER_STAGE_COMPUTE_BIT, &immutable};
    VkDescriptorSetLayoutCreateInfo info = {VK_STRUCTURE_TYPE_DESCRIPTOR_SET_LAYOUT_CREATE_INFO, NULL, 0, 1, &binding};
    VkDescriptorSetLayout layout;
    vkCreateDescriptorSetLayout(machine.device, &info, NULL, &layout);
    VkDescriptorPoolSize size = {VK_DESCRIPTOR_TYPE_COMBINED_IMAGE_SAMPLER, 4};
    VkDescriptorPoolCreateInfo pool_info = {VK_STRUCTURE_TYPE_DESCRIPTOR_POOL_CREATE_INFO, NULL, 0, 4, 1, &size};
    VkDescriptorPool pool;
    vkCreateDescriptorPool(machine.device, &pool_info, NULL, &pool);
    VkDescriptorImageInfo what = {dead, view, VK_IMAGE_LAYOUT_SHADER_READ_ONLY_OPTIMAL};
    VkWriteDescriptorSet write = {.sType = VK_STRUCTURE_TYPE_WRITE_DESCRIPTOR_SET,
                                  .dstSet = make_set(pool, layout),
                                  .descriptorCount = 1,
                                  .descriptorType = VK_DESCRIPTOR_TYPE_COMBINED_IMAGE_SAMPLER,
                                  .pImageInfo = &what};
    vkUpdateDescriptorSets(machine.device, 1, &write, 0, NULL);
    vkDestroyDescriptorPool(machine.device, pool, NULL);
    vkDestroyDescriptorSetLayout(machine.device, layout, NULL);
    vkDestroySampler(machine.device, immutable, NULL);
    vkDestroyImageView(machine.device, view, NULL);
    vkDestroyImage(machine.device, image, NULL);
    vkFreeMemory(machine.device, memory, NULL);
    teardown();
}

const struct Entry difference_programs[] = {
    {"barrier_of_dead_image", barrier_of_dead_image},
    {"copy_of_freed_set", copy_of_freed_set},
    {"inherited_dead_framebuffer", inherited_dead_framebuffer},
    {"immutable_sampler", immutable_sampler},
    {NULL, NULL},
};
