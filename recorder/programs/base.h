// What the small programs share: an instance, a device and a queue, and makers of objects. A maker of a device's
// object takes the device from `machine`. Each program is a function with a head line, which may go on behind `//!`
// and blanks:
//   //! NAME: ours REPORTS; layer REPORTS; FURTHER
// `ours` says which reports vkreplay gives for the recorded trace, as ID*COUNT, or ID*some where threads decide how
// often; `layer` what VK_LAYER_KHRONOS_validation reports; `nothing` stands for none. Further: `ours2 REPORTS` where a
// trace of version 2 gives others, `status N` (else 0), `alone` (recorded without the validation layer), `traces N`
// (else 1), `labels N` (else 0).
#pragma once
#define _GNU_SOURCE
#include <stdint.h>
#include <vulkan/vulkan.h>

struct Machine {
    VkInstance instance;
    VkPhysicalDevice physical_device;
    VkDevice device;
    VkQueue queue;
};

extern struct Machine machine;
extern int turns;  // of the threads that are wrong

typedef void (*Program)(void);
struct Entry {
    const char *name;
    Program run;
};
extern const struct Entry lifetime_programs[];
extern const struct Entry thread_programs[];
extern const struct Entry shape_programs[];
extern const struct Entry difference_programs[];

void setup(void);
void teardown(void);
VkDevice make_device(void);
VkBuffer make_buffer(void);
VkBuffer make_buffer_of(VkDevice device);
VkImage make_image(void);
VkImageView make_view(VkImage image);
VkDeviceMemory make_memory(VkDeviceSize size);
VkDeviceMemory bind_buffer(VkBuffer buffer);
VkDeviceMemory bind_image(VkImage image);
VkCommandPool make_command_pool(void);
VkCommandBuffer make_command_buffer(VkCommandPool pool);
void begin_commands(VkCommandBuffer commands);
VkFence make_fence(void);
VkSemaphore make_semaphore(void);
VkEvent make_event(void);
void submit(VkCommandBuffer commands, VkFence fence);
void submit_waiting(VkSemaphore semaphore);
VkDescriptorSetLayout make_set_layout(uint32_t bindings);
VkDescriptorPool make_descriptor_pool(void);
VkDescriptorSet make_set(VkDescriptorPool pool, VkDescriptorSetLayout layout);
void write_set(VkDescriptorSet set, uint32_t binding, VkBuffer buffer);
VkPipelineLayout make_pipeline_layout(const VkDescriptorSetLayout *layout);
VkRenderPass make_render_pass(void);
VkFramebuffer make_framebuffer(VkRenderPass render_pass, VkImageView view);
VkShaderModule make_shader(void);
VkResult make_pipelines(VkShaderModule shader, VkPipelineLayout layout, uint32_t count,
                        const VkPipelineCreateFlags *flags, VkPipeline *pipelines);
