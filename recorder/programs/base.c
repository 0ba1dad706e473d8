#include "base.h"

#include <stdio.h>
#include <stdlib.h>
#include <string.h>

struct Machine machine;
static VkDebugUtilsMessengerEXT messenger;

static void expect(VkResult result, const char *what) {
    if (result < 0) fprintf(stderr, "%s answered %d\n", what, result);
}

// Prints what the validation layer reports, and has it refuse the call.
static VKAPI_ATTR VkBool32 VKAPI_CALL on_message(VkDebugUtilsMessageSeverityFlagBitsEXT severity,
                                                 VkDebugUtilsMessageTypeFlagsEXT types,
                                                 const VkDebugUtilsMessengerCallbackDataEXT *data, void *user) {
    (void)severity, (void)types, (void)user;
    if (data->pMessageIdName == NULL) return VK_FALSE;
    fprintf(stderr, "layer: %s\n", data->pMessageIdName);
    return VK_TRUE;
}

static VkDebugUtilsMessengerCreateInfoEXT messenger_info(void) {
    VkDebugUtilsMessengerCreateInfoEXT info = {VK_STRUCTURE_TYPE_DEBUG_UTILS_MESSENGER_CREATE_INFO_EXT};
    info.messageSeverity = VK_DEBUG_UTILS_MESSAGE_SEVERITY_ERROR_BIT_EXT;
    info.messageType = VK_DEBUG_UTILS_MESSAGE_TYPE_VALIDATION_BIT_EXT;
    info.pfnUserCallback = on_message;
    return info;
}

VkDevice make_device(void) {
    float priority = 1;
    VkDeviceQueueCreateInfo queue = {VK_STRUCTURE_TYPE_DEVICE_QUEUE_CREATE_INFO, NULL, 0, 0, 1, &priority};
    VkPhysicalDeviceVulkan13Features features = {.sType = VK_STRUCTURE_TYPE_PHYSICAL_DEVICE_VULKAN_1_3_FEATURES,
                                                 .pipelineCreationCacheControl = VK_TRUE,
                                                 .synchronization2 = VK_TRUE};
    VkDeviceCreateInfo info = {.sType = VK_STRUCTURE_TYPE_DEVICE_CREATE_INFO,
                               .pNext = &features,
                               .queueCreateInfoCount = 1,
                               .pQueueCreateInfos = &queue};
    VkDevice device = VK_NULL_HANDLE;
    expect(vkCreateDevice(machine.physical_device, &info, NULL, &device), "vkCreateDevice");
    return device;
}

void setup(void) {
    VkApplicationInfo application = {.sType = VK_STRUCTURE_TYPE_APPLICATION_INFO, .apiVersion = VK_API_VERSION_1_3};
    VkDebugUtilsMessengerCreateInfoEXT messages = messenger_info();
    const char *extensions[] = {VK_EXT_DEBUG_UTILS_EXTENSION_NAME};
    VkInstanceCreateInfo info = {.sType = VK_STRUCTURE_TYPE_INSTANCE_CREATE_INFO,
                                 .pNext = &messages,
                                 .pApplicationInfo = &application,
                                 .enabledExtensionCount = 1,
                                 .ppEnabledExtensionNames = extensions};
    VkResult result = vkCreateInstance(&info, NULL, &machine.instance);
    expect(result, "vkCreateInstance");
    if (result != VK_SUCCESS) exit(99);
    PFN_vkCreateDebugUtilsMessengerEXT create =
        (PFN_vkCreateDebugUtilsMessengerEXT)vkGetInstanceProcAddr(machine.instance, "vkCreateDebugUtilsMessengerEXT");
    create(machine.instance, &messages, NULL, &messenger);
    uint32_t count = 1;
    expect(vkEnumeratePhysicalDevices(machine.instance, &count, &machine.physical_device),
           "vkEnumeratePhysicalDevices");
    machine.device = make_device();
    vkGetDeviceQueue(machine.device, 0, 0, &machine.queue);
}

void teardown(void) {
    vkDestroyDevice(machine.device, NULL);
    PFN_vkDestroyDebugUtilsMessengerEXT destroy = (PFN_vkDestroyDebugUtilsMessengerEXT)vkGetInstanceProcAddr(
        machine.instance, "vkDestroyDebugUtilsMessengerEXT");
    destroy(machine.instance, messenger, NULL);
    vkDestroyInstance(machine.instance, NULL);
}

VkBuffer make_buffer_of(VkDevice device) {
    VkBufferCreateInfo info = {.sType = VK_STRUCTURE_TYPE_BUFFER_CREATE_INFO, .size = 256};
    info.usage = VK_BUFFER_USAGE_STORAGE_BUFFER_BIT | VK_BUFFER_USAGE_TRANSFER_DST_BIT |
                 VK_BUFFER_USAGE_TRANSFER_SRC_BIT | VK_BUFFER_USAGE_INDEX_BUFFER_BIT |
                 VK_BUFFER_USAGE_VERTEX_BUFFER_BIT;
    VkBuffer buffer = VK_NULL_HANDLE;
    expect(vkCreateBuffer(device, &info, NULL, &buffer), "vkCreateBuffer");
    return buffer;
}

VkBuffer make_buffer(void) { return make_buffer_of(machine.device); }

VkImage make_image(void) {
    VkImageCreateInfo info = {.sType = VK_STRUCTURE_TYPE_IMAGE_CREATE_INFO,
                              .imageType = VK_IMAGE_TYPE_2D,
                              .format = VK_FORMAT_R8G8B8A8_UNORM,
                              .extent = {16, 16, 1},
                              .mipLevels = 1,
                              .arrayLayers = 1,
                              .samples = VK_SAMPLE_COUNT_1_BIT};
    info.usage = VK_IMAGE_USAGE_COLOR_ATTACHMENT_BIT | VK_IMAGE_USAGE_SAMPLED_BIT;
    VkImage image = VK_NULL_HANDLE;
    expect(vkCreateImage(machine.device, &info, NULL, &image), "vkCreateImage");
    return image;
}

VkImageView make_view(VkImage image) {
    VkImageViewCreateInfo info = {.sType = VK_STRUCTURE_TYPE_IMAGE_VIEW_CREATE_INFO,
                                  .image = image,
                                  .viewType = VK_IMAGE_VIEW_TYPE_2D,
                                  .format = VK_FORMAT_R8G8B8A8_UNORM,
                                  .subresourceRange = {VK_IMAGE_ASPECT_COLOR_BIT, 0, 1, 0, 1}};
    VkImageView view = VK_NULL_HANDLE;
    expect(vkCreateImageView(machine.device, &info, NULL, &view), "vkCreateImageView");
    return view;
}

VkDeviceMemory make_memory(VkDeviceSize size) {
    VkMemoryAllocateInfo info = {.sType = VK_STRUCTURE_TYPE_MEMORY_ALLOCATE_INFO, .allocationSize = size};
    VkDeviceMemory memory = VK_NULL_HANDLE;
    expect(vkAllocateMemory(machine.device, &info, NULL, &memory), "vkAllocateMemory");
    return memory;
}

VkDeviceMemory bind_buffer(VkBuffer buffer) {
    VkMemoryRequirements needs;
    vkGetBufferMemoryRequirements(machine.device, buffer, &needs);
    VkDeviceMemory memory = make_memory(needs.size);
    expect(vkBindBufferMemory(machine.device, buffer, memory, 0), "vkBindBufferMemory");
    return memory;
}

VkDeviceMemory bind_image(VkImage image) {
    VkMemoryRequirements needs;
    vkGetImageMemoryRequirements(machine.device, image, &needs);
    VkDeviceMemory memory = make_memory(needs.size);
    expect(vkBindImageMemory(machine.device, image, memory, 0), "vkBindImageMemory");
    return memory;
}

VkCommandPool make_command_pool(void) {
    VkCommandPoolCreateInfo info = {.sType = VK_STRUCTURE_TYPE_COMMAND_POOL_CREATE_INFO,
                                    .flags = VK_COMMAND_POOL_CREATE_RESET_COMMAND_BUFFER_BIT};
    VkCommandPool pool = VK_NULL_HANDLE;
    expect(vkCreateCommandPool(machine.device, &info, NULL, &pool), "vkCreateCommandPool");
    return pool;
}

VkCommandBuffer make_command_buffer(VkCommandPool pool) {
    VkCommandBufferAllocateInfo info = {VK_STRUCTURE_TYPE_COMMAND_BUFFER_ALLOCATE_INFO, NULL, pool,
                                        VK_COMMAND_BUFFER_LEVEL_PRIMARY, 1};
    VkCommandBuffer commands = VK_NULL_HANDLE;
    expect(vkAllocateCommandBuffers(machine.device, &info, &commands), "vkAllocateCommandBuffers");
    return commands;
}

void begin_commands(VkCommandBuffer commands) {
    VkCommandBufferBeginInfo info = {.sType = VK_STRUCTURE_TYPE_COMMAND_BUFFER_BEGIN_INFO};
    expect(vkBeginCommandBuffer(commands, &info), "vkBeginCommandBuffer");
}

VkFence make_fence(void) {
    VkFenceCreateInfo info = {.sType = VK_STRUCTURE_TYPE_FENCE_CREATE_INFO};
    VkFence fence = VK_NULL_HANDLE;
    expect(vkCreateFence(machine.device, &info, NULL, &fence), "vkCreateFence");
    return fence;
}

VkSemaphore make_semaphore(void) {
    VkSemaphoreCreateInfo info = {.sType = VK_STRUCTURE_TYPE_SEMAPHORE_CREATE_INFO};
    VkSemaphore semaphore = VK_NULL_HANDLE;
    expect(vkCreateSemaphore(machine.device, &info, NULL, &semaphore), "vkCreateSemaphore");
    return semaphore;
}

VkEvent make_event(void) {
    VkEventCreateInfo info = {.sType = VK_STRUCTURE_TYPE_EVENT_CREATE_INFO};
    VkEvent event = VK_NULL_HANDLE;
    expect(vkCreateEvent(machine.device, &info, NULL, &event), "vkCreateEvent");
    return event;
}

void submit(VkCommandBuffer commands, VkFence fence) {
    VkSubmitInfo info = {.sType = VK_STRUCTURE_TYPE_SUBMIT_INFO,
                         .commandBufferCount = commands != VK_NULL_HANDLE ? 1 : 0,
                         .pCommandBuffers = &commands};
    vkQueueSubmit(machine.queue, 1, &info, fence);
}

void submit_waiting(VkSemaphore semaphore) {
    VkPipelineStageFlags stage = VK_PIPELINE_STAGE_ALL_COMMANDS_BIT;
    VkSubmitInfo info = {.sType = VK_STRUCTURE_TYPE_SUBMIT_INFO,
                         .waitSemaphoreCount = 1,
                         .pWaitSemaphores = &semaphore,
                         .pWaitDstStageMask = &stage};
    vkQueueSubmit(machine.queue, 1, &info, VK_NULL_HANDLE);
}

VkDescriptorSetLayout make_set_layout(uint32_t bindings) {
    VkDescriptorSetLayoutBinding all[8];
    memset(all, 0, sizeof all);
    for (uint32_t i = 0; i < bindings; i++) {
        all[i].binding = i;
        all[i].descriptorType = VK_DESCRIPTOR_TYPE_STORAGE_BUFFER;
        all[i].descriptorCount = 1;
        all[i].stageFlags = VK_SHADER_STAGE_COMPUTE_BIT;
    }
    VkDescriptorSetLayoutCreateInfo info = {VK_STRUCTURE_TYPE_DESCRIPTOR_SET_LAYOUT_CREATE_INFO, NULL, 0, bindings,
                                            all};
    VkDescriptorSetLayout layout = VK_NULL_HANDLE;
    expect(vkCreateDescriptorSetLayout(machine.device, &info, NULL, &layout), "vkCreateDescriptorSetLayout");
    return layout;
}

VkDescriptorPool make_descriptor_pool(void) {
    VkDescriptorPoolSize size = {VK_DESCRIPTOR_TYPE_STORAGE_BUFFER, 200000};
    VkDescriptorPoolCreateInfo info = {VK_STRUCTURE_TYPE_DESCRIPTOR_POOL_CREATE_INFO,
                                       NULL,
                                       VK_DESCRIPTOR_POOL_CREATE_FREE_DESCRIPTOR_SET_BIT,
                                       200000,
                                       1,
                                       &size};
    VkDescriptorPool pool = VK_NULL_HANDLE;
    expect(vkCreateDescriptorPool(machine.device, &info, NULL, &pool), "vkCreateDescriptorPool");
    return pool;
}

VkDescriptorSet make_set(VkDescriptorPool pool, VkDescriptorSetLayout layout) {
    VkDescriptorSetAllocateInfo info = {VK_STRUCTURE_TYPE_DESCRIPTOR_SET_ALLOCATE_INFO, NULL, pool, 1, &layout};
    VkDescriptorSet set = VK_NULL_HANDLE;
    expect(vkAllocateDescriptorSets(machine.device, &info, &set), "vkAllocateDescriptorSets");
    return set;
}

void write_set(VkDescriptorSet set, uint32_t binding, VkBuffer buffer) {
    VkDescriptorBufferInfo what = {buffer, 0, VK_WHOLE_SIZE};
    VkWriteDescriptorSet info = {.sType = VK_STRUCTURE_TYPE_WRITE_DESCRIPTOR_SET,
                                 .dstSet = set,
                                 .dstBinding = binding,
                                 .descriptorCount = 1,
                                 .descriptorType = VK_DESCRIPTOR_TYPE_STORAGE_BUFFER,
                                 .pBufferInfo = &what};
    vkUpdateDescriptorSets(machine.device, 1, &info, 0, NULL);
}

VkPipelineLayout make_pipeline_layout(const VkDescriptorSetLayout *layout) {
    VkPipelineLayoutCreateInfo info = {.sType = VK_STRUCTURE_TYPE_PIPELINE_LAYOUT_CREATE_INFO,
                                       .setLayoutCount = layout != NULL ? 1 : 0,
                                       .pSetLayouts = layout};
    VkPipelineLayout made = VK_NULL_HANDLE;
    expect(vkCreatePipelineLayout(machine.device, &info, NULL, &made), "vkCreatePipelineLayout");
    return made;
}

VkRenderPass make_render_pass(void) {
    VkAttachmentDescription attachment = {.format = VK_FORMAT_R8G8B8A8_UNORM,
                                          .samples = VK_SAMPLE_COUNT_1_BIT,
                                          .loadOp = VK_ATTACHMENT_LOAD_OP_CLEAR,
                                          .storeOp = VK_ATTACHMENT_STORE_OP_STORE,
                                          .stencilLoadOp = VK_ATTACHMENT_LOAD_OP_DONT_CARE,
                                          .stencilStoreOp = VK_ATTACHMENT_STORE_OP_DONT_CARE,
                                          .finalLayout = VK_IMAGE_LAYOUT_COLOR_ATTACHMENT_OPTIMAL};
    VkAttachmentReference reference = {0, VK_IMAGE_LAYOUT_COLOR_ATTACHMENT_OPTIMAL};
    VkSubpassDescription subpass = {.colorAttachmentCount = 1, .pColorAttachments = &reference};
    VkRenderPassCreateInfo info = {.sType = VK_STRUCTURE_TYPE_RENDER_PASS_CREATE_INFO,
                                   .attachmentCount = 1,
                                   .pAttachments = &attachment,
                                   .subpassCount = 1,
                                   .pSubpasses = &subpass};
    VkRenderPass render_pass = VK_NULL_HANDLE;
    expect(vkCreateRenderPass(machine.device, &info, NULL, &render_pass), "vkCreateRenderPass");
    return render_pass;
}

VkFramebuffer make_framebuffer(VkRenderPass render_pass, VkImageView view) {
    VkFramebufferCreateInfo info = {
        VK_STRUCTURE_TYPE_FRAMEBUFFER_CREATE_INFO, NULL, 0, render_pass, 1, &view, 16, 16, 1};
    VkFramebuffer framebuffer = VK_NULL_HANDLE;
    expect(vkCreateFramebuffer(machine.device, &info, NULL, &framebuffer), "vkCreateFramebuffer");
    return framebuffer;
}

// A compute shader whose function main does nothing: capability Shader; memory model; entry point; local size 1, 1, 1;
// the types; the function.
VkShaderModule make_shader(void) {
    static const uint32_t words[] = {
        0x07230203, 0x00010000, 0,          5, 0,  0x00020011, 1, 0x0003000e, 0,          1, 0x0005000f, 5, 1,
        0x6e69616d, 0,          0x00060010, 1, 17, 1,          1, 1,          0x00020013, 2, 0x00030021, 3, 2,
        0x00050036, 2,          1,          0, 3,  0x000200f8, 4, 0x000100fd, 0x00010038};
    VkShaderModuleCreateInfo info = {
        .sType = VK_STRUCTURE_TYPE_SHADER_MODULE_CREATE_INFO, .codeSize = sizeof words, .pCode = words};
    VkShaderModule shader = VK_NULL_HANDLE;
    expect(vkCreateShaderModule(machine.device, &info, NULL, &shader), "vkCreateShaderModule");
    return shader;
}

VkResult make_pipelines(VkShaderModule shader, VkPipelineLayout layout, uint32_t count,
                        const VkPipelineCreateFlags *flags, VkPipeline *pipelines) {
    VkComputePipelineCreateInfo infos[4];
    memset(infos, 0, sizeof infos);
    for (uint32_t i = 0; i < count; i++) {
        infos[i].sType = VK_STRUCTURE_TYPE_COMPUTE_PIPELINE_CREATE_INFO;
        infos[i].flags = flags[i];
        infos[i].stage.sType = VK_STRUCTURE_TYPE_PIPELINE_SHADER_STAGE_CREATE_INFO;
        infos[i].stage.stage = VK_SHADER_STAGE_COMPUTE_BIT;
        infos[i].stage.module = shader;
        infos[i].stage.pName = "main";
        infos[i].layout = layout;
    }
    return vkCreateComputePipelines(machine.device, VK_NULL_HANDLE, count, infos, NULL, pipelines);
}

static const struct Entry *find(const struct Entry *entries, const char *name) {
    for (; entries->name != NULL; entries++) {
        if (strcmp(entries->name, name) == 0) return entries;
    }
    return NULL;
}

int main(int count, char **words) {
    const struct Entry *all[] = {lifetime_programs, thread_programs, shape_programs, difference_programs};
    if (count == 3) turns = atoi(words[2]);
    for (int i = 0; count >= 2 && i < 4; i++) {
        const struct Entry *found = find(all[i], words[1]);
        if (found == NULL) continue;
        found->run();
        return 0;
    }
    fprintf(stderr, "vkrecord_programs NAME [TURNS]: no such program\n");
    return 98;
}
