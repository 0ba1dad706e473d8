// The commands whose handles can't be read off the registry: members that count under a condition, lists that belong
// together, payloads, and names of objects. generate.py looks for the functions here by their names.
#pragma once
#include "call.h"

#include <vulkan/vulkan.h>

#include <string>

namespace {

bool has_sampler(VkDescriptorType type) {
    return type == VK_DESCRIPTOR_TYPE_SAMPLER || type == VK_DESCRIPTOR_TYPE_COMBINED_IMAGE_SAMPLER;
}

bool has_image(VkDescriptorType type) {
    return type == VK_DESCRIPTOR_TYPE_COMBINED_IMAGE_SAMPLER || type == VK_DESCRIPTOR_TYPE_SAMPLED_IMAGE ||
           type == VK_DESCRIPTOR_TYPE_STORAGE_IMAGE || type == VK_DESCRIPTOR_TYPE_INPUT_ATTACHMENT;
}

bool has_texels(VkDescriptorType type) {
    return type == VK_DESCRIPTOR_TYPE_UNIFORM_TEXEL_BUFFER || type == VK_DESCRIPTOR_TYPE_STORAGE_TEXEL_BUFFER;
}

bool has_buffer(VkDescriptorType type) {
    return type == VK_DESCRIPTOR_TYPE_UNIFORM_BUFFER || type == VK_DESCRIPTOR_TYPE_STORAGE_BUFFER ||
           type == VK_DESCRIPTOR_TYPE_UNIFORM_BUFFER_DYNAMIC || type == VK_DESCRIPTOR_TYPE_STORAGE_BUFFER_DYNAMIC;
}

// A list with what `pick` gives of each descriptor whose type `counts`.
template <class Counts, class Pick>
void list_descriptors(Call& call, uint32_t count, const VkWriteDescriptorSet* writes, Counts counts, Pick pick) {
    call.open_list();
    for (uint32_t i = 0; i < count; i++) {
        if (!counts(writes[i].descriptorType)) continue;
        for (uint32_t k = 0; k < writes[i].descriptorCount; k++) call.item(pick(writes[i], k));
    }
    call.close_list();
}

void arguments_of_vkUpdateDescriptorSets(Call& call, VkDevice device, uint32_t write_count,
                                         const VkWriteDescriptorSet* writes, uint32_t copy_count,
                                         const VkCopyDescriptorSet* copies) {
    call.one(device);
    call.open_list();
    for (uint32_t i = 0; i < write_count; i++) call.item(writes[i].dstSet);
    for (uint32_t i = 0; i < copy_count; i++) call.item(copies[i].dstSet);
    call.close_list();
    using Write = VkWriteDescriptorSet;
    list_descriptors(call, write_count, writes, has_sampler,
                     [](const Write& w, uint32_t k) { return w.pImageInfo[k].sampler; });
    list_descriptors(call, write_count, writes, has_image,
                     [](const Write& w, uint32_t k) { return w.pImageInfo[k].imageView; });
    list_descriptors(call, write_count, writes, has_buffer,
                     [](const Write& w, uint32_t k) { return w.pBufferInfo[k].buffer; });
    list_descriptors(call, write_count, writes, has_texels,
                     [](const Write& w, uint32_t k) { return w.pTexelBufferView[k]; });
}

void arguments_of_vkCreateDescriptorSetLayout(Call& call, VkDevice device, const VkDescriptorSetLayoutCreateInfo* info,
                                              const VkAllocationCallbacks*, VkDescriptorSetLayout*) {
    call.one(device);
    call.open_list();
    for (uint32_t i = 0; i < info->bindingCount; i++) {
        const VkDescriptorSetLayoutBinding& binding = info->pBindings[i];
        if (binding.pImmutableSamplers == nullptr || !has_sampler(binding.descriptorType)) continue;
        for (uint32_t k = 0; k < binding.descriptorCount; k++) call.item(binding.pImmutableSamplers[k]);
    }
    call.close_list();
}

void arguments_of_vkCreateFramebuffer(Call& call, VkDevice device, const VkFramebufferCreateInfo* info,
                                      const VkAllocationCallbacks*, VkFramebuffer*) {
    call.one(device);
    call.one(info->renderPass);
    call.open_list();
    const bool imageless = (info->flags & VK_FRAMEBUFFER_CREATE_IMAGELESS_BIT) != 0;
    for (uint32_t i = 0; !imageless && i < info->attachmentCount; i++) call.item(info->pAttachments[i]);
    call.close_list();
}

// A stage without a module has its code in what its pNext names.
void list_module(Call& call, const VkPipelineShaderStageCreateInfo& stage) {
    if (stage.module != VK_NULL_HANDLE || stage.pNext == nullptr) call.item(stage.module);
}

void arguments_of_vkCreateGraphicsPipelines(Call& call, VkDevice device, VkPipelineCache cache, uint32_t count,
                                            const VkGraphicsPipelineCreateInfo* infos, const VkAllocationCallbacks*,
                                            VkPipeline*) {
    call.one(device);
    call.one(cache);
    call.open_list();
    for (uint32_t i = 0; i < count; i++) {
        for (uint32_t k = 0; infos[i].pStages != nullptr && k < infos[i].stageCount; k++)
            list_module(call, infos[i].pStages[k]);
    }
    call.close_list();
    call.open_list();
    for (uint32_t i = 0; i < count; i++) call.item(infos[i].layout);
    call.close_list();
    call.open_list();
    for (uint32_t i = 0; i < count; i++) call.item(infos[i].renderPass);
    call.close_list();
}

void arguments_of_vkCreateComputePipelines(Call& call, VkDevice device, VkPipelineCache cache, uint32_t count,
                                           const VkComputePipelineCreateInfo* infos, const VkAllocationCallbacks*,
                                           VkPipeline*) {
    call.one(device);
    call.one(cache);
    call.open_list();
    for (uint32_t i = 0; i < count; i++) list_module(call, infos[i].stage);
    call.close_list();
    call.open_list();
    for (uint32_t i = 0; i < count; i++) call.item(infos[i].layout);
    call.close_list();
}

void arguments_of_vkCreateDescriptorUpdateTemplate(Call& call, VkDevice device,
                                                   const VkDescriptorUpdateTemplateCreateInfo* info,
                                                   const VkAllocationCallbacks*, VkDescriptorUpdateTemplate*) {
    call.one(device);
    const bool of_sets = info->templateType == VK_DESCRIPTOR_UPDATE_TEMPLATE_TYPE_DESCRIPTOR_SET;
    call.one(of_sets ? info->descriptorSetLayout : VkDescriptorSetLayout{});
}

void arguments_of_vkGetDeviceQueue(Call& call, VkDevice device, uint32_t family, uint32_t index, VkQueue*) {
    call.one(device);
    call.payload(std::to_string(family) + "," + std::to_string(index));
}

void arguments_of_vkGetDeviceQueue2(Call& call, VkDevice device, const VkDeviceQueueInfo2* info, VkQueue*) {
    call.one(device);
    call.payload(std::to_string(info->queueFamilyIndex) + "," + std::to_string(info->queueIndex) +
                 (info->flags != 0 ? "," + std::to_string(info->flags) : ""));
}

void arguments_of_vkBindBufferMemory2(Call& call, VkDevice device, uint32_t count,
                                      const VkBindBufferMemoryInfo* infos) {
    call.spread();
    call.one(device);
    call.open_list();
    for (uint32_t i = 0; i < count; i++) call.item(infos[i].buffer);
    call.close_list();
    call.open_list();
    for (uint32_t i = 0; i < count; i++) call.item(infos[i].memory);
    call.close_list();
}

// An image that is bound to a swapchain's memory has no memory of its own and isn't listed.
void arguments_of_vkBindImageMemory2(Call& call, VkDevice device, uint32_t count, const VkBindImageMemoryInfo* infos) {
    call.spread();
    call.one(device);
    auto counts = [](const VkBindImageMemoryInfo& info) {
        return info.memory != VK_NULL_HANDLE || info.pNext == nullptr;
    };
    call.open_list();
    for (uint32_t i = 0; i < count; i++) {
        if (counts(infos[i])) call.item(infos[i].image);
    }
    call.close_list();
    call.open_list();
    for (uint32_t i = 0; i < count; i++) {
        if (counts(infos[i])) call.item(infos[i].memory);
    }
    call.close_list();
}

void list_semaphores(Call& call, uint32_t count, const VkSemaphoreSubmitInfo* infos) {
    for (uint32_t i = 0; i < count; i++) call.item(infos[i].semaphore);
}

void arguments_of_vkQueueSubmit2(Call& call, VkQueue queue, uint32_t count, const VkSubmitInfo2* submits,
                                 VkFence fence) {
    call.one(queue);
    call.open_list();
    for (uint32_t i = 0; i < count; i++)
        list_semaphores(call, submits[i].waitSemaphoreInfoCount, submits[i].pWaitSemaphoreInfos);
    call.close_list();
    call.open_list();
    for (uint32_t i = 0; i < count; i++) {
        for (uint32_t k = 0; k < submits[i].commandBufferInfoCount; k++)
            call.item(submits[i].pCommandBufferInfos[k].commandBuffer);
    }
    call.close_list();
    call.open_list();
    for (uint32_t i = 0; i < count; i++)
        list_semaphores(call, submits[i].signalSemaphoreInfoCount, submits[i].pSignalSemaphoreInfos);
    call.close_list();
    call.one(fence);
}

void results_of_vkEnumeratePhysicalDeviceGroups(Call& call, VkResult result, VkInstance, const uint32_t* count,
                                                const VkPhysicalDeviceGroupProperties* groups) {
    for (uint32_t i = 0; result >= 0 && groups != nullptr && i < *count; i++) {
        call.results(groups[i].physicalDeviceCount, groups[i].physicalDevices);
    }
}

// Logs the name that a program gives an object.
void log_label(int32_t type, uint64_t handle, const char* name) {
    Log& log = Log::get();
    if (!log.is_on() || name == nullptr) return;
    std::vector<uint64_t> record = {0, call_word(0, 0, type), handle};
    add_text(record, name, std::string(name).size());
    log.append(record, RecordKind::label);
}

void observe_vkSetDebugUtilsObjectNameEXT(VkDevice, const VkDebugUtilsObjectNameInfoEXT* info) {
    log_label(info->objectType, info->objectHandle, info->pObjectName);
}

// Its types have the numbers of VkObjectType up to the command pool's.
void observe_vkDebugMarkerSetObjectNameEXT(VkDevice, const VkDebugMarkerObjectNameInfoEXT* info) {
    if (info->objectType <= VK_DEBUG_REPORT_OBJECT_TYPE_COMMAND_POOL_EXT)
        log_label(info->objectType, info->object, info->pObjectName);
}

}  // namespace
