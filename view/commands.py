"""The command table, written by generate.py from crates/command_tables. Don't change it by hand."""
from tables import Effect, Parameter, Row

COMMANDS: dict[str, Row] = {
    "vkAcquireNextImageKHR": Row("vkAcquireNextImageKHR", (
        Parameter("device", "Device"),
        Parameter("swapchain", "Swapchain", written=True, same_device=True),
        Parameter("semaphore", "Semaphore", optional=True, written=True, same_device=True),
        Parameter("fence", "Fence", optional=True, written=True, same_device=True),
    ), Effect(), True),
    "vkAllocateCommandBuffers": Row("vkAllocateCommandBuffers", (
        Parameter("device", "Device"),
        Parameter("commandPool", "CommandPool", written=True, same_device=True),
    ), Effect("create", "CommandBuffer", many=True, owner=1), True),
    "vkAllocateDescriptorSets": Row("vkAllocateDescriptorSets", (
        Parameter("device", "Device"),
        Parameter("descriptorPool", "DescriptorPool", written=True, same_device=True),
        Parameter("pSetLayouts", "DescriptorSetLayout", many=True, same_device=True),
    ), Effect("create", "DescriptorSet", many=True, owner=1), True),
    "vkAllocateMemory": Row("vkAllocateMemory", (
        Parameter("device", "Device"),
    ), Effect("create", "DeviceMemory", owner=0), True),
    "vkBeginCommandBuffer": Row("vkBeginCommandBuffer", (
        Parameter("commandBuffer", "CommandBuffer", written=True),
    ), Effect(), True),
    "vkBindBufferMemory": Row("vkBindBufferMemory", (
        Parameter("device", "Device"),
        Parameter("buffer", "Buffer", written=True, same_device=True),
        Parameter("memory", "DeviceMemory", same_device=True),
    ), Effect(), True),
    "vkBindImageMemory": Row("vkBindImageMemory", (
        Parameter("device", "Device"),
        Parameter("image", "Image", written=True, owned_by=0),
        Parameter("memory", "DeviceMemory", same_device=True),
    ), Effect(), True),
    "vkCmdBeginRenderPass": Row("vkCmdBeginRenderPass", (
        Parameter("commandBuffer", "CommandBuffer", written=True),
        Parameter("renderPass", "RenderPass", same_device=True),
        Parameter("framebuffer", "Framebuffer", same_device=True),
    ), Effect(), False),
    "vkCmdBindDescriptorSets": Row("vkCmdBindDescriptorSets", (
        Parameter("commandBuffer", "CommandBuffer", written=True),
        Parameter("layout", "PipelineLayout", same_device=True),
        Parameter("pDescriptorSets", "DescriptorSet", many=True, optional=True, same_device=True),
    ), Effect(), False),
    "vkCmdBindIndexBuffer": Row("vkCmdBindIndexBuffer", (
        Parameter("commandBuffer", "CommandBuffer", written=True),
        Parameter("buffer", "Buffer", same_device=True),
    ), Effect(), False),
    "vkCmdBindPipeline": Row("vkCmdBindPipeline", (
        Parameter("commandBuffer", "CommandBuffer", written=True),
        Parameter("pipeline", "Pipeline", same_device=True),
    ), Effect(), False),
    "vkCmdBindVertexBuffers": Row("vkCmdBindVertexBuffers", (
        Parameter("commandBuffer", "CommandBuffer", written=True),
        Parameter("pBuffers", "Buffer", many=True, optional=True, same_device=True),
    ), Effect(), False),
    "vkCmdDispatch": Row("vkCmdDispatch", (
        Parameter("commandBuffer", "CommandBuffer", written=True),
    ), Effect(), False),
    "vkCmdDraw": Row("vkCmdDraw", (
        Parameter("commandBuffer", "CommandBuffer", written=True),
    ), Effect(), False),
    "vkCmdDrawIndexed": Row("vkCmdDrawIndexed", (
        Parameter("commandBuffer", "CommandBuffer", written=True),
    ), Effect(), False),
    "vkCmdEndRenderPass": Row("vkCmdEndRenderPass", (
        Parameter("commandBuffer", "CommandBuffer", written=True),
    ), Effect(), False),
    "vkCreateBuffer": Row("vkCreateBuffer", (
        Parameter("device", "Device"),
    ), Effect("create", "Buffer", owner=0), True),
    "vkCreateBufferView": Row("vkCreateBufferView", (
        Parameter("device", "Device"),
        Parameter("buffer", "Buffer", same_device=True),
    ), Effect("create", "BufferView", owner=0), True),
    "vkCreateCommandPool": Row("vkCreateCommandPool", (
        Parameter("device", "Device"),
    ), Effect("create", "CommandPool", owner=0), True),
    "vkCreateComputePipelines": Row("vkCreateComputePipelines", (
        Parameter("device", "Device"),
        Parameter("pipelineCache", "PipelineCache", optional=True, same_device=True),
        Parameter("module", "ShaderModule", many=True, same_device=True),
        Parameter("layout", "PipelineLayout", many=True, same_device=True),
    ), Effect("create", "Pipeline", many=True, owner=0), True),
    "vkCreateDescriptorPool": Row("vkCreateDescriptorPool", (
        Parameter("device", "Device"),
    ), Effect("create", "DescriptorPool", owner=0), True),
    "vkCreateDescriptorSetLayout": Row("vkCreateDescriptorSetLayout", (
        Parameter("device", "Device"),
        Parameter("pImmutableSamplers", "Sampler", many=True, same_device=True),
    ), Effect("create", "DescriptorSetLayout", owner=0), True),
    "vkCreateDevice": Row("vkCreateDevice", (
        Parameter("physicalDevice", "PhysicalDevice"),
    ), Effect("create", "Device", owner=0, owners_owner=True), True),
    "vkCreateEvent": Row("vkCreateEvent", (
        Parameter("device", "Device"),
    ), Effect("create", "Event", owner=0), True),
    "vkCreateFence": Row("vkCreateFence", (
        Parameter("device", "Device"),
    ), Effect("create", "Fence", owner=0), True),
    "vkCreateFramebuffer": Row("vkCreateFramebuffer", (
        Parameter("device", "Device"),
        Parameter("renderPass", "RenderPass", same_device=True),
        Parameter("pAttachments", "ImageView", many=True, same_device=True),
    ), Effect("create", "Framebuffer", owner=0), True),
    "vkCreateGraphicsPipelines": Row("vkCreateGraphicsPipelines", (
        Parameter("device", "Device"),
        Parameter("pipelineCache", "PipelineCache", optional=True, same_device=True),
        Parameter("module", "ShaderModule", many=True, same_device=True),
        Parameter("layout", "PipelineLayout", many=True, optional=True, same_device=True),
        Parameter("renderPass", "RenderPass", many=True, optional=True, same_device=True),
    ), Effect("create", "Pipeline", many=True, owner=0), True),
    "vkCreateImage": Row("vkCreateImage", (
        Parameter("device", "Device"),
    ), Effect("create", "Image", owner=0), True),
    "vkCreateImageView": Row("vkCreateImageView", (
        Parameter("device", "Device"),
        Parameter("image", "Image", same_device=True),
    ), Effect("create", "ImageView", owner=0), True),
    "vkCreateInstance": Row("vkCreateInstance", (
    ), Effect("create", "Instance"), True),
    "vkCreatePipelineCache": Row("vkCreatePipelineCache", (
        Parameter("device", "Device"),
    ), Effect("create", "PipelineCache", owner=0), True),
    "vkCreatePipelineLayout": Row("vkCreatePipelineLayout", (
        Parameter("device", "Device"),
        Parameter("pSetLayouts", "DescriptorSetLayout", many=True, optional=True, same_device=True),
    ), Effect("create", "PipelineLayout", owner=0), True),
    "vkCreateRenderPass": Row("vkCreateRenderPass", (
        Parameter("device", "Device"),
    ), Effect("create", "RenderPass", owner=0), True),
    "vkCreateSampler": Row("vkCreateSampler", (
        Parameter("device", "Device"),
    ), Effect("create", "Sampler", owner=0), True),
    "vkCreateSemaphore": Row("vkCreateSemaphore", (
        Parameter("device", "Device"),
    ), Effect("create", "Semaphore", owner=0), True),
    "vkCreateShaderModule": Row("vkCreateShaderModule", (
        Parameter("device", "Device"),
    ), Effect("create", "ShaderModule", owner=0), True),
    "vkCreateSwapchainKHR": Row("vkCreateSwapchainKHR", (
        Parameter("device", "Device"),
        Parameter("surface", "Surface", written=True),
        Parameter("oldSwapchain", "Swapchain", optional=True, written=True),
    ), Effect("create", "Swapchain", owner=0), True),
    "vkCreateXcbSurfaceKHR": Row("vkCreateXcbSurfaceKHR", (
        Parameter("instance", "Instance"),
    ), Effect("create", "Surface", owner=0), True),
    "vkDestroyBuffer": Row("vkDestroyBuffer", (
        Parameter("device", "Device"),
        Parameter("buffer", "Buffer", optional=True, written=True, same_device=True),
    ), Effect("destroy", target=1), False),
    "vkDestroyBufferView": Row("vkDestroyBufferView", (
        Parameter("device", "Device"),
        Parameter("bufferView", "BufferView", optional=True, written=True, same_device=True),
    ), Effect("destroy", target=1), False),
    "vkDestroyCommandPool": Row("vkDestroyCommandPool", (
        Parameter("device", "Device"),
        Parameter("commandPool", "CommandPool", optional=True, written=True, same_device=True),
    ), Effect("destroy", target=1), False),
    "vkDestroyDescriptorPool": Row("vkDestroyDescriptorPool", (
        Parameter("device", "Device"),
        Parameter("descriptorPool", "DescriptorPool", optional=True, written=True, same_device=True),
    ), Effect("destroy", target=1), False),
    "vkDestroyDescriptorSetLayout": Row("vkDestroyDescriptorSetLayout", (
        Parameter("device", "Device"),
        Parameter("descriptorSetLayout", "DescriptorSetLayout", optional=True, written=True, same_device=True),
    ), Effect("destroy", target=1), False),
    "vkDestroyDevice": Row("vkDestroyDevice", (
        Parameter("device", "Device", written=True),
    ), Effect("destroy", target=0), False),
    "vkDestroyEvent": Row("vkDestroyEvent", (
        Parameter("device", "Device"),
        Parameter("event", "Event", optional=True, written=True, same_device=True),
    ), Effect("destroy", target=1), False),
    "vkDestroyFence": Row("vkDestroyFence", (
        Parameter("device", "Device"),
        Parameter("fence", "Fence", optional=True, written=True, same_device=True),
    ), Effect("destroy", target=1), False),
    "vkDestroyFramebuffer": Row("vkDestroyFramebuffer", (
        Parameter("device", "Device"),
        Parameter("framebuffer", "Framebuffer", optional=True, written=True, same_device=True),
    ), Effect("destroy", target=1), False),
    "vkDestroyImage": Row("vkDestroyImage", (
        Parameter("device", "Device"),
        Parameter("image", "Image", optional=True, written=True, owned_by=0),
    ), Effect("destroy", target=1), False),
    "vkDestroyImageView": Row("vkDestroyImageView", (
        Parameter("device", "Device"),
        Parameter("imageView", "ImageView", optional=True, written=True, same_device=True),
    ), Effect("destroy", target=1), False),
    "vkDestroyInstance": Row("vkDestroyInstance", (
        Parameter("instance", "Instance", written=True),
    ), Effect("destroy", target=0), False),
    "vkDestroyPipeline": Row("vkDestroyPipeline", (
        Parameter("device", "Device"),
        Parameter("pipeline", "Pipeline", optional=True, written=True, same_device=True),
    ), Effect("destroy", target=1), False),
    "vkDestroyPipelineCache": Row("vkDestroyPipelineCache", (
        Parameter("device", "Device"),
        Parameter("pipelineCache", "PipelineCache", optional=True, written=True, same_device=True),
    ), Effect("destroy", target=1), False),
    "vkDestroyPipelineLayout": Row("vkDestroyPipelineLayout", (
        Parameter("device", "Device"),
        Parameter("pipelineLayout", "PipelineLayout", optional=True, written=True, same_device=True),
    ), Effect("destroy", target=1), False),
    "vkDestroyRenderPass": Row("vkDestroyRenderPass", (
        Parameter("device", "Device"),
        Parameter("renderPass", "RenderPass", optional=True, written=True, same_device=True),
    ), Effect("destroy", target=1), False),
    "vkDestroySampler": Row("vkDestroySampler", (
        Parameter("device", "Device"),
        Parameter("sampler", "Sampler", optional=True, written=True, same_device=True),
    ), Effect("destroy", target=1), False),
    "vkDestroySemaphore": Row("vkDestroySemaphore", (
        Parameter("device", "Device"),
        Parameter("semaphore", "Semaphore", optional=True, written=True, same_device=True),
    ), Effect("destroy", target=1), False),
    "vkDestroyShaderModule": Row("vkDestroyShaderModule", (
        Parameter("device", "Device"),
        Parameter("shaderModule", "ShaderModule", optional=True, written=True, same_device=True),
    ), Effect("destroy", target=1), False),
    "vkDestroySurfaceKHR": Row("vkDestroySurfaceKHR", (
        Parameter("instance", "Instance"),
        Parameter("surface", "Surface", optional=True, written=True),
    ), Effect("destroy", target=1), False),
    "vkDestroySwapchainKHR": Row("vkDestroySwapchainKHR", (
        Parameter("device", "Device"),
        Parameter("swapchain", "Swapchain", optional=True, written=True, same_device=True),
    ), Effect("destroy", target=1), False),
    "vkDeviceWaitIdle": Row("vkDeviceWaitIdle", (
        Parameter("device", "Device"),
    ), Effect(), True),
    "vkEndCommandBuffer": Row("vkEndCommandBuffer", (
        Parameter("commandBuffer", "CommandBuffer", written=True),
    ), Effect(), True),
    "vkEnumeratePhysicalDevices": Row("vkEnumeratePhysicalDevices", (
        Parameter("instance", "Instance"),
    ), Effect("retrieve", "PhysicalDevice", many=True, owner=0), True),
    "vkFlushMappedMemoryRanges": Row("vkFlushMappedMemoryRanges", (
        Parameter("device", "Device"),
        Parameter("memory", "DeviceMemory", many=True, same_device=True),
    ), Effect(), True),
    "vkFreeCommandBuffers": Row("vkFreeCommandBuffers", (
        Parameter("device", "Device"),
        Parameter("commandPool", "CommandPool", written=True, same_device=True),
        Parameter("pCommandBuffers", "CommandBuffer", many=True, optional=True, written=True, owned_by=1),
    ), Effect("free", target=2), False),
    "vkFreeDescriptorSets": Row("vkFreeDescriptorSets", (
        Parameter("device", "Device"),
        Parameter("descriptorPool", "DescriptorPool", written=True, same_device=True),
        Parameter("pDescriptorSets", "DescriptorSet", many=True, optional=True, written=True, owned_by=1),
    ), Effect("free", target=2), True),
    "vkFreeMemory": Row("vkFreeMemory", (
        Parameter("device", "Device"),
        Parameter("memory", "DeviceMemory", optional=True, written=True, same_device=True),
    ), Effect("free", target=1), False),
    "vkGetBufferMemoryRequirements": Row("vkGetBufferMemoryRequirements", (
        Parameter("device", "Device"),
        Parameter("buffer", "Buffer", same_device=True),
    ), Effect(), False),
    "vkGetDeviceQueue": Row("vkGetDeviceQueue", (
        Parameter("device", "Device"),
    ), Effect("retrieve", "Queue", owner=0), False),
    "vkGetEventStatus": Row("vkGetEventStatus", (
        Parameter("device", "Device"),
        Parameter("event", "Event", same_device=True),
    ), Effect(), True),
    "vkGetFenceStatus": Row("vkGetFenceStatus", (
        Parameter("device", "Device"),
        Parameter("fence", "Fence", same_device=True),
    ), Effect(), True),
    "vkGetImageMemoryRequirements": Row("vkGetImageMemoryRequirements", (
        Parameter("device", "Device"),
        Parameter("image", "Image", same_device=True),
    ), Effect(), False),
    "vkGetPhysicalDeviceFeatures": Row("vkGetPhysicalDeviceFeatures", (
        Parameter("physicalDevice", "PhysicalDevice"),
    ), Effect(), False),
    "vkGetPhysicalDeviceMemoryProperties": Row("vkGetPhysicalDeviceMemoryProperties", (
        Parameter("physicalDevice", "PhysicalDevice"),
    ), Effect(), False),
    "vkGetPhysicalDeviceProperties": Row("vkGetPhysicalDeviceProperties", (
        Parameter("physicalDevice", "PhysicalDevice"),
    ), Effect(), False),
    "vkGetPhysicalDeviceQueueFamilyProperties": Row("vkGetPhysicalDeviceQueueFamilyProperties", (
        Parameter("physicalDevice", "PhysicalDevice"),
    ), Effect(), False),
    "vkGetPhysicalDeviceSurfaceCapabilitiesKHR": Row("vkGetPhysicalDeviceSurfaceCapabilitiesKHR", (
        Parameter("physicalDevice", "PhysicalDevice"),
        Parameter("surface", "Surface"),
    ), Effect(), True),
    "vkGetPhysicalDeviceSurfaceFormatsKHR": Row("vkGetPhysicalDeviceSurfaceFormatsKHR", (
        Parameter("physicalDevice", "PhysicalDevice"),
        Parameter("surface", "Surface", optional=True),
    ), Effect(), True),
    "vkGetPhysicalDeviceSurfaceSupportKHR": Row("vkGetPhysicalDeviceSurfaceSupportKHR", (
        Parameter("physicalDevice", "PhysicalDevice"),
        Parameter("surface", "Surface"),
    ), Effect(), True),
    "vkGetSwapchainImagesKHR": Row("vkGetSwapchainImagesKHR", (
        Parameter("device", "Device"),
        Parameter("swapchain", "Swapchain", same_device=True),
    ), Effect("retrieve", "Image", many=True, owner=1), True),
    "vkMapMemory": Row("vkMapMemory", (
        Parameter("device", "Device"),
        Parameter("memory", "DeviceMemory", written=True, same_device=True),
    ), Effect(), True),
    "vkQueuePresentKHR": Row("vkQueuePresentKHR", (
        Parameter("queue", "Queue", written=True),
        Parameter("pWaitSemaphores", "Semaphore", many=True, written=True, same_device=True),
        Parameter("pSwapchains", "Swapchain", many=True, written=True, same_device=True),
    ), Effect(), True),
    "vkQueueSubmit": Row("vkQueueSubmit", (
        Parameter("queue", "Queue", written=True),
        Parameter("pWaitSemaphores", "Semaphore", many=True, same_device=True),
        Parameter("pCommandBuffers", "CommandBuffer", many=True, same_device=True),
        Parameter("pSignalSemaphores", "Semaphore", many=True, same_device=True),
        Parameter("fence", "Fence", optional=True, written=True, same_device=True),
    ), Effect(), True),
    "vkQueueWaitIdle": Row("vkQueueWaitIdle", (
        Parameter("queue", "Queue", written=True),
    ), Effect(), True),
    "vkResetCommandBuffer": Row("vkResetCommandBuffer", (
        Parameter("commandBuffer", "CommandBuffer", written=True),
    ), Effect(), True),
    "vkResetCommandPool": Row("vkResetCommandPool", (
        Parameter("device", "Device"),
        Parameter("commandPool", "CommandPool", written=True, same_device=True),
    ), Effect(), True),
    "vkResetDescriptorPool": Row("vkResetDescriptorPool", (
        Parameter("device", "Device"),
        Parameter("descriptorPool", "DescriptorPool", written=True, same_device=True),
    ), Effect("reset", target=1), True),
    "vkResetEvent": Row("vkResetEvent", (
        Parameter("device", "Device"),
        Parameter("event", "Event", written=True, same_device=True),
    ), Effect(), True),
    "vkResetFences": Row("vkResetFences", (
        Parameter("device", "Device"),
        Parameter("pFences", "Fence", many=True, written=True, same_device=True),
    ), Effect(), True),
    "vkSetEvent": Row("vkSetEvent", (
        Parameter("device", "Device"),
        Parameter("event", "Event", written=True, same_device=True),
    ), Effect(), True),
    "vkUnmapMemory": Row("vkUnmapMemory", (
        Parameter("device", "Device"),
        Parameter("memory", "DeviceMemory", written=True, same_device=True),
    ), Effect(), False),
    "vkUpdateDescriptorSets": Row("vkUpdateDescriptorSets", (
        Parameter("device", "Device"),
        Parameter("dstSet", "DescriptorSet", many=True, written=True, same_device=True),
        Parameter("sampler", "Sampler", many=True, optional=True, same_device=True),
        Parameter("imageView", "ImageView", many=True, optional=True, same_device=True),
        Parameter("buffer", "Buffer", many=True, optional=True, same_device=True),
        Parameter("pTexelBufferView", "BufferView", many=True, optional=True, same_device=True),
    ), Effect(), False),
    "vkWaitForFences": Row("vkWaitForFences", (
        Parameter("device", "Device"),
        Parameter("pFences", "Fence", many=True, same_device=True),
    ), Effect(), True),
}
