//! Object types, codes and the commands.

#[derive(Clone, Copy, PartialEq, Eq, Debug)]
#[repr(u8)]
pub enum Ty {
    Instance, PhysicalDevice, Device, Queue, CommandBuffer, Semaphore, Fence, DeviceMemory, Buffer,
    Image, Event, BufferView, ImageView, ShaderModule, PipelineCache, PipelineLayout, RenderPass,
    Pipeline, DescriptorSetLayout, Sampler, DescriptorPool, DescriptorSet, Framebuffer, CommandPool,
    Surface, Swapchain, QueryPool, DescriptorUpdateTemplate,
}
use Ty::*;

pub const CODES: [&str; 25] = [
    "VK_SUCCESS", "VK_NOT_READY", "VK_TIMEOUT", "VK_EVENT_SET", "VK_EVENT_RESET", "VK_INCOMPLETE",
    "VK_SUBOPTIMAL_KHR", "VK_ERROR_OUT_OF_HOST_MEMORY", "VK_ERROR_OUT_OF_DEVICE_MEMORY",
    "VK_ERROR_INITIALIZATION_FAILED", "VK_ERROR_DEVICE_LOST", "VK_ERROR_MEMORY_MAP_FAILED",
    "VK_ERROR_LAYER_NOT_PRESENT", "VK_ERROR_EXTENSION_NOT_PRESENT", "VK_ERROR_FEATURE_NOT_PRESENT",
    "VK_ERROR_INCOMPATIBLE_DRIVER", "VK_ERROR_TOO_MANY_OBJECTS", "VK_ERROR_FORMAT_NOT_SUPPORTED",
    "VK_ERROR_FRAGMENTED_POOL", "VK_ERROR_OUT_OF_POOL_MEMORY", "VK_ERROR_SURFACE_LOST_KHR",
    "VK_ERROR_OUT_OF_DATE_KHR", "VK_ERROR_NATIVE_WINDOW_IN_USE_KHR", "VK_ERROR_UNKNOWN",
    "VK_ERROR_VALIDATION_FAILED_EXT",
];

/// An index into [`CODES`], or `VOID`.
pub type Code = u8;
pub const VK_SUCCESS: Code = 0;
pub const VK_INCOMPLETE: Code = 5;
pub const VK_ERROR_INITIALIZATION_FAILED: Code = 9;
pub const VK_ERROR_LAYER_NOT_PRESENT: Code = 12;
pub const VK_ERROR_INCOMPATIBLE_DRIVER: Code = 15;
pub const VK_ERROR_VALIDATION_FAILED_EXT: Code = 24;
pub const VOID: Code = 0xff;

pub fn code_name(code: Code) -> &'static str {
    if code == VOID { "void" } else { CODES[code as usize] }
}

pub fn find_code(word: &[u8]) -> Option<Code> {
    CODES.iter().position(|c| c.as_bytes() == word).map(|i| i as Code)
}

#[derive(Clone, Copy, PartialEq, Eq)]
pub enum OwnerMark { None, Device, Param(u8) }

#[derive(Clone, Copy, PartialEq, Eq)]
pub enum Implied { None, Pool, Sets, Queues }
use Implied::{Pool, Queues, Sets};

#[derive(Clone, Copy)]
pub struct Param {
    pub name: &'static str,
    pub ty: Ty,
    pub many: bool,
    pub optional: bool,
    pub sync: bool,
    pub owner: OwnerMark,
    pub implied: Implied,
}

#[derive(Clone, Copy, PartialEq, Eq)]
pub enum OwnerOf { Nobody, Param(u8), OwnerOfParam(u8) }

#[derive(Clone, Copy, PartialEq, Eq)]
pub enum Effect {
    None,
    Create { ty: Ty, owner: OwnerOf, many: bool },
    Retrieve { ty: Ty, owner: OwnerOf, many: bool },
    Destroy(u8),
    Free(u8),
    Reset(u8),
}

/// How a row treats result names.
#[derive(Clone, Copy, PartialEq, Eq)]
pub enum Results { Zero, One, Many }

pub struct Row {
    pub name: &'static str,
    pub params: &'static [Param],
    pub effect: Effect,
    pub returns: bool,
    pub results: Results,
    /// Where calls of this row go: to every driver, or to the one of the first argument.
    pub all_drivers: bool,
    /// The parameter that a destroy or free names.
    pub gives_back: Option<u8>,
    /// `vkDestroyDevice` or `vkDestroyInstance`.
    pub ends_parent: bool,
}

const fn p(name: &'static str, ty: Ty) -> Param {
    Param { name, ty, many: false, optional: false, sync: false, owner: OwnerMark::None, implied: Implied::None }
}

impl Param {
    const fn many(mut self) -> Param { self.many = true; self }
    const fn opt(mut self) -> Param { self.optional = true; self }
    const fn sync(mut self) -> Param { self.sync = true; self }
    const fn same_device(mut self) -> Param { self.owner = OwnerMark::Device; self }
    const fn owned_by(mut self, x: u8) -> Param { self.owner = OwnerMark::Param(x); self }
    const fn implies(mut self, what: Implied) -> Param { self.implied = what; self }
}

const DEVICE: Param = p("device", Device);
/// A command buffer into which a command is recorded.
const RECORDED: Param = p("commandBuffer", CommandBuffer).sync().implies(Pool);

const fn row(name: &'static str, params: &'static [Param], effect: Effect, returns: bool) -> Row {
    let results = match effect {
        Effect::Create { many, .. } | Effect::Retrieve { many, .. } => {
            if many { Results::Many } else { Results::One }
        }
        _ => Results::Zero,
    };
    let gives_back = match effect {
        Effect::Destroy(x) | Effect::Free(x) => Some(x),
        _ => None,
    };
    let all_drivers = params.is_empty() || matches!(params[0].ty, Instance);
    let ends_parent = matches!(effect, Effect::Destroy(0));
    Row { name, params, effect, returns, results, all_drivers, gives_back, ends_parent }
}

/// Commands are indices into `ROWS`; the first `VERSION_ONE` are of trace version 1.
pub type Cmd = u8;
pub const VERSION_ONE: usize = 92;
pub const CREATE_INSTANCE: Cmd = 29;
pub const ENUMERATE_PHYSICAL_DEVICES: Cmd = 61;

#[rustfmt::skip]
pub static ROWS: [Row; 120] = [
    row("vkAcquireNextImageKHR", &[DEVICE, p("swapchain", Swapchain).sync().same_device(), p("semaphore", Semaphore).opt().sync().same_device(), p("fence", Fence).opt().sync().same_device()], Effect::None, true),
    row("vkAllocateCommandBuffers", &[DEVICE, p("commandPool", CommandPool).sync().same_device()], Effect::Create { ty: CommandBuffer, owner: OwnerOf::Param(1), many: true }, true),
    row("vkAllocateDescriptorSets", &[DEVICE, p("descriptorPool", DescriptorPool).sync().same_device(), p("pSetLayouts", DescriptorSetLayout).many().same_device()], Effect::Create { ty: DescriptorSet, owner: OwnerOf::Param(1), many: true }, true),
    row("vkAllocateMemory", &[DEVICE], Effect::Create { ty: DeviceMemory, owner: OwnerOf::Param(0), many: false }, true),
    row("vkBeginCommandBuffer", &[RECORDED], Effect::None, true),
    row("vkBindBufferMemory", &[DEVICE, p("buffer", Buffer).sync().same_device(), p("memory", DeviceMemory).same_device()], Effect::None, true),
    row("vkBindImageMemory", &[DEVICE, p("image", Image).sync().owned_by(0), p("memory", DeviceMemory).same_device()], Effect::None, true),
    row("vkCmdBeginRenderPass", &[RECORDED, p("renderPass", RenderPass).same_device(), p("framebuffer", Framebuffer).same_device()], Effect::None, false),
    row("vkCmdBindDescriptorSets", &[RECORDED, p("layout", PipelineLayout).same_device(), p("pDescriptorSets", DescriptorSet).many().opt().same_device()], Effect::None, false),
    row("vkCmdBindIndexBuffer", &[RECORDED, p("buffer", Buffer).same_device()], Effect::None, false),
    row("vkCmdBindPipeline", &[RECORDED, p("pipeline", Pipeline).same_device()], Effect::None, false),
    row("vkCmdBindVertexBuffers", &[RECORDED, p("pBuffers", Buffer).many().opt().same_device()], Effect::None, false),
    row("vkCmdDispatch", &[RECORDED], Effect::None, false),
    row("vkCmdDraw", &[RECORDED], Effect::None, false),
    row("vkCmdDrawIndexed", &[RECORDED], Effect::None, false),
    row("vkCmdEndRenderPass", &[RECORDED], Effect::None, false),
    row("vkCreateBuffer", &[DEVICE], Effect::Create { ty: Buffer, owner: OwnerOf::Param(0), many: false }, true),
    row("vkCreateBufferView", &[DEVICE, p("buffer", Buffer).same_device()], Effect::Create { ty: BufferView, owner: OwnerOf::Param(0), many: false }, true),
    row("vkCreateCommandPool", &[DEVICE], Effect::Create { ty: CommandPool, owner: OwnerOf::Param(0), many: false }, true),
    row("vkCreateComputePipelines", &[DEVICE, p("pipelineCache", PipelineCache).opt().same_device(), p("module", ShaderModule).many().same_device(), p("layout", PipelineLayout).many().same_device()], Effect::Create { ty: Pipeline, owner: OwnerOf::Param(0), many: true }, true),
    row("vkCreateDescriptorPool", &[DEVICE], Effect::Create { ty: DescriptorPool, owner: OwnerOf::Param(0), many: false }, true),
    row("vkCreateDescriptorSetLayout", &[DEVICE, p("pImmutableSamplers", Sampler).many().same_device()], Effect::Create { ty: DescriptorSetLayout, owner: OwnerOf::Param(0), many: false }, true),
    row("vkCreateDevice", &[p("physicalDevice", PhysicalDevice)], Effect::Create { ty: Device, owner: OwnerOf::OwnerOfParam(0), many: false }, true),
    row("vkCreateEvent", &[DEVICE], Effect::Create { ty: Event, owner: OwnerOf::Param(0), many: false }, true),
    row("vkCreateFence", &[DEVICE], Effect::Create { ty: Fence, owner: OwnerOf::Param(0), many: false }, true),
    row("vkCreateFramebuffer", &[DEVICE, p("renderPass", RenderPass).same_device(), p("pAttachments", ImageView).many().same_device()], Effect::Create { ty: Framebuffer, owner: OwnerOf::Param(0), many: false }, true),
    row("vkCreateGraphicsPipelines", &[DEVICE, p("pipelineCache", PipelineCache).opt().same_device(), p("module", ShaderModule).many().same_device(), p("layout", PipelineLayout).many().opt().same_device(), p("renderPass", RenderPass).many().opt().same_device()], Effect::Create { ty: Pipeline, owner: OwnerOf::Param(0), many: true }, true),
    row("vkCreateImage", &[DEVICE], Effect::Create { ty: Image, owner: OwnerOf::Param(0), many: false }, true),
    row("vkCreateImageView", &[DEVICE, p("image", Image).same_device()], Effect::Create { ty: ImageView, owner: OwnerOf::Param(0), many: false }, true),
    row("vkCreateInstance", &[], Effect::Create { ty: Instance, owner: OwnerOf::Nobody, many: false }, true),
    row("vkCreatePipelineCache", &[DEVICE], Effect::Create { ty: PipelineCache, owner: OwnerOf::Param(0), many: false }, true),
    row("vkCreatePipelineLayout", &[DEVICE, p("pSetLayouts", DescriptorSetLayout).many().opt().same_device()], Effect::Create { ty: PipelineLayout, owner: OwnerOf::Param(0), many: false }, true),
    row("vkCreateRenderPass", &[DEVICE], Effect::Create { ty: RenderPass, owner: OwnerOf::Param(0), many: false }, true),
    row("vkCreateSampler", &[DEVICE], Effect::Create { ty: Sampler, owner: OwnerOf::Param(0), many: false }, true),
    row("vkCreateSemaphore", &[DEVICE], Effect::Create { ty: Semaphore, owner: OwnerOf::Param(0), many: false }, true),
    row("vkCreateShaderModule", &[DEVICE], Effect::Create { ty: ShaderModule, owner: OwnerOf::Param(0), many: false }, true),
    row("vkCreateSwapchainKHR", &[DEVICE, p("surface", Surface).sync(), p("oldSwapchain", Swapchain).opt().sync()], Effect::Create { ty: Swapchain, owner: OwnerOf::Param(0), many: false }, true),
    row("vkCreateXcbSurfaceKHR", &[p("instance", Instance)], Effect::Create { ty: Surface, owner: OwnerOf::Param(0), many: false }, true),
    row("vkDestroyBuffer", &[DEVICE, p("buffer", Buffer).opt().sync().same_device()], Effect::Destroy(1), false),
    row("vkDestroyBufferView", &[DEVICE, p("bufferView", BufferView).opt().sync().same_device()], Effect::Destroy(1), false),
    row("vkDestroyCommandPool", &[DEVICE, p("commandPool", CommandPool).opt().sync().same_device()], Effect::Destroy(1), false),
    row("vkDestroyDescriptorPool", &[DEVICE, p("descriptorPool", DescriptorPool).opt().sync().same_device()], Effect::Destroy(1), false),
    row("vkDestroyDescriptorSetLayout", &[DEVICE, p("descriptorSetLayout", DescriptorSetLayout).opt().sync().same_device()], Effect::Destroy(1), false),
    row("vkDestroyDevice", &[DEVICE.sync()], Effect::Destroy(0), false),
    row("vkDestroyEvent", &[DEVICE, p("event", Event).opt().sync().same_device()], Effect::Destroy(1), false),
    row("vkDestroyFence", &[DEVICE, p("fence", Fence).opt().sync().same_device()], Effect::Destroy(1), false),
    row("vkDestroyFramebuffer", &[DEVICE, p("framebuffer", Framebuffer).opt().sync().same_device()], Effect::Destroy(1), false),
    row("vkDestroyImage", &[DEVICE, p("image", Image).opt().sync().owned_by(0)], Effect::Destroy(1), false),
    row("vkDestroyImageView", &[DEVICE, p("imageView", ImageView).opt().sync().same_device()], Effect::Destroy(1), false),
    row("vkDestroyInstance", &[p("instance", Instance).sync()], Effect::Destroy(0), false),
    row("vkDestroyPipeline", &[DEVICE, p("pipeline", Pipeline).opt().sync().same_device()], Effect::Destroy(1), false),
    row("vkDestroyPipelineCache", &[DEVICE, p("pipelineCache", PipelineCache).opt().sync().same_device()], Effect::Destroy(1), false),
    row("vkDestroyPipelineLayout", &[DEVICE, p("pipelineLayout", PipelineLayout).opt().sync().same_device()], Effect::Destroy(1), false),
    row("vkDestroyRenderPass", &[DEVICE, p("renderPass", RenderPass).opt().sync().same_device()], Effect::Destroy(1), false),
    row("vkDestroySampler", &[DEVICE, p("sampler", Sampler).opt().sync().same_device()], Effect::Destroy(1), false),
    row("vkDestroySemaphore", &[DEVICE, p("semaphore", Semaphore).opt().sync().same_device()], Effect::Destroy(1), false),
    row("vkDestroyShaderModule", &[DEVICE, p("shaderModule", ShaderModule).opt().sync().same_device()], Effect::Destroy(1), false),
    row("vkDestroySurfaceKHR", &[p("instance", Instance), p("surface", Surface).opt().sync()], Effect::Destroy(1), false),
    row("vkDestroySwapchainKHR", &[DEVICE, p("swapchain", Swapchain).opt().sync().same_device()], Effect::Destroy(1), false),
    row("vkDeviceWaitIdle", &[DEVICE.implies(Queues)], Effect::None, true),
    row("vkEndCommandBuffer", &[RECORDED], Effect::None, true),
    row("vkEnumeratePhysicalDevices", &[p("instance", Instance)], Effect::Retrieve { ty: PhysicalDevice, owner: OwnerOf::Param(0), many: true }, true),
    row("vkFlushMappedMemoryRanges", &[DEVICE, p("memory", DeviceMemory).many().same_device()], Effect::None, true),
    row("vkFreeCommandBuffers", &[DEVICE, p("commandPool", CommandPool).sync().same_device(), p("pCommandBuffers", CommandBuffer).many().opt().sync().owned_by(1)], Effect::Free(2), false),
    row("vkFreeDescriptorSets", &[DEVICE, p("descriptorPool", DescriptorPool).sync().same_device(), p("pDescriptorSets", DescriptorSet).many().opt().sync().owned_by(1)], Effect::Free(2), true),
    row("vkFreeMemory", &[DEVICE, p("memory", DeviceMemory).opt().sync().same_device()], Effect::Free(1), false),
    row("vkGetBufferMemoryRequirements", &[DEVICE, p("buffer", Buffer).same_device()], Effect::None, false),
    row("vkGetDeviceQueue", &[DEVICE], Effect::Retrieve { ty: Queue, owner: OwnerOf::Param(0), many: false }, false),
    row("vkGetEventStatus", &[DEVICE, p("event", Event).same_device()], Effect::None, true),
    row("vkGetFenceStatus", &[DEVICE, p("fence", Fence).same_device()], Effect::None, true),
    row("vkGetImageMemoryRequirements", &[DEVICE, p("image", Image).same_device()], Effect::None, false),
    row("vkGetPhysicalDeviceFeatures", &[p("physicalDevice", PhysicalDevice)], Effect::None, false),
    row("vkGetPhysicalDeviceMemoryProperties", &[p("physicalDevice", PhysicalDevice)], Effect::None, false),
    row("vkGetPhysicalDeviceProperties", &[p("physicalDevice", PhysicalDevice)], Effect::None, false),
    row("vkGetPhysicalDeviceQueueFamilyProperties", &[p("physicalDevice", PhysicalDevice)], Effect::None, false),
    row("vkGetPhysicalDeviceSurfaceCapabilitiesKHR", &[p("physicalDevice", PhysicalDevice), p("surface", Surface)], Effect::None, true),
    row("vkGetPhysicalDeviceSurfaceFormatsKHR", &[p("physicalDevice", PhysicalDevice), p("surface", Surface).opt()], Effect::None, true),
    row("vkGetPhysicalDeviceSurfaceSupportKHR", &[p("physicalDevice", PhysicalDevice), p("surface", Surface)], Effect::None, true),
    row("vkGetSwapchainImagesKHR", &[DEVICE, p("swapchain", Swapchain).same_device()], Effect::Retrieve { ty: Image, owner: OwnerOf::Param(1), many: true }, true),
    row("vkMapMemory", &[DEVICE, p("memory", DeviceMemory).sync().same_device()], Effect::None, true),
    row("vkQueuePresentKHR", &[p("queue", Queue).sync(), p("pWaitSemaphores", Semaphore).many().sync().same_device(), p("pSwapchains", Swapchain).many().sync().same_device()], Effect::None, true),
    row("vkQueueSubmit", &[p("queue", Queue).sync(), p("pWaitSemaphores", Semaphore).many().same_device(), p("pCommandBuffers", CommandBuffer).many().same_device(), p("pSignalSemaphores", Semaphore).many().same_device(), p("fence", Fence).opt().sync().same_device()], Effect::None, true),
    row("vkQueueWaitIdle", &[p("queue", Queue).sync()], Effect::None, true),
    row("vkResetCommandBuffer", &[RECORDED], Effect::None, true),
    row("vkResetCommandPool", &[DEVICE, p("commandPool", CommandPool).sync().same_device()], Effect::None, true),
    row("vkResetDescriptorPool", &[DEVICE, p("descriptorPool", DescriptorPool).sync().same_device().implies(Sets)], Effect::Reset(1), true),
    row("vkResetEvent", &[DEVICE, p("event", Event).sync().same_device()], Effect::None, true),
    row("vkResetFences", &[DEVICE, p("pFences", Fence).many().sync().same_device()], Effect::None, true),
    row("vkSetEvent", &[DEVICE, p("event", Event).sync().same_device()], Effect::None, true),
    row("vkUnmapMemory", &[DEVICE, p("memory", DeviceMemory).sync().same_device()], Effect::None, false),
    row("vkUpdateDescriptorSets", &[DEVICE, p("dstSet", DescriptorSet).many().sync().same_device(), p("sampler", Sampler).many().opt().same_device(), p("imageView", ImageView).many().opt().same_device(), p("buffer", Buffer).many().opt().same_device(), p("pTexelBufferView", BufferView).many().opt().same_device()], Effect::None, false),
    row("vkWaitForFences", &[DEVICE, p("pFences", Fence).many().same_device()], Effect::None, true),
    row("vkCmdBeginQuery", &[RECORDED, p("queryPool", QueryPool).same_device()], Effect::None, false),
    row("vkCmdBlitImage", &[RECORDED, p("srcImage", Image).same_device(), p("dstImage", Image).same_device()], Effect::None, false),
    row("vkCmdClearColorImage", &[RECORDED, p("image", Image).same_device()], Effect::None, false),
    row("vkCmdClearDepthStencilImage", &[RECORDED, p("image", Image).same_device()], Effect::None, false),
    row("vkCmdCopyBuffer", &[RECORDED, p("srcBuffer", Buffer).same_device(), p("dstBuffer", Buffer).same_device()], Effect::None, false),
    row("vkCmdCopyBufferToImage", &[RECORDED, p("srcBuffer", Buffer).same_device(), p("dstImage", Image).same_device()], Effect::None, false),
    row("vkCmdCopyImage", &[RECORDED, p("srcImage", Image).same_device(), p("dstImage", Image).same_device()], Effect::None, false),
    row("vkCmdCopyImageToBuffer", &[RECORDED, p("srcImage", Image).same_device(), p("dstBuffer", Buffer).same_device()], Effect::None, false),
    row("vkCmdCopyQueryPoolResults", &[RECORDED, p("queryPool", QueryPool).same_device(), p("dstBuffer", Buffer).same_device()], Effect::None, false),
    row("vkCmdDispatchIndirect", &[RECORDED, p("buffer", Buffer).same_device()], Effect::None, false),
    row("vkCmdDrawIndexedIndirect", &[RECORDED, p("buffer", Buffer).same_device()], Effect::None, false),
    row("vkCmdDrawIndirect", &[RECORDED, p("buffer", Buffer).same_device()], Effect::None, false),
    row("vkCmdEndQuery", &[RECORDED, p("queryPool", QueryPool).same_device()], Effect::None, false),
    row("vkCmdExecuteCommands", &[RECORDED, p("pCommandBuffers", CommandBuffer).many().same_device()], Effect::None, false),
    row("vkCmdFillBuffer", &[RECORDED, p("dstBuffer", Buffer).same_device()], Effect::None, false),
    row("vkCmdPushConstants", &[RECORDED, p("layout", PipelineLayout).same_device()], Effect::None, false),
    row("vkCmdResetQueryPool", &[RECORDED, p("queryPool", QueryPool).same_device()], Effect::None, false),
    row("vkCmdResolveImage", &[RECORDED, p("srcImage", Image).same_device(), p("dstImage", Image).same_device()], Effect::None, false),
    row("vkCmdUpdateBuffer", &[RECORDED, p("dstBuffer", Buffer).same_device()], Effect::None, false),
    row("vkCmdWriteTimestamp", &[RECORDED, p("queryPool", QueryPool).same_device()], Effect::None, false),
    row("vkCreateDescriptorUpdateTemplate", &[DEVICE, p("descriptorSetLayout", DescriptorSetLayout).opt().same_device()], Effect::Create { ty: DescriptorUpdateTemplate, owner: OwnerOf::Param(0), many: false }, true),
    row("vkCreateQueryPool", &[DEVICE], Effect::Create { ty: QueryPool, owner: OwnerOf::Param(0), many: false }, true),
    row("vkDestroyDescriptorUpdateTemplate", &[DEVICE, p("descriptorUpdateTemplate", DescriptorUpdateTemplate).opt().sync().same_device()], Effect::Destroy(1), false),
    row("vkDestroyQueryPool", &[DEVICE, p("queryPool", QueryPool).opt().sync().same_device()], Effect::Destroy(1), false),
    row("vkGetQueryPoolResults", &[DEVICE, p("queryPool", QueryPool).same_device()], Effect::None, true),
    row("vkMergePipelineCaches", &[DEVICE, p("dstCache", PipelineCache).sync().same_device(), p("pSrcCaches", PipelineCache).many().same_device()], Effect::None, true),
    row("vkResetQueryPool", &[DEVICE, p("queryPool", QueryPool).same_device()], Effect::None, false),
    row("vkUpdateDescriptorSetWithTemplate", &[DEVICE, p("descriptorSet", DescriptorSet).same_device(), p("descriptorUpdateTemplate", DescriptorUpdateTemplate).same_device()], Effect::None, false),
];

const BUCKETS: usize = 512;

#[inline(always)]
const fn word_at(b: &[u8], at: usize) -> u64 {
    u64::from_le_bytes([b[at], b[at + 1], b[at + 2], b[at + 3], b[at + 4], b[at + 5], b[at + 6], b[at + 7]])
}

/// Condition: at least 8 bytes.
#[inline(always)]
const fn bucket(name: &[u8]) -> usize {
    let head = word_at(name, 0);
    let tail = word_at(name, name.len() - 8);
    let mid = if name.len() >= 16 { word_at(name, 8) } else { 0 };
    let h = head.wrapping_mul(0x9e37_79b9_7f4a_7c15)
        ^ tail.wrapping_mul(0xc2b2_ae3d_27d4_eb4f)
        ^ mid.wrapping_mul(0x1656_67b1_9e37_79f9)
        ^ (name.len() as u64).wrapping_mul(0x2545_f491_4f6c_dd1d);
    (h >> 55) as usize
}

/// Open addressing by name, made at compile time; an entry is the row's index plus one.
static BY_NAME: [u8; BUCKETS] = {
    let mut t = [0u8; BUCKETS];
    let mut i = 0;
    while i < ROWS_LEN {
        let mut b = bucket(NAMES[i].as_bytes());
        while t[b] != 0 {
            b = (b + 1) % BUCKETS;
        }
        t[b] = i as u8 + 1;
        i += 1;
    }
    t
};

const ROWS_LEN: usize = 120;
const NAMES: [&str; ROWS_LEN] = {
    let mut n = [""; ROWS_LEN];
    let mut i = 0;
    while i < ROWS_LEN {
        n[i] = ROWS[i].name;
        i += 1;
    }
    n
};

#[inline]
pub fn find(name: &[u8], rows: usize) -> Option<Cmd> {
    if name.len() < 9 {
        return None;
    }
    let mut b = bucket(name);
    loop {
        match BY_NAME[b] {
            0 => return None,
            n => {
                let i = n as usize - 1;
                if ROWS[i].name.as_bytes() == name {
                    return (i < rows).then_some(i as Cmd);
                }
            }
        }
        b = (b + 1) % BUCKETS;
    }
}
