// VK_LAYER_ROKPUFA_record: logs the calls that pass it, by the loader's interface for layers, version 2.
#include <vulkan/vulkan.h>
#include <vulkan/vk_layer.h>

#include "rows.h"
#include "call.h"
#include "wrappers.h"

#include <algorithm>
#include <array>
#include <atomic>
#include <cstdio>
#include <cstdlib>
#include <cstring>
#include <memory>
#include <mutex>
#include <vector>

namespace {

static_assert(std::size(commands_without_row) <= most_commands_without_row);

// An instance or a device with what stands below it.
struct Chain {
    void* key = nullptr;
    VkInstance instance = VK_NULL_HANDLE;
    PFN_vkGetInstanceProcAddr get_of_instance = nullptr;
    PFN_vkGetDeviceProcAddr get_of_device = nullptr;
    Next next;
};

// The living chains. A chain is never freed, since a thread may still be in a call of it, and isn't changed once it is
// found here.
struct Chains {
    std::array<std::atomic<Chain*>, 256> living{};
    std::mutex lock;
    std::vector<std::unique_ptr<Chain>> all;
};

Chains& chains() {
    static Chains* const all = new Chains();
    return *all;
}

// The word that the loader keeps at the front of a dispatchable handle: one for all handles of an instance, or of a
// device.
template <class Handle>
void* key_of(Handle handle) {
    void* key = nullptr;
    std::memcpy(&key, reinterpret_cast<const void*>(handle), sizeof key);
    return key;
}

Chain* find_chain(const void* key) {
    for (const std::atomic<Chain*>& place : chains().living) {
        Chain* chain = place.load(std::memory_order_acquire);
        if (chain != nullptr && chain->key == key) return chain;
    }
    return nullptr;
}

template <class Handle>
Chain& chain_of(Handle handle) {
    Chain* chain = find_chain(key_of(handle));
    if (chain == nullptr) {
        std::fprintf(stderr, "VK_LAYER_ROKPUFA_record: a call on a handle of no living instance or device\n");
        std::abort();
    }
    return *chain;
}

bool add_chain(std::unique_ptr<Chain> chain) {
    Chains& set = chains();
    std::lock_guard<std::mutex> guard(set.lock);
    for (std::atomic<Chain*>& place : set.living) {
        if (place.load(std::memory_order_relaxed) != nullptr) continue;
        place.store(chain.get(), std::memory_order_release);
        set.all.push_back(std::move(chain));
        return true;
    }
    return false;
}

void remove_chain(const Chain& chain) {
    for (std::atomic<Chain*>& place : chains().living) {
        if (place.load(std::memory_order_relaxed) == &chain) place.store(nullptr, std::memory_order_release);
    }
}

// The loader's link to the next layer in the list of structures that an application and the loader give.
template <class Link>
Link* find_link(const void* first, VkStructureType type) {
    auto* at = static_cast<const VkBaseInStructure*>(first);
    for (; at != nullptr; at = at->pNext) {
        auto* link = reinterpret_cast<const Link*>(at);
        if (at->sType == type && link->function == VK_LAYER_LINK_INFO) return const_cast<Link*>(link);
    }
    return nullptr;
}

std::string joined_layers(const VkInstanceCreateInfo& info) {
    std::string names;
    for (uint32_t i = 0; i < info.enabledLayerCount; i++)
        names += (i > 0 ? "," : "") + std::string(info.ppEnabledLayerNames[i]);
    return names;
}

void note_instance(const VkInstanceCreateInfo& info) {
    Log& log = Log::get();
    log.note("program", program_invocation_name);
    const char* forced = std::getenv("VK_INSTANCE_LAYERS");
    const std::string names = joined_layers(info);
    log.note("layers",
             (forced != nullptr ? std::string(forced) : "") + (names.empty() ? "" : ", by the application " + names));
}

void note_driver(const Chain& chain, VkPhysicalDevice physical_device) {
    VkPhysicalDeviceProperties properties{};
    chain.next.vkGetPhysicalDeviceProperties(physical_device, &properties);
    const uint32_t version = properties.apiVersion;
    Log::get().note("driver", std::string(properties.deviceName) + ", Vulkan " +
                                  std::to_string(VK_API_VERSION_MAJOR(version)) + "." +
                                  std::to_string(VK_API_VERSION_MINOR(version)) + "." +
                                  std::to_string(VK_API_VERSION_PATCH(version)));
}

VKAPI_ATTR VkResult VKAPI_CALL record_vkCreateInstance(const VkInstanceCreateInfo* info,
                                                       const VkAllocationCallbacks* allocator, VkInstance* instance) {
    auto* link = find_link<VkLayerInstanceCreateInfo>(info->pNext, VK_STRUCTURE_TYPE_LOADER_INSTANCE_CREATE_INFO);
    if (link == nullptr) return VK_ERROR_INITIALIZATION_FAILED;
    auto chain = std::make_unique<Chain>();
    chain->get_of_instance = link->u.pLayerInfo->pfnNextGetInstanceProcAddr;
    link->u.pLayerInfo = link->u.pLayerInfo->pNext;
    auto create = reinterpret_cast<PFN_vkCreateInstance>(chain->get_of_instance(nullptr, "vkCreateInstance"));
    note_instance(*info);
    Call call(row_of_vkCreateInstance);
    const std::string names = joined_layers(*info);
    if (!names.empty()) call.payload(names);
    call.goes_down();
    const VkResult result = create(info, allocator, instance);
    if (result == VK_SUCCESS) {
        chain->key = key_of(*instance);
        chain->instance = *instance;
        fill_of_instance(chain->next, *instance, chain->get_of_instance);
        add_chain(std::move(chain));
    }
    call.results(result == VK_SUCCESS ? 1 : 0, instance);
    call.returned(result);
    return result;
}

VKAPI_ATTR void VKAPI_CALL record_vkDestroyInstance(VkInstance instance, const VkAllocationCallbacks* allocator) {
    if (instance == VK_NULL_HANDLE) return;
    Call call(row_of_vkDestroyInstance);
    call.one(instance);
    call.goes_down();
    const Chain& chain = chain_of(instance);
    remove_chain(chain);
    chain.next.vkDestroyInstance(instance, allocator);
    call.returned();
}

VKAPI_ATTR VkResult VKAPI_CALL record_vkCreateDevice(VkPhysicalDevice physical_device, const VkDeviceCreateInfo* info,
                                                     const VkAllocationCallbacks* allocator, VkDevice* device) {
    auto* link = find_link<VkLayerDeviceCreateInfo>(info->pNext, VK_STRUCTURE_TYPE_LOADER_DEVICE_CREATE_INFO);
    if (link == nullptr) return VK_ERROR_INITIALIZATION_FAILED;
    const Chain& above = chain_of(physical_device);
    auto chain = std::make_unique<Chain>();
    chain->instance = above.instance;
    chain->get_of_instance = link->u.pLayerInfo->pfnNextGetInstanceProcAddr;
    chain->get_of_device = link->u.pLayerInfo->pfnNextGetDeviceProcAddr;
    link->u.pLayerInfo = link->u.pLayerInfo->pNext;
    auto create = reinterpret_cast<PFN_vkCreateDevice>(chain->get_of_instance(above.instance, "vkCreateDevice"));
    note_driver(above, physical_device);
    Call call(row_of_vkCreateDevice);
    call.one(physical_device);
    call.goes_down();
    const VkResult result = create(physical_device, info, allocator, device);
    if (result == VK_SUCCESS) {
        chain->key = key_of(*device);
        fill_of_device(chain->next, *device, chain->get_of_device);
        add_chain(std::move(chain));
    }
    call.results(result == VK_SUCCESS ? 1 : 0, device);
    call.returned(result);
    return result;
}

VKAPI_ATTR void VKAPI_CALL record_vkDestroyDevice(VkDevice device, const VkAllocationCallbacks* allocator) {
    if (device == VK_NULL_HANDLE) return;
    Call call(row_of_vkDestroyDevice);
    call.one(device);
    call.goes_down();
    const Chain& chain = chain_of(device);
    remove_chain(chain);
    chain.next.vkDestroyDevice(device, allocator);
    call.returned();
}

const Wrapper wrappers_by_hand[] = {
    {"vkCreateInstance", reinterpret_cast<PFN_vkVoidFunction>(record_vkCreateInstance), false},
    {"vkDestroyInstance", reinterpret_cast<PFN_vkVoidFunction>(record_vkDestroyInstance), false},
    {"vkCreateDevice", reinterpret_cast<PFN_vkVoidFunction>(record_vkCreateDevice), false},
    {"vkDestroyDevice", reinterpret_cast<PFN_vkVoidFunction>(record_vkDestroyDevice), true},
};

const Wrapper* find_wrapper(const char* name) {
    for (const Wrapper& wrapper : wrappers_by_hand) {
        if (std::strcmp(wrapper.name, name) == 0) return &wrapper;
    }
    const Wrapper* found = std::lower_bound(
        std::begin(wrappers), std::end(wrappers), name,
        [](const Wrapper& wrapper, const char* wanted) { return std::strcmp(wrapper.name, wanted) < 0; });
    return found != std::end(wrappers) && std::strcmp(found->name, name) == 0 ? found : nullptr;
}

// What the layer answers where the next one answers `below`: nothing where that has nothing, as for an extension that
// isn't on.
PFN_vkVoidFunction over(const char* name, PFN_vkVoidFunction below, bool of_device_alone) {
    if (below == nullptr) return nullptr;
    const Wrapper* wrapper = find_wrapper(name);
    return wrapper != nullptr && (wrapper->of_device || !of_device_alone) ? wrapper->function : below;
}

VKAPI_ATTR PFN_vkVoidFunction VKAPI_CALL get_of_device(VkDevice device, const char* name) {
    if (std::strcmp(name, "vkGetDeviceProcAddr") == 0) return reinterpret_cast<PFN_vkVoidFunction>(get_of_device);
    return over(name, chain_of(device).get_of_device(device, name), true);
}

VKAPI_ATTR PFN_vkVoidFunction VKAPI_CALL get_of_instance(VkInstance instance, const char* name) {
    if (std::strcmp(name, "vkGetInstanceProcAddr") == 0) return reinterpret_cast<PFN_vkVoidFunction>(get_of_instance);
    if (std::strcmp(name, "vkGetDeviceProcAddr") == 0) return reinterpret_cast<PFN_vkVoidFunction>(get_of_device);
    if (std::strcmp(name, "vkCreateInstance") == 0)
        return reinterpret_cast<PFN_vkVoidFunction>(record_vkCreateInstance);
    if (instance == VK_NULL_HANDLE) return nullptr;
    return over(name, chain_of(instance).get_of_instance(instance, name), false);
}

template <class Handle>
const Next& next_of(Handle handle) {
    return chain_of(handle).next;
}

}  // namespace

extern "C" VK_LAYER_EXPORT VKAPI_ATTR VkResult VKAPI_CALL
vkNegotiateLoaderLayerInterfaceVersion(VkNegotiateLayerInterface* versions) {
    if (versions->loaderLayerInterfaceVersion > 2) versions->loaderLayerInterfaceVersion = 2;
    versions->pfnGetInstanceProcAddr = get_of_instance;
    versions->pfnGetDeviceProcAddr = get_of_device;
    versions->pfnGetPhysicalDeviceProcAddr = nullptr;
    return VK_SUCCESS;
}
