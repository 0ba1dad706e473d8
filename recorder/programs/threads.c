// Programs of several threads. Those that are wrong repeat their calls often enough that some of them overlap.
#include "base.h"

#include <pthread.h>
#include <stddef.h>

enum { most_threads = 4, right_turns = 500, short_threads = 1500, many_threads = 1100 };

int turns = 20000;

typedef void (*Work)(int number);
struct Job {
    Work work;
    int number;
};

static pthread_barrier_t start;
static pthread_mutex_t queue_lock = PTHREAD_MUTEX_INITIALIZER;
static VkCommandPool pools[most_threads];
static VkCommandBuffer commands[most_threads];
static VkBuffer buffer;
static VkDeviceMemory memory;
static VkDescriptorPool descriptor_pool;
static VkDescriptorSetLayout set_layout;
static VkDescriptorSet set;
static VkFence fence;

static void *run_job(void *given) {
    struct Job *job = given;
    pthread_barrier_wait(&start);
    job->work(job->number);
    return NULL;
}

// Runs the work on so many threads, which begin together.
static void beside(Work work, int count) {
    pthread_t threads[most_threads];
    struct Job jobs[most_threads];
    pthread_barrier_init(&start, NULL, (unsigned)count);
    for (int i = 0; i < count; i++) {
        jobs[i] = (struct Job){work, i};
        pthread_create(&threads[i], NULL, run_job, &jobs[i]);
    }
    for (int i = 0; i < count; i++) pthread_join(threads[i], NULL);
    pthread_barrier_destroy(&start);
}

static void make_pools(int count) {
    for (int i = 0; i < count; i++) {
        pools[i] = make_command_pool();
        commands[i] = make_command_buffer(pools[i]);
    }
}

static void destroy_pools(int count) {
    for (int i = 0; i < count; i++) vkDestroyCommandPool(machine.device, pools[i], NULL);
}

static void make_sets(uint32_t bindings) {
    set_layout = make_set_layout(bindings);
    descriptor_pool = make_descriptor_pool();
    set = make_set(descriptor_pool, set_layout);
}

static void destroy_sets(void) {
    vkDestroyDescriptorPool(machine.device, descriptor_pool, NULL);
    vkDestroyDescriptorSetLayout(machine.device, set_layout, NULL);
}

static void bind_often(VkCommandBuffer into, int count) {
    for (int i = 0; i < count; i++) vkCmdBindIndexBuffer(into, buffer, 0, VK_INDEX_TYPE_UINT16);
}

static void record_and_submit(int number) {
    for (int i = 0; i < right_turns; i++) {
        begin_commands(commands[number]);
        bind_often(commands[number], 20);
        vkEndCommandBuffer(commands[number]);
        VkFence own = make_fence();
        pthread_mutex_lock(&queue_lock);
        submit(commands[number], own);
        pthread_mutex_unlock(&queue_lock);
        vkWaitForFences(machine.device, 1, &own, VK_TRUE, UINT64_MAX);
        vkDestroyFence(machine.device, own, NULL);
    }
}

//! threads_right: ours nothing; layer nothing
static void threads_right(void) {
    setup();
    make_pools(4);
    buffer = make_buffer();
    memory = bind_buffer(buffer);
    beside(record_and_submit, 4);
    destroy_pools(4);
    vkDestroyBuffer(machine.device, buffer, NULL);
    vkFreeMemory(machine.device, memory, NULL);
    teardown();
}

static void submit_often(int number) {
    (void)number;
    for (int i = 0; i < turns; i++) submit(VK_NULL_HANDLE, VK_NULL_HANDLE);
}

//! threads_queue: ours VKR-vkQueueSubmit-queue-overlap*some; layer UNASSIGNED-Threading-MultipleThreads
static void threads_queue(void) {
    setup();
    beside(submit_often, 2);
    vkDeviceWaitIdle(machine.device);
    teardown();
}

static void bind_into_first(int number) {
    (void)number;
    bind_often(commands[0], turns);
}

//! threads_command_buffer: ours VKR-vkCmdBindIndexBuffer-commandBuffer-overlap*some; layer
//!    UNASSIGNED-Threading-MultipleThreads
static void threads_command_buffer(void) {
    setup();
    make_pools(1);
    buffer = make_buffer();
    memory = bind_buffer(buffer);
    begin_commands(commands[0]);
    beside(bind_into_first, 2);
    vkEndCommandBuffer(commands[0]);
    destroy_pools(1);
    vkDestroyBuffer(machine.device, buffer, NULL);
    vkFreeMemory(machine.device, memory, NULL);
    teardown();
}

static void bind_into_own(int number) { bind_often(commands[number], turns); }

//! threads_command_pool: ours VKR-vkCmdBindIndexBuffer-commandBuffer-overlap*some; layer
//!    UNASSIGNED-Threading-MultipleThreads
static void threads_command_pool(void) {
    setup();
    make_pools(1);
    commands[1] = make_command_buffer(pools[0]);
    buffer = make_buffer();
    memory = bind_buffer(buffer);
    begin_commands(commands[0]);
    begin_commands(commands[1]);
    beside(bind_into_own, 2);
    vkEndCommandBuffer(commands[0]);
    vkEndCommandBuffer(commands[1]);
    destroy_pools(1);
    vkDestroyBuffer(machine.device, buffer, NULL);
    vkFreeMemory(machine.device, memory, NULL);
    teardown();
}

//! threads_own_pools: ours nothing; layer nothing
static void threads_own_pools(void) {
    setup();
    make_pools(2);
    buffer = make_buffer();
    memory = bind_buffer(buffer);
    begin_commands(commands[0]);
    begin_commands(commands[1]);
    beside(bind_into_own, 2);
    vkEndCommandBuffer(commands[0]);
    vkEndCommandBuffer(commands[1]);
    destroy_pools(2);
    vkDestroyBuffer(machine.device, buffer, NULL);
    vkFreeMemory(machine.device, memory, NULL);
    teardown();
}

static void allocate_often(int number) {
    (void)number;
    for (int i = 0; i < turns; i++) make_set(descriptor_pool, set_layout);
}

//! threads_descriptor_pool: ours VKR-vkAllocateDescriptorSets-descriptorPool-overlap*some; layer
//!    UNASSIGNED-Threading-MultipleThreads
static void threads_descriptor_pool(void) {
    setup();
    make_sets(1);
    beside(allocate_often, 2);
    destroy_sets();
    teardown();
}

static void write_often(int number) {
    for (int i = 0; i < turns; i++) write_set(set, (uint32_t)number, buffer);
}

//! threads_set: ours VKR-vkUpdateDescriptorSets-dstSet-overlap*some; layer UNASSIGNED-Threading-MultipleThreads
static void threads_set(void) {
    setup();
    make_sets(2);
    buffer = make_buffer();
    memory = bind_buffer(buffer);
    beside(write_often, 2);
    destroy_sets();
    vkDestroyBuffer(machine.device, buffer, NULL);
    vkFreeMemory(machine.device, memory, NULL);
    teardown();
}

static void flush_often(int number) {
    (void)number;
    for (int i = 0; i < turns; i++) {
        void *at;
        vkMapMemory(machine.device, memory, 0, VK_WHOLE_SIZE, 0, &at);
        vkUnmapMemory(machine.device, memory);
    }
}

//! threads_memory: ours VKR-vkMapMemory-memory-overlap*some VKR-vkUnmapMemory-memory-overlap*some; layer
//!    UNASSIGNED-Threading-MultipleThreads VUID-vkMapMemory-memory-00678 VUID-vkUnmapMemory-memory-00689
static void threads_memory(void) {
    setup();
    memory = make_memory(4096);
    beside(flush_often, 2);
    vkFreeMemory(machine.device, memory, NULL);
    teardown();
}

static void wait_often(int number) {
    (void)number;
    for (int i = 0; i < turns; i++) vkWaitForFences(machine.device, 1, &fence, VK_TRUE, 0);
}

//! threads_wait: ours nothing; layer nothing
static void threads_wait(void) {
    setup();
    fence = make_fence();
    beside(wait_often, 2);
    vkDestroyFence(machine.device, fence, NULL);
    teardown();
}

static void idle_or_submit(int number) {
    for (int i = 0; i < turns; i++) {
        if (number == 0) {
            vkDeviceWaitIdle(machine.device);
        } else {
            submit(VK_NULL_HANDLE, VK_NULL_HANDLE);
        }
    }
}

//! threads_idle: ours VKR-vkDeviceWaitIdle-device-overlap*some VKR-vkQueueSubmit-queue-overlap*some; layer
//!    UNASSIGNED-Threading-MultipleThreads
static void threads_idle(void) {
    setup();
    beside(idle_or_submit, 2);
    vkDeviceWaitIdle(machine.device);
    teardown();
}

static void make_and_destroy(int number) {
    (void)number;
    vkDestroyFence(machine.device, make_fence(), NULL);
}

//! threads_short: ours nothing; layer nothing
static void threads_short(void) {
    setup();
    for (int i = 0; i < short_threads; i++) beside(make_and_destroy, 1);
    teardown();
}

static void *make_and_hold(void *given) {
    (void)given;
    make_and_destroy(0);
    pthread_barrier_wait(&start);
    return NULL;
}

// More threads at once than a trace has numbers: the calls of those that find none are lost.
//! threads_many: ours nothing; layer nothing
static void threads_many(void) {
    static pthread_t threads[many_threads];
    setup();
    pthread_barrier_init(&start, NULL, many_threads + 1);
    for (int i = 0; i < many_threads; i++) pthread_create(&threads[i], NULL, make_and_hold, NULL);
    pthread_barrier_wait(&start);
    for (int i = 0; i < many_threads; i++) pthread_join(threads[i], NULL);
    pthread_barrier_destroy(&start);
    teardown();
}

const struct Entry thread_programs[] = {
    {"threads_right", threads_right},
    {"threads_queue", threads_queue},
    {"threads_command_buffer", threads_command_buffer},
    {"threads_command_pool", threads_command_pool},
    {"threads_own_pools", threads_own_pools},
    {"threads_descriptor_pool", threads_descriptor_pool},
    {"threads_set", threads_set},
    {"threads_memory", threads_memory},
    {"threads_wait", threads_wait},
    {"threads_idle", threads_idle},
    {"threads_short", threads_short},
    {"threads_many", threads_many},
    {NULL, NULL},
};
