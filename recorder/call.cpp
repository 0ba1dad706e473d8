#include "call.h"

#include <ctime>
#include <mutex>

namespace {

constexpr uint16_t most_threads = 1024;

// The numbers that are free: those that were given back, and those from `next` on.
struct Numbers {
    std::mutex lock;
    std::vector<uint16_t> back;
    uint16_t next = 1;
};

Numbers& numbers() {
    static Numbers* const all = new Numbers();
    return *all;
}

uint64_t nanoseconds() {
    timespec now{};
    clock_gettime(CLOCK_MONOTONIC, &now);
    return static_cast<uint64_t>(now.tv_sec) * 1'000'000'000 + static_cast<uint64_t>(now.tv_nsec);
}

}  // namespace

uint16_t ThreadState::number() {
    if (number_ != 0) return number_;
    Numbers& all = numbers();
    std::lock_guard<std::mutex> guard(all.lock);
    if (!all.back.empty()) {
        number_ = all.back.back();
        all.back.pop_back();
    } else if (all.next <= most_threads) {
        number_ = all.next++;
    }
    return number_;
}

ThreadState::~ThreadState() {
    if (number_ == 0) return;
    Numbers& all = numbers();
    std::lock_guard<std::mutex> guard(all.lock);
    all.back.push_back(number_);
}

ThreadState& this_thread() {
    thread_local ThreadState state;
    return state;
}

Call::Call(uint16_t row) : thread_(this_thread()), row_(row) {
    Log& log = Log::get();
    logged_ = thread_.depth++ == 0 && log.is_on();
    if (!logged_) return;
    const uint16_t number = thread_.number();
    if (number == 0) {
        logged_ = false;
        log.count_lost();
        return;
    }
    thread_.record.assign({0, call_word(number, row, 0), 0});
}

void Call::goes_down() {
    if (!logged_) return;
    thread_.record[2] = nanoseconds();
    Log::get().append(thread_.record, kind_);
}

void Call::returned(int32_t code) {
    if (!logged_) return;
    thread_.record.assign({0, call_word(thread_.number(), row_, code)});
    thread_.record.insert(thread_.record.end(), results_.begin(), results_.end());
    Log::get().append(thread_.record, RecordKind::back);
}
