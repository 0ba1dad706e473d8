// One call that passes the layer, and what of it is logged.
#pragma once
#include "log.h"

#include <cstdint>
#include <string>
#include <type_traits>
#include <vector>

// A thread's number, 1 to 1,024, and the room in which it builds its records.
class ThreadState {
public:
    ThreadState() = default;
    ThreadState(const ThreadState&) = delete;
    ThreadState& operator=(const ThreadState&) = delete;
    ~ThreadState();
    // The number, 0 where 1,024 other threads have one. It is taken at the first call and given back when the thread
    // ends.
    uint16_t number();

    std::vector<uint64_t> record;
    int depth = 0;

private:
    uint16_t number_ = 0;
};

ThreadState& this_thread();

template <class Handle>
uint64_t bits_of(Handle handle) {
    if constexpr (std::is_pointer_v<Handle>) {
        return reinterpret_cast<uint64_t>(handle);
    } else {
        return static_cast<uint64_t>(handle);
    }
}

// The begin is logged before the call goes down, so that a call that crashes below is seen; the return when it comes
// back. No lock is held in between. A call that comes while its thread is in another one is made by a layer and isn't
// logged.
class Call {
public:
    explicit Call(uint16_t row);
    Call(const Call&) = delete;
    Call& operator=(const Call&) = delete;
    ~Call() { thread_.depth--; }

    template <class Handle>
    void one(Handle handle) {
        if (logged_) thread_.record.push_back(bits_of(handle));
    }
    void open_list() {
        if (logged_) list_ = thread_.record.size(), thread_.record.push_back(0);
    }
    template <class Handle>
    void item(Handle handle) {
        if (logged_) thread_.record.push_back(bits_of(handle)), thread_.record[list_]++;
    }
    void close_list() {}
    // Each parameter but the first is logged as a list, and stands for as many calls.
    void spread() { kind_ = RecordKind::spread; }
    void payload(const std::string& text) {
        if (logged_) add_text(thread_.record, text.data(), text.size());
    }
    void goes_down();
    template <class Handle>
    void results(uint32_t count, const Handle* handles) {
        if (!logged_) return;
        for (uint32_t i = 0; handles != nullptr && i < count; i++) results_.push_back(bits_of(handles[i]));
    }
    void returned(int32_t code = 0);

private:
    ThreadState& thread_;
    std::vector<uint64_t> results_;
    size_t list_ = 0;
    uint16_t row_;
    RecordKind kind_ = RecordKind::begin;
    bool logged_;
};

// A call of a command that has no row.
inline void count_call(uint16_t command) {
    Log& log = Log::get();
    if (log.is_on() && this_thread().depth == 0) log.count_without_row(command);
}
