// The log of one process: a file that is mapped once, far beyond its end, and grown in steps.
#pragma once
#include "raw.h"

#include <atomic>
#include <cstdint>
#include <mutex>
#include <string>
#include <vector>

class Log {
public:
    // The log of this process, opened at the first use. It is never closed: what was written outlives the process.
    static Log& get();

    bool is_on() const { return on_.load(std::memory_order_relaxed); }
    // Appends a record, whose first word this sets. The place that it takes is the ticket by which all records are
    // ordered.
    void append(std::vector<uint64_t>& record, RecordKind kind);
    void note(const std::string& key, const std::string& value);
    void count_without_row(uint16_t command);
    void count_lost();
    void stop() { on_.store(false, std::memory_order_relaxed); }

private:
    Log();
    bool open_file();
    bool grow_to(uint64_t size);

    std::atomic<bool> on_{false};
    std::atomic<uint64_t> size_{0};
    std::mutex growing_;
    int file_ = -1;
    char* bytes_ = nullptr;
    LogHeader* header_ = nullptr;
};

// Appends a text to a record.
void add_text(std::vector<uint64_t>& record, const char* text, size_t length);
