// Reads a raw log record by record.
#pragma once
#include "raw.h"

#include <cstdint>
#include <string>
#include <vector>

struct Record {
    RecordKind kind;
    uint16_t thread;
    uint16_t row;
    int32_t code;
    const uint64_t* words;  // behind the first two
    uint32_t count;
};

// A text that begins at a word of a record, shorter where the record is.
std::string text_at(const Record& record, uint32_t place);

class RawLog {
public:
    explicit RawLog(const std::string& path);
    bool is_log() const { return is_log_; }
    uint64_t lost_calls() const { return lost_calls_; }
    uint64_t without_row(size_t command) const { return without_row_[command]; }
    // The next whole record, from the first on; false at the end.
    bool next(Record& record);
    void rewind() { at_ = 0; }

private:
    bool is_log_ = false;
    uint64_t lost_calls_ = 0;
    std::vector<uint64_t> without_row_;
    std::vector<uint64_t> words_;
    size_t at_ = 0;
};
