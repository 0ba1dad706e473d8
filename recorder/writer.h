// Writes one trace.
#pragma once
#include "objects.h"

#include <array>
#include <cstdint>
#include <cstdio>
#include <string>
#include <vector>

// A call as it is to be written. An argument that is a null pointer is null.
struct Written {
    uint16_t row = 0;
    uint16_t thread = 0;
    std::vector<std::vector<const Object*>> arguments;
    std::vector<Object*> made;
    std::string code;
    std::string payload;
    uint64_t microseconds = 0;
};

class TraceWriter {
public:
    TraceWriter(const std::string& path, int version);
    ~TraceWriter();
    TraceWriter(const TraceWriter&) = delete;
    TraceWriter& operator=(const TraceWriter&) = delete;

    bool failed() const { return failed_; }
    uint64_t calls() const { return calls_; }
    // Whether a limit of the trace's readers is near; nothing more is written then.
    bool is_full() const { return full_; }
    void comment(const std::string& text);
    // Writes the begin of a call and gives names to what it made. A call with a list that is too long becomes several.
    void begin(const Written& call);
    void back(uint16_t thread);
    // Gives a return to each call that is open.
    void close(const std::string& why);

private:
    void begin_piece(const Written& call, size_t from, size_t places, bool is_last);
    void line(const std::string& text);

    std::FILE* file_;
    int version_;
    uint64_t calls_ = 0;
    uint64_t lines_ = 0;
    uint64_t names_ = 0;
    bool full_ = false;
    bool failed_ = false;
    std::string text_;
    std::array<uint32_t, 1025> last_number_{};
    std::array<bool, 1025> is_open_{};
};

// A text of bytes 0x20 to 0x7E.
std::string printable(const std::string& text);
std::string spelled(Name name);
