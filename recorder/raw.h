// The raw log: what the layer writes and the converter reads. All numbers are 64-bit words in the machine's order of
// bytes.
//
// The file begins with a LogHeader, and with records from `first_record` on. A record is
//   word 0   its length in words (32 bits), its kind (8), its state (8), the mark (16)
//   word 1   the thread (16 bits), the row (16), a code (32)
//   ..       by its kind:
//   begin    nanoseconds; for each parameter of the row the handle, or for a list their number and the handles; then a
//            text or nothing
//   spread   the same, where each parameter but the first is a list: one call for each place
//   back     the handles that the call gave
//   label    a handle, and the name that the program gives it; its object type stands as the code
//   note     a text "KEY VALUE"
// A text is its number of bytes in one word, and the bytes, filled up with zeros.
//
// Records stand in the order in which they took their places. A record whose state isn't `whole` was cut by the end
// of its thread; where a record has no first word, the next one begins at the next word that isn't zero.
#pragma once
#include <atomic>
#include <cstddef>
#include <cstdint>

constexpr uint64_t log_mark = 0x6b76;
constexpr uint64_t log_word = 0x31676f6c6b7672;
constexpr size_t most_commands_without_row = 1000;
constexpr size_t first_record = 8192;

enum class RecordKind : uint8_t { begin = 1, spread = 2, back = 3, label = 4, note = 5 };
enum class RecordState : uint8_t { open = 0, whole = 1 };

struct LogHeader {
    uint64_t word;
    uint64_t process;
    std::atomic<uint64_t> position;    // bytes that records have taken
    std::atomic<uint64_t> lost_calls;  // calls that found no thread number or no room
    std::atomic<uint64_t> without_row[most_commands_without_row];
};
static_assert(sizeof(LogHeader) <= first_record);
static_assert(std::atomic<uint64_t>::is_always_lock_free && sizeof(std::atomic<uint64_t>) == 8);

constexpr uint64_t head_word(uint64_t length, RecordKind kind, RecordState state) {
    return length | static_cast<uint64_t>(kind) << 32 | static_cast<uint64_t>(state) << 40 | log_mark << 48;
}

constexpr uint64_t call_word(uint16_t thread, uint16_t row, int32_t code) {
    return thread | static_cast<uint64_t>(row) << 16 | static_cast<uint64_t>(static_cast<uint32_t>(code)) << 32;
}
