#include "reader.h"

#include "rows.h"

#include <algorithm>
#include <cstdio>
#include <cstring>
#include <memory>

namespace {

constexpr size_t header_words = sizeof(LogHeader) / 8;

// The first so many words of a file.
std::vector<uint64_t> read_words(std::FILE* file, size_t count) {
    std::vector<uint64_t> words(count);
    words.resize(std::fread(words.data(), 8, count, file));
    return words;
}

}  // namespace

RawLog::RawLog(const std::string& path) {
    std::unique_ptr<std::FILE, int (*)(std::FILE*)> file(std::fopen(path.c_str(), "rb"), std::fclose);
    if (file == nullptr) return;
    const std::vector<uint64_t> header = read_words(file.get(), header_words);
    if (header.size() < header_words || header[0] != log_word) return;
    lost_calls_ = header[3];
    without_row_.assign(header.begin() + 4, header.end());
    if (std::fseek(file.get(), first_record, SEEK_SET) != 0) return;
    words_ = read_words(file.get(), header[2] / 8);
    is_log_ = true;
}

bool RawLog::next(Record& record) {
    while (at_ < words_.size()) {
        const uint64_t head = words_[at_];
        const uint64_t length = head & 0xffffffff;
        if (head >> 48 != log_mark || length < 2 || length > words_.size() - at_) {
            at_++;
            continue;
        }
        const uint64_t* words = words_.data() + at_;
        at_ += length;
        if ((head >> 40 & 0xff) != static_cast<uint64_t>(RecordState::whole)) continue;
        record.kind = static_cast<RecordKind>(head >> 32 & 0xff);
        record.thread = static_cast<uint16_t>(words[1]);
        record.row = static_cast<uint16_t>(words[1] >> 16);
        record.code = static_cast<int32_t>(words[1] >> 32);
        record.words = words + 2;
        record.count = static_cast<uint32_t>(length - 2);
        if (record.row < std::size(rows) && record.thread <= 1024) return true;
    }
    return false;
}

std::string text_at(const Record& record, uint32_t place) {
    if (place >= record.count) return "";
    const uint64_t room = (record.count - place - 1) * uint64_t{8};
    const size_t length = static_cast<size_t>(std::min(record.words[place], room));
    std::string text(length, 0);
    if (length != 0) std::memcpy(text.data(), record.words + place + 1, length);
    return text;
}
