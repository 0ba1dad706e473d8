#include "writer.h"

#include <algorithm>

namespace {

// The limits of vkreplay on a trace, less what it takes to end one.
constexpr uint64_t most_lines = 16777216 - 8192;
constexpr uint64_t most_names = 4194304 - 2048;
constexpr size_t most_places = 1024;

// Places of a list that one call takes: so many that its line stays below 65,536 bytes.
size_t places_of(const Row& row) {
    size_t lists =
        row.effect.kind == EffectKind::new_many_object || row.effect.kind == EffectKind::get_many_object ? 1 : 0;
    for (size_t i = 0; i < row.param_count; i++) lists += row.params[i].many ? 1 : 0;
    return lists > 4 ? most_places / 2 : most_places;
}

void add_name(std::string& text, const Object* object) { text += object == nullptr ? "null" : spelled(object->name); }

}  // namespace

std::string printable(const std::string& text) {
    std::string out = text;
    for (char& letter : out) {
        if (letter < 0x20 || letter > 0x7e) letter = '?';
    }
    return out;
}

std::string spelled(Name name) { return "%" + std::to_string(name.thread) + "." + std::to_string(name.number); }

TraceWriter::TraceWriter(const std::string& path, int version)
    : file_(std::fopen(path.c_str(), "wb")), version_(version) {
    failed_ = file_ == nullptr;
    line("vktrace " + std::to_string(version));
}

TraceWriter::~TraceWriter() {
    if (file_ != nullptr) std::fclose(file_);
}

void TraceWriter::line(const std::string& text) {
    lines_++;
    if (file_ == nullptr) return;
    if (std::fwrite(text.data(), 1, text.size(), file_) != text.size() || std::fputc('\n', file_) == EOF)
        failed_ = true;
}

void TraceWriter::comment(const std::string& text) {
    if (version_ >= 2) line("# " + printable(text));
}

void TraceWriter::begin(const Written& call) {
    if (is_open_[call.thread]) back(call.thread);
    full_ = full_ || lines_ >= most_lines || names_ >= most_names;
    if (full_) return;
    const size_t places = places_of(rows[call.row]);
    size_t longest = std::max<size_t>(call.made.size(), 1);
    for (const auto& list : call.arguments) longest = std::max(longest, list.size());
    for (size_t from = 0; from < longest; from += places) begin_piece(call, from, places, from + places >= longest);
    is_open_[call.thread] = true;
}

void TraceWriter::begin_piece(const Written& call, size_t from, size_t places, bool is_last) {
    const Row& row = rows[call.row];
    text_ = "b " + std::to_string(call.thread) + " " + row.name;
    for (size_t i = 0; i < row.param_count; i++) {
        const auto& list = call.arguments[i];
        text_ += ' ';
        if (!row.params[i].many) {
            add_name(text_, list[0]);
            continue;
        }
        text_ += '[';
        for (size_t k = from; k < std::min(list.size(), from + places); k++) {
            if (k > from) text_ += ',';
            add_name(text_, list[k]);
        }
        text_ += ']';
    }
    for (size_t k = from; k < std::min(call.made.size(), from + places); k++) {
        call.made[k]->name = {call.thread, ++last_number_[call.thread]};
        names_++;
        text_ += k == from ? " = " : ",";
        add_name(text_, call.made[k]);
    }
    text_ += " " + call.code;
    if (!call.payload.empty()) text_ += " : " + printable(call.payload);
    line(text_);
    calls_++;
    if (calls_ % 1000 == 0)
        comment("call " + std::to_string(calls_) + " at " + std::to_string(call.microseconds) + " us");
    if (!is_last) line("r " + std::to_string(call.thread));
}

void TraceWriter::back(uint16_t thread) {
    if (!is_open_[thread]) return;
    is_open_[thread] = false;
    line("r " + std::to_string(thread));
}

void TraceWriter::close(const std::string& why) {
    for (uint16_t thread = 1; thread <= 1024; thread++) {
        if (!is_open_[thread]) continue;
        comment(why + " thread " + std::to_string(thread));
        back(thread);
    }
    if (file_ != nullptr && std::fflush(file_) != 0) failed_ = true;
}
