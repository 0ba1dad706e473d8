// vkrecord_convert VERSION OUT LOG..: writes the traces of raw logs, OUT.trace, OUT.2.trace and so on, one for each
// instance, and beside each the names that the program gave its objects, as OUT.names, OUT.2.names. The last line on
// standard error says what was recorded.
#include "objects.h"
#include "reader.h"
#include "writer.h"

#include <algorithm>
#include <cstdio>
#include <cstdlib>
#include <map>
#include <memory>
#include <set>
#include <string>
#include <vector>

namespace {

constexpr size_t most_names_bytes = 1048576;
constexpr size_t longest_label = 128;

struct Summary {
    uint64_t calls = 0;
    uint64_t without_row = 0;
    uint64_t unknown_handle = 0;
    uint64_t lost = 0;
    uint64_t failed_instances = 0;
    uint64_t beyond_limit = 0;
    std::map<std::string, uint64_t> names_without_row;
    size_t threads = 0;
};

// The words of the codes that a trace knows.
const std::map<int32_t, const char*> code_words = {
    {0, "VK_SUCCESS"},
    {1, "VK_NOT_READY"},
    {2, "VK_TIMEOUT"},
    {3, "VK_EVENT_SET"},
    {4, "VK_EVENT_RESET"},
    {5, "VK_INCOMPLETE"},
    {1000001003, "VK_SUBOPTIMAL_KHR"},
    {-1, "VK_ERROR_OUT_OF_HOST_MEMORY"},
    {-2, "VK_ERROR_OUT_OF_DEVICE_MEMORY"},
    {-3, "VK_ERROR_INITIALIZATION_FAILED"},
    {-4, "VK_ERROR_DEVICE_LOST"},
    {-5, "VK_ERROR_MEMORY_MAP_FAILED"},
    {-6, "VK_ERROR_LAYER_NOT_PRESENT"},
    {-7, "VK_ERROR_EXTENSION_NOT_PRESENT"},
    {-8, "VK_ERROR_FEATURE_NOT_PRESENT"},
    {-9, "VK_ERROR_INCOMPATIBLE_DRIVER"},
    {-10, "VK_ERROR_TOO_MANY_OBJECTS"},
    {-11, "VK_ERROR_FORMAT_NOT_SUPPORTED"},
    {-12, "VK_ERROR_FRAGMENTED_POOL"},
    {-13, "VK_ERROR_UNKNOWN"},
    {-1000069000, "VK_ERROR_OUT_OF_POOL_MEMORY"},
    {-1000000000, "VK_ERROR_SURFACE_LOST_KHR"},
    {-1000001004, "VK_ERROR_OUT_OF_DATE_KHR"},
    {-1000000001, "VK_ERROR_NATIVE_WINDOW_IN_USE_KHR"},
    {-1000011001, "VK_ERROR_VALIDATION_FAILED_EXT"},
};

// The object types of the numbers of VkObjectType.
const std::map<int32_t, ObjectType> label_types = {
    {1, ObjectType::Instance},
    {2, ObjectType::PhysicalDevice},
    {3, ObjectType::Device},
    {4, ObjectType::Queue},
    {5, ObjectType::Semaphore},
    {6, ObjectType::CommandBuffer},
    {7, ObjectType::Fence},
    {8, ObjectType::DeviceMemory},
    {9, ObjectType::Buffer},
    {10, ObjectType::Image},
    {11, ObjectType::Event},
    {12, ObjectType::QueryPool},
    {13, ObjectType::BufferView},
    {14, ObjectType::ImageView},
    {15, ObjectType::ShaderModule},
    {16, ObjectType::PipelineCache},
    {17, ObjectType::PipelineLayout},
    {18, ObjectType::RenderPass},
    {19, ObjectType::Pipeline},
    {20, ObjectType::DescriptorSetLayout},
    {21, ObjectType::Sampler},
    {22, ObjectType::DescriptorPool},
    {23, ObjectType::DescriptorSet},
    {24, ObjectType::Framebuffer},
    {25, ObjectType::CommandPool},
    {1000000000, ObjectType::Surface},
    {1000001000, ObjectType::Swapchain},
    {1000085000, ObjectType::DescriptorUpdateTemplate},
};

bool is_many(EffectKind kind) { return kind == EffectKind::new_many_object || kind == EffectKind::get_many_object; }
bool is_get(EffectKind kind) { return kind == EffectKind::get_object || kind == EffectKind::get_many_object; }
bool is_one(EffectKind kind) { return kind == EffectKind::new_object || kind == EffectKind::get_object; }

// What a begin needs to know of its return: whether there is one, its code, and the handles that the call gave.
struct Back {
    bool is_there = false;
    int32_t code = 0;
    std::vector<uint64_t> handles;
};

// One of the traces that are written.
struct Trace {
    std::unique_ptr<TraceWriter> writer;
    std::string names_path;
    std::vector<const Object*> labelled;
    std::map<const Object*, std::string> labels;
};

struct Settings {
    int version = 1;
    std::string out;
};

// Turns one log into traces.
class Converter {
public:
    Converter(const Settings& settings, RawLog& log, std::vector<Trace>& traces, Summary& summary)
        : settings_(settings), log_(log), traces_(traces), summary_(summary) {}
    void run();

private:
    // A call that is open: what it makes is born when it comes back.
    struct Open {
        bool is_written = false;
        uint32_t trace = 0;
        std::vector<Object*> born;
        bool is_given = false;
    };

    void pair_returns();
    void begin(const Record& record);
    void back(uint16_t thread);
    void label(const Record& record);
    void keep_label(const Object* before, const Object* now);
    bool read_arguments(const Record& record, Written& call, uint32_t& place);
    bool resolve(const RowParam& param, uint64_t handle, std::vector<const Object*>& into);
    bool open_trace(const Back& back);
    void write(const Record& record, Written& call, const Back& back);
    void write_pieces(const Record& record, Written& call, const Back& back, TraceWriter& writer);
    void apply_end(const Row& row, const Written& call);
    Object* owner_of_made(const Row& row, const Written& call) const;
    void leave_out(const char* command);

    const Settings& settings_;
    RawLog& log_;
    std::vector<Trace>& traces_;
    Summary& summary_;
    Objects objects_;
    std::vector<Back> backs_;
    std::vector<uint32_t> back_of_;
    std::vector<std::pair<std::string, std::string>> notes_;
    std::array<Open, 1025> open_;
    std::set<uint16_t> threads_;
    size_t next_begin_ = 0;
    size_t first_trace_ = 0;
    uint64_t first_time_ = 0;
    bool any_instance_ = false;
    uint32_t trace_ = 0;
};

constexpr uint32_t no_back = 0;
constexpr uint32_t plain_back = 1;

// The first pass: which return each begin has. Returns that have no handles and the code 0 are one.
void Converter::pair_returns() {
    std::array<uint32_t, 1025> begin_of{};
    std::array<bool, 1025> is_open{};
    backs_ = {Back{}, Back{true, 0, {}}};
    Record record{};
    while (log_.next(record)) {
        if (record.kind == RecordKind::note) {
            const std::string text = text_at(record, 0);
            const size_t blank = text.find(' ');
            if (blank != std::string::npos) notes_.emplace_back(text.substr(0, blank), text.substr(blank + 1));
        } else if (record.kind == RecordKind::begin || record.kind == RecordKind::spread) {
            begin_of[record.thread] = static_cast<uint32_t>(back_of_.size());
            is_open[record.thread] = true;
            back_of_.push_back(no_back);
        } else if (record.kind == RecordKind::back && is_open[record.thread]) {
            is_open[record.thread] = false;
            uint32_t number = plain_back;
            if (record.code != 0 || record.count > 0) {
                number = static_cast<uint32_t>(backs_.size());
                backs_.push_back(Back{true, record.code, {record.words, record.words + record.count}});
            }
            back_of_[begin_of[record.thread]] = number;
            if (record.row == row_of_vkCreateInstance && record.code == 0) any_instance_ = true;
        }
    }
    log_.rewind();
}

void Converter::run() {
    pair_returns();
    first_trace_ = traces_.size();
    Record record{};
    while (log_.next(record)) {
        if (record.kind == RecordKind::begin || record.kind == RecordKind::spread) begin(record);
        if (record.kind == RecordKind::back) back(record.thread);
        if (record.kind == RecordKind::label) label(record);
    }
    for (size_t i = first_trace_; i < traces_.size(); i++) {
        traces_[i].writer->close("the program ended within the last call of");
    }
    for (size_t i = 0; i < std::size(commands_without_row); i++) {
        if (log_.without_row(i) == 0) continue;
        summary_.without_row += log_.without_row(i);
        summary_.names_without_row[commands_without_row[i]] += log_.without_row(i);
    }
    summary_.lost += log_.lost_calls();
    summary_.threads += threads_.size();
}

void Converter::leave_out(const char* command) {
    summary_.without_row++;
    summary_.names_without_row[command]++;
}

// The object of a handle goes into a list; false where no recorded call gave it and null may not stand for it.
bool Converter::resolve(const RowParam& param, uint64_t handle, std::vector<const Object*>& into) {
    const Object* object = handle == 0 ? nullptr : objects_.find(param.type, handle);
    const bool is_named = object != nullptr && object->name.number != 0 && object->trace == trace_;
    into.push_back(is_named ? object : nullptr);
    return handle == 0 || is_named || param.optional;
}

// Reads the handles of a begin; false where the record ends too early or a handle isn't known.
bool Converter::read_arguments(const Record& record, Written& call, uint32_t& place) {
    const Row& row = rows[record.row];
    call.arguments.resize(row.param_count);
    bool known = true;
    for (size_t i = 0; i < row.param_count; i++) {
        const bool is_list = row.params[i].many || (record.kind == RecordKind::spread && i > 0);
        if (place >= record.count) return false;
        const uint64_t count = is_list ? record.words[place++] : 1;
        if (count > record.count - place) return false;
        if (i == 0) {
            const Object* first = objects_.find(row.params[0].type, record.words[place]);
            if (first == nullptr) return false;
            trace_ = first->trace;
        }
        for (uint64_t k = 0; k < count; k++) {
            if (!resolve(row.params[i], record.words[place++], call.arguments[i])) known = false;
        }
    }
    return known && (row.param_count == 0 || call.arguments[0][0] != nullptr);
}

// Opens the trace of a vkCreateInstance, which has one where it succeeds, or where none of the log does.
bool Converter::open_trace(const Back& back) {
    const bool succeeds = back.is_there && back.code == 0;
    if (!succeeds && (any_instance_ || traces_.size() > first_trace_)) return false;
    const size_t number = traces_.size() + 1;
    const std::string stem = settings_.out + (number > 1 ? "." + std::to_string(number) : "");
    Trace trace;
    trace.writer = std::make_unique<TraceWriter>(stem + ".trace", settings_.version);
    trace.names_path = stem + ".names";
    std::set<std::string> said;
    for (const auto& [key, value] : notes_) {
        if (said.insert(key + value).second) trace.writer->comment(key + ": " + value);
    }
    trace_ = static_cast<uint32_t>(traces_.size());
    traces_.push_back(std::move(trace));
    return true;
}

void Converter::begin(const Record& record) {
    const Back& back = backs_[back_of_[next_begin_++]];
    const Row& row = rows[record.row];
    threads_.insert(record.thread);
    Open& open = open_[record.thread];
    if (open.is_written) this->back(record.thread);
    open.is_written = false;
    if (row.version > settings_.version) return leave_out(row.name);
    Written call;
    call.row = record.row;
    call.thread = record.thread;
    if (record.count == 0) return;
    if (first_time_ == 0) first_time_ = record.words[0];
    call.microseconds = (record.words[0] - first_time_) / 1000;
    uint32_t place = 1;
    if (record.row == row_of_vkCreateInstance) {
        if (!open_trace(back)) {
            summary_.failed_instances++;
            return;
        }
    } else if (!read_arguments(record, call, place)) {
        summary_.unknown_handle++;
        return;
    }
    call.payload = text_at(record, place);
    write(record, call, back);
}

// What a call made belongs to the object that its row says.
Object* Converter::owner_of_made(const Row& row, const Written& call) const {
    if (row.effect.owner == Owner::nobody) return nullptr;
    auto* object = const_cast<Object*>(call.arguments[row.effect.place][0]);
    return object != nullptr && row.effect.owner == Owner::owner_of_parameter ? object->owner : object;
}

void Converter::apply_end(const Row& row, const Written& call) {
    const EffectKind kind = row.effect.kind;
    if (kind != EffectKind::destroy_object && kind != EffectKind::free_object && kind != EffectKind::reset_object)
        return;
    for (const Object* object : call.arguments[row.effect.place]) {
        auto* ended = const_cast<Object*>(object);
        if (ended == nullptr) continue;
        if (kind == EffectKind::reset_object) {
            objects_.end_children(ended);
        } else {
            objects_.end(ended);
        }
    }
}

// The word of a code. One that has none here is a success where it isn't negative.
std::string word_of(const Row& row, const Back& back) {
    if (!row.returns_code) return "void";
    if (!back.is_there) return "VK_ERROR_UNKNOWN";
    auto found = code_words.find(back.code);
    if (found != code_words.end()) return found->second;
    return back.code < 0 ? "VK_ERROR_UNKNOWN" : "VK_SUCCESS";
}

void Converter::write(const Record& record, Written& call, const Back& back) {
    const Row& row = rows[record.row];
    TraceWriter& writer = *traces_[trace_].writer;
    call.code = word_of(row, back);
    if (row.returns_code && back.is_there && code_words.count(back.code) == 0) {
        writer.comment(std::string(row.name) + " answered " + std::to_string(back.code) + ", which has no word here");
    }
    Object* owner = owner_of_made(row, call);
    for (uint64_t handle : back.handles) call.made.push_back(objects_.make(row.effect.made, handle, owner, trace_));
    if (is_one(row.effect.kind) && call.made.empty())
        call.made.push_back(objects_.make(row.effect.made, 0, owner, trace_));
    if (!is_one(row.effect.kind) && !is_many(row.effect.kind)) call.made.clear();
    const uint64_t before = writer.calls();
    write_pieces(record, call, back, writer);
    if (writer.is_full()) {
        summary_.beyond_limit++;
        return;
    }
    summary_.calls += writer.calls() > before ? 1 : 0;
    apply_end(row, call);
    Open& open = open_[record.thread];
    open.is_written = true;
    open.trace = trace_;
    open.is_given = is_get(row.effect.kind);
    open.born.clear();
    const bool is_born = !row.returns_code || (back.is_there && back.code >= 0) || is_many(row.effect.kind);
    for (Object* object : call.made) {
        if (is_born && object->handle != 0) open.born.push_back(object);
    }
}

// Most calls are one piece. A spread one is one for each place of its lists; a creation that succeeded in part is two,
// one for what came and one for what didn't.
void Converter::write_pieces(const Record& record, Written& call, const Back& back, TraceWriter& writer) {
    if (record.kind == RecordKind::spread) {
        size_t count = call.arguments.back().size();
        for (size_t i = 1; i < call.arguments.size(); i++) count = std::min(count, call.arguments[i].size());
        for (size_t k = 0; k < count; k++) {
            Written one = call;
            for (size_t i = 1; i < call.arguments.size(); i++) one.arguments[i] = {call.arguments[i][k]};
            writer.begin(one);
        }
        return;
    }
    auto came = std::stable_partition(call.made.begin(), call.made.end(),
                                      [](const Object* made) { return made->handle != 0; });
    const bool in_part = is_many(rows[call.row].effect.kind) && back.code != 0 && came != call.made.begin() &&
                         !is_get(rows[call.row].effect.kind);
    if (!in_part) return writer.begin(call);
    Written first = call;
    Written second = call;
    first.code = "VK_SUCCESS";
    first.made.assign(call.made.begin(), came);
    second.made.assign(came, call.made.end());
    second.code = back.code < 0 ? call.code : "VK_ERROR_UNKNOWN";
    writer.begin(first);
    writer.begin(second);
}

void Converter::back(uint16_t thread) {
    Open& open = open_[thread];
    if (!open.is_written) return;
    open.is_written = false;
    traces_[open.trace].writer->back(thread);
    for (Object* object : open.born) {
        if (open.is_given) {
            keep_label(objects_.find(object->type, object->handle), object);
            objects_.give(object);
        } else {
            objects_.bear(object);
        }
    }
}

// A name that the program gave an object stays when a call gives the object again.
void Converter::keep_label(const Object* before, const Object* now) {
    if (before == nullptr || before->trace != now->trace) return;
    Trace& trace = traces_[now->trace];
    auto found = trace.labels.find(before);
    if (found == trace.labels.end()) return;
    trace.labelled.push_back(now);
    trace.labels[now] = std::string(found->second);
}

void Converter::label(const Record& record) {
    auto type = label_types.find(record.code);
    if (type == label_types.end() || record.count == 0) return;
    const Object* object = objects_.find(type->second, record.words[0]);
    if (object == nullptr || object->name.number == 0) return;
    Trace& trace = traces_[object->trace];
    if (trace.labels.count(object) == 0) trace.labelled.push_back(object);
    trace.labels[object] = text_at(record, 1);
}

// Writes the names that a program gave, in the order in which it first gave them.
bool write_names(const Trace& trace) {
    std::string text;
    for (const Object* object : trace.labelled) {
        std::string label = printable(trace.labels.at(object)).substr(0, longest_label);
        std::replace(label.begin(), label.end(), '"', '\'');
        const std::string line = spelled(object->name) + " " + label + "\n";
        if (!label.empty() && text.size() + line.size() <= most_names_bytes) text += line;
    }
    std::FILE* file = std::fopen(trace.names_path.c_str(), "wb");
    if (file == nullptr) return false;
    const bool is_whole = std::fwrite(text.data(), 1, text.size(), file) == text.size();
    return std::fclose(file) == 0 && is_whole;
}

void say(const Summary& summary, const std::string& out, size_t traces) {
    std::vector<std::pair<uint64_t, std::string>> often;
    for (const auto& [name, count] : summary.names_without_row) often.emplace_back(count, name);
    std::sort(often.begin(), often.end(), [](const auto& a, const auto& b) {
        return a.first > b.first || (a.first == b.first && a.second < b.second);
    });
    std::string text = "vkrecord: " + out + ".trace: " + std::to_string(summary.calls) + " calls recorded, " +
                       std::to_string(summary.without_row) + " without a row";
    for (size_t i = 0; i < std::min<size_t>(often.size(), 10); i++) {
        text += (i == 0 ? " (" : ", ") + often[i].second + " " + std::to_string(often[i].first);
    }
    if (!often.empty()) text += ")";
    text += ", threads " + std::to_string(summary.threads) + ", instances " + std::to_string(traces);
    if (summary.unknown_handle > 0)
        text += ", left out for a handle that no recorded call gave " + std::to_string(summary.unknown_handle);
    if (summary.failed_instances > 0)
        text += ", failed vkCreateInstance left out " + std::to_string(summary.failed_instances);
    if (summary.beyond_limit > 0)
        text += ", left out beyond vkreplay's limits " + std::to_string(summary.beyond_limit);
    if (summary.lost > 0) text += ", lost for want of room or of thread numbers " + std::to_string(summary.lost);
    std::fprintf(stderr, "%s\n", text.c_str());
}

int convert(const Settings& settings, const std::vector<std::string>& paths) {
    std::vector<Trace> traces;
    Summary summary;
    std::vector<std::unique_ptr<Converter>> converters;
    for (const std::string& path : paths) {
        RawLog log(path);
        if (!log.is_log()) {
            std::fprintf(stderr, "vkrecord: %s is no log of the recorder\n", path.c_str());
            return 1;
        }
        converters.push_back(std::make_unique<Converter>(settings, log, traces, summary));
        converters.back()->run();
    }
    for (const Trace& trace : traces) {
        if (!write_names(trace) || trace.writer->failed()) {
            std::fprintf(stderr, "vkrecord: %s can't be written\n", trace.names_path.c_str());
            return 1;
        }
    }
    say(summary, settings.out, traces.size());
    return 0;
}

}  // namespace

int main(int count, char** words) {
    if (count < 4) {
        std::fprintf(stderr, "vkrecord_convert VERSION OUT LOG..\n");
        return 2;
    }
    return convert({std::atoi(words[1]), words[2]}, {words + 3, words + count});
}
