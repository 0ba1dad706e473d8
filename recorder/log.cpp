#include "log.h"

#include <cerrno>
#include <cstdio>
#include <cstdlib>
#include <cstring>
#include <ctime>
#include <fcntl.h>
#include <new>
#include <pthread.h>
#include <sys/mman.h>
#include <unistd.h>

namespace {

constexpr uint64_t greatest_size = uint64_t{1} << 36;
constexpr uint64_t first_step = uint64_t{1} << 20;
constexpr uint64_t greatest_step = uint64_t{1} << 26;

// The path of a log that is opened now, so that logs stand in the order of their names: in VKRECORD_FOLDER, else in the
// current folder.
std::string log_path() {
    timespec now{};
    clock_gettime(CLOCK_REALTIME, &now);
    char time[32];
    std::snprintf(time, sizeof time, "%011lld%09ld", static_cast<long long>(now.tv_sec), now.tv_nsec);
    const char* folder = std::getenv("VKRECORD_FOLDER");
    return std::string(folder != nullptr && *folder != 0 ? folder : ".") + "/vkrecord." + time + "." +
           std::to_string(getpid()) + ".log";
}

// A forked process has the same mapping: it records nothing, so that one log has one process.
void stop_in_child() { Log::get().stop(); }

}  // namespace

Log& Log::get() {
    static Log* const log = new Log();
    return *log;
}

Log::Log() {
    if (!open_file()) {
        std::fprintf(stderr, "VK_LAYER_ROKPUFA_record: no log, nothing is recorded: %s\n", std::strerror(errno));
        return;
    }
    pthread_atfork(nullptr, nullptr, stop_in_child);
    on_.store(true);
}

bool Log::open_file() {
    while (file_ < 0) {
        file_ = open(log_path().c_str(), O_RDWR | O_CREAT | O_EXCL | O_CLOEXEC, 0644);
        if (file_ < 0 && errno != EEXIST) return false;
    }
    void* mapped = mmap(nullptr, greatest_size, PROT_READ | PROT_WRITE, MAP_SHARED | MAP_NORESERVE, file_, 0);
    if (mapped == MAP_FAILED) return false;
    bytes_ = static_cast<char*>(mapped);
    if (!grow_to(first_record)) return false;
    header_ = new (mapped) LogHeader();
    header_->word = log_word;
    header_->process = static_cast<uint64_t>(getpid());
    return true;
}

// Makes the file at least so long. Room is taken from the disk before it is mapped, since a page without room ends the
// process.
bool Log::grow_to(uint64_t wanted) {
    if (wanted <= size_.load(std::memory_order_acquire)) return true;
    if (wanted > greatest_size) return false;
    std::lock_guard<std::mutex> guard(growing_);
    uint64_t size = size_.load(std::memory_order_relaxed);
    while (size < wanted) {
        uint64_t step = size < first_step ? first_step : size < greatest_step ? size : greatest_step;
        if (ftruncate(file_, static_cast<off_t>(size + step)) != 0) return false;
        int room = fallocate(file_, 0, static_cast<off_t>(size), static_cast<off_t>(step));
        if (room != 0 && errno != EOPNOTSUPP && errno != ENOSYS) return false;
        size += step;
    }
    size_.store(size, std::memory_order_release);
    return true;
}

void Log::append(std::vector<uint64_t>& record, RecordKind kind) {
    const uint64_t length = record.size();
    const uint64_t place = first_record + header_->position.fetch_add(length * 8);
    if (!grow_to(place + length * 8)) {
        stop();
        count_lost();
        return;
    }
    char* at = bytes_ + place;
    const uint64_t open = head_word(length, kind, RecordState::open);
    const uint64_t whole = head_word(length, kind, RecordState::whole);
    std::memcpy(at, &open, 8);
    std::atomic_signal_fence(std::memory_order_seq_cst);
    std::memcpy(at + 8, record.data() + 1, (length - 1) * 8);
    std::atomic_signal_fence(std::memory_order_seq_cst);
    std::memcpy(at, &whole, 8);
}

void Log::note(const std::string& key, const std::string& value) {
    if (!is_on()) return;
    std::vector<uint64_t> record(2, 0);
    const std::string text = key + " " + value;
    add_text(record, text.data(), text.size());
    append(record, RecordKind::note);
}

void Log::count_without_row(uint16_t command) {
    header_->without_row[command].fetch_add(1, std::memory_order_relaxed);
}

void Log::count_lost() { header_->lost_calls.fetch_add(1, std::memory_order_relaxed); }

void add_text(std::vector<uint64_t>& record, const char* text, size_t length) {
    const size_t first = record.size();
    record.resize(first + 1 + (length + 7) / 8, 0);
    record[first] = length;
    if (length != 0) std::memcpy(record.data() + first + 1, text, length);
}
