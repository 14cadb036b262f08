// For `bench/convert.sh`: converts the column on standard input as `pzic convert` does, with
// Debian's C++ date library and the system's files. Instants are plain decimals. Fields may be in
// double quotes, with no comma, quote or line end inside. The library reads no footers, so local
// time is wrong after 2037 in zones that then have daylight saving time. Each worker asks the
// library once for each span of instants at which a zone shows the same. The workers take turns at
// reading a block of lines, and write the rows in the same order.
//
// With the word `append` each line has ten fields or more, without double quotes, of which the third
// is the zone and the sixth the instant, and a row is the line and then local time, as `pzic convert
// --append` writes it.
//
// usage: convert WORKERS [append]
#include <date/tz.h>

#include <algorithm>
#include <charconv>
#include <chrono>
#include <condition_variable>
#include <cstdio>
#include <cstdlib>
#include <mutex>
#include <string>
#include <string_view>
#include <thread>
#include <unordered_map>
#include <vector>

namespace {

using date::sys_seconds;
using std::chrono::seconds;

constexpr std::size_t block_size = 1 << 20;

[[noreturn]] void refuse(const char *kind) {
    std::fprintf(stderr, "%s\n", kind);
    std::exit(1);
}

void put_two(char *text, long n) {
    text[0] = static_cast<char>('0' + n / 10);
    text[1] = static_cast<char>('0' + n % 10);
}

// Writes `hh?mm?ss`.
void put_clock(char *text, long second) {
    put_two(text, second / 3600);
    put_two(text + 3, second / 60 % 60);
    put_two(text + 6, second % 60);
}

// The state that a zone shows from one instant up to, but not including, another.
struct Span {
    sys_seconds begin, end;
    seconds offset;
    std::string tail;

    explicit Span(const date::sys_info &info) : begin(info.begin), end(info.end), offset(info.offset) {
        tail = offset < seconds{0} ? ",-00:00:00," : ",+00:00:00,";
        put_clock(&tail[2], std::labs(offset.count()));
        tail += info.save != std::chrono::minutes{0} ? "1," : "0,";
        tail += info.abbrev;
        tail += '\n';
    }

    bool has(sys_seconds instant) const { return begin <= instant && instant < end; }
};

// A zone, and the spans that were asked for, in rising order.
class Zone {
    const date::time_zone *zone;
    std::vector<Span> spans;

public:
    explicit Zone(const date::time_zone &zone) : zone(&zone) {}

    // The span stays valid until another one of its zone is asked for.
    const Span *find(sys_seconds instant) {
        auto is_before = [](sys_seconds t, const Span &span) { return t < span.begin; };
        auto next = std::upper_bound(spans.begin(), spans.end(), instant, is_before);
        if (next != spans.begin() && std::prev(next)->has(instant)) return &*std::prev(next);
        return &*spans.emplace(next, zone->get_info(instant));
    }
};

// Removes the double quotes of a field.
std::string_view without_quotes(std::string_view field) {
    if (field.empty() || field.front() != '"') return field;
    if (field.size() < 2 || field.back() != '"') refuse("RowFields");
    return field.substr(1, field.size() - 2);
}

sys_seconds instant_of(std::string_view field) {
    long count = 0;
    auto [end, error] = std::from_chars(field.data(), field.data() + field.size(), count);
    if (error != std::errc{} || end != field.data() + field.size()) refuse("RowInstant");
    return sys_seconds{seconds{count}};
}

// Writes rows, and keeps the last zone, span and day.
class Rows {
    std::unordered_map<std::string_view, Zone> zones;
    std::string name;
    Zone *zone = nullptr;
    const Span *span = nullptr;
    date::local_days day{date::days{-1000000}};
    char time[21] = ",0000-00-00T00:00:00";

    void find(std::string_view asked, sys_seconds instant) {
        if (!zone || asked != name) {
            auto found = zones.find(asked);
            if (found == zones.end()) refuse("RowZone");
            name = asked;
            zone = &found->second;
        } else if (span->has(instant)) {
            return;
        }
        span = zone->find(instant);
    }

    void put_date() {
        date::year_month_day date{day};
        int year = static_cast<int>(date.year());
        put_two(&time[1], year / 100);
        put_two(&time[3], year % 100);
        put_two(&time[6], static_cast<unsigned>(date.month()));
        put_two(&time[9], static_cast<unsigned>(date.day()));
    }

    void put_time(sys_seconds instant) {
        date::local_seconds local{instant.time_since_epoch() + span->offset};
        date::local_days on = date::floor<date::days>(local);
        if (on != day) {
            day = on;
            put_date();
        }
        put_clock(&time[12], (local - on).count());
    }

public:
    std::string text;

    Rows() {
        for (const date::time_zone &zone : date::get_tzdb().zones) zones.emplace(zone.name(), zone);
    }

    void push(std::string_view line) {
        std::size_t comma = line.find(',');
        if (comma == line.npos) refuse("RowFields");
        std::string_view zone_name = without_quotes(line.substr(0, comma));
        std::string_view field = without_quotes(line.substr(comma + 1));
        sys_seconds instant = instant_of(field);
        find(zone_name, instant);
        put_time(instant);
        text += zone_name;
        text += ',';
        text += field;
        text.append(time, 20);
        text += span->tail;
    }

    void append(std::string_view line) {
        std::size_t starts[8] = {0};
        for (int field = 1; field < 7; field++) {
            std::size_t comma = line.find(',', starts[field - 1]);
            if (comma == line.npos) refuse("RowFields");
            starts[field] = comma + 1;
        }
        sys_seconds instant = instant_of(line.substr(starts[5], starts[6] - starts[5] - 1));
        find(line.substr(starts[2], starts[3] - starts[2] - 1), instant);
        put_time(instant);
        text += line;
        text.append(time, 20);
        text += span->tail;
    }

    void push_block(std::string_view block, bool appends) {
        std::size_t start = 0;
        for (std::size_t end; (end = block.find('\n', start)) != block.npos; start = end + 1)
            appends ? append(block.substr(start, end - start)) : push(block.substr(start, end - start));
        if (start < block.size()) appends ? append(block.substr(start)) : push(block.substr(start));
    }
};

// The work that is done in turns: reading a block, and writing its rows.
class Turns {
    std::mutex reading, writing;
    std::condition_variable written_one;
    std::string part; // the start of a line, after the last block
    long blocks_read = 0, blocks_written = 0;

public:
    // Reads a block of whole lines, and returns its number. The block is empty only at the end.
    long read(std::string &block) {
        std::lock_guard<std::mutex> turn(reading);
        block = part;
        block.resize(part.size() + block_size);
        std::size_t count = std::fread(&block[part.size()], 1, block_size, stdin);
        block.resize(part.size() + count);
        part.clear();
        if (count == block_size) {
            std::size_t end = block.rfind('\n') + 1;
            part = block.substr(end);
            block.resize(end);
        }
        return blocks_read++;
    }

    void write(long number, std::string_view text) {
        std::unique_lock<std::mutex> turn(writing);
        written_one.wait(turn, [&] { return blocks_written == number; });
        if (std::fwrite(text.data(), 1, text.size(), stdout) != text.size()) refuse("Write");
        blocks_written++;
        written_one.notify_all();
    }
};

void work(Turns &turns, bool appends) {
    Rows rows;
    std::string block;
    for (;;) {
        long number = turns.read(block);
        if (block.empty()) return;
        rows.text.clear();
        rows.push_block(block, appends);
        turns.write(number, rows.text);
    }
}

} // namespace

int main(int count, char **words) {
    bool appends = count == 3 && std::string_view(words[2]) == "append";
    if (count != 2 && !appends) refuse("WORKERS [append]");
    Turns turns;
    std::vector<std::thread> workers;
    for (int i = 1; i < std::atoi(words[1]); i++) workers.emplace_back(work, std::ref(turns), appends);
    work(turns, appends);
    for (std::thread &worker : workers) worker.join();
    return std::fflush(stdout) ? 1 : 0;
}
