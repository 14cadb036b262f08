// For `bench/local.sh`: tells the instants of the local times on standard input as `pzic convert --from
// local --ambiguous compatible` does: with `local_info` of Debian's C++ date library, or with `convert` of
// cctz, where it is built with CCTZ, and takes the change itself for local times in a gap. A line is a name,
// a comma and a local time. Each worker has as many lines.
//
// usage: local WORKERS
#include <chrono>
#include <cstdio>
#include <cstdlib>
#include <cstring>
#include <iostream>
#include <iterator>
#include <string>
#include <string_view>
#include <thread>
#include <unordered_map>
#include <vector>

#ifdef CCTZ
#include <cctz/time_zone.h>
using Zone = cctz::time_zone;
#else
#include <date/tz.h>
using Zone = const date::time_zone *;
#endif

namespace {

// What a zone shows at the instant that a local time means.
struct Shown {
    long instant;
    long offset;
    bool daylight;
    std::string name;
};

int number(const char *digits, int count) {
    int n = 0;
    for (int i = 0; i < count; i++) n = 10 * n + (digits[i] - '0');
    return n;
}

#ifdef CCTZ
Zone find(const std::string &name) {
    Zone zone;
    if (!cctz::load_time_zone(name, &zone)) std::exit(1);
    return zone;
}

Shown shown(const Zone &zone, const char *t) {
    const cctz::civil_second local(number(t, 4), number(t + 5, 2), number(t + 8, 2), number(t + 11, 2), number(t + 14, 2), number(t + 17, 2));
    const auto at = cctz::convert(local, zone);
    const auto told = zone.lookup(at);
    return {std::chrono::duration_cast<std::chrono::seconds>(at.time_since_epoch()).count(), told.offset, told.is_dst, told.abbr};
}
#else
Zone find(const std::string &name) {
    return date::locate_zone(name);
}

Shown shown(Zone zone, const char *t) {
    using namespace std::chrono;
    const auto day = date::year{number(t, 4)} / number(t + 5, 2) / number(t + 8, 2);
    const auto local = date::local_days{day} + hours{number(t + 11, 2)} + minutes{number(t + 14, 2)} + seconds{number(t + 17, 2)};
    const auto found = zone->get_info(local);
    const auto &first = found.first;
    const auto &told = found.result == date::local_info::nonexistent ? found.second : first;
    return {(local.time_since_epoch() - first.offset).count(), told.offset.count(), told.save != minutes{0}, told.abbrev};
}
#endif

void push(std::string &text, std::string_view line, std::unordered_map<std::string, Zone> &zones) {
    const auto comma = line.find(',');
    const std::string name(line.substr(0, comma));
    auto found = zones.find(name);
    if (found == zones.end()) found = zones.emplace(name, find(name)).first;
    const Shown told = shown(found->second, line.data() + comma + 1);
    const long size = std::labs(told.offset);
    char rest[64];
    const int length = std::snprintf(rest, sizeof rest, ",%ld,%c%02ld:%02ld:%02ld,%d,", told.instant, told.offset < 0 ? '-' : '+', size / 3600,
                                     size / 60 % 60, size % 60, told.daylight ? 1 : 0);
    text.append(line);
    text.append(rest, static_cast<std::size_t>(length));
    text += told.name;
    text += '\n';
}

void work(std::string_view lines, std::string &text) {
    std::unordered_map<std::string, Zone> zones;
    text.reserve(2 * lines.size());
    while (!lines.empty()) {
        const auto end = lines.find('\n');
        push(text, lines.substr(0, end), zones);
        lines.remove_prefix(end + 1);
    }
}

}  // namespace

int main(int, char **words) {
    const auto workers = static_cast<std::size_t>(std::atoi(words[1]));
    const std::string column{std::istreambuf_iterator<char>(std::cin), std::istreambuf_iterator<char>()};
    std::vector<std::string> texts(workers);
    std::vector<std::thread> threads;
    std::string_view left = column;
    for (std::size_t i = 0; i < workers; i++) {
        const auto end = i + 1 == workers ? left.size() : left.find('\n', left.size() / (workers - i)) + 1;
        threads.emplace_back(work, left.substr(0, end), std::ref(texts[i]));
        left.remove_prefix(end);
    }
    for (auto &thread : threads) thread.join();
    for (const auto &text : texts) std::fwrite(text.data(), 1, text.size(), stdout);
}
