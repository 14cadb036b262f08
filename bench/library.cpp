// For `bench/library.sh`: asks a C++ library for the UT offset of a zone at every tenth of the
// instants that `library.c` kept, random and sorted, and compares what it answers with the offsets
// kept beside them. Prints the nanoseconds for one instant, the best of five runs, and the share of
// other offsets. Built with BY_CCTZ it asks cctz, and else Howard Hinnant's date library, which reads
// the system's files, and no footers.
//
// usage: library ZONE FOLDER
#include <algorithm>
#include <chrono>
#include <cstdint>
#include <cstdio>
#include <cstdlib>
#include <limits>
#include <string>
#include <vector>

#ifdef BY_CCTZ
#include <cctz/time_zone.h>
#else
#include <date/tz.h>
#endif

namespace {

constexpr std::size_t apart = 10;
constexpr int runs = 5;

[[noreturn]] void refuse(const std::string &what) {
    std::fprintf(stderr, "library: %s\n", what.c_str());
    std::exit(1);
}

#ifdef BY_CCTZ

constexpr const char *library = "cctz";
constexpr bool reads_footers = true;

class Zone {
    cctz::time_zone zone;

public:
    explicit Zone(const char *name) {
        if (!cctz::load_time_zone(name, &zone)) refuse("no such zone");
    }

    std::int32_t offset(std::int64_t t) const {
        return zone.lookup(cctz::time_point<cctz::seconds>(cctz::seconds(t))).offset;
    }
};

#else

constexpr const char *library = "C++ date library";
constexpr bool reads_footers = false;

class Zone {
    const date::time_zone *zone;

public:
    explicit Zone(const char *name) : zone(date::locate_zone(name)) {}

    std::int32_t offset(std::int64_t t) const {
        auto info = zone->get_info(date::sys_seconds(std::chrono::seconds(t)));
        return static_cast<std::int32_t>(info.offset.count());
    }
};

#endif

template <typename T> std::vector<T> read(const std::string &path) {
    std::FILE *file = std::fopen(path.c_str(), "rb");
    if (!file || std::fseek(file, 0, SEEK_END)) refuse("can't read " + path);
    std::vector<T> items(static_cast<std::size_t>(std::ftell(file)) / sizeof(T));
    std::rewind(file);
    if (std::fread(items.data(), sizeof(T), items.size(), file) != items.size()) refuse("can't read " + path);
    std::fclose(file);
    return items;
}

void measure(const Zone &zone, const std::string &folder, const char *order) {
    auto instants = read<std::int64_t>(folder + "/" + order);
    auto wanted = read<std::int32_t>(folder + "/" + order + ".offsets");
    std::size_t count = instants.size() / apart;
    std::vector<std::int32_t> offsets(count);
    double best = std::numeric_limits<double>::max();
    for (int run = 0; run < runs; run++) {
        auto start = std::chrono::steady_clock::now();
        for (std::size_t i = 0; i < count; i++) offsets[i] = zone.offset(instants[i * apart]);
        std::chrono::duration<double, std::nano> took = std::chrono::steady_clock::now() - start;
        best = std::min(best, took.count() / static_cast<double>(count));
    }
    std::size_t others = 0;
    for (std::size_t i = 0; i < count; i++) others += offsets[i] != wanted[i * apart];
    std::printf("one instant, %s: %s %.2f ns", order, library, best);
    double share = static_cast<double>(others) / static_cast<double>(count);
    if (others) std::printf(", %.1f%% other offsets", 100 * share);
    std::printf("\n");
    std::fflush(stdout);
    if (others && reads_footers) refuse("other offsets");
}

} // namespace

int main(int count, char **words) {
    if (count != 3) refuse("ZONE FOLDER");
    Zone zone(words[1]);
    measure(zone, words[2], "random");
    measure(zone, words[2], "sorted");
}
