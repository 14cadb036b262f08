// Tests pzic.hpp: `library TREE`, a tree of TZif files that has Europe/Dublin and Asia/Tokyo. It calls each function, also
// where it gives nothing, and prints the number of checks. Built with -fno-exceptions, since nothing of pzic.hpp throws.
#include <cstdio>
#include <cstdlib>
#include <fstream>
#include <string>
#include <utility>
#include <vector>

#include "pzic.hpp"

namespace {

int checks = 0;

#define CHECK(...)                                                                           \
    do {                                                                                     \
        ++checks;                                                                            \
        if (!(__VA_ARGS__)) {                                                                \
            std::fprintf(stderr, "%s:%d: not so: %s\n", __FILE__, __LINE__, #__VA_ARGS__); \
            std::exit(1);                                                                    \
        }                                                                                    \
    } while (0)

using pzic::status;

constexpr std::int64_t summer = 1720000000, winter = 1704067200, least = INT64_MIN, greatest = INT64_MAX;

// A zone whose file has no footer: local time is left open from 2000 on.
pzic::result<pzic::zone> open_zone() {
    auto made = pzic::files::compile("Zone A 0 - XXX 2000\n1 - YYY\n");
    CHECK(made && made->size() == 1 && made->name(0) == "A" && made->name(1).empty());
    std::string bytes = made->bytes(0);
    const std::size_t footer = bytes.rfind('\n', bytes.size() - 2);
    CHECK(bytes.substr(footer) == "\nYYY-1\n");
    return pzic::zone::read(bytes.substr(0, footer) + "\n\n");
}

void try_reading(const pzic::tree &tree) {
    CHECK(pzic::version() == PZIC_VERSION);
    auto none = pzic::zone::read("TZif");
    CHECK(!none && none.status() == status::bad_file && none.error().reason == pzic::reason::too_short);
    CHECK(pzic::zone::read(std::string(44, 'x')).error().reason == pzic::reason::magic);
    CHECK(pzic::name_of(pzic::reason::magic) == "Magic" && pzic::name_of(pzic::reason::none).empty());
    CHECK(tree.zone("Europe/Atlantis").status() == status::no_such && tree.zone("../x").status() == status::no_such);
    CHECK(tree.zone(std::string("Etc/UTC\0x", 9)).status() == status::no_such);
    CHECK(pzic::tree("/no/such").zone("Etc/UTC").status() == status::unreadable);
    auto other = pzic::tree("/etc").zone("passwd");
    CHECK(other.status() == status::bad_file && pzic::name_of(other.error().reason) == "Magic");
    auto zone = tree.zone("Europe/Dublin");
    CHECK(zone && zone.status() == status::ok && zone.error().reason == pzic::reason::none);
}

void try_instants(pzic::zone zone) {
    auto at = zone.at(summer);
    CHECK(at && at->offset == 3600 && !at->daylight && at->name == "IST");
    CHECK(zone.at(winter)->daylight && zone.at(winter)->offset == 0);
    const pzic::span span = zone.span(summer);
    CHECK(span.state && span.state->name == "IST" && span.first == 1711846800 && span.last == 1729990799);
    CHECK(zone.civil(summer).year == 2024 && zone.civil(summer).hour == 10 && zone.civil(summer).state.offset == 3600);
    CHECK(zone.next_change(summer) == 1729990800 && zone.previous_change(summer) == 1711846800);
    CHECK(zone.changes(winter, summer) == std::vector<std::int64_t>{1711846800});
    CHECK(zone.changes(least, 4102444800).size() > 200);
    auto made = zone.offsets({summer, winter});
    CHECK(made && made->offsets == std::vector<std::int32_t>{3600, 0});
    CHECK(made->flags == std::vector<std::uint8_t>{0, pzic::daylight});
    CHECK(zone.offsets(std::vector<std::int64_t>{})->offsets.empty());
    // A moved-from zone says that it holds nothing.
    auto shared = zone.share();
    CHECK(shared && shared->at(summer));
    const pzic::zone moved = std::move(zone);
    CHECK(moved.at(summer));
    CHECK(zone.at(summer).status() == status::no_handle && zone.share().status() == status::no_handle);
    CHECK(!zone.span(summer).state && !zone.next_change(0) && !zone.previous_change(0) && zone.changes(0, greatest).empty());
    CHECK(zone.offsets({summer}).status() == status::no_handle && zone.instant(0).status() == status::no_handle);
    CHECK(zone.instants(0).status() == status::no_handle);
    zone = std::move(*shared);
    CHECK(zone.at(summer) && !shared->at(summer));
}

void try_local_times(const pzic::zone &zone) {
    constexpr std::int64_t fold = 1729992600, gap = 1711848600;
    CHECK(zone.instants(fold)->count == 2 && zone.instants(gap)->count == 0 && zone.instants(gap)->change == 1711846800);
    CHECK(*zone.instant(fold, pzic::disambiguation::compatible) == 1729989000);
    CHECK(*zone.instant(fold, pzic::disambiguation::later) == fold);
    CHECK(zone.instant(fold).status() == status::fold && zone.instant(gap).status() == status::gap);
    CHECK(zone.instant(greatest).status() == status::out_of_range && zone.instants(least).status() == status::out_of_range);
    CHECK(zone.instant(gap).value_or(7) == 7 && zone.instant(0).value_or(7) == -3600);
    auto made = zone.instant_array({fold, gap, summer, greatest});
    CHECK(made && made->instants == std::vector<std::int64_t>{0, 0, summer - 3600, 0});
    CHECK(made->statuses == std::vector<std::uint8_t>{PZIC_FOLD, PZIC_GAP, PZIC_OK, PZIC_OUT_OF_RANGE});
    CHECK(zone.instant_array({fold}, pzic::disambiguation::compatible)->instants == std::vector<std::int64_t>{1729989000});
}

void try_schedules(const pzic::zone &zone) {
    // 01:30 of 2024-10-27 comes twice.
    constexpr std::int64_t before = 1729900800, first = 1729989000, last = 1729992600, week = 7 * 86400;
    pzic::schedule sundays{5400, PZIC_SUNDAY};
    CHECK(*zone.next_local(sundays, before, greatest) == first);
    CHECK(*zone.next_locals(sundays, before, last + week) == std::vector<std::int64_t>{first, last + week});
    CHECK(zone.next_locals({5400}, before, before + 100 * 86400)->size() == 100);
    sundays.policy = pzic::policy::later;
    CHECK(*zone.next_local(sundays, before, greatest) == last && zone.next_local(sundays, before, first).status() == status::no_such);
    CHECK(zone.next_local({86400}, 0, 1).status() == status::out_of_range && zone.next_locals({86400}, 0, 1).status() == status::out_of_range);
}

void try_open_times() {
    auto zone = open_zone();
    CHECK(zone && zone->at(0)->name == "XXX" && zone->at(summer).status() == status::unspecified);
    CHECK(!zone->span(summer).state && zone->span(summer).last == greatest && zone->civil(summer).state.name[0] == '\0');
    CHECK(zone->offsets({0, summer})->flags == std::vector<std::uint8_t>{0, pzic::left_open});
    CHECK(zone->instant(summer).status() == status::unspecified && zone->instants(summer).status() == status::unspecified);
}

void try_files(const pzic::files &files) {
    const auto dublin = files.number("Europe/Dublin"), tokyo = files.number("Asia/Tokyo");
    CHECK(dublin && tokyo && !files.number("Europe/Atlantis") && files.name(*tokyo) == "Asia/Tokyo");
    CHECK(files.zone("Asia/Tokyo")->at(0)->offset == 32400 && files.zone(*dublin)->at(summer)->offset == 3600);
    CHECK(files.zone("x").status() == status::no_such && files.zone(files.size()).status() == status::no_such);
    const std::vector<std::uint32_t> zones{static_cast<std::uint32_t>(*dublin), static_cast<std::uint32_t>(*tokyo), 4000000000};
    auto made = files.offsets(zones, {winter, 0, 0});
    CHECK(made && made->offsets == std::vector<std::int32_t>{0, 32400, 0});
    CHECK(made->flags == std::vector<std::uint8_t>{pzic::daylight, 0, pzic::no_zone});
    CHECK(files.offsets(zones, {0}).status() == status::lengths && files.abbreviations(zones, {0}).status() == status::lengths);
    constexpr std::int64_t fold = 1729992600;
    auto found = files.instants(zones, {fold, 32400, 0});
    CHECK(found && found->instants == std::vector<std::int64_t>{0, 0, 0});
    CHECK(found->statuses == std::vector<std::uint8_t>{PZIC_FOLD, PZIC_OK, PZIC_NO_SUCH});
    CHECK(files.instants(zones, {fold, 0, 0}, pzic::disambiguation::later)->instants[0] == fold);
    CHECK(files.instants(zones, {0}).status() == status::lengths && files.instants({}, {})->instants.empty());
    auto names = files.abbreviations(zones, {winter, 0, 0});
    CHECK(names && std::string((*names)[0].name) == "GMT" && std::string((*names)[1].name) == "JST" && (*names)[2].name[0] == '\0');
}

void try_rows(const pzic::files &files) {
    auto made = files.rows("Asia/Tokyo,0\n");
    CHECK(made && made->size() == 1 && !made->ended_by() && made->faults().empty());
    CHECK(made->text() == "Asia/Tokyo,0,1970-01-01T09:00:00,+09:00:00,0,JST\n");
    made = files.rows("Asia/Tokyo,0\nAsia/Tokyo,x\n");
    CHECK(made && made->text() == "Asia/Tokyo,0,1970-01-01T09:00:00,+09:00:00,0,JST\n");
    CHECK(made->ended_by()->row == 2 && made->faults().size() == 1 && made->faults()[0].row == 2);
    CHECK(pzic::name_of_fault(made->ended_by()->kind) == "RowInstant" && pzic::name_of_fault(99).empty());
    pzic_layout layout = PZIC_LAYOUT_INIT;
    layout.fields = 1;
    layout.time = 0;
    layout.at_fault = PZIC_FAULT_GOES_ON;
    made = files.rows("0\nx\n1\n", layout, "Asia/Tokyo");
    CHECK(made && made->size() == 3 && made->faults().size() == 1 && made->faults()[0].row == 2 && !made->ended_by());
    layout.at_fault = PZIC_FAULT_ENDS;
    made = files.rows("0\nx\n1\n", layout, "Asia/Tokyo");
    CHECK(made && made->ended_by()->row == 2 && made->text() == "Asia/Tokyo,0,1970-01-01T09:00:00,+09:00:00,0,JST\n");
    layout.unit = 99;
    CHECK(files.rows("0\n", layout).status() == status::no_such);
    pzic_row_layout more = PZIC_ROW_LAYOUT_INIT;
    more.column.start = PZIC_START_REPLACED;
    more.only[0] = PZIC_FIELD_UTC;
    more.line_end = PZIC_LINE_END_CRLF;
    made = files.rows("Asia/Tokyo,0\nAsia/Tokyo,x\n", more);
    CHECK(made && made->text() == "Asia/Tokyo,1970-01-01T00:00:00Z\r\n" && made->ended_by()->row == 2);
    more.prefix[0] = ' ';
    CHECK(files.rows("Asia/Tokyo,0\n", more).status() == status::no_such);
}

void try_sources() {
    auto made = pzic::files::compile("Zone A 1 - XXX\nWord\n");
    CHECK(!made && made.status() == status::bad_source && made.error().fault.line == 2 && made.error().fault.text == 1);
    made = pzic::files::compile_all({"Zone A 1 - XXX\n", "Zone B 2 - YYY\n"});
    CHECK(made && made->size() == 2);
    CHECK(pzic::files::compile_all({"Zone A 1 - XXX\n", "Word\n"}).error().fault.text == 2);
    auto newer = pzic::files::compile("Zone A 1 - XXX\nZone B 3 - YYY\n");
    auto lines = made->diff(*newer);
    CHECK(lines && lines->size() == 1 && lines->text().find("\nB,") != std::string::npos);
    CHECK(made->diff(*made)->text().empty());
    pzic_diff_options options = PZIC_DIFF_OPTIONS_INIT;
    options.listed = 9;
    CHECK(made->diff(*newer, options).status() == status::no_such);
    std::vector<std::uint8_t> statuses;
    const std::string bytes = made->bytes(0);
    made = pzic::files::of({{"A", bytes}, {"A", bytes}, {"../x", bytes}, {"B", "no file"}}, &statuses);
    CHECK(made && made->size() == 1);
    CHECK(statuses == std::vector<std::uint8_t>{PZIC_OK, PZIC_TAKEN, PZIC_BAD_NAME, PZIC_BAD_FILE});
}

void try_trees(const std::string &folder) {
    auto files = pzic::tree(folder + "/").files();
    CHECK(files && files->size() > 400);
    try_files(*files);
    try_rows(*files);
    // The files are in the order of their names, and each is that of its path.
    for (std::size_t i = 0; i < files->size(); i++) {
        CHECK(i == 0 || files->name(i - 1) < files->name(i));
        std::ifstream file(folder + "/" + files->name(i), std::ios::binary);
        CHECK(files->bytes(i) == std::string(std::istreambuf_iterator<char>(file), {}));
    }
    CHECK(pzic::tree("/no/such").files().status() == status::unreadable);
}

}  // namespace

int main(int count, char **words) {
    if (count < 2) return 2;
    const pzic::tree tree(words[1]);
    try_reading(tree);
    try_instants(std::move(*tree.zone("Europe/Dublin")));
    try_local_times(*tree.zone("Europe/Dublin"));
    try_schedules(*tree.zone("Europe/Dublin"));
    try_open_times();
    try_sources();
    try_trees(words[1]);
    std::printf("%d checks\n", checks);
}
