#include <iostream>
#include <pzic.hpp>

int main() {
    auto files = pzic::files::compile("Rule X 2000 max - Apr 1 0 1:00 D\n"
                                      "Rule X 2000 max - Oct 1 0 0 S\n"
                                      "Zone Test/East 5:30 X E%sT\n");
    if (!files) return 1;
    auto zone = files->zone("Test/East");
    if (!zone) return 1;
    if (auto state = zone->at(1720000000)) std::cout << state->offset << ' ' << state->name << '\n';
    // 2024-04-01 00:30 on the zone's clocks.
    auto found = zone->instants(1711931400);
    if (found && found->count == 0) std::cout << "a gap at " << found->change << '\n';
    std::cout << zone->instant(1711931400, pzic::disambiguation::compatible).value_or(0) << '\n';
    // Why there is no instant.
    if (zone->instant(1711931400).status() == pzic::status::gap) std::cout << "refused\n";
    auto none = pzic::zone::read("no file");
    if (!none) std::cout << name_of(none.error().reason) << '\n';
    // Arrays, with flags.
    if (auto made = zone->offsets({1720000000, 1735000000}))
        std::cout << made->offsets[0] << ' ' << (made->flags[0] == pzic::daylight) << ' ' << made->offsets[1] << '\n';
    // Rows, up to the first fault.
    if (auto rows = files->rows("Test/East,1720000000\nTest/West,0\n")) {
        std::cout << rows->text();
        if (auto fault = rows->ended_by()) std::cout << "row " << fault->row << ": " << pzic::name_of_fault(fault->kind) << '\n';
    }
    // When it differs from a zone without daylight saving time.
    auto plain = pzic::files::compile("Zone Test/East 5:30 - EST\n");
    pzic_diff_options options = PZIC_DIFF_OPTIONS_INIT;
    options.listed = PZIC_DIFF_SUMMARIES;
    if (!plain) return 1;
    if (auto lines = plain->diff(*files, options)) std::cout << lines->text();
}

/* Prints:
23400 EDT
a gap at 1711909800
1711911600
refused
Short
23400 1 19800
Test/East,1720000000,2024-07-03T16:16:40,+06:30:00,1,EDT
row 2: RowZone
zone,from,until,old_offset,new_offset,kind
Test/East,954527400,,+05:30:00,+06:30:00,forever
*/
