#include <pzic_tree.h>
#include <stdio.h>

int main(int count, char **words) {
    pzic_handle zone = PZIC_HANDLE_INIT;
    uint32_t reason;
    if (count < 2 || pzic_tree_zone(words[1], "Europe/Dublin", &zone, &reason) != PZIC_OK) return 1;

    pzic_civil civil;
    if (pzic_zone_civil(&zone, 1720000000, &civil) == PZIC_OK)
        printf("%lld-%02d-%02d %02d:%02d:%02d %s\n", (long long)civil.year, (int)civil.month, (int)civil.day,
               (int)civil.hour, (int)civil.minute, (int)civil.second, civil.state.name);

    int64_t change, changes[4];
    size_t found;
    if (pzic_zone_next_change(&zone, 1720000000, &change) == PZIC_OK) printf("%lld\n", (long long)change);
    pzic_zone_changes(&zone, 1700000000, 1740000000, changes, 4, &found);
    for (size_t i = 0; i < found; i++) printf("%lld\n", (long long)changes[i]);

    pzic_free(&zone);
}

/* Prints:
2024-07-03 10:46:40 IST
1729990800
1711846800
1729990800
*/
