#include <pzic_tree.h>
#include <stdio.h>

int main(int count, char **words) {
    pzic_handle zone = PZIC_HANDLE_INIT;
    uint32_t reason;
    if (count < 2 || pzic_tree_zone(words[1], "Europe/Dublin", &zone, &reason) != PZIC_OK) return 1;

    /* 2024-10-27 01:30 comes twice, and 2024-03-31 01:30 never. */
    int64_t locals[] = {1729992600, 1711848600}, instants[2], instant;
    uint8_t statuses[2];
    pzic_local_time found;
    pzic_zone_instants(&zone, locals[0], &found);
    printf("%d instants, %lld and %lld\n", (int)found.count, (long long)found.first, (long long)found.last);
    pzic_zone_instants(&zone, locals[1], &found);
    printf("from %d to %d at %lld\n", (int)found.before, (int)found.after, (long long)found.change);
    pzic_zone_instants_array(&zone, PZIC_REJECT, locals, 2, instants, 2, statuses, 2);
    printf("%d %d\n", statuses[0] == PZIC_FOLD, statuses[1] == PZIC_GAP);
    if (pzic_zone_instant(&zone, PZIC_COMPATIBLE, locals[1], &instant) == PZIC_OK)
        printf("%lld\n", (long long)instant);

    pzic_free(&zone);
}

/* Prints:
2 instants, 1729989000 and 1729992600
from 0 to 3600 at 1711846800
1 1
1711848600
*/
