#include <pzic_tree.h>
#include <stdio.h>

int main(int count, char **words) {
    pzic_handle zone = PZIC_HANDLE_INIT;
    uint32_t reason;
    if (count < 2 || pzic_tree_zone(words[1], "America/New_York", &zone, &reason) != PZIC_OK) return 1;

    /* Each day at 02:30 from noon of 2024-03-09 UT on, for a year: on 2024-03-10 clocks pass over it. */
    pzic_schedule schedule = {1709985600, 1709985600 + 366 * 86400, 9000, PZIC_EVERY_DAY, PZIC_COMPATIBLE};
    int64_t instant, instants[2];
    size_t made;
    if (pzic_zone_next_locals(&zone, &schedule, instants, 2, &made) == PZIC_OK)
        printf("%zu: %lld %lld\n", made, (long long)instants[0], (long long)instants[1]);
    schedule.weekdays = PZIC_SUNDAY;
    schedule.policy = PZIC_SKIP;
    if (pzic_zone_next_local(&zone, &schedule, &instant) == PZIC_OK) printf("%lld\n", (long long)instant);

    pzic_free(&zone);
}

/* Prints:
2: 1710055800 1710138600
1710657000
*/
