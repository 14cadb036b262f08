// Measures the library: `library FILE FOLDER` asks for the UT offsets of the zone of a TZif file at
// ten million instants, random and sorted. Each figure is the best of five runs, in nanoseconds for
// one instant, and all give the same offsets. For the programs that measure others it keeps the
// instants as FOLDER/random and FOLDER/sorted, in 64 bits each, and the offsets as
// FOLDER/random.offsets and FOLDER/sorted.offsets, in 32 bits each, with the lowest byte first.
#define _GNU_SOURCE
#include <stdio.h>
#include <stdlib.h>
#include <string.h>
#include <time.h>

#include "pzic.h"

// Single questions are for every tenth instant.
enum { MANY = 10000000, APART = 10, FEW = MANY / APART, RUNS = 5 };

// The hand-made loop's table: the instants at which local time changes, and the offsets from them on.
static int64_t starts[4096];
static int32_t after[4096];
static size_t changes;

static double now(void) {
    struct timespec t;
    clock_gettime(CLOCK_MONOTONIC, &t);
    return (double)t.tv_sec * 1e9 + (double)t.tv_nsec;
}

static void tabulate(pzic_handle *zone) {
    int64_t first, last = INT64_MIN;
    pzic_state state;
    for (;;) {
        pzic_zone_span(zone, last, &state, &first, &last);
        starts[changes] = first;
        after[changes++] = state.offset;
        if (last == INT64_MAX || changes == 4096 || last > 5000000000) break;
        last++;
    }
}

// The loop that a programmer writes: it keeps the place from one instant to the next.
static void by_hand(const int64_t *instants, int32_t *offsets) {
    size_t place = 0;
    for (size_t i = 0; i < MANY; i++) {
        int64_t t = instants[i];
        if (t < starts[place] || (place + 1 < changes && starts[place + 1] <= t)) {
            size_t low = 0, high = changes;
            while (high - low > 1) {
                size_t middle = (low + high) / 2;
                if (starts[middle] <= t) low = middle;
                else high = middle;
            }
            place = low;
        }
        offsets[i] = after[place];
    }
}

static void ask_pzic(pzic_handle *zone, const int64_t *instants, int32_t *offsets) {
    pzic_state state;
    for (size_t i = 0; i < FEW; i++) {
        pzic_zone_at(zone, instants[i * APART], &state);
        offsets[i] = state.offset;
    }
}

static void ask_c_library(const int64_t *instants, int32_t *offsets) {
    struct tm tm;
    for (size_t i = 0; i < FEW; i++) {
        localtime_r(&instants[i * APART], &tm);
        offsets[i] = (int32_t)tm.tm_gmtoff;
    }
}

static int compare(const void *a, const void *b) {
    int64_t x = *(const int64_t *)a, y = *(const int64_t *)b;
    return (x > y) - (x < y);
}

static void must(int holds, const char *what) {
    if (holds) return;
    fprintf(stderr, "library: %s\n", what);
    exit(1);
}

static void compare_few(const int32_t *few, const int32_t *offsets) {
    for (size_t i = 0; i < FEW; i++) must(few[i] == offsets[i * APART], "other offsets");
}

// Writes a file.
static void keep(const char *folder, const char *order, const char *what, const void *items, size_t size) {
    char path[4096];
    snprintf(path, sizeof path, "%s/%s%s", folder, order, what);
    FILE *out = fopen(path, "wb");
    must(out && fwrite(items, size, MANY, out) == MANY && fclose(out) == 0, "can't write a file");
}

#define BEST(what, count, work)                           \
    do {                                                  \
        double best = 1e300;                              \
        for (int run = 0; run < RUNS; run++) {            \
            double start = now();                         \
            work;                                         \
            double took = (now() - start) / (count);      \
            if (took < best) best = took;                 \
        }                                                 \
        printf(what " %.2f ns\n", order, best);           \
    } while (0)

int main(int count, char **words) {
    static uint8_t bytes[1 << 20];
    FILE *in = count == 3 ? fopen(words[1], "rb") : NULL;
    must(in != NULL, "FILE FOLDER");
    size_t length = fread(bytes, 1, sizeof bytes, in);
    fclose(in);
    pzic_handle zone = {0};
    uint32_t reason;
    must(pzic_zone_read(bytes, length, &zone, &reason) == PZIC_OK, "no TZif file");
    tabulate(&zone);
    char setting[4100];
    snprintf(setting, sizeof setting, ":%s", words[1]);
    setenv("TZ", setting, 1);
    tzset();

    int64_t *instants = malloc(MANY * sizeof *instants);
    int32_t *offsets = malloc(MANY * sizeof *offsets), *others = malloc(MANY * sizeof *others);
    uint8_t *flags = malloc(MANY);
    must(instants && offsets && others && flags, "no memory");
    uint64_t seed = 88172645463325252u;
    for (size_t i = 0; i < MANY; i++) {
        seed ^= seed << 13, seed ^= seed >> 7, seed ^= seed << 17;
        instants[i] = (int64_t)(seed % 4102444800u); // 1970 to 2099
    }
    for (int sorted = 0; sorted < 2; sorted++) {
        const char *order = sorted ? "sorted" : "random";
        if (sorted) qsort(instants, MANY, sizeof *instants, compare);
        pzic_zone_offsets(&zone, instants, MANY, offsets, MANY, flags, MANY);
        BEST("one instant, %s: pzic_zone_at", FEW, ask_pzic(&zone, instants, others));
        compare_few(others, offsets);
        BEST("one instant, %s: localtime_r", FEW, ask_c_library(instants, others));
        compare_few(others, offsets);
        BEST("an array, %s: pzic_zone_offsets", MANY,
             pzic_zone_offsets(&zone, instants, MANY, offsets, MANY, flags, MANY));
        BEST("an array, %s: by hand", MANY, by_hand(instants, others));
        must(memcmp(offsets, others, MANY * sizeof *offsets) == 0, "other offsets");
        keep(words[2], order, "", instants, sizeof *instants);
        keep(words[2], order, ".offsets", offsets, sizeof *offsets);
    }
    pzic_free(&zone);
}
