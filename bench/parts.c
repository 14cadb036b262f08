// Measures the parts of a run by calls of the library: `parts SOURCE ZONE` compiles a source, reads
// its files back, and converts a column of one row, which first makes all files ready for rows, and
// two of 65,536 rows of one zone. Each figure is the best of five runs, on one thread.
#define _GNU_SOURCE
#include <inttypes.h>
#include <stdio.h>
#include <stdlib.h>
#include <string.h>
#include <time.h>

#include "pzic.h"

enum { RUNS = 5, ROUNDS = 100, ROWS = 65536 };

static uint8_t source[1 << 22];

static double now(void) {
    struct timespec t;
    clock_gettime(CLOCK_MONOTONIC, &t);
    return (double)t.tv_sec * 1e9 + (double)t.tv_nsec;
}

static void must(int32_t status) {
    if (status == PZIC_OK) return;
    fprintf(stderr, "status %" PRId32 "\n", status);
    exit(1);
}

// Does the work five times, and what comes before it, which isn't measured.
#define BEST(figure, count, before, work)              \
    do {                                               \
        figure = 1e300;                                \
        for (int run = 0; run < RUNS; run++) {         \
            before;                                    \
            double start = now();                      \
            work;                                      \
            double took = (now() - start) / (count);   \
            if (took < figure) figure = took;          \
        }                                              \
    } while (0)

static void read_back(pzic_handle *files, size_t count) {
    static uint8_t bytes[1 << 16];
    for (size_t i = 0; i < count; i++) {
        size_t length;
        uint32_t reason;
        pzic_handle zone = {0};
        must(pzic_files_bytes(files, i, bytes, sizeof bytes, &length));
        if (length > sizeof bytes) exit(1);
        must(pzic_zone_read(bytes, length, &zone, &reason));
        pzic_free(&zone);
    }
}

// Converts rows that are this many seconds apart, from 2000 on, as often as told, and returns the time
// of one call.
static double rows(pzic_handle *files, const char *zone, int count, int64_t apart, int times) {
    char *column = malloc((size_t)count * (strlen(zone) + 24));
    if (!column) exit(1);
    size_t length = 0;
    for (int64_t i = 0; i < count; i++)
        length += (size_t)sprintf(column + length, "%s,%" PRId64 "\n", zone, 946684800 + i * apart);
    double best;
    pzic_handle text = {0};
    pzic_row_fault fault;
    BEST(best, times, pzic_free(&text),
         for (int i = 0; i < times; i++) must(pzic_rows(files, (uint8_t *)column, length, &text, &fault)));
    pzic_free(&text);
    free(column);
    return best;
}

int main(int count, char **words) {
    FILE *in = count == 3 ? fopen(words[1], "rb") : NULL;
    if (!in) return 2;
    size_t length = fread(source, 1, sizeof source, in), many;
    fclose(in);
    if (length == sizeof source) return 2;
    pzic_handle files = {0};
    pzic_fault fault;
    double best;
    BEST(best, 1e6, pzic_free(&files), must(pzic_compile(source, length, &length, 1, &files, &fault)));
    must(pzic_files_len(&files, &many));
    printf("%zu files compiled: %.2f ms\n", many, best);
    BEST(best, 1e6 * ROUNDS, , for (int i = 0; i < ROUNDS; i++) read_back(&files, many));
    printf("all of them read back: %.2f ms\n", best);
    printf("all of them made ready for rows, and one row: %.1f us\n", rows(&files, words[2], 1, 0, ROUNDS) / 1e3);
    printf("a row of the same day: %.1f ns\n", rows(&files, words[2], ROWS, 1, 1) / ROWS);
    printf("a row of another day: %.1f ns\n", rows(&files, words[2], ROWS, 86400, 1) / ROWS);
    pzic_free(&files);
}
