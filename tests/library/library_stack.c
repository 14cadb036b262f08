// Tests how much of the stack the library's calls use: `library_stack FILE` reads the zone of a TZif
// file. Each call is made in a thread whose stack was filled with a mark before, and must leave the
// mark in all but the bytes that pzic.h allows.
#include <pthread.h>
#include <stdint.h>
#include <stdio.h>
#include <stdlib.h>
#include <string.h>

#include "pzic.h"

enum { STACK = 1 << 20, MANY = 5000 };

static uint8_t bytes[PZIC_STACK * 16];
static size_t length;
static pzic_handle zone, files, rows, other;
static int64_t instants[MANY], found[MANY];
static int32_t offsets[MANY];
static uint8_t flags[MANY], room[100];
static size_t count;
static int32_t status;

static const char source[] =
    "Rule US 2007 max - Mar Sun>=8 2:00 1:00 D\n"
    "Rule US 2007 max - Nov Sun>=1 2:00 0 S\n"
    "Zone Test/York -5:00 US E%sT\n";
static const char column[] = "Test/York,1720000000\nTest/York,-1\n";

static void nothing(void) { status = PZIC_OK; }

static void read_zone(void) {
    uint32_t reason;
    status = pzic_zone_read(bytes, length, &zone, &reason);
}

static void share(void) { status = pzic_share(&zone, &other); }

static void let_go(void) {
    pzic_free(&other);
    status = PZIC_OK;
}

static void ask_at(void) {
    pzic_state state;
    status = pzic_zone_at(&zone, 4000000000, &state);
}

static void ask_span(void) {
    pzic_state state;
    status = pzic_zone_span(&zone, 4000000000, &state, &found[0], &found[1]);
}

static void ask_many(void) {
    status = pzic_zone_offsets(&zone, instants, MANY, offsets, MANY, flags, MANY);
}

static void ask_instants(void) {
    pzic_local_time told;
    status = pzic_zone_instants(&zone, 4000000000, &told);
}

static void ask_many_instants(void) {
    status = pzic_zone_instants_array(&zone, PZIC_LATER, instants, MANY, found, MANY, flags, MANY);
}

static void ask_changes(void) {
    int64_t change;
    pzic_civil civil;
    status = pzic_zone_next_change(&zone, 0, &change) + pzic_zone_previous_change(&zone, 0, &change)
           + pzic_zone_changes(&zone, 0, 4102444800, found, MANY, &count) + pzic_zone_civil(&zone, 0, &civil);
}

static void ask_schedules(void) {
    int64_t next;
    const pzic_schedule schedule = {4000000000, 4032000000, 9000, PZIC_EVERY_DAY, PZIC_COMPATIBLE};
    status = pzic_zone_next_local(&zone, &schedule, &next) + pzic_zone_next_locals(&zone, &schedule, found, MANY, &count);
}

static void compile(void) {
    pzic_fault fault;
    size_t whole = sizeof source - 1;
    status = pzic_compile((const uint8_t *)source, whole, &whole, 1, &files, &fault);
}

static void make_files(void) {
    static uint8_t texts[sizeof bytes + 1];
    const size_t lengths[] = {1, length};
    uint8_t one;
    texts[0] = 'A';
    memcpy(texts + 1, bytes, length);
    status = pzic_files_of(texts, length + 1, lengths, 2, &one, 1, &other);
    if (status == PZIC_OK) status = one;
}

static void ask_files(void) {
    status = pzic_files_len(&files, &count) + pzic_files_find(&files, (const uint8_t *)"Test/York", 9, &count)
           + pzic_files_name(&files, 0, room, sizeof room, &count)
           + pzic_files_bytes(&files, 0, room, sizeof room, &count) + pzic_zone_of(&files, 0, &other);
}

static void ask_rows(void) {
    static uint32_t zones[MANY];
    static pzic_abbreviation names[MANY];
    status = pzic_files_offsets(&files, zones, MANY, instants, MANY, offsets, MANY, flags, MANY)
           + pzic_files_abbreviations(&files, zones, MANY, instants, MANY, names, MANY)
           + pzic_files_instants(&files, PZIC_LATER, zones, MANY, instants, MANY, found, MANY, flags, MANY);
}

static void convert(void) {
    pzic_row_fault fault;
    status = pzic_rows(&files, (const uint8_t *)column, sizeof column - 1, &rows, &fault);
    pzic_layout layout = PZIC_LAYOUT_INIT;
    layout.records = PZIC_RECORDS_LINES;
    layout.at_fault = PZIC_FAULT_GOES_ON;
    if (status == PZIC_OK) status = pzic_rows_by(&files, &layout, NULL, 0, (const uint8_t *)column, sizeof column - 1, &rows);
    pzic_row_layout more = PZIC_ROW_LAYOUT_INIT;
    more.only[0] = PZIC_FIELD_UTC;
    more.column.start = PZIC_START_REPLACED;
    if (status == PZIC_OK) status = pzic_rows_with(&files, &more, NULL, 0, (const uint8_t *)column, sizeof column - 1, &rows);
}

static void compare(void) {
    static const char older[] = "Zone Test/York -5:00 - EST\n";
    pzic_fault fault;
    pzic_diff_options options = PZIC_DIFF_OPTIONS_INIT;
    size_t whole = sizeof older - 1;
    status = pzic_compile((const uint8_t *)older, whole, &whole, 1, &other, &fault);
    if (status == PZIC_OK) status = pzic_files_diff(&other, &files, &options, &rows);
    options.listed = PZIC_DIFF_SUMMARIES;
    if (status == PZIC_OK) status = pzic_files_diff(&other, &files, &options, &rows);
}

static void ask_names(void) {
    status = pzic_rows_text(&rows, room, sizeof room, &count)
           + pzic_name_of_fault(1, room, sizeof room, &count) + pzic_name_of_reason(1, room, sizeof room, &count);
}

static void *call(void *argument) {
    (*(void (**)(void))argument)();
    return NULL;
}

// Returns how many bytes of a thread's stack a call used.
static size_t used_by(void (*what)(void)) {
    uint8_t *stack = aligned_alloc(4096, STACK);
    pthread_attr_t attributes;
    pthread_t thread;
    size_t left = 0;
    if (stack == NULL) exit(1);
    memset(stack, 0xA5, STACK);
    status = -1;
    if (pthread_attr_init(&attributes) || pthread_attr_setstack(&attributes, stack, STACK) ||
        pthread_create(&thread, &attributes, call, &what) || pthread_join(thread, NULL) || status != PZIC_OK) {
        fprintf(stderr, "library_stack: status %d\n", status);
        exit(1);
    }
    while (left < STACK && stack[left] == 0xA5) left++;
    free(stack);
    return STACK - left;
}

int main(int words, char **word) {
    static const struct {
        const char *name;
        void (*what)(void);
    } calls[] = {{"zone_read", read_zone}, {"share", share}, {"free", let_go}, {"zone_at", ask_at},
                 {"zone_span", ask_span}, {"zone_offsets", ask_many}, {"zone_instants", ask_instants},
                 {"zone_instants_array", ask_many_instants}, {"changes", ask_changes}, {"schedules", ask_schedules},
                 {"compile", compile}, {"files_of", make_files},
                 {"files", ask_files}, {"files_offsets", ask_rows},
                 {"rows", convert}, {"files_diff", compare}, {"names", ask_names}};
    FILE *in = words == 2 ? fopen(word[1], "rb") : NULL;
    if (in == NULL) return 1;
    length = fread(bytes, 1, sizeof bytes, in);
    fclose(in);
    for (int i = 0; i < MANY; i++) instants[i] = i * INT64_C(800000);
    size_t own = used_by(nothing), most = 0;
    for (size_t i = 0; i < sizeof calls / sizeof *calls; i++) {
        size_t used = used_by(calls[i].what) - own;
        if (used > most) most = used;
        if (used > PZIC_STACK) {
            fprintf(stderr, "library_stack: pzic_%s uses %zu bytes\n", calls[i].name, used);
            return 1;
        }
        if (getenv("EACH")) fprintf(stderr, "%s %zu\n", calls[i].name, used);
    }
    printf("%zu bytes of stack at most\n", most);
    pzic_free(&zone);
    pzic_free(&files);
    pzic_free(&rows);
    pzic_free(&other);
}
