// Tests the library from C: `library TREE NAME...` reads the zones of these names from a tree of
// TZif files. The C library's localtime_r, which reads the same files, is the witness. Link it with
// `--wrap=malloc` and `--wrap=realloc`, so that growths of memory can be refused.
#include <pthread.h>
#include <stdbool.h>
#include <stddef.h>
#include <stdio.h>
#include <stdlib.h>
#include <string.h>
#include <time.h>

#include "pzic.h"
#include "pzic_tree.h"

// Programs that were linked before keep their structs.
_Static_assert(sizeof(pzic_handle) == 16 && offsetof(pzic_handle, kind) == 8, "handle");
_Static_assert(sizeof(pzic_state) == 40 && offsetof(pzic_state, daylight) == 4, "state");
_Static_assert(offsetof(pzic_state, name_length) == 8 && offsetof(pzic_state, name) == 16, "name");
_Static_assert(sizeof(pzic_fault) == 24 && offsetof(pzic_fault, line) == 8, "fault");
_Static_assert(offsetof(pzic_fault, kind) == 16, "kind");
_Static_assert(sizeof(pzic_row_fault) == 16 && offsetof(pzic_row_fault, kind) == 8, "row fault");
_Static_assert(sizeof(pzic_local_time) == 40 && offsetof(pzic_local_time, change) == 16, "local time");
_Static_assert(offsetof(pzic_local_time, before) == 24 && offsetof(pzic_local_time, after) == 28, "gap");
_Static_assert(offsetof(pzic_local_time, count) == 32, "count");
_Static_assert(sizeof(pzic_layout) == 72 && offsetof(pzic_layout, more_fields) == 24, "layout");
_Static_assert(offsetof(pzic_layout, at_fault) == 52 && offsetof(pzic_layout, style) == 56, "style");
_Static_assert(offsetof(pzic_layout, quotes) == 60 && offsetof(pzic_layout, max_record) == 64 && sizeof(pzic_abbreviation) == 16, "limit");
_Static_assert(sizeof(pzic_row_layout) == 184 && offsetof(pzic_row_layout, empty) == 72 && offsetof(pzic_row_layout, reserved) == 80, "rows");
_Static_assert(offsetof(pzic_row_layout, only) == 104 && offsetof(pzic_row_layout, prefix) == 112, "prefix");
_Static_assert(sizeof(pzic_civil) == 72 && offsetof(pzic_civil, month) == 8, "civil");
_Static_assert(offsetof(pzic_civil, second) == 24 && offsetof(pzic_civil, state) == 32, "time of day");
_Static_assert(sizeof(pzic_schedule) == 32 && offsetof(pzic_schedule, until) == 8, "schedule");
_Static_assert(offsetof(pzic_schedule, seconds) == 16 && offsetof(pzic_schedule, policy) == 24, "time of day");
_Static_assert(sizeof(pzic_diff_options) == 40 && offsetof(pzic_diff_options, present) == 16, "diff");
_Static_assert(offsetof(pzic_diff_options, listed) == 24 && offsetof(pzic_diff_options, ignore_abbreviation) == 32, "ignored");

#define CHECK(holds)                                                              \
    do {                                                                          \
        if (!(holds)) {                                                           \
            fprintf(stderr, "%s:%d: not so: %s\n", __FILE__, __LINE__, #holds); \
            exit(1);                                                              \
        }                                                                         \
    } while (0)

enum { THREADS = 8, MANY = 5000 };

// The growths that are let through before one is refused, or -1 where none is.
static _Thread_local long growths_left = -1;

void *__real_malloc(size_t size);
void *__real_realloc(void *block, size_t size);

static bool is_refused(void) {
    if (growths_left < 0) return false;
    return growths_left-- == 0;
}

void *__wrap_malloc(size_t size) { return is_refused() ? NULL : __real_malloc(size); }

void *__wrap_realloc(void *block, size_t size) {
    return is_refused() ? NULL : __real_realloc(block, size);
}

typedef struct file {
    char path[4096];
    uint8_t *bytes;
    size_t length;
} file;

static file load(const char *tree, const char *name) {
    file f;
    CHECK((size_t)snprintf(f.path, sizeof f.path, "%s/%s", tree, name) < sizeof f.path);
    FILE *in = fopen(f.path, "rb");
    CHECK(in != NULL);
    f.bytes = malloc(1 << 20);
    CHECK(f.bytes != NULL);
    f.length = fread(f.bytes, 1, 1 << 20, in);
    CHECK(f.length > 0);
    fclose(in);
    return f;
}

// Reads a copy of as many bytes as are told, so that a read past them is seen.
static int32_t read_copy(const uint8_t *bytes, size_t length, pzic_handle *zone, uint32_t *reason) {
    uint8_t *copy = malloc(length ? length : 1);
    CHECK(copy != NULL);
    if (length) memcpy(copy, bytes, length);
    int32_t status = pzic_zone_read(copy, length, zone, reason);
    free(copy);
    return status;
}

static void read_zone(const file *f, pzic_handle *zone) {
    uint32_t reason = 77;
    CHECK(read_copy(f->bytes, f->length, zone, &reason) == PZIC_OK);
    CHECK(zone->kind == 1);
    CHECK(reason == 77);
}

static bool are_same(const pzic_state *a, const pzic_state *b) {
    return a->offset == b->offset && a->daylight == b->daylight
        && a->name_length == b->name_length && memcmp(a->name, b->name, sizeof a->name) == 0;
}

// A generator of instants: xorshift, 1880 to 2120.
static int64_t next_instant(uint64_t *seed) {
    *seed ^= *seed << 13;
    *seed ^= *seed >> 7;
    *seed ^= *seed << 17;
    return (int64_t)(*seed % 7573910400u) - 2840140800;
}

// Compares a zone with localtime_r at many instants.
static void compare(const file *f, const pzic_handle *zone) {
    char setting[4100];
    snprintf(setting, sizeof setting, ":%s", f->path);
    CHECK(setenv("TZ", setting, 1) == 0);
    tzset();
    uint64_t seed = 88172645463325252u;
    for (int i = 0; i < MANY; i++) {
        time_t t = next_instant(&seed);
        struct tm tm;
        CHECK(localtime_r(&t, &tm) != NULL);
        pzic_state state;
        CHECK(pzic_zone_at(zone, t, &state) == PZIC_OK);
        CHECK(state.offset == tm.tm_gmtoff);
        CHECK((int)state.daylight == tm.tm_isdst);
        CHECK(state.name_length == strlen(tm.tm_zone));
        CHECK(strcmp(state.name, tm.tm_zone) == 0);
    }
}

// Goes over spans: each begins where the one before ends, and the answer differs or a transition
// stands there.
static void go_over_spans(const pzic_handle *zone) {
    int64_t first, last, next = INT64_MIN;
    int spans = 0;
    pzic_state state, other;
    do {
        CHECK(pzic_zone_span(zone, next, &state, &first, &last) == PZIC_OK);
        CHECK(first == next && first <= last);
        CHECK(pzic_zone_at(zone, first, &other) == PZIC_OK && are_same(&state, &other));
        CHECK(pzic_zone_at(zone, last, &other) == PZIC_OK && are_same(&state, &other));
        next = last + (last < INT64_MAX);
        spans++;
    } while (last < INT64_MAX && spans < 1000);
    CHECK(pzic_zone_span(zone, INT64_MAX, &state, &first, &last) == PZIC_OK && last == INT64_MAX);
    CHECK(pzic_zone_span(zone, INT64_MIN, &state, &first, &last) == PZIC_OK && first == INT64_MIN);
}

// Compares dates and times of day with the C library's gmtime_r.
static void compare_civil(const pzic_handle *zone) {
    uint64_t seed = 1442695040888963407u;
    for (int i = 0; i < MANY; i++) {
        int64_t t = next_instant(&seed);
        pzic_civil civil;
        pzic_state state;
        CHECK(pzic_zone_civil(zone, t, &civil) == PZIC_OK && pzic_zone_at(zone, t, &state) == PZIC_OK);
        CHECK(are_same(&civil.state, &state));
        time_t shown = t + state.offset;
        struct tm tm;
        CHECK(gmtime_r(&shown, &tm) != NULL);
        CHECK(civil.year == tm.tm_year + 1900 && civil.month == (uint32_t)tm.tm_mon + 1);
        CHECK(civil.day == (uint32_t)tm.tm_mday && civil.hour == (uint32_t)tm.tm_hour);
        CHECK(civil.minute == (uint32_t)tm.tm_min && civil.second == (uint32_t)tm.tm_sec);
    }
}

// Tells the changes up to an instant as a walk over spans does.
static size_t walk_changes(const pzic_handle *zone, int64_t until, int64_t *changes, size_t most) {
    size_t count = 0;
    pzic_state state, before;
    int64_t first, last;
    CHECK(pzic_zone_span(zone, INT64_MIN, &before, &first, &last) == PZIC_OK);
    while (last < until) {
        CHECK(pzic_zone_span(zone, last + 1, &state, &first, &last) == PZIC_OK);
        CHECK(count < most);
        if (!are_same(&before, &state)) changes[count++] = first;
        before = state;
    }
    return count;
}

// Compares changes with a walk over spans, up to the year 2500.
static void compare_changes(const pzic_handle *zone) {
    enum { MOST = 3000, ROOM = 7 };
    const int64_t until = 16725225600;
    int64_t *wanted = malloc(MOST * sizeof *wanted);
    CHECK(wanted != NULL);
    size_t most = walk_changes(zone, until, wanted, MOST), told = 0, count = ROOM;
    int64_t from = INT64_MIN;
    while (count == ROOM) {
        int64_t room[ROOM + 1];
        memset(room, 7, sizeof room);
        CHECK(pzic_zone_changes(zone, from, until, room, ROOM, &count) == PZIC_OK && told + count <= most);
        CHECK(memcmp(room, wanted + told, count * sizeof *room) == 0);
        for (size_t i = count; i <= ROOM; i++) CHECK(room[i] == INT64_C(0x0707070707070707));
        told += count;
        if (count > 0) from = room[count - 1];
    }
    CHECK(told == most);
    for (size_t i = 0; i < most; i++) {
        int64_t change = 5;
        CHECK(pzic_zone_next_change(zone, wanted[i] - 1, &change) == PZIC_OK && change == wanted[i]);
        CHECK(pzic_zone_previous_change(zone, wanted[i] + 1, &change) == PZIC_OK && change == wanted[i]);
        change = 5;
        int32_t want = i > 0 ? PZIC_OK : PZIC_NO_SUCH;
        CHECK(pzic_zone_previous_change(zone, wanted[i], &change) == want);
        CHECK(change == (i > 0 ? wanted[i - 1] : 5));
        if (i + 1 == most) continue;
        CHECK(pzic_zone_next_change(zone, wanted[i], &change) == PZIC_OK && change == wanted[i + 1]);
    }
    int64_t change = 5;
    CHECK(pzic_zone_next_change(zone, INT64_MAX, &change) == PZIC_NO_SUCH && change == 5);
    CHECK(pzic_zone_previous_change(zone, INT64_MIN, &change) == PZIC_NO_SUCH && change == 5);
    CHECK(pzic_zone_changes(zone, 5, 4, &change, 1, &count) == PZIC_OK && count == 0 && change == 5);
    CHECK(pzic_zone_changes(zone, 0, until, NULL, 0, &count) == PZIC_OK && count == 0);
    free(wanted);
}

// Compares a column with single answers. The instants are sorted, or not.
static void compare_column(const pzic_handle *zone, bool sorted) {
    int64_t *instants = malloc(MANY * sizeof *instants);
    int32_t *offsets = malloc(MANY * sizeof *offsets);
    uint8_t *flags = malloc(MANY);
    CHECK(instants && offsets && flags);
    uint64_t seed = 362436069;
    for (int i = 0; i < MANY; i++)
        instants[i] = sorted ? -2840140800 + i * INT64_C(1514782) : next_instant(&seed);
    instants[0] = INT64_MIN;
    instants[MANY - 1] = INT64_MAX;
    CHECK(pzic_zone_offsets(zone, instants, MANY, offsets, MANY, flags, MANY) == PZIC_OK);
    for (int i = 0; i < MANY; i++) {
        pzic_state state;
        CHECK(pzic_zone_at(zone, instants[i], &state) == PZIC_OK);
        CHECK(offsets[i] == state.offset && flags[i] == (state.daylight ? PZIC_DAYLIGHT : 0));
    }
    offsets[0] = 12345;
    flags[0] = 99;
    CHECK(pzic_zone_offsets(zone, instants, 2, offsets, 1, flags, 2) == PZIC_LENGTHS);
    CHECK(pzic_zone_offsets(zone, instants, 2, offsets, 2, flags, 3) == PZIC_LENGTHS);
    CHECK(pzic_zone_offsets(zone, instants, 0, offsets, 0, flags, 0) == PZIC_OK);
    CHECK(offsets[0] == 12345 && flags[0] == 99);
    free(instants);
    free(offsets);
    free(flags);
}

// Tells the instants of a local time as a search through the spans of its 52 hours does.
static pzic_local_time search(const pzic_handle *zone, int64_t local) {
    enum { FARTHEST = 26 * 3600 - 1 };
    pzic_local_time found = {0};
    pzic_state state, before = {0};
    int64_t first, last, at = local - FARTHEST;
    bool has_gap = false;
    for (bool is_first = true;; at = last + 1, is_first = false) {
        CHECK(pzic_zone_span(zone, at, &state, &first, &last) == PZIC_OK);
        int64_t t = local - state.offset;
        if (!is_first && !has_gap && first + before.offset <= local && local < first + state.offset) {
            found.change = first, found.before = before.offset, found.after = state.offset;
            has_gap = true;
        }
        if (at <= t && t <= last) {
            if (found.count++ == 0) found.first = t;
            found.last = t;
        }
        if (last >= local + FARTHEST) break;
        before = state;
    }
    if (found.count > 0) found.change = 0, found.before = 0, found.after = 0;
    return found;
}

static bool are_equal(const pzic_local_time *a, const pzic_local_time *b) {
    return a->first == b->first && a->last == b->last && a->change == b->change
        && a->before == b->before && a->after == b->after && a->count == b->count;
}

// The instant that is meant by what is told of a local time, and its status.
static int32_t choose(const pzic_local_time *found, int64_t local, uint32_t choice, int64_t *instant) {
    *instant = 0;
    if (found->count == 0 && choice == PZIC_REJECT) return PZIC_GAP;
    if (found->count > 1 && choice == PZIC_REJECT) return PZIC_FOLD;
    if (found->count == 0) *instant = local - (choice == PZIC_EARLIER ? found->after : found->before);
    else *instant = choice == PZIC_LATER ? found->last : found->first;
    return PZIC_OK;
}

// Compares the instants of local times with a search, and those of local times that have one with
// the C library's mktime. Many lie near changes.
static void compare_instants(const pzic_handle *zone) {
    enum { COUNT = 4000 };
    int64_t *locals = malloc(COUNT * sizeof *locals), *instants = malloc(COUNT * sizeof *instants);
    uint8_t *statuses = malloc(COUNT);
    CHECK(locals && instants && statuses);
    uint64_t seed = 521288629;
    for (int i = 0; i < COUNT; i++) {
        int64_t first, last, t = next_instant(&seed);
        pzic_state state;
        CHECK(pzic_zone_span(zone, t, &state, &first, &last) == PZIC_OK);
        locals[i] = i % 2 || first == INT64_MIN ? t : first + state.offset + (int64_t)(seed % 10000) - 5000;
    }
    for (uint32_t choice = PZIC_REJECT; choice <= PZIC_COMPATIBLE; choice++) {
        CHECK(pzic_zone_instants_array(zone, choice, locals, COUNT, instants, COUNT, statuses, COUNT) == PZIC_OK);
        for (int i = 0; i < COUNT; i++) {
            pzic_local_time found, want = search(zone, locals[i]);
            int64_t instant, one = 77;
            CHECK(pzic_zone_instants(zone, locals[i], &found) == PZIC_OK && are_equal(&found, &want));
            CHECK(choose(&want, locals[i], choice, &instant) == statuses[i] && instant == instants[i]);
            CHECK(pzic_zone_instant(zone, choice, locals[i], &one) == statuses[i]);
            CHECK(one == (statuses[i] == PZIC_OK ? instant : 77));
            if (choice != PZIC_REJECT || found.count != 1) continue;
            time_t shown = locals[i];
            struct tm tm;
            CHECK(gmtime_r(&shown, &tm) != NULL);
            tm.tm_isdst = -1;
            CHECK(mktime(&tm) == instants[i]);
        }
    }
    instants[0] = 5, statuses[0] = 6;
    CHECK(pzic_zone_instants_array(zone, 4, locals, 1, instants, 1, statuses, 1) == PZIC_NO_SUCH);
    CHECK(pzic_zone_instants_array(zone, 4, locals, 1, instants, 2, statuses, 1) == PZIC_LENGTHS);
    CHECK(pzic_zone_instants_array(zone, 0, locals, 1, instants, 1, statuses, 2) == PZIC_LENGTHS);
    CHECK(pzic_zone_instants_array(zone, 0, NULL, 0, NULL, 0, NULL, 0) == PZIC_OK);
    CHECK(instants[0] == 5 && statuses[0] == 6);
    // The first and the last local times whose instants may be outside of 64 bits.
    static const int64_t edges[] = {INT64_MIN + 93598, INT64_MIN + 93599, INT64_MAX - 93599, INT64_MAX - 93598};
    for (int i = 0; i < 4; i++) {
        pzic_local_time found = {.count = 9};
        int32_t want = i == 1 || i == 2 ? PZIC_OK : PZIC_OUT_OF_RANGE;
        CHECK(pzic_zone_instants(zone, edges[i], &found) == want && (found.count == 9) == (want != PZIC_OK));
        CHECK(pzic_zone_instants_array(zone, 3, &edges[i], 1, instants, 1, statuses, 1) == PZIC_OK);
        CHECK(statuses[0] == want && (instants[0] == 0) == (want != PZIC_OK));
    }
    free(locals);
    free(instants);
    free(statuses);
}

// Local times of Dublin in 2024: the clocks go forward on 31 March at 01:00, and back on 27 October at
// 02:00 (tz database, europe).
static void tell_gap_and_fold(const pzic_handle *dublin) {
    pzic_local_time found;
    int64_t instant = 0;
    CHECK(pzic_zone_instants(dublin, 1711848600, &found) == PZIC_OK);
    CHECK(found.count == 0 && found.change == 1711846800 && found.before == 0 && found.after == 3600);
    CHECK(pzic_zone_instant(dublin, PZIC_REJECT, 1711848600, &instant) == PZIC_GAP && instant == 0);
    CHECK(pzic_zone_instant(dublin, PZIC_COMPATIBLE, 1711848600, &instant) == PZIC_OK && instant == 1711848600);
    CHECK(pzic_zone_instant(dublin, PZIC_EARLIER, 1711848600, &instant) == PZIC_OK && instant == 1711845000);
    CHECK(pzic_zone_instants(dublin, 1729992600, &found) == PZIC_OK);
    CHECK(found.count == 2 && found.first == 1729989000 && found.last == 1729992600);
    CHECK(pzic_zone_instant(dublin, PZIC_REJECT, 1729992600, &instant) == PZIC_FOLD);
    CHECK(pzic_zone_instant(dublin, PZIC_LATER, 1729992600, &instant) == PZIC_OK && instant == 1729992600);
    CHECK(pzic_zone_instants(dublin, 1720003600, &found) == PZIC_OK);
    CHECK(found.count == 1 && found.first == 1720000000 && found.last == 1720000000);
}

// Zones by name from a folder. No name leads out of it.
static void open_tree(const char *tree, const char *name) {
    static const char *const none[] = {"", "/", "..", "../x", "a/../b", "a//b", "./a", "a/.", "a/", "/etc/passwd", "Nowhere"};
    pzic_handle zone = PZIC_HANDLE_INIT;
    uint32_t reason = 77;
    pzic_state state;
    CHECK(pzic_tree_zone(tree, name, &zone, &reason) == PZIC_OK && zone.kind == 1 && reason == 77);
    CHECK(pzic_zone_at(&zone, 0, &state) == PZIC_OK);
    for (size_t i = 0; i < sizeof none / sizeof *none; i++) {
        CHECK(pzic_tree_zone(tree, none[i], &zone, &reason) == PZIC_NO_SUCH && zone.kind == 0);
        CHECK(pzic_tree_zone(tree, name, &zone, &reason) == PZIC_OK);
    }
    CHECK(pzic_tree_zone("/etc", "passwd", &zone, &reason) == PZIC_BAD_FILE && zone.kind == 0);
    CHECK(reason == PZIC_REASON_MAGIC);
    CHECK(pzic_tree_zone("/", "etc", &zone, &reason) == PZIC_NO_SUCH);
    CHECK(pzic_tree_zone("/dev", "null", &zone, &reason) == PZIC_NO_SUCH);
    CHECK(pzic_tree_zone("/no/such", name, &zone, &reason) == PZIC_UNREADABLE && errno == ENOENT && zone.kind == 0);
    CHECK(pzic_tree_zone("/dev/null", name, &zone, &reason) == PZIC_UNREADABLE && errno == ENOTDIR && zone.kind == 0);
}

// Each beginning of a file is refused, and so are other bytes.
static void refuse_bytes(const file *f) {
    pzic_handle zone = {0};
    uint32_t reason = 0;
    for (size_t length = 0; length < f->length; length += length < 200 ? 1 : 13) {
        CHECK(read_copy(f->bytes, length, &zone, &reason) == PZIC_BAD_FILE);
        CHECK(reason == PZIC_REASON_SHORT);
        CHECK(zone.kind == 0);
    }
    uint8_t *other = malloc(f->length + 1);
    CHECK(other != NULL);
    memcpy(other, f->bytes, f->length);
    other[f->length] = '\n';
    CHECK(read_copy(other, f->length + 1, &zone, &reason) == PZIC_BAD_FILE);
    CHECK(reason == PZIC_REASON_TRAILING_BYTES);
    other[0] = 't';
    CHECK(read_copy(other, f->length, &zone, &reason) == PZIC_BAD_FILE);
    CHECK(reason == PZIC_REASON_MAGIC);
    free(other);
    // What the handle held is let go.
    read_zone(f, &zone);
    CHECK(read_copy(f->bytes, 3, &zone, &reason) == PZIC_BAD_FILE);
    CHECK(zone.kind == 0);
    CHECK(zone.at == NULL);
}

// The library is of the version of the header.
static void compare_versions(void) {
    CHECK(pzic_version() == PZIC_VERSION);
}

// A handle that holds nothing is refused by each call, and may be freed.
static void refuse_nothing(void) {
    pzic_handle zone = PZIC_HANDLE_INIT, other = PZIC_HANDLE_INIT;
    pzic_state state = {.offset = 5};
    int64_t instant = 0, first = 6, last = 7;
    int32_t offset = 8;
    uint8_t flag = 9;
    CHECK(pzic_zone_at(&zone, 0, &state) == PZIC_NO_HANDLE && state.offset == 5);
    CHECK(pzic_zone_span(&zone, 0, &state, &first, &last) == PZIC_NO_HANDLE);
    CHECK(state.offset == 5 && first == 6 && last == 7);
    CHECK(pzic_zone_offsets(&zone, &instant, 1, &offset, 1, &flag, 1) == PZIC_NO_HANDLE);
    CHECK(offset == 8 && flag == 9);
    pzic_local_time found = {.count = 4};
    int64_t meant = 6;
    CHECK(pzic_zone_instants(&zone, 0, &found) == PZIC_NO_HANDLE && found.count == 4);
    CHECK(pzic_zone_instants_array(&zone, 0, &instant, 1, &meant, 1, &flag, 1) == PZIC_NO_HANDLE);
    CHECK(meant == 6 && flag == 9);
    pzic_civil civil = {.year = 5};
    size_t count = 8;
    CHECK(pzic_zone_civil(&zone, 0, &civil) == PZIC_NO_HANDLE && civil.year == 5);
    CHECK(pzic_zone_next_change(&zone, 0, &meant) == PZIC_NO_HANDLE && meant == 6);
    CHECK(pzic_zone_previous_change(&zone, 0, &meant) == PZIC_NO_HANDLE && meant == 6);
    CHECK(pzic_zone_changes(&zone, 0, 9, &meant, 1, &count) == PZIC_NO_HANDLE && meant == 6 && count == 8);
    CHECK(pzic_share(&zone, &other) == PZIC_NO_HANDLE && other.kind == 0);
    pzic_free(&zone);
    pzic_free(&zone);
}

// A file of one transition, at 1000, with no footer: local time is left open from there on.
static void leave_open(void) {
    static const uint8_t head[44] = {'T', 'Z', 'i', 'f', '2'};
    uint8_t bytes[200] = {0};
    memcpy(bytes, head, sizeof head);
    uint8_t *second = bytes + 44;
    memcpy(second, head, sizeof head);
    second[35] = 1; // transitions
    second[39] = 2; // types
    second[43] = 8; // designations
    uint8_t *block = second + 44;
    block[6] = 1000 >> 8;
    block[7] = 1000 & 255;
    block[8] = 1;                    // the second type
    block[9 + 3] = 60;               // the first type: a minute east, ABC
    block[15 + 3] = 120;             // the second: two minutes, daylight saving time, DEF
    block[15 + 4] = 1, block[15 + 5] = 4;
    memcpy(block + 21, "ABC\0DEF\0\n\n", 10);
    size_t length = (size_t)(block + 31 - bytes);
    pzic_handle zone = {0};
    uint32_t reason = 0;
    int32_t status = read_copy(bytes, length, &zone, &reason);
    CHECK(status == PZIC_OK);
    pzic_state state;
    CHECK(pzic_zone_at(&zone, 999, &state) == PZIC_OK);
    CHECK(state.offset == 60 && state.daylight == 0 && strcmp(state.name, "ABC") == 0);
    memset(&state, 1, sizeof state);
    CHECK(pzic_zone_at(&zone, 1000, &state) == PZIC_UNSPECIFIED);
    CHECK(state.offset == 0 && state.daylight == 0 && state.name_length == 0);
    for (int i = 0; i < 17; i++) CHECK(state.name[i] == 0);
    int64_t first, last;
    CHECK(pzic_zone_span(&zone, 5000, &state, &first, &last) == PZIC_UNSPECIFIED);
    CHECK(first == 1000 && last == INT64_MAX);
    int64_t instants[2] = {1000, 999};
    int32_t offsets[2] = {1, 1};
    uint8_t flags[2] = {7, 7};
    CHECK(pzic_zone_offsets(&zone, instants, 2, offsets, 2, flags, 2) == PZIC_OK);
    CHECK(offsets[0] == 0 && flags[0] == PZIC_OPEN && offsets[1] == 60 && flags[1] == 0);
    pzic_local_time found;
    CHECK(pzic_zone_instants(&zone, 5000, &found) == PZIC_UNSPECIFIED && found.count == 0);
    CHECK(found.first == 0 && found.change == 0 && found.before == 0 && found.after == 0);
    CHECK(pzic_zone_instants_array(&zone, PZIC_LATER, instants, 2, &first, 1, flags, 2) == PZIC_LENGTHS);
    CHECK(pzic_zone_instant(&zone, PZIC_LATER, 5000, &first) == PZIC_UNSPECIFIED && first == 1000);
    CHECK(pzic_zone_instant(&zone, PZIC_REJECT, 1000, &first) == PZIC_OK && first == 940);
    pzic_civil civil;
    CHECK(pzic_zone_civil(&zone, 1000, &civil) == PZIC_UNSPECIFIED && civil.state.name_length == 0);
    CHECK(civil.year == 1970 && civil.month == 1 && civil.day == 1);
    CHECK(civil.hour == 0 && civil.minute == 16 && civil.second == 40);
    CHECK(pzic_zone_civil(&zone, 999, &civil) == PZIC_OK && civil.minute == 17 && civil.second == 39);
    // Local time is no longer told from there on, which is a change, and the last.
    CHECK(pzic_zone_next_change(&zone, INT64_MIN, &first) == PZIC_OK && first == 1000);
    CHECK(pzic_zone_previous_change(&zone, INT64_MAX, &first) == PZIC_OK && first == 1000);
    CHECK(pzic_zone_next_change(&zone, 1000, &first) == PZIC_NO_SUCH);
    CHECK(pzic_zone_previous_change(&zone, 1000, &first) == PZIC_NO_SUCH);
    pzic_free(&zone);
}

// Reads a zone without transitions, of this footer.
static void read_footer(const char *footer, pzic_handle *zone) {
    static const uint8_t head[44] = {'T', 'Z', 'i', 'f', '2'};
    uint8_t bytes[200] = {0};
    uint32_t reason = 0;
    memcpy(bytes, head, sizeof head);
    memcpy(bytes + 44, head, sizeof head);
    bytes[44 + 39] = 1, bytes[44 + 43] = 4; // a type, and four bytes of designations
    memcpy(bytes + 94, "UTC", 3);
    int length = snprintf((char *)bytes + 98, 102, "\n%s\n", footer);
    CHECK(read_copy(bytes, (size_t)(98 + length), zone, &reason) == PZIC_OK);
}

// Zones that never change: one by a footer whose daylight saving time never ends (RFC 9636, 3.3.1). And the
// first and the last second of 64 bits, as everybody reckons them.
static void never_change(void) {
    static const char *const footers[] = {"UTC0", "XXX3EDT4,0/0,J365/23"};
    static const int64_t instants[] = {INT64_MIN, INT64_MIN + 1, -1, 0, 4102444800, INT64_MAX - 1, INT64_MAX};
    pzic_handle zone = {0};
    for (int i = 0; i < 2; i++) {
        size_t count = 9;
        int64_t change = 5;
        read_footer(footers[i], &zone);
        for (int k = 0; k < 7; k++) {
            CHECK(pzic_zone_next_change(&zone, instants[k], &change) == PZIC_NO_SUCH && change == 5);
            CHECK(pzic_zone_previous_change(&zone, instants[k], &change) == PZIC_NO_SUCH && change == 5);
        }
        CHECK(pzic_zone_changes(&zone, INT64_MIN, INT64_MAX, &change, 1, &count) == PZIC_OK && count == 0);
    }
    pzic_civil civil;
    read_footer("UTC0", &zone);
    CHECK(pzic_zone_civil(&zone, INT64_MAX, &civil) == PZIC_OK && civil.year == INT64_C(292277026596));
    CHECK(civil.month == 12 && civil.day == 4 && civil.hour == 15 && civil.minute == 30 && civil.second == 7);
    CHECK(pzic_zone_civil(&zone, INT64_MIN, &civil) == PZIC_OK && civil.year == INT64_C(-292277022657));
    CHECK(civil.month == 1 && civil.day == 27 && civil.hour == 8 && civil.minute == 29 && civil.second == 52);
    // A day after the last of 64 bits, by an offset east of UT.
    read_footer("<+24>-24", &zone);
    CHECK(pzic_zone_civil(&zone, INT64_MAX, &civil) == PZIC_OK && civil.day == 5 && civil.second == 7);
    pzic_free(&zone);
}

static const char source[] =
    "Zone Test/Fixed 1:00 - XYZ\n"
    "Link Test/Fixed Test/Alias\n"
    "Rule US 2007 max - Mar Sun>=8 2:00 1:00 D\n"
    "Rule US 2007 max - Nov Sun>=1 2:00 0 S\n"
    "Zone Test/York -5:00 US E%sT\n";

static int32_t compile(const char *text, pzic_handle *files, pzic_fault *fault) {
    size_t length = strlen(text);
    return pzic_compile((const uint8_t *)text, length, &length, 1, files, fault);
}

static int32_t find(const pzic_handle *files, const char *name, size_t *number) {
    return pzic_files_find(files, (const uint8_t *)name, strlen(name), number);
}

// Compiles a source, and asks for its files and zones.
static void compile_source(void) {
    pzic_handle files = {0}, zone = {0}, again = {0}, other = {0};
    pzic_fault fault = {6, 7, 8};
    pzic_state state;
    CHECK(compile(source, &files, &fault) == PZIC_OK && files.kind == 2);
    CHECK(fault.text == 6 && fault.line == 7 && fault.kind == 8);
    size_t count = 0, number = 9;
    CHECK(pzic_files_len(&files, &count) == PZIC_OK && count == 3);
    CHECK(find(&files, "Test/Alias", &number) == PZIC_OK && number == 1);
    CHECK(find(&files, "Test/None", &number) == PZIC_NO_SUCH && number == 1);
    uint8_t room[100];
    memset(room, 'x', sizeof room);
    CHECK(pzic_files_name(&files, 2, room, 4, &count) == PZIC_OK && count == 9);
    CHECK(memcmp(room, "Testx", 5) == 0);
    CHECK(pzic_files_name(&files, 2, room, sizeof room, &count) == PZIC_OK);
    CHECK(memcmp(room, "Test/Yorkx", 10) == 0);
    count = 5;
    CHECK(pzic_files_name(&files, 3, room, sizeof room, &count) == PZIC_NO_SUCH && count == 5);
    CHECK(pzic_files_bytes(&files, 3, room, sizeof room, &count) == PZIC_NO_SUCH && count == 5);
    CHECK(pzic_files_bytes(&files, 2, room, 0, &count) == PZIC_OK && count > 44);
    uint8_t *bytes = malloc(count);
    CHECK(bytes != NULL);
    CHECK(pzic_files_bytes(&files, 2, bytes, count, &count) == PZIC_OK);
    uint32_t reason;
    CHECK(read_copy(bytes, count, &zone, &reason) == PZIC_OK);
    free(bytes);
    // 2024-07-03 and 2024-01-01.
    CHECK(pzic_zone_at(&zone, 1720000000, &state) == PZIC_OK);
    CHECK(state.offset == -4 * 3600 && state.daylight == 1 && strcmp(state.name, "EDT") == 0);
    CHECK(pzic_share(&files, &other) == PZIC_OK && other.kind == 2);
    pzic_free(&files);
    CHECK(pzic_zone_of(&other, 2, &again) == PZIC_OK && again.kind == 1);
    CHECK(pzic_zone_of(&other, 3, &zone) == PZIC_NO_SUCH && zone.kind == 0);
    // Neither kind of handle is the other.
    count = 5, number = 9, state.offset = 6, room[0] = 'x';
    pzic_civil civil = {.year = 7};
    int64_t change = 8;
    CHECK(pzic_zone_at(&other, 0, &state) == PZIC_NO_HANDLE);
    CHECK(pzic_zone_civil(&other, 0, &civil) == PZIC_NO_HANDLE && civil.year == 7);
    CHECK(pzic_zone_next_change(&other, 0, &change) == PZIC_NO_HANDLE && change == 8);
    CHECK(pzic_zone_previous_change(&other, 0, &change) == PZIC_NO_HANDLE && change == 8);
    CHECK(pzic_zone_changes(&other, 0, 9, &change, 1, &count) == PZIC_NO_HANDLE && change == 8);
    CHECK(pzic_files_len(&again, &count) == PZIC_NO_HANDLE);
    CHECK(find(&again, "Test/York", &number) == PZIC_NO_HANDLE);
    CHECK(pzic_files_name(&again, 0, room, 1, &count) == PZIC_NO_HANDLE);
    CHECK(pzic_files_bytes(&again, 0, room, 1, &count) == PZIC_NO_HANDLE);
    CHECK(pzic_rows_text(&again, room, 1, &count) == PZIC_NO_HANDLE);
    CHECK(count == 5 && number == 9 && state.offset == 6 && room[0] == 'x');
    // The zone stays without the files.
    pzic_free(&other);
    CHECK(pzic_zone_at(&again, 1704067200, &state) == PZIC_OK);
    CHECK(state.offset == -5 * 3600 && state.daylight == 0 && strcmp(state.name, "EST") == 0);
    CHECK(pzic_share(&again, &zone) == PZIC_OK && zone.kind == 1);
    pzic_free(&again);
    pzic_free(&zone);
}

// Texts that are no source, and growths of memory that are refused in turn.
static void refuse_sources(void) {
    pzic_handle files = {0};
    pzic_fault fault = {0};
    CHECK(compile("Zone A 0 - XYZ\nZone B 0 - XYZ\nWord\n", &files, &fault) == PZIC_BAD_SOURCE);
    CHECK(fault.text == 1 && fault.line == 3 && fault.kind == 4); // Keyword
    CHECK(files.kind == 0);
    CHECK(compile("Zone A 0 NoSet XYZ\n", &files, &fault) == PZIC_BAD_SOURCE);
    CHECK(fault.line == 1 && fault.kind == 21 && files.kind == 0); // UnknownRules
    CHECK(compile("", &files, &fault) == PZIC_OK && files.kind == 2);
    size_t count = 1;
    CHECK(pzic_files_len(&files, &count) == PZIC_OK && count == 0);
    long refused = 0;
    for (long n = 0;; n++) {
        growths_left = n;
        int32_t status = compile(source, &files, &fault);
        bool all = growths_left >= 0;
        growths_left = -1;
        if (status == PZIC_OK) {
            CHECK(files.kind == 2);
            if (all) break;
            // What zones would have shared was given up.
            pzic_free(&files);
            continue;
        }
        CHECK(!all && status == PZIC_NO_MEMORY && files.kind == 0 && fault.line == 1);
        refused++;
    }
    CHECK(refused > 10);
    pzic_handle zone = {0};
    growths_left = 0;
    CHECK(pzic_zone_of(&files, 0, &zone) == PZIC_NO_MEMORY && zone.kind == 0);
    growths_left = -1;
    pzic_free(&files);
}

// Several texts in one array, each with its own last line.
static void compile_texts(void) {
    static const char texts[] = "Zone A 1:00 - AAAZone B 0 - BBB\nLink B C\nRule R 2000 only - ";
    const uint8_t *bytes = (const uint8_t *)texts;
    size_t length = sizeof texts - 1, count = 0;
    size_t lengths[4] = {17, 0, 24, length - 41};
    pzic_handle files = {0};
    pzic_fault fault = {0};
    CHECK(pzic_compile(bytes, 41, lengths, 3, &files, &fault) == PZIC_OK && files.kind == 2);
    CHECK(pzic_files_len(&files, &count) == PZIC_OK && count == 3);
    CHECK(find(&files, "C", &count) == PZIC_OK && count == 2);
    CHECK(pzic_compile(bytes, length, lengths, 4, &files, &fault) == PZIC_BAD_SOURCE);
    CHECK(files.kind == 0 && fault.text == 4 && fault.line == 1 && fault.kind == 5); // FieldCount
    CHECK(pzic_compile(bytes, length, lengths, 3, &files, &fault) == PZIC_LENGTHS);
    CHECK(pzic_compile(bytes, 40, lengths, 3, &files, &fault) == PZIC_LENGTHS);
    lengths[1] = SIZE_MAX;
    CHECK(pzic_compile(bytes, 41, lengths, 3, &files, &fault) == PZIC_LENGTHS && files.kind == 0);
    CHECK(pzic_compile(bytes, 0, lengths, 0, &files, &fault) == PZIC_OK && files.kind == 2);
    CHECK(pzic_files_len(&files, &count) == PZIC_OK && count == 0);
    pzic_free(&files);
}

static void expect_file(const pzic_handle *files, size_t number, const char *name, size_t size) {
    uint8_t room[20];
    size_t length = 0;
    CHECK(pzic_files_name(files, number, room, sizeof room, &length) == PZIC_OK);
    CHECK(length == strlen(name) && memcmp(room, name, length) == 0);
    CHECK(pzic_files_bytes(files, number, room, 0, &length) == PZIC_OK && length == size);
}

// Files stand in the order of texts and lines.
static void order_files(void) {
    static const char texts[] =
        "Zone A -3 - %z\nLink A B\nLink D E"
        "Link A C\nZone D 5:30 - %z"
        "Zone Z/P 1:00 1:00 XXX";
    static const size_t lengths[] = {32, 25, 22};
    const uint8_t *bytes = (const uint8_t *)texts;
    pzic_handle files = {0};
    pzic_fault fault = {0};
    CHECK(pzic_compile(bytes, 57, lengths, 2, &files, &fault) == PZIC_OK);
    size_t count = 0;
    CHECK(pzic_files_len(&files, &count) == PZIC_OK && count == 5);
    expect_file(&files, 0, "A", 113);
    expect_file(&files, 1, "B", 113);
    expect_file(&files, 2, "E", 121);
    expect_file(&files, 3, "C", 113);
    expect_file(&files, 4, "D", 121);
    CHECK(pzic_compile(bytes, 79, lengths, 3, &files, &fault) == PZIC_BAD_SOURCE);
    CHECK(fault.text == 3 && fault.line == 1 && fault.kind == 30); // PermanentDaylight
    pzic_free(&files);
}

// A file is found by its whole name, and each link has the bytes of its zone.
static void find_names(void) {
    static const char *const none[] = {"Etc", "Etc/UTC1", "a", ""};
    pzic_handle files = {0};
    pzic_fault fault = {0};
    size_t number = 9, length = 0;
    CHECK(compile("Link Etc/UTC A\nZone Etc/UTC 0 - UTC\nLink A Etc/UT", &files, &fault) == PZIC_OK);
    CHECK(find(&files, "A", &number) == PZIC_OK && number == 0);
    CHECK(find(&files, "Etc/UT", &number) == PZIC_OK && number == 2);
    CHECK(find(&files, "Etc/UTC", &number) == PZIC_OK && number == 1);
    for (int i = 0; i < 4; i++)
        CHECK(find(&files, none[i], &number) == PZIC_NO_SUCH && number == 1);
    for (size_t i = 0; i < 3; i++) {
        uint8_t room[111];
        CHECK(pzic_files_bytes(&files, i, room, sizeof room, &length) == PZIC_OK && length == 111);
        CHECK(memcmp(room + 105, "\nUTC0\n", 6) == 0);
    }
    pzic_free(&files);
}

static const char column[] = "Test/York,1720000000\n\"Test/Fixed\",-1\n";
static const char converted[] =
    "Test/York,1720000000,2024-07-03T05:46:40,-04:00:00,1,EDT\n"
    "Test/Fixed,-1,1970-01-01T00:59:59,+01:00:00,0,XYZ\n";

static int32_t convert(const pzic_handle *files, const char *text, pzic_handle *rows, pzic_row_fault *fault) {
    return pzic_rows(files, (const uint8_t *)text, strlen(text), rows, fault);
}

static void expect_rows(const pzic_handle *rows, const char *want) {
    size_t length = 0;
    uint8_t room[200];
    memset(room, 'x', sizeof room);
    CHECK(rows->kind == 3);
    CHECK(pzic_rows_text(rows, room, sizeof room, &length) == PZIC_OK && length == strlen(want));
    CHECK(memcmp(room, want, length) == 0 && room[length] == 'x');
}

// Rows of a column, and the first one that has a fault.
static void convert_columns(void) {
    pzic_handle files = {0}, rows = {0}, other = {0};
    pzic_fault none;
    pzic_row_fault fault = {5, 6};
    CHECK(convert(&files, column, &rows, &fault) == PZIC_NO_HANDLE && rows.kind == 0);
    CHECK(compile(source, &files, &none) == PZIC_OK);
    CHECK(convert(&files, column, &rows, &fault) == PZIC_OK && fault.row == 5 && fault.kind == 6);
    expect_rows(&rows, converted);
    size_t faults = 1;
    CHECK(pzic_rows_faults(&rows, NULL, 0, &faults) == PZIC_OK && faults == 0);
    uint8_t room[4] = "abcd";
    size_t length = 0;
    CHECK(pzic_rows_text(&rows, room, 3, &length) == PZIC_OK && length == strlen(converted));
    CHECK(memcmp(room, "Tesd", 4) == 0);
    CHECK(pzic_share(&rows, &other) == PZIC_OK);
    CHECK(convert(&files, "\xEF\xBB\xBFTest/Fixed,0\nTest/York,x\n", &rows, &fault) == PZIC_BAD_ROW);
    CHECK(fault.row == 2 && fault.kind == 37); // RowInstant
    faults = 1;
    CHECK(pzic_rows_faults(&rows, NULL, 0, &faults) == PZIC_OK && faults == 0);
    expect_rows(&rows, "Test/Fixed,0,1970-01-01T01:00:00,+01:00:00,0,XYZ\n");
    expect_rows(&other, converted);
    CHECK(convert(&files, "Test/None,0\n", &rows, &fault) == PZIC_BAD_ROW);
    CHECK(fault.row == 1 && fault.kind == 36); // RowZone
    CHECK(convert(&files, "", &rows, &fault) == PZIC_OK);
    expect_rows(&rows, "");
    // What holds rows holds no files and no zone.
    pzic_state state;
    CHECK(pzic_zone_at(&other, 0, &state) == PZIC_NO_HANDLE);
    CHECK(pzic_files_len(&other, &length) == PZIC_NO_HANDLE);
    CHECK(pzic_zone_of(&other, 0, &rows) == PZIC_NO_HANDLE && rows.kind == 0);
    for (long n = 0;; n++) {
        growths_left = n;
        int32_t status = convert(&files, column, &rows, &fault);
        bool all = growths_left >= 0;
        growths_left = -1;
        if (all) {
            CHECK(status == PZIC_OK && n > 2);
            break;
        }
        CHECK(status == PZIC_NO_MEMORY && rows.kind == 0 && fault.row == 1);
    }
    expect_rows(&rows, converted);
    pzic_free(&rows);
    pzic_free(&other);
    pzic_free(&files);
}

static int32_t convert_by(const pzic_handle *files, const pzic_layout *layout, const char *name, const char *text, pzic_handle *rows) {
    return pzic_rows_by(files, layout, (const uint8_t *)name, strlen(name), (const uint8_t *)text, strlen(text), rows);
}

// Rows of a column by layouts, and the faults of those that have one.
static void convert_by_layouts(void) {
    pzic_handle files = {0}, rows = {0};
    pzic_layout layout = PZIC_LAYOUT_INIT;
    pzic_fault none;
    pzic_row_fault faults[3] = {{7, 8}, {7, 8}, {7, 8}};
    uint64_t many = 9;
    size_t count = 9;
    CHECK(convert_by(&files, &layout, "", column, &rows) == PZIC_NO_HANDLE && rows.kind == 0);
    CHECK(pzic_rows_len(&rows, &many) == PZIC_NO_HANDLE && many == 9);
    CHECK(pzic_rows_faults(&rows, faults, 3, &count) == PZIC_NO_HANDLE && count == 9 && faults[0].row == 7);
    CHECK(compile(source, &files, &none) == PZIC_OK);
    CHECK(convert_by(&files, &layout, "", column, &rows) == PZIC_OK);
    expect_rows(&rows, converted);
    CHECK(pzic_rows_len(&rows, &many) == PZIC_OK && many == 2);
    CHECK(pzic_rows_faults(&rows, NULL, 0, &count) == PZIC_OK && count == 0);
    // The fault that ends the run is told, and the rows before it.
    CHECK(convert_by(&files, &layout, "", "Test/Fixed,0\nTest/York,x\n", &rows) == PZIC_BAD_ROW);
    expect_rows(&rows, "Test/Fixed,0,1970-01-01T01:00:00,+01:00:00,0,XYZ\n");
    CHECK(pzic_rows_faults(&rows, faults, 3, &count) == PZIC_OK && count == 1);
    CHECK(faults[0].row == 2 && faults[0].kind == 37 && faults[1].row == 7);
    // A header, another delimiter, milliseconds, records as they stand, and faults that end nothing.
    layout = (pzic_layout){.time = 1, .fields = 2, .more_fields = 1, .unit = PZIC_MILLISECONDS, .delimiter = ';',
        .records = PZIC_RECORDS_LINES, .header = PZIC_HEADER_FIRST, .start = PZIC_START_RECORD, .at_fault = PZIC_FAULT_GOES_ON};
    CHECK(convert_by(&files, &layout, "Test/Fixed", "k;t\na;5\n\"b;6\n\nc;y;z\n", &rows) == PZIC_OK);
    expect_rows(&rows, "k;t;local;offset;daylight;abbreviation\na;5;1970-01-01T01:00:00.005;+01:00:00;0;XYZ\n\"b;6\nc;y;z;;;;\n");
    CHECK(pzic_rows_len(&rows, &many) == PZIC_OK && many == 3);
    CHECK(pzic_rows_faults(&rows, faults, 1, &count) == PZIC_OK && count == 2 && faults[0].row == 2 && faults[0].kind == 43);
    CHECK(pzic_rows_faults(&rows, faults, 3, &count) == PZIC_OK && faults[1].row == 3 && faults[1].kind == 37);
    layout = (pzic_layout)PZIC_LAYOUT_INIT;
    layout.style = PZIC_STYLE_ISO;
    CHECK(convert_by(&files, &layout, "", "Test/York,1173596400\n", &rows) == PZIC_OK);
    expect_rows(&rows, "Test/York,1173596400,2007-03-11T03:00:00-04:00,1,EDT\n");
    layout.style = PZIC_STYLE_FIELDS;
    // Seconds with a fraction, a date in UT, one with an offset, and a local time.
    layout.from = PZIC_FROM_SECONDS, layout.unit = PZIC_MILLISECONDS;
    CHECK(convert_by(&files, &layout, "", "Test/York,1173596400.25\n", &rows) == PZIC_OK);
    expect_rows(&rows, "Test/York,1173596400250,2007-03-11T03:00:00.250,-04:00:00,1,EDT\n");
    layout.from = PZIC_FROM_UTC, layout.unit = PZIC_SECONDS;
    CHECK(convert_by(&files, &layout, "", "Test/York,2007-03-11 07:00\n", &rows) == PZIC_OK);
    expect_rows(&rows, "Test/York,1173596400,2007-03-11T03:00:00,-04:00:00,1,EDT\n");
    layout.from = PZIC_FROM_RFC3339;
    CHECK(convert_by(&files, &layout, "", "Test/York,2007-03-11t03:00:00.0-04\n", &rows) == PZIC_OK);
    expect_rows(&rows, "Test/York,1173596400,2007-03-11T03:00:00,-04:00:00,1,EDT\n");
    layout.from = PZIC_FROM_LOCAL;
    layout.from += PZIC_EARLIER;
    CHECK(convert_by(&files, &layout, "", "Test/York,2007-03-11T03:00\n", &rows) == PZIC_OK);
    expect_rows(&rows, "Test/York,2007-03-11T03:00:00,1173596400,-04:00:00,1,EDT\n");
    layout.from = PZIC_FROM_SECONDS + 1;
    CHECK(convert_by(&files, &layout, "", column, &rows) == PZIC_NO_SUCH && rows.kind == 0);
    layout.from = PZIC_FROM_COUNT;
    // A record of 20 bytes is within a limit of 20, and ends the run where the limit is 19.
    layout.max_record = 20, layout.at_fault = PZIC_FAULT_GOES_ON;
    CHECK(convert_by(&files, &layout, "", column, &rows) == PZIC_OK);
    expect_rows(&rows, converted);
    layout.max_record = 19;
    CHECK(convert_by(&files, &layout, "", "\"Test/Fixed\",-1\nTest/York,1720000000\nTest/York,0\n", &rows) == PZIC_BAD_ROW);
    expect_rows(&rows, "Test/Fixed,-1,1970-01-01T00:59:59,+01:00:00,0,XYZ\n");
    CHECK(pzic_rows_faults(&rows, faults, 3, &count) == PZIC_OK && count == 1 && faults[0].row == 2 && faults[0].kind == 44);
    // The header is row 0: one that is too long, or is a row.
    layout.header = PZIC_HEADER_SKIPPED;
    CHECK(convert_by(&files, &layout, "", column, &rows) == PZIC_BAD_ROW);
    expect_rows(&rows, "");
    CHECK(pzic_rows_faults(&rows, faults, 3, &count) == PZIC_OK && count == 1 && faults[0].row == 0 && faults[0].kind == 44);
    layout = (pzic_layout)PZIC_LAYOUT_INIT;
    layout.header = PZIC_HEADER_FIRST;
    CHECK(convert_by(&files, &layout, "", column, &rows) == PZIC_BAD_ROW);
    expect_rows(&rows, "zone,instant,local,offset,daylight,abbreviation\n");
    CHECK(pzic_rows_len(&rows, &many) == PZIC_OK && many == 0);
    CHECK(pzic_rows_faults(&rows, faults, 3, &count) == PZIC_OK && count == 1 && faults[0].row == 0 && faults[0].kind == 45);
    layout = (pzic_layout)PZIC_LAYOUT_INIT;
    // Double quotes that RFC 4180 doesn't have are a fault, unless the layout is lenient.
    static const char *const stray = "Test/Fixed,\"-\"1\n";
    CHECK(convert_by(&files, &layout, "", stray, &rows) == PZIC_BAD_ROW);
    CHECK(pzic_rows_faults(&rows, faults, 3, &count) == PZIC_OK && count == 1 && faults[0].row == 1 && faults[0].kind == 43);
    layout.quotes = PZIC_QUOTES_LENIENT;
    CHECK(convert_by(&files, &layout, "", stray, &rows) == PZIC_OK);
    expect_rows(&rows, "Test/Fixed,-1,1970-01-01T00:59:59,+01:00:00,0,XYZ\n");
    layout.quotes = PZIC_QUOTES_STRICT;
    // Numbers of nothing, what can't be a delimiter, and a name that is no text.
    for (int i = 0; i < 11; i++) {
        pzic_layout other = PZIC_LAYOUT_INIT;
        uint32_t *const numbers[] = {&other.more_fields, &other.from, &other.unit, &other.delimiter, &other.delimiter,
            &other.records, &other.header, &other.start, &other.at_fault, &other.style, &other.quotes};
        *numbers[i] = i == 3 ? '"' : i == 4 ? 300 : 9;
        CHECK(convert_by(&files, &other, "", column, &rows) == PZIC_NO_SUCH && rows.kind == 0);
    }
    CHECK(convert_by(&files, &layout, "\xFF", column, &rows) == PZIC_NO_SUCH && rows.kind == 0);
    layout = (pzic_layout)PZIC_LAYOUT_INIT;
    for (long n = 0;; n++) {
        growths_left = n;
        int32_t status = convert_by(&files, &layout, "Test/Fixed", column, &rows);
        bool all = growths_left >= 0;
        growths_left = -1;
        if (all) {
            CHECK(status == PZIC_OK && n > 2);
            break;
        }
        CHECK(status == PZIC_NO_MEMORY && rows.kind == 0);
    }
    pzic_free(&rows);
    pzic_free(&files);
}

static int32_t convert_with(const pzic_handle *files, const pzic_row_layout *layout, const char *name, const char *text, pzic_handle *rows) {
    return pzic_rows_with(files, layout, (const uint8_t *)name, strlen(name), (const uint8_t *)text, strlen(text), rows);
}

// What layouts refuse that have more options.
static void refuse_row_layouts(const pzic_handle *files) {
    pzic_handle rows = {0};
    pzic_row_layout layout = PZIC_ROW_LAYOUT_INIT;
    // Numbers of nothing, and those without a meaning.
    for (int i = 0; i < 9; i++) {
        pzic_row_layout other = PZIC_ROW_LAYOUT_INIT;
        uint32_t *const numbers[] = {&other.empty, &other.line_end, &other.column.start, &other.reserved[0], &other.reserved[1],
            &other.reserved[2], &other.reserved[3], &other.reserved[4], &other.reserved[5]};
        *numbers[i] = i == 2 ? 3 : i < 3 ? 2 : 1;
        CHECK(convert_with(files, &other, "", column, &rows) == PZIC_NO_SUCH && rows.kind == 0);
    }
    // No field has the number 9, and a list of fields has no style.
    layout.only[0] = PZIC_FIELD_LOCAL, layout.only[1] = PZIC_FIELD_AMBIGUOUS + 1;
    CHECK(convert_with(files, &layout, "", column, &rows) == PZIC_NO_SUCH);
    layout.only[1] = 0, layout.only[2] = PZIC_FIELD_AMBIGUOUS + 1;
    CHECK(convert_with(files, &layout, "", column, &rows) == PZIC_OK);
    layout.column.style = PZIC_STYLE_ISO;
    CHECK(convert_with(files, &layout, "", column, &rows) == PZIC_NO_SUCH);
    layout.only[0] = 0;
    CHECK(convert_with(files, &layout, "", column, &rows) == PZIC_OK);
    // A prefix of 64 bytes, of 65, and with a byte that no field of a row has. What follows a NUL counts for nothing.
    layout = (pzic_row_layout)PZIC_ROW_LAYOUT_INIT;
    memset(layout.prefix, 'a', 64);
    CHECK(convert_with(files, &layout, "", column, &rows) == PZIC_OK);
    layout.prefix[64] = 'a';
    CHECK(convert_with(files, &layout, "", column, &rows) == PZIC_NO_SUCH);
    layout.prefix[64] = 0, layout.prefix[9] = ',';
    CHECK(convert_with(files, &layout, "", column, &rows) == PZIC_NO_SUCH);
    layout.prefix[8] = 0;
    CHECK(convert_with(files, &layout, "", column, &rows) == PZIC_OK);
    CHECK(convert_with(files, &layout, "\xFF", column, &rows) == PZIC_NO_SUCH && rows.kind == 0);
    pzic_free(&rows);
}

// Rows by layouts with more options: the instant 1173596400 is 2007-03-11T07:00:00Z, where clocks of Test/York go from 02:00 to 03:00.
static void convert_by_row_layouts(void) {
    pzic_handle files = {0}, rows = {0};
    pzic_row_layout layout = PZIC_ROW_LAYOUT_INIT;
    pzic_fault none;
    pzic_row_fault faults[2] = {{7, 8}, {7, 8}};
    size_t count = 9;
    CHECK(convert_with(&files, &layout, "", column, &rows) == PZIC_NO_HANDLE && rows.kind == 0);
    CHECK(compile(source, &files, &none) == PZIC_OK);
    CHECK(convert_with(&files, &layout, "", column, &rows) == PZIC_OK);
    expect_rows(&rows, converted);
    // Fields, a prefix, and an empty time that is kept: its zone must be one.
    layout = (pzic_row_layout){.column = {.time = 1, .fields = 2, .more_fields = 1, .delimiter = ',', .header = PZIC_HEADER_FIRST,
        .start = PZIC_START_RECORD, .at_fault = PZIC_FAULT_GOES_ON}, .only = {PZIC_FIELD_UTC, PZIC_FIELD_OFFSET}, .prefix = "sent_",
        .empty = PZIC_EMPTY_KEEP};
    static const char *const sent = "zone,sent,who\nTest/York,1173596400,a\nTest/York,,b\nNowhere,,c\nTest/York,x,d\n";
    CHECK(convert_with(&files, &layout, "", sent, &rows) == PZIC_OK);
    expect_rows(&rows, "zone,sent,who,sent_utc,sent_offset\nTest/York,1173596400,a,2007-03-11T07:00:00Z,-04:00:00\nTest/York,,b,,\n"
        "Nowhere,,c,,\nTest/York,x,d,,\n");
    CHECK(pzic_rows_faults(&rows, faults, 2, &count) == PZIC_OK && count == 2 && faults[0].row == 3 && faults[1].row == 4);
    layout.empty = PZIC_EMPTY_FAULT;
    CHECK(convert_with(&files, &layout, "", sent, &rows) == PZIC_OK);
    CHECK(pzic_rows_faults(&rows, faults, 2, &count) == PZIC_OK && count == 3 && faults[0].row == 2);
    // The first field in the place of the time, of a quoted one too, whose name stays; and carriage returns.
    layout.column.start = PZIC_START_REPLACED, layout.line_end = PZIC_LINE_END_CRLF;
    layout.only[0] = PZIC_FIELD_TIME, layout.only[1] = PZIC_FIELD_ABBREVIATION, layout.only[2] = PZIC_FIELD_DAYLIGHT;
    CHECK(convert_with(&files, &layout, "", "zone,sent,who\nTest/York,\"1173596400\",\"a,\"\"b\"\n\"Test/York\",x,c\n", &rows) == PZIC_OK);
    expect_rows(&rows, "zone,sent,who,sent_abbreviation,sent_daylight\r\nTest/York,2007-03-11T03:00:00-04:00,\"a,\"\"b\",EDT,1\r\n"
        "\"Test/York\",,c,,\r\n");
    // All eight fields of a local time in a gap, one of them for each of the eight places.
    layout = (pzic_row_layout)PZIC_ROW_LAYOUT_INIT;
    layout.column.from = PZIC_FROM_LOCAL + PZIC_EARLIER;
    for (uint8_t i = 0; i < 8; i++) layout.only[i] = (uint8_t)(8 - i);
    CHECK(convert_with(&files, &layout, "", "Test/York,2007-03-11T02:30\n", &rows) == PZIC_OK);
    expect_rows(&rows, "Test/York,2007-03-11T02:30:00,gap,EST,0,-05:00:00,2007-03-11T06:30:00Z,1173594600,2007-03-11T01:30:00-05:00,"
        "2007-03-11T01:30:00\n");
    refuse_row_layouts(&files);
    layout.column.time = 0, layout.column.fields = 1;
    for (long n = 0;; n++) {
        growths_left = n;
        int32_t status = convert_with(&files, &layout, "Test/Fixed", "1970-01-01T01:00:00\n", &rows);
        bool all = growths_left >= 0;
        growths_left = -1;
        if (all) {
            CHECK(status == PZIC_OK && n > 3);
            break;
        }
        CHECK(status == PZIC_NO_MEMORY && rows.kind == 0);
    }
    pzic_free(&rows);
    pzic_free(&files);
}

// Rows that each have a zone of their own, with values of the source, and with an abbreviation of 16 bytes.
static void tell_rows(void) {
    static const char text[] = "Zone Test/Long -0:30 - ABCDEFGHIJKLMNOP\n";
    static const int64_t instants[] = {1720000000, 1704067200, -5, 0};
    static const uint32_t zones[] = {2, 2, 0, 3};
    pzic_handle files = {0}, zone = {0};
    pzic_fault none;
    int32_t offsets[4] = {7, 7, 7, 7};
    uint8_t flags[4] = {9, 9, 9, 9};
    pzic_abbreviation names[4] = {{"x"}, {"x"}, {"x"}, {"x"}};
    CHECK(pzic_files_offsets(&files, zones, 4, instants, 4, offsets, 4, flags, 4) == PZIC_NO_HANDLE);
    CHECK(pzic_files_abbreviations(&files, zones, 4, instants, 4, names, 4) == PZIC_NO_HANDLE);
    CHECK(compile(source, &files, &none) == PZIC_OK && pzic_zone_of(&files, 0, &zone) == PZIC_OK);
    CHECK(pzic_files_offsets(&zone, zones, 4, instants, 4, offsets, 4, flags, 4) == PZIC_NO_HANDLE);
    CHECK(pzic_files_abbreviations(&zone, zones, 4, instants, 4, names, 4) == PZIC_NO_HANDLE);
    for (size_t i = 0; i < 4; i++) {
        // Each length, in turn, is one less than the others.
        size_t n[4] = {4, 4, 4, 4};
        n[i] = 3;
        CHECK(pzic_files_offsets(&files, zones, n[0], instants, n[1], offsets, n[2], flags, n[3]) == PZIC_LENGTHS);
        if (i < 3) CHECK(pzic_files_abbreviations(&files, zones, n[0], instants, n[1], names, n[2]) == PZIC_LENGTHS);
    }
    for (int i = 0; i < 4; i++) CHECK(offsets[i] == 7 && flags[i] == 9 && names[i].name[0] == 'x');
    CHECK(pzic_files_offsets(&files, NULL, 0, NULL, 0, NULL, 0, NULL, 0) == PZIC_OK);
    CHECK(pzic_files_abbreviations(&files, NULL, 0, NULL, 0, NULL, 0) == PZIC_OK);
    CHECK(pzic_files_offsets(&files, zones, 4, instants, 4, offsets, 4, flags, 4) == PZIC_OK);
    CHECK(pzic_files_abbreviations(&files, zones, 4, instants, 4, names, 4) == PZIC_OK);
    CHECK(offsets[0] == -4 * 3600 && offsets[1] == -5 * 3600 && offsets[2] == 3600 && offsets[3] == 0);
    CHECK(flags[0] == PZIC_DAYLIGHT && flags[1] == 0 && flags[2] == 0 && flags[3] == PZIC_NO_ZONE);
    static const pzic_abbreviation want[] = {{"EDT"}, {"EST"}, {"XYZ"}, {""}};
    CHECK(memcmp(names, want, sizeof want) == 0);
    CHECK(compile(text, &files, &none) == PZIC_OK);
    CHECK(pzic_files_abbreviations(&files, &zones[2], 1, instants, 1, names, 1) == PZIC_OK);
    CHECK(memcmp(names[0].name, "ABCDEFGHIJKLMNOP", 16) == 0 && strcmp(names[1].name, "EST") == 0);
    pzic_free(&zone);
    pzic_free(&files);
}

// The instants of local times with a zone for each. In Test/York the first is in a gap, and the second in a fold.
static void tell_local_rows(void) {
    enum { ROWS = 6 };
    static const int64_t locals[ROWS] = {1710037800, 1730597400, 1710037800, 0, 0, INT64_MAX};
    static const uint32_t zones[ROWS] = {2, 2, 0, 3, UINT32_MAX, 1};
    static const int64_t want[ROWS] = {1710037800 + 5 * 3600, 1730597400 + 4 * 3600, 1710037800 - 3600};
    static const uint8_t rejected[ROWS] = {PZIC_GAP, PZIC_FOLD, PZIC_OK, PZIC_NO_SUCH, PZIC_NO_SUCH, PZIC_OUT_OF_RANGE};
    pzic_handle files = {0};
    pzic_fault none;
    int64_t instants[ROWS] = {7, 7, 7, 7, 7, 7};
    uint8_t statuses[ROWS] = {77, 77, 77, 77, 77, 77};
    CHECK(pzic_files_instants(&files, 0, zones, ROWS, locals, ROWS, instants, ROWS, statuses, ROWS) == PZIC_NO_HANDLE);
    CHECK(compile(source, &files, &none) == PZIC_OK);
    for (size_t i = 0; i < 4; i++) {
        size_t n[4] = {ROWS, ROWS, ROWS, ROWS};
        n[i]--;
        CHECK(pzic_files_instants(&files, 0, zones, n[0], locals, n[1], instants, n[2], statuses, n[3]) == PZIC_LENGTHS);
    }
    CHECK(pzic_files_instants(&files, 4, zones, ROWS, locals, ROWS, instants, ROWS, statuses, ROWS) == PZIC_NO_SUCH);
    CHECK(pzic_files_instants(&files, 0, NULL, 0, NULL, 0, NULL, 0, NULL, 0) == PZIC_OK);
    growths_left = 0;
    CHECK(pzic_files_instants(&files, 0, zones, ROWS, locals, ROWS, instants, ROWS, statuses, ROWS) == PZIC_NO_MEMORY);
    growths_left = -1;
    for (int i = 0; i < ROWS; i++) CHECK(instants[i] == 7 && statuses[i] == 77);
    CHECK(pzic_files_instants(&files, PZIC_REJECT, zones, ROWS, locals, ROWS, instants, ROWS, statuses, ROWS) == PZIC_OK);
    for (int i = 0; i < ROWS; i++) CHECK(statuses[i] == rejected[i] && instants[i] == (rejected[i] ? 0 : want[i]));
    CHECK(pzic_files_instants(&files, PZIC_COMPATIBLE, zones, ROWS, locals, ROWS, instants, ROWS, statuses, ROWS) == PZIC_OK);
    for (int i = 0; i < ROWS; i++) CHECK(instants[i] == want[i] && statuses[i] == (i < 3 ? PZIC_OK : rejected[i]));
    pzic_free(&files);
}

// The next instants at which clocks of Test/York show a time of day, as Python's zoneinfo tells of America/New_York.
static void tell_schedules(void) {
    // 02:30 from noon of 2024-03-09 UT on: the next day it is in a gap. 01:30 of 2024-11-03 is in a fold.
    pzic_schedule gap = {1709985600, 1709985600 + 366 * 86400, 9000, PZIC_EVERY_DAY, 0};
    pzic_schedule fold = {1730592000, 1730592000 + 366 * 86400, 5400, PZIC_EVERY_DAY, 0};
    static const int64_t want[][2] = {{1710052200, 1730611800}, {1710055800, 1730615400}, {1710055800, 1730611800}, {1710138600, 1730611800}};
    pzic_handle files = {0}, zone = {0};
    pzic_fault none;
    int64_t instant = 7, instants[4] = {7, 7, 7, 7};
    size_t count = 8;
    CHECK(pzic_zone_next_local(&zone, &gap, &instant) == PZIC_NO_HANDLE && instant == 7);
    CHECK(pzic_zone_next_locals(&zone, &gap, instants, 4, &count) == PZIC_NO_HANDLE && instants[0] == 7 && count == 8);
    CHECK(compile(source, &files, &none) == PZIC_OK && pzic_zone_of(&files, 2, &zone) == PZIC_OK);
    for (uint32_t policy = PZIC_EARLIER; policy <= PZIC_SKIP; policy++) {
        gap.policy = fold.policy = policy;
        CHECK(pzic_zone_next_local(&zone, &gap, &instant) == PZIC_OK && instant == want[policy - 1][0]);
        CHECK(pzic_zone_next_local(&zone, &fold, &instant) == PZIC_OK && instant == want[policy - 1][1]);
    }
    gap.weekdays = PZIC_SUNDAY;
    CHECK(pzic_zone_next_local(&zone, &gap, &instant) == PZIC_OK && instant == 1710657000);
    gap.until = 1710657000 + 7 * 86400;
    CHECK(pzic_zone_next_locals(&zone, &gap, instants, 4, &count) == PZIC_OK && count == 2);
    CHECK(instants[0] == 1710657000 && instants[1] == gap.until && instants[2] == 7);
    gap.until--;
    CHECK(pzic_zone_next_locals(&zone, &gap, instants, 4, &count) == PZIC_OK && count == 1);
    CHECK(pzic_zone_next_locals(&zone, &gap, instants, 1, &count) == PZIC_OK && count == 1);
    CHECK(pzic_zone_next_locals(&zone, &gap, NULL, 0, &count) == PZIC_OK && count == 0);
    gap.until = gap.after;
    CHECK(pzic_zone_next_local(&zone, &gap, &instant) == PZIC_NO_SUCH && instant == 1710657000);
    fold.weekdays = 0;
    CHECK(pzic_zone_next_local(&zone, &fold, &instant) == PZIC_NO_SUCH && instant == 1710657000);
    static const pzic_schedule bad[] = {{0, 9, 86400, 1, 1}, {0, 9, 0, 128, 1}, {0, 9, 0, 1, 0}, {0, 9, 0, 1, 5}, {0, 9, 0, UINT32_MAX, 1}};
    for (size_t i = 0; i < sizeof bad / sizeof *bad; i++) {
        CHECK(pzic_zone_next_local(&zone, &bad[i], &instant) == PZIC_OUT_OF_RANGE && instant == 1710657000);
        CHECK(pzic_zone_next_locals(&zone, &bad[i], instants, 4, &count) == PZIC_OUT_OF_RANGE && count == 0);
    }
    fold = (pzic_schedule){INT64_MIN, INT64_MIN + 1000000, 0, PZIC_EVERY_DAY, PZIC_COMPATIBLE};
    CHECK(pzic_zone_next_local(&zone, &fold, &instant) == PZIC_OK && instant < INT64_MIN + 300000);
    fold = (pzic_schedule){INT64_MAX - 1000000, INT64_MAX, 0, PZIC_EVERY_DAY, PZIC_COMPATIBLE};
    CHECK(pzic_zone_next_local(&zone, &fold, &instant) == PZIC_OK && instant < INT64_MAX - 900000);
    pzic_free(&zone);
    pzic_free(&files);
}

// Compares rows that each have a zone of their own with single answers. One number is that of no file.
static void compare_rows(const pzic_handle *files) {
    size_t count = 0;
    CHECK(pzic_files_len(files, &count) == PZIC_OK && count > 0);
    pzic_handle *handles = calloc(count, sizeof *handles);
    uint32_t *zones = malloc(MANY * sizeof *zones);
    int64_t *instants = malloc(MANY * sizeof *instants);
    int32_t *offsets = malloc(MANY * sizeof *offsets);
    uint8_t *flags = malloc(MANY);
    pzic_abbreviation *names = malloc(MANY * sizeof *names);
    CHECK(handles && zones && instants && offsets && flags && names);
    for (size_t i = 0; i < count; i++) CHECK(pzic_zone_of(files, i, &handles[i]) == PZIC_OK);
    uint64_t seed = 1181783497276652981u;
    for (int i = 0; i < MANY; i++) {
        instants[i] = next_instant(&seed);
        zones[i] = (uint32_t)((seed >> 40) % (count + 1));
    }
    instants[0] = INT64_MIN, instants[1] = INT64_MAX, zones[2] = UINT32_MAX;
    CHECK(pzic_files_offsets(files, zones, MANY, instants, MANY, offsets, MANY, flags, MANY) == PZIC_OK);
    CHECK(pzic_files_abbreviations(files, zones, MANY, instants, MANY, names, MANY) == PZIC_OK);
    for (int i = 0; i < MANY; i++) {
        pzic_state state = {0};
        bool has_zone = zones[i] < count;
        if (has_zone) CHECK(pzic_zone_at(&handles[zones[i]], instants[i], &state) == PZIC_OK);
        int want = has_zone ? (state.daylight ? PZIC_DAYLIGHT : 0) : PZIC_NO_ZONE;
        CHECK(offsets[i] == state.offset && flags[i] == want);
        CHECK(memcmp(names[i].name, state.name, sizeof names[i].name) == 0);
    }
    for (size_t i = 0; i < count; i++) pzic_free(&handles[i]);
    free(handles);
    free(zones);
    free(instants);
    free(offsets);
    free(flags);
    free(names);
}

static bool is_empty(const pzic_handle *handle) { return handle->kind == 0 && handle->at == NULL; }

// Texts that lie one after another, and their lengths.
typedef struct given {
    uint8_t texts[20000];
    size_t length, lengths[20], count;
} given;

static void add_text(given *all, const void *text, size_t length) {
    CHECK(all->length + length <= sizeof all->texts && all->count < 20);
    if (length > 0) memcpy(all->texts + all->length, text, length);
    all->length += length;
    all->lengths[all->count++] = length;
}

static void add_file(given *all, const char *name, const void *bytes, size_t length) {
    add_text(all, name, strlen(name));
    add_text(all, bytes, length);
}

static int32_t files_of(const given *all, uint8_t *statuses, pzic_handle *files) {
    return pzic_files_of(all->texts, all->length, all->lengths, all->count, statuses, all->count / 2, files);
}

// A file of the bytes of one that was compiled, without its footer's text.
static size_t without_footer(uint8_t *bytes, size_t length) {
    size_t end = length - 1;
    while (bytes[end - 1] != '\n') end--;
    bytes[end] = '\n';
    return end + 1;
}

// Files of names and of bytes that were read are those that the bytes were copied from.
static void take_files(void) {
    given all = {.count = 0};
    pzic_handle compiled = {0}, files = {0}, rows = {0}, zone = {0};
    pzic_fault none;
    pzic_state state;
    uint8_t bytes[3000], want[] = {0, 13, 0, 15, 3, 13, 14, 14}, statuses[9];
    size_t fixed, york, count = 0;
    CHECK(compile(source, &compiled, &none) == PZIC_OK);
    CHECK(find(&compiled, "Test/York", &count) == PZIC_OK);
    CHECK(pzic_files_bytes(&compiled, count, bytes, sizeof bytes, &york) == PZIC_OK && york < sizeof bytes);
    add_file(&all, "Test/York", bytes, york);
    add_file(&all, "Test/../York", bytes, york);
    CHECK(pzic_files_bytes(&compiled, 0, bytes, sizeof bytes, &fixed) == PZIC_OK && fixed < sizeof bytes);
    add_file(&all, "Test/Fixed", bytes, fixed);
    add_file(&all, "Test/York", "", 0);
    add_file(&all, "Test/Short", bytes, fixed - 1);
    add_file(&all, "", bytes, fixed);
    // An abbreviation of two letters, which a file may have and rows may not.
    CHECK(memcmp(bytes + fixed - 11, "XYZ\0\nXYZ-1\n", 11) == 0);
    bytes[fixed - 9] = '\0';
    add_file(&all, "Test/Two", bytes, fixed);
    add_file(&all, "Test/Open", bytes, without_footer(bytes, fixed));
    memset(statuses, 99, sizeof statuses);
    CHECK(files_of(&all, statuses, &files) == PZIC_OK && files.kind == 2);
    CHECK(memcmp(statuses, want, sizeof want) == 0 && statuses[8] == 99);
    CHECK(pzic_files_len(&files, &count) == PZIC_OK && count == 2);
    expect_file(&files, 0, "Test/York", york);
    expect_file(&files, 1, "Test/Fixed", fixed);
    CHECK(find(&files, "Test/Fixed", &count) == PZIC_OK && count == 1);
    CHECK(find(&files, "Test/Open", &count) == PZIC_NO_SUCH && count == 1);
    CHECK(pzic_zone_of(&files, 1, &zone) == PZIC_OK && pzic_zone_at(&zone, 0, &state) == PZIC_OK && state.offset == 3600);
    pzic_row_fault fault = {7, 8};
    CHECK(convert(&files, column, &rows, &fault) == PZIC_OK);
    expect_rows(&rows, converted);
    CHECK(convert(&files, "Test/Open,0\n", &rows, &fault) == PZIC_BAD_ROW && fault.row == 1 && fault.kind == 36);
    // Lengths of no names and bytes, or another number of statuses; what the handle held is gone.
    memset(statuses, 99, sizeof statuses);
    CHECK(pzic_files_of(all.texts, all.length - 1, all.lengths, all.count, statuses, 8, &files) == PZIC_LENGTHS && files.kind == 0);
    CHECK(files_of(&all, statuses, &files) == PZIC_OK);
    memset(statuses, 99, sizeof statuses);
    CHECK(pzic_files_of(all.texts, all.length, all.lengths, all.count, statuses, 7, &files) == PZIC_LENGTHS && files.kind == 0);
    CHECK(pzic_files_of(all.texts, all.lengths[0], all.lengths, 1, statuses, 0, &files) == PZIC_LENGTHS);
    CHECK(pzic_files_of(all.texts, all.lengths[0], all.lengths, 1, statuses, 1, &files) == PZIC_LENGTHS);
    CHECK(pzic_files_of(NULL, 0, NULL, 0, NULL, 0, &files) == PZIC_OK && files.kind == 2);
    CHECK(pzic_files_len(&files, &count) == PZIC_OK && count == 0);
    for (long n = 0;; n++) {
        CHECK(pzic_share(&compiled, &files) == PZIC_OK);
        growths_left = n;
        int32_t status = files_of(&all, statuses, &files);
        bool refused = growths_left < 0;
        growths_left = -1;
        if (!refused) {
            CHECK(status == PZIC_OK && n > 5 && statuses[1] == 13);
            break;
        }
        CHECK(status == PZIC_NO_MEMORY && is_empty(&files) && statuses[0] == 99);
    }
    pzic_free(&zone);
    pzic_free(&rows);
    pzic_free(&files);
    pzic_free(&compiled);
}

// What differs in the files of two handles, as tests/program/diff.txt has it.
static const char spans[] = "zone,from,until,old_offset,old_daylight,old_abbreviation,new_offset,new_daylight,new_abbreviation\n";
static const char summaries[] = "zone,from,until,old_offset,new_offset,kind\n";

static void expect_diff(const pzic_handle *old_files, const pzic_handle *new_files, const pzic_diff_options *options,
                        uint64_t number, const char *lines) {
    char want[600], room[600];
    pzic_handle rows = {0};
    size_t length = 0, faults = 1;
    uint64_t count = 99;
    CHECK(pzic_files_diff(old_files, new_files, options, &rows) == PZIC_OK && rows.kind == 3);
    snprintf(want, sizeof want, "%s%s", number == 0 ? "" : options->listed == PZIC_DIFF_SPANS ? spans : summaries, lines);
    CHECK(pzic_rows_text(&rows, (uint8_t *)room, sizeof room, &length) == PZIC_OK && length == strlen(want));
    CHECK(memcmp(room, want, length) == 0);
    CHECK(pzic_rows_len(&rows, &count) == PZIC_OK && count == number);
    CHECK(pzic_rows_faults(&rows, NULL, 0, &faults) == PZIC_OK && faults == 0);
    pzic_free(&rows);
}

static void compare_files(void) {
    static const char *const sources[] = {"Zone A 1 - AAA\n", "Zone A 1 - BBB\n", "Zone A 0 1:00 AAA 2000\n1 - AAA\n",
        "Zone A 1 - AAA 2000\n2 - BBB\nZone C 3 - CCC\nZone X 4 - XXX\nZone Y 4 - XXX\nLink X L\nLink A M\n",
        "Zone Y 4 - XXX\nZone B 2 - BBB\nLink Y X\nLink Y L\nLink Y M\nZone C 3 - CCC"};
    pzic_handle files[5] = {{0}}, zone = {0}, rows = {0}, none = {0};
    const pzic_handle *const a = &files[0], *const b = &files[1], *const c = &files[2], *const d = &files[3], *const e = &files[4];
    const pzic_diff_options whole = PZIC_DIFF_OPTIONS_INIT;
    pzic_diff_options how = whole, bad[5] = {whole, whole, whole, whole, whole};
    pzic_fault fault;
    for (int i = 0; i < 5; i++) CHECK(compile(sources[i], &files[i], &fault) == PZIC_OK);
    // The same files, also by one handle.
    expect_diff(a, a, &how, 0, "");
    expect_diff(a, b, &how, 1, "A,,,+01:00:00,0,AAA,+01:00:00,0,BBB\n");
    expect_diff(b, a, &how, 1, "A,,,+01:00:00,0,BBB,+01:00:00,0,AAA\n");
    expect_diff(a, c, &how, 1, "A,,946681200,+01:00:00,0,AAA,+01:00:00,1,AAA\n");
    // Names of one side, and links that lead to zones that answer the same.
    expect_diff(d, e, &how, 4, "A,,,+01:00:00,0,AAA,,,\nM,,946681200,+01:00:00,0,AAA,+04:00:00,0,XXX\n"
                               "M,946681200,,+02:00:00,0,BBB,+04:00:00,0,XXX\nB,,,,,,+02:00:00,0,BBB\n");
    // One second alone.
    how.first = how.last = 946681199;
    expect_diff(a, c, &how, 1, "A,,,+01:00:00,0,AAA,+01:00:00,1,AAA\n");
    how.first = how.last = 946681200;
    expect_diff(a, c, &how, 0, "");
    // Parts that aren't compared.
    how = whole;
    how.ignore_daylight = 1;
    expect_diff(a, b, &how, 1, "A,,,+01:00:00,,AAA,+01:00:00,,BBB\n");
    expect_diff(a, c, &how, 0, "");
    how = whole;
    how.ignore_abbreviation = 1;
    expect_diff(a, b, &how, 0, "");
    how.ignore_daylight = 1;
    how.first = 946684800;
    expect_diff(e, d, &how, 3, "B,,,+02:00:00,,,,,\nM,,,+04:00:00,,,+02:00:00,,\nA,,,,,,+02:00:00,,\n");
    // Summaries, for which the last instant is none.
    how = (pzic_diff_options){.first = INT64_C(-62135510400), .last = INT64_MIN, .present = 946681200, .listed = PZIC_DIFF_SUMMARIES};
    expect_diff(a, a, &how, 0, "");
    expect_diff(a, b, &how, 1, "A,,,+01:00:00,+01:00:00,forever\n");
    expect_diff(a, c, &how, 1, "A,,946681200,+01:00:00,+01:00:00,past\n");
    expect_diff(d, e, &how, 3, "A,,,,,removed\nM,,,+01:00:00,+04:00:00,forever\nB,,,,,added\n");
    how.present = 946681199;
    expect_diff(c, a, &how, 1, "A,,946681200,+01:00:00,+01:00:00,future\n");
    how.ignore_daylight = 1;
    expect_diff(a, c, &how, 0, "");
    // Without files on a side, and by options that there aren't, what the handle held is gone.
    CHECK(pzic_zone_of(a, 0, &zone) == PZIC_OK && pzic_files_diff(a, b, &whole, &rows) == PZIC_OK);
    CHECK(pzic_files_diff(&none, b, &whole, &rows) == PZIC_NO_HANDLE && rows.kind == 0);
    CHECK(pzic_files_diff(a, b, &whole, &rows) == PZIC_OK && pzic_files_diff(a, &zone, &whole, &rows) == PZIC_NO_HANDLE && rows.kind == 0);
    bad[0].listed = 2, bad[1].ignore_daylight = 2, bad[2].ignore_abbreviation = 2, bad[3].first = bad[3].last + 1, bad[4].last = INT64_MIN;
    for (int i = 0; i < 5; i++) {
        CHECK(pzic_files_diff(a, b, &whole, &rows) == PZIC_OK);
        CHECK(pzic_files_diff(a, b, &bad[i], &rows) == PZIC_NO_SUCH && rows.kind == 0 && rows.at == NULL);
    }
    for (long n = 0;; n++) {
        growths_left = n;
        int32_t status = pzic_files_diff(d, e, &whole, &rows);
        bool all = growths_left >= 0;
        growths_left = -1;
        if (all) {
            CHECK(status == PZIC_OK && n > 2);
            break;
        }
        CHECK(status == PZIC_NO_MEMORY && rows.kind == 0);
    }
    for (int i = 0; i < 5; i++) pzic_free(&files[i]);
    pzic_free(&zone);
    pzic_free(&rows);
}

static void fill(const pzic_handle *handle, pzic_handle *other) {
    CHECK(pzic_share(handle, other) == PZIC_OK && other->kind == handle->kind && other->kind != 0);
}

// A pointer to no items may be NULL.
static void give_no_items(void) {
    pzic_handle zone = PZIC_HANDLE_INIT, files = PZIC_HANDLE_INIT, rows = PZIC_HANDLE_INIT;
    uint32_t reason = 0;
    pzic_fault fault;
    pzic_row_fault row;
    size_t length = 7;
    int64_t instant = 0;
    CHECK(pzic_zone_read(NULL, 0, &zone, &reason) == PZIC_BAD_FILE && reason == PZIC_REASON_SHORT);
    CHECK(pzic_compile(NULL, 0, NULL, 0, &files, &fault) == PZIC_OK);
    CHECK(pzic_files_len(&files, &length) == PZIC_OK && length == 0);
    CHECK(compile(source, &files, &fault) == PZIC_OK && pzic_zone_of(&files, 0, &zone) == PZIC_OK);
    CHECK(pzic_zone_offsets(&zone, NULL, 0, NULL, 0, NULL, 0) == PZIC_OK);
    CHECK(pzic_zone_offsets(&zone, &instant, 1, NULL, 0, NULL, 0) == PZIC_LENGTHS);
    CHECK(pzic_files_find(&files, NULL, 0, &length) == PZIC_NO_SUCH && length == 0);
    CHECK(pzic_files_name(&files, 0, NULL, 0, &length) == PZIC_OK && length == strlen("Test/Fixed"));
    CHECK(pzic_files_bytes(&files, 0, NULL, 0, &length) == PZIC_OK && length > 44);
    CHECK(pzic_rows(&files, NULL, 0, &rows, &row) == PZIC_OK && rows.kind == 3);
    CHECK(pzic_rows_text(&rows, NULL, 0, &length) == PZIC_OK && length == 0);
    CHECK(pzic_name_of_fault(1, NULL, 0, &length) == PZIC_OK && length == strlen("NotAscii"));
    CHECK(pzic_name_of_reason(1, NULL, 0, &length) == PZIC_OK && length == strlen("Short"));
    pzic_free(&rows);
    pzic_free(&files);
    pzic_free(&zone);
}

// A call that fails leaves the handle that it is to fill empty, whatever this held before, and writes
// nothing that the header doesn't name.
static void empty_handles(void) {
    static const uint8_t bytes[] = "TZ";
    pzic_handle zone = {0}, files = {0}, rows = {0}, none = {0}, filled = {0};
    pzic_handle *const held[] = {&zone, &files, &rows};
    pzic_fault fault = {1, 2, 3}, other;
    pzic_row_fault row = {4, 5};
    CHECK(compile(source, &files, &fault) == PZIC_OK && pzic_zone_of(&files, 0, &zone) == PZIC_OK);
    CHECK(convert(&files, column, &rows, &row) == PZIC_OK);
    for (int i = 0; i < 3; i++) {
        uint32_t reason = 77;
        size_t length = 1;
        fill(held[i], &filled);
        CHECK(pzic_zone_read(bytes, 2, &filled, &reason) == PZIC_BAD_FILE && is_empty(&filled));
        CHECK(reason == PZIC_REASON_SHORT);
        fill(held[i], &filled);
        CHECK(pzic_zone_of(&none, 0, &filled) == PZIC_NO_HANDLE && is_empty(&filled));
        fill(held[i], &filled);
        CHECK(pzic_zone_of(&rows, 0, &filled) == PZIC_NO_HANDLE && is_empty(&filled));
        fill(held[i], &filled);
        CHECK(pzic_zone_of(&files, 3, &filled) == PZIC_NO_SUCH && is_empty(&filled));
        fill(held[i], &filled);
        CHECK(convert(&none, column, &filled, &row) == PZIC_NO_HANDLE && is_empty(&filled));
        fill(held[i], &filled);
        CHECK(convert(&zone, column, &filled, &row) == PZIC_NO_HANDLE && is_empty(&filled));
        fill(held[i], &filled);
        CHECK(pzic_compile(bytes, 2, &length, 1, &filled, &fault) == PZIC_LENGTHS && is_empty(&filled));
        CHECK(fault.text == 1 && fault.line == 2 && fault.kind == 3 && row.row == 4 && row.kind == 5);
        fill(held[i], &filled);
        CHECK(pzic_files_of(bytes, 2, &length, 1, NULL, 0, &filled) == PZIC_LENGTHS && is_empty(&filled));
        fill(held[i], &filled);
        CHECK(compile("Word\n", &filled, &other) == PZIC_BAD_SOURCE && is_empty(&filled));
        fill(held[i], &filled);
        CHECK(pzic_share(&none, &filled) == PZIC_NO_HANDLE && is_empty(&filled));
        fill(held[i], &filled);
        growths_left = 0;
        CHECK(pzic_zone_of(&files, 0, &filled) == PZIC_NO_MEMORY && is_empty(&filled));
        growths_left = -1;
    }
    for (int i = 0; i < 3; i++) pzic_free(held[i]);
}

typedef int32_t namer(uint32_t number, uint8_t *room, size_t room_length, size_t *length);

static void expect_name(namer *call, uint32_t number, const char *want) {
    uint8_t room[18];
    memset(room, 'x', sizeof room);
    size_t length = 0;
    CHECK(call(number, room, 17, &length) == PZIC_OK && length == strlen(want));
    CHECK(memcmp(room, want, length) == 0 && room[length] == 'x');
    CHECK(call(number, room, 0, &length) == PZIC_OK && length == strlen(want));
}

static void expect_no_name(namer *call, uint32_t number) {
    uint8_t room[1] = "x";
    size_t length = 7;
    CHECK(call(number, room, 1, &length) == PZIC_NO_SUCH && length == 7 && room[0] == 'x');
}

// Names by number.
static void name_faults(void) {
    expect_name(pzic_name_of_fault, 1, "NotAscii");
    expect_name(pzic_name_of_fault, 21, "UnknownRules");
    expect_name(pzic_name_of_fault, 30, "PermanentDaylight");
    expect_name(pzic_name_of_fault, 34, "TooManyChars");
    expect_name(pzic_name_of_fault, 35, "RowFields");
    expect_name(pzic_name_of_fault, 39, "TooManyRows");
    expect_name(pzic_name_of_fault, 42, "RowRepeated");
    expect_name(pzic_name_of_fault, 43, "RowQuote");
    expect_name(pzic_name_of_reason, PZIC_REASON_SHORT, "Short");
    expect_name(pzic_name_of_reason, PZIC_REASON_TOO_LARGE, "TooLarge");
    expect_name(pzic_name_of_fault, 44, "RowTooLong");
    expect_name(pzic_name_of_fault, 45, "HeaderIsRow");
    static const uint32_t others[] = {0, 31, 46, UINT32_MAX};
    for (int i = 0; i < 4; i++) expect_no_name(pzic_name_of_fault, others[i]);
    expect_no_name(pzic_name_of_reason, 0);
    expect_no_name(pzic_name_of_reason, 15);
}

// A zone stays while one of its handles holds it.
static void share(const file *f) {
    pzic_handle zone = {0}, other = {0};
    pzic_state state, same;
    read_zone(f, &zone);
    CHECK(pzic_zone_at(&zone, 1720000000, &state) == PZIC_OK);
    for (int i = 0; i < 3; i++) CHECK(pzic_share(&zone, &other) == PZIC_OK && other.kind == 1);
    pzic_free(&zone);
    CHECK(pzic_zone_at(&other, 1720000000, &same) == PZIC_OK && are_same(&state, &same));
    CHECK(pzic_share(&zone, &other) == PZIC_NO_HANDLE && other.kind == 0);
}

// Each growth of memory is refused in turn.
static void refuse_growths(const file *f) {
    pzic_handle zone = {0}, other = {0};
    uint32_t reason = 77;
    long n = 0;
    for (;; n++) {
        growths_left = n;
        int32_t status = pzic_zone_read(f->bytes, f->length, &zone, &reason);
        bool all = growths_left >= 0;
        growths_left = -1;
        if (all) {
            CHECK(status == PZIC_OK);
            break;
        }
        CHECK(status == PZIC_NO_MEMORY && zone.kind == 0 && reason == 77);
    }
    CHECK(n > 3);
    growths_left = 0;
    CHECK(pzic_share(&zone, &other) == PZIC_NO_MEMORY && other.kind == 0);
    // These ask for no memory.
    growths_left = 0;
    pzic_state state;
    int64_t first, last;
    CHECK(pzic_zone_at(&zone, 5, &state) == PZIC_OK);
    CHECK(pzic_zone_span(&zone, 5, &state, &first, &last) == PZIC_OK);
    CHECK(pzic_zone_next_change(&zone, 5, &first) == PZIC_OK);
    CHECK(growths_left == 0);
    growths_left = -1;
    pzic_free(&zone);
}

typedef struct task {
    const file *f;
    const pzic_handle *shared, *files;
    pzic_handle own;
} task;

// What each thread does: it reads the one zone that all threads have, as they all do at once, makes
// handles of the same, and reads a zone of its own, files and rows, so that each call is made from each
// thread.
static void *work(void *argument) {
    task *mine = argument;
    const pzic_handle *zone = mine->shared;
    go_over_spans(zone);
    compare_column(zone, false);
    compare_column(zone, true);
    compare_instants(zone);
    compare_civil(zone);
    compare_changes(zone);
    compare_rows(mine->files);
    for (int i = 0; i < 50; i++) {
        pzic_handle again = {0}, own = {0};
        pzic_state state, same;
        read_zone(mine->f, &own);
        CHECK(pzic_share(zone, &again) == PZIC_OK);
        CHECK(pzic_zone_at(&again, i * INT64_C(40000000), &state) == PZIC_OK);
        CHECK(pzic_zone_at(&own, i * INT64_C(40000000), &same) == PZIC_OK && are_same(&state, &same));
        CHECK(pzic_zone_at(zone, i * INT64_C(40000000), &same) == PZIC_OK && are_same(&state, &same));
        pzic_free(&own);
        pzic_free(&again);
    }
    compile_source();
    convert_columns();
    convert_by_layouts();
    convert_by_row_layouts();
    tell_rows();
    tell_local_rows();
    tell_schedules();
    take_files();
    compare_files();
    empty_handles();
    compile_texts();
    name_faults();
    go_over_spans(&mine->own);
    pzic_free(&mine->own);
    return NULL;
}

// Makes files of one that was read, under two names.
static void take_file(const file *f, pzic_handle *files) {
    const size_t lengths[] = {1, f->length, 1, f->length};
    uint8_t *texts = malloc(2 * f->length + 2), statuses[2];
    CHECK(texts != NULL);
    for (size_t i = 0; i < 2; i++) {
        uint8_t *at = texts + i * (f->length + 1);
        *at = (uint8_t)('A' + i);
        memcpy(at + 1, f->bytes, f->length);
    }
    CHECK(pzic_files_of(texts, 2 * f->length + 2, lengths, 4, statuses, 2, files) == PZIC_OK);
    CHECK(statuses[0] == PZIC_OK && statuses[1] == PZIC_OK);
    free(texts);
}

static void use_threads(const file *f) {
    pzic_handle zone = {0}, files = {0};
    pthread_t threads[THREADS];
    task tasks[THREADS];
    read_zone(f, &zone);
    take_file(f, &files);
    for (int i = 0; i < THREADS; i++) {
        tasks[i] = (task){.f = f, .shared = &zone, .files = &files};
        CHECK(pzic_share(&zone, &tasks[i].own) == PZIC_OK);
        CHECK(pthread_create(&threads[i], NULL, work, &tasks[i]) == 0);
    }
    compare_column(&zone, false);
    for (int i = 0; i < THREADS; i++) CHECK(pthread_join(threads[i], NULL) == 0);
    pzic_free(&files);
    pzic_free(&zone);
    CHECK(zone.kind == 0 && zone.at == NULL);
}

// A zone is let go in whatever thread is last.
static void *read_and_free(void *argument) {
    pzic_handle *own = argument;
    go_over_spans(own);
    pzic_free(own);
    return NULL;
}

static void free_in_threads(const file *f) {
    for (int round = 0; round < 20; round++) {
        pzic_handle zone = {0}, own[THREADS] = {{0}};
        pthread_t threads[THREADS];
        read_zone(f, &zone);
        for (int i = 0; i < THREADS; i++) {
            CHECK(pzic_share(&zone, &own[i]) == PZIC_OK);
            CHECK(pthread_create(&threads[i], NULL, read_and_free, &own[i]) == 0);
        }
        pzic_free(&zone);
        for (int i = 0; i < THREADS; i++) CHECK(pthread_join(threads[i], NULL) == 0);
    }
}

int main(int count, char **words) {
    CHECK(count >= 3);
    compare_versions();
    refuse_nothing();
    leave_open();
    never_change();
    compile_source();
    refuse_sources();
    compile_texts();
    order_files();
    find_names();
    convert_columns();
    convert_by_layouts();
    convert_by_row_layouts();
    tell_rows();
    tell_local_rows();
    tell_schedules();
    take_files();
    compare_files();
    give_no_items();
    empty_handles();
    name_faults();
    for (int i = 2; i < count; i++) {
        file f = load(words[1], words[i]);
        pzic_handle zone = {0};
        read_zone(&f, &zone);
        compare(&f, &zone);
        go_over_spans(&zone);
        compare_column(&zone, false);
        compare_column(&zone, true);
        compare_instants(&zone);
        compare_civil(&zone);
        compare_changes(&zone);
        pzic_handle files = {0};
        take_file(&f, &files);
        compare_rows(&files);
        pzic_free(&files);
        if (i == 2) tell_gap_and_fold(&zone);
        open_tree(words[1], words[i]);
        pzic_free(&zone);
        if (i == 2) {
            refuse_bytes(&f);
            share(&f);
            refuse_growths(&f);
            use_threads(&f);
            free_in_threads(&f);
        }
        free(f.bytes);
    }
    printf("%d zones\n", count - 2);
}
