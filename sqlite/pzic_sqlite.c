/*
 * Local time in SQLite: a loadable extension over pzic.h. docs/LIBRARY.md describes its functions.
 *
 * Each connection has its own zones, and SQLite calls the functions of one connection one at a time, so
 * nothing is shared between connections.
 */
#include <sqlite3ext.h>
#include <stdio.h>
#include <string.h>

#include "pzic.h"
#include "pzic_tree.h"

SQLITE_EXTENSION_INIT1

/* The folder of zones that a connection has before pzic_open. */
static const char usual_folder[] = "/usr/share/zoneinfo";

/* A zone that was looked up, and its last answer. */
typedef struct known_zone {
    struct known_zone *next;
    pzic_handle zone;
    /* What holds from the first to the last instant, once it was looked up. */
    pzic_state state;
    int64_t first, last;
    int32_t status;
    char name[];
} known_zone;

enum { BUCKETS = 1024 };

/* Where zones come from. */
typedef struct place {
    /* A folder or a source, or NULL for the usual folder. */
    char *path;
    /* The release that it tells, or NULL. */
    char *release;
    /* The files of a source. */
    pzic_handle files;
} place;

/* The zones of a connection. */
typedef struct zones {
    place from;
    /* Whether the zones or their release were asked for: from then on they come from the same place. */
    int in_use;
    /* The zone of the row before, and all. */
    known_zone *recent;
    known_zone *buckets[BUCKETS];
    /* How many functions of the connection have this. */
    int owners;
} zones;

static void close_place(place *from) {
    pzic_free(&from->files);
    sqlite3_free(from->path);
    sqlite3_free(from->release);
}

static void let_go(void *argument) {
    zones *all = argument;
    if (--all->owners > 0) return;
    for (int i = 0; i < BUCKETS; i++) {
        while (all->buckets[i] != NULL) {
            known_zone *known = all->buckets[i];
            all->buckets[i] = known->next;
            pzic_free(&known->zone);
            sqlite3_free(known);
        }
    }
    close_place(&all->from);
    sqlite3_free(all);
}

/* Sets the error of a function: a text that begins with its name. */
static void fail(sqlite3_context *context, const char *function, const char *what, const char *name) {
    char *text = sqlite3_mprintf("%s: %s: %s", function, name, what);
    if (text == NULL) {
        sqlite3_result_error_nomem(context);
        return;
    }
    sqlite3_result_error(context, text, -1);
    sqlite3_free(text);
}

/* Sets the error of a function for a zone that can't be had. */
static void fail_by(sqlite3_context *context, const char *function, int32_t status, const char *name) {
    switch (status) {
        case PZIC_NO_MEMORY: sqlite3_result_error_nomem(context); break;
        case PZIC_BAD_FILE: fail(context, function, "no TZif file of version 2 or 3", name); break;
        case PZIC_UNFIT: fail(context, function, "a TZif file without a footer, or with what no source gives", name); break;
        case PZIC_UNREADABLE: fail(context, function, "the file can't be read", name); break;
        default: fail(context, function, "no such zone", name); break;
    }
}

static unsigned hash_of(const char *name) {
    unsigned hash = 2166136261u;
    for (; *name != '\0'; name++) hash = (hash ^ (unsigned char)*name) * 16777619u;
    return hash % BUCKETS;
}

/* Returns what follows `mark` in the first line of a file of a folder, or NULL. */
static char *told_by(const char *folder, const char *name, const char *mark) {
    char line[256] = "", *path = sqlite3_mprintf("%s%s%s", folder, *name ? "/" : "", name);
    size_t length = strlen(mark);
    struct stat about;
    int is_file = path != NULL && stat(path, &about) == 0 && S_ISREG(about.st_mode);
    FILE *file = is_file ? fopen(path, "rb") : NULL;
    sqlite3_free(path);
    if (file == NULL) return NULL;
    if (fgets(line, sizeof line, file) == NULL) line[0] = '\0';
    fclose(file);
    line[strcspn(line, "\r\n")] = '\0';
    return strncmp(line, mark, length) == 0 && line[length] != '\0' ? sqlite3_mprintf("%s", line + length) : NULL;
}

/* Returns the release that a folder or a source tells, or NULL. */
static char *release_of(const char *path) {
    static const char mark[] = "# version ";
    char *told = told_by(path, "+VERSION", "");
    if (told == NULL) told = told_by(path, "tzdata.zi", mark);
    return told ? told : told_by(path, "", mark);
}

/* Notes that zones are asked for. */
static void use(zones *all) {
    if (!all->in_use) all->from.release = release_of(usual_folder);
    all->in_use = 1;
}

/* Reads a zone from where the connection has its zones. */
static int32_t read_zone(zones *all, const char *name, pzic_handle *zone) {
    size_t number;
    uint32_t reason;
    const place *from = &all->from;
    if (from->files.kind == 0)
        return pzic_tree_zone(from->path ? from->path : usual_folder, name, zone, &reason);
    int32_t status = pzic_files_find(&from->files, (const uint8_t *)name, strlen(name), &number);
    return status == PZIC_OK ? pzic_zone_of(&from->files, number, zone) : status;
}

/* Keeps a zone. Returns NULL where memory is refused. */
static known_zone *keep(zones *all, const char *name, const pzic_handle *zone) {
    size_t length = strlen(name) + 1;
    known_zone **bucket = &all->buckets[hash_of(name)];
    known_zone *known = sqlite3_malloc64(sizeof *known + length);
    if (known == NULL) return NULL;
    memset(known, 0, sizeof *known);
    memcpy(known->name, name, length);
    known->zone = *zone;
    known->last = -1;
    known->next = *bucket;
    *bucket = known;
    return known;
}

/* Returns the zone that a value names. Sets the error or the NULL of the function where it is none. */
static known_zone *find(sqlite3_context *context, const char *function, sqlite3_value *value) {
    zones *all = sqlite3_user_data(context);
    const char *name = (const char *)sqlite3_value_text(value);
    if (name == NULL) return NULL;
    if (strlen(name) != (size_t)sqlite3_value_bytes(value)) {
        fail(context, function, "no such zone", name);
        return NULL;
    }
    known_zone *known = all->recent;
    if (known != NULL && strcmp(known->name, name) == 0) return known;
    for (known = all->buckets[hash_of(name)]; known != NULL; known = known->next)
        if (strcmp(known->name, name) == 0) return all->recent = known;
    use(all);
    pzic_handle zone = PZIC_HANDLE_INIT;
    int32_t status = read_zone(all, name, &zone);
    if (status == PZIC_OK) {
        known = keep(all, name, &zone);
        if (known != NULL) return all->recent = known;
        pzic_free(&zone);
        status = PZIC_NO_MEMORY;
    }
    fail_by(context, function, status, name);
    return NULL;
}

static const char not_whole[] = "an instant is a whole number of seconds from 1970";

/* Asks for the state at an instant. Returns whether there is one; else the function is NULL or an error. */
static const pzic_state *state_at(sqlite3_context *context, const char *function,
                                  sqlite3_value **values, int64_t *instant) {
    if (sqlite3_value_type(values[0]) == SQLITE_NULL || sqlite3_value_type(values[1]) == SQLITE_NULL)
        return NULL;
    known_zone *known = find(context, function, values[0]);
    if (known == NULL) return NULL;
    if (sqlite3_value_numeric_type(values[1]) != SQLITE_INTEGER) {
        fail(context, function, not_whole, (const char *)sqlite3_value_text(values[1]));
        return NULL;
    }
    int64_t t = *instant = sqlite3_value_int64(values[1]);
    if (t < known->first || known->last < t)
        known->status = pzic_zone_span(&known->zone, t, &known->state, &known->first, &known->last);
    return known->status == PZIC_OK ? &known->state : NULL;
}

static void pzic_offset(sqlite3_context *context, int count, sqlite3_value **values) {
    int64_t instant;
    const pzic_state *state = state_at(context, "pzic_offset", values, &instant);
    (void)count;
    if (state != NULL) sqlite3_result_int(context, state->offset);
}

static void tell_abbreviation(sqlite3_context *context, int count, sqlite3_value **values) {
    int64_t instant;
    const pzic_state *state = state_at(context, "pzic_abbreviation", values, &instant);
    (void)count;
    if (state != NULL) sqlite3_result_text(context, state->name, -1, SQLITE_TRANSIENT);
}

/* The first and the last second of the years 0000 to 9999, as if they were UT. */
static const int64_t first_second = -62167219200, last_second = 253402300799;

/* The day of a date from 1970-01-01, by the Gregorian calendar. */
static int64_t day_of(int64_t year, int month, int day) {
    int64_t y = month <= 2 ? year - 1 : year;
    int64_t era = (y >= 0 ? y : y - 399) / 400, within = y - era * 400;
    int64_t of_year = (153 * (month + (month > 2 ? -3 : 9)) + 2) / 5 + day - 1;
    return era * 146097 + within * 365 + within / 4 - within / 100 + of_year - 719468;
}

/* The digits of the numbers below 100. */
static const char pairs[] =
    "0001020304050607080910111213141516171819"
    "2021222324252627282930313233343536373839"
    "4041424344454647484950515253545556575859"
    "6061626364656667686970717273747576777879"
    "8081828384858687888990919293949596979899";

static void put_pair(char *text, uint32_t number) { memcpy(text, pairs + 2 * number, 2); }

/* Writes a second as a date and a time of 19 bytes, as SQLite's datetime does. */
static void write_local(char *text, int64_t second) {
    uint64_t from_start = (uint64_t)(second - first_second);
    uint32_t rest = (uint32_t)(from_start % 86400);
    /* Days in years from March on, counted from 0000-03-01; the 60 days before are those of the year -1. */
    uint32_t from_march = (uint32_t)(from_start / 86400) - 60 + 146097;
    uint32_t era = from_march / 146097, in_era = from_march % 146097;
    uint32_t year = (in_era - in_era / 1460 + in_era / 36524 - in_era / 146096) / 365;
    uint32_t of_year = in_era - (365 * year + year / 4 - year / 100);
    uint32_t shifted = (5 * of_year + 2) / 153, month = shifted < 10 ? shifted + 3 : shifted - 9;
    uint32_t full_year = era * 400 + year + (month <= 2) - 400;
    memcpy(text, "0000-00-00 00:00:00", 19);
    put_pair(text, full_year / 100);
    put_pair(text + 2, full_year % 100);
    put_pair(text + 5, month);
    put_pair(text + 8, of_year - (153 * shifted + 2) / 5 + 1);
    put_pair(text + 11, rest / 3600);
    put_pair(text + 14, rest / 60 % 60);
    put_pair(text + 17, rest % 60);
}

static void pzic_local(sqlite3_context *context, int count, sqlite3_value **values) {
    int64_t instant;
    char text[19];
    const pzic_state *state = state_at(context, "pzic_local", values, &instant);
    (void)count;
    if (state == NULL || instant < first_second - state->offset || instant > last_second - state->offset)
        return;
    write_local(text, instant + state->offset);
    sqlite3_result_text(context, text, sizeof text, SQLITE_TRANSIENT);
}

/* Reads a number of this many digits. Returns -1 where there is none. */
static int digits_at(const char *text, int digits) {
    int number = 0;
    for (int i = 0; i < digits; i++) {
        if (text[i] < '0' || text[i] > '9') return -1;
        number = 10 * number + (text[i] - '0');
    }
    return number;
}

/* Reads `YYYY-MM-DD`, and after a space or a T `HH:MM` or `HH:MM:SS`. Returns whether it is one. */
static int read_local(const char *text, int length, int64_t *second) {
    static const int days[] = {31, 29, 31, 30, 31, 30, 31, 31, 30, 31, 30, 31};
    int time[3] = {0, 0, 0};
    if (length != 10 && length != 16 && length != 19) return 0;
    int year = digits_at(text, 4), month = digits_at(text + 5, 2), day = digits_at(text + 8, 2);
    if (year < 0 || month < 1 || month > 12 || day < 1 || text[4] != '-' || text[7] != '-') return 0;
    int is_leap = year % 4 == 0 && (year % 100 != 0 || year % 400 == 0);
    if (day > days[month - 1] - (month == 2 && !is_leap)) return 0;
    for (int i = 0; i < (length - 10) / 3; i++) {
        const char *part = text + 10 + 3 * i;
        if (i == 0 ? *part != ' ' && *part != 'T' : *part != ':') return 0;
        time[i] = digits_at(part + 1, 2);
        if (time[i] < 0 || time[i] > (i == 0 ? 23 : 59)) return 0;
    }
    *second = day_of(year, month, day) * 86400 + time[0] * 3600 + time[1] * 60 + time[2];
    return 1;
}

/* Returns the number of a disambiguation, or -1. */
static int choice_of(const char *word) {
    static const char *const words[] = {"reject", "earlier", "later", "compatible"};
    for (int i = 0; i < 4; i++)
        if (word != NULL && strcmp(word, words[i]) == 0) return i;
    return -1;
}

static void pzic_instant(sqlite3_context *context, int count, sqlite3_value **values) {
    static const char function[] = "pzic_instant";
    int64_t local, instant;
    for (int i = 0; i < count; i++)
        if (sqlite3_value_type(values[i]) == SQLITE_NULL) return;
    known_zone *known = find(context, function, values[0]);
    if (known == NULL) return;
    const char *text = (const char *)sqlite3_value_text(values[1]);
    const char *word = count > 2 ? (const char *)sqlite3_value_text(values[2]) : "reject";
    int choice = choice_of(word);
    if (choice < 0) {
        fail(context, function, "reject, earlier, later or compatible is wanted", word ? word : "");
        return;
    }
    if (text == NULL || !read_local(text, sqlite3_value_bytes(values[1]), &local)) {
        fail(context, function, "a local time as 2024-07-03 10:46:40 is wanted", text ? text : "");
        return;
    }
    switch (pzic_zone_instant(&known->zone, (uint32_t)choice, local, &instant)) {
        case PZIC_OK: sqlite3_result_int64(context, instant); break;
        case PZIC_GAP: fail(context, function, "clocks pass over this local time", text); break;
        case PZIC_FOLD: fail(context, function, "clocks show this local time more than once", text); break;
        default: break;
    }
}

/* Compiles a source, which is a file. Returns the status, or PZIC_UNREADABLE. */
static int32_t compile_file(const char *path, pzic_handle *files, pzic_fault *fault) {
    FILE *file = fopen(path, "rb");
    long end = -1;
    if (file == NULL) return PZIC_UNREADABLE;
    if (fseek(file, 0, SEEK_END) == 0) end = ftell(file);
    uint8_t *text = end < 0 ? NULL : sqlite3_malloc64((sqlite3_uint64)end + 1);
    size_t length = 0;
    int32_t status = end < 0 ? PZIC_UNREADABLE : PZIC_NO_MEMORY;
    if (text != NULL && fseek(file, 0, SEEK_SET) == 0) {
        length = fread(text, 1, (size_t)end, file);
        status = length == (size_t)end ? pzic_compile(text, length, &length, 1, files, fault)
                                       : PZIC_UNREADABLE;
    }
    sqlite3_free(text);
    fclose(file);
    return status;
}

/* Opens a folder, or a source, which it compiles. Returns the status, and closes it unless that is PZIC_OK. */
static int32_t open_place(const char *path, place *from, pzic_fault *fault) {
    struct stat about;
    int32_t status = PZIC_OK;
    memset(from, 0, sizeof *from);
    if (stat(path, &about) != 0 || !(S_ISDIR(about.st_mode) || S_ISREG(about.st_mode))) status = PZIC_UNREADABLE;
    else if (S_ISREG(about.st_mode)) status = compile_file(path, &from->files, fault);
    if (status == PZIC_OK && (from->path = sqlite3_mprintf("%s", path)) == NULL) status = PZIC_NO_MEMORY;
    if (status == PZIC_OK) from->release = release_of(path);
    else close_place(from);
    return status;
}

/* Sets the error of a function for a place that can't be opened. */
static void fail_to_open(sqlite3_context *context, const char *function, int32_t status, const pzic_fault *fault,
                         const char *path) {
    if (status == PZIC_NO_MEMORY) {
        sqlite3_result_error_nomem(context);
    } else if (status == PZIC_BAD_SOURCE) {
        char *text = sqlite3_mprintf("no source: line %lld", (long long)fault->line);
        fail(context, function, text ? text : "no source", path);
        sqlite3_free(text);
    } else {
        fail(context, function, "a folder of TZif files or a source is wanted", path);
    }
}

/* Finds an index or a table of a database that keeps what the functions gave, as `index i`. Returns SQLite's status. */
static int find_keeper_in(sqlite3 *db, const char *database, char **keeper) {
    static const char query[] =
        "SELECT type || ' ' || name FROM \"%w\".sqlite_master WHERE type IN ('index', 'table')"
        " AND instr(lower(sql), 'pzic_local') + instr(lower(sql), 'pzic_offset')"
        " + instr(lower(sql), 'pzic_abbreviation') + instr(lower(sql), 'pzic_instant') > 0";
    sqlite3_stmt *found = NULL;
    char *text = sqlite3_mprintf(query, database);
    int status = text ? sqlite3_prepare_v2(db, text, -1, &found, NULL) : SQLITE_NOMEM;
    sqlite3_free(text);
    if (status == SQLITE_OK && sqlite3_step(found) == SQLITE_ROW) {
        *keeper = sqlite3_mprintf("%s", sqlite3_column_text(found, 0));
        if (*keeper == NULL) status = SQLITE_NOMEM;
    }
    int ended = sqlite3_finalize(found);
    return status == SQLITE_OK ? ended : status;
}

/* Finds the first of those of all databases of a connection, or none. Returns SQLite's status. */
static int find_keeper(sqlite3 *db, char **keeper) {
    sqlite3_stmt *databases = NULL;
    int status = sqlite3_prepare_v2(db, "PRAGMA database_list", -1, &databases, NULL);
    *keeper = NULL;
    while (status == SQLITE_OK && *keeper == NULL && sqlite3_step(databases) == SQLITE_ROW)
        status = find_keeper_in(db, (const char *)sqlite3_column_text(databases, 1), keeper);
    int ended = sqlite3_finalize(databases);
    return status == SQLITE_OK ? ended : status;
}

/* Returns whether zones are of the release that a value names. Sets the error of the function if they aren't. */
static int is_release(sqlite3_context *context, const char *function, const place *from, sqlite3_value *value) {
    const char *wanted = (const char *)sqlite3_value_text(value), *release = from->release;
    if (wanted && release ? strcmp(wanted, release) == 0 : wanted == release) return 1;
    char *text = sqlite3_mprintf("the release is %s, and not %s", release ? release : "unknown", wanted ? wanted : "unknown");
    fail(context, function, text ? text : "another release", from->path);
    sqlite3_free(text);
    return 0;
}

/* Returns whether no index or table keeps what the functions gave. Sets the error of the function if one does. */
static int is_unkept(sqlite3_context *context, const char *function, const char *path) {
    char *keeper;
    int status = find_keeper(sqlite3_context_db_handle(context), &keeper);
    if (status != SQLITE_OK) sqlite3_result_error_code(context, status);
    if (status != SQLITE_OK || keeper == NULL) return status == SQLITE_OK;
    char *text = sqlite3_mprintf("%s keeps local times, so name their release: pzic_open(path, release)", keeper);
    fail(context, function, text ? text : keeper, path);
    sqlite3_free(text);
    sqlite3_free(keeper);
    return 0;
}

/* Names the folder or the source of a connection's zones, once, and the release that they must be of. */
static void pzic_open(sqlite3_context *context, int count, sqlite3_value **values) {
    static const char function[] = "pzic_open";
    zones *all = sqlite3_user_data(context);
    const char *path = (const char *)sqlite3_value_text(values[0]);
    place from;
    pzic_fault fault;
    if (path == NULL) return;
    if (all->in_use) {
        if (all->from.path == NULL || strcmp(all->from.path, path) != 0)
            fail(context, function, "the zones of this connection come from elsewhere", path);
        else if (count < 2 || is_release(context, function, &all->from, values[1]))
            sqlite3_result_text(context, path, -1, SQLITE_TRANSIENT);
        return;
    }
    int32_t status = open_place(path, &from, &fault);
    if (status != PZIC_OK) {
        fail_to_open(context, function, status, &fault, path);
    } else if (count > 1 ? is_release(context, function, &from, values[1]) : is_unkept(context, function, path)) {
        all->from = from;
        all->in_use = 1;
        sqlite3_result_text(context, path, -1, SQLITE_TRANSIENT);
    } else {
        close_place(&from);
    }
}

/* Tells the release of the connection's zones, or of those of a path. */
static void pzic_release(sqlite3_context *context, int count, sqlite3_value **values) {
    zones *all = sqlite3_user_data(context);
    if (count == 0) {
        use(all);
        sqlite3_result_text(context, all->from.release, -1, SQLITE_TRANSIENT);
    } else if (sqlite3_value_type(values[0]) != SQLITE_NULL) {
        sqlite3_result_text(context, release_of((const char *)sqlite3_value_text(values[0])), -1, sqlite3_free);
    }
}

/* Copies the name and the bytes of a file of a folder, one after another, to `texts`, and their lengths. */
static int32_t load_file(const place *from, const char *name, uint8_t *texts, size_t lengths[2]) {
    size_t number;
    uint8_t *bytes = texts + lengths[0];
    memcpy(texts, name, lengths[0]);
    if (from->files.kind != 0) {
        int32_t status = pzic_files_find(&from->files, texts, lengths[0], &number);
        return status == PZIC_OK ? pzic_files_bytes(&from->files, number, bytes, PZIC_MOST_BYTES + 1, &lengths[1]) : status;
    }
    if (!pzic_is_name_(name)) return PZIC_NO_SUCH;
    char *path = sqlite3_mprintf("%s/%s", from->path, name);
    int32_t status = path ? pzic_load_(path, bytes, &lengths[1]) : PZIC_NO_MEMORY;
    sqlite3_free(path);
    return status;
}

/* Makes files of the one of a name. */
static int32_t file_of(const place *from, const char *name, pzic_handle *file) {
    size_t lengths[2] = {strlen(name), 0};
    uint8_t answer = PZIC_OK, *texts = sqlite3_malloc64(lengths[0] + PZIC_MOST_BYTES + 1);
    int32_t status = texts ? load_file(from, name, texts, lengths) : PZIC_NO_MEMORY;
    if (status == PZIC_OK) status = pzic_files_of(texts, lengths[0] + lengths[1], lengths, 2, &answer, 1, file);
    sqlite3_free(texts);
    return status == PZIC_OK ? answer : status;
}

/* Returns whether the zones of two files differ at an instant from `since` on: the status, and the answer. */
static int32_t compare(const pzic_handle *older, const pzic_handle *newer, int64_t since, int *answer) {
    pzic_diff_options options = PZIC_DIFF_OPTIONS_INIT;
    pzic_handle lines = PZIC_HANDLE_INIT;
    uint64_t count = 0;
    options.first = since;
    options.listed = PZIC_DIFF_SUMMARIES;
    int32_t status = pzic_files_diff(older, newer, &options, &lines);
    if (status == PZIC_OK) status = pzic_rows_len(&lines, &count);
    *answer = count > 0;
    pzic_free(&lines);
    return status;
}

/* Tells whether a zone of two places differs from an instant on. */
static int32_t zone_changed(const place *older, const place *newer, const char *name, int64_t since, int *answer) {
    pzic_handle old_file = PZIC_HANDLE_INIT, new_file = PZIC_HANDLE_INIT;
    int32_t first = file_of(older, name, &old_file), second = file_of(newer, name, &new_file);
    int32_t status = first == PZIC_NO_SUCH || first == PZIC_OK ? second : first;
    *answer = 1;
    /* What only one of them has differs. */
    if (first == PZIC_OK && second == PZIC_OK) status = compare(&old_file, &new_file, since, answer);
    else if (first == PZIC_OK && second == PZIC_NO_SUCH) status = PZIC_OK;
    pzic_free(&old_file);
    pzic_free(&new_file);
    return status;
}

static void close_kept(void *argument) {
    close_place(argument);
    sqlite3_free(argument);
}

/* Opens the place that an argument names, or takes the one that was kept. Sets the error of the function. */
static place *place_of(sqlite3_context *context, const char *function, int number, sqlite3_value **values) {
    pzic_fault fault;
    place *kept = sqlite3_get_auxdata(context, number);
    if (kept != NULL) return kept;
    const char *path = (const char *)sqlite3_value_text(values[number]);
    int32_t status = PZIC_NO_MEMORY;
    kept = sqlite3_malloc64(sizeof *kept);
    if (kept != NULL && path != NULL) status = open_place(path, kept, &fault);
    if (status != PZIC_OK) {
        sqlite3_free(kept);
        fail_to_open(context, function, status, &fault, path);
        return NULL;
    }
    sqlite3_set_auxdata(context, number, kept, close_kept);
    kept = sqlite3_get_auxdata(context, number);
    if (kept == NULL) sqlite3_result_error_nomem(context);
    return kept;
}

/* Tells whether local time of a zone is another in a newer place than in an older, at an instant or after it. */
static void pzic_zone_changed(sqlite3_context *context, int count, sqlite3_value **values) {
    static const char function[] = "pzic_zone_changed";
    for (int i = 0; i < count; i++)
        if (sqlite3_value_type(values[i]) == SQLITE_NULL) return;
    const place *older = place_of(context, function, 0, values);
    const place *newer = older ? place_of(context, function, 1, values) : NULL;
    if (newer == NULL) return;
    const char *name = (const char *)sqlite3_value_text(values[2]);
    if (sqlite3_value_numeric_type(values[3]) != SQLITE_INTEGER) {
        fail(context, function, not_whole, (const char *)sqlite3_value_text(values[3]));
        return;
    }
    int answer, is_name = name != NULL && strlen(name) == (size_t)sqlite3_value_bytes(values[2]);
    int32_t status = is_name ? zone_changed(older, newer, name, sqlite3_value_int64(values[3]), &answer) : PZIC_NO_SUCH;
    if (status == PZIC_OK) sqlite3_result_int(context, answer);
    else fail_by(context, function, status, name ? name : "");
}

static void version(sqlite3_context *context, int count, sqlite3_value **values) {
    uint32_t number = pzic_version();
    char *text = sqlite3_mprintf("%u.%u.%u", number / 10000, number / 100 % 100, number % 100);
    (void)count, (void)values;
    if (text == NULL) sqlite3_result_error_nomem(context);
    else sqlite3_result_text(context, text, -1, sqlite3_free);
}

typedef void function(sqlite3_context *, int, sqlite3_value **);

/* Adds the functions to a connection. */
#ifdef _WIN32
__declspec(dllexport)
#endif
int sqlite3_pzicsqlite_init(sqlite3 *db, char **error, const sqlite3_api_routines *api) {
    enum { SAME = SQLITE_UTF8 | SQLITE_DETERMINISTIC | SQLITE_INNOCUOUS };
    static const struct {
        const char *name;
        int count, flags;
        function *call;
    } calls[] = {
        {"pzic_local", 2, SAME, pzic_local},
        {"pzic_offset", 2, SAME, pzic_offset},
        {"pzic_abbreviation", 2, SAME, tell_abbreviation},
        {"pzic_instant", 2, SAME, pzic_instant},
        {"pzic_instant", 3, SAME, pzic_instant},
        {"pzic_version", 0, SAME, version},
        {"pzic_release", 0, SQLITE_UTF8 | SQLITE_INNOCUOUS, pzic_release},
        {"pzic_release", 1, SQLITE_UTF8 | SQLITE_DIRECTONLY, pzic_release},
        {"pzic_open", 1, SQLITE_UTF8 | SQLITE_DIRECTONLY, pzic_open},
        {"pzic_open", 2, SQLITE_UTF8 | SQLITE_DIRECTONLY, pzic_open},
        {"pzic_zone_changed", 4, SQLITE_UTF8 | SQLITE_DIRECTONLY, pzic_zone_changed},
    };
    SQLITE_EXTENSION_INIT2(api);
    (void)error;
    zones *all = sqlite3_malloc64(sizeof *all);
    if (all == NULL) return SQLITE_NOMEM;
    memset(all, 0, sizeof *all);
    int status = SQLITE_OK;
    /* This call is an owner too, until it ends. */
    all->owners = 1;
    for (size_t i = 0; i < sizeof calls / sizeof *calls && status == SQLITE_OK; i++) {
        all->owners++;
        status = sqlite3_create_function_v2(db, calls[i].name, calls[i].count, calls[i].flags, all,
                                            calls[i].call, NULL, NULL, let_go);
    }
    let_go(all);
    return status;
}
