/*
 * pzic.h: local time by the files of the time zone database.
 *
 * Instants are seconds from 1970-01-01T00:00:00 UT, without leap seconds: any int64_t. UT offsets
 * are seconds, positive east.
 *
 * No call prints, starts a thread, ends the process or keeps state of its own between calls. A call
 * that fails returns a status that says why, and writes only what this header names.
 *
 * Pointers. A pointer points to as many values as the length beside it says, aligned as their type
 * wants. It may be NULL where that length is 0, and no other pointer may be NULL. What a call writes to
 * overlaps nothing else that it is given. Memory that a call is given stays the caller's, and no call
 * keeps a pointer to it. Lengths are numbers of items, at most PTRDIFF_MAX bytes in all.
 *
 * Threads. Any number of calls may run at once, in any threads. A call only reads what it is given by a
 * pointer to const, so any number of calls may be given one handle at once. What a call writes to, and
 * a handle that it fills or frees, no other call uses meanwhile. So one zone serves all threads, until
 * one of them frees its handle; pzic_share makes one more handle of the same, for another owner.
 *
 * Memory is allocated by malloc and given back by free. No call may be made from a signal handler,
 * or in the child of a fork of a process that has several threads. The calls of this header are inline
 * functions; "What the library exports" at its end says what they do.
 *
 * Link with -lpzic; `pkg-config pzic` has the flags.
 */
#ifndef PZIC_H
#define PZIC_H

#include <stddef.h>
#include <stdint.h>

#ifdef __cplusplus
extern "C" {
#endif

/*
 * The version of this header: 10,000 times its first number, 100 times the second, and the third. So
 * 0.1.0 is 100.
 */
#define PZIC_VERSION 100

/* Returns the version of the library that the program runs with, as PZIC_VERSION counts. */
uint32_t pzic_version(void);

/* The most bytes of the stack that a call uses; those of pzic_zone_at, pzic_zone_span and pzic_zone_instants few. */
enum { PZIC_STACK = 98304 };

/* What a call answers. */
enum {
    /* The call did what it is for. */
    PZIC_OK = 0,
    /* The file leaves local time open at the instant: RFC 9636, 3.3, where there is no footer. */
    PZIC_UNSPECIFIED = 1,
    /* A growth of memory was refused. */
    PZIC_NO_MEMORY = 2,
    /* The bytes are no TZif file. */
    PZIC_BAD_FILE = 3,
    /* The handle holds nothing that the call works on. */
    PZIC_NO_HANDLE = 4,
    /* The arrays differ in length, the texts together have another length, or the column is too long. */
    PZIC_LENGTHS = 5,
    /* The texts are no source, or a zone of them has a fault. */
    PZIC_BAD_SOURCE = 6,
    /*
     * No file has the name or the number, no fault, reason or disambiguation has the number, there is no
     * such layout, change or instant, or a number of options or the order of their instants is wrong.
     */
    PZIC_NO_SUCH = 7,
    /* A row of the column has a fault. */
    PZIC_BAD_ROW = 8,
    /*
     * The local time is nearer than 25:59:59 to an end of 64 bits, so its instants may be outside; or a number of
     * a schedule is out of range.
     */
    PZIC_OUT_OF_RANGE = 9,
    /* The local time is in a gap, which PZIC_REJECT refuses. */
    PZIC_GAP = 10,
    /* The local time is in a fold, which PZIC_REJECT refuses. */
    PZIC_FOLD = 11,
    /* A file can't be read, or its folder isn't there: pzic_tree_zone of pzic_tree.h. */
    PZIC_UNREADABLE = 12,
    /* No zone can have the name. */
    PZIC_BAD_NAME = 13,
    /* A TZif file that rows can't be made of: pzic_files_of. */
    PZIC_UNFIT = 14,
    /* A file before it that was taken has the name. */
    PZIC_TAKEN = 15
};

/*
 * The check that bytes fail first, where they are no TZif file (RFC 9636, 3). pzic_name_of_reason
 * gives the name.
 */
enum {
    PZIC_REASON_SHORT = 1,
    PZIC_REASON_MAGIC = 2,
    PZIC_REASON_VERSION = 3,
    PZIC_REASON_HEADERS_DIFFER = 4,
    PZIC_REASON_COUNTS = 5,
    PZIC_REASON_LEAP_SECONDS = 6,
    PZIC_REASON_TIMES_NOT_RISING = 7,
    PZIC_REASON_TYPE_INDEX = 8,
    PZIC_REASON_DESIGNATION = 9,
    PZIC_REASON_TYPE_RECORD = 10,
    PZIC_REASON_INDICATORS = 11,
    PZIC_REASON_FOOTER = 12,
    PZIC_REASON_TRAILING_BYTES = 13,
    PZIC_REASON_TOO_LARGE = 14
};

/* The flags of a column's cell. */
enum {
    /* Daylight saving time. */
    PZIC_DAYLIGHT = 1,
    /* The file leaves local time open at the instant; the offset is then 0. */
    PZIC_OPEN = 2,
    /* No file has the number of the row's zone; the offset is then 0. */
    PZIC_NO_ZONE = 4
};

/*
 * A handle. All zeros, as by `= PZIC_HANDLE_INIT`, is one that holds nothing; each call may be given
 * it. Only calls change a handle. It may be moved to another place, as by memcpy, if the first is used
 * no more. Don't copy it otherwise: pzic_share does.
 */
typedef struct pzic_handle {
    void *at;
    /* 0 for nothing, 1 for a zone, 2 for files, 3 for rows. */
    uint32_t kind;
} pzic_handle;

/* A handle that holds nothing. */
#define PZIC_HANDLE_INIT {NULL, 0}

/* Local time at an instant. */
typedef struct pzic_state {
    /* Total UT offset in seconds, positive east; within 25:59:59 either way. */
    int32_t offset;
    /* 1 in daylight saving time, and else 0. */
    uint32_t daylight;
    /* The length of the abbreviation in bytes. A compiler of zones makes 3 to 16. */
    size_t name_length;
    /* The first 16 bytes of the abbreviation, and NULs. */
    char name[17];
} pzic_state;

/*
 * Reads a zone from the bytes of a TZif file of version 2 or 3, of at most 1,048,576 bytes. What the
 * handle held before is freed first. The bytes aren't needed any longer afterwards.
 *
 * PZIC_OK         the handle holds the zone
 * PZIC_BAD_FILE   the bytes are no such file, and *reason is the number of the first check that
 *                 they fail; the handle holds nothing
 * PZIC_NO_MEMORY  the handle holds nothing
 *
 * *reason is written by PZIC_BAD_FILE alone.
 */
static inline int32_t pzic_zone_read(const uint8_t *bytes, size_t length, pzic_handle *zone,
                                     uint32_t *reason);

/*
 * Makes `other` hold what `handle` holds: a zone, files or rows. What `other` held before is freed
 * first. A zone, files and rows are freed with the last handle that holds them.
 *
 * PZIC_OK         both hold the same
 * PZIC_NO_HANDLE  `handle` holds nothing, and neither does `other`
 * PZIC_NO_MEMORY  `other` holds nothing
 */
static inline int32_t pzic_share(const pzic_handle *handle, pzic_handle *other);

/* Frees what a handle holds; it then holds nothing. It may be empty already. */
static inline void pzic_free(pzic_handle *handle);

/*
 * Gives local time at an instant: RFC 9636, 3.2 and 3.3.
 *
 * PZIC_OK           *state is local time
 * PZIC_UNSPECIFIED  the file leaves local time open; *state is offset 0 with an empty abbreviation
 * PZIC_NO_HANDLE    `zone` holds no zone; *state isn't written
 */
static inline int32_t pzic_zone_at(const pzic_handle *zone, int64_t instant, pzic_state *state);

/*
 * As pzic_zone_at, and also writes the first and the last instant, both included, of the time around
 * `instant` in which local time is the same. *first is INT64_MIN, or the instant of a transition or
 * of an edge of the footer; *last is INT64_MAX, or the second before one.
 *
 * PZIC_OK           *state is local time, from *first to *last
 * PZIC_UNSPECIFIED  the file leaves local time open from *first to *last; *state is offset 0 with an
 *                   empty abbreviation
 * PZIC_NO_HANDLE    `zone` holds no zone; nothing is written
 */
static inline int32_t pzic_zone_span(const pzic_handle *zone, int64_t instant, pzic_state *state,
                                     int64_t *first, int64_t *last);

/* The date and the time of day that clocks show at an instant, and local time. */
typedef struct pzic_civil {
    /* The year of the Gregorian calendar, also before that was in use; the year before 1 is 0. */
    int64_t year;
    /* 1 to 12, and 1 to 31. */
    uint32_t month;
    uint32_t day;
    /* 0 to 23, 0 to 59 and 0 to 59. */
    uint32_t hour;
    uint32_t minute;
    uint32_t second;
    pzic_state state;
} pzic_civil;

/*
 * Gives the date, the time of day and local time at an instant, any int64_t.
 *
 * PZIC_OK           *civil is local time
 * PZIC_UNSPECIFIED  the file leaves local time open; *civil is the date and the time of day of UT, and
 *                   its state is offset 0 with an empty abbreviation
 * PZIC_NO_HANDLE    `zone` holds no zone; *civil isn't written
 */
static inline int32_t pzic_zone_civil(const pzic_handle *zone, int64_t instant, pzic_civil *civil);

/*
 * Gives the first change of local time after an instant, and the last before it. A change is an
 * instant at which the offset, the flag or the abbreviation isn't that of a second before, or local
 * time begins or ceases to be left open: transitions that change nothing are none.
 *
 * PZIC_OK         *change is the instant of the change
 * PZIC_NO_SUCH    there is none after the instant in 64 bits, or none before it and after the least
 *                 instant of 64 bits; *change isn't written
 * PZIC_NO_HANDLE  `zone` holds no zone; *change isn't written
 */
static inline int32_t pzic_zone_next_change(const pzic_handle *zone, int64_t instant,
                                            int64_t *change);
static inline int32_t pzic_zone_previous_change(const pzic_handle *zone, int64_t instant,
                                                int64_t *change);

/*
 * Gives the instants of the changes after `first` and up to `last`, in rising order, as many as there is
 * room for, and how many those are. Where the room is full, more may follow: they are the changes after
 * the last that is given.
 *
 * PZIC_OK         *count is the number of changes that are written; the rest of the room stays as it was
 * PZIC_NO_HANDLE  `zone` holds no zone; nothing is written
 */
static inline int32_t pzic_zone_changes(const pzic_handle *zone, int64_t first, int64_t last,
                                        int64_t *changes, size_t changes_length, size_t *count);

/*
 * Gives local time at each of many instants, in any order: offsets[i] is the UT offset at
 * instants[i], and flags[i] is 0, PZIC_DAYLIGHT or PZIC_OPEN. Quickest where the instants rise or
 * lie close to each other.
 *
 * PZIC_OK         all are written
 * PZIC_NO_HANDLE  `zone` holds no zone; nothing is written
 * PZIC_LENGTHS    the three lengths differ; nothing is written
 */
static inline int32_t pzic_zone_offsets(const pzic_handle *zone, const int64_t *instants,
                                        size_t instants_length, int32_t *offsets,
                                        size_t offsets_length, uint8_t *flags, size_t flags_length);

/*
 * The instants of a local time in a zone: seconds from 1970-01-01T00:00:00 on the zone's clocks. What there
 * isn't is 0.
 */
typedef struct pzic_local_time {
    /* The first and the last instant at which clocks show the local time. */
    int64_t first;
    int64_t last;
    /* Where there is none, the instant of the first change at which clocks pass over it: a gap. */
    int64_t change;
    /* The UT offsets before that change and from it on. */
    int32_t before;
    int32_t after;
    /* The number of instants at which clocks show it: 0, 1, or 2 and more in a fold. */
    uint32_t count;
} pzic_local_time;

/*
 * Gives the instants at which a zone's clocks show a local time, or the gap that it is in.
 *
 * PZIC_OK            *found has the instants, or the gap
 * PZIC_UNSPECIFIED   there is neither, since the file leaves local time open there; *found is all 0
 * PZIC_OUT_OF_RANGE  *found isn't written
 * PZIC_NO_HANDLE     `zone` holds no zone; *found isn't written
 */
static inline int32_t pzic_zone_instants(const pzic_handle *zone, int64_t local,
                                         pzic_local_time *found);

/*
 * What to take for a local time in a gap or in a fold, as ECMAScript's Temporal has it. RFC 5545, 3.3.5,
 * asks for the last.
 */
enum {
    /* Neither: only a local time with one instant will do. */
    PZIC_REJECT = 0,
    /* The first instant of a fold; in a gap the local time by the UT offset after it. */
    PZIC_EARLIER = 1,
    /* The last instant of a fold; in a gap the local time by the UT offset before it. */
    PZIC_LATER = 2,
    /* The first instant of a fold; in a gap the local time by the UT offset before it. */
    PZIC_COMPATIBLE = 3
};

/*
 * Gives the instant that is meant by each of many local times, in any order: statuses[i] is PZIC_OK and
 * instants[i] the instant; or instants[i] is 0, and statuses[i] is PZIC_GAP or PZIC_FOLD, by PZIC_REJECT
 * alone, PZIC_UNSPECIFIED where the file leaves local time open, or PZIC_OUT_OF_RANGE.
 *
 * PZIC_OK         all are written
 * PZIC_NO_HANDLE  `zone` holds no zone; nothing is written
 * PZIC_LENGTHS    the three lengths differ; nothing is written
 * PZIC_NO_SUCH    no disambiguation has the number; nothing is written
 */
static inline int32_t pzic_zone_instants_array(const pzic_handle *zone, uint32_t disambiguation,
                                               const int64_t *locals, size_t locals_length,
                                               int64_t *instants, size_t instants_length,
                                               uint8_t *statuses, size_t statuses_length);

/*
 * Gives the instant that is meant by one local time, as pzic_zone_instants_array does: PZIC_OK, or the
 * status that stands there, or that of the whole call. *instant is written by PZIC_OK alone.
 */
static inline int32_t pzic_zone_instant(const pzic_handle *zone, uint32_t disambiguation,
                                        int64_t local, int64_t *instant);

/* The days of the week, which are added up. */
enum {
    PZIC_MONDAY = 1,
    PZIC_TUESDAY = 2,
    PZIC_WEDNESDAY = 4,
    PZIC_THURSDAY = 8,
    PZIC_FRIDAY = 16,
    PZIC_SATURDAY = 32,
    PZIC_SUNDAY = 64,
    PZIC_EVERY_DAY = 127
};

/*
 * In place of PZIC_EARLIER, PZIC_LATER or PZIC_COMPATIBLE: a day on which clocks pass over the time of day is left
 * out, as RFC 5545, 3.3.10, ignores invalid dates. In a fold the first instant.
 */
enum { PZIC_SKIP = 4 };

/* A time of day on days of the week, and the time in which it is looked for. */
typedef struct pzic_schedule {
    /* The instant after which, and the last at which it is looked for. */
    int64_t after;
    int64_t until;
    /* The time of day on the zone's clocks, in seconds since midnight, 0 to 86,399. */
    uint32_t seconds;
    /* The days of the week: the sum of some of PZIC_MONDAY and so on, 0 to 127. */
    uint32_t weekdays;
    /* What to take in a gap or in a fold: PZIC_EARLIER, PZIC_LATER, PZIC_COMPATIBLE or PZIC_SKIP. */
    uint32_t policy;
} pzic_schedule;

/*
 * Gives the next instant at which a zone's clocks show a time of day on one of the days of the week, or that is
 * meant by it in a gap: the least after `after` and up to `until`. The date is that of the local time, also where a
 * gap moves the instant. RFC 5545, 3.3.5, takes PZIC_COMPATIBLE. The call looks at each day from `after` to the
 * instant and at some four more, or, where there is none, at each day up to `until`: so give one that is near, as a
 * year after.
 *
 * PZIC_OK            *instant is the instant
 * PZIC_NO_SUCH       there is none; *instant isn't written
 * PZIC_OUT_OF_RANGE  the time of day, the days or the policy is out of range; *instant isn't written
 * PZIC_NO_HANDLE     `zone` holds no zone; *instant isn't written
 */
static inline int32_t pzic_zone_next_local(const pzic_handle *zone, const pzic_schedule *schedule,
                                           int64_t *instant);

/*
 * Gives the instants that follow one another so, from the least after `after` up to `until`, in rising order, as
 * many as there is room for, and how many those are. Where the room is full, more may follow: they are those after
 * the last that is given.
 *
 * PZIC_OK            *count is the number of instants that are written; the rest of the room stays as it was
 * PZIC_OUT_OF_RANGE  the time of day, the days or the policy is out of range; nothing is written
 * PZIC_NO_HANDLE     `zone` holds no zone; nothing is written
 */
static inline int32_t pzic_zone_next_locals(const pzic_handle *zone, const pzic_schedule *schedule,
                                            int64_t *instants, size_t instants_length, size_t *count);

/* The first fault of a source. */
typedef struct pzic_fault {
    /* The number of the text, from 1. */
    uint64_t text;
    /* The number of the line in it, from 1. */
    uint64_t line;
    /*
     * The number of the kind, 1 to 34. pzic_name_of_fault gives its name, and `pzic explain` and
     * docs/ERRORS.md what it means.
     */
    uint32_t kind;
} pzic_fault;

/*
 * Compiles texts of Rule, Zone, continuation and Link lines, as zic(8) has them, on the calling
 * thread. The texts lie one after another in one array, and lengths[i] is the length of the i-th.
 * There may be none: `count` 0 makes no file. What the handle held before is freed first.
 *
 * PZIC_OK          the handle holds the files of all Zone and Link lines, in the order of the texts
 *                  and their lines
 * PZIC_BAD_SOURCE  *fault is the first fault; the handle holds nothing
 * PZIC_LENGTHS     the lengths of the texts aren't `texts_length` together; the handle holds nothing
 * PZIC_NO_MEMORY   the handle holds nothing
 *
 * *fault is written by PZIC_BAD_SOURCE alone.
 */
static inline int32_t pzic_compile(const uint8_t *texts, size_t texts_length, const size_t *lengths,
                                   size_t count, pzic_handle *files, pzic_fault *fault);

/*
 * Makes files of names and of bytes that were read, as those of a tree of TZif files, so that the calls on
 * files work over them. For each file there are two texts, its name and its bytes; all texts lie one
 * after another in one array, and lengths[i] is the length of the i-th. What the handle held before is
 * freed first.
 *
 * PZIC_OK         the handle holds the files whose status is PZIC_OK, in order; statuses[i] is that of
 *                 the i-th
 * PZIC_LENGTHS    the lengths of the texts aren't `texts_length` together, or `count` isn't twice
 *                 `statuses_length`; the handle holds nothing, and no status is written
 * PZIC_NO_MEMORY  the handle holds nothing, and no status is written
 *
 * The statuses, of which the first that holds is returned:
 *
 * PZIC_BAD_NAME   the name isn't 1 to 255 ASCII letters, digits, `_`, `-`, `+`, `.` and `/`, or a part
 *                 of it between slashes is empty, `.` or `..`
 * PZIC_TAKEN      a file before it that was taken has the name
 * PZIC_BAD_FILE   the bytes are no TZif file of version 2 or 3; pzic_zone_read says why
 * PZIC_UNFIT      its footer is empty, or a local time type or a state of the footer is farther than
 *                 24:00:00 from UT, or has an abbreviation other than 3 to 16 ASCII letters, digits, `+`
 *                 and `-`
 * PZIC_OK         the file is taken
 */
static inline int32_t pzic_files_of(const uint8_t *texts, size_t texts_length, const size_t *lengths,
                                    size_t count, uint8_t *statuses, size_t statuses_length,
                                    pzic_handle *files);

/*
 * Gives how many files there are: PZIC_OK; or PZIC_NO_HANDLE if `files` holds no files, and *count
 * isn't written.
 */
static inline int32_t pzic_files_len(const pzic_handle *files, size_t *count);

/*
 * Finds the file of a name: PZIC_OK and its number, from 0; PZIC_NO_SUCH; or PZIC_NO_HANDLE where
 * `files` holds no files. *number is written by PZIC_OK alone.
 */
static inline int32_t pzic_files_find(const pzic_handle *files, const uint8_t *name, size_t length,
                                      size_t *number);

/*
 * Copies the name of a file, or its bytes, as many as there is room for, and gives the whole length.
 *
 * PZIC_OK         *length is the whole length, and the first bytes are copied
 * PZIC_NO_SUCH    no file has the number; nothing is written
 * PZIC_NO_HANDLE  `files` holds no files; nothing is written
 */
static inline int32_t pzic_files_name(const pzic_handle *files, size_t number, uint8_t *room,
                                      size_t room_length, size_t *length);
static inline int32_t pzic_files_bytes(const pzic_handle *files, size_t number, uint8_t *room,
                                       size_t room_length, size_t *length);

/*
 * Makes `zone` hold the zone of a file. What it held before is freed first. The files stay in memory
 * while it does.
 *
 * PZIC_OK         the handle holds the zone
 * PZIC_NO_SUCH    no file has the number; the handle holds nothing
 * PZIC_NO_HANDLE  `files` holds no files; the handle holds nothing
 * PZIC_NO_MEMORY  the handle holds nothing
 */
static inline int32_t pzic_zone_of(const pzic_handle *files, size_t number, pzic_handle *zone);

/*
 * Writes the UT offset at each of many instants, in any order, with a zone for each: zones[i] is the number
 * of a file, as pzic_files_find has it, offsets[i] the UT offset of its zone at instants[i], and flags[i] 0
 * or PZIC_DAYLIGHT. Where no file has the number, offsets[i] is 0 and flags[i] is PZIC_NO_ZONE. Local time
 * in seconds from 1970-01-01T00:00:00 on the zone's clocks is the sum of instants[i] and offsets[i].
 *
 * PZIC_OK         all are written
 * PZIC_NO_HANDLE  `files` holds no files; nothing is written
 * PZIC_LENGTHS    the four lengths differ; nothing is written
 */
static inline int32_t pzic_files_offsets(const pzic_handle *files, const uint32_t *zones,
                                         size_t zones_length, const int64_t *instants,
                                         size_t instants_length, int32_t *offsets,
                                         size_t offsets_length, uint8_t *flags, size_t flags_length);

/* The abbreviation of a row, 3 to 16 bytes, and NULs up to 16: none follows 16 bytes, so print it by "%.16s". */
typedef struct pzic_abbreviation {
    char name[16];
} pzic_abbreviation;

/*
 * Writes the abbreviation at each of many instants, with a zone for each, as pzic_files_offsets does the
 * UT offset. Where no file has the number, abbreviations[i] is all NULs.
 *
 * PZIC_OK         all are written
 * PZIC_NO_HANDLE  `files` holds no files; nothing is written
 * PZIC_LENGTHS    the three lengths differ; nothing is written
 */
static inline int32_t pzic_files_abbreviations(const pzic_handle *files, const uint32_t *zones,
                                               size_t zones_length, const int64_t *instants,
                                               size_t instants_length,
                                               pzic_abbreviation *abbreviations,
                                               size_t abbreviations_length);

/*
 * Gives the instant that is meant by each of many local times, in any order, with a zone for each: zones[i] is the
 * number of a file, as pzic_files_find has it. instants[i] and statuses[i] are those that pzic_zone_instants_array
 * gives for its zone; where no file has the number, instants[i] is 0 and statuses[i] is PZIC_NO_SUCH. Quickest
 * where rows with the same zone follow one another.
 *
 * PZIC_OK         all are written
 * PZIC_NO_HANDLE  `files` holds no files; nothing is written
 * PZIC_LENGTHS    the four lengths differ; nothing is written
 * PZIC_NO_SUCH    no disambiguation has the number; nothing is written
 * PZIC_NO_MEMORY  the rows before one are written
 */
static inline int32_t pzic_files_instants(const pzic_handle *files, uint32_t disambiguation,
                                          const uint32_t *zones, size_t zones_length,
                                          const int64_t *locals, size_t locals_length,
                                          int64_t *instants, size_t instants_length,
                                          uint8_t *statuses, size_t statuses_length);

/* A row of a column that has a fault. */
typedef struct pzic_row_fault {
    /* The number of the row, from 1, or 0 for the header. */
    uint64_t row;
    /* The number of the kind, 35 to 45. pzic_name_of_fault gives its name. */
    uint32_t kind;
} pzic_row_fault;

/*
 * Converts a column to rows, on the calling thread: the bytes that `pzic convert` writes, without a
 * header. A record of the column is a zone's name, a comma and an instant, and a row the name, the
 * instant, local time, the UT offset, the daylight flag and the abbreviation. Instants of rows are from
 * -62,135,510,400 to 253,402,214,399, the years 1 to 9999 but for their first and last day. A
 * column may be given in pieces that end with a line end outside quotes; each is a column of its own.
 * It may have 100,000,000 rows and 4,294,967,296 bytes. What `rows` held before is freed first. To go on after a
 * row that has a fault, use pzic_rows_by with PZIC_FAULT_GOES_ON or PZIC_FAULT_REJECTS.
 *
 * PZIC_OK         `rows` holds the rows
 * PZIC_BAD_ROW    *fault is the first row that has a fault, and `rows` holds the rows before it
 * PZIC_NO_HANDLE  `files` holds no files; `rows` holds nothing
 * PZIC_NO_MEMORY  memory is refused, or the column has more bytes; `rows` holds nothing
 *
 * *fault is written by PZIC_BAD_ROW alone.
 */
static inline int32_t pzic_rows(const pzic_handle *files, const uint8_t *column, size_t length,
                                pzic_handle *rows, pzic_row_fault *fault);

/*
 * How the field of a time has it: as a count of units, as a date and a time of day with a UT offset (RFC
 * 3339), as a local time, as a date and a time of day in UT, or as seconds, perhaps with a fraction. To
 * PZIC_FROM_LOCAL, what to take in gaps and folds is added, as PZIC_EARLIER.
 */
enum {
    PZIC_FROM_COUNT = 0,
    PZIC_FROM_RFC3339 = 1,
    PZIC_FROM_LOCAL = 2,
    PZIC_FROM_UTC = 6,
    PZIC_FROM_SECONDS = 7
};

/* What a count counts. */
enum { PZIC_SECONDS = 0, PZIC_MILLISECONDS = 1, PZIC_MICROSECONDS = 2, PZIC_NANOSECONDS = 3 };

/* Where a record ends: as in CSV, or at each line end. */
enum { PZIC_RECORDS_CSV = 0, PZIC_RECORDS_LINES = 1 };

/*
 * A record has the fault RowQuote whose double quotes are open at its end, or in which a byte follows the
 * double quote that ends a field; or it has none for these, and its field goes on.
 */
enum { PZIC_QUOTES_STRICT = 0, PZIC_QUOTES_LENIENT = 1 };

/* No header; the first record is one, and one is written; or it is one, and none is written. */
enum { PZIC_HEADER_ABSENT = 0, PZIC_HEADER_FIRST = 1, PZIC_HEADER_SKIPPED = 2 };

/*
 * What a row begins with: a zone's name and a time; its record; or its record with the first of the row's
 * fields in the place of the time's, and a header that keeps the name of that.
 */
enum { PZIC_START_FIELDS = 0, PZIC_START_RECORD = 1, PZIC_START_REPLACED = 2 };

/* A row with a fault ends the run, is written without local time, or is left out. */
enum { PZIC_FAULT_ENDS = 0, PZIC_FAULT_GOES_ON = 1, PZIC_FAULT_REJECTS = 2 };

/*
 * A row has local time and the UT offset in two fields, or in one, as 2007-03-11T03:00:00-04:00. By this
 * one a row of a local time has the instant before it as 2007-03-11T07:00:00Z, and not as a count.
 */
enum { PZIC_STYLE_FIELDS = 0, PZIC_STYLE_ISO = 1 };

/*
 * How a column is read, and what its rows are, as options of `pzic convert` say: --zone-field and
 * --time-field, by numbers, --from with --ambiguous, --unit, --delimiter, --records, --header and
 * --skip-header, --append, --keep-going, --rejects, --style, --quotes and --max-record.
 *
 * A pzic_row_layout has others too. These options have no counterpart here. --against: convert by the files
 * of both releases and compare the rows. Fields by their names in a header. --faults-with: a fault has its
 * row and its kind, and not the line or the value. --max-rows, --max-bytes and --max-faults. --explain and
 * --show-release. A call works on the calling thread, without --workers and --progress.
 */
typedef struct pzic_layout {
    /* The numbers, from 0, of the fields of the zone's name and of the time. */
    size_t zone;
    size_t time;
    /* How many fields a record has, and 1 where it may have more. */
    size_t fields;
    uint32_t more_fields;
    /* PZIC_FROM_COUNT and so on. */
    uint32_t from;
    uint32_t unit;
    /* The byte between fields. */
    uint32_t delimiter;
    uint32_t records;
    uint32_t header;
    uint32_t start;
    uint32_t at_fault;
    uint32_t style;
    uint32_t quotes;
    /*
     * The most bytes of a record, without its line end, or 0 for no limit. A longer record has the fault
     * RowTooLong, which ends the run, unless records are lines and at_fault isn't PZIC_FAULT_ENDS: then a row
     * with that fault has the first max_record + 4 bytes of the line.
     */
    uint64_t max_record;
} pzic_layout;

/* Records zone,seconds: the layout of pzic_rows, but for its quotes, which are lenient. */
#define PZIC_LAYOUT_INIT {0, 1, 2, 0, 0, 0, ',', 0, 0, 0, 0, 0, 0, 0}

/*
 * Converts a column by a layout, on the calling thread: the bytes that `pzic convert` writes, with the
 * header if the layout has one. Where `name` isn't empty, all rows are in the zone of this name; where no
 * file has it, `pzic convert` converts nothing, and here each row has the fault RowZone. What `rows` held
 * before is freed first. A column has at most 100,000,000 rows and 4,294,967,296 bytes.
 *
 * PZIC_OK         `rows` holds the rows, and the faults of those that have one
 * PZIC_BAD_ROW    a row ends the run, or the header, which is row 0 then: `rows` holds the rows before it,
 *                 and its fault as the last
 * PZIC_NO_SUCH    the layout has a number that nothing has, or a delimiter that can't be one, or the
 *                 name isn't UTF-8; `rows` holds nothing
 * PZIC_LENGTHS    the column is too long; `rows` holds nothing
 * PZIC_NO_HANDLE  `files` holds no files; `rows` holds nothing
 * PZIC_NO_MEMORY  memory is refused; `rows` holds nothing
 */
static inline int32_t pzic_rows_by(const pzic_handle *files, const pzic_layout *layout,
                                   const uint8_t *name, size_t name_length, const uint8_t *column,
                                   size_t length, pzic_handle *rows);

/*
 * The fields that rows may have: local time; local time with its UT offset, as 2007-03-11T03:00:00-04:00; the
 * instant as a count; the instant in UT, as 2007-03-11T07:00:00Z; the UT offset; the daylight flag; the
 * abbreviation; `gap` or `fold` where the local time of the record is in one, and else an empty field.
 */
enum {
    PZIC_FIELD_LOCAL = 1,
    PZIC_FIELD_TIME = 2,
    PZIC_FIELD_INSTANT = 3,
    PZIC_FIELD_UTC = 4,
    PZIC_FIELD_OFFSET = 5,
    PZIC_FIELD_DAYLIGHT = 6,
    PZIC_FIELD_ABBREVIATION = 7,
    PZIC_FIELD_AMBIGUOUS = 8
};

/* A record whose time is an empty field has a fault, or a row in which the added fields are empty. */
enum { PZIC_EMPTY_FAULT = 0, PZIC_EMPTY_KEEP = 1 };

/* Rows and the header end with a line feed, or with a carriage return and a line feed. */
enum { PZIC_LINE_END_LF = 0, PZIC_LINE_END_CRLF = 1 };

/*
 * A layout with more of the options of `pzic convert`: --empty, --only and --prefix. All zeros after `column`
 * change nothing. --style utc and --show-ambiguous are lists of fields. This structure stays as it is: what
 * comes later has numbers that are 0 now, or a call of its own.
 */
typedef struct pzic_row_layout {
    /* How the column is read, and the rest of what its rows are. */
    pzic_layout column;
    uint32_t empty;
    uint32_t line_end;
    /* Each is 0. */
    uint32_t reserved[6];
    /*
     * Which fields a row has after its beginning, in this order, up to the first 0: PZIC_FIELD_LOCAL and so on.
     * With none those of the style; with any the style is PZIC_STYLE_FIELDS.
     */
    uint8_t only[8];
    /*
     * What the names of added fields begin with in a header that is written: up to 64 letters, digits and
     * + - . / : _ and a NUL.
     */
    char prefix[65];
} pzic_row_layout;

/* PZIC_LAYOUT_INIT, and nothing more. */
#define PZIC_ROW_LAYOUT_INIT {PZIC_LAYOUT_INIT, 0, 0, {0}, {0}, {0}}

/*
 * Converts a column as pzic_rows_by, by a layout with more options, and answers the same. It is PZIC_NO_SUCH
 * too where names can't begin with the prefix, a reserved number isn't 0, or `only` has fields beside a style.
 */
static inline int32_t pzic_rows_with(const pzic_handle *files, const pzic_row_layout *layout,
                                     const uint8_t *name, size_t name_length, const uint8_t *column,
                                     size_t length, pzic_handle *rows);

/*
 * Gives how many rows there are, without the header, and with those that are left out: PZIC_OK; or
 * PZIC_NO_HANDLE if `rows` holds none, and *count isn't written.
 */
static inline int32_t pzic_rows_len(const pzic_handle *rows, uint64_t *count);

/*
 * Copies the faults of rows that pzic_rows_by or pzic_rows_with made, as many as there is room for, and gives
 * their number. They rise by the row, and each other row has local time; the one that ended the run is the last. Rows
 * of pzic_rows and lines of pzic_files_diff have none here.
 *
 * PZIC_OK         *count is the number of faults, and the first are copied
 * PZIC_NO_HANDLE  `rows` holds no rows; nothing is written
 */
static inline int32_t pzic_rows_faults(const pzic_handle *rows, pzic_row_fault *room,
                                       size_t room_length, size_t *count);

/*
 * Copies the bytes of rows, as many as there is room for, and gives the whole length.
 *
 * PZIC_OK         *length is the whole length, and the first bytes are copied
 * PZIC_NO_HANDLE  `rows` holds no rows; nothing is written
 */
static inline int32_t pzic_rows_text(const pzic_handle *rows, uint8_t *room, size_t room_length,
                                     size_t *length);

/* What is listed of two lists of files: the spans at which zones differ, or from when on they do and until when. */
enum { PZIC_DIFF_SPANS = 0, PZIC_DIFF_SUMMARIES = 1 };

/* What pzic_files_diff lists, as the options of `pzic diff` say. */
typedef struct pzic_diff_options {
    /* The first instant that is looked at, and of spans the last, which isn't before it. */
    int64_t first;
    int64_t last;
    /* Of summaries, the instant up to which an end of differences is `past`. */
    int64_t present;
    /* PZIC_DIFF_SPANS or PZIC_DIFF_SUMMARIES. */
    uint32_t listed;
    /* Each 0, or 1 where it is left out of the comparison. */
    uint32_t ignore_daylight;
    uint32_t ignore_abbreviation;
} pzic_diff_options;

/*
 * The options of `pzic diff`: spans from the start of 1900 to that of 2500. `pzic diff --summary` looks
 * from the instant -62,135,510,400 on, and takes the clock's time for `present`, which is 0 here.
 */
#define PZIC_DIFF_OPTIONS_INIT {-2208988800, 16725225600, 0, PZIC_DIFF_SPANS, 0, 0}

/*
 * Compares the zones of two lists of files by their names, on the calling thread: the bytes that `pzic diff`
 * writes, a line for each span or summary, and before them the line of the names of their fields; where
 * nothing differs, no bytes. pzic_rows_text gives them, and pzic_rows_len the number of the lines after the
 * first. Zones whose footers differ may have several spans in each year up to the last instant. Both lists
 * may be that of one handle. What `rows` held before is freed first.
 *
 * PZIC_OK         `rows` holds the lines
 * PZIC_NO_SUCH    a number of the options is that of nothing, or the last instant of spans is before the
 *                 first; `rows` holds nothing
 * PZIC_NO_HANDLE  `old_files` or `new_files` holds no files; `rows` holds nothing
 * PZIC_NO_MEMORY  `rows` holds nothing
 */
static inline int32_t pzic_files_diff(const pzic_handle *old_files, const pzic_handle *new_files,
                                      const pzic_diff_options *options, pzic_handle *rows);

/*
 * Copies the name of a fault's kind, 1 to 45, or of a reason, 1 to 14, as the program prints it: as
 * much as there is room for, without a NUL. Gives the whole length, at most 17.
 *
 * PZIC_OK       *length is the whole length, and the first bytes are copied
 * PZIC_NO_SUCH  none has the number, as no kind has 31; nothing is written
 */
static inline int32_t pzic_name_of_fault(uint32_t kind, uint8_t *room, size_t room_length,
                                         size_t *length);
static inline int32_t pzic_name_of_reason(uint32_t reason, uint8_t *room, size_t room_length,
                                          size_t *length);

/*
 * What the library exports. These calls are given no NULL at all, and pointers to handles that are
 * written meanwhile: such a call takes what the handle holds, reads it through a shared reference, and
 * puts the same pointer back. That the handle is in the end as it was is proved. So a reading
 * call of this header copies the handle, a pointer and a kind, and has the copy read: nothing that is
 * shared is written but atomic counts, by pzic_share and pzic_zone_of. pzic_raw_files_diff takes two copies,
 * also of one handle. Languages that have no use for the functions of this header do the same.
 */
int32_t pzic_raw_zone_read(const uint8_t *bytes, size_t length, pzic_handle *zone, uint32_t *reason);
int32_t pzic_raw_share(pzic_handle *handle, pzic_handle *other);
void pzic_raw_free(pzic_handle *handle);
int32_t pzic_raw_zone_at(pzic_handle *zone, int64_t instant, pzic_state *state);
int32_t pzic_raw_zone_span(pzic_handle *zone, int64_t instant, pzic_state *state, int64_t *first,
                           int64_t *last);
int32_t pzic_raw_zone_civil(pzic_handle *zone, int64_t instant, pzic_civil *civil);
int32_t pzic_raw_zone_next_change(pzic_handle *zone, int64_t instant, int64_t *change);
int32_t pzic_raw_zone_previous_change(pzic_handle *zone, int64_t instant, int64_t *change);
int32_t pzic_raw_zone_changes(pzic_handle *zone, int64_t first, int64_t last, int64_t *changes,
                              size_t changes_length, size_t *count);
int32_t pzic_raw_zone_offsets(pzic_handle *zone, const int64_t *instants, size_t instants_length,
                              int32_t *offsets, size_t offsets_length, uint8_t *flags,
                              size_t flags_length);
int32_t pzic_raw_zone_instants(pzic_handle *zone, int64_t local, pzic_local_time *found);
int32_t pzic_raw_zone_instants_array(pzic_handle *zone, uint32_t disambiguation,
                                     const int64_t *locals, size_t locals_length, int64_t *instants,
                                     size_t instants_length, uint8_t *statuses,
                                     size_t statuses_length);
int32_t pzic_raw_zone_next_local(pzic_handle *zone, const pzic_schedule *schedule, int64_t *instant);
int32_t pzic_raw_zone_next_locals(pzic_handle *zone, const pzic_schedule *schedule, int64_t *instants,
                                  size_t instants_length, size_t *count);
int32_t pzic_raw_compile(const uint8_t *texts, size_t texts_length, const size_t *lengths,
                         size_t count, pzic_handle *files, pzic_fault *fault);
int32_t pzic_raw_files_of(const uint8_t *texts, size_t texts_length, const size_t *lengths,
                          size_t count, uint8_t *statuses, size_t statuses_length,
                          pzic_handle *files);
int32_t pzic_raw_files_len(pzic_handle *files, size_t *count);
int32_t pzic_raw_files_find(pzic_handle *files, const uint8_t *name, size_t length, size_t *number);
int32_t pzic_raw_files_name(pzic_handle *files, size_t number, uint8_t *room, size_t room_length,
                            size_t *length);
int32_t pzic_raw_files_bytes(pzic_handle *files, size_t number, uint8_t *room, size_t room_length,
                             size_t *length);
int32_t pzic_raw_zone_of(pzic_handle *files, size_t number, pzic_handle *zone);
int32_t pzic_raw_files_offsets(pzic_handle *files, const uint32_t *zones, size_t zones_length,
                               const int64_t *instants, size_t instants_length, int32_t *offsets,
                               size_t offsets_length, uint8_t *flags, size_t flags_length);
int32_t pzic_raw_files_abbreviations(pzic_handle *files, const uint32_t *zones,
                                     size_t zones_length, const int64_t *instants,
                                     size_t instants_length, pzic_abbreviation *abbreviations,
                                     size_t abbreviations_length);
int32_t pzic_raw_rows(pzic_handle *files, const uint8_t *column, size_t length, pzic_handle *rows,
                      pzic_row_fault *fault);
int32_t pzic_raw_rows_by(pzic_handle *files, const pzic_layout *layout, const uint8_t *name,
                         size_t name_length, const uint8_t *column, size_t length,
                         pzic_handle *rows);
int32_t pzic_raw_rows_with(pzic_handle *files, const pzic_row_layout *layout, const uint8_t *name,
                           size_t name_length, const uint8_t *column, size_t length,
                           pzic_handle *rows);
int32_t pzic_raw_rows_len(pzic_handle *rows, uint64_t *count);
int32_t pzic_raw_rows_faults(pzic_handle *rows, pzic_row_fault *room, size_t room_length,
                             size_t *count);
int32_t pzic_raw_rows_text(pzic_handle *rows, uint8_t *room, size_t room_length, size_t *length);
int32_t pzic_raw_files_diff(pzic_handle *old_files, pzic_handle *new_files,
                            const pzic_diff_options *options, pzic_handle *rows);
int32_t pzic_raw_name_of_fault(uint32_t kind, uint8_t *room, size_t room_length, size_t *length);
int32_t pzic_raw_name_of_reason(uint32_t reason, uint8_t *room, size_t room_length, size_t *length);

/* A place for pointers to no items. */
static inline void *pzic_nowhere_(void) {
    static uint64_t nothing;
    return &nothing;
}

/*
 * The sanitizer of threads doesn't see by which atomic count the library knows the last handle of a
 * zone. For its sake, and for it alone, calls that may free run one at a time.
 */
#if defined(__SANITIZE_THREAD__)
#define PZIC_SANITIZED_
#elif defined(__has_feature)
#if __has_feature(thread_sanitizer)
#define PZIC_SANITIZED_
#endif
#endif
#ifdef PZIC_SANITIZED_
__attribute__((weak)) int pzic_lock_;
static inline void pzic_enter_(void) {
    while (__atomic_exchange_n(&pzic_lock_, 1, __ATOMIC_ACQUIRE)) {
    }
}
static inline void pzic_leave_(void) { __atomic_store_n(&pzic_lock_, 0, __ATOMIC_RELEASE); }
#else
static inline void pzic_enter_(void) {}
static inline void pzic_leave_(void) {}
#endif

static inline int32_t pzic_zone_read(const uint8_t *bytes, size_t length, pzic_handle *zone,
                                     uint32_t *reason) {
    if (length == 0) bytes = (const uint8_t *)pzic_nowhere_();
    pzic_enter_();
    int32_t status = pzic_raw_zone_read(bytes, length, zone, reason);
    pzic_leave_();
    return status;
}

static inline int32_t pzic_share(const pzic_handle *handle, pzic_handle *other) {
    pzic_handle own = *handle;
    pzic_enter_();
    int32_t status = pzic_raw_share(&own, other);
    pzic_leave_();
    return status;
}

static inline void pzic_free(pzic_handle *handle) {
    pzic_enter_();
    pzic_raw_free(handle);
    pzic_leave_();
}

static inline int32_t pzic_zone_at(const pzic_handle *zone, int64_t instant, pzic_state *state) {
    pzic_handle own = *zone;
    return pzic_raw_zone_at(&own, instant, state);
}

static inline int32_t pzic_zone_span(const pzic_handle *zone, int64_t instant, pzic_state *state,
                                     int64_t *first, int64_t *last) {
    pzic_handle own = *zone;
    return pzic_raw_zone_span(&own, instant, state, first, last);
}

static inline int32_t pzic_zone_civil(const pzic_handle *zone, int64_t instant, pzic_civil *civil) {
    pzic_handle own = *zone;
    return pzic_raw_zone_civil(&own, instant, civil);
}

static inline int32_t pzic_zone_next_change(const pzic_handle *zone, int64_t instant,
                                            int64_t *change) {
    pzic_handle own = *zone;
    return pzic_raw_zone_next_change(&own, instant, change);
}

static inline int32_t pzic_zone_previous_change(const pzic_handle *zone, int64_t instant,
                                                int64_t *change) {
    pzic_handle own = *zone;
    return pzic_raw_zone_previous_change(&own, instant, change);
}

static inline int32_t pzic_zone_changes(const pzic_handle *zone, int64_t first, int64_t last,
                                        int64_t *changes, size_t changes_length, size_t *count) {
    pzic_handle own = *zone;
    if (changes_length == 0) changes = (int64_t *)pzic_nowhere_();
    return pzic_raw_zone_changes(&own, first, last, changes, changes_length, count);
}

static inline int32_t pzic_zone_offsets(const pzic_handle *zone, const int64_t *instants,
                                        size_t instants_length, int32_t *offsets,
                                        size_t offsets_length, uint8_t *flags, size_t flags_length) {
    pzic_handle own = *zone;
    if (instants_length == 0) instants = (const int64_t *)pzic_nowhere_();
    if (offsets_length == 0) offsets = (int32_t *)pzic_nowhere_();
    if (flags_length == 0) flags = (uint8_t *)pzic_nowhere_();
    return pzic_raw_zone_offsets(&own, instants, instants_length, offsets, offsets_length, flags,
                                 flags_length);
}

static inline int32_t pzic_zone_instants(const pzic_handle *zone, int64_t local,
                                         pzic_local_time *found) {
    pzic_handle own = *zone;
    return pzic_raw_zone_instants(&own, local, found);
}

static inline int32_t pzic_zone_instants_array(const pzic_handle *zone, uint32_t disambiguation,
                                               const int64_t *locals, size_t locals_length,
                                               int64_t *instants, size_t instants_length,
                                               uint8_t *statuses, size_t statuses_length) {
    pzic_handle own = *zone;
    if (locals_length == 0) locals = (const int64_t *)pzic_nowhere_();
    if (instants_length == 0) instants = (int64_t *)pzic_nowhere_();
    if (statuses_length == 0) statuses = (uint8_t *)pzic_nowhere_();
    return pzic_raw_zone_instants_array(&own, disambiguation, locals, locals_length, instants,
                                        instants_length, statuses, statuses_length);
}

static inline int32_t pzic_zone_instant(const pzic_handle *zone, uint32_t disambiguation,
                                        int64_t local, int64_t *instant) {
    int64_t found = 0;
    uint8_t one = PZIC_OK;
    int32_t status =
        pzic_zone_instants_array(zone, disambiguation, &local, 1, &found, 1, &one, 1);
    if (status == PZIC_OK) status = one;
    if (status == PZIC_OK) *instant = found;
    return status;
}

static inline int32_t pzic_zone_next_local(const pzic_handle *zone, const pzic_schedule *schedule,
                                           int64_t *instant) {
    pzic_handle own = *zone;
    return pzic_raw_zone_next_local(&own, schedule, instant);
}

static inline int32_t pzic_zone_next_locals(const pzic_handle *zone, const pzic_schedule *schedule,
                                            int64_t *instants, size_t instants_length, size_t *count) {
    pzic_handle own = *zone;
    if (instants_length == 0) instants = (int64_t *)pzic_nowhere_();
    return pzic_raw_zone_next_locals(&own, schedule, instants, instants_length, count);
}

static inline int32_t pzic_compile(const uint8_t *texts, size_t texts_length, const size_t *lengths,
                                   size_t count, pzic_handle *files, pzic_fault *fault) {
    if (texts_length == 0) texts = (const uint8_t *)pzic_nowhere_();
    if (count == 0) lengths = (const size_t *)pzic_nowhere_();
    pzic_enter_();
    int32_t status = pzic_raw_compile(texts, texts_length, lengths, count, files, fault);
    pzic_leave_();
    return status;
}

static inline int32_t pzic_files_of(const uint8_t *texts, size_t texts_length, const size_t *lengths,
                                    size_t count, uint8_t *statuses, size_t statuses_length,
                                    pzic_handle *files) {
    if (texts_length == 0) texts = (const uint8_t *)pzic_nowhere_();
    if (count == 0) lengths = (const size_t *)pzic_nowhere_();
    if (statuses_length == 0) statuses = (uint8_t *)pzic_nowhere_();
    pzic_enter_();
    int32_t status =
        pzic_raw_files_of(texts, texts_length, lengths, count, statuses, statuses_length, files);
    pzic_leave_();
    return status;
}

static inline int32_t pzic_files_len(const pzic_handle *files, size_t *count) {
    pzic_handle own = *files;
    return pzic_raw_files_len(&own, count);
}

static inline int32_t pzic_files_find(const pzic_handle *files, const uint8_t *name, size_t length,
                                      size_t *number) {
    pzic_handle own = *files;
    if (length == 0) name = (const uint8_t *)pzic_nowhere_();
    return pzic_raw_files_find(&own, name, length, number);
}

static inline int32_t pzic_files_name(const pzic_handle *files, size_t number, uint8_t *room,
                                      size_t room_length, size_t *length) {
    pzic_handle own = *files;
    if (room_length == 0) room = (uint8_t *)pzic_nowhere_();
    return pzic_raw_files_name(&own, number, room, room_length, length);
}

static inline int32_t pzic_files_bytes(const pzic_handle *files, size_t number, uint8_t *room,
                                       size_t room_length, size_t *length) {
    pzic_handle own = *files;
    if (room_length == 0) room = (uint8_t *)pzic_nowhere_();
    return pzic_raw_files_bytes(&own, number, room, room_length, length);
}

static inline int32_t pzic_zone_of(const pzic_handle *files, size_t number, pzic_handle *zone) {
    pzic_handle own = *files;
    pzic_enter_();
    int32_t status = pzic_raw_zone_of(&own, number, zone);
    pzic_leave_();
    return status;
}

static inline int32_t pzic_files_offsets(const pzic_handle *files, const uint32_t *zones,
                                         size_t zones_length, const int64_t *instants,
                                         size_t instants_length, int32_t *offsets,
                                         size_t offsets_length, uint8_t *flags, size_t flags_length) {
    pzic_handle own = *files;
    if (zones_length == 0) zones = (const uint32_t *)pzic_nowhere_();
    if (instants_length == 0) instants = (const int64_t *)pzic_nowhere_();
    if (offsets_length == 0) offsets = (int32_t *)pzic_nowhere_();
    if (flags_length == 0) flags = (uint8_t *)pzic_nowhere_();
    return pzic_raw_files_offsets(&own, zones, zones_length, instants, instants_length, offsets,
                                  offsets_length, flags, flags_length);
}

static inline int32_t pzic_files_abbreviations(const pzic_handle *files, const uint32_t *zones,
                                               size_t zones_length, const int64_t *instants,
                                               size_t instants_length,
                                               pzic_abbreviation *abbreviations,
                                               size_t abbreviations_length) {
    pzic_handle own = *files;
    if (zones_length == 0) zones = (const uint32_t *)pzic_nowhere_();
    if (instants_length == 0) instants = (const int64_t *)pzic_nowhere_();
    if (abbreviations_length == 0) abbreviations = (pzic_abbreviation *)pzic_nowhere_();
    return pzic_raw_files_abbreviations(&own, zones, zones_length, instants, instants_length,
                                        abbreviations, abbreviations_length);
}

static inline int32_t pzic_files_instants(const pzic_handle *files, uint32_t disambiguation,
                                          const uint32_t *zones, size_t zones_length,
                                          const int64_t *locals, size_t locals_length,
                                          int64_t *instants, size_t instants_length,
                                          uint8_t *statuses, size_t statuses_length) {
    pzic_handle zone = PZIC_HANDLE_INIT;
    size_t start = 0, end = 0, count = locals_length;
    int32_t status = pzic_files_len(files, &end);
    if (status != PZIC_OK) return status;
    if (zones_length != count || instants_length != count || statuses_length != count) return PZIC_LENGTHS;
    if (disambiguation > PZIC_COMPATIBLE) return PZIC_NO_SUCH;
    for (; start < count && status == PZIC_OK; start = end) {
        for (end = start + 1; end < count && zones[end] == zones[start]; end++) {
        }
        status = pzic_zone_of(files, zones[start], &zone);
        if (status == PZIC_OK) {
            status = pzic_zone_instants_array(&zone, disambiguation, locals + start, end - start,
                                              instants + start, end - start, statuses + start, end - start);
        } else if (status == PZIC_NO_SUCH) {
            for (size_t row = start; row < end; row++) {
                instants[row] = 0;
                statuses[row] = PZIC_NO_SUCH;
            }
            status = PZIC_OK;
        }
    }
    pzic_free(&zone);
    return status;
}

static inline int32_t pzic_rows(const pzic_handle *files, const uint8_t *column, size_t length,
                                pzic_handle *rows, pzic_row_fault *fault) {
    pzic_handle own = *files;
    if (length == 0) column = (const uint8_t *)pzic_nowhere_();
    pzic_enter_();
    int32_t status = pzic_raw_rows(&own, column, length, rows, fault);
    pzic_leave_();
    return status;
}

static inline int32_t pzic_rows_by(const pzic_handle *files, const pzic_layout *layout,
                                   const uint8_t *name, size_t name_length, const uint8_t *column,
                                   size_t length, pzic_handle *rows) {
    pzic_handle own = *files;
    if (name_length == 0) name = (const uint8_t *)pzic_nowhere_();
    if (length == 0) column = (const uint8_t *)pzic_nowhere_();
    pzic_enter_();
    int32_t status = pzic_raw_rows_by(&own, layout, name, name_length, column, length, rows);
    pzic_leave_();
    return status;
}

static inline int32_t pzic_rows_with(const pzic_handle *files, const pzic_row_layout *layout,
                                     const uint8_t *name, size_t name_length, const uint8_t *column,
                                     size_t length, pzic_handle *rows) {
    pzic_handle own = *files;
    if (name_length == 0) name = (const uint8_t *)pzic_nowhere_();
    if (length == 0) column = (const uint8_t *)pzic_nowhere_();
    pzic_enter_();
    int32_t status = pzic_raw_rows_with(&own, layout, name, name_length, column, length, rows);
    pzic_leave_();
    return status;
}

static inline int32_t pzic_rows_len(const pzic_handle *rows, uint64_t *count) {
    pzic_handle own = *rows;
    return pzic_raw_rows_len(&own, count);
}

static inline int32_t pzic_rows_faults(const pzic_handle *rows, pzic_row_fault *room,
                                       size_t room_length, size_t *count) {
    pzic_handle own = *rows;
    if (room_length == 0) room = (pzic_row_fault *)pzic_nowhere_();
    return pzic_raw_rows_faults(&own, room, room_length, count);
}

static inline int32_t pzic_rows_text(const pzic_handle *rows, uint8_t *room, size_t room_length,
                                     size_t *length) {
    pzic_handle own = *rows;
    if (room_length == 0) room = (uint8_t *)pzic_nowhere_();
    return pzic_raw_rows_text(&own, room, room_length, length);
}

static inline int32_t pzic_files_diff(const pzic_handle *old_files, const pzic_handle *new_files,
                                      const pzic_diff_options *options, pzic_handle *rows) {
    pzic_handle own_old = *old_files, own_new = *new_files;
    pzic_enter_();
    int32_t status = pzic_raw_files_diff(&own_old, &own_new, options, rows);
    pzic_leave_();
    return status;
}

static inline int32_t pzic_name_of_fault(uint32_t kind, uint8_t *room, size_t room_length,
                                         size_t *length) {
    if (room_length == 0) room = (uint8_t *)pzic_nowhere_();
    return pzic_raw_name_of_fault(kind, room, room_length, length);
}

static inline int32_t pzic_name_of_reason(uint32_t reason, uint8_t *room, size_t room_length,
                                          size_t *length) {
    if (room_length == 0) room = (uint8_t *)pzic_nowhere_();
    return pzic_raw_name_of_reason(reason, room, room_length, length);
}

#ifdef __cplusplus
}
#endif

#endif
