/*
 * pzic_tree.h: zones by name from a folder of TZif files, such as /usr/share/zoneinfo. Needs POSIX.
 * It compiles as standard C too, as by -std=c11.
 */
#ifndef PZIC_TREE_H
#define PZIC_TREE_H

#include <errno.h>
#include <fcntl.h>
#include <stdlib.h>
#include <string.h>
#include <sys/stat.h>
#include <unistd.h>

#include "pzic.h"

#ifdef __cplusplus
extern "C" {
#endif

/* The most bytes of a file of a zone. */
enum { PZIC_MOST_BYTES = 1048576 };

/* The C library's headers leave out O_CLOEXEC where only standard C is asked for, as by -std=c11. */
#ifdef O_CLOEXEC
#define PZIC_CLOEXEC_ O_CLOEXEC
#else
#define PZIC_CLOEXEC_ __O_CLOEXEC
#endif

/*
 * Reads the zone of a name from a folder of TZif files. What the handle held before is freed first.
 * Both texts end with a NUL. The name's parts stand between slashes; none of them is empty, `.` or
 * `..`, so no name leads out of the folder but by a symbolic link in it. A pipe is not waited for.
 *
 * PZIC_OK          the handle holds the zone
 * PZIC_NO_SUCH     no file of the folder has the name, or none can have it; the handle holds nothing
 * PZIC_UNREADABLE  there is no such folder, or the file can't be read, and errno says why; the handle
 *                  holds nothing
 * PZIC_BAD_FILE    it is no TZif file of version 2 or 3, and *reason is the number of the first check
 *                  that it fails; the handle holds nothing
 * PZIC_NO_MEMORY   the handle holds nothing
 *
 * *reason is written by PZIC_BAD_FILE alone.
 */
static inline int32_t pzic_tree_zone(const char *folder, const char *name, pzic_handle *zone,
                                     uint32_t *reason);

/* Whether a file of a tree may have this name. */
static inline int pzic_is_name_(const char *name) {
    size_t length;
    for (;;) {
        length = strcspn(name, "/");
        if (length == 0 || (length == 1 && name[0] == '.')) return 0;
        if (length == 2 && name[0] == '.' && name[1] == '.') return 0;
        if (name[length] == '\0') return 1;
        name += length + 1;
    }
}

/* Whether a path leads to a folder; if not, errno says why. */
static inline int pzic_is_folder_(const char *path) {
    struct stat about;
    if (stat(path, &about) != 0) return 0;
    if (S_ISDIR(about.st_mode)) return 1;
    errno = ENOTDIR;
    return 0;
}

/* Reads a regular file, at most one byte more than a zone has. */
static inline int32_t pzic_load_(const char *path, uint8_t *bytes, size_t *length) {
    struct stat about;
    ssize_t got = 1;
    int why, file = open(path, O_RDONLY | O_NONBLOCK | O_NOCTTY | PZIC_CLOEXEC_);
    *length = 0;
    if (file < 0)
        return errno == ENOENT || errno == ENOTDIR || errno == ENAMETOOLONG || errno == ELOOP ||
                       errno == ENXIO
                   ? PZIC_NO_SUCH
                   : PZIC_UNREADABLE;
    if (fstat(file, &about) == 0 && !S_ISREG(about.st_mode)) {
        close(file);
        return PZIC_NO_SUCH;
    }
    while (got > 0 && *length <= PZIC_MOST_BYTES) {
        got = read(file, bytes + *length, PZIC_MOST_BYTES + 1 - *length);
        if (got < 0 && errno == EINTR) {
            got = 1;
            continue;
        }
        if (got > 0) *length += (size_t)got;
    }
    why = errno;
    close(file);
    errno = why;
    return got < 0 ? PZIC_UNREADABLE : PZIC_OK;
}

static inline int32_t pzic_tree_zone(const char *folder, const char *name, pzic_handle *zone,
                                     uint32_t *reason) {
    size_t folder_length = strlen(folder), name_length = strlen(name), length;
    uint8_t *bytes;
    char *path;
    int32_t status;
    int why;
    pzic_free(zone);
    if (!pzic_is_name_(name)) return PZIC_NO_SUCH;
    /* The bytes of the file, and after them its path. */
    bytes = (uint8_t *)malloc(PZIC_MOST_BYTES + 1 + folder_length + 1 + name_length + 1);
    if (bytes == NULL) return PZIC_NO_MEMORY;
    path = (char *)bytes + PZIC_MOST_BYTES + 1;
    memcpy(path, folder, folder_length);
    path[folder_length] = '/';
    memcpy(path + folder_length + 1, name, name_length + 1);
    status = pzic_load_(path, bytes, &length);
    if (status == PZIC_NO_SUCH && !pzic_is_folder_(folder)) status = PZIC_UNREADABLE;
    if (status == PZIC_OK) status = pzic_zone_read(bytes, length, zone, reason);
    why = errno;
    free(bytes);
    errno = why;
    return status;
}

#ifdef __cplusplus
}
#endif

#endif
