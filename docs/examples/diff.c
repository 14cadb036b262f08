#include <pzic.h>
#include <stdio.h>
#include <string.h>

static int32_t compile(const char *text, pzic_handle *files) {
    size_t length = strlen(text);
    pzic_fault fault;
    return pzic_compile((const uint8_t *)text, length, &length, 1, files, &fault);
}

int main(void) {
    pzic_handle before = PZIC_HANDLE_INIT, after = PZIC_HANDLE_INIT, rows = PZIC_HANDLE_INIT;
    if (compile("Zone Test/East 5:30 - EST\n", &before) != PZIC_OK) return 1;
    if (compile("Zone Test/East 5:30 - EST 2000\n6:00 - EST 2001\n5:30 - EST\n", &after) != PZIC_OK) return 1;

    pzic_diff_options options = PZIC_DIFF_OPTIONS_INIT;
    options.ignore_abbreviation = 1;
    uint8_t room[300];
    size_t length;
    if (pzic_files_diff(&before, &after, &options, &rows) != PZIC_OK) return 1;
    pzic_rows_text(&rows, room, sizeof room, &length);
    printf("%.*s", (int)length, room);

    pzic_free(&rows);
    pzic_free(&after);
    pzic_free(&before);
}

/* Prints:
zone,from,until,old_offset,old_daylight,old_abbreviation,new_offset,new_daylight,new_abbreviation
Test/East,946665000,978285600,+05:30:00,0,,+06:00:00,0,
*/
