#include <pzic.h>
#include <stdio.h>
#include <string.h>

int main(void) {
    const char *text = "Zone Test/East 5:30 - EST\n";
    size_t length = strlen(text);
    pzic_handle files = PZIC_HANDLE_INIT, rows = PZIC_HANDLE_INIT;
    pzic_fault fault;
    if (pzic_compile((const uint8_t *)text, length, &length, 1, &files, &fault) != PZIC_OK) return 1;

    const char *column = "1720000000500;a\nsoon;b\n";
    pzic_layout layout = PZIC_LAYOUT_INIT;
    layout.time = 0;
    layout.unit = PZIC_MILLISECONDS;
    layout.delimiter = ';';
    layout.start = PZIC_START_RECORD;
    layout.at_fault = PZIC_FAULT_GOES_ON;
    uint8_t room[100];
    pzic_row_fault faults[10];
    pzic_rows_by(&files, &layout, (const uint8_t *)"Test/East", 9, (const uint8_t *)column, strlen(column), &rows);
    pzic_rows_text(&rows, room, sizeof room, &length);
    printf("%.*s", (int)length, room);
    pzic_rows_faults(&rows, faults, 10, &length);
    printf("%d fault, of row %d\n", (int)length, (int)faults[0].row);

    pzic_free(&rows);
    pzic_free(&files);
}

/* Prints:
1720000000500;a;2024-07-03T15:16:40.500;+05:30:00;0;EST
soon;b;;;;
1 fault, of row 2
*/
