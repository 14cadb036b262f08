#include <pzic.h>
#include <stdio.h>
#include <string.h>

int main(void) {
    const char *text = "Zone Test/East 5:30 - EAST\nZone Test/West -3:00 - WEST\n";
    size_t length = strlen(text), east = 0;
    pzic_handle files = PZIC_HANDLE_INIT;
    pzic_fault fault;
    if (pzic_compile((const uint8_t *)text, length, &length, 1, &files, &fault) != PZIC_OK) return 1;
    pzic_files_find(&files, (const uint8_t *)"Test/East", 9, &east);

    uint32_t zones[] = {(uint32_t)east, 1, 7};
    int64_t instants[] = {1720000000, 1720000000, 0};
    int32_t offsets[3];
    uint8_t flags[3];
    pzic_abbreviation names[3];
    if (pzic_files_offsets(&files, zones, 3, instants, 3, offsets, 3, flags, 3) == PZIC_OK &&
        pzic_files_abbreviations(&files, zones, 3, instants, 3, names, 3) == PZIC_OK)
        for (int i = 0; i < 3; i++)
            printf("%d %.16s%s\n", offsets[i], names[i].name, flags[i] == PZIC_NO_ZONE ? "no zone" : "");
    pzic_free(&files);
}

/* Prints:
19800 EAST
-10800 WEST
0 no zone
*/
