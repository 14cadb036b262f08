#include <pzic.h>
#include <stdio.h>

int main(int count, char **words) {
    static uint8_t bytes[1 << 20];
    FILE *file = count > 1 ? fopen(words[1], "rb") : NULL;
    if (!file) return 2;
    size_t length = fread(bytes, 1, sizeof bytes, file);
    fclose(file);

    pzic_handle zone = PZIC_HANDLE_INIT;
    uint32_t reason;
    if (pzic_zone_read(bytes, length, &zone, &reason) != PZIC_OK) return 1;

    pzic_state state;
    if (pzic_zone_at(&zone, 1720000000, &state) == PZIC_OK)
        printf("%d %s\n", state.offset, state.name);

    int64_t instants[] = {1704067200, 1720000000};
    int32_t offsets[2];
    uint8_t flags[2];
    pzic_zone_offsets(&zone, instants, 2, offsets, 2, flags, 2);
    printf("%d %d\n", offsets[0], offsets[1]);

    pzic_free(&zone);
}

/* Prints:
3600 IST
0 3600
*/
