#include <pzic.h>
#include <stdio.h>
#include <string.h>

static void compile(const char *rules, const char *zones) {
    char texts[200];
    size_t lengths[] = {strlen(rules), strlen(zones)}, length = lengths[0] + lengths[1];
    snprintf(texts, sizeof texts, "%s%s", rules, zones);

    pzic_handle files = PZIC_HANDLE_INIT, zone = PZIC_HANDLE_INIT;
    pzic_fault fault;
    int32_t status = pzic_compile((const uint8_t *)texts, length, lengths, 2, &files, &fault);
    if (status == PZIC_BAD_SOURCE) {
        uint8_t name[20];
        pzic_name_of_fault(fault.kind, name, sizeof name, &length);
        printf("text %d line %d: %.*s\n", (int)fault.text, (int)fault.line, (int)length, name);
    }
    pzic_state state;
    if (pzic_zone_of(&files, 0, &zone) == PZIC_OK && pzic_zone_at(&zone, 1720000000, &state) == PZIC_OK)
        printf("%d %s\n", state.offset, state.name);
    pzic_free(&zone);
    pzic_free(&files);
}

int main(void) {
    const char *rules = "Rule X 2000 max - Apr 1 0 1:00 D\nRule X 2000 max - Oct 1 0 0 S\n";
    compile(rules, "Zone Test/East 5:30 X E%sT\n");
    compile(rules, "Zone Test/East 5:30 Y E%sT\n");
}

/* Prints:
23400 EDT
text 2 line 1: UnknownRules
*/
