/* Checks (f 1), the atom 5 as older exporters write it, and a prefix that is not carried: ok 26, ok 5, then no 4 */
#include "umlazgrin.h"
#include <stdio.h>

static uint8_t room[UMLAZGRIN_ROOM];

static void check(const uint8_t *form, size_t length) {
    struct umlazgrin_checked report;
    uint8_t number = umlazgrin_check(form, length, room, sizeof room, &report);
    if (number == UMLAZGRIN_ANSWERED) printf("ok %zu\n", report.units);
    else printf("no %u\n", number);
}

int main(void) {
    const uint8_t good[] = {0xff, 0x05, 0xff, 0x01, 0x80};
    const uint8_t spare[] = {0x81, 0x05};
    const uint8_t bad[] = {0xfc};
    check(good, sizeof good);
    check(spare, sizeof spare);
    check(bad, sizeof bad);
    return 0;
}
