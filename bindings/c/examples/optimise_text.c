/* Optimises the text (a (q 4 3 2) 2) and prints the finished text, passes, units and mark: ok (c 0x06 0x04) 4 186 0 */
#include "umlazgrin.h"
#include <stdio.h>
#include <string.h>

static uint8_t room[UMLAZGRIN_ROOM], out[UMLAZGRIN_OUTPUT];

int main(void) {
    const char *text = "(a (q 4 3 2) 2)";
    struct umlazgrin_optimised report;
    uint8_t number =
        umlazgrin_optimise_text((const uint8_t *)text, strlen(text), room, sizeof room, out, sizeof out, &report);
    if (number != UMLAZGRIN_ANSWERED) {
        printf("no %u\n", number);
        return 0;
    }
    /* no zero byte ends the text */
    printf("ok %.*s %zu %zu %zu\n", (int)report.length, (const char *)out, report.passes, report.units, report.mark);
    return 0;
}
