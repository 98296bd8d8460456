/* Evaluates (c 2 3) in the environment (5 . 6) and prints the value, steps and units: ok ff0506 3 65 */
#include "umlazgrin.h"
#include <stdio.h>

static uint8_t room[UMLAZGRIN_ROOM], out[UMLAZGRIN_OUTPUT];

int main(void) {
    /* the program's seven bytes, then the environment's three */
    const uint8_t forms[] = {0xff, 0x04, 0xff, 0x02, 0xff, 0x03, 0x80, 0xff, 0x05, 0x06};
    struct umlazgrin_evaluated report;
    uint8_t number = umlazgrin_evaluate(forms, sizeof forms, 7, room, sizeof room, out, sizeof out, &report);
    if (number != UMLAZGRIN_ANSWERED) {
        printf("no %u\n", number);
        return 0;
    }
    printf("ok ");
    for (size_t i = 0; i < report.length; i++) printf("%02x", out[i]);
    printf(" %zu %zu\n", report.steps, report.units);
    return 0;
}
