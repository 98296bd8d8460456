/* Evaluates the text (c 2 3) in the environment (5 . 6) and prints the value as text, steps and units: ok (f . 0x06) 3 65 */
#include "umlazgrin.h"
#include <stdio.h>
#include <string.h>

static uint8_t room[UMLAZGRIN_ROOM], out[UMLAZGRIN_OUTPUT];

int main(void) {
    /* the program's seven bytes, then the environment's */
    const char *texts = "(c 2 3)(5 . 6)";
    struct umlazgrin_evaluated report;
    uint8_t number =
        umlazgrin_evaluate_text((const uint8_t *)texts, strlen(texts), 7, room, sizeof room, out, sizeof out, &report);
    if (number != UMLAZGRIN_ANSWERED) {
        printf("no %u\n", number);
        return 0;
    }
    /* no zero byte ends the text */
    printf("ok %.*s %zu %zu\n", (int)report.length, (const char *)out, report.steps, report.units);
    return 0;
}
