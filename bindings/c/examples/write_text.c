/* Reads the form ff05ff0180 and prints its tree as text: ok (f 0x01) */
#include "umlazgrin.h"
#include <stdio.h>

static uint8_t room[UMLAZGRIN_ROOM], out[UMLAZGRIN_OUTPUT];

int main(void) {
    const uint8_t form[] = {0xff, 0x05, 0xff, 0x01, 0x80};
    struct umlazgrin_written report;
    uint8_t number = umlazgrin_write_text(form, sizeof form, room, sizeof room, out, sizeof out, &report);
    if (number != UMLAZGRIN_ANSWERED) {
        printf("no %u\n", number);
        return 0;
    }
    /* no zero byte ends the text */
    printf("ok %.*s\n", (int)report.length, (const char *)out);
    return 0;
}
