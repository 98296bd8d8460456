/* Reads (f 1), whose 5 has a spare byte, and writes it again as the shortest form, with its units: ok ff05ff0180 26 */
#include "umlazgrin.h"
#include <stdio.h>

static uint8_t room[UMLAZGRIN_ROOM], out[UMLAZGRIN_FORM];

int main(void) {
    const uint8_t form[] = {0xff, 0x81, 0x05, 0xff, 0x01, 0x80};
    struct umlazgrin_written report;
    uint8_t number = umlazgrin_write(form, sizeof form, room, sizeof room, out, sizeof out, &report);
    if (number != UMLAZGRIN_ANSWERED) {
        printf("no %u\n", number);
        return 0;
    }
    printf("ok ");
    for (size_t i = 0; i < report.length; i++) printf("%02x", out[i]);
    printf(" %zu\n", report.units);
    return 0;
}
