/* Reads the text (f 1) and prints the serialised form of its tree, and its units: ok ff05ff0180 26 */
#include "umlazgrin.h"
#include <stdio.h>
#include <string.h>

static uint8_t room[UMLAZGRIN_ROOM], out[UMLAZGRIN_FORM];

int main(void) {
    const char *text = "(f 1)";
    struct umlazgrin_written report;
    uint8_t number = umlazgrin_read_text((const uint8_t *)text, strlen(text), room, sizeof room, out, sizeof out, &report);
    if (number != UMLAZGRIN_ANSWERED) {
        printf("no %u\n", number);
        return 0;
    }
    printf("ok ");
    for (size_t i = 0; i < report.length; i++) printf("%02x", out[i]);
    printf(" %zu\n", report.units);
    return 0;
}
