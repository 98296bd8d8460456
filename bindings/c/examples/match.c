/* Matches ((: . A) : . B) against (5 . 6) and prints each name, as it is written as an atom, and its tree: ok 41=05 42=06 */
#include "umlazgrin.h"
#include <stdio.h>

static uint8_t room[UMLAZGRIN_ROOM], out[UMLAZGRIN_OUTPUT];

static void print(size_t from, size_t end) {
    for (size_t i = from; i < end; i++) printf("%02x", out[i]);
}

int main(void) {
    /* the pattern's seven bytes, then the expression's three */
    const uint8_t forms[] = {0xff, 0xff, 0x3a, 0x41, 0xff, 0x3a, 0x42, 0xff, 0x05, 0x06};
    struct umlazgrin_matched report;
    uint8_t number = umlazgrin_match(forms, sizeof forms, 7, room, sizeof room, out, sizeof out, &report);
    if (number != UMLAZGRIN_ANSWERED) {
        printf("no %u\n", number);
        return 0;
    }
    printf("ok");
    if (report.names > 0) {
        printf(" ");
        print(0, report.name_1);
        printf("=");
        print(report.name_1, report.node_1);
    }
    if (report.names > 1) {
        printf(" ");
        print(report.node_1, report.name_2);
        printf("=");
        print(report.name_2, report.node_2);
    }
    printf("\n");
    return 0;
}
