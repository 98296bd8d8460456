/* Matches (f 1) against (f 2) and prints where it fails, as a path from the expression's root: no match 05 */
#include "umlazgrin.h"
#include <stdio.h>

static uint8_t room[UMLAZGRIN_ROOM], out[UMLAZGRIN_OUTPUT];

/* The bytes behind the zeros. */
static void print(const struct umlazgrin_place *place) {
    size_t from = 0;
    while (from < sizeof place->bytes && !place->bytes[from]) from++;
    printf("no match ");
    if (from == sizeof place->bytes) printf("deeper than 511 turns");
    for (size_t i = from; i < sizeof place->bytes; i++) printf("%02x", place->bytes[i]);
    printf("\n");
}

int main(void) {
    /* the pattern's five bytes, then the expression's; 05 is right, then left: what differs is 1 and 2 */
    const uint8_t forms[] = {0xff, 0x05, 0xff, 0x01, 0x80, 0xff, 0x05, 0xff, 0x02, 0x80};
    struct umlazgrin_matched report;
    struct umlazgrin_place place;
    uint8_t number = umlazgrin_match_place(forms, sizeof forms, 5, room, sizeof room, out, sizeof out, &report, &place);
    if (number == UMLAZGRIN_NO_MATCH) print(&place);
    else if (number == UMLAZGRIN_ANSWERED) printf("ok %zu names\n", report.names);
    else printf("no %u\n", number);
    return 0;
}
