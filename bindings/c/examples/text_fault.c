/* Says where two texts stop, the second of which parses: at 9, then no fault */
#include "umlazgrin.h"
#include <stdio.h>
#include <string.h>

static uint8_t room[UMLAZGRIN_ROOM];

static void say(const char *text) {
    struct umlazgrin_fault report;
    uint8_t number = umlazgrin_text_fault((const uint8_t *)text, strlen(text), room, sizeof room, &report);
    if (number != UMLAZGRIN_ANSWERED) printf("no %u\n", number);
    else if (report.found) printf("at %zu\n", report.place);
    else printf("no fault\n");
}

int main(void) {
    /* what is quoted is data, and has no names */
    say("(a (q . (f 1)) 1)");
    say("(a (q . (5 1)) 1)");
    return 0;
}
