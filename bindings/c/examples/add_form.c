/* Works (f 1), (f 0) and (a (q 4 3 2) 2) into one report: ok, no 8, ok; then prints what is answered, bytes before and after, the most
 * passes of a form, and how often each rule ended a pass: answered 2, bytes 20 8, passes 4, rules 0 0 0 1 0 3 0 0 */
#include "umlazgrin.h"
#include <inttypes.h>
#include <stdio.h>

static uint8_t room[UMLAZGRIN_ROOM];
/* A report starts as all zero. */
static struct umlazgrin_savings report;

static void add(const uint8_t *form, size_t length) {
    uint8_t number = umlazgrin_add_form(form, length, room, sizeof room, &report);
    if (number == UMLAZGRIN_ANSWERED) printf("ok\n");
    else printf("no %u\n", number);
}

int main(void) {
    const uint8_t first[] = {0xff, 0x05, 0xff, 0x01, 0x80};
    const uint8_t fails[] = {0xff, 0x05, 0xff, 0x80, 0x80};
    const uint8_t swaps[] = {0xff, 0x02, 0xff, 0xff, 0x01, 0xff, 0x04, 0xff, 0x03, 0xff, 0x02, 0x80, 0xff, 0x02, 0x80};
    add(first, sizeof first);
    add(fails, sizeof fails);
    add(swaps, sizeof swaps);
    printf("answered %" PRIu64 "\n", report.answered);
    printf("bytes %" PRIu64 " %" PRIu64 "\n", report.before, report.after);
    printf("passes %" PRIu64 "\nrules", report.passes);
    for (size_t i = 0; i < 8; i++) printf(" %" PRIu64, report.rules[i]);
    printf("\n");
    return 0;
}
