/* What the tests share: lent memory, filled and looked at, and facts that are counted. */
#include "umlazgrin.h"
#include <stdio.h>
#include <stdlib.h>
#include <string.h>

static uint8_t room[UMLAZGRIN_ROOM + 16], out[UMLAZGRIN_OUTPUT + 16];
static unsigned failed, tried;

#define expect(fact) (tried++, (fact) ? (void)0 : (void)(failed++, fprintf(stderr, "%s:%d: %s\n", __FILE__, __LINE__, #fact)))

/* Lent bytes that a function cannot take for its own. */
static void fill(void) {
    memset(room, 0xa5, sizeof room);
    memset(out, 0x5a, sizeof out);
}

static int all(const uint8_t *from, size_t count, uint8_t byte) {
    for (size_t i = 0; i < count; i++)
        if (from[i] != byte) return 0;
    return 1;
}

/* The room is all zero up to its length, the bytes behind it are as they were. */
static int cleared(size_t length) { return all(room, length, 0) && all(room + length, sizeof room - length, 0xa5); }
static int untouched(void) { return all(room, sizeof room, 0xa5); }
