/* The library as C sees it: answers, reports, every lent byte, and what the header says of misuse. Prints one line. */
#include "test.h"

static const uint8_t first_of_one[] = {0xff, 0x05, 0xff, 0x01, 0x80}; /* (f 1) */
static const uint8_t fails[] = {0xff, 0x05, 0xff, 0x80, 0x80};        /* (f 0) */

static void optimise(void) {
    struct umlazgrin_optimised r = {7, 7, 7, 7};
    fill();
    expect(umlazgrin_optimise(first_of_one, 5, room, UMLAZGRIN_ROOM, out, sizeof out, &r) == UMLAZGRIN_ANSWERED);
    expect(r.length == 1 && r.passes == 1 && r.units == 31 && r.mark == 0);
    expect(out[0] == 2 && all(out + 1, sizeof out - 1, 0x5a) && cleared(UMLAZGRIN_ROOM));

    struct umlazgrin_optimised kept = {7, 7, 7, 7};
    fill();
    expect(umlazgrin_optimise(fails, 5, room, UMLAZGRIN_ROOM, out, sizeof out, &kept) == UMLAZGRIN_FAILS);
    expect(kept.length == 7 && kept.passes == 7 && kept.units == 7 && kept.mark == 7);
    expect(all(out, sizeof out, 0x5a) && cleared(UMLAZGRIN_ROOM));
}

static void short_lengths(void) {
    struct umlazgrin_optimised r = {7, 7, 7, 7};
    fill();
    expect(umlazgrin_optimise(first_of_one, 5, room, UMLAZGRIN_ROOM - 1, out, sizeof out, &r) == UMLAZGRIN_ROOM_SMALL);
    expect(untouched() && all(out, sizeof out, 0x5a) && r.length == 7);
    expect(umlazgrin_optimise(first_of_one, 5, room, UMLAZGRIN_ROOM + 3, out, 0, &r) == UMLAZGRIN_OUTPUT_SHORT);
    expect(cleared(UMLAZGRIN_ROOM + 3) && all(out, sizeof out, 0x5a) && r.length == 7);
}

/* With length 0 no pointer is followed. */
static void nulls(void) {
    struct umlazgrin_optimised o = {7, 7, 7, 7};
    struct umlazgrin_evaluated e = {7, 7, 7};
    struct umlazgrin_matched m = {7, 7, 7, 7, 7};
    struct umlazgrin_place p = {{7}};
    struct umlazgrin_checked c = {7};
    struct umlazgrin_written w = {7, 7};
    fill();
    expect(umlazgrin_optimise(NULL, 0, room, UMLAZGRIN_ROOM, NULL, 0, &o) == UMLAZGRIN_ENDS_EARLY);
    expect(umlazgrin_optimise(first_of_one, 5, room, UMLAZGRIN_ROOM, NULL, 0, &o) == UMLAZGRIN_OUTPUT_SHORT);
    expect(umlazgrin_optimise(first_of_one, 5, NULL, 0, out, sizeof out, &o) == UMLAZGRIN_ROOM_SMALL);
    expect(umlazgrin_evaluate(NULL, 0, 9, room, UMLAZGRIN_ROOM, NULL, 0, &e) == UMLAZGRIN_ENDS_EARLY);
    expect(umlazgrin_match(NULL, 0, 9, room, UMLAZGRIN_ROOM, NULL, 0, &m) == UMLAZGRIN_ENDS_EARLY);
    expect(umlazgrin_match_place(NULL, 0, 9, room, UMLAZGRIN_ROOM, NULL, 0, &m, &p) == UMLAZGRIN_ENDS_EARLY);
    expect(umlazgrin_match_place(first_of_one, 5, 5, NULL, 0, NULL, 0, &m, &p) == UMLAZGRIN_ROOM_SMALL);
    expect(umlazgrin_check(NULL, 0, room, UMLAZGRIN_ROOM, &c) == UMLAZGRIN_ENDS_EARLY);
    expect(umlazgrin_write(NULL, 0, NULL, 0, NULL, 0, &w) == UMLAZGRIN_ROOM_SMALL);
    expect(o.length == 7 && e.length == 7 && m.names == 7 && p.bytes[0] == 7 && c.units == 7 && w.length == 7);
}

static void evaluate(void) {
    const uint8_t forms[] = {0xff, 0x04, 0xff, 0x02, 0xff, 0x03, 0x80, 0xff, 0x05, 0x06};
    struct umlazgrin_evaluated r = {7, 7, 7};
    fill();
    expect(umlazgrin_evaluate(forms, sizeof forms, 7, room, UMLAZGRIN_ROOM, out, sizeof out, &r) == UMLAZGRIN_ANSWERED);
    expect(r.length == 3 && r.steps == 3 && r.units == 65 && !memcmp(out, forms + 7, 3));
    expect(all(out + 3, sizeof out - 3, 0x5a) && cleared(UMLAZGRIN_ROOM));
    /* first past the end: all bytes are the program's, and the environment is the empty form */
    expect(umlazgrin_evaluate(forms, 7, 100, room, UMLAZGRIN_ROOM, out, sizeof out, &r) == UMLAZGRIN_ENDS_EARLY);
}

static void match(void) {
    const uint8_t forms[] = {0xff, 0xff, 0x3a, 0x41, 0xff, 0x3a, 0x42, 0xff, 0x05, 0x06};
    const uint8_t parts[] = {0x41, 0x05, 0x42, 0x06};
    const uint8_t other[] = {0x05, 0x06};
    struct umlazgrin_matched r = {7, 7, 7, 7, 7};
    fill();
    expect(umlazgrin_match(forms, sizeof forms, 7, room, UMLAZGRIN_ROOM, out, sizeof out, &r) == UMLAZGRIN_ANSWERED);
    expect(r.names == 2 && r.name_1 == 1 && r.node_1 == 2 && r.name_2 == 3 && r.node_2 == 4 && !memcmp(out, parts, 4));
    expect(all(out + 4, sizeof out - 4, 0x5a) && cleared(UMLAZGRIN_ROOM));
    r.names = 7;
    expect(umlazgrin_match(other, 2, 1, room, UMLAZGRIN_ROOM, out, sizeof out, &r) == UMLAZGRIN_NO_MATCH);
    expect(r.names == 7);
}

static void third_name(void) {
    const uint8_t forms[] = {0xff, 0xff, 0x3a, 0x41, 0xff, 0xff, 0x3a, 0x42, 0xff, 0x3a, 0x43, 0xff, 0x05, 0xff, 0x06, 0x07};
    struct umlazgrin_matched r = {7, 7, 7, 7, 7};
    expect(umlazgrin_match(forms, sizeof forms, 11, room, UMLAZGRIN_ROOM, out, sizeof out, &r) == UMLAZGRIN_TOO_MANY_NAMES);
    expect(r.names == 7);
}

/* ---- the place of a match that fails */

static struct umlazgrin_matched parts;
static struct umlazgrin_place place;

/* Matches with a report and a place, too, that the function cannot take for its own. umlazgrin_match must return and leave the same. */
static uint8_t match_place(const uint8_t *forms, size_t length, size_t first, size_t room_length, size_t out_length) {
    static uint8_t same_room[sizeof room], same_out[sizeof out];
    struct umlazgrin_matched same;
    fill();
    memset(&same, 0xc3, sizeof same);
    uint8_t number = umlazgrin_match(forms, length, first, room, room_length, out, out_length, &same);
    memcpy(same_room, room, sizeof room);
    memcpy(same_out, out, sizeof out);
    fill();
    memset(&parts, 0xc3, sizeof parts);
    memset(&place, 0xc3, sizeof place);
    expect(umlazgrin_match_place(forms, length, first, room, room_length, out, out_length, &parts, &place) == number);
    expect(!memcmp(room, same_room, sizeof room) && !memcmp(out, same_out, sizeof out) && !memcmp(&parts, &same, sizeof same));
    return number;
}

/* A failure leaves the output and the report, and of the room nothing but zeros. */
static int fails_clean(const uint8_t *forms, size_t length, size_t first) {
    return match_place(forms, length, first, UMLAZGRIN_ROOM, sizeof out) == UMLAZGRIN_NO_MATCH && cleared(UMLAZGRIN_ROOM) &&
           all(out, sizeof out, 0x5a) && all((const uint8_t *)&parts, sizeof parts, 0xc3);
}

/* Pattern and expression, and the last byte of the path. */
static void places(void) {
    static const struct { size_t length, first; uint8_t path, forms[10]; } failures[] = {
        {2, 1, 1, {0x05, 0x06}},
        {4, 1, 1, {0x05, 0xff, 0x05, 0x06}},
        {4, 3, 1, {0xff, 0x05, 0x06, 0x05}},
        {6, 3, 2, {0xff, 0x05, 0x06, 0xff, 0x07, 0x06}},
        {6, 3, 2, {0xff, 0x05, 0x06, 0xff, 0x07, 0x08}},
        {6, 3, 3, {0xff, 0x05, 0x06, 0xff, 0x05, 0x07}},
        {10, 5, 5, {0xff, 0x05, 0xff, 0x01, 0x80, 0xff, 0x05, 0xff, 0x02, 0x80}},
        {10, 5, 7, {0xff, 0x05, 0xff, 0x01, 0x80, 0xff, 0x05, 0xff, 0x01, 0x01}},
        /* a pair where the pattern has an atom, and an atom where it wants a pair */
        {8, 3, 3, {0xff, 0x05, 0x06, 0xff, 0x05, 0xff, 0x06, 0x07}},
        {8, 5, 3, {0xff, 0x05, 0xff, 0x06, 0x07, 0xff, 0x05, 0x06}},
        /* one name for two trees: the later place */
        {10, 7, 3, {0xff, 0xff, 0x3a, 0x41, 0xff, 0x3a, 0x41, 0xff, 0x05, 0x06}},
        /* ($ . 5) goes into a pair */
        {6, 3, 2, {0xff, 0x24, 0x05, 0xff, 0x06, 0x07}},
    };
    for (size_t i = 0; i < sizeof failures / sizeof *failures; i++) {
        expect(fails_clean(failures[i].forms, failures[i].length, failures[i].first));
        expect(all(place.bytes, 63, 0) && place.bytes[63] == failures[i].path);
    }
}

/* So many turns, all to the left or all to the right, then an atom. Returns the form's length. */
static size_t nest(uint8_t *form, size_t turns, int right, uint8_t atom) {
    memset(form, 0x80, 2 * turns + 1);
    for (size_t i = 0; i < turns; i++) form[right ? 2 * i : i] = 0xff;
    form[right ? 2 * turns : turns] = atom;
    return 2 * turns + 1;
}

static int fails_deep(size_t turns, int right) {
    static uint8_t forms[2 * UMLAZGRIN_FORM];
    size_t first = nest(forms, turns, right, 0x05);
    return fails_clean(forms, first + nest(forms + first, turns, right, 0x06), first);
}

/* A turn is a bit, the first the lowest, with one more on top. 511 turns fill the place; more do not fit. */
static void deep_places(void) {
    expect(fails_deep(7, 0) && all(place.bytes, 63, 0) && place.bytes[63] == 0x80);
    expect(fails_deep(8, 0) && all(place.bytes, 62, 0) && place.bytes[62] == 0x01 && place.bytes[63] == 0);
    expect(fails_deep(8, 1) && all(place.bytes, 62, 0) && place.bytes[62] == 0x01 && place.bytes[63] == 0xff);
    expect(fails_deep(510, 1) && place.bytes[0] == 0x7f && all(place.bytes + 1, 63, 0xff));
    expect(fails_deep(511, 0) && place.bytes[0] == 0x80 && all(place.bytes + 1, 63, 0));
    expect(fails_deep(511, 1) && all(place.bytes, 64, 0xff));
    for (int right = 0; right < 2; right++) {
        expect(fails_deep(512, right) && all(place.bytes, 64, 0));
        expect(fails_deep(2000, right) && all(place.bytes, 64, 0));
    }
}

/* A match, a third name and every refusal leave the place. */
static void no_place(void) {
    const uint8_t one[] = {0xff, 0x3a, 0x41, 0xff, 0x05, 0x06};
    const uint8_t three[] = {0xff, 0xff, 0x3a, 0x41, 0xff, 0xff, 0x3a, 0x42, 0xff, 0x3a, 0x43, 0xff, 0x05, 0xff, 0x06, 0x07};
    const uint8_t other[] = {0x05, 0x06};
    const uint8_t kept = 0xc3;
    expect(match_place(one, 6, 3, UMLAZGRIN_ROOM, sizeof out) == UMLAZGRIN_ANSWERED && parts.names == 1 && all(place.bytes, 64, kept));
    expect(match_place(one, 6, 3, UMLAZGRIN_ROOM, 3) == UMLAZGRIN_OUTPUT_SHORT && all(place.bytes, 64, kept));
    expect(match_place(one, 6, 3, UMLAZGRIN_ROOM - 1, sizeof out) == UMLAZGRIN_ROOM_SMALL && untouched() && all(place.bytes, 64, kept));
    expect(match_place(three, sizeof three, 11, UMLAZGRIN_ROOM, sizeof out) == UMLAZGRIN_TOO_MANY_NAMES && all(place.bytes, 64, kept));
    expect(match_place(other, 1, 1, UMLAZGRIN_ROOM, sizeof out) == UMLAZGRIN_ENDS_EARLY && all(place.bytes, 64, kept));
    expect(match_place(other, 2, 2, UMLAZGRIN_ROOM, sizeof out) == UMLAZGRIN_BYTES_AFTER && all(place.bytes, 64, kept));
    /* a failure writes nothing to the output, so it needs none */
    expect(match_place(other, 2, 1, UMLAZGRIN_ROOM, 0) == UMLAZGRIN_NO_MATCH && all(place.bytes, 63, 0) && place.bytes[63] == 1);
}

static void check_and_write(void) {
    struct umlazgrin_checked c = {7};
    struct umlazgrin_written w = {7, 7};
    fill();
    expect(umlazgrin_check(first_of_one, 5, room, UMLAZGRIN_ROOM, &c) == UMLAZGRIN_ANSWERED && c.units == 26);
    expect(cleared(UMLAZGRIN_ROOM));
    expect(umlazgrin_check(first_of_one, 4, room, UMLAZGRIN_ROOM, &c) == UMLAZGRIN_ENDS_EARLY && c.units == 26);
    expect(umlazgrin_write(first_of_one, 5, room, UMLAZGRIN_ROOM, out, sizeof out, &w) == UMLAZGRIN_ANSWERED);
    expect(w.length == 5 && w.units == 26 && !memcmp(out, first_of_one, 5) && all(out + 5, sizeof out - 5, 0x5a));
}

/* Lengths may have spare bytes; what is written is the shortest form, so as much output is enough. */
static void spare_bytes(void) {
    const uint8_t form[] = {0xff, 0x81, 0x05, 0xff, 0xc0, 0x01, 0x01, 0xe0, 0x00, 0x00};
    struct umlazgrin_checked c = {7};
    struct umlazgrin_written w = {7, 7};
    struct umlazgrin_optimised o = {7, 7, 7, 7};
    fill();
    expect(umlazgrin_check(form, sizeof form, room, UMLAZGRIN_ROOM, &c) == UMLAZGRIN_ANSWERED && c.units == 26);
    expect(umlazgrin_write(form, sizeof form, room, UMLAZGRIN_ROOM, out, 4, &w) == UMLAZGRIN_OUTPUT_SHORT && w.length == 7);
    expect(all(out, sizeof out, 0x5a) && cleared(UMLAZGRIN_ROOM));
    expect(umlazgrin_write(form, sizeof form, room, UMLAZGRIN_ROOM, out, 5, &w) == UMLAZGRIN_ANSWERED && w.length == 5 && w.units == 26);
    expect(!memcmp(out, first_of_one, 5) && all(out + 5, sizeof out - 5, 0x5a) && cleared(UMLAZGRIN_ROOM));
    expect(umlazgrin_optimise(form, sizeof form, room, UMLAZGRIN_ROOM, out, sizeof out, &o) == UMLAZGRIN_ANSWERED);
    expect(o.length == 1 && o.passes == 1 && o.units == 31 && o.mark == 0 && out[0] == 2);
}

/* At one atom: missing prefix bytes 3, then fc, fd and fe 4, then over 64 bytes 5, then a missing body 3. */
static void prefixes(void) {
    static const struct { size_t length, number, units; uint8_t form[6]; } atoms[] = {
        {2, UMLAZGRIN_ANSWERED, 5, {0x81, 0x05}},
        {3, UMLAZGRIN_ANSWERED, 5, {0xc0, 0x01, 0x05}},
        {6, UMLAZGRIN_ANSWERED, 5, {0xf8, 0x00, 0x00, 0x00, 0x01, 0x05}},
        {2, UMLAZGRIN_ANSWERED, 0, {0xc0, 0x00}},
        {5, UMLAZGRIN_ANSWERED, 0, {0xf8, 0x00, 0x00, 0x00, 0x00}},
        {1, UMLAZGRIN_ENDS_EARLY, 7, {0xc0}},
        {4, UMLAZGRIN_ENDS_EARLY, 7, {0xfb, 0xff, 0xff, 0xff}},
        {1, UMLAZGRIN_BAD_PREFIX, 7, {0xfc}},
        {2, UMLAZGRIN_BAD_PREFIX, 7, {0xfd, 0x05}},
        {2, UMLAZGRIN_BAD_PREFIX, 7, {0xfe, 0xff}},
        {2, UMLAZGRIN_ATOM_LONG, 7, {0xc0, 0x41}},
        {5, UMLAZGRIN_ATOM_LONG, 7, {0xfb, 0xff, 0xff, 0xff, 0xff}},
        {1, UMLAZGRIN_ENDS_EARLY, 7, {0x81}},
        {3, UMLAZGRIN_ENDS_EARLY, 7, {0xe0, 0x00, 0x40}},
    };
    for (size_t i = 0; i < sizeof atoms / sizeof *atoms; i++) {
        struct umlazgrin_checked c = {7};
        expect(umlazgrin_check(atoms[i].form, atoms[i].length, room, UMLAZGRIN_ROOM, &c) == atoms[i].number);
        expect(c.units == atoms[i].units);
    }
}

int main(void) {
    optimise();
    short_lengths();
    nulls();
    evaluate();
    match();
    third_name();
    places();
    deep_places();
    no_place();
    check_and_write();
    spare_bytes();
    prefixes();
    printf("C: %u facts, %u failed\n", tried, failed);
    return failed ? EXIT_FAILURE : EXIT_SUCCESS;
}
