/* Savings as C sees them: each form in its column, the sums, a report that is full or foreign, and every lent byte. Prints one line. */
#include "test.h"

typedef struct umlazgrin_savings savings;
enum { NUMBERS = sizeof(savings) / sizeof(uint64_t) };

static const char *first_of_one = "ff05ff0180";                 /* (f 1) */
static const char *fails = "ff05ff8080";                        /* (f 0) */
static const char *marked = "ff05ff82ff8080";                   /* (f 0xff80) */
static const char *swaps = "ff02ffff01ff04ff03ff0280ff0280";    /* (a (q 4 3 2) 2) */
static savings report;

static void start(void) { memset(&report, 0, sizeof report); }
static int same(const savings *wanted) { return !memcmp(&report, wanted, sizeof report); }

/* Works one form into the report, with so much room. */
static uint8_t add_lent(const char *hex, uint8_t *lent, size_t lent_length) {
    static uint8_t form[UMLAZGRIN_FORM + 1];
    size_t length = strlen(hex) / 2;
    for (size_t i = 0; i < length; i++) {
        char two[3] = {hex[2 * i], hex[2 * i + 1], 0};
        form[i] = (uint8_t)strtoul(two, NULL, 16);
    }
    fill();
    return umlazgrin_add_form(length ? form : NULL, length, lent, lent_length, &report);
}

/* The room is left clean, whatever comes of the form. */
static uint8_t add(const char *hex) {
    uint8_t number = add_lent(hex, room, UMLAZGRIN_ROOM);
    expect(cleared(UMLAZGRIN_ROOM));
    return number;
}

/* 27 numbers of eight bytes, with nothing between them. */
static void layout(void) {
    expect(NUMBERS == 27 && offsetof(savings, refused) == 8 && offsetof(savings, marked) == 15 * 8);
    expect(offsetof(savings, passes) == 18 * 8 && offsetof(savings, rules) == 19 * 8);
}

static void one_form(void) {
    start();
    expect(add(first_of_one) == UMLAZGRIN_ANSWERED);
    expect(same(&(savings){.answered = 1, .before = 5, .after = 1, .passes = 1, .rules = {[5] = 1}}));
    start();
    expect(add(marked) == UMLAZGRIN_ANSWERED);
    expect(same(&(savings){.answered = 1, .marked = 1, .before = 7, .after = 3, .passes = 1, .rules = {[5] = 1}}));
    start();
    expect(add(fails) == UMLAZGRIN_FAILS && same(&(savings){.refused = {[7] = 1}}));
    /* bytes before are those that were passed, with the spare ones of the atom 5 */
    start();
    expect(add("f80000000105") == UMLAZGRIN_ANSWERED && same(&(savings){.answered = 1, .before = 6, .after = 1}));
}

/* Sums, but for the passes: there the greatest counts, wherever it stands. */
static void several(void) {
    start();
    for (int twice = 0; twice < 2; twice++) {
        expect(add(first_of_one) == UMLAZGRIN_ANSWERED);
        expect(add(swaps) == UMLAZGRIN_ANSWERED);
        expect(add(fails) == UMLAZGRIN_FAILS);
        expect(add(marked) == UMLAZGRIN_ANSWERED);
        expect(add("") == UMLAZGRIN_ENDS_EARLY);
    }
    expect(same(&(savings){.answered = 6, .refused = {[2] = 2, [7] = 2}, .marked = 2, .before = 54, .after = 22, .passes = 4,
                           .rules = {[3] = 2, [5] = 8}}));
}

/* ---- each refusal */

/* Hex: something, then so many times bytes around others, then something. */
static const char *nest(const char *before, size_t times, const char *open, const char *inner, const char *close, const char *after) {
    static char hex[2 * UMLAZGRIN_FORM + 64];
    char *end = hex + sprintf(hex, "%s", before);
    for (size_t i = 0; i < times; i++) end += sprintf(end, "%s", open);
    end += sprintf(end, "%s", inner);
    for (size_t i = 0; i < times; i++) end += sprintf(end, "%s", close);
    sprintf(end, "%s", after);
    return hex;
}

/* (a (q 4 1 1) ..) eleven times around a quote: the value has what is quoted 2,048 times, shared. */
static const char *copies(const char *quote) { return nest("", 11, "ff02ffff01ff04ff01ff0180ff", quote, "80", ""); }

/* The form stands in its refusal's column, and nothing else is changed. */
static void refused(uint8_t number, const char *hex) {
    savings wanted = report;
    wanted.refused[number - 1]++;
    expect(add(hex) == number);
    expect(same(&wanted));
}

static void refusals(void) {
    start();
    expect(add(swaps) == UMLAZGRIN_ANSWERED);
    refused(UMLAZGRIN_FORM_LONG, nest("", UMLAZGRIN_FORM, "ff", "05", "", ""));
    refused(UMLAZGRIN_ENDS_EARLY, "");
    refused(UMLAZGRIN_ENDS_EARLY, "ff05");
    refused(UMLAZGRIN_BAD_PREFIX, "fc");
    refused(UMLAZGRIN_ATOM_LONG, "c041");
    refused(UMLAZGRIN_BYTES_AFTER, "0505");
    refused(UMLAZGRIN_UNITS_OUT, nest("", 4095, "ff01", "80", "", ""));
    refused(UMLAZGRIN_FAILS, fails);
    refused(UMLAZGRIN_NO_OPERATOR, "ff10ffff010180");
    refused(UMLAZGRIN_STEPS_OUT, "ff02ffff01ff02ff01ff0180ffff01ff02ff01ff018080");
    refused(UMLAZGRIN_PATH_LONG, nest("ff05ffc04080000080", 60, "00", "80", "", ""));
    /* (x (a (q . 1) ..)) fourteen times around (x (8 . 5)), and three constants */
    refused(UMLAZGRIN_PASSES_OUT, nest("ff08ffff02ffff0101ff", 13, "ff08ffff02ffff0101ff", "ff08ffff080580", "8080",
                                       "80ffff0105ffff0105ffff010580"));
    refused(UMLAZGRIN_TOO_DEEP, "ff02ffff01ff08ff8900800000000000000080ff0280");
    savings wanted = {.answered = 1, .refused = {0, 1, 2, 1, 1, 1, 1, 1, 1, 1, 1, 1, 1, 0}, .before = 15, .after = 7, .passes = 4,
                      .rules = {[3] = 1, [5] = 2}};
    expect(same(&wanted));
}

/* The finished tree is held against 32,768 bytes: 30,721 fit, 32,769 do not. */
static void outputs(void) {
    start();
    expect(add(copies("ff018d83838383838383838383838383")) == UMLAZGRIN_ANSWERED);
    expect(same(&(savings){.answered = 1, .before = 170, .after = 30721, .passes = 2, .rules = {[1] = 1}}));
    refused(UMLAZGRIN_OUTPUT_SHORT, copies("ff018e8383838383838383838383838383"));
}

/* A small room is the form's refusal 1, and is not touched. */
static void rooms(void) {
    start();
    expect(add_lent(first_of_one, room, UMLAZGRIN_ROOM - 1) == UMLAZGRIN_ROOM_SMALL && untouched());
    expect(add_lent(fails, room, UMLAZGRIN_ROOM - 1) == UMLAZGRIN_ROOM_SMALL && untouched());
    expect(add_lent("", NULL, 0) == UMLAZGRIN_ROOM_SMALL);
    expect(same(&(savings){.refused = {[0] = 3}}));
    expect(add_lent(first_of_one, room, UMLAZGRIN_ROOM + 3) == UMLAZGRIN_ANSWERED && cleared(UMLAZGRIN_ROOM + 3));
    expect(report.answered == 1 && report.refused[0] == 3);
}

/* ---- rules */

/* Every rule. Counted as the driver without a memo works: what it works twice counts twice, as (f 1) does in (c (f 1) (f 1)). */
static void rules(void) {
    static const struct { const char *hex; uint64_t passes, rules[8]; } rows[] = {
        {"ff06ffff04ffff05ff0180ffff05ff01808080", 2, {[0] = 1, [5] = 1}},  /* (r (c (f 1) (f 1))) */
        {"ff04ffff0105ffff010680", 2, {[1] = 1}},                           /* (c (q . 5) (q . 6)) */
        {"ff02ffff01ff05ff0180ff0180", 2, {[2] = 1, [5] = 1}},              /* (a (q 5 1) 1) */
        {"ff02ffff01ff04ff03ff0280ff0280", 4, {[3] = 1, [5] = 2}},          /* (a (q 4 3 2) 2) */
        {"ff04ffff05ff0180ffff05ff018080", 4, {[4] = 1, [5] = 2}},          /* (c (f 1) (f 1)) */
        {"ff05ffff05ff018080", 3, {[4] = 1, [5] = 2}},                      /* (f (f 1)) */
        {"ff0180", 1, {[6] = 1}},                                           /* (q) */
        {"ff02ff80ff0580", 1, {[7] = 1}},                                   /* (a () 5) */
        {"ff0880", 1, {0}},                                                 /* (x) */
    };
    for (size_t i = 0; i < sizeof rows / sizeof *rows; i++) {
        start();
        expect(add(rows[i].hex) == UMLAZGRIN_ANSWERED);
        expect(report.passes == rows[i].passes && !memcmp(report.rules, rows[i].rules, sizeof report.rules));
    }
}

/* What is thrown away counts too. (a (q 4 2 (8)) 2) comes back as it was, but the path rule made 4 of 2 and 2. In (x (a (q . 1) ..)), six
 * times around (x (f 1)), what is inside is worked again and again. */
static void thrown_away(void) {
    start();
    expect(add("ff02ffff01ff04ff02ffff088080ff0280") == UMLAZGRIN_ANSWERED);
    expect(same(&(savings){.answered = 1, .before = 17, .after = 17, .passes = 4, .rules = {[5] = 1}}));
    start();
    expect(add(nest("", 6, "ff08ffff02ffff0101ff", "ff08ffff05ff018080", "8080", "")) == UMLAZGRIN_ANSWERED);
    expect(same(&(savings){.answered = 1, .before = 81, .after = 69, .passes = 1121, .rules = {[3] = 32, [4] = 63, [5] = 32}}));
}

/* ---- a report that is full, or none */

/* 17 leaves the report; the room is clean, as after other returns. */
static void full(const char *hex) {
    savings before = report;
    expect(add(hex) == UMLAZGRIN_REPORT_FULL);
    expect(same(&before));
}

static void last_form(void) {
    start();
    for (size_t i = 0; i < UMLAZGRIN_FORMS; i++) {
        const char *forms[] = {first_of_one, fails, marked, ""};
        expect(add(forms[i % 4]) == (i % 4 == 1 ? UMLAZGRIN_FAILS : i % 4 == 3 ? UMLAZGRIN_ENDS_EARLY : UMLAZGRIN_ANSWERED));
    }
    expect(same(&(savings){.answered = 2048, .refused = {[2] = 1024, [7] = 1024}, .marked = 1024, .before = 12288, .after = 4096,
                           .passes = 1, .rules = {[5] = 2048}}));
    full(first_of_one);
    full(fails);
    full("");
    /* 17 comes before 1, and leaves a small room clean too */
    savings before = report;
    expect(add_lent(first_of_one, room, UMLAZGRIN_ROOM - 1) == UMLAZGRIN_REPORT_FULL && cleared(UMLAZGRIN_ROOM - 1));
    expect(add_lent(first_of_one, NULL, 0) == UMLAZGRIN_REPORT_FULL && untouched() && same(&before));
}

/* Which forms there were does not matter, only how many. */
static void forms_before(void) {
    start();
    report.answered = 2000, report.refused[0] = 95, report.refused[13] = 2000;
    expect(add(first_of_one) == UMLAZGRIN_ANSWERED && report.answered == 2001);
    full(first_of_one);
    report.answered = 0, report.refused[13] = 4095;
    full(fails);
    report.refused[13] = 4000;
    expect(add(fails) == UMLAZGRIN_FAILS && report.refused[7] == 1);
    full(fails);
    report.answered = report.refused[13] = UINT64_C(1) << 62;
    full(fails);
}

/* No report has a number of 2^63. Below it every number is taken, and nothing wraps. */
static void foreign(void) {
    for (size_t i = 0; i < NUMBERS; i++) {
        start();
        ((uint64_t *)&report)[i] = UINT64_C(1) << 63;
        full(first_of_one);
        ((uint64_t *)&report)[i] = UINT64_MAX;
        full("");
    }
    const uint64_t most = (UINT64_C(1) << 63) - 1;
    report = (savings){.marked = most, .before = most, .after = most, .passes = most, .rules = {[5] = most}};
    expect(add(marked) == UMLAZGRIN_ANSWERED);
    expect(same(&(savings){.answered = 1, .marked = most + 1, .before = most + 7, .after = most + 3, .passes = most,
                           .rules = {[5] = most + 1}}));
    full(marked);
}

int main(void) {
    layout();
    one_form();
    several();
    refusals();
    outputs();
    rooms();
    rules();
    thrown_away();
    last_form();
    forms_before();
    foreign();
    printf("C, savings: %u facts, %u failed\n", tried, failed);
    return failed ? EXIT_FAILURE : EXIT_SUCCESS;
}
