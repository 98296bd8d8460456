/* The notation as C sees it: answers, refusals, reports and every lent byte. Prints one line. */
#include "test.h"

/* A string as a text: no zero byte ends it. */
#define TEXT(string) (const uint8_t *)(string), strlen(string)

static struct umlazgrin_written written;
static struct umlazgrin_optimised optimised;
static struct umlazgrin_evaluated evaluated;
static struct umlazgrin_fault fault;

/* Lent memory and reports that a function cannot take for its own. */
static void start(void) {
    fill();
    written = (struct umlazgrin_written){7, 7};
    optimised = (struct umlazgrin_optimised){7, 7, 7, 7};
    evaluated = (struct umlazgrin_evaluated){7, 7, 7};
    fault = (struct umlazgrin_fault){7, 7};
}

static int reports_kept(void) {
    return written.length == 7 && written.units == 7 && optimised.length == 7 && optimised.passes == 7 && optimised.units == 7 &&
           optimised.mark == 7 && evaluated.length == 7 && evaluated.steps == 7 && evaluated.units == 7 && fault.found == 7 &&
           fault.place == 7;
}

/* As every refusal but 1 leaves them. */
static int left(void) { return reports_kept() && all(out, sizeof out, 0x5a) && cleared(UMLAZGRIN_ROOM); }

/* The output begins with these bytes and was not touched after them; the room is clean. */
static int wrote(const void *bytes, size_t count) {
    return !memcmp(out, bytes, count) && all(out + count, sizeof out - count, 0x5a) && cleared(UMLAZGRIN_ROOM);
}
static int said(const char *text) { return wrote(text, strlen(text)); }

/* Each function, with so much output. */
static uint8_t read_text(const uint8_t *text, size_t length, size_t most) {
    start();
    return umlazgrin_read_text(text, length, room, UMLAZGRIN_ROOM, out, most, &written);
}
static uint8_t write_text(const uint8_t *form, size_t length, size_t most) {
    start();
    return umlazgrin_write_text(form, length, room, UMLAZGRIN_ROOM, out, most, &written);
}
static uint8_t optimise_text(const uint8_t *text, size_t length, size_t most) {
    start();
    return umlazgrin_optimise_text(text, length, room, UMLAZGRIN_ROOM, out, most, &optimised);
}
static uint8_t evaluate_text(const uint8_t *text, size_t length, const char *environment, size_t most) {
    static uint8_t texts[3 * UMLAZGRIN_TEXT];
    start();
    if (length) memcpy(texts, text, length);
    memcpy(texts + length, environment, strlen(environment));
    return umlazgrin_evaluate_text(texts, length + strlen(environment), length, room, UMLAZGRIN_ROOM, out, most, &evaluated);
}

static uint8_t text_fault(const uint8_t *text, size_t length) {
    start();
    return umlazgrin_text_fault(text, length, room, UMLAZGRIN_ROOM, &fault);
}

/* What text_fault answers, with the room clean and no output touched. */
static int answers_fault(const uint8_t *text, size_t length, size_t found, size_t place) {
    return text_fault(text, length) == UMLAZGRIN_ANSWERED && fault.found == found && fault.place == place &&
           all(out, sizeof out, 0x5a) && cleared(UMLAZGRIN_ROOM);
}
static int stops(const uint8_t *text, size_t length, size_t place) { return answers_fault(text, length, 1, place); }
static int parses(const uint8_t *text, size_t length) { return answers_fault(text, length, 0, 0); }

static void answers(void) {
    const uint8_t form[] = {0xff, 0x05, 0xff, 0x82, 0x61, 0x62, 0xff, 0x81, 0xab, 0xff, 0x81, 0xff, 0x80};
    expect(read_text(TEXT("(f\"ab\" . (0xAB -1))"), sizeof out) == UMLAZGRIN_ANSWERED);
    expect(written.length == sizeof form && written.units == 53 && wrote(form, sizeof form));
    expect(write_text(form, sizeof form, sizeof out) == UMLAZGRIN_ANSWERED);
    expect(written.length == 20 && written.units == 53 && said("(f 0x6162 0xab 0xff)"));
    expect(optimise_text(TEXT("(a (q 4 3 2) 2)"), sizeof out) == UMLAZGRIN_ANSWERED);
    expect(optimised.length == 13 && optimised.passes == 4 && optimised.units == 186 && optimised.mark == 0 && said("(c 0x06 0x04)"));
    expect(optimise_text(TEXT("(f 0xff80)"), sizeof out) == UMLAZGRIN_ANSWERED);
    expect(optimised.length == 6 && optimised.passes == 1 && optimised.units == 33 && optimised.mark == 1 && said("0x0100"));
    expect(evaluate_text(TEXT("(c 2 3)"), "(5 . 6)", sizeof out) == UMLAZGRIN_ANSWERED);
    expect(evaluated.length == 10 && evaluated.steps == 3 && evaluated.units == 65 && said("(f . 0x06)"));
}

/* Every function that takes a text refuses this one; as a program it is evaluated in the environment nil. text_fault refuses it where it
 * is too long, and finds a fault exactly where it does not parse. */
static void refused(unsigned number, const uint8_t *text, size_t length) {
    unsigned before = failed;
    expect(read_text(text, length, sizeof out) == number && left());
    expect(optimise_text(text, length, sizeof out) == number && left());
    expect(evaluate_text(text, length, "()", sizeof out) == number && left());
    if (number == UMLAZGRIN_TEXT_LONG) expect(text_fault(text, length) == number && left());
    else if (number == UMLAZGRIN_NO_PARSE) expect(text_fault(text, length) == UMLAZGRIN_ANSWERED && fault.found == 1);
    else expect(parses(text, length));
    if (failed > before) fprintf(stderr, "  a text of %zu bytes, refusal %u\n", length, number);
}

/* The parts, so many of them, in brackets. */
static const char *list(const char *part, size_t count) {
    static char text[UMLAZGRIN_TEXT + 2];
    size_t step = strlen(part);
    text[0] = '(';
    for (size_t i = 0; i < count; i++) memcpy(text + 1 + step * i, part, step);
    strcpy(text + 1 + step * count, ")");
    return text;
}

static void texts_refused(void) {
    static char spaces[UMLAZGRIN_TEXT + 2], brackets[UMLAZGRIN_TEXT + 1], atom[133] = "0x";
    memset(spaces, ' ', UMLAZGRIN_TEXT + 1);
    memset(brackets, '(', UMLAZGRIN_TEXT);
    memset(atom + 2, 'a', 130);
    refused(UMLAZGRIN_TEXT_LONG, TEXT(spaces));
    refused(UMLAZGRIN_NO_PARSE, TEXT(spaces + 1));
    refused(UMLAZGRIN_NO_PARSE, TEXT(brackets));
    refused(UMLAZGRIN_NO_PARSE, TEXT("(f 1"));
    refused(UMLAZGRIN_NO_PARSE, TEXT("f"));
    refused(UMLAZGRIN_NO_PARSE, NULL, 0);
    refused(UMLAZGRIN_FORM_LONG, TEXT(list("1 ", 4096)));
    refused(UMLAZGRIN_UNITS_OUT, TEXT(list("1 ", 4095)));
    refused(UMLAZGRIN_ATOM_LONG, TEXT(atom));
    refused(UMLAZGRIN_UNITS_OUT, TEXT(list("5 ", 2521)));
    atom[130] = 0;
    expect(read_text(TEXT(atom), sizeof out) == UMLAZGRIN_ANSWERED && written.length == 66 && written.units == 68);
    spaces[0] = '1', spaces[UMLAZGRIN_TEXT] = 0;
    expect(read_text(TEXT(spaces), sizeof out) == UMLAZGRIN_ANSWERED && wrote("\1", 1));
}

/* At the start, in the middle, and at the end, where more is wanted. */
static void faults(void) {
    expect(stops(TEXT(")"), 0));
    expect(stops(TEXT("f"), 0));
    expect(stops(TEXT("0x5"), 0));
    expect(stops(TEXT("+5"), 0));
    expect(stops(TEXT(". 5"), 0));
    expect(stops(TEXT("(. 5)"), 1));
    expect(stops(TEXT("(1.2)"), 1));
    expect(stops(TEXT("5 6"), 2));
    expect(stops(TEXT("()()"), 2));
    expect(stops(TEXT("(q f)"), 3));
    expect(stops(TEXT("(c . (f 1))"), 6));
    expect(stops(TEXT("(5 . . 6)"), 5));
    expect(stops(TEXT("(5 .)"), 4));
    expect(stops(TEXT("(5 . 6 7)"), 7));
    expect(stops(TEXT("(f 1))"), 5));
    expect(stops(TEXT("\t\r "), 3));
    expect(stops(TEXT("("), 1));
    expect(stops(TEXT("(f 1"), 4));
    expect(stops(TEXT("(5 ."), 4));
    expect(stops(TEXT("(5 . "), 5));
    expect(stops(NULL, 0, 0));
}

/* Inside quotes a byte that is not 20 to 7e, wherever they stand; else a quote that is never closed. No zero byte ends a text. */
static void faults_in_quotes(void) {
    expect(stops(TEXT("\"a\tb\""), 2));
    expect(stops(TEXT("(5 \"\x7f\")"), 4));
    expect(stops(TEXT("(\"a\" \"b\xc3\xa9\")"), 7));
    expect(stops((const uint8_t *)"\"a\0b\"", 5, 2));
    expect(stops((const uint8_t *)"(\0)", 3, 1));
    expect(stops(TEXT("5 \"\t\""), 3));
    expect(stops(TEXT("\"a\t"), 2));
    expect(stops(TEXT("\"ab"), 0));
    expect(stops(TEXT("(5 \"ab)"), 3));
    expect(stops(TEXT("(5 \"ab\"\")"), 7));
    expect(parses(TEXT("(f\"ab\" . (0xAB -1))")));
    expect(parses(TEXT("\" ~\"")));
}

/* The longest texts, and one byte more. */
static void faults_far_in(void) {
    static char text[UMLAZGRIN_TEXT + 2];
    memset(text, ' ', UMLAZGRIN_TEXT);
    expect(stops(TEXT(text), UMLAZGRIN_TEXT));
    text[UMLAZGRIN_TEXT - 1] = 'f';
    expect(stops(TEXT(text), UMLAZGRIN_TEXT - 1));
    text[UMLAZGRIN_TEXT - 1] = '5';
    expect(parses(TEXT(text)));
    text[UMLAZGRIN_TEXT] = ' ';
    expect(text_fault(TEXT(text)) == UMLAZGRIN_TEXT_LONG && left());
    memset(text, '(', UMLAZGRIN_TEXT + 1);
    expect(text_fault(TEXT(text)) == UMLAZGRIN_TEXT_LONG && left());
    expect(stops(TEXT(text + 1), UMLAZGRIN_TEXT));
    memset(text, '7', UMLAZGRIN_TEXT);
    expect(parses((const uint8_t *)text, UMLAZGRIN_TEXT));
    text[UMLAZGRIN_TEXT - 1] = 'a';
    expect(stops((const uint8_t *)text, UMLAZGRIN_TEXT, 0));
}

/* What the room holds before does not matter, nor what is behind its least length. */
static void fault_rooms(void) {
    for (unsigned noise = 0; noise < 256; noise += 51) {
        start();
        memset(room, (int)noise, UMLAZGRIN_ROOM);
        expect(umlazgrin_text_fault(TEXT("(q 123456789012345678901234567890 f)"), room, UMLAZGRIN_ROOM, &fault) == UMLAZGRIN_ANSWERED);
        expect(fault.found == 1 && fault.place == 34 && cleared(UMLAZGRIN_ROOM));
    }
    start();
    expect(umlazgrin_text_fault(TEXT("(f 1)"), room, UMLAZGRIN_ROOM + 3, &fault) == UMLAZGRIN_ANSWERED);
    expect(fault.found == 0 && fault.place == 0 && cleared(UMLAZGRIN_ROOM + 3));
}

static void work_refused(void) {
    expect(optimise_text(TEXT("(f 0)"), sizeof out) == UMLAZGRIN_FAILS && left());
    expect(evaluate_text(TEXT("(x)"), "()", sizeof out) == UMLAZGRIN_FAILS && left());
    expect(evaluate_text(TEXT("(10)"), "()", sizeof out) == UMLAZGRIN_NO_OPERATOR && left());
}

/* The program's refusals come before the environment's; both are on one budget of units. */
static void environments(void) {
    expect(evaluate_text(TEXT("1"), "", sizeof out) == UMLAZGRIN_NO_PARSE && left());
    expect(evaluate_text(TEXT("1"), "x", sizeof out) == UMLAZGRIN_NO_PARSE && left());
    expect(evaluate_text(TEXT(list("5 ", 2521)), "x", sizeof out) == UMLAZGRIN_UNITS_OUT && left());
    expect(evaluate_text(TEXT("1"), list(" ", UMLAZGRIN_TEXT - 1), sizeof out) == UMLAZGRIN_TEXT_LONG && left());
    expect(evaluate_text(TEXT(list("1 ", 2520)), "0x01020304", sizeof out) == UMLAZGRIN_ANSWERED && evaluated.units == 32768);
    expect(evaluate_text(TEXT(list("1 ", 2520)), "0x0102030405", sizeof out) == UMLAZGRIN_UNITS_OUT && left());
    /* first past the end: all bytes are the program's, and the environment is the empty text */
    start();
    expect(umlazgrin_evaluate_text(TEXT("1"), 100, room, UMLAZGRIN_ROOM, out, sizeof out, &evaluated) == UMLAZGRIN_NO_PARSE && left());
}

static void forms_refused(void) {
    static uint8_t form[UMLAZGRIN_FORM + 1] = {0xc0, 0x41};
    const uint8_t bad[] = {0xfc}, two[] = {0x05, 0x05};
    expect(write_text(form, sizeof form, sizeof out) == UMLAZGRIN_FORM_LONG && left());
    expect(write_text(form, 67, sizeof out) == UMLAZGRIN_ATOM_LONG && left());
    expect(write_text(NULL, 0, sizeof out) == UMLAZGRIN_ENDS_EARLY && left());
    expect(write_text(bad, 1, sizeof out) == UMLAZGRIN_BAD_PREFIX && left());
    expect(write_text(two, 2, sizeof out) == UMLAZGRIN_BYTES_AFTER && left());
    memset(form, 0x05, sizeof form);
    for (size_t i = 0; i < 2521; i++) form[2 * i] = 0xff;
    form[2 * 2521] = 0x80;
    expect(write_text(form, 2 * 2521 + 1, sizeof out) == UMLAZGRIN_UNITS_OUT && left());
}

/* Lengths with spare bytes: the text is the tree's. */
static void spare_bytes(void) {
    const uint8_t five[] = {0x81, 0x05}, nil[] = {0xc0, 0x00};
    expect(write_text(five, 2, sizeof out) == UMLAZGRIN_ANSWERED && written.length == 4 && written.units == 5 && said("0x05"));
    expect(write_text(nil, 2, sizeof out) == UMLAZGRIN_ANSWERED && written.length == 2 && written.units == 0 && said("()"));
}

/* Room for the result and no more, and one byte less; also none, with a null pointer. */
static void short_outputs(void) {
    const uint8_t form[] = {0xff, 0x05, 0xff, 0x01, 0x80};
    expect(read_text(TEXT("(f 1)"), 5) == UMLAZGRIN_ANSWERED && wrote(form, 5));
    expect(read_text(TEXT("(f 1)"), 4) == UMLAZGRIN_OUTPUT_SHORT && left());
    expect(write_text(form, 5, 8) == UMLAZGRIN_ANSWERED && said("(f 0x01)"));
    expect(write_text(form, 5, 7) == UMLAZGRIN_OUTPUT_SHORT && left());
    expect(optimise_text(TEXT("(f 1)"), 4) == UMLAZGRIN_ANSWERED && said("0x02"));
    expect(optimise_text(TEXT("(f 1)"), 3) == UMLAZGRIN_OUTPUT_SHORT && left());
    expect(evaluate_text(TEXT("1"), "(1 2)", 8) == UMLAZGRIN_ANSWERED && said("(q 0x02)"));
    expect(evaluate_text(TEXT("1"), "(1 2)", 7) == UMLAZGRIN_OUTPUT_SHORT && left());
    start();
    expect(umlazgrin_optimise_text(TEXT("(f 1)"), room, UMLAZGRIN_ROOM, NULL, 0, &optimised) == UMLAZGRIN_OUTPUT_SHORT && left());
}

static void rooms(void) {
    const uint8_t nil[] = {0x80};
    start();
    expect(umlazgrin_read_text(TEXT("x"), room, UMLAZGRIN_ROOM - 1, out, sizeof out, &written) == UMLAZGRIN_ROOM_SMALL);
    expect(umlazgrin_write_text(nil, 1, room, UMLAZGRIN_ROOM - 1, out, sizeof out, &written) == UMLAZGRIN_ROOM_SMALL);
    expect(umlazgrin_optimise_text(TEXT("1"), room, UMLAZGRIN_ROOM - 1, out, sizeof out, &optimised) == UMLAZGRIN_ROOM_SMALL);
    expect(umlazgrin_evaluate_text(TEXT("1 2"), 1, NULL, 0, out, sizeof out, &evaluated) == UMLAZGRIN_ROOM_SMALL);
    expect(umlazgrin_text_fault(TEXT("x"), room, UMLAZGRIN_ROOM - 1, &fault) == UMLAZGRIN_ROOM_SMALL);
    expect(umlazgrin_text_fault(TEXT(list(" ", UMLAZGRIN_TEXT - 1)), NULL, 0, &fault) == UMLAZGRIN_ROOM_SMALL);
    expect(untouched() && all(out, sizeof out, 0x5a) && reports_kept());
    expect(umlazgrin_optimise_text(TEXT("(f 1)"), room, UMLAZGRIN_ROOM + 3, out, sizeof out, &optimised) == UMLAZGRIN_ANSWERED);
    expect(cleared(UMLAZGRIN_ROOM + 3));
}

/* A program that pairs its value with itself, so many times: all parts of the value are shared. */
static const char *doubled(const char *inner, size_t times) {
    static char text[1024];
    text[0] = 0;
    for (size_t i = 0; i < times; i++) strcat(text, "(a (q 4 1 1) ");
    strcat(text, inner);
    for (size_t i = 0; i < times; i++) strcat(text, ")");
    return text;
}

/* The form of 2^13 shared leaves has 16,383 bytes, its text 20,479; once more, or seven times more, and the text is too long. */
static void shared(void) {
    expect(evaluate_text(TEXT(doubled("1", 13)), "()", 20479) == UMLAZGRIN_ANSWERED);
    expect(evaluated.length == 20479 && evaluated.steps == 66 && evaluated.units == 1162);
    expect(!memcmp(out, "(((((((((((((()) ()) (()) ())", 29) && all(out + 20479, sizeof out - 20479, 0x5a) && cleared(UMLAZGRIN_ROOM));
    expect(evaluate_text(TEXT(doubled("1", 13)), "()", 20478) == UMLAZGRIN_OUTPUT_SHORT && left());
    expect(evaluate_text(TEXT(doubled("1", 14)), "()", UMLAZGRIN_OUTPUT) == UMLAZGRIN_OUTPUT_SHORT && left());
    expect(evaluate_text(TEXT(doubled("1", 20)), "()", UMLAZGRIN_OUTPUT) == UMLAZGRIN_OUTPUT_SHORT && left());
    expect(optimise_text(TEXT(doubled("(q)", 13)), UMLAZGRIN_OUTPUT) == UMLAZGRIN_ANSWERED);
    expect(optimised.length == 20481 && optimised.passes == 2 && optimised.units == 1183 && optimised.mark == 0);
    expect(!memcmp(out, "(q ((((((((((((()) ()) (()) ())", 31) && all(out + 20481, sizeof out - 20481, 0x5a) && cleared(UMLAZGRIN_ROOM));
    expect(optimise_text(TEXT(doubled("(q)", 14)), UMLAZGRIN_OUTPUT) == UMLAZGRIN_OUTPUT_SHORT && left());
}

int main(void) {
    answers();
    texts_refused();
    faults();
    faults_in_quotes();
    faults_far_in();
    fault_rooms();
    work_refused();
    environments();
    forms_refused();
    spare_bytes();
    short_outputs();
    rooms();
    shared();
    printf("C, the notation: %u facts, %u failed\n", tried, failed);
    return failed ? EXIT_FAILURE : EXIT_SUCCESS;
}
