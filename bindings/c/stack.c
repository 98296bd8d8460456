/* The stack that one call takes, measured: each line of standard input is a form in hex, or, with a bracket in front, a text; after the
 * last the program prints, for each function, the most bytes of stack that a call took, and the line on which it did. The functions that
 * take a text are given the form's own. (The thread's own first frames, some hundred bytes, are counted in.) */
#define _GNU_SOURCE
#include "umlazgrin.h"
#include <pthread.h>
#include <stdio.h>
#include <stdlib.h>
#include <string.h>
#include <sys/mman.h>

/* A word of the stack that nothing has touched. */
#define CLEAN 0xa5a5a5a5a5a5a5a5u
enum { STACK = 8 << 20, WORDS = STACK / 8, FORMS = 8, FUNCTIONS = 12 };
static uint8_t form[UMLAZGRIN_FORM], both[2 * UMLAZGRIN_FORM], text[UMLAZGRIN_TEXT + 2];
static uint8_t room[UMLAZGRIN_ROOM], out[UMLAZGRIN_OUTPUT];
static uint64_t *stack;
static size_t length, text_length;

static void *optimise(void *none) {
    struct umlazgrin_optimised r;
    umlazgrin_optimise(form, length, room, sizeof room, out, sizeof out, &r);
    return none;
}
/* The form as a program, in the environment nil. */
static void *evaluate(void *none) {
    struct umlazgrin_evaluated r;
    if (length == sizeof form) return none;
    form[length] = 0x80;
    umlazgrin_evaluate(form, length + 1, length, room, sizeof room, out, sizeof out, &r);
    return none;
}
/* The form twice: the pattern, and the expression. */
static void double_form(void) {
    memcpy(both, form, length);
    memcpy(both + length, form, length);
}
static void *match(void *none) {
    struct umlazgrin_matched r;
    double_form();
    umlazgrin_match(both, 2 * length, length, room, sizeof room, out, sizeof out, &r);
    return none;
}
/* The form as a pattern, against itself with one byte changed, where nil and 1 change places. */
static void match_changed(size_t at) {
    struct umlazgrin_matched r;
    struct umlazgrin_place p;
    double_form();
    both[length + at] ^= 0x81;
    umlazgrin_match_place(both, 2 * length, length, room, sizeof room, out, sizeof out, &r, &p);
}
/* Fails at the form's first atom, then at its last. */
static void *match_place(void *none) {
    size_t first = 0;
    if (!length) return none;
    while (first + 1 < length && form[first] == 0xff) first++;
    match_changed(first);
    match_changed(length - 1);
    return none;
}
static void *check(void *none) {
    struct umlazgrin_checked r;
    umlazgrin_check(form, length, room, sizeof room, &r);
    return none;
}
static void *write_again(void *none) {
    struct umlazgrin_written r;
    umlazgrin_write(form, length, room, sizeof room, out, sizeof out, &r);
    return none;
}

/* The form as the first of a report. */
static void *add_form(void *none) {
    struct umlazgrin_savings r = {0};
    umlazgrin_add_form(form, length, room, sizeof room, &r);
    return none;
}

static void *write_text(void *none) {
    struct umlazgrin_written r;
    umlazgrin_write_text(form, length, room, sizeof room, out, sizeof out, &r);
    return none;
}
static void *read_text(void *none) {
    struct umlazgrin_written r;
    umlazgrin_read_text(text, text_length, room, sizeof room, out, sizeof out, &r);
    return none;
}
static void *optimise_text(void *none) {
    struct umlazgrin_optimised r;
    umlazgrin_optimise_text(text, text_length, room, sizeof room, out, sizeof out, &r);
    return none;
}
/* The text as a program, in the environment nil. */
static void *evaluate_text(void *none) {
    struct umlazgrin_evaluated r;
    memcpy(text + text_length, "()", 2);
    umlazgrin_evaluate_text(text, text_length + 2, text_length, room, sizeof room, out, sizeof out, &r);
    return none;
}

static void *text_fault(void *none) {
    struct umlazgrin_fault r;
    umlazgrin_text_fault(text, text_length, room, sizeof room, &r);
    return none;
}

/* How deep the work went into a clean stack. */
static size_t taken(void *(*work)(void *)) {
    static size_t low = 0;
    pthread_attr_t how;
    pthread_t thread;
    for (; low < WORDS; low++) stack[low] = CLEAN;
    pthread_attr_init(&how);
    pthread_attr_setstack(&how, stack, STACK);
    if (pthread_create(&thread, &how, work, NULL)) abort();
    pthread_join(thread, NULL);
    for (low = 0; low < WORDS && stack[low] == CLEAN;) low++;
    return STACK - 8 * low;
}

/* Takes the line as a text, or as a form with its text (none where the form is refused); returns the first function to try. */
static int take(const char *line) {
    struct umlazgrin_written r;
    length = strcspn(line, "\n");
    if (line[0] == '(') {
        text_length = length < UMLAZGRIN_TEXT ? length : UMLAZGRIN_TEXT;
        memcpy(text, line, text_length);
        return FORMS;
    }
    length /= 2;
    if (length > sizeof form) return FUNCTIONS;
    for (size_t i = 0; i < length; i++) {
        char two[3] = {line[2 * i], line[2 * i + 1], 0};
        form[i] = (uint8_t)strtoul(two, NULL, 16);
    }
    text_length = umlazgrin_write_text(form, length, room, sizeof room, text, UMLAZGRIN_TEXT, &r) ? 0 : r.length;
    return 0;
}

int main(void) {
    const char *names[FUNCTIONS] = {"optimise", "evaluate",   "match",     "match_place",   "check",         "write",
                                    "add_form", "write_text", "read_text", "optimise_text", "evaluate_text", "text_fault"};
    void *(*works[FUNCTIONS])(void *) = {optimise, evaluate,   match,     match_place,   check,         write_again,
                                         add_form, write_text, read_text, optimise_text, evaluate_text, text_fault};
    size_t most[FUNCTIONS] = {0}, at[FUNCTIONS] = {0}, number = 0;
    static char line[UMLAZGRIN_TEXT + 64];
    stack = mmap(NULL, STACK, PROT_READ | PROT_WRITE, MAP_PRIVATE | MAP_ANONYMOUS, -1, 0);
    if (stack == MAP_FAILED) abort();
    while (fgets(line, sizeof line, stdin)) {
        number++;
        for (int k = take(line); k < FUNCTIONS; k++) {
            size_t depth = taken(works[k]);
            if (depth > most[k]) most[k] = depth, at[k] = number;
        }
    }
    for (int k = 0; k < FUNCTIONS; k++) printf("%s %zu bytes of stack, line %zu\n", names[k], most[k], at[k]);
    return 0;
}
