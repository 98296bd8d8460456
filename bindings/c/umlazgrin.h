/* Umlazgrin as a C library: the classic Chialisp optimiser (stage 2), an evaluator, a matcher, a reader and a writer of the
 * serialised form and of the readable notation, on bytes that the caller lends. Link libumlazgrin.a; of C's library it needs memcpy
 * and memset only.
 *
 * Each of the twelve functions returns 0 for an answer, or the number of a refusal (1 to 17; the matcher also 100 and 101). What it leaves
 * behind is proved of it, for all inputs:
 *   - an answer fills in *report and writes the first bytes of out, as many as the report says, and none after them (umlazgrin_check,
 *     umlazgrin_text_fault and umlazgrin_add_form have no out: they write the report and the room alone);
 *   - any other return leaves out and *report as they came in; but umlazgrin_add_form, whose report is one over many forms, counts a form
 *     that is refused with 1 to 14 in it, and leaves it as it came in where it returns 17 alone;
 *   - umlazgrin_match_place fills in *place where it returns 100; every other return leaves *place as it came in;
 *   - room is all zero after every return but refusal 1, which leaves it as it came in. What it holds before does not matter.
 *
 * Checked here: every length. A room that is short is refusal 1, a result that does not fit refusal 14, a form that is too long,
 * cut off or damaged 2 to 6, a text that is too long 16, one that does not parse 15 (umlazgrin_text_fault answers where). Any bytes may be
 * passed as a form or as a text.
 *
 * A form that is read may spell its lengths with spare bytes, as older exporters do: 81 05 and c0 01 05 are the atom 5, as 05 is, and
 * c0 00 is nil. The tree, its units and every answer are those of the shortest form. A form that is written is always the shortest.
 *
 * The caller's duty, which nothing checks:
 *   - a pointer has as many bytes behind it as its length says, readable (form, forms, text, texts) or readable and writable (room, out);
 *     with length 0 it is never followed and may be null;
 *   - report points to a whole report, aligned as its type is, and place to 64 bytes; neither is ever null;
 *   - room, out, *report and *place do not overlap each other, and none overlaps the form or text; no other thread uses them during the call;
 *   - the calling thread has 2 MiB of stack left (README.md says what was measured).
 * There is no state between calls but in the report that umlazgrin_add_form is given again, nothing is allocated, and threads may call at
 * once with room, and such a report, of their own. */
#ifndef UMLAZGRIN_H
#define UMLAZGRIN_H

#include <stddef.h>
#include <stdint.h>

#ifdef __cplusplus
extern "C" {
#endif

/* Bytes of room that every function needs, at least. */
#define UMLAZGRIN_ROOM 65536
/* Bytes in a form, at most, as it is passed: the spare ones count. */
#define UMLAZGRIN_FORM 8192
/* Forms in a report of savings, at most. */
#define UMLAZGRIN_FORMS 4096
/* Bytes in a text, at most. The text of every form that is read is shorter. */
#define UMLAZGRIN_TEXT 32768
/* Bytes of output that the programs lend, also for text. A finished tree or a value can be longer: its parts may be shared, and are
 * written out. */
#define UMLAZGRIN_OUTPUT 32768

enum umlazgrin_number {
    UMLAZGRIN_ANSWERED = 0,
    UMLAZGRIN_ROOM_SMALL = 1,       /* lent working room too small */
    UMLAZGRIN_FORM_LONG = 2,        /* form over 8,192 bytes; of a text, the form of its tree */
    UMLAZGRIN_ENDS_EARLY = 3,       /* form ends early; the empty form too */
    UMLAZGRIN_BAD_PREFIX = 4,       /* prefix not carried: fc, fd or fe */
    UMLAZGRIN_ATOM_LONG = 5,        /* atom over 64 bytes */
    UMLAZGRIN_BYTES_AFTER = 6,      /* bytes after the form */
    UMLAZGRIN_UNITS_OUT = 7,        /* units run out */
    UMLAZGRIN_FAILS = 8,            /* evaluation fails */
    UMLAZGRIN_NO_OPERATOR = 9,      /* evaluation meets an operator not carried, or an operator that is a pair */
    UMLAZGRIN_STEPS_OUT = 10,       /* a 4,097th evaluation step */
    UMLAZGRIN_PATH_LONG = 11,       /* the path rule's result needs over 64 bytes */
    UMLAZGRIN_PASSES_OUT = 12,      /* a 65,537th pass */
    UMLAZGRIN_TOO_DEEP = 13,        /* a driver call at nesting 65 */
    UMLAZGRIN_OUTPUT_SHORT = 14,    /* result longer than the output */
    UMLAZGRIN_NO_PARSE = 15,        /* text that does not parse; the empty text too */
    UMLAZGRIN_TEXT_LONG = 16,       /* text over 32,768 bytes */
    UMLAZGRIN_REPORT_FULL = 17,     /* a 4,097th form of a report */
    UMLAZGRIN_NO_MATCH = 100,       /* the matcher only: no refusal, the expression is not of the pattern's shape */
    UMLAZGRIN_TOO_MANY_NAMES = 101  /* the matcher only: no refusal, the pattern asks for a third name */
};

/* What optimising took. mark is 1 where the finished tree is not promised to mean what the form meant, otherwise 0. */
struct umlazgrin_optimised { size_t length, passes, units, mark; };
/* The value's length in bytes, and what evaluating took. */
struct umlazgrin_evaluated { size_t length, steps, units; };
/* How many names were bound, 0 to 2, and where in out each part ends: the first name's atom, its tree, the second's, its tree.
 * Parts follow each other from the start of out; a part that is not there has no bytes. */
struct umlazgrin_matched { size_t names, name_1, node_1, name_2, node_2; };
/* A place in the expression, as a path from its root: one number, its highest byte first, zeros in front. Its bits from the lowest are
 * turns, 0 left and 1 right, up to the top bit: the root is 1, its left part 2, its right part 3, the left part of that 5. 511 turns fit;
 * all zero is a place that is deeper. The atom of the bytes behind the zeros is a program that gives the part that stands there. */
struct umlazgrin_place { uint8_t bytes[64]; };
/* The units that reading the form costs. */
struct umlazgrin_checked { size_t units; };
struct umlazgrin_written { size_t length, units; };
/* found is 1 where the text does not parse, and place the number of its bytes before the fault; both are 0 where it parses. */
struct umlazgrin_fault { size_t found, place; };
/* Totals over forms, which start as all zero. Each form stands in one column: answered, or refused[number - 1]. The others are about the
 * answered forms alone: how many are marked; their bytes as they were passed, and those of their finished trees; the greatest number of
 * passes; and how often each of the eight rules ended a pass, at any nesting, thrown-away work included. */
struct umlazgrin_savings { uint64_t answered, refused[14], marked, before, after, passes, rules[8]; };

/* Optimises the form's tree and writes the finished tree to out. */
uint8_t umlazgrin_optimise(const uint8_t *form, size_t form_length, uint8_t *room, size_t room_length,
                           uint8_t *out, size_t out_length, struct umlazgrin_optimised *report);

/* Evaluates the program, the first bytes of forms, in the environment, the bytes after them; writes the value to out. */
uint8_t umlazgrin_evaluate(const uint8_t *forms, size_t forms_length, size_t first, uint8_t *room, size_t room_length,
                           uint8_t *out, size_t out_length, struct umlazgrin_evaluated *report);

/* Matches the expression, the bytes of forms after the first ones, against the pattern, the first bytes; writes what was bound. */
uint8_t umlazgrin_match(const uint8_t *forms, size_t forms_length, size_t first, uint8_t *room, size_t room_length,
                        uint8_t *out, size_t out_length, struct umlazgrin_matched *report);

/* The same, and where it returns 100 the place at which the expression first disagrees with the pattern, left before right: a different
 * atom; a pair where the pattern has an atom; an atom where the pattern wants a pair; a name's later tree, which is not its earlier one.
 * It returns what umlazgrin_match returns, and leaves out, *report and room as that does. */
uint8_t umlazgrin_match_place(const uint8_t *forms, size_t forms_length, size_t first, uint8_t *room, size_t room_length,
                              uint8_t *out, size_t out_length, struct umlazgrin_matched *report, struct umlazgrin_place *place);

/* Reads the form and does no more: whether it is one, and its units. */
uint8_t umlazgrin_check(const uint8_t *form, size_t form_length, uint8_t *room, size_t room_length,
                        struct umlazgrin_checked *report);

/* Reads the form and writes its tree again, as the shortest form: the same bytes exactly where they were the shortest. What is written
 * is read as the same tree. */
uint8_t umlazgrin_write(const uint8_t *form, size_t form_length, uint8_t *room, size_t room_length,
                        uint8_t *out, size_t out_length, struct umlazgrin_written *report);

/* Works one form, as umlazgrin_optimise does with UMLAZGRIN_OUTPUT bytes of out, and adds it to the report. It returns 0, or 1 to 14, as
 * that function does, and counts the form there: also where the room is too small, which is the form's refusal 1. It returns 17 where
 * the report has 4,096 forms already, whatever form and room are, and where it has a number of 2^63 or more, which no report has that
 * started as zero. */
uint8_t umlazgrin_add_form(const uint8_t *form, size_t form_length, uint8_t *room, size_t room_length,
                           struct umlazgrin_savings *report);

/* The five functions of the readable notation. A text is bytes and a length, in and out: no zero byte ends it. Refusals of a text come
 * in this order: 1, 16, 15, 2, then 5 and 7 as in the form of its tree; then those of the work, and 14 last. Of two texts the first is
 * read whole before the second. umlazgrin_text_fault refuses with 1 and 16 alone. */

/* Reads the text and writes the serialised form of its tree to out: at most UMLAZGRIN_FORM bytes. */
uint8_t umlazgrin_read_text(const uint8_t *text, size_t text_length, uint8_t *room, size_t room_length,
                            uint8_t *out, size_t out_length, struct umlazgrin_written *report);

/* Reads the form and writes its tree to out as text. umlazgrin_read_text makes of it what umlazgrin_write makes of the form. */
uint8_t umlazgrin_write_text(const uint8_t *form, size_t form_length, uint8_t *room, size_t room_length,
                             uint8_t *out, size_t out_length, struct umlazgrin_written *report);

/* Optimises the text's tree and writes the finished tree to out as text, however long its form would be. */
uint8_t umlazgrin_optimise_text(const uint8_t *text, size_t text_length, uint8_t *room, size_t room_length,
                                uint8_t *out, size_t out_length, struct umlazgrin_optimised *report);

/* Evaluates the program, whose text is the first bytes of texts, in the environment, whose text is the bytes after them; writes the
 * value to out as text, however long its form would be. */
uint8_t umlazgrin_evaluate_text(const uint8_t *texts, size_t texts_length, size_t first, uint8_t *room, size_t room_length,
                                uint8_t *out, size_t out_length, struct umlazgrin_evaluated *report);

/* Says where the text stops being one: at the first byte of the first bracket, dot, word or quoted text that may not stand where it
 * stands; at its end where more is wanted, as a bracket that closes; inside quotes at a byte that is not 20 to 7e; at a quote that is
 * never closed. A text that parses has no fault, whatever 2, 5 and 7 would say of its tree. */
uint8_t umlazgrin_text_fault(const uint8_t *text, size_t text_length, uint8_t *room, size_t room_length,
                             struct umlazgrin_fault *report);

#ifdef __cplusplus
}
#endif

#endif
