/* Ceviloneth, a layout engine for descent charts, for C and whatever calls C. docs/SPECIFICATION.md has the rules, by number.
 *
 * Link with libceviloneth.a, or with the shared library that tools/shared-library.sh makes of it (x86-64 Linux). The library keeps nothing
 * between calls, allocates nothing and uses memcpy and memset alone, so calls may run at the same time on lists of their own.
 *
 * Lists. A lent list is a pointer and its number of numbers (not of bytes), and the caller sees to three things: as many numbers can be
 * read there, and written where the pointer is not const; the pointer is aligned for its number type; and a list that is written
 * overlaps no other list of the call. A list of no numbers may be (NULL, 0). Beyond this every call takes any values: a damaged record, a
 * short list, any numbers in a session. It then refuses, or answers as said below.
 *
 * Refusals. Each call but ceviloneth_version tells 0, or why it refuses (13):
 *    1 layout    the bytes are not laid out as a record's (1)
 *    2 size      no word or more than 128, or more than 4,096 arrows
 *   12 floor     there are floors, but not one for each word, or one is above 127: checked straight after 2
 *    3 stranger  a word that is not there is named
 *    4 double    two arrows have the same ends
 *    5 ring      some word leads back to itself
 *    6 cover     a word is in the house lines more than once
 *    7 broken    a word of a house line does not lead to the next
 *    8 short     a lent list is too short
 *    9 full      the session has 4,096 arrows
 *   10 off page  a column that is not below 640, or a row that is not below 255
 *   11 broad     the chart has more than 31 lines
 * A call that refuses changes nothing in any list, and every other number that it returns is 0.
 */
#ifndef CEVILONETH_H
#define CEVILONETH_H

#include <stddef.h>
#include <stdint.h>

#ifdef __cplusplus
extern "C" {
#endif

/* ---- the edge */

/* The version of what this header says. It rises by one with every change that an app could notice: of a call, a struct, a list's numbers,
 * a limit or an answer. Since 2 house lines may hold some of the words, and an empty field of them is no longer refused with 6. Since 3 a
 * chart of more than 31 lines is refused with 11. Since 4 'leads' tells how one word leads to another: 0 as before, but 1, 2 or 3 where it
 * was 1. Since 5 a record may have floors, by which rows reach 254 on charts and on the page, refusal 12 is one of a record's, and a word
 * has six numbers where it had five. */
#define CEVILONETH_VERSION 5

/* The version that the archive or the shared library was made by: an app goes on only where it is CEVILONETH_VERSION. */
uint32_t ceviloneth_version(void);

/* Every call gets by with a thread whose whole stack has this many bytes; lent lists are not counted. Tested on the deepest searches for
 * lines and on the largest charts (tests/stack), not proved. */
#define CEVILONETH_STACK_BYTES 65536

/* ---- charts */

/* An entry of a list has this many numbers: entry i begins at i times as many. WARNING: up to version 4 a word had five, so code that goes
 * from word to word by five now reads the wrong numbers. */
#define CEVILONETH_WORD_NUMBERS 6
#define CEVILONETH_ARROW_NUMBERS 5
#define CEVILONETH_BUNDLE_NUMBERS 4

/* Lists that hold every chart have this many numbers. */
#define CEVILONETH_WORDS 768     /* 128 words */
#define CEVILONETH_ARROWS 20480  /* 4,096 arrows */
#define CEVILONETH_BUNDLES 1024  /* 256 bundles */

/* No chart has more lines. A record that needs more is refused by ceviloneth_chart alone: ceviloneth_leads answers for it. */
#define CEVILONETH_LINES 31

/* No floor is higher. */
#define CEVILONETH_MOST_FLOOR 127

/* No chart has more rows, and a page has as many: a chart's rows are 0 to 254. */
#define CEVILONETH_ROWS 255

typedef struct {
    uint8_t refusal;
    size_t words;   /* entries written: not numbers */
    size_t arrows;
    size_t bundles;
    uint8_t rows;   /* one more than the highest row, at most CEVILONETH_ROWS */
    uint8_t lines;
    uint16_t firm;  /* arrows that are not implied */
    uint16_t width; /* in columns */
    uint16_t side_columns[128]; /* of each line; 0 past the last, so from number CEVILONETH_LINES on */
} ceviloneth_counts;

/* Draws the record: its bytes are four tagged fields (word count, arrows, house lines, floors), of which each of the last two may be left
 * out, and the third may be empty. House lines may hold all words or some: they come first, as given, and lines are planned for the words
 * that are left. Floors are a byte a word, 0 to CEVILONETH_MOST_FLOOR: a word's row is the lowest that is at or above its floor and above
 * every word with an arrow into it.
 *   words    word i has the numbers 6i to 6i+5: line, position in the line, column, row, number of descendants, floor, which is 0 where the
 *            record has no floors
 *   arrows   arrow i has 5i to 5i+4: its number i; its kind, 0 spine, 1 side, 2 straight, 3 bent; the bundle's number if it is a side
 *            arrow or the bend's column if it is bent, else 0; the bend's row if it is bent, else 0; 1 if it is implied, else 0
 *   bundles  bundle i has 4i to 4i+3: line, the first and the last row, side column
 * Refusals 1, 2, 12, 3 to 7 of the record, in this order, then 11 where it has more than 31 lines, then 8 where a list has no room for all
 * its entries. Numbers past the last entry stay as they were. */
ceviloneth_counts ceviloneth_chart(const uint8_t *record, size_t record_len,
                                   uint16_t *words, size_t words_len,
                                   uint16_t *arrows, size_t arrows_len,
                                   uint16_t *bundles, size_t bundles_len);

/* ---- what leads where */

/* How one word leads to another: not at all; by an arrow only; by longer routes only, of two arrows or more; or by both. A word does not
 * lead to itself. WARNING: up to version 3 the answer was 1 for every yes. Code that compares it with 1 now asks for 'by an arrow only';
 * to ask whether the one leads to the other at all, compare it with 0 (CEVILONETH_NOT_AT_ALL). */
#define CEVILONETH_NOT_AT_ALL 0
#define CEVILONETH_ARROW 1
#define CEVILONETH_LONGER 2
#define CEVILONETH_BOTH 3

typedef struct {
    uint8_t refusal;
    uint8_t leads; /* one of the four; 0 where the call is refused */
} ceviloneth_answer;

/* How one word of a record leads to another. Refusals 1, 2, 12, 3 to 7 of the record, in this order, never 11, then 3 where either is no
 * word of it. An arrow of the chart is implied exactly where its ends answer 3; words next to each other in a line never answer 0. */
ceviloneth_answer ceviloneth_leads(const uint8_t *record, size_t record_len, size_t from, size_t to);

/* ---- sessions: a graph that grows arrow by arrow, in a list that the caller keeps */

/* The numbers of a session: words, arrows, 256 masks of arrows, 256 masks of descent. An arrow (or
 * a descent) from word u to word v is bit v mod 64, the lowest being 0, of mask 2u + v/64 (2.2). */
#define CEVILONETH_STATE 514

/* Every call refuses with 8 first where the list is shorter than that. Numbers past 514 stay as they were. A list that was not made by
 * these calls is answered for as its numbers stand, where more than 128 words count as 128. */

/* A session of so many words and no arrows. Refusal 2. */
uint8_t ceviloneth_session_start(uint64_t *state, size_t state_len, size_t words);

/* Adds an arrow. Refusals 3, 4, 5 and 9, in this order. */
uint8_t ceviloneth_session_add(uint64_t *state, size_t state_len, size_t from, size_t to);

/* How one word leads to the other by the arrows added, as above. Refusal 3. */
ceviloneth_answer ceviloneth_session_leads(const uint64_t *state, size_t state_len, size_t from, size_t to);

/* ---- page strokes: places by column and row, as points across (x) and up (y), in exact quarters (12.1) */

typedef struct {
    uint8_t refusal;
    uint8_t points; /* 2, 3 or 4; 0 where refused */
    float x0, y0, x1, y1, x2, y2, x3, y3; /* 0.0 past the last point */
} ceviloneth_stroke;

/* From (c0, r0) to (c1, r1). Each call refuses with 10 where any of its places is off the page. */
ceviloneth_stroke ceviloneth_stroke_straight(uint32_t c0, uint32_t r0, uint32_t c1, uint32_t r1);

/* From (c0, r0) by the bend (c1, r1) to (c2, r2). */
ceviloneth_stroke ceviloneth_stroke_bent(uint32_t c0, uint32_t r0, uint32_t c1, uint32_t r1, uint32_t c2, uint32_t r2);

/* From (c0, r0) by the corners (c1, r1) and (c2, r2), in a side column, to (c3, r3). */
ceviloneth_stroke ceviloneth_stroke_side(uint32_t c0, uint32_t r0, uint32_t c1, uint32_t r1,
                                         uint32_t c2, uint32_t r2, uint32_t c3, uint32_t r3);

#ifdef __cplusplus
}
#endif

#endif
