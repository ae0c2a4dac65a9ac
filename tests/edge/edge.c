/* The edge test: header and archive are of one version, each list of each call may be (NULL, 0), and entries, questions and the page's
 * rows are by the header's names.
 *
 *     tools/archive.sh
 *     cc -std=c99 -O1 -Wall -Iinclude -o target/edge tests/edge/edge.c target/staticlib/libceviloneth.a
 *     target/edge
 *
 * Prints the number of answers and `ok`; exit status 1 otherwise.
 */
#include "ceviloneth.h"
#include <stdio.h>
#include <stdlib.h>

static unsigned calls;

static void expect(const char *what, unsigned said, unsigned expected) {
    calls++;
    if (said != expected) {
        printf("%s: %u, and not %u\n", what, said, expected);
        exit(1);
    }
}

/* One word, also with an empty field of house lines; two words and an arrow, also with a house line of the second, and with two of it;
 * three words in a line with an arrow over it, which makes a bundle; four in a line with an arrow from the first to the last; as many
 * words without arrows as a chart may have lines, and one more; two words and an arrow with floors, also behind a house line and before
 * one, with a floor too high and with none; no record at all. */
static const uint8_t one[] = {1, 0, 1, 1, 2, 0, 0};
static const uint8_t empty[] = {1, 0, 1, 1, 2, 0, 0, 3, 0, 0};
static const uint8_t two[] = {1, 0, 1, 2, 2, 0, 2, 0, 1};
static const uint8_t some[] = {1, 0, 1, 2, 2, 0, 2, 0, 1, 3, 0, 2, 1, 1};
static const uint8_t twice[] = {1, 0, 1, 2, 2, 0, 2, 0, 1, 3, 0, 4, 1, 1, 1, 1};
static const uint8_t three[] = {1, 0, 1, 3, 2, 0, 6, 0, 1, 1, 2, 0, 2};
static const uint8_t four[] = {1, 0, 1, 4, 2, 0, 8, 0, 1, 1, 2, 2, 3, 0, 3};
static const uint8_t most[] = {1, 0, 1, CEVILONETH_LINES, 2, 0, 0};
static const uint8_t broad[] = {1, 0, 1, CEVILONETH_LINES + 1, 2, 0, 0};
static const uint8_t floors[] = {1, 0, 1, 2, 2, 0, 2, 0, 1, 4, 0, 2, CEVILONETH_MOST_FLOOR, 9};
static const uint8_t behind[] = {1, 0, 1, 2, 2, 0, 2, 0, 1, 3, 0, 2, 1, 1, 4, 0, 2, 0, 9};
static const uint8_t before[] = {1, 0, 1, 2, 2, 0, 2, 0, 1, 4, 0, 2, 0, 9, 3, 0, 2, 1, 1};
static const uint8_t high[] = {1, 0, 1, 2, 2, 0, 2, 0, 1, 4, 0, 2, 0, CEVILONETH_MOST_FLOOR + 1};
static const uint8_t no_floor[] = {1, 0, 1, 2, 2, 0, 2, 0, 1, 4, 0, 0};
static const uint8_t broken[] = {9};

static uint16_t words[CEVILONETH_WORDS], arrows[CEVILONETH_ARROWS], bundles[CEVILONETH_BUNDLES];

/* A chart into three lists, of which those with a 0 are (NULL, 0). */
static void chart(const char *what, const uint8_t *record, size_t size, const int lent[3], unsigned expected) {
    ceviloneth_counts c = ceviloneth_chart(record, size, lent[0] ? words : NULL, lent[0] ? CEVILONETH_WORDS : 0,
                                           lent[1] ? arrows : NULL, lent[1] ? CEVILONETH_ARROWS : 0,
                                           lent[2] ? bundles : NULL, lent[2] ? CEVILONETH_BUNDLES : 0);
    expect(what, c.refusal, expected);
    if (c.refusal != 0 && c.words + c.arrows + c.bundles != 0) {
        expect("a refused chart's counts", 1, 0);
    }
}

/* Every choice of lists that are not there: a chart is drawn where no entry needs one of them. */
static void try_charts(void) {
    for (int choice = 0; choice < 8; choice++) {
        const int lent[3] = {choice & 1, choice >> 1 & 1, choice >> 2 & 1};
        chart("no record", NULL, 0, lent, 1);
        chart("a record that is none", broken, sizeof broken, lent, 1);
        chart("one word", one, sizeof one, lent, lent[0] ? 0 : 8);
        chart("no house line", empty, sizeof empty, lent, lent[0] ? 0 : 8);
        chart("an arrow", two, sizeof two, lent, lent[0] && lent[1] ? 0 : 8);
        chart("a house line of some words", some, sizeof some, lent, lent[0] && lent[1] ? 0 : 8);
        chart("a repeated word", twice, sizeof twice, lent, 6);
        chart("a bundle", three, sizeof three, lent, lent[0] && lent[1] && lent[2] ? 0 : 8);
        chart("as many lines as a chart may have", most, sizeof most, lent, lent[0] ? 0 : 8);
        chart("a line more", broad, sizeof broad, lent, 11);
        chart("floors", floors, sizeof floors, lent, lent[0] && lent[1] ? 0 : 8);
        chart("floors behind a house line", behind, sizeof behind, lent, lent[0] && lent[1] ? 0 : 8);
        chart("floors before a house line", before, sizeof before, lent, 1);
        chart("a floor too high", high, sizeof high, lent, 12);
        chart("no floor in the field", no_floor, sizeof no_floor, lent, 12);
    }
}

/* The row and the floor of each word of a chart. */
static void expect_rows(const uint8_t *record, size_t size, const uint16_t rows[2], const uint16_t lowest[2]) {
    static const int lent[3] = {1, 1, 1};
    chart("two words", record, size, lent, 0);
    for (int i = 0; i < 2; i++) {
        expect("a word's row", words[CEVILONETH_WORD_NUMBERS * i + 3], rows[i]);
        expect("a word's floor", words[CEVILONETH_WORD_NUMBERS * i + 5], lowest[i]);
    }
}

/* The last number of a word is its floor, 0 without the field, and the row is at or above it. */
static void try_floors(void) {
    expect_rows(two, sizeof two, (const uint16_t[]){0, 1}, (const uint16_t[]){0, 0});
    expect_rows(floors, sizeof floors, (const uint16_t[]){127, 128}, (const uint16_t[]){127, 9});
    expect_rows(behind, sizeof behind, (const uint16_t[]){0, 9}, (const uint16_t[]){0, 9});
}

/* The highest row of a chart is on the page, and the next one is not. */
static void try_strokes(void) {
    expect("a stroke to the highest row", ceviloneth_stroke_straight(0, 0, 639, CEVILONETH_ROWS - 1).refusal, 0);
    expect("a stroke beyond it", ceviloneth_stroke_straight(0, 0, 639, CEVILONETH_ROWS).refusal, 10);
    expect("a stroke beyond the last column", ceviloneth_stroke_straight(0, 0, 640, CEVILONETH_ROWS - 1).refusal, 10);
}

/* How words 0 to 3 of the record `four` lead to each other, and a word that is not there. */
static const struct {
    size_t from, to;
    unsigned refusal, leads;
} answers[] = {
    {0, 1, 0, CEVILONETH_ARROW},      {0, 2, 0, CEVILONETH_LONGER},     {0, 3, 0, CEVILONETH_BOTH},
    {1, 3, 0, CEVILONETH_LONGER},     {2, 3, 0, CEVILONETH_ARROW},      {3, 0, 0, CEVILONETH_NOT_AT_ALL},
    {2, 2, 0, CEVILONETH_NOT_AT_ALL}, {0, 4, 3, CEVILONETH_NOT_AT_ALL}, {4, 4, 3, CEVILONETH_NOT_AT_ALL},
};

static void expect_answer(ceviloneth_answer a, size_t i) {
    expect("whether a question is refused", a.refusal, answers[i].refusal);
    expect("how a word leads to another", a.leads, answers[i].leads);
}

/* The same questions of the record, and of a session with its arrows. */
static void try_answers(void) {
    static uint64_t state[CEVILONETH_STATE];
    expect("a start", ceviloneth_session_start(state, CEVILONETH_STATE, 4), 0);
    for (size_t at = 7; at < sizeof four; at += 2) {
        expect("an arrow", ceviloneth_session_add(state, CEVILONETH_STATE, four[at], four[at + 1]), 0);
    }
    for (size_t i = 0; i < sizeof answers / sizeof *answers; i++) {
        expect_answer(ceviloneth_leads(four, sizeof four, answers[i].from, answers[i].to), i);
        expect_answer(ceviloneth_session_leads(state, CEVILONETH_STATE, answers[i].from, answers[i].to), i);
    }
}

static void try_questions(void) {
    ceviloneth_answer a = ceviloneth_leads(NULL, 0, 0, 0);
    expect("a question about no record", a.refusal, 1);
    expect("its answer", a.leads, 0);
    a = ceviloneth_leads(high, sizeof high, 0, 1);
    expect("a question about wrong floors", a.refusal, 12);
    expect("its answer", a.leads, 0);
    a = ceviloneth_leads(floors, sizeof floors, 0, 1);
    expect("a question about floors", a.refusal, 0);
    expect("its answer", a.leads, CEVILONETH_ARROW);
    a = ceviloneth_leads(broad, sizeof broad, 0, CEVILONETH_LINES);
    expect("a question about a broad record", a.refusal, 0);
    expect("its answer", a.leads, 0);
}

static void try_sessions(void) {
    ceviloneth_answer a = ceviloneth_session_leads(NULL, 0, 0, 1);
    expect("a start in no list", ceviloneth_session_start(NULL, 0, 5), 8);
    expect("an arrow in no list", ceviloneth_session_add(NULL, 0, 0, 1), 8);
    expect("a question of no list", a.refusal, 8);
    expect("its answer", a.leads, 0);
}

int main(void) {
    expect("the archive's version", ceviloneth_version(), CEVILONETH_VERSION);
    try_charts();
    try_floors();
    try_strokes();
    try_questions();
    try_answers();
    try_sessions();
    printf("%u answers\nok\n", calls);
    return 0;
}
