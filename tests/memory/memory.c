/* The memory test: every list lies between pages that can't be touched, at the lower or at the upper one, and records can only be
 * read. Sound and damaged records, short lists and nonsense go in; a refusal must change nothing, and an answer only what it needs.
 *
 *     tools/archive.sh
 *     cc -std=c99 -O1 -Wall -Iinclude -o target/memory tests/memory/memory.c target/staticlib/libceviloneth.a
 *     target/memory
 *
 * Prints the number of calls and `ok`; exit status 1 otherwise.
 */
#define _GNU_SOURCE
#include "ceviloneth.h"
#include <signal.h>
#include <stdio.h>
#include <stdlib.h>
#include <string.h>
#include <sys/mman.h>
#include <unistd.h>

enum { PAGE = 4096, LONGEST = 65536, STATE = CEVILONETH_STATE };

static unsigned long calls;
static const char *doing = "starting";

static void fail(const char *what) {
    printf("call %lu, %s: %s\n", calls, doing, what);
    exit(1);
}

static void on_fault(int number) {
    static const char text[] = "memory outside the lists was touched, or a trap: ";
    (void)number;
    if (write(1, text, sizeof text - 1) < 0 || write(1, doing, strlen(doing)) < 0 || write(1, "\n", 1) < 0) {
        _exit(2);
    }
    _exit(1);
}

/* xorshift, so that every run is the same. */
static uint64_t bits(void) {
    static uint64_t state = 88172645463325252u;
    state ^= state << 13;
    state ^= state >> 7;
    state ^= state << 17;
    return state;
}

static size_t below(size_t bound) { return (size_t)(bits() >> 16) % bound; }

/* ---- regions: pages between two that can't be touched */

struct region {
    uint8_t *start;
    size_t size;
};

static struct region region(size_t bytes) {
    size_t size = (bytes + PAGE - 1) / PAGE * PAGE;
    uint8_t *all = mmap(NULL, size + 2 * PAGE, PROT_NONE, MAP_PRIVATE | MAP_ANONYMOUS, -1, 0);
    struct region r = {all + PAGE, size};
    if (all == MAP_FAILED || mprotect(r.start, size, PROT_READ | PROT_WRITE) != 0) {
        fail("no memory");
    }
    return r;
}

static void protect(struct region r, int rights) {
    if (mprotect(r.start, r.size, rights) != 0) {
        fail("no protection");
    }
}

/* Where so many bytes lie in a region: against its lower or its upper page. */
static uint8_t *placed(struct region r, size_t bytes, int upper) { return upper ? r.start + r.size - bytes : r.start; }

/* Numbers of no meaning, for all that is lent. */
static uint8_t noise[2 * CEVILONETH_ARROWS + 2 * PAGE];

static void blur(struct region r) { memcpy(r.start, noise, r.size); }

/* Whether the region is as it was, but for some bytes from a place on. */
static void unchanged(struct region r, const uint8_t *place, size_t written) {
    size_t before = (size_t)(place - r.start);
    size_t after = before + written;
    if (memcmp(r.start, noise, before) != 0 || memcmp(r.start + after, noise + after, r.size - after) != 0) {
        fail("something else was changed");
    }
}

/* ---- charts */

static struct region record_pages, lists[3];
static unsigned long answers[13]; /* how often each was given, 0 being a chart */
static const size_t most[3] = {CEVILONETH_WORDS, CEVILONETH_ARROWS, CEVILONETH_BUNDLES};
static const size_t numbers[3] = {CEVILONETH_WORD_NUMBERS, CEVILONETH_ARROW_NUMBERS, CEVILONETH_BUNDLE_NUMBERS};

/* Whether a record can be refused so, or not at all. */
static int is_of_record(unsigned refusal) { return refusal <= 7 || refusal == 12; }

/* Whether a chart call can answer so: a chart, a refusal of the record, one of the lists, or broad. */
static int is_answer(unsigned refusal) { return is_of_record(refusal) || refusal == 8 || refusal == 11; }

/* Every word of a chart stands at its floor or above, and below the number of rows. */
static void floors_kept(const uint16_t *words, ceviloneth_counts c) {
    for (size_t i = 0; i < c.words; i++) {
        const uint16_t *w = words + CEVILONETH_WORD_NUMBERS * i;
        if (w[5] > CEVILONETH_MOST_FLOOR || w[3] < w[5] || w[3] >= c.rows) {
            fail("a word below its floor, or above the last row");
        }
    }
}

/* One call with lists of these lengths; all that isn't needed must stay. */
static ceviloneth_counts draw(const uint8_t *record, size_t size, const size_t length[3], int upper) {
    uint16_t *list[3];
    for (int i = 0; i < 3; i++) {
        blur(lists[i]);
        list[i] = (uint16_t *)placed(lists[i], 2 * length[i], upper);
    }
    calls++;
    ceviloneth_counts c = ceviloneth_chart(record, size, list[0], length[0], list[1], length[1], list[2], length[2]);
    size_t entries[3] = {c.words, c.arrows, c.bundles};
    for (int i = 0; i < 3; i++) {
        unchanged(lists[i], (uint8_t *)list[i], 2 * numbers[i] * entries[i]);
    }
    if (c.refusal != 0) {
        size_t sum = c.words + c.arrows + c.bundles + c.rows + c.lines + c.firm + c.width;
        for (int i = 0; i < 128; i++) {
            sum += c.side_columns[i];
        }
        if (sum != 0 || !is_answer(c.refusal)) {
            fail("a refusal with counts, or one that isn't a chart's");
        }
    }
    floors_kept(list[0], c);
    for (int i = c.lines; i < 128; i++) {
        if (c.lines > CEVILONETH_LINES || c.side_columns[i] != 0) {
            fail("too many lines, or a side column past the last");
        }
    }
    answers[c.refusal]++;
    return c;
}

static void expect(ceviloneth_counts c, unsigned refusal) {
    if (c.refusal != refusal) {
        fail("another answer than with long lists");
    }
}

/* Lists just long enough, a number longer, and each in turn a number too short. */
static void draw_fitting(const uint8_t *record, size_t size, const size_t needed[3], int upper) {
    size_t length[3];
    doing = "a chart into lists just long enough";
    expect(draw(record, size, needed, upper), 0);
    for (int i = 0; i < 3; i++) {
        memcpy(length, needed, sizeof length);
        length[i]++;
        expect(draw(record, size, length, upper), 0);
        doing = "a chart into a list too short";
        if (needed[i] > 0) {
            length[i] = needed[i] - 1;
            expect(draw(record, size, length, upper), 8);
            length[i] = below(needed[i]);
            expect(draw(record, size, length, upper), 8);
            length[i] = 0;
            expect(draw(record, size, length, upper), 8);
        }
    }
}

/* All calls for one record; gives its answer with long lists. */
static unsigned try_record(const uint8_t *bytes, size_t size) {
    static const size_t none[3] = {0, 0, 0};
    ceviloneth_counts c = {0};
    for (int upper = 0; upper < 2; upper++) {
        uint8_t *record = placed(record_pages, size, upper);
        protect(record_pages, PROT_READ | PROT_WRITE);
        memcpy(record, bytes, size);
        protect(record_pages, PROT_READ);
        doing = "a chart into long lists";
        c = draw(record, size, most, upper);
        if (c.refusal != 0) {
            doing = "a refused record and no lists";
            expect(draw(record, size, none, upper), c.refusal);
            continue;
        }
        size_t needed[3] = {numbers[0] * c.words, numbers[1] * c.arrows, numbers[2] * c.bundles};
        draw_fitting(record, size, needed, upper);
    }
    return c.refusal;
}

/* ---- records */

static uint8_t record[LONGEST + 8];

static size_t put_length(size_t at, unsigned tag, size_t length) {
    record[at] = (uint8_t)tag;
    record[at + 1] = (uint8_t)(length >> 8);
    record[at + 2] = (uint8_t)length;
    return at + 3;
}

/* House lines of the words, each with a chance in 256: alone, or behind the one before, which need not lead to it. Few stand twice. */
static size_t put_house_lines(size_t end, size_t words, size_t chance) {
    size_t field = end, line = 0;
    end += 3;
    for (size_t w = 0; w < words; w++) {
        if (below(256) >= chance) {
            continue;
        }
        if (line == 0 || below(3)) {
            line = end++;
            record[line] = 0;
        }
        for (size_t times = below(60) ? 1 : 2; times > 0; times--) {
            record[line]++;
            record[end++] = (uint8_t)w;
        }
    }
    put_length(field, 3, end - field - 3);
    return end;
}

/* Floors for the words: low ones, any or the highest. Few are too high, and few fields have another length. */
static size_t put_floors(size_t end, size_t words) {
    size_t count = below(40) ? words : below(words + 3), kind = below(3);
    end = put_length(end, 4, count);
    for (size_t i = 0; i < count; i++) {
        size_t floor = kind == 0 ? below(4) : kind == 1 ? below(CEVILONETH_MOST_FLOOR + 1) : CEVILONETH_MOST_FLOOR;
        record[end++] = (uint8_t)(below(2000) ? floor : CEVILONETH_MOST_FLOOR + 1 + below(128));
    }
    return end;
}

/* A record of so many words, each pair an arrow with a chance in 256; some have house lines, of all words, of some or of none, and some
 * have floors. */
static size_t make(size_t words, size_t chance) {
    size_t end = put_length(0, 1, 1), m = 0;
    record[end++] = (uint8_t)words;
    size_t field = end;
    end += 3;
    for (size_t v = 1; v < words; v++) {
        for (size_t u = 0; u < v && m < 4096; u++) {
            if (below(256) < chance) {
                record[end++] = (uint8_t)u;
                record[end++] = (uint8_t)v;
                m++;
            }
        }
    }
    put_length(field, 2, 2 * m);
    if (below(3) == 0) {
        end = put_house_lines(end, words, below(3) ? below(257) : 256 * below(2));
    }
    return below(3) ? end : put_floors(end, words);
}

/* Changes bytes, cuts or adds some. */
static size_t damage(size_t size) {
    for (size_t i = below(4); i > 0 && size > 0; i--) {
        record[below(below(2) ? size : (size < 12 ? size : 12))] = (uint8_t)bits();
    }
    if (below(4) == 0 && size > 0) {
        size = below(size);
    }
    if (below(6) == 0) {
        record[size++] = (uint8_t)bits();
    }
    return size;
}

/* Words without arrows are as many lines; and a few arrows and house lines about as many lines as a chart may have. */
static void try_broad(void) {
    for (size_t words = 1; words <= 128; words++) {
        put_length(0, 1, 1);
        record[3] = (uint8_t)words;
        if (try_record(record, put_length(4, 2, 0)) != (words > CEVILONETH_LINES ? 11 : 0)) {
            fail("broad too early or too late");
        }
    }
    for (int i = 0; i < 400; i++) {
        try_record(record, make(CEVILONETH_LINES - 3 + below(12), below(6)));
    }
}

/* A line of all words, the first at each floor: as many rows as there are, or one too high. */
static void try_tall(void) {
    for (size_t floor = CEVILONETH_MOST_FLOOR - 2; floor <= CEVILONETH_MOST_FLOOR + 1; floor++) {
        size_t end = put_length(0, 1, 1);
        record[end++] = 128;
        end = put_length(end, 2, 254);
        for (size_t word = 0; word < 127; word++) {
            record[end++] = (uint8_t)word;
            record[end++] = (uint8_t)(word + 1);
        }
        end = put_length(end, 4, 128);
        memset(record + end, 0, 128);
        record[end] = (uint8_t)floor;
        if (try_record(record, end + 128) != (floor > CEVILONETH_MOST_FLOOR ? 12 : 0)) {
            fail("a floor too high, or refused too early");
        }
    }
}

static void try_records(void) {
    for (int i = 0; i < 12000; i++) {
        size_t size = make(1 + below(12), below(256));
        try_record(record, below(3) ? damage(size) : size);
    }
    for (int i = 0; i < 60; i++) {
        size_t size = make(100 + below(29), 4 << below(7));
        try_record(record, below(2) ? damage(size) : size);
    }
    for (int i = 0; i < 3000; i++) {
        size_t size = below(300);
        for (size_t at = 0; at < size; at++) {
            record[at] = (uint8_t)(below(3) ? below(4) : bits());
        }
        try_record(record, size);
    }
    for (size_t size = LONGEST - 3; size <= LONGEST; size++) {
        memset(record, 1, size);
        try_record(record, size);
        put_length(put_length(0, 1, 1) + 1, 2, 65528);
        try_record(record, size);
    }
}

/* A run that leaves out an answer tests too little. */
static void all_answers_given(void) {
    doing = "all records";
    for (unsigned i = 0; i < sizeof answers / sizeof *answers; i++) {
        if (is_answer(i) && answers[i] == 0) {
            fail("one of a chart's answers was never given");
        }
    }
}

/* ---- sessions */

static struct region state_pages;

/* A word's number: mostly one of few, now and then nonsense. */
static size_t word(void) { return below(8) ? below(10) : (size_t)bits() >> below(64); }

/* Checks the state after a call: as before from a number on, and so is all around it. */
static void kept(uint64_t *state, size_t length, const uint64_t *before, size_t from) {
    if (from < length && memcmp(state + from, before + from, 8 * (length - from)) != 0) {
        fail("the state was changed");
    }
    unchanged(state_pages, (uint8_t *)state, 8 * length);
}

static unsigned long led[4]; /* how often each way to lead was answered */

/* A question answers one of four, and where it is refused the first. */
static void hear(ceviloneth_answer told) {
    if (told.leads > CEVILONETH_BOTH || (told.refusal != 0 && told.leads != CEVILONETH_NOT_AT_ALL)) {
        fail("an answer that is none");
    }
    led[told.leads] += told.refusal == 0;
}

/* All of them must have been answered since they were last counted. */
static void all_ways_led(void) {
    for (int i = 0; i < 4; i++) {
        if (led[i] == 0) {
            fail("one of the ways to lead was never answered");
        }
        led[i] = 0;
    }
}

/* Calls on a state of a length, whatever is in it. */
static void session_calls(uint64_t *state, size_t length, int count) {
    static uint64_t before[STATE + 8];
    for (int i = 0; i < count; i++) {
        size_t from = word(), to = word();
        memcpy(before, state, 8 * length);
        unsigned answer = ceviloneth_session_add(state, length, from, to);
        calls += 2;
        kept(state, length, before, answer != 0 ? 0 : STATE);
        if (length < STATE && answer != 8) {
            fail("a short state isn't refused with 8");
        }
        memcpy(before, state, 8 * length);
        ceviloneth_answer told = ceviloneth_session_leads(state, length, from, word());
        kept(state, length, before, 0);
        hear(told);
    }
}

/* Sessions as they should be, sessions of nonsense, and states too short. */
static void try_sessions(void) {
    static uint64_t before[STATE + 8];
    doing = "a session";
    for (int i = 0; i < 4000; i++) {
        size_t length = below(5) ? STATE + below(3) : below(STATE);
        uint64_t *state = (uint64_t *)placed(state_pages, 8 * length, i % 2);
        blur(state_pages);
        for (size_t at = 0; at < length && i % 4 == 0; at++) {
            state[at] = bits() >> below(64);
        }
        session_calls(state, length, 3);
        memcpy(before, state, 8 * length);
        size_t words = below(6) ? 1 + below(128) : (size_t)bits() >> below(64);
        unsigned answer = ceviloneth_session_start(state, length, words);
        calls++;
        if (answer != (length < STATE ? 8u : words == 0 || words > 128 ? 2u : 0u)) {
            fail("a start with another answer");
        }
        kept(state, length, before, answer != 0 ? 0 : STATE);
        session_calls(state, length, 12);
    }
}

/* ---- questions and strokes */

static void try_questions(void) {
    doing = "a question about a record";
    for (int i = 0; i < 6000; i++) {
        size_t made = make(1 + below(below(9) ? 12 : 128), below(256));
        size_t size = below(3) ? made : damage(made);
        uint8_t *place = placed(record_pages, size, i % 2);
        protect(record_pages, PROT_READ | PROT_WRITE);
        memcpy(place, record, size);
        protect(record_pages, PROT_READ);
        ceviloneth_answer told = ceviloneth_leads(place, size, word(), word());
        calls++;
        hear(told);
        if (!is_of_record(told.refusal)) {
            fail("a refusal that isn't a question's");
        }
    }
}

static uint32_t number(uint32_t bound) { return below(9) ? (uint32_t)below(bound + 1) : (uint32_t)bits(); }

static int off(const uint32_t n[8], int places) {
    int any = 0;
    for (int i = 0; i < places; i++) {
        any |= n[2 * i] >= 640 || n[2 * i + 1] >= CEVILONETH_ROWS;
    }
    return any;
}

static void try_strokes(void) {
    doing = "a stroke";
    for (int i = 0; i < 30000; i++) {
        uint32_t n[8];
        for (int at = 0; at < 8; at++) {
            n[at] = number(at % 2 ? CEVILONETH_ROWS : 640);
        }
        ceviloneth_stroke s[3] = {
            ceviloneth_stroke_straight(n[0], n[1], n[2], n[3]),
            ceviloneth_stroke_bent(n[0], n[1], n[2], n[3], n[4], n[5]),
            ceviloneth_stroke_side(n[0], n[1], n[2], n[3], n[4], n[5], n[6], n[7]),
        };
        for (int places = 2; places <= 4; places++) {
            int beyond = off(n, places);
            calls++;
            if (s[places - 2].refusal != (beyond ? 10 : 0) || s[places - 2].points != (beyond ? 0 : places)) {
                fail("another answer");
            }
        }
    }
}

int main(void) {
    for (size_t i = 0; i < sizeof noise; i++) {
        noise[i] = (uint8_t)bits();
    }
    signal(SIGSEGV, on_fault);
    signal(SIGBUS, on_fault);
    signal(SIGILL, on_fault);
    signal(SIGFPE, on_fault);
    record_pages = region(LONGEST);
    state_pages = region(8 * (STATE + 8));
    for (int i = 0; i < 3; i++) {
        lists[i] = region(2 * most[i] + 2);
    }
    try_records();
    try_broad();
    try_tall();
    all_answers_given();
    try_sessions();
    all_ways_led();
    try_questions();
    all_ways_led();
    try_strokes();
    printf("%lu calls\nok\n", calls);
    return 0;
}
