/* The stack test: every call of the header is made on a thread whose whole stack has CEVILONETH_STACK_BYTES bytes, with pages below it that
 * can't be touched. Records are those whose searches for lines go deepest, the largest charts and the tallest, broad ones and others that
 * are refused, and the files that are named.
 * Every answer must be the one that is given on the main thread's large stack.
 *
 *     tools/archive.sh
 *     cc -std=c99 -O1 -Wall -pthread -Iinclude -o target/stack tests/stack/stack.c target/staticlib/libceviloneth.a
 *     target/stack [--bytes N] [RECORD ..]
 *
 * Prints the records tried and how much of the stack was used, then `ok`; exit status 1 otherwise. With 16384 bytes it must fail.
 */
#define _GNU_SOURCE
#include "ceviloneth.h"
#include <pthread.h>
#include <signal.h>
#include <stdio.h>
#include <stdlib.h>
#include <string.h>
#include <sys/mman.h>
#include <unistd.h>

enum { WORDS = 128, MOST = 4096, LINES = CEVILONETH_LINES, ROWS = CEVILONETH_ROWS, LONGEST = 65536, GUARD = 131072, PAINT = 0xA5 };

static const char *doing = "starting", *of = "no record";

static void fail(const char *what) {
    printf("%s, %s: %s\n", of, doing, what);
    exit(1);
}

/* ---- what is called: lists and answers lie outside the stack */

static uint8_t record[LONGEST];
static size_t size;
static uint16_t words[CEVILONETH_WORDS], arrows[CEVILONETH_ARROWS], bundles[CEVILONETH_BUNDLES];
static uint64_t state[CEVILONETH_STATE];
static ceviloneth_counts counts;

/* All that was answered, as one number. */
static uint64_t heard;

static void hear(uint64_t number) { heard = (heard ^ number) * 1099511628211u; }

static void hear_list(const uint16_t *list, size_t length) {
    for (size_t i = 0; i < length; i++) {
        hear(list[i]);
    }
}

static void hear_answer(ceviloneth_answer a) { hear(a.refusal + 256u * a.leads); }

static void hear_stroke(ceviloneth_stroke s) {
    float n[8] = {s.x0, s.y0, s.x1, s.y1, s.x2, s.y2, s.x3, s.y3};
    hear(s.refusal + 256u * s.points);
    for (int i = 0; i < 8; i++) {
        hear((uint64_t)(4 * n[i]));
    }
}

static void call_chart(size_t arrows_length) {
    doing = "ceviloneth_chart";
    counts = ceviloneth_chart(record, size, words, CEVILONETH_WORDS, arrows, arrows_length, bundles, CEVILONETH_BUNDLES);
    hear(counts.refusal);
    hear(counts.words + 256u * counts.arrows);
    hear(counts.rows + 256u * counts.lines);
    hear(counts.firm + 65536u * counts.width);
    hear_list(counts.side_columns, 128);
    hear_list(words, CEVILONETH_WORD_NUMBERS * counts.words);
    hear_list(arrows, CEVILONETH_ARROW_NUMBERS * counts.arrows);
    hear_list(bundles, CEVILONETH_BUNDLE_NUMBERS * counts.bundles);
}

/* A session of the record's words and arrows; what else its bytes are goes in too, and is refused or not. */
static void call_session(void) {
    memset(state, 0, sizeof state);
    doing = "ceviloneth_session_start";
    hear(ceviloneth_session_start(state, CEVILONETH_STATE, size > 3 ? record[3] : 0));
    for (size_t at = 7; at + 1 < size; at += 2) {
        doing = "ceviloneth_session_add";
        hear(ceviloneth_session_add(state, CEVILONETH_STATE, record[at], record[at + 1]));
        doing = "ceviloneth_session_leads";
        hear_answer(ceviloneth_session_leads(state, CEVILONETH_STATE, record[at + 1], record[at]));
        hear_answer(ceviloneth_session_leads(state, CEVILONETH_STATE, record[7], record[at + 1]));
    }
}

static void call_strokes(uint32_t column) {
    doing = "a stroke";
    hear_stroke(ceviloneth_stroke_straight(0, 0, column, ROWS - 1));
    hear_stroke(ceviloneth_stroke_bent(0, 0, 1, ROWS - 2, column, ROWS - 1));
    hear_stroke(ceviloneth_stroke_side(3, 0, column, 0, column, ROWS - 1, 3, ROWS - 1));
}

/* Every call, for the record as it stands. */
static void *call_all(void *unused) {
    heard = 14695981039346656037u;
    doing = "ceviloneth_version";
    hear(ceviloneth_version());
    call_chart(0);
    call_chart(CEVILONETH_ARROWS);
    doing = "ceviloneth_leads";
    for (size_t to = 0; to <= WORDS; to += 32) {
        hear_answer(ceviloneth_leads(record, size, 0, to));
    }
    call_session();
    call_strokes(639);
    call_strokes(640);
    return unused;
}

/* ---- the bounded stack */

static uint8_t *stack;
static size_t bytes = CEVILONETH_STACK_BYTES, most_used;

static void say(const char *text) {
    if (write(1, text, strlen(text)) < 0) {
        _exit(2);
    }
}

/* Runs on a stack of its own, since there is no room on the thread's. */
static void on_fault(int number, siginfo_t *about, void *unused) {
    const uint8_t *at = about->si_addr;
    (void)number;
    (void)unused;
    say(at >= stack - GUARD && at < stack ? "the stack is overrun: " : "a trap, or memory outside the lists was touched: ");
    say(doing);
    say("\n");
    _exit(1);
}

/* The stack, and below it GUARD bytes that can't be touched: more than any frame has. */
static void make_stack(void) {
    uint8_t *all = mmap(NULL, GUARD + bytes, PROT_NONE, MAP_PRIVATE | MAP_ANONYMOUS, -1, 0);
    stack = all + GUARD;
    if (all == MAP_FAILED || mprotect(stack, bytes, PROT_READ | PROT_WRITE) != 0) {
        fail("no memory");
    }
}

static void *thread(void *unused) {
    static uint8_t room[LONGEST];
    stack_t other = {.ss_sp = room, .ss_size = sizeof room};
    sigaltstack(&other, NULL);
    return call_all(unused);
}

static void measure(void) {
    size_t left = 0;
    while (left < bytes && stack[left] == PAINT) {
        left++;
    }
    if (bytes - left > most_used) {
        most_used = bytes - left;
    }
}

static void run_bounded(void) {
    pthread_attr_t attributes;
    pthread_t started;
    memset(stack, PAINT, bytes);
    if (pthread_attr_init(&attributes) != 0 || pthread_attr_setstack(&attributes, stack, bytes) != 0 ||
        pthread_create(&started, &attributes, thread, NULL) != 0 || pthread_join(started, NULL) != 0) {
        fail("no thread with such a stack");
    }
    pthread_attr_destroy(&attributes);
    measure();
}

/* ---- records */

static unsigned tried;

/* All calls on both stacks; the chart's refusal must be the one given, any where it is below 0. */
static void try_record(const char *name, int refusal) {
    of = name;
    call_all(NULL);
    uint64_t expected = heard;
    run_bounded();
    if (heard != expected) {
        fail("another answer than on a large stack");
    }
    if (refusal >= 0 && counts.refusal != refusal) {
        fail("another refusal than expected");
    }
    tried++;
}

/* A record whose chart has as many rows as there are. */
static void try_tallest(const char *name) {
    try_record(name, 0);
    if (counts.rows != ROWS) {
        fail("another number of rows than the most");
    }
}

static void put_field(unsigned tag, size_t length) {
    record[size++] = (uint8_t)tag;
    record[size++] = (uint8_t)(length >> 8);
    record[size++] = (uint8_t)length;
}

static void begin(void) {
    size = 0;
    put_field(1, 1);
    record[size++] = WORDS;
    put_field(2, 0);
}

/* Puts an arrow in, if there is room for it. */
static void put_arrow(size_t from, size_t to) {
    size_t length = size - 7;
    if (length < 2 * MOST) {
        record[size++] = (uint8_t)from;
        record[size++] = (uint8_t)to;
        record[5] = (uint8_t)((length + 2) >> 8);
        record[6] = (uint8_t)(length + 2);
    }
}

/* One line through all words in this order. */
static void line(const uint8_t *order) {
    begin();
    for (size_t i = 0; i + 1 < WORDS; i++) {
        put_arrow(order[i], order[i + 1]);
    }
}

/* Adds a house line of the words from one on up to another, or one a word. */
static void put_house_lines(size_t from, size_t to, int one) {
    put_field(3, one ? 1 + to - from : 2 * (to - from));
    for (size_t w = from; w < to; w++) {
        if (w == from || !one) {
            record[size++] = (uint8_t)(one ? to - from : 1);
        }
        record[size++] = (uint8_t)w;
    }
}

/* Adds floors: so much for the first word, and for the others so much more from each to the next, none above the highest. */
static void put_floors(size_t first, size_t more) {
    put_field(4, WORDS);
    for (size_t w = 0; w < WORDS; w++) {
        size_t floor = w * more;
        record[size++] = (uint8_t)(w == 0 ? first : floor < CEVILONETH_MOST_FLOOR ? floor : CEVILONETH_MOST_FLOOR);
    }
}

/* When the last word but one asks for a follower, the searches of all words but the last wait for each other. So many words more, the
 * highest, are in a house line that their routes go through. */
static void deepest_search(size_t held) {
    size_t left = WORDS - held, at = 2;
    uint8_t order[WORDS] = {(uint8_t)(left - 3), (uint8_t)(left - 4)};
    for (size_t w = left; w < WORDS; w++) {
        order[at++] = (uint8_t)w;
    }
    for (size_t w = 0; w < left - 4; w++) {
        order[at++] = (uint8_t)w;
    }
    order[at++] = (uint8_t)(left - 2);
    order[at] = (uint8_t)(left - 1);
    line(order);
    if (held > 0) {
        put_house_lines(left, WORDS, 1);
    }
}

/* The first 4,096 arrows from lower to higher words. */
static void dense(void) {
    begin();
    for (size_t v = 1; v < WORDS; v++) {
        for (size_t u = 0; u < v; u++) {
            put_arrow(u, v);
        }
    }
}

/* Each word to those up to so many on. */
static void chain(size_t longest) {
    begin();
    for (size_t rise = 1; rise <= longest; rise++) {
        for (size_t u = 0; u + rise < WORDS; u++) {
            put_arrow(u, u + rise);
        }
    }
}

/* Each of the lowest so many words to all of as many above them, or to ever fewer of these, so that every search goes through all. The
 * words that are left follow the last of them in one line. So there are just as many lines. */
static void bipartite(size_t half, int fewer) {
    begin();
    for (size_t u = 0; u < half; u++) {
        for (size_t v = half; v < 2 * half - (fewer ? u : 0); v++) {
            put_arrow(u, v);
        }
    }
    for (size_t v = 2 * half; v < WORDS; v++) {
        put_arrow(v - 1, v);
    }
}

/* Each word to all that stand in the next row, of rows of so many words, and then to all in the one after. */
static void layered(size_t breadth) {
    begin();
    for (size_t rise = 1; rise <= 2; rise++) {
        for (size_t u = 0; u < WORDS; u++) {
            for (size_t v = u; v < WORDS && v / breadth <= u / breadth + rise; v++) {
                if (v / breadth == u / breadth + rise) {
                    put_arrow(u, v);
                }
            }
        }
    }
}

/* Adds a house line of every ninth word of a line in this order. */
static void put_ninths(const uint8_t *order) {
    put_field(3, 1 + (WORDS + 8) / 9);
    record[size++] = (WORDS + 8) / 9;
    for (size_t i = 0; i < WORDS; i += 9) {
        record[size++] = order[i];
    }
}

/* Lines through the words in any order: their searches are deep. Every second one is planned beside a house line. */
static void try_random_lines(void) {
    static uint64_t bits = 88172645463325252u;
    uint8_t order[WORDS];
    for (size_t i = 0; i < WORDS; i++) {
        order[i] = (uint8_t)i;
    }
    for (int round = 0; round < 500; round++) {
        for (size_t i = WORDS - 1; i > 0; i--) {
            bits ^= bits << 13;
            bits ^= bits >> 7;
            bits ^= bits << 17;
            size_t j = (size_t)(bits >> 16) % (i + 1);
            uint8_t kept = order[i];
            order[i] = order[j];
            order[j] = kept;
        }
        line(order);
        if (round % 2 == 1) {
            put_ninths(order);
        }
        try_record("a line in any order", 0);
    }
}

static void try_sound(void) {
    deepest_search(0);
    try_record("the deepest search", 0);
    deepest_search(1);
    try_record("the deepest search beside a house line of one word", 0);
    deepest_search(2);
    try_record("the deepest search beside a house line of two words", 0);
    deepest_search(64);
    try_record("the deepest search beside a house line of 64 words", 0);
    layered(LINES);
    try_record("4,096 arrows and as many lines as a chart may have", 0);
    chain(32);
    try_record("a line with arrows up to 32 on", 0);
    chain(WORDS);
    try_record("one line and 4,096 arrows", 0);
    put_house_lines(0, WORDS, 1);
    try_record("one house line and 4,096 arrows", 0);
    chain(WORDS);
    put_house_lines(WORDS / 4, WORDS / 2, 1);
    try_record("a house line of 32 words and 4,096 arrows", 0);
    chain(WORDS);
    put_house_lines(1, LINES, 0);
    try_record("house lines, as many as a chart may have beside a planned one", 0);
    bipartite(LINES, 0);
    try_record("each of 31 words to each of 31", 0);
    bipartite(LINES, 1);
    try_record("a search through 31 words at every step", 0);
    put_field(3, 0);
    try_record("the same with an empty field of house lines", 0);
    bipartite(LINES - 1, 1);
    put_house_lines(0, 1, 1);
    try_record("a search through 29 words beside a house line", 0);
    try_random_lines();
}

/* The same searches and the largest charts with floors, and the charts with most rows. */
static void try_floors(void) {
    chain(1);
    put_floors(CEVILONETH_MOST_FLOOR, 0);
    try_tallest("a line from the highest floor");
    chain(WORDS);
    put_floors(CEVILONETH_MOST_FLOOR, 0);
    try_tallest("one line and 4,096 arrows from the highest floor");
    chain(WORDS);
    put_house_lines(0, WORDS, 1);
    put_floors(CEVILONETH_MOST_FLOOR, 0);
    try_tallest("the same of a house line");
    deepest_search(0);
    put_floors(0, 3);
    try_record("the deepest search with floors", 0);
    deepest_search(2);
    put_floors(CEVILONETH_MOST_FLOOR, 1);
    try_record("the deepest search beside a house line with floors", 0);
    layered(LINES);
    put_floors(0, 1);
    try_record("4,096 arrows and as many lines as a chart may have, with floors", 0);
    bipartite(LINES, 1);
    put_floors(0, 1);
    try_record("a search through 31 words at every step, with floors", 0);
}

/* Charts of too many lines, with the same searches and more of them. */
static void try_broad(void) {
    dense();
    try_record("4,096 arrows", 11);
    layered(LINES + 1);
    try_record("4,096 arrows and a line more than a chart may have", 11);
    bipartite(WORDS / 2, 0);
    try_record("each word of a half to each of the other", 11);
    put_house_lines(0, WORDS, 0);
    try_record("128 house lines and 4,096 arrows", 11);
    bipartite(WORDS / 2, 1);
    try_record("a search through 64 words at every step", 11);
    put_house_lines(0, 1, 1);
    try_record("a search through 63 words beside a house line", 11);
    deepest_search(0);
    put_house_lines(0, LINES + 1, 0);
    try_record("a deep search beside house lines, one more than a chart may have", 11);
    begin();
    try_record("no arrows", 11);
    put_field(3, 0);
    try_record("no arrows and an empty field of house lines", 11);
}

static void try_refused(void) {
    chain(31);
    put_arrow(WORDS - 1, 0);
    try_record("a ring at the last arrow", 5);
    chain(31);
    put_house_lines(0, WORDS, 1);
    record[size - 1] = 0;
    try_record("a word twice in a house line, broken there", 6);
    chain(31);
    put_house_lines(0, 2, 1);
    record[size - 2] = 1;
    record[size - 1] = 0;
    try_record("a broken house line of two words", 7);
    chain(31);
    put_floors(0, 0);
    record[size - 1] = CEVILONETH_MOST_FLOOR + 1;
    try_record("a last floor too high", 12);
    chain(31);
    put_field(4, 0);
    try_record("no floor in the field", 12);
    chain(31);
    put_floors(0, 0);
    put_house_lines(0, 2, 1);
    try_record("floors before house lines", 1);
    size = LONGEST - 1;
    memset(record, 0, size);
    try_record("65,535 bytes of no layout", 1);
    size = 0;
    try_record("no bytes", 1);
}

static void try_file(const char *name) {
    FILE *file = fopen(name, "rb");
    of = name;
    doing = "reading";
    if (file == NULL) {
        fail("the file can't be read");
    }
    size = fread(record, 1, sizeof record, file);
    fclose(file);
    try_record(name, -1);
}

int main(int count, char **arguments) {
    struct sigaction action = {.sa_sigaction = on_fault, .sa_flags = SA_ONSTACK | SA_SIGINFO};
    int first = 1;
    if (count > 2 && strcmp(arguments[1], "--bytes") == 0) {
        bytes = strtoul(arguments[2], NULL, 10);
        first = 3;
    }
    sigaction(SIGSEGV, &action, NULL);
    sigaction(SIGBUS, &action, NULL);
    sigaction(SIGILL, &action, NULL);
    make_stack();
    try_sound();
    try_floors();
    try_broad();
    try_refused();
    for (int i = first; i < count; i++) {
        try_file(arguments[i]);
    }
    printf("%u records, %zu of %zu bytes of stack used at most, the thread's own among them\nok\n", tried, most_used, bytes);
    return 0;
}
