/* Draws the record in a file: prints the chart's counts, its words, its first arrows and its bundles.
 *
 *     tools/archive.sh
 *     cc -std=c99 -Wall -Iinclude -o target/draw examples/c/draw.c target/staticlib/libceviloneth.a
 *     target/draw samples/p5.record
 */
#include "ceviloneth.h"
#include <stdio.h>

/* One byte more than a record may have, so that a longer file is refused. */
static uint8_t record[65536];

/* Room for every chart. */
static uint16_t words[CEVILONETH_WORDS];
static uint16_t arrows[CEVILONETH_ARROWS];
static uint16_t bundles[CEVILONETH_BUNDLES];

static const char *const kinds[] = {"spine", "side", "straight", "bent"};

static const char *const reasons[] = {"",       "layout", "size", "stranger", "double", "ring", "cover",
                                      "broken", "short",  "full", "off page", "broad",  "floor"};

static void print_chart(const ceviloneth_counts *chart) {
    size_t i;
    printf("%zu words, %zu arrows, %u firm, %u rows, %u lines, %zu bundles, %u columns\n", chart->words,
           chart->arrows, chart->firm, chart->rows, chart->lines, chart->bundles, chart->width);
    for (i = 0; i < chart->words; i++) {
        const uint16_t *w = words + CEVILONETH_WORD_NUMBERS * i;
        printf("word %zu: line %u, position %u, column %u, row %u, leads to %u, floor %u\n", i, w[0], w[1], w[2], w[3], w[4], w[5]);
    }
    for (i = 0; i < chart->arrows && i < 8; i++) {
        const uint16_t *a = arrows + CEVILONETH_ARROW_NUMBERS * i;
        printf("arrow %u: %s, %s\n", a[0], kinds[a[1]], a[4] ? "implied" : "firm");
    }
    for (i = 0; i < chart->bundles; i++) {
        const uint16_t *b = bundles + CEVILONETH_BUNDLE_NUMBERS * i;
        printf("bundle %zu: line %u, rows %u to %u, side column %u\n", i, b[0], b[1], b[2], b[3]);
    }
}

int main(int count, char **arguments) {
    FILE *file = count == 2 ? fopen(arguments[1], "rb") : NULL;
    if (file == NULL) {
        fprintf(stderr, "usage: draw RECORD (a file that can be read)\n");
        return 2;
    }
    size_t length = fread(record, 1, sizeof record, file);
    fclose(file);
    ceviloneth_counts chart =
        ceviloneth_chart(record, length, words, CEVILONETH_WORDS, arrows, CEVILONETH_ARROWS, bundles, CEVILONETH_BUNDLES);
    if (chart.refusal != 0) {
        printf("refused %u, %s\n", chart.refusal, reasons[chart.refusal]);
        return 1;
    }
    print_chart(&chart);
    return 0;
}
