/* A schedule over words and over a byte image, the page that it leaves, and questions to the page. docs/C.md tells of it. */
#include <stdio.h>
#include <stdlib.h>
#include <string.h>

#include "zibdalk.h"

enum { KEYS = 3, WORKERS = 1, VERTEX_ROWS = 4, EDGE_ROWS = 4 };

/* Opens a run, adds vertices 0, 1 and 2 and three edges, and takes a snapshot. */
static const char SCHEDULE[] =
    "0103010004000400000009\n"
    "020001000000000000\n0300FF\n"
    "020001010000000000\n0300FF\n"
    "020001020000000000\n0300FF\n"
    "020004000100000005\n0300FF\n"
    "020004010200000002\n0300FF\n"
    "020004000200000009\n0300FF\n"
    "020007000000000000\n0300FF\n";

/* Leaves the program where something is not as it has to be. */
static void check(int holds, const char *what)
{
    if (!holds) {
        fprintf(stderr, "example: %s\n", what);
        exit(1);
    }
}

static void print_entries(const char *name, const struct questions_entry *entries)
{
    printf("%s:", name);
    for (size_t k = 0; k < KEYS; k++) {
        if (entries[k].mark == 1)
            printf(" %u", (unsigned)entries[k].value);
        else
            printf(" none");
    }
    printf("\n");
}

/* Asks a page, cells of 32 bits, from key 0. */
static void ask(const uint32_t *page)
{
    const size_t cells = KEYS + KEYS * KEYS;
    uint8_t keys[KEYS];
    size_t count = 0;
    struct questions_entry entries[KEYS];

    check(questions_order(page, cells, KEYS, 0, keys, KEYS, &count) == 0, "order is refused");
    printf("order:");
    for (size_t k = 0; k < count; k++)
        printf(" %u", (unsigned)keys[k]);
    printf("\n");
    check(questions_total(page, cells, KEYS, 0, entries, KEYS) == 0, "total is refused");
    print_entries("total", entries);
    check(questions_weakest(page, cells, KEYS, 0, entries, KEYS) == 0, "weakest is refused");
    print_entries("weakest", entries);
    check(questions_total(page, cells, KEYS, KEYS, entries, KEYS) == QUESTIONS_KEY_OUTSIDE, "a start outside is not refused");
}

int main(void)
{
    const size_t needed = ZIBDALK_CELLS(KEYS, WORKERS, VERTEX_ROWS, EDGE_ROWS);
    const uint8_t *text = (const uint8_t *)SCHEDULE;
    const size_t text_len = strlen(SCHEDULE);
    uint32_t *words = calloc(needed, sizeof *words);
    uint8_t *image = calloc(needed, 4);
    uint8_t out[256], other[256];

    check(words != NULL && image != NULL, "no memory");
    size_t written = zibdalk_words(words, needed, text, text_len, out, sizeof out);
    fwrite(out, 1, written, stdout);
    size_t same = zibdalk_image(image, 4 * needed, text, text_len, other, sizeof other);
    check(same == written && memcmp(out, other, written) == 0, "words and image do not reply alike");

    /* The page of worker 0 stands behind the clock, heads and rows, and is the last of the cells here. */
    ask(words + needed - (KEYS + KEYS * KEYS));

    /* Room for two replies: the third line is not carried out, so the head of vertex 0, cell 1, is none. */
    check(zibdalk_words(words, needed, text, text_len, out, 16) == 10, "more than two replies are written");
    check(words[1] == 0, "a line is carried out whose reply does not fit");
    /* No run is open when a call begins, so a line that is no opening is refused. */
    check(zibdalk_words(words, needed, text + 23, 19, out, sizeof out) == 5 && memcmp(out, "FFED\n", 5) == 0,
          "a run is open at the start of a call");
    free(words);
    free(image);
    return 0;
}
