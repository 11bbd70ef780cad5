/* A C host: reads the N-Triples in the file it is given, prints the table and the names, and writes the table back as N-Triples.
 * Every triple holds in all years (kind 1, all 64 bits). */
#include <inttypes.h>
#include <stdio.h>
#include <stdlib.h>
#include "trackvesper.h"

enum { MOST_IN = 65536, MOST_ROWS = 1024, MOST_NAMES = 512, MOST_TEXT = 32768, YEARS = 1 };

/* A row's line has three terms of at most 32,768 bytes of text each, so what is written is asked for in a large piece. */
enum { MOST_OUT = 8 * 1024 * 1024 };

static uint16_t subj[MOST_ROWS], pred[MOST_ROWS], obj[MOST_ROWS];
static uint64_t ann[MOST_ROWS];
static uint16_t terms[MOST_NAMES], ends[MOST_NAMES];
static uint8_t text[MOST_TEXT];
static uint8_t file[MOST_IN];
static uint8_t out[MOST_OUT];

static int refused(uint64_t answer)
{
    if (answer >> 32 == 0)
        return 0;
    printf("refused %" PRIu64 " %" PRIu64 "\n", answer >> 32, answer & 0xFFFFFFFF);
    return 1;
}

static void print_table(size_t count, size_t names)
{
    printf("read %zu %zu\n", count, names);
    for (size_t i = 0; i < count; i++)
        printf("%u %u %u\n", subj[i], pred[i], obj[i]);
    for (size_t i = 0; i < names; i++) {
        size_t from = i == 0 ? 0 : ends[i - 1];
        printf("%u %.*s\n", terms[i], (int)(ends[i] - from), (const char *)text + from);
    }
}

int main(int argc, char **argv)
{
    FILE *input = argc == 2 ? fopen(argv[1], "rb") : NULL;
    if (input == NULL) {
        fprintf(stderr, "usage: triples FILE\n");
        return EXIT_FAILURE;
    }
    size_t length = fread(file, 1, sizeof file, input);
    fclose(input);

    uint64_t answer = trackvesper_read_triples(YEARS, UINT64_MAX, file, length, subj, MOST_ROWS, pred, MOST_ROWS, obj, MOST_ROWS, ann,
                                               MOST_ROWS, terms, MOST_NAMES, ends, MOST_NAMES, text, MOST_TEXT);
    if (refused(answer))
        return EXIT_SUCCESS;
    size_t count = answer & 0xFFFF, names = answer >> 16;
    print_table(count, names);

    answer = trackvesper_write_triples(YEARS, subj, MOST_ROWS, pred, MOST_ROWS, obj, MOST_ROWS, ann, MOST_ROWS, count, terms, MOST_NAMES,
                                       ends, MOST_NAMES, text, MOST_TEXT, names, out, MOST_OUT);
    if (refused(answer))
        return EXIT_SUCCESS;
    fwrite(out, 1, (size_t)answer, stdout);
    return EXIT_SUCCESS;
}
