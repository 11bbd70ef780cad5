/* A C host: closes the book in the file it is given, and prints the closed book's rows. */
#include <stdio.h>
#include <stdlib.h>
#include "trackvesper.h"

enum { MOST_IN = TRACKVESPER_MOST_INPUT + 1, MOST_OUT = TRACKVESPER_MOST_CLOSED_BOOK, FIELD = 17 };

static uint64_t number_at(const uint8_t *bytes, size_t at, size_t width)
{
    uint64_t number = 0;
    for (size_t i = 0; i < width; i++)
        number = number * 256 + bytes[at + i];
    return number;
}

static void print_book(const uint8_t *book, size_t length)
{
    /* Tag and length, and as much as the length says: 7 bytes, or 8 in edition 2. */
    size_t head = 3 + (size_t)number_at(book, 1, 2);
    printf("closed %llu %llu %zu\n", (unsigned long long)number_at(book, 4, 1),
           (unsigned long long)number_at(book, 5, 2), (length - head) / FIELD);
    for (size_t at = head; at + FIELD <= length; at += FIELD)
        printf("%llu %llu %llu %llu\n", (unsigned long long)number_at(book, at + 3, 2),
               (unsigned long long)number_at(book, at + 5, 2), (unsigned long long)number_at(book, at + 7, 2),
               (unsigned long long)number_at(book, at + 9, 8));
}

int main(int argc, char **argv)
{
    static uint8_t book[MOST_IN];
    static uint8_t out[MOST_OUT];
    FILE *file = argc == 2 ? fopen(argv[1], "rb") : NULL;
    if (file == NULL) {
        fprintf(stderr, "usage: close_book FILE\n");
        return EXIT_FAILURE;
    }
    size_t length = fread(book, 1, sizeof book, file);
    fclose(file);

    uint64_t answer = trackvesper_close_book(book, length, out, sizeof out);
    if (answer >> 32 != 0) {
        printf("refused %llu %llu\n", (unsigned long long)(answer >> 32), (unsigned long long)(answer & 0xFFFFFFFF));
        return EXIT_SUCCESS;
    }
    print_book(out, (size_t)answer);
    return EXIT_SUCCESS;
}
