/* Rules taken out of a book, in little: remove BOOK DESKS [NUMBER..] hands over the words of both files with the rule numbers and prints the line of
 * numbers, then the book's words afterwards, then the list of desks, each on a line. */
#include <inttypes.h>
#include <stdio.h>
#include <stdlib.h>

#include "tteokbiran.h"

/* a word more than a book may have, so that one that is too long is seen to be so */
#define MOST 16385
/* more rules than a book may have */
#define RULES 80

/* the words of a file, little-endian as this machine's; a missing file counts as no words */
static size_t slurp(const char *path, uint32_t *words, size_t most) {
    FILE *file = fopen(path, "rb");
    if (file == NULL)
        return 0;
    size_t n = fread(words, sizeof *words, most, file);
    fclose(file);
    return n;
}

static void print(const uint32_t *words, size_t n) {
    for (size_t i = 0; i < n; i++)
        printf("%s%" PRIu32, i == 0 ? "" : " ", words[i]);
    printf("\n");
}

int main(int argc, char **argv) {
    static uint32_t book[MOST], desks[RULES], list[RULES];
    uint32_t number, a, b, c;
    if (argc < 3 || argc > 3 + RULES) {
        fprintf(stderr, "usage: %s BOOK DESKS [NUMBER..]\n", argv[0]);
        return 2;
    }
    size_t book_len = slurp(argv[1], book, MOST), desks_len = slurp(argv[2], desks, RULES);
    for (int i = 3; i < argc; i++)
        list[i - 3] = (uint32_t)strtoul(argv[i], NULL, 10);
    tteokbiran_remove_rules(book, book_len, desks, desks_len, list, (size_t)argc - 3, &number, &a, &b, &c);
    printf("%" PRIu32 " %" PRIu32 " %" PRIu32 " %" PRIu32 "\n", number, a, b, c);
    print(book, book_len);
    print(desks, desks_len);
    return 0;
}
