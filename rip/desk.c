/* A desk's own judgement, in little: desk BOOK PLAN DESK WORD.. hands both files over with the list of desks, one word for each rule, and prints
 * the line of numbers. */
#include <inttypes.h>
#include <stdio.h>
#include <stdlib.h>

#include "tteokbiran.h"

/* four bytes more than a file may have, so that one that is too long is seen to be so */
#define MOST 65540
/* more words than a book has rules */
#define WORDS 80

/* The bytes of a file; a missing one counts as none. */
static size_t slurp(const char *name, uint8_t *bytes) {
    FILE *file = fopen(name, "rb");
    if (file == NULL)
        return 0;
    size_t n = fread(bytes, 1, MOST, file);
    fclose(file);
    return n;
}

int main(int argc, char **argv) {
    static uint8_t book[MOST], plan[MOST];
    uint32_t desks[WORDS], number, a, b, c;
    size_t words = 0;
    if (argc < 4) {
        fprintf(stderr, "usage: %s BOOK PLAN DESK WORD..\n", argv[0]);
        return 2;
    }
    while (words < WORDS && argc > (int)words + 4) {
        desks[words] = (uint32_t)strtoul(argv[words + 4], NULL, 10);
        words++;
    }
    size_t book_len = slurp(argv[1], book), plan_len = slurp(argv[2], plan);
    tteokbiran_judge_desk(book, book_len, plan, plan_len, desks, words, (uint32_t)strtoul(argv[3], NULL, 10), &number, &a, &b, &c);
    printf("%" PRIu32 " %" PRIu32 " %" PRIu32 " %" PRIu32 "\n", number, a, b, c);
    return 0;
}
