/* order BOOK PLAN asks whether a book speaks only of order, and judges by ranks: prints yes or no, and the answer's numbers behind it. */
#include <inttypes.h>
#include <stdio.h>

#include "tteokbiran.h"

/* four bytes more than a file may have, so that one that is too long is seen to be so */
#define MOST 65540

static size_t slurp(const char *path, uint8_t *bytes) {
    FILE *file = fopen(path, "rb");
    if (file == NULL)
        return 0; /* a missing file counts as no words */
    size_t n = fread(bytes, 1, MOST, file);
    fclose(file);
    return n;
}

int main(int argc, char **argv) {
    static uint8_t book[MOST], plan[MOST];
    uint32_t number, a, b, c;
    if (argc != 3) {
        fprintf(stderr, "usage: %s BOOK PLAN\n", argv[0]);
        return 2;
    }
    size_t book_len = slurp(argv[1], book);
    size_t plan_len = slurp(argv[2], plan);
    bool only = tteokbiran_order_only(book, book_len);
    tteokbiran_judge_by_order(book, book_len, plan, plan_len, &number, &a, &b, &c);
    printf("%s %" PRIu32 " %" PRIu32 " %" PRIu32 " %" PRIu32 "\n", only ? "yes" : "no", number, a, b, c);
    return 0;
}
