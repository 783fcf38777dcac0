/* earliest BOOK NUMBER asks for the earliest times of an alternative: prints the answer's numbers, and with "yes" the times behind them. */
#include <inttypes.h>
#include <stdio.h>
#include <stdlib.h>

#include "tteokbiran.h"

/* four bytes more than a file may have, so that one that is too long is seen to be so */
#define MOST 65540
/* at most five tokens with a start and an end, and the plan's end */
#define TIMES 11
/* what no time is: more than 11 x 2 to the 42 */
#define UNSET UINT64_MAX

int main(int argc, char **argv) {
    static uint8_t book[MOST];
    uint64_t times[TIMES];
    uint32_t number, a, b, c;
    if (argc != 3) {
        fprintf(stderr, "usage: %s BOOK NUMBER\n", argv[0]);
        return 2;
    }
    FILE *file = fopen(argv[1], "rb");
    size_t book_len = file == NULL ? 0 : fread(book, 1, MOST, file);
    if (file != NULL)
        fclose(file);
    for (int i = 0; i < TIMES; i++)
        times[i] = UNSET;
    tteokbiran_earliest(book, book_len, (uint32_t)strtoul(argv[2], NULL, 10), times, TIMES, &number, &a, &b, &c);
    printf("%" PRIu32 " %" PRIu32 " %" PRIu32 " %" PRIu32, number, a, b, c);
    for (int i = 0; i < TIMES && times[i] != UNSET; i++)
        printf(" %" PRIu64, times[i]);
    printf("\n");
    return 0;
}
