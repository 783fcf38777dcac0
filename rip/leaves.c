/* What an author's relations leave, in little: leaves SHEET ALTERNATIVE WORDS hands the sheet over with a table of so many words and prints
 * the line of numbers, then the table, all on a line. The table holds 9 throughout before, so that what stays is seen. */
#include <inttypes.h>
#include <stdio.h>
#include <stdlib.h>

#include "tteokbiran.h"

/* four bytes more than a file may have, so that one that is too long is seen to be so */
#define MOST 65540
/* words for five tokens, and some more */
#define ROOM 32

int main(int argc, char **argv) {
    static uint8_t sheet[MOST];
    uint32_t table[ROOM], number, a, b, c;
    size_t sheet_len = 0;
    if (argc != 4) {
        fprintf(stderr, "usage: %s SHEET ALTERNATIVE WORDS\n", argv[0]);
        return 2;
    }
    FILE *file = fopen(argv[1], "rb");
    if (file != NULL) { /* a missing file counts as no words */
        sheet_len = fread(sheet, 1, MOST, file);
        fclose(file);
    }
    uint32_t alternative = (uint32_t)strtoul(argv[2], NULL, 10);
    size_t words = strtoul(argv[3], NULL, 10);
    if (words > ROOM)
        words = ROOM;
    for (size_t i = 0; i < ROOM; i++)
        table[i] = 9;
    tteokbiran_narrow(sheet, sheet_len, alternative, table, words, &number, &a, &b, &c);
    printf("%" PRIu32 " %" PRIu32 " %" PRIu32 " %" PRIu32 "\n", number, a, b, c);
    for (size_t i = 0; i < words; i++)
        printf("%" PRIu32 "%c", table[i], i + 1 == words ? '\n' : ' ');
    return 0;
}
