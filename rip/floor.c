/* The floor's screens in little: floor write BOOK PLAN WORDS hands book and plan over with a room of so many words for the list of events, and
 * floor read BOOK LIST WORDS a book and a list with a room for the plan. Each prints the line of numbers, then the room, all on a line. The
 * room holds 9 throughout before, so that what stays is seen. */
#include <inttypes.h>
#include <stdio.h>
#include <stdlib.h>
#include <string.h>

#include "tteokbiran.h"

/* four bytes more than a book or a plan may have, so that one that is too long is seen to be so */
#define MOST 65540
/* no list has more than 65,367 words */
#define ROOM 65536

static uint8_t book[MOST], plan[MOST], bytes[4 * ROOM];
static uint32_t list[ROOM], room[ROOM];

static size_t slurp(const char *path, uint8_t *into, size_t most) {
    FILE *file = fopen(path, "rb");
    if (file == NULL) /* a missing file counts as no words */
        return 0;
    size_t len = fread(into, 1, most, file);
    fclose(file);
    return len;
}

/* the words of a list's file, least byte first */
static size_t slurp_list(const char *path) {
    size_t words = slurp(path, bytes, sizeof bytes) / 4;
    for (size_t i = 0; i < words; i++) {
        const uint8_t *b = bytes + 4 * i;
        list[i] = b[0] | (uint32_t)b[1] << 8 | (uint32_t)b[2] << 16 | (uint32_t)b[3] << 24;
    }
    return words;
}

int main(int argc, char **argv) {
    uint32_t number, a, b, c;
    if (argc != 5 || (strcmp(argv[1], "write") != 0 && strcmp(argv[1], "read") != 0)) {
        fprintf(stderr, "usage: %s write BOOK PLAN WORDS, or read BOOK LIST WORDS\n", argv[0]);
        return 2;
    }
    size_t book_len = slurp(argv[2], book, MOST);
    size_t words = strtoul(argv[4], NULL, 10);
    if (words > ROOM)
        words = ROOM;
    for (size_t i = 0; i < ROOM; i++)
        room[i] = 9;
    if (strcmp(argv[1], "write") == 0) {
        size_t plan_len = slurp(argv[3], plan, MOST);
        tteokbiran_write_events(book, book_len, plan, plan_len, room, words, &number, &a, &b, &c);
    } else {
        size_t list_len = slurp_list(argv[3]);
        tteokbiran_read_events(book, book_len, list, list_len, room, words, &number, &a, &b, &c);
    }
    printf("%" PRIu32 " %" PRIu32 " %" PRIu32 " %" PRIu32 "\n", number, a, b, c);
    for (size_t i = 0; i < words; i++)
        printf("%" PRIu32 "%c", room[i], i + 1 == words ? '\n' : ' ');
    return 0;
}
