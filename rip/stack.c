/* How much stack the exported functions take: stack FOLDER.. runs each of them on the files of every folder, on a stack that was filled
 * with marks, and prints the most bytes that lost their mark. It ends with 1 if that is more than the header states. */
#define _XOPEN_SOURCE 600
#include <inttypes.h>
#include <stdio.h>
#include <stdlib.h>
#include <string.h>
#include <ucontext.h>

#include "tteokbiran.h"

/* four bytes more than a file may have */
#define MOST 65540
#define AREA (16 * TTEOKBIRAN_STACK)
#define MARK 0xA5

/* the files of the folder, also as words, and where the answers go */
static uint8_t book[MOST], sheet[MOST], plan[MOST];
static uint32_t book_words[MOST / 4], plan_words[MOST / 4], room[16384], list[65536];
static size_t book_len, sheet_len, plan_len;
static uint32_t number, a, b, c, token, value, job;
static uint32_t table[25];
static uint32_t desks[64]; /* all rules are desk 0's */
static uint64_t start, end, times[11];

static void judge(void) { tteokbiran_judge(book, book_len, plan, plan_len, &number, &a, &b, &c); }

static void judge_sheet(void) { tteokbiran_judge_sheet(sheet, sheet_len, plan, plan_len, &number, &a, &b, &c); }

static void translate(void) { tteokbiran_translate(sheet, sheet_len, room, 16384, &number, &a, &b, &c); }

static void judge_desk(void) {
    size_t rules = book_words[6] < 64 ? book_words[6] : 64;
    tteokbiran_judge_desk(book, book_len, plan, plan_len, desks, rules, 0, &number, &a, &b, &c);
}

static void narrow(void) { tteokbiran_narrow(sheet, sheet_len, 0, table, 25, &number, &a, &b, &c); }

static void earliest(void) { tteokbiran_earliest(book, book_len, 0, times, 11, &number, &a, &b, &c); }

/* every other rule goes, of a copy */
static void remove_rules(void) {
    uint32_t rules = book_len < 28 ? 0 : book_words[6], n = 0;
    memcpy(room, book_words, sizeof room);
    for (uint32_t i = 0; i < rules && i < 64; i += 2)
        list[n++] = i;
    tteokbiran_remove_rules(room, book_len / 4 < 16384 ? book_len / 4 : 16384, desks, rules < 64 ? rules : 64, list, n, &number, &a, &b, &c);
}

static void write_events(void) { tteokbiran_write_events(book, book_len, plan, plan_len, list, 65536, &number, &a, &b, &c); }

static void read_events(void) {
    write_events();
    tteokbiran_read_events(book, book_len, list, number == 0 ? a : 0, room, 16384, &number, &a, &b, &c);
}

static void order_only(void) { tteokbiran_order_only(book, book_len); }

static void judge_by_order(void) { tteokbiran_judge_by_order(book, book_len, plan, plan_len, &number, &a, &b, &c); }

static void open_last(void) {
    tteokbiran_open(book_words, book_len / 4, plan_words, plan_len / 4, plan_words[2] - 1, &number, &a, &b, &c, &token);
}

static void step_all(void) {
    token = 0;
    start = 0;
    while (tteokbiran_step(plan_words, plan_len / 4, 0, &token, &start, &value, &end, &job))
        ;
}

static struct {
    const char *name;
    void (*run)(void);
    size_t most;
    const char *where;
} functions[] = {
    {"tteokbiran_judge", judge, 0, ""},   {"tteokbiran_judge_sheet", judge_sheet, 0, ""}, {"tteokbiran_translate", translate, 0, ""},
    {"tteokbiran_narrow", narrow, 0, ""}, {"tteokbiran_earliest", earliest, 0, ""},       {"tteokbiran_open", open_last, 0, ""},
    {"tteokbiran_step", step_all, 0, ""}, {"tteokbiran_judge_desk", judge_desk, 0, ""},   {"tteokbiran_remove_rules", remove_rules, 0, ""},
    {"tteokbiran_write_events", write_events, 0, ""}, {"tteokbiran_read_events", read_events, 0, ""},
    {"tteokbiran_order_only", order_only, 0, ""},   {"tteokbiran_judge_by_order", judge_by_order, 0, ""},
};

static size_t slurp(const char *folder, const char *name, uint8_t *bytes) {
    char path[4096];
    snprintf(path, sizeof path, "%s/%s", folder, name);
    FILE *file = fopen(path, "rb");
    if (file == NULL)
        return 0; /* a missing file counts as no words */
    size_t n = fread(bytes, 1, MOST, file);
    fclose(file);
    return n;
}

/* The bytes of stack that one run takes. */
static size_t taken(uint8_t *area, void (*run)(void)) {
    ucontext_t here, there;
    memset(area, MARK, AREA);
    if (getcontext(&there) != 0)
        exit(2);
    there.uc_stack.ss_sp = area;
    there.uc_stack.ss_size = AREA;
    there.uc_link = &here;
    makecontext(&there, run, 0);
    if (swapcontext(&here, &there) != 0)
        exit(2);
    size_t whole = 0;
    while (whole < AREA && area[whole] == MARK)
        whole++;
    return AREA - whole;
}

int main(int argc, char **argv) {
    int bad = 0;
    uint8_t *area = malloc(AREA);
    if (area == NULL || argc < 2) {
        fprintf(stderr, "usage: %s FOLDER..\n", argv[0]);
        return 2;
    }
    for (int i = 1; i < argc; i++) {
        book_len = slurp(argv[i], "book.bin", book);
        sheet_len = slurp(argv[i], "sheet.bin", sheet);
        plan_len = slurp(argv[i], "plan.bin", plan);
        memcpy(book_words, book, MOST);
        memcpy(plan_words, plan, MOST);
        for (size_t f = 0; f < sizeof functions / sizeof *functions; f++) {
            size_t n = taken(area, functions[f].run);
            if (n > functions[f].most) {
                functions[f].most = n;
                functions[f].where = argv[i];
            }
        }
    }
    for (size_t f = 0; f < sizeof functions / sizeof *functions; f++) {
        printf("%-26s %8zu bytes of stack, in %s\n", functions[f].name, functions[f].most, functions[f].where);
        if (functions[f].most > TTEOKBIRAN_STACK)
            bad = 1;
    }
    printf("%-26s %8d bytes of stack are stated\n", "the header", TTEOKBIRAN_STACK);
    free(area);
    return bad;
}
