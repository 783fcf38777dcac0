/* The judge of timeline plans for C: link with -ltteokbiran (pkg-config: tteokbiran).
 *
 * A run of bytes or words is lent as a pointer and then its count of elements. What is proved holds if the caller keeps these terms,
 * which nothing here can check:
 *   - a run's pointer points to as many elements as its count says, aligned for their type, readable (room, table, times, and what isn't const of
 *     remove_rules: writable too), and changed by nobody else during the call; with a count of 0 it may be any pointer, also NULL;
 *   - every other pointer (number, a, b, c; token of open; token, start, value, end and job of step) points to a writable number of its type,
 *     aligned; in one call no two of them overlap, and none lies in a run that is lent;
 *   - a run that is written (room, table, times; book and desks of remove_rules) overlaps no other run. Runs that are only read may overlap each
 *     other.
 * What number, a, b, c, value, end and job held before the call doesn't matter. No function keeps a pointer, uses the heap, or writes to
 * anything that isn't named here. Calls from several threads don't disturb each other.
 */
#ifndef TTEOKBIRAN_H
#define TTEOKBIRAN_H

#include <stdbool.h>
#include <stddef.h>
#include <stdint.h>

/* The bytes of stack that suffice for any call. This is measured (make stack), on the deepest searches that are known, and not proved. */
#define TTEOKBIRAN_STACK 1048576

#ifdef __cplusplus
extern "C" {
#endif

/* The answer for the bytes of a book and of a plan, as four numbers, one by one: number, a, b, c, as on the fault card. Bytes are
 * little-endian words. A run over 65,536 bytes, or no multiple of 4 long, counts as no words: 1 for the book, 5 for the plan, after the
 * book's faults. */
void tteokbiran_judge(const uint8_t *book, size_t book_len, const uint8_t *plan, size_t plan_len, uint32_t *number, uint32_t *a,
                      uint32_t *b, uint32_t *c);

/* The same for the bytes of a sheet, whose constraints are read directly. */
void tteokbiran_judge_sheet(const uint8_t *sheet, size_t sheet_len, const uint8_t *plan, size_t plan_len, uint32_t *number, uint32_t *a,
                            uint32_t *b, uint32_t *c);

/* A desk's own judgement, where two desks, 0 and 1, write rules into one book and share the plan. desks has one word for each rule of the book,
 * its desk. Answers 1 to 4; then 19, without place, for a list of the wrong length, a word over 1 or a desk over 1; then 5 to 11 and 18; then 12
 * for the desk's own rules only, with the rule's number in the whole book, or 0 with how many of the desk's own trigger tokens were examined. */
void tteokbiran_judge_desk(const uint8_t *book, size_t book_len, const uint8_t *plan, size_t plan_len, const uint32_t *desks,
                           size_t desks_len, uint32_t desk, uint32_t *number, uint32_t *a, uint32_t *b, uint32_t *c);

/* Translates the bytes of a sheet into a book, in lent words. On 0, a words were written at the start of room and b alternatives made;
 * the words behind them are as they were. On a refusal all of room is. */
void tteokbiran_translate(const uint8_t *sheet, size_t sheet_len, uint32_t *room, size_t room_len, uint32_t *number, uint32_t *a,
                          uint32_t *b, uint32_t *c);

/* What the constraints of an alternative of a sheet, numbered over the whole of table 3, leave for every two of its tokens: sets of the
 * relations 0 to 12, one word each, by left token, then right, the trigger first if the rule has one. So table holds n x n words for n
 * tokens, at most 25. Answers 1 to 4 for the sheet, 27 for an alternative that it hasn't got, 25 for a table that is too short, else 0;
 * none but 2 and 4 has a place. The words behind the table are as they were; on a refusal all of table is. */
void tteokbiran_narrow(const uint8_t *sheet, size_t sheet_len, uint32_t alternative, uint32_t *table, size_t table_len, uint32_t *number,
                       uint32_t *a, uint32_t *b, uint32_t *c);

/* Whether alternative number `alternative`, counted over all rules of the book, could be met on any day. Answers 1 to 4, then 27 for a
 * number that the book hasn't got; then 0 with a = 1 for yes, or a = 0 for no. With yes the earliest times stand at the start of times: start
 * and end of the trigger, if the rule has one, start and end of each name in order, and the plan's end last. They are at most 11, so 11 numbers
 * are room enough; fewer get as many of them as they hold. The numbers behind those shown, and on any other answer all, are as they were. */
void tteokbiran_earliest(const uint8_t *book, size_t book_len, uint32_t alternative, uint64_t *times, size_t times_len, uint32_t *number,
                         uint32_t *a, uint32_t *b, uint32_t *c);

/* Takes the rules whose numbers are listed out of a book, here as words, with their alternatives, names and atoms, and out of its list of desks, one
 * word a rule: both are closed up where they are lent. Answers 1 to 4, then 19 for a list of desks of another length than the book's rules or with a
 * word over 1, then 24 for numbers that don't strictly increase or that the book hasn't got; else 0 with a = the book's new words and b = its new
 * rule count. So the first a words of book and the first b of desks are the shorter book and its list; the words behind them are as they were. On a
 * refusal all words of both are. */
void tteokbiran_remove_rules(uint32_t *book, size_t book_len, uint32_t *desks, size_t desks_len, const uint32_t *list, size_t list_len,
                             uint32_t *number, uint32_t *a, uint32_t *b, uint32_t *c);

/* Writes the plan as events in time order, in lent words: edition, total words, number of events; then for each event the delay since the
 * event before, the number of actions, and for each action timeline, value, 0 for end or 1 for start, and in edition 2 the job. Answers 1 to
 * 11 and 18, then 21 with the words needed in a, else 0 with the words written in a; 65,367 words are room enough for any plan. The words
 * behind those written are as they were; on a refusal all of room is. */
void tteokbiran_write_events(const uint8_t *book, size_t book_len, const uint8_t *plan, size_t plan_len, uint32_t *room, size_t room_len,
                             uint32_t *number, uint32_t *a, uint32_t *b, uint32_t *c);

/* Reads a list of events, here as words, back into the plan's words. Answers 1 to 4 for the book; 20 for any list that the function above
 * couldn't have written by this book, one with words behind its end too; then 21 with the words needed in a, else 0 with the words written
 * in a; 16,384 words are room enough for any list. The words behind those written are as they were; on a refusal all of room is. */
void tteokbiran_read_events(const uint8_t *book, size_t book_len, const uint32_t *list, size_t list_len, uint32_t *room, size_t room_len,
                            uint32_t *number, uint32_t *a, uint32_t *b, uint32_t *c);

/* Whether the bytes are a sound book that speaks only of order: every atom has the bounds (0, N), (1, N) or (0, 0), and none has a time point or
 * the end of the plan. N is 4,294,967,295. */
bool tteokbiran_order_only(const uint8_t *book, size_t book_len);

/* The answer of tteokbiran_judge for a book that speaks only of order, by another way: start and end times are replaced by their ranks among all
 * starts and ends of the plan before the rules are tested. Answers 1 to 4 for the book, 26 for one that speaks of more than order, then what
 * tteokbiran_judge answers. */
void tteokbiran_judge_by_order(const uint8_t *book, size_t book_len, const uint8_t *plan, size_t plan_len, uint32_t *number, uint32_t *a,
                               uint32_t *b, uint32_t *c);

/* Opens a reader over timeline `line` of a plan, here as words. Answers 1 to 11 and 18, then 17 for a timeline that isn't there, else 0, as four
 * numbers. *token becomes the token number of the position to read from: 0, or 4,294,967,295 on a refusal, which names no token. The
 * position's start is 0 in both cases. */
void tteokbiran_open(const uint32_t *book, size_t book_len, const uint32_t *plan, size_t plan_len, uint32_t line, uint32_t *number,
                     uint32_t *a, uint32_t *b, uint32_t *c, uint32_t *token);

/* One step on timeline `line` of the lent words, at token number *token, which starts at *start. Any words and any position will do: it
 * isn't asked whether the plan was opened. True: *value, *end and *job are the token's, and *token and *start become the next position's. A
 * token has three words in edition 2, else two, and job 0. False: no more, and none of the five is changed. */
bool tteokbiran_step(const uint32_t *plan, size_t plan_len, uint32_t line, uint32_t *token, uint64_t *start, uint32_t *value,
                     uint64_t *end, uint32_t *job);

#ifdef __cplusplus
}
#endif

#endif
