/* A plain implementation of the calls, written from documents 01 and 02 and docs/DECISIONS.md alone, to compare the library with. */
#ifndef PLAIN_H
#define PLAIN_H

#include <stddef.h>
#include <stdint.h>

uint32_t plain_fuse(const uint8_t *question, size_t question_len, uint8_t *out, size_t lent);
uint32_t plain_run(const uint8_t *worksheet, size_t worksheet_len, const uint8_t *map, size_t map_len, uint8_t *out, size_t lent);

/* A worksheet or a board for so many rounds, up to 65,535, or to the first quiet one. By pull and by push are the same here. */
enum { PLAIN_QUIET = -1 };
uint32_t plain_run_for(const uint8_t *worksheet, size_t worksheet_len, const uint8_t *map, size_t map_len, int rounds, uint8_t *out, size_t lent);
uint32_t plain_board(const uint8_t *board, size_t board_len, const uint8_t *map, size_t map_len, int rounds, uint8_t *out, size_t lent);

/* A map with its rows in order. */
uint32_t plain_sort_map(const uint8_t *map, size_t map_len, uint8_t *out, size_t lent);

/* What a call with this result does to the tally: asked, answered, refused. */
void plain_count(uint32_t result, uint64_t tally[3]);

/* How often a condition was looked at at a place so far: absent, 0, another number. */
extern unsigned long long plain_conditions[3];

/* How often an operator met an absent operand so far: min or max the first one only, the second only, both; any other operator one or both. */
extern unsigned long long plain_absents[4];

/* Of sets so far: chains of accepted questions that are written as 0x10 and as a set of one; and runs answered, those of a set of two or more starts, of more
 * than eight, of a worksheet of version 2 that has single starts but no such set, and of one that has no start at all. */
typedef struct {
    unsigned long long written_both_ways, of_several, of_more_than_eight, version_2_of_single, version_2_of_none;
} plain_met;
extern plain_met plain_sets;

/* Where a board is refused, in the order of judging: by its count byte, a question's length, a question itself, bytes left over, its chains together, the map,
 * starts that the map does not have, the length lent. */
enum plain_where { PLAIN_COUNT, PLAIN_LENGTH, PLAIN_QUESTION, PLAIN_LEFT_OVER, PLAIN_CHAINS, PLAIN_MAP, PLAIN_STARTS, PLAIN_BUFFER, PLAIN_ANSWERED };

/* The last board: its count byte; how many different chains it has together; whether two questions share one, whether as 0x10 here and as a set of one there;
 * whether the separate rounds differ. What lies behind a refusal is 0. */
typedef struct {
    enum plain_where where;
    int questions, chains, shared, both_ways, rounds_differ;
} plain_board_met;
extern plain_board_met plain_last_board;

#endif
