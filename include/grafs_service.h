/* The calls of the tag service beside `fuse` and `run`: runs by pull and by push, to the first quiet round or for a given number of rounds, of a
 * worksheet or of a board of questions, counted in a tally or not; and grafs_sort_map, which writes a map with its rows in order. libservice.a has all of
 * them, and `fuse` and `run` too: it is linked in the place of libgrafs.a. docs/FORMATS.md has the bytes; grafs_build.h writes boards and walks over their
 * answers.
 *
 * Results, buffers, threads and memory are as grafs.h says. The buffers of one call, the tally among them, must not overlap. */
#ifndef GRAFS_SERVICE_H
#define GRAFS_SERVICE_H

#ifdef GRAFS_PREFIXED
#error "libservice.a has fuse and run by these names alone"
#endif

#include "grafs.h"

#ifdef __cplusplus
extern "C" {
#endif

#define GRAFS_BOARD_QUESTIONS_MAX 8

/* No longer board is accepted: a count byte, and eight times a length and the longest question. One so long is: at most eight different chains are no
 * bound on bytes, as a chain may be written often, and a question too. */
#define GRAFS_BOARD_MAX 10305

/* Lent so many bytes, no board is refused by GRAFS_BUFFER_SHORT: eight of the longest answers. */
#define GRAFS_BOARD_ANSWERS_MAX 18512

/* A thread that has so many bytes of stack left can make any call on a board; for any call on a worksheet GRAFS_RUN_STACK will do. Measured: some 56,000 and
 * 34,000 bytes; the rest is margin. */
#define GRAFS_BOARD_STACK 131072

/* A thread that has so many bytes of stack left can call grafs_sort_map. Measured: some 59,000 bytes; the rest is margin. */
#define GRAFS_SORT_STACK 131072

/* The tally of counted calls: three numbers, lent to each of them. A call adds one to asked, and one to answered or to refused, whatever it refuses by.
 * Where one of the three is at its greatest (UINT64_MAX) beforehand, none changes, and the call is otherwise the same. A board is one call. */
enum grafs_tally {
    GRAFS_TALLY_ASKED = 0,
    GRAFS_TALLY_ANSWERED = 1,
    GRAFS_TALLY_REFUSED = 2
};

/* A worksheet on a map, as `run`, which goes by push: both ways leave the same answer. */
uint32_t grafs_pull(const uint8_t *worksheet, size_t worksheet_len, const uint8_t *map, size_t map_len, uint8_t *out, size_t out_len);
uint32_t grafs_push(const uint8_t *worksheet, size_t worksheet_len, const uint8_t *map, size_t map_len, uint8_t *out, size_t out_len);

/* The same for so many rounds, quiet or not: the answer has the values over walks of at most so many passages, and reports that number. */
uint32_t grafs_pull_rounds(const uint8_t *worksheet, size_t worksheet_len, const uint8_t *map, size_t map_len, uint16_t rounds, uint8_t *out,
    size_t out_len);
uint32_t grafs_push_rounds(const uint8_t *worksheet, size_t worksheet_len, const uint8_t *map, size_t map_len, uint16_t rounds, uint8_t *out,
    size_t out_len);

/* A board: a count byte, 1 to 8, then each question (LPQ) behind its length of 16 bits, low byte first. The board is judged, the map (LPM), the starts, then
 * 15 for all answers together; the answers (LPA) are written to out one behind the other, in the order of the questions, all of them or none. Each is that of
 * its question alone, but for its rounds, which are the greatest of all. */
uint32_t grafs_board_pull(const uint8_t *board, size_t board_len, const uint8_t *map, size_t map_len, uint8_t *out, size_t out_len);
uint32_t grafs_board_push(const uint8_t *board, size_t board_len, const uint8_t *map, size_t map_len, uint8_t *out, size_t out_len);

/* The same for so many rounds, which every answer reports. */
uint32_t grafs_board_pull_rounds(const uint8_t *board, size_t board_len, const uint8_t *map, size_t map_len, uint16_t rounds, uint8_t *out,
    size_t out_len);
uint32_t grafs_board_push_rounds(const uint8_t *board, size_t board_len, const uint8_t *map, size_t map_len, uint16_t rounds, uint8_t *out,
    size_t out_len);

/* All of these, counted in a tally. */
uint32_t grafs_counted_pull(const uint8_t *worksheet, size_t worksheet_len, const uint8_t *map, size_t map_len, uint8_t *out, size_t out_len,
    uint64_t tally[3]);
uint32_t grafs_counted_push(const uint8_t *worksheet, size_t worksheet_len, const uint8_t *map, size_t map_len, uint8_t *out, size_t out_len,
    uint64_t tally[3]);
uint32_t grafs_counted_pull_rounds(const uint8_t *worksheet, size_t worksheet_len, const uint8_t *map, size_t map_len, uint16_t rounds, uint8_t *out,
    size_t out_len, uint64_t tally[3]);
uint32_t grafs_counted_push_rounds(const uint8_t *worksheet, size_t worksheet_len, const uint8_t *map, size_t map_len, uint16_t rounds, uint8_t *out,
    size_t out_len, uint64_t tally[3]);
uint32_t grafs_counted_board_pull(const uint8_t *board, size_t board_len, const uint8_t *map, size_t map_len, uint8_t *out, size_t out_len,
    uint64_t tally[3]);
uint32_t grafs_counted_board_push(const uint8_t *board, size_t board_len, const uint8_t *map, size_t map_len, uint8_t *out, size_t out_len,
    uint64_t tally[3]);
uint32_t grafs_counted_board_pull_rounds(const uint8_t *board, size_t board_len, const uint8_t *map, size_t map_len, uint16_t rounds, uint8_t *out,
    size_t out_len, uint64_t tally[3]);
uint32_t grafs_counted_board_push_rounds(const uint8_t *board, size_t board_len, const uint8_t *map, size_t map_len, uint16_t rounds, uint8_t *out,
    size_t out_len, uint64_t tally[3]);

/* The map (LPM) is judged, then 15; it is written to out with the same places and its rows in rising order of from, to, seconds, crate size, each as often
 * as it is there. So maps that have the same places and the same rows equally often, in whatever order, are written as the same bytes, and no others are; a
 * map that was written so is written as it stands; and every call above answers alike on both. As many bytes are written as the map has, GRAFS_MAP_MAX at
 * most. No tally counts it. */
uint32_t grafs_sort_map(const uint8_t *map, size_t map_len, uint8_t *out, size_t out_len);

#ifdef __cplusplus
}
#endif

#endif
