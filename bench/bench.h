/* Shared by the files of this folder: the questions and maps, and what the plain C desk and the questions by hand have in common. */
#ifndef BENCH_H
#define BENCH_H

#include <string.h>
#include "grafs.h"

enum { RADIUS, DRR, WSP, NWR, TRUST3, MAX8, QUESTIONS };
enum { RANDOM, CYCLE, GRID, MAP_A, MAPS };

typedef struct {
    const char *name, *about;
    const uint8_t *bytes;
    size_t len;
} sample;

extern const sample questions[QUESTIONS];
sample make_map(int number); /* from MAPS on: small ones, each good until the next is made */

/* The length of the answer, or GRAFS_REFUSAL plus a number. */
uint32_t desk_run(const uint8_t *worksheet, const sample *map, uint8_t *out, size_t lent);
uint32_t hand_run(int push, int question, const sample *map, uint8_t *out);

/* From here on: what the desk and the questions by hand have in common. It is inlined, so chains that are constants leave no trace of keys they lack. */
#define INLINE static inline __attribute__((always_inline))

_Static_assert(__BYTE_ORDER__ == __ORDER_LITTLE_ENDIAN__, "rows of a map are read as they stand, low byte first");

typedef struct {
    uint16_t from, to, seconds, crate;
} passage;

typedef struct {
    unsigned n, m;
    const uint8_t *rows;
} chart;

INLINE passage row_at(const chart *c, unsigned i)
{
    passage p;
    memcpy(&p, c->rows + 8 * i, sizeof p);
    return p;
}

/* Whether the bytes are a map. */
INLINE int read_map(const sample *map, chart *c)
{
    uint16_t counts[2];
    unsigned bad = 0;
    if (map->len < 9 || memcmp(map->bytes, "LPM\1\0", 5))
        return 0;
    memcpy(counts, map->bytes + 5, sizeof counts);
    *c = (chart){ counts[0], counts[1], map->bytes + 9 };
    if (c->n - 1 >= GRAFS_PLACES_MAX || c->m > GRAFS_PASSAGES_MAX || map->len != 9 + 8 * (size_t)c->m)
        return 0;
    for (unsigned i = 0; i < c->m; i++) {
        passage p = row_at(c, i);
        bad |= (p.from >= c->n) | (p.to >= c->n) | (p.crate == 0) | (p.crate == 65535);
    }
    return !bad;
}

/* All figures of a chain at a place are one word, less is better: the first key highest, the crate size in the low 16 bits, for key 5 as what is left
 * of 65,535. They fit: every figure kept is that of a walk of at most 255 passages, or a crate size. */
typedef struct {
    unsigned start;
    uint64_t at_start, per_place;     /* the word at place v, where a walk starts: at_start + v * per_place */
    uint64_t per_passage, per_second; /* what a passage adds */
    unsigned least, most;             /* 65535, 65535 with key 5: the low bits rise to the crate size; 0, 0 with key 6: they sink to it; else 0, 65535 */
    unsigned shift, mask, flip;       /* where the last key's figure stands, and its bits that stand the other way round */
} chain;

/* All chains of place 0, then of place 1, ..; aligned, so that copying takes the same instructions wherever they stand. */
typedef uint64_t words[GRAFS_PLACES_MAX * GRAFS_CHAINS_MAX] __attribute__((aligned(64)));

#define BIT(n) (UINT64_C(1) << (n))
#define NO_WALK BIT(62) /* and all above */

INLINE void begin(const chart *map, const chain *c, const int count, uint64_t *new)
{
    for (unsigned v = 0; v < map->n; v++)
        for (int i = 0; i < count; i++)
            new[v * count + i] = c[i].start == GRAFS_ANYWHERE || c[i].start == v ? c[i].at_start + v * c[i].per_place : NO_WALK;
}

/* What a passage brings from the words at one place to those at another. Not 0 where one changed. */
INLINE uint64_t relax(const chain *c, const int count, const uint64_t *from, uint64_t *to, passage p)
{
    uint64_t changed = 0;
#pragma GCC unroll 8
    for (int i = 0; i < count; i++) {
        uint64_t x = from[i] + c[i].per_passage + c[i].per_second * p.seconds, low = x & 65535;
        uint64_t least = (65535u - p.crate) & c[i].least, most = p.crate | c[i].most;
        x = x - low + (low < least ? least : low > most ? most : low);
        x = x < to[i] ? x : to[i];
        changed |= x ^ to[i];
        to[i] = x;
    }
    return changed;
}

/* Rounds over all rows until one changes nothing. How many. */
INLINE unsigned rounds_fused(const chart *map, const chain *c, const int count, uint64_t *new)
{
    words old;
    unsigned rounds = 0;
    uint64_t changed;
    do {
        changed = 0;
        memcpy(old, new, sizeof *old * map->n * (unsigned)count);
        for (unsigned e = 0; e < map->m; e++) {
            passage p = row_at(map, e);
            changed |= relax(c, count, old + p.from * count, new + p.to * count, p);
        }
        rounds++;
    } while (changed);
    return rounds;
}

typedef struct {
    uint64_t x;
    unsigned there; /* 1: there; 0: absent; 2: a sum too large, absent as well and for good */
} value;

INLINE value last_figure(const chain *c, uint64_t word)
{
    return (value){ ((word >> c->shift) ^ c->flip) & c->mask, word < NO_WALK };
}

#define OPERATOR(name, result, held) \
    INLINE value name(value a, value b) \
    { \
        uint64_t x = a.x, y = b.x; \
        return (value){ result, a.there & b.there & (held) }; \
    }
OPERATOR(plus, x + y, x + y >= x)
OPERATOR(minus, x - y, x >= y)
OPERATOR(times, x * y, !__builtin_mul_overflow_p(x, y, x))
OPERATOR(divided, x / (y ? y : 1), y != 0)
OPERATOR(is_equal, x == y, 1)
OPERATOR(is_less, x < y, 1)
OPERATOR(is_greater, x > y, 1)
OPERATOR(both, x && y, 1)
OPERATOR(either, x || y, 1)

/* Min and max: with one operand absent, the other one. */
INLINE value lesser(value a, value b) { return b.there != 1 || (a.there == 1 && a.x < b.x) ? a : b; }
INLINE value greater(value a, value b) { return b.there != 1 || (a.there == 1 && a.x > b.x) ? a : b; }

/* One more value in a reduction. */
INLINE void take(int reduction, value *kept, value v)
{
    uint64_t x = reduction == GRAFS_REDUCE_AND || reduction == GRAFS_REDUCE_OR ? v.x != 0 : v.x;
    if (v.there != 1 || kept->there == 2)
        return;
    if (kept->there == 0)
        *kept = (value){ x, 1 };
    else if (reduction == GRAFS_REDUCE_SUM)
        kept->there += __builtin_add_overflow(kept->x, x, &kept->x);
    else if (reduction == GRAFS_REDUCE_MIN || reduction == GRAFS_REDUCE_AND ? x < kept->x : x > kept->x)
        kept->x = x;
}

INLINE void put_head(uint8_t *out, unsigned n, unsigned rounds, int kind)
{
    uint8_t head[10] = { 'L', 'P', 'A', 1, 0, (uint8_t)n, (uint8_t)(n >> 8), (uint8_t)rounds, (uint8_t)(rounds >> 8), (uint8_t)kind };
    memcpy(out, head, sizeof head);
}

/* Row i of an answer. */
INLINE void put_row(uint8_t *out, unsigned i, value v)
{
    uint64_t x = v.there == 1 ? v.x : 0;
    out[10 + 9 * i] = v.there == 1;
    memcpy(out + 11 + 9 * i, &x, 8);
}

#endif
