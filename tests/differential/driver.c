/* Random cases, legal and damaged, for the library and the plain implementation alike: the number returned and every byte of the buffer,
 * with guard bytes on both sides, must be the same, and the tally where the call is counted. Every fourth case is a board, every eighth a map to be sorted,
 * the others questions and worksheets.
 *
 *     driver CASES [FIRST]     cases FIRST, FIRST + 1, ..; a case depends on its number alone, so one can be tried again by itself
 *
 * Stops at the first difference and prints the case in hexadecimal. */
#include <stdio.h>
#include <stdlib.h>
#include <string.h>
#include "grafs_service.h"
#include "plain.h"

enum { SEED = 20261115, MOST = 16384, GUARD = 64, ANYWHERE = 65535, MOST_STARTS = 16, STARTS_ORDER = 17, MOST_CHAINS = 12 };

/* ---------------------------------------------------------------- chance */

static uint64_t state;

static uint64_t chance(void)
{
    uint64_t z = state += 0x9e3779b97f4a7c15u;
    z = (z ^ (z >> 30)) * 0xbf58476d1ce4e5b9u;
    z = (z ^ (z >> 27)) * 0x94d049bb133111ebu;
    return z ^ (z >> 31);
}

static unsigned below(unsigned n)
{
    return (unsigned)(chance() % n);
}

static unsigned between(unsigned low, unsigned high)
{
    return low + below(high - low + 1);
}

static int one_in(unsigned n)
{
    return below(n) == 0;
}

#define ONE_OF(...) ((const unsigned[]){ __VA_ARGS__ }[below(sizeof((const unsigned[]){ __VA_ARGS__ }) / sizeof(unsigned))])

/* ---------------------------------------------------------------- files */

typedef struct {
    uint8_t b[MOST];
    size_t len;
} file;

static void put(file *f, unsigned width, uint32_t x)
{
    for (unsigned i = 0; i < width && f->len < MOST; i++)
        f->b[f->len++] = (uint8_t)(x >> (8 * i));
}

static void put_head(file *f, char letter, unsigned version)
{
    f->len = 0;
    put(f, 1, 'L'), put(f, 1, 'P'), put(f, 1, (uint8_t)letter), put(f, 2, version);
}

/* Starts: 0 for anywhere; one, which may be what no map has; or a set, rising. */
typedef struct {
    unsigned count, keys[3], starts, start[MOST_STARTS];
} chain;

/* What a question or worksheet is made of. A wild one keeps no limit: of terms, depth, chains, reductions. In a crooked one every other set is wrong. */
typedef struct {
    file *f;
    int worksheet, wild, many, crooked; /* many: more reductions than there may be, each of one leaf */
    unsigned version;                   /* of a worksheet: how its chains are written, whatever the header says */
    unsigned chains, reductions, n;
    chain chain[MOST_CHAINS];
    unsigned entries; /* of a worksheet */
    unsigned terms;   /* still allowed for reductions' place terms */
} maker;

/* A set of so many of the first n places, each as likely as another. */
static void some_set(chain *c, unsigned starts, unsigned n)
{
    c->starts = 0;
    for (unsigned place = 0; place < n && c->starts < starts; place++)
        if (below(n - place) < starts - c->starts)
            c->start[c->starts++] = place;
}

static chain some_chain(unsigned n, int wild)
{
    chain c = { .count = between(1, 3) };
    for (unsigned i = 0; i < c.count; i++)
        c.keys[i] = between(1, i == c.count - 1 || (wild && one_in(15)) ? 6 : 4);
    unsigned from = one_in(60) ? ONE_OF(n < 256 ? n + 1 : n, 256) : n, most = from < MOST_STARTS ? from : MOST_STARTS;
    if (one_in(4))
        return c;
    some_set(&c, one_in(2) ? 1 : one_in(4) ? most : between(1, most), from);
    if (wild && one_in(40))
        c.starts = 1, c.start[0] = ONE_OF(255, 256, 257, 65534, 32768);
    return c;
}

/* A chain much like another one: a start less, or another one. */
static chain similar_chain(chain c, unsigned n)
{
    if (c.starts >= 2 && one_in(2))
        c.start[--c.starts] = 0;
    else if (c.starts && c.start[c.starts - 1] + 1 < n)
        c.start[c.starts - 1]++;
    return c;
}

static uint32_t some_literal(void)
{
    switch (below(6)) {
    case 0: return ONE_OF(0, 1, 2);
    case 1: return 4294967295u;
    case 2: return ONE_OF(65534, 65535, 65536, 2147483647, 2147483648u);
    case 3: return (uint32_t)chance();
    default: return below(20);
    }
}

/* One thing wrong with a set: a count that is none, or is not that of the starts; a start that no map has, one repeated, two in the wrong order. Returns the
 * count to be written. */
static unsigned bend(unsigned *start, unsigned starts)
{
    unsigned i = below(starts ? starts : 1), kept = start[i];
    switch (below(5)) {
    case 0: return ONE_OF(0, 17, 18, 255, starts - 1, starts + 1);
    case 1: start[i] = ONE_OF(255, 256, 257, 32768, 65534, ANYWHERE); break;
    case 2: start[i] += 256; break;
    case 3: start[i] = start[i ? i - 1 : 0]; break;
    default: start[i] = start[i ? i - 1 : 0], start[i ? i - 1 : 0] = kept;
    }
    return starts;
}

static void put_set(const maker *k, const chain *c)
{
    chain d = *c;
    unsigned count = d.starts;
    for (unsigned faults = k->crooked && one_in(2) ? between(1, 2) : 0; faults; faults--)
        count = bend(d.start, d.starts);
    put(k->f, 1, count);
    for (unsigned i = 0; i < d.starts; i++)
        put(k->f, 2, d.start[i]);
}

/* The keys in so many bytes, and the starts, as a set or not. */
static void put_chain(const maker *k, const chain *c, unsigned slots, int set)
{
    put(k->f, 1, c->count);
    for (unsigned i = 0; i < slots; i++)
        put(k->f, 1, i < c->count ? c->keys[i] : 0);
    if (set)
        put_set(k, c);
    else
        put(k->f, 2, c->starts ? c->start[0] : ANYWHERE);
}

static void put_operator(file *f, unsigned tag)
{
    put(f, 1, tag), put(f, 1, between(1, 11));
}

/* How many of the leaves go to the left, so that both sides fit into the depth left; a wild tree, or one in three, leans. */
static unsigned left_share(const maker *k, unsigned leaves, unsigned depth)
{
    unsigned most = depth >= 2 && depth < 12 ? 1u << (depth - 2) : 1024;
    unsigned low = leaves > most ? leaves - most : 1, high = leaves - 1 < most ? leaves - 1 : most;
    if (k->wild)
        return one_in(3) ? between(1, leaves - 1) : leaves - 1;
    return one_in(3) ? high : one_in(2) ? low : between(low, high);
}

static void literal(maker *k, uint32_t x)
{
    put(k->f, 1, 0x11), put(k->f, 4, x);
}

static void place_leaf(maker *k)
{
    if (k->wild && one_in(60)) { /* a result term, or what starts no term: 9 */
        put(k->f, 1, ONE_OF(0x14, 0x20, 0x21, 0x22, 0x23, 0x24, 0x31, 129, 131)), put(k->f, 1, between(1, 5));
        return;
    }
    if (!k->chains || one_in(4)) {
        literal(k, some_literal());
        return;
    }
    unsigned i = below(k->chains);
    const chain *c = &k->chain[i];
    int set = c->starts >= 2 || (c->starts == 1 && one_in(3)) || (k->crooked && one_in(10));
    int other = k->wild && one_in(40); /* as the other file has it: 9 */
    if (k->worksheet != other)
        put(k->f, 1, 0x30), put(k->f, 1, k->wild && one_in(40) ? below(10) : i);
    else
        put(k->f, 1, set ? 0x13 : 0x10), put_chain(k, c, c->count, set);
}

/* 2^64 - 1 exactly: (2^32 - 1) * (2^32 - 1) + ((2^32 - 1) + (2^32 - 1)); four leaves. */
static void greatest(file *f, unsigned operator, unsigned literal)
{
    const uint32_t x = 4294967295u;
    put(f, 1, operator), put(f, 1, 3);
    put(f, 1, operator), put(f, 1, 5), put(f, 1, literal), put(f, 4, x), put(f, 1, literal), put(f, 4, x);
    put(f, 1, operator), put(f, 1, 3), put(f, 1, literal), put(f, 4, x), put(f, 1, literal), put(f, 4, x);
}

/* A place term, or an entry's expression, of so many leaves. */
static void place_term(maker *k, unsigned leaves, unsigned depth)
{
    if (leaves <= 1)
        place_leaf(k);
    else if (leaves == 4 && depth >= 3 && one_in(6))
        greatest(k->f, 0x12, 0x11);
    else {
        unsigned left = left_share(k, leaves, depth);
        put_operator(k->f, 0x12);
        place_term(k, left, depth - 1);
        place_term(k, leaves - left, depth - 1);
    }
}

/* The most leaves that fit into a depth and a number of terms. */
static unsigned most_leaves(unsigned depth, unsigned terms)
{
    unsigned by_terms = terms ? (terms + 1) / 2 : 1, by_depth = depth < 8 ? 1u << (depth - 1) : 128;
    return by_terms < by_depth ? by_terms : by_depth;
}

static unsigned some_leaves(const maker *k, unsigned depth, unsigned terms)
{
    unsigned most = most_leaves(depth, terms);
    if (k->wild && one_in(2))
        return between(1, 40);
    return one_in(6) ? most : between(1, most < 6 ? most : 6);
}

/* An entry's value, or the condition of one that has such. Of the terms left to entries, `kept` stay for those behind. */
static void entry_term(maker *k, unsigned depth, unsigned kept)
{
    unsigned leaves = k->many ? 1 : some_leaves(k, depth, k->terms > kept ? k->terms - kept : 1);
    k->terms -= 2 * leaves - 1 < k->terms ? 2 * leaves - 1 : k->terms;
    place_term(k, leaves, depth);
}

/* A condition of three terms: a chain, or a literal, compared with a number such as it may have; or the same at every place: 0 - 1 and
 * 1 / 0, which are absent, and 2^32. */
static void comparison(maker *k)
{
    static const unsigned fixed[][3] = { { 4, 0, 1 }, { 6, 1, 0 }, { 5, 65536, 65536 } };
    if (one_in(8)) {
        const unsigned *of = fixed[below(3)];
        put(k->f, 1, 0x12), put(k->f, 1, of[0]), literal(k, of[1]), literal(k, of[2]);
        return;
    }
    put(k->f, 1, 0x12), put(k->f, 1, between(7, 9));
    place_leaf(k);
    if (one_in(4))
        place_leaf(k);
    else
        literal(k, one_in(4) ? ONE_OF(65534, 65535) : below(one_in(2) ? 4 : 50));
}

/* A condition: a comparison, mostly; a chain alone, the literals 0 and 1, and any other place term. */
static void condition(maker *k, unsigned depth, unsigned kept)
{
    unsigned way = below(8), room = k->terms > kept ? k->terms - kept : 1;
    if (k->many || way >= 5 || (way >= 2 && (depth < 2 || room < 3))) {
        entry_term(k, depth, kept);
        return;
    }
    unsigned taken = way >= 2 ? 3 : 1;
    k->terms -= k->terms < taken ? k->terms : taken;
    if (way >= 2)
        comparison(k);
    else if (way == 1)
        literal(k, below(2));
    else
        place_leaf(k);
}

/* A leaf of a result term: a reduction, every other one with a condition, while there are terms and reductions left, else a literal; in a
 * worksheet a reference. */
static void result_leaf(maker *k, unsigned depth)
{
    if (k->worksheet && k->entries && !one_in(4)) {
        put(k->f, 1, 0x31), put(k->f, 1, k->wild && one_in(40) ? below(10) : below(k->entries));
        return;
    }
    if (k->worksheet || (!k->wild && (k->terms == 0 || k->reductions == 0 || depth < 2)) || (!k->many && one_in(6))) {
        put(k->f, 1, 0x21), put(k->f, 4, some_literal());
        return;
    }
    int conditional = one_in(2) && (k->wild || k->terms >= 2);
    unsigned inside = depth > 1 ? depth - 1 : 1;
    put(k->f, 1, conditional ? 0x23 : 0x20);
    put(k->f, 1, k->wild && one_in(20) ? ONE_OF(0, 6, 127, 128, 129, 131, 133, 255) : between(1, 5));
    k->reductions -= k->reductions > 0;
    if (conditional)
        condition(k, inside, 1);
    entry_term(k, inside, 0);
}

static void result_term(maker *k, unsigned leaves, unsigned depth)
{
    if (leaves <= 1)
        result_leaf(k, depth);
    else if (leaves == 4 && depth >= 3 && one_in(12))
        greatest(k->f, 0x22, 0x21);
    else {
        unsigned left = left_share(k, leaves, depth);
        put_operator(k->f, 0x22);
        result_term(k, left, depth - 1);
        result_term(k, leaves - left, depth - 1);
    }
}

static maker some_maker(file *f, unsigned n, int worksheet)
{
    maker k = { .f = f, .worksheet = worksheet, .wild = one_in(12), .crooked = one_in(10), .n = n, .reductions = 8, .version = one_in(3) ? 2 : 1 };
    k.chains = one_in(10) ? 0 : one_in(3) ? 8 : between(1, 4);
    if (k.wild && one_in(2))
        k.chains = between(9, 12);
    for (unsigned i = 0; i < k.chains; i++) {
        k.chain[i] = i && one_in(4) ? k.chain[below(i)] : some_chain(n, k.wild);
        if (one_in(8))
            k.chain[i] = similar_chain(k.chain[i], n);
        if (k.chain[i].starts >= 2)
            k.version = 2;
    }
    return k;
}

static void put_question(maker *k)
{
    unsigned kind = below(2), depth = one_in(4) ? 16 : between(1, 16);
    put_head(k->f, 'Q', one_in(300) ? 2 : 1), put(k->f, 1, kind);
    if (kind == 0) {
        place_term(k, some_leaves(k, depth, 64), depth);
        return;
    }
    k->many = k->wild && one_in(3);
    unsigned leaves = k->many ? between(8, 12) : some_leaves(k, depth, one_in(3) ? 15 : 31);
    k->terms = leaves <= 32 ? 64 - (2 * leaves - 1) : 0;
    if (k->wild)
        k->terms += below(10);
    result_term(k, leaves, depth);
}

static void some_question(file *f, unsigned n)
{
    maker k = some_maker(f, n, 0);
    put_question(&k);
}

/* The reduction byte of an entry: for kind 1 every other time with 128 added; now and then one that is none. */
static unsigned reduction_byte(const maker *k, unsigned kind)
{
    if (one_in(k->wild ? 12 : 300))
        return ONE_OF(0, 1, 5, 6, 7, 127, 128, 129, 131, 133, 134, 135, 254, 255);
    return kind == 0 ? 0 : between(1, 5) + (one_in(2) ? 128 : 0);
}

/* Also such as no fusing writes: equal and unused chains, unused entries, version 2 of single starts. One in 40 has a header of another version than its
 * chains, or of none. */
static void some_worksheet(file *f, unsigned n)
{
    maker k = some_maker(f, n, 1);
    unsigned kind = below(2);
    k.terms = 64;
    k.entries = kind == 0 ? 1 : one_in(3) ? 8 : below(6);
    if (k.wild && one_in(3))
        k.entries = below(11);
    put_head(f, 'W', one_in(40) ? ONE_OF(0, 3, 3 - k.version, 256 + k.version) : k.version), put(f, 1, kind), put(f, 1, k.chains);
    for (unsigned i = 0; i < k.chains; i++)
        put_chain(&k, &k.chain[i], 3, k.version == 2);
    put(f, 1, k.entries);
    for (unsigned i = 0; i < k.entries; i++) {
        /* two terms for each entry behind this one, as they may have a condition, and one for the final expression */
        unsigned kept = 2 * (k.entries - 1 - i) + kind, byte = reduction_byte(&k, kind);
        put(f, 1, byte);
        if (byte >= 128)
            condition(&k, between(1, 16), kept + 1);
        entry_term(&k, between(1, 16), kept);
    }
    if (kind == 1) {
        unsigned depth = between(1, 16);
        result_term(&k, some_leaves(&k, depth, k.terms ? k.terms : 1), depth);
    }
}

/* ---------------------------------------------------------------- maps */

static unsigned some_places(void)
{
    switch (below(12)) {
    case 0: return 1;
    case 1: return 256;
    case 2: return between(65, 256);
    case 3: case 4: return between(9, 64);
    default: return between(2, 8);
    }
}

static unsigned some_seconds(unsigned manner)
{
    return manner == 0 ? below(4) : manner == 1 ? 0 : manner == 2 ? 65535 : manner == 3 ? below(65536) : below(50);
}

static unsigned some_size(unsigned manner)
{
    return manner == 0 ? between(1, 5) : manner == 1 ? ONE_OF(1, 2, 65533, 65534) : between(1, manner == 2 ? 65534 : 40);
}

/* Passages at random, in a ring, in a line, back and forth, or from a place to one close by. */
static void some_map(file *f, unsigned n)
{
    unsigned manner = below(6), seconds = below(5), size = below(4);
    unsigned m = manner >= 1 && manner <= 3 ? n + below(4) : one_in(12) ? 1024 : below((one_in(4) ? 4 : 2) * n + 3);
    if (m > 1024)
        m = 1024;
    put_head(f, 'M', one_in(300) ? 2 : 1), put(f, 2, n), put(f, 2, m);
    for (unsigned i = 0; i < m; i++) {
        unsigned from = below(n), to = below(n);
        if (manner == 1 && i < n)
            from = i, to = (i + 1) % n;
        else if (manner == 2 && i + 1 < n)
            from = n - 1 - i, to = n - 2 - i;
        else if (manner == 3 && i + 1 < n)
            from = i % 2 ? i + 1 : i, to = i % 2 ? i : i + 1;
        else if (manner == 4)
            to = (from + below(3)) % n;
        put(f, 2, from), put(f, 2, to), put(f, 2, some_seconds(seconds)), put(f, 2, some_size(size));
    }
}

/* ---------------------------------------------------------------- damage */

static unsigned boundary_byte(void)
{
    return ONE_OF(0, 1, 2, 3, 4, 5, 6, 7, 8, 9, 10, 11, 12, 0x10, 0x11, 0x12, 0x13, 0x14, 0x20, 0x21, 0x22, 0x23, 0x24, 0x30, 0x31, 127, 128, 129, 131, 133,
        134, 254, 255);
}

static unsigned boundary_number(void)
{
    return ONE_OF(0, 1, 2, 7, 8, 9, 63, 64, 65, 255, 256, 257, 258, 1023, 1024, 1025, 1026, 32767, 32768, 65533, 65534, 65535);
}

/* Shifts the bytes behind `at` and leaves `len` new ones there. */
static void insert(file *f, size_t at, size_t len)
{
    if (f->len + len > MOST)
        return;
    memmove(f->b + at + len, f->b + at, f->len - at);
    for (size_t i = 0; i < len; i++)
        f->b[at + i] = (uint8_t)(one_in(2) ? boundary_byte() : below(256));
    f->len += len;
}

static void delete(file *f, size_t at, size_t len)
{
    if (len > f->len - at)
        len = f->len - at;
    memmove(f->b + at, f->b + at + len, f->len - at - len);
    f->len -= len;
}

static void swap_pieces(file *f)
{
    size_t len = between(1, 8), a, b;
    if (f->len < 2 * len)
        return;
    a = below((unsigned)(f->len - 2 * len + 1));
    b = a + len + below((unsigned)(f->len - 2 * len - a + 1));
    for (size_t i = 0; i < len; i++) {
        uint8_t kept = f->b[a + i];
        f->b[a + i] = f->b[b + i], f->b[b + i] = kept;
    }
}

static void damage_once(file *f)
{
    if (f->len == 0) {
        insert(f, 0, between(1, 12));
        return;
    }
    size_t head = f->len < 14 ? f->len : 14, at = one_in(3) ? below((unsigned)head) : below((unsigned)f->len);
    switch (below(12)) {
    case 0: f->b[at] ^= (uint8_t)(1u << below(8)); break;
    case 1: case 2: case 3: f->b[at] = (uint8_t)boundary_byte(); break;
    case 4: f->b[at] = (uint8_t)below(256); break;
    case 5: f->len = at; break;
    case 6: f->len -= below(f->len < 12 ? (unsigned)f->len : 12); break;
    case 7: insert(f, at, between(1, 4)); break;
    case 8: insert(f, f->len, between(1, 9)); break;
    case 9: delete(f, at, between(1, 8)); break;
    case 10: swap_pieces(f); break;
    default:
        if (at + 2 <= f->len) {
            unsigned x = boundary_number();
            f->b[at] = (uint8_t)x, f->b[at + 1] = (uint8_t)(x >> 8);
        }
    }
}

static void damage(file *f)
{
    for (unsigned i = one_in(3) ? between(2, 4) : 1; i > 0; i--)
        damage_once(f);
}

/* A map's own: its counts, with or without rows to go with them, and the fields of a row at their limits. */
static void damage_map(file *f)
{
    unsigned n = f->b[5] + 256u * f->b[6], m = f->b[7] + 256u * f->b[8], x = boundary_number();
    switch (below(6)) {
    case 0:
        f->b[5] = (uint8_t)x, f->b[6] = (uint8_t)(x >> 8);
        break;
    case 1:
        f->b[7] = (uint8_t)x, f->b[8] = (uint8_t)(x >> 8);
        if (one_in(2) && 9 + 8 * x <= MOST && x > m)
            insert(f, f->len, 8 * (x - m));
        break;
    case 2:
    case 3:
    case 4:
        if (m) {
            uint8_t *field = f->b + 9 + 8 * below(m) + 2 * below(4);
            x = one_in(2) ? x : ONE_OF(n - 1, n, n + 1, 0, 65534, 65535);
            field[0] = (uint8_t)x, field[1] = (uint8_t)(x >> 8);
        }
        break;
    default:
        damage(f);
    }
}

/* ---------------------------------------------------------------- boards */

/* The chains from which all questions of a board take theirs, so that there are often no more than eight together, though every question has some; two boards
 * in five have more to choose from. Some are much like another one; one board in 20 is of a map with more places. */
static maker some_pool(unsigned places)
{
    unsigned n = one_in(20) ? between(places, 256) : places;
    maker pool = { .n = n, .chains = below(5) < 2 ? between(9, MOST_CHAINS) : one_in(2) ? 8 : between(1, 7) };
    for (unsigned i = 0; i < pool.chains; i++)
        pool.chain[i] = i && one_in(6) ? similar_chain(pool.chain[below(i)], n) : some_chain(n, 0);
    return pool;
}

/* A question that takes from some chains of the pool, one behind the other, seldom from none; and seldom from one of its own. One in twelve may take from all,
 * and have nine alone. */
static void pooled_question(file *f, const maker *pool)
{
    maker k = { .f = f, .wild = one_in(40), .crooked = one_in(60), .n = pool->n, .reductions = 8 };
    unsigned most = pool->chains > 8 && !one_in(12) ? 8 : pool->chains, first = below(pool->chains);
    k.chains = one_in(16) ? 0 : most > 8 || one_in(2) ? most : between(1, most < 3 ? most : 3);
    for (unsigned i = 0; i < k.chains; i++)
        k.chain[i] = one_in(100) ? some_chain(pool->n, k.wild) : pool->chain[(first + i) % pool->chains];
    put_question(&k);
}

/* One to eight questions, now and then the same one twice. Where one is to be damaged, it stands behind the length that it has then. */
static void some_board(file *f, unsigned n, int damaged)
{
    static file question;
    maker pool = some_pool(n);
    unsigned count = one_in(4) ? 8 : between(1, 8), wrong = damaged ? below(count) : count;
    f->len = 0;
    put(f, 1, count);
    for (unsigned i = 0; i < count; i++) {
        if (!i || !one_in(12) || i == wrong)
            pooled_question(&question, &pool);
        if (i == wrong)
            damage(&question);
        put(f, 2, (uint32_t)question.len);
        for (size_t k = 0; k < question.len; k++)
            put(f, 1, question.b[k]);
    }
}

/* Where the length of some question of an undamaged board stands. */
static size_t some_length(const file *f)
{
    size_t at = 1;
    for (unsigned i = below(f->b[0]); i > 0; i--) {
        size_t next = at + 2 + f->b[at] + 256u * f->b[at + 1];
        if (next + 2 > f->len) /* a board that found no room */
            break;
        at = next;
    }
    return at;
}

/* A board's own: its count, one of its lengths, a cut, bytes left over, any damage. */
static void damage_board(file *f)
{
    size_t at = some_length(f);
    unsigned count = f->b[0], x = f->b[at] + 256u * f->b[at + 1], any = boundary_number();
    switch (below(6)) {
    case 0: f->b[0] = (uint8_t)ONE_OF(0, 9, 255, 8, 1, count + 1, count - 1, any); break;
    case 1: f->len = one_in(8) ? 0 : below(one_in(4) && f->len > 12 ? 12 : (unsigned)f->len); break;
    case 2:
        x = ONE_OF(0, 1, x - 1, x + 1, x + 2, x + 256, 65535, any);
        f->b[at] = (uint8_t)x, f->b[at + 1] = (uint8_t)(x >> 8);
        break;
    case 3: insert(f, f->len, between(1, 14)); break;
    case 4: f->len = one_in(3) ? at : one_in(2) ? at + 1 : at + 2; break;
    default: damage(f);
    }
}

/* ---------------------------------------------------------------- maps to be sorted */

enum { MAP_HEAD = 9, ROW = 8 };

static unsigned at16(const uint8_t *p)
{
    return p[0] + 256u * p[1];
}

static void set16(uint8_t *p, unsigned x)
{
    p[0] = (uint8_t)x, p[1] = (uint8_t)(x >> 8);
}

static unsigned some_row_count(void)
{
    switch (below(12)) {
    case 0: return below(3);
    case 1: return ONE_OF(1023, 1024, 1024);
    case 2: return ONE_OF(15, 16, 17, 31, 32, 33, 63, 64, 65, 127, 128, 129, 255, 256, 257, 511, 512, 513);
    case 3: return between(20, 300);
    default: return between(2, 20);
    }
}

/* A place, seconds or a crate size, in one map of few different ones, or of such as a low byte alone would put in another order, or of any. */
static unsigned some_place_of(unsigned n, unsigned manner)
{
    return manner == 0 ? below(n < 3 ? n : 3) : below(n);
}

static unsigned some_field_of(unsigned manner)
{
    return manner == 0 ? between(1, 3) : manner == 1 ? ONE_OF(1, 254, 255, 256, 257, 511, 512, 32767, 32768, 65280, 65533, 65534) : between(1, 65534);
}

static void shuffle_rows(file *f)
{
    for (unsigned i = at16(f->b + 7); i > 1; i--) {
        uint8_t *a = f->b + MAP_HEAD + ROW * (i - 1), *b = f->b + MAP_HEAD + ROW * below(i), kept[ROW];
        memcpy(kept, a, ROW), memmove(a, b, ROW), memcpy(b, kept, ROW);
    }
}

static void reverse_rows(file *f)
{
    for (unsigned i = 0, k = at16(f->b + 7); i + 1 < k; i++) {
        uint8_t *a = f->b + MAP_HEAD + ROW * i, *b = f->b + MAP_HEAD + ROW * --k, kept[ROW];
        memcpy(kept, a, ROW), memmove(a, b, ROW), memcpy(b, kept, ROW);
    }
}

/* Rows of which many have their first fields, or all, from the one before; then as they are, in order, in falling order, in order but for one row, or in two
 * parts that are in order each. */
static void some_rows(file *f, unsigned n)
{
    unsigned m = some_row_count(), places = below(2), seconds = below(3), size = below(3), alike = below(3);
    put_head(f, 'M', one_in(100) ? ONE_OF(0, 2, 256, 257) : 1), put(f, 2, n), put(f, 2, m);
    for (unsigned i = 0; i < m; i++) {
        unsigned row[4] = { some_place_of(n, places), some_place_of(n, places), some_field_of(seconds) - one_in(10), some_field_of(size) };
        for (unsigned k = i && alike ? below(alike == 1 ? 5 : 9) : 0; k > 0; k--)
            if (k <= 4)
                row[k - 1] = at16(f->b + f->len - ROW + 2 * (k - 1));
        for (unsigned k = 0; k < 4; k++)
            put(f, 2, row[k]);
    }
    unsigned order = below(8);
    static file sorted;
    if (order > 3 || m < 2 || plain_sort_map(f->b, f->len, sorted.b, MOST) >= GRAFS_REFUSAL)
        return;
    memcpy(f->b, sorted.b, f->len);
    if (order == 1)
        reverse_rows(f);
    else if (order == 2)
        set16(f->b + MAP_HEAD + ROW * below(m), below(n));
    else if (order == 3) {
        size_t cut = ROW * (size_t)below(m);
        memcpy(f->b + MAP_HEAD, sorted.b + MAP_HEAD + cut, ROW * m - cut);
        memcpy(f->b + MAP_HEAD + ROW * m - cut, sorted.b + MAP_HEAD, cut);
    }
}

/* Places that there are not and crate sizes that are none, in one to four fields. */
static void spoil_rows(file *f)
{
    unsigned n = at16(f->b + 5), m = at16(f->b + 7);
    for (unsigned i = m ? between(1, 4) : 0; i > 0; i--) {
        uint8_t *row = f->b + MAP_HEAD + ROW * below(m);
        if (one_in(2))
            set16(row + 6, ONE_OF(0, 65535));
        else
            set16(row + 2 * below(2), ONE_OF(n, n + 1, n + 256, 65535));
    }
}

/* Counts at their limits, one of them or both; rows to go with 1,025. */
static void spoil_counts(file *f)
{
    unsigned m = at16(f->b + 7), which = between(1, 3);
    if (which & 1)
        set16(f->b + 5, ONE_OF(0, 0, 1, 256, 257, 257, 65535));
    if (which & 2)
        set16(f->b + 7, ONE_OF(m - 1, m + 1, 0, 1024, 1025, 1025, 65535));
    if (at16(f->b + 7) == 1025 && one_in(2))
        insert(f, f->len, MAP_HEAD + ROW * 1025 - f->len);
}

/* ---------------------------------------------------------------- comparing */

enum { PULL, PUSH };
enum { FUSE, RUN, BOARD, SORT, CALLS };
enum { ON_WORKSHEET, ON_BOARD };

typedef uint32_t quiet_call(const uint8_t *, size_t, const uint8_t *, size_t, uint8_t *, size_t);
typedef uint32_t rounds_call(const uint8_t *, size_t, const uint8_t *, size_t, uint16_t, uint8_t *, size_t);
typedef uint32_t counted_call(const uint8_t *, size_t, const uint8_t *, size_t, uint8_t *, size_t, uint64_t *);
typedef uint32_t counted_rounds_call(const uint8_t *, size_t, const uint8_t *, size_t, uint16_t, uint8_t *, size_t, uint64_t *);

static quiet_call *const quiet[2][2] = { { grafs_pull, grafs_push }, { grafs_board_pull, grafs_board_push } };
static rounds_call *const rounds_of[2][2] = { { grafs_pull_rounds, grafs_push_rounds }, { grafs_board_pull_rounds, grafs_board_push_rounds } };
static counted_call *const counted[2][2] = { { grafs_counted_pull, grafs_counted_push }, { grafs_counted_board_pull, grafs_counted_board_push } };
static counted_rounds_call *const counted_rounds[2][2] = { { grafs_counted_pull_rounds, grafs_counted_push_rounds },
    { grafs_counted_board_pull_rounds, grafs_counted_board_push_rounds } };

static unsigned long long numbers[CALLS][STARTS_ORDER + 1], numbered, most_rounds, past_places, full_tallies;

static void print_file(const char *name, const file *f)
{
    printf("%s", name);
    for (size_t i = 0; i < f->len; i++)
        printf(" %02x", f->b[i]);
    printf("\n");
}

static uint8_t *copy_of(const uint8_t *p, size_t len)
{
    uint8_t *q = malloc(len ? len : 1);
    if (!q)
        exit(2);
    memcpy(q, p, len);
    return q;
}

static unsigned number_of(uint32_t result)
{
    return result < GRAFS_REFUSAL ? 0 : result - GRAFS_REFUSAL;
}

/* Both implementations on the same bytes, in buffers filled alike; `map` is null but for run. Returns the number of bytes written, or 65,536 + number. */
static uint32_t compare(unsigned long long index, int what, const file *first, const file *map, size_t lent)
{
    static const char *const names[CALLS] = { "fuse", "run", "board", "sort" };
    size_t room = lent + 2 * GUARD, map_len = map ? map->len : 0;
    uint8_t *a = copy_of(first->b, first->len), *b = map ? copy_of(map->b, map_len) : NULL;
    uint8_t *theirs = malloc(room), *ours = malloc(room), fill = (uint8_t)below(256);
    if (!theirs || !ours)
        exit(2);
    memset(theirs, fill, room), memset(ours, fill, room);
    uint32_t x = what == RUN ? run(a, first->len, b, map_len, theirs + GUARD, lent)
                             : (what == SORT ? grafs_sort_map : fuse)(a, first->len, theirs + GUARD, lent);
    int kept = !memcmp(a, first->b, first->len) && (!map || !memcmp(b, map->b, map_len));
    uint32_t y = what == RUN ? plain_run(a, first->len, b, map_len, ours + GUARD, lent)
                             : (what == SORT ? plain_sort_map : plain_fuse)(a, first->len, ours + GUARD, lent);
    size_t differs = 0;
    while (differs < room && theirs[differs] == ours[differs])
        differs++;
    if (x != y || differs < room || !kept) {
        printf("case %llu differs: %s, lent %zu: library %u, plain %u; first byte that differs %ld; inputs %s\n", index, names[what], lent, x, y,
            differs < room ? (long)differs - GUARD : -1L, kept ? "as they were" : "changed");
        print_file("first", first);
        if (map)
            print_file("map", map);
        exit(1);
    }
    numbers[what][number_of(x)]++;
    if (what == RUN && x < GRAFS_REFUSAL) {
        const uint8_t *answer = ours + GUARD;
        unsigned n = answer[5] + 256u * answer[6], rounds = answer[7] + 256u * answer[8];
        numbered += answer[10] == 1;
        past_places += rounds > n;
        most_rounds = rounds > most_rounds ? rounds : most_rounds;
    }
    free(a), free(b), free(theirs), free(ours);
    return x;
}

/* A number of rounds: few, those of the map, or so many as hardly any map needs; the most of all only where a round costs little. */
static int some_rounds(const file *map)
{
    unsigned n = map->len < 9 ? 1 : map->b[5] + 256u * map->b[6];
    switch (below(8)) {
    case 0: return 0;
    case 1: return (int)(n < 256 ? n : 256);
    case 2: return (int)(n < 256 ? 2 * n : 512);
    case 3: return map->len < 100 && one_in(4) ? 65535 : map->len < 1000 ? 700 : 300;
    default: return (int)between(1, 6);
    }
}

/* Around small numbers and around the greatest; one in four can count no more. */
static void some_tally(uint64_t tally[3])
{
    for (int i = 0; i < 3; i++)
        tally[i] = one_in(10) ? UINT64_MAX : one_in(6) ? UINT64_MAX - 1 : one_in(6) ? UINT32_MAX : below(100);
    full_tallies += tally[0] == UINT64_MAX || tally[1] == UINT64_MAX || tally[2] == UINT64_MAX;
}

/* A call by its ways: what it is made on, PULL or PUSH, to quiet or for given rounds, counted where there is a tally. */
static uint32_t call(int on, int way, const uint8_t *a, size_t len, const uint8_t *map, size_t map_len, int rounds, uint8_t *out, size_t lent, uint64_t *tally)
{
    if (tally)
        return rounds == PLAIN_QUIET ? counted[on][way](a, len, map, map_len, out, lent, tally)
                                     : counted_rounds[on][way](a, len, map, map_len, (uint16_t)rounds, out, lent, tally);
    return rounds == PLAIN_QUIET ? quiet[on][way](a, len, map, map_len, out, lent) : rounds_of[on][way](a, len, map, map_len, (uint16_t)rounds, out, lent);
}

/* One call of the library, and what is wanted of it: the result, and all of the room that the buffer is the middle of. */
static void compare_way(unsigned long long index, int on, int way, int count, const file *first, const file *map, int rounds, size_t lent, uint32_t want,
    const uint8_t *wanted, uint8_t fill)
{
    size_t room = lent + 2 * GUARD, differs = 0;
    uint8_t *a = copy_of(first->b, first->len), *b = copy_of(map->b, map->len), *theirs = malloc(room);
    uint64_t tally[5] = { 0x5a5a5a5a5a5a5a5a, 0, 0, 0, 0x5a5a5a5a5a5a5a5a }, tallied[5];
    if (!theirs)
        exit(2);
    memset(theirs, fill, room);
    if (count)
        some_tally(tally + 1);
    memcpy(tallied, tally, sizeof tally);
    if (count)
        plain_count(want, tallied + 1);
    uint32_t x = call(on, way, a, first->len, b, map->len, rounds, theirs + GUARD, lent, count ? tally + 1 : NULL);
    int kept = !memcmp(a, first->b, first->len) && !memcmp(b, map->b, map->len);
    while (differs < room && theirs[differs] == wanted[differs])
        differs++;
    if (x != want || differs < room || !kept || memcmp(tally, tallied, sizeof tally)) {
        printf("case %llu differs: %s%s by %s, rounds %d, lent %zu: library %u, plain %u; first byte that differs %ld; inputs %s; tally %s\n", index,
            count ? "counted " : "", on == ON_BOARD ? "board" : "worksheet", way == PUSH ? "push" : "pull", rounds, lent, x, want,
            differs < room ? (long)differs - GUARD : -1L, kept ? "as they were" : "changed", memcmp(tally, tallied, sizeof tally) ? "differs" : "right");
        print_file("first", first);
        print_file("map", map);
        exit(1);
    }
    free(a), free(b), free(theirs);
}

/* All eight calls on a worksheet or on a board: to quiet and for some rounds, by pull and by push, counted and not. Returns the number. */
static unsigned compare_ways(unsigned long long index, int on, const file *first, const file *map, size_t lent)
{
    size_t room = lent + 2 * GUARD;
    uint8_t *wanted = malloc(room), fill = (uint8_t)below(256);
    plain_met met = plain_sets; /* `run` has counted the worksheet */
    uint32_t want = 0;
    if (!wanted)
        exit(2);
    for (int given = 1; given >= 0; given--) {
        int rounds = given ? some_rounds(map) : PLAIN_QUIET;
        memset(wanted, fill, room);
        want = on == ON_BOARD ? plain_board(first->b, first->len, map->b, map->len, rounds, wanted + GUARD, lent)
                              : plain_run_for(first->b, first->len, map->b, map->len, rounds, wanted + GUARD, lent);
        for (int i = 0; i < 4; i++)
            compare_way(index, on, i % 2 ? PUSH : PULL, i / 2, first, map, rounds, lent, want, wanted, fill);
    }
    plain_sets = met;
    free(wanted);
    return number_of(want);
}

/* Around what is needed: exact, one short, none, some more, much more. */
static size_t some_lent(size_t need)
{
    switch (below(8)) {
    case 0: return need - 1;
    case 1: return one_in(3) ? 0 : below((unsigned)need);
    case 2: return need + below(40);
    case 3: return one_in(4) ? between(60000, 70000) : between(0, 3000);
    default: return need;
    }
}

/* The length of the answer, as far as these bytes tell; 1 where they do not. */
static size_t answer_length(const file *worksheet, const file *map)
{
    if (worksheet->len < 6 || map->len < 9)
        return 1;
    return 10 + 9 * (size_t)(worksheet->b[5] ? 1 : map->b[5] + 256u * map->b[6]);
}

/* A question fused and, where it is accepted, its worksheet run on a map; or a worksheet that no fusing wrote. In every other case each
 * file may be damaged. */
static void try_sheet(unsigned long long index)
{
    static file question, worksheet, map;
    static uint8_t room[GRAFS_WORKSHEET_MAX];
    unsigned n = some_places();
    int damaged = one_in(2);
    some_map(&map, n);
    if (one_in(2)) {
        some_question(&question, n);
        if (damaged && one_in(2))
            damage(&question);
        uint32_t need = plain_fuse(question.b, question.len, room, sizeof room);
        compare(index, FUSE, &question, NULL, some_lent(need < GRAFS_REFUSAL ? need : 40));
        if (need >= GRAFS_REFUSAL)
            return;
        memcpy(worksheet.b, room, need);
        worksheet.len = need;
    } else
        some_worksheet(&worksheet, n);
    if (damaged && one_in(2))
        damage(&worksheet);
    if (damaged && one_in(2))
        damage_map(&map);
    size_t lent = some_lent(answer_length(&worksheet, &map));
    compare(index, RUN, &worksheet, &map, lent);
    compare_ways(index, ON_WORKSHEET, &worksheet, &map, lent);
}

/* What boards were like. */
static struct {
    unsigned long long all, refused[PLAIN_ANSWERED][STARTS_ORDER + 1], answered[9], rounds_differ, shared, both_ways, of_eight_chains;
} boards;

static void count_board(unsigned number)
{
    const plain_board_met *met = &plain_last_board;
    numbers[BOARD][number]++;
    boards.all++;
    if (number) {
        boards.refused[met->where][number]++;
        return;
    }
    boards.answered[met->questions]++;
    boards.rounds_differ += (unsigned)met->rounds_differ;
    boards.shared += (unsigned)met->shared;
    boards.both_ways += (unsigned)met->both_ways;
    boards.of_eight_chains += met->chains == 8;
}

/* A board on a map, in every other case with damage to it, to one of its questions or to the map. */
static void try_board(unsigned long long index)
{
    static file board, map;
    static uint8_t room[GRAFS_BOARD_ANSWERS_MAX];
    unsigned n = some_places();
    int damaged = one_in(2);
    some_map(&map, n);
    some_board(&board, n, damaged && one_in(3));
    if (damaged && one_in(2))
        damage_board(&board);
    if (damaged && one_in(4))
        damage_map(&map);
    uint32_t need = plain_board(board.b, board.len, map.b, map.len, 0, room, sizeof room);
    size_t lent = some_lent(need < GRAFS_REFUSAL ? need : 40);
    count_board(compare_ways(index, ON_BOARD, &board, &map, lent));
}

/* What maps to be sorted were like: by the fields in which neighbours in order differ first, 4 where in none. */
static struct {
    unsigned long long all, first_differ[5], in_order, falling, of_no_row, of_most_rows, place_before_crate, crate_before_place, alike[2], refused_alike;
} sorts;

/* The field in which two rows differ first, 4 where in none, and whether the first row is the lesser one there. */
static unsigned first_difference(const uint8_t *a, const uint8_t *b, int *less)
{
    unsigned field = 0;
    while (field < 4 && at16(a + 2 * field) == at16(b + 2 * field))
        field++;
    *less = field < 4 && at16(a + 2 * field) < at16(b + 2 * field);
    return field;
}

/* Of a map that was sorted, as it was handed over and as it was written. */
static void count_sorted(const file *map, const file *sorted)
{
    unsigned m = at16(map->b + 7);
    int met[5] = { 0 }, rising = 1, falling = 1, less;
    for (unsigned i = 1; i < m; i++) {
        const uint8_t *row = sorted->b + MAP_HEAD + ROW * i, *handed = map->b + MAP_HEAD + ROW * i;
        met[first_difference(row - ROW, row, &less)] = 1;
        rising &= first_difference(handed - ROW, handed, &less) == 4 || less;
        falling &= first_difference(handed - ROW, handed, &less) == 4 || !less;
    }
    for (int i = 0; i < 5; i++)
        sorts.first_differ[i] += (unsigned)met[i];
    sorts.in_order += m > 1 && rising;
    sorts.falling += m > 1 && falling && !rising;
    sorts.of_no_row += m == 0;
    sorts.of_most_rows += m == 1024;
}

/* Of one that was refused by 7 or 8: whether another row has the other fault. */
static void count_refused(const file *map, unsigned number)
{
    unsigned n = at16(map->b + 5), places = 0, crates = 0;
    if (number != GRAFS_NO_SUCH_PLACE && number != GRAFS_CRATE)
        return;
    for (const uint8_t *row = map->b + MAP_HEAD; row < map->b + map->len; row += ROW) {
        unsigned size = at16(row + 6), place = at16(row) >= n || at16(row + 2) >= n;
        places += place;
        crates += !place && (size == 0 || size == 65535);
    }
    sorts.place_before_crate += number == GRAFS_NO_SUCH_PLACE && crates;
    sorts.crate_before_place += number == GRAFS_CRATE && places;
}

static void sort_differs(unsigned long long index, const char *what, const file *map, const file *other)
{
    printf("case %llu differs: sort, %s\n", index, what);
    print_file("map", map);
    print_file("other", other);
    exit(1);
}

/* Whether the library writes the other map as the same bytes. */
static int sorts_alike(const file *other, const file *sorted)
{
    static uint8_t room[GRAFS_MAP_MAX];
    uint32_t x = grafs_sort_map(other->b, other->len, room, sizeof room);
    return x == sorted->len && !memcmp(room, sorted->b, x);
}

/* Another map: a field of a row, a row less, one twice in place of another one, a place more. Returns 0 where it would be the same, or none. */
static int make_other(file *f)
{
    unsigned n = at16(f->b + 5), m = at16(f->b + 7), way = below(4), field = below(4), x;
    uint8_t *row = m ? f->b + MAP_HEAD + ROW * below(m) : NULL, *twice = m ? f->b + MAP_HEAD + ROW * below(m) : NULL;
    switch (m ? way : 0) {
    case 0:
        set16(f->b + 5, n + 1);
        return n < 256;
    case 1:
        memmove(row, row + ROW, (size_t)(f->b + f->len - (row + ROW)));
        f->len -= ROW, set16(f->b + 7, m - 1);
        return 1;
    case 2:
        if (!memcmp(row, twice, ROW))
            return 0;
        memcpy(row, twice, ROW);
        return 1;
    default:
        x = field < 2 ? below(n) : one_in(2) ? between(1, 65534) : at16(row + 2 * field) ^ (1u << below(16));
        if (x == at16(row + 2 * field) || (field == 3 && (x == 0 || x == 65535)))
            return 0;
        set16(row + 2 * field, x);
        return 1;
    }
}

/* A worksheet or a board on both maps, by a way and for some rounds or to quiet: the same number and bytes, refused ones too. */
static void answers_alike(unsigned long long index, int on, const file *asked, const file *map, const file *sorted)
{
    static uint8_t one[GRAFS_BOARD_ANSWERS_MAX], two[GRAFS_BOARD_ANSWERS_MAX];
    int way = one_in(2) ? PUSH : PULL, rounds = one_in(2) ? PLAIN_QUIET : some_rounds(map);
    size_t lent = one_in(8) ? below(60) : sizeof one;
    uint8_t fill = (uint8_t)below(256);
    memset(one, fill, sizeof one), memset(two, fill, sizeof two);
    uint32_t x = call(on, way, asked->b, asked->len, map->b, map->len, rounds, one, lent, NULL);
    uint32_t y = call(on, way, asked->b, asked->len, sorted->b, sorted->len, rounds, two, lent, NULL);
    if (x != y || memcmp(one, two, sizeof one)) {
        print_file("asked", asked);
        sort_differs(index, "another answer on the sorted map", map, sorted);
    }
    sorts.alike[on] += x < GRAFS_REFUSAL;
    sorts.refused_alike += x >= GRAFS_REFUSAL;
}

/* An accepted map: again, shuffled, changed, asked. */
static void try_sorted(unsigned long long index, const file *map, const file *sorted)
{
    static file other, asked;
    unsigned n = at16(map->b + 5);
    if (!sorts_alike(sorted, sorted))
        sort_differs(index, "sorted again", map, sorted);
    other = *map;
    shuffle_rows(&other);
    if (!sorts_alike(&other, sorted))
        sort_differs(index, "shuffled", map, &other);
    for (int i = 0; i < 3; i++) {
        other = *map;
        if (!make_other(&other))
            continue;
        shuffle_rows(&other);
        if (sorts_alike(&other, sorted))
            sort_differs(index, "the same bytes for another map", map, &other);
    }
    some_worksheet(&asked, n);
    answers_alike(index, ON_WORKSHEET, &asked, map, sorted);
    some_board(&asked, n, 0);
    answers_alike(index, ON_BOARD, &asked, map, sorted);
}

/* A map is sorted, in one of three cases damaged. Of one that is accepted, what the library writes must be as it is promised. */
static void try_sort(unsigned long long index)
{
    static void (*const harm[])(file *) = { damage, damage_map, spoil_rows, spoil_counts };
    static file map, sorted;
    unsigned n = some_places();
    if (one_in(6))
        some_map(&map, n);
    else
        some_rows(&map, n);
    if (one_in(3))
        harm[below(4)](&map);
    uint32_t number = number_of(compare(index, SORT, &map, NULL, some_lent(one_in(20) ? 9 : map.len ? map.len : 1)));
    sorts.all++;
    count_refused(&map, number);
    if (number && number != GRAFS_BUFFER_SHORT)
        return;
    uint32_t len = grafs_sort_map(map.b, map.len, sorted.b, MOST);
    if (len != map.len)
        sort_differs(index, "another length", &map, &sorted);
    sorted.len = len;
    count_sorted(&map, &sorted);
    try_sorted(index, &map, &sorted);
}

static void try_case(unsigned long long index)
{
    state = SEED + index * 0x2545f4914f6cdd1du;
    if (index % 4 == 3)
        try_board(index);
    else if (index % 8 == 5)
        try_sort(index);
    else
        try_sheet(index);
}

/* What matters of conditions, sets, boards and maps to be sorted, and how often it was met. Returns whether all of it was. */
static int all_met(void)
{
    const struct {
        const char *what;
        unsigned long long count;
    } met[] = {
        { "conditions at a place that are absent", plain_conditions[0] },
        { "conditions at a place that are 0", plain_conditions[1] },
        { "conditions at a place that are another number", plain_conditions[2] },
        { "min or max with the first operand absent", plain_absents[0] },
        { "min or max with the second operand absent", plain_absents[1] },
        { "min or max with both operands absent", plain_absents[2] },
        { "other operators with an absent operand", plain_absents[3] },
        { "chains written as 0x10 and as a set of one", plain_sets.written_both_ways },
        { "runs answered with a set of two or more starts", plain_sets.of_several },
        { "runs answered with a set of more than eight starts", plain_sets.of_more_than_eight },
        { "runs answered of version 2 with single starts", plain_sets.version_2_of_single },
        { "runs answered of version 2 with no start", plain_sets.version_2_of_none },
        { "questions refused 17", numbers[FUSE][STARTS_ORDER] },
        { "worksheets refused 17", numbers[RUN][STARTS_ORDER] },
        { "tallies that can count no more", full_tallies },
        { "boards", boards.all },
        { "boards answered", numbers[BOARD][0] },
        { "boards answered of 1 question", boards.answered[1] },
        { "boards answered of 2 questions", boards.answered[2] },
        { "boards answered of 3 questions", boards.answered[3] },
        { "boards answered of 4 questions", boards.answered[4] },
        { "boards answered of 5 questions", boards.answered[5] },
        { "boards answered of 6 questions", boards.answered[6] },
        { "boards answered of 7 questions", boards.answered[7] },
        { "boards answered of 8 questions", boards.answered[8] },
        { "boards answered whose separate rounds differ", boards.rounds_differ },
        { "boards answered whose questions share a chain", boards.shared },
        { "boards answered with a chain as 0x10 in one question and as a set of one in another", boards.both_ways },
        { "boards answered of eight different chains", boards.of_eight_chains },
        { "boards refused 14 over all questions together", boards.refused[PLAIN_CHAINS][GRAFS_FULL_SHEET] },
        { "boards refused 14 within a question", boards.refused[PLAIN_QUESTION][GRAFS_FULL_SHEET] },
        { "boards refused 12 by their count", boards.refused[PLAIN_COUNT][GRAFS_TERMS] },
        { "boards refused 1 by no count", boards.refused[PLAIN_COUNT][GRAFS_SHORT] },
        { "boards refused 1 by a length", boards.refused[PLAIN_LENGTH][GRAFS_SHORT] },
        { "boards refused 1 within a question", boards.refused[PLAIN_QUESTION][GRAFS_SHORT] },
        { "boards refused 6 by bytes left over", boards.refused[PLAIN_LEFT_OVER][GRAFS_LENGTH] },
        { "boards refused 6 within a question", boards.refused[PLAIN_QUESTION][GRAFS_LENGTH] },
        { "boards refused 13 by starts that the map does not have", boards.refused[PLAIN_STARTS][GRAFS_START] },
        { "boards refused 15", boards.refused[PLAIN_BUFFER][GRAFS_BUFFER_SHORT] },
        { "maps to be sorted", sorts.all },
        { "maps sorted of no row", sorts.of_no_row },
        { "maps sorted of 1,024 rows", sorts.of_most_rows },
        { "maps sorted that were in order", sorts.in_order },
        { "maps sorted that were in falling order", sorts.falling },
        { "maps sorted with rows that differ in from", sorts.first_differ[0] },
        { "maps sorted with rows of the same from that differ in to", sorts.first_differ[1] },
        { "maps sorted with rows of the same from and to that differ in seconds", sorts.first_differ[2] },
        { "maps sorted with rows that differ in crate size alone", sorts.first_differ[3] },
        { "maps sorted with a row repeated", sorts.first_differ[4] },
        { "maps refused 7 with a crate size that is none in another row", sorts.place_before_crate },
        { "maps refused 8 with a place that there is not in another row", sorts.crate_before_place },
        { "maps to be sorted refused 15", numbers[SORT][GRAFS_BUFFER_SHORT] },
        { "worksheets answered alike on a map and in its order", sorts.alike[ON_WORKSHEET] },
        { "boards answered alike on a map and in its order", sorts.alike[ON_BOARD] },
        { "worksheets and boards refused alike on both", sorts.refused_alike },
    };
    int all = 1;
    for (size_t i = 0; i < sizeof met / sizeof *met; i++) {
        printf("%s: %llu\n", met[i].what, met[i].count);
        all &= met[i].count > 0;
    }
    return all;
}

int main(int argc, char **argv)
{
    unsigned long long cases = argc > 1 ? strtoull(argv[1], NULL, 10) : 100000, first = argc > 2 ? strtoull(argv[2], NULL, 10) : 0;
    for (unsigned long long i = first; i < first + cases; i++)
        try_case(i);
    for (int of = FUSE; of < CALLS; of++) {
        static const char *const names[CALLS] = { "fuse: ", "run:  ", "board:", "sort: " };
        printf("%s answered %llu; refused", names[of], numbers[of][0]);
        for (int number = 1; number <= STARTS_ORDER; number++)
            if (numbers[of][number])
                printf(" %d: %llu", number, numbers[of][number]);
        printf("\n");
    }
    printf("answers that start with a number %llu, with more rounds than places %llu, most rounds %llu\n", numbered, past_places, most_rounds);
    if (!all_met() && cases >= 1000) {
        printf("one of these never occurs\n");
        return 1;
    }
    printf("%llu cases, 0 differences\n", cases);
    return 0;
}
