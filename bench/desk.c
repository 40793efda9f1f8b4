/* A plain C desk: any worksheet on any map, interpreted, with nothing proved. It judges the map and the starts, and believes the worksheet. */
#include "bench.h"

/* A chain of a worksheet: the keys from bit 16 on, the last one lowest; one that stands twice counts where it stands first. */
static chain read_chain(const uint8_t *row)
{
    static const unsigned bits[7] = { 0, 10, 26, 8, 8, 16, 16 };
    unsigned at = 16, shift[7] = { 0 }, last = row[row[0]];
    for (int i = row[0]; i >= 1; i--)
        if (row[i] < 5 && !memchr(row + 1, row[i], (size_t)i - 1)) {
            shift[row[i]] = at;
            at += bits[row[i]];
        }
    chain c = { .start = row[4] + 256u * row[5], .most = 65535, .shift = shift[last], .mask = (1u << bits[last]) - 1 };
    c.per_passage = shift[1] ? BIT(shift[1]) : 0;
    c.per_second = shift[2] ? BIT(shift[2]) : 0;
    c.per_place = (shift[3] ? BIT(shift[3]) : 0) - (shift[4] ? BIT(shift[4]) : 0);
    c.at_start = (shift[4] ? UINT64_C(255) << shift[4] : 0) + (last == 6 ? 65535 : 0);
    c.flip = last == 4 ? 255 : 0;
    if (last == 5)
        c.least = c.flip = 65535;
    if (last == 6)
        c.most = 0;
    return c;
}

/* The number of chains is a constant in each case: the loop over them is unrolled. */
static unsigned rounds_of(const chart *map, const chain *c, int count, uint64_t *new)
{
#define ROUNDS(k) case k: return rounds_fused(map, c, k, new)
    switch (count) {
        ROUNDS(1); ROUNDS(2); ROUNDS(3); ROUNDS(4); ROUNDS(5); ROUNDS(6); ROUNDS(7); ROUNDS(8);
    }
    return 1;
}

/* An operator at each of n places. */
static void join(int operator, value *a, const value *b, unsigned n)
{
#define CASE(operator, name) \
    case operator: \
        for (unsigned v = 0; v < n; v++) \
            a[v] = name(a[v], b[v]); \
        break
    switch (operator) {
        CASE(GRAFS_OP_MIN, lesser);
        CASE(GRAFS_OP_MAX, greater);
        CASE(GRAFS_OP_PLUS, plus);
        CASE(GRAFS_OP_MINUS, minus);
        CASE(GRAFS_OP_TIMES, times);
        CASE(GRAFS_OP_DIVIDE, divided);
        CASE(GRAFS_OP_EQUAL, is_equal);
        CASE(GRAFS_OP_LESS, is_less);
        CASE(GRAFS_OP_GREATER, is_greater);
        CASE(GRAFS_OP_AND, both);
        CASE(GRAFS_OP_OR, either);
    }
}

/* The term at p, over n places with the rows of the chains, or once with those of the entries; what stands behind it. */
static const uint8_t *evaluate(const uint8_t *p, value rows[][GRAFS_PLACES_MAX], unsigned n, value *out)
{
    int what = *p++, number = *p++;
    if (what == GRAFS_TERM_CHAIN_INDEX || what == GRAFS_TERM_ENTRY_INDEX) {
        memcpy(out, rows[number], n * sizeof *out);
        return p;
    }
    if (what == GRAFS_TERM_PLACE_LITERAL || what == GRAFS_TERM_RESULT_LITERAL) {
        uint32_t literal;
        memcpy(&literal, p - 1, sizeof literal);
        for (unsigned v = 0; v < n; v++)
            out[v] = (value){ literal, 1 };
        return p + 3;
    }
    value right[GRAFS_PLACES_MAX];
    p = evaluate(p, rows, n, out);
    p = evaluate(p, rows, n, right);
    join(number, out, right, n);
    return p;
}

uint32_t desk_run(const uint8_t *worksheet, const sample *map, uint8_t *out, size_t lent)
{
    static words new;
    static value leaf[GRAFS_CHAINS_MAX][GRAFS_PLACES_MAX], entry[GRAFS_CHAINS_MAX][GRAFS_PLACES_MAX], term[GRAFS_PLACES_MAX];
    chain c[GRAFS_CHAINS_MAX];
    chart m;
    unsigned kind = worksheet[5], count = worksheet[6];
    const uint8_t *p = worksheet + 7;
    if (!read_map(map, &m))
        return GRAFS_REFUSAL + GRAFS_MARK;
    for (unsigned i = 0; i < count; i++, p += 6) {
        c[i] = read_chain(p);
        if (c[i].start != GRAFS_ANYWHERE && c[i].start >= m.n)
            return GRAFS_REFUSAL + GRAFS_START;
    }
    unsigned rows = kind ? 1 : m.n;
    if (10 + 9 * rows > lent)
        return GRAFS_REFUSAL + GRAFS_BUFFER_SHORT;
    begin(&m, c, count, new);
    put_head(out, m.n, rounds_of(&m, c, count, new), kind);
    for (unsigned i = 0; i < count; i++)
        for (unsigned v = 0; v < m.n; v++)
            leaf[i][v] = last_figure(&c[i], new[v * count + i]);
    unsigned entries = *p++;
    for (unsigned i = 0; i < entries; i++) {
        int reduction = *p++;
        p = evaluate(p, leaf, m.n, term);
        entry[i][0] = (value){ 0, 0 };
        for (unsigned v = 0; v < m.n && kind; v++)
            take(reduction, entry[i], term[v]);
    }
    if (kind)
        evaluate(p, entry, 1, term);
    for (unsigned v = 0; v < rows; v++)
        put_row(out, v, term[v]);
    return 10 + 9 * rows;
}
