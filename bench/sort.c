/* grafs_sort_map beside C's qsort on the same rows.
 *
 *     sort agree              that the call writes the rows as qsort leaves them, on every input; else which one differs, and the status is 1
 *     sort times RUNS CALLS   a line for each input: the least of so many runs, each of so many calls
 *
 * What is timed, each with a copy of its input first, as qsort sorts where the rows stand:
 *
 *     rows      qsort of an array of rows, four numbers of 16 bits each, compared field by field
 *     words     qsort of an array of 64-bit words, from in the highest bits, then to, seconds, crate size: one comparison for a row
 *     call      grafs_sort_map: the bytes of a map judged, its rows sorted, the bytes of a map written */
#include <math.h>
#include <stdio.h>
#include <stdlib.h>
#include <string.h>
#include <time.h>
#include "grafs_service.h"

enum { MOST = GRAFS_PASSAGES_MAX, HEAD = 9, ROW = 8 };
enum { RANDOM, IN_ORDER, REVERSED, EQUAL, TWO_VALUES, WORST_MERGE, INPUTS };
enum { ROWS, WORDS, CALL, WAYS };

_Static_assert(__BYTE_ORDER__ == __ORDER_LITTLE_ENDIAN__, "rows of a map are copied as they stand, low byte first");

typedef struct {
    uint16_t from, to, seconds, crate;
} row;

static const char *const names[INPUTS] = { "random", "in order", "reversed", "all equal", "two values", "worst for merging" };

/* The input, as rows, as words and as the bytes of a map. */
static row rows[MOST];
static uint64_t words[MOST];
static uint8_t map[GRAFS_MAP_MAX];
static unsigned count;

/* ---------------------------------------------------------------- inputs */

static uint64_t chance(void)
{
    static uint64_t state = 20261117;
    uint64_t z = state += 0x9e3779b97f4a7c15u;
    z = (z ^ (z >> 30)) * 0xbf58476d1ce4e5b9u;
    z = (z ^ (z >> 27)) * 0x94d049bb133111ebu;
    return z ^ (z >> 31);
}

static int by_row(const void *x, const void *y)
{
    const row *a = x, *b = y;
    if (a->from != b->from)
        return a->from < b->from ? -1 : 1;
    if (a->to != b->to)
        return a->to < b->to ? -1 : 1;
    if (a->seconds != b->seconds)
        return a->seconds < b->seconds ? -1 : 1;
    return (a->crate > b->crate) - (a->crate < b->crate);
}

static int by_word(const void *x, const void *y)
{
    uint64_t a = *(const uint64_t *)x, b = *(const uint64_t *)y;
    return (a > b) - (a < b);
}

/* Rows in order so that every merge of two halves takes them in turn from the one and from the other, down to single rows. */
static void unmerge(row *r, unsigned len)
{
    row kept[MOST];
    unsigned left = len / 2, right = len - left;
    if (len < 2)
        return;
    memcpy(kept, r, len * sizeof *r);
    for (unsigned i = 0; i < len; i++)
        r[i % 2 ? i / 2 : left + i / 2] = kept[i];
    unmerge(r, left);
    unmerge(r + left, right);
}

static void make_input(int input, unsigned m)
{
    count = m;
    for (unsigned i = 0; i < m; i++) {
        uint64_t x = input == EQUAL ? 0 : input == TWO_VALUES ? chance() % 2 : chance();
        rows[i] = (row){ (uint16_t)(x % 256), (uint16_t)(x / 256 % 256), (uint16_t)(x >> 16), (uint16_t)(1 + (x >> 32) % 65534) };
    }
    if (input != RANDOM && input != TWO_VALUES)
        qsort(rows, m, sizeof *rows, by_row);
    if (input == WORST_MERGE)
        unmerge(rows, m);
    for (unsigned i = 0; i < m / 2 && input == REVERSED; i++) {
        row kept = rows[i];
        rows[i] = rows[m - 1 - i], rows[m - 1 - i] = kept;
    }
    const uint8_t head[HEAD] = { 'L', 'P', 'M', 1, 0, 0, 1, (uint8_t)m, (uint8_t)(m >> 8) };
    memcpy(map, head, HEAD);
    memcpy(map + HEAD, rows, m * sizeof *rows);
    for (unsigned i = 0; i < m; i++)
        words[i] = (uint64_t)rows[i].from << 48 | (uint64_t)rows[i].to << 32 | (uint64_t)rows[i].seconds << 16 | rows[i].crate;
}

/* ---------------------------------------------------------------- calls */

static row sorted_rows[MOST];
static uint64_t sorted_words[MOST];
static uint8_t copied[GRAFS_MAP_MAX], out[GRAFS_MAP_MAX];

__attribute__((noipa)) uint32_t one_call(int way)
{
    size_t len = HEAD + ROW * (size_t)count;
    switch (way) {
    case ROWS:
        memcpy(sorted_rows, rows, count * sizeof *rows);
        qsort(sorted_rows, count, sizeof *rows, by_row);
        return 0;
    case WORDS:
        memcpy(sorted_words, words, count * sizeof *words);
        qsort(sorted_words, count, sizeof *words, by_word);
        return 0;
    default:
        memcpy(copied, map, len);
        return grafs_sort_map(copied, len, out, sizeof out);
    }
}

static void agree_on(int input, unsigned m)
{
    size_t len = HEAD + ROW * (size_t)m;
    make_input(input, m);
    one_call(ROWS), one_call(WORDS);
    int same = one_call(CALL) == len && !memcmp(out, map, HEAD) && !memcmp(out + HEAD, sorted_rows, len - HEAD);
    for (unsigned i = 0; i < m && same; i++)
        same = sorted_words[i] >> 48 == sorted_rows[i].from && (uint16_t)sorted_words[i] == sorted_rows[i].crate;
    if (!same) {
        printf("other rows: %s, %u rows\n", names[input], m);
        exit(1);
    }
}

static void agree(void)
{
    for (int input = 0; input < INPUTS; input++)
        for (unsigned m = 0; m <= MOST; m += m < 70 ? 1 : m < 1000 ? 101 : 1)
            agree_on(input, m);
    printf("The call writes the rows as qsort leaves them, on %d inputs of 0 to %d rows.\n", INPUTS, MOST);
}

/* Of this process alone, so that others on the machine disturb it less. */
static double now(void)
{
    struct timespec t;
    clock_gettime(CLOCK_PROCESS_CPUTIME_ID, &t);
    return 1e6 * (double)t.tv_sec + 1e-3 * (double)t.tv_nsec;
}

static double one_run(int way, int calls)
{
    double begun = now();
    for (int i = 0; i < calls; i++)
        one_call(way);
    return (now() - begun) / calls;
}

static void print_times(int runs, int calls)
{
    printf("%5s %-18s %9s %9s %9s %11s %13s\n", "m", "input", "rows", "words", "call", "call / rows", "call / random");
    for (unsigned m = 64; m <= MOST; m *= 16) {
        double random = 0;
        for (int input = 0; input < INPUTS; input++) {
            double least[WAYS] = { HUGE_VAL, HUGE_VAL, HUGE_VAL };
            make_input(input, m);
            for (int run = -1; run < runs; run++) /* the first finds nothing in the caches */
                for (int way = 0; way < WAYS; way++)
                    least[way] = run < 0 ? (one_run(way, 1), least[way]) : fmin(least[way], one_run(way, calls));
            random = input == RANDOM ? least[CALL] : random;
            printf("%5u %-18s %9.2f %9.2f %9.2f %11.2f %13.2f\n", m, names[input], least[ROWS], least[WORDS], least[CALL], least[CALL] / least[ROWS],
                least[CALL] / random);
        }
    }
}

int main(int argc, char **argv)
{
    const char *what = argc > 1 ? argv[1] : "";
    if (!strcmp(what, "agree"))
        agree();
    else if (!strcmp(what, "times"))
        print_times(argc > 2 ? atoi(argv[2]) : 1, argc > 3 ? atoi(argv[3]) : 1);
    else
        return 2;
    return 0;
}
