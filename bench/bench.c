/* The library beside plain C, on the questions and maps of samples.c.
 *
 *     bench agree      a line for each question and map, and that all ways give the same bytes; else which one does not, and the status is 1
 *     bench once       a call for each question, map and way in turn; callgrind counts inside one_call
 *     bench counts     reads the instructions of those calls and prints their table
 *     bench times N    the table of the least times of N batches of calls
 *     bench ratio N    the same for `run` of two archives, as ratio.sh links it */
#include <math.h>
#include <stdio.h>
#include <stdlib.h>
#include <time.h>
#include "../tests/differential/plain.h"
#include "bench.h"

enum { SMALL_MAPS = 300 };
enum { OLD, RUN, DESK, FUSED, PUSH, FUSE, WAYS }; /* OLD and RUN for ratio.sh, all but OLD for run.sh */

static const char *const way_names[WAYS] = { "old", "run", "desk", "fused", "push", "fuse" };
static sample maps[MAPS];
static uint8_t sheets[QUESTIONS][GRAFS_WORKSHEET_MAX];
static uint32_t sheet_len[QUESTIONS];

/* `run` of the other archive of ratio.sh; not there in any other program. */
uint32_t old_run(const uint8_t *worksheet, size_t worksheet_len, const uint8_t *map, size_t map_len, uint8_t *out, size_t out_len) __attribute__((weak));

/* Under its own name in every build, for callgrind. */
__attribute__((noipa)) uint32_t one_call(int way, int q, const sample *map, uint8_t *out)
{
    switch (way) {
    case FUSE: return fuse(questions[q].bytes, questions[q].len, out, GRAFS_ANSWER_MAX);
    case RUN: return run(sheets[q], sheet_len[q], map->bytes, map->len, out, GRAFS_ANSWER_MAX);
    case DESK: return desk_run(sheets[q], map, out, GRAFS_ANSWER_MAX);
    case OLD: return old_run(sheets[q], sheet_len[q], map->bytes, map->len, out, GRAFS_ANSWER_MAX);
    default: return hand_run(way == PUSH, q, map, out);
    }
}

static void expect(int way, int q, const sample *map, const uint8_t *want, uint32_t len)
{
    uint8_t out[GRAFS_ANSWER_MAX];
    if (len < GRAFS_REFUSAL && one_call(way, q, map, out) == len && !memcmp(out, want, len))
        return;
    printf("other bytes: %s, %s on %s\n", way_names[way], questions[q].name, map->name);
    exit(1);
}

/* Wanted is what the plain implementation of the differential tests gives. */
static void agree_on(const sample *map)
{
    uint8_t want[GRAFS_ANSWER_MAX];
    for (int q = 0; q < QUESTIONS; q++) {
        uint32_t len = plain_run(sheets[q], sheet_len[q], map->bytes, map->len, want, sizeof want);
        expect(FUSE, q, map, sheets[q], sheet_len[q]);
        for (int way = RUN; way <= PUSH; way++)
            expect(way, q, map, want, len);
    }
}

static void agree(void)
{
    for (int q = 0; q < QUESTIONS; q++)
        printf("%-7s %s\n", questions[q].name, questions[q].about);
    for (int m = 0; m < MAPS; m++) {
        printf("%-7s %s\n", maps[m].name, maps[m].about);
        agree_on(&maps[m]);
    }
    for (int i = 0; i < SMALL_MAPS; i++) {
        sample map = make_map(MAPS + i);
        agree_on(&map);
    }
    printf("All give the same bytes for the %d questions on the %d maps and on %d small random ones.\n", QUESTIONS, MAPS, SMALL_MAPS);
}

/* Of this process alone, so that others on the machine disturb it less. */
static double now(void)
{
    struct timespec t;
    clock_gettime(CLOCK_PROCESS_CPUTIME_ID, &t);
    return 1e9 * (double)t.tv_sec + (double)t.tv_nsec;
}

static double batch(int way, int q, const sample *map, int calls)
{
    uint8_t out[GRAFS_ANSWER_MAX];
    double begun = now();
    for (int i = 0; i < calls; i++)
        one_call(way, q, map, out);
    return now() - begun;
}

/* The least time of a call by each way, in nanoseconds: a batch of some 0.1 ms by the first, by the second, .. and by the first again. */
static void time_row(int q, const sample *map, int from, int to, int batches, double *least)
{
    int calls[WAYS];
    for (int way = from; way <= to; way++) {
        batch(way, q, map, 1); /* the first finds nothing in the caches */
        calls[way] = 1 + (int)(1e5 / batch(way, q, map, 1));
        least[way] = HUGE_VAL;
    }
    for (int b = 0; b < batches; b++)
        for (int way = from; way <= to; way++)
            least[way] = fmin(least[way], batch(way, q, map, calls[way]) / calls[way]);
}

static double table[QUESTIONS][MAPS][WAYS];

/* `run` and `fuse` as they are, the other ways in parts of `run`; last the geometric means of all in parts of `run`. */
static void print_table(int from, int to, double unit, int decimals)
{
    double sum[2][WAYS] = { { 0 } };
    printf("%-14s", "");
    for (int way = from; way <= to; way++)
        printf(" %9s", way_names[way]);
    for (int q = 0; q < QUESTIONS; q++)
        for (int m = 0; m < MAPS; m++) {
            printf("\n%-7s %-6s", questions[q].name, maps[m].name);
            for (int way = from; way <= to; way++) {
                int whole = way == RUN || way == FUSE;
                double x = table[q][m][way], part = x / table[q][m][RUN];
                printf(" %9.*f", whole ? decimals : 2, whole ? x / unit : part);
                sum[m == MAP_A][way] += log(part);
            }
        }
    for (int a = 0; a < 2; a++) {
        printf("\n%-14s", a ? "mean, mapA" : "mean, others");
        for (int way = from; way <= to; way++)
            printf(" %9.2f", exp(sum[a][way] / QUESTIONS / (a ? 1 : MAPS - 1)));
    }
    printf("\n");
}

static void once(void)
{
    uint8_t out[GRAFS_ANSWER_MAX];
    for (int q = 0; q < QUESTIONS; q++)
        for (int m = 0; m < MAPS; m++)
            for (int way = RUN; way <= FUSE; way++)
                one_call(way, q, &maps[m], out);
}

static void print_counts(void)
{
    for (int q = 0; q < QUESTIONS; q++)
        for (int m = 0; m < MAPS; m++)
            for (int way = RUN; way <= FUSE; way++)
                if (scanf("%lf", &table[q][m][way]) != 1)
                    exit(1);
    print_table(RUN, FUSE, 1, 0);
}

static void print_times(int from, int to, int batches)
{
    for (int q = 0; q < QUESTIONS; q++)
        for (int m = 0; m < MAPS; m++)
            time_row(q, &maps[m], from, to, batches, table[q][m]);
    print_table(from, to, 1e3, 2);
}

int main(int argc, char **argv)
{
    const char *what = argc > 1 ? argv[1] : "";
    int batches = argc > 2 ? atoi(argv[2]) : 1;
    for (int m = 0; m < MAPS; m++)
        maps[m] = make_map(m);
    for (int q = 0; q < QUESTIONS; q++)
        sheet_len[q] = plain_fuse(questions[q].bytes, questions[q].len, sheets[q], sizeof sheets[q]);
    if (!strcmp(what, "agree"))
        agree();
    else if (!strcmp(what, "once"))
        once();
    else if (!strcmp(what, "counts"))
        print_counts();
    else if (!strcmp(what, "times"))
        print_times(RUN, FUSE, batches);
    else if (!strcmp(what, "ratio"))
        print_times(OLD, RUN, batches);
    else
        return 2;
    return 0;
}
