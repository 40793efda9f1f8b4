/* The six questions and the four maps. */
#include "bench.h"
#include "grafs_build.h"

/* ---------------------------------------------------------------- questions */

/* A question as bytes; an operator stands before its operands: P at each place, R between results. */
#define HEAD(kind) 'L', 'P', 'Q', 1, 0, GRAFS_KIND_##kind
#define P(operator) GRAFS_TERM_PLACE_OPERATOR, GRAFS_OP_##operator
#define R(operator) GRAFS_TERM_RESULT_OPERATOR, GRAFS_OP_##operator
#define OVER(reduction) GRAFS_TERM_REDUCTION, GRAFS_REDUCE_##reduction
#define NUMBER(x) GRAFS_TERM_PLACE_LITERAL, x, 0, 0, 0
#define FROM(start) (start) & 255, (start) >> 8
#define CHAIN1(a, start) GRAFS_TERM_CHAIN, 1, GRAFS_KEY_##a, FROM(start)
#define CHAIN2(a, b, start) GRAFS_TERM_CHAIN, 2, GRAFS_KEY_##a, GRAFS_KEY_##b, FROM(start)
#define CHAIN3(a, b, c, start) GRAFS_TERM_CHAIN, 3, GRAFS_KEY_##a, GRAFS_KEY_##b, GRAFS_KEY_##c, FROM(start)

#define SECONDS_AWAY(start) OVER(MAX), CHAIN1(SECONDS, start)
#define PASSAGES_AWAY(start) OVER(MAX), CHAIN1(PASSAGES, start)
#define TRUST(start) P(DIVIDE), CHAIN1(WIDEST, start), CHAIN1(PASSAGES, start)

static const uint8_t radius[] = { HEAD(RESULT), R(MIN), SECONDS_AWAY(0), SECONDS_AWAY(1) };
static const uint8_t drr[] = { HEAD(RESULT), R(DIVIDE), R(MAX), PASSAGES_AWAY(0), PASSAGES_AWAY(1), R(MIN), PASSAGES_AWAY(0), PASSAGES_AWAY(1) };
static const uint8_t wsp[] = { HEAD(EACH), CHAIN2(PASSAGES, WIDEST, 0) };
static const uint8_t nwr[] = { HEAD(EACH), P(DIVIDE), CHAIN1(NARROWEST, 0), CHAIN1(WIDEST, 0) };
static const uint8_t trust3[] = { HEAD(EACH), P(MAX), P(MAX), TRUST(0), TRUST(1), TRUST(2) };

#define C0 CHAIN3(PASSAGES, SECONDS, WIDEST, 0)
#define C1 CHAIN3(SECONDS, PASSAGES, NARROWEST, 0)
#define C2 CHAIN3(PASSAGES, SECONDS, NARROWEST, 1)
#define C3 CHAIN3(SECONDS, PASSAGES, WIDEST, 1)
#define C4 CHAIN3(FIRST_START, SECONDS, WIDEST, GRAFS_ANYWHERE)
#define C5 CHAIN3(LAST_START, PASSAGES, NARROWEST, GRAFS_ANYWHERE)
#define C6 CHAIN3(FIRST_START, PASSAGES, NARROWEST, GRAFS_ANYWHERE)
#define C7 CHAIN3(LAST_START, SECONDS, WIDEST, GRAFS_ANYWHERE)

static const uint8_t max8[] = {
    HEAD(RESULT), R(PLUS), R(PLUS),
    R(PLUS), OVER(MAX), P(TIMES), P(PLUS), C0, C1, P(MIN), C2, C3, OVER(SUM), P(MAX), P(PLUS), C4, C5, P(PLUS), C6, C7,
    R(PLUS), OVER(MIN), P(PLUS), P(MAX), C0, C2, P(MIN), C1, C3, OVER(SUM), P(PLUS), P(LESS), C4, C5, P(GREATER), C6, C7,
    R(PLUS), R(PLUS), OVER(OR), P(AND), P(EQUAL), C0, C2, P(LESS), C1, C3, OVER(MAX), P(PLUS), P(DIVIDE), C4, C6, P(TIMES), C5, NUMBER(3),
    OVER(AND), P(GREATER), P(PLUS), P(TIMES), C0, C1, P(TIMES), C2, C3, NUMBER(7),
};

const sample questions[QUESTIONS] = {
    { "RADIUS", "how many seconds the farthest place is away from place 0, and from place 1: the less of both", radius, sizeof radius },
    { "DRR", "the same in passages, the greater of both divided by the less; its four chains are fused into two", drr, sizeof drr },
    { "WSP", "at each place: the crate size of the widest among the walks of fewest passages from place 0; one chain", wsp, sizeof wsp },
    { "NWR", "at each place: the narrowest crate size of walks from place 0 divided by the widest; two chains", nwr, sizeof nwr },
    { "TRUST3", "at each place: the widest crate size divided by the fewest passages, the greatest from places 0, 1, 2; six chains", trust3, sizeof trust3 },
    { "MAX8", "one result of the most terms and chains that there may be: 64 terms, 8 chains of three keys each, 7 reductions", max8, sizeof max8 },
};

/* ---------------------------------------------------------------- maps */

static uint64_t state;

static unsigned below(unsigned n)
{
    state = state * 6364136223846793005u + 1442695040888963407u;
    return (unsigned)(state >> 33) % n;
}

static void put_any(grafs_map *map, unsigned from, unsigned to)
{
    unsigned seconds = below(65536);
    grafs_passage(map, from, to, seconds, 1 + below(65534));
}

static void put_random(grafs_map *map, unsigned n)
{
    for (int i = 0; i < GRAFS_PASSAGES_MAX; i++) {
        unsigned from = below(n);
        put_any(map, from, below(n));
    }
}

static void put_cycle(grafs_map *map, unsigned n)
{
    for (unsigned to = n - 1; to > 0; to--) {
        unsigned crate = 1000 + below(60000);
        grafs_passage(map, to - 1, to, 1 + below(65535), crate);
    }
    grafs_passage(map, n - 1, 0, 7, 3);
}

static void put_grid(grafs_map *map, unsigned n)
{
    for (unsigned v = 0; v < n; v++)
        for (unsigned step = 1; step <= 16; step += 15)
            if (step == 1 ? v % 16 < 15 : v + 16 < n) {
                put_any(map, v, v + step);
                put_any(map, v + step, v);
            }
}

static void put_map_a(grafs_map *map, unsigned n)
{
    grafs_passage(map, 0, 1, 5, 10);
    grafs_passage(map, 0, 2, 2, 4);
    grafs_passage(map, 2, 1, 3, 20);
    grafs_passage(map, 1, n - 1, 0, 7);
}

/* Full of equal figures, passages from a place to itself, repeated ones, and places that no walk reaches. */
static void put_small(grafs_map *map, unsigned n)
{
    for (unsigned left = below(100); left > 0; left--) {
        unsigned from = below(n), to = below(n), seconds = below(4);
        grafs_passage(map, from, to, seconds, 1 + below(9));
    }
}

static sample make(uint8_t *bytes, unsigned n, void (*put)(grafs_map *map, unsigned n), const char *name, const char *about)
{
    grafs_map map = grafs_begin_map(bytes, GRAFS_MAP_MAX, n);
    put(&map, n);
    return (sample){ name, about, bytes, grafs_end_map(&map) };
}

sample make_map(int number)
{
    static uint8_t bytes[MAPS + 1][GRAFS_MAP_MAX];
    uint8_t *room = bytes[number < MAPS ? number : MAPS];
    state = 42 + (unsigned)number;
    switch (number) {
    case RANDOM: return make(room, 256, put_random, "random", "256 places, 1,024 passages from any to any");
    case CYCLE: return make(room, 256, put_cycle, "cycle", "a line of 255 passages, the last written first, and a narrow one back: key 6 takes 512 rounds");
    case GRID: return make(room, 256, put_grid, "grid", "16 x 16 places, a passage each way between neighbours");
    case MAP_A: return make(room, 4, put_map_a, "mapA", "the small map of the examples: 4 places, 4 passages");
    default: return make(room, 4 + below(20), put_small, "small", "");
    }
}
