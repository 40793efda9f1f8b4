/* The seventeen calls of grafs_service.h, from C: stored bytes in, stored bytes out, by pull and by push, counted and not, each with every lent length from 0
 * to some bytes more than needed, and with tallies small and at their greatest. The rest of the buffer, the bytes before and behind it and the tally, and the
 * inputs must be as they were. What is answered on a map must be answered on the same map with its rows in order. */
#include "check.h"
#include "grafs_service.h"

enum { GUARD = 64, QUIET = -1 };
enum { SHEET, BOARD };

typedef struct {
    const char *name;
    int on;                 /* a worksheet or a board */
    const uint8_t *first;
    size_t first_len;
    const uint8_t *map;
    size_t map_len;
    int rounds;             /* given, or QUIET */
    uint32_t number;        /* 0, or the refusal */
    const uint8_t *want;
    size_t want_len;
} test_case;

/* ---------------------------------------------------------------------------------------------------------------------- calling */
typedef uint32_t quiet_call(const uint8_t *, size_t, const uint8_t *, size_t, uint8_t *, size_t);
typedef uint32_t rounds_call(const uint8_t *, size_t, const uint8_t *, size_t, uint16_t, uint8_t *, size_t);
typedef uint32_t counted_call(const uint8_t *, size_t, const uint8_t *, size_t, uint8_t *, size_t, uint64_t *);
typedef uint32_t counted_rounds_call(const uint8_t *, size_t, const uint8_t *, size_t, uint16_t, uint8_t *, size_t, uint64_t *);

/* By SHEET or BOARD, then by pull or push. */
static quiet_call *const quiet[2][2] = { { grafs_pull, grafs_push }, { grafs_board_pull, grafs_board_push } };
static rounds_call *const rounds_of[2][2] = { { grafs_pull_rounds, grafs_push_rounds }, { grafs_board_pull_rounds, grafs_board_push_rounds } };
static counted_call *const counted[2][2] = { { grafs_counted_pull, grafs_counted_push }, { grafs_counted_board_pull, grafs_counted_board_push } };
static counted_rounds_call *const counted_rounds[2][2] = { { grafs_counted_pull_rounds, grafs_counted_push_rounds },
    { grafs_counted_board_pull_rounds, grafs_counted_board_push_rounds } };

/* Counted where there is a tally. */
static uint32_t call(const test_case *c, int way, const uint8_t *first, const uint8_t *map, uint8_t *out, size_t lent, uint64_t *tally)
{
    size_t a = c->first_len, b = c->map_len;
    uint16_t rounds = (uint16_t)c->rounds;
    if (c->rounds == QUIET)
        return tally ? counted[c->on][way](first, a, map, b, out, lent, tally) : quiet[c->on][way](first, a, map, b, out, lent);
    return tally ? counted_rounds[c->on][way](first, a, map, b, rounds, out, lent, tally) : rounds_of[c->on][way](first, a, map, b, rounds, out, lent);
}

/* A tally before a call, and behind one that is answered and one that is refused. */
static const struct {
    uint64_t before[3], answered[3], refused[3];
} tallies[] = {
    { { 7, 4, 3 }, { 8, 5, 3 }, { 8, 4, 4 } },
    { { 0, 0, 0 }, { 1, 1, 0 }, { 1, 0, 1 } },
    { { UINT32_MAX, UINT32_MAX, UINT32_MAX }, { 4294967296, 4294967296, UINT32_MAX }, { 4294967296, UINT32_MAX, 4294967296 } },
    { { UINT64_MAX - 1, UINT64_MAX - 1, UINT64_MAX - 1 }, { UINT64_MAX, UINT64_MAX, UINT64_MAX - 1 }, { UINT64_MAX, UINT64_MAX - 1, UINT64_MAX } },
    { { UINT64_MAX, 4, 3 }, { UINT64_MAX, 4, 3 }, { UINT64_MAX, 4, 3 } },
    { { 7, UINT64_MAX, 3 }, { 7, UINT64_MAX, 3 }, { 7, UINT64_MAX, 3 } },
    { { 7, 4, UINT64_MAX }, { 7, 4, UINT64_MAX }, { 7, 4, UINT64_MAX } },
    { { UINT64_MAX, UINT64_MAX, UINT64_MAX }, { UINT64_MAX, UINT64_MAX, UINT64_MAX }, { UINT64_MAX, UINT64_MAX, UINT64_MAX } },
};
enum { TALLIES = sizeof tallies / sizeof *tallies };

/* The tally of that number, between two words that stay as they are; TALLIES for none. */
static void try_way(const test_case *c, int way, size_t which, size_t lent)
{
    uint8_t *first = copy_of(c->first, c->first_len), *map = copy_of(c->map, c->map_len), *room = filled_room(lent + 2 * GUARD), *out = room + GUARD;
    uint64_t tally[5];
    memset(tally, FILL, sizeof tally);
    if (which < TALLIES)
        memcpy(tally + 1, tallies[which].before, sizeof tallies[which].before);
    uint32_t n = call(c, way, first, map, out, lent, which < TALLIES ? tally + 1 : NULL);
    uint32_t number = c->number ? c->number : lent < c->want_len ? GRAFS_BUFFER_SHORT : GRAFS_DONE;
    size_t done = number == GRAFS_DONE ? c->want_len : 0;
    expect(n == (number == GRAFS_DONE ? c->want_len : GRAFS_REFUSAL + number), c->name, lent);
    expect(!memcmp(out, c->want, done), c->name, lent);
    expect(still_filled(room, GUARD) && still_filled(out + done, lent - done + GUARD), c->name, lent);
    expect(!memcmp(first, c->first, c->first_len) && !memcmp(map, c->map, c->map_len), c->name, lent);
    if (which < TALLIES)
        expect(!memcmp(tally + 1, number == GRAFS_DONE ? tallies[which].answered : tallies[which].refused, sizeof tallies[which].before), c->name, which);
    expect(still_filled((uint8_t *)tally, sizeof *tally) && still_filled((uint8_t *)(tally + 4), sizeof *tally), c->name, which);
    free(first), free(map), free(room);
}

/* By all four ways. With every tally where `whole`, else with one of them by turns. */
static void try_with(const test_case *c, size_t lent, int whole)
{
    for (int way = 0; way < 2; way++) {
        try_way(c, way, TALLIES, lent);
        for (size_t which = 0; which < TALLIES; which++)
            if (whole || which == lent % TALLIES)
                try_way(c, way, which, lent);
    }
}

/* The same on the map with its rows in order. */
static void try_in_order(const test_case *c)
{
    uint8_t sorted[GRAFS_MAP_MAX];
    uint32_t len = grafs_sort_map(c->map, c->map_len, sorted, sizeof sorted);
    test_case d = *c;
    if (len >= GRAFS_REFUSAL)
        return;
    d.map = sorted, d.map_len = len;
    try_with(&d, c->want_len, 0);
    try_with(&d, 20000, 0);
}

static void try_case(const test_case *c)
{
    for (size_t lent = 0; lent <= c->want_len + 3; lent++)
        if (lent < 500 || lent + 3 > c->want_len)
            try_with(c, lent, lent == c->want_len || lent == 0);
    try_with(c, 20000, 1);
    try_in_order(c);
}

/* ---------------------------------------------------------------------------------------------------------------------- bytes */
#define BYTES(...) (const uint8_t[]){ __VA_ARGS__ }, sizeof((const uint8_t[]){ __VA_ARGS__ })
#define MAP_A BYTES('L', 'P', 'M', 1, 0, 4, 0, 4, 0, 0, 0, 1, 0, 5, 0, 10, 0, 0, 0, 2, 0, 2, 0, 4, 0, 2, 0, 1, 0, 3, 0, 20, 0, 1, 0, 3, 0, 0, 0, 7, 0)
#define NO_PLACES BYTES('L', 'P', 'M', 1, 0, 0, 0, 0, 0)
#define NUMBER(x) 1, (x) & 255, (x) >> 8, 0, 0, 0, 0, 0, 0
#define ABSENT 0, 0, 0, 0, 0, 0, 0, 0, 0
#define NOTHING (const uint8_t *)"", 0

/* Questions behind their lengths: a chain of one key from a start, at each place; a literal; the byte case of document 01; the sum of seconds from 0 over
 * places farther than 2 seconds. */
#define EACH(key, start) 11, 0, 'L', 'P', 'Q', 1, 0, 0, 0x10, 1, key, start, 0
#define LITERAL(x) 11, 0, 'L', 'P', 'Q', 1, 0, 1, 0x21, x, 0, 0, 0
#define FARTHEST 13, 0, 'L', 'P', 'Q', 1, 0, 1, 0x20, 2, 0x10, 1, 1, 0, 0
#define FARTHER 25, 0, 'L', 'P', 'Q', 1, 0, 1, 0x23, 3, 0x12, 9, 0x10, 1, 2, 0, 0, 0x11, 2, 0, 0, 0, 0x10, 1, 2, 0, 0
#define SET_OF_ONE(key, start) 12, 0, 'L', 'P', 'Q', 1, 0, 0, 0x13, 1, key, 1, start, 0
#define SET_OF_TWO(key, a, b) 14, 0, 'L', 'P', 'Q', 1, 0, 0, 0x13, 1, key, 2, a, 0, b, 0

/* The sum of two chains, of which the second may be a set of one; eight and nine chains in one question. */
#define PLUS(key_a, a, key_b, b) 18, 0, 'L', 'P', 'Q', 1, 0, 0, 0x12, 3, 0x10, 1, key_a, a, 0, 0x10, 1, key_b, b, 0
#define PLUS_SET(key_a, a, key_b, b) 19, 0, 'L', 'P', 'Q', 1, 0, 0, 0x12, 3, 0x10, 1, key_a, a, 0, 0x13, 1, key_b, 1, b, 0
#define TO_GO(start) 0x12, 3, 0x10, 1, 1, start, 0
#define EIGHT 60, 0, 'L', 'P', 'Q', 1, 0, 0, TO_GO(0), TO_GO(1), TO_GO(2), TO_GO(3), TO_GO(4), TO_GO(5), TO_GO(6), 0x10, 1, 1, 7, 0
#define NINE 67, 0, 'L', 'P', 'Q', 1, 0, 0, TO_GO(0), TO_GO(1), TO_GO(2), TO_GO(3), TO_GO(4), TO_GO(5), TO_GO(6), TO_GO(7), 0x10, 1, 1, 8, 0

/* Answers on map A. */
#define ROWS(rounds, ...) 'L', 'P', 'A', 1, 0, 4, 0, (rounds) & 255, (rounds) >> 8, 0, __VA_ARGS__
#define RESULT(rounds, ...) 'L', 'P', 'A', 1, 0, 4, 0, (rounds) & 255, (rounds) >> 8, 1, __VA_ARGS__

/* Key 2, key 6 and the fewest passages to the farthest place, from 0, alone 3, 4 and 3 rounds; what they are after so many. */
#define MIXED BYTES(3, EACH(2, 0), EACH(6, 0), FARTHEST)
#define MIXED_0(rounds) \
    BYTES(ROWS(rounds, NUMBER(0), ABSENT, ABSENT, ABSENT), ROWS(rounds, NUMBER(65535), ABSENT, ABSENT, ABSENT), RESULT(rounds, NUMBER(0)))
#define MIXED_1(rounds) \
    BYTES(ROWS(rounds, NUMBER(0), NUMBER(5), NUMBER(2), ABSENT), ROWS(rounds, NUMBER(65535), NUMBER(10), NUMBER(4), ABSENT), RESULT(rounds, NUMBER(1)))
#define MIXED_2(rounds) \
    BYTES(ROWS(rounds, NUMBER(0), NUMBER(5), NUMBER(2), NUMBER(5)), ROWS(rounds, NUMBER(65535), NUMBER(4), NUMBER(4), NUMBER(7)), RESULT(rounds, NUMBER(2)))
#define MIXED_3(rounds) \
    BYTES(ROWS(rounds, NUMBER(0), NUMBER(5), NUMBER(2), NUMBER(5)), ROWS(rounds, NUMBER(65535), NUMBER(4), NUMBER(4), NUMBER(4)), RESULT(rounds, NUMBER(2)))

/* Seven chains, seconds and passages from each place but passages from 3; their rows. */
#define SEVEN EACH(2, 0), EACH(2, 1), EACH(2, 2), EACH(2, 3), EACH(1, 0), EACH(1, 1), EACH(1, 2)
#define SEVEN_ROWS \
    ROWS(3, NUMBER(0), NUMBER(5), NUMBER(2), NUMBER(5)), ROWS(3, ABSENT, NUMBER(0), ABSENT, NUMBER(0)), ROWS(3, ABSENT, NUMBER(3), NUMBER(0), NUMBER(3)), \
    ROWS(3, ABSENT, ABSENT, ABSENT, NUMBER(0)), ROWS(3, NUMBER(0), NUMBER(1), NUMBER(1), NUMBER(2)), ROWS(3, ABSENT, NUMBER(0), ABSENT, NUMBER(1)), \
    ROWS(3, ABSENT, NUMBER(1), NUMBER(0), NUMBER(2))

/* Seven chains that have the first start in common, seconds and passages from 0 and another place, and seconds from 0; their rows. */
#define SETS SET_OF_TWO(2, 0, 1), SET_OF_TWO(2, 0, 2), SET_OF_TWO(2, 0, 3), EACH(2, 0), SET_OF_TWO(1, 0, 1), SET_OF_TWO(1, 0, 2), SET_OF_TWO(1, 0, 3)
#define SETS_ROWS \
    ROWS(3, NUMBER(0), NUMBER(0), NUMBER(2), NUMBER(0)), ROWS(3, NUMBER(0), NUMBER(3), NUMBER(0), NUMBER(3)), \
    ROWS(3, NUMBER(0), NUMBER(5), NUMBER(2), NUMBER(0)), ROWS(3, NUMBER(0), NUMBER(5), NUMBER(2), NUMBER(5)), \
    ROWS(3, NUMBER(0), NUMBER(0), NUMBER(1), NUMBER(1)), ROWS(3, NUMBER(0), NUMBER(1), NUMBER(0), NUMBER(2)), \
    ROWS(3, NUMBER(0), NUMBER(1), NUMBER(1), NUMBER(0))

/* Worksheets: a chain of one key from a start, at each place; the byte case. */
#define PLACE_W(key, start) BYTES('L', 'P', 'W', 1, 0, 0, 1, 1, key, 0, 0, start, 0, 1, 0, 0x30, 0)
#define FARTHEST_W BYTES('L', 'P', 'W', 1, 0, 1, 1, 1, 1, 0, 0, 0, 0, 1, 2, 0x30, 0, 0x31, 0)

/* ---------------------------------------------------------------------------------------------------------------------- cases */
static void try_worksheets(void)
{
    const test_case cases[] = {
        { "key 2 from 0", SHEET, PLACE_W(2, 0), MAP_A, QUIET, 0, BYTES(ROWS(3, NUMBER(0), NUMBER(5), NUMBER(2), NUMBER(5))) },
        { "key 6 from 0", SHEET, PLACE_W(6, 0), MAP_A, QUIET, 0, BYTES(ROWS(4, NUMBER(65535), NUMBER(4), NUMBER(4), NUMBER(4))) },
        { "the byte case", SHEET, FARTHEST_W, MAP_A, QUIET, 0, BYTES(RESULT(3, NUMBER(2))) },
        { "key 2, no rounds", SHEET, PLACE_W(2, 0), MAP_A, 0, 0, BYTES(ROWS(0, NUMBER(0), ABSENT, ABSENT, ABSENT)) },
        { "key 2, one round", SHEET, PLACE_W(2, 0), MAP_A, 1, 0, BYTES(ROWS(1, NUMBER(0), NUMBER(5), NUMBER(2), ABSENT)) },
        { "key 6, two rounds", SHEET, PLACE_W(6, 0), MAP_A, 2, 0, BYTES(ROWS(2, NUMBER(65535), NUMBER(4), NUMBER(4), NUMBER(7))) },
        { "key 6, 256 rounds", SHEET, PLACE_W(6, 0), MAP_A, 256, 0, BYTES(ROWS(256, NUMBER(65535), NUMBER(4), NUMBER(4), NUMBER(4))) },
        { "the byte case, the most rounds", SHEET, FARTHEST_W, MAP_A, 65535, 0, BYTES(RESULT(65535, NUMBER(2))) },
        { "no worksheet", SHEET, NOTHING, MAP_A, QUIET, GRAFS_SHORT, NOTHING },
        { "no map", SHEET, PLACE_W(2, 0), NOTHING, QUIET, GRAFS_SHORT, NOTHING },
        { "a question for a worksheet", SHEET, BYTES('L', 'P', 'Q', 1, 0), MAP_A, QUIET, GRAFS_MARK, NOTHING },
        { "a worksheet before its map", SHEET, BYTES('L', 'P', 'Q', 1, 0), NO_PLACES, 5, GRAFS_MARK, NOTHING },
        { "a map before the starts", SHEET, PLACE_W(2, 4), NO_PLACES, QUIET, GRAFS_PLACES, NOTHING },
        { "start 4 before the length", SHEET, PLACE_W(2, 4), MAP_A, 0, GRAFS_START, NOTHING },
    };
    for (size_t i = 0; i < sizeof cases / sizeof *cases; i++)
        try_case(&cases[i]);
}

static void try_boards(void)
{
    const test_case cases[] = {
        { "one question", BOARD, BYTES(1, EACH(2, 0)), MAP_A, QUIET, 0, BYTES(ROWS(3, NUMBER(0), NUMBER(5), NUMBER(2), NUMBER(5))) },
        { "one question of no chain", BOARD, BYTES(1, LITERAL(7)), MAP_A, QUIET, 0, BYTES(RESULT(1, NUMBER(7))) },
        { "rounds of the greatest", BOARD, MIXED, MAP_A, QUIET, 0, MIXED_3(4) },
        { "rounds of the first", BOARD, BYTES(2, EACH(6, 0), EACH(1, 3)), MAP_A, QUIET, 0,
            BYTES(ROWS(4, NUMBER(65535), NUMBER(4), NUMBER(4), NUMBER(4)), ROWS(4, ABSENT, ABSENT, ABSENT, NUMBER(0))) },
        { "rounds of the last", BOARD, BYTES(3, LITERAL(1), EACH(1, 3), EACH(2, 1)), MAP_A, QUIET, 0,
            BYTES(RESULT(2, NUMBER(1)), ROWS(2, ABSENT, ABSENT, ABSENT, NUMBER(0)), ROWS(2, ABSENT, NUMBER(0), ABSENT, NUMBER(0))) },
        { "no rounds", BOARD, MIXED, MAP_A, 0, 0, MIXED_0(0) },
        { "one round", BOARD, MIXED, MAP_A, 1, 0, MIXED_1(1) },
        { "two rounds", BOARD, MIXED, MAP_A, 2, 0, MIXED_2(2) },
        { "three rounds", BOARD, MIXED, MAP_A, 3, 0, MIXED_3(3) },
        { "four rounds", BOARD, MIXED, MAP_A, 4, 0, MIXED_3(4) },
        { "256 rounds", BOARD, MIXED, MAP_A, 256, 0, MIXED_3(256) },
        { "the most rounds", BOARD, MIXED, MAP_A, 65535, 0, MIXED_3(65535) },
        { "a condition and a set", BOARD, BYTES(2, FARTHER, SET_OF_TWO(2, 0, 2)), MAP_A, QUIET, 0,
            BYTES(RESULT(3, NUMBER(10)), ROWS(3, NUMBER(0), NUMBER(3), NUMBER(0), NUMBER(3))) },
        { "the same question twice", BOARD, BYTES(2, EACH(2, 1), EACH(2, 1)), MAP_A, QUIET, 0,
            BYTES(ROWS(2, ABSENT, NUMBER(0), ABSENT, NUMBER(0)), ROWS(2, ABSENT, NUMBER(0), ABSENT, NUMBER(0))) },
        { "eight questions", BOARD, BYTES(8, LITERAL(1), LITERAL(2), LITERAL(3), LITERAL(4), LITERAL(5), LITERAL(6), LITERAL(7), LITERAL(8)), MAP_A, QUIET, 0,
            BYTES(RESULT(1, NUMBER(1)), RESULT(1, NUMBER(2)), RESULT(1, NUMBER(3)), RESULT(1, NUMBER(4)), RESULT(1, NUMBER(5)), RESULT(1, NUMBER(6)),
                RESULT(1, NUMBER(7)), RESULT(1, NUMBER(8))) },
        { "eight chains together", BOARD, BYTES(8, SEVEN, EACH(1, 3)), MAP_A, QUIET, 0, BYTES(SEVEN_ROWS, ROWS(3, ABSENT, ABSENT, ABSENT, NUMBER(0))) },
        { "eight chains, one of them again", BOARD, BYTES(8, SEVEN, PLUS(1, 3, 2, 0)), MAP_A, QUIET, 0,
            BYTES(SEVEN_ROWS, ROWS(3, ABSENT, ABSENT, ABSENT, NUMBER(5))) },
        { "eight chains, one of them again as a set of one", BOARD, BYTES(8, SEVEN, PLUS_SET(1, 3, 2, 0)), MAP_A, QUIET, 0,
            BYTES(SEVEN_ROWS, ROWS(3, ABSENT, ABSENT, ABSENT, NUMBER(5))) },
        { "eight chains of the same first start", BOARD, BYTES(8, SETS, EACH(1, 0)), MAP_A, QUIET, 0,
            BYTES(SETS_ROWS, ROWS(3, NUMBER(0), NUMBER(1), NUMBER(1), NUMBER(2))) },
        { "a set of one here, a start there", BOARD, BYTES(2, SET_OF_ONE(2, 0), EACH(2, 0)), MAP_A, QUIET, 0,
            BYTES(ROWS(3, NUMBER(0), NUMBER(5), NUMBER(2), NUMBER(5)), ROWS(3, NUMBER(0), NUMBER(5), NUMBER(2), NUMBER(5))) },
    };
    for (size_t i = 0; i < sizeof cases / sizeof *cases; i++)
        try_case(&cases[i]);
}

/* In the order of judging; where a case has two faults, the one that comes first has the number. */
static void try_refusals(void)
{
    const test_case cases[] = {
        { "no count", BOARD, NOTHING, MAP_A, QUIET, GRAFS_SHORT, NOTHING },
        { "no count, no map", BOARD, NOTHING, NOTHING, 3, GRAFS_SHORT, NOTHING },
        { "count 0", BOARD, BYTES(0), MAP_A, QUIET, GRAFS_TERMS, NOTHING },
        { "count 0, and bytes behind it", BOARD, BYTES(0, EACH(2, 0)), MAP_A, QUIET, GRAFS_TERMS, NOTHING },
        { "count 9, and no question", BOARD, BYTES(9), MAP_A, QUIET, GRAFS_TERMS, NOTHING },
        { "count 9", BOARD, BYTES(9, SEVEN, EACH(2, 0), EACH(2, 0)), MAP_A, 1, GRAFS_TERMS, NOTHING },
        { "count 255", BOARD, BYTES(255, EACH(2, 0)), NOTHING, QUIET, GRAFS_TERMS, NOTHING },
        { "no length", BOARD, BYTES(1), MAP_A, QUIET, GRAFS_SHORT, NOTHING },
        { "half a length", BOARD, BYTES(1, 0), MAP_A, QUIET, GRAFS_SHORT, NOTHING },
        { "a length past the end by one", BOARD, BYTES(1, 12, 0, 'L', 'P', 'Q', 1, 0, 0, 0x10, 1, 2, 0, 0), MAP_A, QUIET, GRAFS_SHORT, NOTHING },
        { "a length's high byte", BOARD, BYTES(1, 11, 1, 'L', 'P', 'Q', 1, 0, 0, 0x10, 1, 2, 0, 0), MAP_A, QUIET, GRAFS_SHORT, NOTHING },
        { "a length past the end before the letters", BOARD, BYTES(1, 7, 0, 'L', 'P', 'X', 1, 0, 0), MAP_A, QUIET, GRAFS_SHORT, NOTHING },
        { "a question of no bytes", BOARD, BYTES(1, 0, 0), MAP_A, QUIET, GRAFS_SHORT, NOTHING },
        { "a second length missing", BOARD, BYTES(2, EACH(2, 0)), MAP_A, QUIET, GRAFS_SHORT, NOTHING },
        { "an eighth length cut", BOARD, BYTES(8, SEVEN, 11), MAP_A, QUIET, GRAFS_SHORT, NOTHING },
        { "a question's letters before a second length", BOARD, BYTES(2, 6, 0, 'L', 'P', 'X', 1, 0, 0), MAP_A, QUIET, GRAFS_MARK, NOTHING },
        { "a question's version", BOARD, BYTES(2, EACH(2, 0), 6, 0, 'L', 'P', 'Q', 2, 0, 0), MAP_A, QUIET, GRAFS_VERSION, NOTHING },
        { "a question short of its length", BOARD, BYTES(2, 10, 0, 'L', 'P', 'Q', 1, 0, 0, 0x10, 1, 2, 0, 5, 0, 'L', 'P', 'X', 1, 0), MAP_A, QUIET, GRAFS_SHORT,
            NOTHING },
        { "a byte behind a question", BOARD, BYTES(2, 12, 0, 'L', 'P', 'Q', 1, 0, 0, 0x10, 1, 2, 0, 0, 0, 5, 0, 'L', 'P', 'X', 1, 0), MAP_A, QUIET,
            GRAFS_LENGTH, NOTHING },
        { "a question's code", BOARD, BYTES(2, EACH(2, 0), EACH(7, 0)), MAP_A, QUIET, GRAFS_CODE, NOTHING },
        { "a question's keys", BOARD, BYTES(1, 12, 0, 'L', 'P', 'Q', 1, 0, 0, 0x10, 2, 5, 2, 0, 0), MAP_A, QUIET, GRAFS_KEY_ORDER, NOTHING },
        { "a question's start before the next", BOARD, BYTES(2, 11, 0, 'L', 'P', 'Q', 1, 0, 0, 0x10, 1, 2, 0, 1, EACH(7, 0)), MAP_A, QUIET, GRAFS_START,
            NOTHING },
        { "a question's set", BOARD, BYTES(1, SET_OF_TWO(2, 2, 2)), MAP_A, QUIET, GRAFS_STARTS_ORDER, NOTHING },
        { "a worksheet for a question", BOARD, BYTES(1, 17, 0, 'L', 'P', 'W', 1, 0, 0, 1, 1, 2, 0, 0, 0, 0, 1, 0, 0x30, 0), MAP_A, QUIET, GRAFS_MARK, NOTHING },
        { "nine chains in one, before the next question", BOARD, BYTES(2, NINE, EACH(7, 0)), MAP_A, QUIET, GRAFS_FULL_SHEET, NOTHING },
        { "nine chains in one, before bytes left over", BOARD, BYTES(1, NINE, 0), MAP_A, QUIET, GRAFS_FULL_SHEET, NOTHING },
        { "a question's code behind nine chains together", BOARD, BYTES(3, EIGHT, EACH(2, 0), EACH(7, 0)), MAP_A, QUIET, GRAFS_CODE, NOTHING },
        { "no length behind nine chains together", BOARD, BYTES(3, EIGHT, EACH(2, 0)), MAP_A, QUIET, GRAFS_SHORT, NOTHING },
        { "a byte left over", BOARD, BYTES(1, EACH(2, 0), 0), MAP_A, QUIET, GRAFS_LENGTH, NOTHING },
        { "a question left over", BOARD, BYTES(1, EACH(2, 0), EACH(2, 0)), MAP_A, 65535, GRAFS_LENGTH, NOTHING },
        { "bytes left over, no map", BOARD, BYTES(1, EACH(2, 0), 0), NOTHING, QUIET, GRAFS_LENGTH, NOTHING },
        { "bytes left over before nine chains", BOARD, BYTES(8, SEVEN, PLUS(1, 3, 3, 0), 0), MAP_A, QUIET, GRAFS_LENGTH, NOTHING },
        { "nine chains together", BOARD, BYTES(8, SEVEN, PLUS(1, 3, 3, 0)), MAP_A, QUIET, GRAFS_FULL_SHEET, NOTHING },
        { "nine chains of the same first start", BOARD, BYTES(8, SETS, PLUS(1, 0, 3, 0)), MAP_A, QUIET, GRAFS_FULL_SHEET, NOTHING },
        { "eight chains in one and a ninth", BOARD, BYTES(2, EIGHT, EACH(2, 0)), MAP_A, QUIET, GRAFS_FULL_SHEET, NOTHING },
        { "a ninth and eight chains in one", BOARD, BYTES(2, EACH(2, 0), EIGHT), MAP_A, QUIET, GRAFS_FULL_SHEET, NOTHING },
        { "nine chains together, for rounds", BOARD, BYTES(8, SEVEN, PLUS(1, 3, 3, 0)), MAP_A, 0, GRAFS_FULL_SHEET, NOTHING },
        { "nine chains together, no map", BOARD, BYTES(8, SEVEN, PLUS(1, 3, 3, 0)), NOTHING, QUIET, GRAFS_FULL_SHEET, NOTHING },
        { "nine chains together, a start that there is not", BOARD, BYTES(8, SEVEN, PLUS(1, 3, 3, 4)), MAP_A, QUIET, GRAFS_FULL_SHEET, NOTHING },
        { "no map", BOARD, BYTES(1, EACH(2, 4)), NOTHING, QUIET, GRAFS_SHORT, NOTHING },
        { "a map of no places before the starts", BOARD, BYTES(1, EACH(2, 4)), NO_PLACES, QUIET, GRAFS_PLACES, NOTHING },
        { "a question for a map", BOARD, MIXED, BYTES('L', 'P', 'Q', 1, 0, 0, 0x10, 1, 2, 0, 0), QUIET, GRAFS_MARK, NOTHING },
        { "eight chains, a start that there is not", BOARD, BYTES(2, EIGHT, EACH(1, 7)), MAP_A, QUIET, GRAFS_START, NOTHING },
        { "start 4 in the last question", BOARD, BYTES(2, EACH(2, 0), EACH(2, 4)), MAP_A, QUIET, GRAFS_START, NOTHING },
        { "start 4 in the first question", BOARD, BYTES(2, EACH(2, 4), EACH(2, 0)), MAP_A, 0, GRAFS_START, NOTHING },
        { "start 4 in a set", BOARD, BYTES(2, EACH(2, 0), SET_OF_TWO(2, 0, 4)), MAP_A, QUIET, GRAFS_START, NOTHING },
    };
    for (size_t i = 0; i < sizeof cases / sizeof *cases; i++)
        try_case(&cases[i]);
}

/* The most bytes that answers have: eight literals at each of 256 places. Exact, a byte short, and for the most rounds. */
static void try_longest(void)
{
    static const uint8_t map[] = { 'L', 'P', 'M', 1, 0, 0, 1, 0, 0 };
    static uint8_t board[1 + 8 * 13], want[GRAFS_BOARD_ANSWERS_MAX];
    for (int rounds = QUIET; rounds <= 65535; rounds += 65536) {
        uint8_t *q = board, *a = want;
        *q++ = 8;
        for (uint8_t i = 0; i < 8; i++) {
            const uint8_t question[] = { 11, 0, 'L', 'P', 'Q', 1, 0, 0, 0x11, i, 0, 0, 0 }, row[] = { 1, i, 0, 0, 0, 0, 0, 0, 0 };
            const uint8_t head[] = { 'L', 'P', 'A', 1, 0, 0, 1, rounds == QUIET ? 1 : 255, rounds == QUIET ? 0 : 255, 0 };
            memcpy(q, question, sizeof question), q += sizeof question;
            memcpy(a, head, sizeof head), a += sizeof head;
            for (int place = 0; place < 256; place++)
                memcpy(a, row, sizeof row), a += sizeof row;
        }
        const test_case c = { "the longest answers", BOARD, board, sizeof board, map, sizeof map, rounds, 0, want, sizeof want };
        expect(a == want + sizeof want, "the longest answers fill their room", sizeof want);
        try_with(&c, 0, 0);
        try_with(&c, sizeof want - GRAFS_ANSWER_MAX, 0);
        try_with(&c, sizeof want - 1, 1);
        try_with(&c, sizeof want, 1);
        try_with(&c, sizeof want + 1, 0);
    }
}

/* ---------------------------------------------------------------------------------------------------------------------- maps in order */
typedef struct {
    const char *name;
    const uint8_t *map;
    size_t map_len;
    uint32_t number; /* 0, or the refusal */
    const uint8_t *want;
    size_t want_len;
} sort_case;

static void try_sort_lent(const sort_case *c, size_t lent)
{
    uint8_t *map = copy_of(c->map, c->map_len), *room = filled_room(lent + 2 * GUARD), *out = room + GUARD;
    uint32_t n = grafs_sort_map(map, c->map_len, out, lent);
    uint32_t number = c->number ? c->number : lent < c->want_len ? GRAFS_BUFFER_SHORT : GRAFS_DONE;
    size_t done = number == GRAFS_DONE ? c->want_len : 0;
    expect(n == (number == GRAFS_DONE ? c->want_len : GRAFS_REFUSAL + number), c->name, lent);
    expect(!memcmp(out, c->want, done), c->name, lent);
    expect(still_filled(room, GUARD) && still_filled(out + done, lent - done + GUARD), c->name, lent);
    expect(!memcmp(map, c->map, c->map_len), c->name, lent);
    free(map), free(room);
}

/* Every length lent, and what was written sorted again. */
static void try_sort(const sort_case *c)
{
    for (size_t lent = 0; lent <= c->want_len + 3; lent++)
        if (lent < 100 || lent + 3 > c->want_len)
            try_sort_lent(c, lent);
    try_sort_lent(c, 20000);
    const sort_case again = { c->name, c->want, c->want_len, 0, c->want, c->want_len };
    if (!c->number)
        try_sort_lent(&again, c->want_len);
}

#define U16(x) (x) & 255, (x) >> 8
#define PASSAGE(from, to, seconds, crate) U16(from), U16(to), U16(seconds), U16(crate)
#define MAP(n, m, ...) BYTES('L', 'P', 'M', 1, 0, U16(n), U16(m), __VA_ARGS__)
#define NO_ROW(n) BYTES('L', 'P', 'M', 1, 0, U16(n), 0, 0)

static void try_sorts(void)
{
    const sort_case cases[] = {
        { "map A", MAP_A, 0, MAP(4, 4, PASSAGE(0, 1, 5, 10), PASSAGE(0, 2, 2, 4), PASSAGE(1, 3, 0, 7), PASSAGE(2, 1, 3, 20)) },
        { "no row", NO_ROW(1), 0, NO_ROW(1) },
        { "no row, 256 places", NO_ROW(256), 0, NO_ROW(256) },
        { "one row", MAP(1, 1, PASSAGE(0, 0, 65535, 65534)), 0, MAP(1, 1, PASSAGE(0, 0, 65535, 65534)) },
        { "by from", MAP(256, 3, PASSAGE(255, 0, 0, 1), PASSAGE(1, 2, 3, 4), PASSAGE(0, 255, 65535, 65534)), 0,
            MAP(256, 3, PASSAGE(0, 255, 65535, 65534), PASSAGE(1, 2, 3, 4), PASSAGE(255, 0, 0, 1)) },
        { "by to", MAP(256, 3, PASSAGE(7, 255, 0, 1), PASSAGE(7, 1, 3, 4), PASSAGE(7, 0, 65535, 65534)), 0,
            MAP(256, 3, PASSAGE(7, 0, 65535, 65534), PASSAGE(7, 1, 3, 4), PASSAGE(7, 255, 0, 1)) },
        { "by seconds", MAP(9, 4, PASSAGE(7, 8, 256, 1), PASSAGE(7, 8, 65535, 1), PASSAGE(7, 8, 255, 4), PASSAGE(7, 8, 0, 65534)), 0,
            MAP(9, 4, PASSAGE(7, 8, 0, 65534), PASSAGE(7, 8, 255, 4), PASSAGE(7, 8, 256, 1), PASSAGE(7, 8, 65535, 1)) },
        { "by crate size", MAP(9, 4, PASSAGE(7, 8, 9, 65534), PASSAGE(7, 8, 9, 256), PASSAGE(7, 8, 9, 255), PASSAGE(7, 8, 9, 1)), 0,
            MAP(9, 4, PASSAGE(7, 8, 9, 1), PASSAGE(7, 8, 9, 255), PASSAGE(7, 8, 9, 256), PASSAGE(7, 8, 9, 65534)) },
        { "repeats", MAP(2, 5, PASSAGE(1, 0, 2, 3), PASSAGE(0, 1, 2, 3), PASSAGE(1, 0, 2, 3), PASSAGE(0, 1, 2, 3), PASSAGE(1, 0, 2, 3)), 0,
            MAP(2, 5, PASSAGE(0, 1, 2, 3), PASSAGE(0, 1, 2, 3), PASSAGE(1, 0, 2, 3), PASSAGE(1, 0, 2, 3), PASSAGE(1, 0, 2, 3)) },
        { "nothing", NOTHING, GRAFS_SHORT, NOTHING },
        { "eight bytes of another file", BYTES('L', 'P', 'Q', 2, 0, 0, 0, 0), GRAFS_SHORT, NOTHING },
        { "another file, version 2, no places", BYTES('L', 'P', 'Q', 2, 0, 0, 0, 1, 4), GRAFS_MARK, NOTHING },
        { "version 2, no places", BYTES('L', 'P', 'M', 2, 0, 0, 0, 1, 4), GRAFS_VERSION, NOTHING },
        { "version 257", BYTES('L', 'P', 'M', 1, 1, 1, 0, 0, 0), GRAFS_VERSION, NOTHING },
        { "no places", NO_ROW(0), GRAFS_PLACES, NOTHING },
        { "no places, 1,025 rows, length", BYTES('L', 'P', 'M', 1, 0, 0, 0, 1, 4), GRAFS_PLACES, NOTHING },
        { "257 places", NO_ROW(257), GRAFS_PLACES, NOTHING },
        { "1,025 rows, length", BYTES('L', 'P', 'M', 1, 0, 1, 0, 1, 4), GRAFS_PASSAGES, NOTHING },
        { "a byte left over, a row from nowhere", MAP(1, 1, PASSAGE(1, 0, 0, 0), 0), GRAFS_LENGTH, NOTHING },
        { "a byte missing, a row from nowhere", BYTES('L', 'P', 'M', 1, 0, 1, 0, 1, 0, 1, 0, 0, 0, 0, 0, 0), GRAFS_LENGTH, NOTHING },
        { "from, crate size 0", MAP(2, 1, PASSAGE(2, 0, 0, 0)), GRAFS_NO_SUCH_PLACE, NOTHING },
        { "to, crate size 65,535", MAP(2, 1, PASSAGE(0, 2, 0, 65535)), GRAFS_NO_SUCH_PLACE, NOTHING },
        { "crate size 0", MAP(2, 1, PASSAGE(0, 1, 0, 0)), GRAFS_CRATE, NOTHING },
        { "crate size 65,535", MAP(2, 1, PASSAGE(0, 1, 0, 65535)), GRAFS_CRATE, NOTHING },
        { "the first row's crate size, though its place is the last", MAP(2, 2, PASSAGE(1, 1, 0, 0), PASSAGE(0, 2, 0, 1)), GRAFS_CRATE, NOTHING },
        { "the first row's place, though its place is the last", MAP(2, 2, PASSAGE(2, 1, 0, 1), PASSAGE(0, 1, 0, 0)), GRAFS_NO_SUCH_PLACE, NOTHING },
        { "the second row's crate size, the third one's from", MAP(2, 3, PASSAGE(1, 1, 0, 1), PASSAGE(1, 0, 0, 65535), PASSAGE(2, 0, 0, 1)), GRAFS_CRATE,
            NOTHING },
    };
    for (size_t i = 0; i < sizeof cases / sizeof *cases; i++)
        try_sort(&cases[i]);
}

/* ---------------------------------------------------------------------------------------------------------------------- 1,024 rows */
enum { MOST_ROWS = GRAFS_PASSAGES_MAX, HEAD = 9, ROW = 8 };

static void put16(uint8_t *p, unsigned x) { p[0] = (uint8_t)(x & 255), p[1] = (uint8_t)(x >> 8); }

/* In order, every fourth row as the one before. Else a row has another crate size than the one before, and at every fourth, 32nd and 256th step other seconds,
 * another to and another from as well. */
static void put_rows(uint8_t *map)
{
    const uint8_t head[HEAD] = { 'L', 'P', 'M', 1, 0, U16(9), U16(MOST_ROWS) };
    memcpy(map, head, sizeof head);
    for (unsigned i = 0; i < MOST_ROWS; i++) {
        unsigned step = i - i / 4;
        uint8_t *row = map + HEAD + ROW * i;
        put16(row, step / 256), put16(row + 2, step / 32 % 8), put16(row + 4, 255 * (step / 4 % 8)), put16(row + 6, 1 + 255 * (step % 4));
    }
}

/* In an order that depends on the number. */
static void shuffle(uint8_t *map, uint32_t number)
{
    for (uint32_t i = MOST_ROWS - 1; i > 0; i--) {
        number = number * 1664525u + 1013904223u;
        uint8_t *a = map + HEAD + ROW * i, *b = map + HEAD + ROW * ((number >> 16) % (i + 1)), kept[ROW];
        memcpy(kept, a, ROW), memmove(a, b, ROW), memcpy(b, kept, ROW);
    }
}

static void reverse(uint8_t *map)
{
    for (size_t i = 0, k = MOST_ROWS - 1; i < k; i++, k--) {
        uint8_t *a = map + HEAD + ROW * i, *b = map + HEAD + ROW * k, kept[ROW];
        memcpy(kept, a, ROW), memmove(a, b, ROW), memcpy(b, kept, ROW);
    }
}

static int sorts_to(const uint8_t *map, size_t len, const uint8_t *want, size_t want_len)
{
    uint8_t *in = copy_of(map, len), *out = room_of(len);
    uint32_t n = grafs_sort_map(in, len, out, len);
    int same = n == want_len && !memcmp(out, want, want_len);
    expect(n == len, "as many bytes as the map has", n);
    free(in), free(out);
    return same;
}

static void try_most_rows(void)
{
    static uint8_t want[GRAFS_MAP_MAX], map[GRAFS_MAP_MAX], out[GRAFS_MAP_MAX];
    put_rows(want);
    memcpy(map, want, sizeof map);
    const sort_case c = { "1,024 rows", map, sizeof map, 0, want, sizeof want };
    expect(sizeof want == HEAD + ROW * MOST_ROWS, "1,024 rows fill the longest map", sizeof want);
    try_sort(&c);
    reverse(map);
    try_sort(&c);
    for (uint32_t number = 0; number < 20; number++) {
        shuffle(map, number);
        try_sort_lent(&c, sizeof map);
        try_sort_lent(&c, sizeof map - 1);
    }
    /* One field of one row another; a row left out; the next row twice in place of one; a place more. */
    for (size_t i = 0; i < MOST_ROWS; i += 93)
        for (size_t field = 0; field < 4; field++)
            for (unsigned x = 3; x < 9; x += 5) {
                uint8_t *at = map + HEAD + ROW * i + 2 * field, kept[2] = { at[0], at[1] };
                if (at[0] != x || at[1] != 0) {
                    put16(at, x);
                    expect(!sorts_to(map, sizeof map, want, sizeof want), "one field another", i);
                    memcpy(at, kept, 2);
                }
            }
    memcpy(out, map, sizeof out);
    put16(out + 7, MOST_ROWS - 1);
    expect(!sorts_to(out, sizeof out - ROW, want, sizeof want) && !sorts_to(out, sizeof out - ROW, want, sizeof want - ROW), "a row less", MOST_ROWS - 1);
    memcpy(out, want, sizeof out);
    memcpy(out + HEAD + 4 * ROW, out + HEAD + 5 * ROW, ROW);
    expect(!sorts_to(out, sizeof out, want, sizeof want), "another row repeated", 4);
    put16(map + 5, 10);
    expect(!sorts_to(map, sizeof map, want, sizeof want), "another number of places", 10);
    put16(want + 5, 10);
    expect(sorts_to(map, sizeof map, want, sizeof want), "the same with that number of places", 10);
    /* One row too many. */
    uint8_t *longer = filled_room(sizeof map + ROW);
    memcpy(longer, map, sizeof map);
    put16(longer + 7, MOST_ROWS + 1);
    expect(grafs_sort_map(longer, sizeof map + ROW, out, sizeof out) == GRAFS_REFUSAL + GRAFS_PASSAGES, "1,025 rows", MOST_ROWS + 1);
    free(longer);
}

/* Every call with nothing but null pointers of length 0, and a tally where it takes one. */
static void try_nulls(void)
{
    const uint32_t refused = GRAFS_REFUSAL + GRAFS_SHORT;
    for (int on = 0; on < 2; on++)
        for (int way = 0; way < 2; way++) {
            uint64_t t[3] = { 7, 4, 3 };
            expect(quiet[on][way](NULL, 0, NULL, 0, NULL, 0) == refused, "null pointers", (size_t)on);
            expect(rounds_of[on][way](NULL, 0, NULL, 0, 9, NULL, 0) == refused, "null pointers, given rounds", (size_t)on);
            expect(counted[on][way](NULL, 0, NULL, 0, NULL, 0, t) == refused && t[0] == 8 && t[1] == 4 && t[2] == 4, "null pointers, counted", (size_t)on);
            expect(counted_rounds[on][way](NULL, 0, NULL, 0, 9, NULL, 0, t) == refused && t[GRAFS_TALLY_ASKED] == 9 && t[GRAFS_TALLY_ANSWERED] == 4 &&
                t[GRAFS_TALLY_REFUSED] == 5, "null pointers, given rounds, counted", (size_t)on);
        }
    const uint8_t map[] = { 'L', 'P', 'M', 1, 0, 1, 0, 0, 0 };
    expect(grafs_sort_map(NULL, 0, NULL, 0) == refused, "null pointers, sorted", 0);
    expect(grafs_sort_map(map, sizeof map, NULL, 0) == GRAFS_REFUSAL + GRAFS_BUFFER_SHORT, "a null pointer, sorted", 1);
}

/* `fuse` and `run` of this archive: test.c tries them in full, linked with it too. */
int main(void)
{
    try_worksheets();
    try_boards();
    try_refusals();
    try_longest();
    try_sorts();
    try_most_rows();
    try_nulls();
    printf("c: service: %u comparisons, %u differ\n", tried, failed);
    return failed != 0;
}
