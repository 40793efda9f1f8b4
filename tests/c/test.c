/* The two exported calls, from C: stored bytes in, stored bytes out, each with every lent length from 0 to some bytes more than needed.
 * The rest of the buffer, the bytes before and behind it, and the inputs must be as they were. */
#include "check.h"
#include "grafs.h"

enum { GUARD = 64 };

typedef struct {
    const char *name;
    const uint8_t *first;   /* a question; or a worksheet, with a map */
    size_t first_len;
    const uint8_t *map;     /* null for fuse */
    size_t map_len;
    uint32_t number;        /* 0, or the refusal */
    const uint8_t *want;
    size_t want_len;
} test_case;

static void try_with(const test_case *c, size_t lent)
{
    uint8_t *first = copy_of(c->first, c->first_len), *map = copy_of(c->map ? c->map : (const uint8_t *)"", c->map_len);
    uint8_t *room = filled_room(lent + 2 * GUARD), *out = room + GUARD;
    uint32_t n = c->map ? run(first, c->first_len, map, c->map_len, out, lent) : fuse(first, c->first_len, out, lent);
    uint32_t number = c->number ? c->number : lent < c->want_len ? GRAFS_BUFFER_SHORT : GRAFS_DONE;
    size_t done = number == GRAFS_DONE ? c->want_len : 0;
    expect(n == (number == GRAFS_DONE ? c->want_len : GRAFS_REFUSAL + number), c->name, lent);
    expect(!memcmp(out, c->want, done), c->name, lent);
    expect(still_filled(room, GUARD) && still_filled(out + done, lent - done + GUARD), c->name, lent);
    expect(!memcmp(first, c->first, c->first_len) && !memcmp(map, c->map ? c->map : map, c->map_len), c->name, lent);
    free(first), free(map), free(room);
}

static void try_case(const test_case *c)
{
    for (size_t lent = 0; lent <= c->want_len + 3; lent++)
        try_with(c, lent);
    try_with(c, 4096);
}

#define BYTES(...) (const uint8_t[]){ __VA_ARGS__ }, sizeof((const uint8_t[]){ __VA_ARGS__ })
#define MAP_A BYTES('L', 'P', 'M', 1, 0, 4, 0, 4, 0, 0, 0, 1, 0, 5, 0, 10, 0, 0, 0, 2, 0, 2, 0, 4, 0, 2, 0, 1, 0, 3, 0, 20, 0, 1, 0, 3, 0, 0, 0, 7, 0)
#define NUMBER(x) 1, (x) & 255, (x) >> 8, 0, 0, 0, 0, 0, 0
#define ABSENT 0, 0, 0, 0, 0, 0, 0, 0, 0
#define NO_MAP NULL, 0
#define NOTHING (const uint8_t *)"", 0

/* A chain of one key from a start, at each place: question and worksheet. */
#define PLACE_Q(key, start) BYTES('L', 'P', 'Q', 1, 0, 0, 0x10, 1, key, start, 0)
#define PLACE_W(key, start) BYTES('L', 'P', 'W', 1, 0, 0, 1, 1, key, 0, 0, start, 0, 1, 0, 0x30, 0)

/* A reduction of the seconds from 0, over places where these are more than so many. */
#define FARTHER_Q(reduction, than) \
    BYTES('L', 'P', 'Q', 1, 0, 1, 0x23, reduction, 0x12, 9, 0x10, 1, 2, 0, 0, 0x11, than, 0, 0, 0, 0x10, 1, 2, 0, 0)
#define FARTHER_W(byte, than) BYTES('L', 'P', 'W', 1, 0, 1, 1, 1, 2, 0, 0, 0, 0, 1, byte, 0x12, 9, 0x30, 0, 0x11, than, 0, 0, 0, 0x30, 0, 0x31, 0)
#define RESULT_A(...) BYTES('L', 'P', 'A', 1, 0, 4, 0, 3, 0, 1, __VA_ARGS__)

/* Largest crates from 0, added up where the seconds from 2 are neither 0 nor absent. */
#define BEHIND_Q BYTES('L', 'P', 'Q', 1, 0, 1, 0x23, 3, 0x10, 1, 2, 2, 0, 0x10, 1, 5, 0, 0)
#define BEHIND_W BYTES('L', 'P', 'W', 1, 0, 1, 2, 1, 2, 0, 0, 2, 0, 1, 5, 0, 0, 0, 0, 1, 131, 0x30, 0, 0x30, 1, 0x31, 0)

/* A chain of one key from a set, at each place: the set's count, then its starts as bytes. */
#define SET_Q(key, ...) BYTES('L', 'P', 'Q', 1, 0, 0, 0x13, 1, key, __VA_ARGS__)
#define SET_W(key, ...) BYTES('L', 'P', 'W', 2, 0, 0, 1, 1, key, 0, 0, __VA_ARGS__, 1, 0, 0x30, 0)
#define SIXTEEN 0, 0, 1, 0, 2, 0, 3, 0, 4, 0, 5, 0, 6, 0, 7, 0, 8, 0, 9, 0, 10, 0, 11, 0, 12, 0, 13, 0, 14, 0, 255, 0
#define ROWS_A(rounds, ...) BYTES('L', 'P', 'A', 1, 0, 4, 0, rounds, 0, 0, __VA_ARGS__)

/* Passages from 1 or 3, from 2, and from anywhere, added up. */
#define BESIDE_Q BYTES('L', 'P', 'Q', 1, 0, 0, 0x12, 3, 0x12, 3, 0x13, 1, 1, 2, 1, 0, 3, 0, 0x10, 1, 1, 2, 0, 0x10, 1, 1, 255, 255)
#define BESIDE_W \
    BYTES('L', 'P', 'W', 2, 0, 0, 3, 1, 1, 0, 0, 2, 1, 0, 3, 0, 1, 1, 0, 0, 1, 2, 0, 1, 1, 0, 0, 0, 1, 0, 0x12, 3, 0x12, 3, 0x30, 0, 0x30, 1, 0x30, 2)

/* An operator on the seconds from 0 and from 3. */
#define CUT_Q(operator) BYTES('L', 'P', 'Q', 1, 0, 0, 0x12, operator, 0x10, 1, 2, 0, 0, 0x10, 1, 2, 3, 0)
#define CUT_W(operator) BYTES('L', 'P', 'W', 1, 0, 0, 2, 1, 2, 0, 0, 0, 0, 1, 2, 0, 0, 3, 0, 1, 0, 0x12, operator, 0x30, 0, 0x30, 1)

/* Seconds from 0, from 0 or 2, from 2, from 2 or 3, then from 0 or 2 and from 0 again, written otherwise: four chains. */
#define APART_Q \
    BYTES('L', 'P', 'Q', 1, 0, 1, 0x20, 3, 0x12, 3, 0x12, 3, 0x13, 1, 2, 1, 0, 0, 0x13, 1, 2, 2, 0, 0, 2, 0, 0x12, 3, 0x12, 3, 0x10, 1, 2, 2, 0, 0x13, 1, 2, \
        2, 2, 0, 3, 0, 0x12, 3, 0x13, 1, 2, 2, 0, 0, 2, 0, 0x10, 1, 2, 0, 0)
#define APART_W \
    BYTES('L', 'P', 'W', 2, 0, 1, 4, 1, 2, 0, 0, 1, 0, 0, 1, 2, 0, 0, 2, 0, 0, 2, 0, 1, 2, 0, 0, 1, 2, 0, 1, 2, 0, 0, 2, 2, 0, 3, 0, 1, 3, 0x12, 3, 0x12, 3, \
        0x30, 0, 0x30, 1, 0x12, 3, 0x12, 3, 0x30, 2, 0x30, 3, 0x12, 3, 0x30, 1, 0x30, 0, 0x31, 0)

int main(void)
{
    const test_case cases[] = {
        { "key 2 fused", PLACE_Q(2, 0), NO_MAP, 0, PLACE_W(2, 0) },
        { "the byte case fused", BYTES(0x4c, 0x50, 0x51, 1, 0, 1, 0x20, 2, 0x10, 1, 1, 0, 0), NO_MAP, 0,
            BYTES(0x4c, 0x50, 0x57, 1, 0, 1, 1, 1, 1, 0, 0, 0, 0, 1, 2, 0x30, 0, 0x31, 0) },
        { "equal chains put together", BYTES('L', 'P', 'Q', 1, 0, 0, 0x12, 3, 0x10, 2, 2, 5, 1, 0, 0x10, 2, 2, 5, 1, 0), NO_MAP, 0,
            BYTES('L', 'P', 'W', 1, 0, 0, 1, 2, 2, 5, 0, 1, 0, 1, 0, 0x12, 3, 0x30, 0, 0x30, 0) },
        { "minus, chains in order of writing", BYTES('L', 'P', 'Q', 1, 0, 1, 0x22, 4, 0x20, 2, 0x10, 1, 2, 0, 0, 0x20, 1, 0x10, 1, 1, 0, 0), NO_MAP, 0,
            BYTES('L', 'P', 'W', 1, 0, 1, 2, 1, 2, 0, 0, 0, 0, 1, 1, 0, 0, 0, 0, 2, 2, 0x30, 0, 1, 0x30, 1, 0x22, 4, 0x31, 0, 0x31, 1) },
        { "no question", NOTHING, NO_MAP, GRAFS_SHORT, NOTHING },
        { "keys 5,2", BYTES('L', 'P', 'Q', 1, 0, 0, 0x10, 2, 5, 2, 0, 0), NO_MAP, GRAFS_KEY_ORDER, NOTHING },
        { "key 2 from 0 on map A", PLACE_W(2, 0), MAP_A, 0, BYTES('L', 'P', 'A', 1, 0, 4, 0, 3, 0, 0, NUMBER(0), NUMBER(5), NUMBER(2), NUMBER(5)) },
        { "key 6 from 0 on map A", PLACE_W(6, 0), MAP_A, 0, BYTES('L', 'P', 'A', 1, 0, 4, 0, 4, 0, 0, NUMBER(65535), NUMBER(4), NUMBER(4), NUMBER(4)) },
        { "key 1 from 3 on map A", PLACE_W(1, 3), MAP_A, 0, BYTES('L', 'P', 'A', 1, 0, 4, 0, 1, 0, 0, ABSENT, ABSENT, ABSENT, NUMBER(0)) },
        { "the byte case run", BYTES(0x4c, 0x50, 0x57, 1, 0, 1, 1, 1, 1, 0, 0, 0, 0, 1, 2, 0x30, 0, 0x31, 0), MAP_A, 0,
            BYTES('L', 'P', 'A', 1, 0, 4, 0, 3, 0, 1, NUMBER(2)) },
        { "a condition fused", FARTHER_Q(3, 2), NO_MAP, 0, FARTHER_W(GRAFS_ENTRY_CONDITION + 3, 2) },
        { "the condition's chain before the value's", BEHIND_Q, NO_MAP, 0, BEHIND_W },
        { "the sum over places farther than 2 seconds", FARTHER_W(131, 2), MAP_A, 0, RESULT_A(NUMBER(10)) },
        { "the greatest over places farther than 2 seconds", FARTHER_W(130, 2), MAP_A, 0, RESULT_A(NUMBER(5)) },
        { "the greatest over no place", FARTHER_W(130, 9), MAP_A, 0, RESULT_A(ABSENT) },
        { "a condition that is 0 or absent", BEHIND_W, MAP_A, 0, RESULT_A(NUMBER(17)) },
        { "a condition, and no reduction", FARTHER_W(128, 2), MAP_A, GRAFS_CODE, NOTHING },
        { "a condition, and no such reduction", FARTHER_W(134, 2), MAP_A, GRAFS_CODE, NOTHING },
        { "no such reduction", FARTHER_W(6, 2), MAP_A, GRAFS_CODE, NOTHING },
        { "a set fused", SET_Q(2, 2, 0, 0, 2, 0), NO_MAP, 0, SET_W(2, 2, 0, 0, 2, 0) },
        { "a set of 16 fused", SET_Q(6, 16, SIXTEEN), NO_MAP, 0, SET_W(6, 16, SIXTEEN) },
        { "a set of one fused", SET_Q(2, 1, 0, 0), NO_MAP, 0, PLACE_W(2, 0) },
        { "a set, a start and anywhere fused", BESIDE_Q, NO_MAP, 0, BESIDE_W },
        { "equal sets put together, others apart", APART_Q, NO_MAP, 0, APART_W },
        { "no start", SET_Q(2, 0), NO_MAP, GRAFS_CODE, NOTHING },
        { "17 starts", SET_Q(2, 17, SIXTEEN, 0, 1), NO_MAP, GRAFS_CODE, NOTHING },
        { "no set count", BYTES('L', 'P', 'Q', 1, 0, 0, 0x13, 1, 2), NO_MAP, GRAFS_SHORT, NOTHING },
        { "half a start", SET_Q(2, 2, 0, 0, 2), NO_MAP, GRAFS_SHORT, NOTHING },
        { "256 in a set", SET_Q(2, 2, 0, 0, 0, 1), NO_MAP, GRAFS_START, NOTHING },
        { "anywhere in a set", SET_Q(2, 2, 0, 0, 255, 255), NO_MAP, GRAFS_START, NOTHING },
        { "equal starts", SET_Q(2, 2, 2, 0, 2, 0), NO_MAP, GRAFS_STARTS_ORDER, NOTHING },
        { "starts that fall", SET_Q(2, 3, 0, 0, 2, 0, 1, 0), NO_MAP, GRAFS_STARTS_ORDER, NOTHING },
        { "a question of version 2", BYTES('L', 'P', 'Q', 2, 0, 0, 0x13, 1, 2, 2, 0, 0, 2, 0), NO_MAP, GRAFS_VERSION, NOTHING },
        { "key 2 from 0 or 2 on map A", SET_W(2, 2, 0, 0, 2, 0), MAP_A, 0, ROWS_A(3, NUMBER(0), NUMBER(3), NUMBER(0), NUMBER(3)) },
        { "key 4 from 0 or 2 on map A", SET_W(4, 2, 0, 0, 2, 0), MAP_A, 0, ROWS_A(3, NUMBER(0), NUMBER(2), NUMBER(2), NUMBER(2)) },
        { "key 6 from 1 or 2 on map A", SET_W(6, 2, 1, 0, 2, 0), MAP_A, 0, ROWS_A(2, ABSENT, NUMBER(20), NUMBER(65535), NUMBER(7)) },
        { "all places of map A", SET_W(3, 4, 0, 0, 1, 0, 2, 0, 3, 0), MAP_A, 0, ROWS_A(3, NUMBER(0), NUMBER(0), NUMBER(0), NUMBER(0)) },
        { "a set of one run", SET_W(2, 1, 0, 0), MAP_A, 0, ROWS_A(3, NUMBER(0), NUMBER(5), NUMBER(2), NUMBER(5)) },
        { "anywhere in version 2", SET_W(3, 0), MAP_A, 0, ROWS_A(3, NUMBER(0), NUMBER(0), NUMBER(0), NUMBER(0)) },
        { "a set, a start and anywhere run", BESIDE_W, MAP_A, 0, ROWS_A(3, ABSENT, NUMBER(1), ABSENT, NUMBER(2)) },
        { "17 starts on a worksheet", SET_W(2, 17, SIXTEEN, 0, 1), MAP_A, GRAFS_CODE, NOTHING },
        { "256 in a worksheet's set", SET_W(2, 1, 0, 1), MAP_A, GRAFS_START, NOTHING },
        { "anywhere in a worksheet's set", SET_W(2, 2, 0, 0, 255, 255), MAP_A, GRAFS_START, NOTHING },
        { "equal starts on a worksheet", SET_W(2, 2, 2, 0, 2, 0), MAP_A, GRAFS_STARTS_ORDER, NOTHING },
        { "a last start that map A has not", SET_W(2, 2, 3, 0, 4, 0), MAP_A, GRAFS_START, NOTHING },
        { "a worksheet of version 3", BYTES('L', 'P', 'W', 3, 0, 0, 1, 1, 2, 0, 0, 1, 0, 0, 1, 0, 0x30, 0), MAP_A, GRAFS_VERSION, NOTHING },
        { "a map of version 2", SET_W(2, 1, 0, 0), BYTES('L', 'P', 'M', 2, 0, 1, 0, 0, 0), GRAFS_VERSION, NOTHING },
        { "one counter cut off fused", CUT_Q(GRAFS_OP_MIN), NO_MAP, 0, CUT_W(GRAFS_OP_MIN) },
        { "the lesser from 0 or 3 on map A", CUT_W(GRAFS_OP_MIN), MAP_A, 0, ROWS_A(3, NUMBER(0), NUMBER(5), NUMBER(2), NUMBER(0)) },
        { "the greater from 0 or 3 on map A", CUT_W(GRAFS_OP_MAX), MAP_A, 0, ROWS_A(3, NUMBER(0), NUMBER(5), NUMBER(2), NUMBER(5)) },
        { "the sum from 0 and 3 on map A", CUT_W(GRAFS_OP_PLUS), MAP_A, 0, ROWS_A(3, ABSENT, ABSENT, ABSENT, NUMBER(5)) },
        { "start 4 on map A", PLACE_W(2, 4), MAP_A, GRAFS_START, NOTHING },
        { "a worksheet before its map", BYTES('L', 'P', 'Q', 1, 0), BYTES('L'), GRAFS_MARK, NOTHING },
        { "no map", PLACE_W(2, 4), (const uint8_t *)"", 0, GRAFS_SHORT, NOTHING },
    };
    for (size_t i = 0; i < sizeof cases / sizeof *cases; i++)
        try_case(&cases[i]);
    if (fuse(NULL, 0, NULL, 0) != GRAFS_REFUSAL + GRAFS_SHORT || run(NULL, 0, NULL, 0, NULL, 0) != GRAFS_REFUSAL + GRAFS_SHORT)
        failed++, printf("differs: null pointers with length 0\n");
    printf("c: %u comparisons, %u differ\n", tried + 2, failed);
    return failed != 0;
}
