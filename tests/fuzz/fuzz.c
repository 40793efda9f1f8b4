/* libFuzzer's harness over the exported calls: arbitrary bytes and lent lengths, and what include/grafs.h, include/grafs_service.h and the documents promise of
 * number, buffer, tally and order. An input is laid out as seeds.py says.
 *
 * The library is not instrumented. So that no step outside a buffer goes unseen, a call is made three times: with every buffer on the
 * heap at just its length (the sanitizer sees what goes through memcpy and memset), with every buffer up to the last byte before a page
 * that may not be touched, and with every buffer from the first byte behind one. The buffer lent is filled differently each time, so the
 * bytes written cannot be what stood there. The same run by another way is made at one of these, by turns. */
#define _GNU_SOURCE
#include <stdio.h>
#include <stdlib.h>
#include <string.h>
#include <sys/mman.h>
#include "grafs_service.h"

enum { PAGE = 4096, ROOM = 24 * PAGE, GUARD = 64, VERSION_OFFSET = 3, PLACES_OFFSET = 5, CHAINS_OFFSET = 6, KIND_OFFSET = 5, ROUNDS_OFFSET = 7 };
enum { ANSWER_HEAD = 10, ROW = 9, MAP_HEAD = 9, PASSAGE = 8, LAST_NUMBER = 17, NUMBERS };
enum { HEAP, TO_THE_END, FROM_THE_START, PLACEMENTS };

/* What a call is made on, and how: FUSE, RUN and SORT are the calls of these names; the others go by a way. */
enum { FUSE, RUN, SHEET, BOARD, SORT, CALLS };
enum { PULL, PUSH, COUNTED_PULL, COUNTED_PUSH, WAYS };
enum { QUIET = -1 };

typedef struct {
    const uint8_t *p;
    size_t len;
} bytes;

/* A call but for its bytes. */
typedef struct {
    int on, way, rounds;
} call_kind;

typedef struct {
    uint32_t result;
    uint8_t out[ROOM];
} reply;

static const call_kind fusing = { FUSE, 0, QUIET }, running = { RUN, 0, QUIET }, boarding = { BOARD, PUSH, QUIET }, sorting = { SORT, 0, QUIET };

/* Tells libFuzzer what is new, as the library tells it nothing: by call, number and how far the bytes were read; by shape of what was written. */
__attribute__((section("__libfuzzer_extra_counters"))) static uint8_t seen[CALLS * NUMBERS * 128 + 1024];

static unsigned long long calls, numbers[CALLS][NUMBERS], boards_answered[GRAFS_BOARD_QUESTIONS_MAX + 1], rounds_differ, ninth_together;
static unsigned long long sorted_otherwise, with_repeats; /* maps whose rows were not in order; that have a row twice */
static const uint8_t any_start[] = { 'L', 'P', 'M', 1, 0, 0, 1, 0, 0 };           /* 256 places: every start is one */
static const uint8_t no_chain[] = { 'L', 'P', 'W', 1, 0, 1, 0, 0, 0x21, 1, 0, 0, 0 };

static void fail(const char *promise)
{
    fprintf(stderr, "not kept: %s\n", promise);
    abort();
}

static void expect(int held, const char *promise)
{
    if (!held)
        fail(promise);
}

static uint32_t number_of(uint32_t result)
{
    return result < GRAFS_REFUSAL ? 0 : result - GRAFS_REFUSAL;
}

static unsigned at16(const uint8_t *p)
{
    return p[0] + 256u * p[1];
}

/* ---------------------------------------------------------------- calling */

/* The call itself; what it does to the tally is looked at here. */
static uint32_t called(call_kind k, const uint8_t *a, size_t len, const uint8_t *map, size_t map_len, uint8_t *out, size_t lent)
{
    static const uint64_t tallies[][3] = { { 0, 0, 0 }, { 9, 5, 4 }, { UINT64_MAX, 1, 2 }, { 1, UINT64_MAX, 2 }, { 1, 2, UINT64_MAX },
        { UINT64_MAX - 1, UINT64_MAX - 1, UINT64_MAX - 1 }, { UINT32_MAX, UINT32_MAX, UINT32_MAX } };
    const uint64_t *before = tallies[calls % 7];
    uint64_t t[3] = { before[0], before[1], before[2] };
    uint16_t r = (uint16_t)k.rounds;
    int board = k.on == BOARD, quiet = k.rounds == QUIET;
    uint32_t x;
    calls++;
    if (k.on == FUSE)
        return fuse(a, len, out, lent);
    if (k.on == SORT)
        return grafs_sort_map(a, len, out, lent);
    if (k.on == RUN)
        return run(a, len, map, map_len, out, lent);
    if (k.way == PULL && quiet)
        return (board ? grafs_board_pull : grafs_pull)(a, len, map, map_len, out, lent);
    if (k.way == PUSH && quiet)
        return (board ? grafs_board_push : grafs_push)(a, len, map, map_len, out, lent);
    if (k.way == PULL)
        return (board ? grafs_board_pull_rounds : grafs_pull_rounds)(a, len, map, map_len, r, out, lent);
    if (k.way == PUSH)
        return (board ? grafs_board_push_rounds : grafs_push_rounds)(a, len, map, map_len, r, out, lent);
    if (k.way == COUNTED_PULL)
        x = quiet ? (board ? grafs_counted_board_pull : grafs_counted_pull)(a, len, map, map_len, out, lent, t)
                  : (board ? grafs_counted_board_pull_rounds : grafs_counted_pull_rounds)(a, len, map, map_len, r, out, lent, t);
    else
        x = quiet ? (board ? grafs_counted_board_push : grafs_counted_push)(a, len, map, map_len, out, lent, t)
                  : (board ? grafs_counted_board_push_rounds : grafs_counted_push_rounds)(a, len, map, map_len, r, out, lent, t);
    unsigned one = before[0] != UINT64_MAX && before[1] != UINT64_MAX && before[2] != UINT64_MAX, done = x < GRAFS_REFUSAL;
    expect(t[0] == before[0] + one && t[1] == before[1] + (one & done) && t[2] == before[2] + (one & !done), "one more in the tally, or none at its greatest");
    return x;
}

/* Pages that may be written, between two that may not be touched. */
static uint8_t *fenced(void)
{
    uint8_t *p = mmap(NULL, ROOM + 2 * PAGE, PROT_NONE, MAP_PRIVATE | MAP_ANONYMOUS, -1, 0);
    if (p == MAP_FAILED || mprotect(p + PAGE, ROOM, PROT_READ | PROT_WRITE))
        exit(2);
    return p + PAGE;
}

static uint8_t *place(int placement, uint8_t *pages, size_t len)
{
    if (placement != HEAP)
        return placement == TO_THE_END ? pages + ROOM - len : pages;
    if (!len)
        return NULL; /* "A null pointer may go with length 0." */
    uint8_t *p = malloc(len);
    if (!p)
        exit(2);
    return p;
}

static int all(const uint8_t *p, size_t len, uint8_t fill)
{
    for (size_t i = 0; i < len; i++)
        if (p[i] != fill)
            return 0;
    return 1;
}

/* One call at one placement: `map` is null for fuse, and for a map that is sorted. */
static void call_at(int placement, call_kind k, bytes first, const bytes *map, size_t lent, reply *r)
{
    static uint8_t *pages[3];
    for (int i = 0; i < 3; i++)
        if (!pages[i])
            pages[i] = fenced();
    uint8_t fill = (uint8_t)(0xa5 + 0x31 * placement);
    size_t map_len = map ? map->len : 0;
    uint8_t *a = place(placement, pages[0], first.len), *b = place(placement, pages[1], map_len), *out = place(placement, pages[2], lent);
    uint8_t *guard = placement == HEAP ? NULL : placement == TO_THE_END ? out - GUARD : out + lent;
    if (first.len)
        memcpy(a, first.p, first.len);
    if (map_len)
        memcpy(b, map->p, map_len);
    if (lent)
        memset(out, fill, lent);
    if (placement != HEAP)
        memset(guard, fill, GUARD);
    r->result = called(k, a, first.len, b, map_len, out, lent);
    size_t done = r->result < GRAFS_REFUSAL ? r->result : 0;
    expect(done <= lent, "no more bytes than lent");
    expect(!lent || all(out + done, lent - done, fill), "the rest of the buffer, and all of it at a refusal, as it was");
    expect(placement == HEAP || all(guard, GUARD, fill), "bytes beside the buffer as they were");
    expect(!first.len || !memcmp(a, first.p, first.len), "the question, worksheet, board or map as it was");
    expect(!map_len || !memcmp(b, map->p, map_len), "the map as it was");
    if (done)
        memcpy(r->out, out, done);
    if (placement == HEAP)
        free(a), free(b), free(out);
}

static void same_again(const reply *r, int placement, call_kind k, bytes first, const bytes *map, size_t lent)
{
    static reply again;
    call_at(placement, k, first, map, lent, &again);
    expect(again.result == r->result, "the same number again");
    expect(r->result >= GRAFS_REFUSAL || !memcmp(again.out, r->out, r->result), "the same bytes again");
}

/* The call at every placement: the same each time. */
static void call(call_kind k, bytes first, const bytes *map, size_t lent, reply *r)
{
    call_at(HEAP, k, first, map, lent, r);
    expect(r->result < GRAFS_REFUSAL || (number_of(r->result) >= 1 && number_of(r->result) <= LAST_NUMBER), "a refusal is 1 to 17");
    for (int placement = TO_THE_END; placement < PLACEMENTS; placement++)
        same_again(r, placement, k, first, map, lent);
    numbers[k.on][number_of(r->result)]++;
}

/* By pull and by push, counted and not: the same as r each time. */
static void same_by_all_ways(const reply *r, int on, int rounds, bytes first, const bytes *map, size_t lent)
{
    for (int way = PULL; way < WAYS; way++)
        same_again(r, (int)((way + lent) % PLACEMENTS), (call_kind){ on, way, rounds }, first, map, lent);
}

/* Only the number, with a buffer that is long enough. */
static uint32_t number_at_length(call_kind k, bytes first, const bytes *map)
{
    static uint8_t out[GRAFS_BOARD_ANSWERS_MAX];
    return number_of(called(k, first.p, first.len, map ? map->p : NULL, map ? map->len : 0, out, sizeof out));
}

/* "Questions and worksheets are judged left to right", and boards: cut off before the byte that decided, they are short, and behind it
 * nothing is looked at, but for left-over bytes and the chains of a board together. Finds how many bytes decided, and lets libFuzzer know. */
static void judged_left_to_right(call_kind k, bytes first, const bytes *map, uint32_t number)
{
    size_t low = 0, high = first.len;
    while (low < high) {
        size_t middle = (low + high) / 2;
        uint32_t there = number_at_length(k, (bytes){ first.p, middle }, map);
        expect(there == 1 || there == number || (number == 6 && (there == 0 || (k.on == BOARD && there == 14))), "cut off, it is short or refused alike");
        if (there == 1)
            low = middle + 1;
        else
            high = middle;
    }
    seen[((size_t)k.on * NUMBERS + number) * 128 + (high < 96 ? high : 96 + high % 32)] = 1;
    expect(number != 0 || high == first.len, "an accepted file has no part that is accepted");
    if (number == 0) {
        uint8_t *longer = malloc(first.len + 1);
        if (!longer)
            exit(2);
        memcpy(longer, first.p, first.len);
        longer[first.len] = (uint8_t)first.len;
        expect(number_at_length(k, (bytes){ longer, first.len + 1 }, map) == 6, "left-over bytes are 6");
        free(longer);
    }
}

/* What was written fits exactly, and a byte less is 15. */
static void exact_length(call_kind k, bytes first, const bytes *map, const reply *r)
{
    static reply other;
    call(k, first, map, r->result, &other);
    expect(other.result == r->result && !memcmp(other.out, r->out, r->result), "the same bytes at the exact length");
    call(k, first, map, r->result - 1, &other);
    expect(number_of(other.result) == GRAFS_BUFFER_SHORT, "15 with one byte less");
}

static void shape(unsigned a, unsigned b)
{
    seen[CALLS * NUMBERS * 128 + (a * 37 + b) % 1024] = 1;
}

/* ---------------------------------------------------------------- questions and worksheets */

/* A chain of an accepted worksheet: how many starts it lists (in version 1 one, 65,535 for anywhere), where they are, and where the next chain is. */
typedef struct {
    unsigned starts;
    const uint8_t *start, *next;
} chain;

static chain chain_at(const uint8_t *worksheet, const uint8_t *p)
{
    unsigned two = worksheet[VERSION_OFFSET] == 2, starts = two ? p[4] : 1;
    return (chain){ starts, p + 4 + two, p + 4 + two + 2 * starts };
}

/* What stands behind the chains of an accepted worksheet, and the most starts that one of them has. */
static const uint8_t *behind_chains(const uint8_t *worksheet, unsigned *most)
{
    const uint8_t *p = worksheet + CHAINS_OFFSET + 1;
    *most = 0;
    for (unsigned i = 0; i < worksheet[CHAINS_OFFSET]; i++) {
        chain c = chain_at(worksheet, p);
        for (const uint8_t *start = c.start + 2; start < c.next; start += 2)
            expect(start[0] > start[-2] && start[-1] == 0 && start[1] == 0, "starts of a set rise, up to 255");
        *most = c.starts > *most ? c.starts : *most;
        p = c.next;
    }
    expect(*most <= 16, "no more than 16 starts");
    return p;
}

/* The reduction byte of an accepted worksheet's first entry, which says whether it has a condition; where there is none, a term's first byte. */
static unsigned first_reduction(const uint8_t *worksheet)
{
    unsigned most;
    return behind_chains(worksheet, &most)[1];
}

/* Fuses; the worksheet is left in r where there was room. */
static void fuse_checked(bytes question, size_t lent, reply *r)
{
    static reply whole;
    call(fusing, question, NULL, lent, r);
    call(fusing, question, NULL, GRAFS_WORKSHEET_MAX, &whole);
    uint32_t number = number_of(whole.result);
    expect(number != GRAFS_BUFFER_SHORT, "the header's length is always enough for a worksheet");
    judged_left_to_right(fusing, question, NULL, number);
    if (number) {
        expect(r->result == whole.result, "the question is judged before the length");
        return;
    }
    expect(r->result == (lent < whole.result ? GRAFS_REFUSAL + GRAFS_BUFFER_SHORT : whole.result), "15 where the length is short, and only there");
    exact_length(fusing, question, NULL, &whole);
    unsigned most;
    behind_chains(whole.out, &most);
    expect(whole.out[VERSION_OFFSET] == (most >= 2 ? 2 : 1), "version 2 where some set has two or more, and only there");
    shape(whole.out[CHAINS_OFFSET], whole.result / 8);
    shape(500 + most, first_reduction(whole.out));
}

/* Whether some chain of an accepted worksheet has a start that is no place of a map of n. */
static int starts_outside(const uint8_t *worksheet, unsigned n)
{
    const uint8_t *p = worksheet + CHAINS_OFFSET + 1;
    for (unsigned i = 0; i < worksheet[CHAINS_OFFSET]; i++) {
        chain c = chain_at(worksheet, p);
        for (const uint8_t *start = c.start; start < c.next; start += 2)
            if (at16(start) >= n && at16(start) != 65535)
                return 1;
        p = c.next;
    }
    return 0;
}

static size_t answer_size(unsigned kind, unsigned n)
{
    return ANSWER_HEAD + ROW * (kind ? 1 : n);
}

static uint32_t number_of_map(bytes map)
{
    return number_at_length(running, (bytes){ no_chain, sizeof no_chain }, &map);
}

/* The number that a run must return, from what each file alone is refused by. */
static uint32_t number_expected(bytes worksheet, bytes map, size_t lent)
{
    uint32_t by_sheet = number_at_length(running, worksheet, &(bytes){ any_start, sizeof any_start });
    if (by_sheet)
        return by_sheet;
    uint32_t by_map = number_of_map(map);
    if (by_map)
        return by_map;
    unsigned n = at16(map.p + PLACES_OFFSET);
    if (starts_outside(worksheet.p, n))
        return GRAFS_START;
    return lent < answer_size(worksheet.p[KIND_OFFSET], n) ? GRAFS_BUFFER_SHORT : 0;
}

static void answer_checked(bytes worksheet, bytes map, const reply *r)
{
    const uint8_t *a = r->out, *rows = a + ANSWER_HEAD;
    unsigned n = at16(map.p + PLACES_OFFSET), rounds = at16(a + ROUNDS_OFFSET);
    expect(!memcmp(a, "LPA\1\0", 5) && !memcmp(a + 5, map.p + PLACES_OFFSET, 2) && a[9] == worksheet.p[KIND_OFFSET], "head of the answer");
    expect(r->result == answer_size(a[9], n), "length of the answer");
    expect(rounds >= 1 && rounds <= 2 * n, "rounds from 1 to 2n");
    expect(worksheet.p[CHAINS_OFFSET] || rounds == 1, "round 1 with no chain");
    for (unsigned i = 0; i < (a[9] ? 1 : n); i++)
        expect(rows[ROW * i] == 1 || all(rows + ROW * i, ROW, 0), "a row is 1 and a number, or zeros");
    shape(300 + rounds, worksheet.p[CHAINS_OFFSET]);
    shape(700 + rows[0], first_reduction(worksheet.p));
}

static void map_cut(bytes map, size_t cut)
{
    if (number_of_map(map))
        return;
    bytes part = { map.p, cut % map.len };
    expect(number_of_map(part) == (part.len < 9 ? 1u : 6u), "a map cut off is 1 under 9 bytes, else 6");
}

/* ---------------------------------------------------------------- maps in order */

static int in_order(const uint8_t *a, const uint8_t *b)
{
    for (int field = 0; field < 4; field++)
        if (at16(a + 2 * field) != at16(b + 2 * field))
            return at16(a + 2 * field) < at16(b + 2 * field);
    return 1;
}

/* By the bytes as they stand, which is another order than that of the rows. */
static int by_bytes(const void *a, const void *b)
{
    return memcmp(a, b, PASSAGE);
}

static void same_rows(const uint8_t *a, const uint8_t *b, unsigned m)
{
    static uint8_t one[PASSAGE * GRAFS_PASSAGES_MAX], two[PASSAGE * GRAFS_PASSAGES_MAX];
    memcpy(one, a, PASSAGE * m), memcpy(two, b, PASSAGE * m);
    qsort(one, m, PASSAGE, by_bytes), qsort(two, m, PASSAGE, by_bytes);
    expect(!memcmp(one, two, PASSAGE * m), "the same rows equally often");
}

static void swap_rows(uint8_t *a, uint8_t *b)
{
    uint8_t kept[PASSAGE];
    memcpy(kept, a, PASSAGE), memmove(a, b, PASSAGE), memcpy(b, kept, PASSAGE);
}

/* An accepted map and what was written: the head, the rows in order, the same ones; sorted again, and from another order, the same; from another map not. */
static void sorted_checked(bytes map, const reply *r, size_t seed)
{
    static uint8_t other[GRAFS_MAP_MAX];
    static reply changed;
    unsigned m = at16(map.p + PLACES_OFFSET + 2), moved = 0, twice = 0;
    expect(r->result == map.len && !memcmp(r->out, map.p, MAP_HEAD), "length and head of the map in order");
    for (unsigned i = 1; i < m; i++) {
        const uint8_t *row = r->out + MAP_HEAD + PASSAGE * i, *given = map.p + MAP_HEAD + PASSAGE * i;
        expect(in_order(row - PASSAGE, row), "rows in rising order");
        moved |= !in_order(given - PASSAGE, given);
        twice |= !memcmp(row - PASSAGE, row, PASSAGE);
    }
    same_rows(map.p + MAP_HEAD, r->out + MAP_HEAD, m);
    same_again(r, (int)(seed % PLACEMENTS), sorting, (bytes){ r->out, r->result }, NULL, r->result);
    sorted_otherwise += moved, with_repeats += twice;
    shape(970 + 2 * moved + twice, m < 64 ? m : 64 + m / 64);
    if (!m)
        return;
    memcpy(other, map.p, map.len);
    for (unsigned i = m; i > 1; i--, seed = seed * 1103515245u + 12345u)
        swap_rows(other + MAP_HEAD + PASSAGE * (i - 1), other + MAP_HEAD + PASSAGE * (seed / 256 % i));
    same_again(r, HEAP, sorting, (bytes){ other, map.len }, NULL, r->result);
    other[MAP_HEAD + PASSAGE * (seed % m) + 4 + seed / 4096 % 2] ^= (uint8_t)(1u << seed / 65536 % 8); /* in the seconds */
    call_at(HEAP, sorting, (bytes){ other, map.len }, NULL, r->result, &changed);
    expect(changed.result == r->result && memcmp(changed.out, r->out, r->result), "other bytes for other rows");
}

/* A map is refused by what a run refuses it by, then 15. */
static void sort_checked(bytes map, size_t lent)
{
    static reply r, whole;
    call(sorting, map, NULL, lent, &r);
    call_at(HEAP, sorting, map, NULL, GRAFS_MAP_MAX, &whole);
    uint32_t number = number_of(whole.result);
    expect(number == number_of_map(map), "a map is refused as at a run, and the header's length is always enough");
    shape(number, 970);
    if (number) {
        expect(r.result == whole.result, "the map is judged before the length");
        return;
    }
    expect(r.result == (lent < whole.result ? GRAFS_REFUSAL + GRAFS_BUFFER_SHORT : whole.result), "15 where the length is short, and only there");
    exact_length(sorting, map, NULL, &whole);
    sorted_checked(map, &whole, lent + map.len);
}

/* "every question answers alike on both": r is what the call gave on the map. */
static void alike_in_order(const reply *r, call_kind k, bytes first, bytes map, size_t lent)
{
    static reply sorted;
    call_at(HEAP, sorting, map, NULL, GRAFS_MAP_MAX, &sorted);
    if (sorted.result < GRAFS_REFUSAL)
        same_again(r, HEAP, k, first, &(bytes){ sorted.out, sorted.result }, lent);
}

/* ---------------------------------------------------------------- runs */

/* A run for so many rounds: refused alike; reports the number, by all ways the same; from the quiet round on the rows are those of a run to the end. */
static void rounds_checked(int on, int rounds, bytes first, bytes map, size_t lent, const reply *quiet)
{
    static reply r;
    call_at(HEAP, (call_kind){ on, PUSH, rounds }, first, &map, lent, &r);
    same_by_all_ways(&r, on, rounds, first, &map, lent);
    alike_in_order(&r, (call_kind){ on, PULL, rounds }, first, map, lent);
    expect(r.result == quiet->result, "the same number for given rounds");
    if (on != SHEET || r.result >= GRAFS_REFUSAL)
        return;
    expect(at16(r.out + ROUNDS_OFFSET) == (unsigned)rounds, "the given number of rounds is reported");
    if (rounds + 1 >= (int)at16(quiet->out + ROUNDS_OFFSET))
        expect(!memcmp(r.out + 9, quiet->out + 9, r.result - 9), "no value changes from the round before the quiet one on");
}

static void run_checked(bytes worksheet, bytes map, size_t lent, int rounds, reply *r)
{
    bytes anywhere = { any_start, sizeof any_start };
    call(running, worksheet, &map, lent, r);
    same_by_all_ways(r, SHEET, QUIET, worksheet, &map, lent);
    alike_in_order(r, running, worksheet, map, lent);
    rounds_checked(SHEET, rounds, worksheet, map, lent, r);
    judged_left_to_right(running, worksheet, &anywhere, number_at_length(running, worksheet, &anywhere));
    expect(number_of(r->result) == number_expected(worksheet, map, lent), "worksheet, map, starts, then 15");
    map_cut(map, lent);
    shape(number_of(r->result), 900);
    if (r->result >= GRAFS_REFUSAL)
        return;
    answer_checked(worksheet, map, r);
    exact_length(running, worksheet, &map, r);
}

/* A worksheet that fusing wrote is read by every run. */
static void fused_then_run(bytes question, bytes map, size_t lent, int rounds)
{
    static reply sheet, r;
    fuse_checked(question, GRAFS_WORKSHEET_MAX, &sheet);
    if (sheet.result >= GRAFS_REFUSAL)
        return;
    bytes worksheet = { sheet.out, sheet.result };
    expect(!number_at_length(running, worksheet, &(bytes){ any_start, sizeof any_start }), "a fused worksheet is never refused");
    run_checked(worksheet, map, lent, rounds, &r);
}

/* ---------------------------------------------------------------- boards */

/* The questions of a board and what each is fused to, up to the first refusal. */
typedef struct {
    unsigned count;
    bytes question[GRAFS_BOARD_QUESTIONS_MAX];
    uint8_t sheet[GRAFS_BOARD_QUESTIONS_MAX][GRAFS_WORKSHEET_MAX];
    uint32_t sheet_len[GRAFS_BOARD_QUESTIONS_MAX];
} taken_apart;

/* A chain of a worksheet of either version, so that the same chain has the same bytes: the key count, three keys, how many starts, the starts. */
typedef struct {
    uint8_t b[4 + 1 + 2 * GRAFS_STARTS_MAX];
} plain_chain;

/* Chains put to others, each once; how many there are then, or one more than a board may have. */
static unsigned put_chains(plain_chain *list, unsigned count, const uint8_t *worksheet)
{
    const uint8_t *p = worksheet + CHAINS_OFFSET + 1;
    for (unsigned i = 0; i < worksheet[CHAINS_OFFSET]; i++) {
        chain c = chain_at(worksheet, p);
        plain_chain x = { { 0 } };
        unsigned at = 0;
        memcpy(x.b, p, 4);
        if (c.starts && at16(c.start) != 65535) {
            x.b[4] = (uint8_t)c.starts;
            memcpy(x.b + 5, c.start, 2 * c.starts);
        }
        while (at < count && memcmp(&list[at], &x, sizeof x))
            at++;
        if (at == count && count <= GRAFS_CHAINS_MAX)
            list[count++] = x;
        p = c.next;
    }
    return count;
}

/* "A missing count is 1, a count of 0 or above eight is 12. Then the questions are judged in turn, a missing length or one running past the end being 1;
 * left-over bytes are 6, a ninth different chain over them all is 14": the number, each question judged by fuse, alone. */
static uint32_t take_apart(bytes board, taken_apart *t)
{
    plain_chain list[GRAFS_CHAINS_MAX + 1];
    size_t at = 1;
    unsigned chains = 0;
    if (!board.len)
        return GRAFS_SHORT;
    t->count = board.p[0];
    if (t->count < 1 || t->count > GRAFS_BOARD_QUESTIONS_MAX)
        return GRAFS_TERMS;
    for (unsigned i = 0; i < t->count; i++) {
        if (board.len - at < 2 || board.len - at - 2 < at16(board.p + at))
            return GRAFS_SHORT;
        t->question[i] = (bytes){ board.p + at + 2, at16(board.p + at) };
        t->sheet_len[i] = called(fusing, t->question[i].p, t->question[i].len, NULL, 0, t->sheet[i], sizeof t->sheet[i]);
        if (t->sheet_len[i] >= GRAFS_REFUSAL)
            return number_of(t->sheet_len[i]);
        chains = put_chains(list, chains, t->sheet[i]);
        at += 2 + t->question[i].len;
    }
    if (at < board.len)
        return GRAFS_LENGTH;
    ninth_together += chains > GRAFS_CHAINS_MAX;
    return chains > GRAFS_CHAINS_MAX ? GRAFS_FULL_SHEET : 0;
}

/* The number that a board must be refused by, the map, starts and 15 following. */
static uint32_t board_number(bytes board, bytes map, size_t lent, taken_apart *t)
{
    uint32_t number = take_apart(board, t);
    if (!number)
        number = number_of_map(map);
    if (number)
        return number;
    unsigned n = at16(map.p + PLACES_OFFSET);
    size_t total = 0;
    for (unsigned i = 0; i < t->count; i++) {
        if (starts_outside(t->sheet[i], n))
            return GRAFS_START;
        total += answer_size(t->sheet[i][KIND_OFFSET], n);
    }
    return lent < total ? GRAFS_BUFFER_SHORT : 0;
}

/* "Every answer equals that of its question alone, except that rounds is the greatest of the separate counts." */
static void answers_checked(const taken_apart *t, bytes map, int rounds, const reply *r)
{
    static uint8_t alone[GRAFS_BOARD_QUESTIONS_MAX][GRAFS_ANSWER_MAX];
    uint32_t len[GRAFS_BOARD_QUESTIONS_MAX];
    unsigned most = 0, least = UINT16_MAX;
    size_t at = 0;
    for (unsigned i = 0; i < t->count; i++) {
        call_kind k = rounds == QUIET ? running : (call_kind){ SHEET, i % 2 ? PUSH : PULL, rounds };
        len[i] = called(k, t->sheet[i], t->sheet_len[i], map.p, map.len, alone[i], sizeof alone[i]);
        expect(len[i] < GRAFS_REFUSAL, "a question of an answered board is answered alone");
        unsigned own = at16(alone[i] + ROUNDS_OFFSET);
        least = own < least ? own : least;
        most = own > most ? own : most;
    }
    rounds_differ += least != most;
    for (unsigned i = 0; i < t->count; i++) {
        alone[i][ROUNDS_OFFSET] = (uint8_t)most, alone[i][ROUNDS_OFFSET + 1] = (uint8_t)(most >> 8);
        expect(at + len[i] <= r->result && !memcmp(r->out + at, alone[i], len[i]), "each answer is that of its question alone, with the greatest rounds");
        at += len[i];
    }
    expect(at == r->result, "the answers and no more");
    shape(800 + most, t->count);
}

static void board_checked(bytes board, bytes map, size_t lent, int rounds)
{
    static reply r, whole;
    static taken_apart t;
    bytes anywhere = { any_start, sizeof any_start };
    call(boarding, board, &map, lent, &r);
    same_by_all_ways(&r, BOARD, QUIET, board, &map, lent);
    alike_in_order(&r, boarding, board, map, lent);
    rounds_checked(BOARD, rounds, board, map, lent, &r);
    judged_left_to_right(boarding, board, &anywhere, number_at_length(boarding, board, &anywhere));
    expect(number_of(r.result) == board_number(board, map, lent, &t), "count, questions in turn, left-over bytes, chains together, map, starts, then 15");
    shape(number_of(r.result), 950);
    if (r.result >= GRAFS_REFUSAL && number_of(r.result) != GRAFS_BUFFER_SHORT)
        return;
    call_at(HEAP, boarding, board, &map, GRAFS_BOARD_ANSWERS_MAX, &whole);
    expect(whole.result < GRAFS_REFUSAL, "the header's length is always enough for the answers of a board");
    answers_checked(&t, map, QUIET, &whole);
    exact_length(boarding, board, &map, &whole);
    boards_answered[t.count]++;
    call_at(HEAP, (call_kind){ BOARD, PUSH, rounds }, board, &map, GRAFS_BOARD_ANSWERS_MAX, &whole);
    answers_checked(&t, map, rounds, &whole);
}

/* ---------------------------------------------------------------- inputs */

static void counts(void)
{
    static const char *const names[CALLS] = { "fuse:", "run:", "by ways:", "board:", "sort:" };
    for (int i = 0; i < CALLS; i++) {
        if (i == SHEET)
            continue;
        fprintf(stderr, "%s", names[i]);
        for (int number = 0; number <= LAST_NUMBER; number++)
            if (numbers[i][number])
                fprintf(stderr, " %d: %llu", number, numbers[i][number]);
        fprintf(stderr, "\n");
    }
    fprintf(stderr, "boards answered, by their questions:");
    for (int i = 1; i <= GRAFS_BOARD_QUESTIONS_MAX; i++)
        fprintf(stderr, " %d: %llu", i, boards_answered[i]);
    fprintf(stderr, "; of different rounds alone %llu; nine chains together %llu\n", rounds_differ, ninth_together);
    fprintf(stderr, "maps sorted that were not in order %llu, with a row repeated %llu\n", sorted_otherwise, with_repeats);
    fprintf(stderr, "%llu calls, every promise kept\n", calls);
}

size_t LLVMFuzzerMutate(uint8_t *data, size_t size, size_t most);

static void put16(uint8_t *p, size_t x)
{
    p[0] = (uint8_t)x, p[1] = (uint8_t)(x >> 8);
}

/* Makes a legal map of arbitrary bytes: otherwise nearly every change ends in 6 and no run is made. Returns its length. */
static size_t mend_map(uint8_t *map, size_t len)
{
    if (len < 9)
        return len;
    unsigned m = (unsigned)((len - 9) / 8 < 1024 ? (len - 9) / 8 : 1024), n = 1 + (map[5] + 256u * map[6] + 255) % 256;
    memcpy(map, "LPM\1\0", 5);
    put16(map + 5, n), put16(map + 7, m);
    for (uint8_t *row = map + 9; row < map + 9 + 8 * m; row += 8) {
        put16(row, at16(row) % n), put16(row + 2, at16(row + 2) % n);
        put16(row + 6, 1 + (at16(row + 6) + 65533) % 65534);
    }
    return 9 + 8 * m;
}

/* Two rows of a mended map change places, or one is written over the other. */
static void mix_rows(uint8_t *map, size_t len, unsigned seed)
{
    unsigned m = (unsigned)(len < MAP_HEAD ? 0 : (len - MAP_HEAD) / PASSAGE);
    if (m < 2)
        return;
    uint8_t *a = map + MAP_HEAD + PASSAGE * (seed / 64 % m), *b = map + MAP_HEAD + PASSAGE * (seed / 1024 % m);
    if (seed / 32 % 2)
        swap_rows(a, b);
    else
        memmove(a, b, PASSAGE);
}

/* Where a question of a board stands, by the lengths before it, counted down; 0 where they lead outside. */
static size_t question_at(const uint8_t *board, size_t len, unsigned which)
{
    size_t at = 1;
    while (at + 2 <= len && at + 2 + at16(board + at) <= len) {
        if (!which--)
            return at;
        at += 2 + at16(board + at);
    }
    return 0;
}

/* Changes one question of a board alone and its length with it: else nearly every change ends in 1. Returns the input's length. */
static size_t mutate_question(uint8_t *data, size_t size, size_t most, size_t board_len, unsigned seed)
{
    static uint8_t room[1 << 16];
    uint8_t *board = data + 5;
    size_t at = board_len ? question_at(board, board_len, seed % (board[0] % 8 + 1u)) : 0;
    if (!at)
        return LLVMFuzzerMutate(data, size, most);
    size_t len = at16(board + at), behind = size - 5 - at - 2 - len, can = most - (size - len);
    if (can > GRAFS_QUESTION_MAX + 16)
        can = len > GRAFS_QUESTION_MAX + 16 ? len : GRAFS_QUESTION_MAX + 16;
    if (can > most - (size - len) || !len || behind > sizeof room)
        return LLVMFuzzerMutate(data, size, most);
    memcpy(room, board + at + 2 + len, behind);
    size_t now = LLVMFuzzerMutate(board + at + 2, len, can);
    memcpy(board + at + 2 + now, room, behind);
    if (now >= 5 && seed % 8)
        memcpy(board + at + 2, "LPQ\1\0", 5);
    put16(board + at, now);
    put16(data + 3, board_len - len + now);
    return size - len + now;
}

/* libFuzzer's changes; three times in four the letters and the version are set right, every other time the map is mended. Of a board, three times in four
 * one question alone is changed. */
size_t LLVMFuzzerCustomMutator(uint8_t *data, size_t size, size_t most, unsigned seed)
{
    int board = size >= 5 && data[0] % 4 == 3;
    size_t first_len = size < 5 ? 0 : at16(data + 3);
    if (board && seed % 4 && first_len <= size - 5)
        size = mutate_question(data, size, most, first_len, seed / 8);
    else
        size = LLVMFuzzerMutate(data, size, most);
    if (size < 5)
        return size;
    first_len = at16(data + 3);
    if (first_len > size - 5)
        first_len = size - 5;
    if (seed % 4 && first_len >= 5 && data[0] % 4 != 3)
        memcpy(data + 5, data[0] % 4 != 1 ? "LPQ\1\0" : data[5 + VERSION_OFFSET] == 2 ? "LPW\2\0" : "LPW\1\0", 5);
    if (seed / 4 % 2)
        size = 5 + first_len + mend_map(data + 5 + first_len, size - 5 - first_len);
    if (seed / 4 % 4 == 1)
        mix_rows(data + 5 + first_len, size - 5 - first_len, seed);
    return size;
}

int LLVMFuzzerTestOneInput(const uint8_t *data, size_t size)
{
    static int told;
    static reply r;
    if (!told)
        told = 1, atexit(counts);
    if (size < 5)
        return 0;
    size_t lent = at16(data + 1), first_len = at16(data + 3);
    lent = lent & 0x8000 ? 60000 + (lent & 0x3fff) : lent & (data[0] % 4 == 3 ? 0x7fff : 0x0fff);
    if (first_len > size - 5)
        first_len = size - 5;
    bytes first = { data + 5, first_len }, map = { data + 5 + first_len, size - 5 - first_len };
    int rounds = data[0] / 4;
    switch (data[0] % 4) {
    case 0: fuse_checked(first, lent, &r); break;
    case 1: run_checked(first, map, lent, rounds, &r); break;
    case 2: fused_then_run(first, map, lent, rounds); break;
    default: board_checked(first, map, lent, rounds);
    }
    sort_checked(data[0] % 4 ? map : first, lent);
    if (data[0] % 4 == 0)
        sort_checked(map, lent);
    return 0;
}
