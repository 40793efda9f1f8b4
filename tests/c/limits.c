/* What grafs.h says beside the calls: the limits, the longest files, the stack that a call takes, calls from several threads at once.
 * On the heaviest questions and maps: every limit reached, 256 places in a ring that take 512 rounds, 1,024 passages.
 * With SERVICE defined it is linked with libservice.a, and tries what grafs_service.h says too. */
#define _DEFAULT_SOURCE /* for anonymous pages */
#include <pthread.h>
#include <sys/mman.h>
#include "check.h"
#include "grafs_build.h"
#ifdef SERVICE
#include "grafs_service.h"
#endif

enum { PAINT = 0x5a, THREADS = 8, TURNS = 40 };

/* Questions that are fused and worksheets made by hand (PLAN_..); those with a level too many (.._DEEPER) are refused where reading has gone deepest. */
enum { LONGEST, LONGEST_WHERE, LONGEST_FUSED, DEEP, DEEP_SET, DEEPER, CONDITION_DEEPER, VALUE_DEEPER, PLAN_WHERE, PLAN_SET, PLAN_DEEPER, PLAN_WHERE_DEEPER,
    SAMPLES };

/* The bytes of a chain of three keys and 16 starts without its first one, in a question and on a worksheet. */
enum { LONGEST_CHAIN = 1 + GRAFS_KEYS_MAX + 1 + 2 * GRAFS_STARTS_MAX };

typedef struct {
    uint8_t question[GRAFS_QUESTION_MAX], plan[GRAFS_WORKSHEET_MAX], answer[GRAFS_ANSWER_MAX];
    size_t question_len, plan_len;
    uint32_t fused, ran; /* what the calls return */
} sample;

static sample samples[SAMPLES];
static uint8_t graph[GRAFS_MAP_MAX];
static size_t graph_len;

/* ---------------------------------------------------------------------------------------------------------------------- limits */
/* A chain of three keys and 16 starts, eight different ones in turn. */
static void put_chain(grafs_question *q, unsigned which)
{
    static const uint8_t keys[2][3] = { { 2, 1, 6 }, { 1, 2, 5 } };
    uint16_t starts[GRAFS_STARTS_MAX];
    for (unsigned i = 0; i < GRAFS_STARTS_MAX; i++)
        starts[i] = (uint16_t)(which % 8 + 8 * i);
    grafs_chain_set(q, keys[which % 2], 3, starts, GRAFS_STARTS_MAX);
}

/* So many place terms, an odd number, in a tree of little depth. Its leaves are counted: the first `chains` are chains, and literals follow. */
static void put_tree(grafs_question *q, unsigned terms, unsigned chains, unsigned *leaf)
{
    unsigned left = (terms - 1) / 2 | 1;
    if (terms > 1) {
        grafs_place_operator(q, GRAFS_OP_PLUS);
        put_tree(q, left, chains, leaf);
        put_tree(q, terms - 1 - left, chains, leaf);
        return;
    }
    if (*leaf < chains)
        put_chain(q, *leaf);
    else
        grafs_place_literal(q, 1);
    ++*leaf;
}

/* So many terms: with a reduction over them where the number is even. Of 64, there is no longer question. */
static size_t with_terms(unsigned terms, uint8_t *bytes, size_t room)
{
    unsigned leaf = 0, even = terms % 2 == 0;
    grafs_question q = grafs_begin_question(bytes, room, even ? GRAFS_KIND_RESULT : GRAFS_KIND_EACH);
    if (even)
        grafs_reduction(&q, GRAFS_REDUCE_SUM);
    put_tree(&q, terms - even, GRAFS_TERMS_MAX, &leaf);
    return grafs_end_question(&q);
}

/* So many terms: a reduction with a condition over most of them, and where the number is even, a reduction without one beside it. Of 64, as long. */
static size_t with_terms_where(unsigned terms, uint8_t *bytes, size_t room)
{
    unsigned leaf = 0, even = terms % 2 == 0, inside = terms - (even ? 4 : 1), first = inside / 2 | 1;
    grafs_question q = grafs_begin_question(bytes, room, GRAFS_KIND_RESULT);
    if (even) {
        grafs_result_operator(&q, GRAFS_OP_PLUS);
        grafs_reduction(&q, GRAFS_REDUCE_SUM);
        put_tree(&q, 1, GRAFS_TERMS_MAX, &leaf);
    }
    grafs_reduction_where(&q, GRAFS_REDUCE_SUM);
    put_tree(&q, first, GRAFS_TERMS_MAX, &leaf);
    put_tree(&q, inside - first, GRAFS_TERMS_MAX, &leaf);
    return grafs_end_question(&q);
}

/* Operators so deep but for one level, a term due at the bottom. */
static void put_levels(grafs_question *q, unsigned depth)
{
    for (unsigned i = 1; i < depth; i++) {
        grafs_place_operator(q, GRAFS_OP_PLUS);
        grafs_place_literal(q, 1);
    }
}

/* So deep, a chain at the bottom. */
static void put_deep(grafs_question *q, unsigned depth)
{
    put_levels(q, depth);
    grafs_chain1(q, GRAFS_KEY_NARROWEST, 0);
}

/* A chain of one key from so many places, from 0 on. */
static void put_set(grafs_question *q, uint64_t key, unsigned count)
{
    uint16_t starts[GRAFS_STARTS_MAX + 1];
    for (unsigned i = 0; i < count; i++)
        starts[i] = (uint16_t)i;
    grafs_chain1_set(q, key, starts, count);
}

static size_t with_depth(unsigned depth, uint8_t *bytes, size_t room)
{
    grafs_question q = grafs_begin_question(bytes, room, GRAFS_KIND_EACH);
    put_deep(&q, depth);
    return grafs_end_question(&q);
}

static size_t with_deep_set(unsigned depth, uint8_t *bytes, size_t room)
{
    grafs_question q = grafs_begin_question(bytes, room, GRAFS_KIND_EACH);
    put_levels(&q, depth);
    put_set(&q, GRAFS_KEY_NARROWEST, GRAFS_STARTS_MAX);
    return grafs_end_question(&q);
}

static size_t with_deep_condition(unsigned depth, uint8_t *bytes, size_t room)
{
    grafs_question q = grafs_begin_question(bytes, room, GRAFS_KIND_RESULT);
    grafs_reduction_where(&q, GRAFS_REDUCE_SUM);
    put_deep(&q, depth - 1);
    put_deep(&q, 1);
    return grafs_end_question(&q);
}

static size_t with_deep_value(unsigned depth, uint8_t *bytes, size_t room)
{
    grafs_question q = grafs_begin_question(bytes, room, GRAFS_KIND_RESULT);
    grafs_reduction_where(&q, GRAFS_REDUCE_SUM);
    put_deep(&q, 1);
    put_deep(&q, depth - 1);
    return grafs_end_question(&q);
}

static size_t with_keys(unsigned keys, uint8_t *bytes, size_t room)
{
    const uint8_t passages[] = { 1, 1, 1, 1 };
    grafs_question q = grafs_begin_question(bytes, room, GRAFS_KIND_EACH);
    grafs_chain(&q, passages, keys, 0);
    return grafs_end_question(&q);
}

static size_t with_starts(unsigned starts, uint8_t *bytes, size_t room)
{
    grafs_question q = grafs_begin_question(bytes, room, GRAFS_KIND_EACH);
    put_set(&q, GRAFS_KEY_PASSAGES, starts);
    return grafs_end_question(&q);
}

static size_t with_chains(unsigned chains, uint8_t *bytes, size_t room)
{
    grafs_question q = grafs_begin_question(bytes, room, GRAFS_KIND_EACH);
    for (unsigned i = 0; i < chains; i++) {
        if (i + 1 < chains)
            grafs_place_operator(&q, GRAFS_OP_PLUS);
        grafs_chain1(&q, GRAFS_KEY_PASSAGES, i);
    }
    return grafs_end_question(&q);
}

/* From 0; from 0 and 1; from 0, 1 and 2; .. */
static size_t with_chains_set(unsigned chains, uint8_t *bytes, size_t room)
{
    grafs_question q = grafs_begin_question(bytes, room, GRAFS_KIND_EACH);
    for (unsigned i = 0; i < chains; i++) {
        if (i + 1 < chains)
            grafs_place_operator(&q, GRAFS_OP_PLUS);
        put_set(&q, GRAFS_KEY_PASSAGES, i + 1);
    }
    return grafs_end_question(&q);
}

/* All but the last in the condition, that one in the value. */
static size_t with_chains_where(unsigned chains, uint8_t *bytes, size_t room)
{
    grafs_question q = grafs_begin_question(bytes, room, GRAFS_KIND_RESULT);
    grafs_reduction_where(&q, GRAFS_REDUCE_SUM);
    for (unsigned i = 0; i < chains; i++) {
        if (i + 2 < chains)
            grafs_place_operator(&q, GRAFS_OP_PLUS);
        grafs_chain1(&q, GRAFS_KEY_PASSAGES, i);
    }
    return grafs_end_question(&q);
}

static size_t with_reductions(unsigned reductions, uint8_t *bytes, size_t room)
{
    grafs_question q = grafs_begin_question(bytes, room, GRAFS_KIND_RESULT);
    for (unsigned i = 0; i < reductions; i++) {
        if (i + 1 < reductions)
            grafs_result_operator(&q, GRAFS_OP_PLUS);
        grafs_reduction(&q, GRAFS_REDUCE_SUM);
        grafs_place_literal(&q, 1);
    }
    return grafs_end_question(&q);
}

/* Without a condition and with one, by turns; the ninth has one. */
static size_t with_reductions_where(unsigned reductions, uint8_t *bytes, size_t room)
{
    grafs_question q = grafs_begin_question(bytes, room, GRAFS_KIND_RESULT);
    for (unsigned i = 0; i < reductions; i++) {
        if (i + 1 < reductions)
            grafs_result_operator(&q, GRAFS_OP_PLUS);
        if (i % 2 == 0) {
            grafs_reduction_where(&q, GRAFS_REDUCE_SUM);
            grafs_place_literal(&q, 1);
        } else {
            grafs_reduction(&q, GRAFS_REDUCE_SUM);
        }
        grafs_place_literal(&q, 1);
    }
    return grafs_end_question(&q);
}

/* So many reductions, all with a condition but the last, and 64 terms; eight chains, else literals. Of eight, none has a longer worksheet. */
static size_t with_long_plan(unsigned reductions, uint8_t *bytes, size_t room)
{
    unsigned leaf = 0;
    grafs_question q = grafs_begin_question(bytes, room, GRAFS_KIND_RESULT);
    for (unsigned i = 1; i < reductions; i++) {
        grafs_result_operator(&q, GRAFS_OP_PLUS);
        grafs_reduction_where(&q, GRAFS_REDUCE_SUM);
        put_tree(&q, 1, GRAFS_CHAINS_MAX, &leaf);
        put_tree(&q, 1, GRAFS_CHAINS_MAX, &leaf);
    }
    grafs_reduction(&q, GRAFS_REDUCE_SUM);
    put_tree(&q, GRAFS_TERMS_MAX + 3 - 4 * reductions, GRAFS_CHAINS_MAX, &leaf);
    return grafs_end_question(&q);
}

/* A ring with one narrow passage. */
static size_t map_of(unsigned places, unsigned passages, uint8_t *bytes, size_t room)
{
    grafs_map m = grafs_begin_map(bytes, room, places);
    for (unsigned i = 0; i < passages; i++)
        grafs_passage(&m, i % places, (i + 1) % places, 1, i % places == places - 1 ? 2 : 9);
    return grafs_end_map(&m);
}

/* As many as the limit says are fused, one more is refused by its number. */
static void try_limit(const char *name, size_t (*with)(unsigned, uint8_t *, size_t), unsigned most, uint32_t number)
{
    uint8_t bytes[2 * GRAFS_QUESTION_MAX], out[GRAFS_WORKSHEET_MAX];
    expect(grafs_number_of(fuse(bytes, with(most, bytes, sizeof bytes), out, sizeof out)) == GRAFS_DONE, name, most);
    expect(fuse(bytes, with(most + 1, bytes, sizeof bytes), out, sizeof out) == GRAFS_REFUSAL + number, name, most + 1);
}

static uint32_t run_on(unsigned places, unsigned passages)
{
    const uint8_t sheet[] = { 'L', 'P', 'W', 1, 0, 1, 0, 0, GRAFS_TERM_RESULT_LITERAL, 0, 0, 0, 0 };
    uint8_t map[GRAFS_MAP_MAX + 8], out[GRAFS_ANSWER_MAX];
    return grafs_number_of(run(sheet, sizeof sheet, map, map_of(places, passages, map, sizeof map), out, sizeof out));
}

static void try_limits(void)
{
    try_limit("terms", with_terms, GRAFS_TERMS_MAX, GRAFS_TERMS);
    try_limit("terms of conditions", with_terms_where, GRAFS_TERMS_MAX, GRAFS_TERMS);
    try_limit("depth", with_depth, GRAFS_DEPTH_MAX, GRAFS_DEEP);
    try_limit("depth of a condition", with_deep_condition, GRAFS_DEPTH_MAX, GRAFS_DEEP);
    try_limit("depth behind a condition", with_deep_value, GRAFS_DEPTH_MAX, GRAFS_DEEP);
    try_limit("keys", with_keys, GRAFS_KEYS_MAX, GRAFS_CODE);
    try_limit("starts of a set", with_starts, GRAFS_STARTS_MAX, GRAFS_CODE);
    try_limit("chains", with_chains, GRAFS_CHAINS_MAX, GRAFS_FULL_SHEET);
    try_limit("chains from sets", with_chains_set, GRAFS_CHAINS_MAX, GRAFS_FULL_SHEET);
    try_limit("chains of a condition and its value", with_chains_where, GRAFS_CHAINS_MAX, GRAFS_FULL_SHEET);
    try_limit("reductions", with_reductions, GRAFS_REDUCTIONS_MAX, GRAFS_FULL_SHEET);
    try_limit("reductions with conditions", with_reductions_where, GRAFS_REDUCTIONS_MAX, GRAFS_FULL_SHEET);
    expect(run_on(GRAFS_PLACES_MAX, GRAFS_PASSAGES_MAX) == GRAFS_DONE, "places and passages", 0);
    expect(run_on(GRAFS_PLACES_MAX + 1, 0) == GRAFS_PLACES, "places", GRAFS_PLACES_MAX + 1);
    expect(run_on(1, GRAFS_PASSAGES_MAX + 1) == GRAFS_PASSAGES, "passages", GRAFS_PASSAGES_MAX + 1);
}

static size_t greater(size_t a, size_t b) { return a > b ? a : b; }

/* Two parts and some bytes more; 0, for none, where a part is none. */
static size_t joined(size_t a, size_t b, size_t more) { return a && b ? a + b + more : 0; }

/* The most bytes of a question's term, or of what is made of it, by trying every way to divide its terms and reductions: a place term's leaf and a reduction
 * without what is in it have so many, an operator 2, a result's literal 5. */
static size_t longest_term(size_t leaf, size_t reduction)
{
    size_t place[GRAFS_TERMS_MAX + 1] = { 0, leaf }, result[GRAFS_TERMS_MAX + 1][GRAFS_REDUCTIONS_MAX + 1] = { { 0 }, { 5 } }, most = leaf;
    for (size_t terms = 2; terms <= GRAFS_TERMS_MAX; terms++) {
        result[terms][1] = joined(place[terms - 1], reduction, 0);
        for (size_t left = 1, right = terms - 2; right > 0; left++, right--) {
            place[terms] = greater(place[terms], joined(place[left], place[right], 2));
            result[terms][1] = greater(result[terms][1], joined(place[left], place[right], reduction)); /* a condition and a value */
            for (size_t all = 0; all <= GRAFS_REDUCTIONS_MAX; all++)
                for (size_t some = 0; some <= all; some++)
                    result[terms][all] = greater(result[terms][all], joined(result[left][some], result[right][all - some], 2));
        }
        most = greater(most, place[terms]);
        for (size_t all = 0; all <= GRAFS_REDUCTIONS_MAX; all++)
            most = greater(most, result[terms][all]);
    }
    return most;
}

/* The most bytes of a worksheet of kind 1, fused or not; for kind 0 there is one expression only. Its expressions are the final one, and for each entry, which
 * has a byte of its own, a value and perhaps a condition: `of` has the most bytes of so many expressions of so many terms, whose leaves are literals. */
static size_t longest_plan(void)
{
    enum { MOST = 1 + 2 * GRAFS_REDUCTIONS_MAX };
    size_t of[MOST + 1][GRAFS_TERMS_MAX + 1] = { { 0 }, { 0, 5 } }, most = 0;
    for (size_t terms = 2; terms <= GRAFS_TERMS_MAX; terms++)
        for (size_t left = 1, right = terms - 2; right > 0; left++, right--)
            of[1][terms] = greater(of[1][terms], joined(of[1][left], of[1][right], 2));
    for (size_t count = 2; count <= MOST; count++)
        for (size_t terms = 2; terms <= GRAFS_TERMS_MAX; terms++)
            for (size_t last = 1; last < terms; last++)
                of[count][terms] = greater(of[count][terms], joined(of[count - 1][terms - last], of[1][last], 0));
    for (size_t count = 1; count <= MOST; count++)
        for (size_t terms = count; terms <= GRAFS_TERMS_MAX; terms++)
            most = greater(most, of[count][terms] + (count <= GRAFS_REDUCTIONS_MAX ? count - 1 : GRAFS_REDUCTIONS_MAX));
    return 8 + LONGEST_CHAIN * GRAFS_CHAINS_MAX + most;
}

/* In a worksheet a chain has 37 bytes in the table and 2 where it stands, 34 more than a literal; a reduction has the byte of its entry, and an index's 2. */
static void try_lengths(void)
{
    size_t question = 6 + longest_term(1 + LONGEST_CHAIN, 2), plan = longest_plan();
    size_t fused = 8 + (LONGEST_CHAIN + 2 - 5) * GRAFS_CHAINS_MAX + longest_term(5, 3);
    expect(question == GRAFS_QUESTION_MAX, "no question is longer", question);
    expect(fused == 512 && fused <= GRAFS_WORKSHEET_MAX, "no fused worksheet is longer", fused);
    expect(plan == GRAFS_WORKSHEET_MAX, "no worksheet is longer", plan);
}

/* ---------------------------------------------------------------------------------------------------------------------- samples */
static size_t done(uint32_t result) { return result < GRAFS_REFUSAL ? result : 0; }

/* What the calls return and write, to be met again. */
static void fuse_sample(sample *s, size_t (*with)(unsigned, uint8_t *, size_t), unsigned many)
{
    s->question_len = with(many, s->question, sizeof s->question);
    s->fused = fuse(s->question, s->question_len, s->plan, sizeof s->plan);
    s->plan_len = done(s->fused);
}

static void run_sample(sample *s)
{
    s->ran = run(s->plan, s->plan_len, graph, graph_len, s->answer, sizeof s->answer);
}

/* The deep worksheet, whose expression starts at 15: with an operator and a literal more before it; with it as condition and as value of a sum. */
static void make_plan(sample *s, int deeper, int where)
{
    const uint8_t level[] = { GRAFS_TERM_PLACE_OPERATOR, GRAFS_OP_PLUS, GRAFS_TERM_PLACE_LITERAL, 1, 0, 0, 0 }, end[] = { GRAFS_TERM_ENTRY_INDEX, 0 };
    const uint8_t *deep = samples[DEEP].plan;
    size_t len = samples[DEEP].plan_len - 15, at = 15;
    memcpy(s->plan, deep, 15);
    if (deeper)
        memcpy(s->plan + at, level, sizeof level), at += sizeof level;
    memcpy(s->plan + at, deep + 15, len), at += len;
    if (where) {
        s->plan[5] = GRAFS_KIND_RESULT;
        s->plan[14] = GRAFS_ENTRY_CONDITION + GRAFS_REDUCE_SUM;
        memcpy(s->plan + at, deep + 15, len), at += len;
        memcpy(s->plan + at, end, sizeof end), at += sizeof end;
    }
    s->fused = GRAFS_REFUSAL + GRAFS_SHORT; /* of no question */
    s->plan_len = at;
}

/* The deep worksheet in version 2: a set of one in place of its start, which stands at 11. */
static void make_plan_set(sample *s)
{
    const sample *deep = &samples[DEEP];
    memcpy(s->plan, deep->plan, 11);
    s->plan[3] = GRAFS_WORKSHEET_SETS;
    s->plan[11] = 1;
    memcpy(s->plan + 12, deep->plan + 11, deep->plan_len - 11);
    s->fused = GRAFS_REFUSAL + GRAFS_SHORT; /* of no question */
    s->plan_len = deep->plan_len + 1;
}

static void make_samples(void)
{
    fuse_sample(&samples[LONGEST], with_terms, GRAFS_TERMS_MAX);
    fuse_sample(&samples[LONGEST_WHERE], with_terms_where, GRAFS_TERMS_MAX);
    fuse_sample(&samples[LONGEST_FUSED], with_long_plan, GRAFS_REDUCTIONS_MAX);
    fuse_sample(&samples[DEEP], with_depth, GRAFS_DEPTH_MAX);
    fuse_sample(&samples[DEEP_SET], with_deep_set, GRAFS_DEPTH_MAX);
    fuse_sample(&samples[DEEPER], with_depth, GRAFS_DEPTH_MAX + 1);
    fuse_sample(&samples[CONDITION_DEEPER], with_deep_condition, GRAFS_DEPTH_MAX + 1);
    fuse_sample(&samples[VALUE_DEEPER], with_deep_value, GRAFS_DEPTH_MAX + 1);
    make_plan(&samples[PLAN_WHERE], 0, 1);
    make_plan_set(&samples[PLAN_SET]);
    make_plan(&samples[PLAN_DEEPER], 1, 0);
    make_plan(&samples[PLAN_WHERE_DEEPER], 1, 1);
    for (size_t i = 0; i < SAMPLES; i++)
        run_sample(&samples[i]);
}

/* The last place at which a walk over the ring's narrow passage is found is 255, and it comes from the greatest start: from 0 over 256 passages to 0 again
 * and 255 more, from 15 over 241 and 255. The round behind it is quiet. Then each place has 2 and 15. */
static void try_deep(const sample *s, unsigned rounds)
{
    expect(s->ran == GRAFS_ANSWER_MAX && grafs_get(s->answer + 7, 2) == rounds, "rounds of a deep question", rounds);
    for (size_t i = 0; i < GRAFS_PLACES_MAX; i++)
        expect(s->answer[10 + 9 * i] == 1 && grafs_get(s->answer + 10 + 9 * i + 1, 8) == 17, "a deep question's value", i);
}

/* The deep condition holds at 256 places. */
static void try_samples(void)
{
    const sample *where = &samples[PLAN_WHERE];
    for (size_t i = LONGEST; i <= LONGEST_FUSED; i++)
        expect(samples[i].ran == 19, "answered", i);
    expect(samples[LONGEST].question_len == GRAFS_QUESTION_MAX, "the longest question", samples[LONGEST].question_len);
    expect(samples[LONGEST_WHERE].question_len == GRAFS_QUESTION_MAX, "the longest question", samples[LONGEST_WHERE].question_len);
    expect(samples[LONGEST_FUSED].fused == 512, "the longest worksheet that is fused", samples[LONGEST_FUSED].fused);
    try_deep(&samples[DEEP], 512);
    try_deep(&samples[DEEP_SET], 497);
    try_deep(&samples[PLAN_SET], 512);
    expect(samples[DEEP].plan[3] == GRAFS_WORKSHEET_ONE_START && samples[DEEP_SET].plan[3] == GRAFS_WORKSHEET_SETS, "versions", samples[DEEP_SET].plan[3]);
    expect(where->ran == 19 && grafs_get(where->answer + 7, 2) == 512 && grafs_get(where->answer + 11, 8) == 256 * 17, "deep conditions", where->ran);
    for (size_t i = DEEPER; i <= VALUE_DEEPER; i++)
        expect(samples[i].fused == GRAFS_REFUSAL + GRAFS_DEEP, "too deep to be fused", i);
    for (size_t i = PLAN_DEEPER; i <= PLAN_WHERE_DEEPER; i++)
        expect(samples[i].ran == GRAFS_REFUSAL + GRAFS_DEEP, "too deep to be run", i);
}

static int fuses_again(const sample *s, uint8_t *out)
{
    return fuse(s->question, s->question_len, out, GRAFS_WORKSHEET_MAX) == s->fused && !memcmp(out, s->plan, done(s->fused));
}

static int runs_again(const sample *s, uint8_t *out)
{
    return run(s->plan, s->plan_len, graph, graph_len, out, GRAFS_ANSWER_MAX) == s->ran && !memcmp(out, s->answer, done(s->ran));
}

/* ---------------------------------------------------------------------------------------------------------------------- boards */
#ifdef SERVICE
/* A board of a sample's question so many times; a worksheet made by hand has no question, and the board a question of no bytes. */
static size_t board_of(const sample *s, unsigned count, uint8_t *bytes, size_t room)
{
    grafs_board b = grafs_begin_board(bytes, room);
    for (unsigned i = 0; i < count; i++)
        grafs_board_question(&b, s->question, s->question_len);
    return grafs_end_board(&b);
}

/* Eight times the same answer, or the refusal of the question. */
static int boards_again(const sample *s, uint32_t n, const uint8_t *out)
{
    if (s->fused >= GRAFS_REFUSAL || s->ran >= GRAFS_REFUSAL)
        return n == (s->fused >= GRAFS_REFUSAL ? s->fused : s->ran);
    for (size_t i = 0; i < GRAFS_BOARD_QUESTIONS_MAX; i++)
        if (memcmp(out + i * s->ran, s->answer, s->ran))
            return 0;
    return n == GRAFS_BOARD_QUESTIONS_MAX * s->ran;
}

/* Every call on a board, as they are declared: to the first quiet round, and for the most rounds that one of the samples takes, which end alike. */
static void *do_boards(void *unused)
{
    static uint8_t board[GRAFS_BOARD_MAX], out[GRAFS_BOARD_ANSWERS_MAX];
    uint64_t t[3] = { 0, 0, 0 };
    for (size_t i = 0; i < SAMPLES; i++) {
        const sample *s = &samples[i];
        size_t len = board_of(s, GRAFS_BOARD_QUESTIONS_MAX, board, sizeof board);
        expect(boards_again(s, grafs_board_pull(board, len, graph, graph_len, out, sizeof out), out), "board by pull on little stack", i);
        uint32_t n = grafs_board_push(board, len, graph, graph_len, out, sizeof out);
        expect(boards_again(s, n, out), "board by push on little stack", i);
        expect(boards_again(s, grafs_counted_board_pull(board, len, graph, graph_len, out, sizeof out, t), out), "counted board on little stack", i);
        expect(boards_again(s, grafs_counted_board_push(board, len, graph, graph_len, out, sizeof out, t), out), "counted board on little stack", i);
        expect(grafs_board_pull_rounds(board, len, graph, graph_len, 512, out, sizeof out) == n, "board for rounds on little stack", i);
        expect(grafs_board_push_rounds(board, len, graph, graph_len, 512, out, sizeof out) == n, "board for rounds on little stack", i);
        expect(grafs_counted_board_pull_rounds(board, len, graph, graph_len, 512, out, sizeof out, t) == n, "counted board for rounds", i);
        expect(grafs_counted_board_push_rounds(board, len, graph, graph_len, 512, out, sizeof out, t) == n, "counted board for rounds", i);
    }
    return unused;
}

/* Every other call on a worksheet. */
static void *do_ways(void *unused)
{
    static uint8_t out[GRAFS_ANSWER_MAX];
    uint64_t t[3] = { 0, 0, 0 };
    for (size_t i = 0; i < SAMPLES; i++) {
        const sample *s = &samples[i];
        expect(grafs_pull(s->plan, s->plan_len, graph, graph_len, out, sizeof out) == s->ran && !memcmp(out, s->answer, done(s->ran)), "pull", i);
        expect(grafs_push(s->plan, s->plan_len, graph, graph_len, out, sizeof out) == s->ran && !memcmp(out, s->answer, done(s->ran)), "push", i);
        expect(grafs_pull_rounds(s->plan, s->plan_len, graph, graph_len, 512, out, sizeof out) == s->ran, "pull for rounds", i);
        expect(grafs_push_rounds(s->plan, s->plan_len, graph, graph_len, 512, out, sizeof out) == s->ran, "push for rounds", i);
        expect(grafs_counted_pull(s->plan, s->plan_len, graph, graph_len, out, sizeof out, t) == s->ran, "counted pull", i);
        expect(grafs_counted_push(s->plan, s->plan_len, graph, graph_len, out, sizeof out, t) == s->ran, "counted push", i);
        expect(grafs_counted_pull_rounds(s->plan, s->plan_len, graph, graph_len, 512, out, sizeof out, t) == s->ran, "counted pull for rounds", i);
        expect(grafs_counted_push_rounds(s->plan, s->plan_len, graph, graph_len, 512, out, sizeof out, t) == s->ran, "counted push for rounds", i);
    }
    return unused;
}

/* The ring with the four rows from each place together. */
static size_t ring_in_order(uint8_t *bytes, size_t room)
{
    grafs_map m = grafs_begin_map(bytes, room, GRAFS_PLACES_MAX);
    for (unsigned i = 0; i < GRAFS_PASSAGES_MAX; i++)
        grafs_passage(&m, i / 4, (i / 4 + 1) % GRAFS_PLACES_MAX, 1, i / 4 == GRAFS_PLACES_MAX - 1 ? 2 : 9);
    return grafs_end_map(&m);
}

static uint8_t ring[GRAFS_MAP_MAX]; /* in order */

static int sorts_again(uint8_t *out)
{
    return grafs_sort_map(graph, graph_len, out, GRAFS_MAP_MAX) == sizeof ring && !memcmp(out, ring, sizeof ring);
}

/* The longest map, by rows that rise four times, in order, in falling order; and refused by its last row. */
static void *do_sort(void *unused)
{
    static uint8_t sorted[GRAFS_MAP_MAX], out[GRAFS_MAP_MAX], map[GRAFS_MAP_MAX];
    expect(sorts_again(sorted), "sort on little stack", 0);
    expect(grafs_sort_map(sorted, sizeof sorted, out, sizeof out) == sizeof out && !memcmp(out, sorted, sizeof out), "sort in order on little stack", 0);
    memcpy(map, sorted, 9);
    for (size_t i = 0; i < GRAFS_PASSAGES_MAX; i++)
        memcpy(map + 9 + 8 * i, sorted + sizeof sorted - 8 * (i + 1), 8);
    expect(grafs_sort_map(map, sizeof map, out, sizeof out) == sizeof out && !memcmp(out, sorted, sizeof out), "sort in falling order on little stack", 0);
    expect(grafs_sort_map(map, sizeof map, out, sizeof out - 1) == GRAFS_REFUSAL + GRAFS_BUFFER_SHORT, "refused by the length on little stack", 0);
    map[sizeof map - 2] = map[sizeof map - 1] = 0;
    expect(grafs_sort_map(map, sizeof map, out, sizeof out) == GRAFS_REFUSAL + GRAFS_CRATE, "refused by the last row on little stack", 0);
    return unused;
}

static uint32_t sort_of(unsigned places, unsigned passages)
{
    uint8_t map[GRAFS_MAP_MAX + 8], out[GRAFS_MAP_MAX];
    return grafs_number_of(grafs_sort_map(map, map_of(places, passages, map, sizeof map), out, sizeof out));
}

/* As many places and rows as the limits say are sorted, one more of each is refused by its number; no sorted map is longer than the longest map. */
static void try_sort(void)
{
    expect(sort_of(GRAFS_PLACES_MAX, GRAFS_PASSAGES_MAX) == GRAFS_DONE && sort_of(1, 0) == GRAFS_DONE, "places and passages sorted", 0);
    expect(sort_of(GRAFS_PLACES_MAX + 1, 0) == GRAFS_PLACES && sort_of(0, 0) == GRAFS_PLACES, "places sorted", GRAFS_PLACES_MAX + 1);
    expect(sort_of(1, GRAFS_PASSAGES_MAX + 1) == GRAFS_PASSAGES, "passages sorted", GRAFS_PASSAGES_MAX + 1);
    expect(GRAFS_MAP_MAX == 9 + 8 * GRAFS_PASSAGES_MAX && ring_in_order(ring, sizeof ring) == sizeof ring, "the longest map", GRAFS_MAP_MAX);
}

static uint32_t board_with(unsigned questions)
{
    static uint8_t board[2 * GRAFS_BOARD_MAX], out[GRAFS_BOARD_ANSWERS_MAX];
    size_t len = board_of(&samples[LONGEST], questions, board, sizeof board);
    return grafs_number_of(grafs_board_push(board, len, graph, graph_len, out, sizeof out));
}

/* As many questions as the limit says are answered, one more is refused by its number; no board is longer, and no answers are. */
static void try_boards(void)
{
    uint8_t board[GRAFS_BOARD_MAX];
    size_t len = board_of(&samples[LONGEST], GRAFS_BOARD_QUESTIONS_MAX, board, sizeof board);
    expect(board_with(1) == GRAFS_DONE && board_with(GRAFS_BOARD_QUESTIONS_MAX) == GRAFS_DONE, "questions of a board", GRAFS_BOARD_QUESTIONS_MAX);
    expect(board_with(0) == GRAFS_TERMS && board_with(GRAFS_BOARD_QUESTIONS_MAX + 1) == GRAFS_TERMS, "questions of a board", GRAFS_BOARD_QUESTIONS_MAX + 1);
    expect(len == GRAFS_BOARD_MAX && GRAFS_BOARD_MAX == 1 + GRAFS_BOARD_QUESTIONS_MAX * (2 + GRAFS_QUESTION_MAX), "the longest board", len);
    expect(GRAFS_BOARD_ANSWERS_MAX == GRAFS_BOARD_QUESTIONS_MAX * GRAFS_ANSWER_MAX, "the longest answers", GRAFS_BOARD_ANSWERS_MAX);
}
#endif

/* ---------------------------------------------------------------------------------------------------------------------- stack */
static void *do_nothing(void *unused) { return unused; }

static void *do_fuse(void *unused)
{
    static uint8_t out[GRAFS_WORKSHEET_MAX];
    for (size_t i = 0; i < SAMPLES; i++)
        expect(fuses_again(&samples[i], out), "fuse on little stack", i);
    return unused;
}

static void *do_run(void *unused)
{
    static uint8_t out[GRAFS_ANSWER_MAX];
    for (size_t i = 0; i < SAMPLES; i++)
        expect(runs_again(&samples[i], out), "run on little stack", i);
    return unused;
}

/* Runs a function on a thread with so much stack, a page that may not be touched below it; returns how much of the stack was written. */
static size_t used_of(void *(*work)(void *), size_t size)
{
    size_t page = 4096, untouched = 0;
    uint8_t *low = (uint8_t *)mmap(NULL, page + size, PROT_READ | PROT_WRITE, MAP_PRIVATE | MAP_ANONYMOUS, -1, 0);
    pthread_attr_t attr;
    pthread_t thread;
    if (low == MAP_FAILED || mprotect(low, page, PROT_NONE))
        exit(2);
    memset(low + page, PAINT, size);
    if (pthread_attr_init(&attr) || pthread_attr_setstack(&attr, low + page, size) || pthread_create(&thread, &attr, work, NULL) || pthread_join(thread, NULL))
        exit(2);
    while (untouched < size && low[page + untouched] == PAINT)
        untouched++;
    pthread_attr_destroy(&attr);
    munmap(low, page + size);
    return size - untouched;
}

/* The thread's own part is measured apart; beside it the call has what grafs.h says, and uses at most three quarters of that. */
static void try_stack(const char *name, void *(*work)(void *), size_t most)
{
    size_t own = used_of(do_nothing, 1 << 20), used = used_of(work, 1 << 20) - own;
    expect(used <= most / 4 * 3, "stack used", used);
    expect(used_of(work, (most + own + 4095) / 4096 * 4096) <= most + own, "stack given", most);
    printf("c: %s uses %zu bytes of stack, %zu are asked for\n", name, used, most);
}

/* ---------------------------------------------------------------------------------------------------------------------- threads */
typedef struct {
    unsigned first, wrong;
} turns;

static void *take_turns(void *given)
{
    turns *t = (turns *)given;
    for (unsigned i = 0; i < TURNS; i++) {
        const sample *s = &samples[(t->first + i) % SAMPLES];
        uint8_t sheet[GRAFS_WORKSHEET_MAX], out[GRAFS_ANSWER_MAX];
        t->wrong += !fuses_again(s, sheet);
        t->wrong += !runs_again(s, out);
#ifdef SERVICE
        uint8_t board[GRAFS_BOARD_MAX], answers[GRAFS_BOARD_ANSWERS_MAX];
        size_t len = board_of(s, GRAFS_BOARD_QUESTIONS_MAX, board, sizeof board);
        t->wrong += !boards_again(s, grafs_board_push(board, len, graph, graph_len, answers, sizeof answers), answers);
        t->wrong += !sorts_again(answers);
#endif
    }
    return NULL;
}

/* Several threads at once, on the same inputs, each with other calls than its neighbours. */
static void try_threads(void)
{
    pthread_t threads[THREADS];
    turns given[THREADS];
    for (unsigned i = 0; i < THREADS; i++) {
        given[i].first = i;
        given[i].wrong = 0;
        if (pthread_create(&threads[i], NULL, take_turns, &given[i]))
            exit(2);
    }
    for (unsigned i = 0; i < THREADS; i++) {
        if (pthread_join(threads[i], NULL))
            exit(2);
        expect(given[i].wrong == 0, "a thread beside others", i);
    }
}

int main(void)
{
    graph_len = map_of(GRAFS_PLACES_MAX, GRAFS_PASSAGES_MAX, graph, sizeof graph);
    expect(graph_len == GRAFS_MAP_MAX, "the longest map", graph_len);
    try_limits();
    try_lengths();
    make_samples();
    try_samples();
    try_stack("fuse", do_fuse, GRAFS_FUSE_STACK);
    try_stack("run", do_run, GRAFS_RUN_STACK);
#ifdef SERVICE
    try_boards();
    try_sort();
    try_stack("a run by another call", do_ways, GRAFS_RUN_STACK);
    try_stack("a board", do_boards, GRAFS_BOARD_STACK);
    try_stack("a map in order", do_sort, GRAFS_SORT_STACK);
#endif
    try_threads();
    printf("c: limits: %u comparisons, %u differ\n", tried, failed);
    return failed != 0;
}
