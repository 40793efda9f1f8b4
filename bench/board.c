/* A board of eight questions beside its parts, on the random map.
 *
 *     board agree      a line for each question, and that the board's answers are those of the plain implementation and of the questions alone; else status 1
 *     board once       the calls below in turn; callgrind counts inside one_call
 *     board counts     reads the instructions of those calls and prints their table
 *     board times N    the least times of N batches of the board and of eight times `fuse` and grafs_push
 *
 * The eight questions have eight different chains together, one or two each. What is counted:
 *
 *     board            grafs_board_push: eight questions judged, fused, joined; the map judged; the rounds of eight chains; eight evaluations
 *     one run          grafs_push of a worksheet with the same eight chains and no entry, whose result is a literal: the worksheet and the map judged, the
 *                      rounds of eight chains, one row written. So it is rounds, and what every run has beside them
 *     evaluations      for each question grafs_push of its worksheet, minus grafs_push of one with the same chains whose result is a literal: both have the
 *                      same map, chains, rounds and values at the end, so what is left is its expressions judged and evaluated on these values, and its rows
 *                      written
 *
 * Neither part has what a board does to its questions before the run: they are judged and fused. `fuse` is counted beside, and is no part of the ratio. */
#include <math.h>
#include <stdio.h>
#include <stdlib.h>
#include <time.h>
#include "../tests/differential/plain.h"
#include "bench.h"
#include "grafs_build.h"
#include "grafs_service.h"

enum { ASKED = GRAFS_BOARD_QUESTIONS_MAX, CHAIN = 6, CHAINS_AT = 7, ROUNDS_AT = 7 };
enum { BOARD, ONE_RUN, SHEET, BARE, FUSE, EIGHT, WAYS }; /* the first two are of the board, SHEET to FUSE of a question, EIGHT all questions one by one */

static const char *const about[ASKED] = {
    "the seconds to the farthest place, from 0 and from 1: the less of both",
    "the same in passages, the greater divided by the less",
    "at each place: the widest crate size among the walks of fewest passages from 0",
    "at each place: the narrowest crate size from 0 divided by the widest",
    "at each place: the widest crate size from 0 divided by the fewest passages",
    "at each place: the widest crate size of the quickest walks from the least place",
    "the sum of seconds from 1, where they are more than from 0",
    "at each place: the seconds from 0",
};

static sample map;
static uint8_t board[GRAFS_BOARD_MAX], question[ASKED][GRAFS_QUESTION_MAX], sheet[ASKED][GRAFS_WORKSHEET_MAX], bare[ASKED][GRAFS_WORKSHEET_MAX];
static uint8_t all_chains[GRAFS_WORKSHEET_MAX];
static size_t board_len, question_len[ASKED], bare_len[ASKED], all_len;
static uint32_t sheet_len[ASKED];

/* ---------------------------------------------------------------- questions */

/* The greatest over places of a chain of one key, from 0 and from 1, joined. */
static void put_both(grafs_question *q, unsigned operator, unsigned key)
{
    grafs_result_operator(q, operator);
    for (unsigned start = 0; start < 2; start++) {
        grafs_reduction(q, GRAFS_REDUCE_MAX);
        grafs_chain1(q, key, start);
    }
}

static void put_divided(grafs_question *q, unsigned a, unsigned b)
{
    grafs_place_operator(q, GRAFS_OP_DIVIDE);
    grafs_chain1(q, a, 0);
    grafs_chain1(q, b, 0);
}

static void put_term(grafs_question *q, int number)
{
    static const uint8_t passages_widest[] = { GRAFS_KEY_PASSAGES, GRAFS_KEY_WIDEST };
    static const uint8_t least_place[] = { GRAFS_KEY_FIRST_START, GRAFS_KEY_SECONDS, GRAFS_KEY_WIDEST };
    switch (number) {
    case 0: put_both(q, GRAFS_OP_MIN, GRAFS_KEY_SECONDS); break;
    case 1:
        grafs_result_operator(q, GRAFS_OP_DIVIDE);
        put_both(q, GRAFS_OP_MAX, GRAFS_KEY_PASSAGES);
        put_both(q, GRAFS_OP_MIN, GRAFS_KEY_PASSAGES);
        break;
    case 2: grafs_chain(q, passages_widest, 2, 0); break;
    case 3: put_divided(q, GRAFS_KEY_NARROWEST, GRAFS_KEY_WIDEST); break;
    case 4: put_divided(q, GRAFS_KEY_WIDEST, GRAFS_KEY_PASSAGES); break;
    case 5: grafs_chain(q, least_place, 3, GRAFS_ANYWHERE); break;
    case 6:
        grafs_reduction_where(q, GRAFS_REDUCE_SUM);
        grafs_place_operator(q, GRAFS_OP_GREATER);
        grafs_chain1(q, GRAFS_KEY_SECONDS, 1);
        grafs_chain1(q, GRAFS_KEY_SECONDS, 0);
        grafs_chain1(q, GRAFS_KEY_SECONDS, 1);
        break;
    default: grafs_chain1(q, GRAFS_KEY_SECONDS, 0);
    }
}

static int is_result(int number) { return number == 0 || number == 1 || number == 6; }

/* ---------------------------------------------------------------- worksheets that evaluate nothing */

/* So many chains behind a head, then no entry and a literal. */
static size_t put_bare(uint8_t *out, const uint8_t *chains, unsigned count)
{
    static const uint8_t end[] = { 0, GRAFS_TERM_RESULT_LITERAL, 1, 0, 0, 0 };
    const uint8_t head[] = { 'L', 'P', 'W', 1, 0, GRAFS_KIND_RESULT, (uint8_t)count };
    memcpy(out, head, sizeof head);
    memcpy(out + CHAINS_AT, chains, CHAIN * count);
    memcpy(out + CHAINS_AT + CHAIN * count, end, sizeof end);
    return CHAINS_AT + CHAIN * count + sizeof end;
}

/* The chains of all worksheets, each once, in order of first writing. How many. */
static unsigned join_chains(uint8_t *joint)
{
    unsigned count = 0;
    for (int i = 0; i < ASKED; i++)
        for (unsigned c = 0; c < sheet[i][CHAINS_AT - 1]; c++) {
            const uint8_t *own = sheet[i] + CHAINS_AT + CHAIN * c;
            unsigned at = 0;
            while (at < count && memcmp(joint + CHAIN * at, own, CHAIN))
                at++;
            if (at == count && count < GRAFS_CHAINS_MAX)
                memcpy(joint + CHAIN * count++, own, CHAIN);
            else if (at == count)
                exit(2);
        }
    return count;
}

static void make_all(void)
{
    uint8_t joint[CHAIN * GRAFS_CHAINS_MAX];
    grafs_board b = grafs_begin_board(board, sizeof board);
    map = make_map(RANDOM);
    for (int i = 0; i < ASKED; i++) {
        grafs_question q = grafs_begin_question(question[i], sizeof question[i], is_result(i) ? GRAFS_KIND_RESULT : GRAFS_KIND_EACH);
        put_term(&q, i);
        question_len[i] = grafs_end_question(&q);
        grafs_board_question(&b, question[i], question_len[i]);
        sheet_len[i] = plain_fuse(question[i], question_len[i], sheet[i], sizeof sheet[i]);
        bare_len[i] = put_bare(bare[i], sheet[i] + CHAINS_AT, sheet[i][CHAINS_AT - 1]);
    }
    board_len = grafs_end_board(&b);
    if (join_chains(joint) != GRAFS_CHAINS_MAX)
        exit(2);
    all_len = put_bare(all_chains, joint, GRAFS_CHAINS_MAX);
}

/* ---------------------------------------------------------------- calls */

static uint32_t fuse_and_push(int i, uint8_t *out)
{
    uint8_t worksheet[GRAFS_WORKSHEET_MAX];
    uint32_t len = fuse(question[i], question_len[i], worksheet, sizeof worksheet);
    return grafs_push(worksheet, len, map.bytes, map.len, out, GRAFS_ANSWER_MAX);
}

/* Under its own name in every build, for callgrind. */
__attribute__((noipa)) uint32_t one_call(int way, int i, uint8_t *out)
{
    uint32_t len = 0;
    switch (way) {
    case BOARD: return grafs_board_push(board, board_len, map.bytes, map.len, out, GRAFS_BOARD_ANSWERS_MAX);
    case ONE_RUN: return grafs_push(all_chains, all_len, map.bytes, map.len, out, GRAFS_ANSWER_MAX);
    case SHEET: return grafs_push(sheet[i], sheet_len[i], map.bytes, map.len, out, GRAFS_ANSWER_MAX);
    case BARE: return grafs_push(bare[i], bare_len[i], map.bytes, map.len, out, GRAFS_ANSWER_MAX);
    case FUSE: return fuse(question[i], question_len[i], out, GRAFS_WORKSHEET_MAX);
    default:
        for (int k = 0; k < ASKED; k++)
            len += fuse_and_push(k, out + len);
        return len;
    }
}

static unsigned rounds_of(const uint8_t *answer) { return answer[ROUNDS_AT] + 256u * answer[ROUNDS_AT + 1]; }

static void agree(void)
{
    static uint8_t answers[GRAFS_BOARD_ANSWERS_MAX], want[GRAFS_BOARD_ANSWERS_MAX], alone[GRAFS_BOARD_ANSWERS_MAX], joint[GRAFS_ANSWER_MAX];
    uint32_t n = one_call(BOARD, 0, answers), m = plain_board(board, board_len, map.bytes, map.len, PLAIN_QUIET, want, sizeof want);
    uint32_t k = one_call(EIGHT, 0, alone), at = 0;
    int same = n < GRAFS_REFUSAL && n == m && n == k && !memcmp(answers, want, n);
    for (int i = 0; i < ASKED && same; i++) {
        unsigned chains = sheet[i][CHAINS_AT - 1];
        printf("%d  %-80s %u %s alone %2u rounds\n", i + 1, about[i], chains, chains == 1 ? "chain, " : "chains,", rounds_of(alone + at));
        memcpy(alone + at + ROUNDS_AT, answers + ROUNDS_AT, 2); /* the greatest, by the plain implementation */
        at += is_result(i) ? 19 : GRAFS_ANSWER_MAX;
    }
    if (!same || memcmp(answers, alone, n) || one_call(ONE_RUN, 0, joint) != 19 || rounds_of(joint) != rounds_of(answers)) {
        printf("other bytes\n");
        exit(1);
    }
    printf("Eight different chains together, %u rounds, %u bytes of answers: those of the plain implementation, and but for rounds of each question alone.\n",
        rounds_of(answers), (unsigned)n);
}

static void once(void)
{
    static uint8_t out[GRAFS_BOARD_ANSWERS_MAX];
    one_call(BOARD, 0, out);
    one_call(ONE_RUN, 0, out);
    for (int i = 0; i < ASKED; i++)
        for (int way = SHEET; way <= FUSE; way++)
            one_call(way, i, out);
}

static double read_count(void)
{
    double x;
    if (scanf("%lf", &x) != 1)
        exit(1);
    return x;
}

static void print_counts(void)
{
    double whole = read_count(), run_once = read_count(), evaluations = 0, runs = 0, fused = 0;
    for (int i = 0; i < ASKED; i++) {
        double of[FUSE + 1];
        for (int way = SHEET; way <= FUSE; way++)
            of[way] = read_count();
        evaluations += of[SHEET] - of[BARE];
        runs += of[SHEET];
        fused += of[FUSE];
    }
    printf("%-48s %12.0f\n", "board", whole);
    printf("%-48s %12.0f\n", "one run of its eight chains, nothing evaluated", run_once);
    printf("%-48s %12.0f\n", "the eight evaluations", evaluations);
    printf("%-48s %12.3f   bar 1.1: %s\n", "board / (one run + evaluations)", whole / (run_once + evaluations),
        whole <= 1.1 * (run_once + evaluations) ? "met" : "not met");
    printf("%-48s %12.0f\n", "beside: `fuse` of the eight questions", fused);
    printf("%-48s %12.0f\n", "beside: `fuse` and grafs_push of the eight", fused + runs);
    printf("%-48s %12.3f\n", "board / these", whole / (fused + runs));
}

/* Of this process alone, so that others on the machine disturb it less. */
static double now(void)
{
    struct timespec t;
    clock_gettime(CLOCK_PROCESS_CPUTIME_ID, &t);
    return 1e9 * (double)t.tv_sec + (double)t.tv_nsec;
}

static double batch(int way, int calls)
{
    static uint8_t out[GRAFS_BOARD_ANSWERS_MAX];
    double begun = now();
    for (int i = 0; i < calls; i++)
        one_call(way, 0, out);
    return now() - begun;
}

/* A batch of some ms by the one, by the other, and by the first again. */
static void print_times(int batches)
{
    double least[2] = { HUGE_VAL, HUGE_VAL };
    for (int b = -1; b < batches; b++) /* the first finds nothing in the caches */
        for (int i = 0; i < 2; i++)
            least[i] = b < 0 ? batch(i ? EIGHT : BOARD, 1) : fmin(least[i], batch(i ? EIGHT : BOARD, 4) / 4);
    printf("%-48s %12.2f\n", "board", least[0] / 1e3);
    printf("%-48s %12.2f\n", "`fuse` and grafs_push of the eight", least[1] / 1e3);
    printf("%-48s %12.3f\n", "board / these", least[0] / least[1]);
}

int main(int argc, char **argv)
{
    const char *what = argc > 1 ? argv[1] : "";
    make_all();
    if (!strcmp(what, "agree"))
        agree();
    else if (!strcmp(what, "once"))
        once();
    else if (!strcmp(what, "counts"))
        print_counts();
    else if (!strcmp(what, "times"))
        print_times(argc > 2 ? atoi(argv[2]) : 1);
    else
        return 2;
    return 0;
}
