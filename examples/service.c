/* A tag desk in small: three questions are fused once and run on a map whose passages close and reopen.
 *
 *     make lib && gcc -Iinclude examples/service.c build/libgrafs.a -o build/service && build/service */
#include <stdio.h>
#include "grafs_build.h"

typedef struct {
    unsigned from, to, seconds, crate;
    int closed;
} passage;

static passage passages[] = { { 0, 1, 9, 10, 0 }, { 0, 2, 2, 4, 0 }, { 2, 1, 3, 20, 0 }, { 1, 3, 4, 7, 0 }, { 4, 1, 7, 10, 0 } };

/* Three counters serve the hall, and porters start from whichever is nearest. */
static const uint16_t counters[] = { 0, 3, 4 };

typedef struct {
    uint8_t bytes[GRAFS_WORKSHEET_MAX];
    uint32_t len;
} worksheet;

/* How many seconds is each place from place 0? */
static size_t ask_each(uint8_t *bytes, size_t room)
{
    grafs_question q = grafs_begin_question(bytes, room, GRAFS_KIND_EACH);
    grafs_chain1(&q, GRAFS_KEY_SECONDS, 0);
    return grafs_end_question(&q);
}

/* How many seconds are all places together that are farther than 2 seconds? */
static size_t ask_farther(uint8_t *bytes, size_t room)
{
    grafs_question q = grafs_begin_question(bytes, room, GRAFS_KIND_RESULT);
    grafs_reduction_where(&q, GRAFS_REDUCE_SUM);
    grafs_place_operator(&q, GRAFS_OP_GREATER); /* the condition */
    grafs_chain1(&q, GRAFS_KEY_SECONDS, 0);
    grafs_place_literal(&q, 2);
    grafs_chain1(&q, GRAFS_KEY_SECONDS, 0);     /* the value */
    return grafs_end_question(&q);
}

/* How many seconds is the place that is farthest from its nearest counter? */
static size_t ask_counters(uint8_t *bytes, size_t room)
{
    grafs_question q = grafs_begin_question(bytes, room, GRAFS_KIND_RESULT);
    grafs_reduction(&q, GRAFS_REDUCE_MAX);
    grafs_chain1_set(&q, GRAFS_KEY_SECONDS, counters, sizeof counters / sizeof *counters);
    return grafs_end_question(&q);
}

/* A question of so many bytes, fused. A refused one leaves no bytes, and every run refuses these. */
static worksheet fused(const uint8_t *question, size_t len)
{
    worksheet w;
    char text[GRAFS_TEXT_MAX];
    uint32_t n = fuse(question, len, w.bytes, sizeof w.bytes);
    w.len = n < GRAFS_REFUSAL ? n : 0;
    printf("fuse: %s\n", grafs_name(grafs_number_of(n)));
    grafs_worksheet_text(w.bytes, w.len, text, sizeof text);
    fputs(text, stdout);
    return w;
}

/* The map of the passages that are open now. */
static size_t map_now(uint8_t *bytes, size_t room)
{
    grafs_map m = grafs_begin_map(bytes, room, 5);
    for (size_t i = 0; i < sizeof passages / sizeof *passages; i++)
        if (!passages[i].closed)
            grafs_passage(&m, passages[i].from, passages[i].to, passages[i].seconds, passages[i].crate);
    return grafs_end_map(&m);
}

static void print_answer(const grafs_answer *a)
{
    printf("  rounds %u\n", a->rounds);
    for (unsigned i = 0; i < a->rows; i++) {
        uint64_t x;
        if (a->kind == GRAFS_KIND_EACH)
            printf("  place %u ", i);
        else
            printf("  result ");
        if (grafs_answer_row(a, i, &x) == GRAFS_ROW_NUMBER)
            printf("%llu\n", (unsigned long long)x);
        else
            printf("-\n");
    }
}

static void run_now(const worksheet *w)
{
    uint8_t map[GRAFS_MAP_MAX], bytes[GRAFS_ANSWER_MAX];
    grafs_answer a;
    uint32_t n = run(w->bytes, w->len, map, map_now(map, sizeof map), bytes, sizeof bytes);
    if (grafs_read_answer(&a, bytes, n))
        print_answer(&a);
    else
        printf("  refused %u %s\n", (unsigned)grafs_number_of(n), grafs_name(grafs_number_of(n)));
}

int main(void)
{
    uint8_t question[GRAFS_QUESTION_MAX];
    worksheet each = fused(question, ask_each(question, sizeof question));
    worksheet farther = fused(question, ask_farther(question, sizeof question));
    worksheet nearest = fused(question, ask_counters(question, sizeof question));
    for (int turn = 0; turn < 3; turn++) {
        passages[1].closed = turn == 1;
        puts(turn == 1 ? "0 to 2 closed" : "all open");
        run_now(&each);
        run_now(&farther);
        run_now(&nearest);
    }
    return 0;
}
