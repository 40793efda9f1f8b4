/* The case files of crate `cases`, as tests/make_cases.py writes them: a kind byte, a number, a 16-bit length and as many bytes, case by case. */
#ifndef CASE_FILES_H
#define CASE_FILES_H

#include "check.h"
#include "grafs_build.h"

enum { CASE_MAP = 0, CASE_QUESTION = 1, CASE_WORKSHEET = 2, CASE_RUN = 8 };

typedef struct {
    unsigned kind;
    uint32_t number;
    const uint8_t *bytes;
    size_t len;
} file_case;

/* A case of a run: what it is lent, how it is run (0 and 1: to the first quiet round), and its three files. */
typedef struct {
    size_t lent;
    unsigned call;
    const uint8_t *plan, *graph, *answer;
    size_t plan_len, graph_len, answer_len;
} run_case;

static inline run_case run_case_of(const file_case *c)
{
    size_t plan_len = (size_t)grafs_get(c->bytes + 6, 2), graph_end = (size_t)grafs_get(c->bytes + 8, 2);
    const uint8_t *plan = c->bytes + 10;
    run_case r = { (size_t)grafs_get(c->bytes, 2), (unsigned)grafs_get(c->bytes + 2, 2), plan, plan + plan_len, plan + graph_end,
        plan_len, graph_end - plan_len, c->len - 10 - graph_end };
    return r;
}

/* Calls `each` on every case of a file; returns how many there are. */
static inline size_t each_case(const char *path, void (*each)(const file_case *, size_t))
{
    static uint8_t data[1 << 18];
    FILE *f = fopen(path, "rb");
    size_t end = f ? fread(data, 1, sizeof data, f) : 0, at = 0, count = 0;
    if (!f || fclose(f) || end == sizeof data)
        exit(2);
    for (; at + 4 <= end; count++) {
        file_case c = { data[at], data[at + 1], data + at + 4, (size_t)grafs_get(data + at + 2, 2) };
        at += 4 + c.len;
        each(&c, count);
    }
    return count;
}

#endif
