/* The examples and constants of docs/FORMATS.md, which page.awk has written into page.inc, against the library and its two headers. */
#include <stdio.h>
#include <string.h>
#include "grafs_service.h"

enum { GUARD = 64, MOST = 20000, FILL = 0xa5, QUIET = -1 };
enum { FUSE, RUN, BOARD, SORT };
enum { PULL, PUSH, COUNTED_PULL, COUNTED_PUSH, BY_NAME, WAYS }; /* BY_NAME: `fuse`, `run` and grafs_sort_map themselves */

typedef struct {
    const uint8_t *at;
    size_t len;
} bytes;

static unsigned passed, failed;

static void wrong(int line, const char *why)
{
    failed++;
    printf("line %d: %s\n", line, why);
}

static void constant(int line, const char *name, unsigned long long in_header, unsigned long long in_page)
{
    if (in_header == in_page)
        passed++;
    else
        wrong(line, name), printf("    the header: %llu\n", in_header);
}

#define ON(board, sheet) (kind == BOARD ? board : sheet)

static uint32_t called(int kind, int way, bytes a, bytes map, int rounds, uint8_t *out, size_t lent, uint64_t *t)
{
    uint16_t r = (uint16_t)rounds;
    if (way == BY_NAME && kind == RUN)
        return run(a.at, a.len, map.at, map.len, out, lent);
    if (way == BY_NAME)
        return (kind == FUSE ? fuse : grafs_sort_map)(a.at, a.len, out, lent);
    if (rounds == QUIET)
        switch (way) {
        case PULL: return ON(grafs_board_pull, grafs_pull)(a.at, a.len, map.at, map.len, out, lent);
        case PUSH: return ON(grafs_board_push, grafs_push)(a.at, a.len, map.at, map.len, out, lent);
        case COUNTED_PULL: return ON(grafs_counted_board_pull, grafs_counted_pull)(a.at, a.len, map.at, map.len, out, lent, t);
        default: return ON(grafs_counted_board_push, grafs_counted_push)(a.at, a.len, map.at, map.len, out, lent, t);
        }
    switch (way) {
    case PULL: return ON(grafs_board_pull_rounds, grafs_pull_rounds)(a.at, a.len, map.at, map.len, r, out, lent);
    case PUSH: return ON(grafs_board_push_rounds, grafs_push_rounds)(a.at, a.len, map.at, map.len, r, out, lent);
    case COUNTED_PULL: return ON(grafs_counted_board_pull_rounds, grafs_counted_pull_rounds)(a.at, a.len, map.at, map.len, r, out, lent, t);
    default: return ON(grafs_counted_board_push_rounds, grafs_counted_push_rounds)(a.at, a.len, map.at, map.len, r, out, lent, t);
    }
}

/* The number must be as expected, the bytes stand first in the buffer, and all behind and around them be as it was filled; a counted call counts itself. */
static int holds(int kind, int way, bytes first, bytes map, int rounds, size_t lent, uint32_t refused, bytes want)
{
    static uint8_t room[GUARD + MOST + GUARD], expected[sizeof room];
    uint64_t tally[3] = { 9, 5, 4 };
    unsigned counts = way == COUNTED_PULL || way == COUNTED_PUSH, answers = counts && !refused;
    memset(room, FILL, sizeof room);
    memset(expected, FILL, sizeof expected);
    memcpy(expected + GUARD, want.at, want.len);
    uint32_t n = called(kind, way, first, map, rounds, room + GUARD, lent, tally);
    if (n == (refused ? GRAFS_REFUSAL + refused : want.len) && !memcmp(room, expected, sizeof room) && tally[GRAFS_TALLY_ASKED] == 9 + counts &&
        tally[GRAFS_TALLY_ANSWERED] == 5 + answers && tally[GRAFS_TALLY_REFUSED] == 4 + counts - answers)
        return 1;
    printf(n < GRAFS_REFUSAL ? "    the library: %u bytes:" : "    the library: refused %u", (unsigned)(n % GRAFS_REFUSAL));
    for (size_t i = 0; n < GRAFS_REFUSAL && i < n && i < lent; i++)
        printf(" %02X", room[GUARD + i]);
    printf("; way %d, tally %llu %llu %llu\n", way, (unsigned long long)tally[0], (unsigned long long)tally[1], (unsigned long long)tally[2]);
    return 0;
}

/* By every call that does this. */
static void call(int line, const char *text, int kind, bytes first, bytes map, int rounds, size_t lent, uint32_t refused, bytes want)
{
    int held = lent <= MOST && want.len <= MOST && (rounds == QUIET || rounds <= 65535);
    for (int way = kind == FUSE || kind == SORT ? BY_NAME : PULL; way < WAYS && held; way++)
        if (way != BY_NAME || (kind != BOARD && rounds == QUIET))
            held = holds(kind, way, first, map, rounds, lent, refused, want);
    if (held)
        passed++;
    else
        wrong(line, text);
}

int main(void)
{
#include "page.inc"
    printf("%u passed, %u failed\n", passed, failed);
    return failed != 0;
}
