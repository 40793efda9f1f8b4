/* A program that has a `run` and a `fuse` of its own, seen by every file that it is linked from: it takes the library's two calls by their other
 * names, from libgrafs_prefixed.a, and is compiled with GRAFS_PREFIXED defined. */
#include "check.h"
#include "grafs_build.h"

#ifdef __cplusplus
extern "C" {
#endif
int fuse(int volts);
const char *run(void);
#ifdef __cplusplus
}
#endif

int fuse(int volts) { return volts / 2; }
const char *run(void) { return "my own"; }

int main(void)
{
    uint8_t question[GRAFS_QUESTION_MAX], map[GRAFS_MAP_MAX], worksheet[GRAFS_WORKSHEET_MAX], answer[GRAFS_ANSWER_MAX];
    grafs_question q = grafs_begin_question(question, sizeof question, GRAFS_KIND_EACH);
    grafs_chain1(&q, GRAFS_KEY_SECONDS, 0);
    grafs_map m = grafs_begin_map(map, sizeof map, 2);
    grafs_passage(&m, 0, 1, 5, 10);
    uint32_t n = grafs_fuse(question, grafs_end_question(&q), worksheet, sizeof worksheet);
    uint32_t k = grafs_run(worksheet, n, map, grafs_end_map(&m), answer, sizeof answer);
    grafs_answer a = { 0, 0, 0, 0, NULL };
    uint64_t seconds = 0;
    expect(grafs_read_answer(&a, answer, k) && a.rounds == 2, "the library's calls by their other names", k);
    expect(grafs_answer_row(&a, 1, &seconds) == GRAFS_ROW_NUMBER && seconds == 5, "the library's answer", 1);
    expect(fuse(12) == 6 && !strcmp(run(), "my own"), "the program's own", 0);
    printf("c: own names: %u comparisons, %u differ\n", tried, failed);
    return failed != 0;
}
