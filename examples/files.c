/* Writes question.lpq and map.lpm, which the program grafs_main reads, to the folder in which it is started: seconds from place 0 at each place,
 * on a map of four places.
 *
 *     gcc -Iinclude examples/files.c -o build/files && build/files */
#include <stdio.h>
#include "grafs_build.h"

static int write_file(const char *name, const uint8_t *bytes, size_t len)
{
    FILE *f = fopen(name, "wb");
    if (!f)
        return 0;
    int whole = fwrite(bytes, 1, len, f) == len;
    return fclose(f) == 0 && whole;
}

int main(void)
{
    uint8_t question[GRAFS_QUESTION_MAX], map[GRAFS_MAP_MAX];
    grafs_question q = grafs_begin_question(question, sizeof question, GRAFS_KIND_EACH);
    grafs_chain1(&q, GRAFS_KEY_SECONDS, 0);
    grafs_map m = grafs_begin_map(map, sizeof map, 4);
    grafs_passage(&m, 0, 1, 5, 10);
    grafs_passage(&m, 0, 2, 2, 4);
    grafs_passage(&m, 2, 1, 3, 20);
    grafs_passage(&m, 1, 3, 0, 7);
    return write_file("question.lpq", question, grafs_end_question(&q)) && write_file("map.lpm", map, grafs_end_map(&m)) ? 0 : 1;
}
