/* What the C tests share: comparisons counted, and buffers on the heap. */
#ifndef CHECK_H
#define CHECK_H

#include <stdint.h>
#include <stdio.h>
#include <stdlib.h>
#include <string.h>

enum { FILL = 0xa5 };

static unsigned tried, failed;

static void expect(int held, const char *name, size_t where)
{
    tried++;
    if (held)
        return;
    failed++;
    if (failed < 20)
        printf("differs: %s, %zu\n", name, where);
}

static inline uint8_t *room_of(size_t len)
{
    uint8_t *p = (uint8_t *)malloc(len ? len : 1);
    if (!p)
        exit(2);
    return p;
}

/* Room that is filled, so that what is not written can be told. */
static inline uint8_t *filled_room(size_t len)
{
    uint8_t *p = room_of(len);
    memset(p, FILL, len);
    return p;
}

static inline int still_filled(const uint8_t *p, size_t len)
{
    for (size_t i = 0; i < len; i++)
        if (p[i] != FILL)
            return 0;
    return 1;
}

/* A copy on the heap of just its length, so that a sanitizer sees any step outside. */
static inline uint8_t *copy_of(const uint8_t *bytes, size_t len)
{
    uint8_t *p = room_of(len);
    if (len)
        memcpy(p, bytes, len);
    return p;
}

#endif
