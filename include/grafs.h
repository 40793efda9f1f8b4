/* The two calls of the tag desk: a question is fused into a worksheet, a worksheet is run on a map and leaves an answer.
 * docs/FORMATS.md has the four formats byte by byte; grafs_build.h writes and reads them; grafs_service.h has further calls, of another archive.
 *
 * A result under GRAFS_REFUSAL is the number of bytes written, and they stand first in `out`; the rest of `out` is as it was.
 * Otherwise the result is GRAFS_REFUSAL plus a number of enum grafs_number, and not one byte of `out` has changed.
 * Both calls end for all bytes and read their inputs only. The buffers of one call must not overlap. A null pointer may go with length 0.
 *
 * Threads: calls may be made from any number of threads at once; nothing is kept between calls, and nothing is shared but what the callers lend.
 * Memory: no heap. The archive has no data of its own that can be written, and calls nothing but memcpy, memmove and memset.
 * Stack: GRAFS_FUSE_STACK and GRAFS_RUN_STACK below.
 *
 * Names: a program that has a `run` or a `fuse` of its own defines GRAFS_PREFIXED before it includes this file and links libgrafs_prefixed.a
 * instead of libgrafs.a: there the same two functions are grafs_fuse and grafs_run, in C and at link time, and no other name is taken. */
#ifndef GRAFS_H
#define GRAFS_H

#include <stddef.h>
#include <stdint.h>

#ifdef __cplusplus
extern "C" {
#endif

#define GRAFS_REFUSAL 65536u

/* The limits of the formats: one more is refused. */
#define GRAFS_PLACES_MAX 256    /* of a map */
#define GRAFS_PASSAGES_MAX 1024 /* of a map */
#define GRAFS_TERMS_MAX 64      /* of a question, and of all expressions of a worksheet */
#define GRAFS_DEPTH_MAX 16      /* of terms in one another */
#define GRAFS_KEYS_MAX 3        /* of a chain */
#define GRAFS_STARTS_MAX 16     /* of a chain from a set */
#define GRAFS_CHAINS_MAX 8      /* different ones of a question; chains of a worksheet */
#define GRAFS_REDUCTIONS_MAX 8  /* of a question, as often as they are written; entries of a worksheet */

/* No longer question or map is accepted: one of more bytes is refused whatever they are. The longest question has 6 bytes, a reduction of 2,
 * 31 operators of 2, and 32 chains of 38, each with three keys and a set of 16 starts. */
#define GRAFS_QUESTION_MAX 1286
#define GRAFS_MAP_MAX 8201

/* Lent so many bytes, no call refuses by GRAFS_BUFFER_SHORT. The longest worksheet has 8 bytes, 8 chains of 37, 8 reduction bytes, 40 literals of 5
 * and 24 operators of 2; `fuse` writes none of more than 512. */
#define GRAFS_WORKSHEET_MAX 560
#define GRAFS_ANSWER_MAX 2314

/* A thread that has so many bytes of stack left can make the call. Measured: some 38,000 and 35,000 bytes; the rest is margin. */
#define GRAFS_FUSE_STACK 65536
#define GRAFS_RUN_STACK 98304

/* What a start is for 'anywhere', where it stands alone. No set has it. */
#define GRAFS_ANYWHERE 65535

/* What is added to the reduction byte of a worksheet's entry that has a condition; the condition's expression precedes the value's. */
#define GRAFS_ENTRY_CONDITION 128

/* The versions of a worksheet, both run. fuse writes the second where some chain has two starts or more, else the first. All other files have version 1. */
enum grafs_worksheet {
    GRAFS_WORKSHEET_ONE_START = 1, /* a chain has a start of 16 bits, GRAFS_ANYWHERE for anywhere */
    GRAFS_WORKSHEET_SETS = 2       /* a chain has a count, 0 for anywhere, and so many starts */
};

enum grafs_number {
    GRAFS_DONE = 0,          /* everything written */
    GRAFS_SHORT = 1,         /* a header, field, term or question of a board lacks bytes */
    GRAFS_MARK = 2,          /* the three letters differ */
    GRAFS_VERSION = 3,       /* not 1, nor for a worksheet 2 */
    GRAFS_PLACES = 4,        /* n is 0 or above 256 */
    GRAFS_PASSAGES = 5,      /* m above 1,024 */
    GRAFS_LENGTH = 6,        /* map length differs, or bytes are left over */
    GRAFS_NO_SUCH_PLACE = 7, /* a row's from or to is n or more */
    GRAFS_CRATE = 8,         /* crate size 0 or 65,535 */
    GRAFS_CODE = 9,          /* an illegal kind, term, key count, key, set count, operator, reduction or filler byte, or kind 0 with e other than 1 */
    GRAFS_KEY_ORDER = 10,    /* key 5 or 6 before the last */
    GRAFS_DEEP = 11,         /* a term at depth 17 */
    GRAFS_TERMS = 12,        /* a 65th term, or no question or a ninth on a board */
    GRAFS_START = 13,        /* start 256 to 65,534, in a set 65,535 too, or at a run n or more other than 65,535 */
    GRAFS_FULL_SHEET = 14,   /* a ninth chain, of a board too, or a ninth reduction */
    GRAFS_BUFFER_SHORT = 15, /* the bytes to be written exceed the lent length */
    GRAFS_NO_SUCH_ROW = 16,  /* an index not below its count */
    GRAFS_STARTS_ORDER = 17  /* a start of a set that is not above the one before */
};

/* The kind of a question, a worksheet, an answer. */
enum grafs_kind {
    GRAFS_KIND_EACH = 0,  /* a value at each place */
    GRAFS_KIND_RESULT = 1 /* one result */
};

/* The first byte of a term. */
enum grafs_term {
    GRAFS_TERM_CHAIN = 0x10,           /* place terms: a chain */
    GRAFS_TERM_PLACE_LITERAL = 0x11,
    GRAFS_TERM_PLACE_OPERATOR = 0x12,
    GRAFS_TERM_CHAIN_SET = 0x13,       /* a chain whose walks begin at any place of a set */
    GRAFS_TERM_REDUCTION = 0x20,       /* result terms: a reduction over places */
    GRAFS_TERM_RESULT_LITERAL = 0x21,
    GRAFS_TERM_RESULT_OPERATOR = 0x22,
    GRAFS_TERM_REDUCTION_WHERE = 0x23, /* a reduction over the places where a condition is a number other than 0 */
    GRAFS_TERM_CHAIN_INDEX = 0x30,     /* in a worksheet only: a chain by its index */
    GRAFS_TERM_ENTRY_INDEX = 0x31      /* in a worksheet only: an entry by its index */
};

/* What a chain compares walks by. The last two stand last in a chain only. */
enum grafs_key {
    GRAFS_KEY_PASSAGES = 1,    /* passages walked, least */
    GRAFS_KEY_SECONDS = 2,     /* seconds added up, least */
    GRAFS_KEY_FIRST_START = 3, /* starting place, least */
    GRAFS_KEY_LAST_START = 4,  /* starting place, greatest */
    GRAFS_KEY_WIDEST = 5,      /* smallest crate size, greatest */
    GRAFS_KEY_NARROWEST = 6    /* smallest crate size, least */
};

/* What joins two values. With an absent operand the result is absent, but for min and max, which give the other operand. */
enum grafs_operator {
    GRAFS_OP_MIN = 1,
    GRAFS_OP_MAX = 2,
    GRAFS_OP_PLUS = 3,
    GRAFS_OP_MINUS = 4,
    GRAFS_OP_TIMES = 5,
    GRAFS_OP_DIVIDE = 6,
    GRAFS_OP_EQUAL = 7,
    GRAFS_OP_LESS = 8,
    GRAFS_OP_GREATER = 9,
    GRAFS_OP_AND = 10,
    GRAFS_OP_OR = 11
};

enum grafs_reduction {
    GRAFS_REDUCE_MIN = 1,
    GRAFS_REDUCE_MAX = 2,
    GRAFS_REDUCE_SUM = 3,
    GRAFS_REDUCE_AND = 4,
    GRAFS_REDUCE_OR = 5
};

#ifdef GRAFS_PREFIXED
#define GRAFS_CALL(name) grafs_##name
#else
#define GRAFS_CALL(name) name
#endif

/* The question (LPQ) is judged, then 15; the worksheet (LPW) is written to out. */
uint32_t GRAFS_CALL(fuse)(const uint8_t *question, size_t question_len, uint8_t *out, size_t out_len);

/* The worksheet (LPW), the map (LPM) and the starts are judged, then 15; the answer (LPA) is written to out. */
uint32_t GRAFS_CALL(run)(const uint8_t *worksheet, size_t worksheet_len, const uint8_t *map, size_t map_len, uint8_t *out, size_t out_len);

#undef GRAFS_CALL

#ifdef __cplusplus
}
#endif

#endif
