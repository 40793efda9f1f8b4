/* Questions, boards and maps written, answers read, worksheets shown as text. C11 and C++11, nothing to link but what grafs.h declares, and for boards
 * grafs_service.h.
 *
 * No function here touches a byte outside the buffers that it is lent, whatever their length and whatever bytes they hold.
 * Nothing here judges a question, a board or a map: the calls do, and say by number what is wrong (grafs_name). */
#ifndef GRAFS_BUILD_H
#define GRAFS_BUILD_H

#include "grafs.h"

/* ---------------------------------------------------------------------------------------------------------------------- numbers
 * The number of enum grafs_number in what a call returned. */
static inline uint32_t grafs_number_of(uint32_t result) { return result < GRAFS_REFUSAL ? 0u : result - GRAFS_REFUSAL; }

static inline const char *grafs_name(uint32_t number)
{
    static const char *const names[] = { "done", "short", "mark", "version", "places", "passages", "length", "no such place", "crate", "code",
        "key order", "deep", "terms", "start", "full sheet", "buffer short", "no such row", "starts order" };
    return number < sizeof names / sizeof *names ? names[number] : "no such number";
}

/* ---------------------------------------------------------------------------------------------------------------------- bytes
 * A file as it is written, piece by piece. What finds no room is counted and left out. The functions of this part serve those below. */
typedef struct {
    uint8_t *bytes;
    size_t room;
    size_t size;  /* of the whole file, with what found no room */
    int too_wide; /* whether some number was greater than its field takes */
} grafs_bytes;

static inline void grafs_set(grafs_bytes *b, size_t at, uint64_t x)
{
    if (at < b->room)
        b->bytes[at] = (uint8_t)(x & 255);
}

/* A number in so many bytes, fewer than eight, low byte first. */
static inline void grafs_put(grafs_bytes *b, uint64_t x, unsigned width)
{
    for (unsigned i = 0; i < width; i++, x >>= 8)
        grafs_set(b, b->size++, x);
    b->too_wide |= x != 0;
}

static inline grafs_bytes grafs_begin(uint8_t *bytes, size_t room, char letter)
{
    grafs_bytes b = { bytes, room, 0, 0 };
    grafs_put(&b, 'L', 1);
    grafs_put(&b, 'P', 1);
    grafs_put(&b, (uint8_t)letter, 1);
    grafs_put(&b, 1, 2);
    return b;
}

static inline size_t grafs_end(const grafs_bytes *b) { return b->too_wide || b->size > b->room ? 0 : b->size; }

/* ---------------------------------------------------------------------------------------------------------------------- questions
 * A question is written operator first: after grafs_begin_question one term is due, a place term for GRAFS_KIND_EACH and a result term
 * for GRAFS_KIND_RESULT; after an operator two more terms of its kind, after a reduction one place term, after one with a condition two:
 * the condition, then the value.
 * GRAFS_QUESTION_MAX bytes are room enough for every question that is accepted. */
typedef struct {
    grafs_bytes file;
} grafs_question;

static inline grafs_question grafs_begin_question(uint8_t *bytes, size_t room, uint64_t kind)
{
    grafs_question q = { grafs_begin(bytes, room, 'Q') };
    grafs_put(&q.file, kind, 1);
    return q;
}

/* The length of the question. It is 0 where the room was too short, and then q->file.size bytes would do, or a number too great for its field
 * (q->file.too_wide). Every call refuses 0 bytes. */
static inline size_t grafs_end_question(const grafs_question *q) { return grafs_end(&q->file); }

static inline void grafs_put_keys(grafs_question *q, const uint8_t *keys, size_t count)
{
    grafs_put(&q->file, count, 1);
    for (size_t i = 0; i < count; i++)
        grafs_put(&q->file, keys[i], 1);
}

static inline void grafs_put_starts(grafs_question *q, const uint16_t *starts, size_t count)
{
    grafs_put(&q->file, count, 1);
    for (size_t i = 0; i < count; i++)
        grafs_put(&q->file, starts[i], 2);
}

/* Place terms. A chain has one to three keys and a start, a place or GRAFS_ANYWHERE. */
static inline void grafs_chain(grafs_question *q, const uint8_t *keys, size_t count, uint64_t start)
{
    grafs_put(&q->file, GRAFS_TERM_CHAIN, 1);
    grafs_put_keys(q, keys, count);
    grafs_put(&q->file, start, 2);
}

/* A chain of one key. */
static inline void grafs_chain1(grafs_question *q, uint64_t key, uint64_t start)
{
    grafs_put(&q->file, GRAFS_TERM_CHAIN, 1);
    grafs_put(&q->file, 1, 1);
    grafs_put(&q->file, key, 1);
    grafs_put(&q->file, start, 2);
}

/* A chain whose walks begin at any of 1 to 16 places, each above the one before. Of one place it is the same chain as grafs_chain's. */
static inline void grafs_chain_set(grafs_question *q, const uint8_t *keys, size_t count, const uint16_t *starts, size_t start_count)
{
    grafs_put(&q->file, GRAFS_TERM_CHAIN_SET, 1);
    grafs_put_keys(q, keys, count);
    grafs_put_starts(q, starts, start_count);
}

/* Such a chain of one key. */
static inline void grafs_chain1_set(grafs_question *q, uint64_t key, const uint16_t *starts, size_t start_count)
{
    grafs_put(&q->file, GRAFS_TERM_CHAIN_SET, 1);
    grafs_put(&q->file, 1, 1);
    grafs_put(&q->file, key, 1);
    grafs_put_starts(q, starts, start_count);
}

static inline void grafs_tagged(grafs_question *q, uint64_t tag, uint64_t x, unsigned width)
{
    grafs_put(&q->file, tag, 1);
    grafs_put(&q->file, x, width);
}

static inline void grafs_place_literal(grafs_question *q, uint64_t x) { grafs_tagged(q, GRAFS_TERM_PLACE_LITERAL, x, 4); }
static inline void grafs_place_operator(grafs_question *q, uint64_t op) { grafs_tagged(q, GRAFS_TERM_PLACE_OPERATOR, op, 1); }

/* Result terms. A reduction goes over all places, or over those alone where a condition is a number other than 0. */
static inline void grafs_reduction(grafs_question *q, uint64_t reduction) { grafs_tagged(q, GRAFS_TERM_REDUCTION, reduction, 1); }
static inline void grafs_reduction_where(grafs_question *q, uint64_t reduction) { grafs_tagged(q, GRAFS_TERM_REDUCTION_WHERE, reduction, 1); }
static inline void grafs_result_literal(grafs_question *q, uint64_t x) { grafs_tagged(q, GRAFS_TERM_RESULT_LITERAL, x, 4); }
static inline void grafs_result_operator(grafs_question *q, uint64_t op) { grafs_tagged(q, GRAFS_TERM_RESULT_OPERATOR, op, 1); }

/* ---------------------------------------------------------------------------------------------------------------------- boards
 * Questions are counted as they are put on the board, each behind its length. GRAFS_BOARD_MAX bytes (grafs_service.h) are room enough for every board that
 * is accepted. */
typedef struct {
    grafs_bytes file;
    uint64_t questions;
} grafs_board;

static inline grafs_board grafs_begin_board(uint8_t *bytes, size_t room)
{
    grafs_board b = { { bytes, room, 0, 0 }, 0 };
    grafs_put(&b.file, 0, 1);
    return b;
}

/* One of 0 bytes, as grafs_end_question gives where there is no question, is put as such: a board with it is refused. */
static inline void grafs_board_question(grafs_board *b, const uint8_t *question, size_t len)
{
    grafs_put(&b->file, len, 2);
    for (size_t i = 0; i < len; i++)
        grafs_put(&b->file, question[i], 1);
    b->questions++;
    b->file.too_wide |= b->questions > 255;
    grafs_set(&b->file, 0, b->questions);
}

/* As grafs_end_question. */
static inline size_t grafs_end_board(const grafs_board *b) { return grafs_end(&b->file); }

/* ---------------------------------------------------------------------------------------------------------------------- maps
 * Passages are counted as they are written. GRAFS_MAP_MAX bytes are room enough for every map that is accepted. */
typedef struct {
    grafs_bytes file;
    uint64_t passages;
} grafs_map;

static inline grafs_map grafs_begin_map(uint8_t *bytes, size_t room, uint64_t places)
{
    grafs_map m = { grafs_begin(bytes, room, 'M'), 0 };
    grafs_put(&m.file, places, 2);
    grafs_put(&m.file, 0, 2);
    return m;
}

static inline void grafs_passage(grafs_map *m, uint64_t from, uint64_t to, uint64_t seconds, uint64_t crate)
{
    grafs_put(&m->file, from, 2);
    grafs_put(&m->file, to, 2);
    grafs_put(&m->file, seconds, 2);
    grafs_put(&m->file, crate, 2);
    m->passages++;
    m->file.too_wide |= m->passages > 65535;
    grafs_set(&m->file, 7, m->passages);
    grafs_set(&m->file, 8, m->passages >> 8);
}

/* As grafs_end_question. */
static inline size_t grafs_end_map(const grafs_map *m) { return grafs_end(&m->file); }

/* ---------------------------------------------------------------------------------------------------------------------- answers */
typedef struct {
    unsigned places;
    unsigned rounds;
    unsigned kind;
    unsigned rows;        /* as many as places for GRAFS_KIND_EACH, 1 for GRAFS_KIND_RESULT */
    const uint8_t *bytes; /* of the rows: those of the buffer that was read, which must stay */
} grafs_answer;

enum grafs_row {
    GRAFS_ROW_NONE = -1, /* there is no such row */
    GRAFS_ROW_ABSENT = 0,
    GRAFS_ROW_NUMBER = 1
};

static inline uint64_t grafs_get(const uint8_t *bytes, unsigned width)
{
    uint64_t x = 0;
    while (width-- > 0)
        x = x << 8 | bytes[width];
    return x;
}

/* The version in five bytes, 0 where the first three are not the letters of the format. */
static inline unsigned grafs_version_of(const uint8_t *bytes, char letter)
{
    return bytes[0] == 'L' && bytes[1] == 'P' && bytes[2] == (uint8_t)letter ? (unsigned)grafs_get(bytes + 3, 2) : 0;
}

/* Row i, counted from 0. The number is written for GRAFS_ROW_NUMBER alone. */
static inline enum grafs_row grafs_answer_row(const grafs_answer *a, size_t i, uint64_t *number)
{
    if (i >= a->rows)
        return GRAFS_ROW_NONE;
    if (a->bytes[9 * i] == 0)
        return GRAFS_ROW_ABSENT;
    *number = grafs_get(a->bytes + 9 * i + 1, 8);
    return GRAFS_ROW_NUMBER;
}

/* Whether so many bytes are an answer; then `a` is set. A refusal taken for a length is no answer. */
static inline int grafs_read_answer(grafs_answer *a, const uint8_t *bytes, size_t len)
{
    if (len < 10 || len > GRAFS_ANSWER_MAX || grafs_version_of(bytes, 'A') != 1)
        return 0;
    unsigned places = (unsigned)grafs_get(bytes + 5, 2), kind = bytes[9];
    unsigned rows = kind == GRAFS_KIND_EACH ? places : 1;
    if (places < 1 || places > GRAFS_PLACES_MAX || kind > GRAFS_KIND_RESULT || len != 10 + 9 * (size_t)rows)
        return 0;
    for (size_t i = 0; i < rows; i++) {
        const uint8_t *row = bytes + 10 + 9 * i;
        if (row[0] > 1 || (row[0] == 0 && grafs_get(row + 1, 8) != 0))
            return 0;
    }
    a->places = places;
    a->rounds = (unsigned)grafs_get(bytes + 7, 2);
    a->kind = kind;
    a->rows = rows;
    a->bytes = bytes + 10;
    return 1;
}

/* The answers of a board stand one behind the other. Whether there is one from *at on; then `a` is set and *at moved behind it. Begun at 0 it is at the end of
 * `len` bytes when it has read them all; a refusal taken for a length has no answers.
 *
 *     for (size_t at = 0; grafs_next_answer(&a, bytes, len, &at);) .. */
static inline int grafs_next_answer(grafs_answer *a, const uint8_t *bytes, size_t len, size_t *at)
{
    if (len >= GRAFS_REFUSAL || *at > len || len - *at < 10)
        return 0;
    const uint8_t *head = bytes + *at;
    size_t size = 10 + 9 * (head[9] == GRAFS_KIND_EACH ? (size_t)grafs_get(head + 5, 2) : 1);
    if (size > len - *at || !grafs_read_answer(a, head, size))
        return 0;
    *at += size;
    return 1;
}

/* ---------------------------------------------------------------------------------------------------------------------- worksheets
 * A worksheet as text, of either version: a line for each chain, for each entry (or the expression at each place) and for the result. */

/* Room enough for the text of every worksheet, with the 0 at its end. */
#define GRAFS_TEXT_MAX 2048

typedef struct {
    const uint8_t *bytes;
    size_t len, at;
    unsigned version;
    char *text;
    size_t room, size; /* as for grafs_bytes */
    int wrong;         /* whether something is no worksheet's */
} grafs_printer;

static inline uint64_t grafs_next(grafs_printer *p, unsigned width)
{
    if (p->len - p->at < width) {
        p->wrong = 1;
        return 0;
    }
    p->at += width;
    return grafs_get(p->bytes + p->at - width, width);
}

static inline void grafs_say(grafs_printer *p, const char *words)
{
    for (; *words; words++, p->size++)
        if (p->size < p->room)
            p->text[p->size] = *words;
}

static inline void grafs_say_number(grafs_printer *p, uint64_t x)
{
    char digits[21], *d = digits + 20;
    *d = 0;
    do
        *--d = (char)('0' + x % 10);
    while (x /= 10);
    grafs_say(p, d);
}

/* The word for a code, codes counted from 1. */
static inline void grafs_say_word(grafs_printer *p, const char *const *words, size_t count, uint64_t code)
{
    if (code < 1 || code > count)
        p->wrong = 1;
    else
        grafs_say(p, words[code - 1]);
}

static inline void grafs_say_start(grafs_printer *p)
{
    uint64_t start = grafs_next(p, 2);
    if (start == GRAFS_ANYWHERE)
        grafs_say(p, "anywhere");
    else
        grafs_say_number(p, start);
}

static inline void grafs_say_set(grafs_printer *p)
{
    uint64_t count = grafs_next(p, 1);
    p->wrong |= count > GRAFS_STARTS_MAX;
    grafs_say(p, count == 0 ? "anywhere" : count > 1 ? "any of " : "");
    for (uint64_t i = 0; i < count && !p->wrong; i++) {
        grafs_say(p, i > 0 ? ", " : "");
        grafs_say_number(p, grafs_next(p, 2));
    }
}

static inline void grafs_say_chain(grafs_printer *p)
{
    static const char *const words[] = { "least passages", "least seconds", "least start", "greatest start", "greatest crate", "least crate" };
    uint64_t count = grafs_next(p, 1);
    p->wrong |= count < 1 || count > GRAFS_KEYS_MAX;
    for (uint64_t i = 0; i < GRAFS_KEYS_MAX; i++) {
        uint64_t key = grafs_next(p, 1);
        if (i < count) {
            grafs_say_word(p, words, 6, key);
            grafs_say(p, ", ");
        }
    }
    grafs_say(p, "from ");
    if (p->version == GRAFS_WORKSHEET_SETS)
        grafs_say_set(p);
    else
        grafs_say_start(p);
}

/* An expression, of a depth up to `deepest`: the final one over entries, any other over chains. */
static inline void grafs_say_expression(grafs_printer *p, int over_entries, int deepest)
{
    static const char *const before[] = { "min(", "max(", "(", "(", "(", "(", "(", "(", "(", "(", "(" };
    static const char *const between[] = { ", ", ", ", " + ", " - ", " * ", " / ", " = ", " < ", " > ", " and ", " or " };
    uint64_t tag = grafs_next(p, 1);
    if (tag == (over_entries ? GRAFS_TERM_ENTRY_INDEX : GRAFS_TERM_CHAIN_INDEX)) {
        grafs_say(p, over_entries ? "entry " : "chain ");
        grafs_say_number(p, grafs_next(p, 1));
    } else if (tag == (over_entries ? GRAFS_TERM_RESULT_LITERAL : GRAFS_TERM_PLACE_LITERAL)) {
        grafs_say_number(p, grafs_next(p, 4));
    } else if (tag == (over_entries ? GRAFS_TERM_RESULT_OPERATOR : GRAFS_TERM_PLACE_OPERATOR) && deepest > 1) {
        uint64_t op = grafs_next(p, 1);
        grafs_say_word(p, before, 11, op);
        grafs_say_expression(p, over_entries, deepest - 1);
        grafs_say_word(p, between, 11, op);
        grafs_say_expression(p, over_entries, deepest - 1);
        grafs_say(p, ")");
    } else {
        p->wrong = 1;
    }
}

static inline void grafs_say_index(grafs_printer *p, const char *word, uint64_t i)
{
    grafs_say(p, word);
    grafs_say_number(p, i);
    grafs_say(p, ": ");
}

/* A reduction's byte, and its condition where it has one. */
static inline void grafs_say_reduction(grafs_printer *p, uint64_t byte)
{
    static const char *const words[] = { "min", "max", "sum", "and", "or" };
    uint64_t added = byte & GRAFS_ENTRY_CONDITION;
    grafs_say_word(p, words, 5, byte - added);
    grafs_say(p, " over places ");
    if (added) {
        grafs_say(p, "where ");
        grafs_say_expression(p, 0, GRAFS_DEPTH_MAX);
        grafs_say(p, " ");
    }
    grafs_say(p, "of ");
}

static inline void grafs_say_entries(grafs_printer *p, uint64_t kind)
{
    uint64_t entries = grafs_next(p, 1);
    for (uint64_t i = 0; i < entries && !p->wrong; i++) {
        uint64_t byte = grafs_next(p, 1);
        if (kind == GRAFS_KIND_EACH) {
            grafs_say(p, "each place: ");
        } else {
            grafs_say_index(p, "entry ", i);
            grafs_say_reduction(p, byte);
        }
        grafs_say_expression(p, 0, GRAFS_DEPTH_MAX);
        grafs_say(p, "\n");
    }
}

/* What stands behind the letters and the version. */
static inline void grafs_say_worksheet(grafs_printer *p)
{
    uint64_t kind = grafs_next(p, 1), chains = grafs_next(p, 1);
    p->wrong |= kind > GRAFS_KIND_RESULT;
    for (uint64_t i = 0; i < chains && !p->wrong; i++) {
        grafs_say_index(p, "chain ", i);
        grafs_say_chain(p);
        grafs_say(p, "\n");
    }
    grafs_say_entries(p, kind);
    if (kind != GRAFS_KIND_EACH) {
        grafs_say(p, "result: ");
        grafs_say_expression(p, 1, GRAFS_DEPTH_MAX);
        grafs_say(p, "\n");
    }
    p->wrong |= p->at != p->len;
}

/* The text of a worksheet, with a 0 at its end where there is any room, cut where there is too little. Its length is returned, without that 0
 * and uncut. Of bytes that are no worksheet the text is empty and its length 0; not all that run refuses is looked at. */
static inline size_t grafs_worksheet_text(const uint8_t *bytes, size_t len, char *text, size_t room)
{
    unsigned version = len < 5 || len > GRAFS_WORKSHEET_MAX ? 0 : grafs_version_of(bytes, 'W');
    grafs_printer p = { bytes, len, 5, version, text, room, 0, version != GRAFS_WORKSHEET_ONE_START && version != GRAFS_WORKSHEET_SETS };
    if (!p.wrong)
        grafs_say_worksheet(&p);
    if (p.wrong)
        p.size = 0;
    if (room > 0)
        text[p.size < room ? p.size : room - 1] = 0;
    return p.size;
}

#endif
