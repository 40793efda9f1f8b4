/* grafs_build.h on the case files of crate `cases`, and on questions with a condition and from sets: every accepted question and map is built again,
 * byte for byte, in every shorter room and in longer ones; every answer is read, and what was read is laid out again; every worksheet is shown, whatever
 * its bytes; questions are put on boards, and answers that stand one behind the other are read one by one. The calls are made on them too. Buffers stand on
 * the heap in their exact lengths, so that a sanitizer sees any step outside. Compiled as C and as C++. */
#include "case_files.h"
#include "grafs_service.h"

static const char *const names[] = { "done", "short", "mark", "version", "places", "passages", "length", "no such place", "crate", "code", "key order",
    "deep", "terms", "start", "full sheet", "buffer short", "no such row", "starts order" };

static size_t built, read_back, shown;

/* ---------------------------------------------------------------------------------------------------------------------- questions and maps */
/* A chain from a set, whose key count stands here. */
static const uint8_t *set_again(grafs_question *q, const uint8_t *p)
{
    const uint8_t *set = p + 1 + p[0];
    uint16_t starts[GRAFS_STARTS_MAX];
    for (size_t i = 0; i < set[0]; i++)
        starts[i] = (uint16_t)grafs_get(set + 1 + 2 * i, 2);
    if (p[0] == 1)
        grafs_chain1_set(q, p[1], starts, set[0]);
    else
        grafs_chain_set(q, p + 1, p[0], starts, set[0]);
    return set + 1 + 2 * set[0];
}

/* The term that starts here, written again; returns where it ends. */
static const uint8_t *term_again(grafs_question *q, const uint8_t *p)
{
    switch (p[0]) {
    case GRAFS_TERM_CHAIN:
        if (p[1] == 1)
            grafs_chain1(q, p[2], grafs_get(p + 3, 2));
        else
            grafs_chain(q, p + 2, p[1], grafs_get(p + 2 + p[1], 2));
        return p + 4 + p[1];
    case GRAFS_TERM_CHAIN_SET:
        return set_again(q, p + 1);
    case GRAFS_TERM_PLACE_LITERAL:
        grafs_place_literal(q, grafs_get(p + 1, 4));
        return p + 5;
    case GRAFS_TERM_RESULT_LITERAL:
        grafs_result_literal(q, grafs_get(p + 1, 4));
        return p + 5;
    case GRAFS_TERM_PLACE_OPERATOR:
        grafs_place_operator(q, p[1]);
        return term_again(q, term_again(q, p + 2));
    case GRAFS_TERM_RESULT_OPERATOR:
        grafs_result_operator(q, p[1]);
        return term_again(q, term_again(q, p + 2));
    case GRAFS_TERM_REDUCTION_WHERE:
        grafs_reduction_where(q, p[1]);
        return term_again(q, term_again(q, p + 2));
    default:
        grafs_reduction(q, p[1]);
        return term_again(q, p + 2);
    }
}

static size_t question_again(const uint8_t *bytes, uint8_t *room, size_t len)
{
    grafs_question q = grafs_begin_question(room, len, bytes[5]);
    term_again(&q, bytes + 6);
    return grafs_end_question(&q);
}

static size_t map_again(const uint8_t *bytes, uint8_t *room, size_t len)
{
    grafs_map m = grafs_begin_map(room, len, grafs_get(bytes + 5, 2));
    size_t rows = (size_t)grafs_get(bytes + 7, 2);
    for (const uint8_t *p = bytes + 9; rows > 0; rows--, p += 8)
        grafs_passage(&m, grafs_get(p, 2), grafs_get(p + 2, 2), grafs_get(p + 4, 2), grafs_get(p + 6, 2));
    return grafs_end_map(&m);
}

/* In every room from none to three bytes too many. */
static void try_built(const file_case *c, size_t index)
{
    for (size_t room = 0; room <= c->len + 3; room++) {
        uint8_t *out = filled_room(room);
        size_t n = c->kind == CASE_MAP ? map_again(c->bytes, out, room) : question_again(c->bytes, out, room);
        expect(n == (room < c->len ? 0 : c->len), "length built", index);
        if (room >= c->len)
            expect(!memcmp(out, c->bytes, c->len), "bytes built", index);
        if (room > c->len)
            expect(still_filled(out + c->len, room - c->len), "behind what was built", index);
        free(out);
    }
    built++;
}

/* ---------------------------------------------------------------------------------------------------------------------- answers */
static void lay_row(uint8_t *out, const grafs_answer *a, size_t i)
{
    uint64_t x = 0;
    enum grafs_row row = grafs_answer_row(a, i, &x);
    expect(row != GRAFS_ROW_NONE, "a row of an answer", i);
    out[0] = row == GRAFS_ROW_NUMBER;
    for (int k = 0; k < 8; k++, x >>= 8)
        out[1 + k] = (uint8_t)(x & 255);
}

/* What the reader says of an answer, as bytes. */
static size_t answer_again(const uint8_t *bytes, size_t len, uint8_t *out)
{
    grafs_answer a;
    uint64_t x = 7;
    if (!grafs_read_answer(&a, bytes, len))
        return 0;
    memcpy(out, "LPA\1\0", 5);
    out[5] = (uint8_t)(a.places & 255), out[6] = (uint8_t)(a.places >> 8);
    out[7] = (uint8_t)(a.rounds & 255), out[8] = (uint8_t)(a.rounds >> 8);
    out[9] = (uint8_t)a.kind;
    for (size_t i = 0; i < a.rows; i++)
        lay_row(out + 10 + 9 * i, &a, i);
    expect(grafs_answer_row(&a, a.rows, &x) == GRAFS_ROW_NONE && grafs_answer_row(&a, SIZE_MAX, &x) == GRAFS_ROW_NONE && x == 7, "no such row", len);
    return 10 + 9 * (size_t)a.rows;
}

/* Read whole, cut anywhere, a byte too long, and with a byte changed that no answer has so. */
static void try_answer(const uint8_t *bytes, size_t len, size_t index)
{
    static const struct {
        size_t at;
        uint8_t byte;
    } wrong[] = { { 0, 'M' }, { 1, 'Q' }, { 2, 'W' }, { 3, 2 }, { 4, 1 }, { 6, 2 }, { 9, 2 }, { 10, 2 } };
    uint8_t out[GRAFS_ANSWER_MAX + 1];
    expect(answer_again(bytes, len, out) == len && !memcmp(out, bytes, len), "an answer read", index);
    for (size_t cut = 0; cut < len; cut++) {
        uint8_t *part = copy_of(bytes, cut);
        expect(answer_again(part, cut, out) == 0, "an answer cut", index);
        free(part);
    }
    for (size_t i = 0; i < sizeof wrong / sizeof *wrong; i++) {
        uint8_t *changed = copy_of(bytes, len);
        changed[wrong[i].at] = wrong[i].byte;
        expect(answer_again(changed, len, out) == 0, "an answer changed", wrong[i].at);
        free(changed);
    }
    memcpy(out, bytes, len);
    out[len] = 0;
    expect(!answer_again(out, len + 1, out), "an answer and a byte", index);
    read_back++;
}

/* An absent row has nothing but 0; a refusal is no length. */
static void try_no_answers(void)
{
    const uint8_t absent[19] = { 'L', 'P', 'A', 1, 0, 1, 0, 1, 0, 1, 0, 0, 0, 0, 0, 0, 0, 0, 1 };
    grafs_answer a;
    expect(!grafs_read_answer(&a, absent, sizeof absent), "absent with a number", 0);
    uint8_t *head = copy_of(absent, 5);
    expect(!grafs_read_answer(&a, head, GRAFS_REFUSAL + GRAFS_BUFFER_SHORT), "a refusal for a length", 0);
    free(head);
    expect(!grafs_read_answer(&a, NULL, 0), "no bytes", 0);
}

/* ---------------------------------------------------------------------------------------------------------------------- boards */
static const uint8_t from_0[] = { 'L', 'P', 'Q', 1, 0, 0, 0x10, 1, 2, 0, 0 }, seven[] = { 'L', 'P', 'Q', 1, 0, 1, 0x21, 7, 0, 0, 0 };

/* So many questions by turns, put on a board in some room. */
static size_t board_again(unsigned count, uint8_t *room, size_t len)
{
    grafs_board b = grafs_begin_board(room, len);
    for (unsigned i = 0; i < count; i++) {
        uint8_t *question = copy_of(i % 2 ? seven : from_0, 11);
        grafs_board_question(&b, question, i % 3 == 2 ? 0 : 11);
        free(question);
    }
    expect(b.questions == count, "questions of a board", count);
    return grafs_end_board(&b);
}

/* The same as bytes, every third question of no bytes; in every room from none to three bytes too many. */
static void try_board(unsigned count)
{
    uint8_t want[1 + 13 * 255];
    size_t size = 0;
    want[size++] = (uint8_t)count;
    for (unsigned i = 0; i < count; i++) {
        size_t len = i % 3 == 2 ? 0 : 11;
        want[size++] = (uint8_t)len;
        want[size++] = 0;
        memcpy(want + size, i % 2 ? seven : from_0, len);
        size += len;
    }
    for (size_t room = 0; room <= size + 3; room++) {
        uint8_t *out = filled_room(room);
        size_t n = board_again(count, out, room);
        expect(n == (room < size ? 0 : size), "length of a board", count);
        expect(room < size || !memcmp(out, want, size), "bytes of a board", count);
        expect(room <= size || still_filled(out + size, room - size), "behind a board", count);
        free(out);
    }
}

/* A question's length and the count of a board at the greatest that their fields take, and one more. */
static void try_wide_boards(void)
{
    static uint8_t room[3 + 65536], long_one[65536];
    for (size_t len = 65535; len <= 65536; len++) {
        grafs_board b = grafs_begin_board(room, sizeof room);
        grafs_board_question(&b, long_one, len);
        expect(grafs_end_board(&b) == (len > 65535 ? 0 : 3 + len), "a question's length too wide", len);
        expect(room[1] == (len & 255) && room[2] == (len >> 8 & 255), "a question's length", len);
    }
    expect(board_again(255, room, sizeof room) > 0 && room[0] == 255, "as many questions as can be counted", 255);
    expect(board_again(256, room, sizeof room) == 0, "a question more", 256);
}

static void try_boards(void)
{
    for (unsigned count = 0; count <= 9; count++)
        try_board(count);
    try_board(255);
    try_wide_boards();
}

/* An answer of rows and one of a result, by turns: each absent at place 0, then the places' numbers. */
static size_t lay_answers(unsigned count, unsigned places, uint8_t *out)
{
    size_t size = 0;
    for (unsigned i = 0; i < count; i++) {
        const uint8_t head[] = { 'L', 'P', 'A', 1, 0, (uint8_t)(places & 255), (uint8_t)(places >> 8), 9, 1, (uint8_t)(i % 2) };
        memcpy(out + size, head, sizeof head);
        size += sizeof head;
        for (unsigned v = 0; v < (i % 2 ? 1 : places); v++) {
            const uint8_t row[] = { v > 0, (uint8_t)(v & 255), 0, 0, 0, 0, 0, 0, 0 };
            memcpy(out + size, row, sizeof row);
            size += sizeof row;
        }
    }
    return size;
}

/* The answers that can be read from so many bytes, laid out again behind one another; `at` is left where reading stopped. */
static size_t answers_again(const uint8_t *bytes, size_t len, size_t *at, uint8_t *out)
{
    grafs_answer a;
    size_t before = *at, size = 0;
    while (grafs_next_answer(&a, bytes, len, at)) {
        uint8_t one[GRAFS_ANSWER_MAX];
        size_t n = answer_again(bytes + before, *at - before, one);
        expect(n == *at - before && a.bytes == bytes + before + 10 && a.rounds == 265, "an answer among others", before);
        memcpy(out + size, one, n);
        size += n;
        before = *at;
    }
    expect(*at == before, "where no answer is, nothing moves", before);
    return size;
}

/* Whole; cut anywhere, up to the last whole answer; with one that is none, up to it; from behind the first on; from outside. */
static void try_answers(unsigned count, unsigned places)
{
    static uint8_t bytes[GRAFS_BOARD_ANSWERS_MAX], out[GRAFS_BOARD_ANSWERS_MAX];
    size_t len = lay_answers(count, places, bytes), first = 10 + 9 * (size_t)places, at = 0;
    expect(answers_again(bytes, len, &at, out) == len && at == len && !memcmp(out, bytes, len), "answers read", count);
    for (size_t cut = 0; cut < len; cut += len < 400 || cut + 30 > len ? 1 : 29) {
        uint8_t *part = copy_of(bytes, cut);
        at = 0;
        size_t n = answers_again(part, cut, &at, out);
        expect(n == at && at <= cut && cut - at < first && !memcmp(out, bytes, n), "answers cut", cut);
        free(part);
    }
    at = first;
    expect(answers_again(bytes, len, &at, out) == len - first && at == len, "answers from behind the first on", count);
    uint8_t *exact = copy_of(bytes, len);
    for (at = len; at < len + 30; at++) {
        size_t outside = at;
        expect(answers_again(exact, len, &outside, out) == 0 && outside == at, "no answer outside", at);
    }
    free(exact);
    bytes[len - 9] = 2;
    at = 0;
    expect(answers_again(bytes, len, &at, out) == len - (count % 2 ? first : 19), "a wrong row in the last answer", count);
    at = 0;
    expect(answers_again(bytes, GRAFS_REFUSAL + GRAFS_BUFFER_SHORT, &at, out) == 0 && at == 0, "a refusal for a length", 0);
    at = 0;
    expect(answers_again(NULL, 0, &at, out) == 0 && at == 0, "no bytes", 0);
}

/* ---------------------------------------------------------------------------------------------------------------------- worksheets */
/* Whether bytes refused by this number have no text: those that are no worksheet as a whole. Single fields are tried below. */
static int no_text(uint32_t number) { return (number >= GRAFS_SHORT && number <= GRAFS_VERSION) || number == GRAFS_LENGTH || number == GRAFS_DEEP; }

/* The text in every room up to its length, and closed by a 0 in each. */
static void try_text(const uint8_t *bytes, size_t len, uint32_t number, size_t index)
{
    uint8_t *sheet = copy_of(bytes, len);
    char whole[GRAFS_TEXT_MAX];
    size_t size = grafs_worksheet_text(sheet, len, whole, sizeof whole);
    expect(number == GRAFS_DONE ? size > 0 && size < GRAFS_TEXT_MAX : !no_text(number) || size == 0, "a worksheet's text", index);
    expect(strlen(whole) == (size < sizeof whole ? size : sizeof whole - 1), "a text's length", index);
    for (size_t room = 0; room <= strlen(whole); room++) {
        char *text = (char *)room_of(room);
        expect(grafs_worksheet_text(sheet, len, text, room) == size, "a text cut", index);
        expect(room == 0 || (strlen(text) == room - 1 && !memcmp(text, whole, room - 1)), "a text cut", index);
        free(text);
    }
    free(sheet);
    shown++;
}

static void try_one_text(const char *name, const uint8_t *bytes, size_t len, const char *expected)
{
    char text[GRAFS_TEXT_MAX];
    size_t size = grafs_worksheet_text(bytes, len, text, sizeof text);
    expect(size == strlen(expected) && !strcmp(text, expected), name, 0);
}

/* Version 2: from anywhere, from one place, from two, from 16; and the start of a chain of version 1, which stands in two bytes. */
static void try_set_texts(void)
{
    const uint8_t sets[] = { 'L', 'P', 'W', 2, 0, 0, 4, 1, 1, 0, 0, 0, 1, 2, 0, 0, 1, 7, 0, 2, 2, 3, 0, 2, 0, 0, 255, 0, 3, 4, 3, 6, 16, 1, 0, 2, 0, 3, 0,
        4, 0, 5, 0, 6, 0, 7, 0, 8, 0, 9, 0, 10, 0, 11, 0, 12, 0, 13, 0, 14, 0, 15, 0, 16, 0, 1, 0, 0x12, 3, 0x30, 2, 0x30, 3 };
    const uint8_t none[] = { 'L', 'P', 'W', 2, 0, 1, 0, 0, 0x21, 5, 0, 0, 0 };
    const uint8_t start[] = { 'L', 'P', 'W', 1, 0, 0, 1, 1, 1, 0, 0, 1, 1, 1, 0, 0x30, 0 };
    try_one_text("sets as text", sets, sizeof sets,
        "chain 0: least passages, from anywhere\n"
        "chain 1: least seconds, from 7\n"
        "chain 2: least seconds, least start, from any of 0, 255\n"
        "chain 3: greatest start, least start, least crate, from any of 1, 2, 3, 4, 5, 6, 7, 8, 9, 10, 11, 12, 13, 14, 15, 16\n"
        "each place: (chain 2 + chain 3)\n");
    try_one_text("version 2 without chains", none, sizeof none, "result: 5\n");
    try_one_text("a start of two bytes", start, sizeof start,
        "chain 0: least passages, from 257\n"
        "each place: chain 0\n");
}

static void try_texts(void)
{
    const uint8_t marked[] = { 'L', 'P', 'W', 1, 0, 1, 1, 1, 1, 0, 0, 0, 0, 1, 2, 0x30, 0, 0x31, 0 };
    const uint8_t each[] = { 'L', 'P', 'W', 1, 0, 0, 2, 3, 3, 4, 5, 255, 255, 2, 2, 6, 0, 255, 0, 1, 0, 0x12, 1, 0x12, 9, 0x30, 0, 0x30, 1, 0x11, 255, 255,
        255, 255 };
    const uint8_t none[] = { 'L', 'P', 'W', 1, 0, 1, 0, 0, 0x22, 10, 0x22, 5, 0x21, 0, 0, 0, 0, 0x21, 7, 0, 0, 0, 0x22, 11, 0x21, 1, 0, 0, 0, 0x21, 2, 0, 0,
        0 };
    const uint8_t where[] = { 'L', 'P', 'W', 1, 0, 1, 1, 1, 2, 0, 0, 0, 0, 3, 131, 0x12, 9, 0x30, 0, 0x11, 2, 0, 0, 0, 0x30, 0, 1, 0x30, 0, 133, 0x30, 0,
        0x12, 2, 0x30, 0, 0x30, 0, 0x22, 4, 0x31, 0, 0x31, 2 };
    try_one_text("the byte case as text", marked, sizeof marked,
        "chain 0: least passages, from 0\n"
        "entry 0: max over places of chain 0\n"
        "result: entry 0\n");
    try_one_text("each place as text", each, sizeof each,
        "chain 0: least start, greatest start, greatest crate, from anywhere\n"
        "chain 1: least seconds, least crate, from 255\n"
        "each place: min((chain 0 > chain 1), 4294967295)\n");
    try_one_text("no chain as text", none, sizeof none, "result: ((0 * 7) and (1 or 2))\n");
    try_one_text("conditions as text", where, sizeof where,
        "chain 0: least seconds, from 0\n"
        "entry 0: sum over places where (chain 0 > 2) of chain 0\n"
        "entry 1: min over places of chain 0\n"
        "entry 2: or over places where chain 0 of max(chain 0, chain 0)\n"
        "result: (entry 0 - entry 2)\n");
    try_set_texts();
    uint8_t *head = copy_of(marked, 5);
    try_one_text("a refusal for a length", head, GRAFS_REFUSAL + GRAFS_BUFFER_SHORT, "");
    try_one_text("no worksheet", head, 0, "");
    free(head);
}

/* The marked worksheet with one byte that it cannot have there. */
static void try_wrong_texts(void)
{
    static const struct {
        size_t at;
        uint8_t byte;
    } wrong[] = { { 5, 2 }, { 6, 2 }, { 7, 0 }, { 7, 4 }, { 8, 0 }, { 8, 7 }, { 13, 2 }, { 14, 0 }, { 14, 6 }, { 15, 0x31 }, { 17, 0x30 }, { 15, 0x10 },
        { 14, 10 }, { 14, 66 }, { 14, 128 }, { 14, 130 }, { 14, 134 } };
    for (size_t i = 0; i < sizeof wrong / sizeof *wrong; i++) {
        uint8_t sheet[] = { 'L', 'P', 'W', 1, 0, 1, 1, 1, 1, 0, 0, 0, 0, 1, 2, 0x30, 0, 0x31, 0 };
        sheet[wrong[i].at] = wrong[i].byte;
        try_one_text("a wrong worksheet", sheet, sizeof sheet, "");
    }
}

/* A worksheet of version 2 with one byte that it cannot have there: its own version, or a set count that takes too few bytes, too many, or more than there
 * are. */
static void try_wrong_sets(void)
{
    static const struct {
        size_t at;
        uint8_t byte;
    } wrong[] = { { 3, 0 }, { 3, 1 }, { 3, 3 }, { 4, 1 }, { 11, 0 }, { 11, 1 }, { 11, 3 }, { 11, 16 }, { 11, 17 }, { 11, 255 } };
    for (size_t i = 0; i < sizeof wrong / sizeof *wrong; i++) {
        uint8_t sheet[] = { 'L', 'P', 'W', 2, 0, 0, 1, 1, 2, 0, 0, 2, 0, 0, 2, 0, 1, 0, 0x30, 0 };
        sheet[wrong[i].at] = wrong[i].byte;
        try_one_text("a wrong worksheet of version 2", sheet, sizeof sheet, "");
    }
    const uint8_t seventeen[] = { 'L', 'P', 'W', 2, 0, 0, 1, 1, 2, 0, 0, 17, 0, 0, 1, 0, 2, 0, 3, 0, 4, 0, 5, 0, 6, 0, 7, 0, 8, 0, 9, 0, 10, 0, 11, 0,
        12, 0, 13, 0, 14, 0, 15, 0, 16, 0, 1, 0, 0x30, 0 };
    try_one_text("a set of 17", seventeen, sizeof seventeen, "");
}

/* The greatest literal, which has the most digits. */
static void put_literal(grafs_bytes *b, uint64_t tag)
{
    grafs_put(b, tag, 1);
    grafs_put(b, 4294967295u, 4);
}

/* So many terms of a final expression, an odd number, in a tree of little depth. */
static void put_final(grafs_bytes *b, unsigned terms)
{
    unsigned left = (terms - 1) / 2 | 1;
    if (terms == 1) {
        put_literal(b, GRAFS_TERM_RESULT_LITERAL);
        return;
    }
    grafs_put(b, GRAFS_TERM_RESULT_OPERATOR, 1);
    grafs_put(b, GRAFS_OP_AND, 1);
    put_final(b, left);
    put_final(b, terms - 1 - left);
}

/* A condition of 16 levels has a text, one of 17 has none. */
static void try_deep_condition(unsigned depth)
{
    uint8_t sheet[GRAFS_WORKSHEET_MAX];
    grafs_bytes b = grafs_begin(sheet, sizeof sheet, 'W');
    grafs_put(&b, GRAFS_KIND_RESULT, 1);
    grafs_put(&b, 0, 1);
    grafs_put(&b, 1, 1);
    grafs_put(&b, GRAFS_ENTRY_CONDITION + GRAFS_REDUCE_MIN, 1);
    for (unsigned i = 1; i < depth; i++) {
        grafs_put(&b, GRAFS_TERM_PLACE_OPERATOR, 1);
        grafs_put(&b, GRAFS_OP_PLUS, 1);
        put_literal(&b, GRAFS_TERM_PLACE_LITERAL);
    }
    put_literal(&b, GRAFS_TERM_PLACE_LITERAL);
    put_literal(&b, GRAFS_TERM_PLACE_LITERAL);
    grafs_put(&b, GRAFS_TERM_ENTRY_INDEX, 1);
    grafs_put(&b, 0, 1);
    try_text(sheet, grafs_end(&b), depth <= GRAFS_DEPTH_MAX ? GRAFS_DONE : GRAFS_DEEP, depth);
}

/* The longest worksheet that a run takes, 560 bytes, with the longest words: eight chains from 16 places of three digits, eight entries of a literal, seven
 * of them with a literal as condition, 49 terms of a final expression. No text has more than its 2,042 characters: a chain's line has 63 and the 85 of its
 * starts, an expression of k literals has 17k - 7, the line around an entry's 29, and 7 more with a condition; so it is 1,186, 22 for each of at most 8
 * entries, and 17 for each of at most 40 literals. */
static void try_longest_text(void)
{
    const uint8_t map[] = { 'L', 'P', 'M', 1, 0, 0, 1, 0, 0 };
    uint8_t sheet[GRAFS_WORKSHEET_MAX], answer[GRAFS_ANSWER_MAX];
    grafs_bytes b = grafs_begin(sheet, sizeof sheet, 'W');
    sheet[3] = GRAFS_WORKSHEET_SETS;
    grafs_put(&b, GRAFS_KIND_RESULT, 1);
    grafs_put(&b, 8, 1);
    for (int i = 0; i < 8; i++) {
        grafs_put(&b, 0x04040403, 4); /* three keys, each the greatest start */
        grafs_put(&b, GRAFS_STARTS_MAX, 1);
        for (unsigned start = 240; start < 256; start++)
            grafs_put(&b, start, 2);
    }
    grafs_put(&b, 8, 1);
    for (int i = 0; i < 8; i++) {
        grafs_put(&b, i < 7 ? GRAFS_ENTRY_CONDITION + GRAFS_REDUCE_MAX : GRAFS_REDUCE_MAX, 1);
        if (i < 7)
            put_literal(&b, GRAFS_TERM_PLACE_LITERAL);
        put_literal(&b, GRAFS_TERM_PLACE_LITERAL);
    }
    put_final(&b, 49);
    expect(grafs_end(&b) == 560 && run(sheet, 560, map, sizeof map, answer, sizeof answer) == 19, "the longest worksheet", grafs_end(&b));
    expect(grafs_worksheet_text(sheet, 560, NULL, 0) == 2042, "the longest text", grafs_worksheet_text(sheet, 560, NULL, 0));
    try_text(sheet, grafs_end(&b), GRAFS_DONE, 0);
}

/* ---------------------------------------------------------------------------------------------------------------------- the calls */
/* A question is refused by its number or fused, and what is fused can be shown. */
static void try_fuse(const file_case *c, size_t index)
{
    uint8_t *question = copy_of(c->bytes, c->len), *out = filled_room(GRAFS_WORKSHEET_MAX);
    uint32_t n = fuse(question, c->len, out, GRAFS_WORKSHEET_MAX), done = n < GRAFS_REFUSAL ? n : 0;
    expect(grafs_number_of(n) == c->number && (done > 0) == (c->number == GRAFS_DONE), "fuse", index);
    expect(still_filled(out + done, GRAFS_WORKSHEET_MAX - done), "behind a worksheet", index);
    if (done > 0)
        try_text(out, done, GRAFS_DONE, index);
    free(question), free(out);
}

static void try_run(const run_case *r, uint32_t number, size_t index)
{
    uint8_t *plan = copy_of(r->plan, r->plan_len), *graph = copy_of(r->graph, r->graph_len), *out = filled_room(r->lent);
    uint32_t n = run(plan, r->plan_len, graph, r->graph_len, out, r->lent);
    expect(n == (number == GRAFS_DONE ? r->answer_len : GRAFS_REFUSAL + number), "run", index);
    expect(!memcmp(out, r->answer, r->answer_len), "an answer's bytes", index);
    expect(still_filled(out + r->answer_len, r->lent - r->answer_len), "behind an answer", index);
    free(plan), free(graph), free(out);
}

static void try_case(const file_case *c, size_t index)
{
    if (c->number == GRAFS_DONE && (c->kind == CASE_MAP || c->kind == CASE_QUESTION))
        try_built(c, index);
    if (c->kind == CASE_QUESTION)
        try_fuse(c, index);
    if (c->kind == CASE_WORKSHEET)
        try_text(c->bytes, c->len, c->number, index);
    if (c->kind < CASE_RUN)
        return;
    run_case r = run_case_of(c);
    if (r.call < 2)
        try_run(&r, c->number, index);
    if (c->number == GRAFS_DONE && r.call == 0)
        try_answer(r.answer, r.answer_len, index);
}

/* Conditions: alone; with reductions beside it and operators in all places; refused in a question for each place. */
static void try_conditions(void)
{
    const uint8_t alone[] = { 'L', 'P', 'Q', 1, 0, 1, 0x23, 3, 0x12, 9, 0x10, 1, 2, 0, 0, 0x11, 2, 0, 0, 0, 0x10, 1, 2, 0, 0 };
    const uint8_t beside[] = { 'L', 'P', 'Q', 1, 0, 1, 0x22, 4, 0x22, 6, 0x23, 1, 0x10, 3, 2, 1, 5, 255, 255, 0x12, 1, 0x11, 1, 2, 3, 4, 0x10, 2, 2, 6, 255, 0,
        0x20, 2, 0x11, 9, 0, 0, 0, 0x22, 3, 0x21, 255, 255, 255, 255, 0x23, 5, 0x11, 0, 0, 0, 0, 0x11, 1, 0, 0, 0 };
    const uint8_t each[] = { 'L', 'P', 'Q', 1, 0, 0, 0x23, 3, 0x11, 1, 0, 0, 0, 0x11, 1, 0, 0, 0 };
    const file_case cases[] = { { CASE_QUESTION, GRAFS_DONE, alone, sizeof alone }, { CASE_QUESTION, GRAFS_DONE, beside, sizeof beside },
        { CASE_QUESTION, GRAFS_CODE, each, sizeof each } };
    for (size_t i = 0; i < sizeof cases / sizeof *cases; i++)
        try_case(&cases[i], i);
}

/* Sets: of one, of two with three keys, of 16; beside each other and beside a start and anywhere; starts that do not rise, which are written as given. */
static void try_sets(void)
{
    const uint8_t one[] = { 'L', 'P', 'Q', 1, 0, 0, 0x13, 1, 2, 1, 255, 0 };
    const uint8_t beside[] = { 'L', 'P', 'Q', 1, 0, 1, 0x23, 3, 0x12, 9, 0x13, 3, 2, 1, 5, 2, 0, 0, 255, 0, 0x10, 1, 2, 255, 255, 0x12, 1, 0x13, 1, 6, 16,
        1, 0, 2, 0, 3, 0, 4, 0, 5, 0, 6, 0, 7, 0, 8, 0, 9, 0, 10, 0, 11, 0, 12, 0, 13, 0, 14, 0, 15, 0, 128, 0, 0x10, 2, 3, 4, 9, 0 };
    const uint8_t falls[] = { 'L', 'P', 'Q', 1, 0, 0, 0x13, 1, 2, 2, 3, 0, 3, 0 };
    const uint8_t anywhere[] = { 'L', 'P', 'Q', 1, 0, 0, 0x13, 1, 2, 2, 3, 0, 255, 255 };
    const uint8_t none[] = { 'L', 'P', 'Q', 1, 0, 0, 0x13, 1, 2, 0 };
    const file_case cases[] = { { CASE_QUESTION, GRAFS_DONE, one, sizeof one }, { CASE_QUESTION, GRAFS_DONE, beside, sizeof beside },
        { CASE_QUESTION, GRAFS_STARTS_ORDER, falls, sizeof falls }, { CASE_QUESTION, GRAFS_START, anywhere, sizeof anywhere },
        { CASE_QUESTION, GRAFS_CODE, none, sizeof none } };
    for (size_t i = 0; i < sizeof cases / sizeof *cases; i++) {
        try_case(&cases[i], i);
        if (cases[i].number != GRAFS_DONE)
            try_built(&cases[i], i);
    }
}

/* ---------------------------------------------------------------------------------------------------------------------- numbers */
static void try_names(void)
{
    for (uint32_t i = 0; i < sizeof names / sizeof *names; i++)
        expect(!strcmp(grafs_name(i), names[i]), "a name", i);
    expect(!strcmp(grafs_name(18), "no such number") && !strcmp(grafs_name(UINT32_MAX), "no such number"), "no name", 18);
    expect(!strcmp(grafs_name(GRAFS_STARTS_ORDER), "starts order"), "a name", GRAFS_STARTS_ORDER);
    expect(grafs_number_of(0) == 0 && grafs_number_of(65535) == 0 && grafs_number_of(65536) == 0 && grafs_number_of(65553) == 17, "a result's number", 0);
}

/* A number that its field cannot take makes no file: never another number in its place. */
static void try_wide(void)
{
    uint8_t out[GRAFS_MAP_MAX];
    for (int i = 0; i < 9; i++) {
        grafs_question q = grafs_begin_question(out, sizeof out, i == 0 ? 256 : 0);
        grafs_chain1(&q, i == 1 ? 257 : 1, i == 2 ? 65536 : i == 3 ? (uint64_t)-1 : 0);
        grafs_place_literal(&q, i == 4 ? 4294967296u : 4294967295u);
        grafs_place_operator(&q, i == 5 ? 259 : 3);
        grafs_reduction(&q, i == 6 ? UINT64_C(1) << 40 : 3);
        grafs_reduction_where(&q, i == 7 ? 256 : 3);
        expect((grafs_end_question(&q) == 0) == (i < 8), "a question's number too wide", (size_t)i);
    }
    static const uint8_t keys[256] = { 0 };
    static const uint16_t starts[256] = { 0 };
    for (int i = 0; i < 5; i++) {
        grafs_question q = grafs_begin_question(out, sizeof out, 0);
        grafs_chain1_set(&q, i == 0 ? 256 : 1, starts, i == 1 ? 256 : 255);
        grafs_chain_set(&q, keys, i == 2 ? 256 : 255, starts, i == 3 ? 256 : 255);
        expect((grafs_end_question(&q) == 0) == (i < 4), "a set's number too wide", (size_t)i);
    }
    for (int i = 0; i < 6; i++) {
        grafs_map m = grafs_begin_map(out, sizeof out, i == 0 ? 65536 : 4);
        grafs_passage(&m, i == 1 ? 65536 : 1, i == 2 ? 65537 : 1, i == 3 ? 65536 : 1, i == 4 ? 65536 + 7 : 1);
        expect((grafs_end_map(&m) == 0) == (i < 5), "a map's number too wide", (size_t)i);
    }
    static uint8_t large[9 + 8 * 65536];
    grafs_map m = grafs_begin_map(large, sizeof large, 1);
    for (int i = 0; i < 65535; i++)
        grafs_passage(&m, 0, 0, 0, 1);
    expect(grafs_end_map(&m) == 9 + 8 * 65535, "as many passages as can be counted", 65535);
    grafs_passage(&m, 0, 0, 0, 1);
    expect(grafs_end_map(&m) == 0, "a passage more", 65536);
}

int main(int argc, char **argv)
{
    if (argc != 3)
        return 2;
    size_t cases = each_case(argv[1], try_case) + each_case(argv[2], try_case);
    try_no_answers();
    try_texts();
    try_wrong_texts();
    try_wrong_sets();
    try_longest_text();
    try_deep_condition(GRAFS_DEPTH_MAX);
    try_deep_condition(GRAFS_DEPTH_MAX + 1);
    try_conditions();
    try_sets();
    try_names();
    try_wide();
    try_boards();
    for (unsigned count = 1; count <= 8; count++) {
        try_answers(count, 1);
        try_answers(count, 4);
        try_answers(count, 256);
    }
    expect(built > 60 && read_back > 100 && shown > 200, "enough of each", 0);
    printf("c: %zu cases: %zu built, %zu answers read, %zu worksheets shown; %u comparisons, %u differ\n", cases, built, read_back, shown, tried, failed);
    return failed != 0;
}
