/* Trees of all kinds, made by draws that are the same in every run, and messages of a tree: plain, as the writer writes it, or loose, with references. */
#ifndef MADE_H
#define MADE_H

#include "pinebuckle.h"

/* Room for the largest tree that is made. */
enum { ROWS = 64, STORE = 2048, MOST_NUMBERS = ROWS * PB_ROW_WIDTH, MOST_BYTES = STORE };

#include "lent.h"

/* A row has fewer bytes than this in any message. */
enum { ROW_BYTES = 256, LONGEST = ROWS * ROW_BYTES };

static const size_t lent[LOANS] = {ROWS * PB_ROW_WIDTH, STORE, 2 * ROWS * PB_STRING_WIDTH, ROWS, ROWS * PB_TRAIT_WIDTH, ROWS * PB_NAME_WIDTH};

/* A tree without references. A span is two numbers, its begin and its length, as in the columns of a row. */
typedef struct {
    size_t rows[ROWS * PB_ROW_WIDTH], used;
} tree;

/* The bytes of an item of a vector, and the bits of a word: in the middle bytes of a long form, and in all. */
enum { INT_BYTES = 4, DOUBLE_BYTES = 8, BYTE_BITS = 7, WORD_BITS = 29 };

/* ---- trees */

/* The store of all trees: spans of it overlap, and some of its texts stand there twice. */
static const uint8_t pool[] = "aab*\xc3\xa9\x61\xe6\xb0\xb4\x62\xf0\x9f\x8c\xb2 0123456789012345678901234567890123456789012345678901234567890123";

/* Texts in it, begin and length. The first is no class of a vector; the last is no key but of a sealed member, and no class of an
 * object. */
static const size_t texts[][2] = {{3, 1}, {0, 1}, {1, 1}, {0, 2}, {1, 2}, {4, 2}, {6, 1}, {6, 4}, {4, 6}, {11, 4}, {16, 64}, {0, 0}};

/* Bytes, or the items of vectors. */
static const size_t raw[][2] = {{0, 0}, {0, 8}, {1, 8}, {0, 16}, {1, 16}, {3, 24}};

enum { STAR = 0, TEXTS = sizeof texts / sizeof *texts, NONEMPTY = TEXTS - 1 };

static const int64_t integers[] = {0, 1, -1, 0x7f, 0x80, 0x3fff, 0x4000, 0x1fffff, 0x200000, 0xfffffff, -0x10000000};
static const uint64_t doubles[] = {0, 1, 0x8000000000000000, 0x3ff0000000000000, 0x7ff0000000000000, 0x7ff8000000000000, 0x7ff8000000000001};

/* The bits of dates. With both signs: zero, the smallest, one and a half, a day of 2023 (so one of 1916), 2^63, the largest. And 2^53 + 2. */
static const uint64_t dates[] = {0x0000000000000000, 0x8000000000000000, 0x0000000000000001, 0x8000000000000001, 0x3ff8000000000000,
                                 0xbff8000000000000, 0x4278bcfe56800000, 0xc278bcfe56800000, 0x4340000000000001, 0x43e0000000000000,
                                 0xc3e0000000000000, 0x7fefffffffffffff, 0xffefffffffffffff};

static int same_text(const size_t *a, const size_t *b) { return a[1] == b[1] && !memcmp(pool + a[0], pool + b[0], a[1]); }

/* The row behind a value and all that is in it. */
static const size_t *behind(const tree *t, const size_t *row) { return t->rows + row[PB_END] * PB_ROW_WIDTH; }

/* Whether two values are equal with all that is in them. The keys that they stand at themselves don't count. */
static int same_value(const tree *t, const size_t *a, const tree *u, const size_t *b) {
    static const int columns[] = {PB_KIND, PB_CLASS_MARK, PB_FLAG, PB_NUMBER, PB_COUNT, PB_COUNT_2};
    const size_t *first = a, *last = behind(t, a);
    int same = behind(u, b) - b == last - a;
    for (; same && a < last; a += PB_ROW_WIDTH, b += PB_ROW_WIDTH) {
        for (size_t i = 0; i < sizeof columns / sizeof *columns; i++) same &= a[columns[i]] == b[columns[i]];
        if (a != first) same &= a[PB_KEY_MARK] == b[PB_KEY_MARK] && same_text(a + PB_KEY_BEGIN, b + PB_KEY_BEGIN);
        same &= same_text(a + PB_BODY_BEGIN, b + PB_BODY_BEGIN);
    }
    return same;
}

/* ---- trees made by draws, the same in every run */

/* The depth below the root, how many rows are enough for a value to have no more entries, and the seeds of values beside each other: few, so that some are
 * equal. */
enum { DEEPEST = 3, ENOUGH = 24, SEEDS = 3 };

static const size_t nested[] = {PB_ARRAY, PB_OBJECT, PB_OBJECT_VECTOR, PB_DICTIONARY};
static uint64_t seed;
static size_t drawn, other_draw;

/* A number below a limit. One draw can be another than its seed gives. */
static size_t draw(size_t below) { return (next_draw(&seed) % below + (++drawn == other_draw)) % below; }

#define ONE_OF(list) ((list)[draw(sizeof(list) / sizeof *(list))])

static void set_span(size_t *at, const size_t *span) { memcpy(at, span, 2 * sizeof *at); }

static void grow(tree *t, size_t kind, size_t depth);

/* Entries of so many values each; the values have one of so many texts as their keys. Gives how many entries. */
static size_t grow_values(tree *t, size_t each, size_t keys, size_t depth) {
    static const size_t few[] = {0, 1, 1, 2, 2, 3}, at_root[] = {0, 1, 2, 3, 8};
    size_t n = depth == 0 || t->used > ENOUGH ? 0 : depth < DEEPEST ? ONE_OF(few) : ONE_OF(at_root);
    uint64_t first = seed;
    for (size_t i = 0; i < n * each; i++) {
        size_t *row = t->rows + t->used * PB_ROW_WIDTH;
        row[PB_KEY_MARK] = keys > 0;
        if (keys > 0) set_span(row + PB_KEY_BEGIN, texts[draw(keys)]);
        uint64_t own = first + draw(SEEDS), ours = seed;
        seed = own;
        grow(t, draw(3) ? PB_UNDEFINED + draw(PB_DICTIONARY) : ONE_OF(nested), depth - 1);
        seed = ours;
    }
    return n;
}

static void grow(tree *t, size_t kind, size_t depth) {
    size_t *row = t->rows + t->used++ * PB_ROW_WIDTH;
    row[PB_KIND] = kind;
    row[PB_FLAG] = kind >= PB_INT_VECTOR && draw(2);
    row[PB_CLASS_MARK] = (kind == PB_OBJECT || kind == PB_OBJECT_VECTOR) && draw(2);
    if (row[PB_CLASS_MARK]) set_span(row + PB_BODY_BEGIN, texts[draw(NONEMPTY) + (kind == PB_OBJECT_VECTOR)]);
    if (kind == PB_BOOLEAN) row[PB_NUMBER] = draw(2);
    if (kind == PB_INTEGER) row[PB_NUMBER] = (size_t)ONE_OF(integers);
    if (kind == PB_DOUBLE) row[PB_NUMBER] = ONE_OF(doubles);
    if (kind == PB_DATE) row[PB_NUMBER] = ONE_OF(dates);
    if (kind == PB_STRING || kind == PB_XML_DOCUMENT || kind == PB_XML) set_span(row + PB_BODY_BEGIN, ONE_OF(texts));
    if (PB_BYTE_ARRAY <= kind && kind <= PB_DOUBLE_VECTOR) set_span(row + PB_BODY_BEGIN, ONE_OF(raw));
    if (kind == PB_INT_VECTOR || kind == PB_UINT_VECTOR) row[PB_COUNT] = row[PB_BODY_LENGTH] / INT_BYTES;
    if (kind == PB_DOUBLE_VECTOR) row[PB_COUNT] = row[PB_BODY_LENGTH] / DOUBLE_BYTES;
    if (kind == PB_ARRAY) row[PB_COUNT] = grow_values(t, 1, NONEMPTY, depth), row[PB_COUNT_2] = grow_values(t, 1, 0, depth);
    if (kind == PB_OBJECT) row[PB_COUNT] = grow_values(t, 1, TEXTS, depth), row[PB_COUNT_2] = grow_values(t, 1, NONEMPTY, depth);
    if (kind == PB_OBJECT_VECTOR) row[PB_COUNT] = grow_values(t, 1, 0, depth);
    if (kind == PB_DICTIONARY) row[PB_COUNT] = grow_values(t, 2, 0, depth);
    row[PB_END] = t->used;
}

/* ---- messages: plain, which is the order, or loose, with references, long words, and all objects dynamic */

/* The message in the making: of which tree, its tables of texts and of rows, its bytes, and the rows and store bytes of its reading. */
static struct {
    const tree *of;
    int loose;
    struct table {
        const size_t *entry[2 * ROWS];
        size_t used;
    } strings, objects, traits;
    uint8_t bytes[LONGEST];
    size_t length, rows, stored;
} message;

#define NONE ((size_t)-1)

/* The number of an equal entry, if the message may refer to it. Else there is a new entry, and this is NONE. */
static size_t entry_of(struct table *in, int (*same)(const size_t *, const size_t *), const size_t *entry) {
    for (size_t i = 0; message.loose && i < in->used; i++)
        if (same(in->entry[i], entry)) return i;
    in->entry[in->used++] = entry;
    return NONE;
}

static void put(size_t byte) { message.bytes[message.length++] = (uint8_t)byte; }

/* A U29, in its shortest form or in four bytes, of which the last has eight bits. */
static void put_word(size_t n) {
    int four = n >= 1 << 3 * BYTE_BITS || message.loose;
    if (four) put(0x80 | n >> 22), put(0x80 | n >> 15), put(0x80 | n >> 8);
    if (!four && n >= 1 << 2 * BYTE_BITS) put(0x80 | n >> 2 * BYTE_BITS);
    if (!four && n >= 1 << BYTE_BITS) put(0x80 | n >> BYTE_BITS);
    put(four ? n : n & 0x7f);
}

static void put_size(size_t n) { put_word(n << 1 | 1); }

static void put_bytes(const size_t *span) {
    for (size_t i = 0; i < span[1]; i++) put(pool[span[0] + i]);
    message.stored += span[1];
}

static void put_text(const size_t *text) {
    size_t i = text[1] > 0 ? entry_of(&message.strings, same_text, text) : NONE;
    put_word(i == NONE ? text[1] << 1 | 1 : i << 1);
    if (i == NONE) put_bytes(text);
}

/* Whether two objects have the same class and the same sealed names. */
static int same_trait(const size_t *a, const size_t *b) {
    size_t names = a[PB_COUNT];
    int same = names == b[PB_COUNT] && same_text(a + PB_BODY_BEGIN, b + PB_BODY_BEGIN);
    a += PB_ROW_WIDTH, b += PB_ROW_WIDTH;
    for (; same && names > 0; names--, a = behind(message.of, a), b = behind(message.of, b)) same = same_text(a + PB_KEY_BEGIN, b + PB_KEY_BEGIN);
    return same;
}

/* A trait's word: names, dynamic, not externalizable, not by reference, twice. */
static void put_trait(const size_t *object) {
    size_t i = entry_of(&message.traits, same_trait, object), names = object[PB_COUNT], dynamic = message.loose || object[PB_COUNT_2] > 0;
    put_word(i == NONE ? names << 4 | dynamic << 3 | 3 : i << 2 | 1);
    if (i != NONE) return;
    put_text(object + PB_BODY_BEGIN);
    for (const size_t *at = object + PB_ROW_WIDTH; names > 0; names--, at = behind(message.of, at)) put_text(at + PB_KEY_BEGIN);
}

/* Whether an object has ended before another begins, and is the same. */
static int same_object(const size_t *a, const size_t *b) { return behind(message.of, a) <= b && same_value(message.of, a, message.of, b); }

static void put_value(const size_t *row);

/* So many values from a row on; gives the row behind them. Pairs have their keys, and an empty one at the end. */
static const size_t *put_values(const size_t *row, size_t n, int pairs) {
    for (; n > 0; n--, row = behind(message.of, row)) {
        if (pairs) put_text(row + PB_KEY_BEGIN);
        put_value(row);
    }
    if (pairs) put_size(0);
    return row;
}

/* Up to false a marker is one less than its kind. Kinds behind strings are objects, and those behind byte arrays have a flag. */
static void put_value(const size_t *row) {
    const size_t *body = row + PB_BODY_BEGIN, *inner = row + PB_ROW_WIDTH, kind = row[PB_KIND], n = row[PB_COUNT], n_2 = row[PB_COUNT_2];
    size_t i = kind > PB_STRING ? entry_of(&message.objects, same_object, row) : NONE;
    message.rows++;
    put(kind <= PB_BOOLEAN ? kind - 1 + row[PB_NUMBER] : kind);
    if (i != NONE) put_word(i << 1);
    if (i != NONE) return;
    if (kind == PB_INTEGER) put_word(row[PB_NUMBER] & (((size_t)1 << WORD_BITS) - 1));
    if (kind == PB_DATE) put_size(0);
    for (int shift = 64; (kind == PB_DATE || kind == PB_DOUBLE) && shift > 0; shift -= 8) put(row[PB_NUMBER] >> (shift - 8));
    if (kind == PB_STRING) put_text(body);
    if (kind == PB_XML_DOCUMENT || kind == PB_XML || kind == PB_BYTE_ARRAY) put_size(body[1]), put_bytes(body);
    if (kind == PB_ARRAY) put_size(n_2), put_values(put_values(inner, n, 1), n_2, 0);
    if (kind == PB_OBJECT) put_trait(row), inner = put_values(inner, n, 0);
    if (kind == PB_OBJECT && (message.loose || n_2 > 0)) put_values(inner, n_2, 1);
    if (kind > PB_BYTE_ARRAY) put_size(n), put(row[PB_FLAG]);
    if (kind == PB_INT_VECTOR || kind == PB_UINT_VECTOR || kind == PB_DOUBLE_VECTOR) put_bytes(body);
    if (kind == PB_OBJECT_VECTOR) put_text(row[PB_CLASS_MARK] ? body : texts[STAR]), put_values(inner, n, 0);
    if (kind == PB_DICTIONARY) put_values(inner, 2 * n, 0);
}

/* Makes a message of a tree, and gives what reading it answers. */
static pb_answer compose(const tree *t, int loose) {
    memset(&message, 0, sizeof message);
    memset(message.bytes, FILLING, LONGEST);
    message.of = t;
    message.loose = loose;
    put_value(t->rows);
    return finished(message.rows, message.stored, message.length);
}

#endif
