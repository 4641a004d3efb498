/* Pinebuckle: a reader and writer of AMF 3 whose calls are proved to meet their contracts. Link libpinebuckle.a.
 *
 * Numbers are 64 bits. A slice is a pointer and a count of elements; a pointer is never null, also where the count is 0, and the slices of one call don't
 * overlap. No call keeps a pointer, allocates, or fails in any other way than by its answer. */
#ifndef PINEBUCKLE_H
#define PINEBUCKLE_H

#include <stddef.h>
#include <stdint.h>

#ifdef __cplusplus
extern "C" {
#endif

/* A state of the feed is so many numbers. Any content is a state; all zero is one that was never begun. */
#define PB_STATE_WORDS 416

/* Loans: the memory lent to a reading, with the numbers of one entry and the most entries. */
enum {
    PB_ROW_WIDTH = 12, PB_ROWS_MOST = 16384,
    PB_STORE_MOST = 65536,
    PB_STRING_WIDTH = 2, PB_STRINGS_MOST = 4096,
    PB_OBJECTS_MOST = 4096,
    PB_TRAIT_WIDTH = 5, PB_TRAITS_MOST = 256,
    PB_NAME_WIDTH = 2, PB_NAMES_MOST = 4096,
    PB_MESSAGE_MOST = 262144
};

/* The columns of a row. A column with no meaning is 0, and an empty span is (0, 0). */
enum {
    PB_KIND = 0,
    PB_KEY_MARK = 1, PB_KEY_BEGIN = 2, PB_KEY_LENGTH = 3,
    PB_BODY_BEGIN = 4, PB_BODY_LENGTH = 5, /* text, bytes, raw vector bytes, or the class */
    PB_CLASS_MARK = 6,
    PB_FLAG = 7,     /* fixed, weak */
    PB_NUMBER = 8,   /* boolean, integer in two's complement, a double's 64 bits, a date's too, target row */
    PB_COUNT = 9,    /* associative, sealed, entries */
    PB_COUNT_2 = 10, /* dense, dynamic */
    PB_END = 11      /* the row after the last descendant, 0 while open */
};

/* The kinds of rows. */
enum {
    PB_UNDEFINED = 1, PB_NULL = 2, PB_BOOLEAN = 3, PB_INTEGER = 4, PB_DOUBLE = 5, PB_STRING = 6, PB_XML_DOCUMENT = 7, PB_DATE = 8, PB_ARRAY = 9,
    PB_OBJECT = 10, PB_XML = 11, PB_BYTE_ARRAY = 12, PB_INT_VECTOR = 13, PB_UINT_VECTOR = 14, PB_DOUBLE_VECTOR = 15, PB_OBJECT_VECTOR = 16,
    PB_DICTIONARY = 17, PB_REFERENCE = 18
};

/* Refusals, and what is told with them. */
enum {
    PB_BAD_LOAN = 1,       /* a loan over its maximum or not whole entries; the loan */
    PB_UNEXPECTED_END = 2, /* the bytes end before the value */
    PB_BAD_MARKER = 3,     /* the marker */
    PB_NO_ENTRY = 4,       /* a reference past its table; the index */
    PB_OPEN_OBJECT = 5,    /* a reference to an object still open; the index */
    PB_EXTERNALIZABLE = 6,
    PB_BAD_DATE = 7,       /* a date that is NaN or infinite; the 64 bits */
    PB_BAD_TEXT = 8,
    PB_TOO_DEEP = 9,
    PB_NO_ROOM = 10,       /* the loan; 7 is the output */
    PB_TOO_LONG = 11,
    PB_LOST = 12,          /* the state doesn't hold together */
    PB_MALFORMED = 13,     /* the row */
    PB_UNWRITABLE = 14     /* the row: no message can say it, such as a date that is NaN or infinite */
};

/* What an answer says. */
enum { PB_WAITING = 0, PB_FINISHED = 1, PB_REFUSED = 2 };

/* An answer; fields without meaning are 0. */
typedef struct {
    size_t kind;  /* waiting, finished or refused */
    size_t no;    /* the refusal */
    size_t told;  /* what it tells */
    size_t place; /* bytes taken up to and with the deciding one */
    size_t rows;  /* finished: rows used */
    size_t bytes; /* finished: store bytes used; of a writing, bytes written */
    size_t taken; /* bytes taken, from this piece in a feed */
} pb_answer;

/* A part of the store; found is 0 where there is none. */
typedef struct {
    size_t found, begin, length;
} pb_span;

/* A date's milliseconds; found is 0 where there is none. */
typedef struct {
    size_t found;
    int64_t millis;
} pb_moment;

#define PB_LOANS                                                                                                                                              \
    size_t *rows, size_t rows_len, uint8_t *store, size_t store_len, size_t *strings, size_t strings_len, size_t *objects, size_t objects_len,                \
        size_t *traits, size_t traits_len, size_t *names, size_t names_len

/* Begins a reading: sets every number of the state, and all loans to zero. Waiting, or refused with 1, which leaves the loans as they are. */
pb_answer pb_begin(size_t *state, PB_LOANS);

/* Takes the bytes of a piece, in the loans of the beginning. While it waits the loans hold what the bytes so far give. A finished or refused state takes
 * nothing, touches no loan and repeats its answer; one that says what no reading can say is as one that was never begun, 12. A refusal that is new sets
 * all loans to zero. */
pb_answer pb_feed(size_t *state, PB_LOANS, const uint8_t *piece, size_t piece_len);

/* Declares the end: while waiting this is refusal 2. */
pb_answer pb_end(size_t *state, PB_LOANS);

/* Reads a whole message. */
pb_answer pb_read(PB_LOANS, const uint8_t *message, size_t message_len);

/* Writes the tree of row 0, unfolded. `rows` are the used ones, exactly. A refused writing changes no byte of the output, an accepted one only those it
 * reports. */
pb_answer pb_write(const size_t *rows, size_t rows_len, const uint8_t *store, size_t store_len, uint8_t *out, size_t out_len);

/* Where the text of a row stands in the store. */
pb_span pb_text(const size_t *rows, size_t rows_len, const uint8_t *store, size_t store_len, size_t row);

/* The milliseconds of a date, from 1970 on, before it negative: cut towards zero, and INT64_MAX or INT64_MIN where they are more or less than that. The row is a
 * date or refers to one. None (found 0) where the row, or the row that it refers to, isn't there or isn't a date, also where that one is a reference itself; where
 * the date is NaN or infinite; and where pb_write would refuse the rows or the store with 1. A date's row shows 0 until its last byte is read; PB_END is 0 so long. */
pb_moment pb_millis(const size_t *rows, size_t rows_len, const uint8_t *store, size_t store_len, size_t row);

#ifdef __cplusplus
}
#endif

#endif
