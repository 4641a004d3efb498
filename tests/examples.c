/* What the lists of tests/lists can't say of document 01's examples: a message is read, texts are found in what was read, and it is written again, also with
 * a byte too little of output. And what document 01 says of texts: which rows have one, and for which a caller has a default of its own. Run:
 *
 *     tools/library
 *     gcc -std=c99 -Wall -Wextra -Werror -O1 -Iinclude -o target/examples tests/examples.c target/staticlib/libpinebuckle.a && target/examples
 *
 * Every field of every answer, every number and byte lent and the guard behind them is compared. Prints what differs, its numbers in hexadecimal, and last
 * 'N passed, M failed'. The exit status is 1 if a check fails. */
#include "pinebuckle.h"

/* One entry more than rows and store may have. */
enum { MOST_NUMBERS = (PB_ROWS_MOST + 1) * PB_ROW_WIDTH, MOST_BYTES = PB_STORE_MOST + 1 };

#include "lent.h"

enum { STORE = 64, OUTPUT_LOAN = 7 };

static const size_t lent[LOANS] = {80 * PB_ROW_WIDTH, STORE, 80 * PB_STRING_WIDTH, 80, 80 * PB_TRAIT_WIDTH, 80 * PB_NAME_WIDTH};

static loans now, want;

static int span_is(pb_span got, pb_span due) {
    static const char *const names[] = {"found", "begin", "length"};
    const size_t g[] = {got.found, got.begin, got.length}, w[] = {due.found, due.begin, due.length};
    for (size_t i = 0; i < sizeof names / sizeof *names; i++)
        if (g[i] != w[i]) return wrong("the text's %s is %zx, not %zx", names[i], g[i], w[i]);
    return 1;
}

/* The text of a row, where so many numbers of rows and bytes of the store are given. */
static void try_text(size_t rows_len, size_t store_len, size_t row, pb_span span) {
    count(span_is(pb_text(now.numbers[IN_ROWS], rows_len, now.store, store_len, row), span));
}

/* ---- the array of two "a", the second by reference */

static const size_t array_rows[][PB_ROW_WIDTH] = {
    {[PB_KIND] = PB_ARRAY, [PB_COUNT_2] = 2, [PB_END] = 3},
    {[PB_KIND] = PB_STRING, [PB_BODY_LENGTH] = 1, [PB_END] = 2},
    {[PB_KIND] = PB_STRING, [PB_BODY_LENGTH] = 1, [PB_END] = 3},
};

enum { ARRAY_ROWS = sizeof array_rows / sizeof *array_rows, ARRAY_NUMBERS = ARRAY_ROWS * PB_ROW_WIDTH };

static int read_array(void) {
    static const uint8_t message[] = {0x09, 0x05, 0x01, 0x06, 0x03, 'a', 0x06, 0x00};
    fill(&now, lent);
    clear(&want, lent);
    memcpy(want.numbers[IN_ROWS], array_rows, sizeof array_rows);
    want.store[0] = 'a';
    want.numbers[IN_STRINGS][1] = 1;
    return answer_is(pb_read(LEND(&now, lent), message, sizeof message), finished(ARRAY_ROWS, 1, sizeof message)) && loans_are(&now, &want, lent);
}

/* Writes it, without references, into so much room: a refused writing leaves the output as it was. */
static int write_array(size_t room, pb_answer answer) {
    static const uint8_t bytes[] = {0x09, 0x05, 0x01, 0x06, 0x03, 'a', 0x06, 0x03, 'a'};
    uint8_t out[sizeof bytes + GUARD], want_out[sizeof out];
    memset(out, FILLING, sizeof out);
    memset(want_out, FILLING, sizeof want_out);
    memcpy(want_out, bytes, answer.bytes);
    if (!answer_is(pb_write(now.numbers[IN_ROWS], ARRAY_NUMBERS, now.store, STORE, out, room), answer)) return 0;
    return memcmp(out, want_out, sizeof out) ? wrong("other bytes in the output") : loans_are(&now, &want, lent);
}

static void try_array(void) {
    enum { BYTES = 9 };
    about("the array read");
    count(read_array());
    about("the text of the array");
    try_text(ARRAY_NUMBERS, STORE, 0, (pb_span){0, 0, 0});
    for (size_t row = 1; row < ARRAY_ROWS; row++) {
        about("the text of the array's row %zu", row);
        try_text(ARRAY_NUMBERS, STORE, row, (pb_span){1, 0, 1});
    }
    about("the array written");
    count(write_array(BYTES, finished(0, BYTES, 0)));
    about("the array written with a byte too little");
    count(write_array(BYTES - 1, refused(PB_NO_ROOM, OUTPUT_LOAN, BYTES - 1)));
}

/* ---- texts, and rows that have none */

/* Rows that others refer to. */
enum { A_STRING, AN_EMPTY_STRING, PAST_THE_STORE, A_BYTE_ARRAY, A_REFERENCE };

static const struct {
    const char *is;
    size_t kind, begin, length, number;
    pb_span span;
} texts[] = {
    [A_STRING] = {"a string", PB_STRING, 1, 2, 0, {1, 1, 2}},
    [AN_EMPTY_STRING] = {"an empty string", PB_STRING, 0, 0, 0, {1, 0, 0}},
    [PAST_THE_STORE] = {"a string with a byte past the store", PB_STRING, 1, STORE, 0, {0, 0, 0}},
    [A_BYTE_ARRAY] = {"a byte array", PB_BYTE_ARRAY, 1, 2, 0, {0, 0, 0}},
    [A_REFERENCE] = {"a reference to a string", PB_REFERENCE, 0, 0, A_STRING, {1, 1, 2}},
    {"a reference to an empty string", PB_REFERENCE, 0, 0, AN_EMPTY_STRING, {1, 0, 0}},
    {"a reference to a string past the store", PB_REFERENCE, 0, 0, PAST_THE_STORE, {0, 0, 0}},
    {"a reference to a byte array", PB_REFERENCE, 0, 0, A_BYTE_ARRAY, {0, 0, 0}},
    {"a reference to a reference", PB_REFERENCE, 0, 0, A_REFERENCE, {0, 0, 0}},
    {"a reference past the rows", PB_REFERENCE, 0, 0, PB_ROWS_MOST, {0, 0, 0}},
    {"a reference past all numbers", PB_REFERENCE, 0, 0, SIZE_MAX, {0, 0, 0}},
    {"an XML that is all of the store", PB_XML, 0, STORE, 0, {1, 0, STORE}},
    {"an XMLDocument that ends with the store", PB_XML_DOCUMENT, STORE - 1, 1, 0, {1, STORE - 1, 1}},
    {"an empty string at the store's end", PB_STRING, STORE, 0, 0, {1, STORE, 0}},
    {"an empty string past the store", PB_STRING, STORE + 1, 0, 0, {0, 0, 0}},
    {"a string whose length is past all numbers", PB_STRING, 2, SIZE_MAX, 0, {0, 0, 0}},
    {"a string whose begin is past all numbers", PB_STRING, SIZE_MAX, 2, 0, {0, 0, 0}},
};

enum { TEXTS = sizeof texts / sizeof *texts, TEXT_NUMBERS = TEXTS * PB_ROW_WIDTH };

/* A row with a body alone. */
static void set_row(size_t row, size_t kind, size_t begin, size_t length, size_t number) {
    size_t *to = row_of(&now, row);
    to[PB_KIND] = kind;
    to[PB_BODY_BEGIN] = begin;
    to[PB_BODY_LENGTH] = length;
    to[PB_NUMBER] = number;
}

static void try_texts(void) {
    memset(&now, 0, sizeof now);
    for (size_t row = 0; row < TEXTS; row++) set_row(row, texts[row].kind, texts[row].begin, texts[row].length, texts[row].number);
    for (size_t row = 0; row < TEXTS; row++) {
        about("the text of %s", texts[row].is);
        try_text(TEXT_NUMBERS, STORE, row, texts[row].span);
    }
    about("the text of the row past the rows");
    try_text(TEXT_NUMBERS, STORE, TEXTS, (pb_span){0, 0, 0});
    about("the text of the row past all numbers");
    try_text(TEXT_NUMBERS, STORE, SIZE_MAX, (pb_span){0, 0, 0});
    about("the text of a row whose numbers begin past all numbers");
    try_text(TEXT_NUMBERS, STORE, SIZE_MAX / PB_ROW_WIDTH + 1, (pb_span){0, 0, 0});
    about("the text of row 0 where there are no rows");
    try_text(0, STORE, 0, (pb_span){0, 0, 0});
}

/* Each kind, and the numbers beside them that are no kind. */
static void try_kinds(void) {
    for (size_t kind = PB_UNDEFINED - 1; kind <= PB_REFERENCE + 1; kind++) {
        int has = kind == PB_STRING || kind == PB_XML_DOCUMENT || kind == PB_XML;
        set_row(0, kind, 1, 2, 0);
        about("the text of kind %zu", kind);
        try_text(PB_ROW_WIDTH, STORE, 0, has ? (pb_span){1, 1, 2} : (pb_span){0, 0, 0});
    }
}

/* Rows and a store that refusal 1 would refuse have no texts; as many as there may be have. */
static void try_given(void) {
    enum { MOST = PB_ROWS_MOST * PB_ROW_WIDTH };
    static const size_t faulty[][2] = {
        {PB_ROW_WIDTH + 1, STORE}, {2 * PB_ROW_WIDTH - 1, STORE}, {MOST + PB_ROW_WIDTH, STORE}, {PB_ROW_WIDTH, PB_STORE_MOST + 1}};
    set_row(0, PB_STRING, 1, 2, 0);
    for (size_t i = 0; i < sizeof faulty / sizeof *faulty; i++) {
        about("a text in %zu numbers of rows and %zu bytes", faulty[i][0], faulty[i][1]);
        try_text(faulty[i][0], faulty[i][1], 0, (pb_span){0, 0, 0});
    }
    about("a text in as many rows and bytes as there may be");
    try_text(MOST, PB_STORE_MOST, 0, (pb_span){1, 1, 2});
    set_row(PB_ROWS_MOST - 1, PB_STRING, PB_STORE_MOST - 1, 1, 0);
    about("the last text in as many rows and bytes as there may be");
    try_text(MOST, PB_STORE_MOST, PB_ROWS_MOST - 1, (pb_span){1, PB_STORE_MOST - 1, 1});
}

int main(void) {
    try_array();
    try_texts();
    try_kinds();
    try_given();
    return tally();
}
