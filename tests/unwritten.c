/* Goes through the refusals of a writing that the lists of tests/lists don't have, 1, 9 and, of dates, 14, on both sides of each edge. Run:
 *
 *     tools/library
 *     gcc -std=c99 -Wall -Wextra -Werror -O1 -Iinclude -o target/unwritten tests/unwritten.c target/staticlib/libpinebuckle.a && target/unwritten
 *
 * Every field of every answer, every byte of the output and the guard behind it is compared, and all rows and bytes that were given. Prints what differs, its
 * numbers in hexadecimal, and last 'N passed, M failed'. The exit status is 1 if a check fails. */
#include "pinebuckle.h"

/* One entry more than may be given. */
enum { MOST_NUMBERS = (PB_ROWS_MOST + 1) * PB_ROW_WIDTH, MOST_BYTES = PB_STORE_MOST + 1 };

#include "lent.h"

/* The loan that is told of the output, the values that may be open at once, the bytes of an array around its only item, and room for all that is written. */
enum { OUTPUT_LOAN = 7, OPEN_MOST = 64, AROUND = 3, ROOM = 2 * PB_ROWS_MOST };

/* The markers that are used here, the key that ends an array's pairs, and the word of a date. */
enum { NULL_MARKER = 0x01, DATE_MARKER = 0x08, ARRAY_MARKER = 0x09, NO_KEY = 0x01, DATE_WORD = 0x01 };

/* What is given, rows and a store, and the bytes that it is to give. */
static loans tree;
static uint8_t bytes[ROOM];
static size_t length;

static void put(size_t byte) { bytes[length++] = (uint8_t)byte; }

/* Writes the tree: the bytes where it is accepted, no byte else. All that was given stays. */
static int write_right(size_t rows_len, size_t store_len, size_t room, pb_answer answer) {
    static const size_t given[LOANS] = {MOST_NUMBERS, MOST_BYTES};
    static uint8_t out[ROOM + GUARD];
    static loans now;
    memset(out, FILLING, sizeof out);
    copy_loans(&now, &tree, given);
    if (!answer_is(pb_write(now.numbers[IN_ROWS], rows_len, now.store, store_len, out, room), answer)) return 0;
    for (size_t i = 0; i < sizeof out; i++) {
        uint8_t want = i < answer.bytes ? bytes[i] : FILLING;
        if (out[i] != want) return wrong("output[%zu] is %x, not %x", i, out[i], want);
    }
    return loans_are(&now, &tree, given);
}

static void set_row(size_t row, size_t kind, size_t items, size_t end) {
    row_of(&tree, row)[PB_KIND] = kind;
    row_of(&tree, row)[PB_COUNT_2] = items;
    row_of(&tree, row)[PB_END] = end;
}

/* ---- 1: more rows or a larger store than may be, or not whole rows */

/* An array of nulls, in so many rows. */
static void grow_nulls(size_t rows) {
    memset(&tree, 0, sizeof tree);
    set_row(0, PB_ARRAY, rows - 1, rows);
    for (size_t row = 1; row < rows; row++) set_row(row, PB_NULL, 0, row + 1);
}

/* What 1 would refuse in rows comes before what it would refuse in the store, and both before anything else. */
static void try_given(void) {
    enum { WHOLE = 4 * PB_ROW_WIDTH, TOO_MANY = MOST_NUMBERS, TOO_LARGE = MOST_BYTES };
    static const struct {
        size_t rows, store, loan;
    } faulty[] = {
        {1, 0, IN_ROWS},
        {WHOLE - 1, PB_STORE_MOST, IN_ROWS},
        {WHOLE + 1, 0, IN_ROWS},
        {TOO_MANY - PB_ROW_WIDTH + 1, 0, IN_ROWS},
        {TOO_MANY, 0, IN_ROWS},
        {TOO_MANY, TOO_LARGE, IN_ROWS},
        {WHOLE - 1, TOO_LARGE, IN_ROWS},
        {WHOLE, TOO_LARGE, IN_STORE},
        {TOO_MANY - PB_ROW_WIDTH, TOO_LARGE, IN_STORE},
        {0, TOO_LARGE, IN_STORE},
    };
    for (size_t i = 0; i < sizeof faulty / sizeof *faulty; i++) {
        grow_nulls(faulty[i].rows <= WHOLE + 1 ? WHOLE / PB_ROW_WIDTH : faulty[i].rows / PB_ROW_WIDTH);
        about("1, %zu numbers of rows and %zu bytes written", faulty[i].rows, faulty[i].store);
        count(write_right(faulty[i].rows, faulty[i].store, ROOM, refused(PB_BAD_LOAN, faulty[i].loan + 1, 0)));
    }
}

/* As much as may be given is written. */
static void try_most_given(void) {
    enum { NULLS = PB_ROWS_MOST - 1, WORD = NULLS << 1 | 1 };
    grow_nulls(PB_ROWS_MOST);
    length = 0;
    put(ARRAY_MARKER);
    put(0x80 | WORD >> 14);
    put(0x80 | (WORD >> 7 & 0x7f));
    put(WORD & 0x7f);
    put(NO_KEY);
    for (size_t i = 0; i < NULLS; i++) put(NULL_MARKER);
    about("1, as much written as may be");
    count(write_right(PB_ROWS_MOST * PB_ROW_WIDTH, PB_STORE_MOST, ROOM, finished(0, length, 0)));
}

/* ---- 9: a value with 64 open around it */

/* Arrays in each other, so many, and their bytes. */
static void nest(size_t rows) {
    memset(&tree, 0, sizeof tree);
    length = 0;
    for (size_t row = 0; row < rows; row++) {
        size_t items = row + 1 < rows;
        set_row(row, PB_ARRAY, items, rows);
        put(ARRAY_MARKER);
        put(items << 1 | 1);
        put(NO_KEY);
    }
}

/* An array of two nests: the innermost array of the second has a reference to the first. No row has 64 around it, but what they unfold to has. */
static void nest_by_reference(size_t first, size_t second) {
    size_t rows = 1 + first + second + 1;
    memset(&tree, 0, sizeof tree);
    set_row(0, PB_ARRAY, 2, rows);
    for (size_t row = 1; row <= first; row++) set_row(row, PB_ARRAY, row < first, 1 + first);
    for (size_t row = 1 + first; row < rows - 1; row++) set_row(row, PB_ARRAY, 1, rows);
    set_row(rows - 1, PB_REFERENCE, 0, rows);
    row_of(&tree, rows - 1)[PB_NUMBER] = 1;
}

/* As deep as may be, and one deeper: 9 tells the bytes before the array that is too deep, and 10 comes first where there is no room for them. */
static void try_nests(void) {
    size_t place = OPEN_MOST * AROUND, rows = (OPEN_MOST + 1) * PB_ROW_WIDTH;
    nest(OPEN_MOST);
    about("9, %d arrays in each other written", OPEN_MOST);
    count(write_right(OPEN_MOST * PB_ROW_WIDTH, 0, place, finished(0, place, 0)));
    nest(OPEN_MOST + 1);
    about("9, one more");
    count(write_right(rows, 0, ROOM, refused(PB_TOO_DEEP, 0, place)));
    about("9, one more, with room just for those around it");
    count(write_right(rows, 0, place, refused(PB_TOO_DEEP, 0, place)));
    about("9, one more, with a byte less of room");
    count(write_right(rows, 0, place - 1, refused(PB_NO_ROOM, OUTPUT_LOAN, place - 1)));
}

static void try_reference(void) {
    enum { FIRST = 50, SECOND = 20, ROWS = 1 + FIRST + SECOND + 1, UNFOLDED = OPEN_MOST - 1 - SECOND };
    nest_by_reference(FIRST, SECOND);
    about("9, by a reference");
    count(write_right(ROWS * PB_ROW_WIDTH, 0, ROOM, refused(PB_TOO_DEEP, 0, (1 + FIRST + SECOND + UNFOLDED) * AROUND)));
}

/* ---- 14: a date that isn't finite */

/* The bits of dates that are written, and of those that aren't, up to each other. Among the first is 2^53 + 1, a number near 0 by its bits. */
static const uint64_t finite[] = {0x0000000000000000, 0x8000000000000000, 0x0000000000000001, 0x8000000000000001, 0x0020000000000001,
                                  0x433fffffffffffff, 0x4340000000000000, 0x4340000000000001, 0x7fefffffffffffff, 0xffefffffffffffff};
static const uint64_t not_finite[] = {0x7ff0000000000000, 0x7ff0000000000001, 0x7ff8000000000000, 0x7fffffffffffffff,
                                      0xfff0000000000000, 0xfff0000000000001, 0xfff8000000000000, 0xffffffffffffffff};

/* The rows of an array of two dates. */
enum { FIRST_DATE = 1, SECOND_DATE, DATE_ROWS };

static void set_date(size_t row, uint64_t bits) {
    set_row(row, PB_DATE, 0, row + 1);
    row_of(&tree, row)[PB_NUMBER] = bits;
    put(DATE_MARKER);
    put(DATE_WORD);
    for (int shift = 56; shift >= 0; shift -= 8) put(bits >> shift);
}

/* The array, and its bytes. */
static void grow_dates(uint64_t first, uint64_t second) {
    enum { ITEMS = DATE_ROWS - FIRST_DATE };
    memset(&tree, 0, sizeof tree);
    length = 0;
    set_row(0, PB_ARRAY, ITEMS, DATE_ROWS);
    put(ARRAY_MARKER);
    put(ITEMS << 1 | 1);
    put(NO_KEY);
    set_date(FIRST_DATE, first);
    set_date(SECOND_DATE, second);
}

static int dates_unwritten(size_t room, size_t row) { return write_right(DATE_ROWS * PB_ROW_WIDTH, 0, room, refused(PB_UNWRITABLE, row, 0)); }

static void try_finite(uint64_t bits) {
    grow_dates(bits, 0);
    about("14, a date %016zx written", (size_t)bits);
    count(write_right(DATE_ROWS * PB_ROW_WIDTH, 0, ROOM, finished(0, length, 0)));
    about("14, a date %016zx with a byte less of room", (size_t)bits);
    count(write_right(DATE_ROWS * PB_ROW_WIDTH, 0, length - 1, refused(PB_NO_ROOM, OUTPUT_LOAN, length - 1)));
}

/* The first such row is told, whatever the room. What 13 finds in the same row comes before it, and what it finds in a later one behind it. */
static void try_not_finite(uint64_t bits) {
    grow_dates(0, bits);
    about("14, a date %016zx behind another", (size_t)bits);
    count(dates_unwritten(ROOM, SECOND_DATE) && dates_unwritten(0, SECOND_DATE));
    grow_dates(bits, bits);
    about("14, a date %016zx twice", (size_t)bits);
    count(dates_unwritten(ROOM, FIRST_DATE));
    row_of(&tree, SECOND_DATE)[PB_KIND] = 0;
    about("14, a date %016zx before a row of no kind", (size_t)bits);
    count(dates_unwritten(ROOM, FIRST_DATE));
    row_of(&tree, FIRST_DATE)[PB_KEY_MARK] = 1;
    about("13, a date %016zx with a key", (size_t)bits);
    count(write_right(DATE_ROWS * PB_ROW_WIDTH, 0, ROOM, refused(PB_MALFORMED, FIRST_DATE, 0)));
}

static void try_dates(void) {
    for (size_t i = 0; i < sizeof finite / sizeof *finite; i++) try_finite(finite[i]);
    for (size_t i = 0; i < sizeof not_finite / sizeof *not_finite; i++) try_not_finite(not_finite[i]);
}

int main(void) {
    try_given();
    try_most_given();
    try_nests();
    try_reference();
    try_dates();
    return tally();
}
