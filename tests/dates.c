/* Reads, asks and writes dates, held to IEEE 754 in two ways: by the fields of the 64 bits, and by C's own conversion of a double where that is defined. A finite
 * date is read as its bits, whatever its sign, and written as them; asked for its milliseconds it is cut towards zero and held at the ends of int64_t. What isn't
 * finite is 7 when read, 14 when written, and has no milliseconds. Run:
 *
 *     tools/library
 *     gcc -std=c99 -Wall -Wextra -Werror -O1 -Iinclude -o target/dates tests/dates.c target/staticlib/libpinebuckle.a && target/dates
 *
 * It tries each exponent with both signs: fractions that are zero, have the last bit or all bits, and drawn ones; where the whole part is neither 0 nor held also
 * those that have one bit, or all bits below one, and more drawn ones. Each is read whole and fed by single bytes, asked and written. Then it asks rows that are
 * references, of other kinds, or in loans that 1 would refuse, and all rows of an array of dates and references to them, after each byte. The answer, every number
 * lent, every byte that is written and the guards are compared. Prints what differs, its numbers in hexadecimal, and last 'N passed, M failed', where all bits of
 * one exponent count one. The exit status is 1 if a check fails. */
#include "pinebuckle.h"

/* One entry more than rows and store may have. */
enum { MOST_NUMBERS = (PB_ROWS_MOST + 1) * PB_ROW_WIDTH, MOST_BYTES = PB_STORE_MOST + 1 };

#include "lent.h"

/* A date's bytes: its marker, the word of one that is no reference, and eight of its bits. */
enum { MARKER = 0x08, LITERAL = 0x01, BEFORE = 2, LENGTH = BEFORE + 8 };

/* The fields of a double's bits, and the exponent of what isn't finite. */
enum { FRACTION_BITS = 52, EXPONENTS = 1 << 11, NOT_FINITE = EXPONENTS - 1 };

/* The exponent with which a double is from 1 to 2, that with which the last bit of its fraction is 1, and the first of those that are held. */
enum { ONE = 1023, LAST_BIT_ONE = ONE + FRACTION_BITS, HELD = ONE + 63 };

/* How many fractions are drawn for an exponent, and how many where the whole part is neither 0 nor held. */
enum { FEW = 16, MANY = 2000 };

#define BIT(n) ((uint64_t)1 << (n))
#define SIGN BIT(63)

/* Loans with just the room for a date alone. */
static const size_t lent[LOANS] = {[IN_ROWS] = PB_ROW_WIDTH, [IN_OBJECTS] = 1};

static const pb_moment none = {0, 0}, at_zero = {1, 0};

static loans now, want, made, open;
static moment fed;
static uint8_t message[LENGTH];

/* ---- milliseconds */

static pb_moment at(int64_t millis) { return (pb_moment){1, millis}; }

/* The fraction, with the bit before it, is halved or doubled as often as the exponent says. Without that bit, at exponent 0, all of it is cut. */
static pb_moment by_fields(uint64_t bits) {
    uint64_t size = bits & (BIT(FRACTION_BITS) - 1);
    size_t exponent = bits >> FRACTION_BITS & (EXPONENTS - 1);
    if (exponent == NOT_FINITE) return none;
    if (exponent > 0) size |= BIT(FRACTION_BITS);
    for (; exponent < LAST_BIT_ONE && size > 0; exponent++) size /= 2;
    for (; exponent > LAST_BIT_ONE && size < BIT(63); exponent--) size *= 2;
    if (size >= BIT(63)) return at(bits & SIGN ? INT64_MIN : INT64_MAX);
    return at(bits & SIGN ? -(int64_t)size : (int64_t)size);
}

/* Only what is finite is 0 less itself. A conversion cuts towards zero, and is defined where what is left fits. */
static pb_moment by_conversion(uint64_t bits) {
    static const double end = 9223372036854775808.0;
    double x;
    memcpy(&x, &bits, sizeof x);
    if (x - x != 0) return none;
    if (x >= end) return at(INT64_MAX);
    return at(x < -end ? INT64_MIN : (int64_t)x);
}

/* ---- a date alone */

static void put_bits(uint8_t *to, uint64_t bits) {
    for (int shift = 56; shift >= 0; shift -= 8) *to++ = (uint8_t)(bits >> shift);
}

/* The row of a date, alone. */
static void set_date(loans *l, uint64_t bits, size_t end) {
    clear(l, lent);
    row_of(l, 0)[PB_KIND] = PB_DATE;
    row_of(l, 0)[PB_NUMBER] = bits;
    row_of(l, 0)[PB_END] = end;
}

static int asked(const loans *l, pb_moment due) { return millis_are(pb_millis(l->numbers[IN_ROWS], PB_ROW_WIDTH, l->store, 0, 0), due); }

/* The made row is written as the message, or not at all. */
static int written(pb_answer answer) {
    uint8_t out[LENGTH + GUARD], due[LENGTH + GUARD];
    memset(out, FILLING, sizeof out);
    memset(due, FILLING, sizeof due);
    memcpy(due, message, answer.bytes);
    return answer_is(pb_write(made.numbers[IN_ROWS], PB_ROW_WIDTH, made.store, 0, out, LENGTH), answer) &&
           (!memcmp(out, due, sizeof out) || wrong("other bytes are written"));
}

static int read_whole(pb_answer answer) {
    fill(&now, lent);
    return answer_is(pb_read(LEND(&now, lent), message, LENGTH), answer) && loans_are(&now, &want, lent);
}

static int fed_byte(size_t i, pb_answer answer) { return answer_is(pb_feed(fed.state, LEND(&fed.loans, lent), message + i, 1), with_taken(answer, 1)); }

/* The row's number is 0, and so are its milliseconds, until the last byte is there. */
static int fed_by_bytes(pb_answer answer) {
    fill(&fed.loans, lent);
    if (!answer_is(pb_begin(fed.state, LEND(&fed.loans, lent)), waiting(0))) return 0;
    for (size_t i = 0; i + 1 < LENGTH; i++)
        if (!fed_byte(i, waiting(1)) || !loans_are(&fed.loans, &open, lent) || !asked(&fed.loans, at_zero)) return 0;
    return fed_byte(LENGTH - 1, answer) && loans_are(&fed.loans, &want, lent);
}

static int bits_right(uint64_t bits) {
    pb_moment due = by_fields(bits);
    about("date %016zx", (size_t)bits);
    put_bits(message + BEFORE, bits);
    set_date(&made, bits, 1);
    clear(&want, lent);
    if (due.found) copy_loans(&want, &made, lent);
    pb_answer answer = due.found ? finished(1, 0, LENGTH) : refused(PB_BAD_DATE, bits, LENGTH);
    return millis_are(by_conversion(bits), due) && asked(&made, due) && written(due.found ? finished(0, LENGTH, 0) : refused(PB_UNWRITABLE, 0, 0)) &&
           read_whole(answer) && (!due.found || asked(&now, due)) && fed_by_bytes(answer);
}

/* ---- all exponents */

static int fraction_right(size_t exponent, uint64_t fraction) {
    uint64_t size = (uint64_t)exponent << FRACTION_BITS | fraction;
    return bits_right(size) && bits_right(size | SIGN);
}

static int single_bits_right(size_t exponent) {
    for (int bit = 1; bit < FRACTION_BITS; bit++)
        if (!fraction_right(exponent, BIT(bit)) || !fraction_right(exponent, BIT(bit) - 1)) return 0;
    return 1;
}

static int exponent_right(size_t exponent) {
    static uint64_t seed;
    int near = ONE - 1 <= exponent && exponent <= HELD;
    if (!fraction_right(exponent, 0) || !fraction_right(exponent, 1) || !fraction_right(exponent, BIT(FRACTION_BITS) - 1)) return 0;
    if (near && !single_bits_right(exponent)) return 0;
    for (size_t i = 0; i < (near ? MANY : FEW); i++)
        if (!fraction_right(exponent, next_draw(&seed) >> (64 - FRACTION_BITS))) return 0;
    return 1;
}

static void try_exponents(void) {
    message[0] = MARKER;
    message[1] = LITERAL;
    set_date(&open, 0, 0);
    for (size_t exponent = 0; exponent < EXPONENTS; exponent++) count(exponent_right(exponent));
}

/* ---- rows that are asked */

#define MINUS_ONE_AND_A_HALF 0xbff8000000000000
#define INFINITE 0x7ff0000000000000

/* Rows that others refer to, and one that refers to itself. */
enum { A_DATE, AN_INFINITY, A_DOUBLE, A_REFERENCE, ITSELF, AN_OPEN_DATE = 13, ASKED };

static const struct {
    const char *is;
    size_t kind, number;
    pb_moment moment;
} rows[ASKED] = {
    [A_DATE] = {"a date", PB_DATE, MINUS_ONE_AND_A_HALF, {1, -1}},
    [AN_INFINITY] = {"an infinity", PB_DATE, INFINITE, {0, 0}},
    [A_DOUBLE] = {"a double", PB_DOUBLE, MINUS_ONE_AND_A_HALF, {0, 0}},
    [A_REFERENCE] = {"a reference to a date", PB_REFERENCE, A_DATE, {1, -1}},
    [ITSELF] = {"a reference to itself", PB_REFERENCE, ITSELF, {0, 0}},
    {"a reference to an infinity", PB_REFERENCE, AN_INFINITY, {0, 0}},
    {"a reference to a double", PB_REFERENCE, A_DOUBLE, {0, 0}},
    {"a reference to a reference", PB_REFERENCE, A_REFERENCE, {0, 0}},
    {"a reference to an open date behind it", PB_REFERENCE, AN_OPEN_DATE, {1, -1}},
    {"a reference to the row past the rows", PB_REFERENCE, ASKED, {0, 0}},
    {"a reference past all rows", PB_REFERENCE, PB_ROWS_MOST, {0, 0}},
    {"a reference past all numbers", PB_REFERENCE, SIZE_MAX, {0, 0}},
    {"a reference to a row whose numbers begin past all numbers", PB_REFERENCE, SIZE_MAX / PB_ROW_WIDTH + 1, {0, 0}},
    [AN_OPEN_DATE] = {"an open date", PB_DATE, MINUS_ONE_AND_A_HALF, {1, -1}},
};

/* Sets a row: only its kind and its number count, and all else of it is the filling. */
static void set_row(size_t row, size_t kind, size_t number) {
    memset(row_of(&made, row), FILLING, PB_ROW_WIDTH * sizeof(size_t));
    row_of(&made, row)[PB_KIND] = kind;
    row_of(&made, row)[PB_NUMBER] = number;
}

/* A row of the made ones, where so many numbers of rows and bytes of the store are given. */
static void try_asking(size_t rows_len, size_t store_len, size_t row, pb_moment due) {
    count(millis_are(pb_millis(made.numbers[IN_ROWS], rows_len, made.store, store_len, row), due));
}

static void try_rows(void) {
    enum { NUMBERS = ASKED * PB_ROW_WIDTH };
    for (size_t row = 0; row < ASKED; row++) set_row(row, rows[row].kind, rows[row].number);
    row_of(&made, AN_OPEN_DATE)[PB_END] = 0;
    set_row(ASKED, PB_DATE, MINUS_ONE_AND_A_HALF);
    for (size_t row = 0; row < ASKED; row++) {
        about("the milliseconds of %s", rows[row].is);
        try_asking(NUMBERS, 0, row, rows[row].moment);
    }
    about("the milliseconds of the row past the rows");
    try_asking(NUMBERS, 0, ASKED, none);
    about("the milliseconds of the row past all numbers");
    try_asking(NUMBERS, 0, SIZE_MAX, none);
    about("the milliseconds of a row whose numbers begin past all numbers");
    try_asking(NUMBERS, 0, SIZE_MAX / PB_ROW_WIDTH + 1, none);
    about("the milliseconds of row 0 where there are no rows");
    try_asking(0, 0, A_DATE, none);
}

/* Each kind, and the numbers beside them that are no kind. */
static void try_kinds(void) {
    for (size_t kind = PB_UNDEFINED - 1; kind <= PB_REFERENCE + 1; kind++) {
        set_row(0, kind, MINUS_ONE_AND_A_HALF);
        about("the milliseconds of kind %zu", kind);
        try_asking(PB_ROW_WIDTH, 0, 0, kind == PB_DATE ? at(-1) : none);
    }
}

/* Rows and a store that 1 would refuse have no milliseconds; as many as there may be have. */
static void try_given(void) {
    enum { MOST = PB_ROWS_MOST * PB_ROW_WIDTH };
    static const size_t faulty[][2] = {
        {PB_ROW_WIDTH - 1, 0}, {PB_ROW_WIDTH + 1, 0},     {2 * PB_ROW_WIDTH - 1, 0},         {MOST - 1, 0},
        {MOST + 1, 0},         {MOST + PB_ROW_WIDTH, 0}, {PB_ROW_WIDTH, PB_STORE_MOST + 1}, {MOST, PB_STORE_MOST + 1},
    };
    set_row(0, PB_DATE, MINUS_ONE_AND_A_HALF);
    for (size_t i = 0; i < sizeof faulty / sizeof *faulty; i++) {
        about("a date in %zu numbers of rows and %zu bytes", faulty[i][0], faulty[i][1]);
        try_asking(faulty[i][0], faulty[i][1], 0, none);
    }
    about("a date in one row and as many bytes as there may be");
    try_asking(PB_ROW_WIDTH, PB_STORE_MOST, 0, at(-1));
    set_row(0, PB_REFERENCE, PB_ROWS_MOST - 1);
    set_row(PB_ROWS_MOST - 1, PB_DATE, MINUS_ONE_AND_A_HALF);
    for (size_t row = 0; row < PB_ROWS_MOST; row += PB_ROWS_MOST - 1) {
        about("row %zu in as many rows and bytes as there may be", row);
        try_asking(MOST, PB_STORE_MOST, row, at(-1));
    }
}

/* ---- an array of dates, and a reference to each */

static const uint64_t dates[] = {0x0000000000000000, 0x8000000000000000, 0x0000000000000001, 0x8000000000000001, 0x3fefffffffffffff, 0xbfefffffffffffff,
                                 0x3ff8000000000000, 0xbff8000000000000, 0x4279a8762f200000, 0xc21d5ec4b0000000, 0x4340000000000001, 0xc340000000000001,
                                 0x43dfffffffffffff, 0xc3dfffffffffffff, 0x43e0000000000000, 0xc3e0000000000000, 0x7fefffffffffffff, 0xffefffffffffffff};

/* The bytes of the array before its items and of a reference, the numbers of its rows, and the lengths of its message and of what is written of that. */
enum { DATES = sizeof dates / sizeof *dates, HEAD = 3, REFERENCE_LENGTH = 2, ITEMS = 2 * DATES, ROWS = 1 + ITEMS };
enum { ARRAY_LENGTH = HEAD + DATES * (LENGTH + REFERENCE_LENGTH), WRITTEN_LENGTH = HEAD + ITEMS * LENGTH };

static const size_t lent_array[LOANS] = {[IN_ROWS] = ROWS * PB_ROW_WIDTH, [IN_OBJECTS] = 1 + DATES};

static const uint8_t head[HEAD] = {0x09, ITEMS << 1 | 1, 0x01};

static uint8_t array[ARRAY_LENGTH], unfolded[WRITTEN_LENGTH];

/* Where an item begins, and how long it is; the references stand behind the dates. */
static size_t item_begin(size_t i) { return i < DATES ? HEAD + i * LENGTH : HEAD + DATES * LENGTH + (i - DATES) * REFERENCE_LENGTH; }
static size_t item_length(size_t i) { return i < DATES ? LENGTH : REFERENCE_LENGTH; }

static void put_date(uint8_t *to, uint64_t bits) {
    to[0] = MARKER;
    to[1] = LITERAL;
    put_bits(to + BEFORE, bits);
}

/* The first object is the array itself. */
static void put_array(void) {
    memcpy(array, head, HEAD);
    memcpy(unfolded, head, HEAD);
    for (size_t i = 0; i < ITEMS; i++) put_date(unfolded + HEAD + i * LENGTH, dates[i % DATES]);
    for (size_t i = 0; i < DATES; i++) {
        put_date(array + item_begin(i), dates[i]);
        array[item_begin(DATES + i)] = MARKER;
        array[item_begin(DATES + i) + 1] = (uint8_t)((1 + i) << 1);
    }
}

/* What is left of it. */
static void want_array(void) {
    clear(&want, lent_array);
    row_of(&want, 0)[PB_KIND] = PB_ARRAY;
    row_of(&want, 0)[PB_COUNT_2] = ITEMS;
    row_of(&want, 0)[PB_END] = ROWS;
    for (size_t i = 0; i < ITEMS; i++) {
        size_t *row = row_of(&want, 1 + i);
        row[PB_KIND] = i < DATES ? PB_DATE : PB_REFERENCE;
        row[PB_NUMBER] = i < DATES ? dates[i] : 1 + i - DATES;
        row[PB_END] = 2 + i;
    }
    for (size_t i = 0; i < 1 + DATES; i++) want.numbers[IN_OBJECTS][i] = i;
}

/* What an item says after so many bytes: it is a date from its marker on, and its number is 0 until its last byte. */
static pb_moment item_millis(size_t i, size_t taken) {
    if (taken <= item_begin(i)) return none;
    return taken < item_begin(i) + item_length(i) ? at_zero : by_fields(dates[i % DATES]);
}

/* All rows, and the one behind them. */
static int array_asked(const loans *l, size_t taken) {
    for (size_t row = 0; row <= ROWS; row++) {
        pb_moment due = 0 < row && row < ROWS ? item_millis(row - 1, taken) : none;
        if (!millis_are(pb_millis(l->numbers[IN_ROWS], lent_array[IN_ROWS], l->store, 0, row), due)) return 0;
    }
    return 1;
}

static int array_read(void) {
    fill(&now, lent_array);
    return answer_is(pb_read(LEND(&now, lent_array), array, ARRAY_LENGTH), finished(ROWS, 0, ARRAY_LENGTH)) && loans_are(&now, &want, lent_array) &&
           array_asked(&now, ARRAY_LENGTH);
}

static int array_fed(void) {
    if (!begins(lent_array, &fed)) return 0;
    for (size_t taken = 1; taken <= ARRAY_LENGTH; taken++) {
        pb_answer answer = taken < ARRAY_LENGTH ? waiting(1) : finished(ROWS, 0, 1);
        if (!answer_is(pb_feed(fed.state, LEND(&fed.loans, lent_array), array + taken - 1, 1), answer) || !array_asked(&fed.loans, taken)) return 0;
    }
    return loans_are(&fed.loans, &want, lent_array);
}

static int array_written(void) {
    static uint8_t out[WRITTEN_LENGTH + GUARD], due[WRITTEN_LENGTH + GUARD];
    memset(out, FILLING, sizeof out);
    memset(due, FILLING, sizeof due);
    memcpy(due, unfolded, WRITTEN_LENGTH);
    return answer_is(pb_write(want.numbers[IN_ROWS], lent_array[IN_ROWS], want.store, 0, out, WRITTEN_LENGTH), finished(0, WRITTEN_LENGTH, 0)) &&
           (!memcmp(out, due, sizeof out) || wrong("other bytes are written"));
}

static void try_array(void) {
    put_array();
    want_array();
    about("an array of dates and references read");
    count(array_read());
    about("an array of dates and references fed");
    count(array_fed());
    about("an array of dates and references written");
    count(array_written());
}

int main(void) {
    try_exponents();
    try_rows();
    try_kinds();
    try_given();
    try_array();
    return tally();
}
