/* Reads and writes integers from -2^28 to 2^28 - 1, held to document 01's words: n of 2^28 or more reads as n - 2^29. What lies outside isn't written: 14, and
 * outside 32 signed bits 13. Run:
 *
 *     tools/library
 *     gcc -std=c99 -Wall -Wextra -Werror -O1 -Iinclude -o target/integers tests/integers.c target/staticlib/libpinebuckle.a && target/integers
 *
 * It tries the ends of each stretch of 2^17 remainders and those between that are so many apart as the first word says (4,099). `target/integers 1` tries all
 * 2^29. The answer, the row, every byte that is written and the guards are compared. Prints what differs, its numbers in hexadecimal, and last
 * 'N passed, M failed', where a stretch counts one. The exit status is 1 if a check fails. */
#include <stdlib.h>

#include "pinebuckle.h"

/* One row is lent, and nothing else. */
enum { MOST_NUMBERS = PB_ROW_WIDTH, MOST_BYTES = 1 };

#include "lent.h"

/* The remainders of integers, half of them, and how many are one check. */
enum { MODULUS = 1 << 29, HALF = 1 << 28, STRETCH = 1 << 17, STEP = 4099 };

/* The marker of an integer, and the most bytes with it. */
enum { MARKER = 0x04, LONGEST = 5 };

static const size_t lent[LOANS] = {PB_ROW_WIDTH};

static loans now, want;

/* An integer's bytes: its marker, and its remainder as a U29. */
static size_t put_integer(uint8_t *at, size_t n) {
    size_t length = 0;
    at[length++] = MARKER;
    if (n >= 1 << 21) {
        at[length++] = (uint8_t)(0x80 | n >> 22);
        at[length++] = (uint8_t)(0x80 | n >> 15);
        at[length++] = (uint8_t)(0x80 | n >> 8);
        at[length++] = (uint8_t)n;
        return length;
    }
    if (n >= 1 << 14) at[length++] = (uint8_t)(0x80 | n >> 14);
    if (n >= 1 << 7) at[length++] = (uint8_t)(0x80 | n >> 7);
    at[length++] = (uint8_t)(n & 0x7f);
    return length;
}

/* The row of an integer, alone. */
static void set_integer(loans *l, int64_t v) {
    clear(l, lent);
    row_of(l, 0)[PB_KIND] = PB_INTEGER;
    row_of(l, 0)[PB_NUMBER] = (size_t)v;
    row_of(l, 0)[PB_END] = 1;
}

static int written(pb_answer answer, const uint8_t *bytes) {
    uint8_t out[LONGEST + GUARD];
    memset(out, FILLING, sizeof out);
    if (!answer_is(pb_write(want.numbers[IN_ROWS], PB_ROW_WIDTH, want.store, 0, out, LONGEST), answer)) return 0;
    for (size_t i = 0; i < sizeof out; i++) {
        uint8_t due = i < answer.bytes ? bytes[i] : FILLING;
        if (out[i] != due) return wrong("output[%zu] is %x, not %x", i, out[i], due);
    }
    return 1;
}

/* A remainder is read as its integer, and the integer written as that remainder. */
static int remainder_right(size_t n) {
    uint8_t message[LONGEST];
    size_t length = put_integer(message, n);
    set_integer(&want, n < HALF ? (int64_t)n : (int64_t)n - MODULUS);
    fill(&now, lent);
    return answer_is(pb_read(LEND(&now, lent), message, length), finished(1, 0, length)) && loans_are(&now, &want, lent) &&
           written(finished(0, length, 0), message);
}

static int stretch_right(size_t from, size_t step) {
    for (size_t n = from; n < from + STRETCH; n += step) {
        about("remainder %zx", n);
        if (!remainder_right(n)) return 0;
    }
    about("remainder %zx", from + STRETCH - 1);
    return remainder_right(from + STRETCH - 1);
}

static void try_outside(void) {
    static const struct {
        int64_t integer;
        size_t no;
    } outside[] = {
        {HALF, PB_UNWRITABLE},         {-HALF - 1, PB_UNWRITABLE}, {MODULUS - 1, PB_UNWRITABLE}, {MODULUS, PB_UNWRITABLE},  {-MODULUS, PB_UNWRITABLE},
        {-MODULUS - 1, PB_UNWRITABLE}, {INT32_MAX, PB_UNWRITABLE}, {INT32_MIN, PB_UNWRITABLE},   {INT64_MAX, PB_MALFORMED}, {INT64_MIN, PB_MALFORMED},
    };
    for (size_t i = 0; i < sizeof outside / sizeof *outside; i++) {
        about("integer %zx", (size_t)outside[i].integer);
        set_integer(&want, outside[i].integer);
        count(written(refused(outside[i].no, 0, 0), NULL));
    }
}

int main(int words, char **word) {
    size_t step = words > 1 ? strtoul(word[1], NULL, 10) : STEP;
    about("the first word");
    if (step == 0) return wrong("no number from 1 up"), 1;
    for (size_t from = 0; from < MODULUS; from += STRETCH) count(stretch_right(from, step));
    try_outside();
    return tally();
}
