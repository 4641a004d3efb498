/* Reads strings of one to four octets, held to RFC 3629 by its numbers and not by its grammar: a text is characters, and a character is the octets of a number up
 * to 10FFFF that is no surrogate, as section 3 writes it. What is no text is 8. Run:
 *
 *     tools/library
 *     gcc -std=c99 -Wall -Wextra -Werror -O1 -Iinclude -o target/texts tests/texts.c target/staticlib/libpinebuckle.a && target/texts
 *
 * It tries octets at the ends of the ranges, from the third on at the ends of the tails. `target/texts all` tries all strings of one to three octets, and all of
 * four whose first is from F0 to F5; of those it cuts one in 61. Each is read whole, fed by single bytes and fed in two pieces, wherever it is cut: the answer,
 * every number lent and the guards are compared, and after each single byte the text test's state: 0 where the octets so far are a text, 8 where no text begins
 * with them. Prints what differs, its numbers in hexadecimal, and last 'N passed, M failed', where the strings with one first octet count one. The exit status is
 * 1 if a check fails. */
#include "pinebuckle.h"

/* One row, and a text of so many octets. */
enum { LONGEST = 4, MOST_NUMBERS = PB_ROW_WIDTH, MOST_BYTES = LONGEST };

#include "lent.h"

/* What stands before the octets: the marker of a string, and its size word. */
enum { MARKER = 0x06, BEFORE = 2 };

/* The text test's state: its place in a state of the reading, and two of its numbers. */
enum { TEST = MODE + 4, BETWEEN = 0, BROKEN = 8 };

/* Of the strings of four octets one in so many is cut. */
enum { CUT_ONE_IN = 61 };

static const size_t lent[LOANS] = {PB_ROW_WIDTH, LONGEST, PB_STRING_WIDTH};

static loans now, want;
static moment fed;

/* ---- RFC 3629, section 3 */

/* The octets of a number. */
static size_t put_character(uint8_t *at, uint32_t number) {
    static const uint32_t most[LONGEST] = {0x7f, 0x7ff, 0xffff, 0x1fffff};
    static const uint8_t mark[LONGEST] = {0x00, 0xc0, 0xe0, 0xf0};
    size_t length = 1;
    while (most[length - 1] < number) length++;
    for (size_t i = length; i-- > 1; number >>= 6) at[i] = (uint8_t)(0x80 | (number & 0x3f));
    at[0] = (uint8_t)(mark[length - 1] | number);
    return length;
}

/* The number that so many octets have in the places for its bits. */
static uint32_t number_of(const uint8_t *at, size_t length) {
    static const uint8_t bits[LONGEST] = {0x7f, 0x1f, 0x0f, 0x07};
    uint32_t number = at[0] & bits[length - 1];
    for (size_t i = 1; i < length; i++) number = number << 6 | (at[i] & 0x3f);
    return number;
}

/* The length of the character that stands first, or 0. */
static size_t character(const uint8_t *at, size_t n) {
    for (size_t length = 1; length <= n && length <= LONGEST; length++) {
        uint8_t again[LONGEST];
        uint32_t number = number_of(at, length);
        if (number <= 0x10ffff && !(0xd800 <= number && number <= 0xdfff) && put_character(again, number) == length && !memcmp(again, at, length)) return length;
    }
    return 0;
}

static int is_text(const uint8_t *at, size_t n) {
    while (n > 0) {
        size_t length = character(at, n);
        if (!length) return 0;
        at += length, n -= length;
    }
    return 1;
}

/* Whether a text begins with the octets: one of these ends makes it a text. */
static int begins_text(const uint8_t *at, size_t n) {
    static const uint8_t tails[] = {0x80, 0x90, 0xa0};
    uint8_t whole[2 * LONGEST];
    memcpy(whole, at, n);
    for (size_t ends = 0; ends < 1 + 3 + 9 + 27; ends++) {
        size_t more = ends < 1 ? 0 : ends < 1 + 3 ? 1 : ends < 1 + 3 + 9 ? 2 : 3;
        for (size_t i = 0, rest = ends; i < more; i++, rest /= 3) whole[n + i] = tails[rest % 3];
        if (is_text(whole, n + more)) return 1;
    }
    return 0;
}

/* ---- the calls */

/* What a string of n octets leaves in the loans. */
static pb_answer set_answer(const uint8_t *octets, size_t n) {
    clear(&want, lent);
    if (!is_text(octets, n)) return refused(PB_BAD_TEXT, 0, BEFORE + n);
    size_t *row = row_of(&want, 0);
    row[PB_KIND] = PB_STRING;
    row[PB_BODY_LENGTH] = n;
    row[PB_END] = 1;
    memcpy(want.store, octets, n);
    want.numbers[IN_STRINGS][1] = n;
    return finished(1, n, BEFORE + n);
}

static int feed_answers(const uint8_t *piece, size_t n, pb_answer answer) {
    return answer_is(pb_feed(fed.state, LEND(&fed.loans, lent), piece, n), with_taken(answer, n));
}

static int single_bytes_right(const uint8_t *message, size_t n, pb_answer answer) {
    pb_begin(fed.state, LEND(&fed.loans, lent));
    for (size_t i = 0; i + 1 < BEFORE + n; i++) {
        if (!feed_answers(message + i, 1, waiting(1))) return 0;
        if (i < BEFORE) continue;
        size_t test = fed.state[TEST], octets = i + 1 - BEFORE;
        if ((test == BETWEEN) != is_text(message + BEFORE, octets) || (test == BROKEN) == begins_text(message + BEFORE, octets))
            return wrong("the test's state after %zx octets is %zx", octets, test);
    }
    return feed_answers(message + BEFORE + n - 1, 1, answer) && loans_are(&fed.loans, &want, lent);
}

static int two_pieces_right(const uint8_t *message, size_t n, size_t cut, pb_answer answer) {
    pb_begin(fed.state, LEND(&fed.loans, lent));
    return feed_answers(message, cut, waiting(cut)) && feed_answers(message + cut, BEFORE + n - cut, answer) && loans_are(&fed.loans, &want, lent);
}

static int cuts_right(const uint8_t *message, size_t n, pb_answer answer) {
    fill(&fed.loans, lent);
    if (!single_bytes_right(message, n, answer)) return 0;
    for (size_t cut = BEFORE; cut < BEFORE + n; cut++)
        if (!two_pieces_right(message, n, cut, answer)) return 0;
    return 1;
}

static int string_right(const uint8_t *octets, size_t n, int cuts) {
    uint8_t message[BEFORE + LONGEST] = {MARKER, (uint8_t)(n << 1 | 1)};
    memcpy(message + BEFORE, octets, n);
    pb_answer answer = set_answer(octets, n);
    fill(&now, lent);
    return answer_is(pb_read(LEND(&now, lent), message, BEFORE + n), answer) && loans_are(&now, &want, lent) && (!cuts || cuts_right(message, n, answer));
}

/* ---- the strings */

/* The octets at the ends of the ranges; those at the ends of the tails come first. */
static const uint8_t ends[] = {0x7f, 0x80, 0xbf, 0xc0, 0x00, 0x8f, 0x90, 0x9f, 0xa0, 0xc1, 0xc2, 0xdf,
                               0xe0, 0xe1, 0xec, 0xed, 0xee, 0xef, 0xf0, 0xf1, 0xf3, 0xf4, 0xf5, 0xff};

enum { TAIL_ENDS = 4, ENDS = sizeof ends, OCTETS = 256, FIRST_OF_FOUR = 0xf0, LAST_OF_FOUR = 0xf5 };

/* The strings that begin with the octets so far and have n in all. */
static int longer_right(uint8_t *octets, size_t have, size_t n, int all) {
    static size_t tried;
    if (have == n) {
        about("%zx octets %02x %02x %02x %02x", n, octets[0], octets[1], octets[2], octets[3]);
        return string_right(octets, n, !all || n < LONGEST || tried++ % CUT_ONE_IN == 0);
    }
    size_t most = all ? OCTETS : have < 2 ? ENDS : TAIL_ENDS;
    for (size_t i = 0; i < most; i++) {
        octets[have] = all ? (uint8_t)i : ends[i];
        if (!longer_right(octets, have + 1, n, all)) return 0;
    }
    return 1;
}

static int first_right(uint8_t first, int all) {
    size_t most = FIRST_OF_FOUR <= first && first <= LAST_OF_FOUR ? LONGEST : LONGEST - 1;
    for (size_t n = 1; n <= most; n++) {
        uint8_t octets[LONGEST] = {first};
        if (!longer_right(octets, 1, n, all)) return 0;
    }
    return 1;
}

int main(int words, char **word) {
    int all = words > 1 && !strcmp(word[1], "all");
    size_t most = all ? OCTETS : ENDS;
    for (size_t i = 0; i < most; i++) count(first_right(all ? (uint8_t)i : ends[i], all));
    return tally();
}
