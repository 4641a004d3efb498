/* Goes through the refusals of a reading that want more than the lists of tests/lists can lend, on both sides of each edge: 1; 11; and 12 for loans that are
 * lent with other lengths than at the beginning. Also 12 for a state that was never begun, for one that says 7 of a finite date, and for one that waits but
 * holds other numbers. Run:
 *
 *     tools/library
 *     gcc -std=c99 -Wall -Wextra -Werror -O1 -Iinclude -o target/refusals tests/refusals.c target/staticlib/libpinebuckle.a && target/refusals
 *
 * Every field of every answer, every number lent and the guard behind it, and every number of the state is compared. Prints what differs, its numbers in
 * hexadecimal, and last 'N passed, M failed'. The exit status is 1 if a check fails. */
#include "pinebuckle.h"

/* One entry more than any loan may have. */
enum { MOST_NUMBERS = (PB_ROWS_MOST + 1) * PB_ROW_WIDTH, MOST_BYTES = PB_STORE_MOST + 1 };

#include "lent.h"

/* Loans of a few entries, and of as many as each may have. */
static const size_t few[LOANS] = {4 * PB_ROW_WIDTH, 16, 4 * PB_STRING_WIDTH, 4, 2 * PB_TRAIT_WIDTH, 4 * PB_NAME_WIDTH};
static const size_t most[LOANS] = {PB_ROWS_MOST * PB_ROW_WIDTH, PB_STORE_MOST, PB_STRINGS_MOST * PB_STRING_WIDTH, PB_OBJECTS_MOST,
                                   PB_TRAITS_MOST * PB_TRAIT_WIDTH, PB_NAMES_MOST * PB_NAME_WIDTH};

/* The markers that are used here, and the key that ends an array's pairs. */
enum { DOUBLE_MARKER = 0x05, STRING_MARKER = 0x06, ARRAY_MARKER = 0x09, OBJECT_MARKER = 0x0a, BYTE_ARRAY_MARKER = 0x0c, NO_MARKER = 0x12, NO_KEY = 0x01 };

/* What a call is made on, what it must leave, and what was before it. */
static moment now, want, start;

/* The size word of a literal with so many entries, in one byte. */
static uint8_t small_word(size_t n) { return (uint8_t)(n << 1 | 1); }

/* Makes a state refused: the lengths of the beginning and the frames stay, and nothing else. */
static void set_refused(size_t *state, pb_answer answer) {
    size_t lent[LOANS];
    memcpy(lent, state + LENT, sizeof lent);
    memset(state, 0, FRAMES * sizeof *state);
    set_known(state, lent, IS_REFUSED, answer, 0);
}

/* What a refusal leaves of a start: the state is refused, and the loans are zero as far as they are lent. */
static void want_refused(const size_t *lent, pb_answer answer) {
    copy_moment(lent, &want, &start);
    set_refused(want.state, answer);
    clear(&want.loans, lent);
}

/* A piece on the start is refused, so many of its bytes taken, and stays so. */
static int piece_refused(const size_t *lent, const uint8_t *piece, size_t n, size_t taken, pb_answer answer) {
    copy_moment(lent, &now, &start);
    want_refused(lent, answer);
    return answer_is(pb_feed(now.state, LEND(&now.loans, lent), piece, n), with_taken(answer, taken)) && same_moment(lent, &now, &want) &&
           repeats(lent, &now, answer);
}

/* The end of the bytes on the start likewise. */
static int end_refused(const size_t *lent, pb_answer answer) {
    copy_moment(lent, &now, &start);
    want_refused(lent, answer);
    return answer_is(pb_end(now.state, LEND(&now.loans, lent)), answer) && same_moment(lent, &now, &want) && repeats(lent, &now, answer);
}

/* A piece of no bytes changes nothing. */
static int none_changes_nothing(const size_t *lent, pb_answer answer) {
    copy_moment(lent, &now, &start);
    return answer_is(pb_feed(now.state, LEND(&now.loans, lent), one_byte, 0), answer) && same_moment(lent, &now, &start);
}

/* ---- 1: a loan over its maximum or not whole entries */

/* A whole reading, a beginning and what comes after it leave the loans as they were found; the state that is begun is a refused one. */
static int loan_refused(const size_t *lent, int loan) {
    pb_answer answer = refused(PB_BAD_LOAN, (size_t)loan + 1, 0);
    fill_moment(lent, &now);
    fill_moment(lent, &want);
    if (!answer_is(pb_read(LEND(&now.loans, lent), one_byte, sizeof one_byte), answer) || !same_moment(lent, &now, &want)) return 0;
    memset(want.state, 0, PB_STATE_WORDS * sizeof *want.state);
    set_known(want.state, lent, IS_REFUSED, answer, 0);
    return answer_is(pb_begin(now.state, LEND(&now.loans, lent)), answer) && same_moment(lent, &now, &want) && repeats(lent, &now, answer);
}

/* One entry too many, and where an entry has several numbers, one number more and less than whole entries. */
static void try_loan(int loan) {
    size_t lent[LOANS], width = widths[loan];
    const size_t faulty[] = {most[loan] + width, most[loan] + 1, most[loan] - 1, width + 1, width - 1};
    memcpy(lent, few, sizeof lent);
    for (size_t i = 0; i < (width == 1 ? 1 : sizeof faulty / sizeof *faulty); i++) {
        lent[loan] = faulty[i];
        about("1, %s of %zu numbers", loan_names[loan], lent[loan]);
        count(loan_refused(lent, loan));
    }
}

/* All loans from one on are faulty, and those below are not: the lowest is told. */
static void try_loans_from(int lowest) {
    size_t lent[LOANS];
    for (int i = 0; i < LOANS; i++) lent[i] = i < lowest ? most[i] : most[i] + widths[i];
    about("1, all from %s on", loan_names[lowest]);
    count(loan_refused(lent, lowest));
}

/* Two loans are faulty. */
static void try_two_loans(int low, int high) {
    size_t lent[LOANS];
    memcpy(lent, few, sizeof lent);
    lent[low] = most[low] + widths[low];
    lent[high] = most[high] + widths[high];
    about("1, %s and %s", loan_names[low], loan_names[high]);
    count(loan_refused(lent, low));
}

/* Loans that are allowed: a null is read, whole and fed. */
static int null_read(const size_t *lent) {
    pb_answer answer = finished(1, 0, sizeof one_byte);
    set_begun(lent, &want);
    want.loans.numbers[IN_ROWS][PB_KIND] = PB_NULL;
    want.loans.numbers[IN_ROWS][PB_END] = 1;
    fill(&now.loans, lent);
    if (!answer_is(pb_read(LEND(&now.loans, lent), one_byte, sizeof one_byte), answer) || !loans_are(&now.loans, &want.loans, lent)) return 0;
    want.state[MODE] = 0;
    set_known(want.state, lent, IS_FINISHED, answer, answer.taken);
    want.state[USED + IN_ROWS] = answer.rows;
    return begins(lent, &now) && answer_is(pb_feed(now.state, LEND(&now.loans, lent), one_byte, sizeof one_byte), answer) &&
           same_moment(lent, &now, &want) && repeats(lent, &now, answer);
}

/* Loans may be empty: then there is no room for the first row. */
static int no_row(void) {
    static const size_t none[LOANS];
    pb_answer answer = refused(PB_NO_ROOM, IN_ROWS + 1, sizeof one_byte);
    fill(&now.loans, none);
    clear(&want.loans, none);
    if (!answer_is(pb_read(LEND(&now.loans, none), one_byte, sizeof one_byte), answer) || !loans_are(&now.loans, &want.loans, none)) return 0;
    return begins(none, &start) && piece_refused(none, one_byte, sizeof one_byte, sizeof one_byte, answer);
}

static void try_loans(void) {
    size_t lent[LOANS];
    for (int loan = 0; loan < LOANS; loan++) {
        try_loan(loan);
        try_loans_from(loan);
        for (int high = loan + 1; high < LOANS; high++) try_two_loans(loan, high);
        memcpy(lent, few, sizeof lent);
        lent[loan] = most[loan];
        about("1, as many %s as there may be", loan_names[loan]);
        count(null_read(lent));
    }
    about("1, as many of all as there may be");
    count(null_read(most));
    about("1, none of any");
    count(no_row());
}

/* ---- 11: byte 262,145 is present and needed */

/* A message that is as long as can be: an array of doubles under a key, then of a byte array and perhaps one item more. Where the byte array's row and bytes
 * stand, and the bytes that a last item has at most. */
enum { DOUBLES = PB_ROWS_MOST - 8, BODY_ROW = DOUBLES + 1, BODY = 1, ITEM_MOST = 12 };

static uint8_t message[PB_MESSAGE_MOST + ITEM_MOST];
static size_t length, body_length;

static void put(size_t byte) { message[length++] = (uint8_t)byte; }

static void put_double(size_t bits) {
    put(DOUBLE_MARKER);
    for (int shift = 56; shift >= 0; shift -= 8) put(bits >> shift);
}

/* A size word of three bytes. */
static void put_word(size_t word) {
    put(0x80 | word >> 14);
    put(0x80 | (word >> 7 & 0x7f));
    put(word & 0x7f);
}

/* Puts an array of so many items up to the end of the first, which is after `end` bytes. A double has its row as its bits, under the key "a", which is written
 * by a reference of four bytes after the first. */
static void put_array(size_t items, size_t end) {
    length = 0;
    put(ARRAY_MARKER);
    put(small_word(items));
    put(small_word(1));
    put('a');
    put_double(1);
    for (size_t row = 2; row <= DOUBLES; row++) {
        for (int i = 0; i < 3; i++) put(0x80);
        put(0);
        put_double(row);
    }
    put(NO_KEY);
    put(BYTE_ARRAY_MARKER);
    body_length = end - length - 3;
    put_word(body_length << 1 | 1);
    while (length < end) put(length);
}

/* What the loans hold after so many bytes, of which some or all are the byte array's; with all of them the array of one item is closed. */
static void want_array(size_t end, size_t taken) {
    size_t *array = row_of(&want.loans, 0), *body = row_of(&want.loans, BODY_ROW);
    int closed = taken == end;
    clear(&want.loans, most);
    for (size_t row = 1; row <= DOUBLES; row++) {
        size_t *to = row_of(&want.loans, row);
        to[PB_KIND] = PB_DOUBLE;
        to[PB_KEY_MARK] = to[PB_KEY_LENGTH] = 1;
        to[PB_NUMBER] = row;
        to[PB_END] = row + 1;
    }
    array[PB_KIND] = PB_ARRAY;
    array[PB_COUNT] = DOUBLES;
    array[PB_COUNT_2] = closed;
    body[PB_KIND] = PB_BYTE_ARRAY;
    body[PB_BODY_BEGIN] = BODY;
    body[PB_BODY_LENGTH] = body_length;
    array[PB_END] = body[PB_END] = closed ? BODY_ROW + 1 : 0;
    want.loans.store[0] = 'a';
    memcpy(want.loans.store + BODY, message + end - body_length, taken - (end - body_length));
    want.loans.numbers[IN_STRINGS][1] = 1;
    want.loans.numbers[IN_OBJECTS][1] = BODY_ROW;
}

/* Sets what is known of the state of a feed that has taken as many bytes as it may. */
static void want_full(size_t status) {
    static const size_t used[LOANS] = {BODY_ROW + 1, 0, 1, 2, 0, 0};
    set_known(want.state, most, status, (pb_answer){0}, PB_MESSAGE_MOST);
    memcpy(want.state + USED, used, sizeof used);
    want.state[USED + IN_STORE] = BODY + body_length;
}

/* A whole reading of so many bytes. */
static int message_read(size_t n, pb_answer answer) {
    fill(&now.loans, most);
    return answer_is(pb_read(LEND(&now.loans, most), message, n), answer) && loans_are(&now.loans, &want.loans, most);
}

/* A feed up to a place, in pieces of so many bytes, that waits after each. */
static int fed_waits(size_t to, size_t step) {
    if (!begins(most, &now)) return 0;
    for (size_t from = 0, n; from < to; from += n) {
        n = to - from < step ? to - from : step;
        if (!answer_is(pb_feed(now.state, LEND(&now.loans, most), message + from, n), waiting(n))) return 0;
    }
    return 1;
}

/* The last byte that a message may have ends the value. The head then has nothing else, and the frames are as they were before. */
static int fed_to_end(pb_answer answer) {
    if (!fed_waits(PB_MESSAGE_MOST - 1, PB_MESSAGE_MOST)) return 0;
    memcpy(want.state, now.state, sizeof want.state);
    memset(want.state, 0, FRAMES * sizeof *want.state);
    want_full(IS_FINISHED);
    return answer_is(pb_feed(now.state, LEND(&now.loans, most), message + PB_MESSAGE_MOST - 1, 2), with_taken(answer, 1)) &&
           same_moment(most, &now, &want) && repeats(most, &now, answer);
}

/* The value has as many bytes as a message may have: it is read, and what stands behind it is not looked at. */
static void try_full_message(void) {
    put_array(1, PB_MESSAGE_MOST);
    want_array(PB_MESSAGE_MOST, PB_MESSAGE_MOST);
    pb_answer answer = finished(BODY_ROW + 1, BODY + body_length, PB_MESSAGE_MOST);
    about("11, a full message");
    count(message_read(PB_MESSAGE_MOST, answer));
    about("11, a byte behind a full message");
    count(message_read(PB_MESSAGE_MOST + 1, answer));
    about("11, a full message fed");
    count(fed_to_end(answer));
}

/* A feed has taken as many bytes as it may, in one piece, and waits: that is the start of what is tried on it. */
static int fed_full(void) {
    if (!fed_waits(PB_MESSAGE_MOST, PB_MESSAGE_MOST)) return 0;
    copy_moment(most, &start, &now);
    return none_changes_nothing(most, waiting(0));
}

/* What is known of it, where the byte array lacks its last byte. */
static int full_right(void) {
    memcpy(want.state, start.state, PB_STATE_WORDS * sizeof *want.state);
    memset(want.state + PB_STATE_WORDS, FILLING, GUARD * sizeof *want.state);
    want_full(IS_WAITING);
    want_array(PB_MESSAGE_MOST + 1, PB_MESSAGE_MOST);
    return same_moment(most, &start, &want);
}

/* The last piece begins at a place: of its bytes those are taken that a message may have. */
static int cut_too_long(size_t cut) {
    pb_answer answer = refused(PB_TOO_LONG, 0, PB_MESSAGE_MOST);
    if (!fed_waits(cut, PB_MESSAGE_MOST)) return 0;
    want_refused(most, answer);
    return answer_is(pb_feed(now.state, LEND(&now.loans, most), message + cut, sizeof message - cut), with_taken(answer, PB_MESSAGE_MOST - cut)) &&
           same_moment(most, &now, &want) && repeats(most, &now, answer);
}

/* The value goes on after the last byte that a message may have: 2 without the next byte, 11 with it. */
static int long_read(void) {
    clear(&want.loans, most);
    return message_read(PB_MESSAGE_MOST, refused(PB_UNEXPECTED_END, 0, PB_MESSAGE_MOST)) &&
           message_read(PB_MESSAGE_MOST + 1, refused(PB_TOO_LONG, 0, PB_MESSAGE_MOST));
}

/* The byte array is one byte too long. */
static void try_long_message(void) {
    static const size_t cuts[] = {0, 1, PB_MESSAGE_MOST / 2, PB_MESSAGE_MOST - 1, PB_MESSAGE_MOST}, steps[] = {1, 4096};
    put_array(1, PB_MESSAGE_MOST + 1);
    about("11, a long message read");
    count(long_read());
    about("11, a long message fed");
    count(fed_full() && full_right());
    about("11, the end after all bytes that may be fed");
    count(end_refused(most, refused(PB_UNEXPECTED_END, 0, PB_MESSAGE_MOST)));
    for (size_t i = 0; i < sizeof steps / sizeof *steps; i++) {
        about("11, a long message fed by %zu bytes", steps[i]);
        count(fed_waits(PB_MESSAGE_MOST, steps[i]) && same_moment(most, &now, &start));
    }
    for (size_t i = 0; i < sizeof cuts / sizeof *cuts; i++) {
        about("11, a long message cut at %zu", cuts[i]);
        count(cut_too_long(cuts[i]));
    }
}

/* Items that go over the last byte that a message may have, one for each way in which bytes are read, with the rows and store bytes that they take. The last is
 * none: 11 comes before the byte that it refuses is looked at. */
static const struct {
    const char *is;
    size_t length, rows, stored;
    uint8_t bytes[ITEM_MOST];
} items[] = {
    {"an integer", 5, 1, 0, {0x04, 0xff, 0xff, 0xff, 0xff}},
    {"a double", 9, 1, 0, {0x05, 1, 2, 3, 4, 5, 6, 7, 8}},
    {"a string", 4, 1, 2, {0x06, 0x05, 'h', 'i'}},
    {"a date", 10, 1, 0, {0x08, 0x01, 0xc0, 2, 3, 4, 5, 6, 7, 8}},
    {"an array", 7, 3, 1, {0x09, 0x03, 0x03, 'k', 0x02, NO_KEY, 0x03}},
    {"an object", 11, 3, 3, {0x0a, 0x1b, 0x03, 'C', 0x03, 'n', 0x02, 0x03, 'k', 0x03, NO_KEY}},
    {"an XML", 4, 1, 2, {0x0b, 0x05, 'h', 'i'}},
    {"a vector of integers", 7, 1, 4, {0x0d, 0x03, 0x01, 1, 2, 3, 4}},
    {"a vector of objects", 6, 2, 1, {0x10, 0x03, 0x01, 0x03, 'C', 0x01}},
    {"a dictionary", 5, 3, 0, {0x11, 0x03, 0x01, 0x02, 0x03}},
    {"a bad marker", 1, 0, 0, {NO_MARKER}},
};

enum { ITEMS = sizeof items / sizeof *items };

/* Puts an array whose second item has so many bytes before that place. */
static void put_items(size_t item, size_t before) {
    put_array(2, PB_MESSAGE_MOST - before);
    for (size_t i = 0; i < items[item].length; i++) put(items[item].bytes[i]);
}

/* The item goes on after that place. */
static void try_item(size_t item, size_t before) {
    put_items(item, before);
    about("11, %s after %zu bytes", items[item].is, before);
    count(long_read() && fed_full() && cut_too_long(0) && cut_too_long(PB_MESSAGE_MOST) &&
          end_refused(most, refused(PB_UNEXPECTED_END, 0, PB_MESSAGE_MOST)));
}

/* The item ends there: the whole reading and the feed finish alike. */
static void try_last_item(size_t item) {
    put_items(item, items[item].length);
    pb_answer answer = finished(BODY_ROW + 1 + items[item].rows, BODY + body_length + items[item].stored, PB_MESSAGE_MOST);
    about("11, %s that ends a full message", items[item].is);
    fill(&want.loans, most);
    count(answer_is(pb_read(LEND(&want.loans, most), message, sizeof message), answer) && begins(most, &now) &&
          answer_is(pb_feed(now.state, LEND(&now.loans, most), message, sizeof message), answer) && loans_are(&now.loans, &want.loans, most));
}

static void try_items(void) {
    for (size_t item = 0; item < ITEMS; item++)
        for (size_t before = 0; before < items[item].length; before++) try_item(item, before);
    for (size_t item = 0; item < ITEMS - 1; item++) try_last_item(item);
}

/* ---- 12: a state that was never begun, and loans that are lent with other lengths */

/* An array of two items, and in it a string of one byte, which is still to come. */
static const uint8_t in_string[] = {ARRAY_MARKER, 0x05, NO_KEY, STRING_MARKER, 0x03}, letter[] = {'a'};

static int wait_in_string(void) {
    return begins(few, &start) && answer_is(pb_feed(start.state, LEND(&start.loans, few), in_string, sizeof in_string), waiting(sizeof in_string));
}

/* The start was never begun: no byte changes nothing, a byte and the end make a refused state of it and set the loans to zero. */
static int never_begun(void) {
    pb_answer lost = refused(PB_LOST, 0, 0);
    fill(&start.loans, few);
    return none_changes_nothing(few, lost) && piece_refused(few, one_byte, sizeof one_byte, 0, lost) && end_refused(few, lost);
}

/* No call leaves these: a status and a refusal that are none of ours. */
static void try_never_begun(void) {
    static const size_t marks[][2] = {{0, 0}, {IS_REFUSED + 1, 0}, {SIZE_MAX, 0}, {IS_REFUSED, 0}, {IS_REFUSED, PB_MALFORMED}, {IS_REFUSED, SIZE_MAX}};
    fill_moment(few, &start);
    memset(start.state, 0, PB_STATE_WORDS * sizeof *start.state);
    about("12, a state of zeros");
    count(never_begun());
    memset(start.state, FILLING, sizeof start.state);
    about("12, a state of other numbers");
    count(never_begun());
    for (size_t i = 0; i < sizeof marks / sizeof *marks; i++) {
        about("12, status %zx and number %zx", marks[i][0], marks[i][1]);
        int waits = wait_in_string();
        start.state[STATUS] = marks[i][0];
        start.state[NUMBER] = marks[i][1];
        count(waits && never_begun());
    }
}

/* The start says 7 of a date's bits. */
static int says_bad_date(uint64_t bits, size_t place) {
    if (!wait_in_string()) return 0;
    set_refused(start.state, refused(PB_BAD_DATE, bits, place));
    return 1;
}

/* Of a date that isn't finite the start says it again; of one that is, it was never begun. */
static void try_told_dates(void) {
    enum { PLACE_OF_DATE = 10 };
    static const uint64_t not_finite[] = {0x7ff0000000000000, 0x7ff0000000000001, 0x7fffffffffffffff, 0xfff0000000000000, 0xfff8000000000000, 0xffffffffffffffff};
    static const uint64_t finite[] = {0, 1, 0x3ff0000000000000, 0x7fefffffffffffff, 0x8000000000000000, 0xbff0000000000000, 0xffefffffffffffff};
    for (size_t i = 0; i < sizeof not_finite / sizeof *not_finite; i++) {
        about("no 12, a state that says 7 of %016zx", (size_t)not_finite[i]);
        count(says_bad_date(not_finite[i], PLACE_OF_DATE) && repeats(few, &start, refused(PB_BAD_DATE, not_finite[i], PLACE_OF_DATE)));
    }
    for (size_t i = 0; i < sizeof finite / sizeof *finite; i++) {
        about("12, a state that says 7 of %016zx", (size_t)finite[i]);
        count(says_bad_date(finite[i], PLACE_OF_DATE) && never_begun());
    }
}

/* The start waits but holds other numbers, among them the bytes taken: no byte changes nothing, a byte is refused with 12, and the end with 2 after these. */
static int waits_lost(size_t taken) {
    start.state[STATUS] = IS_WAITING;
    start.state[TAKEN] = taken;
    fill(&start.loans, few);
    return none_changes_nothing(few, waiting(0)) && piece_refused(few, one_byte, sizeof one_byte, 0, refused(PB_LOST, 0, 0)) &&
           end_refused(few, refused(PB_UNEXPECTED_END, 0, taken));
}

static void try_waiting_lost(void) {
    static const size_t taken[] = {0, PB_MESSAGE_MOST + 1, SIZE_MAX};
    for (size_t i = 0; i < sizeof taken / sizeof *taken; i++) {
        about("12, a state of other numbers that waits after %zu bytes", taken[i]);
        memset(start.state, FILLING, sizeof start.state);
        count(waits_lost(taken[i]));
    }
    about("12, a state that waits after too many bytes");
    count(wait_in_string() && waits_lost(PB_MESSAGE_MOST + 1));
}

/* The length of a class whose names are still read: the one number of a head that no line of tests/lists/altered.txt alters. */
enum { CLASS_LENGTH = MODE + 8 };

/* The word of a name of one letter. */
static const uint8_t name_word[] = {0x03};

/* An object of one name, and of its class the only letter, which is all that is used of the store. */
static int wait_in_trait(size_t class_length) {
    static const uint8_t in_trait[] = {OBJECT_MARKER, 0x13, 0x03, 'C'};
    if (!begins(few, &start)) return 0;
    pb_answer answer = pb_feed(start.state, LEND(&start.loans, few), in_trait, sizeof in_trait);
    start.state[CLASS_LENGTH] = class_length;
    return answer_is(answer, waiting(sizeof in_trait));
}

/* The class is within the used store: the word of the name is taken, and the length stays as it is. */
static int class_within(size_t class_length) {
    if (!wait_in_trait(1)) return 0;
    copy_moment(few, &want, &start);
    pb_answer answer = pb_feed(want.state, LEND(&want.loans, few), name_word, sizeof name_word);
    want.state[CLASS_LENGTH] = class_length;
    if (!answer_is(answer, waiting(sizeof name_word)) || !wait_in_trait(class_length)) return 0;
    return answer_is(pb_feed(start.state, LEND(&start.loans, few), name_word, sizeof name_word), answer) && same_moment(few, &start, &want);
}

static void try_class_lengths(void) {
    static const size_t past[] = {2, SIZE_MAX};
    for (size_t i = 0; i < sizeof past / sizeof *past; i++) {
        about("12, a class of %zu letters", past[i]);
        count(wait_in_trait(past[i]) && piece_refused(few, name_word, sizeof name_word, 0, refused(PB_LOST, 0, 0)));
    }
    about("no 12, a class of no letters");
    count(class_within(0));
}

/* A loan is lent with another length than at the beginning: no byte changes nothing, a byte is refused with 12, and the end with 2. */
static int lent_otherwise(int loan, size_t n) {
    size_t lent[LOANS];
    memcpy(lent, few, sizeof lent);
    if (!wait_in_string()) return 0;
    lend_anew(&start.loans, lent, loan, n);
    return none_changes_nothing(lent, waiting(0)) && piece_refused(lent, letter, sizeof letter, 0, refused(PB_LOST, 0, 0)) &&
           end_refused(lent, refused(PB_UNEXPECTED_END, 0, sizeof in_string));
}

/* It is so long also by the state: 12 only where 1 would refuse it. */
static int begun_otherwise(int loan, size_t n, int allowed) {
    size_t lent[LOANS];
    memcpy(lent, few, sizeof lent);
    if (!wait_in_string()) return 0;
    copy_moment(few, &want, &start);
    pb_answer answer = pb_feed(want.state, LEND(&want.loans, few), letter, sizeof letter);
    lend_anew(&start.loans, lent, loan, n);
    start.state[LENT + loan] = n;
    if (!allowed) return piece_refused(lent, letter, sizeof letter, 0, refused(PB_LOST, 0, 0));
    memcpy(lent, few, sizeof lent);
    lend_anew(&want.loans, lent, loan, n);
    want.state[LENT + loan] = n;
    copy_moment(lent, &now, &start);
    return answer_is(answer, waiting(sizeof letter)) && answer_is(pb_feed(now.state, LEND(&now.loans, lent), letter, sizeof letter), answer) &&
           same_moment(lent, &now, &want);
}

static void try_lengths(int loan) {
    size_t width = widths[loan];
    const size_t others[] = {0, few[loan] - width, few[loan] + width, most[loan], few[loan] - 1, few[loan] + 1};
    for (size_t i = 0; i < (width == 1 ? 4 : sizeof others / sizeof *others); i++) {
        about("12, %s of %zu numbers", loan_names[loan], others[i]);
        count(lent_otherwise(loan, others[i]));
    }
    about("12, as many %s as there may be, by the state too", loan_names[loan]);
    count(begun_otherwise(loan, most[loan], 1));
    about("12, more %s than there may be, by the state too", loan_names[loan]);
    count(begun_otherwise(loan, most[loan] + width, 0));
    if (width == 1) return;
    about("12, not whole %s, by the state too", loan_names[loan]);
    count(begun_otherwise(loan, few[loan] + 1, 0));
}

int main(void) {
    try_loans();
    try_full_message();
    try_long_message();
    try_items();
    try_never_begun();
    try_told_dates();
    try_waiting_lost();
    try_class_lengths();
    for (int loan = 0; loan < LOANS; loan++) try_lengths(loan);
    return tally();
}
