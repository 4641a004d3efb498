/* What the tests in C share: the six loans with a guard behind each, answers, states and loans compared number by number, draws, and the tally. A program that
 * includes it says before that how much it lends at most: MOST_NUMBERS of one loan, and MOST_BYTES of the store. */
#ifndef LENT_H
#define LENT_H

#include <stdarg.h>
#include <stdio.h>
#include <string.h>

#include "pinebuckle.h"

/* What is lent holds this in every byte before a call, and so many numbers or bytes behind it still hold it afterwards. */
enum { FILLING = 0x5a, GUARD = 8 };

/* A byte that a reading could begin with. */
static const uint8_t one_byte[] = {0x01};

/* The loans by index. */
enum { IN_ROWS, IN_STORE, IN_STRINGS, IN_OBJECTS, IN_TRAITS, IN_NAMES, LOANS };

/* A state, as docs/LAYOUT.md has it: places in it, and numbers that stand there. */
enum { STATUS, NUMBER, TOLD, PLACE, LENT, TAKEN = LENT + LOANS, USED, DEPTH = USED + LOANS, MODE, FRAMES = MODE + 14 };
enum { IS_WAITING = 1, IS_FINISHED = 2, IS_REFUSED = 3, AT_MARKER = 1 };

static const char *const loan_names[LOANS] = {"rows", "store", "strings", "objects", "traits", "names"};
static const size_t widths[LOANS] = {PB_ROW_WIDTH, 1, PB_STRING_WIDTH, 1, PB_TRAIT_WIDTH, PB_NAME_WIDTH};

/* The six loans; the store is bytes, the others numbers. */
typedef struct {
    size_t numbers[LOANS][MOST_NUMBERS + GUARD];
    uint8_t store[MOST_BYTES + GUARD];
} loans;

/* All that a feed holds after some bytes. */
typedef struct {
    size_t state[PB_STATE_WORDS + GUARD];
    loans loans;
} moment;

#define LEND(l, lent)                                                                                                                                         \
    (l)->numbers[IN_ROWS], (lent)[IN_ROWS], (l)->store, (lent)[IN_STORE], (l)->numbers[IN_STRINGS], (lent)[IN_STRINGS], (l)->numbers[IN_OBJECTS],             \
        (lent)[IN_OBJECTS], (l)->numbers[IN_TRAITS], (lent)[IN_TRAITS], (l)->numbers[IN_NAMES], (lent)[IN_NAMES]

/* ---- the tally */

static size_t passed, failed;
static char check[160];
static int complained;

/* Says what is tried next. */
static inline void about(const char *form, ...) {
    va_list values;
    va_start(values, form);
    vsnprintf(check, sizeof check, form, values);
    va_end(values);
}

/* Says where and what is wrong, once for each check. Always 0. */
static inline int wrong(const char *form, ...) {
    if (complained++) return 0;
    printf("%s: ", check);
    va_list values;
    va_start(values, form);
    vprintf(form, values);
    va_end(values);
    printf("\n");
    return 0;
}

/* Ends a check. */
static inline void count(int right) {
    if (right)
        passed++;
    else
        failed++;
    complained = 0;
}

/* The last line, and the exit status. */
static inline int tally(void) {
    printf("%zu passed, %zu failed\n", passed, failed);
    return failed != 0;
}

/* ---- draws, the same in every run */

/* The next number of a seed, by splitmix64. */
static inline uint64_t next_draw(uint64_t *seed) {
    uint64_t x = *seed += 0x9e3779b97f4a7c15;
    x = (x ^ x >> 30) * 0xbf58476d1ce4e5b9;
    x = (x ^ x >> 27) * 0x94d049bb133111eb;
    return x ^ x >> 31;
}

/* ---- loans */

static inline size_t number_in(const loans *l, int loan, size_t i) { return loan == IN_STORE ? l->store[i] : l->numbers[loan][i]; }

static inline size_t *row_of(loans *l, size_t row) { return l->numbers[IN_ROWS] + row * PB_ROW_WIDTH; }

static inline void set_number(loans *l, int loan, size_t i, size_t x) {
    if (loan == IN_STORE)
        l->store[i] = (uint8_t)x;
    else
        l->numbers[loan][i] = x;
}

/* What a number of a loan is that holds the filling. */
static inline size_t filling_in(int loan) {
    size_t number;
    memset(&number, FILLING, sizeof number);
    return loan == IN_STORE ? FILLING : number;
}

/* Sets the first n numbers of a loan to a byte in all their bytes. */
static inline void set_all(loans *l, int loan, size_t n, int byte) {
    if (loan == IN_STORE)
        memset(l->store, byte, n);
    else
        memset(l->numbers[loan], byte, n * sizeof(size_t));
}

static inline void fill(loans *l, const size_t *lent) {
    for (int i = 0; i < LOANS; i++) set_all(l, i, lent[i] + GUARD, FILLING);
}

/* Zero as far as they are lent, the filling behind. */
static inline void clear(loans *l, const size_t *lent) {
    fill(l, lent);
    for (int i = 0; i < LOANS; i++) set_all(l, i, lent[i], 0);
}

/* Lends a loan with so many numbers: what is added is zero, and the guard stands behind. */
static inline void lend_anew(loans *l, size_t *lent, int loan, size_t n) {
    for (size_t i = lent[loan]; i < n; i++) set_number(l, loan, i, 0);
    for (size_t i = n; i < n + GUARD; i++) set_number(l, loan, i, filling_in(loan));
    lent[loan] = n;
}

static inline void copy_loans(loans *to, const loans *from, const size_t *lent) {
    memcpy(to->store, from->store, lent[IN_STORE] + GUARD);
    for (int i = 0; i < LOANS; i++)
        if (i != IN_STORE) memcpy(to->numbers[i], from->numbers[i], (lent[i] + GUARD) * sizeof(size_t));
}

static inline int same_loan(const loans *a, const loans *b, int loan, size_t n) {
    return loan == IN_STORE ? !memcmp(a->store, b->store, n) : !memcmp(a->numbers[loan], b->numbers[loan], n * sizeof(size_t));
}

static inline int loans_are(const loans *got, const loans *want, const size_t *lent) {
    for (int loan = 0; loan < LOANS; loan++) {
        if (same_loan(got, want, loan, lent[loan] + GUARD)) continue;
        size_t i = 0;
        while (number_in(got, loan, i) == number_in(want, loan, i)) i++;
        return wrong("%s[%zu] is %zx, not %zx", loan_names[loan], i, number_in(got, loan, i), number_in(want, loan, i));
    }
    return 1;
}

/* ---- answers */

static inline pb_answer waiting(size_t taken) { return (pb_answer){.kind = PB_WAITING, .taken = taken}; }

static inline pb_answer finished(size_t rows, size_t bytes, size_t taken) {
    return (pb_answer){.kind = PB_FINISHED, .rows = rows, .bytes = bytes, .taken = taken};
}

static inline pb_answer refused(size_t no, size_t told, size_t place) {
    return (pb_answer){.kind = PB_REFUSED, .no = no, .told = told, .place = place};
}

static inline pb_answer with_taken(pb_answer a, size_t taken) {
    a.taken = taken;
    return a;
}

static inline int answer_is(pb_answer got, pb_answer want) {
    static const char *const names[] = {"kind", "no", "told", "place", "rows", "bytes", "taken"};
    const size_t g[] = {got.kind, got.no, got.told, got.place, got.rows, got.bytes, got.taken};
    const size_t w[] = {want.kind, want.no, want.told, want.place, want.rows, want.bytes, want.taken};
    for (size_t i = 0; i < sizeof names / sizeof *names; i++)
        if (g[i] != w[i]) return wrong("the answer's %s is %zx, not %zx", names[i], g[i], w[i]);
    return 1;
}

/* ---- milliseconds */

static inline int millis_are(pb_moment got, pb_moment want) {
    if (got.found != want.found) return wrong("the date's found is %zx, not %zx", got.found, want.found);
    return got.millis == want.millis || wrong("the date's millis is %zx, not %zx", (size_t)got.millis, (size_t)want.millis);
}

/* ---- states */

static inline int state_is(const size_t *got, const size_t *want) {
    for (size_t i = 0; i < PB_STATE_WORDS + GUARD; i++)
        if (got[i] != want[i]) return wrong("state[%zu] is %zx, not %zx", i, got[i], want[i]);
    return 1;
}

/* Sets the numbers of a state that don't depend on what is in work. */
static inline void set_known(size_t *state, const size_t *lent, size_t status, pb_answer answer, size_t taken) {
    state[STATUS] = status;
    state[NUMBER] = answer.no;
    state[TOLD] = answer.told;
    state[PLACE] = answer.place;
    memcpy(state + LENT, lent, LOANS * sizeof *lent);
    state[TAKEN] = taken;
}

/* ---- moments */

static inline int same_moment(const size_t *lent, const moment *got, const moment *want) {
    return state_is(got->state, want->state) && loans_are(&got->loans, &want->loans, lent);
}

static inline void copy_moment(const size_t *lent, moment *to, const moment *from) {
    memcpy(to->state, from->state, sizeof to->state);
    copy_loans(&to->loans, &from->loans, lent);
}

static inline void fill_moment(const size_t *lent, moment *m) {
    memset(m->state, FILLING, sizeof m->state);
    fill(&m->loans, lent);
}

/* A state that has just begun, and its loans. */
static inline void set_begun(const size_t *lent, moment *m) {
    memset(m->state, FILLING, sizeof m->state);
    memset(m->state, 0, PB_STATE_WORDS * sizeof *m->state);
    set_known(m->state, lent, IS_WAITING, (pb_answer){0}, 0);
    m->state[MODE] = AT_MARKER;
    clear(&m->loans, lent);
}

/* A reading begins, whatever the state and the loans hold: every number of them is set. */
static inline int begins(const size_t *lent, moment *m) {
    static moment want;
    fill_moment(lent, m);
    set_begun(lent, &want);
    return answer_is(pb_begin(m->state, LEND(&m->loans, lent)), waiting(0)) && same_moment(lent, m, &want);
}

/* A state that has its answer gives it again to a byte, to no byte and to the end, and changes nothing. */
static inline int repeats(const size_t *lent, moment *m, pb_answer answer) {
    static moment before;
    pb_answer again = with_taken(answer, 0);
    copy_moment(lent, &before, m);
    return answer_is(pb_feed(m->state, LEND(&m->loans, lent), one_byte, sizeof one_byte), again) && same_moment(lent, m, &before) &&
           answer_is(pb_feed(m->state, LEND(&m->loans, lent), one_byte, 0), again) && same_moment(lent, m, &before) &&
           answer_is(pb_end(m->state, LEND(&m->loans, lent)), again) && same_moment(lent, m, &before);
}

#endif
