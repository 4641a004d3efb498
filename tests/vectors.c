/* Holds the calls of pinebuckle.h to lists of answers from outside. Run:
 *
 *     tools/library
 *     gcc -std=c99 -Wall -Wextra -Werror -O1 -Iinclude -o target/vectors tests/vectors.c target/staticlib/libpinebuckle.a
 *     target/vectors tests/lists/{altered,dates,examples,readings,replay,writings}.txt
 *
 * The first lines of each list have the form of its lines. A message is tried in four ways: read whole, fed by single bytes, fed as one piece, and fed in
 * two pieces, cut at every byte. The rows of a line are written in one way, and so are those that the crate's messages give. A row is asked for its milliseconds
 * once. A piece on an altered state is fed whole and by single bytes, in one check; everywhere else a line in one way is one check. Every field of every answer,
 * every number lent and the guard behind it, every number of the state and every byte of the output is compared.
 *
 * Prints what differs, its numbers in hexadecimal, a tally for each kind of line, and last 'N passed, M failed'. The exit status is 1 if a check fails, a line
 * can't be understood, or a list has no lines. */
#include "pinebuckle.h"

/* The most that a line can lend and have. Lines that name no loans lend just this. */
enum { ROWS = 256, STORE = 4096, STRINGS = 256, OBJECTS = 256, TRAITS = 64, NAMES = 256, OUTPUT = 512, MESSAGE = 256, LINE = 65536 };

/* A loan of numbers can be altered to one entry more than it may have; rows can't, which tests/refusals.c does. */
enum { MOST_NUMBERS = (PB_STRINGS_MOST + 1) * PB_STRING_WIDTH, MOST_BYTES = STORE };

#include "lent.h"

/* The output that is lent where a line names none. */
enum { REPLAY_OUTPUT = 400 };

static const size_t most[LOANS] = {ROWS * PB_ROW_WIDTH, STORE, STRINGS * PB_STRING_WIDTH, OBJECTS, TRAITS * PB_TRAIT_WIDTH, NAMES * PB_NAME_WIDTH};

/* A message and what must come of it. */
typedef struct {
    uint8_t message[MESSAGE];
    size_t length, lent[LOANS];
    pb_answer answer;    /* of the whole reading */
    loans left;          /* after it */
    size_t decided;      /* the bytes after which a feed has that answer; NEVER where only the end gives it */
    int listed, waiting; /* whether the loans are known from the line, and whether they are those of a feed that waits after the last byte */
    loans held;          /* these */
    size_t used[LOANS];  /* the numbers used of each loan, where listed */
} reading;

/* Rows and what must come of writing them. */
typedef struct {
    size_t rows[ROWS * PB_ROW_WIDTH], rows_len;
    uint8_t store[STORE];
    size_t store_len, room;
    pb_answer answer;
    uint8_t bytes[OUTPUT];
} writing;

#define NEVER ((size_t)-1)

/* ---- where we are */

static const char *file, *kind;
static size_t line_no;

/* A check of the line, in a way that may have a name. */
static void begin_check(const char *way) { about(way ? "%s:%zu: %s %s" : "%s:%zu: %s", file, line_no, kind, way); }

/* ---- what is held to what */

/* Whether a loan is zero behind so many entries, and the filling behind the loan. */
static int zero_behind(const loans *l, int loan, size_t entries, size_t lent) {
    if (lent / widths[loan] < entries) return wrong("%zx entries of %s are used", entries, loan_names[loan]);
    for (size_t i = entries * widths[loan]; i < lent; i++)
        if (number_in(l, loan, i)) return wrong("%s[%zu] is %zx and not used", loan_names[loan], i, number_in(l, loan, i));
    for (size_t i = lent; i < lent + GUARD; i++)
        if (number_in(l, loan, i) != filling_in(loan)) return wrong("%s[%zu] is %zx and not lent", loan_names[loan], i, number_in(l, loan, i));
    return 1;
}

/* What a feed answers to the bytes from one place to another. */
static pb_answer piece_answer(const reading *r, size_t from, size_t to) {
    if (to < r->decided) return waiting(to - from);
    return with_taken(r->answer, from < r->decided ? r->decided - from : 0);
}

static void set_used(size_t *state, const reading *r) {
    for (int i = 0; r->listed && i < LOANS; i++) state[USED + i] = r->used[i] / widths[i];
}

/* The loans are zero behind what the state says is used of them. */
static int zero_behind_used(const reading *r, const moment *m) {
    for (int i = 0; i < LOANS; i++)
        if (!zero_behind(&m->loans, i, m->state[USED + i], r->lent[i])) return 0;
    return 1;
}

/* A state that has its answer, and the loans: the head has nothing else, and the frames are as they were before. */
static int decided_right(const reading *r, const moment *before, const moment *m) {
    size_t want[PB_STATE_WORDS + GUARD];
    memcpy(want, before->state, sizeof want);
    memset(want, 0, FRAMES * sizeof *want);
    if (r->answer.kind == PB_FINISHED) {
        memcpy(want + USED, m->state + USED, LOANS * sizeof *want);
        set_used(want, r);
        want[USED + IN_ROWS] = r->answer.rows;
        want[USED + IN_STORE] = r->answer.bytes;
        set_known(want, r->lent, IS_FINISHED, r->answer, r->decided);
    } else {
        set_known(want, r->lent, IS_REFUSED, r->answer, 0);
    }
    return state_is(m->state, want) && loans_are(&m->loans, &r->left, r->lent) && (r->answer.kind == PB_REFUSED || zero_behind_used(r, m));
}

/* A feed that waits: what is known of its state, and its loans. */
static int waiting_right(const reading *r, size_t taken, const moment *m) {
    size_t want[PB_STATE_WORDS + GUARD];
    memcpy(want, m->state, sizeof want);
    memset(want + PB_STATE_WORDS, FILLING, GUARD * sizeof *want);
    set_known(want, r->lent, IS_WAITING, (pb_answer){0}, taken);
    int last = r->waiting && taken == r->length;
    if (last) set_used(want, r);
    return state_is(m->state, want) && zero_behind_used(r, m) && (!last || loans_are(&m->loans, &r->held, r->lent));
}

/* ---- the ways of a message */

/* What the feed holds after so many single bytes, and what it holds in the way that is tried. */
static moment after[MESSAGE + 1], now;

static int feed(const reading *r, moment *m, size_t from, size_t to) {
    return answer_is(pb_feed(m->state, LEND(&m->loans, r->lent), r->message + from, to - from), piece_answer(r, from, to));
}

/* All bytes were fed: the end, and what comes after it. */
static int ends(const reading *r) {
    return answer_is(pb_end(now.state, LEND(&now.loans, r->lent)), with_taken(r->answer, 0)) && decided_right(r, &after[r->length], &now) &&
           repeats(r->lent, &now, r->answer);
}

/* Goes on after a fault, so that the other ways are compared with this message. */
static int by_single_bytes(const reading *r) {
    int right = begins(r->lent, &after[0]);
    for (size_t n = 1; n <= r->length; n++) {
        copy_moment(r->lent, &after[n], &after[n - 1]);
        right &= feed(r, &after[n], n - 1, n);
        right &= n < r->decided ? waiting_right(r, n, &after[n]) : decided_right(r, &after[n - 1], &after[n]);
    }
    copy_moment(r->lent, &now, &after[r->length]);
    return right && ends(r);
}

static int as_one_piece(const reading *r) {
    return begins(r->lent, &now) && feed(r, &now, 0, r->length) && same_moment(r->lent, &now, &after[r->length]) && ends(r);
}

static int in_two_pieces(const reading *r, size_t cut) {
    about("%s:%zu: %s cut at %zu", file, line_no, kind, cut);
    return begins(r->lent, &now) && feed(r, &now, 0, cut) && same_moment(r->lent, &now, &after[cut]) && feed(r, &now, cut, r->length) &&
           same_moment(r->lent, &now, &after[r->length]) && ends(r);
}

static int at_every_cut(const reading *r) {
    for (size_t cut = 0; cut <= r->length; cut++)
        if (!in_two_pieces(r, cut)) return 0;
    return 1;
}

/* Where the line doesn't say what a finished reading leaves, that of the whole reading is what the other ways must give. */
static int take_over(reading *r, pb_answer a) {
    if (a.kind == PB_FINISHED && a.rows == 0) return wrong("no rows");
    if (!zero_behind(&now.loans, IN_ROWS, a.rows, r->lent[IN_ROWS]) || !zero_behind(&now.loans, IN_STORE, a.bytes, r->lent[IN_STORE])) return 0;
    for (int i = IN_STRINGS; i < LOANS; i++)
        if (!zero_behind(&now.loans, i, r->lent[i] / widths[i], r->lent[i])) return 0;
    r->answer.rows = a.rows;
    r->answer.bytes = a.bytes;
    copy_loans(&r->left, &now.loans, r->lent);
    return answer_is(a, r->answer);
}

static int read_whole(reading *r) {
    fill(&now.loans, r->lent);
    pb_answer a = pb_read(LEND(&now.loans, r->lent), r->message, r->length);
    if (r->answer.kind == PB_FINISHED && !r->listed) return take_over(r, a);
    return answer_is(a, r->answer) && loans_are(&now.loans, &r->left, r->lent);
}

static void try_message(reading *r) {
    begin_check("whole");
    count(read_whole(r));
    begin_check("by single bytes");
    count(by_single_bytes(r));
    begin_check("as one piece");
    count(as_one_piece(r));
    count(at_every_cut(r));
}

/* ---- writings */

static int write_right(const writing *w) {
    static writing given;
    uint8_t got[OUTPUT + GUARD], want[OUTPUT + GUARD];
    given = *w;
    memset(got, FILLING, sizeof got);
    memset(want, FILLING, sizeof want);
    memcpy(want, w->bytes, w->answer.bytes);
    if (!answer_is(pb_write(given.rows, given.rows_len, given.store, given.store_len, got, w->room), w->answer)) return 0;
    for (size_t i = 0; i < sizeof got; i++)
        if (got[i] != want[i]) return wrong("output[%zu] is %x, not %x", i, got[i], want[i]);
    if (memcmp(given.rows, w->rows, sizeof given.rows) || memcmp(given.store, w->store, sizeof given.store)) return wrong("what is written changed");
    return 1;
}

/* ---- the words of a line */

static char line[LINE];
static const char *at;
static int broken;

/* The word that stands next, which may be empty. */
static size_t next_word(const char **word) {
    size_t n = strcspn(at, " ");
    *word = at;
    at += n + (at[n] == ' ');
    return n;
}

static size_t not_understood(void) {
    broken = 1;
    return 0;
}

static size_t digits(const char *word, size_t n) {
    static const char all[] = "0123456789abcdef";
    size_t x = 0;
    for (size_t i = 0; i < n; i++) {
        const char *digit = memchr(all, word[i], sizeof all - 1);
        if (!digit) return not_understood();
        x = x << 4 | (size_t)(digit - all);
    }
    return x;
}

static size_t number(void) {
    const char *word;
    size_t n = next_word(&word);
    return n == 0 || 2 * sizeof(size_t) < n ? not_understood() : digits(word, n);
}

/* A number that is at most so large. */
static size_t number_to(size_t limit) {
    size_t x = number();
    return limit < x ? not_understood() : x;
}

/* Bytes, at most so many; there may be none. */
static size_t bytes(uint8_t *to, size_t limit) {
    const char *word;
    size_t n = next_word(&word);
    if (n % 2 || limit < n / 2) return not_understood();
    for (size_t i = 0; i < n / 2; i++) to[i] = (uint8_t)digits(word + 2 * i, 2);
    return n / 2;
}

/* How many numbers, and they. */
static size_t list(size_t *to, size_t limit) {
    size_t n = number_to(limit);
    for (size_t i = 0; i < n; i++) to[i] = number();
    return n;
}

static int understood(void) { return !broken && *at == 0; }

/* ---- the kinds of lines; each is 0 if it can't be understood */

static reading read_now;
static writing write_now;

/* MESSAGE, the lengths of the loans, NO TOLD PLACE TAKEN, and what is used of each loan */
static int listed_reading(reading *r) {
    r->length = bytes(r->message, MESSAGE);
    for (int i = 0; i < LOANS; i++) r->lent[i] = number_to(most[i]);
    size_t no = number(), told = number(), place = number(), taken = number();
    clear(&r->held, r->lent);
    for (int i = 0; i < LOANS; i++) r->used[i] = i == IN_STORE ? bytes(r->held.store, r->lent[i]) : list(r->held.numbers[i], r->lent[i]);
    r->listed = 1;
    r->waiting = 0;
    r->answer = no ? refused(no, told, place) : finished(r->used[IN_ROWS] / PB_ROW_WIDTH, r->used[IN_STORE], taken);
    r->decided = no == PB_UNEXPECTED_END ? NEVER : no ? place : taken;
    if (!no && (told || place || r->length < taken)) return 0;
    if (no && taken) return 0;
    return understood();
}

static int try_reading(void) {
    reading *r = &read_now;
    if (!listed_reading(r)) return 0;
    copy_loans(&r->left, &r->held, r->lent);
    try_message(r);
    return 1;
}

/* The same, of a feed that waits: the end refuses it. */
static int try_waiting(void) {
    reading *r = &read_now;
    if (!listed_reading(r) || r->answer.kind != PB_FINISHED || r->answer.taken != r->length) return 0;
    r->waiting = 1;
    r->answer = refused(PB_UNEXPECTED_END, 0, r->length);
    r->decided = NEVER;
    clear(&r->left, r->lent);
    try_message(r);
    return 1;
}

/* MESSAGE, with all that is there lent */
static void replayed(reading *r) {
    r->length = bytes(r->message, MESSAGE);
    r->listed = 0;
    r->waiting = 0;
    memcpy(r->lent, most, sizeof most);
    clear(&r->left, r->lent);
}

/* MESSAGE NO TOLD PLACE */
static int try_refused(void) {
    reading *r = &read_now;
    replayed(r);
    size_t no = number(), told = number(), place = number();
    r->answer = refused(no, told, place);
    r->decided = no == PB_UNEXPECTED_END ? NEVER : place;
    if (!understood() || !no) return 0;
    try_message(r);
    return 1;
}

/* Writes what the whole reading left, as so many bytes. */
static void try_rewriting(const reading *r, size_t n) {
    writing *w = &write_now;
    w->rows_len = r->answer.rows * PB_ROW_WIDTH;
    memcpy(w->rows, r->left.numbers[IN_ROWS], w->rows_len * sizeof(size_t));
    w->store_len = r->lent[IN_STORE];
    memcpy(w->store, r->left.store, w->store_len);
    w->room = REPLAY_OUTPUT;
    w->answer = finished(0, n, 0);
    begin_check("written again");
    count(write_right(w));
}

/* MESSAGE TAKEN WRITTEN */
static int try_finished(void) {
    reading *r = &read_now;
    replayed(r);
    r->decided = number_to(r->length);
    r->answer = finished(0, 0, r->decided);
    size_t n = bytes(write_now.bytes, REPLAY_OUTPUT);
    if (!understood() || !n) return 0;
    try_message(r);
    try_rewriting(r, n);
    return 1;
}

/* ROWS STORE ROOM NO TOLD PLACE BYTES */
static int try_writing(void) {
    writing *w = &write_now;
    w->rows_len = list(w->rows, ROWS * PB_ROW_WIDTH);
    w->store_len = bytes(w->store, STORE);
    w->room = number_to(OUTPUT);
    size_t no = number(), told = number(), place = number();
    size_t n = bytes(w->bytes, w->room);
    w->answer = no ? refused(no, told, place) : finished(0, n, 0);
    if (!understood() || (no ? n != 0 : told || place)) return 0;
    begin_check(NULL);
    count(write_right(w));
    return 1;
}

/* ROWS STORE ROW FOUND MILLIS */
static int try_millis(void) {
    static const uint8_t store[PB_STORE_MOST + 1];
    static size_t given[ROWS * PB_ROW_WIDTH];
    writing *w = &write_now;
    w->rows_len = list(w->rows, ROWS * PB_ROW_WIDTH);
    size_t store_len = number_to(sizeof store), row = number(), found = number_to(1);
    pb_moment due = {found, (int64_t)number()};
    if (!understood() || (!found && due.millis)) return 0;
    memcpy(given, w->rows, sizeof given);
    begin_check(NULL);
    int right = millis_are(pb_millis(given, w->rows_len, store, store_len, row), due);
    count(right && (!memcmp(given, w->rows, sizeof given) || wrong("the rows changed")));
    return 1;
}

/* ---- altered states */

/* What a change is of: the state, a loan by its number from 1, or the length that a loan is lent with. */
enum { OF_STATE = 0, OF_LENGTH = 0x10 };

/* WHAT INDEX NUMBER, so many times. */
static void changes(moment *m, size_t *lent) {
    for (size_t n = number_to(PB_STATE_WORDS); n > 0 && !broken; n--) {
        size_t what = number_to(OF_LENGTH + LOANS), i = number(), x = number();
        int loan = (int)(what % OF_LENGTH) - 1;
        if (what == OF_STATE && i < PB_STATE_WORDS)
            m->state[i] = x;
        else if (loan < 0 || LOANS <= loan)
            not_understood();
        else if (OF_LENGTH < what && x <= (loan == IN_STORE ? MOST_BYTES : MOST_NUMBERS))
            lend_anew(&m->loans, lent, loan, x);
        else if (what < OF_LENGTH && i < lent[loan])
            set_number(&m->loans, loan, i, x);
        else
            not_understood();
    }
}

/* A message that waits, or finishes with its last byte. */
static int feed_before(const reading *r) {
    const size_t *used = now.state + USED;
    pb_answer a = pb_feed(now.state, LEND(&now.loans, r->lent), r->message, r->length);
    return answer_is(a, now.state[STATUS] == IS_FINISHED ? finished(used[IN_ROWS], used[IN_STORE], r->length) : waiting(r->length));
}

/* Feeds a piece as one, or by single bytes; what then has its answer repeats it. */
static int altered_right(const reading *r, const moment *start, const moment *want, size_t step) {
    size_t taken = 0, n = r->length;
    pb_answer a;
    copy_moment(r->lent, &now, start);
    for (size_t i = 0; i == 0 || i < n; i += step) {
        a = pb_feed(now.state, LEND(&now.loans, r->lent), r->message + i, n - i < step ? n - i : step);
        taken += a.taken;
    }
    if (!answer_is(with_taken(a, taken), r->answer) || !same_moment(r->lent, &now, want)) return 0;
    return n == 0 || a.kind == PB_WAITING || repeats(r->lent, &now, r->answer);
}

/* The lengths of the loans, MESSAGE CHANGES PIECE, KIND NO TOLD PLACE ROWS BYTES TAKEN, ZERO CHANGES */
static int try_altered(void) {
    static moment start, want;
    reading *r = &read_now;
    for (int i = 0; i < LOANS; i++) r->lent[i] = number_to(most[i]);
    r->length = bytes(r->message, MESSAGE);
    begin_check(NULL);
    int right = begins(r->lent, &now) && feed_before(r);
    copy_moment(r->lent, &start, &now);
    changes(&start, r->lent);
    r->length = bytes(r->message, MESSAGE);
    size_t *const fields[] = {&r->answer.kind, &r->answer.no, &r->answer.told, &r->answer.place, &r->answer.rows, &r->answer.bytes, &r->answer.taken};
    for (size_t i = 0; i < sizeof fields / sizeof *fields; i++) *fields[i] = number();
    copy_moment(r->lent, &want, &start);
    if (number_to(1)) clear(&want.loans, r->lent);
    changes(&want, r->lent);
    if (!understood()) return 0;
    count(right && altered_right(r, &start, &want, MESSAGE) && altered_right(r, &start, &want, 1));
    return 1;
}

/* ---- the lists */

static struct {
    const char *name;
    int (*try_line)(void);
    size_t lines, passed, failed;
} kinds[] = {
    {"reading", try_reading, 0, 0, 0},
    {"example", try_reading, 0, 0, 0},
    {"waiting", try_waiting, 0, 0, 0},
    {"written", try_writing, 0, 0, 0},
    {"writing", try_writing, 0, 0, 0},
    {"millis", try_millis, 0, 0, 0},
    {"finished", try_finished, 0, 0, 0},
    {"refused", try_refused, 0, 0, 0},
    {"altered", try_altered, 0, 0, 0},
};

enum { KINDS = sizeof kinds / sizeof *kinds };

/* The kind of a line, or KINDS where it has none. */
static size_t kind_of(void) {
    const char *word;
    size_t n = next_word(&word), i = 0;
    while (i < KINDS && (strlen(kinds[i].name) != n || memcmp(kinds[i].name, word, n))) i++;
    return i;
}

static void fault(const char *what) {
    begin_check(NULL);
    count(wrong("%s", what));
}

static void try_line(void) {
    size_t n = strcspn(line, "\n"), passed_before = passed, failed_before = failed;
    int whole = line[n] == '\n';
    line[n] = 0;
    at = line;
    broken = 0;
    kind = "a line";
    size_t k = kind_of();
    if (k == KINDS) {
        fault("of no known kind");
        return;
    }
    kind = kinds[k].name;
    if (!whole || !kinds[k].try_line()) fault("can't be understood");
    kinds[k].lines++;
    kinds[k].passed += passed - passed_before;
    kinds[k].failed += failed - failed_before;
}

static void try_list(const char *name) {
    size_t lines = 0;
    file = name;
    line_no = 0;
    kind = "the list";
    FILE *f = fopen(name, "r");
    if (!f) {
        fault("can't be opened");
        return;
    }
    while (fgets(line, sizeof line, f)) {
        line_no++;
        if (line[0] == '#') continue;
        lines++;
        try_line();
    }
    kind = "the list";
    if (ferror(f)) fault("can't be read");
    if (lines == 0) fault("has no lines");
    fclose(f);
}

int main(int words, char **names) {
    if (words < 2) {
        fprintf(stderr, "usage: vectors LIST..\n");
        failed++;
    }
    for (int i = 1; i < words; i++) try_list(names[i]);
    for (size_t i = 0; i < KINDS; i++)
        if (kinds[i].lines) printf("%s: %zu lines, %zu right, %zu wrong\n", kinds[i].name, kinds[i].lines, kinds[i].passed, kinds[i].failed);
    return tally();
}
