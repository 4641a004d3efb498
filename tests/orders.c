/* No order hides in another. An order is the bytes that a writing gives; a list is orders joined, with nothing between them. Run:
 *
 *     tools/library
 *     gcc -std=c99 -Wall -Wextra -Werror -O1 -Iinclude -o target/orders tests/orders.c target/staticlib/libpinebuckle.a && target/orders
 *
 * It has some trees with their bytes by hand, and makes others of all kinds, each twice: the second time one choice is another, where there is one. A tree is
 * written from three tables: as it was made, as its plain message reads, and as a message reads that has all references there can be and all words in four
 * bytes. Any two orders are equal exactly if their trees are, and none begins another. No beginning of an order is read, and none is read in loans that lack a
 * row or a byte. What stands behind an order changes nothing. Lists that are read, or fed in pieces that don't heed the orders' ends, give each order as it is
 * read alone. Compared are every field of an answer but one place, every byte written, the loans after a finished reading of an order and after a refused one,
 * the state and the loans after a begin, and the state of an order that was fed with bytes behind it, each with its guard. Prints what differs, and last
 * 'N passed, M failed'. An order counts five: written, held to the others, cut, in loans that lack something, with bytes behind it; an example one more. A list
 * counts one read, and one for each size of pieces. The exit status is 1 if one fails. */
#include "made.h"

/* A tree, the bytes it is written as, and what reading these alone gives. */
typedef struct {
    tree tree;
    size_t length;
    uint8_t bytes[LONGEST];
    pb_answer answer;
    loans left;
} order;

/* ---- the orders: examples, and made ones */

static const struct {
    size_t length, used, rows[3][PB_ROW_WIDTH];
    uint8_t bytes[10];
} examples[] = {
    {1, 1, {{[PB_KIND] = PB_NULL, [PB_END] = 1}}, {0x01}},
    {9, 3, {{[PB_KIND] = PB_ARRAY, [PB_COUNT_2] = 2, [PB_END] = 3},
            {[PB_KIND] = PB_STRING, [PB_BODY_LENGTH] = 1, [PB_END] = 2},
            {[PB_KIND] = PB_STRING, [PB_BODY_LENGTH] = 1, [PB_END] = 3}}, {0x09, 0x05, 0x01, 0x06, 0x03, 'a', 0x06, 0x03, 'a'}},
    {1, 1, {{[PB_KIND] = PB_NULL, [PB_END] = 1}}, {0x01}},
    {2, 1, {{[PB_KIND] = PB_INTEGER, [PB_NUMBER] = 1, [PB_END] = 1}}, {0x04, 0x01}},
    {5, 1, {{[PB_KIND] = PB_INTEGER, [PB_NUMBER] = SIZE_MAX, [PB_END] = 1}}, {0x04, 0xff, 0xff, 0xff, 0xff}},
    {8, 2, {{[PB_KIND] = PB_OBJECT, [PB_COUNT_2] = 1, [PB_END] = 2},
            {[PB_KIND] = PB_INTEGER, [PB_KEY_MARK] = 1, [PB_KEY_LENGTH] = 1, [PB_NUMBER] = 1, [PB_END] = 2}}, {0x0a, 0x0b, 0x01, 0x03, 'a', 0x04, 0x01, 0x01}},
    {3, 1, {{[PB_KIND] = PB_ARRAY, [PB_END] = 1}}, {0x09, 0x01, 0x01}},
    {4, 2, {{[PB_KIND] = PB_ARRAY, [PB_COUNT_2] = 1, [PB_END] = 2}, {[PB_KIND] = PB_NULL, [PB_END] = 2}}, {0x09, 0x03, 0x01, 0x01}},
    {3, 1, {{[PB_KIND] = PB_STRING, [PB_BODY_LENGTH] = 1, [PB_END] = 1}}, {0x06, 0x03, 'a'}},
    {3, 1, {{[PB_KIND] = PB_INT_VECTOR, [PB_FLAG] = 1, [PB_END] = 1}}, {0x0d, 0x01, 0x01}},
    {3, 1, {{[PB_KIND] = PB_INT_VECTOR, [PB_END] = 1}}, {0x0d, 0x01, 0x00}},
    {10, 1, {{[PB_KIND] = PB_DATE, [PB_END] = 1}}, {0x08, 0x01}},
    {10, 1, {{[PB_KIND] = PB_DATE, [PB_NUMBER] = 0x8000000000000000, [PB_END] = 1}}, {0x08, 0x01, 0x80}},
    {10, 1, {{[PB_KIND] = PB_DATE, [PB_NUMBER] = 0xbfe0000000000000, [PB_END] = 1}}, {0x08, 0x01, 0xbf, 0xe0}},
};

enum { EXAMPLES = sizeof examples / sizeof *examples, MADE = 300, ORDERS = EXAMPLES + MADE };

static order orders[ORDERS];
static uint8_t joined[ORDERS * LONGEST];
static loans now, want;
static moment fed, fed_alone, begun;

/* The made trees have roots of all kinds, and then of those that have entries. */
static void set_tree(tree *t, size_t i) {
    if (i < EXAMPLES) {
        memcpy(t->rows, examples[i].rows, sizeof examples[i].rows);
        t->used = examples[i].used;
        return;
    }
    size_t made = (i - EXAMPLES) / 2, again = (i - EXAMPLES) % 2;
    seed = made;
    other_draw = again && drawn > 0 ? 1 + made % drawn : 0;
    drawn = 0;
    grow(t, made < PB_DICTIONARY ? PB_UNDEFINED + made : nested[made % (sizeof nested / sizeof *nested)], DEEPEST);
}

/* Rows are written as the order, and no byte behind it. */
static int written_again(const loans *l, pb_answer a, const order *o) {
    static uint8_t out[LONGEST];
    memset(out, FILLING, LONGEST);
    return answer_is(pb_write(l->numbers[IN_ROWS], a.rows * PB_ROW_WIDTH, l->store, a.bytes, out, LONGEST), finished(0, o->length, 0)) &&
           (!memcmp(out, o->bytes, LONGEST) || wrong("other bytes are written"));
}

/* The three tables of a tree are written alike. The bytes are its order; its length and its answer are those of the plain message. */
static int made_right(order *o) {
    o->answer = compose(&o->tree, 0);
    o->length = message.length;
    memcpy(o->bytes, message.bytes, LONGEST);
    memcpy(now.numbers[IN_ROWS], o->tree.rows, sizeof o->tree.rows);
    memcpy(now.store, pool, sizeof pool);
    if (!written_again(&now, finished(o->tree.used, sizeof pool, 0), o)) return 0;
    clear(&o->left, lent);
    if (!answer_is(pb_read(LEND(&o->left, lent), o->bytes, o->length), o->answer) || !written_again(&o->left, o->answer, o)) return 0;
    pb_answer loose = compose(&o->tree, 1);
    fill(&now, lent);
    return answer_is(pb_read(LEND(&now, lent), message.bytes, message.length), loose) && written_again(&now, loose, o);
}

static int apart_from_all(const order *o) {
    for (size_t i = 0; i < ORDERS; i++) {
        const order *p = &orders[i];
        int starts = !memcmp(o->bytes, p->bytes, o->length < p->length ? o->length : p->length);
        if (starts && o->length != p->length) return wrong("it begins order %zu, or that begins it", i);
        if (starts != same_value(&o->tree, o->tree.rows, &p->tree, p->tree.rows)) return wrong("it has only the %s of order %zu", starts ? "bytes" : "tree", i);
    }
    return 1;
}

static int no_beginning_read(const order *o) {
    fill(&now, lent);
    clear(&want, lent);
    for (size_t n = 0; n < o->length; n++)
        if (!answer_is(pb_read(LEND(&now, lent), o->bytes, n), refused(PB_UNEXPECTED_END, 0, n)) || !loans_are(&now, &want, lent)) return 0;
    return 1;
}

/* Loans with just as many rows and as much store as an order needs. */
static void lend_just(const order *o, size_t *just) {
    memcpy(just, lent, LOANS * sizeof *just);
    just[IN_ROWS] = o->answer.rows * PB_ROW_WIDTH;
    just[IN_STORE] = o->answer.bytes;
}

/* In loans that lack so much of one loan it is refused, with that loan told, and nothing is left. Its place is not compared. */
static int lacks(const order *o, int loan, size_t so_much) {
    size_t just[LOANS];
    lend_just(o, just);
    just[loan] -= so_much;
    fill(&now, just);
    clear(&want, just);
    pb_answer a = pb_read(LEND(&now, just), o->bytes, o->length);
    return answer_is(a, refused(PB_NO_ROOM, (size_t)loan + 1, a.place)) && loans_are(&now, &want, just);
}

/* With bytes behind it an order is read and fed as alone, in loans that have just the room. */
static int behind_right(const order *o, const uint8_t *bytes, size_t n) {
    size_t just[LOANS];
    lend_just(o, just);
    memcpy(joined, o->bytes, o->length);
    memcpy(joined + o->length, bytes, n);
    fill(&want, just);
    fill(&now, just);
    return begins(just, &fed) && begins(just, &fed_alone) && answer_is(pb_read(LEND(&want, just), joined, o->length), o->answer) &&
           answer_is(pb_read(LEND(&now, just), joined, o->length + n), o->answer) && loans_are(&now, &want, just) &&
           answer_is(pb_feed(fed_alone.state, LEND(&fed_alone.loans, just), joined, o->length), o->answer) && loans_are(&fed_alone.loans, &want, just) &&
           answer_is(pb_feed(fed.state, LEND(&fed.loans, just), joined, o->length + n), o->answer) && same_moment(just, &fed, &fed_alone);
}

static void try_order(size_t i) {
    static const uint8_t high[] = {0xff, 0xff}, nulls[] = {0x01, 0x01}, zeros[PB_MESSAGE_MOST];
    const order *o = &orders[i], *next = &orders[(i + 1) % ORDERS];
    about("order %zu and all others", i);
    count(apart_from_all(o));
    about("the beginnings of order %zu", i);
    count(no_beginning_read(o));
    about("order %zu in loans that lack a row or a byte", i);
    count(lacks(o, IN_ROWS, PB_ROW_WIDTH) && (o->answer.bytes == 0 || lacks(o, IN_STORE, 1)));
    about("order %zu with bytes behind it", i);
    count(behind_right(o, high, sizeof high) && behind_right(o, nulls, sizeof nulls) && behind_right(o, zeros, LONGEST) &&
          behind_right(o, next->bytes, next->length / 2));
    if (i >= EXAMPLES) return;
    about("example %zu, its bytes by hand, and as many behind it as a message may have", i);
    int same = o->length == examples[i].length && !memcmp(o->bytes, examples[i].bytes, o->length);
    count((same || wrong("it is written otherwise")) && behind_right(o, zeros, sizeof zeros));
}

/* ---- lists */

/* How many lists are drawn, each one order longer, and the most bytes of a piece that is drawn. */
enum { LISTS = 25, PIECE = 300 };

static const order *list[ORDERS];
static size_t listed, total;

/* Each reading begins where the one before it ended, in the loans as that left them. Behind the last order nothing is read. */
static int list_read(void) {
    size_t at = 0;
    fill(&now, lent);
    clear(&want, lent);
    for (size_t i = 0; i < listed; at += list[i++]->length)
        if (!answer_is(pb_read(LEND(&now, lent), joined + at, total - at), list[i]->answer) || !loans_are(&now, &list[i]->left, lent) ||
            !written_again(&now, list[i]->answer, list[i]))
            return 0;
    return answer_is(pb_read(LEND(&now, lent), joined + at, total - at), refused(PB_UNEXPECTED_END, 0, 0)) && loans_are(&now, &want, lent);
}

/* A reading begins in the state and the loans as the one before it left them, and sets every number of both. */
static int begins_anew(void) { return answer_is(pb_begin(fed.state, LEND(&fed.loans, lent)), waiting(0)) && same_moment(lent, &fed, &begun); }

/* Feeds pieces of so many bytes, or of as many as are drawn. What an order leaves of a piece goes to the next. */
static int list_fed(size_t size) {
    size_t at = 0, end = 0, piece_end = 0;
    fill_moment(lent, &fed);
    for (size_t i = 0; i < listed; i++) {
        if (!begins_anew()) return 0;
        for (end += list[i]->length; at < end;) {
            if (at == piece_end) piece_end += size ? size : 1 + draw(PIECE);
            if (piece_end > total) piece_end = total;
            pb_answer due = piece_end < end ? waiting(piece_end - at) : with_taken(list[i]->answer, end - at);
            if (!answer_is(pb_feed(fed.state, LEND(&fed.loans, lent), joined + at, piece_end - at), due)) return 0;
            at += due.taken;
        }
        if (!loans_are(&fed.loans, &list[i]->left, lent)) return 0;
    }
    clear(&want, lent);
    return begins_anew() && answer_is(pb_end(fed.state, LEND(&fed.loans, lent)), refused(PB_UNEXPECTED_END, 0, 0)) && loans_are(&fed.loans, &want, lent);
}

static void try_list(void) {
    static const size_t sizes[] = {1, 7, 64, 0};
    total = 0;
    for (size_t i = 0; i < listed; total += list[i++]->length) memcpy(joined + total, list[i]->bytes, list[i]->length);
    about("%zu orders read", listed);
    count(list_read());
    for (size_t i = 0; i < sizeof sizes / sizeof *sizes; i++) {
        about("%zu orders fed in pieces of %zu, where 0 are drawn ones", listed, sizes[i]);
        count(list_fed(sizes[i]));
    }
}

/* All orders, the examples first, and lists that are drawn, of which the first is empty. */
static void try_lists(void) {
    for (listed = 0; listed < ORDERS; listed++) list[listed] = &orders[listed];
    try_list();
    for (size_t n = 0; n < LISTS; n++) {
        for (listed = 0; listed < n; listed++) list[listed] = &ONE_OF(orders);
        try_list();
    }
}

int main(void) {
    set_begun(lent, &begun);
    for (size_t i = 0; i < ORDERS; i++) {
        about("the tree of order %zu", i);
        set_tree(&orders[i].tree, i);
        count(made_right(&orders[i]));
    }
    for (size_t i = 0; i < ORDERS; i++) try_order(i);
    try_lists();
    return tally();
}
