/* Lists, a dictionary, a document and a row for which 32 bits are not enough. Each is a good one whose length, or number, has 4,294,967,296
 * added: whoever looked at the low 32 bits alone would take it for the good one, or for one without room.
 *
 * All of the memory is there, as the header asks: one region of 16 GB without reservation. Pages of it that are only read are all the same
 * page of zeros, and few are written. Every function is called so. Only the tree check reads on for so long (the labels, before it looks at
 * the number of rows): that takes some seconds, so that a tree of two such lists is given to the lister alone. Its pages, the panel, the test
 * and the instance maker make the same check. */
#include <stdbool.h>
#include <sys/mman.h>
#include "compare.h"
#include "khargovsun.h"

#define WIDE 4294967296u
#define FAR 4294967295u
enum { BEHIND = 4096, APART = 16, ROOM = 8 };

static uint32_t *region;

static bool lend_region(void) {
    void *at = mmap(NULL, (WIDE + BEHIND) * sizeof *region, PROT_READ | PROT_WRITE, MAP_PRIVATE | MAP_ANONYMOUS | MAP_NORESERVE, -1, 0);
    region = at;
    return at != MAP_FAILED;
}

/* The list, laid into the region from an entry on, as one that is so much longer. */
static list longer(list l, size_t at) {
    for (size_t k = 0; k < l.n; k++) region[at + k] = l.at[k];
    return (list){region + at, WIDE + l.n};
}

static bytes longer_bytes(bytes b) {
    uint8_t *to = (uint8_t *)region;
    for (size_t k = 0; k < b.n; k++) to[k] = b.at[k];
    return (bytes){to, WIDE + b.n};
}

/* ---- Lists of a problem, and a record ---- */

enum { LABEL, SIZE, KIND, NAME, PATTERN_SIZE, EXPRESSION_KIND, EXPRESSION_NAME, EXPRESSION_SIZE, CONSTRAINT, RECORD, LISTS };

/* Q on T, its sequence variable in `a*`, and the first of its records. */
static const list GOOD[LISTS] = {LIST(0, 2, 7, 2, 7), LIST(5, 2, 1, 1, 1), LIST(4, 0, 2), LIST(0, 2, 1), LIST(3, 2, 1),
                                 LIST(4, 0), LIST(0, 7), LIST(2, 1), LIST(0, 0, 1, 0), LIST(0, 1, 2, 1)};

#define BIT(l) (1u << (l))
#define TREE (BIT(LABEL) | BIT(SIZE))
#define PATTERN (BIT(KIND) | BIT(NAME) | BIT(PATTERN_SIZE))
#define EXPRESSION (BIT(EXPRESSION_KIND) | BIT(EXPRESSION_NAME) | BIT(EXPRESSION_SIZE))

static const struct wide {
    const char *name;
    unsigned lists; /* those that are longer */
    uint32_t code;
} WIDES[] = {
    {"none", 0, 0},
    {"the labels", BIT(LABEL), 11},
    {"the sizes", BIT(SIZE), 11},
    {"labels and sizes", TREE, 11},
    {"the kinds", BIT(KIND), 12},
    {"the names", BIT(NAME), 12},
    {"the pattern's sizes", BIT(PATTERN_SIZE), 12},
    {"the pattern", PATTERN, 12},
    {"the expressions' kinds", BIT(EXPRESSION_KIND), 13},
    {"the expressions' names", BIT(EXPRESSION_NAME), 13},
    {"the expressions' sizes", BIT(EXPRESSION_SIZE), 13},
    {"the expressions", EXPRESSION, 13},
    {"the constraint list", BIT(CONSTRAINT), 14},
    {"the record", BIT(RECORD), 15},
    {"pattern, expressions, constraint list and record", PATTERN | EXPRESSION | BIT(CONSTRAINT) | BIT(RECORD), 12},
};

#define LENT(l) (l).at, (l).n
#define TREE_AND_PATTERN(l) LENT((l)[LABEL]), LENT((l)[SIZE]), LENT((l)[KIND]), LENT((l)[NAME]), LENT((l)[PATTERN_SIZE])
#define PROBLEM(l) TREE_AND_PATTERN(l), LENT((l)[EXPRESSION_KIND]), LENT((l)[EXPRESSION_NAME]), LENT((l)[EXPRESSION_SIZE]), LENT((l)[CONSTRAINT])

static const list RECORDS = LIST(0, 1, 2, 1, 0, 3, 4, 0);

static void listing_is(const char *name, const list *l, uint32_t code) {
    uint32_t out[ROOM];
    list none = NONE;
    mark(out, ROOM);
    khargovsun_listing got = khargovsun_list(PROBLEM(l), 1000, out, ROOM);
    same(name, "the lister's code", got.code, code);
    same(name, "the records", got.records, code ? 0 : 2);
    same(name, "the tries", got.tries, code ? 0 : 8);
    holds(name, "out", out, ROOM, code ? none : RECORDS);
}

/* After the first record the second is left, and four tries. */
static const list SECOND = LIST(0, 3, 4, 0);

static void page_is(const char *name, const list *l, uint32_t code) {
    uint32_t out[ROOM];
    list none = NONE;
    mark(out, ROOM);
    khargovsun_listing got = khargovsun_list_after(PROBLEM(l), LENT(l[RECORD]), 1000, out, ROOM);
    same(name, "the page's code", got.code, code);
    same(name, "the page's records", got.records, code ? 0 : 1);
    same(name, "the page's tries", got.tries, code ? 0 : 4);
    holds(name, "the page", out, ROOM, code ? none : SECOND);
}

/* The lists with a number for each problem of a panel; here one problem, the good one. */
enum { PATTERN_LENGTH, EXPRESSION_LENGTH, CONSTRAINT_LENGTH, BUDGET, SHARE, EACH };
static const list ONE[EACH] = {LIST(3), LIST(2), LIST(4), LIST(1000), LIST(ROOM)};

#define NUMBERS(e) LENT((e)[PATTERN_LENGTH]), LENT((e)[EXPRESSION_LENGTH]), LENT((e)[CONSTRAINT_LENGTH]), LENT((e)[BUDGET]), LENT((e)[SHARE])

/* Only the tree is for the answer to judge. */
static void panel_is(const char *name, const list *l, const list *each, uint32_t code, uint32_t code_of_answer) {
    uint32_t out[ROOM], answer[4];
    list none = NONE, found = LIST(0, 0, 2, 8), refused = LIST(code_of_answer, 0, 0, 0);
    mark(out, ROOM), mark(answer, 4);
    same(name, "the panel's code", khargovsun_panel(PROBLEM(l), NUMBERS(each), out, ROOM, answer, 4), code);
    holds(name, "the panel's answer", answer, 4, code ? none : code_of_answer ? refused : found);
    holds(name, "the panel's records", out, ROOM, code || code_of_answer ? none : RECORDS);
}

static void testing_is(const char *name, const list *l, uint32_t code) {
    khargovsun_testing got = khargovsun_test(PROBLEM(l), LENT(l[RECORD]));
    same(name, "the test's code", got.code, code);
    same(name, "the test's yes", got.yes, code == 0);
}

static void making_is(const char *name, const list *l, uint32_t code) {
    uint32_t label[ROOM], size[ROOM];
    list none = NONE;
    mark(label, ROOM), mark(size, ROOM);
    khargovsun_making got = khargovsun_instance(TREE_AND_PATTERN(l), LENT(l[RECORD]), label, ROOM, size, ROOM);
    same(name, "the instance maker's code", got.code, code);
    same(name, "the instance's rows", got.rows, code ? 0 : 5);
    holds(name, "the instance's labels", label, ROOM, code ? none : GOOD[LABEL]);
    holds(name, "the instance's sizes", size, ROOM, code ? none : GOOD[SIZE]);
}

static void problems(void) {
    for (size_t k = 0; k < COUNT(WIDES); k++) {
        const struct wide *w = &WIDES[k];
        list l[LISTS];
        for (int i = 0; i < LISTS; i++) l[i] = w->lists & BIT(i) ? longer(GOOD[i], (size_t)i * APART) : GOOD[i];
        listing_is(w->name, l, w->code == 15 ? 0 : w->code);
        if (w->lists == TREE) continue;
        page_is(w->name, l, w->code);
        panel_is(w->name, l, ONE, w->code >= 12 && w->code <= 14 ? 21 : 0, w->code == 11 ? 11 : 0);
        testing_is(w->name, l, w->code);
        making_is(w->name, l, w->code == 13 || w->code == 14 ? 0 : w->code);
    }
}

/* ---- A panel of two problems, the second of which begins beyond 32 bits ---- */

static const list TWO[EACH] = {LIST(3, 3), LIST(2, 2), LIST(4, 4), LIST(1000, 1000), LIST(ROOM, ROOM)};

static list twice(list l, uint32_t *to) {
    for (size_t k = 0; k < 2 * l.n; k++) to[k] = l.at[k % l.n];
    return (list){to, 2 * l.n};
}

/* The list behind 4,294,967,295 entries, laid into the region from an entry on. */
static list far_behind(list l, size_t at) {
    for (size_t k = 0; k < l.n; k++) region[at + FAR + k] = l.at[k];
    return (list){region + at, FAR + l.n};
}

/* These lists of the first problem are so long that it is refused; the second is answered as ever. */
static void second_is(const char *name, unsigned lists, int length, uint32_t code) {
    uint32_t both[LISTS][2 * ROOM], out[2 * ROOM], answer[8];
    list l[LISTS], each[EACH], first = LIST(FAR, TWO[length].at[1]), none = NONE, answers = LIST(code, 0, 0, 0, 0, 0, 2, 8);
    for (int i = 0; i < LISTS; i++)
        l[i] = TREE & BIT(i) ? GOOD[i] : lists & BIT(i) ? far_behind(GOOD[i], (size_t)i * APART) : twice(GOOD[i], both[i]);
    for (int i = 0; i < EACH; i++) each[i] = i == length ? first : TWO[i];
    mark(out, 2 * ROOM), mark(answer, 8);
    same(name, "the code", khargovsun_panel(PROBLEM(l), NUMBERS(each), out, 2 * ROOM, answer, 8), 0);
    holds(name, "answer", answer, 8, answers);
    holds(name, "the first share", out, ROOM, none);
    holds(name, "the second share", out + ROOM, ROOM, RECORDS);
}

/* Both are answered, each in its share of the region. */
static void second_share(void) {
    uint32_t both[LISTS][2 * ROOM], answer[8];
    list l[LISTS], each[EACH], shares = LIST(FAR, ROOM), answers = LIST(0, 0, 2, 8, 0, 0, 2, 8);
    for (int i = 0; i < LISTS; i++) l[i] = TREE & BIT(i) ? GOOD[i] : twice(GOOD[i], both[i]);
    for (int i = 0; i < EACH; i++) each[i] = i == SHARE ? shares : TWO[i];
    mark(region, BEHIND), mark(region + FAR, BEHIND), mark(answer, 8);
    same("a long share", "the code", khargovsun_panel(PROBLEM(l), NUMBERS(each), region, (size_t)FAR + ROOM, answer, 8), 0);
    holds("a long share", "answer", answer, 8, answers);
    holds("a long share", "out", region, BEHIND, RECORDS);
    holds("a share behind a long one", "out", region + FAR, BEHIND, RECORDS);
}

static void panels(void) {
    for (int k = 0; k < EACH; k++) {
        list each[EACH];
        for (int i = 0; i < EACH; i++) each[i] = i == k ? longer(ONE[i], 0) : ONE[i];
        panel_is("a long list of numbers", GOOD, each, 21, 0);
    }
    second_is("a pattern behind a long one", PATTERN, PATTERN_LENGTH, 12);
    second_is("expressions behind long ones", EXPRESSION, EXPRESSION_LENGTH, 13);
    second_is("constraints behind long ones", BIT(CONSTRAINT), CONSTRAINT_LENGTH, 14);
    second_share();
}

/* ---- Lists that are written: the low 32 bits of their lengths have no room, or room for one record ---- */

static void marked_region(void) {
    mark(region, BEHIND);
}

static void records_out(size_t more) {
    marked_region();
    khargovsun_listing got = khargovsun_list(PROBLEM(GOOD), 1000, region, WIDE + more);
    same("a long list for the records", "the code", got.code, 0);
    same("a long list for the records", "the ending", got.ending, 0);
    same("a long list for the records", "the records", got.records, 2);
    holds("a long list for the records", "out", region, BEHIND, RECORDS);
}

static void page_out(size_t more) {
    marked_region();
    khargovsun_listing got = khargovsun_list_after(PROBLEM(GOOD), LENT(GOOD[RECORD]), 1000, region, WIDE + more);
    same("a long list for a page", "the code", got.code, 0);
    same("a long list for a page", "the ending", got.ending, 0);
    same("a long list for a page", "the records", got.records, 1);
    holds("a long list for a page", "out", region, BEHIND, SECOND);
}

/* The shares add up to less: nothing is written. */
static void panel_out(void) {
    uint32_t other[ROOM];
    list none = NONE;
    marked_region(), mark(other, ROOM);
    same("a long list for shares", "the code", khargovsun_panel(PROBLEM(GOOD), NUMBERS(ONE), region, WIDE + ROOM, other, 4), 21);
    same("a long list for answers", "the code", khargovsun_panel(PROBLEM(GOOD), NUMBERS(ONE), other, ROOM, region, WIDE + 4), 21);
    holds("a long list for shares or answers", "the list", region, BEHIND, none);
    holds("a long list for shares or answers", "the other", other, ROOM, none);
}

static void instance_out(void) {
    uint32_t other[ROOM];
    marked_region();
    khargovsun_making got = khargovsun_instance(TREE_AND_PATTERN(GOOD), LENT(GOOD[RECORD]), region, WIDE, other, ROOM);
    same("a long list for the instance's labels", "the code", got.code, 0);
    holds("a long list for the instance's labels", "label", region, BEHIND, GOOD[LABEL]);
    marked_region();
    got = khargovsun_instance(TREE_AND_PATTERN(GOOD), LENT(GOOD[RECORD]), other, ROOM, region, WIDE);
    same("a long list for the instance's sizes", "the code", got.code, 0);
    holds("a long list for the instance's sizes", "size", region, BEHIND, GOOD[SIZE]);
}

/* ---- The reader ---- */

static const bytes NAMES = BYTES("g\nf\nh\na\nb\n"), T = BYTES("<g><f>a</f><f/>a</g>");

static void rows_out(void) {
    list wanted[4] = {LIST(0, 2, 7, 2, 7), LIST(5, 2, 1, 1, 1), LIST(1, 4, 6, 12, 15), LIST(1, 1, 1, 1, 1)};
    for (int k = 0; k < 4; k++) {
        uint32_t own[4][ROOM], *to[4] = {own[0], own[1], own[2], own[3]};
        size_t n[4] = {ROOM, ROOM, ROOM, ROOM};
        to[k] = region, n[k] = WIDE;
        marked_region();
        khargovsun_reading got = khargovsun_read(LENT(NAMES), LENT(T), to[0], n[0], to[1], n[1], to[2], n[2], to[3], n[3]);
        same("a long list for the rows", "the code", got.code, 0);
        same("a long list for the rows", "the rows", got.rows, 5);
        holds("a long list for the rows", "the list", region, BEHIND, wanted[k]);
    }
}

static void reading_is(const char *name, bytes dictionary, bytes document, uint32_t code) {
    uint32_t l[4][ROOM];
    list none = NONE;
    mark(l[0], 4 * ROOM);
    khargovsun_reading got = khargovsun_read(LENT(dictionary), LENT(document), l[0], ROOM, l[1], ROOM, l[2], ROOM, l[3], ROOM);
    same(name, "the code", got.code, code);
    same(name, "the place", got.place, 0);
    same(name, "the rows", got.rows, 0);
    holds(name, "the lists", l[0], 4 * ROOM, none);
    same(name, "the check", khargovsun_check(LENT(dictionary), LENT(document)), code * WIDE);
}

/* Its last name is very long, and ended as it should be: nothing but the length is against the rules. */
static bytes long_dictionary(void) {
    bytes b = longer_bytes(NAMES);
    ((uint8_t *)region)[b.n] = 10;
    b.n++;
    return b;
}

static void readings(void) {
    reading_is("a long document", NAMES, longer_bytes(T), 2);
    reading_is("a long dictionary", long_dictionary(), T, 1);
    reading_is("a long dictionary and document", long_dictionary(), longer_bytes(NAMES), 1);
}

/* ---- The spelling lookup ---- */

static void spelling_is(const char *name, khargovsun_part got, uint32_t source, uint32_t from, uint32_t n) {
    same(name, "the source", got.source, source);
    same(name, "the part's start", got.start, from);
    same(name, "the part's length", got.length, n);
}

/* The row 4,294,967,296, in three lists that are one: entry 0 is of the dictionary's first name. */
static void far_rows(void) {
    list zero = LIST(0), all = longer(zero, 0);
    all.n = WIDE + 1;
    spelling_is("a far row of short lists", khargovsun_spelling(LENT(NAMES), LENT(T), LENT(zero), LENT(zero), LENT(zero), WIDE), 1, 0, 0);
    region[WIDE] = 2;
    spelling_is("a far row, by the dictionary", khargovsun_spelling(LENT(NAMES), LENT(T), LENT(all), LENT(all), LENT(all), WIDE), 0, 2, 1);
    region[WIDE] = 10;
    spelling_is("a far row, by the document", khargovsun_spelling(LENT(NAMES), LENT(T), LENT(all), LENT(all), LENT(all), WIDE), 1, 10, 10);
    for (int k = 0; k < 3; k++) {
        list l[3] = {all, all, all};
        l[k].n = WIDE;
        spelling_is("a far row beyond one list", khargovsun_spelling(LENT(NAMES), LENT(T), LENT(l[0]), LENT(l[1]), LENT(l[2]), WIDE), 1, 0, 0);
    }
}

static void far_ranges(void) {
    list none_of_these = LIST(10), first = LIST(0), far = LIST(FAR), four = LIST(4), five = LIST(5), six = LIST(6);
    bytes document = {(const uint8_t *)region, WIDE + 4}, dictionary = long_dictionary();
    spelling_is("a range to a far end", khargovsun_spelling(LENT(NAMES), LENT(document), LENT(none_of_these), LENT(far), LENT(five), 0), 1, FAR, 5);
    spelling_is("a long range", khargovsun_spelling(LENT(NAMES), LENT(document), LENT(none_of_these), LENT(four), LENT(far), 0), 1, 4, FAR);
    spelling_is("a range beyond a far end", khargovsun_spelling(LENT(NAMES), LENT(document), LENT(none_of_these), LENT(far), LENT(six), 0), 1, 0, 0);
    spelling_is("a long dictionary has no names", khargovsun_spelling(LENT(dictionary), LENT(T), LENT(first), LENT(four), LENT(first), 0), 1, 4, 0);
}

int main(void) {
    if (!lend_region()) {
        printf("large.c: left out, since no region of 16 GB is to be had here\n");
        return 0;
    }
    problems();
    panels();
    records_out(0), records_out(4);
    page_out(0), page_out(3);
    panel_out();
    instance_out();
    rows_out();
    readings();
    far_rows();
    far_ranges();
    return result("large.c");
}
