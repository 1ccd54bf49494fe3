/* khargovsun_list, khargovsun_test and khargovsun_instance, held to what 01 and 02 (#101, #104) say. */
#include "problem.h"

static const struct listing {
    const char *name;
    problem problem;
    uint32_t budget;
    size_t room;
    uint32_t ending, records, tries;
    list out;
} LISTINGS[] = {
    {"Q on T", Q_ON_T, 1000, ROOM, 0, 2, 8, LIST(0, 1, 2, 1, 0, 3, 4, 0)},
    {"Q on T, budget 4294967295", Q_ON_T, 4294967295u, 8, 0, 2, 8, LIST(0, 1, 2, 1, 0, 3, 4, 0)},
    {"Q on T, budget 8", Q_ON_T, 8, ROOM, 0, 2, 8, LIST(0, 1, 2, 1, 0, 3, 4, 0)},
    {"Q on T, budget 7", Q_ON_T, 7, ROOM, 2, 2, 7, LIST(0, 1, 2, 1, 0, 3, 4, 0)},
    {"Q on T, budget 4", Q_ON_T, 4, ROOM, 2, 1, 4, LIST(0, 1, 2, 1)},
    {"Q on T, budget 3", Q_ON_T, 3, ROOM, 2, 0, 3, NONE},
    {"Q on T, budget 0", Q_ON_T, 0, ROOM, 2, 0, 0, NONE},
    {"Q on T, room for one", Q_ON_T, 8, 4, 1, 1, 7, LIST(0, 1, 2, 1)},
    {"Q on T, room for one and three entries", Q_ON_T, 8, 7, 1, 1, 7, LIST(0, 1, 2, 1)},
    {"Q on T, no room", Q_ON_T, 8, 0, 1, 0, 4, NONE},
    {"f(s0, s1) on f(a, a)", S0_S1, 1000, ROOM, 0, 3, 9, LIST(1, 0, 1, 2, 1, 1, 2, 1, 1, 2, 3, 0)},
    {"s0 in the choice of a and a", S0_S1_CHOICE, 1000, ROOM, 0, 1, 5, LIST(1, 1, 2, 1)},
    {"s0 in the choice of two elements a", {F_A_A, F_S0_S1, {LIST(3, 0, 0), LIST(0, 6, 6), LIST(3, 1, 1)}, LIST(1, 0, 0, 0)}, 1000, ROOM, 0, 0, 3, NONE},
    {"Q on g(text f, f)", {{LIST(0, 3, 2), LIST(3, 1, 1)}, Q, NOTHING, FREE2}, 1000, ROOM, 0, 1, 4, LIST(0, 2, 3, 0)},
    {"f(s0, s0) on f(a, a)", S0_S0, 1000, ROOM, 0, 1, 3, LIST(1, 1)},
    {"s0 in repetition of empty, flag 1", S0_FLAG, 1000, ROOM, 0, 0, 3, NONE},
    {"f(s0) on f(a), s0 in a", {F_A, F_S0, A_ALONE, LIST(1, 0)}, 1000, ROOM, 0, 1, 2, LIST(1, 1)},
    {"f(s0) on f(a, a), s0 in a", {F_A_A, F_S0, A_ALONE, LIST(1, 0)}, 1000, ROOM, 0, 0, 3, NONE},
    {"two variables name one expression", {F_A_A, F_S0_S1, A_ALONE, LIST(1, 0, 1, 0)}, 1000, ROOM, 0, 1, 5, LIST(1, 1, 2, 1)},
    {"each names its own of two that are equal", {F_A_A, F_S0_S1, A_A, LIST(1, 0, 2, 0)}, 1000, ROOM, 0, 1, 5, LIST(1, 1, 2, 1)},
    {"the same on f(a)", {F_A, F_S0_S1, A_A, LIST(1, 0, 2, 0)}, 1000, ROOM, 0, 0, 3, NONE},
    {"named in the other order", {F_A_A, F_S0_S1, A_A, LIST(2, 1, 1, 0)}, 1000, ROOM, 0, 1, 5, LIST(1, 1, 2, 1)},
    {"context 0 over context 0 over a", C0_C0_A, 1000, ROOM, 0, 1, 3, LIST(0, 1)},
    {"f(a, s0) on f", F_A_S0, 1000, ROOM, 0, 0, 0, NONE},
    {"function 0 over individual 1", F0_X1, 0, ROOM, 0, 1, 0, LIST(0, 0, 1, 0)},
    {"a on a, room 0 and budget 0", A_ON_A, 0, 0, 0, 1, 0, NONE},
};

static const struct testing {
    const char *name;
    problem problem;
    list record;
    uint32_t code, yes;
} TESTINGS[] = {
    {"Q on T, first record", Q_ON_T, LIST(0, 1, 2, 1), 0, 1},
    {"Q on T, second record", Q_ON_T, LIST(0, 3, 4, 0), 0, 1},
    {"Q on T, another hole", Q_ON_T, LIST(0, 4, 5, 0), 0, 0},
    {"Q on T, the bare hole", Q_ON_T, LIST(0, 0, 1, 3), 0, 0},
    {"Q on T, another start of the empty sequence", Q_ON_T, LIST(0, 3, 5, 0), 0, 0},
    {"Q on T, the context started elsewhere", Q_ON_T, LIST(1, 1, 2, 1), 0, 0},
    {"f(s0, s1), middle record", S0_S1, LIST(1, 1, 2, 1), 0, 1},
    {"f(s0, s1), parts exchanged", S0_S1, LIST(2, 1, 1, 1), 0, 0},
    {"f(s0, s1), the root as a sequence", S0_S1, LIST(0, 1, 3, 0), 0, 0},
    {"the choice kept", S0_S1_CHOICE, LIST(1, 1, 2, 1), 0, 1},
    {"the choice broken", S0_S1_CHOICE, LIST(1, 2, 3, 0), 0, 0},
    {"f(s0, s0)", S0_S0, LIST(1, 1), 0, 1},
    {"f(s0, s0), both terms", S0_S0, LIST(1, 2), 0, 0},
    {"flag 1", S0_FLAG, LIST(1, 0), 0, 0},
    {"context 0 over context 0 over a", C0_C0_A, LIST(0, 1), 0, 1},
    {"function 0 over individual 1", F0_X1, LIST(0, 0, 1, 0), 0, 1},
    {"a on a", A_ON_A, NONE, 0, 1},
    {"a record for a pattern without variables", A_ON_A, LIST(0, 0), 15, 0},
    {"no record", Q_ON_T, NONE, 15, 0},
    {"a record one short", Q_ON_T, LIST(0, 1, 2), 15, 0},
    {"a record one long", Q_ON_T, LIST(0, 1, 2, 1, 0), 15, 0},
    {"a context outside the tree", Q_ON_T, LIST(5, 5, 2, 1), 15, 0},
    {"a hole outside the subterm", Q_ON_T, LIST(1, 3, 2, 1), 15, 0},
    {"a sequence over the tree's length", Q_ON_T, LIST(0, 1, 6, 0), 15, 0},
    {"more arguments than there are", Q_ON_T, LIST(0, 1, 4, 2), 15, 0},
    {"two roots", S0_S1, LIST(0, 2, 3, 0), 15, 0},
    {"an individual with a second number", F0_X1, LIST(0, 0, 1, 1), 15, 0},
    {"a function's row outside the tree", F0_X1, LIST(2, 0, 1, 0), 15, 0},
    {"tied: the record is too long", {F_A_A, F_S0, A_ALONE, LIST(1, 0)}, LIST(9, 9, 9), 15, 0},
    {"not tied: 19 before 15", {F_A_A, F_S0, A_ALONE, LIST(0, 0)}, LIST(9, 9, 9), 19, 0},
    {"not tied, where the record is a matcher's", {F_A, F_S0, A_ALONE, LIST(0, 0)}, LIST(1, 1), 19, 0},
    {"14 before 19 and 15", {F_A, F_S0, A_ALONE, LIST(0, 1)}, LIST(9, 9, 9), 14, 0},
};

#define CUT {LIST(0), LIST(2)}

static const struct making {
    const char *name;
    tree tree;
    rows3 pattern;
    list record;
    uint32_t code, rows;
    list label, size;
} MAKINGS[] = {
    {"Q under its first record", T, Q, LIST(0, 1, 2, 1), 0, 5, LIST(0, 2, 7, 2, 7), LIST(5, 2, 1, 1, 1)},
    {"Q under its second record", T, Q, LIST(0, 3, 4, 0), 0, 5, LIST(0, 2, 7, 2, 7), LIST(5, 2, 1, 1, 1)},
    {"Q under a record of no matcher", T, Q, LIST(0, 4, 1, 2), 0, 8, LIST(0, 2, 7, 2, 2, 2, 7, 2), LIST(8, 2, 1, 1, 4, 2, 1, 1)},
    {"Q under the bare hole", T, Q, LIST(0, 0, 5, 0), 0, 1, LIST(2), LIST(1)},
    {"f(s0, s1) with one term twice", F_A_A, F_S0_S1, LIST(1, 1, 1, 2), 0, 4, LIST(2, 7, 7, 7), LIST(4, 1, 1, 1)},
    {"function 0 over individual 1", T, {LIST(3, 1), LIST(0, 1), LIST(2, 1)}, LIST(0, 0, 1, 0), 0, 3, LIST(0, 2, 7), LIST(3, 2, 1)},
    {"no variables", T, {LIST(0), LIST(7), LIST(1)}, NONE, 0, 1, LIST(7), LIST(1)},
    {"all lists empty", {NONE, NONE}, NOTHING, NONE, 11, 0, NONE, NONE},
    {"a bad tree", CUT, Q, LIST(0, 1, 2, 1), 11, 0, NONE, NONE},
    {"11 before 12", CUT, NOTHING, NONE, 11, 0, NONE, NONE},
    {"no pattern", T, NOTHING, NONE, 12, 0, NONE, NONE},
    {"12 before 15", T, {LIST(2), LIST(0), LIST(1)}, NONE, 12, 0, NONE, NONE},
    {"no record", T, Q, NONE, 15, 0, NONE, NONE},
    {"a record one long", T, Q, LIST(0, 1, 2, 1, 0), 15, 0, NONE, NONE},
    {"more arguments than there are", T, Q, LIST(0, 1, 4, 2), 15, 0, NONE, NONE},
};

/* ---- The calls ---- */

static void list_is(const char *name, const problem *p, uint32_t budget, size_t room, khargovsun_listing want, list records) {
    khargovsun_lent_records lent = {room ? out : NULL, room};
    mark(out, BEYOND);
    listed(name, khargovsun_list(PROBLEM(*p), budget, LENDS(lent)), want, records);
    if (!expressible(p->tree, p->pattern, p->expression)) return;
    khargovsun_problem q = problem_of(p);
    mark(out, BEYOND);
    listed(name, khargovsun_list_matchers(&q, budget, lent), want, records);
}

static void tested(const char *name, khargovsun_testing got, uint32_t code, uint32_t yes) {
    same(name, "the test's code", got.code, code);
    same(name, "the test's yes", got.yes, yes);
}

static void test_is(const char *name, const problem *p, list record, uint32_t code, uint32_t yes) {
    tested(name, khargovsun_test(PROBLEM(*p), LENT(record)), code, yes);
    if (!expressible(p->tree, p->pattern, p->expression)) return;
    khargovsun_problem q = problem_of(p);
    khargovsun_record r = {LENT(record)};
    tested(name, khargovsun_test_record(&q, r), code, yes);
}

static uint32_t new_label[ROWS + 2], new_size[ROWS + 2];

static void made(const char *name, khargovsun_making got, uint32_t code, list label, list size) {
    same(name, "the code", got.code, code);
    same(name, "the rows", got.rows, label.n);
    holds(name, "label", new_label, ROWS + 2, label);
    holds(name, "size", new_size, ROWS + 2, size);
    mark(new_label, ROWS + 2), mark(new_size, ROWS + 2);
}

static void instance_is(const char *name, tree t, rows3 pattern, list record, size_t label_room, size_t size_room, uint32_t code, list label, list size) {
    static const rows3 nothing = NOTHING;
    uint32_t *to_label = label_room ? new_label : NULL, *to_size = size_room ? new_size : NULL;
    mark(new_label, ROWS + 2), mark(new_size, ROWS + 2);
    made(name, khargovsun_instance(TREE(t), ROWS3(pattern), LENT(record), to_label, label_room, to_size, size_room), code, label, size);
    if (label_room != size_room || !expressible(t, pattern, nothing)) return;
    khargovsun_lent_tree lent = {.label = to_label, .size = to_size, .room = size_room};
    khargovsun_record r = {LENT(record)};
    made(name, khargovsun_make_instance(tree_of(t), pattern_of(pattern), r, lent), code, label, size);
}

/* A listed record passes the test, and the pattern under it is the tree again. */
static void listed_again(const struct listing *l) {
    size_t width = l->records ? l->out.n / l->records : 0;
    for (size_t k = 0; k < l->records; k++) {
        list record = {l->out.at + k * width, width};
        test_is(l->name, &l->problem, record, 0, 1);
        instance_is(l->name, l->problem.tree, l->problem.pattern, record, ROWS, ROWS, 0, l->problem.tree.label, l->problem.tree.size);
    }
}

static void listings_and_refusals(void) {
    list none = NONE;
    for (size_t k = 0; k < COUNT(LISTINGS); k++) {
        const struct listing *l = &LISTINGS[k];
        khargovsun_listing want = {.ending = l->ending, .records = l->records, .tries = l->tries};
        list_is(l->name, &l->problem, l->budget, l->room, want, l->out);
        listed_again(l);
    }
    for (size_t k = 0; k < COUNT(REFUSALS); k++) {
        const struct refusal *r = &REFUSALS[k];
        khargovsun_listing want = {.code = r->code};
        list_is(r->name, &r->problem, 1000, ROOM, want, none);
        list_is(r->name, &r->problem, 0, 0, want, none);
        test_is(r->name, &r->problem, none, r->code, 0);
    }
}

static void makings(void) {
    list none = NONE;
    for (size_t k = 0; k < COUNT(MAKINGS); k++) {
        const struct making *m = &MAKINGS[k];
        instance_is(m->name, m->tree, m->pattern, m->record, ROWS, ROWS, m->code, m->label, m->size);
        instance_is(m->name, m->tree, m->pattern, m->record, 0, 0, m->code ? m->code : 17, none, none);
        if (m->code != 0) continue;
        instance_is(m->name, m->tree, m->pattern, m->record, m->rows - 1, ROWS, 17, none, none);
        instance_is(m->name, m->tree, m->pattern, m->record, ROWS, m->rows - 1, 17, none, none);
        instance_is(m->name, m->tree, m->pattern, m->record, m->rows, m->rows, 0, m->label, m->size);
    }
}

/* A tree of 2,048 rows: a root with 2,047 leaves. Its copy has as many rows, with one term more it is over the limit. */
static void largest(void) {
    static uint32_t label[ROWS], size[ROWS];
    for (size_t k = 0; k < ROWS; k++) label[k] = 7, size[k] = 1;
    label[0] = 0, size[0] = ROWS;
    tree t = {{label, ROWS}, {size, ROWS}};
    rows3 copy = {LIST(0, 2), LIST(0, 0), LIST(2, 1)}, more = {LIST(0, 2, 0), LIST(0, 0, 3), LIST(3, 1, 1)};
    list record = LIST(1, ROWS - 1), none = NONE;
    instance_is("2,048 rows", t, copy, record, ROWS, ROWS, 0, t.label, t.size);
    instance_is("2,049 rows", t, more, record, ROWS, ROWS, 16, none, none);
    instance_is("16 before 17", t, more, record, 0, 0, 16, none, none);
    instance_is("2,048 rows, room for 2,047", t, copy, record, ROWS - 1, ROWS, 17, none, none);
    problem p = {{{label, ROWS}, {size, ROWS}}, {LIST(0, 2), LIST(0, 0), LIST(2, 1)}, NOTHING, LIST(0, 0)};
    khargovsun_listing want = {.records = 1, .tries = ROWS};
    list_is("g(s0) on 2,048 rows", &p, 4294967295u, ROOM, want, record);
}

/* ---- f(s0, .., s15) on f, and a table of expressions a ---- */

enum { VARIABLES = 16, MOST = 64 };

static uint32_t symbols[MOST], as[MOST], ones[MOST];
static const rows3 F_S0_S15 = {LIST(0, 2, 2, 2, 2, 2, 2, 2, 2, 2, 2, 2, 2, 2, 2, 2, 2), LIST(2, 0, 1, 2, 3, 4, 5, 6, 7, 8, 9, 10, 11, 12, 13, 14, 15),
                               LIST(17, 1, 1, 1, 1, 1, 1, 1, 1, 1, 1, 1, 1, 1, 1, 1, 1)};

/* The last variables name the first expressions, one each. The sequences can only be empty, so that there is one try for each variable without an expression,
 * and one that fails for the first that has one. */
static void table_of(uint32_t many, uint32_t named) {
    uint32_t constraint[2 * VARIABLES] = {0};
    for (uint32_t k = 0; k < named; k++) constraint[2 * (VARIABLES - 1 - k)] = k + 1;
    problem p = {{LIST(2), LIST(1)}, F_S0_S15, {{symbols, many}, {as, many}, {ones, many}}, {constraint, 2 * VARIABLES}};
    khargovsun_listing refused = {.code = 19}, tried = {.tries = VARIABLES - named + 1};
    list none = NONE;
    list_is("a table of one-row expressions", &p, 1000, ROOM, named < many ? refused : tried, none);
}

static void tables(void) {
    for (size_t k = 0; k < MOST; k++) as[k] = 7, ones[k] = 1;
    for (uint32_t many = 1; many <= MOST; many++)
        for (uint32_t named = 0; named <= many && named <= VARIABLES; named++) table_of(many, named);
}

int main(void) {
    listings_and_refusals();
    for (size_t k = 0; k < COUNT(TESTINGS); k++) test_is(TESTINGS[k].name, &TESTINGS[k].problem, TESTINGS[k].record, TESTINGS[k].code, TESTINGS[k].yes);
    makings();
    largest();
    tables();
    same("the structs", "calls with them, and some with lists alone", by_structs > 0 && by_lists_alone > 0, true);
    return result("matcher.c");
}
