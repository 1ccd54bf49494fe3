/* What the tests of the matcher share: the problems of 01's examples, those that are refused, and how one is handed over. */
#include <stdbool.h>
#include "compare.h"
#include "khargovsun.h"

enum { ROOM = 64, BEYOND = 72, ROWS = 2048 };

typedef struct {
    list label, size;
} tree;

typedef struct {
    list kind, name, size;
} rows3;

typedef struct {
    tree tree;
    rows3 pattern, expression;
    list constraint;
} problem;

/* ---- The trees and patterns of 01's examples: the elements g, f, h are 0, 2, 4, the texts a, b 7, 9 ---- */

#define T {LIST(0, 2, 7, 2, 7), LIST(5, 2, 1, 1, 1)}
#define F_A_A {LIST(2, 7, 7), LIST(3, 1, 1)}
#define NOTHING {NONE, NONE, NONE}
#define Q {LIST(4, 0, 2), LIST(0, 2, 1), LIST(3, 2, 1)}
#define F_S0_S1 {LIST(0, 2, 2), LIST(2, 0, 1), LIST(3, 1, 1)}
#define A_OR_A {LIST(3, 0, 0), LIST(0, 7, 7), LIST(3, 1, 1)}
#define FREE2 LIST(0, 0, 0, 0)
#define F_S0 {LIST(0, 2), LIST(2, 0), LIST(2, 1)}
#define F_A {LIST(2, 7), LIST(2, 1)}
#define A_ALONE {LIST(0), LIST(7), LIST(1)}
#define A_A {LIST(0, 0), LIST(7, 7), LIST(1, 1)}

#define Q_ON_T {T, Q, NOTHING, FREE2}
#define S0_S1 {F_A_A, F_S0_S1, NOTHING, FREE2}
#define S0_S1_CHOICE {F_A_A, F_S0_S1, A_OR_A, LIST(1, 0, 0, 0)}
#define S0_S0 {F_A_A, {LIST(0, 2, 2), LIST(2, 0, 0), LIST(3, 1, 1)}, NOTHING, LIST(0, 0)}
#define S0_FLAG {F_A_A, F_S0, {LIST(4, 1), LIST(0, 0), LIST(2, 1)}, LIST(1, 1)}
#define C0_C0_A {{LIST(2, 2, 7), LIST(3, 2, 1)}, {LIST(4, 4, 0), LIST(0, 0, 7), LIST(3, 2, 1)}, NOTHING, LIST(0, 0)}
#define F_A_S0 {{LIST(2), LIST(1)}, {LIST(0, 0, 2), LIST(2, 7, 0), LIST(3, 1, 1)}, NOTHING, LIST(0, 0)}
#define F0_X1 {{LIST(2, 7), LIST(2, 1)}, {LIST(3, 1), LIST(0, 1), LIST(2, 1)}, NOTHING, FREE2}
#define A_ON_A {{LIST(7), LIST(1)}, {LIST(0), LIST(7), LIST(1)}, NOTHING, NONE}

/* ---- Problems that are refused: the lister, its pages and the test give the same code ---- */

static const struct refusal {
    const char *name;
    problem problem;
    uint32_t code;
} REFUSALS[] = {
    {"all lists empty", {{NONE, NONE}, NOTHING, NOTHING, NONE}, 11},
    {"a root that ends early", {{LIST(0, 2, 7, 2, 7), LIST(4, 2, 1, 1, 1)}, Q, NOTHING, FREE2}, 11},
    {"arguments past their row", {{LIST(0, 2, 7), LIST(3, 1, 2)}, Q, NOTHING, FREE2}, 11},
    {"lists of unequal length", {{LIST(0, 2, 7), LIST(3, 1)}, Q, NOTHING, FREE2}, 11},
    {"label 65,536", {{LIST(65536), LIST(1)}, Q, NOTHING, FREE2}, 11},
    {"11 before all others", {{LIST(0), LIST(0)}, {LIST(5), LIST(0), LIST(1)}, {LIST(5), LIST(0), LIST(1)}, LIST(2)}, 11},
    {"no pattern", {T, NOTHING, NOTHING, NONE}, 12},
    {"kind 5", {T, {LIST(5), LIST(0), LIST(1)}, NOTHING, LIST(0, 0)}, 12},
    {"a sequence variable as root", {T, {LIST(2), LIST(0), LIST(1)}, NOTHING, LIST(0, 0)}, 12},
    {"a context over a sequence variable", {T, {LIST(4, 2), LIST(0, 1), LIST(2, 1)}, NOTHING, FREE2}, 12},
    {"a context without argument", {T, {LIST(4), LIST(0), LIST(1)}, NOTHING, LIST(0, 0)}, 12},
    {"an individual with arguments", {T, {LIST(1, 0), LIST(0, 7), LIST(2, 1)}, NOTHING, LIST(0, 0)}, 12},
    {"variable 1 before 0", {T, {LIST(0, 2), LIST(2, 1), LIST(2, 1)}, NOTHING, LIST(0, 0)}, 12},
    {"a number of two kinds", {T, {LIST(0, 1, 2), LIST(2, 0, 0), LIST(3, 1, 1)}, NOTHING, LIST(0, 0)}, 12},
    {"12 before 13 and 14", {T, {LIST(1), LIST(1), LIST(1)}, {LIST(1), LIST(1), LIST(1)}, LIST(2)}, 12},
    {"a symbol of two rows", {T, Q, {LIST(0, 0), LIST(7, 7), LIST(2, 1)}, FREE2}, 13},
    {"a named empty word", {T, Q, {LIST(1), LIST(1), LIST(1)}, FREE2}, 13},
    {"a choice of one", {T, Q, {LIST(3, 0), LIST(0, 7), LIST(2, 1)}, FREE2}, 13},
    {"lists of an expression unequal", {T, Q, {LIST(0), LIST(7), NONE}, FREE2}, 13},
    {"13 before 14", {T, Q, {LIST(5), LIST(0), LIST(1)}, NONE}, 13},
    {"no constraint list", {T, Q, NOTHING, NONE}, 14},
    {"a list one too long", {T, Q, NOTHING, LIST(0, 0, 0, 0, 0)}, 14},
    {"a flag without constraint", {T, Q, NOTHING, LIST(0, 0, 0, 1)}, 14},
    {"flag 2", {T, Q, {LIST(0), LIST(7), LIST(1)}, LIST(0, 0, 1, 2)}, 14},
    {"a constraint beyond the table", {T, Q, {LIST(0), LIST(7), LIST(1)}, LIST(0, 0, 2, 0)}, 14},
    {"a constraint on the inside of an expression", {F_A_A, F_S0_S1, A_OR_A, LIST(2, 0, 0, 0)}, 14},
    {"a constraint on an individual variable", {T, {LIST(1), LIST(0), LIST(1)}, {LIST(0), LIST(7), LIST(1)}, LIST(1, 0)}, 14},
    {"a flag without an expression, and one that is forgotten", {F_A, F_S0, A_ALONE, LIST(0, 1)}, 14},
    {"a row inside is named, and the expression forgotten", {F_A_A, F_S0, A_OR_A, LIST(2, 0)}, 14},
    {"a list too short, and an expression forgotten", {F_A_A, F_S0_S1, A_ALONE, LIST(0, 0)}, 14},
    {"a bad table that nobody names", {F_A_A, F_S0, {LIST(4), LIST(0), LIST(1)}, LIST(0, 0)}, 13},
    {"one expression, not named", {F_A, F_S0, A_ALONE, LIST(0, 0)}, 19},
    {"one expression, not named, two terms", {F_A_A, F_S0, A_ALONE, LIST(0, 0)}, 19},
    {"the second of two is not named", {F_A_A, F_S0, {LIST(0, 0), LIST(7, 9), LIST(1, 1)}, LIST(1, 0)}, 19},
    {"the first of two is not named", {F_A_A, F_S0, {LIST(0, 0), LIST(7, 9), LIST(1, 1)}, LIST(2, 0)}, 19},
    {"the second of two that are equal is not named", {F_A, F_S0, A_A, LIST(1, 0)}, 19},
    {"the first is named twice, its equal not", {F_A_A, F_S0_S1, A_A, LIST(1, 0, 1, 1)}, 19},
    {"the middle one of three is not named", {F_A_A, F_S0_S1, {LIST(4, 0, 0, 1), LIST(0, 7, 9, 0), LIST(2, 1, 1, 1)}, LIST(1, 0, 4, 0)}, 19},
    {"a choice is not named", {F_A_A, F_S0_S1, A_OR_A, FREE2}, 19},
    {"a table for a pattern without variables", {{LIST(7), LIST(1)}, {LIST(0), LIST(7), LIST(1)}, A_ALONE, NONE}, 19},
    {"a table for individual and function variables", {F_A, {LIST(3, 1), LIST(0, 1), LIST(2, 1)}, A_ALONE, FREE2}, 19},
};

/* ---- The calls ---- */

#define LENT(l) (l).at, (l).n
#define LENDS(l) (l).at, (l).length
#define TREE(t) LENT((t).label), LENT((t).size)
#define ROWS3(r) LENT((r).kind), LENT((r).name), LENT((r).size)
#define PROBLEM(p) TREE((p).tree), ROWS3((p).pattern), ROWS3((p).expression), LENT((p).constraint)

/* Each call is made with the lists one by one and, where lists that belong together are equally long, with the header's structs too. */
static unsigned by_structs, by_lists_alone;

static inline bool even(rows3 r) {
    return r.kind.n == r.name.n && r.name.n == r.size.n;
}

static inline bool expressible(tree t, rows3 pattern, rows3 expression) {
    bool all = t.label.n == t.size.n && even(pattern) && even(expression);
    *(all ? &by_structs : &by_lists_alone) += 1;
    return all;
}

static inline khargovsun_tree tree_of(tree t) {
    return (khargovsun_tree){.label = t.label.at, .size = t.size.at, .rows = t.size.n};
}

static inline khargovsun_pattern pattern_of(rows3 r) {
    return (khargovsun_pattern){.kind = r.kind.at, .name = r.name.at, .size = r.size.at, .rows = r.size.n};
}

static inline khargovsun_problem problem_of(const problem *p) {
    const rows3 *e = &p->expression;
    return (khargovsun_problem){.tree = tree_of(p->tree), .pattern = pattern_of(p->pattern),
                                .expressions = {.kind = e->kind.at, .name = e->name.at, .size = e->size.at, .rows = e->size.n},
                                .constraints = {LENT(p->constraint)}};
}

static uint32_t out[BEYOND];

static inline void listed(const char *name, khargovsun_listing got, khargovsun_listing want, list records) {
    same(name, "the code", got.code, want.code);
    same(name, "the ending", got.ending, want.ending);
    same(name, "the records", got.records, want.records);
    same(name, "the tries", got.tries, want.tries);
    holds(name, "out", out, BEYOND, records);
}
