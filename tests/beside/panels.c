/* Panels by chance, and what may be wrong with their lists. */
#include "decide.h"
#include "make.h"

enum {
    MOST_NEEDED = 200, /* entries of a share for all records, at most */
    HITS = 10          /* damages to a problem, so that about two of them hit its tree */
};

static size_t least_length(const rows *rows) {
    size_t least = rows->kind.n < rows->name.n ? rows->kind.n : rows->name.n;
    return least < rows->size.n ? least : rows->size.n;
}

/* No panel could say lists of one table that differ in length. */
static void make_even(rows *rows) {
    rows->kind.n = rows->name.n = rows->size.n = least_length(rows);
}

/* Mostly no tree any more. */
static void damage_tree(chance *chance, const problem *first, tree *out) {
    static problem damaged;
    static list record;
    damaged = *first;
    for (size_t k = 0; k < HITS; k++) damage(chance, &damaged, &record);
    *out = damaged.tree;
}

/* The first problem again or another one, maybe damaged, over the panel's tree. */
static void next_problem(chance *chance, const group *group, const problem *first, const tree *tree, problem *out) {
    static list record;
    if (one_in(chance, 2)) *out = *first;
    else make_problem(chance, group, out);
    if (one_in(chance, 3)) damage(chance, out, &record);
    out->tree = *tree;
    make_even(&out->pattern);
    make_even(&out->expression);
}

/* Nothing, less than is needed, just enough or more. */
static size_t some_of(chance *chance, size_t needed, size_t more) {
    switch (draw(chance, 4)) {
    case 0:
        return 0;
    case 1:
        return draw(chance, needed + 1);
    case 2:
        return needed;
    default:
        return needed + between(chance, 1, more);
    }
}

static void put_number(list *to, uint32_t number) {
    to->at[to->n++] = number;
}

static void put_all(list *to, const list *from) {
    for (size_t k = 0; k < from->n; k++) put_number(to, from->at[k]);
}

static void put_rows(rows *to, list *lengths, const rows *from) {
    put_all(&to->kind, &from->kind);
    put_all(&to->name, &from->name);
    put_all(&to->size, &from->size);
    put_number(lengths, from->kind.n);
}

/* The budget and the share go by what the rules say of the problem. */
static void put_problem(chance *chance, const problem *problem, panel *to) {
    static listing all;
    all.records = all.tries = 0;
    if (code_of_problem(problem) == ACCEPTED) list_all(problem, &all);
    size_t needed = all.records * problem->constraint.n, share = some_of(chance, needed < MOST_NEEDED ? needed : MOST_NEEDED, 6);
    put_rows(&to->pattern, &to->pattern_length, &problem->pattern);
    put_rows(&to->expression, &to->expression_length, &problem->expression);
    put_all(&to->constraint, &problem->constraint);
    put_number(&to->constraint_length, problem->constraint.n);
    put_number(&to->budget, one_in(chance, 3) ? 4294967295u : some_of(chance, all.tries, 3));
    put_number(&to->share, share);
    to->out += share;
    to->answer += 4;
}

/* Is there room in our lists, and for an entry more in each? */
static bool has_room(const panel *panel, const problem *problem) {
    size_t most = ENTRIES - 1;
    return panel->pattern.kind.n + problem->pattern.kind.n <= most && panel->expression.kind.n + problem->expression.kind.n <= most &&
           panel->constraint.n + problem->constraint.n <= most;
}

/* None, one more than there may be, as many as there may be, or fewer. */
static size_t some_number(chance *chance) {
    if (one_in(chance, 40)) return 0;
    if (one_in(chance, 12)) return PROBLEMS_OF_PANEL + 1;
    return one_in(chance, 5) ? PROBLEMS_OF_PANEL : between(chance, 1, one_in(chance, 2) ? 6 : PROBLEMS_OF_PANEL);
}

void make_panel(chance *chance, const group *group, const problem *first, panel *out) {
    static const panel EMPTY;
    static problem next;
    *out = EMPTY;
    out->tree = first->tree;
    if (one_in(chance, 12)) damage_tree(chance, first, &out->tree);
    for (size_t many = some_number(chance); many > 0; many--) {
        next_problem(chance, group, first, &out->tree, &next);
        if (has_room(out, &next)) put_problem(chance, &next, out);
    }
}

/* ---- Alterations ---- */

/* The last five lists have a number for each problem, and the first four of these add up to something. */
enum { LISTS = 14, EACH = 5, SUMS = 4 };

static list *list_of(panel *panel, size_t which) {
    list *lists[LISTS] = {
        &panel->tree.label,        &panel->tree.size,         &panel->pattern.kind,      &panel->pattern.name,
        &panel->pattern.size,      &panel->expression.kind,   &panel->expression.name,   &panel->expression.size,
        &panel->constraint,        &panel->pattern_length,    &panel->expression_length, &panel->constraint_length,
        &panel->share,             &panel->budget,
    };
    return lists[which];
}

static void change_length(list *list, bool longer) {
    if (longer) put_number(list, 0);
    else if (list->n > 0) list->n--;
}

static void change_table(rows *table, bool longer) {
    change_length(&table->kind, longer);
    change_length(&table->name, longer);
    change_length(&table->size, longer);
}

/* An entry more or less of what is lent, or all entries of an answer. */
static void lend_otherwise(chance *chance, panel *panel) {
    size_t *lent = one_in(chance, 2) ? &panel->out : &panel->answer, by = one_in(chance, 4) ? 4 : 1;
    if (*lent < by || one_in(chance, 2)) *lent += by;
    else *lent -= by;
}

/* Some or all of a length go to another problem. */
static void shift(chance *chance, list *lengths) {
    if (lengths->n == 0) return;
    uint32_t *from = &lengths->at[draw(chance, lengths->n)], *to = &lengths->at[draw(chance, lengths->n)];
    uint32_t by = draw(chance, *from + 1);
    *from -= by;
    *to += by;
}

/* In 32 bits the sum stays. */
static void wrap(chance *chance, list *lengths) {
    if (lengths->n < 2) return;
    size_t k = draw(chance, lengths->n - 1);
    lengths->at[k] += 2147483648u;
    lengths->at[k + 1] += 2147483648u;
}

static void change_number(panel *panel, bool more) {
    for (size_t k = LISTS - EACH; k < LISTS; k++) change_length(list_of(panel, k), more);
    if (more) panel->answer += 4;
    else if (panel->answer > 0) panel->answer -= 4;
}

static void change_some_length(chance *chance, list *lengths) {
    if (lengths->n > 0) lengths->at[draw(chance, lengths->n)] += one_in(chance, 2) ? 1 : -1;
}

void alter_panel(chance *chance, enum alteration how, panel *panel) {
    list *lengths = list_of(panel, LISTS - EACH + draw(chance, SUMS));
    switch (how) {
    case LIST_LONGER:
    case LIST_SHORTER:
        change_length(list_of(panel, draw(chance, LISTS)), how == LIST_LONGER);
        break;
    case TABLE_LONGER:
    case TABLE_SHORTER:
        change_table(one_in(chance, 2) ? &panel->pattern : &panel->expression, how == TABLE_LONGER);
        break;
    case LENT_OTHERWISE:
        lend_otherwise(chance, panel);
        break;
    case LENGTH_CHANGED:
        change_some_length(chance, lengths);
        break;
    case LENGTHS_SHIFTED:
        shift(chance, lengths);
        break;
    case LENGTHS_WRAPPED:
        wrap(chance, lengths);
        break;
    default:
        change_number(panel, how == PROBLEM_MORE);
    }
}
