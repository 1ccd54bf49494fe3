/* The refusals 11 to 15, 19 and 21: each rule on a list is one question. Sizes may be any numbers here. */
#include "decide.h"

static bool all_below(const list *numbers, uint32_t bound) {
    for (size_t k = 0; k < numbers->n; k++)
        if (numbers->at[k] >= bound) return false;
    return true;
}

/* Do the arguments of a row end exactly where it ends, none of them empty? */
static bool ends_exactly(const list *size, size_t row) {
    if (size->at[row] == 0 || size->at[row] > size->n - row) return false;
    size_t to = end(size, row), argument = row + 1;
    while (argument < to) {
        if (size->at[argument] == 0 || size->at[argument] > to - argument) return false;
        argument = end(size, argument);
    }
    return true;
}

static size_t depth(const list *size, size_t row) {
    size_t count = 1;
    for (size_t above = 0; above < row; above++) count += is_above(size, above, row);
    return count;
}

/* One term in preorder, not too long and not too deep. */
static bool is_term(const list *size, size_t most) {
    if (size->n == 0 || size->n > most || size->at[0] != size->n) return false;
    for (size_t row = 0; row < size->n; row++)
        if (!ends_exactly(size, row)) return false;
    for (size_t row = 0; row < size->n; row++)
        if (depth(size, row) > DEPTH) return false;
    return true;
}

static bool good_tree(const tree *tree) {
    return tree->label.n == tree->size.n && is_term(&tree->size, TREE_ROWS) && all_below(&tree->label, LABELS);
}

static size_t arguments(const list *size, size_t row) {
    return terms(size, row + 1, end(size, row));
}

static bool good_row(const rows *pattern, size_t p) {
    switch (pattern->kind.at[p]) {
    case SYMBOL:
        return pattern->name.at[p] < LABELS;
    case INDIVIDUAL:
        return pattern->size.at[p] == 1;
    case SEQUENCE:
        return pattern->size.at[p] == 1 && p != 0;
    case FUNCTION:
        return true;
    case CONTEXT:
        return arguments(&pattern->size, p) == 1 && pattern->kind.at[p + 1] != SEQUENCE;
    default:
        return false;
    }
}

/* Is a row's number the next one, or one that appeared before with the same kind? */
static bool good_number(const rows *pattern, size_t p) {
    uint32_t next = 0;
    for (size_t before = 0; before < p; before++) {
        if (pattern->kind.at[before] == SYMBOL) continue;
        if (pattern->name.at[before] == pattern->name.at[p]) return pattern->kind.at[before] == pattern->kind.at[p];
        if (pattern->name.at[before] >= next) next = pattern->name.at[before] + 1;
    }
    return pattern->name.at[p] == next;
}

static bool equal_lengths(const rows *rows) {
    return rows->kind.n == rows->name.n && rows->kind.n == rows->size.n;
}

static bool good_pattern(const rows *pattern) {
    if (!equal_lengths(pattern) || !is_term(&pattern->size, PATTERN_ROWS)) return false;
    for (size_t p = 0; p < pattern->kind.n; p++)
        if (!good_row(pattern, p) || (pattern->kind.at[p] != SYMBOL && !good_number(pattern, p))) return false;
    return variables(pattern) <= VARIABLES;
}

/* The row behind a whole expression that starts at a row, or 0 where none does. */
static size_t behind_expression(const rows *table, size_t row) {
    static const size_t ARGUMENTS[EXPRESSION_KINDS] = {0, 0, 2, 2, 1};
    if (row >= table->kind.n || table->kind.at[row] >= EXPRESSION_KINDS) return 0;
    if (table->name.at[row] >= (table->kind.at[row] == LETTER ? LABELS : 1)) return 0;
    size_t to = row + 1;
    for (size_t k = 0; k < ARGUMENTS[table->kind.at[row]]; k++) {
        to = behind_expression(table, to);
        if (to == 0) return 0;
    }
    return table->size.at[row] == to - row ? to : 0;
}

static bool good_expressions(const rows *table) {
    if (!equal_lengths(table) || table->kind.n > EXPRESSION_ROWS) return false;
    for (size_t row = 0; row < table->kind.n;) {
        row = behind_expression(table, row);
        if (row == 0) return false;
    }
    return true;
}

static bool is_top(const rows *table, size_t row) {
    size_t top = 0;
    while (top < table->kind.n && top < row) top = end(&table->size, top);
    return top == row && row < table->kind.n;
}

static bool good_constraint(const problem *problem) {
    if (problem->constraint.n != 2 * variables(&problem->pattern)) return false;
    for (size_t k = 0; k < problem->constraint.n; k += 2) {
        uint32_t chosen = problem->constraint.at[k], flag = problem->constraint.at[k + 1];
        if (chosen == 0 && flag == 0) continue;
        if (chosen == 0 || flag > 1) return false;
        if (!is_choice(kind_of(&problem->pattern, k / 2)) || !is_top(&problem->expression, chosen - 1)) return false;
    }
    return true;
}

static bool is_named(const list *constraint, size_t row) {
    for (size_t k = 0; k < constraint->n; k += 2)
        if (constraint->at[k] == row + 1) return true;
    return false;
}

/* Is every whole expression of the table named by a variable? */
static bool all_named(const problem *problem) {
    for (size_t row = 0; row < problem->expression.kind.n; row++)
        if (is_top(&problem->expression, row) && !is_named(&problem->constraint, row)) return false;
    return true;
}

uint32_t code_of_problem(const problem *problem) {
    if (!good_tree(&problem->tree)) return BAD_TREE;
    if (!good_pattern(&problem->pattern)) return BAD_PATTERN;
    if (!good_expressions(&problem->expression)) return BAD_EXPRESSIONS;
    if (!good_constraint(problem)) return BAD_CONSTRAINT;
    return all_named(problem) ? ACCEPTED : FORGOTTEN;
}

static bool add_up(const list *lengths, uint64_t whole) {
    uint64_t sum = 0;
    for (size_t k = 0; k < lengths->n; k++) sum += lengths->at[k];
    return sum == whole;
}

static bool add_up_to_rows(const list *lengths, const rows *rows) {
    return add_up(lengths, rows->kind.n) && add_up(lengths, rows->name.n) && add_up(lengths, rows->size.n);
}

/* Do all lists that say something of each problem speak of the same number of them? */
static bool agree(const panel *panel) {
    size_t problems = panel->budget.n;
    return panel->pattern_length.n == problems && panel->expression_length.n == problems && panel->constraint_length.n == problems &&
           panel->share.n == problems && panel->answer == 4 * problems && problems <= PROBLEMS_OF_PANEL;
}

uint32_t code_of_panel(const panel *panel) {
    if (!agree(panel)) return BAD_PANEL;
    if (!add_up_to_rows(&panel->pattern_length, &panel->pattern)) return BAD_PANEL;
    if (!add_up_to_rows(&panel->expression_length, &panel->expression)) return BAD_PANEL;
    if (!add_up(&panel->constraint_length, panel->constraint.n)) return BAD_PANEL;
    return add_up(&panel->share, panel->out) ? ACCEPTED : BAD_PANEL;
}

bool good_pair(const list *size, uint32_t kind, uint32_t first, uint32_t second) {
    switch (kind) {
    case SEQUENCE:
        if (first >= size->n) return first == size->n && second == 0;
        return second <= terms(size, first, list_end(size, first));
    case CONTEXT:
        return first < size->n && first <= second && second < end(size, first);
    default:
        return first < size->n && second == 0;
    }
}

bool good_record(const problem *problem, const list *record) {
    if (record->n != 2 * variables(&problem->pattern)) return false;
    for (size_t k = 0; k < record->n; k += 2)
        if (!good_pair(&problem->tree.size, kind_of(&problem->pattern, k / 2), record->at[k], record->at[k + 1])) return false;
    return true;
}
