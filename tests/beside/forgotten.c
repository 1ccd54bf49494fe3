/* Problems in which an expression may be forgotten: the list, its page and the test are refused, the instance maker is not. */
#include "compare.h"

/* Room for so many rows at a row of a list. */
static void open_list(list *list, size_t row, size_t many) {
    for (size_t k = list->n; k > row; k--) list->at[k + many - 1] = list->at[k - 1];
    list->n += many;
}

/* Opens so many rows of the table, in front of an expression or behind all; those behind them keep their variables. */
static void open_table(problem *problem, size_t row, size_t many) {
    open_list(&problem->expression.kind, row, many);
    open_list(&problem->expression.name, row, many);
    open_list(&problem->expression.size, row, many);
    for (size_t k = 0; k < problem->constraint.n; k += 2)
        if (problem->constraint.at[k] > row) problem->constraint.at[k] += many;
}

static void put_row(rows *table, size_t row, uint32_t kind, uint32_t name, uint32_t size) {
    table->kind.at[row] = kind;
    table->name.at[row] = name;
    table->size.at[row] = size;
}

/* The expression that starts at a row once more. */
static void put_copy(problem *problem, size_t row, size_t from) {
    rows *table = &problem->expression;
    size_t many = table->size.at[from], moved = from < row ? from : from + many;
    open_table(problem, row, many);
    for (size_t k = 0; k < many; k++) put_row(table, row + k, table->kind.at[moved + k], table->name.at[moved + k], table->size.at[moved + k]);
}

/* A label of the tree. */
static void put_letter(chance *chance, problem *problem, size_t row) {
    open_table(problem, row, 1);
    put_row(&problem->expression, row, LETTER, problem->tree.label.at[draw(chance, problem->tree.label.n)], 1);
}

/* The first row of one of the table's expressions. */
static size_t some_expression(chance *chance, const list *size) {
    size_t row = 0, chosen = 0;
    for (uint32_t many = 1; row < size->n; many++, row = end(size, row))
        if (one_in(chance, many)) chosen = row;
    return chosen;
}

/* One more expression, that no variable names: first, between two or last. */
static void add_expression(chance *chance, problem *problem) {
    const list *size = &problem->expression.size;
    size_t from = some_expression(chance, size), row = one_in(chance, 2) ? size->n : some_expression(chance, size);
    if (size->n == 0 || one_in(chance, 2)) put_letter(chance, problem, row);
    else put_copy(problem, row, from);
}

/* One variable is tied to nothing. Another may still name its expression. */
static void untie(chance *chance, list *constraint) {
    size_t k = 2 * draw(chance, constraint->n / 2);
    constraint->at[k] = constraint->at[k + 1] = 0;
}

/* One variable that is tied is tied to what another one is tied to, or to nothing, and keeps its flag. */
static void tie_to_another(chance *chance, list *constraint) {
    size_t k = 2 * draw(chance, constraint->n / 2), other = 2 * draw(chance, constraint->n / 2);
    if (constraint->at[k] != 0) constraint->at[k] = constraint->at[other];
}

static void forget(chance *chance, problem *problem) {
    uint32_t way = problem->constraint.n == 0 ? 0 : draw(chance, 4);
    if (way < 2) add_expression(chance, problem);
    else if (way == 2) untie(chance, &problem->constraint);
    else tie_to_another(chance, &problem->constraint);
}

void compare_forgotten(chance *chance, const problem *whole) {
    static problem forgetful;
    static list record;
    forgetful = *whole;
    make_record(chance, &whole->tree, &whole->pattern, &record);
    forget(chance, &forgetful);
    count(FORGETFUL, code_of_problem(&forgetful) == FORGOTTEN);
    compare_damaged(chance, &forgetful, &record);
}
