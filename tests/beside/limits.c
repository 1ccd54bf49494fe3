/* The smallest and the largest of everything that has a limit, and one more. */
#include "compare.h"

/* Rows of one kind below a row of another, each below the one before or all side by side. */
static void put_rows(list *size, size_t count, bool deep) {
    size->n = count;
    for (size_t row = 0; row < count; row++) size->at[row] = deep || row == 0 ? count - row : 1;
}

static void put_tree(tree *tree, size_t count, bool deep) {
    put_rows(&tree->size, count, deep);
    tree->label.n = count;
    for (size_t row = 0; row < count; row++) tree->label.at[row] = row % 3;
}

/* A symbol over rows of one kind, of which so many are different variables. */
static void put_pattern(rows *pattern, size_t count, bool deep, uint32_t kind, size_t different) {
    put_rows(&pattern->size, count, deep);
    pattern->kind.n = pattern->name.n = count;
    for (size_t row = 0; row < count; row++) {
        pattern->kind.at[row] = row == 0 ? SYMBOL : kind;
        pattern->name.at[row] = row == 0 || kind == SYMBOL ? row % 3 : (row - 1) % different;
    }
}

/* Letters one after another, and a repetition around them where the rows are even in number. How many letters. */
static size_t put_expression(rows *table, size_t count) {
    size_t above = count % 2 == 0, letters = 0;
    table->kind.n = table->name.n = table->size.n = count;
    for (size_t row = 0; row < count; row++) {
        bool letter = row >= above && ((row - above) % 2 == 1 || row + 1 == count);
        table->kind.at[row] = letter ? LETTER : row < above ? REPETITION : CONCATENATION;
        table->name.at[row] = letter ? letters++ % 3 : 0;
        table->size.at[row] = letter ? 1 : count - row;
    }
    return letters;
}

static void clear_constraints(problem *problem, size_t different) {
    problem->constraint.n = 2 * different;
    for (size_t k = 0; k < 2 * different; k++) problem->constraint.at[k] = 0;
}

/* Patterns that are their trees, around the limits of rows and depth. */
static void compare_shapes(chance *chance, problem *problem, list *record) {
    static const size_t COUNT[] = {1, 2, DEPTH, DEPTH + 1, PATTERN_ROWS, PATTERN_ROWS + 1, TREE_ROWS, TREE_ROWS + 1};
    record->n = 0;
    problem->expression.kind.n = problem->expression.name.n = problem->expression.size.n = 0;
    clear_constraints(problem, 0);
    for (size_t k = 0; k < sizeof COUNT / sizeof *COUNT; k++)
        for (uint32_t deep = 0; deep < 4; deep++) {
            size_t count = COUNT[k] <= PATTERN_ROWS + 1 ? COUNT[k] : 1;
            put_tree(&problem->tree, COUNT[k], deep & 1);
            put_pattern(&problem->pattern, count, deep & 2, SYMBOL, 0);
            compare_damaged(chance, problem, record);
        }
}

/* So many different variables of one kind, side by side or each around the next. */
static void put_variables(problem *problem, uint32_t kind, size_t different) {
    bool around = kind == CONTEXT;
    put_tree(&problem->tree, kind == SEQUENCE || around ? 2 : different + 1, false);
    put_pattern(&problem->pattern, different + 1 + around, around, kind, different);
    if (around) problem->pattern.kind.at[different + 1] = SYMBOL;
    if (around) problem->pattern.name.at[different + 1] = 1;
    clear_constraints(problem, different);
}

static void compare_variables(chance *chance, problem *problem, list *record) {
    for (size_t different = 1; different <= VARIABLES + 1; different++)
        for (uint32_t kind = INDIVIDUAL; kind < KINDS; kind++) {
            put_variables(problem, kind, different);
            record->n = 2 * different;
            for (size_t v = 0; v < different; v++) {
                record->at[2 * v] = kind == CONTEXT ? 1 : v == 0 || kind != SEQUENCE ? v + 1 : 2;
                record->at[2 * v + 1] = kind == CONTEXT || (v == 0 && kind == SEQUENCE);
            }
            compare_damaged(chance, problem, record);
        }
}

/* The whole list of arguments is the word, or that without its last letter. */
static void compare_expressions(chance *chance, problem *problem, list *record) {
    put_pattern(&problem->pattern, 2, false, SEQUENCE, 1);
    clear_constraints(problem, 1);
    problem->constraint.at[0] = 1;
    record->n = 2;
    record->at[0] = 1;
    for (size_t count = 1; count <= EXPRESSION_ROWS + 2; count++)
        for (size_t less = 0; less < 2; less++) {
            size_t letters = put_expression(&problem->expression, count);
            put_tree(&problem->tree, letters + 1 - less, false);
            for (size_t row = 1; row < problem->tree.label.n; row++) problem->tree.label.at[row] = (row - 1) % 3;
            record->at[1] = letters - less;
            compare_damaged(chance, problem, record);
        }
}

/* Expressions of one row, so many, of which no word but the empty one is one. */
static void put_empty_words(rows *table, size_t count) {
    table->kind.n = table->name.n = table->size.n = count;
    for (size_t row = 0; row < count; row++) {
        table->kind.at[row] = EMPTY;
        table->name.at[row] = 0;
        table->size.at[row] = 1;
    }
}

/* As many variables as there may be, on a tree of one row; so many of them name the first expressions, the last one first. */
static void compare_names(chance *chance, problem *problem, list *record) {
    static const size_t COUNT[] = {0, 1, 2, VARIABLES - 1, VARIABLES, VARIABLES + 1, EXPRESSION_ROWS, EXPRESSION_ROWS + 1};
    put_variables(problem, SEQUENCE, VARIABLES);
    put_tree(&problem->tree, 1, false);
    record->n = 2 * VARIABLES;
    for (size_t k = 0; k < record->n; k++) record->at[k] = k % 2 == 0;
    for (size_t k = 0; k < sizeof COUNT / sizeof *COUNT; k++)
        for (size_t named = 0; named <= VARIABLES && named <= COUNT[k]; named++) {
            put_empty_words(&problem->expression, COUNT[k]);
            clear_constraints(problem, VARIABLES);
            for (size_t v = 0; v < named; v++) problem->constraint.at[2 * v] = named - v;
            compare_damaged(chance, problem, record);
        }
}

/* Instances around the limit: a variable's value many times, below a symbol or around each other. */
static void compare_instances(chance *chance, problem *problem, list *record) {
    static const struct {
        size_t tree_rows, times;
    } SIZES[] = {{23, 89}, {89, 23}, {8, 255}, {9, 227}, {9, 228}, {2047, 1}, {2048, 1}, {1024, 2},
                 {63, 33}, {24, 89}, {90, 23}, {2048, 2}, {40, 53}};
    problem->expression.kind.n = problem->expression.name.n = problem->expression.size.n = 0;
    clear_constraints(problem, 1);
    record->n = 2;
    for (size_t k = 0; k < sizeof SIZES / sizeof *SIZES; k++)
        for (uint32_t kind = INDIVIDUAL; kind < KINDS; kind++)
            for (uint32_t less = 0; less < 2; less++) {
                bool around = kind == CONTEXT;
                size_t rows = around && SIZES[k].times >= DEPTH ? DEPTH : SIZES[k].times + 1;
                put_tree(&problem->tree, SIZES[k].tree_rows, false);
                put_pattern(&problem->pattern, rows, around, kind, 1);
                if (around) problem->pattern.kind.at[rows - 1] = SYMBOL;
                record->at[0] = kind == SEQUENCE;
                record->at[1] = is_choice(kind) ? SIZES[k].tree_rows - 1 - less : 0;
                compare_damaged(chance, problem, record);
            }
}

void compare_limits(chance *chance) {
    static problem problem;
    static list record;
    set_case("limit", 0, &problem);
    compare_shapes(chance, &problem, &record);
    compare_variables(chance, &problem, &record);
    compare_expressions(chance, &problem, &record);
    compare_names(chance, &problem, &record);
    compare_instances(chance, &problem, &record);
}
