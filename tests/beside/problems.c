/* Problems by chance. */
#include "decide.h"
#include "make.h"

/* Another label for one row, so that copies of a variable's value come to differ somewhere inside. */
static void alter_label(chance *chance, alphabet alphabet, tree *tree) {
    tree->label.at[draw(chance, tree->label.n)] = alphabet.first + draw(chance, alphabet.many);
}

/* Doubles a leaf, if there is one below the root. */
static void double_leaf(chance *chance, tree *tree) {
    size_t row = draw(chance, tree->size.n);
    if (row == 0 || tree->size.at[row] != 1) return;
    for (size_t above = 0; above < row; above++) tree->size.at[above] += is_above(&tree->size, above, row);
    for (size_t k = tree->size.n++; k > row; k--) {
        tree->size.at[k] = tree->size.at[k - 1];
        tree->label.at[k] = tree->label.at[k - 1];
    }
    tree->label.n++;
}

/* Drops a leaf below the root, if there is one. */
static void drop_leaf(chance *chance, tree *tree) {
    size_t row = draw(chance, tree->size.n);
    if (row == 0 || tree->size.at[row] != 1) return;
    for (size_t above = 0; above < row; above++) tree->size.at[above] -= is_above(&tree->size, above, row);
    for (size_t k = row + 1; k < tree->size.n; k++) {
        tree->size.at[k - 1] = tree->size.at[k];
        tree->label.at[k - 1] = tree->label.at[k];
    }
    tree->label.n = --tree->size.n;
}

static void alter(chance *chance, alphabet alphabet, const tree *other, tree *tree) {
    switch (draw(chance, 10)) {
    case 0:
    case 1:
    case 2:
        alter_label(chance, alphabet, tree);
        break;
    case 3:
        double_leaf(chance, tree);
        break;
    case 4:
        drop_leaf(chance, tree);
        break;
    case 5:
        *tree = *other;
    }
}

static alphabet make_alphabet(chance *chance) {
    static const uint32_t FIRST[] = {0, 0, 0, 0, 0, 200, 255, LABELS - 3};
    uint32_t first = FIRST[draw(chance, 8)];
    return (alphabet){first, between(chance, 1, 3)};
}

void make_problem(chance *chance, const group *group, problem *out) {
    static tree values;
    static list record;
    static instance under;
    alphabet alphabet = make_alphabet(chance);
    do {
        make_tree(chance, group->shape, group->value_rows, alphabet, &values);
        make_pattern(chance, group, alphabet, &out->pattern);
        make_record(chance, &values, &out->pattern, &record);
        build(&values, &out->pattern, record.at, &under);
    } while (under.rows > group->tree_rows);
    out->tree = under.tree;
    make_constraints(chance, group, alphabet, &values, &record, out);
    alter(chance, alphabet, &values, &out->tree);
}
