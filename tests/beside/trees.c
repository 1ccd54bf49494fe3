/* Trees by chance, and values in them. */
#include "make.h"

/* How deep the next row is, where the root has depth 0. */
static uint32_t next_depth(chance *chance, enum shape shape, uint32_t last) {
    uint32_t deepest = last + 1 < DEPTH ? last + 1 : last;
    if (shape == WIDE && !one_in(chance, 8)) return 1;
    if (shape == DEEP && !one_in(chance, 8)) return deepest;
    return between(chance, 1, deepest);
}

static void put_sizes(const uint32_t *depth, size_t rows, list *size) {
    size->n = rows;
    for (size_t row = 0; row < rows; row++) {
        size_t to = row + 1;
        while (to < rows && depth[to] > depth[row]) to++;
        size->at[row] = to - row;
    }
}

void make_tree(chance *chance, enum shape shape, uint32_t most, alphabet alphabet, tree *out) {
    uint32_t depth[TREE_ROWS] = {0};
    size_t count = between(chance, 1, most);
    if (shape != MIXED) count = between(chance, most / 2, most);
    out->label.n = count;
    for (size_t row = 0; row < count; row++) {
        if (row > 0) depth[row] = next_depth(chance, shape, depth[row - 1]);
        out->label.at[row] = alphabet.first + draw(chance, alphabet.many);
    }
    put_sizes(depth, count, &out->size);
}

static void put_pair(chance *chance, const list *size, uint32_t kind, uint32_t *pair) {
    pair[0] = draw(chance, size->n);
    pair[1] = 0;
    if (kind == CONTEXT) pair[1] = between(chance, pair[0], end(size, pair[0]) - 1);
    if (kind == SEQUENCE) pair[1] = draw(chance, terms(size, pair[0], list_end(size, pair[0])) + 1);
}

void make_record(chance *chance, const tree *tree, const rows *pattern, list *out) {
    out->n = 2 * variables(pattern);
    for (size_t k = 0; k < out->n; k += 2) put_pair(chance, &tree->size, kind_of(pattern, k / 2), out->at + k);
}
