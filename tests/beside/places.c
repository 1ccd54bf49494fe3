/* Places in a tree and in a pattern. Each is looked for from the definition; nothing is remembered. */
#include "rules.h"

size_t end(const list *size, size_t row) {
    return row + size->at[row];
}

bool is_above(const list *size, size_t row, size_t other) {
    return row < other && other < end(size, row);
}

size_t list_end(const list *size, size_t row) {
    for (size_t above = row; above-- > 0;)
        if (is_above(size, above, row)) return end(size, above);
    return size->n;
}

size_t terms(const list *size, size_t from, size_t to) {
    size_t count = 0;
    for (size_t row = from; row < to; row = end(size, row)) count++;
    return count;
}

size_t behind(const list *size, size_t row, size_t count) {
    for (; count > 0; count--) row = end(size, row);
    return row;
}

size_t variables(const rows *pattern) {
    size_t count = 0;
    for (size_t p = 0; p < pattern->kind.n; p++)
        if (pattern->kind.at[p] != SYMBOL && pattern->name.at[p] >= count) count = pattern->name.at[p] + 1;
    return count;
}

size_t first_row(const rows *pattern, uint32_t variable) {
    size_t p = 0;
    while (pattern->kind.at[p] == SYMBOL || pattern->name.at[p] != variable) p++;
    return p;
}

uint32_t kind_of(const rows *pattern, uint32_t variable) {
    return pattern->kind.at[first_row(pattern, variable)];
}

bool is_choice(uint32_t kind) {
    return kind == SEQUENCE || kind == CONTEXT;
}
