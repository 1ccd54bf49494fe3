/* The pattern under a record, row by row. */
#include "decide.h"

/* No row of a pattern is this one. */
enum { NOWHERE = PATTERN_ROWS };

typedef struct {
    const tree *tree;
    const rows *pattern;
    const uint32_t *record;
    uint32_t *settled; /* the same record where first numbers are to be put, else null */
    size_t stop;
    bool open;  /* the row `stop` has been come to */
    bool fails; /* the tree has no term where one is needed */
    instance *out;
} builder;

static size_t emit(builder *b, uint32_t label, uint32_t size) {
    size_t row = b->out->rows++;
    if (row < ENTRIES) {
        b->out->tree.label.at[row] = label;
        b->out->tree.size.at[row] = size;
    }
    return row;
}

static void grow(builder *b, size_t row, size_t by) {
    if (row < ENTRIES) b->out->tree.size.at[row] += by;
}

static void copy(builder *b, size_t from, size_t to) {
    for (size_t row = from; row < to; row++) emit(b, b->tree->label.at[row], b->tree->size.at[row]);
}

static void stop_here(builder *b, size_t p) {
    b->open = true;
    b->out->place[p] = b->out->rows;
}

/* The tree's own terms, up to where a row of it ends. */
static void take_up_to_end(builder *b, size_t row) {
    size_t from = b->out->rows;
    if (row >= b->tree->size.n || from > end(&b->tree->size, row)) b->fails = true;
    else copy(b, from, end(&b->tree->size, row));
}

static void put_term(builder *b, size_t p);

static void put_arguments(builder *b, size_t p, uint32_t label) {
    size_t row = emit(b, label, 0);
    for (size_t q = p + 1; q < end(&b->pattern->size, p) && !b->open && !b->fails; q = end(&b->pattern->size, q)) {
        if (q == b->stop) stop_here(b, q);
        else put_term(b, q);
    }
    if (b->open && !b->fails) take_up_to_end(b, row);
    grow(b, row, b->out->rows - row);
}

static void fill_hole(builder *b, size_t p) {
    if (p != b->stop) {
        put_term(b, p);
        return;
    }
    stop_here(b, p);
    take_up_to_end(b, b->out->rows);
}

/* The context's rows around what fills its hole. The rows on its path grow by what fills the hole and lose what stood there. */
static void put_context(builder *b, size_t p, const uint32_t *pair) {
    const list *size = &b->tree->size;
    size_t start = pair[0], hole = pair[1], head = b->out->rows;
    copy(b, start, hole);
    size_t filler = b->out->rows;
    fill_hole(b, p + 1);
    size_t filled = b->out->rows - filler;
    copy(b, end(size, hole), end(size, start));
    for (size_t row = start; row < hole; row++)
        if (is_above(size, row, hole)) grow(b, head + row - start, filled - size->at[hole]);
}

/* Puts the first number of a variable that appears first here. False where an individual or function variable finds no row. */
static bool settle(builder *b, size_t p) {
    size_t here = b->out->rows;
    b->out->place[p] = here;
    if (b->settled == NULL || first_row(b->pattern, b->pattern->name.at[p]) != p) return true;
    b->settled[2 * b->pattern->name.at[p]] = here;
    if (is_choice(b->pattern->kind.at[p])) return true;
    b->settled[2 * b->pattern->name.at[p] + 1] = 0;
    return here < b->tree->size.n;
}

static void put_term(builder *b, size_t p) {
    const tree *tree = b->tree;
    uint32_t name = b->pattern->name.at[p];
    if (b->pattern->kind.at[p] == SYMBOL) {
        b->out->place[p] = b->out->rows;
        put_arguments(b, p, name);
        return;
    }
    if (!settle(b, p)) {
        b->fails = true;
        return;
    }
    const uint32_t *pair = b->record + 2 * name;
    switch (b->pattern->kind.at[p]) {
    case INDIVIDUAL:
        copy(b, pair[0], end(&tree->size, pair[0]));
        break;
    case SEQUENCE:
        copy(b, pair[0], behind(&tree->size, pair[0], pair[1]));
        break;
    case FUNCTION:
        put_arguments(b, p, tree->label.at[pair[0]]);
        break;
    default:
        put_context(b, p, pair);
    }
}

void build(const tree *tree, const rows *pattern, const uint32_t *record, instance *out) {
    builder b = {tree, pattern, record, NULL, NOWHERE, false, false, out};
    out->rows = 0;
    put_term(&b, 0);
    out->tree.label.n = out->tree.size.n = out->rows;
}

bool build_up_to(const tree *tree, const rows *pattern, uint32_t *record, size_t stop, instance *out) {
    builder b = {tree, pattern, record, record, stop, false, false, out};
    out->rows = 0;
    fill_hole(&b, 0);
    out->tree.label.n = out->tree.size.n = out->rows;
    return !b.fails;
}

bool is_tree(const instance *instance, const tree *tree) {
    if (instance->rows != tree->size.n) return false;
    for (size_t row = 0; row < instance->rows; row++)
        if (instance->tree.label.at[row] != tree->label.at[row] || instance->tree.size.at[row] != tree->size.at[row]) return false;
    return true;
}
