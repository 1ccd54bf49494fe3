/* Matchers and tries, from their definitions. */
#include "decide.h"

/* Has each variable its place in the tree: where its first appearance stands in the instance, which is the tree? */
static bool in_place(const rows *pattern, const uint32_t *record, const instance *instance) {
    for (uint32_t v = 0; v < variables(pattern); v++)
        if (record[2 * v] != instance->place[first_row(pattern, v)]) return false;
    return true;
}

bool is_matcher(const problem *problem, const uint32_t *record, const instance *under) {
    if (!is_tree(under, &problem->tree) || !in_place(&problem->pattern, record, under)) return false;
    for (uint32_t v = 0; v < variables(&problem->pattern); v++)
        if (!obeys(problem, record, v)) return false;
    return true;
}

typedef struct {
    const problem *problem;
    listing *out;
    uint32_t record[2 * VARIABLES];
    instance under;
} walk;

/* The values that there are for a first appearance, from the lowest on. */
typedef struct {
    size_t from, count;
} range;

/* Is row q of the pattern reached? All of the pattern to its left matches exactly if the tree is the pattern's instance with
 * everything from q on left open. A context that is still open stands in that instance whole, with what is right of its hole. */
static bool is_reached(walk *w, size_t q) {
    const problem *problem = w->problem;
    return build_up_to(&problem->tree, &problem->pattern, w->record, q, &w->under) && is_tree(&w->under, &problem->tree);
}

/* The row of the pattern that holds another as an argument. */
static size_t holder(const rows *pattern, size_t q) {
    size_t p = q - 1;
    while (!is_above(&pattern->size, p, q)) p--;
    return p;
}

/* Where the list of the tree ends in which q stands. What fills a hole and the root stand alone. */
static size_t end_for(const walk *w, size_t q) {
    const list *size = &w->problem->tree.size;
    if (q == 0) return size->n;
    size_t p = holder(&w->problem->pattern, q);
    if (w->problem->pattern.kind.at[p] == CONTEXT) return end(size, w->under.place[q]);
    return end(size, w->under.place[p]);
}

static range values(const walk *w, size_t q) {
    const list *size = &w->problem->tree.size;
    size_t here = w->under.place[q], to = end_for(w, q);
    if (w->problem->pattern.kind.at[q] == SEQUENCE) return (range){0, terms(size, here, to) + 1};
    return here < to ? (range){here, size->at[here]} : (range){0, 0};
}

/* All choices are made: a record is reached if what they give is a matcher. */
static void reach(walk *w) {
    listing *out = w->out;
    size_t numbers = 2 * variables(&w->problem->pattern);
    if (!is_reached(w, PATTERN_ROWS)) return;
    build(&w->problem->tree, &w->problem->pattern, w->record, &w->under);
    if (!is_matcher(w->problem, w->record, &w->under)) return;
    if (out->records == MOST_RECORDS) {
        out->too_long = true;
        return;
    }
    for (size_t k = 0; k < numbers; k++) out->record[out->records][k] = w->record[k];
    out->reached[out->records++] = out->tries;
}

static void note_try(walk *w, uint32_t variable) {
    listing *out = w->out;
    if (out->tries == MOST_TRIES) {
        out->too_long = true;
        return;
    }
    out->chosen[out->tries] = variable;
    for (size_t k = 0; k < 2 * (variable + 1); k++) out->tried[out->tries][k] = w->record[k];
    out->tries++;
}

/* The tries of all variables from one on, where the values before are settled. */
static void try_from(walk *w, uint32_t variable) {
    const rows *pattern = &w->problem->pattern;
    while (variable < variables(pattern) && !is_choice(kind_of(pattern, variable))) variable++;
    if (variable == variables(pattern)) {
        reach(w);
        return;
    }
    size_t q = first_row(pattern, variable);
    if (!is_reached(w, q)) return;
    range range = values(w, q);
    size_t here = w->under.place[q];
    for (size_t k = 0; k < range.count && !w->out->too_long; k++) {
        w->record[2 * variable] = here;
        w->record[2 * variable + 1] = range.from + k;
        note_try(w, variable);
        if (!w->out->too_long && obeys(w->problem, w->record, variable)) try_from(w, variable + 1);
    }
}

void list_all(const problem *problem, listing *out) {
    static walk w;
    w.problem = problem;
    w.out = out;
    out->too_long = false;
    out->records = out->tries = 0;
    try_from(&w, 0);
}

bool comes_after(const uint32_t *one, size_t variables, const uint32_t *record) {
    for (size_t v = 0; v < variables; v++)
        if (one[2 * v + 1] != record[2 * v + 1]) return one[2 * v + 1] > record[2 * v + 1];
    return false;
}

page whole_list(const listing *all) {
    return (page){all, 0, 0};
}

page page_after(const problem *problem, const listing *all, const uint32_t *record) {
    page after = {all, 0, 0};
    for (size_t k = 0; k < all->records; k++) after.first += !comes_after(all->record[k], variables(&problem->pattern), record);
    for (size_t k = 0; k < all->tries; k++) after.tries_before += !comes_after(all->tried[k], all->chosen[k] + 1, record);
    return after;
}
