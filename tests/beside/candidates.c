/* All candidate records of a problem, in the order of records: variable by variable, by the second number and then by the first. */
#include "compare.h"

/* With more records than these only the good ones are gone through, and with more good ones than those none. */
enum { MOST = 1500, MOST_GOOD = 4000, MOST_PAIRS = 400 };

typedef struct {
    size_t many[VARIABLES];
    uint32_t pair[VARIABLES][MOST_PAIRS][2];
} candidates;

/* Rows and counts up to the tree's length, also where no such value stands; of an individual or function variable with the second
 * number 0, and once with 1. */
static bool is_wanted(const list *size, uint32_t kind, uint32_t first, uint32_t second, bool only_good) {
    if (only_good) return good_pair(size, kind, first, second);
    return is_choice(kind) || second == 0 || (second == 1 && first == 0);
}

static void put_pairs(const list *size, uint32_t kind, bool only_good, uint32_t (*pair)[2], size_t *many) {
    *many = 0;
    for (uint32_t second = 0; second <= size->n; second++)
        for (uint32_t first = 0; first <= size->n; first++) {
            if (!is_wanted(size, kind, first, second, only_good) || *many == MOST_PAIRS) continue;
            pair[*many][0] = first;
            pair[*many][1] = second;
            ++*many;
        }
}

/* How many records there are. */
static size_t put_candidates(const problem *problem, bool only_good, candidates *out) {
    size_t product = 1;
    for (uint32_t v = 0; v < variables(&problem->pattern); v++) {
        put_pairs(&problem->tree.size, kind_of(&problem->pattern, v), only_good, out->pair[v], &out->many[v]);
        product *= out->many[v];
        if (product > MOST_GOOD) return product;
    }
    return product;
}

/* The record of a number: the last variable's pair changes first. */
static void put_record(const candidates *from, size_t number, list *record) {
    for (size_t v = record->n / 2; v-- > 0;) {
        const uint32_t *pair = from->pair[v][number % from->many[v]];
        number /= from->many[v];
        record->at[2 * v] = pair[0];
        record->at[2 * v + 1] = pair[1];
    }
}

static bool is_record(const listing *all, size_t number, const list *record) {
    for (size_t k = 0; k < record->n; k++)
        if (all->record[number][k] != record->at[k]) return false;
    return true;
}

void compare_candidates(chance *chance, const problem *problem, const listing *all) {
    static candidates candidates;
    static list record;
    size_t many = problem->tree.size.n < 19 ? put_candidates(problem, false, &candidates) : MOST + 1, found = 0;
    bool same = true;
    if (many > MOST) many = put_candidates(problem, true, &candidates);
    if (many > MOST_GOOD) return;
    record.n = 2 * variables(&problem->pattern);
    for (size_t k = 0; k < many; k++) {
        put_record(&candidates, k, &record);
        if (!compare_record(chance, problem, ACCEPTED, &record, TEST, INSTANCE)) continue;
        same = same && found < all->records && is_record(all, found, &record);
        found++;
    }
    compare(OWN_LIST, same && found == all->records);
}
