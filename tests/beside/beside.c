/* Holds Khargovsun's functions beside a matcher and a reader that were written from the rules alone, on problems and documents made by
 * chance, always the same ones. Prints what was compared, how often each feature was met, and how many answers differ. */
#include "compare.h"

static const group GROUPS[] = {
    /* name, problems, shape, favourite, rows of values, tree and pattern, variables, rows of an expression, all candidates */
    {"small problem", 3600, MIXED, KINDS, 7, 9, 7, 4, 10, true},
    {"larger problem", 4000, MIXED, KINDS, 10, 24, 14, 7, 16, false},
    {"wide problem", 400, WIDE, SEQUENCE, 16, 40, 6, 4, 64, false},
    {"deep problem", 400, DEEP, CONTEXT, 16, 40, 6, 4, 64, false},
    {"chain", 3000, DEEP, SEQUENCE, 6, 12, 5, 4, 6, false},
};

/* Problems by which a wrong program was seen that chance may miss. */
static const problem KNOWN[] = {
    /* Q on g(f(a), f(b, b)), s1 in the choice of a and b b: a reading that began at another row must not be taken up. */
    {.tree = {.label = {6, {0, 2, 7, 2, 9, 9}}, .size = {6, {6, 2, 1, 3, 1, 1}}},
     .pattern = {.kind = {3, {CONTEXT, SYMBOL, SEQUENCE}}, .name = {3, {0, 2, 1}}, .size = {3, {3, 2, 1}}},
     .expression = {.kind = {5, {CHOICE, LETTER, CONCATENATION, LETTER, LETTER}}, .name = {5, {0, 7, 0, 9, 9}}, .size = {5, {5, 1, 3, 1, 1}}},
     .constraint = {4, {0, 0, 1, 0}}},
};

enum {
    SEED = 2026,
    DAMAGES = 6, /* of each problem */
    LISTED = 20, /* so many records of a list are tested and made with every room */
    APART = 5    /* one in so many problems begins a panel */
};

/* Would the problem have more records without its constraints? */
static bool constraint_excludes(const problem *whole, const listing *all) {
    static problem unconstrained;
    static listing more;
    unconstrained = *whole;
    for (size_t k = 0; k < whole->constraint.n; k++) unconstrained.constraint.at[k] = 0;
    list_all(&unconstrained, &more);
    return more.records > all->records;
}

/* Each record of the list is a matcher's, and with one number altered mostly not. */
static void compare_listed(chance *chance, const problem *problem, const listing *all) {
    static list record;
    record.n = 2 * variables(&problem->pattern);
    for (size_t number = 0; number < all->records && number < LISTED; number++) {
        for (size_t k = 0; k < record.n; k++) record.at[k] = all->record[number][k];
        compare_rooms(problem, &record);
        compare_record(chance, problem, ACCEPTED, &record, TEST, INSTANCE);
        for (size_t k = 0; k < record.n; k++) {
            record.at[k] += one_in(chance, 2) ? 1 : -1;
            compare_record(chance, problem, ACCEPTED, &record, TEST, INSTANCE);
            record.at[k] = all->record[number][k];
        }
    }
}

static void compare_damages(chance *chance, const problem *whole) {
    static problem damaged;
    static list record;
    for (size_t k = 0; k < DAMAGES; k++) {
        damaged = *whole;
        make_record(chance, &whole->tree, &whole->pattern, &record);
        for (uint32_t many = between(chance, 1, 3); many > 0; many--) damage(chance, &damaged, &record);
        compare_damaged(chance, &damaged, &record);
    }
}

static void compare_problem(chance *chance, const char *name, uint32_t number, const problem *problem, bool all_candidates) {
    static listing all;
    set_case(name, number, problem);
    list_all(problem, &all);
    if (all.too_long) return;
    count_features(problem, all.records, all.tries, constraint_excludes(problem, &all));
    if (all_candidates) compare_candidates(chance, problem, &all);
    compare_listed(chance, problem, &all);
    compare_lists(chance, problem, &all);
    compare_pages(problem, &all);
    compare_damages(chance, problem);
    compare_forgotten(chance, problem);
    if (all_candidates) compare_documents(chance, &problem->tree, number);
}

/* Each problem has a chance of its own, so that what is drawn for one, or no longer is, changes no other. */
static chance chance_of(size_t group, uint32_t number) {
    return (chance){SEED + 1000003 * group + number};
}

static void compare_group(size_t group, const struct group *of) {
    static problem problem;
    for (uint32_t number = 0; number < of->problems; number++) {
        chance chance = chance_of(group, number);
        make_problem(&chance, of, &problem);
        compare_problem(&chance, of->name, number, &problem, of->all_candidates);
        if (number % APART == 0) compare_panels(&chance, of, number, &problem);
    }
}

int main(void) {
    enum { MADE = sizeof GROUPS / sizeof *GROUPS, SEEN = sizeof KNOWN / sizeof *KNOWN };
    chance chance = chance_of(MADE, 0);
    for (size_t g = 0; g < MADE; g++) compare_group(g, &GROUPS[g]);
    for (uint32_t number = 0; number < SEEN; number++) compare_problem(&chance, "known problem", number, &KNOWN[number], true);
    compare_limits(&chance);
    compare_document_limits(&chance);
    compare_deep_documents(&chance);
    return report();
}
