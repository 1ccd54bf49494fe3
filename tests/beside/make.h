/* Small problems by chance, always the same ones. */
#ifndef MAKE_H
#define MAKE_H

#include "rules.h"

/* ---- Chance ---- */

typedef struct {
    uint64_t state;
} chance;

/* A number below the bound, which is not 0. */
uint32_t draw(chance *chance, uint32_t bound);

/* A number from the first to the last. */
uint32_t between(chance *chance, uint32_t first, uint32_t last);

bool one_in(chance *chance, uint32_t many);

/* ---- What problems of a group are like ---- */

enum shape { MIXED, WIDE, DEEP };

typedef struct group {
    const char *name;
    uint32_t problems;
    enum shape shape;
    uint32_t favourite;       /* the kind that half of a pattern's rows get, or KINDS for one by chance */
    uint32_t value_rows;      /* of the tree that values are taken from, at most */
    uint32_t tree_rows;       /* at most, as all below */
    uint32_t pattern_rows;
    uint32_t variables;
    uint32_t expression_rows; /* of one expression */
    bool all_candidates;      /* are all records gone through, or only those that tries reach? */
} group;

/* The labels of a problem: so many, from a first one on. */
typedef struct {
    uint32_t first, many;
} alphabet;

/* ---- The parts ---- */

void make_tree(chance *chance, enum shape shape, uint32_t most, alphabet alphabet, tree *out);

void make_pattern(chance *chance, const group *group, alphabet alphabet, rows *out);

/* A good record of the pattern on any tree. */
void make_record(chance *chance, const tree *tree, const rows *pattern, list *out);

/* Expressions and constraints. Most constraints are made so that they hold for the values that the record has on the tree. */
void make_constraints(chance *chance, const group *group, alphabet alphabet, const tree *values, const list *record, problem *out);

/* The tree is the pattern under some record, or that with a row altered, or another tree. */
void make_problem(chance *chance, const group *group, problem *out);

/* Problems over the first one's tree, or over that damaged: it again, others of its group, and damaged ones of both. Each with no budget,
 * too small a one, just enough or more, and a share alike. */
void make_panel(chance *chance, const group *group, const problem *first, panel *out);

/* ---- Damage ---- */

/* Changes one number of the problem or the record, or the length of one of their lists. */
void damage(chance *chance, problem *problem, list *record);

/* What may be wrong with the lists of a panel. Where lengths are shifted, and where a problem without rows is added, they still add up. */
enum alteration {
    LIST_LONGER,
    LIST_SHORTER,
    TABLE_LONGER,
    TABLE_SHORTER,
    LENT_OTHERWISE,
    LENGTH_CHANGED,
    LENGTHS_SHIFTED,
    LENGTHS_WRAPPED,
    PROBLEM_MORE,
    PROBLEM_LESS,
    ALTERATIONS
};

void alter_panel(chance *chance, enum alteration how, panel *panel);

#endif
