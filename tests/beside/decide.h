/* What the rules say of a problem, decided with no code but that of this folder. */
#ifndef DECIDE_H
#define DECIDE_H

#include "rules.h"

/* ---- Refusals ---- */

/* The first code of 11 to 14 and 19, or 0. */
uint32_t code_of_problem(const problem *problem);

/* 21 or 0. */
uint32_t code_of_panel(const panel *panel);

/* Is the record good? The tree and the pattern have to be. */
bool good_record(const problem *problem, const list *record);

/* Can a variable of this kind have this pair of numbers? */
bool good_pair(const list *size, uint32_t kind, uint32_t first, uint32_t second);

/* ---- Languages ---- */

/* Is the word in the language of the expression at a row of the table? Words have at most 63 letters. */
bool in_language(const rows *expression, size_t row, const uint32_t *word, size_t letters);

/* The word that a variable's value is judged by. How many letters it has. */
size_t word_of(const tree *tree, uint32_t kind, const uint32_t *pair, uint32_t *word);

/* Does a variable's value keep its constraint, if it has one? */
bool obeys(const problem *problem, const uint32_t *record, uint32_t variable);

/* ---- Instances ---- */

typedef struct {
    size_t rows;                /* all of them; the lists hold only as many as they can */
    tree tree;
    size_t place[PATTERN_ROWS]; /* rows before each of the pattern's rows */
} instance;

/* The pattern under a record. */
void build(const tree *tree, const rows *pattern, const uint32_t *record, instance *out);

/* The same, where only the second numbers of sequence and context variables are given: the record gets the others, each where the
 * instance has come to. From the row `stop` of the pattern on everything is left open: the tree's own terms are taken. False where the
 * tree has no term though one is needed. */
bool build_up_to(const tree *tree, const rows *pattern, uint32_t *record, size_t stop, instance *out);

bool is_tree(const instance *instance, const tree *tree);

/* ---- Matchers, and the list of them ---- */

/* Is the good record a matcher's? The instance is that of the pattern under it. */
bool is_matcher(const problem *problem, const uint32_t *record, const instance *under);

enum { MOST_RECORDS = 1500, MOST_TRIES = 6000 };

typedef struct {
    bool too_long;
    size_t records, tries;
    size_t reached[MOST_RECORDS]; /* the tries up to the one that reaches the record */
    uint32_t record[MOST_RECORDS][2 * VARIABLES];
    uint32_t chosen[MOST_TRIES]; /* the variable that a try is for */
    uint32_t tried[MOST_TRIES][2 * VARIABLES]; /* its value and those before it, as in a record */
} listing;

/* All tries by their definition, and after which of them each record is reached. */
void list_all(const problem *problem, listing *out);

/* Does a record, or a try for the last of so many variables, come after a record? At the first variable where they differ the second number
 * decides. */
bool comes_after(const uint32_t *one, size_t variables, const uint32_t *record);

/* Records of a list from one on, and the tries before the first of theirs. */
typedef struct {
    const listing *all;
    size_t first, tries_before;
} page;

page whole_list(const listing *all);

/* What comes strictly after a record of a matcher. */
page page_after(const problem *problem, const listing *all, const uint32_t *record);

#endif
