/* What is compared and what is counted, each with the least that there has to be, so that no part of the test can become empty unseen.
 * A further comparison or feature is one line here. */
#ifndef TALLY_H
#define TALLY_H

#include "rules.h"

#define COMPARISONS(X)                                                                      \
    X(TEST, "tests of a candidate record", 764521)                                          \
    X(INSTANCE, "instances of a candidate record", 764521)                                  \
    X(INSTANCE_ROOM, "instances with every room", 20000)                                    \
    X(LIST_ENOUGH, "lists with room and budget enough", 5000)                               \
    X(LIST_ROOM, "lists with less room", 2000)                                              \
    X(LIST_BUDGET, "lists with less budget", 6000)                                          \
    X(LIST_BOTH, "lists with less of both", 4000)                                           \
    X(OWN_LIST, "lists of ours by tries and by candidates", 2500)                           \
    X(DAMAGED_LIST, "lists of a damaged problem", 10000)                                    \
    X(DAMAGED_TEST, "tests with a damaged problem or record", 10000)                        \
    X(DAMAGED_INSTANCE, "instances with a damaged problem or record", 10000)                \
    X(PAGE, "pages after a record, with each room and budget", 100000)                     \
    X(PAGES_JOINED, "pages joined with rooms 1, 2 and 3", 20000)                            \
    X(PAGE_CODE, "pages after a candidate that is no matcher's", 100000)                    \
    X(PAGE_MOVED, "pages after a matcher's values at other rows", 20000)                    \
    X(DAMAGED_PAGE, "pages with a damaged problem or record", 10000)                        \
    X(OWN_PAGE, "lists of ours by tries and by second numbers", 10000)                      \
    X(PANEL, "panels, their code and what stands around their shares", 15000)               \
    X(PANEL_PROBLEM, "panels' problems beside what was decided", 50000)                     \
    X(PANEL_LIST, "panels' problems beside lists of their own", 50000)                      \
    X(CHECK, "checks of a document", 20000)                                                 \
    X(READING, "readings of a document", 20000)                                             \
    X(READ_BACK, "trees written as documents and read back", 2500)                          \
    X(SPELLING, "spellings", 40000)

#define FEATURES(X)                                                                         \
    X(PROBLEMS, "problems", 2500)                                                           \
    X(WITH_SYMBOL, "  have a symbol", 1861)                                                 \
    X(WITH_INDIVIDUAL, "  have an individual variable", 1103)                               \
    X(WITH_SEQUENCE, "  have a sequence variable", 774)                                     \
    X(WITH_FUNCTION, "  have a function variable", 544)                                     \
    X(WITH_CONTEXT, "  have a context variable", 658)                                       \
    X(REPEATED, "  have a repeated variable", 656)                                          \
    X(REPEATED_INDIVIDUAL, "  have a repeated individual variable", 200)                    \
    X(REPEATED_SEQUENCE, "  have a repeated sequence variable", 200)                        \
    X(REPEATED_FUNCTION, "  have a repeated function variable", 200)                        \
    X(REPEATED_CONTEXT, "  have a repeated context variable", 145)                          \
    X(CONTEXT_UNDER_CONTEXT, "  have a context variable under a context variable", 100)     \
    X(CONSTRAINED, "  have a constraint", 691)                                              \
    X(CONSTRAINED_SEQUENCE, "  have one on a sequence variable", 300)                       \
    X(CONSTRAINED_CONTEXT, "  have one on a context variable", 300)                         \
    X(WITH_CONCATENATION, "  have one with a concatenation", 200)                           \
    X(WITH_CHOICE, "  have one with a choice", 207)                                         \
    X(WITH_EMPTY, "  have one with the empty word's sign", 100)                             \
    X(NESTED_REPETITION, "  have one with a repetition in a repetition", 110)               \
    X(EMPTY_INSIDE, "  have one with a repetition whose inside can be empty", 147)          \
    X(LARGE_EXPRESSION, "  have an expression table of more than 32 rows", 30)           \
    X(WITH_FLAG_0, "  have one with flag 0", 374)                                           \
    X(WITH_FLAG_1, "  have one with flag 1", 393)                                           \
    X(WITH_RECORD, "  have a record", 1007)                                                 \
    X(WITH_TWO_RECORDS, "  have two or more", 209)                                          \
    X(REPEATED_AND_RECORD, "  have a record and a repeated variable", 136)                  \
    X(CONSTRAINED_AND_RECORD, "  have a record and a constraint", 166)                      \
    X(EXCLUDED_BY_CONSTRAINT, "  have a record that only a constraint excludes", 100)       \
    X(FORGETFUL, "problems with an expression that no variable names", 3000)                \
    X(RECORDS, "records", 1864)                                                             \
    X(TRIES, "tries", 5878)                                                                 \
    X(CANDIDATE_YES, "candidate records that are a matcher's", 1864)                        \
    X(CANDIDATE_BAD, "candidate records that are bad", 256511)                              \
    X(ENDING_0, "lists that end with 0", 5000)                                              \
    X(ENDING_1, "lists that end with 1", 2000)                                              \
    X(ENDING_2, "lists that end with 2", 6000)                                              \
    X(PAGE_ENDING_0, "pages that end with 0", 20000)                                        \
    X(PAGE_ENDING_1, "pages that end with 1", 20000)                                        \
    X(PAGE_ENDING_2, "pages that end with 2", 20000)                                        \
    X(TURNED, "pages turned where they are joined", 20000)                                  \
    X(PANELS, "panels whose lists add up", 3000)                                            \
    X(PANEL_OF_32, "  have 32 problems", 500)                                               \
    X(PANEL_OF_NONE, "  have none", 100)                                                    \
    X(PANEL_WITHOUT_TREE, "  are over a tree that is none", 500)                            \
    X(SHIFTED, "  have lengths that were shifted from one to another", 400)                 \
    X(WRAPPED, "panels whose lengths add up in 32 bits alone", 1000)                        \
    X(BEHIND_REFUSED, "problems of a panel with a record, behind a refused one", 3000)      \
    X(REFUSED_BEHIND, "refused problems of a panel, behind one with a record", 3000)        \
    X(PANEL_ENDING_0, "problems of a panel that end with 0", 10000)                         \
    X(PANEL_ENDING_1, "problems of a panel that end with 1", 3000)                          \
    X(PANEL_ENDING_2, "problems of a panel that end with 2", 3000)                          \
    X(SHARE_LEFT, "problems of a panel with a record that leave some of their share", 2000) \
    X(BOTH_SORTS, "documents with an element and a text of one spelling", 200)              \
    X(DEEP_DOCUMENTS, "documents that go deeper than 64 levels and come back", 250)         \
    X(CODE_1, "refusals 1", 500)                                                            \
    X(CODE_2, "refusals 2", 5)                                                              \
    X(CODE_3, "refusals 3", 5000)                                                           \
    X(CODE_4, "refusals 4", 300)                                                            \
    X(CODE_5, "refusals 5", 5)                                                              \
    X(CODE_6, "refusals 6", 2000)                                                           \
    X(CODE_11, "refusals 11", 1000)                                                         \
    X(CODE_12, "refusals 12", 1000)                                                         \
    X(CODE_13, "refusals 13", 500)                                                          \
    X(CODE_14, "refusals 14", 300)                                                          \
    X(CODE_15, "refusals 15", 1000)                                                         \
    X(CODE_16, "refusals 16", 10)                                                           \
    X(CODE_17, "refusals 17", 5000)                                                         \
    X(CODE_19, "refusals 19", 20000)                                                        \
    X(CODE_20, "refusals 20", 50000)                                                        \
    X(CODE_21, "refusals 21", 8000)

#define FIRST_OF_THREE(name, text, least) name,
enum comparison { COMPARISONS(FIRST_OF_THREE) COMPARISONS_END };
enum feature { FEATURES(FIRST_OF_THREE) FEATURES_END };
#undef FIRST_OF_THREE

/* What stands in every entry of a lent list before a call; no answer has it. */
enum { BEYOND = 4 };
#define MARK 4027514880u

void mark(uint32_t *to, size_t n);

/* Does the list begin with these numbers, and is it unchanged behind them? */
bool begins_with(const uint32_t *got, size_t n, const uint32_t *want, size_t written);

/* What is being compared now, for the first differences, which are printed. */
void set_case(const char *name, uint32_t number, const problem *problem);

void compare(enum comparison what, bool same);

void count(enum feature feature, size_t number);

void count_code(uint32_t code);

/* Counts what a problem has and what its list is like. */
void count_features(const problem *problem, size_t records, size_t tries, bool excluded);

/* Prints all counts. 0 if nothing differs and nothing is too seldom, else 1. */
int report(void);

#endif
