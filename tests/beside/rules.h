/* The words of the rules: kinds, codes, endings, limits, a problem's lists, and places in them. */
#ifndef RULES_H
#define RULES_H

#include <stdbool.h>
#include <stddef.h>
#include <stdint.h>

enum kind { SYMBOL, INDIVIDUAL, SEQUENCE, FUNCTION, CONTEXT, KINDS };
enum expression_kind { LETTER, EMPTY, CONCATENATION, CHOICE, REPETITION, EXPRESSION_KINDS };
enum ending { ALL_OF_THEM, NO_ROOM, NO_BUDGET };

enum code {
    ACCEPTED = 0,
    BAD_DICTIONARY = 1,
    DOCUMENT_TOO_LONG = 2,
    NOT_IN_SUBSET = 3,
    TOO_DEEP = 4,
    TOO_MANY_ROWS = 5,
    NO_ROOM_FOR_ROWS = 6,
    BAD_TREE = 11,
    BAD_PATTERN = 12,
    BAD_EXPRESSIONS = 13,
    BAD_CONSTRAINT = 14,
    BAD_RECORD = 15,
    INSTANCE_TOO_LARGE = 16,
    NO_ROOM_FOR_INSTANCE = 17,
    FORGOTTEN = 19,
    NO_MATCHER = 20,
    BAD_PANEL = 21,
    CODES = 22
};

enum limit {
    TREE_ROWS = 2048,
    PATTERN_ROWS = 256,
    EXPRESSION_ROWS = 64,
    VARIABLES = 16,
    DEPTH = 64,
    PROBLEMS_OF_PANEL = 32,
    LABELS = 65536,
    NAMES = 1024,
    DICTIONARY_BYTES = 16384,
    DOCUMENT_BYTES = 32768
};

/* A list may be longer than any rule allows, by this much. */
enum { ENTRIES = TREE_ROWS + 4 };

typedef struct {
    size_t n;
    uint32_t at[ENTRIES];
} list;

typedef struct {
    list label, size;
} tree;

/* A pattern or an expression table. */
typedef struct {
    list kind, name, size;
} rows;

typedef struct {
    tree tree;
    rows pattern, expression;
    list constraint;
} problem;

/* Problems over one tree, laid end to end. The lengths say how much of the lists is each problem's own, the shares how much of what is lent. */
typedef struct {
    tree tree;
    rows pattern, expression;
    list constraint, pattern_length, expression_length, constraint_length, budget, share;
    size_t out, answer; /* entries that are lent */
} panel;

/* ---- Places, in lists that keep the rules ---- */

/* Behind the subterm of a row. */
size_t end(const list *size, size_t row);

/* Where the argument list ends in which a row stands. The root stands in a list of one. */
size_t list_end(const list *size, size_t row);

/* How many terms stand from one row up to another. */
size_t terms(const list *size, size_t from, size_t to);

/* The row behind so many terms. */
size_t behind(const list *size, size_t row, size_t count);

/* Does the subterm of a row go on beyond another row that comes after it? */
bool is_above(const list *size, size_t row, size_t other);

size_t variables(const rows *pattern);

/* The row of the pattern where a variable appears first. */
size_t first_row(const rows *pattern, uint32_t variable);

uint32_t kind_of(const rows *pattern, uint32_t variable);

/* Variables of these kinds have tries, and may have a constraint. */
bool is_choice(uint32_t kind);

#endif
