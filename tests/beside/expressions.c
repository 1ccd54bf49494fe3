/* Expressions and constraints by chance. */
#include "decide.h"
#include "make.h"

typedef struct {
    chance *chance;
    alphabet alphabet;
    rows *out;
} maker;

static size_t open_row(maker *m, uint32_t kind, uint32_t name) {
    size_t row = m->out->kind.n;
    m->out->kind.at[row] = kind;
    m->out->name.at[row] = name;
    m->out->kind.n = m->out->name.n = m->out->size.n = row + 1;
    return row;
}

static void close_row(maker *m, size_t row) {
    m->out->size.at[row] = m->out->kind.n - row;
}

static void put_leaf(maker *m, uint32_t kind, uint32_t name) {
    close_row(m, open_row(m, kind, name));
}

static void put_letter(maker *m) {
    put_leaf(m, LETTER, m->alphabet.first + draw(m->chance, m->alphabet.many));
}

/* Any expression of so many rows. */
static void put_any(maker *m, size_t rows) {
    if (rows == 1) {
        if (one_in(m->chance, 6)) put_leaf(m, EMPTY, 0);
        else put_letter(m);
        return;
    }
    uint32_t kind = rows == 2 ? REPETITION : between(m->chance, CONCATENATION, REPETITION);
    size_t row = open_row(m, kind, 0), part = kind == REPETITION ? rows - 1 : between(m->chance, 1, rows - 2);
    put_any(m, part);
    if (kind != REPETITION) put_any(m, rows - 1 - part);
    close_row(m, row);
}

/* A repetition of the choice of all letters, or any expression where that is too large. */
static void put_all_words(maker *m, size_t most) {
    size_t choices = m->alphabet.many - 1, open[8];
    if (most < 2 * choices + 2) {
        put_any(m, most);
        return;
    }
    size_t row = open_row(m, REPETITION, 0);
    for (size_t k = 0; k < choices; k++) {
        open[k] = open_row(m, CHOICE, 0);
        put_leaf(m, LETTER, m->alphabet.first + k);
    }
    put_leaf(m, LETTER, m->alphabet.first + choices);
    while (choices > 0) close_row(m, open[--choices]);
    close_row(m, row);
}

/* The least rows of an expression whose only word has so many letters. */
static size_t least(size_t letters) {
    return letters == 0 ? 1 : 2 * letters - 1;
}

static void put_covering(maker *m, const uint32_t *word, size_t letters, size_t most);

/* The word cut in two, or a single letter, or no letter. */
static void put_parts(maker *m, const uint32_t *word, size_t letters, size_t most) {
    if (letters == 0) put_leaf(m, EMPTY, 0);
    if (letters == 1) put_leaf(m, LETTER, word[0]);
    if (letters < 2) return;
    size_t cut = between(m->chance, 1, letters - 1);
    size_t spare = most - 1 - least(cut) - least(letters - cut);
    size_t row = open_row(m, CONCATENATION, 0);
    put_covering(m, word, cut, least(cut) + spare / 2);
    put_covering(m, word + cut, letters - cut, least(letters - cut) + spare / 2);
    close_row(m, row);
}

/* An expression of at most so many rows that has the word and mostly others too. */
static void put_covering(maker *m, const uint32_t *word, size_t letters, size_t most) {
    uint32_t x = draw(m->chance, 6);
    if (most < least(letters) || (letters > 1 && x == 0)) {
        put_all_words(m, most);
        return;
    }
    size_t spare = most - least(letters);
    if (x < 2 && spare >= 1) {
        size_t row = open_row(m, REPETITION, 0);
        put_covering(m, word, letters, most - 1);
        close_row(m, row);
    } else if (x < 4 && spare >= 2) {
        size_t row = open_row(m, CHOICE, 0), other = between(m->chance, 1, spare - 1);
        if (x == 2) put_any(m, other);
        put_covering(m, word, letters, most - 1 - other);
        if (x == 3) put_any(m, other);
        close_row(m, row);
    } else put_parts(m, word, letters, most);
}

/* The first row plus one of a new expression for the value. */
static uint32_t new_expression(maker *m, const group *group, const uint32_t *word, size_t letters) {
    size_t row = m->out->kind.n, most = between(m->chance, 1 + group->expression_rows / 16, group->expression_rows);
    if (most > EXPRESSION_ROWS - row) most = EXPRESSION_ROWS - row;
    if (one_in(m->chance, 3)) put_any(m, most);
    else put_covering(m, word, letters, most);
    return row + 1;
}

void make_constraints(chance *chance, const group *group, alphabet alphabet, const tree *values, const list *record, problem *out) {
    maker m = {chance, alphabet, &out->expression};
    uint32_t word[TREE_ROWS], last = 0;
    out->expression.kind.n = out->expression.name.n = out->expression.size.n = 0;
    out->constraint.n = record->n;
    for (size_t k = 0; k < record->n; k += 2) {
        uint32_t kind = kind_of(&out->pattern, k / 2), *constraint = out->constraint.at + k;
        constraint[0] = constraint[1] = 0;
        if (!is_choice(kind) || one_in(chance, 2)) continue;
        size_t letters = word_of(values, kind, record->at + k, word);
        if (m.out->kind.n == EXPRESSION_ROWS || (last != 0 && one_in(chance, 4))) constraint[0] = last;
        else constraint[0] = last = new_expression(&m, group, word, letters);
        constraint[1] = draw(chance, 2);
    }
}
