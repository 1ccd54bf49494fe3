/* Languages: from a set of places in a word, the places where a part may end that is in an expression's language. */
#include "decide.h"

typedef struct {
    const rows *table;
    const uint32_t *word;
    size_t letters;
} reading;

/* A set of places in the word, place k as bit k. */
typedef uint64_t places;

static places ends(const reading *r, size_t row, places from);

static places behind_letter(const reading *r, uint32_t letter, places from) {
    places found = 0;
    for (size_t place = 0; place < r->letters; place++)
        if ((from >> place & 1) && r->word[place] == letter) found |= (places)1 << (place + 1);
    return found;
}

/* Only places that are new are gone on from, so that an empty inside adds nothing. */
static places behind_repetition(const reading *r, size_t inside, places from) {
    places found = from;
    for (places new = from; new != 0; found |= new) new = ends(r, inside, new) & ~found;
    return found;
}

static places ends(const reading *r, size_t row, places from) {
    size_t first = row + 1;
    switch (r->table->kind.at[row]) {
    case LETTER:
        return behind_letter(r, r->table->name.at[row], from);
    case EMPTY:
        return from;
    case CONCATENATION:
        return ends(r, end(&r->table->size, first), ends(r, first, from));
    case CHOICE:
        return ends(r, first, from) | ends(r, end(&r->table->size, first), from);
    default:
        return behind_repetition(r, first, from);
    }
}

bool in_language(const rows *expression, size_t row, const uint32_t *word, size_t letters) {
    reading r = {expression, word, letters};
    return ends(&r, row, 1) >> letters & 1;
}

/* A sequence is judged by the heads of its terms, a context by the labels from its head to the hole, hole left out. */
size_t word_of(const tree *tree, uint32_t kind, const uint32_t *pair, uint32_t *word) {
    size_t letters = 0;
    if (kind == SEQUENCE) {
        size_t row = pair[0];
        for (; letters < pair[1]; row = end(&tree->size, row)) word[letters++] = tree->label.at[row];
        return letters;
    }
    for (size_t row = pair[0]; row < pair[1]; row++)
        if (is_above(&tree->size, row, pair[1])) word[letters++] = tree->label.at[row];
    return letters;
}

bool obeys(const problem *problem, const uint32_t *record, uint32_t variable) {
    const uint32_t *constraint = problem->constraint.at + 2 * variable;
    uint32_t word[TREE_ROWS];
    if (constraint[0] == 0) return true;
    size_t letters = word_of(&problem->tree, kind_of(&problem->pattern, variable), record + 2 * variable, word);
    if (constraint[1] == 1 && letters == 0) return false;
    return in_language(&problem->expression, constraint[0] - 1, word, letters);
}
