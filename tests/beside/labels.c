/* The dictionary, numbers, labels and spellings. */
#include "documents.h"

/* A name is compared as bytes with no end of its own. */
typedef struct {
    const uint8_t *at;
    size_t n;
} word;

static bool same_word(word a, word b) {
    if (a.n != b.n) return false;
    for (size_t k = 0; k < a.n; k++)
        if (a.at[k] != b.at[k]) return false;
    return true;
}

/* The names, each without its byte 10, and how many they are. What stands behind the last byte 10 is no name. */
static size_t find_names(const bytes *dictionary, word *names) {
    size_t many = 0, start = 0;
    for (size_t k = 0; k < dictionary->n; k++) {
        if (dictionary->at[k] != 10) continue;
        names[many++] = (word){dictionary->at + start, k - start};
        start = k + 1;
    }
    return many;
}

bool good_dictionary(const bytes *dictionary) {
    static word names[BYTES];
    size_t many = find_names(dictionary, names);
    if (dictionary->n > DICTIONARY_BYTES || many > NAMES) return false;
    if (dictionary->n > 0 && dictionary->at[dictionary->n - 1] != 10) return false;
    for (size_t k = 0; k < many; k++) {
        if (names[k].n == 0) return false;
        for (size_t other = 0; other < k; other++)
            if (same_word(names[k], names[other])) return false;
    }
    return true;
}

static word spelling(const bytes *document, const reading *rows, size_t row) {
    return (word){document->at + rows->start.at[row], rows->length.at[row]};
}

static bool find_word(const word *words, size_t many, word wanted, size_t *found) {
    for (*found = 0; *found < many; ++*found)
        if (same_word(words[*found], wanted)) return true;
    return false;
}

void put_labels(const bytes *dictionary, const bytes *document, reading *out) {
    static word words[BYTES];
    size_t known = find_names(dictionary, words), found;
    for (size_t row = 0; row < out->rows; row++) {
        word own = spelling(document, out, row);
        if (!find_word(words, known, own, &found)) words[known++] = own;
        out->label.at[row] = 2 * found + (out->text[row] ? 1 : 0);
    }
}

void decide_reading(const bytes *dictionary, const bytes *document, reading *out) {
    size_t deepest;
    if (!good_dictionary(dictionary)) out->code = BAD_DICTIONARY;
    else if (document->n > DOCUMENT_BYTES) out->code = DOCUMENT_TOO_LONG;
    else if (!in_subset(document, out, &deepest)) out->code = NOT_IN_SUBSET;
    else if (deepest > DEPTH) out->code = TOO_DEEP;
    else if (out->rows > TREE_ROWS) out->code = TOO_MANY_ROWS;
    else out->code = ACCEPTED;
    if (out->code != NOT_IN_SUBSET) out->place = 0;
    if (out->code != ACCEPTED) out->rows = 0;
    out->label.n = out->size.n = out->start.n = out->length.n = out->rows;
    put_labels(dictionary, document, out);
}

part decide_spelling(const bytes *dictionary, const bytes *document, const reading *lists, size_t row) {
    static const part EMPTY_PART = {1, 0, 0};
    static word names[BYTES];
    if (row >= lists->label.n || row >= lists->start.n || row >= lists->length.n) return EMPTY_PART;
    size_t known = good_dictionary(dictionary) ? find_names(dictionary, names) : 0;
    uint32_t number = lists->label.at[row] / 2;
    if (number < known) return (part){0, names[number].at - dictionary->at, names[number].n};
    uint64_t to = (uint64_t)lists->start.at[row] + lists->length.at[row];
    if (to > document->n) return EMPTY_PART;
    return (part){1, lists->start.at[row], lists->length.at[row]};
}
