/* Trees written as documents, dictionaries, and damage to both. */
#include "documents.h"

/* Names come first: the others can only be texts. */
static const char *const SPELLINGS[] = {
    "a", "b", "ab", "a-1", "_", ":x.y", "A", "Zz9", "]", "1", "a b", " a", "]]", "x > y", "]] >", "=\"'", "\x7f", "b\n",
};
enum { ALL_SPELLINGS = sizeof SPELLINGS / sizeof *SPELLINGS, ELEMENT_SPELLINGS = 8 };

void append_byte(bytes *to, uint8_t byte) {
    if (to->n < BYTES) to->at[to->n++] = byte;
}

void append(bytes *to, const char *text) {
    while (*text != 0) append_byte(to, *text++);
}

typedef struct {
    chance *chance;
    const tree *tree;
    bytes *out;
    reading *written;
    bool text_last;
} writer;

static void put_white(writer *w) {
    while (one_in(w->chance, 4)) append_byte(w->out, " \t\n"[draw(w->chance, 3)]);
}

/* White space before a tag, where no text stands last: it would be part of the text. */
static void put_white_before(writer *w) {
    if (!w->text_last) put_white(w);
    w->text_last = false;
}

static void put_spelling(writer *w, size_t row, const char *spelling, bool text) {
    w->written->start.at[row] = w->out->n;
    append(w->out, spelling);
    w->written->length.at[row] = w->out->n - w->written->start.at[row];
    w->written->size.at[row] = w->tree->size.at[row];
    w->written->text[row] = text;
}

static void put_end(writer *w, const char *name) {
    put_white_before(w);
    append(w->out, "</");
    append(w->out, name);
    put_white(w);
    append_byte(w->out, '>');
}

static void put_term(writer *w, size_t row);

static void put_element(writer *w, size_t row, const char *name) {
    const list *size = &w->tree->size;
    put_white_before(w);
    append_byte(w->out, '<');
    put_spelling(w, row, name, false);
    put_white(w);
    if (size->at[row] == 1 && one_in(w->chance, 2)) {
        append(w->out, "/>");
        return;
    }
    append_byte(w->out, '>');
    for (size_t below = row + 1; below < end(size, row); below = end(size, below)) put_term(w, below);
    put_end(w, name);
}

/* A leaf may be a text, unless it is the root or a text stands before it. */
static void put_term(writer *w, size_t row) {
    uint32_t label = w->tree->label.at[row];
    if (row > 0 && w->tree->size.at[row] == 1 && !w->text_last && one_in(w->chance, 2)) {
        bool other = one_in(w->chance, 2);
        put_spelling(w, row, SPELLINGS[other ? draw(w->chance, ALL_SPELLINGS) : label % ELEMENT_SPELLINGS], true);
        w->text_last = true;
    } else put_element(w, row, SPELLINGS[label % ELEMENT_SPELLINGS]);
}

void write_document(chance *chance, const tree *tree, bytes *out, reading *written) {
    writer w = {chance, tree, out, written, false};
    out->n = 0;
    written->rows = tree->size.n;
    put_term(&w, 0);
    put_white_before(&w);
}

void make_dictionary(chance *chance, bytes *out) {
    uint32_t first = draw(chance, ALL_SPELLINGS), many = draw(chance, 6);
    out->n = 0;
    if (one_in(chance, 4)) append(out, "\x80\xff\n");
    for (uint32_t k = 0; k < many; k++) {
        append(out, SPELLINGS[(first + 5 * k) % (ALL_SPELLINGS - 1)]);
        append_byte(out, 10);
    }
}

static uint8_t some_byte(chance *chance) {
    static const char OFTEN[] = "<>/ab ]]&\t\n\r\x7f\x80!?-.0:_\"'=[x";
    return one_in(chance, 8) ? draw(chance, 256) : (uint8_t)OFTEN[draw(chance, sizeof OFTEN - 1)];
}

static void insert_byte(bytes *bytes, size_t place, uint8_t byte) {
    if (bytes->n == BYTES) return;
    for (size_t k = bytes->n++; k > place; k--) bytes->at[k] = bytes->at[k - 1];
    bytes->at[place] = byte;
}

static void drop_bytes(bytes *bytes, size_t place, size_t count) {
    if (count > bytes->n - place) count = bytes->n - place;
    bytes->n -= count;
    for (size_t k = place; k < bytes->n; k++) bytes->at[k] = bytes->at[k + count];
}

void damage_bytes(chance *chance, bytes *bytes) {
    size_t place = draw(chance, bytes->n + 1);
    switch (draw(chance, 6)) {
    case 0:
        bytes->n = place;
        break;
    case 1:
    case 2:
        insert_byte(bytes, place, some_byte(chance));
        break;
    case 3:
        drop_bytes(bytes, place, between(chance, 1, 3));
        break;
    default:
        if (place < bytes->n) bytes->at[place] = some_byte(chance);
    }
}
