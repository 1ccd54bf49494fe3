/* The subset, production by production: each function reads one from the place come to and leaves off behind it, or fails. Where it
 * fails, the place come to is the first byte that no document of the subset could have there, or the end. */
#include "documents.h"

typedef struct {
    const bytes *document;
    size_t at;
    size_t deepest;
    reading *out;
} reader;

/* The byte come to, or one that no production has. */
static uint8_t next(const reader *r) {
    return r->at < r->document->n ? r->document->at[r->at] : 255;
}

static bool is_letter(uint8_t byte) {
    return (byte >= 'a' && byte <= 'z') || (byte >= 'A' && byte <= 'Z');
}

static bool starts_name(uint8_t byte) {
    return is_letter(byte) || byte == '_' || byte == ':';
}

static bool continues_name(uint8_t byte) {
    return starts_name(byte) || (byte >= '0' && byte <= '9') || byte == '-' || byte == '.';
}

static bool is_white(uint8_t byte) {
    return byte == ' ' || byte == 9 || byte == 10;
}

static bool is_text(uint8_t byte) {
    return (is_white(byte) || (byte >= 32 && byte <= 127)) && byte != '<' && byte != '&';
}

static bool expect(reader *r, uint8_t byte) {
    if (next(r) != byte) return false;
    r->at++;
    return true;
}

static void skip_white(reader *r) {
    while (is_white(next(r))) r->at++;
}

static void put_row(reader *r, size_t start, size_t depth, bool text) {
    reading *out = r->out;
    if (out->rows < ENTRIES) {
        out->start.at[out->rows] = start;
        out->length.at[out->rows] = r->at - start;
        out->size.at[out->rows] = 1;
        out->text[out->rows] = text;
    }
    out->rows++;
    if (depth > r->deepest) r->deepest = depth;
}

static bool read_name(reader *r) {
    if (!starts_name(next(r))) return false;
    while (continues_name(next(r))) r->at++;
    return true;
}

/* All text up to the next tag; a row unless it is white space only. */
static bool read_run(reader *r, size_t depth) {
    size_t start = r->at;
    bool white = true;
    for (; is_text(next(r)); r->at++) {
        const uint8_t *text = r->document->at;
        if (next(r) == '>' && r->at >= start + 2 && text[r->at - 1] == ']' && text[r->at - 2] == ']') return false;
        white = white && is_white(next(r));
    }
    if (!white) put_row(r, start, depth, true);
    return next(r) == '<';
}

/* Behind `</`: the same name as in the start tag. */
static bool read_end(reader *r, size_t name, size_t length) {
    for (size_t k = 0; k < length; k++)
        if (!expect(r, r->document->at[name + k])) return false;
    skip_white(r);
    return expect(r, '>');
}

static bool read_element(reader *r, size_t depth);

/* Runs and elements up to the end tag. */
static bool read_content(reader *r, size_t depth, size_t name, size_t length) {
    for (;;) {
        if (!read_run(r, depth + 1)) return false;
        r->at++;
        if (expect(r, '/')) return read_end(r, name, length);
        if (!read_element(r, depth + 1)) return false;
    }
}

/* Behind `<`. */
static bool read_element(reader *r, size_t depth) {
    size_t name = r->at, row = r->out->rows;
    if (!read_name(r)) return false;
    size_t length = r->at - name;
    put_row(r, name, depth, false);
    skip_white(r);
    if (expect(r, '/')) return expect(r, '>');
    if (!expect(r, '>') || !read_content(r, depth, name, length)) return false;
    if (row < ENTRIES) r->out->size.at[row] = r->out->rows - row;
    return true;
}

bool in_subset(const bytes *document, reading *out, size_t *deepest) {
    reader r = {document, 0, 0, out};
    out->rows = 0;
    skip_white(&r);
    bool whole = expect(&r, '<') && read_element(&r, 1);
    if (whole) skip_white(&r);
    *deepest = r.deepest;
    out->place = r.at;
    return whole && r.at == document->n;
}
