/* khargovsun_check, khargovsun_read and khargovsun_spelling, held to what 01 and 02 (#101) say. */
#include "compare.h"
#include "khargovsun.h"

enum { ROOM = 2048, BEYOND = 2050, LONGEST = 32769 };

static uint32_t label[BEYOND], size[BEYOND], start[BEYOND], length[BEYOND];
static uint8_t made[LONGEST];

#define NAMES BYTES("g\nf\nh\na\nb\n")

/* Lists of rows that are left out are not compared, but for their end. */
static const struct reading {
    const char *name;
    bytes dictionary, document;
    uint32_t code, place, rows;
    list label, size, start, length;
} READINGS[] = {
    {"the tree T", NAMES, BYTES("<g><f>a</f><f/>a</g>"), 0, 0, 5, LIST(0, 2, 7, 2, 7), LIST(5, 2, 1, 1, 1), LIST(1, 4, 6, 12, 15), LIST(1, 1, 1, 1, 1)},
    {"a name that is not in the dictionary", NAMES, BYTES("<q/>"), 0, 0, 1, LIST(10), LIST(1), LIST(1), LIST(1)},
    {"new numbers by first appearance", NAMES, BYTES("<q><g/>r<r/>q</q>"), 0, 0, 5, LIST(10, 0, 13, 12, 11), LIST(5, 1, 1, 1, 1), LIST(1, 4, 7, 9, 12), LIST(1, 1, 1, 1, 1)},
    {"white space dropped and kept", NAMES, BYTES(" \n<g>\t<f> a </f>\n</g\t>\n"), 0, 0, 3, LIST(0, 2, 11), LIST(3, 2, 1), LIST(3, 7, 9), LIST(1, 1, 3)},
    {"no dictionary", NONE, BYTES("<g>f</g>"), 0, 0, 2, LIST(0, 3), LIST(2, 1), LIST(1, 3), LIST(1, 1)},
    {"a block and a word of one name", BYTES("score\n"), BYTES("<score>score</score>"), 0, 0, 2, LIST(0, 1), LIST(2, 1), LIST(1, 7), LIST(5, 5)},
    {"a word and then a block", NAMES, BYTES("<g>q<q/></g>"), 0, 0, 3, LIST(0, 11, 10), LIST(3, 1, 1), LIST(1, 3, 5), LIST(1, 1, 1)},
    {"ends early", NAMES, BYTES("<g>"), 3, 3, 0, NONE, NONE, NONE, NONE},
    {"another end name", NAMES, BYTES("<g></f>"), 3, 5, 0, NONE, NONE, NONE, NONE},
    {"a longer end name", NAMES, BYTES("<g></gh>"), 3, 6, 0, NONE, NONE, NONE, NONE},
    {"two elements", NAMES, BYTES("<g/><g/>"), 3, 4, 0, NONE, NONE, NONE, NONE},
    {"]]>", NAMES, BYTES("<g>]]></g>"), 3, 5, 0, NONE, NONE, NONE, NONE},
    {"the empty document", NAMES, NONE, 3, 0, 0, NONE, NONE, NONE, NONE},
    {"nothing at all", NONE, NONE, 3, 0, 0, NONE, NONE, NONE, NONE},
    {"a reference", NAMES, BYTES("<g>&amp;</g>"), 3, 3, 0, NONE, NONE, NONE, NONE},
    {"an attribute", NAMES, BYTES("<g f='a'/>"), 3, 3, 0, NONE, NONE, NONE, NONE},
    {"byte 0", NAMES, BYTES("<g>\0</g>"), 3, 3, 0, NONE, NONE, NONE, NONE},
    {"byte 128", NAMES, BYTES("<g>a\x80</g>"), 3, 4, 0, NONE, NONE, NONE, NONE},
    {"carriage return", NAMES, BYTES("<g/>\r"), 3, 4, 0, NONE, NONE, NONE, NONE},
    {"a name that is not ended", BYTES("g\nf"), BYTES("<g/>"), 1, 0, 0, NONE, NONE, NONE, NONE},
    {"equal names", BYTES("g\nf\ng\n"), BYTES("<g/>"), 1, 0, 0, NONE, NONE, NONE, NONE},
    {"an empty name", BYTES("g\n\n"), BYTES("<g/>"), 1, 0, 0, NONE, NONE, NONE, NONE},
    {"1 before 3", BYTES("\n"), BYTES("<g>"), 1, 0, 0, NONE, NONE, NONE, NONE},
};

/* Each call is made with the lists one by one and, where the four are equally long, with the header's structs too. */

static khargovsun_bytes bytes_of(bytes b) {
    return (khargovsun_bytes){b.at, b.n};
}

static void answered(const char *name, khargovsun_reading got, uint32_t code, uint32_t place, uint32_t rows) {
    same(name, "the code", got.code, code);
    same(name, "the place", got.place, place);
    same(name, "the rows", got.rows, rows);
}

static void check_is(const char *name, bytes dictionary, bytes document, uint32_t code, uint32_t place, uint32_t rows) {
    same(name, "the check", khargovsun_check(dictionary.at, dictionary.n, document.at, document.n), code * 4294967296u + place + rows);
    answered(name, khargovsun_check_document(bytes_of(dictionary), bytes_of(document)), code, place, rows);
}

static void mark_all(void) {
    mark(label, BEYOND), mark(size, BEYOND), mark(start, BEYOND), mark(length, BEYOND);
}

/* The entries of the rows are looked at by the caller. */
static void was_read(const char *name, khargovsun_reading got, uint32_t code, uint32_t place, uint32_t rows) {
    list none = NONE;
    answered(name, got, code, place, rows);
    holds(name, "label behind the rows", label + rows, BEYOND - rows, none);
    holds(name, "size behind the rows", size + rows, BEYOND - rows, none);
    holds(name, "start behind the rows", start + rows, BEYOND - rows, none);
    holds(name, "length behind the rows", length + rows, BEYOND - rows, none);
}

static void read_is(const char *name, bytes dictionary, bytes document, const size_t room[4], uint32_t code, uint32_t place, uint32_t rows) {
    uint32_t *to[4] = {room[0] ? label : NULL, room[1] ? size : NULL, room[2] ? start : NULL, room[3] ? length : NULL};
    mark_all();
    was_read(name, khargovsun_read(dictionary.at, dictionary.n, document.at, document.n, to[0], room[0], to[1], room[1], to[2], room[2], to[3], room[3]),
             code, place, rows);
    if (room[0] != room[1] || room[1] != room[2] || room[2] != room[3]) return;
    khargovsun_lent_rows lent = {.label = to[0], .size = to[1], .start = to[2], .length = to[3], .room = room[0]};
    mark_all();
    was_read(name, khargovsun_read_document(bytes_of(dictionary), bytes_of(document), lent), code, place, rows);
}

/* With one entry too few in one of the four lists, whichever it is, the code is 6. */
static void no_room(const char *name, bytes dictionary, bytes document, uint32_t rows) {
    for (int k = 0; k < 4; k++) {
        size_t room[4] = {ROOM, ROOM, ROOM, ROOM};
        room[k] = rows - 1;
        read_is(name, dictionary, document, room, 6, 0, 0);
    }
}

static void spelling_is(const char *name, khargovsun_part got, uint32_t source, uint32_t from, uint32_t n) {
    same(name, "the source", got.source, source);
    same(name, "the part's start", got.start, from);
    same(name, "the part's length", got.length, n);
}

/* The rows that stand in the four lists, as the reader answers them. */
static const khargovsun_lent_rows LENT = {.label = label, .size = size, .start = start, .length = length, .room = ROOM};

static khargovsun_part spelt(bytes dictionary, bytes document, size_t rows, size_t row) {
    khargovsun_reading reading = {.rows = (uint32_t)rows};
    return khargovsun_spell_row(bytes_of(dictionary), bytes_of(document), LENT, reading, row);
}

/* Every row that was read is spelt by the bytes that stand in the document, whichever side answers; the row after them is not there. */
static void spells(const char *name, bytes dictionary, bytes document, size_t rows) {
    for (size_t row = 0; row < rows; row++) {
        khargovsun_part p = khargovsun_spelling(dictionary.at, dictionary.n, document.at, document.n, label, rows, start, rows, length, rows, row);
        const uint8_t *from = (p.source == KHARGOVSUN_SOURCE_DICTIONARY ? dictionary.at : document.at) + p.start;
        same(name, "the spelling's length", p.length, length[row]);
        for (uint32_t k = 0; k < p.length; k++) same(name, "a byte of the spelling", from[k], document.at[start[row] + k]);
        spelling_is(name, spelt(dictionary, document, rows, row), p.source, p.start, p.length);
    }
    spelling_is(name, khargovsun_spelling(dictionary.at, dictionary.n, document.at, document.n, label, rows, start, rows, length, rows, rows), 1, 0, 0);
    spelling_is(name, spelt(dictionary, document, rows, rows), 1, 0, 0);
}

/* The tree of what was read has the lists that were lent, as many rows as were answered. */
static void tree_is_read(const char *name, uint32_t rows) {
    khargovsun_reading reading = {.rows = rows};
    khargovsun_tree tree = khargovsun_tree_read(LENT, reading);
    same(name, "the tree's labels are those lent", tree.label == label, 1);
    same(name, "the tree's sizes are those lent", tree.size == size, 1);
    same(name, "the tree's rows", tree.rows, rows);
}

static void readings(void) {
    static const size_t enough[4] = {ROOM, ROOM, ROOM, ROOM}, nowhere[4] = {0, 0, 0, 0};
    for (size_t k = 0; k < COUNT(READINGS); k++) {
        const struct reading *r = &READINGS[k];
        check_is(r->name, r->dictionary, r->document, r->code, r->place, r->rows);
        read_is(r->name, r->dictionary, r->document, nowhere, r->code ? r->code : 6, r->place, 0);
        if (r->code == 0) no_room(r->name, r->dictionary, r->document, r->rows);
        read_is(r->name, r->dictionary, r->document, enough, r->code, r->place, r->rows);
        if (r->code != 0) continue;
        holds(r->name, "label", label, BEYOND, r->label);
        holds(r->name, "size", size, BEYOND, r->size);
        holds(r->name, "start", start, BEYOND, r->start);
        holds(r->name, "length", length, BEYOND, r->length);
        spells(r->name, r->dictionary, r->document, r->rows);
        tree_is_read(r->name, r->rows);
    }
}

/* ---- Documents at the limits, made up here ---- */

static size_t put(size_t at, const char *text, size_t times) {
    for (size_t k = 0; k < times; k++)
        for (const char *c = text; *c; c++) made[at++] = (uint8_t)*c;
    return at;
}

static void limit_is(const char *name, size_t n, uint32_t code, uint32_t place, uint32_t rows) {
    static const size_t enough[4] = {ROOM, ROOM, ROOM, ROOM};
    bytes dictionary = NAMES, document = {made, n};
    check_is(name, dictionary, document, code, place, rows);
    read_is(name, dictionary, document, enough, code, place, rows);
}

static void limits(void) {
    limit_is("32,768 bytes", put(put(put(0, "<g>", 1), "x", 32761), "</g>", 1), 0, 0, 2);
    limit_is("32,769 bytes", put(put(put(0, "<g>", 1), "x", 32762), "</g>", 1), 2, 0, 0);
    limit_is("2 before 3", put(0, "<", 32769), 2, 0, 0);
    limit_is("depth 64", put(put(0, "<g>", 64), "</g>", 64), 0, 0, 64);
    limit_is("depth 65", put(put(0, "<g>", 65), "</g>", 65), 4, 0, 0);
    limit_is("text at depth 65", put(put(put(0, "<g>", 64), "a", 1), "</g>", 64), 4, 0, 0);
    limit_is("dropped text at depth 65", put(put(put(0, "<g>", 64), " ", 1), "</g>", 64), 0, 0, 64);
    limit_is("3 before 4", put(put(0, "<g>", 65), "</g>", 64), 3, 65 * 3 + 64 * 4, 0);
    limit_is("2,048 rows", put(put(put(0, "<g>", 1), "<f/>", 2047), "</g>", 1), 0, 0, 2048);
    limit_is("2,049 rows", put(put(put(0, "<g>", 1), "<f/>", 2048), "</g>", 1), 5, 0, 0);
    limit_is("4 before 5", put(put(put(put(0, "<g>", 64), "<f/>", 1), "<f/>", 2047), "</g>", 64), 4, 0, 0);
    static uint8_t names[16386];
    for (size_t k = 0; k < sizeof names; k++) names[k] = 'a';
    bytes long_name = {names, 16384}, document = BYTES("<g/>");
    names[16383] = '\n';
    check_is("16,384 bytes of dictionary", long_name, document, 0, 0, 1);
    names[16383] = 'a', names[16384] = '\n', long_name.n = 16385;
    check_is("16,385 bytes of dictionary", long_name, document, 1, 0, 0);
}

/* ---- The spelling lookup, on lists that no reader wrote ---- */

#define FAR 4294967295u

static const struct spelling {
    const char *name;
    bytes dictionary, document;
    list label, start, length;
    size_t row;
    uint32_t source, from, n;
} SPELLINGS[] = {
    {"a name without its byte 10", BYTES("g\nfield\nh\n"), BYTES("<q/>"), LIST(2), LIST(1), LIST(1), 0, 0, 2, 5},
    {"a number below K, whatever the range", NAMES, BYTES("<q/>"), LIST(7), LIST(FAR), LIST(FAR), 0, 0, 6, 1},
    {"the last name, of an element", NAMES, NONE, LIST(0, 8), LIST(0, 0), LIST(0, 0), 1, 0, 8, 1},
    {"the last name, of a text: the last label below twice K", NAMES, BYTES("<q/>"), LIST(9), LIST(1), LIST(1), 0, 0, 8, 1},
    {"label twice K is of the document", NAMES, BYTES("<q/>"), LIST(10), LIST(1), LIST(1), 0, 1, 1, 1},
    {"label 65,535", NAMES, BYTES("<q/>"), LIST(65535), LIST(1), LIST(1), 0, 1, 1, 1},
    {"the farthest label", NAMES, BYTES("<q/>"), LIST(FAR), LIST(1), LIST(1), 0, 1, 1, 1},
    {"a range to the very end", NAMES, BYTES("<q/>"), LIST(10), LIST(1), LIST(3), 0, 1, 1, 3},
    {"an empty range at the end", NAMES, BYTES("<q/>"), LIST(10), LIST(4), LIST(0), 0, 1, 4, 0},
    {"a range beyond the end", NAMES, BYTES("<q/>"), LIST(10), LIST(1), LIST(4), 0, 1, 0, 0},
    {"a start beyond the end", NAMES, BYTES("<q/>"), LIST(10), LIST(5), LIST(0), 0, 1, 0, 0},
    {"a range whose end is over 32 bits", NAMES, BYTES("<q/>"), LIST(10), LIST(FAR), LIST(FAR), 0, 1, 0, 0},
    {"a bad dictionary has no names", BYTES("g\ng\n"), BYTES("<q/>"), LIST(0), LIST(1), LIST(1), 0, 1, 1, 1},
    {"a row beyond label", NAMES, BYTES("<g/>"), LIST(0), LIST(1, 1), LIST(1, 1), 1, 1, 0, 0},
    {"a row beyond start", NAMES, BYTES("<g/>"), LIST(0, 0), LIST(1), LIST(1, 1), 1, 1, 0, 0},
    {"a row beyond length", NAMES, BYTES("<g/>"), LIST(0, 0), LIST(1, 1), LIST(1), 1, 1, 0, 0},
    {"the farthest row", NAMES, BYTES("<g/>"), LIST(0), LIST(1), LIST(1), (size_t)-1, 1, 0, 0},
    {"no lists at all", NONE, NONE, NONE, NONE, NONE, 0, 1, 0, 0},
};

/* The same by the header's structs, for which the three lists are copied to those that are lent. */
static void spelling_by_structs_is(const struct spelling *s) {
    for (size_t k = 0; k < s->label.n; k++) label[k] = s->label.at[k], start[k] = s->start.at[k], length[k] = s->length.at[k];
    spelling_is(s->name, spelt(s->dictionary, s->document, s->label.n, s->row), s->source, s->from, s->n);
}

static void spellings(void) {
    for (size_t k = 0; k < COUNT(SPELLINGS); k++) {
        const struct spelling *s = &SPELLINGS[k];
        khargovsun_part p = khargovsun_spelling(s->dictionary.at, s->dictionary.n, s->document.at, s->document.n, s->label.at, s->label.n,
                                                s->start.at, s->start.n, s->length.at, s->length.n, s->row);
        spelling_is(s->name, p, s->source, s->from, s->n);
        if (s->label.n == s->start.n && s->start.n == s->length.n) spelling_by_structs_is(s);
    }
}

int main(void) {
    readings();
    limits();
    spellings();
    return result("reader.c");
}
