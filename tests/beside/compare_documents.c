/* The reader, the check and the spelling lookup beside what was decided. */
#include "calls.h"
#include "compare.h"
#include "documents.h"

enum { DAMAGES = 8 };

#define GIVEN_BYTES(bytes) ((bytes)->n == 0 ? NULL : (bytes)->at), (bytes)->n

static void compare_check(const bytes *dictionary, const bytes *document, const reading *want) {
    uint64_t number = (uint64_t)want->code << 32;
    if (want->code == NOT_IN_SUBSET) number += want->place;
    if (want->code == ACCEPTED) number += want->rows;
    compare(CHECK, khargovsun_check(GIVEN_BYTES(dictionary), GIVEN_BYTES(document)) == number);
}

/* One reading into lists of these lengths. */
static void compare_read(const bytes *dictionary, const bytes *document, const reading *want, const size_t *room, enum comparison what) {
    static uint32_t got[4][ENTRIES + BEYOND];
    const uint32_t *lists[4] = {want->label.at, want->size.at, want->start.at, want->length.at};
    uint32_t code = want->code;
    for (size_t k = 0; k < 4; k++) {
        if (code == ACCEPTED && room[k] < want->rows) code = NO_ROOM_FOR_ROWS;
        mark(got[k], room[k] + BEYOND);
    }
    size_t rows = code == ACCEPTED ? want->rows : 0;
    khargovsun_reading read = khargovsun_read(GIVEN_BYTES(dictionary), GIVEN_BYTES(document), got[0], room[0], got[1], room[1], got[2],
                                              room[2], got[3], room[3]);
    bool same = read.code == code && read.place == want->place && read.rows == rows;
    for (size_t k = 0; k < 4; k++) same = same && begins_with(got[k], room[k] + BEYOND, lists[k], rows);
    compare(what, same);
    count_code(code);
}

/* With room enough, exactly enough, and too little in one list. */
static void compare_reads(chance *chance, const bytes *dictionary, const bytes *document, const reading *want) {
    size_t room[4] = {TREE_ROWS, TREE_ROWS, TREE_ROWS, TREE_ROWS};
    compare_read(dictionary, document, want, room, READING);
    if (want->code != ACCEPTED) return;
    for (size_t k = 0; k < 4; k++) room[k] = want->rows + draw(chance, 2);
    compare_read(dictionary, document, want, room, READING);
    room[draw(chance, 4)] = draw(chance, want->rows);
    compare_read(dictionary, document, want, room, READING);
}

static void compare_spelling(const bytes *dictionary, const bytes *document, const reading *lists, size_t row) {
    part want = decide_spelling(dictionary, document, lists, row);
    khargovsun_part got = khargovsun_spelling(GIVEN_BYTES(dictionary), GIVEN_BYTES(document), GIVEN(lists->label), GIVEN(lists->start),
                                              GIVEN(lists->length), row);
    compare(SPELLING, got.source == want.source && got.start == want.start && got.length == want.length);
}

/* Lists that no reading gave: ranges at the border of the document and beyond, labels of names and of others. */
static void make_lists(chance *chance, const bytes *document, reading *out) {
    out->label.n = draw(chance, 4);
    out->start.n = draw(chance, 4);
    out->length.n = draw(chance, 4);
    for (size_t k = 0; k < 4; k++) {
        out->label.at[k] = one_in(chance, 4) ? (one_in(chance, 2) ? 65535u : 4294967295u) : draw(chance, 16);
        out->start.at[k] = one_in(chance, 4) ? 4294967295u - draw(chance, 2) : draw(chance, document->n + 2);
        out->length.at[k] = one_in(chance, 4) ? 4294967295u - draw(chance, 2) : draw(chance, document->n + 2);
    }
}

void compare_both(chance *chance, const bytes *dictionary, const bytes *document) {
    static reading want, made;
    decide_reading(dictionary, document, &want);
    compare_check(dictionary, document, &want);
    compare_reads(chance, dictionary, document, &want);
    for (size_t row = 0; row <= want.rows; row += 1 + want.rows / 64) compare_spelling(dictionary, document, &want, row);
    make_lists(chance, document, &made);
    for (size_t row = 0; row < 4; row++) compare_spelling(dictionary, document, &made, row);
}

/* Has it an element and a text of one spelling? Their labels are apart by one. */
static bool has_both(const reading *written) {
    for (size_t row = 0; row < written->rows; row++)
        for (size_t other = 0; other < row; other++)
            if (written->label.at[row] != written->label.at[other] && written->label.at[row] / 2 == written->label.at[other] / 2) return true;
    return false;
}

/* The writer knows what is to be read: nothing is decided from the document's bytes. */
static void compare_read_back(const bytes *dictionary, const bytes *document, reading *written) {
    static const size_t ROOM[4] = {TREE_ROWS, TREE_ROWS, TREE_ROWS, TREE_ROWS};
    written->code = ACCEPTED;
    written->place = 0;
    put_labels(dictionary, document, written);
    count(BOTH_SORTS, has_both(written));
    compare_check(dictionary, document, written);
    compare_read(dictionary, document, written, ROOM, READ_BACK);
}

void compare_documents(chance *chance, const tree *tree, uint32_t number) {
    static bytes dictionary, document, damaged, damaged_names;
    static reading written;
    set_case("document", number, NULL);
    make_dictionary(chance, &dictionary);
    write_document(chance, tree, &document, &written);
    compare_read_back(&dictionary, &document, &written);
    compare_both(chance, &dictionary, &document);
    for (size_t k = 0; k < DAMAGES; k++) {
        damaged = document;
        damaged_names = dictionary;
        for (uint32_t many = between(chance, 1, 2); many > 0; many--) damage_bytes(chance, &damaged);
        if (one_in(chance, 4)) damage_bytes(chance, &damaged_names);
        compare_both(chance, &damaged_names, &damaged);
    }
}
