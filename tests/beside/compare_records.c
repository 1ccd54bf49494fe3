/* The test and the instance maker beside what was decided. */
#include "calls.h"
#include "compare.h"

/* Of the candidates that are no matcher's one in so many is a page's record too, since a page costs more than a test. */
enum { EACH = 5 };

static void compare_test(const problem *problem, const list *record, uint32_t code, bool yes, enum comparison what) {
    khargovsun_testing got = call_test(problem, record);
    compare(what, got.code == code && got.yes == yes);
    count_code(code);
    if (what != TEST) return;
    count(CANDIDATE_YES, yes);
    count(CANDIDATE_BAD, code == BAD_RECORD);
}

/* What the instance maker answers with these rooms: the lowest code, and the rows only without one. */
static uint32_t code_with_rooms(uint32_t code, size_t rows, size_t labels, size_t sizes) {
    if (code != ACCEPTED) return code;
    if (rows > TREE_ROWS) return INSTANCE_TOO_LARGE;
    return rows > labels || rows > sizes ? NO_ROOM_FOR_INSTANCE : ACCEPTED;
}

/* One call with these rooms, beside an instance that was built, or a code. */
static void compare_making(const problem *problem, const list *record, uint32_t decided, const instance *built, size_t labels,
                           size_t sizes, enum comparison what) {
    static uint32_t label[ENTRIES + BEYOND], size[ENTRIES + BEYOND];
    uint32_t code = code_with_rooms(decided, built->rows, labels, sizes);
    size_t rows = code == ACCEPTED ? built->rows : 0;
    mark(label, labels + BEYOND);
    mark(size, sizes + BEYOND);
    khargovsun_making got = call_instance(problem, record, label, labels, size, sizes);
    compare(what, got.code == code && got.rows == rows && begins_with(label, labels + BEYOND, built->tree.label.at, rows) &&
                      begins_with(size, sizes + BEYOND, built->tree.size.at, rows));
    count_code(code);
}

/* A room that is too small, exactly enough or more. */
static size_t some_room(chance *chance, size_t rows) {
    if (rows > TREE_ROWS) return ENTRIES;
    return one_in(chance, 6) ? draw(chance, rows + 1) : rows + draw(chance, 3);
}

bool compare_record(chance *chance, const problem *problem, uint32_t code, const list *record, enum comparison test,
                    enum comparison making) {
    static instance built;
    static size_t candidate;
    bool bad_lists = code == BAD_TREE || code == BAD_PATTERN;
    uint32_t code_of_record = bad_lists || good_record(problem, record) ? ACCEPTED : BAD_RECORD;
    built.rows = 0;
    if (!bad_lists && code_of_record == ACCEPTED) build(&problem->tree, &problem->pattern, record->at, &built);
    uint32_t code_of_test = code != ACCEPTED ? code : code_of_record;
    bool yes = code_of_test == ACCEPTED && is_matcher(problem, record->at, &built);
    compare_test(problem, record, code_of_test, yes, test);
    size_t labels = some_room(chance, built.rows), sizes = some_room(chance, built.rows);
    compare_making(problem, record, bad_lists ? code : code_of_record, &built, labels, sizes, making);
    if (!yes && test == TEST && candidate++ % EACH == 0) compare_page_code(problem, code, record, PAGE_CODE);
    return yes;
}

void compare_rooms(const problem *problem, const list *record) {
    static instance built;
    build(&problem->tree, &problem->pattern, record->at, &built);
    for (size_t room = 0; room <= built.rows + 1; room++) {
        compare_making(problem, record, ACCEPTED, &built, room, built.rows, INSTANCE_ROOM);
        compare_making(problem, record, ACCEPTED, &built, built.rows + 1, room, INSTANCE_ROOM);
    }
}
