/* The lister beside the list of all records and tries, with every room and budget. */
#include "calls.h"
#include "compare.h"

enum {
    MOST_PAIRS = 300, /* up to so many pairs of a room and a budget all are compared */
    MANY = 60         /* of more rooms or budgets than these not all are */
};

/* The first record without room ends the list, if the budget lasts until it is reached; else a try without budget does. */
answer expected(const page *page, size_t room, uint32_t budget) {
    const size_t *reached = page->all->reached + page->first;
    size_t before = page->tries_before, records = page->all->records - page->first, tries = page->all->tries - before, within = 0;
    if (room < records && reached[room] - before <= budget) return (answer){NO_ROOM, room, reached[room] - before};
    if (budget >= tries) return (answer){ALL_OF_THEM, records, tries};
    while (within < records && reached[within] - before <= budget) within++;
    return (answer){NO_BUDGET, within, budget};
}

bool are_records(const uint32_t *out, const listing *all, size_t first, size_t records, size_t numbers) {
    if (records > all->records - first) return false;
    for (size_t k = 0; k < records * numbers; k++)
        if (out[k] != all->record[first + k / numbers][k % numbers]) return false;
    return true;
}

static khargovsun_listing call(const problem *problem, const list *record, uint32_t budget, uint32_t *out, size_t length) {
    return record == NULL ? call_list(problem, budget, out, length) : call_list_after(problem, record, budget, out, length);
}

void compare_page(const problem *problem, const page *page, const list *record, size_t length, uint32_t budget, enum comparison what) {
    static const enum feature ENDING[] = {ENDING_0, ENDING_1, ENDING_2}, PAGE_ENDING[] = {PAGE_ENDING_0, PAGE_ENDING_1, PAGE_ENDING_2};
    static uint32_t out[OUT + BEYOND];
    size_t numbers = 2 * variables(&problem->pattern);
    answer want = expected(page, numbers == 0 ? page->all->records : length / numbers, budget);
    size_t written = want.records * numbers;
    mark(out, length + BEYOND);
    khargovsun_listing got = call(problem, record, budget, out, length);
    compare(what, got.code == ACCEPTED && got.ending == want.ending && got.records == want.records && got.tries == want.tries &&
                      are_records(out, page->all, page->first, want.records, numbers) &&
                      begins_with(out + written, length + BEYOND - written, NULL, 0));
    count(record == NULL ? ENDING[want.ending] : PAGE_ENDING[want.ending], 1);
}

static void compare_list(const problem *problem, const listing *all, size_t length, uint32_t budget, enum comparison what) {
    page page = whole_list(all);
    compare_page(problem, &page, NULL, length, budget, what);
}

/* The length of a list with this room, and mostly with some numbers more that are too few for another record. */
static size_t length_of(chance *chance, const problem *problem, size_t room) {
    size_t numbers = 2 * variables(&problem->pattern);
    return numbers == 0 ? draw(chance, 4) : room * numbers + draw(chance, numbers);
}

/* Of many numbers the first and the last ones, and some between. */
static bool is_skipped(chance *chance, size_t number, size_t last) {
    return last > MANY && number > MANY / 4 && last - number > MANY / 4 && !one_in(chance, last / (MANY / 2));
}

static void compare_pairs(chance *chance, const problem *problem, const listing *all) {
    for (size_t room = 0; room <= all->records + 1; room++)
        for (size_t budget = 0; budget <= all->tries + 1; budget++)
            compare_list(problem, all, length_of(chance, problem, room), budget, LIST_BOTH);
}

/* With each room the budget that just reaches the record without room, and one less. */
static void compare_borders(chance *chance, const problem *problem, const listing *all) {
    for (size_t room = 0; room < all->records; room++) {
        if (is_skipped(chance, room, all->records)) continue;
        size_t length = length_of(chance, problem, room);
        compare_list(problem, all, length, all->reached[room], LIST_BOTH);
        if (all->reached[room] > 0) compare_list(problem, all, length, all->reached[room] - 1, LIST_BOTH);
    }
}

void compare_lists(chance *chance, const problem *problem, const listing *all) {
    compare_list(problem, all, length_of(chance, problem, all->records), all->tries, LIST_ENOUGH);
    compare_list(problem, all, length_of(chance, problem, all->records + 1), UNLIMITED, LIST_ENOUGH);
    for (size_t room = 0; room < all->records; room++)
        if (!is_skipped(chance, room, all->records)) compare_list(problem, all, length_of(chance, problem, room), UNLIMITED, LIST_ROOM);
    for (size_t budget = 0; budget < all->tries; budget++)
        if (!is_skipped(chance, budget, all->tries))
            compare_list(problem, all, length_of(chance, problem, all->records), budget, LIST_BUDGET);
    if ((all->records + 2) * (all->tries + 2) <= MOST_PAIRS) compare_pairs(chance, problem, all);
    else compare_borders(chance, problem, all);
}

void compare_refused(const problem *problem, const list *record, uint32_t code, enum comparison what) {
    static uint32_t out[DAMAGED_ROOM + BEYOND];
    mark(out, DAMAGED_ROOM + BEYOND);
    khargovsun_listing got = call(problem, record, UNLIMITED, out, DAMAGED_ROOM);
    bool zeros = got.ending == 0 && got.records == 0 && got.tries == 0;
    compare(what, got.code == code && zeros && begins_with(out, DAMAGED_ROOM + BEYOND, NULL, 0));
    count_code(code);
}

void compare_damaged(chance *chance, const problem *problem, const list *record) {
    static listing all;
    uint32_t code = code_of_problem(problem);
    if (code == ACCEPTED) list_all(problem, &all);
    if (code != ACCEPTED) compare_refused(problem, NULL, code, DAMAGED_LIST);
    else if (!all.too_long) compare_list(problem, &all, DAMAGED_ROOM, UNLIMITED, DAMAGED_LIST);
    if (!compare_record(chance, problem, code, record, DAMAGED_TEST, DAMAGED_INSTANCE)) {
        compare_page_code(problem, code, record, DAMAGED_PAGE);
    } else if (!all.too_long) {
        page page = page_after(problem, &all, record->at);
        compare_page(problem, &page, record, DAMAGED_ROOM, UNLIMITED, DAMAGED_PAGE);
    }
}
