/* Pages: after every record of a list, joined, and after records that are no matcher's. */
#include "calls.h"
#include "compare.h"

enum { ROOMS = 3 /* pages are joined with up to this room */ };

/* The length of a list with this room, each time with other numbers more that are too few for another record. */
static size_t next_length(const problem *problem, size_t room) {
    static size_t turn;
    size_t numbers = 2 * variables(&problem->pattern);
    return numbers == 0 ? turn++ % 4 : room * numbers + turn++ % numbers;
}

/* With this room: no budget, one try, just enough for what ends the page, and one less. */
static void compare_budgets(const problem *problem, const page *page, const list *record, size_t room) {
    size_t place = page->first + room, tries = place < page->all->records ? page->all->reached[place] : page->all->tries;
    uint32_t enough = tries - page->tries_before, budgets[] = {0, 1, enough, UNLIMITED, enough - 1};
    for (size_t k = 0; k < (enough == 0 ? 4 : 5); k++)
        compare_page(problem, page, record, next_length(problem, room), budgets[k], PAGE);
}

/* With no room, room for 1, for 2, for all that are left and for one more. The tries before the page are those up to the record. */
static void compare_after(const problem *problem, const listing *all, size_t number, const list *record) {
    page page = page_after(problem, all, record->at);
    size_t left = all->records - page.first;
    compare(OWN_PAGE, page.first == number + 1 && page.tries_before == all->reached[number]);
    for (size_t room = 0; room < left && room <= 2; room++) compare_budgets(problem, &page, record, room);
    compare_budgets(problem, &page, record, left);
    compare_page(problem, &page, record, next_length(problem, left + 1), UNLIMITED, PAGE);
}

/* Pages of one room from the first on, each after the last record that was written, up to the first complete one. */
static void compare_joined(const problem *problem, const listing *all, size_t room) {
    static uint32_t out[ROOMS * 2 * VARIABLES];
    static list last;
    size_t numbers = 2 * variables(&problem->pattern), found = 0;
    last.n = numbers;
    khargovsun_listing got = call_list(problem, UNLIMITED, out, room * numbers);
    while (got.code == ACCEPTED && got.records <= room && are_records(out, all, found, got.records, numbers)) {
        found += got.records;
        count(TURNED, 1);
        if (got.ending != NO_ROOM || got.records == 0) break;
        for (size_t k = 0; k < numbers; k++) last.at[k] = all->record[found - 1][k];
        got = call_list_after(problem, &last, UNLIMITED, out, room * numbers);
    }
    compare(PAGES_JOINED, got.code == ACCEPTED && got.ending == ALL_OF_THEM && found == all->records);
}

/* Has the moved record the same values, though not where the rules name them? Then no page comes after it. */
static void compare_moved_record(const problem *problem, const list *moved) {
    static instance built;
    if (!good_record(problem, moved)) return;
    build(&problem->tree, &problem->pattern, moved->at, &built);
    if (is_tree(&built, &problem->tree)) compare_refused(problem, moved, NO_MATCHER, PAGE_MOVED);
}

/* Each variable's value at every other row: equal terms, and sequences of none, make the same substitution there. */
static void compare_moved(const problem *problem, const list *record) {
    static list moved;
    for (uint32_t v = 0; v < variables(&problem->pattern); v++)
        for (uint32_t row = 0; row <= problem->tree.size.n; row++) {
            if (row == record->at[2 * v]) continue;
            moved.n = record->n;
            for (size_t k = 0; k < record->n; k++) moved.at[k] = record->at[k];
            moved.at[2 * v] = row;
            if (kind_of(&problem->pattern, v) == CONTEXT) moved.at[2 * v + 1] += row - record->at[2 * v];
            compare_moved_record(problem, &moved);
        }
}

void compare_pages(const problem *problem, const listing *all) {
    static list record;
    record.n = 2 * variables(&problem->pattern);
    for (size_t number = 0; number < all->records; number++) {
        for (size_t k = 0; k < record.n; k++) record.at[k] = all->record[number][k];
        compare_after(problem, all, number, &record);
        if (number == 0 || number + 1 == all->records) compare_moved(problem, &record);
    }
    for (size_t room = 1; room <= ROOMS; room++) compare_joined(problem, all, room);
}

void compare_page_code(const problem *problem, uint32_t code, const list *record, enum comparison what) {
    if (code == ACCEPTED) code = good_record(problem, record) ? NO_MATCHER : BAD_RECORD;
    compare_refused(problem, record, code, what);
}
