/* khargovsun_list_after, held to what 01 and 02 (#104, #105) say: the pages behind a record, their tries, endings and refusals. */
#include "problem.h"

#define B_ON_A {{LIST(7), LIST(1)}, {LIST(0), LIST(9), LIST(1)}, NOTHING, NONE}
#define AS {LIST(4, 0), LIST(0, 7), LIST(2, 1)}
#define Q_NOT_EMPTY {T, Q, AS, LIST(0, 0, 1, 1)}

/* The tries of Q on T: hole 0; hole 1, with 0 terms and with 1, the first record; hole 2; hole 3 with 0 terms, the second; hole 4. */
static const struct page {
    const char *name;
    problem problem;
    list record;
    uint32_t budget;
    size_t room;
    uint32_t ending, records, tries;
    list out;
} PAGES[] = {
    {"after the first record", Q_ON_T, LIST(0, 1, 2, 1), 1000, ROOM, 0, 1, 4, LIST(0, 3, 4, 0)},
    {"after the last record: hole 4 is still tried", Q_ON_T, LIST(0, 3, 4, 0), 1000, ROOM, 0, 0, 1, NONE},
    {"budget 4294967295", Q_ON_T, LIST(0, 1, 2, 1), 4294967295u, 4, 0, 1, 4, LIST(0, 3, 4, 0)},
    {"budget 4", Q_ON_T, LIST(0, 1, 2, 1), 4, ROOM, 0, 1, 4, LIST(0, 3, 4, 0)},
    {"budget 3: the record, then a fourth try is needed", Q_ON_T, LIST(0, 1, 2, 1), 3, ROOM, 2, 1, 3, LIST(0, 3, 4, 0)},
    {"budget 2", Q_ON_T, LIST(0, 1, 2, 1), 2, ROOM, 2, 0, 2, NONE},
    {"budget 0", Q_ON_T, LIST(0, 1, 2, 1), 0, ROOM, 2, 0, 0, NONE},
    {"budget 0 after the last record", Q_ON_T, LIST(0, 3, 4, 0), 0, ROOM, 2, 0, 0, NONE},
    {"budget 1 after the last record", Q_ON_T, LIST(0, 3, 4, 0), 1, 0, 0, 0, 1, NONE},
    {"budget 3, three entries: no room for what is reached", Q_ON_T, LIST(0, 1, 2, 1), 3, 3, 1, 0, 3, NONE},
    {"room 0", Q_ON_T, LIST(0, 1, 2, 1), 4294967295u, 0, 1, 0, 3, NONE},
    {"room 0, budget 2", Q_ON_T, LIST(0, 1, 2, 1), 2, 0, 2, 0, 2, NONE},
    {"room 0 and budget 0", Q_ON_T, LIST(0, 1, 2, 1), 0, 0, 2, 0, 0, NONE},
    {"room for one and three entries", Q_ON_T, LIST(0, 1, 2, 1), 1000, 7, 0, 1, 4, LIST(0, 3, 4, 0)},
    {"f(s0, s1), room for one", S0_S1, LIST(1, 0, 1, 2), 1000, 4, 1, 1, 5, LIST(1, 1, 2, 1)},
    {"f(s0, s1), the next page is complete", S0_S1, LIST(1, 1, 2, 1), 1000, 4, 0, 1, 2, LIST(1, 2, 3, 0)},
    {"f(s0, s1), room for both", S0_S1, LIST(1, 0, 1, 2), 5, 8, 0, 2, 5, LIST(1, 1, 2, 1, 1, 2, 3, 0)},
    {"f(s0, s1), no try is left, so budget 0 and room 0 do", S0_S1, LIST(1, 2, 3, 0), 0, 0, 0, 0, 0, NONE},
    {"s0 in the choice of a and a: two terms are tried", S0_S1_CHOICE, LIST(1, 1, 2, 1), 1000, ROOM, 0, 0, 1, NONE},
    {"s1 not empty: 0 terms at hole 3 are tried", Q_NOT_EMPTY, LIST(0, 1, 2, 1), 1000, ROOM, 0, 0, 4, NONE},
    {"f(s0, s0): two terms are tried", S0_S0, LIST(1, 1), 1000, ROOM, 0, 0, 1, NONE},
    {"context 0 over context 0: hole 2 is tried", C0_C0_A, LIST(0, 1), 1000, ROOM, 0, 0, 1, NONE},
    {"no choice: function 0 over individual 1", F0_X1, LIST(0, 0, 1, 0), 0, 0, 0, 0, 0, NONE},
    {"no variable: a on a, room 0 and budget 0", A_ON_A, NONE, 0, 0, 0, 0, 0, NONE},
    {"no variable: a on a", A_ON_A, NONE, 1000, ROOM, 0, 0, 0, NONE},
};

/* Records that no page comes after. */
static const struct refused {
    const char *name;
    problem problem;
    list record;
    uint32_t code;
} REFUSED[] = {
    {"the count should be 1", Q_ON_T, LIST(0, 1, 2, 0), 20},
    {"an empty sequence from row 0", Q_ON_T, LIST(0, 3, 0, 0), 20},
    {"an empty sequence from the end", Q_ON_T, LIST(0, 3, 5, 0), 20},
    {"no f at hole 4", Q_ON_T, LIST(0, 4, 5, 0), 20},
    {"the bare hole", Q_ON_T, LIST(0, 0, 1, 3), 20},
    {"the context started elsewhere", Q_ON_T, LIST(1, 1, 2, 1), 20},
    {"an equal term from another row", S0_S1, LIST(2, 1, 2, 1), 20},
    {"parts that stand apart", S0_S1, LIST(1, 1, 3, 0), 20},
    {"the root as a sequence", S0_S1, LIST(0, 1, 3, 0), 20},
    {"a constraint broken at the last choice", Q_NOT_EMPTY, LIST(0, 3, 4, 0), 20},
    {"a constraint broken at the first choice", S0_S1_CHOICE, LIST(1, 0, 1, 2), 20},
    {"a constraint broken after the only record", S0_S1_CHOICE, LIST(1, 2, 3, 0), 20},
    {"f(s0, s0), both terms", S0_S0, LIST(1, 2), 20},
    {"flag 1", S0_FLAG, LIST(1, 0), 20},
    {"flag 1, not in the language", S0_FLAG, LIST(1, 2), 20},
    {"context 0 over context 0, hole 2", C0_C0_A, LIST(0, 2), 20},
    {"f(a, s0) on f", F_A_S0, LIST(1, 0), 20},
    {"the individual at another row", F0_X1, LIST(0, 0, 0, 0), 20},
    {"b on a", B_ON_A, NONE, 20},
    {"hole 5 is not in the tree", Q_ON_T, LIST(0, 5, 2, 1), 15},
    {"no record", Q_ON_T, NONE, 15},
    {"a record one short", Q_ON_T, LIST(0, 1, 2), 15},
    {"a record one long", Q_ON_T, LIST(0, 1, 2, 1, 0), 15},
    {"two records", Q_ON_T, LIST(0, 1, 2, 1, 0, 3, 4, 0), 15},
    {"numbers for a pattern without variables", A_ON_A, LIST(0, 0), 15},
    {"15 before 20: numbers for b on a", B_ON_A, LIST(0, 0), 15},
    {"a context outside the tree", Q_ON_T, LIST(5, 5, 2, 1), 15},
    {"a hole outside the subterm", Q_ON_T, LIST(1, 3, 2, 1), 15},
    {"a sequence over the tree's length", Q_ON_T, LIST(0, 3, 6, 0), 15},
    {"more arguments than there are", Q_ON_T, LIST(0, 1, 4, 2), 15},
    {"two roots", S0_S1, LIST(0, 2, 3, 0), 15},
    {"an individual with a second number", F0_X1, LIST(0, 0, 1, 1), 15},
    {"a function's row outside the tree", F0_X1, LIST(2, 0, 1, 0), 15},
    {"numbers near 4294967295", Q_ON_T, LIST(0, 4294967295u, 4294967295u, 4294967295u), 15},
};

/* ---- One call ---- */

static void page_is(const char *name, const problem *p, list record, uint32_t budget, size_t room, khargovsun_listing want, list records) {
    khargovsun_lent_records lent = {room ? out : NULL, room};
    mark(out, BEYOND);
    listed(name, khargovsun_list_after(PROBLEM(*p), LENT(record), budget, LENDS(lent)), want, records);
    if (!expressible(p->tree, p->pattern, p->expression)) return;
    khargovsun_problem q = problem_of(p);
    khargovsun_record r = {LENT(record)};
    mark(out, BEYOND);
    listed(name, khargovsun_list_matchers_after(&q, r, budget, lent), want, records);
}

/* Nothing is written and all other numbers are 0, with room and budget enough and with none. */
static void page_refused(const char *name, const problem *p, list record, uint32_t code) {
    khargovsun_listing want = {.code = code};
    list none = NONE;
    page_is(name, p, record, 4294967295u, ROOM, want, none);
    page_is(name, p, record, 0, 0, want, none);
}

static void pages_and_refusals(void) {
    list none = NONE, two = LIST(0, 0), four = LIST(0, 1, 2, 1), five = LIST(9, 9, 9, 9, 9);
    for (size_t k = 0; k < COUNT(PAGES); k++) {
        const struct page *p = &PAGES[k];
        khargovsun_listing want = {.ending = p->ending, .records = p->records, .tries = p->tries};
        page_is(p->name, &p->problem, p->record, p->budget, p->room, want, p->out);
    }
    for (size_t k = 0; k < COUNT(REFUSED); k++) page_refused(REFUSED[k].name, &REFUSED[k].problem, REFUSED[k].record, REFUSED[k].code);
    for (size_t k = 0; k < COUNT(REFUSALS); k++) {
        list records[] = {none, two, four, five};
        for (size_t r = 0; r < COUNT(records); r++) page_refused(REFUSALS[k].name, &REFUSALS[k].problem, records[r], REFUSALS[k].code);
    }
}

/* ---- The order of the codes: each part of Q on T, s1 in `a*`, good and bad, in all ways ---- */

static const tree TREES[] = {T, {LIST(0, 2, 7, 2, 7), LIST(5, 2, 1, 1, 2)}};
static const rows3 PATTERNS[] = {Q, {LIST(4, 0, 5), LIST(0, 2, 1), LIST(3, 2, 1)}};
/* .. and each with one more expression, which nobody names. */
static const rows3 EXPRESSIONS[2][2] = {{AS, {LIST(4, 0), LIST(1, 7), LIST(2, 1)}},
                                        {{LIST(4, 0, 0), LIST(0, 7, 9), LIST(2, 1, 1)}, {LIST(4, 0, 0), LIST(1, 7, 9), LIST(2, 1, 1)}}};
static const list CONSTRAINTS[] = {LIST(0, 0, 1, 0), LIST(0, 0, 2, 0)};
static const struct {
    list record;
    uint32_t code;
} RECORDS[] = {{LIST(0, 1, 2, 1), 0}, {LIST(0, 1, 2, 0), 20}, {LIST(0, 5, 2, 1), 15}, {LIST(0, 1, 2), 15}};

static uint32_t first_code(const bool *bad, uint32_t of_record) {
    static const uint32_t CODES[] = {11, 12, 13, 14, 19};
    for (size_t k = 0; k < COUNT(CODES); k++)
        if (bad[k]) return CODES[k];
    return of_record;
}

static void orders(void) {
    khargovsun_listing page = {.records = 1, .tries = 4};
    list second = LIST(0, 3, 4, 0);
    for (unsigned ways = 0; ways < 32; ways++)
        for (size_t r = 0; r < COUNT(RECORDS); r++) {
            bool bad[] = {ways & 1, ways & 2, ways & 4, ways & 8, ways & 16};
            problem p = {TREES[bad[0]], PATTERNS[bad[1]], EXPRESSIONS[bad[4]][bad[2]], CONSTRAINTS[bad[3]]};
            uint32_t code = first_code(bad, RECORDS[r].code);
            if (code != 0) page_refused("the order of the codes", &p, RECORDS[r].record, code);
            else page_is("the order of the codes", &p, RECORDS[r].record, 1000, ROOM, page, second);
        }
}

/* ---- Pages joined ---- */

enum { ARGUMENTS = 3, WIDTH = 6, ALL = 10 };

/* g(s0, s1, s2) on g(a, a, a). */
static const problem SPLIT = {{LIST(0, 7, 7, 7), LIST(4, 1, 1, 1)}, {LIST(0, 2, 2, 2), LIST(0, 0, 1, 2), LIST(4, 1, 1, 1)}, NOTHING, LIST(0, 0, 0, 0, 0, 0)};

/* s0 takes i of the arguments, s1 the next j, s2 the others. */
static void put_splits(uint32_t *to) {
    for (uint32_t i = 0; i <= ARGUMENTS; i++)
        for (uint32_t j = 0; j <= ARGUMENTS - i; j++) {
            uint32_t record[WIDTH] = {1, i, 1 + i, j, 1 + i + j, ARGUMENTS - i - j};
            for (size_t k = 0; k < WIDTH; k++) *to++ = record[k];
        }
}

/* Pages with this room, each after the last record before it, up to the first complete one. */
static void joined(const uint32_t *records, size_t room) {
    khargovsun_problem p = problem_of(&SPLIT);
    khargovsun_lent_records lent = {out, room * WIDTH};
    for (size_t before = 0; before < ALL; before += room) {
        size_t here = room < ALL - before ? room : ALL - before;
        list page = {records + before * WIDTH, here * WIDTH};
        khargovsun_record last = {records + (before == 0 ? 0 : before - 1) * WIDTH, WIDTH};
        mark(out, BEYOND);
        khargovsun_listing got = before == 0 ? khargovsun_list_matchers(&p, 1000, lent) : khargovsun_list_matchers_after(&p, last, 1000, lent);
        same("pages joined", "the code", got.code, 0);
        same("pages joined", "the ending", got.ending, before + here < ALL);
        same("pages joined", "the records", got.records, here);
        holds("pages joined", "out", out, BEYOND, page);
    }
}

static void joined_with_each_room(void) {
    static uint32_t records[ALL * WIDTH];
    put_splits(records);
    for (size_t room = 1; room <= ALL; room++) joined(records, room);
}

/* g(s0, a, s1) on a root with 2,047 leaves a. s0 with k terms is a try, and s1 with 0 to 2,046 - k terms one each, of which the last gives the
 * record; so 2,048 - k tries lead from the record before it to that of k. s0 with all 2,047 terms is tried last, and there is no a left. */
static void largest(void) {
    static uint32_t label[ROWS], size[ROWS];
    for (size_t k = 0; k < ROWS; k++) label[k] = 7, size[k] = 1;
    label[0] = 0, size[0] = ROWS;
    problem p = {{{label, ROWS}, {size, ROWS}}, {LIST(0, 2, 0, 2), LIST(0, 0, 7, 1), LIST(4, 1, 1, 1)}, NOTHING, FREE2};
    for (uint32_t k = 0; k <= 2044; k += 73) {
        list record = LIST(1, k, k + 2, 2046 - k), next = LIST(1, k + 1, k + 3, 2045 - k), none = NONE;
        uint32_t to_next = 2047 - k, to_third = to_next + 2046 - k;
        khargovsun_listing one = {.ending = 1, .records = 1, .tries = to_third}, cut = {.ending = 2, .records = 1, .tries = to_third - 1};
        khargovsun_listing short_of_it = {.ending = 2, .tries = to_next - 1};
        page_is("2,048 rows, room for one", &p, record, 4294967295u, 4, one, next);
        page_is("2,048 rows, a budget one short of the third", &p, record, to_third - 1, 4, cut, next);
        page_is("2,048 rows, a budget one short of the next", &p, record, to_next - 1, ROOM, short_of_it, none);
    }
    list last = LIST(1, 2046, 2048, 0), none = NONE;
    khargovsun_listing end = {.tries = 1};
    page_is("2,048 rows, the last record", &p, last, 4294967295u, ROOM, end, none);
}

int main(void) {
    pages_and_refusals();
    orders();
    joined_with_each_room();
    largest();
    same("the structs", "calls with them, and some with lists alone", by_structs > 0 && by_lists_alone > 0, true);
    return result("pages.c");
}
