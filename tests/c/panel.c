/* khargovsun_panel, held to what 02 (#106) says: each problem is answered as by a list of its own, unless the lists are refused together. */
#include "problem.h"

/* The lists of a call that are read, in its order. */
enum {
    LABEL, SIZE, KIND, NAME, PATTERN_SIZE, EXPRESSION_KIND, EXPRESSION_NAME, EXPRESSION_SIZE, CONSTRAINT,
    PATTERN_LENGTH, EXPRESSION_LENGTH, CONSTRAINT_LENGTH, BUDGET, SHARE, LISTS
};

typedef struct {
    list in[LISTS];
    size_t out, answer; /* entries that are lent */
} panel;

/* ---- 02's examples but the last two, mostly of Q, a sequence variable as root, which is no pattern, and g(s0) ---- */

#define ON_T LIST(0, 2, 7, 2, 7), LIST(5, 2, 1, 1, 1)
#define ON_NO_TREE LIST(0, 2), LIST(2, 2)
#define THREE LIST(4, 0, 2, 2, 0, 2), LIST(0, 2, 1, 0, 0, 0), LIST(3, 2, 1, 1, 2, 1), NONE, NONE, NONE, LIST(0, 0, 0, 0, 0, 0, 0, 0)
#define LENGTHS(...) LIST(__VA_ARGS__), LIST(0, 0, 0), LIST(4, 2, 2)
#define KEPT MARK

static const struct example {
    const char *name;
    panel panel;
    uint32_t code;
    list answer, out;
} EXAMPLES[] = {
    {"Q, a bad pattern and g(s0)", {{ON_T, THREE, LENGTHS(3, 1, 2), LIST(8, 5, 4), LIST(8, 0, 2)}, 10, 12},
     0, LIST(0, 0, 2, 8, 12, 0, 0, 0, 0, 0, 1, 4), LIST(0, 1, 2, 1, 0, 3, 4, 0, 1, 3)},
    {"shares 4, 0 and 3", {{ON_T, THREE, LENGTHS(3, 1, 2), LIST(8, 5, 4), LIST(4, 0, 3)}, 7, 12},
     0, LIST(0, 1, 1, 7, 12, 0, 0, 0, 0, 0, 1, 4), LIST(0, 1, 2, 1, 1, 3, KEPT)},
    {"budgets 3, 0 and 3", {{ON_T, THREE, LENGTHS(3, 1, 2), LIST(3, 0, 3), LIST(8, 0, 2)}, 10, 12},
     0, LIST(0, 2, 0, 3, 12, 0, 0, 0, 0, 2, 0, 3), NONE},
    {"a bad tree", {{ON_NO_TREE, THREE, LENGTHS(3, 1, 2), LIST(8, 5, 4), LIST(8, 0, 2)}, 10, 12},
     0, LIST(11, 0, 0, 0, 11, 0, 0, 0, 11, 0, 0, 0), NONE},
    {"no problems, nothing lent, a bad tree", {{NONE}, 0, 0}, 0, NONE, NONE},
    {"shares of 9, 10 entries", {{ON_T, THREE, LENGTHS(3, 1, 2), LIST(8, 5, 4), LIST(8, 0, 1)}, 10, 12}, 21, NONE, NONE},
    {"three problems, two budgets", {{ON_T, THREE, LENGTHS(3, 1, 2), LIST(8, 5), LIST(8, 0, 2)}, 10, 12}, 21, NONE, NONE},
    {"an answer list of 13", {{ON_T, THREE, LENGTHS(3, 1, 2), LIST(8, 5, 4), LIST(8, 0, 2)}, 10, 13}, 21, NONE, NONE},
    {"lengths that add up in 32 bits", {{ON_T, THREE, LENGTHS(4294967295u, 3, 4), LIST(8, 5, 4), LIST(8, 0, 2)}, 10, 12}, 21, NONE, NONE},
    {"lengths 3, 0 and 3: no rows, two roots", {{ON_T, THREE, LENGTHS(3, 0, 3), LIST(8, 5, 4), LIST(8, 0, 2)}, 10, 12},
     0, LIST(0, 0, 2, 8, 12, 0, 0, 0, 12, 0, 0, 0), LIST(0, 1, 2, 1, 0, 3, 4, 0)},
    /* .. and of these lists some that are none of 02's. */
    {"shares of 11, 10 entries", {{ON_T, THREE, LENGTHS(3, 1, 2), LIST(8, 5, 4), LIST(8, 1, 2)}, 10, 12}, 21, NONE, NONE},
    {"21 before 11 and 12", {{ON_NO_TREE, THREE, LENGTHS(3, 1, 2), LIST(8, 5, 4), LIST(8, 0, 1)}, 10, 12}, 21, NONE, NONE},
    {"three answers for two problems", {{ON_T, THREE, LIST(3, 3), LIST(0, 0), LIST(4, 4), LIST(8, 5), LIST(8, 2)}, 10, 12}, 21, NONE, NONE},
    {"two problems of all the rows", {{ON_T, THREE, LIST(3, 3), LIST(0, 0), LIST(4, 4), LIST(8, 5), LIST(8, 2)}, 10, 8},
     0, LIST(0, 0, 2, 8, 12, 0, 0, 0), LIST(0, 1, 2, 1, 0, 3, 4, 0)},
};

/* ---- One call: with the lists one by one and, where the header's struct can say it, with that too ---- */

enum { PROBLEMS = 32, AROUND = 4, MANY = 100000, LONGEST = ROWS + 2 };

/* What is lent stands in the middle: entries before it and behind it are to stay as they are. */
static uint32_t shares[AROUND + LONGEST + AROUND], answers[AROUND + 4 * MANY + AROUND];

static khargovsun_lent_records lent_shares(const panel *p) {
    return (khargovsun_lent_records){p->out ? shares + AROUND : NULL, p->out};
}

static khargovsun_lent_records lent_answers(const panel *p) {
    return (khargovsun_lent_records){p->answer ? answers + AROUND : NULL, p->answer};
}

static uint32_t by_lists(const panel *p) {
    const list *l = p->in;
    khargovsun_lent_records out = lent_shares(p), answer = lent_answers(p);
    return khargovsun_panel(LENT(l[LABEL]), LENT(l[SIZE]), LENT(l[KIND]), LENT(l[NAME]), LENT(l[PATTERN_SIZE]), LENT(l[EXPRESSION_KIND]),
                            LENT(l[EXPRESSION_NAME]), LENT(l[EXPRESSION_SIZE]), LENT(l[CONSTRAINT]), LENT(l[PATTERN_LENGTH]),
                            LENT(l[EXPRESSION_LENGTH]), LENT(l[CONSTRAINT_LENGTH]), LENT(l[BUDGET]), LENT(l[SHARE]), LENDS(out), LENDS(answer));
}

static uint32_t by_struct(const panel *p) {
    const list *l = p->in;
    khargovsun_problems all = {
        .tree = {l[LABEL].at, l[SIZE].at, l[SIZE].n},
        .patterns = {l[KIND].at, l[NAME].at, l[PATTERN_SIZE].at, l[PATTERN_SIZE].n},
        .expressions = {l[EXPRESSION_KIND].at, l[EXPRESSION_NAME].at, l[EXPRESSION_SIZE].at, l[EXPRESSION_SIZE].n},
        .constraints = {LENT(l[CONSTRAINT])},
        .pattern_rows = l[PATTERN_LENGTH].at,
        .expression_rows = l[EXPRESSION_LENGTH].at,
        .constraint_numbers = l[CONSTRAINT_LENGTH].at,
        .budgets = l[BUDGET].at,
        .shares = l[SHARE].at,
        .problems = l[SHARE].n,
    };
    return khargovsun_list_panel(&all, lent_shares(p), (khargovsun_listing *)lent_answers(p).at);
}

static bool equally_long(const panel *p, int first, int last) {
    for (int k = first; k < last; k++)
        if (p->in[k].n != p->in[last].n) return false;
    return true;
}

static bool said_by_struct(const panel *p) {
    bool all = equally_long(p, LABEL, SIZE) && equally_long(p, KIND, PATTERN_SIZE) && equally_long(p, EXPRESSION_KIND, EXPRESSION_SIZE) &&
               equally_long(p, PATTERN_LENGTH, SHARE) && p->answer == 4 * p->in[SHARE].n;
    *(all ? &by_structs : &by_lists_alone) += 1;
    return all;
}

static void call_is(const char *name, const panel *p, uint32_t (*call)(const panel *), uint32_t code, list answer, list out) {
    list none = NONE;
    mark(shares, p->out + 2 * AROUND), mark(answers, p->answer + 2 * AROUND);
    same(name, "the code", call(p), code);
    holds(name, "before out", shares, AROUND, none);
    holds(name, "out", shares + AROUND, p->out + AROUND, out);
    holds(name, "before answer", answers, AROUND, none);
    holds(name, "answer", answers + AROUND, p->answer + AROUND, answer);
}

static void panel_is(const char *name, const panel *p, uint32_t code, list answer, list out) {
    call_is(name, p, by_lists, code, answer, out);
    if (said_by_struct(p)) call_is(name, p, by_struct, code, answer, out);
}

static void panel_refused(const char *name, const panel *p) {
    list none = NONE;
    panel_is(name, p, 21, none, none);
}

/* ---- Problems laid end to end, with what is wanted of them ---- */

typedef struct {
    size_t n;
    uint32_t at[LONGEST];
} laid;

typedef struct {
    laid in[LISTS], answer, out;
} row_of_problems;

static void lay_number(laid *to, uint32_t number) {
    to->at[to->n++] = number;
}

static void lay(laid *to, list numbers) {
    for (size_t k = 0; k < numbers.n; k++) lay_number(to, numbers.at[k]);
}

static void lay_rows(laid *to, laid *length, rows3 rows) {
    lay(&to[0], rows.kind), lay(&to[1], rows.name), lay(&to[2], rows.size);
    lay_number(length, rows.size.n);
}

static void lay_tree(row_of_problems *to, tree t) {
    *to = (row_of_problems){0};
    lay(&to->in[LABEL], t.label), lay(&to->in[SIZE], t.size);
}

/* A problem, without its tree, and what is wanted of it: in its share nothing but the records is written. */
static void lay_problem(row_of_problems *to, const problem *p, uint32_t budget, size_t share, khargovsun_listing want, list records) {
    lay_rows(&to->in[KIND], &to->in[PATTERN_LENGTH], p->pattern);
    lay_rows(&to->in[EXPRESSION_KIND], &to->in[EXPRESSION_LENGTH], p->expression);
    lay(&to->in[CONSTRAINT], p->constraint);
    lay_number(&to->in[CONSTRAINT_LENGTH], p->constraint.n);
    lay_number(&to->in[BUDGET], budget);
    lay_number(&to->in[SHARE], share);
    lay_number(&to->answer, want.code), lay_number(&to->answer, want.ending);
    lay_number(&to->answer, want.records), lay_number(&to->answer, want.tries);
    lay(&to->out, records);
    for (size_t k = records.n; k < share; k++) lay_number(&to->out, KEPT);
}

static list laid_list(const laid *l) {
    return (list){l->n ? l->at : NULL, l->n};
}

static panel panel_of(const row_of_problems *all) {
    panel p = {.out = all->out.n, .answer = all->answer.n};
    for (int k = 0; k < LISTS; k++) p.in[k] = laid_list(&all->in[k]);
    return p;
}

static void all_answered(const char *name, const row_of_problems *all) {
    panel p = panel_of(all);
    panel_is(name, &p, 0, laid_list(&all->answer), laid_list(&all->out));
}

/* The same problems where the tree is none. */
static void all_without_tree(const char *name, const panel *p) {
    uint32_t codes[4 * PROBLEMS] = {0};
    for (size_t k = 0; k < p->answer; k += 4) codes[k] = 11;
    list none = NONE, answer = {codes, p->answer};
    panel_is(name, p, 0, answer, none);
}

/* ---- Refused problems beside others ---- */

/* The tree itself, whatever it is. */
static const problem X0 = {{NONE, NONE}, {LIST(1), LIST(0), LIST(1)}, NOTHING, LIST(0, 0)};

/* The refused problem in first, middle or last place. Lists of a table that differ in length are lists that do not add up. */
static void refused_at(const struct refusal *r, size_t place) {
    static row_of_problems all;
    khargovsun_listing refused = {.code = r->code}, found = {.records = 1};
    list none = NONE, root = LIST(0, 0);
    lay_tree(&all, r->problem.tree);
    for (size_t k = 0; k < 3; k++) {
        if (k == place) lay_problem(&all, &r->problem, 1000, 5, refused, none);
        else lay_problem(&all, &X0, k, 2 + k, found, root);
    }
    panel p = panel_of(&all);
    if (!even(r->problem.pattern) || !even(r->problem.expression)) panel_refused(r->name, &p);
    else if (r->code == 11) all_without_tree(r->name, &p);
    else all_answered(r->name, &all);
}

static const struct part {
    problem problem;
    khargovsun_listing want;
    list records;
} PARTS[] = {
    {Q_ON_T, {.records = 2, .tries = 8}, LIST(0, 1, 2, 1, 0, 3, 4, 0)},
    {{T, {LIST(2), LIST(0), LIST(1)}, NOTHING, LIST(0, 0)}, {.code = 12}, NONE},
    {{T, Q, {LIST(3, 0), LIST(0, 7), LIST(2, 1)}, FREE2}, {.code = 13}, NONE},
    {{T, Q, NOTHING, LIST(0, 0, 0, 1)}, {.code = 14}, NONE},
    {{T, Q, A_ALONE, FREE2}, {.code = 19}, NONE},
    {{T, {LIST(0, 2), LIST(0, 0), LIST(2, 1)}, NOTHING, LIST(0, 0)}, {.records = 1, .tries = 4}, LIST(1, 3)},
};

/* Every code in one panel, from each problem on; then on a tree that is none. */
static void every_code(void) {
    static row_of_problems all;
    tree t = T, no_tree = {ON_NO_TREE};
    for (size_t first = 0; first < COUNT(PARTS); first++) {
        lay_tree(&all, t);
        for (size_t k = 0; k < COUNT(PARTS); k++) {
            const struct part *p = &PARTS[(first + k) % COUNT(PARTS)];
            lay_problem(&all, &p->problem, 8, p->records.n + k, p->want, p->records);
        }
        all_answered("every code", &all);
        panel p = panel_of(&all);
        p.in[LABEL] = no_tree.label, p.in[SIZE] = no_tree.size;
        all_without_tree("every code, on no tree", &p);
    }
}

static void refusals(void) {
    for (size_t k = 0; k < COUNT(REFUSALS); k++)
        for (size_t place = 0; place < 3; place++) refused_at(&REFUSALS[k], place);
    every_code();
}

/* ---- Each list an entry shorter and longer ---- */

static void one_entry(const char *name, row_of_problems *all, int which, size_t n) {
    size_t right = all->in[which].n;
    all->in[which].n = n;
    panel p = panel_of(all);
    if (which == LABEL || which == SIZE) all_without_tree(name, &p);
    else panel_refused(name, &p);
    all->in[which].n = right;
}

static void one_entry_lent(const char *name, const row_of_problems *all, size_t out, size_t answer) {
    panel p = panel_of(all);
    p.out = out, p.answer = answer;
    panel_refused(name, &p);
}

/* Q with s1 in a*, so that no list is empty; the entry more is 0, so that no sum is changed by it. */
static void entries(void) {
    static row_of_problems all;
    tree t = T;
    problem q = {T, Q, {LIST(4, 0), LIST(0, 7), LIST(2, 1)}, LIST(0, 0, 1, 0)};
    lay_tree(&all, t);
    lay_problem(&all, &q, 8, 9, PARTS[0].want, PARTS[0].records);
    for (size_t k = 1; k < COUNT(PARTS); k++) lay_problem(&all, &PARTS[k].problem, 8, 3, PARTS[k].want, PARTS[k].records);
    all_answered("each list as it should be", &all);
    for (int k = 0; k < LISTS; k++) {
        one_entry("a list one short", &all, k, all.in[k].n - 1);
        one_entry("a list one long", &all, k, all.in[k].n + 1);
    }
    size_t out = all.out.n, answer = all.answer.n;
    one_entry_lent("out one short", &all, out - 1, answer), one_entry_lent("out one long", &all, out + 1, answer);
    one_entry_lent("answer one short", &all, out, answer - 1), one_entry_lent("answer one long", &all, out, answer + 1);
}

/* No problem, and all pointers null; then one list alone has an entry. The tree is not judged. */
static void nothing(void) {
    list none = NONE, one = LIST(0);
    for (int k = 0; k < LISTS; k++) {
        panel p = {.out = 0};
        p.in[k] = one;
        panel_is("one list alone", &p, k == LABEL || k == SIZE ? 0 : 21, none, none);
    }
    panel out = {.out = 1}, answer = {.answer = 1}, four = {.answer = 4};
    panel_refused("out alone", &out);
    panel_refused("answer alone", &answer);
    panel_refused("four answers alone", &four);
}

/* ---- The number of problems ---- */

static uint32_t zeros[MANY], ones[MANY], as[MANY];

/* So many times a on a, or, without rows, no pattern; all else is null. 32 and 33 times a are the last two examples. */
static void times(uint32_t problems, uint32_t rows) {
    static uint32_t want[4 * PROBLEMS];
    uint32_t n = problems * rows;
    list each = {zeros, problems}, none = NONE;
    panel p = {{LIST(7), LIST(1), {n ? zeros : NULL, n}, {n ? as : NULL, n}, {n ? ones : NULL, n}, NONE, NONE, NONE, NONE,
                {rows ? ones : zeros, problems}, each, each, each, each}, 0, 4 * (size_t)problems};
    for (size_t k = 0; k < PROBLEMS; k++) want[4 * k] = rows ? 0 : 12, want[4 * k + 2] = rows;
    list answer = {want, p.answer};
    if (problems > PROBLEMS) panel_refused("more than 32 problems", &p);
    else panel_is("so many problems", &p, 0, answer, none);
}

static void numbers(void) {
    static const uint32_t NUMBERS[] = {0, 1, 2, 31, 32, 33, 34, 64, 4096, MANY};
    for (size_t k = 0; k < MANY; k++) ones[k] = 1, as[k] = 7;
    for (size_t k = 0; k < COUNT(NUMBERS); k++) times(NUMBERS[k], 0), times(NUMBERS[k], 1);
}

/* ---- Sums that come out right in 32 bits alone ---- */

static const int SUMMED[] = {PATTERN_LENGTH, EXPRESSION_LENGTH, CONSTRAINT_LENGTH, SHARE};

/* 32 times the same length and nothing lent: 137,438,953,440 in all, and 4,294,967,296. */
static void sums_of_32(void) {
    static const uint32_t LENGTH[] = {4294967295u, 134217728};
    uint32_t lengths[PROBLEMS];
    list each = {zeros, PROBLEMS}, all_alike = {lengths, PROBLEMS};
    for (size_t s = 0; s < COUNT(SUMMED); s++)
        for (size_t k = 0; k < COUNT(LENGTH); k++) {
            panel p = {{LIST(7), LIST(1), NONE, NONE, NONE, NONE, NONE, NONE, NONE, each, each, each, each, each}, 0, 4 * PROBLEMS};
            for (size_t i = 0; i < PROBLEMS; i++) lengths[i] = LENGTH[k];
            p.in[SUMMED[s]] = all_alike;
            panel_refused("32 lengths that are nothing in 32 bits", &p);
        }
}

/* Two of three lengths are 2,147,483,648 more, or one is 4,294,967,295 and another has what then is missing. */
static void sums_of_three(void) {
    const panel *right = &EXAMPLES[0].panel;
    for (size_t s = 0; s < COUNT(SUMMED); s++) {
        const uint32_t *at = right->in[SUMMED[s]].at;
        list halves = LIST(at[0] + 2147483648u, at[1] + 2147483648u, at[2]), whole = LIST(4294967295u, at[0] + at[1] + 1, at[2]);
        panel p = *right;
        p.in[SUMMED[s]] = halves;
        panel_refused("two halves of 32 bits more", &p);
        p.in[SUMMED[s]] = whole;
        panel_refused("4294967295 and the rest", &p);
    }
}

/* ---- 32 problems, each with a budget and a share of its own ---- */

/* Q on T reaches its records with the fourth and the seventh of eight tries. */
static khargovsun_listing q_on_t(uint32_t budget, size_t room) {
    static const uint32_t REACHED[] = {4, 7};
    if (room < 2 && REACHED[room] <= budget) return (khargovsun_listing){.ending = 1, .records = room, .tries = REACHED[room]};
    if (budget >= 8) return (khargovsun_listing){.records = 2, .tries = 8};
    return (khargovsun_listing){.ending = 2, .records = (budget >= 4) + (budget >= 7), .tries = budget};
}

static void budgets_and_shares(void) {
    static row_of_problems all;
    static const uint32_t SHARES[] = {0, 4, 7, 8};
    lay_tree(&all, PARTS[0].problem.tree);
    for (uint32_t k = 0; k < PROBLEMS; k++) {
        uint32_t budget = 1 + k / 4, share = SHARES[k % 4];
        khargovsun_listing want = q_on_t(budget, share / 4);
        list records = {PARTS[0].records.at, 4 * want.records};
        lay_problem(&all, &PARTS[0].problem, budget, share, want, records);
    }
    all_answered("32 budgets and shares", &all);
}

/* g(s0) on a root with 2,047 leaves, 32 times: the only record is reached with the last of 2,048 tries. */
static void largest(void) {
    static row_of_problems all;
    static uint32_t label[ROWS], size[ROWS];
    for (size_t k = 0; k < ROWS; k++) label[k] = 7, size[k] = 1;
    label[0] = 0, size[0] = ROWS;
    tree t = {{label, ROWS}, {size, ROWS}};
    problem p = {{NONE, NONE}, {LIST(0, 2), LIST(0, 0), LIST(2, 1)}, NOTHING, LIST(0, 0)};
    list none = NONE, record = LIST(1, ROWS - 1);
    khargovsun_listing found = {.records = 1, .tries = ROWS}, no_room = {.ending = 1, .tries = ROWS}, cut = {.ending = 2, .tries = ROWS - 1};
    lay_tree(&all, t);
    for (uint32_t k = 0; k < PROBLEMS; k++) {
        if (k % 3 == 0) lay_problem(&all, &p, 4294967295u, 2 + k, found, record);
        else if (k % 3 == 1) lay_problem(&all, &p, ROWS, 1, no_room, none);
        else lay_problem(&all, &p, ROWS - 1, 2, cut, none);
    }
    all_answered("2,048 rows", &all);
}

int main(void) {
    for (size_t k = 0; k < COUNT(EXAMPLES); k++)
        panel_is(EXAMPLES[k].name, &EXAMPLES[k].panel, EXAMPLES[k].code, EXAMPLES[k].answer, EXAMPLES[k].out);
    refusals();
    entries();
    nothing();
    numbers();
    sums_of_32();
    sums_of_three();
    budgets_and_shares();
    largest();
    same("the structs", "calls with them, and some with lists alone", by_structs > 0 && by_lists_alone > 0, true);
    return result("panel.c");
}
