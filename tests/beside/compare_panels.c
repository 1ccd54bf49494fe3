/* Panels: each problem beside what was decided of it and beside a list of its own, and panels whose lists are altered. */
#include "calls.h"
#include "compare.h"

/* What is lent stands in the middle of these. */
static uint32_t out[BEYOND + OUT + BEYOND], answers[BEYOND + ENTRIES + BEYOND];

/* The problem of a number: its part of each list. */
static void put_part(const list *whole, const list *lengths, size_t number, list *to) {
    size_t from = 0;
    for (size_t k = 0; k < number; k++) from += lengths->at[k];
    to->n = lengths->at[number];
    for (size_t k = 0; k < to->n; k++) to->at[k] = whole->at[from + k];
}

static void put_part_of_rows(const rows *whole, const list *lengths, size_t number, rows *to) {
    put_part(&whole->kind, lengths, number, &to->kind);
    put_part(&whole->name, lengths, number, &to->name);
    put_part(&whole->size, lengths, number, &to->size);
}

static void put_problem(const panel *panel, size_t number, problem *to) {
    put_part_of_rows(&panel->pattern, &panel->pattern_length, number, &to->pattern);
    put_part_of_rows(&panel->expression, &panel->expression_length, number, &to->expression);
    put_part(&panel->constraint, &panel->constraint_length, number, &to->constraint);
}

/* A problem's budget, and what the panel wrote for it. */
typedef struct {
    uint32_t budget;
    const uint32_t *answer, *out;
    size_t share;
} part;

static bool answer_is(const part *part, uint32_t code, uint32_t ending, uint32_t records, uint32_t tries) {
    return part->answer[0] == code && part->answer[1] == ending && part->answer[2] == records && part->answer[3] == tries;
}

static void compare_list_of_its_own(const problem *problem, const part *part) {
    static uint32_t own[OUT];
    mark(own, part->share);
    khargovsun_listing got = call_list(problem, part->budget, own, part->share);
    bool same = answer_is(part, got.code, got.ending, got.records, got.tries);
    for (size_t k = 0; k < part->share; k++) same = same && part->out[k] == own[k];
    compare(PANEL_LIST, same);
}

/* A problem that is not refused. How many records stand in its share. */
static size_t compare_accepted(const problem *problem, const part *part) {
    static const enum feature ENDING[] = {PANEL_ENDING_0, PANEL_ENDING_1, PANEL_ENDING_2};
    static listing all;
    list_all(problem, &all);
    if (all.too_long) return 0;
    page page = whole_list(&all);
    size_t numbers = 2 * variables(&problem->pattern);
    answer want = expected(&page, numbers == 0 ? all.records : part->share / numbers, part->budget);
    size_t written = want.records * numbers;
    compare(PANEL_PROBLEM, answer_is(part, ACCEPTED, want.ending, want.records, want.tries) &&
                               are_records(part->out, &all, 0, want.records, numbers) &&
                               begins_with(part->out + written, part->share - written, NULL, 0));
    count(ENDING[want.ending], 1);
    count(SHARE_LEFT, written > 0 && written < part->share);
    return want.records;
}

static void compare_refused_part(uint32_t code, const part *part) {
    compare(PANEL_PROBLEM, answer_is(part, code, 0, 0, 0) && begins_with(part->out, part->share, NULL, 0));
    count_code(code);
}

/* Each problem, whatever the others are. */
static void compare_parts(const panel *panel, problem *problem) {
    bool refused = false, found = false;
    const uint32_t *entry = out + BEYOND;
    for (size_t k = 0; k < panel->share.n; k++) {
        part part = {panel->budget.at[k], answers + BEYOND + 4 * k, entry, panel->share.at[k]};
        size_t records = 0;
        put_problem(panel, k, problem);
        compare_list_of_its_own(problem, &part);
        uint32_t code = code_of_problem(problem);
        if (code == ACCEPTED) records = compare_accepted(problem, &part);
        else compare_refused_part(code, &part);
        count(BEHIND_REFUSED, records > 0 && refused);
        count(REFUSED_BEHIND, code != ACCEPTED && found);
        refused = refused || code != ACCEPTED;
        found = found || records > 0;
        entry += part.share;
    }
}

/* One call: its code, and that nothing is written before and behind what is lent, nor, where it is refused, there. Is it accepted? */
static bool compare_call(const panel *panel) {
    uint32_t code = code_of_panel(panel);
    size_t kept = code == ACCEPTED ? 0 : panel->out, answers_kept = code == ACCEPTED ? 0 : panel->answer;
    mark(out, panel->out + 2 * BEYOND);
    mark(answers, panel->answer + 2 * BEYOND);
    uint32_t got = call_panel(panel, out + BEYOND, answers + BEYOND);
    compare(PANEL, got == code && begins_with(out, BEYOND + kept, NULL, 0) && begins_with(answers, BEYOND + answers_kept, NULL, 0) &&
                       begins_with(out + BEYOND + panel->out, BEYOND, NULL, 0) &&
                       begins_with(answers + BEYOND + panel->answer, BEYOND, NULL, 0));
    count_code(code);
    return code == ACCEPTED;
}

/* The call, and if the lists add up each problem. Do they? */
static bool compare_panel(const char *name, uint32_t number, const panel *panel) {
    static problem problem;
    set_case(name, number, NULL);
    if (!compare_call(panel)) return false;
    problem.tree = panel->tree;
    set_case(name, number, &problem);
    compare_parts(panel, &problem);
    count(PANELS, 1);
    count(PANEL_OF_32, panel->share.n == PROBLEMS_OF_PANEL);
    count(PANEL_OF_NONE, panel->share.n == 0);
    count(PANEL_WITHOUT_TREE, panel->share.n > 0 && code_of_problem(&problem) == BAD_TREE);
    return true;
}

/* Has some problem another length or share than before? */
static bool lengths_differ(const panel *one, const panel *other) {
    size_t n = one->share.n;
    return !begins_with(one->pattern_length.at, n, other->pattern_length.at, n) ||
           !begins_with(one->expression_length.at, n, other->expression_length.at, n) ||
           !begins_with(one->constraint_length.at, n, other->constraint_length.at, n) || !begins_with(one->share.at, n, other->share.at, n);
}

void compare_panels(chance *chance, const group *group, uint32_t number, const problem *first) {
    static panel whole, altered;
    make_panel(chance, group, first, &whole);
    bool was_good = compare_panel(group->name, number, &whole);
    for (enum alteration how = 0; how < ALTERATIONS; how++) {
        altered = whole;
        alter_panel(chance, how, &altered);
        bool good = compare_panel(group->name, number, &altered);
        count(SHIFTED, how == LENGTHS_SHIFTED && good && lengths_differ(&whole, &altered));
        count(WRAPPED, how == LENGTHS_WRAPPED && was_good && !good);
    }
}
