/* Which features a problem has. */
#include "decide.h"
#include "tally.h"

static bool has_kind(const list *kind, size_t from, size_t to, uint32_t wanted) {
    for (size_t row = from; row < to; row++)
        if (kind->at[row] == wanted) return true;
    return false;
}

static bool repeats(const rows *pattern, uint32_t kind) {
    for (size_t p = 0; p < pattern->kind.n; p++)
        if (pattern->kind.at[p] == kind && first_row(pattern, pattern->name.at[p]) != p) return true;
    return false;
}

static bool has_context_under_context(const rows *pattern) {
    for (size_t p = 0; p + 1 < pattern->kind.n; p++)
        if (pattern->kind.at[p] == CONTEXT && has_kind(&pattern->kind, p + 1, end(&pattern->size, p), CONTEXT)) return true;
    return false;
}

static bool count_pattern(const rows *pattern) {
    static const enum feature WITH[KINDS] = {WITH_SYMBOL, WITH_INDIVIDUAL, WITH_SEQUENCE, WITH_FUNCTION, WITH_CONTEXT};
    static const enum feature AGAIN[KINDS] = {0, REPEATED_INDIVIDUAL, REPEATED_SEQUENCE, REPEATED_FUNCTION, REPEATED_CONTEXT};
    bool repeated = false;
    for (uint32_t kind = 0; kind < KINDS; kind++) {
        count(WITH[kind], has_kind(&pattern->kind, 0, pattern->kind.n, kind));
        if (kind == SYMBOL || !repeats(pattern, kind)) continue;
        count(AGAIN[kind], 1);
        repeated = true;
    }
    count(REPEATED, repeated);
    count(CONTEXT_UNDER_CONTEXT, has_context_under_context(pattern));
    return repeated;
}

/* What a constraint can have: each feature is counted once for a problem. */
typedef struct {
    bool kind[KINDS], flag[2], has[EXPRESSION_KINDS], nested, empty_inside;
} seen;

static void look_at_expression(const rows *table, size_t top, seen *seen) {
    for (size_t row = top; row < end(&table->size, top); row++) {
        seen->has[table->kind.at[row]] = true;
        if (table->kind.at[row] != REPETITION) continue;
        if (has_kind(&table->kind, row + 1, end(&table->size, row), REPETITION)) seen->nested = true;
        if (in_language(table, row + 1, NULL, 0)) seen->empty_inside = true;
    }
}

static bool look_at_constraints(const problem *problem, seen *seen) {
    bool any = false;
    for (size_t k = 0; k < problem->constraint.n; k += 2) {
        if (problem->constraint.at[k] == 0) continue;
        any = true;
        seen->kind[kind_of(&problem->pattern, k / 2)] = true;
        seen->flag[problem->constraint.at[k + 1]] = true;
        look_at_expression(&problem->expression, problem->constraint.at[k] - 1, seen);
    }
    return any;
}

static bool count_constraints(const problem *problem) {
    seen seen = {0};
    bool constrained = look_at_constraints(problem, &seen);
    count(CONSTRAINED, constrained);
    count(CONSTRAINED_SEQUENCE, seen.kind[SEQUENCE]);
    count(CONSTRAINED_CONTEXT, seen.kind[CONTEXT]);
    count(WITH_FLAG_0, seen.flag[0]);
    count(WITH_FLAG_1, seen.flag[1]);
    count(WITH_EMPTY, seen.has[EMPTY]);
    count(WITH_CONCATENATION, seen.has[CONCATENATION]);
    count(WITH_CHOICE, seen.has[CHOICE]);
    count(NESTED_REPETITION, seen.nested);
    count(EMPTY_INSIDE, seen.empty_inside);
    count(LARGE_EXPRESSION, problem->expression.kind.n > 32);
    return constrained;
}

void count_features(const problem *problem, size_t records, size_t tries, bool excluded) {
    bool repeated = count_pattern(&problem->pattern), constrained = count_constraints(problem);
    count(PROBLEMS, 1);
    count(RECORDS, records);
    count(TRIES, tries);
    count(WITH_RECORD, records > 0);
    count(WITH_TWO_RECORDS, records > 1);
    count(REPEATED_AND_RECORD, repeated && records > 0);
    count(CONSTRAINED_AND_RECORD, constrained && records > 0);
    count(EXCLUDED_BY_CONSTRAINT, excluded);
}
