/* Counting and printing. */
#include "tally.h"
#include <stdio.h>

/* So many differences of a comparison are printed. */
enum { SHOWN = 2 };

static size_t compared[COMPARISONS_END], differing[COMPARISONS_END], counted[FEATURES_END];

#define TEXT(name, text, least) text,
#define LEAST(name, text, least) least,
static const char *const COMPARISON_TEXT[] = {COMPARISONS(TEXT)};
static const size_t COMPARISON_LEAST[] = {COMPARISONS(LEAST)};
static const char *const FEATURE_TEXT[] = {FEATURES(TEXT)};
static const size_t FEATURE_LEAST[] = {FEATURES(LEAST)};

static struct {
    const char *name;
    uint32_t number;
    const problem *problem;
} now;

void mark(uint32_t *to, size_t n) {
    for (size_t k = 0; k < n; k++) to[k] = MARK;
}

bool begins_with(const uint32_t *got, size_t n, const uint32_t *want, size_t written) {
    for (size_t k = 0; k < n; k++)
        if (got[k] != (k < written ? want[k] : MARK)) return false;
    return true;
}

void set_case(const char *name, uint32_t number, const problem *problem) {
    now.name = name;
    now.number = number;
    now.problem = problem;
}

static void show(const char *name, const list *list) {
    printf("  %s", name);
    for (size_t k = 0; k < list->n && k < 64; k++) printf(" %u", list->at[k]);
    printf(list->n > 64 ? " .. (%lu)\n" : "\n", (unsigned long)list->n);
}

static void show_case(void) {
    const problem *p = now.problem;
    if (p == NULL) return;
    show("label", &p->tree.label);
    show("size", &p->tree.size);
    show("pattern kind", &p->pattern.kind);
    show("name", &p->pattern.name);
    show("size", &p->pattern.size);
    show("expression kind", &p->expression.kind);
    show("name", &p->expression.name);
    show("size", &p->expression.size);
    show("constraint", &p->constraint);
}

void compare(enum comparison what, bool same) {
    compared[what]++;
    if (same) return;
    if (differing[what]++ >= SHOWN) return;
    printf("differs: %s, %s %u\n", COMPARISON_TEXT[what], now.name, now.number);
    show_case();
}

void count(enum feature feature, size_t number) {
    counted[feature] += number;
}

void count_code(uint32_t code) {
    static const enum feature FEATURE[CODES] = {[1] = CODE_1,   [2] = CODE_2,   [3] = CODE_3,   [4] = CODE_4,   [5] = CODE_5,
                                                [6] = CODE_6,   [11] = CODE_11, [12] = CODE_12, [13] = CODE_13, [14] = CODE_14,
                                                [15] = CODE_15, [16] = CODE_16, [17] = CODE_17, [19] = CODE_19,
                                                [20] = CODE_20, [21] = CODE_21};
    if (code != ACCEPTED) count(FEATURE[code], 1);
}

/* Prints one number. 1 if it is less than it has to be. */
static int print_count(const char *text, size_t number, size_t least) {
    printf("%lu %s", (unsigned long)number, text);
    if (number >= least) return 0;
    printf(" (TOO FEW: at least %lu are needed)", (unsigned long)least);
    return 1;
}

int report(void) {
    int fails = 0;
    size_t differ = 0;
    for (size_t k = 0; k < FEATURES_END; k++) {
        fails |= print_count(FEATURE_TEXT[k], counted[k], FEATURE_LEAST[k]);
        printf("\n");
    }
    for (size_t k = 0; k < COMPARISONS_END; k++) {
        fails |= print_count(COMPARISON_TEXT[k], compared[k], COMPARISON_LEAST[k]);
        printf(", %lu differ\n", (unsigned long)differing[k]);
        differ += differing[k];
    }
    printf("beside: %lu differ%s\n", (unsigned long)differ, fails ? ", and something is too seldom" : "");
    return fails || differ != 0;
}
