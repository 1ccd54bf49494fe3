/* Patterns by chance. */
#include "make.h"

typedef struct {
    chance *chance;
    const group *group;
    alphabet alphabet;
    rows *out;
    size_t wanted;
    uint32_t favourite; /* half of the rows get this kind where it can stand */
    size_t variables;
    uint32_t kinds[VARIABLES];
} maker;

/* A variable of this kind, half of the time one that stands already; VARIABLES where there is none left. */
static uint32_t variable(maker *m, uint32_t kind) {
    bool again = one_in(m->chance, 2) || m->variables == m->group->variables;
    uint32_t turn = draw(m->chance, VARIABLES);
    for (uint32_t k = 0; again && k < m->variables; k++) {
        uint32_t v = (turn + k) % m->variables;
        if (m->kinds[v] == kind) return v;
    }
    if (m->variables == m->group->variables) return VARIABLES;
    m->kinds[m->variables] = kind;
    return m->variables++;
}

static uint32_t any_kind(maker *m) {
    static const uint32_t OFTEN[] = {SYMBOL, SYMBOL, SYMBOL, INDIVIDUAL, SEQUENCE, SEQUENCE, FUNCTION, CONTEXT, CONTEXT};
    if (one_in(m->chance, 2)) return m->favourite;
    return OFTEN[draw(m->chance, sizeof OFTEN / sizeof *OFTEN)];
}

/* A sequence variable stands only in a list of arguments, a context variable needs a row for its argument, and the root is seldom an
 * individual variable. */
static uint32_t fitting_kind(maker *m, bool in_list) {
    size_t row = m->out->kind.n;
    uint32_t kind = any_kind(m);
    if (kind == SEQUENCE && !in_list) kind = one_in(m->chance, 2) ? SYMBOL : FUNCTION;
    if (kind == CONTEXT && row + 1 >= m->wanted) kind = INDIVIDUAL;
    if (kind == INDIVIDUAL && row == 0 && !one_in(m->chance, 16)) kind = FUNCTION;
    return kind;
}

static size_t put_row(maker *m, uint32_t kind) {
    rows *out = m->out;
    size_t row = out->kind.n;
    uint32_t name = kind == SYMBOL ? VARIABLES : variable(m, kind);
    out->kind.at[row] = name == VARIABLES ? SYMBOL : kind;
    out->name.at[row] = name == VARIABLES ? m->alphabet.first + draw(m->chance, m->alphabet.many) : name;
    out->kind.n = out->name.n = out->size.n = row + 1;
    return row;
}

static void put_term(maker *m, bool in_list) {
    rows *out = m->out;
    size_t row = put_row(m, fitting_kind(m, in_list));
    uint32_t kind = out->kind.at[row];
    if (kind == CONTEXT) put_term(m, false);
    while ((kind == SYMBOL || kind == FUNCTION) && out->kind.n < m->wanted && (row == 0 || !one_in(m->chance, 3))) put_term(m, true);
    out->size.at[row] = out->kind.n - row;
}

void make_pattern(chance *chance, const group *group, alphabet alphabet, rows *out) {
    uint32_t favourite = group->favourite == KINDS ? draw(chance, KINDS) : group->favourite;
    maker m = {chance, group, alphabet, out, between(chance, 1, group->pattern_rows), favourite, 0, {0}};
    out->kind.n = 0;
    put_term(&m, false);
}
