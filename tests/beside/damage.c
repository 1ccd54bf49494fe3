/* Damage to the lists of a problem and a record. */
#include "make.h"

enum { LISTS = 10 };

static list *list_of(problem *problem, list *record, size_t which) {
    list *lists[LISTS] = {
        &problem->tree.label,       &problem->tree.size,        &problem->pattern.kind,  &problem->pattern.name,
        &problem->pattern.size,     &problem->expression.kind,  &problem->expression.name,
        &problem->expression.size,  &problem->constraint,       record,
    };
    return lists[which];
}

/* A number near the one that stood there, or one at the border of a rule. */
static uint32_t other_number(chance *chance, uint32_t number) {
    static const uint32_t BORDERS[] = {0, 1, 2, 3, 4, 5, LABELS - 1, LABELS, 4294967295u};
    switch (draw(chance, 4)) {
    case 0:
        return number + 1;
    case 1:
        return number - 1;
    default:
        return BORDERS[draw(chance, sizeof BORDERS / sizeof *BORDERS)];
    }
}

void damage(chance *chance, problem *problem, list *record) {
    list *list = list_of(problem, record, draw(chance, LISTS));
    if (one_in(chance, 8) && list->n < ENTRIES) list->at[list->n++] = draw(chance, 2);
    else if (list->n == 0) return;
    else if (one_in(chance, 8)) list->n--;
    else {
        size_t place = draw(chance, list->n);
        list->at[place] = other_number(chance, list->at[place]);
    }
}
