/* The functions under test, called with a problem. The header of the project is the only thing of it that is used. */
#ifndef CALLS_H
#define CALLS_H

#include "khargovsun.h"
#include "rules.h"

/* The pointer of an empty list may be null, so it is. */
static inline const uint32_t *entries(const list *list) {
    return list->n == 0 ? NULL : list->at;
}

#define GIVEN(list) entries(&(list)), (list).n
#define TREE(p) GIVEN((p)->tree.label), GIVEN((p)->tree.size)
#define PATTERN(p) GIVEN((p)->pattern.kind), GIVEN((p)->pattern.name), GIVEN((p)->pattern.size)
#define EXPRESSION(p) GIVEN((p)->expression.kind), GIVEN((p)->expression.name), GIVEN((p)->expression.size)

static inline khargovsun_listing call_list(const problem *p, uint32_t budget, uint32_t *out, size_t n) {
    return khargovsun_list(TREE(p), PATTERN(p), EXPRESSION(p), GIVEN(p->constraint), budget, out, n);
}

static inline khargovsun_listing call_list_after(const problem *p, const list *record, uint32_t budget, uint32_t *out, size_t n) {
    return khargovsun_list_after(TREE(p), PATTERN(p), EXPRESSION(p), GIVEN(p->constraint), GIVEN(*record), budget, out, n);
}

static inline uint32_t call_panel(const panel *p, uint32_t *out, uint32_t *answer) {
    return khargovsun_panel(TREE(p), PATTERN(p), EXPRESSION(p), GIVEN(p->constraint), GIVEN(p->pattern_length), GIVEN(p->expression_length),
                            GIVEN(p->constraint_length), GIVEN(p->budget), GIVEN(p->share), p->out == 0 ? NULL : out, p->out,
                            p->answer == 0 ? NULL : answer, p->answer);
}

static inline khargovsun_testing call_test(const problem *p, const list *record) {
    return khargovsun_test(TREE(p), PATTERN(p), EXPRESSION(p), GIVEN(p->constraint), GIVEN(*record));
}

static inline khargovsun_making call_instance(const problem *p, const list *record, uint32_t *label, size_t labels, uint32_t *size,
                                              size_t sizes) {
    return khargovsun_instance(TREE(p), PATTERN(p), GIVEN(*record), label, labels, size, sizes);
}

#endif
