/* The exports of an archive that is compiled without proof (bin/compile): there Rattle's own functions stand, under the names unproved_NAME. They
 * take what C's take, in the same order, but write an answer of three or four numbers where their first argument points, and give one of two
 * numbers in two registers. The proved archive has the exports themselves, and this file has no part in it. */
#include "khargovsun.h"

#define LIST(type, name) type *name, size_t name##_length
#define READ(name) LIST(const uint32_t, name)
#define WRITTEN(name) LIST(uint32_t, name)
#define BYTES(name) LIST(const uint8_t, name)
#define PASS(name) name, name##_length

#define TREE READ(label), READ(size)
#define PATTERN READ(kind), READ(name), READ(pattern_size)
#define PROBLEM TREE, PATTERN, READ(expression_kind), READ(expression_name), READ(expression_size), READ(constraint)
#define PASS_TREE PASS(label), PASS(size)
#define PASS_PATTERN PASS(kind), PASS(name), PASS(pattern_size)
#define PASS_PROBLEM PASS_TREE, PASS_PATTERN, PASS(expression_kind), PASS(expression_name), PASS(expression_size), PASS(constraint)

/* Only the lower half of each is set. */
typedef struct {
    uint64_t first, second;
} two;

uint64_t unproved_check(BYTES(dictionary), BYTES(document));
void unproved_read(khargovsun_reading *answer, BYTES(dictionary), BYTES(document), WRITTEN(label), WRITTEN(size), WRITTEN(start), WRITTEN(length));
void unproved_list(khargovsun_listing *answer, PROBLEM, uint32_t budget, WRITTEN(out));
void unproved_list_after(khargovsun_listing *answer, PROBLEM, READ(record), uint32_t budget, WRITTEN(out));
uint32_t unproved_panel(PROBLEM, READ(patterns), READ(expressions), READ(constraints), READ(budget), READ(share), WRITTEN(out), WRITTEN(answer));
two unproved_test(PROBLEM, READ(record));
two unproved_instance(TREE, PATTERN, READ(record), WRITTEN(out_label), WRITTEN(out_size));
void unproved_spelling(khargovsun_part *answer, BYTES(dictionary), BYTES(document), READ(label), READ(start), READ(length), size_t row);

uint64_t khargovsun_check(BYTES(dictionary), BYTES(document)) {
    return unproved_check(PASS(dictionary), PASS(document));
}

khargovsun_reading khargovsun_read(BYTES(dictionary), BYTES(document), WRITTEN(label), WRITTEN(size), WRITTEN(start), WRITTEN(length)) {
    khargovsun_reading answer;
    unproved_read(&answer, PASS(dictionary), PASS(document), PASS(label), PASS(size), PASS(start), PASS(length));
    return answer;
}

khargovsun_listing khargovsun_list(PROBLEM, uint32_t budget, WRITTEN(out)) {
    khargovsun_listing answer;
    unproved_list(&answer, PASS_PROBLEM, budget, PASS(out));
    return answer;
}

khargovsun_listing khargovsun_list_after(PROBLEM, READ(record), uint32_t budget, WRITTEN(out)) {
    khargovsun_listing answer;
    unproved_list_after(&answer, PASS_PROBLEM, PASS(record), budget, PASS(out));
    return answer;
}

uint32_t khargovsun_panel(PROBLEM, READ(patterns), READ(expressions), READ(constraints), READ(budget), READ(share), WRITTEN(out), WRITTEN(answer)) {
    return unproved_panel(PASS_PROBLEM, PASS(patterns), PASS(expressions), PASS(constraints), PASS(budget), PASS(share), PASS(out), PASS(answer));
}

khargovsun_testing khargovsun_test(PROBLEM, READ(record)) {
    two answer = unproved_test(PASS_PROBLEM, PASS(record));
    return (khargovsun_testing){(uint32_t)answer.first, (uint32_t)answer.second};
}

khargovsun_making khargovsun_instance(TREE, PATTERN, READ(record), WRITTEN(out_label), WRITTEN(out_size)) {
    two answer = unproved_instance(PASS_TREE, PASS_PATTERN, PASS(record), PASS(out_label), PASS(out_size));
    return (khargovsun_making){(uint32_t)answer.first, (uint32_t)answer.second};
}

khargovsun_part khargovsun_spelling(BYTES(dictionary), BYTES(document), READ(label), READ(start), READ(length), size_t row) {
    khargovsun_part answer;
    unproved_spelling(&answer, PASS(dictionary), PASS(document), PASS(label), PASS(start), PASS(length), row);
    return answer;
}
