/* Khargovsun for C and C++: link the archive of the crate `site`, crates/site/out/libsite.a (`bin/archive`), or see tests/c/run.
 *
 * First the numbers by name; then the eight functions that the archive has, in which every list is a pointer and then its number of
 * entries; and last structs and functions over the eight that take a tree, a pattern or a problem as one thing, so that two lists cannot
 * be exchanged unseen.
 *
 * A pointer may be null where its number of entries is 0. Lists that are written must not overlap any other list of the call.
 *
 * Every function is re-entrant: nothing is allocated, nothing is kept between calls, and the archive has no data that can be written. Threads
 * and signal handlers may call at the same time, as long as none writes a list that another call reads or writes.
 *
 * Stack, as it was measured, in bytes (bench/stack/README.md: painted, on the deepest inputs; -O3, the proved archive, x86-64): check 13,256;
 * read 35,928; list 66,912; list_after 74,960; panel 66,928; test 37,632; instance 12,240; spelling 10,440. Give a thread 128 kB, or one
 * that only checks and reads documents 64 kB.
 *
 * In a refusal the first code that applies is given, in the order that stands at the function, every other number is 0 (but the place of code
 * 3), and nothing is written. */
#ifndef KHARGOVSUN_H
#define KHARGOVSUN_H

#include <stddef.h>
#include <stdint.h>

/* ---- Limits ---- */

#define KHARGOVSUN_MAX_NAMES 1024 /* of a dictionary */
#define KHARGOVSUN_MAX_DICTIONARY_BYTES 16384
#define KHARGOVSUN_MAX_DOCUMENT_BYTES 32768
#define KHARGOVSUN_MAX_ROWS 2048 /* of a tree, also of an instance */
#define KHARGOVSUN_MAX_DEPTH 64 /* of a tree and of a pattern, the root's being 1; an instance may be deeper */
#define KHARGOVSUN_MAX_PATTERN_ROWS 256
#define KHARGOVSUN_MAX_VARIABLES 16
#define KHARGOVSUN_MAX_EXPRESSION_ROWS 64
#define KHARGOVSUN_MAX_PROBLEMS 32 /* of a panel */
#define KHARGOVSUN_LABELS 65536 /* labels and symbols are below this */

/* ---- Labels ----
 *
 * Every spelling has a number: its place in the dictionary, from 0, or the next number behind the names by first appearance in the document. The label
 * of a row, and so of a symbol in a pattern or an expression, is twice the number for an element and one more for a text. */

#define KHARGOVSUN_ELEMENT(number) (2 * (number)) /* the label of the element whose spelling has this number */
#define KHARGOVSUN_TEXT(number) (2 * (number) + 1)
#define KHARGOVSUN_NUMBER(label) ((label) / 2)
#define KHARGOVSUN_IS_TEXT(label) ((label) % 2)

/* ---- Codes ---- */

#define KHARGOVSUN_CODE_NONE 0 /* no refusal */
#define KHARGOVSUN_CODE_DICTIONARY 1
#define KHARGOVSUN_CODE_DOCUMENT_TOO_LONG 2
#define KHARGOVSUN_CODE_NOT_IN_SUBSET 3 /* the only code with a place: the first byte that no document could have there */
#define KHARGOVSUN_CODE_TOO_DEEP 4
#define KHARGOVSUN_CODE_TOO_MANY_ROWS 5
#define KHARGOVSUN_CODE_NO_ROOM_FOR_ROWS 6
#define KHARGOVSUN_CODE_TREE 11
#define KHARGOVSUN_CODE_PATTERN 12
#define KHARGOVSUN_CODE_EXPRESSION_TABLE 13
#define KHARGOVSUN_CODE_CONSTRAINT_LIST 14
#define KHARGOVSUN_CODE_RECORD 15
#define KHARGOVSUN_CODE_INSTANCE_TOO_LARGE 16
#define KHARGOVSUN_CODE_NO_ROOM_FOR_INSTANCE 17
#define KHARGOVSUN_CODE_FORGOTTEN_EXPRESSION 19 /* a table with an expression that no variable names; asked directly after 14 */
#define KHARGOVSUN_CODE_NO_MATCHER 20 /* a good record that is not a matcher's */
#define KHARGOVSUN_CODE_PANEL 21 /* the lists of a panel do not agree or do not add up */

/* ---- Endings of a listing ---- */

#define KHARGOVSUN_ENDING_ALL 0
#define KHARGOVSUN_ENDING_ROOM 1 /* a further matcher had no room */
#define KHARGOVSUN_ENDING_BUDGET 2 /* a further try had no budget */

/* ---- Kinds of a pattern's rows ---- */

#define KHARGOVSUN_KIND_SYMBOL 0
#define KHARGOVSUN_KIND_INDIVIDUAL 1
#define KHARGOVSUN_KIND_SEQUENCE 2
#define KHARGOVSUN_KIND_FUNCTION 3
#define KHARGOVSUN_KIND_CONTEXT 4

/* ---- Kinds of an expression table's rows ---- */

#define KHARGOVSUN_EXPRESSION_SYMBOL 0
#define KHARGOVSUN_EXPRESSION_EMPTY 1
#define KHARGOVSUN_EXPRESSION_CONCATENATION 2
#define KHARGOVSUN_EXPRESSION_CHOICE 3
#define KHARGOVSUN_EXPRESSION_REPETITION 4

/* ---- Sources of a spelling ---- */

#define KHARGOVSUN_SOURCE_DICTIONARY 0
#define KHARGOVSUN_SOURCE_DOCUMENT 1

#ifdef __cplusplus
extern "C" {
#endif

/* ---- The eight functions of the archive ---- */

/* Code times 4,294,967,296, plus the rows (code 0), the place (code 3) or 0 (codes 1, 2, 4 and 5). Writes nothing. Who reads the document
 * anyhow need not check it before: read gives the same codes, and 6. */
uint64_t khargovsun_check(const uint8_t *dictionary, size_t dictionary_length, const uint8_t *document, size_t document_length);

typedef struct {
    uint32_t code, place, rows;
} khargovsun_reading;

/* The document's rows, written first in the four lists; entries after them are unchanged. KHARGOVSUN_MAX_ROWS entries in each are always
 * enough. A refusal (codes 1 to 6) leaves the four lists as they were; rows is 0, and place is 0 unless the code is 3. */
khargovsun_reading khargovsun_read(const uint8_t *dictionary, size_t dictionary_length, const uint8_t *document, size_t document_length,
                                   uint32_t *label, size_t label_length, uint32_t *size, size_t size_length,
                                   uint32_t *start, size_t start_length, uint32_t *length, size_t length_length);

typedef struct {
    uint32_t code, ending, records, tries;
} khargovsun_listing;

/* The matchers' records, in order, one after another from out[0] on: two numbers for each variable. Entries after the records are
 * unchanged. A refusal (codes 11 to 14, then 19 where an expression of the table is named by no variable) leaves out as it was; ending, records and
 * tries are 0. */
khargovsun_listing khargovsun_list(const uint32_t *label, size_t label_length, const uint32_t *size, size_t size_length,
                                   const uint32_t *kind, size_t kind_length, const uint32_t *name, size_t name_length,
                                   const uint32_t *pattern_size, size_t pattern_size_length,
                                   const uint32_t *expression_kind, size_t expression_kind_length,
                                   const uint32_t *expression_name, size_t expression_name_length,
                                   const uint32_t *expression_size, size_t expression_size_length,
                                   const uint32_t *constraint, size_t constraint_length,
                                   uint32_t budget, uint32_t *out, size_t out_length);

/* The next page: the matchers that come strictly after a record, in the same order and written as khargovsun_list writes them. The record is
 * that of a matcher of the same problem, mostly the last one of the page before; the first page is khargovsun_list's. It stands in a list of its
 * own, since out must not overlap it.
 *
 * Tries count anew: the first one after the last try that led to the record is 1, and the way to the record costs none. The budget is this page's
 * own. The endings are those of a list: 0 when no matcher comes after these, 1 when one more is reached and has no room, 2 when a try is needed
 * and the budget is spent; the records are then the leading ones of what more budget would give. With room for one record at least, and
 * as long as no page ends with 2, the pages up to the first that ends with 0 are together what one khargovsun_list with room enough gives.
 *
 * A refusal (codes 11 to 14, 19, 15; then 20 for a good record that is not a matcher's, as khargovsun_test decides it) leaves out as it was;
 * ending, records and tries are 0. */
khargovsun_listing khargovsun_list_after(const uint32_t *label, size_t label_length, const uint32_t *size, size_t size_length,
                                         const uint32_t *kind, size_t kind_length, const uint32_t *name, size_t name_length,
                                         const uint32_t *pattern_size, size_t pattern_size_length,
                                         const uint32_t *expression_kind, size_t expression_kind_length,
                                         const uint32_t *expression_name, size_t expression_name_length,
                                         const uint32_t *expression_size, size_t expression_size_length,
                                         const uint32_t *constraint, size_t constraint_length,
                                         const uint32_t *record, size_t record_length,
                                         uint32_t budget, uint32_t *out, size_t out_length);

/* A panel: up to KHARGOVSUN_MAX_PROBLEMS problems over one tree, which is judged once. The problems' patterns are laid end to end in the three
 * pattern lists, their expression tables in the next three, their constraints in the next one: pattern_length[i] rows, expression_length[i]
 * rows and constraint_length[i] numbers belong to problem i. So do budget[i] and the next share[i] entries of out.
 *
 * Each problem is answered as by a khargovsun_list of its own on its part of out, also where another is refused: answer[4 * i] up to
 * answer[4 * i + 3] are its code, ending, records and tries, and its records stand from the first entry of its part on, the rest of which
 * is unchanged.
 *
 * Gives 0; or 21, before all other codes, and then neither out nor answer is written. It gives 21 exactly unless all of these hold: the last
 * five lists before out have one common number of entries, at most 32, and answer has four times as many; the pattern lengths add up to
 * the number of entries of each pattern list, the expression lengths to that of each expression list, the constraint lengths to that of the
 * constraint list, and the shares to that of out, exactly and without wrapping. Rows that are no tree are no 21 but the 11 of each answer.
 * No problem at all is answered by 0. */
uint32_t khargovsun_panel(const uint32_t *label, size_t label_length, const uint32_t *size, size_t size_length,
                          const uint32_t *kind, size_t kind_length, const uint32_t *name, size_t name_length,
                          const uint32_t *pattern_size, size_t pattern_size_length,
                          const uint32_t *expression_kind, size_t expression_kind_length,
                          const uint32_t *expression_name, size_t expression_name_length,
                          const uint32_t *expression_size, size_t expression_size_length,
                          const uint32_t *constraint, size_t constraint_list_length,
                          const uint32_t *pattern_length, size_t pattern_length_length,
                          const uint32_t *expression_length, size_t expression_length_length,
                          const uint32_t *constraint_length, size_t constraint_length_length,
                          const uint32_t *budget, size_t budget_length, const uint32_t *share, size_t share_length,
                          uint32_t *out, size_t out_length, uint32_t *answer, size_t answer_length);

typedef struct {
    uint32_t code, yes;
} khargovsun_testing;

/* Yes is 1 exactly for the record of a matcher, else 0. Writes nothing. In a refusal (codes 11 to 14, 19, 15) yes is 0. */
khargovsun_testing khargovsun_test(const uint32_t *label, size_t label_length, const uint32_t *size, size_t size_length,
                                   const uint32_t *kind, size_t kind_length, const uint32_t *name, size_t name_length,
                                   const uint32_t *pattern_size, size_t pattern_size_length,
                                   const uint32_t *expression_kind, size_t expression_kind_length,
                                   const uint32_t *expression_name, size_t expression_name_length,
                                   const uint32_t *expression_size, size_t expression_size_length,
                                   const uint32_t *constraint, size_t constraint_length,
                                   const uint32_t *record, size_t record_length);

typedef struct {
    uint32_t code, rows;
} khargovsun_making;

/* The rows of the pattern under the record, written first in the two lists; entries after them are unchanged. KHARGOVSUN_MAX_ROWS
 * entries in each are always enough. A refusal (codes 11, 12, 15, 16 and 17) leaves the two lists as they were; rows is 0. */
khargovsun_making khargovsun_instance(const uint32_t *label, size_t label_length, const uint32_t *size, size_t size_length,
                                      const uint32_t *kind, size_t kind_length, const uint32_t *name, size_t name_length,
                                      const uint32_t *pattern_size, size_t pattern_size_length,
                                      const uint32_t *record, size_t record_length,
                                      uint32_t *out_label, size_t out_label_length, uint32_t *out_size, size_t out_size_length);

typedef struct {
    uint32_t source, start, length; /* length bytes from start of the dictionary or of the document */
} khargovsun_part;

/* Where a row's spelling stands: in the dictionary, without its byte 10, if half the row's label, rounded down, is below the number of names,
 * for an element and a text alike; else the document is to answer, by the row's start and length. Any label may be given. Writes nothing. It has
 * no code: a row beyond any of the three lists or, where the document is to answer, a range outside the document gives the document's part
 * of start 0 and length 0. A bad dictionary counts as one without names.
 *
 * Each call checks the whole dictionary, since nothing is kept: the time is linear in it. Measured in one run (the older kit, Arm, -O3), names of 16 bytes
 * with their byte 10: 0.1 microseconds with 5 of them, 11 to 19 with 1,024 (the most names and bytes that there may be). For rows as
 * khargovsun_read wrote them no call is needed: whichever side answers, the bytes are those of the document from start[row] on, length[row] of
 * them (proved: `looked_up` in crates/promises/specs/Answers.antt). */
khargovsun_part khargovsun_spelling(const uint8_t *dictionary, size_t dictionary_length, const uint8_t *document, size_t document_length,
                                    const uint32_t *label, size_t label_length, const uint32_t *start, size_t start_length,
                                    const uint32_t *length, size_t length_length, size_t row);

/* ---- The same, with lists that belong together as one thing ---- */

typedef struct {
    const uint8_t *at;
    size_t length;
} khargovsun_bytes;

typedef struct {
    const uint32_t *label, *size;
    size_t rows;
} khargovsun_tree;

typedef struct {
    const uint32_t *kind, *name, *size;
    size_t rows;
} khargovsun_pattern;

/* Whole expressions one after another, possibly none. Each has to be named by a variable (19). */
typedef struct {
    const uint32_t *kind, *name, *size;
    size_t rows;
} khargovsun_expressions;

/* Two numbers for each variable: the first row of its expression plus one and the flag, or 0 and 0. */
typedef struct {
    const uint32_t *at;
    size_t length;
} khargovsun_constraints;

typedef struct {
    const uint32_t *at;
    size_t length;
} khargovsun_record;

typedef struct {
    khargovsun_tree tree;
    khargovsun_pattern pattern;
    khargovsun_expressions expressions;
    khargovsun_constraints constraints;
} khargovsun_problem;

/* Problems over one tree: the rows and numbers of all of them end to end, and for each problem how many are its own, its budget and its
 * share of the entries that the lister fills. */
typedef struct {
    khargovsun_tree tree;
    khargovsun_pattern patterns;
    khargovsun_expressions expressions;
    khargovsun_constraints constraints;
    const uint32_t *pattern_rows, *expression_rows, *constraint_numbers, *budgets, *shares;
    size_t problems;
} khargovsun_problems;

/* What the reader fills: four lists with room for so many rows each. */
typedef struct {
    uint32_t *label, *size, *start, *length;
    size_t room;
} khargovsun_lent_rows;

/* What the instance maker fills. */
typedef struct {
    uint32_t *label, *size;
    size_t room;
} khargovsun_lent_tree;

/* What the lister fills: so many entries, not records. */
typedef struct {
    uint32_t *at;
    size_t length;
} khargovsun_lent_records;

/* khargovsun_check, its number taken apart. */
static inline khargovsun_reading khargovsun_check_document(khargovsun_bytes dictionary, khargovsun_bytes document) {
    uint64_t number = khargovsun_check(dictionary.at, dictionary.length, document.at, document.length);
    uint32_t low = (uint32_t)(number & 4294967295u);
    khargovsun_reading answer;
    answer.code = (uint32_t)(number >> 32);
    answer.place = answer.code == KHARGOVSUN_CODE_NOT_IN_SUBSET ? low : 0;
    answer.rows = answer.code == KHARGOVSUN_CODE_NONE ? low : 0;
    return answer;
}

/* khargovsun_read. */
static inline khargovsun_reading khargovsun_read_document(khargovsun_bytes dictionary, khargovsun_bytes document, khargovsun_lent_rows out) {
    return khargovsun_read(dictionary.at, dictionary.length, document.at, document.length, out.label, out.room, out.size, out.room,
                           out.start, out.room, out.length, out.room);
}

/* The tree of the rows that were read. */
static inline khargovsun_tree khargovsun_tree_read(khargovsun_lent_rows lent, khargovsun_reading reading) {
    khargovsun_tree tree;
    tree.label = lent.label;
    tree.size = lent.size;
    tree.rows = reading.rows;
    return tree;
}

/* khargovsun_list. */
static inline khargovsun_listing khargovsun_list_matchers(const khargovsun_problem *p, uint32_t budget, khargovsun_lent_records out) {
    return khargovsun_list(p->tree.label, p->tree.rows, p->tree.size, p->tree.rows, p->pattern.kind, p->pattern.rows,
                           p->pattern.name, p->pattern.rows, p->pattern.size, p->pattern.rows, p->expressions.kind, p->expressions.rows,
                           p->expressions.name, p->expressions.rows, p->expressions.size, p->expressions.rows, p->constraints.at,
                           p->constraints.length, budget, out.at, out.length);
}

/* khargovsun_list_after. */
static inline khargovsun_listing khargovsun_list_matchers_after(const khargovsun_problem *p, khargovsun_record record, uint32_t budget,
                                                                khargovsun_lent_records out) {
    return khargovsun_list_after(p->tree.label, p->tree.rows, p->tree.size, p->tree.rows, p->pattern.kind, p->pattern.rows,
                                 p->pattern.name, p->pattern.rows, p->pattern.size, p->pattern.rows, p->expressions.kind, p->expressions.rows,
                                 p->expressions.name, p->expressions.rows, p->expressions.size, p->expressions.rows, p->constraints.at,
                                 p->constraints.length, record.at, record.length, budget, out.at, out.length);
}

/* khargovsun_panel: as many answers as problems are written. */
static inline uint32_t khargovsun_list_panel(const khargovsun_problems *p, khargovsun_lent_records out, khargovsun_listing *answers) {
    return khargovsun_panel(p->tree.label, p->tree.rows, p->tree.size, p->tree.rows, p->patterns.kind, p->patterns.rows,
                            p->patterns.name, p->patterns.rows, p->patterns.size, p->patterns.rows, p->expressions.kind, p->expressions.rows,
                            p->expressions.name, p->expressions.rows, p->expressions.size, p->expressions.rows, p->constraints.at,
                            p->constraints.length, p->pattern_rows, p->problems, p->expression_rows, p->problems, p->constraint_numbers,
                            p->problems, p->budgets, p->problems, p->shares, p->problems, out.at, out.length, (uint32_t *)answers,
                            4 * p->problems);
}

/* khargovsun_test. */
static inline khargovsun_testing khargovsun_test_record(const khargovsun_problem *p, khargovsun_record record) {
    return khargovsun_test(p->tree.label, p->tree.rows, p->tree.size, p->tree.rows, p->pattern.kind, p->pattern.rows,
                           p->pattern.name, p->pattern.rows, p->pattern.size, p->pattern.rows, p->expressions.kind, p->expressions.rows,
                           p->expressions.name, p->expressions.rows, p->expressions.size, p->expressions.rows, p->constraints.at,
                           p->constraints.length, record.at, record.length);
}

/* khargovsun_instance. */
static inline khargovsun_making khargovsun_make_instance(khargovsun_tree tree, khargovsun_pattern pattern, khargovsun_record record,
                                                         khargovsun_lent_tree out) {
    return khargovsun_instance(tree.label, tree.rows, tree.size, tree.rows, pattern.kind, pattern.rows, pattern.name, pattern.rows,
                               pattern.size, pattern.rows, record.at, record.length, out.label, out.room, out.size, out.room);
}

/* khargovsun_spelling, of a row of the lists that were lent to the reader; rows from `reading.rows` on are not there. */
static inline khargovsun_part khargovsun_spell_row(khargovsun_bytes dictionary, khargovsun_bytes document, khargovsun_lent_rows lent,
                                                   khargovsun_reading reading, size_t row) {
    size_t rows = reading.rows;
    return khargovsun_spelling(dictionary.at, dictionary.length, document.at, document.length, lent.label, rows, lent.start, rows,
                               lent.length, rows, row);
}

#ifdef __cplusplus
}
#endif

#endif
