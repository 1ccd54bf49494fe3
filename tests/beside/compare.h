/* The functions under test held to what was decided. */
#ifndef COMPARE_H
#define COMPARE_H

#include "decide.h"
#include "make.h"
#include "tally.h"

/* The test and the instance maker on one record of a problem that has this code, and now and then the code of its page. Is the record a
 * matcher's? */
bool compare_record(chance *chance, const problem *problem, uint32_t code, const list *record, enum comparison test,
                    enum comparison making);

/* All candidate records of a problem, if they are not too many: our list by candidates, the test and the instance maker. */
void compare_candidates(chance *chance, const problem *problem, const listing *all);

/* The instance maker on the records of the list, with every room. */
void compare_rooms(const problem *problem, const list *record);

/* The lister with every room and budget. */
void compare_lists(chance *chance, const problem *problem, const listing *all);

enum { OUT = MOST_RECORDS * 2 * VARIABLES + 64, DAMAGED_ROOM = 64 };
#define UNLIMITED 4294967295u

/* Are these the records of the list from one on? */
bool are_records(const uint32_t *out, const listing *all, size_t first, size_t records, size_t numbers);

/* What a list or a page is answered with this room and budget. */
typedef struct {
    uint32_t ending;
    size_t records, tries;
} answer;

answer expected(const page *page, size_t room, uint32_t budget);

/* One call with a lent list of this length: the lister's, if there is no record, or else its page after the record. */
void compare_page(const problem *problem, const page *page, const list *record, size_t length, uint32_t budget, enum comparison what);

/* The same, where it is refused. */
void compare_refused(const problem *problem, const list *record, uint32_t code, enum comparison what);

/* Pages after every record of the list, and all pages joined. */
void compare_pages(const problem *problem, const listing *all);

/* The code of a page after a record, if it is no matcher's, of a problem that has this code. */
void compare_page_code(const problem *problem, uint32_t code, const list *record, enum comparison what);

/* A panel that begins with the problem, and the same with its lists altered in each way. */
void compare_panels(chance *chance, const group *group, uint32_t number, const problem *first);

/* The lister and, with one record, its page, the test and the instance maker on a problem that may be bad. */
void compare_damaged(chance *chance, const problem *problem, const list *record);

/* The same on the problem with an expression that no variable names, or with one variable tied to another expression or to none. */
void compare_forgotten(chance *chance, const problem *whole);

/* The smallest and the largest of everything that has a limit. */
void compare_limits(chance *chance);

/* Documents: written and read back, damaged, at the limits, and deep. */
void compare_documents(chance *chance, const tree *tree, uint32_t number);
void compare_document_limits(chance *chance);
void compare_deep_documents(chance *chance);

#endif
