/* The shortest honest use of Khargovsun by a server: a request is a document on standard input, the answer plain text with all matches of a
 * fixed query, three to a page. On x86-64, with the kit and any C compiler:
 *     bin/archive
 *     cc -I include examples/server.c crates/site/out/libsite.a -o server
 *     printf '<g><f>a</f><f/>a</g>' | ./server */
#include <stdio.h>
#include "khargovsun.h"

enum { ROWS = KHARGOVSUN_MAX_ROWS, PAGE = 3, WIDTH = 4, BUDGET = 100000 };

static const uint8_t NAMES[] = "g\nf\nh\na\nb\n";
static const khargovsun_bytes DICTIONARY = {NAMES, sizeof NAMES - 1};

/* The query: any context over an f with any arguments, `context 0 over f(sequence 1)`, without constraints. f is the dictionary's name 1; the word f is
 * not asked for. */
static const uint32_t KIND[] = {KHARGOVSUN_KIND_CONTEXT, KHARGOVSUN_KIND_SYMBOL, KHARGOVSUN_KIND_SEQUENCE};
static const uint32_t NAME[] = {0, KHARGOVSUN_ELEMENT(1), 1}, SIZE[] = {3, 2, 1}, FREE[] = {0, 0, 0, 0};

static uint8_t input[KHARGOVSUN_MAX_DOCUMENT_BYTES + 1]; /* one byte more than is allowed, so that a longer document is refused and not cut */
static uint32_t label[ROWS], size[ROWS], start[ROWS], length[ROWS];

/* In rows that were read a row is spelt by the document from its start on, as many bytes as its length, also where the dictionary has
 * the name: proved, `looked_up` in crates/promises/specs/Answers.antt. So no call, and no check of the dictionary, is needed for it. */
static void spell(uint32_t row) {
    printf(" %.*s", (int)length[row], (const char *)input + start[row]);
}

/* A record has two numbers a variable: the context's row and the row of its hole; the sequence's first row and its count of terms. */
static void print_match(const uint32_t *record) {
    printf("row %u:", record[1]);
    spell(record[1]);
    printf(", in");
    spell(record[0]);
    printf(", over");
    for (uint32_t row = record[2], k = 0; k < record[3]; k++, row += size[row]) spell(row);
    printf("\n");
}

static void print_page(unsigned number, khargovsun_listing page, const uint32_t *records) {
    printf("page %u, %u tries\n", number, page.tries);
    for (uint32_t k = 0; k < page.records; k++) print_match(records + k * WIDTH);
}

/* The next page is asked for by the last record alone: a server that hands out one page a request keeps that record, or lets the client keep it, and
 * nothing else. It stands apart, since the next page overwrites the list. */
static void print_pages(khargovsun_tree tree) {
    static const char *const ENDING[] = {"that is all", "there are more", "the search was cut short"};
    khargovsun_problem problem = {.tree = tree, .pattern = {.kind = KIND, .name = NAME, .size = SIZE, .rows = 3}, .constraints = {FREE, 4}};
    uint32_t records[PAGE * WIDTH], last[WIDTH], matches = 0;
    khargovsun_lent_records out = {records, PAGE * WIDTH};
    khargovsun_record after = {last, WIDTH};
    khargovsun_listing l = khargovsun_list_matchers(&problem, BUDGET, out);
    for (unsigned page = 1;; page++) {
        print_page(page, l, records);
        matches += l.records;
        if (l.ending != KHARGOVSUN_ENDING_ROOM) break;
        for (size_t k = 0; k < WIDTH; k++) last[k] = records[(l.records - 1) * WIDTH + k];
        l = khargovsun_list_matchers_after(&problem, after, BUDGET, out);
    }
    printf("%u matches on %u rows: %s\n", matches, (unsigned)tree.rows, ENDING[l.ending]);
}

int main(void) {
    khargovsun_bytes document = {input, fread(input, 1, sizeof input, stdin)};
    khargovsun_lent_rows lent = {.label = label, .size = size, .start = start, .length = length, .room = ROWS};
    khargovsun_reading read = khargovsun_read_document(DICTIONARY, document, lent);
    if (read.code != KHARGOVSUN_CODE_NONE) {
        printf("refused: code %u, place %u\n", read.code, read.place);
        return 1;
    }
    print_pages(khargovsun_tree_read(lent, read));
    return 0;
}
