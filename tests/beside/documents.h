/* What the rules say of a dictionary and a document, decided with no code but that of this folder. */
#ifndef DOCUMENTS_H
#define DOCUMENTS_H

#include "make.h"
#include "rules.h"

/* Longer than any rule allows, by this much. */
enum { BYTES = DOCUMENT_BYTES + 64 };

typedef struct {
    size_t n;
    uint8_t at[BYTES];
} bytes;

void append_byte(bytes *to, uint8_t byte);
void append(bytes *to, const char *text);

/* What a document is read as. The lists hold only as many rows as they can. */
typedef struct {
    uint32_t code; /* of 1 to 5 */
    size_t place;  /* for code 3 */
    size_t rows;
    list label, size, start, length;
    bool text[ENTRIES]; /* is the row a text? */
} reading;

/* ---- Deciding ---- */

/* Is the document in the subset? Fills rows, size, start, length and text, or place, and the depth of the deepest row. */
bool in_subset(const bytes *document, reading *out, size_t *deepest);

bool good_dictionary(const bytes *dictionary);

/* Numbers by the dictionary, then by first appearance; a label is twice the number, and one more for a text. */
void put_labels(const bytes *dictionary, const bytes *document, reading *out);

/* The whole of it: the lowest code of 1 to 5, or what is read. */
void decide_reading(const bytes *dictionary, const bytes *document, reading *out);

typedef struct {
    uint32_t source, start, length;
} part;

/* Where the spelling of a row stands; the three lists may be of any lengths. */
part decide_spelling(const bytes *dictionary, const bytes *document, const reading *lists, size_t row);

/* ---- Making ---- */

/* Writes a tree as a document, with white space and spellings by chance. Fills rows, size, start, length and text as they are to be
 * read. */
void write_document(chance *chance, const tree *tree, bytes *out, reading *written);

/* Some of the spellings of the writer, and others. */
void make_dictionary(chance *chance, bytes *out);

/* Changes, adds or drops some bytes. */
void damage_bytes(chance *chance, bytes *bytes);

/* ---- Comparing ---- */

/* The check, the reader and the spelling lookup on one dictionary and one document. */
void compare_both(chance *chance, const bytes *dictionary, const bytes *document);

#endif
