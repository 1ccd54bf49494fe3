/* The rules' own documents, and documents and dictionaries at the limits and one beyond. */
#include "compare.h"
#include "documents.h"

static void repeat(bytes *to, const char *text, size_t times) {
    for (size_t k = 0; k < times; k++) append(to, text);
}

/* An element of this depth inside of others, and what stands in it. */
static void nest(bytes *to, size_t depth, const char *inside) {
    to->n = 0;
    repeat(to, "<a>", depth);
    append(to, inside);
    repeat(to, "</a>", depth);
}

static void compare_depths(chance *chance, const bytes *dictionary, bytes *document) {
    static const char *const INSIDE[] = {"", " ", "b", "<b/>", "<b></b>"};
    for (size_t depth = DEPTH - 2; depth <= DEPTH + 2; depth++)
        for (size_t k = 0; k < sizeof INSIDE / sizeof *INSIDE; k++) {
            nest(document, depth, INSIDE[k]);
            compare_both(chance, dictionary, document);
            append_byte(document, '<');
            compare_both(chance, dictionary, document);
        }
}

/* Rows side by side: elements of both forms, and elements between texts; ended, or cut off in a tag. */
static void compare_rows(chance *chance, const bytes *dictionary, bytes *document) {
    static const char *const ROWS[] = {"<a/>", "<a></a>", "<a/> x"};
    for (size_t rows = TREE_ROWS - 1; rows <= TREE_ROWS + 2; rows++)
        for (size_t form = 0; form < 3; form++) {
            size_t each = form == 2 ? 2 : 1;
            document->n = 0;
            append(document, "<b>");
            repeat(document, ROWS[form], (rows - 1) / each);
            if ((rows - 1) % each != 0) append(document, "<a/>");
            append(document, "</b>");
            compare_both(chance, dictionary, document);
            document->at[document->n - 1] = '<';
            compare_both(chance, dictionary, document);
        }
}

/* Too many rows, and white space in as many open elements as may be: it is no row, so that the document is not too deep. */
static void compare_blank(chance *chance, const bytes *dictionary, bytes *document) {
    document->n = 0;
    append(document, "<b>");
    repeat(document, "<a/>", TREE_ROWS);
    repeat(document, "<a>", DEPTH - 1);
    append(document, " ");
    repeat(document, "</a>", DEPTH - 1);
    append(document, "</b>");
    compare_both(chance, dictionary, document);
}

static void compare_lengths(chance *chance, const bytes *dictionary, bytes *document) {
    for (size_t length = DOCUMENT_BYTES - 1; length <= DOCUMENT_BYTES + 2; length++)
        for (size_t last = 0; last < 3; last++) {
            document->n = 0;
            append(document, last == 2 ? "<a>b" : "<a/>");
            repeat(document, " ", length - document->n - 4);
            append(document, last == 0 ? "   <" : last == 1 ? "    " : "</a>");
            compare_both(chance, dictionary, document);
        }
}

/* A name of three letters for each number. */
static void append_name(bytes *to, size_t number) {
    append_byte(to, 'a' + number % 16);
    append_byte(to, 'A' + number / 16 % 16);
    append_byte(to, 'a' + number / 256);
}

/* A dictionary of so many names of three letters, the last filled up to a length. */
static void fill_dictionary(bytes *to, size_t names, size_t length) {
    to->n = 0;
    for (size_t k = 0; k < names; k++) {
        append_name(to, k);
        if (k + 1 == names) while (to->n + 1 < length) append_byte(to, 'z');
        append_byte(to, 10);
    }
}

/* So many names in all, of which the first ones stand in the dictionary too and the last are the first again. */
static void compare_many_names(chance *chance, size_t names, size_t rows, size_t different) {
    static bytes dictionary, document;
    fill_dictionary(&dictionary, names, 0);
    document.n = 0;
    append(&document, "<b>");
    for (size_t k = 1; k < rows; k++) {
        append_byte(&document, '<');
        append_name(&document, (NAMES / 2 + k) % different);
        append(&document, "/>");
    }
    append(&document, "</b>");
    compare_both(chance, &dictionary, &document);
}

static void compare_dictionaries(chance *chance, bytes *dictionary, bytes *document) {
    document->n = 0;
    append(document, "<aAa><pPd/>new<pPc/></aAa>");
    for (size_t length = DICTIONARY_BYTES - 1; length <= DICTIONARY_BYTES + 1; length++) {
        for (size_t names = NAMES - 1; names <= NAMES + 1; names++) {
            fill_dictionary(dictionary, names, length);
            compare_both(chance, dictionary, document);
        }
        fill_dictionary(dictionary, NAMES / 2, length);
        compare_both(chance, dictionary, document);
    }
}

static void compare_examples(chance *chance, bytes *dictionary, bytes *document) {
    static const char *const EXAMPLES[] = {
        "<g><f>a</f><f/>a</g>", "<g>", "<g></f>", "<g></gh>", "<g/><g/>", "<g>]]></g>", "", "<q/>", "<q>q</q>", "<g>q<q/></g>", "<g>z<z/>y</g>",
    };
    dictionary->n = 0;
    append(dictionary, "g\nf\nh\na\nb\n");
    for (size_t k = 0; k < sizeof EXAMPLES / sizeof *EXAMPLES; k++) {
        document->n = 0;
        append(document, EXAMPLES[k]);
        compare_both(chance, dictionary, document);
    }
}

void compare_document_limits(chance *chance) {
    static bytes dictionary, document;
    set_case("document at a limit", 0, NULL);
    compare_examples(chance, &dictionary, &document);
    compare_depths(chance, &dictionary, &document);
    compare_rows(chance, &dictionary, &document);
    compare_blank(chance, &dictionary, &document);
    compare_lengths(chance, &dictionary, &document);
    compare_dictionaries(chance, &dictionary, &document);
    compare_many_names(chance, 0, TREE_ROWS, TREE_ROWS / 2);
    compare_many_names(chance, NAMES / 2, TREE_ROWS, TREE_ROWS);
    compare_many_names(chance, NAMES, TREE_ROWS, 2 * TREE_ROWS);
}
