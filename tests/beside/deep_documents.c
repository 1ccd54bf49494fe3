/* Documents by chance that go deeper than 64 levels and come back, again and again, so that not every open name can be kept; and the same
 * with an end name changed, or damaged otherwise. */
#include "compare.h"
#include "documents.h"

enum { DOCUMENTS = 300, DAMAGES = 6, LEVELS = 1500, ENDS = DOCUMENT_BYTES / 4 };

/* Some begin with others. */
static const char *const ELEMENTS[] = {"a", "ab", "abc", "abd", "b", "ba", ":", "a-name.of_many:bytes-and_some.more"};
enum { ALL_ELEMENTS = sizeof ELEMENTS / sizeof *ELEMENTS };

/* What may stand between two tags: white space, texts with the bytes of markup, whole elements. */
static const char *const BETWEEN[] = {" ", "\n\t", ">", "]", "]] >", "x/>", "<a/>", "<ab />", "<b\n/>", "<ab\n></ab\t>", "<a>></a>", "<a><b/>]</a>"};
enum { ALL_BETWEEN = sizeof BETWEEN / sizeof *BETWEEN, LONGEST_BETWEEN = 12 };

/* What an end tag takes beside its name: three bytes, one of white space, and what stands behind it. */
enum { END_TAG = 3 + 1 + LONGEST_BETWEEN };

typedef struct walk {
    chance *chance;
    bytes *out;
    size_t depth, deepest, owed; /* how many elements are open, at most were, and how many bytes their end tags will take at most */
    const char *open[LEVELS];
    size_t ends, end[ENDS]; /* where the names of the end tags stand */
    uint32_t busy;          /* one tag in so many has something behind it */
} walk;

static size_t long_of(const char *text) {
    size_t n = 0;
    while (text[n] != 0) n++;
    return n;
}

static void put_space(walk *w) {
    if (one_in(w->chance, 9)) append_byte(w->out, " \t\n"[draw(w->chance, 3)]);
}

static void put_between(walk *w) {
    if (w->depth > 0 && one_in(w->chance, w->busy)) append(w->out, BETWEEN[draw(w->chance, ALL_BETWEEN)]);
}

static void go_down(walk *w) {
    const char *name = ELEMENTS[draw(w->chance, ALL_ELEMENTS)];
    w->open[w->depth++] = name;
    if (w->depth > w->deepest) w->deepest = w->depth;
    w->owed += long_of(name) + END_TAG;
    append_byte(w->out, '<');
    append(w->out, name);
    put_space(w);
    append_byte(w->out, '>');
    put_between(w);
}

static void go_up(walk *w) {
    const char *name = w->open[--w->depth];
    w->owed -= long_of(name) + END_TAG;
    append(w->out, "</");
    w->end[w->ends++] = w->out->n;
    append(w->out, name);
    put_space(w);
    append_byte(w->out, '>');
    put_between(w);
}

static bool has_room(const walk *w, size_t size) {
    return w->out->n + w->owed + 64 < size;
}

/* Down by some levels, mostly past the 64th, and up again by some, mostly not to the root. */
static void make_deep(walk *w, size_t size) {
    go_down(w);
    while (has_room(w, size)) {
        size_t to = w->depth + between(w->chance, 1, one_in(w->chance, 8) ? LEVELS : 140);
        while (w->depth < to && w->depth < LEVELS && has_room(w, size)) go_down(w);
        to = one_in(w->chance, 4) ? 1 : w->depth - draw(w->chance, w->depth);
        while (w->depth > to) go_up(w);
    }
    while (w->depth > 0) go_up(w);
}

/* One byte of one end name becomes another letter. */
static void change_end(walk *w, bytes *document) {
    size_t place = w->end[draw(w->chance, w->ends)];
    document->at[place] = document->at[place] == 'a' ? 'b' : 'a';
}

void compare_deep_documents(chance *chance) {
    static const bytes none;
    static bytes document, damaged;
    static walk walk;
    for (uint32_t number = 0; number < DOCUMENTS; number++) {
        set_case("deep document", number, NULL);
        walk = (struct walk){.chance = chance, .out = &document, .busy = between(chance, 1, 12)};
        document.n = 0;
        make_deep(&walk, between(chance, 2000, DOCUMENT_BYTES));
        count(DEEP_DOCUMENTS, walk.deepest > DEPTH);
        compare_both(chance, &none, &document);
        for (size_t k = 0; k < DAMAGES; k++) {
            damaged = document;
            if (k % 2 == 0) change_end(&walk, &damaged);
            else damage_bytes(chance, &damaged);
            compare_both(chance, &none, &damaged);
        }
    }
}
