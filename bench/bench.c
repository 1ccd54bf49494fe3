// Times khargovsun_check and khargovsun_read beside expat, pugixml and rapidxml, in one process, on generated documents. README.md says
// what is measured.
#include <expat.h>
#include <stdarg.h>
#include <stdint.h>
#include <stdio.h>
#include <stdlib.h>
#include <string.h>
#include <time.h>

#include "../include/khargovsun.h"

enum { TARGET = 26000, LIMIT = 32768, ROWS = 2048, DEEPEST = 60, ROUNDS = 20, TURNS = 21 };

// Who reads. What is not on the machine is left out.
enum { CHECK, READ, EXPAT, PUGIXML, RAPIDXML, SIDES };

static const char *const SIDE[] = {"check", "read", "expat", "pugixml", "rapidxml"};

// peers.cc: 1 accepted, 0 refused, -1 not on this machine
int peers_pugixml(const char *bytes, size_t length);
int peers_rapidxml(const char *bytes, size_t length);

// The names that a site with blocks would know. The check looks at them in every call, so they are part of its time.
static const char DICTIONARY[] =
    "project\nscript\nblock\ntype\nfield\nvalue\nnext\nstatement\nmutation\ncomment\nvariable\nvariables\nsprite\nstage\n"
    "costume\nsound\nlist\nitem\nname\nid\nx\ny\nrepeat\nforever\nif\nelse\nmove\nturn\nsay\nthink\nwait\nbroadcast\n"
    "receive\noperator\nadd\nsubtract\nmultiply\ndivide\nrandom\nless\nequal\ngreater\nand\nor\nnot\njoin\nletter\nlength\n";

static void fail(const char *document, const char *why) {
    fprintf(stderr, "bench: %s: %s\n", document, why);
    exit(1);
}

// ---- Writing documents ----

struct doc {
    const char *name;
    size_t length;
    uint32_t random;
    int depth;
    struct { size_t at; int length; } open[64]; // where the names of the open elements stand
    char bytes[LIMIT];
    size_t target;
    uint32_t rows;
    double turns[SIDES][TURNS]; // seconds of each turn of this round
    double best[SIDES];         // seconds of the best round so far
};

// A fixed generator and fixed seeds: every machine measures the same documents. So no call draws twice, since C leaves open which of its
// arguments is worked out first.
static unsigned any(struct doc *d, unsigned below) {
    d->random ^= d->random << 13;
    d->random ^= d->random >> 17;
    d->random ^= d->random << 5;
    return d->random % below;
}

static int more(const struct doc *d) { return d->length < d->target; }

__attribute__((format(printf, 2, 3)))
static void put(struct doc *d, const char *format, ...) {
    size_t room = LIMIT - d->length;
    va_list rest;
    va_start(rest, format);
    int n = vsnprintf(d->bytes + d->length, room, format, rest);
    va_end(rest);
    if (n < 0 || (size_t)n >= room) fail(d->name, "over 32,768 bytes: a fault in bench.c");
    d->length += (size_t)n;
}

static void fill(struct doc *d, int byte, int count) {
    while (count-- > 0) put(d, "%c", byte);
}

static void open_tag(struct doc *d, const char *name) {
    d->open[d->depth].at = d->length + 1;
    d->open[d->depth].length = (int)strlen(name);
    d->depth++;
    put(d, "<%s>", name);
}

static void close_tag(struct doc *d) {
    d->depth--;
    put(d, "</%.*s>", d->open[d->depth].length, d->bytes + d->open[d->depth].at);
}

static void close_all(struct doc *d) {
    while (d->depth > 0) close_tag(d);
}

static void leaf(struct doc *d, const char *name, const char *text) {
    put(d, "<%s>%s</%s>", name, text, name);
}

static void indent(struct doc *d) {
    put(d, "\n");
    fill(d, ' ', 2 * d->depth);
}

static void prose(struct doc *d, int words) {
    static const char *const WORD[] = {"the", "matcher", "of", "a", "tree", "goes", "from", "left", "to", "right,",
                                       "and", "every", "sequence", "is", "tried", "once;", "nothing", "was", "guessed."};
    while (words-- > 0) put(d, "%s ", WORD[any(d, sizeof WORD / sizeof *WORD)]);
}

static void prose_in(struct doc *d, const char *name, int words) {
    put(d, "<%s>", name);
    prose(d, words);
    put(d, "</%s>", name);
}

// ---- The shapes. 2,048 rows on 26 kB means at least 13 bytes a row, hence no document of `<a/>` only. ----

static void flat_short_text(struct doc *d) {
    open_tag(d, "list");
    while (more(d)) put(d, "<list-of-item>%c</list-of-item>", 'a' + any(d, 26));
    close_all(d);
}

static void flat_medium_text(struct doc *d) {
    open_tag(d, "list");
    while (more(d)) prose_in(d, "item", 4);
    close_all(d);
}

static void long_text(struct doc *d) {
    open_tag(d, "book");
    while (more(d)) prose_in(d, "p", 150);
    close_all(d);
}

static void one_text(struct doc *d) {
    open_tag(d, "text");
    while (more(d)) prose(d, 10);
    close_all(d);
}

static void text_in_lines(struct doc *d) {
    open_tag(d, "text");
    while (more(d)) {
        prose(d, 12);
        put(d, "\n");
    }
    close_all(d);
}

// Brackets and `>` in text: both sides have to watch for `]]>`.
static void brackets(struct doc *d) {
    open_tag(d, "code");
    while (more(d)) {
        unsigned second = any(d, 10), first = any(d, 1000);
        put(d, "<line>a[b[%u]] > c[%u] ] ></line>", first, second);
    }
    close_all(d);
}

static void numbers(struct doc *d) {
    open_tag(d, "table");
    while (more(d)) {
        open_tag(d, "row");
        for (int k = 0; k < 6; k++) {
            unsigned part = any(d, 100), whole = any(d, 1000000);
            put(d, "<quantity>%u.%02u</quantity>", whole, part);
        }
        close_tag(d);
    }
    close_all(d);
}

static void deep_chains(struct doc *d) {
    open_tag(d, "root");
    while (more(d)) {
        while (d->depth < DEEPEST) open_tag(d, "level");
        while (d->depth > 1) close_tag(d);
    }
    close_all(d);
}

static void deep_with_text(struct doc *d) {
    open_tag(d, "root");
    while (more(d)) {
        while (d->depth < DEEPEST - 1) {
            open_tag(d, "statement");
            prose(d, 2);
        }
        while (d->depth > 1) close_tag(d);
    }
    close_all(d);
}

static void up_and_down(struct doc *d) {
    static const char *const NAME[] = {"statement", "repeat", "forever", "operator", "variable"};
    open_tag(d, "script");
    while (more(d)) {
        if (d->depth < DEEPEST && (d->depth < 2 || any(d, 2))) open_tag(d, NAME[any(d, 5)]);
        else close_tag(d);
    }
    close_all(d);
}

static void two_branches(struct doc *d, int levels) {
    static const char *const SIDE[] = {"left-side", "right-side"};
    if (levels == 0) return;
    for (int k = 0; k < 2 && more(d); k++) {
        open_tag(d, SIDE[k]);
        two_branches(d, levels - 1);
        close_tag(d);
    }
}

static void binary_tree(struct doc *d) {
    open_tag(d, "tree");
    while (more(d)) two_branches(d, 9);
    close_all(d);
}

static void many_names(struct doc *d) {
    open_tag(d, "names");
    for (int k = 0; more(d); k++) put(d, "<name%04d></name%04d>", k * 7919 % 10000, k * 7919 % 10000);
    close_all(d);
}

static void named_by_size(struct doc *d, int shortest, int spread) {
    char name[2048];
    open_tag(d, "names");
    while (more(d)) {
        int size = shortest + (int)any(d, (unsigned)spread);
        for (int k = 0; k < size; k++) name[k] = (char)('a' + any(d, 26));
        name[size] = 0;
        leaf(d, name, "long");
    }
    close_all(d);
}

static void long_names(struct doc *d) { named_by_size(d, 40, 40); }

static void very_long_names(struct doc *d) { named_by_size(d, 800, 400); }

static void names_with_marks(struct doc *d) {
    open_tag(d, "x:names");
    while (more(d)) {
        unsigned second = any(d, 100000), first = any(d, 100000);
        put(d, "<x:_%u.a-%u/>", first, second);
    }
    close_all(d);
}

// Each name is the one around it and one more letter, so that an end name agrees up to its last byte.
static void prefix_names(struct doc *d) {
    char name[64];
    open_tag(d, "n");
    while (more(d)) {
        for (int k = 2; k <= 30; k++) {
            memset(name, 'n', (size_t)k);
            name[k] = 0;
            open_tag(d, name);
        }
        while (d->depth > 1) close_tag(d);
    }
    close_all(d);
}

static void white_between(struct doc *d) {
    open_tag(d, "list");
    while (more(d)) {
        put(d, "\n\t\t  ");
        fill(d, ' ', (int)any(d, 20));
        put(d, "<item>\n\t</item>");
    }
    close_all(d);
}

static void much_white(struct doc *d) {
    open_tag(d, "list");
    while (more(d)) {
        fill(d, ' ', 300);
        put(d, "\n<item/>");
    }
    close_all(d);
}

static void white_in_tags(struct doc *d) {
    open_tag(d, "list");
    while (more(d)) put(d, "<variable \n\t>%u</variable   ><separator  />", any(d, 1000));
    close_all(d);
}

static void empty_tags(struct doc *d) {
    static const char *const NAME[] = {"placeholder", "horizontal-line", "page-break", "separator-1"};
    open_tag(d, "page");
    while (more(d)) put(d, "<%s/>", NAME[any(d, 4)]);
    close_all(d);
}

static void empty_tags_white(struct doc *d) {
    open_tag(d, "page");
    while (more(d)) {
        indent(d);
        put(d, "    <line-break />");
    }
    close_all(d);
}

static void mixed_text(struct doc *d) {
    open_tag(d, "page");
    while (more(d)) {
        put(d, "<p>");
        for (int k = 0; k < 5; k++) {
            prose(d, 7);
            leaf(d, any(d, 2) ? "em" : "strong", "so it is");
        }
        put(d, "</p>\n");
    }
    close_all(d);
}

// A block as block editors store it, without attributes; `lines` says whether it is written one tag a line.
static void block(struct doc *d, int lines, int levels) {
    static const char *const TYPE[] = {"control_repeat", "motion_move", "looks_say", "data_set", "operator_add"};
    open_tag(d, "block");
    if (lines) indent(d);
    leaf(d, "type", TYPE[any(d, 5)]);
    if (lines) indent(d);
    unsigned value = any(d, 10000), name = any(d, 9);
    put(d, "<field><name>NUMBER_OF_STEPS_%u</name><value>%u</value></field>", name, value);
    if (levels > 0 && more(d)) {
        if (lines) indent(d);
        open_tag(d, any(d, 2) ? "statement" : "next");
        if (lines) indent(d);
        block(d, lines, levels - 1);
        close_tag(d);
    }
    if (lines) indent(d);
    close_tag(d);
}

static void project(struct doc *d, int lines) {
    open_tag(d, "project");
    while (more(d)) {
        if (lines) indent(d);
        open_tag(d, "script");
        block(d, lines, 1 + (int)any(d, 12));
        close_tag(d);
    }
    close_all(d);
    put(d, "\n");
}

static void project_dense(struct doc *d) { project(d, 0); }

static void project_in_lines(struct doc *d) { project(d, 1); }

// No plan at all: what comes next is drawn each time.
static void drawn(struct doc *d) {
    static const char *const NAME[] = {"a", "block", "ab", "value-of-field", "x", "operator", "abc", "say"};
    open_tag(d, "root");
    while (more(d)) {
        unsigned what = any(d, 8);
        if (what < 2 && d->depth < DEEPEST) open_tag(d, NAME[any(d, 8)]);
        else if (what < 4 && d->depth > 1) close_tag(d);
        else if (what < 6) prose(d, 1 + (int)any(d, 9));
        else if (what < 7) put(d, "<%s/>", NAME[any(d, 8)]);
        else indent(d);
    }
    close_all(d);
}

// As many rows as a document may have, each with a name of its own: every label is new.
static void all_names(struct doc *d) {
    open_tag(d, "names");
    for (int k = 1; k < ROWS; k++) put(d, "<n%05d/>", k * 7919 % 100000);
    close_all(d);
}

static const struct { const char *name; void (*write)(struct doc *); } SHAPES[] = {
    {"flat, short text", flat_short_text}, {"flat, medium text", flat_medium_text},
    {"long text", long_text}, {"one text", one_text},
    {"text in lines", text_in_lines}, {"brackets in text", brackets},
    {"table of numbers", numbers}, {"chains 60 deep", deep_chains},
    {"59 deep, with text", deep_with_text}, {"up and down to 60", up_and_down},
    {"binary tree", binary_tree}, {"many names", many_names},
    {"long names", long_names}, {"very long names", very_long_names},
    {"names with : _ . -", names_with_marks}, {"names that are prefixes", prefix_names},
    {"white between tags", white_between}, {"much white space", much_white},
    {"white inside tags", white_in_tags}, {"empty tags", empty_tags},
    {"empty tags, white", empty_tags_white}, {"mixed text", mixed_text},
    {"block project, dense", project_dense}, {"block project, lines", project_in_lines},
    {"drawn at random", drawn},
};

enum { SHAPED = sizeof SHAPES / sizeof *SHAPES, SIZES = 4, DOCS = SHAPED + 1 + SIZES };

// The block project at these sizes: does the time of a byte grow with the document?
static const size_t SIZE[SIZES] = {1000, 4000, 16000, 32000};

// ---- The sides ----

static uint64_t check(const struct doc *d) {
    return khargovsun_check((const uint8_t *)DICTIONARY, sizeof DICTIONARY - 1, (const uint8_t *)d->bytes, d->length);
}

static khargovsun_reading read_rows(const struct doc *d) {
    static uint32_t label[ROWS], size[ROWS], start[ROWS], length[ROWS];
    return khargovsun_read((const uint8_t *)DICTIONARY, sizeof DICTIONARY - 1, (const uint8_t *)d->bytes, d->length,
                           label, ROWS, size, ROWS, start, ROWS, length, ROWS);
}

struct count { size_t starts, ends, bytes, rows; int in_row; };

static void XMLCALL on_start(void *to, const XML_Char *name, const XML_Char **attributes) {
    (void)name, (void)attributes;
    ((struct count *)to)->starts++;
}

static void XMLCALL on_end(void *to, const XML_Char *name) {
    (void)name;
    ((struct count *)to)->ends++;
}

static void XMLCALL on_text(void *to, const XML_Char *text, int length) {
    (void)text;
    ((struct count *)to)->bytes += (size_t)length;
}

// A reset forgets the handlers. The fixed salt spares expat a system call for each document.
static void reset(XML_Parser parser, struct count *count) {
    memset(count, 0, sizeof *count);
    XML_ParserReset(parser, NULL);
    XML_SetHashSalt(parser, 1);
    XML_SetUserData(parser, count);
    XML_SetElementHandler(parser, on_start, on_end);
    XML_SetCharacterDataHandler(parser, on_text);
}

static int parse(XML_Parser parser, const struct doc *d) {
    return XML_Parse(parser, d->bytes, (int)d->length, 1) == XML_STATUS_OK;
}

// ---- Do all accept, and do expat and the two of ours see the same rows? Not timed. ----

static void row_start(void *to, const XML_Char *name, const XML_Char **attributes) {
    on_start(to, name, attributes);
    ((struct count *)to)->rows++;
    ((struct count *)to)->in_row = 0;
}

static void row_end(void *to, const XML_Char *name) {
    on_end(to, name);
    ((struct count *)to)->in_row = 0;
}

// expat gives a run in pieces: it is one row as soon as one piece is not white space only.
static void row_text(void *to, const XML_Char *text, int length) {
    struct count *count = to;
    for (int k = 0; k < length && !count->in_row; k++) {
        if (strchr(" \t\n", text[k])) continue;
        count->rows++;
        count->in_row = 1;
    }
}

static void agree(XML_Parser parser, struct doc *d) {
    struct count count;
    uint64_t answer = check(d);
    khargovsun_reading reading = read_rows(d);
    if (answer >> 32 != 0) {
        fprintf(stderr, "bench: code %u, place %u\n", (unsigned)(answer >> 32), (unsigned)answer);
        fail(d->name, "the check does not answer code 0");
    }
    if (reading.code != 0 || reading.rows != (uint32_t)answer) fail(d->name, "read and check differ");
    reset(parser, &count);
    XML_SetElementHandler(parser, row_start, row_end);
    XML_SetCharacterDataHandler(parser, row_text);
    if (!parse(parser, d)) fail(d->name, XML_ErrorString(XML_GetErrorCode(parser)));
    if (count.rows != (uint32_t)answer) fail(d->name, "expat counts other rows");
    if (peers_pugixml(d->bytes, d->length) == 0) fail(d->name, "pugixml refuses it");
    if (peers_rapidxml(d->bytes, d->length) == 0) fail(d->name, "rapidxml refuses it");
    d->rows = (uint32_t)answer;
}

// ---- Timing ----

static double now(void) {
    struct timespec t;
    clock_gettime(CLOCK_PROCESS_CPUTIME_ID, &t);
    return (double)t.tv_sec + (double)t.tv_nsec * 1e-9;
}

static int by_size(const void *a, const void *b) {
    double x = *(const double *)a, y = *(const double *)b;
    return (x > y) - (x < y);
}

// A round counts by its middle turn: on a busy machine the clock now and then shows a single turn too short.
static void keep_best(double *best, double *turns) {
    qsort(turns, TURNS, sizeof *turns, by_size);
    if (*best == 0 || turns[TURNS / 2] < *best) *best = turns[TURNS / 2];
}

// Is the answer the one it was?
static int turn_of(XML_Parser parser, const struct doc *d, const struct count *count, int side) {
    switch (side) {
    case CHECK: return check(d) == d->rows;
    case READ: return read_rows(d).rows == d->rows;
    case EXPAT: return parse(parser, d) && count->starts == count->ends;
    case PUGIXML: return peers_pugixml(d->bytes, d->length) == 1;
    default: return peers_rapidxml(d->bytes, d->length) == 1;
    }
}

static void time_side(XML_Parser parser, struct doc *d, int side, int turn) {
    struct count count;
    reset(parser, &count);
    double from = now();
    int same = turn_of(parser, d, &count, side);
    d->turns[side][turn] = now() - from;
    if (!same) fail(d->name, "another answer than before");
}

static int there[SIDES];

// All documents in turn, so that no branch predictor learns one by heart; who goes first changes with the turn.
static void time_round(XML_Parser parser, struct doc *docs) {
    for (int turn = 0; turn < TURNS; turn++)
        for (int k = 0; k < DOCS; k++)
            for (int n = 0; n < SIDES; n++) {
                int side = turn % 2 ? SIDES - 1 - n : n;
                if (there[side]) time_side(parser, &docs[k], side, turn);
            }
    for (int k = 0; k < DOCS; k++)
        for (int side = 0; side < SIDES; side++)
            if (there[side]) keep_best(&docs[k].best[side], docs[k].turns[side]);
}

static void put_speed(double bytes, double seconds) {
    if (seconds > 0) printf(" %.0f |", bytes * 1e-6 / seconds);
    else printf(" - |");
}

static void put_ratio(double theirs, double ours) {
    if (theirs > 0) printf(" %.2f |", theirs / ours);
    else printf(" - |");
}

static void put_row(const char *name, double bytes, unsigned rows, const double *best) {
    printf("| %s | %.0f | %u |", name, bytes, rows);
    for (int side = 0; side < SIDES; side++) put_speed(bytes, best[side]);
    put_ratio(best[EXPAT], best[CHECK]);
    put_ratio(best[PUGIXML], best[READ]);
    put_ratio(best[RAPIDXML], best[READ]);
    put_ratio(best[EXPAT], best[READ]);
    printf("\n");
}

static void print_table(const struct doc *docs) {
    double all[SIDES] = {0}, bytes = 0, lowest = 0;
    unsigned rows = 0;
    printf("| document | bytes | rows |");
    for (int side = 0; side < SIDES; side++) printf(" %s, MB/s |", SIDE[side]);
    printf(" check : expat | read : pugixml | read : rapidxml | read : expat |\n|---|---|---|---|---|---|---|---|---|---|---|---|\n");
    for (int k = 0; k < DOCS; k++) {
        const struct doc *d = &docs[k];
        put_row(d->name, (double)d->length, d->rows, d->best);
        if (k >= SHAPED) continue;
        double ratio = d->best[EXPAT] / d->best[CHECK];
        if (k == 0 || ratio < lowest) lowest = ratio;
        bytes += (double)d->length;
        rows += d->rows;
        for (int side = 0; side < SIDES; side++) all[side] += d->best[side];
    }
    put_row("the first 25 together", bytes, rows, all);
    printf("\ncheck beside expat: lowest of the first %d %.2f\n", (int)SHAPED, lowest);
}

// The time of a byte, beside that of the smallest document of 4 kB and more.
static void print_sizes(const struct doc *docs) {
    const struct doc *sized = docs + SHAPED + 1, *least = sized + 1;
    printf("\n| bytes | check, ns a byte | beside 4 kB | read, ns a byte | beside 4 kB |\n|---|---|---|---|---|\n");
    for (int k = 0; k < SIZES; k++) {
        double check = sized[k].best[CHECK] / (double)sized[k].length, read = sized[k].best[READ] / (double)sized[k].length;
        printf("| %zu | %.2f | %.2f | %.2f | %.2f |\n", sized[k].length, check * 1e9, check / (least->best[CHECK] / (double)least->length),
               read * 1e9, read / (least->best[READ] / (double)least->length));
    }
}

static void write_doc(struct doc *d, int k) {
    d->random = 2463534242u + (uint32_t)k;
    d->target = TARGET;
    if (k < SHAPED) {
        d->name = SHAPES[k].name;
        SHAPES[k].write(d);
    } else if (k == SHAPED) {
        d->name = "2,048 different names";
        all_names(d);
    } else {
        d->name = "block project, by size";
        d->target = SIZE[k - SHAPED - 1];
        project_in_lines(d);
    }
}

int main(void) {
    struct doc *docs = calloc(DOCS, sizeof *docs);
    XML_Parser parser = XML_ParserCreate(NULL);
    if (!docs || !parser) fail("start", "no memory");
    there[CHECK] = there[READ] = there[EXPAT] = 1;
    there[PUGIXML] = peers_pugixml("<a/>", 4) >= 0;
    there[RAPIDXML] = peers_rapidxml("<a/>", 4) >= 0;
    for (int k = 0; k < DOCS; k++) {
        write_doc(&docs[k], k);
        agree(parser, &docs[k]);
    }
    for (int round = 0; round < ROUNDS; round++) time_round(parser, docs);
    printf("%s, process CPU time, best of %d rounds of %d turns\n", XML_ExpatVersion(), ROUNDS, TURNS);
    for (int side = 0; side < SIDES; side++)
        if (!there[side]) printf("%s is not on this machine and left out\n", SIDE[side]);
    printf("\n");
    print_table(docs);
    print_sizes(docs);
    XML_ParserFree(parser);
    free(docs);
    return 0;
}
