/* Documents deeper than 64 levels, of which the reader keeps no more than 64 open names (02, #103): the end tag that does not agree is found
 * at its byte, on whichever level, and the code is 4 only where all agree. */
#include "compare.h"
#include "khargovsun.h"

enum { ROOM = 2048, LONGEST = 32768, LEVELS = 2100 };

static uint32_t label[ROOM], size[ROOM], start[ROOM], length[ROOM];
static uint8_t made[LONGEST + 400];
static size_t at; /* how many bytes are made */

/* The check and the reader both; the reader writes nothing where it refuses. */
static void answer_is(const char *name, uint32_t code, size_t place, uint32_t rows) {
    static const list none = NONE;
    mark(label, ROOM), mark(size, ROOM), mark(start, ROOM), mark(length, ROOM);
    same(name, "the length", at <= LONGEST, 1);
    same(name, "the check", khargovsun_check(NULL, 0, made, at), code * 4294967296u + place + rows);
    khargovsun_reading got = khargovsun_read(NULL, 0, made, at, label, ROOM, size, ROOM, start, ROOM, length, ROOM);
    same(name, "the code", got.code, code);
    same(name, "the place", got.place, place);
    same(name, "the rows", got.rows, rows);
    holds(name, "label behind the rows", label + rows, ROOM - rows, none);
    holds(name, "length behind the rows", length + rows, ROOM - rows, none);
}

/* What there is no room for is seen by the length. */
static void put_byte(int byte) {
    if (at < sizeof made) made[at++] = (uint8_t)byte;
}

static void put(const char *text, size_t times) {
    for (size_t k = 0; k < times; k++)
        for (const char *c = text; *c; c++) put_byte(*c);
}

/* ---- Names of their own on every level ---- */

/* What a name begins with, what stands behind it in a tag, behind a start tag and behind an end tag; and the rows of the last two. */
typedef struct {
    const char *name, *begins, *space, *inside, *behind;
    uint32_t inside_rows, behind_rows;
} style;

static const style STYLES[] = {
    {"plain", "n", "", "", "", 0, 0},
    {"white space", "n", " \t\n", "\n", " ", 0, 0},
    {"> and ] in texts", "n", "", "> ]] ", "/>]", 1, 1},
    {"elements between", "n", "", "<f/><f />a<f\n></f >", "<f>></f>", 4, 2},
    {"long names", "a-name.of_many:bytes-and.then_some-more.of-them:before_the-number-", "", "", "", 0, 0},
};

/* Where the name of each level stands. The outermost is 1. */
static struct { size_t from, n; } names[LEVELS];

static void put_number(size_t number) {
    if (number > 9) put_number(number / 10);
    put_byte('0' + (int)(number % 10));
}

static void put_start(size_t level, const style *s) {
    put("<", 1);
    names[level].from = at;
    put(s->begins, 1);
    put_number(level);
    names[level].n = at - names[level].from;
    put(s->space, 1);
    put(">", 1);
    put(s->inside, 1);
}

static void put_end(size_t level, const style *s) {
    put("</", 1);
    for (size_t k = 0; k < names[level].n; k++) put_byte(made[names[level].from + k]);
    put(s->space, 1);
    put(">", 1);
    if (level > 1) put(s->behind, 1);
}

/* From a level down to the deepest, and the end tags up to that of another level. */
static void put_levels(size_t outermost, size_t deepest, size_t up_to, const style *s) {
    for (size_t k = outermost; k <= deepest; k++) put_start(k, s);
    for (size_t k = deepest; k >= up_to; k--) put_end(k, s);
}

/* ---- Wrong end tags ---- */

/* Where all but the end tags from a level on are made, its end tag is another: in its first byte, in its last, a byte longer, a byte shorter;
 * or it is not whole. */
static void wrong_end(size_t level, const style *s) {
    size_t before = at, first = at + 2, last = at + 1 + names[level].n;
    put_end(level, s);
    made[first] = 'x';
    answer_is("another first byte", 3, first, 0);
    made[first] = made[names[level].from];
    made[last] = made[last] == '0' ? '1' : '0';
    answer_is("another last byte", 3, last, 0);
    at = before, put_end(level, s), at = last + 1;
    answer_is("an end name alone", 3, last + 1, 0);
    put("0>", 1);
    answer_is("a longer end name", 3, last + 1, 0);
    at = last, put(">", 1);
    answer_is("a shorter end name", 3, last, 0);
    at = before;
}

static void wrong_levels(size_t deepest, const style *s) {
    static const size_t WHICH[] = {1, 2, 15, 16, 17, 47, 48, 49, 62, 63, 64, 65, 66, 127, 128, 129, 191, 192};
    for (size_t k = 0; k < COUNT(WHICH); k++) {
        if (WHICH[k] > deepest) break;
        at = 0, put_levels(1, deepest, WHICH[k] + 1, s);
        wrong_end(WHICH[k], s);
    }
    at = 0, put_levels(1, deepest, deepest + 1, s);
    wrong_end(deepest, s);
}

static void depths(void) {
    static const size_t DEPTHS[] = {63, 64, 65, 66, 127, 128, 129, 192};
    for (size_t k = 0; k < COUNT(DEPTHS); k++)
        for (size_t j = 0; j < COUNT(STYLES); j++) {
            const style *s = &STYLES[j];
            uint32_t deepest = (uint32_t)DEPTHS[k], rows = deepest * (1 + s->inside_rows) + (deepest - 1) * s->behind_rows;
            int deep = deepest + (s->inside_rows > 0) > 64;
            at = 0, put_levels(1, deepest, 1, s);
            answer_is(s->name, deep ? 4 : 0, 0, deep ? 0 : rows);
            put("<", 1);
            answer_is("a byte more", 3, at - 1, 0);
            at = 0, put_levels(1, deepest, 2, s);
            answer_is("an end tag too few", 3, at, 0);
            wrong_levels(deepest, s);
        }
    at = 0, put_levels(1, 2000, 1, STYLES);
    answer_is("2,000 levels", 4, 0, 0);
    wrong_levels(2000, STYLES);
}

/* Down and up again and again inside of one root, whose start tag stands farther and farther back. */
static void again_and_again(void) {
    static const size_t DEPTHS[] = {33, 63, 64, 65, 100, 130};
    for (size_t k = 0; k < COUNT(DEPTHS); k++)
        for (size_t j = 0; j < COUNT(STYLES); j++) {
            at = 0, put_start(1, &STYLES[j]);
            do put_levels(2, DEPTHS[k], 2, &STYLES[j]);
            while (at < 12000);
            for (size_t times = 0; times < 20; times++) put_levels(2, 20, 2, STYLES);
            wrong_end(1, &STYLES[j]);
        }
}

/* Each name is the one around it and a letter more. */
static void prefixes(void) {
    enum { MOST = 120 };
    for (size_t wrong = MOST; wrong > 0; wrong--) {
        at = 0;
        for (size_t k = 1; k <= MOST; k++) put("<", 1), put("n", k), put(">", 1);
        for (size_t k = MOST; k > wrong; k--) put("</", 1), put("n", k), put(">", 1);
        size_t name = at + 2;
        put("</", 1), put("n", wrong + 1), put(">", 1);
        answer_is("the name of the element inside", 3, name + wrong, 0);
        at = name, put("n", wrong - 1), put(">", 1);
        answer_is("the name of the element around", 3, name + wrong - 1, 0);
    }
}

/* ---- The most levels that there can be, and 02's examples ---- */

static void answer_of(const char *name, size_t open, const char *inside, size_t closed, const char *behind, uint32_t code, size_t place, uint32_t rows) {
    at = 0, put("<g>", open), put(inside, 1), put("</g>", closed), put(behind, 1);
    answer_is(name, code, place, rows);
}

static void examples(void) {
    answer_of("65 and 65", 65, "", 65, "", 4, 0, 0);
    answer_of("the outermost of 65", 65, "", 64, "</f>", 3, 453, 0);
    answer_of("the 65th of 130", 130, "", 65, "</h>", 3, 652, 0);
    answer_of("a longer start name", 64, "<gg>", 1, "", 3, 199, 0);
    answer_of("66 and 65", 66, "", 65, "", 3, 458, 0);
    answer_of("66 and 67", 66, "", 67, "", 3, 462, 0);
    answer_of("white space in 64", 64, " ", 64, "", 0, 0, 64);
    answer_of("a text in 64", 64, "a", 64, "", 4, 0, 0);
    answer_of("> and /> in texts", 65, "<f>/></f>f>", 65, "", 4, 0, 0);
    answer_of("10,922", 10922, "", 0, "", 3, 32766, 0);
    answer_of("10,922 and </", 10922, "", 0, "</", 3, 32768, 0);
    answer_of("10,922 and >", 10922, "", 0, ">]", 3, 32768, 0);
    answer_of("10,922 and &", 10922, "", 0, "&", 3, 32766, 0);
    answer_of("10,000, the deepest", 10000, "", 0, "</f>", 3, 30002, 0);
    answer_of("10,000, the 65th from the deepest", 10000, "", 64, "</f>", 3, 30258, 0);
    answer_of("10,000, the 691st from the deepest", 10000, "", 690, "</gg>", 3, 32763, 0);
    answer_of("4,681 and 4,681", 4681, "", 4681, "", 4, 0, 0);
    answer_of("4,681 and 4,681 and >", 4681, "", 4681, ">", 3, 32767, 0);
    answer_of("the outermost of 4,681", 4681, "", 4680, "</f>", 3, 32765, 0);
}

int main(void) {
    examples();
    depths();
    again_and_again();
    prefixes();
    return result("deep.c");
}
