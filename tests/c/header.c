/* The header's names, held to the numbers of 01 and 02. tests/c/run has this file compiled as C99 and as C++ too, and the header with it. */
#include "compare.h"
#include "khargovsun.h"

static const struct number {
    const char *name;
    uint32_t has, should;
} NUMBERS[] = {
#define IS(name, number) {#name, KHARGOVSUN_##name, number}
    IS(MAX_NAMES, 1024),
    IS(MAX_DICTIONARY_BYTES, 16384),
    IS(MAX_DOCUMENT_BYTES, 32768),
    IS(MAX_ROWS, 2048),
    IS(MAX_DEPTH, 64),
    IS(MAX_PATTERN_ROWS, 256),
    IS(MAX_VARIABLES, 16),
    IS(MAX_EXPRESSION_ROWS, 64),
    IS(MAX_PROBLEMS, 32),
    IS(LABELS, 65536),
    IS(ELEMENT(0), 0),
    IS(TEXT(0), 1),
    IS(ELEMENT(1 + 2), 6),
    IS(TEXT(1 + 2), 7),
    IS(NUMBER(6), 3),
    IS(NUMBER(6 + 1), 3),
    IS(IS_TEXT(6), 0),
    IS(IS_TEXT(6 + 1), 1),
    IS(NUMBER(65535), 32767),
    IS(CODE_NONE, 0),
    IS(CODE_DICTIONARY, 1),
    IS(CODE_DOCUMENT_TOO_LONG, 2),
    IS(CODE_NOT_IN_SUBSET, 3),
    IS(CODE_TOO_DEEP, 4),
    IS(CODE_TOO_MANY_ROWS, 5),
    IS(CODE_NO_ROOM_FOR_ROWS, 6),
    IS(CODE_TREE, 11),
    IS(CODE_PATTERN, 12),
    IS(CODE_EXPRESSION_TABLE, 13),
    IS(CODE_CONSTRAINT_LIST, 14),
    IS(CODE_RECORD, 15),
    IS(CODE_INSTANCE_TOO_LARGE, 16),
    IS(CODE_NO_ROOM_FOR_INSTANCE, 17),
    IS(CODE_FORGOTTEN_EXPRESSION, 19),
    IS(CODE_NO_MATCHER, 20),
    IS(CODE_PANEL, 21),
    IS(ENDING_ALL, 0),
    IS(ENDING_ROOM, 1),
    IS(ENDING_BUDGET, 2),
    IS(KIND_SYMBOL, 0),
    IS(KIND_INDIVIDUAL, 1),
    IS(KIND_SEQUENCE, 2),
    IS(KIND_FUNCTION, 3),
    IS(KIND_CONTEXT, 4),
    IS(EXPRESSION_SYMBOL, 0),
    IS(EXPRESSION_EMPTY, 1),
    IS(EXPRESSION_CONCATENATION, 2),
    IS(EXPRESSION_CHOICE, 3),
    IS(EXPRESSION_REPETITION, 4),
    IS(SOURCE_DICTIONARY, 0),
    IS(SOURCE_DOCUMENT, 1),
};

int main(void) {
    for (size_t k = 0; k < COUNT(NUMBERS); k++) same(NUMBERS[k].name, "the number", NUMBERS[k].has, NUMBERS[k].should);
    return result("header.c");
}
