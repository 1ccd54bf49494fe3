/* What the tests share: lists with their length, comparing, and counting what differs. */
#include <stddef.h>
#include <stdint.h>
#include <stdio.h>

typedef struct {
    const uint8_t *at;
    size_t n;
} bytes;

typedef struct {
    const uint32_t *at;
    size_t n;
} list;

#define BYTES(text) {(const uint8_t *)(text), sizeof(text) - 1}
#define LIST(...) {(const uint32_t[]){__VA_ARGS__}, sizeof((const uint32_t[]){__VA_ARGS__}) / sizeof(uint32_t)}
#define NONE {NULL, 0}
#define COUNT(array) (sizeof(array) / sizeof *(array))

/* Stands in every entry of a lent list before the call; no answer has it. */
#define MARK 4027514880u

static unsigned compared, differing;

static void same(const char *name, const char *what, uint64_t got, uint64_t want) {
    compared++;
    if (got == want) return;
    differing++;
    printf("%s: %s is %lu, and should be %lu\n", name, what, (unsigned long)got, (unsigned long)want);
}

static inline void mark(uint32_t *to, size_t n) {
    for (size_t k = 0; k < n; k++) to[k] = MARK;
}

/* The list begins with what is wanted, and is unchanged behind it. */
static inline void holds(const char *name, const char *what, const uint32_t *got, size_t n, list want) {
    compared++;
    for (size_t k = 0; k < n; k++) {
        uint32_t right = k < want.n ? want.at[k] : MARK;
        if (got[k] == right) continue;
        differing++;
        printf("%s: %s[%lu] is %u, and should be %u\n", name, what, (unsigned long)k, got[k], right);
        return;
    }
}

static int result(const char *test) {
    printf("%s: %u comparisons, %u differ\n", test, compared, differing);
    return differing != 0;
}
