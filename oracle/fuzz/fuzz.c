/* A libFuzzer target over the library's three calls. Each answer and every word is held against the
 * oracle. The slices end at a page that cannot be touched, words before them are watched, and for
 * the calls that never write the pages can only be read.
 *
 * An input: the slice's length, the rows' length, count and root, then the words and the rows, each
 * eight bytes, least significant first. Lengths that the input does not have are cut. */
#include <stdint.h>
#include <stdio.h>
#include <stdlib.h>
#include <string.h>
#include <sys/mman.h>

typedef struct { uint64_t number, place; } checked;
typedef struct { uint64_t number, place, root, count; } simplified;
typedef struct { uint64_t number, place, value; } evaluated;

checked santofunye_check(const uint64_t *words, size_t len, uint64_t count, uint64_t root);
simplified santofunye_simplify(uint64_t *words, size_t len, uint64_t count, uint64_t root);
evaluated santofunye_evaluate(const uint64_t *words, size_t len, uint64_t count, uint64_t root,
                              const uint64_t *rows, size_t rows_len);
checked oracle_check(const uint64_t *words, size_t len, uint64_t count, uint64_t root);
simplified oracle_simplify(uint64_t *words, size_t len, uint64_t count, uint64_t root);
evaluated oracle_evaluate(const uint64_t *words, size_t len, uint64_t count, uint64_t root,
                          const uint64_t *rows, size_t rows_len);

enum { PAGE = 4096, PAGES = 40, WATCHED = 8 };
static const size_t MOST_WORDS = (size_t)PAGES * PAGE / 8 - WATCHED;
static const uint64_t WATCH = 0x5AFE5AFE5AFE5AFE;

static void fail(const char *what) {
    fprintf(stderr, "difference: %s\n", what);
    abort();
}

/* Pages with one after them that cannot be touched. */
static uint8_t *guarded(void) {
    size_t size = (size_t)PAGES * PAGE;
    uint8_t *pages = mmap(NULL, size + PAGE, PROT_READ | PROT_WRITE, MAP_PRIVATE | MAP_ANONYMOUS, -1, 0);
    if (pages == MAP_FAILED || mprotect(pages + size, PAGE, PROT_NONE) != 0)
        abort();
    return pages;
}

/* Lays words against the end of the pages, watched words before them. */
static uint64_t *lay(uint8_t *pages, const uint64_t *words, size_t len) {
    uint64_t *at = (uint64_t *)(pages + (size_t)PAGES * PAGE) - len;
    for (int i = 1; i <= WATCHED; i++)
        at[-i] = WATCH;
    if (len > 0)
        memcpy(at, words, 8 * len);
    return at;
}

static void writable(uint8_t *pages, int yes) {
    if (mprotect(pages, (size_t)PAGES * PAGE, yes ? PROT_READ | PROT_WRITE : PROT_READ) != 0)
        abort();
}

int LLVMFuzzerTestOneInput(const uint8_t *data, size_t size) {
    static uint8_t *arena_pages, *row_pages;
    if (arena_pages == NULL) {
        arena_pages = guarded();
        row_pages = guarded();
    }
    uint64_t head[4];
    if (size < sizeof head || size / 8 - 4 > MOST_WORDS)
        return 0;
    memcpy(head, data, sizeof head);
    size_t left = size / 8 - 4;
    size_t len = head[0] < left ? head[0] : left;
    size_t rows_len = head[1] < left - len ? head[1] : left - len;
    uint64_t count = head[2], root = head[3];

    /* Copies for the oracle, each in an allocation of just its size. */
    uint64_t *words = malloc(8 * len + 8), *after = malloc(8 * len + 8), *table = malloc(8 * rows_len + 8);
    if (words == NULL || after == NULL || table == NULL)
        abort();
    memcpy(words, data + sizeof head, 8 * len);
    memcpy(after, words, 8 * len);
    memcpy(table, data + sizeof head + 8 * len, 8 * rows_len);
    checked check_expected = oracle_check(words, len, count, root);
    simplified simplify_expected = oracle_simplify(after, len, count, root);
    evaluated evaluate_expected = oracle_evaluate(words, len, count, root, table, rows_len);

    uint64_t *arena = lay(arena_pages, words, len);
    uint64_t *rows = lay(row_pages, table, rows_len);
    writable(arena_pages, 0);
    writable(row_pages, 0);
    checked check = santofunye_check(arena, len, count, root);
    if (memcmp(&check, &check_expected, sizeof check) != 0)
        fail("check");
    evaluated evaluate = santofunye_evaluate(arena, len, count, root, rows, rows_len);
    if (memcmp(&evaluate, &evaluate_expected, sizeof evaluate) != 0)
        fail("evaluate");
    writable(arena_pages, 1);
    simplified simplify = santofunye_simplify(arena, len, count, root);
    if (memcmp(&simplify, &simplify_expected, sizeof simplify) != 0)
        fail("simplify");
    if (memcmp(arena, after, 8 * len) != 0)
        fail("the words after simplify");
    for (int i = 1; i <= WATCHED; i++)
        if (arena[-i] != WATCH)
            fail("a word before the slice");
    writable(row_pages, 1);
    free(words);
    free(after);
    free(table);
    return 0;
}
