/* Simplifies p-code value expressions: the three calls of libsimplifier.a, for C on x86-64.
 *
 * An arena is a slice of words, two to a node, and a count of its nodes. It holds half as many nodes
 * as the slice has words, rounded down, and at most 4,096. A node's first word, most significant
 * field first: kind 8 bits, size in bytes 8, left child 16, right child 16, space 16. Its second
 * word is its payload. A child is the index of an earlier node.
 *
 *   kind     name                       uses
 *   0        Top                        size 0, nothing else
 *   1        Entry                      size, space, payload = offset
 *   2        Const                      size, payload = value
 *   3        Bind                       size, payload = id
 *   4 to 8   Add, Sub, Mul, Xor, Or     size, left, right
 *   9 to 11  IntLeftShift, IntRightShift, IntSignedRightShift
 *                                       size, left, right = amount
 *   12, 16   SignExtend, Int2Comp       size, left
 *   13 to 15 IntCarry, IntSCarry, IntSBorrow
 *                                       size 1, left, right
 *
 * Any words, count and root may be handed in. The slice is `length` words from `words` on, which the
 * call may read, and santofunye_simplify also write; `words` is aligned to 8 bytes and not null, even
 * where the length is 0. */
#ifndef SANTOFUNYE_H
#define SANTOFUNYE_H

#include <stddef.h>
#include <stdint.h>

#ifdef __cplusplus
extern "C" {
#endif

/* What `number` says. The place is 0 unless a line says otherwise. The first that applies is
 * answered: 1, 2, then node by node 3 or 4, then 5, 6, and last 7, or 8, 10 and 9. */
enum {
    SANTOFUNYE_DONE = 0,
    SANTOFUNYE_COUNT_ABOVE_CAPACITY = 1,
    SANTOFUNYE_ROOT_NOT_BELOW_COUNT = 2,
    SANTOFUNYE_NOT_WELL_FORMED = 3, /* a node below the count; place: its index */
    SANTOFUNYE_NOT_WELL_SIZED = 4,  /* a node below the count; place: its index */
    SANTOFUNYE_TOO_MANY_NODES = 5,  /* the tree unfolded from the root has over 4,096 nodes */
    SANTOFUNYE_PATH_TOO_LONG = 6,   /* a path from the root has over 128 nodes */
    SANTOFUNYE_NO_ROOM = 7,         /* simplify: more nodes are appended than fit */
    SANTOFUNYE_BAD_ROW = 8,         /* evaluate; place: the first bad row's number, from 0 */
    SANTOFUNYE_INPUT_MISSING = 9,   /* evaluate: an input without a row; place: its node's index */
    SANTOFUNYE_TOP_REACHABLE = 10   /* evaluate */
};

typedef struct {
    uint64_t number;
    uint64_t place;
} santofunye_check_reply;

typedef struct {
    uint64_t number;
    uint64_t place;
    uint64_t root;  /* the simplified root; 0 after a refusal */
    uint64_t count; /* the new count; after a refusal the count handed in */
} santofunye_simplify_reply;

typedef struct {
    uint64_t number;
    uint64_t place;
    uint64_t value; /* 0 after a refusal */
} santofunye_evaluate_reply;

/* Whether the nodes and the root are fit for the other two calls: 0, or 1 to 6. */
santofunye_check_reply santofunye_check(const uint64_t *words, size_t length, uint64_t count,
                                        uint64_t root);

/* Simplifies the tree under the root: 0, or 1 to 7. Done, the nodes that were there are unchanged, new
 * ones are appended, and later words are left alone. 1 to 6 write nothing. After 7 every word of the
 * nodes from the count to the capacity is zero. */
santofunye_simplify_reply santofunye_simplify(uint64_t *words, size_t length, uint64_t count,
                                              uint64_t root);

/* The value of the tree under the root: 0, or 1 to 6 and 8 to 10. A row is three words: the two words
 * of an Entry or a Bind, and its value. The first row with equal words counts. */
santofunye_evaluate_reply santofunye_evaluate(const uint64_t *words, size_t length, uint64_t count,
                                              uint64_t root, const uint64_t *rows,
                                              size_t rows_length);

#ifdef __cplusplus
}
#endif

#endif
