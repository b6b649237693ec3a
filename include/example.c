/* (x - 5) + 3 in one byte becomes x - 2: prints number, place, root and count, `0 0 6 7`.
 * In the repository's root, after `tools/staticlib`:
 *   gcc -Iinclude include/example.c target/staticlib/libsimplifier.a -o target/example */
#include <inttypes.h>
#include <stdio.h>

#include "santofunye.h"

int main(void) {
    uint64_t words[16] = {
        0x0101000000000003, 0x10, /* 0: x, an Entry of space 3 at offset 0x10 */
        0x0201000000000000, 5,    /* 1: 5 */
        0x0501000000010000, 0,    /* 2: Sub of 0 and 1 */
        0x0201000000000000, 3,    /* 3: 3 */
        0x0401000200030000, 0,    /* 4: Add of 2 and 3, the root */
    };
    santofunye_simplify_reply reply = santofunye_simplify(words, 16, 5, 4);
    printf("%" PRIu64 " %" PRIu64 " %" PRIu64 " %" PRIu64 "\n", reply.number, reply.place, reply.root,
           reply.count);
    for (uint64_t node = 5; node < reply.count; node++) {
        fprintf(stderr, "appended: %016" PRIx64 " %" PRIx64 "\n", words[2 * node], words[2 * node + 1]);
    }
    return reply.number == SANTOFUNYE_DONE ? 0 : 1;
}
