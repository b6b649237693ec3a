/* 01's limits through the exports, and nanoseconds a node. `limits` prints the answers at the limits; `limits bench` the times.
   Run under `ulimit -s` it shows that the deepest inputs, accepted and refused, fit a small stack (run.sh). */
#include <stdint.h>
#include <stdio.h>
#include <string.h>
#include <time.h>

#include "../../include/santofunye.h"

enum { ADD = 4, INT2COMP = 16, CAPACITY = 4096 };

static uint64_t words[2 * CAPACITY];

static uint64_t header(uint64_t kind, uint64_t size, uint64_t left, uint64_t right, uint64_t space) {
    return kind << 56 | size << 48 | left << 32 | right << 16 | space;
}

static void put(uint64_t i, uint64_t head, uint64_t payload) {
    words[2 * i] = head;
    words[2 * i + 1] = payload;
}

/* An input, and `high` nodes over it: Add(n, n), or Int2Comp, or Add(n, input). */
static uint64_t stack(uint64_t high, int kind, int shared) {
    put(0, header(1, 8, 0, 0, 3), 16);
    for (uint64_t i = 1; i <= high; i++)
        put(i, header(kind, 8, i - 1, kind == ADD ? (shared ? i - 1 : 0) : 0, 0), 0);
    return high + 1;
}

static const uint64_t rows[3] = {(uint64_t)1 << 56 | (uint64_t)8 << 48 | 3, 16, 5};

static void show(const char *name, uint64_t count) {
    santofunye_check_reply c = santofunye_check(words, 2 * CAPACITY, count, count - 1);
    santofunye_evaluate_reply e = santofunye_evaluate(words, 2 * CAPACITY, count, count - 1, rows, 3);
    santofunye_simplify_reply s = santofunye_simplify(words, 2 * CAPACITY, count, count - 1);
    printf("%-28s check %lu, simplify %lu, evaluate %lu\n", name, (unsigned long)c.number, (unsigned long)s.number, (unsigned long)e.number);
}

static double now(void) {
    struct timespec t;
    clock_gettime(CLOCK_MONOTONIC, &t);
    return t.tv_sec * 1e9 + t.tv_nsec;
}

/* The best of many rounds, in nanoseconds a call. */
static double timed(int evaluate, uint64_t count, uint64_t root) {
    double best = 1e18;
    for (int round = 0; round < 60; round++) {
        int calls = 1 + 100000 / (int)count;
        double start = now();
        for (int i = 0; i < calls; i++)
            if (evaluate)
                santofunye_evaluate(words, 2 * CAPACITY, count, root, rows, 3);
            else
                santofunye_check(words, 2 * CAPACITY, count, root);
        double each = (now() - start) / calls;
        if (each < best) best = each;
    }
    return best;
}

/* A balanced tree of Add over one input, in order of index: 2 * leaves - 1 nodes, nothing shared but the input. */
static uint64_t balanced(uint64_t nodes) {
    uint64_t leaves = (nodes + 1) / 2, count = 0;
    static uint64_t level[CAPACITY];
    for (uint64_t i = 0; i < leaves; i++) {
        put(count, header(1, 8, 0, 0, 3), 16);
        level[i] = count++;
    }
    while (leaves > 1) {
        uint64_t next = 0;
        for (uint64_t i = 0; i + 1 < leaves; i += 2) {
            put(count, header(ADD, 8, level[i], level[i + 1], 0), 0);
            level[next++] = count++;
        }
        if (leaves % 2) level[next++] = level[leaves - 1];
        leaves = next;
    }
    return count;
}

static void bench(void) {
    static const uint64_t sizes[] = {100, 1000, 4000};
    printf("nanoseconds a node: scan, limits, evaluation (one row)\n");
    for (int i = 0; i < 3; i++) {
        uint64_t count = balanced(sizes[i]);
        double scan = timed(0, count, 0);         /* the root is a leaf: all but the scan is one node */
        double check = timed(0, count, count - 1); /* the scan, and the limits over the whole tree */
        double whole = timed(1, count, count - 1); /* the check, and evaluation */
        printf("%6lu nodes %8.2f %8.2f %8.2f\n", (unsigned long)count, scan / count, (check - scan) / count, (whole - check) / count);
    }
}

int main(int argc, char **argv) {
    if (argc > 1 && strcmp(argv[1], "bench") == 0) {
        bench();
        return 0;
    }
    show("Add(n, n) 11 high", stack(11, ADD, 1));
    show("Add(n, n) 12 high", stack(12, ADD, 1));
    show("Add(n, n) 4,000 high", stack(4000, ADD, 1));
    show("Int2Comp 127 high", stack(127, INT2COMP, 0));
    show("Int2Comp 128 high", stack(128, INT2COMP, 0));
    show("Int2Comp 4,095 high", stack(4095, INT2COMP, 0));
    show("Add(n, input) 127 high", stack(127, ADD, 0));
    show("Add(n, input) 2,047 high", stack(2047, ADD, 0));
    show("Add(n, input) 4,095 high", stack(4095, ADD, 0));
    return 0;
}
