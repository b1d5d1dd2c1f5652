/* Checks tables whose rows share one bucket of the library's index, and numbers and writes their trees. The tables are made for the hash of
   crates/index with its first multiplier; with another hash they are ordinary ones. Prints each failure, and returns 1 if there is one. */
#include <stdio.h>
#include <string.h>

#include "treenum.h"

enum { LEAVES = 255, ROWS = 1024, CROWDED = ROWS - LEAVES, ARGUMENTS = 16, SYMBOL = 7, TARGET = 255 };

static uint16_t rows[LEAVES * 3 + CROWDED * (3 + ARGUMENTS)];
static size_t rows_len;
static const uint16_t accepting[] = {TARGET};

static int failures;

static void expect(const char *what, uint32_t answer, uint64_t value, uint32_t answer_due, uint64_t value_due) {
    if (answer == answer_due && value == value_due) return;
    printf("%s: %u %llu, not %u %llu\n", what, answer, (unsigned long long)value, answer_due, (unsigned long long)value_due);
    failures++;
}

/* The hash of symbol and count, and the first 12 arguments, 4 at a time; then the last 4, by which it becomes 12345. */
static int one_bucket(const uint16_t *first, uint16_t *last) {
    const uint32_t by = 2654435769u;
    uint32_t h = SYMBOL + ARGUMENTS * 256;
    for (int i = 0; i < 12; i += 4)
        h = h * by + (uint32_t)first[i] + ((uint32_t)first[i + 1] << 16) + ((uint32_t)first[i + 2] << 8) + ((uint32_t)first[i + 3] << 24);
    uint32_t x = 12345u - h * by;
    last[0] = x & 255;
    last[2] = x >> 8 & 255;
    last[1] = x >> 16 & 255;
    last[3] = x >> 24;
    return last[0] < TARGET && last[1] < TARGET && last[2] < TARGET && last[3] < TARGET;
}

/* A leaf for each state but the last, and rows of one bucket, each with one tree, which leads to the last. */
static void make(void) {
    for (int i = 0; i < LEAVES; i++) {
        rows[rows_len++] = (uint16_t)(i + 1);
        rows[rows_len++] = (uint16_t)i;
        rows[rows_len++] = 0;
    }
    for (unsigned made = 0, n = 0; made < CROWDED; n++) {
        uint16_t args[ARGUMENTS] = {(uint16_t)(n % 251), (uint16_t)(n / 251)};
        if (!one_bucket(args, args + 12)) continue;
        rows[rows_len++] = SYMBOL;
        rows[rows_len++] = TARGET;
        rows[rows_len++] = ARGUMENTS;
        memcpy(rows + rows_len, args, sizeof args);
        rows_len += ARGUMENTS;
        made++;
    }
}

/* The tree of a row of the bucket. */
static size_t tree_of(size_t at, uint16_t *tree) {
    size_t n = 0;
    tree[n++] = SYMBOL;
    for (int i = 0; i < ARGUMENTS; i++) {
        tree[n++] = (uint16_t)(rows[at + 3 + i] + 1);
        tree[n++] = 0;
    }
    tree[n++] = 0;
    return n;
}

int main(void) {
    make();
    uint64_t value;
    uint32_t answer = treenum_check(256, rows, rows_len, accepting, 1, &value);
    expect("a crowded table", answer, value, TREENUM_RESULT, CROWDED);
    for (size_t k = 0; k < CROWDED; k++) {
        size_t at = LEAVES * 3 + k * (3 + ARGUMENTS);
        uint16_t tree[2 * ARGUMENTS + 2], written[2 * ARGUMENTS + 2];
        size_t n = tree_of(at, tree);
        answer = treenum_number(256, rows, rows_len, accepting, 1, tree, n, &value);
        expect("its trees are numbered as its rows stand", answer, value, TREENUM_RESULT, k);
        answer = treenum_write(256, rows, rows_len, accepting, 1, k, written, n, &value);
        expect("its trees are written", answer, value, TREENUM_RESULT, n);
        if (memcmp(tree, written, sizeof tree)) printf("tree %zu is written as another\n", k), failures++;
    }
    /* the last row repeats an earlier one: the one before it, one in the middle, the first of the bucket */
    for (int k = CROWDED - 2; k >= 0; k -= (CROWDED - 2) / 2) {
        size_t last = rows_len - ARGUMENTS;
        uint16_t kept[ARGUMENTS];
        memcpy(kept, rows + last, sizeof kept);
        memcpy(rows + last, rows + LEAVES * 3 + k * (3 + ARGUMENTS) + 3, sizeof kept);
        answer = treenum_check(256, rows, rows_len, accepting, 1, &value);
        expect("a crowded table whose last row repeats one", answer, value, TREENUM_REPEATED_ROW, ROWS - 1);
        memcpy(rows + last, kept, sizeof kept);
    }
    /* a fault of form after the bucket is crowded */
    rows[rows_len - 1] = TARGET;
    answer = treenum_check(256, rows, rows_len, accepting, 1, &value);
    expect("a crowded table whose last argument is not below its target", answer, value, TREENUM_ARGUMENT_NOT_BELOW_TARGET, ROWS - 1);
    answer = treenum_check(256, rows, rows_len - 1, accepting, 1, &value);
    expect("a crowded table whose last row is cut", answer, value, TREENUM_CUT_ROW, ROWS - 1);
    if (failures) printf("%d failures\n", failures);
    return failures != 0;
}
