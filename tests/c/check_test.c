/* Checks tables of document 01 through the C interface. Prints each failure, and returns 1 if there is one. */
#include <stdio.h>

#include "treenum.h"

#define LIST(...) (const uint16_t[]){__VA_ARGS__}, sizeof((const uint16_t[]){__VA_ARGS__}) / sizeof(uint16_t)
/* A list of length 0 has an address too. */
#define NONE (const uint16_t[]){0}, 0

/* Counts 2, 4, 16, 256, 65,536 and 4,294,967,296: states 0 to 5. */
#define SQUARES 1, 0, 0, 2, 0, 0, 1, 1, 2, 0, 0, 1, 2, 2, 1, 1, 1, 3, 2, 2, 2, 1, 4, 2, 3, 3, 1, 5, 2, 4, 4
/* Counts 3, 5, 17, 257 and 65,537: states 6 to 10. The product of the first four, 65,535: state 11; of all, 4,294,967,295: state 12. Counts
   4,294,967,297: state 13. */
#define FACTORS                                                                                                      \
    3, 6, 0, 4, 6, 0, 5, 6, 0, 3, 7, 1, 1, 6, 7, 0, 3, 8, 1, 2, 7, 8, 0, 3, 9, 1, 3, 8, 9, 0, 3, 10, 1, 4, 9, 10, 0, \
        1, 11, 4, 6, 7, 8, 9, 1, 12, 2, 10, 11, 3, 13, 1, 5, 10, 13, 0
/* Two rows that count 2 to the 63rd each. */
#define HALVES(one, other) 1, one, 6, 0, 1, 2, 3, 4, 5, 2, other, 6, 0, 1, 2, 3, 4, 5
#define PAPER                                                                                                    \
    1, 0, 0, 2, 1, 0, 1, 2, 2, 0, 0, 2, 2, 2, 0, 1, 1, 3, 2, 1, 0, 1, 3, 2, 1, 1, 2, 3, 2, 1, 1, 1, 4, 2, 2, 2, \
        2, 4, 3, 2, 3, 1
/* Longest trees of 2, 34 and 546 entries: states 0 to 2. */
#define FOUR(x) x, x, x, x
#define LENGTHS 1, 0, 0, 1, 1, 16, FOUR(FOUR(0)), 1, 2, 16, FOUR(FOUR(1))

static const struct test {
    const char *name;
    uint64_t states;
    const uint16_t *rows;
    size_t rows_len;
    const uint16_t *accepting;
    size_t accepting_len;
    uint32_t answer;
    uint64_t value;
} tests[] = {
    {"nothing", 0, NONE, NONE, TREENUM_RESULT, 0},
    {"the paper's table", 5, LIST(PAPER), LIST(2, 4), TREENUM_RESULT, 12},
    {"the paper's table, state 3 alone", 5, LIST(PAPER), LIST(3), TREENUM_RESULT, 3},
    {"256 states", 256, NONE, LIST(255, 0), TREENUM_RESULT, 0},
    {"257 states", 257, NONE, NONE, TREENUM_TOO_MANY_STATES, 0},
    {"65,536 states", 65536, NONE, NONE, TREENUM_TOO_MANY_STATES, 0},
    {"2 to the 64th less 1 states", UINT64_MAX, LIST(1, 0, 0), LIST(0), TREENUM_TOO_MANY_STATES, 0},
    {"an entry left over", 5, LIST(PAPER, 1), LIST(2, 4), TREENUM_CUT_ROW, 9},
    {"two entries left over", 5, LIST(PAPER, 1, 0), LIST(2, 4), TREENUM_CUT_ROW, 9},
    {"17 arguments counted, 16 left", 2, LIST(1, 0, 0, 2, 1, 17, FOUR(FOUR(0))), NONE, TREENUM_CUT_ROW, 1},
    {"17 arguments", 2, LIST(1, 0, 0, 2, 1, 17, FOUR(FOUR(0)), 0), NONE, TREENUM_TOO_MANY_ROWS_OR_ARGUMENTS, 1},
    {"symbol 256", 5, LIST(PAPER, 256, 0, 0), LIST(2, 4), TREENUM_NOT_IN_RANGE, 9},
    {"a target that is no state", 2, LIST(1, 2, 0), NONE, TREENUM_NOT_IN_RANGE, 0},
    {"an argument not below the target", 3, LIST(1, 0, 0, 1, 1, 2, 0, 1), NONE, TREENUM_ARGUMENT_NOT_BELOW_TARGET, 1},
    {"a repeated row", 5, LIST(PAPER, 1, 4, 2, 0, 0), LIST(2, 4), TREENUM_REPEATED_ROW, 9},
    {"an accepting entry that is no state", 5, LIST(PAPER), LIST(2, 4, 5), TREENUM_ACCEPTING_ENTRY, 2},
    {"a repeated accepting entry", 5, LIST(PAPER), LIST(2, 4, 0, 4), TREENUM_ACCEPTING_ENTRY, 3},
    {"as many accepting entries as states", 5, LIST(PAPER), LIST(4, 3, 2, 1, 0), TREENUM_RESULT, 17},
    {"more accepting entries than states", 2, LIST(1, 0, 0), LIST(0, 1, 0), TREENUM_ACCEPTING_ENTRY, 2},
    {"an accepting entry, and no states", 0, NONE, LIST(0), TREENUM_ACCEPTING_ENTRY, 0},
    /* the edges of the limit before: they pass */
    {"65,535 times 65,537", 15, LIST(SQUARES, FACTORS, 1, 14, 2, 11, 10), LIST(14), TREENUM_RESULT, 4294967295},
    {"65,535 times 65,537, and one tree more", 15, LIST(SQUARES, FACTORS, 1, 14, 2, 11, 10, 11, 14, 0), LIST(14), TREENUM_RESULT, 4294967296},
    {"65,536 times 65,536", 6, LIST(SQUARES), LIST(5), TREENUM_RESULT, 4294967296},
    {"a total of 2 to the 32nd", 8, LIST(SQUARES, 1, 6, 5, 0, 1, 2, 3, 4, 2, 7, 5, 0, 1, 2, 3, 4), LIST(7, 6), TREENUM_RESULT, 4294967296},
    {"a total of 2 to the 33rd", 14, LIST(SQUARES, FACTORS), LIST(13, 12), TREENUM_RESULT, 8589934592},
    /* those of the limit */
    {"4,294,967,295 times 4,294,967,297", 15, LIST(SQUARES, FACTORS, 1, 14, 2, 12, 13), LIST(14), TREENUM_RESULT, UINT64_MAX},
    {"one tree more", 15, LIST(SQUARES, FACTORS, 1, 14, 2, 12, 13, 11, 14, 0), LIST(14), TREENUM_COUNT_ABOVE_LIMIT, 14},
    {"one tree more, in no accepted tree", 15, LIST(SQUARES, FACTORS, 1, 14, 2, 12, 13, 11, 14, 0), LIST(13), TREENUM_RESULT, 4294967297},
    {"one tree more in the total", 16, LIST(SQUARES, FACTORS, 1, 14, 2, 12, 13, 11, 15, 0), LIST(14, 15), TREENUM_TOTAL_ABOVE_LIMIT, 0},
    {"one tree more in the total, from the other end", 16, LIST(SQUARES, FACTORS, 1, 14, 2, 12, 13, 11, 15, 0), LIST(15, 14), TREENUM_TOTAL_ABOVE_LIMIT, 0},
    {"4,294,967,296 twice", 7, LIST(SQUARES, 1, 6, 2, 5, 5), LIST(6), TREENUM_COUNT_ABOVE_LIMIT, 6},
    {"4,294,967,296 twice, in no accepted tree", 7, LIST(SQUARES, 1, 6, 2, 5, 5), LIST(5), TREENUM_RESULT, 4294967296},
    {"4,294,967,296 twice, in a row that counts 0", 9, LIST(SQUARES, 1, 6, 2, 5, 5, 1, 8, 3, 5, 6, 7), LIST(8, 3), TREENUM_RESULT, 256},
    {"4,294,967,296 twice, in a row that counts more", 8, LIST(SQUARES, 1, 6, 2, 5, 5, 1, 7, 2, 0, 6), LIST(3, 7), TREENUM_COUNT_ABOVE_LIMIT, 6},
    {"4,294,967,296 twice and 0", 8, LIST(SQUARES, 1, 7, 3, 5, 5, 6), LIST(7), TREENUM_RESULT, 0},
    {"4,294,967,296, 0 and the same", 8, LIST(SQUARES, 1, 7, 3, 5, 6, 5), LIST(7), TREENUM_RESULT, 0},
    {"0 and 4,294,967,296 twice", 8, LIST(SQUARES, 1, 7, 3, 6, 5, 5), LIST(7), TREENUM_RESULT, 0},
    {"the three of them, and two trees", 8, LIST(SQUARES, 1, 7, 3, 5, 5, 6, 1, 7, 3, 5, 6, 5, 2, 7, 1, 0, 1, 7, 3, 6, 5, 5), LIST(7), TREENUM_RESULT, 2},
    {"4,294,967,297 twice", 15, LIST(SQUARES, FACTORS, 1, 14, 2, 13, 13), LIST(14), TREENUM_COUNT_ABOVE_LIMIT, 14},
    {"15 times 16", 7, LIST(SQUARES, 1, 6, 15, FOUR(2), FOUR(2), FOUR(2), 2, 2, 2), LIST(6), TREENUM_RESULT, 1152921504606846976},
    {"16 times 16", 7, LIST(SQUARES, 1, 6, 16, FOUR(FOUR(2))), LIST(6), TREENUM_COUNT_ABOVE_LIMIT, 6},
    {"a count and total of 2 to the 63rd", 8, LIST(SQUARES, HALVES(6, 7)), LIST(6), TREENUM_RESULT, 9223372036854775808u},
    {"a total of 2 to the 64th", 8, LIST(SQUARES, HALVES(6, 7)), LIST(7, 6), TREENUM_TOTAL_ABOVE_LIMIT, 0},
    {"a total of 2 to the 64th and 6", 8, LIST(SQUARES, HALVES(6, 7)), LIST(7, 0, 6, 1), TREENUM_TOTAL_ABOVE_LIMIT, 0},
    {"two rows of 2 to the 63rd", 7, LIST(SQUARES, HALVES(6, 6)), LIST(6), TREENUM_COUNT_ABOVE_LIMIT, 6},
    {"two rows of 2 to the 63rd, and a leaf", 7, LIST(SQUARES, HALVES(6, 6), 7, 6, 0), LIST(0, 6), TREENUM_COUNT_ABOVE_LIMIT, 6},
    {"two rows of 2 to the 63rd, in no accepted tree", 7, LIST(SQUARES, HALVES(6, 6)), LIST(0), TREENUM_RESULT, 2},
    {"4,096 entries", 4, LIST(LENGTHS, 1, 3, 15, FOUR(2), 2, 2, 2, FOUR(1), FOUR(1)), LIST(3), TREENUM_RESULT, 1},
    {"4,098 entries, in no accepted tree", 4, LIST(LENGTHS, 1, 3, 16, FOUR(2), 2, 2, 2, FOUR(1), FOUR(1), 0), LIST(2), TREENUM_RESULT, 1},
    {"4,098 entries", 4, LIST(LENGTHS, 1, 3, 16, FOUR(2), 2, 2, 2, FOUR(1), FOUR(1), 0), LIST(3), TREENUM_LONGEST_TREE_ABOVE_LIMIT, 3},
};

int main(void) {
    const size_t count = sizeof tests / sizeof tests[0];
    size_t failed = 0;
    for (size_t i = 0; i < count; i++) {
        const struct test *t = &tests[i];
        uint64_t value = 123456789;
        uint32_t answer = treenum_check(t->states, t->rows, t->rows_len, t->accepting, t->accepting_len, &value);
        if (answer != t->answer || value != t->value) {
            printf("%s: answer %lu, value %llu; expected %lu and %llu\n", t->name, (unsigned long)answer,
                   (unsigned long long)value, (unsigned long)t->answer, (unsigned long long)t->value);
            failed++;
        }
    }
    printf("C interface: %zu tables, %zu failed\n", count, failed);
    return failed != 0;
}
