/* Numbers trees of the paper's table, and of one with as many trees as a table can have, and writes them back, through the C
 * interface. Prints each failure, and returns 1 if there is one. */
#include <stdio.h>
#include <string.h>

#include "treenum.h"

static const uint16_t rows[] = {1, 0, 0, 2, 1, 0, 1, 2, 2, 0, 0, 2, 2, 2, 0, 1, 1, 3, 2, 1, 0,
                                1, 3, 2, 1, 1, 2, 3, 2, 1, 1, 1, 4, 2, 2, 2, 2, 4, 3, 2, 3, 1};
static const uint16_t accepting[] = {2, 4};
#define PAPER 5, rows, sizeof rows / sizeof rows[0], accepting, 2
static const uint8_t names[] = "a\nb\n";
#define NAMES names, sizeof names - 1

#define ROOM 40
#define MARK 77

/* The facts of document 01: a term, and the answer and value of numbering it. */
static const struct fact {
    const char *term;
    uint32_t answer;
    uint64_t value;
} facts[] = {
    {"a(a,a)", TREENUM_RESULT, 0},
    {"b(a,b)", TREENUM_RESULT, 1},
    {"a(a(a,a),b(a,b))", TREENUM_RESULT, 3},
    {"a(b(a,b),a(a,a))", TREENUM_RESULT, 4},
    {"b(a(a,a),a(b,a),b)", TREENUM_RESULT, 6},
    {"b(b(a,b),a(b,b),b)", TREENUM_RESULT, 10},
    {"b(b(a,b),b(b,b),b)", TREENUM_RESULT, 11},
    {"a", TREENUM_NOT_ACCEPTED, 1},
    {"b(a,a)", TREENUM_NOT_ACCEPTED, 5},
};

static size_t failed;

static void check(int holds, const char *what) {
    if (!holds) {
        printf("failed: %s\n", what);
        failed++;
    }
}

/* State q counts 2 to the power q + 1, less 1: a leaf with the symbol 10 + q, and the symbols 1 and 2 over state q - 1. So the last state
 * of 64 counts 18,446,744,073,709,551,615. */
#define STATES 64
static uint16_t halving[STATES * 11];
static size_t halving_len;

static void put_row(unsigned symbol, unsigned target, const uint16_t *args, size_t count) {
    halving[halving_len++] = (uint16_t)symbol;
    halving[halving_len++] = (uint16_t)target;
    halving[halving_len++] = (uint16_t)count;
    for (size_t i = 0; i < count; i++)
        halving[halving_len++] = args[i];
}

/* The tree with the value k in state q: the leaf has 0, and then as many have the symbol 1 as 2. */
static size_t tree_of(unsigned q, uint64_t k, uint16_t *tree) {
    size_t n = 0;
    for (; k > 0; q--) {
        uint64_t half = (uint64_t)1 << q;
        tree[n++] = k < half ? 1 : 2;
        k -= k < half ? 1 : half;
    }
    tree[n++] = (uint16_t)(10 + q);
    for (size_t i = 0, nodes = n; i < nodes; i++)
        tree[n++] = 0;
    return n;
}

/* The number of a tree, and the tree of the number: into a list that is one entry short, just long enough, and longer. */
static void there_and_back(const uint16_t *list, size_t list_len, uint64_t k, const uint16_t *tree, size_t n) {
    uint16_t back[2 * STATES + 1];
    uint64_t value = 123456789;
    for (size_t i = 0; i <= n; i++)
        back[i] = MARK;
    check(treenum_number(STATES, halving, halving_len, list, list_len, tree, n, &value) == TREENUM_RESULT && value == k, "a number of 64 bits");
    check(treenum_write(STATES, halving, halving_len, list, list_len, k, back, n - 1, &value) == TREENUM_SHORT_TREE_LIST && value == n &&
              back[0] == MARK,
          "one entry short");
    check(treenum_write(STATES, halving, halving_len, list, list_len, k, back, n, &value) == TREENUM_RESULT && value == n &&
              memcmp(tree, back, n * sizeof tree[0]) == 0 && back[n] == MARK,
          "a number of 64 bits, written");
    for (size_t i = 0; i <= n; i++)
        back[i] = MARK;
    check(treenum_write(STATES, halving, halving_len, list, list_len, k, back, n + 1, &value) == TREENUM_RESULT && value == n &&
              memcmp(tree, back, n * sizeof tree[0]) == 0 && back[n] == MARK,
          "a number of 64 bits, written into more");
}

static const uint64_t numbers[] = {0, 1, 63, 4294967294, 4294967295, 4294967296, 4294967297, 9223372036854775807u, 9223372036854775808u,
                                   9223372036854775809u, 12297829382473034410u, UINT64_MAX - 2, UINT64_MAX - 1};

static void as_many_as_can_be(void) {
    static const uint16_t last[] = {STATES - 1}, two[] = {STATES - 2, 0}, first[] = {STATES - 1, 0}, other[] = {0, STATES - 1};
    uint16_t tree[2 * STATES];
    uint64_t value = 1;
    for (uint16_t q = 0; q < STATES; q++) {
        uint16_t below = (uint16_t)(q - 1);
        put_row(10u + q, q, &below, 0);
        for (unsigned symbol = 1; symbol <= 2 && q > 0; symbol++)
            put_row(symbol, q, &below, 1);
    }
    check(treenum_check(STATES, halving, halving_len, last, 1, &value) == TREENUM_RESULT && value == UINT64_MAX, "a total of 2 to the 64th less 1");
    for (size_t i = 0; i < sizeof numbers / sizeof numbers[0]; i++)
        there_and_back(last, 1, numbers[i], tree, tree_of(STATES - 1, numbers[i], tree));
    check(tree[0] == 2 && tree[STATES - 2] == 2 && tree[STATES - 1] == 10 && tree[STATES] == 0, "the last tree");
    value = 1;
    uint16_t none = MARK;
    check(treenum_write(STATES, halving, halving_len, last, 1, UINT64_MAX, &none, 1, &value) == TREENUM_NUMBER_NOT_BELOW_TOTAL && value == 0 && none == MARK,
          "2 to the 64th less 1, of the last table too");
    /* 2 to the 63rd trees by the state below and by state 0, which comes after it: the last tree is the leaf of state 0 */
    check(treenum_check(STATES, halving, halving_len, two, 2, &value) == TREENUM_RESULT && value == 9223372036854775808u, "a total of 2 to the 63rd");
    there_and_back(two, 2, 9223372036854775806u, tree, tree_of(STATES - 2, 9223372036854775806u, tree));
    there_and_back(two, 2, 9223372036854775807u, tree, tree_of(0, 0, tree));
    check(treenum_write(STATES, halving, halving_len, two, 2, 9223372036854775808u, tree, 2 * STATES, &value) == TREENUM_NUMBER_NOT_BELOW_TOTAL && value == 0,
          "2 to the 63rd");
    /* the last tree of the last state: it has the value 2 to the 64th less 2 in a state that is not listed */
    size_t n = tree_of(STATES - 1, UINT64_MAX - 1, tree);
    check(treenum_number(STATES, halving, halving_len, two, 2, tree, n, &value) == TREENUM_NOT_ACCEPTED && value == n - 1, "a value in a state that is not listed");
    /* 2 to the 64th is 11, from both ends, and with another leaf 9 */
    check(treenum_number(STATES, halving, halving_len, first, 2, tree, n, &value) == TREENUM_TOTAL_ABOVE_LIMIT && value == 0, "a total of 2 to the 64th");
    check(treenum_write(STATES, halving, halving_len, other, 2, 0, tree, n, &value) == TREENUM_TOTAL_ABOVE_LIMIT && value == 0, "a total of 2 to the 64th");
    put_row(9, STATES - 1, &none, 0);
    check(treenum_number(STATES, halving, halving_len, last, 1, tree, n, &value) == TREENUM_COUNT_ABOVE_LIMIT && value == STATES - 1, "a count of 2 to the 64th");
    check(treenum_write(STATES, halving, halving_len, last, 1, 0, tree, n, &value) == TREENUM_COUNT_ABOVE_LIMIT && value == STATES - 1, "a count of 2 to the 64th");
    /* the same state unused */
    there_and_back(two, 2, 9223372036854775807u, tree, tree_of(0, 0, tree));
    n = tree_of(STATES - 1, UINT64_MAX - 1, tree);
    check(treenum_number(STATES, halving, halving_len, two, 2, tree, n, &value) == TREENUM_NOT_ACCEPTED && value == n - 1, "a tree of a state that is not used");
}

int main(void) {
    for (size_t i = 0; i < sizeof facts / sizeof facts[0]; i++) {
        const struct fact *f = &facts[i];
        uint16_t tree[ROOM], back[ROOM];
        uint64_t count = 0, value = 123456789, written = 0;
        check(treenum_read_term(NAMES, (const uint8_t *)f->term, strlen(f->term), tree, ROOM, &count) == TREENUM_RESULT, f->term);
        check(treenum_number(PAPER, tree, count, &value) == f->answer && value == f->value, f->term);
        if (f->answer != TREENUM_RESULT)
            continue;
        for (size_t k = 0; k < ROOM; k++)
            back[k] = MARK;
        check(treenum_write(PAPER, f->value, back, count - 1, &written) == TREENUM_SHORT_TREE_LIST && written == count && back[0] == MARK, f->term);
        check(treenum_write(PAPER, f->value, back, ROOM, &written) == TREENUM_RESULT && written == count, f->term);
        check(memcmp(tree, back, count * sizeof tree[0]) == 0 && back[count] == MARK && back[ROOM - 1] == MARK, f->term);
    }
    /* all twelve numbers, and those from 12 up */
    for (uint64_t n = 0; n < 14; n++) {
        uint16_t tree[ROOM] = {MARK};
        uint64_t count = 0, value = 123456789;
        uint32_t answer = treenum_write(PAPER, n, tree, ROOM, &count);
        check(n < 12 ? answer == TREENUM_RESULT : answer == TREENUM_NUMBER_NOT_BELOW_TOTAL && count == 0 && tree[0] == MARK, "a number written");
        if (n < 12)
            check(treenum_number(PAPER, tree, count, &value) == TREENUM_RESULT && value == n, "a number there and back");
    }
    uint16_t none = MARK;
    uint64_t value = 1;
    check(treenum_write(PAPER, UINT64_MAX, &none, 1, &value) == TREENUM_NUMBER_NOT_BELOW_TOTAL && value == 0 && none == MARK, "2 to the 64th less 1");
    check(treenum_number(257, rows, 0, accepting, 0, &none, 1, &value) == TREENUM_TOO_MANY_STATES && value == 0, "257 states");
    check(treenum_number(PAPER, &none, 0, &value) == TREENUM_NOT_A_TREE && value == 0, "an empty list");
    static const uint16_t long_tree[4097] = {1};
    check(treenum_number(PAPER, long_tree, 4097, &value) == TREENUM_TREE_TOO_LONG && value == 0, "4,097 entries");
    as_many_as_can_be();
    printf("C interface: %zu facts and %zu numbers, %zu failed\n", sizeof facts / sizeof facts[0], 14 + sizeof numbers / sizeof numbers[0], failed);
    return failed != 0;
}
