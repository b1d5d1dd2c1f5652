/* Checks tables with states that are in no accepted tree and count far too much, and numbers and writes the trees of the other states.
   Prints each failure, and returns 1 if there is one. */
#include <stdio.h>
#include <string.h>

#include "treenum.h"

enum { ROWS = 1024, ARGUMENTS = 16, MOST = 4096 };

#define LIST(...) (const uint16_t[]){__VA_ARGS__}, sizeof((const uint16_t[]){__VA_ARGS__}) / sizeof(uint16_t)

static uint64_t states;
static uint16_t rows[ROWS * (3 + ARGUMENTS)];
static size_t rows_len;
static uint16_t accepting[256];
static size_t accepting_len;
#define TABLE states, rows, rows_len, accepting, accepting_len

static int failures;

static void expect(const char *what, uint32_t answer, uint64_t value, uint32_t answer_due, uint64_t value_due) {
    if (answer == answer_due && value == value_due) return;
    printf("%s: %u %llu, not %u %llu\n", what, answer, (unsigned long long)value, answer_due, (unsigned long long)value_due);
    failures++;
}

static void begin(uint64_t count) {
    states = count;
    rows_len = accepting_len = 0;
}

static void row(unsigned symbol, unsigned target, const uint16_t *args, size_t count) {
    rows[rows_len++] = (uint16_t)symbol;
    rows[rows_len++] = (uint16_t)target;
    rows[rows_len++] = (uint16_t)count;
    for (size_t i = 0; i < count; i++) rows[rows_len++] = args[i];
}

static void leaf(unsigned symbol, unsigned target) { row(symbol, target, rows, 0); }

/* A row of 16 times the same argument. */
static void sixteen(unsigned symbol, unsigned target, unsigned arg) {
    uint16_t args[ARGUMENTS];
    for (int i = 0; i < ARGUMENTS; i++) args[i] = (uint16_t)arg;
    row(symbol, target, args, ARGUMENTS);
}

static void check(const char *what, const uint16_t *list, size_t count, uint32_t answer_due, uint64_t value_due) {
    memcpy(accepting, list, count * sizeof list[0]);
    accepting_len = count;
    uint64_t value = 123456789;
    uint32_t answer = treenum_check(TABLE, &value);
    expect(what, answer, value, answer_due, value_due);
}

static void number(const char *what, const uint16_t *tree, size_t n, uint32_t answer_due, uint64_t value_due) {
    uint64_t value = 123456789;
    uint32_t answer = treenum_number(TABLE, tree, n, &value);
    expect(what, answer, value, answer_due, value_due);
}

/* The number of a tree, and the tree of the number. */
static void both(const char *what, uint64_t k, const uint16_t *tree, size_t n) {
    static uint16_t written[MOST];
    uint64_t value = 123456789;
    number(what, tree, n, TREENUM_RESULT, k);
    uint32_t answer = treenum_write(TABLE, k, written, n, &value);
    expect(what, answer, value, TREENUM_RESULT, n);
    if (memcmp(tree, written, n * sizeof tree[0])) printf("%s: %llu is written as another tree\n", what, (unsigned long long)k), failures++;
}

/* A number that is not below the total. */
static void none(const char *what, uint64_t k) {
    uint16_t list[1] = {77};
    uint64_t value = 123456789;
    uint32_t answer = treenum_write(TABLE, k, list, 1, &value);
    expect(what, answer, value, TREENUM_NUMBER_NOT_BELOW_TOTAL, 0);
}

/* A thousand rows of one target. State 0 counts 1, state 1 counts 2, state 2 is empty; 3 counts 2 to the 16th, 4 the 64th, 5 the 1,024th.
   Every third of the rows of state 255 is over state 5 and then over nothing: it counts 0. The others are over 1 to 6 of state 0. */
static void one_target(void) {
    begin(256);
    leaf(1, 0);
    leaf(2, 1);
    leaf(3, 1);
    sixteen(1, 3, 1);
    row(1, 4, LIST(3, 3, 3, 3));
    sixteen(1, 5, 4);
    size_t first = rows_len;
    row(5, 255, LIST(5, 4, 3, 2));
    unsigned counting = 0;
    for (unsigned i = 0; i < ROWS - 8; i++) {
        uint16_t args[8] = {0};
        size_t n = 1 + i / 200;
        if (i % 3 == 0) {
            args[n++] = 5;
            args[n++] = 2;
        } else {
            counting++;
        }
        row(10 + i % 200, 255, args, n);
    }
    size_t last = rows_len;
    row(6, 255, LIST(4, 2));

    check("a thousand rows, not listed", LIST(1), TREENUM_RESULT, 2);
    check("a thousand rows", LIST(2, 255, 1), TREENUM_RESULT, counting + 2);
    uint64_t k = 0;
    for (unsigned i = 0; i < ROWS - 8; i++) {
        uint16_t tree[2 * 8];
        size_t n = 0, children = 1 + i / 200;
        tree[n++] = (uint16_t)(10 + i % 200);
        while (children-- > 0) {
            tree[n++] = 1;
            tree[n++] = 0;
        }
        tree[n++] = 0;
        if (i % 3 == 0)
            number("a tree of a row with two arguments more", tree, n, TREENUM_NOT_ACCEPTED, n - 1);
        else
            both("a tree of the thousand rows", k++, tree, n);
    }
    both("after the thousand rows", counting, LIST(2, 0));
    both("after the thousand rows", counting + 1, LIST(3, 0));
    none("a number above the thousand rows", counting + 2);
    /* the tree of state 3, in its middle and alone */
    uint16_t three[3 + 2 * ARGUMENTS] = {8, 1};
    for (int i = 0; i < ARGUMENTS; i++) three[2 + 2 * i] = 3;
    number("a tree of an unused state", three + 1, 2 + 2 * ARGUMENTS, TREENUM_NOT_ACCEPTED, 1 + 2 * ARGUMENTS);
    uint16_t over[5 + 2 * ARGUMENTS] = {0};
    memcpy(over, three, sizeof three);
    number("a tree over an unused state", over, 4 + 2 * ARGUMENTS, TREENUM_NOT_ACCEPTED, 3 + 2 * ARGUMENTS);

    /* the last row alone makes state 4 used; then the first row, with 2 to the 64th trees, makes 255 too big, and the last decides all the same */
    rows_len = last;
    row(6, 255, LIST(4, 0));
    check("too big by the last of a thousand rows", LIST(255), TREENUM_COUNT_ABOVE_LIMIT, 4);
    memcpy(rows + first + 3, (const uint16_t[]){3, 3, 3, 3}, 4 * sizeof rows[0]);
    check("too big by the first and by the last", LIST(255, 1), TREENUM_COUNT_ABOVE_LIMIT, 4);
    rows_len = last;
    check("too big by the first of a thousand rows", LIST(255, 1), TREENUM_COUNT_ABOVE_LIMIT, 255);
    check("too big by the first of a thousand rows, not listed", LIST(1, 0), TREENUM_RESULT, 3);
}

/* 256 states, each but the first over 16 of the one below it. With two leaves they count 2, 2 to the 16th, 2 to the 256th and so on; with
   one leaf they have one tree each, of 2, 34, 546, 8,738 entries and so on. Going down from the last without marks never ends. */
static void powers(unsigned leaves) {
    begin(256);
    for (unsigned i = 0; i < leaves; i++) leaf(1 + i, 0);
    for (unsigned q = 1; q < 256; q++) sixteen(9, q, q - 1);
    uint32_t number_due = leaves == 1 ? TREENUM_LONGEST_TREE_ABOVE_LIMIT : TREENUM_COUNT_ABOVE_LIMIT;
    uint64_t place = leaves == 1 ? 3 : 2;
    check("powers, the last listed", LIST(255), number_due, place);
    check("powers, the last and the first listed", LIST(0, 255), number_due, place);
    check("powers, one in the middle listed", LIST(100, 0), number_due, place);
    check("powers, the first listed", LIST(0), TREENUM_RESULT, leaves);

    /* the last tree of state 1, and that of state 2, 16 times the former */
    static uint16_t tree[2 + ARGUMENTS * (2 + 2 * ARGUMENTS)];
    uint16_t one[2 + 2 * ARGUMENTS] = {9};
    for (int i = 0; i < ARGUMENTS; i++) one[1 + 2 * i] = (uint16_t)leaves;
    size_t n = 0;
    tree[n++] = 9;
    for (int i = 0; i < ARGUMENTS; i++, n += sizeof one / sizeof one[0]) memcpy(tree + n, one, sizeof one);
    tree[n++] = 0;
    check("powers, the second listed", LIST(1), TREENUM_RESULT, leaves == 1 ? 1 : 65536);
    both("the last tree of the second", leaves == 1 ? 0 : 65535, one, sizeof one / sizeof one[0]);
    none("a number above the second", leaves == 1 ? 1 : 65536);
    number("a tree of the third", tree, n, TREENUM_NOT_ACCEPTED, n - 1);
    number("a tree of the third that ends too soon", tree, n - 1, TREENUM_NOT_A_TREE, n - 1);
    memcpy(tree + 1 + 15 * (2 + 2 * ARGUMENTS), (const uint16_t[]){8, 0, 0}, 3 * sizeof tree[0]);
    n = 1 + 15 * (2 + 2 * ARGUMENTS) + 3;
    number("a leaf that no state has, after 15 trees", tree, n, TREENUM_NOT_ACCEPTED, n - 2);
}

/* State q, up to 69, counts 2 to the power q + 1, by two rows over the one below it. State 70 is empty, state 71 has the row that is asked
   about, and state 72 that of 71 with state 70 as one more argument, last and first, and then a row over another state. */
static void make_doubled(const uint16_t *args, size_t count, uint16_t other) {
    uint16_t more[ARGUMENTS];
    memcpy(more, args, count * sizeof args[0]);
    more[count] = 70;
    begin(73);
    for (unsigned q = 0; q < 70; q++)
        for (unsigned symbol = 1; symbol <= 2; symbol++) {
            uint16_t below = (uint16_t)(q - 1);
            row(symbol, q, &below, q > 0);
        }
    row(3, 71, args, count);
    row(3, 72, more, count + 1);
    memmove(more + 1, more, count * sizeof more[0]);
    more[0] = 70;
    row(4, 72, more, count + 1);
    row(5, 72, &other, 1);
}

/* A product of 2 to the 64th or more, beside a state that counts 2 to the power of bits: it is refused at the place if it is used. */
static void doubled(unsigned bits, const uint16_t *args, size_t count, uint64_t place) {
    uint16_t other = (uint16_t)(bits - 1);
    const uint64_t total = (uint64_t)1 << bits;
    make_doubled(args, count, other);
    check("a product, not used", LIST(other), TREENUM_RESULT, total);
    check("a product, used", LIST(other, 71), TREENUM_COUNT_ABOVE_LIMIT, place);
    check("a product, used, and others that meet a 0", LIST(72, 71, other), TREENUM_COUNT_ABOVE_LIMIT, place);
    check("a product that meets a 0", LIST(72, 70), TREENUM_RESULT, total);
    uint16_t tree[2 + 2 * 63] = {5};
    uint64_t alternating = 0;
    for (unsigned i = 0; i < bits; i++) alternating = 2 * alternating + i % 2;
    for (unsigned i = 0; i < bits; i++) tree[1 + i] = 1;
    both("the first tree after products that meet a 0", 0, tree, 2 * bits + 2);
    for (unsigned i = 0; i < bits; i++) tree[1 + i] = (uint16_t)(1 + i % 2);
    both("a tree after products that meet a 0", alternating, tree, 2 * bits + 2);
    for (unsigned i = 0; i < bits; i++) tree[1 + i] = 2;
    both("the last tree after products that meet a 0", total - 1, tree, 2 * bits + 2);
    none("a number above them", total);
    none("the highest number", UINT64_MAX);
    /* through states that are used and not listed, up to the one with as many trees, and through states that are not used, up to 69, which counts
       2 to the 70th */
    uint16_t deep[2 * 71];
    for (int i = 0; i < 71; i++) deep[i] = 2, deep[71 + i] = 0;
    for (size_t n = 30; n <= 70; n++) number("a tree of a state that is not listed", deep + 71 - n, 2 * n, TREENUM_NOT_ACCEPTED, 2 * n - 1);
    number("a tree over an unused state", deep, 2 * 71, TREENUM_NOT_ACCEPTED, 2 * 71 - 1);
}

/* A product of 2 to the power of bits, which is at most 63. */
static void passing(unsigned bits, const uint16_t *args, size_t count) {
    make_doubled(args, count, 30);
    check("a product within the limit", LIST(71), TREENUM_RESULT, (uint64_t)1 << bits);
    check("a product within the limit, not used", LIST(0), TREENUM_RESULT, 2);
    check("a product within the limit that meets a 0", LIST(72, 71), TREENUM_RESULT, ((uint64_t)1 << bits) + 2147483648);
}

/* 1,024 rows, half of them unused. States 0 to 31 have a leaf each, 32 to 61 sixteen rows of 16 leaves each, and 62 to 255 the other 512 rows, of 16
   arguments each: for 62 states that count 16, for the others the state below and any lower ones. */
static void half(void) {
    static uint16_t trees[480][2 + 2 * ARGUMENTS];
    uint32_t drawn = 1;
    begin(256);
    for (unsigned q = 0; q < 32; q++) leaf(q + 1, q);
    for (unsigned i = 0; i < 480; i++) {
        uint16_t args[ARGUMENTS] = {(uint16_t)(i % 32), (uint16_t)(i / 32)};
        uint16_t *tree = trees[i % 30 * 16 + i / 30];
        for (int j = 2; j < ARGUMENTS; j++) args[j] = (drawn = drawn * 1664525 + 1013904223) >> 27;
        row(100, 32 + i % 30, args, ARGUMENTS);
        *tree++ = 100;
        for (int j = 0; j < ARGUMENTS; j++, tree += 2) *tree = (uint16_t)(args[j] + 1);
    }
    for (unsigned i = 0; i < 512; i++) {
        unsigned target = 62 + i % 194;
        uint16_t args[ARGUMENTS] = {(uint16_t)(target == 62 ? 32 : target - 1), (uint16_t)(32 + i / 194)};
        for (int j = 2; j < ARGUMENTS; j++) {
            drawn = drawn * 1664525 + 1013904223;
            args[j] = (uint16_t)(target == 62 ? 32 + (drawn >> 16) % 30 : (drawn >> 16) % target);
        }
        row(101, target, args, ARGUMENTS);
    }
    uint16_t lower[30], all[256];
    for (int i = 0; i < 30; i++) lower[i] = (uint16_t)(32 + i);
    for (int i = 0; i < 256; i++) all[i] = (uint16_t)i;
    check("half unused, all listed", all, 256, TREENUM_COUNT_ABOVE_LIMIT, 62);
    check("half unused, the last listed", LIST(255), TREENUM_COUNT_ABOVE_LIMIT, 62);
    check("half unused, the leaves listed", all, 32, TREENUM_RESULT, 32);
    check("half unused", lower, 30, TREENUM_RESULT, 480);
    for (uint64_t k = 0; k < 480; k++) both("a tree of the half that is used", k, trees[k], 2 + 2 * ARGUMENTS);
    none("a number above them", 480);
    /* the first row of state 62, with the first tree of each argument */
    static uint16_t tree[2 + ARGUMENTS * (2 + 2 * ARGUMENTS) + 2];
    const uint16_t *args = rows + 32 * 3 + 480 * (3 + ARGUMENTS) + 3;
    size_t n = 1;
    tree[n++] = 101;
    for (int j = 0; j < ARGUMENTS; j++, n += 2 + 2 * ARGUMENTS) memcpy(tree + n, trees[(args[j] - 32) * 16], sizeof trees[0]);
    n++;
    number("a tree of the unused half", tree + 1, n - 1, TREENUM_NOT_ACCEPTED, n - 2);
    tree[0] = 101;
    number("a tree over the unused half", tree, n + 1, TREENUM_NOT_ACCEPTED, n);
}

int main(void) {
    one_target();
    powers(1);
    powers(2);
    /* 2 to the 64th and above, of arguments that pass, in which 71 is the first state above the limit; and of arguments above it */
    for (unsigned bits = 31; bits <= 63; bits += 32) {
        doubled(bits, LIST(31, 31), 71);
        doubled(bits, LIST(30, 30, 1), 71);
        doubled(bits, LIST(62, 0), 71);
        doubled(bits, LIST(62, 1), 71);
        doubled(bits, LIST(20, 20, 20, 0), 71);
        doubled(bits, LIST(15, 15, 15, 15), 71);
        doubled(bits, LIST(62, 62, 62, 62, 62, 62, 62, 62, 62, 62, 62, 62, 62, 62, 62), 71);
        doubled(bits, LIST(63), 63);
        doubled(bits, LIST(63, 0), 63);
        doubled(bits, LIST(63, 63), 63);
        doubled(bits, LIST(62, 64), 63);
        doubled(bits, LIST(69, 69), 63);
        doubled(bits, LIST(0, 63, 0, 63), 63);
        doubled(bits, LIST(69, 69, 69, 69, 69, 69, 69, 69, 69, 69, 69, 69, 69, 69, 69), 63);
    }
    /* those that were above the limit before, and 2 to the 63rd */
    passing(62, LIST(30, 30));
    passing(32, LIST(31));
    passing(33, LIST(31, 0));
    passing(63, LIST(62));
    passing(63, LIST(30, 31));
    passing(63, LIST(20, 20, 20));
    half();
    if (failures) printf("%d failures\n", failures);
    return failures != 0;
}
