/* Lends null for each list of length 0, one at a time and all together. Prints each failure, and returns 1 if there is one. */
#include <stdio.h>

#include "treenum.h"

#define NONE NULL, 0
#define LENGTH(list) (sizeof(list) / sizeof(list)[0])

static const uint16_t rows[] = {1, 0, 0, 2, 0, 0}; /* the leaves 1 and 2 */
static const uint16_t accepting[] = {0};
static const uint16_t leaf[] = {2, 0};
static const uint8_t names[] = {'a', '\n', 'b', '\n'};
static const uint8_t text[] = {'b'};
#define ROWS rows, LENGTH(rows)
#define ACCEPTING accepting, LENGTH(accepting)
#define LEAF leaf, LENGTH(leaf)
#define NAMES names, LENGTH(names)
#define TEXT text, LENGTH(text)

static uint16_t entries[2];
static uint8_t bytes[1];
#define ENTRIES entries, LENGTH(entries)
#define BYTES bytes, LENGTH(bytes)

static uint64_t value;
static size_t calls, failed;

static void expect(const char *what, uint32_t answer, uint32_t expected, uint64_t expected_value) {
    calls++;
    if (answer != expected || value != expected_value) {
        printf("%s: answer %lu, value %llu; expected %lu and %llu\n", what, (unsigned long)answer, (unsigned long long)value,
               (unsigned long)expected, (unsigned long long)expected_value);
        failed++;
    }
    value = 123456789;
}

int main(void) {
    expect("check, no null", treenum_check(1, ROWS, ACCEPTING, &value), TREENUM_RESULT, 2);
    expect("check, rows", treenum_check(1, NONE, ACCEPTING, &value), TREENUM_RESULT, 0);
    expect("check, accepting", treenum_check(1, ROWS, NONE, &value), TREENUM_RESULT, 0);
    expect("check, all", treenum_check(1, NONE, NONE, &value), TREENUM_RESULT, 0);

    expect("number, no null", treenum_number(1, ROWS, ACCEPTING, LEAF, &value), TREENUM_RESULT, 1);
    expect("number, rows", treenum_number(1, NONE, ACCEPTING, LEAF, &value), TREENUM_NOT_ACCEPTED, 1);
    expect("number, accepting", treenum_number(1, ROWS, NONE, LEAF, &value), TREENUM_NOT_ACCEPTED, 1);
    expect("number, tree", treenum_number(1, ROWS, ACCEPTING, NONE, &value), TREENUM_NOT_A_TREE, 0);
    expect("number, all", treenum_number(1, NONE, NONE, NONE, &value), TREENUM_NOT_A_TREE, 0);

    expect("write, no null", treenum_write(1, ROWS, ACCEPTING, 1, ENTRIES, &value), TREENUM_RESULT, 2);
    expect("write, rows", treenum_write(1, NONE, ACCEPTING, 1, ENTRIES, &value), TREENUM_NUMBER_NOT_BELOW_TOTAL, 0);
    expect("write, accepting", treenum_write(1, ROWS, NONE, 1, ENTRIES, &value), TREENUM_NUMBER_NOT_BELOW_TOTAL, 0);
    expect("write, tree", treenum_write(1, ROWS, ACCEPTING, 1, NONE, &value), TREENUM_SHORT_TREE_LIST, 2);
    expect("write, all", treenum_write(1, NONE, NONE, 1, NONE, &value), TREENUM_NUMBER_NOT_BELOW_TOTAL, 0);

    expect("read, no null", treenum_read_term(NAMES, TEXT, ENTRIES, &value), TREENUM_RESULT, 2);
    expect("read, names", treenum_read_term(NONE, TEXT, ENTRIES, &value), TREENUM_FAULTY_NAMES, 0);
    expect("read, text", treenum_read_term(NAMES, NONE, ENTRIES, &value), TREENUM_NOT_A_TERM, 0);
    expect("read, tree", treenum_read_term(NAMES, TEXT, NONE, &value), TREENUM_SHORT_TERM_TREE, 2);
    expect("read, all", treenum_read_term(NONE, NONE, NONE, &value), TREENUM_FAULTY_NAMES, 0);

    expect("write a term, no null", treenum_write_term(NAMES, LEAF, BYTES, &value), TREENUM_RESULT, 1);
    expect("write a term, names", treenum_write_term(NONE, LEAF, BYTES, &value), TREENUM_FAULTY_NAMES, 0);
    expect("write a term, tree", treenum_write_term(NAMES, NONE, BYTES, &value), TREENUM_NOT_A_TREE, 0);
    expect("write a term, text", treenum_write_term(NAMES, LEAF, NONE, &value), TREENUM_SHORT_TEXT_LIST, 1);
    expect("write a term, all", treenum_write_term(NONE, NONE, NONE, &value), TREENUM_FAULTY_NAMES, 0);

    if (entries[0] != 2 || entries[1] != 0 || bytes[0] != 'b') {
        printf("the lists that were written to\n");
        failed++;
    }
    printf("C interface: %zu calls with null or without, %zu failed\n", calls, failed);
    return failed != 0;
}
