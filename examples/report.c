/* The way of a report: a logger makes a tree of what it measured and sends the tree's number, four bytes or eight; the
 * desk turns the bytes back into words.
 *
 *     tools/build treenum_c
 *     gcc -std=c11 -Iinclude examples/report.c target/staticlib/libtreenum_c.a -o target/report
 *     target/report
 */
#include <stdint.h>
#include <stdio.h>
#include <stdlib.h>

#include "treenum.h"

/* The agreed words, in the order of their symbols. */
enum { REPORT = 1, MORNING, EVENING, PLUS, MINUS, SHUT, OPEN, DIGIT };
static const uint8_t names[] = "report\nmorning\nevening\nplus\nminus\nshut\nopen\nd0\nd1\nd2\nd3\nd4\nd5\nd6\nd7\nd8\nd9\n";
#define NAMES names, sizeof names - 1

/* The permitted reports. A row: symbol, target state, argument count, argument states. */
enum { A_DIGIT, A_DOOR, A_TEMPERATURE, A_MORNING, AN_EVENING, A_REPORT, STATES };
static const uint16_t rows[] = {
    DIGIT,     A_DIGIT,       0,
    DIGIT + 1, A_DIGIT,       0,
    DIGIT + 2, A_DIGIT,       0,
    DIGIT + 3, A_DIGIT,       0,
    DIGIT + 4, A_DIGIT,       0,
    DIGIT + 5, A_DIGIT,       0,
    DIGIT + 6, A_DIGIT,       0,
    DIGIT + 7, A_DIGIT,       0,
    DIGIT + 8, A_DIGIT,       0,
    DIGIT + 9, A_DIGIT,       0,
    SHUT,      A_DOOR,        0,
    OPEN,      A_DOOR,        0,
    PLUS,      A_TEMPERATURE, 2, A_DIGIT,       A_DIGIT,
    MINUS,     A_TEMPERATURE, 2, A_DIGIT,       A_DIGIT,
    MORNING,   A_MORNING,     2, A_TEMPERATURE, A_DOOR,
    EVENING,   AN_EVENING,    2, A_TEMPERATURE, A_DOOR,
    REPORT,    A_REPORT,      1, A_MORNING, /* before the evening */
    REPORT,    A_REPORT,      2, A_MORNING,     AN_EVENING,
};
static const uint16_t accepting[] = {A_REPORT};
#define TABLE STATES, rows, sizeof rows / sizeof rows[0], accepting, sizeof accepting / sizeof accepting[0]

#define BAR 0

static void stop(const char *what, uint32_t refusal, uint64_t place) {
    printf("%s: refused %lu at %llu\n", what, (unsigned long)refusal, (unsigned long long)place);
    exit(1);
}

/* What is measured in the morning or the evening, as a tree at the end of a list: 38 tenths of a degree are plus(d3,d8). */
static size_t measured(uint16_t when, int tenths, uint16_t door, uint16_t *tree, size_t n) {
    const int size = abs(tenths);
    tree[n++] = when;
    tree[n++] = tenths < 0 ? MINUS : PLUS;
    tree[n++] = (uint16_t)(DIGIT + size / 10);
    tree[n++] = BAR;
    tree[n++] = (uint16_t)(DIGIT + size % 10);
    tree[n++] = BAR;
    tree[n++] = BAR;
    tree[n++] = door;
    tree[n++] = BAR;
    tree[n++] = BAR;
    return n;
}

/* How many bytes a number takes on the wire. The numbers are those below the total: 4 bytes hold all of them exactly if
 * the total is at most 2 to the 32nd, and 8 always do. Both sides have the table, so both get the same answer. */
enum { MOST_WIRE_BYTES = 8 };
static size_t wire_bytes(uint64_t total) {
    return total <= UINT64_C(1) << 32 ? 4 : 8;
}

/* The logger: the report's number, the highest byte first. */
static void send_report(uint64_t total, const uint16_t *tree, size_t n, uint8_t wire[MOST_WIRE_BYTES]) {
    uint64_t value;
    const uint32_t refusal = treenum_number(TABLE, tree, n, &value);
    if (refusal != TREENUM_RESULT)
        stop("logger", refusal, value);
    for (size_t i = wire_bytes(total); i-- > 0; value >>= 8)
        wire[i] = (uint8_t)(value & 0xff);
}

/* The desk: the words of a number, or what it is refused for. */
static void receive_report(uint64_t total, const uint8_t wire[MOST_WIRE_BYTES]) {
    static uint16_t tree[TREENUM_TREE_ROOM];
    static uint8_t text[TREENUM_TERM_ROOM];
    uint64_t number = 0, entries, bytes;
    for (size_t i = 0; i < wire_bytes(total); i++)
        number = number << 8 | wire[i];
    uint32_t refusal = treenum_write(TABLE, number, tree, TREENUM_TREE_ROOM, &entries);
    if (refusal == TREENUM_NUMBER_NOT_BELOW_TOTAL) {
        printf("desk: %llu is the number of no report\n", (unsigned long long)number);
        return;
    }
    if (refusal != TREENUM_RESULT)
        stop("desk", refusal, entries);
    refusal = treenum_write_term(NAMES, tree, entries, text, TREENUM_TERM_ROOM, &bytes);
    if (refusal != TREENUM_RESULT)
        stop("desk", refusal, bytes);
    printf("desk: %llu is %.*s\n", (unsigned long long)number, (int)bytes, (const char *)text);
}

int main(void) {
    /* once, at the start of either side */
    uint64_t total;
    const uint32_t refusal = treenum_check(TABLE, &total);
    if (refusal != TREENUM_RESULT)
        stop("table", refusal, total);
    printf("table: %llu reports are permitted\n", (unsigned long long)total);

    uint16_t tree[32];
    size_t n = 0;
    tree[n++] = REPORT;
    n = measured(MORNING, 38, SHUT, tree, n);
    n = measured(EVENING, -4, OPEN, tree, n);
    tree[n++] = BAR;

    uint8_t wire[MOST_WIRE_BYTES];
    send_report(total, tree, n, wire);
    printf("logger: %zu entries are sent as", n);
    for (size_t i = 0; i < wire_bytes(total); i++)
        printf(" %02x", wire[i]);
    printf("\n");
    receive_report(total, wire);

    /* damaged on the way; below the total it would be another report, so the wire needs a check of its own */
    wire[0] ^= 0x80;
    receive_report(total, wire);
    return 0;
}
