/* Reads and writes terms through the C interface, there and back. Prints each failure, and returns 1 if there is one. */
#include <stdio.h>
#include <string.h>

#include "treenum.h"

#define BYTES(s) (const uint8_t *)(s), sizeof(s) - 1
#define LIST(...) {__VA_ARGS__}, sizeof((const uint16_t[]){__VA_ARGS__}) / sizeof(uint16_t)

/* The lists that are lent have 40 items, filled with MARK; a test lends the first `room` of them. */
#define LENT 40
#define MARK 77

/* A text and a tree: `room` entries (bytes) are lent. Where the answer is a result the other form is expected at the front. */
static const struct test {
    const char *name;
    const uint8_t *names;
    size_t names_len;
    const uint8_t *text;
    size_t text_len;
    uint16_t tree[LENT];
    size_t tree_len;
    size_t room;
    uint32_t answer;
    uint64_t value;
} reading[] = {
    {"a leaf", BYTES("a\nb\n"), BYTES("b"), LIST(2, 0), 40, TREENUM_RESULT, 2},
    {"the paper's number 10", BYTES("a\nb\n"), BYTES("b(b(a,b),a(b,b),b)"),
     LIST(2, 2, 1, 0, 2, 0, 0, 1, 2, 0, 2, 0, 0, 2, 0, 0), 40, TREENUM_RESULT, 16},
    {"just room enough", BYTES("a\nb\n"), BYTES("a(a)"), LIST(1, 1, 0, 0), 4, TREENUM_RESULT, 4},
    {"an entry short", BYTES("a\nb\n"), BYTES("a(a)"), LIST(0), 3, TREENUM_SHORT_TERM_TREE, 4},
    {"no room", BYTES("a\nb\n"), BYTES("a"), LIST(0), 0, TREENUM_SHORT_TERM_TREE, 2},
    {"no names", BYTES(""), BYTES("a"), LIST(0), 40, TREENUM_FAULTY_NAMES, 0},
    {"equal names", BYTES("a\nb\na\n"), BYTES("a"), LIST(0), 40, TREENUM_FAULTY_NAMES, 2},
    {"a last line without a line feed", BYTES("a\nb"), BYTES("a"), LIST(0), 40, TREENUM_FAULTY_NAMES, 1},
    {"brackets with nothing in them", BYTES("a\nb\n"), BYTES("a()"), LIST(0), 40, TREENUM_NOT_A_TERM, 2},
    {"too soon an end", BYTES("a\nb\n"), BYTES("a("), LIST(0), 40, TREENUM_NOT_A_TERM, 2},
    {"an empty text", BYTES("a\nb\n"), BYTES(""), LIST(0), 40, TREENUM_NOT_A_TERM, 0},
    {"25 bytes", BYTES("a\nb\n"), BYTES("a(aaaaabbbbbaaaaabbbbbaaaaa)"), LIST(0), 40, TREENUM_NOT_A_TERM, 26},
    {"24 bytes", BYTES("a\naaaaabbbbbaaaaabbbbbaaaa\n"), BYTES("a(aaaaabbbbbaaaaabbbbbaaaa)"), LIST(1, 2, 0, 0), 40, TREENUM_RESULT, 4},
    {"a name not listed", BYTES("a\nb\n"), BYTES("a(b,c,d)"), LIST(0), 40, TREENUM_UNLISTED_NAME, 4},
    {"capitals", BYTES("a\nb\n"), BYTES("B(A,b)"), LIST(2, 1, 0, 2, 0, 0), 40, TREENUM_RESULT, 6},
    {"a list in capitals", BYTES("A\nB\n"), BYTES("b(a,B)"), LIST(2, 1, 0, 2, 0, 0), 40, TREENUM_RESULT, 6},
    {"several spellings", BYTES("Probe\nd-0_X\n"), BYTES("probe(D-0_x,PROBE,d-0_X)"), LIST(1, 2, 0, 1, 0, 2, 0, 0), 40, TREENUM_RESULT, 8},
    {"capitals, an entry short", BYTES("a\nb\n"), BYTES("A(a)"), LIST(0), 3, TREENUM_SHORT_TERM_TREE, 4},
    {"24 bytes in another spelling", BYTES("aaaaabbbbbaaaaabbbbbaaaA\nB\n"), BYTES("Aaaaabbbbbaaaaabbbbbaaaa(b)"), LIST(1, 2, 0, 0), 40,
     TREENUM_RESULT, 4},
    {"25 bytes in another spelling", BYTES("aaaaabbbbbaaaaabbbbbaaaa\n"), BYTES("AAAAABBBBBAAAAABBBBBAAAAA"), LIST(0), 40,
     TREENUM_NOT_A_TERM, 24},
    {"names equal but for the case of letters", BYTES("f\ng\nF\n"), BYTES("f"), LIST(0), 40, TREENUM_FAULTY_NAMES, 2},
    {"the same, after another fault", BYTES("f\n1\nF\n"), BYTES("f"), LIST(0), 40, TREENUM_FAULTY_NAMES, 1},
    {"the same, before another fault", BYTES("Probe\nprobe\n1\n"), BYTES("probe"), LIST(0), 40, TREENUM_FAULTY_NAMES, 1},
    {"24 bytes, equal but for the case of the last", BYTES("aaaaabbbbbaaaaabbbbbaaaa\naaaaabbbbbaaaaabbbbbaaaA\n"), BYTES("b"), LIST(0), 40,
     TREENUM_FAULTY_NAMES, 1},
    {"other bytes have no case", BYTES("a0\naP\na-\naM\na_\naO\n"), BYTES("am(A-,ao,a_,ap,A0)"), LIST(4, 3, 0, 6, 0, 5, 0, 2, 0, 1, 0, 0), 40,
     TREENUM_RESULT, 12},
    {"a name listed in no spelling", BYTES("a\nb\n"), BYTES("A(B,C,c)"), LIST(0), 40, TREENUM_UNLISTED_NAME, 4},
    {"a digit for a letter", BYTES("aP\n"), BYTES("a0"), LIST(0), 40, TREENUM_UNLISTED_NAME, 0},
    {"a byte beside the letters", BYTES("a\nb\n"), BYTES("A(B,[)"), LIST(0), 40, TREENUM_NOT_A_TERM, 4},
    {"byte 127 for an underscore", BYTES("a_\n"), BYTES("a\x7f"), LIST(0), 40, TREENUM_NOT_A_TERM, 1},
    {"the same in the eighth place", BYTES("abcdefg_\n"), BYTES("abcdefg\x7f"), LIST(0), 40, TREENUM_NOT_A_TERM, 7},
    {"the eighth byte", BYTES("abcdefgh\nabcdefgi\n"), BYTES("ABCDEFGI(abcdefgh)"), LIST(2, 1, 0, 0), 40, TREENUM_RESULT, 4},
    {"the ninth byte", BYTES("abcdefghi\nabcdefghj\n"), BYTES("abcdefghj(ABCDEFGHI)"), LIST(2, 1, 0, 0), 40, TREENUM_RESULT, 4},
    {"a fifth byte that differs", BYTES("abcdefgh\n"), BYTES("abcdEfgh(abcd0fgh)"), LIST(0), 40, TREENUM_UNLISTED_NAME, 9},
    {"sixteen bytes and no more", BYTES("abcdefghijklmnop\n"), BYTES("abcdefghijklmnopq"), LIST(0), 40, TREENUM_UNLISTED_NAME, 0},
}, writing[] = {
    {"a leaf", BYTES("a\nb\n"), BYTES("b"), LIST(2, 0), 40, TREENUM_RESULT, 1},
    {"the paper's number 10", BYTES("a\nb\n"), BYTES("b(b(a,b),a(b,b),b)"),
     LIST(2, 2, 1, 0, 2, 0, 0, 1, 2, 0, 2, 0, 0, 2, 0, 0), 40, TREENUM_RESULT, 18},
    {"just room enough", BYTES("a\nb\n"), BYTES("a(a)"), LIST(1, 1, 0, 0), 4, TREENUM_RESULT, 4},
    {"a byte short", BYTES("a\nb\n"), BYTES(""), LIST(1, 1, 0, 0), 3, TREENUM_SHORT_TEXT_LIST, 4},
    {"equal names", BYTES("a\nb\na\n"), BYTES(""), LIST(1, 0), 40, TREENUM_FAULTY_NAMES, 2},
    {"a bar first", BYTES("a\nb\n"), BYTES(""), LIST(0, 1), 40, TREENUM_NOT_A_TREE, 0},
    {"an entry above 255", BYTES("a\nb\n"), BYTES(""), LIST(1, 256, 0), 40, TREENUM_NOT_A_TREE, 1},
    {"an entry after the root's bar", BYTES("a\nb\n"), BYTES(""), LIST(1, 0, 1), 40, TREENUM_NOT_A_TREE, 2},
    {"too soon an end", BYTES("a\nb\n"), BYTES(""), LIST(1, 1, 0), 40, TREENUM_NOT_A_TREE, 3},
    {"a symbol without a name", BYTES("a\nb\n"), BYTES(""), LIST(1, 3, 0, 4, 0, 0), 40, TREENUM_UNNAMED_SYMBOL, 1},
    {"the list's spelling", BYTES("Probe\nd-0_X\n"), BYTES("Probe(d-0_X,Probe,d-0_X)"), LIST(1, 2, 0, 1, 0, 2, 0, 0), 40, TREENUM_RESULT, 24},
    {"24 bytes, the list's spelling", BYTES("aaaaabbbbbaaaaabbbbbaaaA\nB\n"), BYTES("aaaaabbbbbaaaaabbbbbaaaA(B)"), LIST(1, 2, 0, 0), 40,
     TREENUM_RESULT, 27},
    {"names equal but for the case of letters", BYTES("f\ng\nF\n"), BYTES(""), LIST(1, 0), 40, TREENUM_FAULTY_NAMES, 2},
};

static size_t failed;

static void say(const char *what, const struct test *t, uint32_t answer, uint64_t value) {
    printf("%s, %s: answer %lu, value %llu; expected %lu and %llu, or another list\n", what, t->name, (unsigned long)answer,
           (unsigned long long)value, (unsigned long)t->answer, (unsigned long long)t->value);
    failed++;
}

static void check(int holds, const char *what) {
    if (!holds) {
        printf("failed: %s\n", what);
        failed++;
    }
}

int main(void) {
    static const uint16_t long_tree[4097] = {1};
    static uint8_t long_text[65537];
    static uint16_t tree[TREENUM_TREE_ROOM], back[TREENUM_TREE_ROOM];
    for (size_t i = 0; i < sizeof reading / sizeof reading[0]; i++) {
        const struct test *t = &reading[i];
        uint16_t lent[LENT], expected[LENT];
        for (size_t k = 0; k < LENT; k++) {
            lent[k] = MARK;
            expected[k] = t->answer == TREENUM_RESULT && k < t->tree_len ? t->tree[k] : MARK;
        }
        uint64_t value = 123456789;
        uint32_t answer = treenum_read_term(t->names, t->names_len, t->text, t->text_len, lent, t->room, &value);
        if (answer != t->answer || value != t->value || memcmp(lent, expected, sizeof lent) != 0)
            say("reading", t, answer, value);
    }
    for (size_t i = 0; i < sizeof writing / sizeof writing[0]; i++) {
        const struct test *t = &writing[i];
        uint8_t lent[LENT], expected[LENT];
        for (size_t k = 0; k < LENT; k++) {
            lent[k] = MARK;
            expected[k] = t->answer == TREENUM_RESULT && k < t->text_len ? t->text[k] : MARK;
        }
        uint64_t value = 123456789;
        uint32_t answer = treenum_write_term(t->names, t->names_len, t->tree, t->tree_len, lent, t->room, &value);
        if (answer != t->answer || value != t->value || memcmp(lent, expected, sizeof lent) != 0)
            say("writing", t, answer, value);
    }
    /* 12 and 18 */
    uint64_t value = 1;
    uint16_t entry = MARK;
    check(treenum_write_term(BYTES("a\n"), long_tree, 4097, long_text, sizeof long_text, &value) == TREENUM_TREE_TOO_LONG && value == 0,
          "writing 4,097 entries");
    value = 1;
    check(treenum_read_term(BYTES("a\n"), long_text, sizeof long_text, &entry, 1, &value) == TREENUM_TEXT_TOO_LONG && value == 0 &&
              entry == MARK,
          "reading 65,537 bytes");
    /* the longest term fits the rooms of the header: 2,048 nodes, each the only child of the one before, with a name of 24 bytes */
    const char *const name = "aaaaabbbbbaaaaabbbbbaaaa\n";
    for (size_t k = 0; k < TREENUM_TREE_ROOM; k++)
        tree[k] = k < TREENUM_TREE_ROOM / 2;
    check(treenum_write_term((const uint8_t *)name, 25, tree, TREENUM_TREE_ROOM, long_text, TREENUM_TERM_ROOM, &value) == TREENUM_RESULT &&
              value == 2048 * 24 + 2 * 2047 && value <= TREENUM_TERM_ROOM,
          "writing 4,096 entries");
    check(treenum_read_term((const uint8_t *)name, 25, long_text, value, back, TREENUM_TREE_ROOM, &value) == TREENUM_RESULT &&
              value == TREENUM_TREE_ROOM && memcmp(tree, back, sizeof tree) == 0,
          "reading 4,096 entries");
    memset(back, 0xff, sizeof back);
    value = 1;
    check(treenum_read_term(BYTES("AAAAABBBBBAAAAABBBBBAAAA\n"), long_text, 2048 * 24 + 2 * 2047, back, TREENUM_TREE_ROOM, &value) ==
                  TREENUM_RESULT &&
              value == TREENUM_TREE_ROOM && memcmp(tree, back, sizeof tree) == 0,
          "reading 4,096 entries, the list in capitals");
    /* 21: a node more */
    for (size_t k = 0; k < 2048; k++) {
        memcpy(long_text + 2 * k, "a(", 2);
        long_text[4097 + k] = ')';
    }
    long_text[4096] = 'a';
    check(treenum_read_term(BYTES("a\n"), long_text, 4097 + 2048, back, TREENUM_TREE_ROOM, &value) == TREENUM_TERM_TREE_TOO_LONG &&
              value == 0 && memcmp(tree, back, sizeof tree) == 0,
          "reading 4,098 entries");
    printf("C interface: %zu terms, %zu failed\n", sizeof reading / sizeof reading[0] + sizeof writing / sizeof writing[0] + 6, failed);
    return failed != 0;
}
