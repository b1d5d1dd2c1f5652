/* Numbered trees: the C interface of the library, libtreenum_c.a.
 *
 * A table is a count of states, its rows and its accepting list. The rows stand one after another in one list;
 * a row is its symbol (1 to 255), its target state, its argument count (0 to 16), and that many argument states,
 * each below the target. Places and row numbers count from 0. A state is used if some tree that the table accepts has a
 * subtree reaching it; only used states are held to the limits on count and longest tree.
 *
 * A tree is a list of entries: the symbol of a node, its children one after another, then the bar, which is 0.
 *
 * A names list is bytes: 1 to 255 names, each followed by a line feed; the first names symbol 1. A name is 1 to 24
 * bytes: an ASCII letter, then letters, digits, '-' or '_'. Two names are equal if they differ only in the case of
 * ASCII letters, and no two names of a list are equal. A term is a name, or a name followed by '(', one or more terms
 * with ',' between them, and ')', without blanks.
 *
 * Each function returns TREENUM_RESULT and puts its result in *value, or returns the number of a refusal and puts its
 * place there. On a refusal no list is written to.
 *
 * Each pointer is aligned and is valid for its length for as long as the call runs; that of a list with the length 0 may
 * be null, value may not. Lists that are const are only read. A list that is not const, and value, overlap nothing else.
 *
 * No function keeps anything, takes memory or has to be called before another: each call checks all that it is
 * lent. Calls in several threads at once are safe.
 */
#ifndef TREENUM_H
#define TREENUM_H

#include <stddef.h>
#include <stdint.h>

#ifdef __cplusplus
extern "C" {
#endif

/* What a function returns. Behind a refusal stand its ground and, after a semicolon, its place; where none is named,
 * the place is 0. */
enum {
    TREENUM_RESULT = 0,

    /* checking a table: rows in turn, then the accepting list, then used states in turn */
    TREENUM_TOO_MANY_STATES = 1,            /* more than 256 states */
    TREENUM_CUT_ROW = 2,                    /* fewer than three entries left, or fewer arguments left than counted; the row */
    TREENUM_TOO_MANY_ROWS_OR_ARGUMENTS = 3, /* a row beyond the 1,024th, or more than 16 arguments; the row */
    TREENUM_NOT_IN_RANGE = 4,               /* symbol 0 or above 255, or a target or argument that is no state; the row */
    TREENUM_ARGUMENT_NOT_BELOW_TARGET = 5,  /* an argument not below the target; the row */
    TREENUM_REPEATED_ROW = 6,               /* the symbol and arguments of an earlier row; the later row */
    TREENUM_ACCEPTING_ENTRY = 7,            /* an accepting entry that is no state or equals an earlier entry; the entry */
    /* 8, which was TREENUM_ACCEPTING_TOO_LONG, is withdrawn and not used again: it was never returned, so its case can
       go. A list longer than the count of states has an entry that is no state or equals an earlier one: 7 */
    TREENUM_COUNT_ABOVE_LIMIT = 9,          /* a used state's count above 18,446,744,073,709,551,615; the state */
    TREENUM_LONGEST_TREE_ABOVE_LIMIT = 10,  /* a used state's longest tree above 4,096 entries; the state */
    TREENUM_TOTAL_ABOVE_LIMIT = 11,         /* a total above 18,446,744,073,709,551,615 */

    /* taking a tree */
    TREENUM_TREE_TOO_LONG = 12, /* more than 4,096 entries */
    TREENUM_NOT_A_TREE = 13,    /* a list that is no tree; the first entry that is above 255, is a bar with no node open, or
                                   follows the root's bar, or the list's length if it ends too soon */
    TREENUM_NOT_ACCEPTED = 14,  /* a tree that the table does not accept; the first bar that closes a subtree reaching no
                                   state, or the last bar if the whole tree reaches a state that is not listed */

    /* writing the tree of a number */
    TREENUM_NUMBER_NOT_BELOW_TOTAL = 15, /* a number not below the total */
    TREENUM_SHORT_TREE_LIST = 16,        /* a lent list shorter than the tree; the entries needed */

    /* reading a term */
    TREENUM_FAULTY_NAMES = 17,       /* a names list against the rules; its first faulty line, or 0 if it is empty (of equal
                                        names, as Probe and probe, the later line is faulty, and so are a 256th line and a
                                        last line without a line feed) */
    TREENUM_TEXT_TOO_LONG = 18,      /* a text above 65,536 bytes */
    TREENUM_NOT_A_TERM = 19,         /* a text that is no term; the first byte with which no term can go on, or the text's
                                        length if it ends too soon */
    TREENUM_UNLISTED_NAME = 20,      /* a name equal to none in the list; the first byte of the earliest such name */
    TREENUM_TERM_TREE_TOO_LONG = 21, /* a term whose tree is above 4,096 entries */
    TREENUM_SHORT_TERM_TREE = 22,    /* a short lent tree list; the entries needed */

    /* writing a term */
    TREENUM_UNNAMED_SYMBOL = 23, /* a symbol above the count of names; the first such entry */
    TREENUM_SHORT_TEXT_LIST = 24 /* a short lent text list; the bytes needed */
};

/* A tree list with this many entries is never short, and neither is a text list with this many bytes. */
#define TREENUM_TREE_ROOM 4096
#define TREENUM_TERM_ROOM 53248

/* Checks a table. The result is its total, the count of the trees that it accepts; it can need all 64 bits. Refusals: 1
 * to 7 and 9 to 11, in this order but for 2 to 6, where the first faulty row decides, and 9 and 10, where the first
 * faulty used state does. */
uint32_t treenum_check(uint64_t states, const uint16_t *rows, size_t rows_len, const uint16_t *accepting,
                       size_t accepting_len, uint64_t *value);

/* Numbers a tree. The result is its number: how many of the trees that the table accepts come before it. The numbers are
 * those below the total: all of them fit 32 bits exactly if the total is at most 2 to the 32nd, 4,294,967,296. Refusals:
 * as the check, then 12, 13, 14. */
uint32_t treenum_number(uint64_t states, const uint16_t *rows, size_t rows_len, const uint16_t *accepting,
                        size_t accepting_len, const uint16_t *tree, size_t tree_len, uint64_t *value);

/* Writes the tree of a number into a tree list. The result is the count of entries, which are written at the front of
 * the list; the later ones stay. Refusals: as the check, then 15, 16. 18,446,744,073,709,551,615 (UINT64_MAX) is no
 * tree's number: it is 15 for every table that passes the check. */
uint32_t treenum_write(uint64_t states, const uint16_t *rows, size_t rows_len, const uint16_t *accepting,
                       size_t accepting_len, uint64_t number, uint16_t *tree, size_t tree_len, uint64_t *value);

/* Reads a term into a tree list; its names may have capital or small letters other than the list's. The result is the
 * count of entries, which are written at the front of the list; the later ones stay. Refusals: 17, 18, 19, 20, 21, 22. */
uint32_t treenum_read_term(const uint8_t *names, size_t names_len, const uint8_t *text, size_t text_len,
                           uint16_t *tree, size_t tree_len, uint64_t *value);

/* Writes a tree as a term, its names as they stand in the names list, into a text list. The result is the count of bytes, which
 * are written at the front of the list; the later ones stay. Refusals: 17, 12, 13, 23, 24. */
uint32_t treenum_write_term(const uint8_t *names, size_t names_len, const uint16_t *tree, size_t tree_len,
                            uint8_t *text, size_t text_len, uint64_t *value);

#ifdef __cplusplus
}
#endif

#endif
