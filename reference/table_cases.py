"""Cases of checking a table, for make_cases.py, and what draws tables.

A case is the count of states, the rows and the accepting list. edges() gives cases with their answers, written down
by hand; drawn(draw, count) gives so many drawn cases.
"""

import copy
import math
import random

# 'the limit in 9 and 11 becomes 18,446,744,073,709,551,615' (document 02, request (h)); before it was 4,294,967,295.
LIMIT = 2 ** 64 - 1
BEFORE = 2 ** 32 - 1


class Draw:
    """Random choices. Of Python's generator only random() stays the same from version to version."""

    def __init__(self, seed):
        self.random = random.Random(seed).random

    def below(self, n):
        if n <= 2 ** 50:
            return int(self.random() * n)
        # random() has 53 bits
        return (self.below(2 ** 48) * 2 ** 48 + self.below(2 ** 48)) * n >> 96

    def between(self, low, high):
        return low + self.below(high - low + 1)

    def chance(self, p):
        return self.random() < p

    def pick(self, items):
        return items[self.below(len(items))]

    def shuffled(self, items):
        items = list(items)
        for i in range(len(items) - 1, 0, -1):
            j = self.below(i + 1)
            items[i], items[j] = items[j], items[i]
        return items


class Table:
    """A table under construction. A row is the list of its entries, so that faults can be put in."""

    def __init__(self, states=0, rows=(), accepting=()):
        self.states = states
        self.rows = [list(row) for row in rows]
        self.accepting = list(accepting)
        self.extra = []    # entries after the last row
        self.dropped = 0   # entries missing at the end
        self.units = 0
        self.one = self.two = None

    def state(self):
        self.states += 1
        return self.states - 1

    def row(self, symbol, target, *arguments):
        self.rows.append([symbol, target, len(arguments), *arguments])

    def leaf_symbol(self):
        """A symbol without a leaf."""
        used = {row[0] for row in self.rows if row[2] == 0}
        return next(symbol for symbol in range(1, 256) if symbol not in used)

    def entries(self):
        flat = [entry for row in self.rows for entry in row] + self.extra
        return flat[:len(flat) - self.dropped]

    def case(self):
        return self.states, self.entries(), list(self.accepting)

    # Tables with given counts

    def unit(self, target):
        """A row that counts 1, each time another one."""
        if self.one is None:
            self.one = self.state()
            self.row(self.leaf_symbol(), self.one)
        if target is None:
            target = self.state()
        self.row(10 + self.units // 16, target, *[self.one] * (1 + self.units % 16))
        self.units += 1
        return target

    def counting(self, n):
        """A state that counts n, at least 1: digit by digit in base 2."""
        if self.two is None:
            self.two = self.state()
            self.row(self.leaf_symbol(), self.two)
            self.row(self.leaf_symbol(), self.two)
        state = self.unit(None)
        for digit in format(n, 'b')[1:]:
            below, state = state, self.state()
            self.row(4, state, self.two, below)
            if digit == '1':
                self.unit(state)
        return state

    def lengths(self):
        """States whose longest trees have 2, 34, 546 and 4,096 entries."""
        a, b, c, d = (self.state() for _ in range(4))
        self.row(self.leaf_symbol(), a)
        self.row(5, b, *[a] * 16)
        self.row(5, c, *[b] * 16)
        self.row(5, d, *[c] * 7, *[b] * 8)
        return a, b, c, d


# The edges: tables with their answers

PAPER = [[1, 0, 0], [2, 1, 0], [1, 2, 2, 0, 0], [2, 2, 2, 0, 1], [1, 3, 2, 1, 0], [1, 3, 2, 1, 1],
         [2, 3, 2, 1, 1], [1, 4, 2, 2, 2], [2, 4, 3, 2, 3, 1]]


def many_rows(count):
    """So many rows over two states. State 1 counts one less than there are rows."""
    rows = [[1, 0, 0]]
    rows += [[symbol, 1, 0] for symbol in range(2, 256)]
    rows += [[symbol, 1, k] + [0] * k for k in range(1, 17) for symbol in range(1, 256)]
    return rows[:count]


def flat(rows):
    return [entry for row in rows for entry in row]


def edges():
    # the paper's own table, with its accepting list, others, and rows in another order
    yield Table(5, PAPER, [2, 4]).case(), 'total 12'
    yield Table(5, PAPER, [4, 2]).case(), 'total 12'
    yield Table(5, PAPER, [4]).case(), 'total 10'
    yield Table(5, PAPER, [0, 1, 2, 3, 4]).case(), 'total 17'
    yield Table(5, PAPER, []).case(), 'total 0'
    yield Table(5, PAPER[::-1], [2, 4]).case(), 'total 12'

    # 95 to 97 rows of three entries; 289 entries; 64 and 65 states; 1,149 and 1,153 entries
    for count in (95, 96, 97, 351, 352):
        for states in (64, 65):
            yield Table(states, many_rows(count), [1, states - 1]).case(), f'total {count - 1}'
            yield Table(states, many_rows(count) + [[2, 0, 0]], [1]).case(), f'refused 6 {count}'
    yield Table(64, many_rows(95) + [[1, 63, 1, 0]], [63, 1]).case(), 'total 95'
    yield Table(64, many_rows(95) + [[1, 63, 1, 63]], [63]).case(), 'refused 5 95'
    yield Table(64, many_rows(95) + [[1, 64, 1, 63]], [63]).case(), 'refused 4 95'
    yield (64, flat(many_rows(96)) + [1], [1]), 'refused 2 96'

    # tables without rows, empty states
    yield (0, [], []), 'total 0'
    yield (0, [], [0]), 'refused 7 0'
    yield (0, [1, 0, 0], []), 'refused 4 0'
    yield (1, [1, 0, 0], [0]), 'total 1'
    yield (5, [], [4, 0]), 'total 0'
    yield (3, [1, 1, 1, 0, 1, 2, 1, 1, 2, 2, 0], [0, 1, 2]), 'total 1'

    # the count of states
    yield (256, [1, 255, 0], [255]), 'total 1'
    yield (256, [], list(range(255, -1, -1))), 'total 0'
    yield (256, [], list(range(256)) + [0]), 'refused 7 256'
    yield (256, [1, 256, 0], []), 'refused 4 0'
    yield (257, [], []), 'refused 1 0'
    yield (257, [1], [300]), 'refused 1 0'
    yield (65535, [], []), 'refused 1 0'
    yield (65536, [], []), 'refused 1 0'
    yield (65537, [1, 0, 0], [0]), 'refused 1 0'
    yield (2 ** 32, [], []), 'refused 1 0'
    yield (2 ** 64 - 1, [1, 0, 0], [0]), 'refused 1 0'
    yield (2 ** 64 - 1, [], []), 'refused 1 0'

    # a cut row
    yield (2, [1], []), 'refused 2 0'
    yield (2, [1, 0], []), 'refused 2 0'
    yield (2, [1, 0, 0, 2], []), 'refused 2 1'
    yield (2, [1, 0, 0, 2, 0], []), 'refused 2 1'
    yield (5, flat(PAPER) + [7], [2, 4]), 'refused 2 9'
    yield (5, flat(PAPER) + [7, 7], [2, 4]), 'refused 2 9'
    yield (5, flat(PAPER)[:-1], [2, 4]), 'refused 2 8'
    yield (5, flat(PAPER)[:-3], [2, 4]), 'refused 2 8'
    yield (2, [1, 0, 1], []), 'refused 2 0'
    yield (2, [1, 0, 0, 1, 1, 2, 0], []), 'refused 2 1'
    yield (2, [1, 0, 0, 1, 1, 65535, 0], []), 'refused 2 1'
    yield (2, [1, 0, 65535], []), 'refused 2 0'
    yield (2, [1, 0, 0, 1, 1, 65533] + [0] * 200, []), 'refused 2 1'
    yield (2, [65535, 65535, 65535], []), 'refused 2 0'

    # argument counts
    yield (2, [1, 0, 0, 2, 1, 16] + [0] * 16, [1]), 'total 1'
    yield (2, [1, 0, 0, 2, 1, 16] + [0] * 15, []), 'refused 2 1'
    yield (2, [1, 0, 0, 2, 1, 17] + [0] * 16, []), 'refused 2 1'
    yield (2, [1, 0, 0, 2, 1, 17] + [0] * 17, []), 'refused 3 1'
    yield (2, [1, 0, 0, 2, 1, 17] + [0] * 18, []), 'refused 3 1'
    yield (2, [1, 0, 0, 2, 1, 300] + [0] * 300, []), 'refused 3 1'

    # symbols, targets, arguments
    yield (2, [0, 0, 0], []), 'refused 4 0'
    yield (2, [255, 0, 0], [0]), 'total 1'
    yield (2, [256, 0, 0], []), 'refused 4 0'
    yield (2, [257, 0, 0], []), 'refused 4 0'
    yield (2, [65535, 0, 0], []), 'refused 4 0'
    yield (2, [1, 2, 0], []), 'refused 4 0'
    yield (2, [1, 65535, 0], []), 'refused 4 0'
    yield (2, [1, 0, 0, 1, 1, 2, 0, 2], []), 'refused 4 1'
    yield (2, [1, 0, 0, 1, 1, 2, 65535, 0], []), 'refused 4 1'
    yield (2, [1, 0, 1, 0], []), 'refused 5 0'
    yield (3, [1, 1, 1, 2], []), 'refused 5 0'
    yield (3, [1, 0, 0, 1, 2, 3, 1, 0, 2], []), 'refused 5 1'
    yield (3, [1, 0, 0, 1, 2, 3, 1, 0, 1], [2]), 'total 0'

    # repeated rows: with the same target and with another; the order and number of arguments counts
    yield (2, [1, 0, 0, 1, 0, 0], []), 'refused 6 1'
    yield (2, [1, 0, 0, 1, 1, 0], []), 'refused 6 1'
    yield (4, flat([[1, 0, 0], [2, 1, 0], [1, 2, 2, 0, 1], [1, 2, 2, 1, 0]]), [2]), 'total 2'
    yield (4, flat([[1, 0, 0], [2, 1, 0], [1, 2, 2, 0, 1], [1, 3, 2, 0, 1]]), [2]), 'refused 6 3'
    yield (4, flat([[1, 0, 0], [1, 2, 1, 0], [1, 2, 2, 0, 0], [1, 2, 3, 0, 0, 0]]), [2]), 'total 3'
    yield (5, flat(PAPER + [[2, 4, 2, 1, 1]]), [2, 4]), 'refused 6 9'

    # the order of refusals within one row: 2 before 3, 4, 5, 6
    yield (2, [1, 0, 0, 0, 1, 2, 0], []), 'refused 2 1'
    yield (2, [1, 0, 0, 1, 9, 2, 0], []), 'refused 2 1'
    yield (2, [1, 0, 0, 1, 0, 3, 0, 0], []), 'refused 2 1'
    yield (2, [1, 0, 0, 1, 1, 1, 0, 1, 1, 1], []), 'refused 2 2'
    # 3 before 4: symbol, target, argument
    yield (2, [1, 0, 0, 0, 1, 17] + [0] * 17, []), 'refused 3 1'
    yield (2, [1, 0, 0, 1, 2, 17] + [0] * 17, []), 'refused 3 1'
    yield (2, [1, 0, 0, 1, 1, 17] + [0] * 16 + [2], []), 'refused 3 1'
    # 3 before 5
    yield (2, [1, 0, 0, 1, 1, 17] + [1] * 17, []), 'refused 3 1'
    # 4 before 5: symbol, target, a later argument
    yield (2, [0, 1, 1, 1], []), 'refused 4 0'
    yield (2, [256, 1, 1, 1], []), 'refused 4 0'
    yield (2, [1, 2, 1, 2], []), 'refused 4 0'
    yield (2, [1, 1, 2, 1, 2], []), 'refused 4 0'
    yield (2, [1, 1, 2, 2, 1], []), 'refused 4 0'
    # 4 before 6, 5 before 6
    yield (2, [1, 0, 0, 1, 2, 0], []), 'refused 4 1'
    yield (3, flat([[1, 0, 0], [1, 1, 1, 0], [1, 3, 1, 0]]), []), 'refused 4 2'
    yield (3, flat([[1, 0, 0], [1, 1, 1, 0], [1, 0, 1, 0]]), []), 'refused 5 2'
    # a row's fault before those of a later row, whatever their numbers
    yield (2, [1, 0, 0, 1, 1, 0, 7], []), 'refused 6 1'
    yield (2, flat([[1, 0, 0], [1, 1, 1, 1], [0, 0, 0]]), []), 'refused 5 1'
    yield (2, flat([[1, 0, 0], [9, 9, 0], [1, 1, 17], [0] * 17]), []), 'refused 4 1'
    yield (2, [1, 0, 0, 1, 1, 17] + [0] * 17 + [1], []), 'refused 3 1'

    # the count of rows
    yield Table(2, many_rows(1024), [1]).case(), 'total 1023'
    yield Table(2, many_rows(1024), [0, 1]).case(), 'total 1024'
    yield Table(2, many_rows(1025), [1]).case(), 'refused 3 1024'
    yield (2, flat(many_rows(1024)) + [9], []), 'refused 2 1024'
    yield (2, flat(many_rows(1024)) + [9, 1, 5, 0, 0, 0, 0], []), 'refused 2 1024'
    yield (2, flat(many_rows(1024)) + [9, 1, 17] + [0] * 16, []), 'refused 2 1024'
    yield (2, flat(many_rows(1024)) + [0, 9, 0], []), 'refused 3 1024'
    yield (2, flat(many_rows(1024)) + [9, 1, 1, 1], []), 'refused 3 1024'
    yield (2, flat(many_rows(1024)) + [1, 0, 0], []), 'refused 3 1024'
    yield (2, flat(many_rows(1023)) + [1, 1, 0], []), 'refused 6 1023'
    yield (2, flat(many_rows(1023)) + [0, 1, 0], []), 'refused 4 1023'

    # 1,024 rows, nearly all of 16 arguments that differ little; the last one new, and repeated
    wide = [[1, 0, 0], [2, 1, 0]] + [[7, 2, 16, *map(int, format(i, '016b'))] for i in range(1022)]
    yield (3, flat(wide), [2]), 'total 1022'
    yield (3, flat(wide[:-1] + [wide[2]]), [2]), 'refused 6 1023'
    # as many row entries as a line can have
    yield (1, [0] * 26000, []), 'refused 4 0'

    # the accepting list
    yield (5, flat(PAPER), [2, 4, 2]), 'refused 7 2'
    yield (5, flat(PAPER), [2, 2, 5]), 'refused 7 1'
    yield (5, flat(PAPER), [5, 2, 2]), 'refused 7 0'
    yield (5, flat(PAPER), [2, 65535]), 'refused 7 1'
    yield (5, flat(PAPER), [4, 3, 2, 1, 0, 3]), 'refused 7 5'
    yield (5, flat(PAPER), [4, 3, 2, 1, 0, 5, 5]), 'refused 7 5'
    yield (1, [1, 0, 0], [0] * 2000), 'refused 7 1'
    yield (1, [1, 0, 0, 1], [7]), 'refused 2 1'

    # the longest lists that the program takes
    yield (1, [0] * 66000, []), 'refused 4 0'
    yield (1, [1, 0, 0], [0] * 66000), 'refused 7 1'

    yield from limit_edges()

    # longest trees: 2, 34, 546 and 4,096 pass, 4,098 does not
    t = Table()
    a, b, c, d = t.lengths()
    t.accepting = [d, c, b, a]
    yield t.case(), 'total 4'
    t.row(5, t.state(), *[c] * 7, *[b] * 8, a)
    yield t.case(), 'total 4'
    t.accepting = []
    yield t.case(), 'total 0'
    t.accepting = [4]
    yield t.case(), 'refused 10 4'
    # 4,098 by one node above 4,096; 65,538 entries, 2 where 16 bits are kept
    t.rows[-1] = [5, 4, 1, d]
    yield t.case(), 'refused 10 4'
    t.rows[-1] = [5, 4, 16] + [d] * 16
    yield t.case(), 'refused 10 4'
    # the longest of several rows, wherever it stands
    t.rows[-1] = [5, 4, 2, d, a]
    t.row(6, 4, a)
    yield t.case(), 'refused 10 4'
    t.rows.reverse()
    yield t.case(), 'refused 10 4'
    # a row that counts 0 has no tree, however long its arguments' trees are
    t = Table()
    a, b, c, d = t.lengths()
    empty, top = t.state(), t.state()
    t.row(5, top, *[d] * 15, empty)
    t.row(6, top, b)
    t.accepting = [top]
    yield t.case(), 'total 1'
    t.row(7, t.state(), *[c] * 7, b, b, b, b, b, b, top, a, a)
    t.accepting = [top + 1]
    yield t.case(), 'total 1'

    # the first state decides, with 9 before 10 in one state; both come after 7 and before 11
    t = Table()
    a, b, c, d = t.lengths()
    long = t.state()
    t.row(5, long, d)
    half = t.counting(2 ** 63)
    large = t.state()
    t.row(5, large, half, half)
    t.accepting = [large, long]
    yield t.case(), f'refused 10 {long}'
    t.accepting = [long, half, half]
    yield t.case(), 'refused 7 2'
    t = Table()
    half = t.counting(2 ** 63)
    large = t.state()
    t.row(5, large, half, half)
    a, b, c, d = t.lengths()
    long = t.state()
    t.row(5, long, d)
    t.accepting = [long, large]
    yield t.case(), f'refused 9 {large}'
    t.rows = [row for row in t.rows if row[1] != large]
    t.row(5, long, half, half)
    yield t.case(), f'refused 9 {long}'
    t.rows[-1] = [5, long, 1, half]
    t.row(6, t.state(), half)
    t.accepting = [half, t.states - 1, long]
    yield t.case(), f'refused 10 {long}'

    yield from used_edges()


# 9 and 11 at the limit

def within(n, refusal):
    """The answer where n is the total, and the refusal where it is above the limit."""
    return f'total {n}' if n <= LIMIT else refusal


def limit_edges():
    # a single state, listed: at and about the limit, the limit before, and 2 ** 63
    for n in (BEFORE - 1, BEFORE, BEFORE + 1, 2 ** 33, 2 ** 63 - 1, 2 ** 63, 2 ** 63 + 1, LIMIT - 1, LIMIT, LIMIT + 1, LIMIT + 2, 2 ** 64 + BEFORE,
              2 ** 65 - 1):
        t = Table()
        t.accepting = [t.counting(n)]
        yield t.case(), within(n, f'refused 9 {lowest_above([(t.accepting[0], n)], None)}')

    # counts: 4,294,967,295 * 4,294,967,297 passes, and one tree more does not; 65,535 * 65,537, before
    for root in (2 ** 32, 2 ** 16):
        t = Table()
        a, b = t.counting(root - 1), t.counting(root + 1)
        top = t.state()
        t.row(1, top, a, b)
        t.accepting = [top]
        yield t.case(), f'total {root ** 2 - 1}'
        t.row(1, t.state(), b, a)
        yield t.case(), f'total {root ** 2 - 1}'
        t.accepting = [top + 1, top]
        yield t.case(), within(2 * root ** 2 - 2, 'refused 11 0')
        t.accepting = [top]
        t.unit(top)
        yield t.case(), within(root ** 2, f'refused 9 {top}')

    # 4,294,967,296 * 4,294,967,296 does not; 65,536 * 65,536, before. An empty argument in each place
    for n in (2 ** 32, 2 ** 16):
        t = Table()
        a = t.counting(n)
        empty, top = t.state(), t.state()
        t.row(1, top, a, a)
        yield t.case(), 'total 0'
        t.accepting = [top]
        yield t.case(), within(n ** 2, f'refused 9 {top}')
        t.accepting = [top, a]
        for arguments in ([a, a, empty], [a, empty, a], [empty, a, a], [a] * 15 + [empty], [empty, empty]):
            t.rows[-1] = [1, top, len(arguments), *arguments]
            yield t.case(), f'total {n}'
        # 2 ** 64, 2 ** 128 and 2 ** 256: 0 where a product keeps 64 bits
        for count in (2, 3, 4, 8, 16):
            t.rows[-1] = [1, top, count] + [a] * count
            yield t.case(), within(n ** count + n, f'refused 9 {top}')
        # a row of 0 beside such a row, and a row that uses a row of 0
        t.rows[-1] = [1, top, 3, a, a, empty]
        t.row(2, top, a, a)
        yield t.case(), within(n ** 2 + n, f'refused 9 {top}')
        t.rows[-1] = [2, t.state(), 1, top]
        t.accepting = [top + 1]
        yield t.case(), 'total 0'

    # sums of rows, and over the accepting list from both ends, at and above the limit: 2 ** 64 and a little more are small where 64 bits are kept
    sums = ([LIMIT], [2 ** 63, 2 ** 63 - 1], [2 ** 63, 2 ** 63], [1, LIMIT - 1], [1, LIMIT], [2, LIMIT], [LIMIT, LIMIT], [2 ** 63, 2 ** 63, 7],
            [2 ** 63 - 1, 2, 2 ** 63 - 1], [2 ** 62, 2 ** 63, 2 ** 62 - 1], [2 ** 62, 2 ** 63, 2 ** 62],
            [2 ** 31, 2 ** 31 - 1], [2 ** 31, 2 ** 31], [1, BEFORE], [BEFORE, BEFORE], [BEFORE, 2 ** 32, 2 ** 33])
    for counts in sums:
        t = Table()
        states = [t.counting(n) for n in counts]
        top = t.state()
        for state in states:
            t.row(9, top, state)
        t.accepting = [top]
        yield t.case(), within(sum(counts), f'refused 9 {top}')
        for accepting in (states, states[::-1]):
            t.accepting = accepting
            yield t.case(), within(sum(counts), 'refused 11 0')
    # a total over many states: 127 and 128 times 2 ** 57, and once more; 150 times the limit
    for n, count in ((2 ** 57, 128), (LIMIT, 150)):
        t = Table()
        most = t.counting(n)
        for symbol in range(1, count + 1):
            t.row(symbol, t.state(), most)
        for listed in (range(most + 2, t.states), range(most + 1, t.states), range(most, t.states)):
            t.accepting = list(listed)
            yield t.case(), within(n * len(listed), 'refused 11 0')

    # many rows of one state: sums at the limit and above it; 2 ** 64 is 0 where 64 bits are kept, and with one row more it is small
    for counts, rows in (([2 ** 56], 255), ([2 ** 56], 256), ([2 ** 56], 257), ([2 ** 55], 511), ([2 ** 55], 512), ([2 ** 55], 513),
                         ([2 ** 31, 2 ** 31], 3), ([2 ** 31, 2 ** 31], 4), ([2 ** 28, 2 ** 27], 511), ([2 ** 28, 2 ** 27], 512), ([LIMIT, LIMIT], 600),
                         ([LIMIT], 700), ([BEFORE, BEFORE], 2), ([2 ** 24], 256), ([2 ** 23], 512), ([BEFORE], 900)):
        t = Table()
        states = [t.counting(n) for n in counts]
        top = t.state()
        for i in range(rows):
            t.row(100 + i % 100, top, *states, *[t.one] * (i // 100))
        t.accepting = [top]
        yield t.case(), within(math.prod(counts) * rows, f'refused 9 {top}')


# 9 and 10 of used states only (document 02, request (c))

def beyond(t, kind):
    """A state above a limit over lower ones that are within it: it counts 2 ** 64, which is 0 where 64 bits are kept, or has a tree of 4,098 entries, or
    both.
    """
    half = t.counting(2 ** 32) if kind != 'long' else None
    longest = t.lengths()[3] if kind != 'big' else None
    state = t.state()
    if half is not None:
        t.row(1, state, half, half)
    if longest is not None:
        t.row(2, state, longest)
    return state


NUMBERS = {'big': 9, 'long': 10, 'both': 9}


def padded(t, states, entries):
    """The table with at least so many states and more than so many row entries: those of a state that is in no accepted tree."""
    pad = t.state()
    t.states = max(t.states, states)
    i = 0
    while len(t.entries()) <= entries:
        t.row(100 + i % 150, pad, *[pad - 1] * (1 + i // 150))
        i += 1
    return t


def one_beyond(kind):
    """A single state above a limit, with a leaf beside it: used in each way, and unused in each way."""
    number = NUMBERS[kind]

    def made():
        t = Table()
        leaf, empty = t.state(), t.state()
        t.row(t.leaf_symbol(), leaf)
        state = beyond(t, kind)
        return t, leaf, empty, state, t.state()

    # listed, and not listed
    t, leaf, empty, state, top = made()
    for accepting, answer in (([], 'total 0'), ([leaf], 'total 1'), ([empty], 'total 0'), ([empty, leaf, top], 'total 1'),
                              ([state], f'refused {number} {state}'), ([leaf, state], f'refused {number} {state}'),
                              ([state, leaf, empty, top], f'refused {number} {state}')):
        t.accepting = accepting
        yield t, answer
    # as an argument, of a row that counts above 0 or 0, of a listed state or not
    for arguments, used in (([state], True), ([leaf, state], True), ([state, leaf, state], True), ([leaf] * 15 + [state], True),
                            ([state, empty], False), ([empty, state], False), ([leaf, state, empty, leaf], False), ([state] * 15 + [empty], False)):
        t, leaf, empty, state, top = made()
        t.row(3, top, *arguments)
        for accepting in ([top], [leaf, top], [top, empty]):
            t.accepting = accepting
            yield t, f'refused {number} {state}' if used else f'total {accepting.count(leaf)}'
        t.accepting = [leaf, empty]
        yield t, 'total 1'
        # the same beside a row that counts, in front of it and behind it
        t.row(4, top, leaf, leaf)
        for _ in range(2):
            t.accepting = [top]
            yield t, f'refused {number} {state}' if used else 'total 1'
            t.accepting = [leaf]
            yield t, 'total 1'
            t.rows[-1], t.rows[-2] = t.rows[-2], t.rows[-1]
    # far below: through three states, one of which counts 0
    for hole in (None, 0, 1, 2):
        t, leaf, empty, state, top = made()
        states = [state, top, t.state(), t.state()]
        for i in range(3):
            t.row(6, states[i + 1], states[i], *[empty] * (hole == i), leaf)
        t.accepting = [states[3]]
        yield t, f'refused {number} {state}' if hole is None else 'total 0'
        t.accepting = [leaf, states[2]]
        yield t, f'refused {number} {state}' if hole in (None, 2) else 'total 1'
        t.accepting = [states[2], states[3], states[1], leaf]
        yield t, f'refused {number} {state}' if hole != 0 else 'total 1'


def two_beyond():
    """Two states above limits, apart: each of them used or not. The lower used one decides."""
    for low, high in (('big', 'big'), ('big', 'long'), ('long', 'big'), ('long', 'long'), ('both', 'long'), ('long', 'both')):
        t = Table()
        first = beyond(t, low)
        second = beyond(t, high)
        leaf = t.state()
        t.row(t.leaf_symbol(), leaf)
        over = t.state()
        t.row(7, over, leaf, second)
        for accepting, answer in (([leaf], 'total 1'), ([first], (low, first)), ([second], (high, second)), ([second, first], (low, first)),
                                  ([first, second], (low, first)), ([over], (high, second)), ([over, first], (low, first)), ([leaf, over], (high, second))):
            t.accepting = accepting
            yield t, answer if isinstance(answer, str) else f'refused {NUMBERS[answer[0]]} {answer[1]}'
        # the higher one over the lower one, and over the lower one and nothing
        t.row(8, second, first)
        t.accepting = [second]
        yield t, f'refused {NUMBERS[low]} {first}'
        empty = t.state()
        t.row(9, t.state(), second, empty)
        t.accepting = [leaf, t.states - 1, empty]
        yield t, 'total 1'


def lowest_above(chains, otherwise):
    """Of states that `counting` has made, and what they count: the lowest state above the limit in their chains. Each state of a
    chain has one binary digit more than the one before it, and the first with 65 is above the limit.
    """
    return min((state - (n.bit_length() - 65) for state, n in chains if n > LIMIT), default=otherwise)


def product_edges():
    """Products and sums at the limit, of states that are used and of such that are not: 2 ** 64 is 0 where 64 bits are kept, and a little more is small."""
    third, fifth = (2 ** 64 + 2) // 3, (2 ** 64 + 4) // 5
    assert 3 * third == 2 ** 64 + 2 and 5 * fifth == 2 ** 64 + 4
    for counts in ([2 ** 32 - 1, 2 ** 32 + 1], [2 ** 32, 2 ** 32], [2 ** 32 - 1, 2 ** 32 - 1], [2 ** 31, 2 ** 33], [2 ** 32 - 1, 2 ** 32],
                   [2 ** 32 + 1, 2 ** 32 + 1], [LIMIT, 1], [2 ** 63, 2], [2 ** 63, 3], [third, 3], [third - 1, 3], [fifth, 5], [2 ** 64, 1],
                   [2 ** 64, 2 ** 64]):
        t = Table()
        a, b = (t.counting(n) for n in counts)
        empty, leaf, top = t.state(), t.state(), t.state()
        t.row(t.leaf_symbol(), leaf)
        product = math.prod(counts)
        first = lowest_above(zip((a, b), counts), top)
        for arguments, accepting, n in (([a, b], [top], product), ([a, b], [leaf], 1), ([b, leaf, a], [top], product), ([b, leaf, a], [leaf, top], product + 1),
                                        ([a, b, empty], [leaf, top], 1), ([b, empty, a], [leaf, top], 1), ([empty, a, b], [leaf, top], 1),
                                        ([b, a] + [b] * 13 + [empty], [leaf, top], 1)):
            t.row(1, top, *arguments)
            t.accepting = accepting
            yield t, within(n, 'refused 11 0' if product <= LIMIT else f'refused 9 {first}')
            t.rows.pop()
    # counts within the limit whose product is 2 ** 64 or more; then rows over such a state
    for counts in ([2 ** 22, 2 ** 21, 2 ** 21], [2 ** 16] * 4, [2 ** 32 - 1, 2 ** 31, 4], [2 ** 32 - 1] * 3, [2 ** 63] * 16, [2 ** 4] * 16, [2 ** 8] * 8,
                   [third, 3, 1, 7]):
        t = Table()
        kept = {n: t.counting(n) for n in sorted({*counts})}
        empty, leaf, big, top = t.state(), t.state(), t.state(), t.state()
        t.row(t.leaf_symbol(), leaf)
        t.row(1, big, *map(kept.get, counts))
        t.accepting = [leaf]
        yield t, 'total 1'
        t.accepting = [big]
        yield t, f'refused 9 {big}'
        for arguments, answer in (([big], None), ([big, big], None), ([big] * 16, None), ([leaf, big, big, leaf], None), ([big, empty], 'total 1'),
                                  ([big, big, empty], 'total 1'), ([big] * 15 + [empty], 'total 1'), ([empty] + [big] * 15, 'total 1')):
            t.row(2, top, *arguments)
            t.accepting = [top, leaf]
            yield t, answer or f'refused 9 {big}'
            t.rows.pop()
    # sums of rows: the limit, 2 ** 64, and 2 ** 64 and more in between; then a row over such a state, which is above the limit anyway
    for counts in ([2 ** 63, 2 ** 63 - 1], [2 ** 63, 2 ** 63], [LIMIT, 1], [2 ** 64, 2 ** 64], [LIMIT, LIMIT, 2], [2 ** 62] * 4):
        t = Table()
        kept = {n: t.counting(n) for n in sorted({*counts})}
        leaf, big, top = t.state(), t.state(), t.state()
        t.row(t.leaf_symbol(), leaf)
        for i, n in enumerate(counts):
            t.row(1 + i, big, kept[n])
        t.row(9, top, big, big)
        first = lowest_above(((state, n) for n, state in kept.items()), big)
        t.accepting = [leaf]
        yield t, 'total 1'
        t.accepting = [big]
        yield t, within(sum(counts), f'refused 9 {first}')
        t.accepting = [top, leaf]
        yield t, f'refused 9 {first if sum(counts) > LIMIT else top}'
    # a total at the limit, beside states that are in no accepted tree: one within the limit, and some above it
    t = Table()
    most = t.counting(LIMIT)
    leaf, listed = t.state(), t.state()
    t.row(t.leaf_symbol(), leaf)
    t.row(1, listed, most)
    t.row(2, t.state(), most)
    t.row(3, t.state(), most)
    t.row(4, t.states - 1, leaf)
    t.row(5, t.state(), *[most] * 16)
    for accepting, answer in (([listed], f'total {LIMIT}'), ([most], f'total {LIMIT}'), ([listed, leaf], 'refused 11 0'), ([leaf, most], 'refused 11 0'),
                              ([listed, listed + 1], 'refused 11 0'), ([leaf], 'total 1'), ([most, listed + 2], f'refused 9 {listed + 2}'),
                              ([listed + 3, leaf], f'refused 9 {listed + 3}')):
        t.accepting = accepting
        yield t, answer


def chain_edges():
    """Chains of states that count more and more, unused, and used from some place on, beside the paper's table."""
    # state 5 counts 16, state 6 + k counts 16 ** (2 * k + 3): 16 ** 255 in state 132
    t = Table(5, PAPER, [2, 4])
    sixteen = t.state()
    for symbol in range(10, 26):
        t.row(symbol, sixteen)
    for k in range(127):
        below, state = t.states - 1, t.state()
        t.row(9, state, below, sixteen, sixteen)
    assert t.states == 133
    yield t, 'total 12'
    # 16 ** 15 is 2 ** 60, 16 ** 17 is 2 ** 68: state 12 passes, state 13 does not
    for accepting, answer in (([132], 'refused 9 13'), ([2, 13], 'refused 9 13'), ([2, 4, 12], f'total {12 + 16 ** 15}'), ([2, 9], f'total {2 + 16 ** 9}'),
                              ([2, 4, 8], f'total {12 + 16 ** 7}'), ([12, 11, 5], f'total {16 ** 15 + 16 ** 13 + 16}')):
        t.accepting = accepting
        yield t, answer
    # over it, states of 16 arguments each: 16 ** 255 to the 16th, and so on
    for _ in range(123):
        below, state = t.states - 1, t.state()
        t.row(9, state, *[below] * 16)
    assert t.states == 256
    for accepting, answer in (([2, 4], 'total 12'), ([255], 'refused 9 13'), ([12, 2], f'total {16 ** 15 + 2}')):
        t.accepting = accepting
        yield t, answer

    # states that are each over 16 of the one below: one tree each, with a longer and longer list; with two leaves, counts to the 16th
    for leaves, answers in ((1, {0: 'total 1', 2: 'total 1', 3: 'refused 10 3'}), (2, {0: 'total 2', 1: 'total 65536', 2: 'refused 9 2'})):
        t = Table(256, [[symbol, 0, 0] for symbol in range(1, 1 + leaves)] + [[9, q, 16] + [q - 1] * 16 for q in range(1, 256)])
        fault = answers[4 - leaves]
        for accepting, answer in (([0], answers[0]), ([0, 255], fault)):
            t.accepting = accepting
            yield t, answer
        # the same of 24 states
        t.states = 24
        t.rows = [row for row in t.rows if row[1] < 24]
        t.accepting = []
        yield t, 'total 0'
        for listed, answer in answers.items():
            t.accepting = [listed]
            yield t, answer
        # rows from the highest state down
        t.rows.reverse()
        t.accepting = [23]
        yield t, fault
        t.accepting = [0]
        yield t, answers[0]
        # nothing in the middle: all above it counts 0, and uses nothing
        t.rows = [row for row in t.rows if row[1] != 12]
        t.accepting = [0, 23]
        yield t, answers[0]
        t.accepting = [0, 23, 11]
        yield t, fault

    # doubling: state q counts 2 ** (q + 1). Used from 63 up is a fault, at 63
    t = Table(80, [[1, 0, 0], [2, 0, 0]] + [[symbol, q, 1, q - 1] for q in range(1, 80) for symbol in (1, 2)])
    for accepting, answer in (([], 'total 0'), ([30], f'total {2 ** 31}'), ([31], f'total {2 ** 32}'), ([32], f'total {2 ** 33}'), ([62], f'total {2 ** 63}'),
                              ([63], 'refused 9 63'), ([64], 'refused 9 63'), ([79], 'refused 9 63'), (list(range(31)), f'total {2 ** 32 - 2}'),
                              (list(range(32)), f'total {2 ** 33 - 2}'), (list(range(63)), f'total {2 ** 64 - 2}'), (list(range(64)), 'refused 9 63')):
        t.accepting = accepting
        yield t, answer
    # 11 where other states are above the limits, unused; 9 comes before it. All from 0 to 62 make 2 ** 64 + 12
    t.row(3, 62, 0)
    t.row(3, 61, 1)   # state 61 counts 2 ** 62 + 4, state 62 twice that and 2
    t.accepting = [62, 61, 60, 59, 0]
    yield t, f'total {2 ** 63 + 10 + 2 ** 62 + 4 + 2 ** 61 + 2 ** 60 + 2}'
    t.accepting = list(range(63))
    yield t, 'refused 11 0'
    t.accepting = list(range(63)) + [79]
    yield t, 'refused 9 63'


def many_used_edges():
    """Tables of a thousand rows: of one target, and of 16 arguments each."""
    # 255 leaves of states 0 to 254, and 769 rows of state 255, each over two of those: every state is used, or no other
    leaves = [[q + 1, q, 0] for q in range(255)]
    rows = [[1 + i % 250, 255, 2, i % 255, i // 255] for i in range(769)]
    t = Table(256, leaves + rows, [255])
    yield t, 'total 769'
    t.accepting = [7, 200]
    yield t, 'total 2'

    # state 255 has a thousand rows: some count 0, and the last alone names the state beyond a limit
    for kind in ('big', 'long'):
        t = Table()
        leaf, empty = t.state(), t.state()
        t.row(t.leaf_symbol(), leaf)
        state = beyond(t, kind)
        t.states = 256
        while len(t.rows) < 1023:
            i = len(t.rows)
            t.row(20 + i % 200, 255, *[leaf] * (1 + i // 200), *[empty] * (i % 3 == 0))
        counting = sum(row[1] == 255 and empty not in row[3:] for row in t.rows)
        t.row(19, 255, state)
        t.accepting = [255, leaf]
        yield t, f'refused {NUMBERS[kind]} {state}'
    t.rows[-1] = [19, 255, 2, state, empty]
    yield t, f'total {counting + 1}'

    # state 255 is above the limit by its first row already; a lower state is used by its last row alone
    for kind in ('big', 'long'):
        t = Table()
        state = beyond(t, kind)
        most = t.counting(LIMIT)
        leaf = t.state()
        t.row(t.leaf_symbol(), leaf)
        t.states = 256
        t.row(19, 255, most, most)
        while len(t.rows) < 1023:
            i = len(t.rows)
            t.row(20 + i % 200, 255, most, *[leaf] * (1 + i // 200))
        t.row(19, 255, state)
        t.accepting = [255]
        yield t, f'refused {NUMBERS[kind]} {state}'
    t.rows.pop()
    yield t, 'refused 9 255'

    # 1,024 rows, 992 of them with 16 arguments. States 0 to 31 have a leaf each; a row over them counts 1
    draw = Draw(7)

    def over_leaves():
        return [draw.below(32) for _ in range(16)]

    def with_rows(targets):
        t, seen = Table(256, [[q + 1, q, 0] for q in range(32)]), set()
        for target, arguments in targets:
            row = arguments()
            while tuple(row) in seen:
                row = arguments()
            seen.add(tuple(row))
            t.row(100, target, *row)
        return t

    # all used: states 240 to 254 have the more rows, states 32 to 239 one each, and state 255 is over 16 of them in each row
    named = draw.shuffled(range(32, 240))
    top = [[240 + k] + (named[15 * k:15 * k + 15] + named[:15])[:15] for k in range(15)]
    targets = [(q, over_leaves) for q in range(32, 240)] + [(240 + i % 15, over_leaves) for i in range(992 - 208 - 15)]
    targets += [(255, lambda row=row: row) for row in top]
    t = with_rows(targets)
    assert len(t.rows) == 1024 and {q for row in t.rows if row[1] == 255 for q in row[3:]} == set(range(32, 255))
    t.accepting = [255]
    yield t, f'total {992 - 208 - 15}'

    # half unused: the rows of states 63 to 255 are over any lower states but the leaves, most of them over such too, and count far too much
    targets = [(32 + i % 31, over_leaves) for i in range(496)]
    for i in range(496):
        target = 63 + i % 193
        targets.append((target, lambda target=target: [draw.between(32, target - 1) for _ in range(16)]))
    t = with_rows(targets)
    t.rows = draw.shuffled(t.rows)
    t.accepting = draw.shuffled(range(63))
    yield t, 'total 528'
    # used after all: state 63 is over 16 states that count 16, in each of its rows
    t.accepting = [32, 63]
    yield t, 'refused 9 63'


def used_edges():
    # 1 to 7 hold of all rows and entries, used or not: state 5 counts 100, state 6 counts 100 ** 16
    rows = PAPER + [[3, 5, 2, 4, 4], [3, 6, 16] + [5] * 16]
    yield Table(7, rows, [2, 4]).case(), 'total 12'
    yield Table(257, rows, [2, 4]).case(), 'refused 1 0'
    for row, number in (([3], 2), ([3, 6, 16] + [4] * 15, 2), ([3, 6, 17] + [4] * 17, 3), ([3, 7, 0], 4), ([256, 6, 1, 5], 4), ([3, 6, 1, 7], 4),
                        ([3, 6, 1, 6], 5), ([3, 5, 1, 6], 5), ([3, 6, 2, 4, 4], 6), ([3, 6, 16] + [5] * 16, 6), ([1, 6, 2, 2, 2], 6)):
        yield (7, flat(rows) + row, [2, 4]), f'refused {number} 11'
    yield Table(7, rows, [2, 4, 2]).case(), 'refused 7 2'
    yield Table(7, rows, [2, 4, 7]).case(), 'refused 7 2'
    yield Table(7, rows, [6, 6]).case(), 'refused 7 1'

    for kind in NUMBERS:
        for t, answer in one_beyond(kind):
            yield t.case(), answer
    # in tables of a middle and a large size too
    for states, entries, part in ((66, 300, 6), (70, 1200, 40)):
        for kind in NUMBERS:
            for n, (t, answer) in enumerate(one_beyond(kind)):
                if n % part == 4:
                    yield padded(copy.deepcopy(t), states, entries).case(), answer
    for made in (two_beyond, product_edges, chain_edges, many_used_edges):
        for t, answer in made():
            yield t.case(), answer


# Drawn tables

def sound(draw, states, rows, arguments, symbols):
    """At most so many rows, with at most so many arguments, over so many states and symbols.

    Some states have no rows, some are used by none. Rows come in any order of targets.
    """
    t = Table(states)
    filled = [state for state in range(states) if draw.chance(0.85)]
    seen = set()
    for _ in range(rows if filled else 0):
        target = draw.pick(filled)
        count = draw.between(0, arguments) if target > 0 else 0
        symbol = draw.between(1, symbols)
        key = (symbol, *(draw.below(target) for _ in range(count)))
        if key not in seen:
            seen.add(key)
            t.row(symbol, target, *key[1:])
    t.accepting = draw.shuffled(range(states))[:draw.between(0, states)]
    return t


def any_sound(draw):
    size = draw.random()
    if size < 0.70:
        return sound(draw, draw.between(1, 8), draw.between(3, 14), 3, draw.pick([2, 3, 6, 255]))
    if size < 0.85:
        return sound(draw, draw.between(3, 12), draw.between(6, 24), draw.pick([1, 2, 4]), draw.pick([4, 20]))
    if size < 0.95:
        return sound(draw, draw.between(2, 6), draw.between(3, 10), 16, draw.pick([1, 3, 255]))
    return sound(draw, draw.between(20, 256), draw.between(20, 60), 2, 9)


def renumbered(row, states):
    return [row[0], states[row[1]], row[2], *(states[argument] for argument in row[3:])]


def spread(draw, t, count):
    """Puts so many more states among those of t, without rows. Gives their numbers."""
    places = sorted(draw.shuffled(range(t.states + count))[:count])
    kept = [state for state in range(t.states + count) if state not in places]
    t.rows = [renumbered(row, kept) for row in t.rows]
    t.states += count
    t.accepting = [kept[state] for state in t.accepting]
    return places


def merged(draw, t, chain, accepted):
    """Puts the states and rows of a sound table without leaves in common among those of t, in any order."""
    places = spread(draw, t, chain.states)
    for row in chain.rows:
        t.rows.insert(draw.between(0, len(t.rows)), renumbered(row, places))
    for state in accepted:
        t.accepting.insert(draw.between(0, len(t.accepting)), places[state])


def half_drawn(draw, t):
    """Puts states into a sound table that are in no accepted tree, and so change no number: their rows are over any lower states,
    and most have many arguments, so that they soon count far too much. Rows that count 0 name some of them.
    """
    new = spread(draw, t, draw.between(1, 7))
    seen = {(row[0], *row[3:]) for row in t.rows}

    def put(target, arguments):
        for symbol in draw.shuffled([*{row[0] for row in t.rows}, draw.between(1, 255), draw.between(1, 255)]):
            if (symbol, *arguments) not in seen:
                seen.add((symbol, *arguments))
                t.rows.insert(draw.between(0, len(t.rows)), [symbol, target, len(arguments), *arguments])
                return

    for target in new:
        lower = list(range(target))
        likely = [state for state in new if state < target][-2:] + lower[-1:]
        for _ in range(draw.between(1, 3)):
            count = draw.pick([1, 2, 2, 3, 8, 16, 16]) if lower else 0
            base = draw.pick(likely or lower) if lower else None
            put(target, [base if draw.chance(0.7) else draw.pick(lower) for _ in range(count)])
    filled = {row[1] for row in t.rows}
    empty = [state for state in range(t.states) if state not in filled]
    for target in draw.shuffled(filled)[:2]:
        of_none = [state for state in empty if state < target]
        named = [state for state in new if state < target]
        if of_none and named:
            put(target, draw.shuffled([draw.pick(of_none)] + [draw.pick(named) for _ in range(draw.between(1, 15))]))


def squares(draw, t):
    """Six states that count 2, 4, 16, 256, 65,536 and 4,294,967,296, with leaves that t does not have."""
    chain = Table(6)
    used = {row[0] for row in t.rows if row[2] == 0}
    free = [symbol for symbol in range(1, 256) if symbol not in used]
    chain.row(free[0], 0)
    chain.row(free[1], 0)
    for state in range(1, 6):
        chain.row(draw.between(1, 255), state, state - 1, state - 1)
    return chain


# A fault of each kind, put into a sound table. Those within a row are put into row i. 8 is withdrawn (document 02,
# request (f)): a list longer than the count of states has an entry that is no state or a repeated one, which is 7.

def fault_1(draw, t, i):
    t.states = draw.pick([257, 258, 1000, 65535, 65536, 65537, 65536 + t.states, 2 ** 32 + t.states, 2 ** 63,
                          2 ** 64 - 1])


def fault_2(draw, t, i):
    kind = draw.below(4)
    if kind < 2:
        left = len([entry for row in t.rows[i:] for entry in row]) - 3
        t.rows[i][2] = draw.pick([left + 1, left + 2, left + 17, 65533, 65535])
    elif kind == 2:
        t.dropped = draw.between(1, max(1, len(t.rows[-1]) - 1))
    else:
        t.extra = [draw.pick([0, 1, 255, 256, 65535]) for _ in range(draw.between(1, 2))]


def fault_3(draw, t, i):
    row = t.rows[i]
    row[3:] = row[3:] + [draw.below(max(1, row[1])) for _ in range(draw.between(17, 20) - len(row[3:]))]
    row[2] = len(row) - 3


def fault_4(draw, t, i):
    row = t.rows[i]
    at = draw.pick([0, 1, *range(3, len(row))])
    if at == 0:
        row[0] = draw.pick([0, 256, 257, 511, 512, 65535])
    else:
        row[at] = min(65535, draw.pick([t.states, t.states + 1, 256, 257, 65535]))


def fault_5(draw, t, i):
    row = t.rows[i]
    if len(row) == 3:
        row.append(0)
        row[2] = 1
    if draw.chance(0.5):
        row[1] = draw.between(0, max(row[3:]))
    else:
        row[draw.between(3, len(row) - 1)] = draw.between(min(row[1], t.states - 1), t.states - 1)


def fault_6(draw, t, i):
    if i == 0:
        i = draw.between(1, len(t.rows))
        t.rows.insert(i, None)
    earlier = t.rows[draw.below(i)]
    above = max(earlier[3:], default=-1) + 1
    t.rows[i] = list(earlier)
    if draw.chance(0.5):
        t.rows[i][1] = draw.between(min(above, t.states - 1), t.states - 1)


def fault_7(draw, t, i):
    entry = draw.pick([t.states, t.states + 1, 256, 65535, *t.accepting, *t.accepting])
    t.accepting.insert(draw.between(0, len(t.accepting)), min(65535, entry))


def user(draw, chain):
    """The states to be listed, so that the last state of a chain is used: itself, or a state over it. Now and then it is not, for
    nothing lists it, or only a row that counts 0 names it.
    """
    last = chain.states - 1
    kind = draw.below(8)
    if kind < 4:
        return [last]
    if kind < 6:
        chain.row(draw.between(1, 255), chain.state(), *draw.shuffled([last] + [0] * draw.between(0, 3)))
        return draw.pick([[last + 1], [last, last + 1]])
    if kind == 6:
        empty, top = chain.state(), chain.state()
        chain.row(draw.between(1, 255), top, *draw.shuffled([last, empty] + [0] * draw.between(0, 3)))
        return draw.pick([[top], [top, empty], [0, top]])
    return draw.pick([[], [0]])


def fault_9(draw, t, i):
    chain = squares(draw, t)
    arguments = draw.pick([[5, 5], [4, 5, 4], [5, 5, 5, 5], [5, 2, 5], [2] * 16, [4, 4, 4, 3, 2, 1, 1]])
    chain.row(draw.between(1, 255), chain.state(), *arguments)
    merged(draw, t, chain, user(draw, chain))


def fault_10(draw, t, i):
    chain = Table(3)
    used = {row[0] for row in t.rows if row[2] == 0}
    chain.row(next(symbol for symbol in range(1, 256) if symbol not in used), 0)
    chain.row(draw.between(1, 255), 1, *[0] * 16)
    chain.row(draw.between(1, 255), 2, *[1] * 16)
    arguments = draw.pick([[2] * 8, [2] * 7 + [1] * 8 + [0], [2] * 16])
    chain.row(draw.between(1, 255), chain.state(), *draw.shuffled(arguments))
    merged(draw, t, chain, user(draw, chain))


def fault_11(draw, t, i):
    chain = squares(draw, t)
    first = draw.between(1, 254)
    chain.row(first, chain.state(), 0, 1, 2, 3, 4, 5)
    chain.row(first + 1, chain.state(), 0, 1, 2, 3, 4, 5)
    merged(draw, t, chain, [6, 7])


FAULTS = {1: fault_1, 2: fault_2, 3: fault_3, 4: fault_4, 5: fault_5, 6: fault_6, 7: fault_7, 9: fault_9,
          10: fault_10, 11: fault_11}
WITHIN_A_ROW = (6, 5, 4, 3, 2)
# New states first; then faults within a row, such that the later leave the earlier in place.
IN_ORDER = (9, 10, 11) + WITHIN_A_ROW + (7, 1)


def faulty(draw, kinds, same_row):
    t = any_sound(draw)
    while len(t.rows) < 3:
        t = any_sound(draw)
    if draw.chance(0.3):
        half_drawn(draw, t)
    for kind in IN_ORDER[:3]:
        if kind in kinds:
            FAULTS[kind](draw, t, 0)
    i, j = draw.shuffled(range(len(t.rows)))[:2]
    for kind in IN_ORDER[3:]:
        if kind in kinds:
            FAULTS[kind](draw, t, i)
            if not same_row:
                i = j
    return t


def large(draw, which):
    """Tables near the limits of rows and states."""
    kind = which % 4
    if kind == 0:
        return sound(draw, 256, 1040, 1, 255)
    if kind == 1:
        t = Table(draw.between(2, 256), many_rows(draw.between(1000, 1024)), [1])
        t.rows = draw.shuffled(t.rows)
        return t
    if kind == 2:
        t = sound(draw, 256, 1000, 2, 3)
        FAULTS[draw.pick([4, 5, 6])](draw, t, len(t.rows) - draw.between(1, 50))
        return t
    return sound(draw, 40, 300, 16, 255)


def drawn(draw, count):
    """Three sound tables of four; each kind of fault alone in turn, and each pair of kinds, in one row and in two."""
    alone = sorted(FAULTS)
    pairs = [(a, b) for a in alone for b in alone if a < b]
    for n in range(count):
        if n % 100 == 99:
            t = large(draw, n // 100)
        elif n % 8 == 2:
            t = faulty(draw, [alone[n // 8 % len(alone)]], False)
        elif n % 8 == 5:
            t = faulty(draw, pairs[n // 8 % len(pairs)], n // 8 // len(pairs) % 2 == 0)
        else:
            t = any_sound(draw)
            if draw.chance(0.2):
                half_drawn(draw, t)
        yield t.case()
