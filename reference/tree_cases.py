"""Cases of numbering a tree and of writing the tree of a number, for make_cases.py.

A case is the operation's number, the table (states, rows, accepting list), and the tree; or, to write, the number and
the lent list. edges() gives cases with their answers, written down by hand; enumerated(draw, count) gives all trees and
numbers of so many small tables, with answers from the trees listed one by one; drawn(draw, count) gives cases from so
many larger tables.
"""

from table_cases import BEFORE, LIMIT, PAPER, Table, any_sound, edges as table_edges, flat, half_drawn, many_rows, sound
from term_cases import NO_TREES, edited_tree, room, some_room
from treenum_reference import Counts, Row, all_trees, check, list_of, refused, refused_place, trees_in_order, whole_rows, write

NUMBER, WRITE = 2, 3


# The edges: a case, its answer, and what the lent list then holds: None where it is the same, or there is none

def node(symbol, *children):
    return [symbol, *(entry for child in children for entry in child), 0]


def a(*children):
    return node(1, *children)


def b(*children):
    return node(2, *children)


def number(table, tree, answer):
    return (NUMBER, *table, tree), answer, None


def written(table, k, tree):
    """The tree of number k, into a list that is just long enough."""
    return (WRITE, *table, k, room(len(tree))), f'result {len(tree)}', tree


def there_and_back(table, k, tree):
    """Number k is that of the tree."""
    yield number(table, tree, f'result {k}')
    yield written(table, k, tree)


def both(table, k, tree):
    """The same; also into lists that are short and longer."""
    n = len(tree)
    yield from there_and_back(table, k, tree)
    for count in (0, n - 1):
        yield (WRITE, *table, k, room(count)), f'refused 16 {n}', None
    yield (WRITE, *table, k, room(n + 3)), f'result {n}', tree + room(n + 3)[n:]


# the paper's trees: those of state 2, of state 3 and of state 4, in the order of the rows
TWO = [a(a(), a()), b(a(), b())]
THREE = [a(b(), a()), a(b(), b()), b(b(), b())]
FOUR = [a(TWO[0], TWO[0]), a(TWO[0], TWO[1]), a(TWO[1], TWO[0]), a(TWO[1], TWO[1]),
        b(TWO[0], THREE[0], b()), b(TWO[0], THREE[1], b()), b(TWO[0], THREE[2], b()),
        b(TWO[1], THREE[0], b()), b(TWO[1], THREE[1], b()), b(TWO[1], THREE[2], b())]

# trees over the paper's table that no state is reached by, with the first bar at which that is seen
STUCK = [
    ([3, 0], 1), ([255, 0], 1), (b(a(), a()), 5), (a(a(), b()), 5), (b(b(), a()), 5),
    # fewer and more children than any row has
    (a(a()), 3), (b(b()), 3), (a(a(), a(), a()), 7), (b(a(), b(), b()), 7), (a(*[a()] * 16), 33), (a(*[a()] * 17), 35),
    (b(TWO[0], THREE[0]), 13), (b(TWO[0], THREE[0], b(), b()), 17), (b(TWO[0]), 7), (a(TWO[0]), 7), (a(TWO[0], TWO[0], TWO[0]), 19),
    # children in another order, or of another state
    (b(THREE[0], TWO[0], b()), 15), (b(TWO[0], b(), THREE[0]), 15), (b(TWO[0], THREE[0], a()), 15), (b(TWO[0], TWO[0], b()), 15),
    (a(TWO[0], THREE[0]), 13), (a(FOUR[0], FOUR[0]), 29), (b(FOUR[0], THREE[0], b()), 23), (b(TWO[0], FOUR[0], b()), 23),
    # the first of several, by the place of its bar
    (a([3, 0], a()), 2), (a(a(), [3, 0]), 4), (a([3, 0], [4, 0]), 2), ([3, 4, 0, 0], 2), ([3, 1, 0, 4, 0, 0], 4), ([3, 1, 0, 0], 3),
    (a(b(a(), a()), b(a(), a())), 6), (a(TWO[0], b(a(), a())), 12), (b(b(a(), a()), [3, 0], b()), 6), (b(TWO[0], a(a()), [3, 0]), 10),
    (b(TWO[0], THREE[0], [3, 0]), 14), (b(TWO[0], THREE[0], b(b())), 16), (a(a(a(a(a())))), 6), (a(a(a(a(), a()))), 8),
]

# more than fits 32 bits, 63 bits; less where a number is cut to 32 or 16 bits
LARGE = [12, 13, 255, 256, 65535, 65536, 65536 + 3, 99999, 2 ** 31, BEFORE, 2 ** 32, 2 ** 32 + 1, 2 ** 32 + 11, 2 ** 33, 2 ** 63,
         2 ** 63 + 5, 2 ** 64 - 12, 2 ** 64 - 2, 2 ** 64 - 1]


def paper_edges():
    rows = flat(PAPER)
    paper = (5, rows, [2, 4])
    for k, tree in enumerate(TWO + FOUR):
        yield from both(paper, k, tree)
    # accepting lists in another order, shorter and longer
    for accepting, trees in (([4, 2], FOUR + TWO), ([4], FOUR), ([2], TWO), ([3, 0], THREE + [a()]), ([1, 3, 2], [b()] + THREE + TWO),
                             ([0, 1, 2, 3, 4], [a(), b()] + TWO + THREE + FOUR), ([4, 3, 2, 1, 0], FOUR + THREE + TWO + [b(), a()])):
        table = (5, rows, accepting)
        for k, tree in enumerate(trees):
            yield from there_and_back(table, k, tree)
        for tree in [a(), b()] + TWO + THREE + FOUR:
            if tree not in trees:
                yield number(table, tree, f'refused 14 {len(tree) - 1}')
        yield (WRITE, *table, len(trees), room(20)), 'refused 15 0', None
    # rows in another order: the last row of a target comes first
    table = (5, flat(PAPER[::-1]), [2, 4])
    trees = [b(x, y, b()) for x in TWO[::-1] for y in THREE[::-1]] + [a(x, y) for x in TWO[::-1] for y in TWO[::-1]]
    for k, tree in enumerate(TWO[::-1] + trees):
        yield from there_and_back(table, k, tree)

    # 14: no state, or one that is not listed
    for tree in (a(), b(), *THREE):
        yield number(paper, tree, f'refused 14 {len(tree) - 1}')
    for tree, place in STUCK:
        yield number(paper, tree, f'refused 14 {place}')
        yield number((5, rows, [0, 1, 2, 3, 4]), tree, f'refused 14 {place}')
    yield number(paper, [1, 0], 'refused 14 1')
    yield number(paper, [2, 1, 0, 1, 0, 0], 'refused 14 5')
    # no accepting entries, no rows, no states
    yield number((5, rows, []), TWO[0], 'refused 14 5')
    yield number((5, rows, []), [3, 0], 'refused 14 1')
    yield number((5, [], [0]), [1, 0], 'refused 14 1')
    yield number((0, [], []), [1, 0], 'refused 14 1')
    yield number((0, [], []), [1, 1, 0, 0], 'refused 14 2')
    yield number((0, [], []), [], 'refused 13 0')
    for table in ((5, rows, []), (5, [], [0, 3]), (0, [], [])):
        for k in (0, 1, 2 ** 64 - 1):
            yield (WRITE, *table, k, room(3)), 'refused 15 0', None

    # 12, then 13, then 14: a stuck subtree before a fault of form, or before too many entries
    for tree, place in NO_TREES:
        yield number(paper, tree, f'refused 13 {place}')
    for tree, place in (([3, 0, 0], 2), ([3, 0, 1], 2), ([3, 0, 256], 2), ([1, 3, 0, 1, 0], 5), ([1, 3, 0, 0, 0], 4), ([3, 256], 1), ([3], 1),
                        (b(a(), a()) + [0], 6), (b(a(), a()) + [1, 0], 6), ([1] + b(a(), a()), 7), ([1] + b(a(), a()) + [300, 0], 7),
                        (TWO[0] + [0], 6), (TWO[0] + TWO[0], 6), (TWO[0][:-1], 5), (FOUR[9] + [65535], 16), ([3, 0] * 2048, 2),
                        ([1] + [3, 0] * 2047 + [1], 4096)):
        yield number(paper, tree, f'refused 13 {place}')
    for tree in ([1] * 4097, [0] * 4097, [256] * 4097, [3, 0] + [0] * 4095, TWO[0] + [0] * 4091, [1] * 2049 + [0] * 2049, a(*[a()] * 2048),
                 [1] + [3, 0] * 2047 + [0, 0], [7] * 66000):
        yield number(paper, tree, 'refused 12 0')

    # 15, also before 16
    for k in LARGE:
        yield (WRITE, *paper, k, room(20)), 'refused 15 0', None
        yield (WRITE, *paper, k, []), 'refused 15 0', None
    # entries of any value are written over, and those after the tree stay
    yield (WRITE, *paper, 1, [0, 1, 65535, 2, 0, 65535, 0, 65535, 1]), 'result 6', [2, 1, 0, 2, 0, 0, 0, 65535, 1]


def long_edges():
    """Trees of 4,096 entries, and trees that go deep."""
    rows = flat(PAPER)
    # one within the other, side by side, and first the one and then the other
    yield number((5, rows, [2, 4]), [1] * 2048 + [0] * 2048, 'refused 14 2049')
    yield number((5, rows, [2, 4]), a(*[a()] * 2047), 'refused 14 4095')
    yield number((5, rows, [2, 4]), [1] * 1024 + [1, 0] * 1024 + [0] * 1024, 'refused 14 3072')
    yield number((5, rows, [2, 4]), a(*[a()] * 2046 + [[3, 0]]), 'refused 14 4094')
    yield number((1, [1, 0, 0], [0]), [1] * 2048 + [0] * 2048, 'refused 14 2049')
    yield number((0, [], []), [1] * 2048 + [0] * 2048, 'refused 14 2048')

    # a chain of 256 states: no tree that is accepted is deeper
    chain = (256, flat([[1, 0, 0]] + [[1, q, 1, q - 1] for q in range(1, 256)]), [255, 0, 17])
    yield from both(chain, 0, [1] * 256 + [0] * 256)
    yield number(chain, [1, 0], 'result 1')
    yield written(chain, 2, [1] * 18 + [0] * 18)
    yield number(chain, [1] * 255 + [0] * 255, 'refused 14 509')
    yield number(chain, [1] * 257 + [0] * 257, 'refused 14 513')
    yield number(chain, [1] * 2048 + [0] * 2048, 'refused 14 2304')

    # 2,048 nodes, all of them open or waiting when the innermost is closed; and the same from right to left
    for left in (True, False):
        table, tree = [[1, 0, 0]], [1, 0]
        for q in range(1, 256):
            leaves = 7 if q < 255 else 14
            table.append([1, q, leaves + 1, *([0] * leaves + [q - 1] if left else [q - 1] + [0] * leaves)])
            tree = [1, *([1, 0] * leaves + tree if left else tree + [1, 0] * leaves), 0]
        table = (256, flat(table), [255])
        yield number(table, tree, 'result 0')
        yield written(table, 0, tree)
    yield (WRITE, *table, 0, room(4095)), 'refused 16 4096', None

    # 'A leaf has 2 entries, a row of 16 leaves 34, a row of 16 of those 546. Seven of 546 and eight of 34 make 4,096'
    leaf = [9, 0]
    sixteen = node(5, *[leaf] * 16)
    more = node(5, *[sixteen] * 16)
    most = node(5, *[more] * 7, *[sixteen] * 8)
    table = (4, flat([[9, 0, 0], [5, 1, 16] + [0] * 16, [5, 2, 16] + [1] * 16, [5, 3, 15] + [2] * 7 + [1] * 8]), [3, 2, 0, 1])
    for k, tree in enumerate((most, more, leaf, sixteen)):
        yield from both(table, k, tree)
    yield (WRITE, *table, 0, room(4200)), 'result 4096', most + room(4200)[4096:]
    yield (WRITE, *table, 0, room(66000)), 'result 4096', most + room(66000)[4096:]
    yield number(table, most + [0], 'refused 12 0')
    yield number(table, node(5, *[more] * 7, *[sixteen] * 7, leaf), 'refused 14 4063')
    yield number(table, node(5, *[more] * 6, sixteen, more, *[sixteen] * 7), 'refused 14 4095')


def empty_edges():
    """States and rows that count 0, in front of those that are meant."""
    # state 1 is empty; state 3 has a row, and counts 0
    rows = [[1, 0, 0], [2, 0, 0], [1, 2, 1, 1], [1, 2, 1, 0], [2, 2, 1, 1], [2, 2, 2, 0, 0], [3, 2, 3, 0, 1, 0], [4, 3, 2, 2, 1],
            [5, 4, 2, 3, 2], [5, 4, 2, 2, 1], [5, 4, 2, 0, 2], [6, 4, 1, 3], [7, 4, 0], [8, 4, 2, 1, 3]]
    table = (5, flat(rows), [1, 2, 3, 0])
    trees = [a(a()), a(b()), b(a(), a()), b(a(), b()), b(b(), a()), b(b(), b()), a(), b()]
    for k, tree in enumerate(trees):
        yield from both(table, k, tree)
    yield (WRITE, *table, 8, room(9)), 'refused 15 0', None
    yield number(table, [7, 0], 'refused 14 1')
    yield number(table, node(3, a(), a(), a()), 'refused 14 7')
    yield number(table, node(4, a(a()), a()), 'refused 14 7')
    # state 4: row 10 counts 12, after two that count 0; row 12 counts 1
    table = (5, flat(rows), [3, 4, 1])
    for k in range(12):
        tree = node(5, trees[6 + k // 6], trees[k % 6])
        yield from there_and_back(table, k, tree)
    yield from both(table, 12, [7, 0])
    yield (WRITE, *table, 13, room(9)), 'refused 15 0', None
    # accepting lists of states that count 0
    for k in (0, 1, 2 ** 32):
        yield (WRITE, 5, flat(rows), [1, 3], k, room(9)), 'refused 15 0', None
    yield number((5, flat(rows), [1, 3]), a(), 'refused 14 1')
    # 4,294,967,296 twice and 0, in each order, before a row that counts 2, between two and after it: the rows are passed over
    squares = [[1, q, 2, q - 1, q - 1] for q in range(1, 6)]
    zeros = [[1, 7, 3, 5, 5, 6], [1, 7, 3, 5, 6, 5], [1, 7, 3, 6, 5, 5]]
    for rows in (zeros + [[9, 7, 1, 0], [8, 7, 1, 0]], [[9, 7, 1, 0], *zeros, [8, 7, 1, 0]], [[9, 7, 1, 0], [8, 7, 1, 0]] + zeros):
        table = (8, flat([[1, 0, 0], [2, 0, 0]] + squares + rows), [6, 7])
        for k, tree in enumerate((node(9, a()), node(9, b()), node(8, a()), node(8, b()))):
            yield from there_and_back(table, k, tree)
        yield (WRITE, *table, 4, room(9)), 'refused 15 0', None


def halving(states):
    """State q counts 2 ** (q + 1) - 1: its leaf, which has the symbol 10 + q, a(..) and b(..), each over the state below."""
    rows = []
    for q in range(states):
        rows += [[10 + q, q, 0]] + [[symbol, q, 1, q - 1] for symbol in (1, 2) if q > 0]
    return rows


def halved(q, k):
    """The tree of value k in state q of those: the leaf, then as many with a as with b."""
    if k == 0:
        return [10 + q, 0]
    return a(halved(q - 1, k - 1)) if k < 2 ** q else b(halved(q - 1, k - 2 ** q))


def bits_of(k, count):
    """The tree whose nodes, each but the last over the next, are a and b by the binary digits of k."""
    return [1 + int(bit) for bit in format(k, f'0{count}b')] + [0] * count


# numbers that 31, 32, 53 or 63 bits do not hold, and those below them
NOTABLE = [2 ** 31 - 1, 2 ** 31, 2 ** 32 - 2, 2 ** 32 - 1, 2 ** 32, 2 ** 32 + 1, 2 ** 53 + 1, 2 ** 63 - 1, 2 ** 63, 2 ** 63 + 1, 0xFEDCBA9876543210]


def sums_edges():
    """Numbers up to 18,446,744,073,709,551,614, and those up to 4,294,967,294 of the tables that had the most before."""
    for n in (32, 64):
        yield from halving_edges(n)
        yield from product_edges(n // 2)
    yield from digits_edges()
    yield from near_edges()


def halving_edges(n):
    """Tables with totals near 2 ** n."""
    rows = halving(n)
    # the last of state k: b(b(..b(leaf of 0)))
    last = [[2] * k + [10] + [0] * (k + 1) for k in range(n)]
    table = (n, flat(rows), [n - 1])
    total = 2 ** n - 1
    half = 2 ** (n - 1)
    for k, tree in ((0, [9 + n, 0]), (1, [1, 8 + n, 0, 0]), (2, [1, 1, 7 + n, 0, 0, 0]), (n - 1, [1] * (n - 1) + [10] + [0] * n), (half - 1, a(last[n - 2])),
                    (half, b([8 + n, 0])), (half + 1, b(a([7 + n, 0]))), (total - 2, [2] * (n - 2) + [1, 10] + [0] * n), (total - 1, last[n - 1])):
        assert tree == halved(n - 1, k)
        yield from both(table, k, tree)
    for k in NOTABLE:
        if 2 ** 31 < k < total - 2:
            yield from there_and_back(table, k, halved(n - 1, k))
    for k in (total, total + 1, 2 ** 33 - 2, 2 ** 63, LIMIT) if n == 32 else (LIMIT,):
        yield (WRITE, *table, k, room(140)), 'refused 15 0', None
    # all states but the last listed, from the highest down
    table = (n, flat(rows), list(range(n - 2, -1, -1)))
    total = 2 ** n - n - 1
    high, next_high = half - 1, half // 2 - 1   # what the first two count
    for k, tree in ((0, [8 + n, 0]), (high - 1, last[n - 2]), (high, [7 + n, 0]), (high + next_high - 1, last[n - 3]), (high + next_high, [6 + n, 0]),
                    (total - 4, [11, 0]), (total - 2, last[1]), (total - 1, [10, 0])):
        yield from there_and_back(table, k, tree)
    for k in (total, 2 ** n - 1):
        yield (WRITE, *table, k, room(140)), 'refused 15 0', None
    yield number(table, last[n - 1], f'refused 14 {2 * n - 1}')
    # and from 0 up
    table = (n, flat(rows), list(range(n - 1)))
    for k, tree in ((0, [10, 0]), (1, [11, 0]), (3, last[1]), (4, [12, 0]), (half - n, [8 + n, 0]), (total - 1, last[n - 2])):
        yield from there_and_back(table, k, tree)
    yield (WRITE, *table, total, room(140)), 'refused 15 0', None


def product_edges(n):
    """(2 ** n - 1) * (2 ** n + 1) trees, of a row over state n - 1 of `halving` and state n, which has the rows c(..) over n - 1, 200 and 201. So a number is
    2 ** n + 1 times the first value plus the second.
    """
    rows = halving(n) + [[3, n, 1, n - 1], [200, n, 0], [201, n, 0], [4, n + 1, 2, n - 1, n]]
    table = (n + 2, flat(rows), [n + 1])
    more, total = 2 ** n + 1, 2 ** (2 * n) - 1

    def tree(first, second):
        return node(4, halved(n - 1, first), [202 + second - more, 0] if second >= more - 2 else node(3, halved(n - 1, second)))

    leaf, last = [9 + n, 0], [2] * (n - 1) + [10] + [0] * n
    for k, expected in ((0, node(4, leaf, node(3, leaf))), (more - 3, node(4, leaf, node(3, last))), (more - 2, node(4, leaf, [200, 0])),
                        (more - 1, node(4, leaf, [201, 0])), (more, node(4, a([8 + n, 0]), node(3, leaf))), (total - more, node(4, last, node(3, leaf))),
                        (total - 1, node(4, last, [201, 0]))):
        assert expected == tree(k // more, k % more)
        yield from both(table, k, expected)
    for first, second in ((0, 1), (1, more - 1), (2 ** (n - 1), more - 2), (2 ** (n - 1), 2 ** (n - 1)), (more - 3, more - 2)):
        yield from there_and_back(table, first * more + second, tree(first, second))
    for k in NOTABLE:
        if 2 ** 32 <= k < total:
            yield from there_and_back(table, k, tree(k // more, k % more))
    for k in sorted({total, LIMIT}):
        yield (WRITE, *table, k, room(140)), 'refused 15 0', None
    # the arguments' trees are not listed, the greatest value among them
    for other in (last, [201, 0], node(3, last)):
        yield number(table, other, f'refused 14 {len(other) - 1}')


def near_edges():
    """Sums of earlier rows, and of accepting states listed earlier, up to the limit; unused states and unlisted ones beside them."""
    # state q, up to 63, counts 2 ** (q + 1), and values are the bits of its trees, the root's the highest; state 64 is empty. The rows of state 65 count
    # 2 ** 63, 0, 2 ** 62, 2 ** 61 and so on down to 4, 0, 2 and 1. State 66 counts 2 more, state 67 the square
    doubling = [[1, 0, 0], [2, 0, 0]] + [[symbol, q, 1, q - 1] for q in range(1, 64) for symbol in (1, 2)]
    rows = doubling + [[3, 65, 1, 62], [3, 65, 3, 63, 62, 64], [4, 65, 1, 61]] + [[5, 65, 1, q] for q in range(60, 0, -1)]
    rows += [[6, 65, 1, 64], [7, 65, 1, 0], [8, 65, 0], [9, 66, 1, 65], [8, 66, 1, 0], [9, 67, 2, 65, 65]]
    table = (68, flat(rows), [65])
    whole = node(3, bits_of(2 ** 63 - 1, 63))
    for k, tree in ((0, node(3, bits_of(0, 63))), (2 ** 63 - 1, whole), (2 ** 63, node(4, bits_of(0, 62))),
                    (2 ** 63 + 2 ** 62 - 1, node(4, bits_of(2 ** 62 - 1, 62))), (2 ** 63 + 2 ** 62, node(5, bits_of(0, 61))), (LIMIT - 7, node(5, bits_of(0, 2))),
                    (LIMIT - 4, node(5, bits_of(3, 2))), (LIMIT - 3, node(7, a())), (LIMIT - 2, node(7, b())), (LIMIT - 1, [8, 0])):
        yield from both(table, k, tree)
    for k in NOTABLE[2:7]:
        yield from there_and_back(table, k, node(3, bits_of(k, 63)))
    yield (WRITE, *table, LIMIT, room(140)), 'refused 15 0', None
    # trees of states that are used and not listed, and of such that are not used: 2 ** 64 trees, and more
    for tree in (bits_of(2 ** 63 - 1, 63), bits_of(2 ** 64 - 1, 64), node(9, [8, 0]), node(8, b()), node(9, [8, 0], [8, 0]), node(9, whole, [8, 0]),
                 node(9, whole, whole), node(9, whole), node(3, bits_of(2 ** 64 - 1, 64), bits_of(2 ** 63 - 1, 63))):
        yield number(table, tree, f'refused 14 {len(tree) - 1}')
    yield number(table, bits_of(2 ** 65 - 1, 65), 'refused 14 129')
    yield number(table, node(9, whole, [8, 0], whole), f'refused 14 {2 * len(whole) + 3}')
    yield number(table, node(9, [8, 0], node(9, [8, 0]), [10, 0]), 'refused 14 8')
    # listed with another: 11, and 9 before it
    for accepting, answer in (([65, 0], 'refused 11 0'), ([62, 65], 'refused 11 0'), ([65, 66], 'refused 9 66'), ([67], 'refused 9 67'),
                              ([63], 'refused 9 63')):
        yield number((68, flat(rows), accepting), [8, 0], answer)
        yield (WRITE, 68, flat(rows), accepting, 0, room(2)), answer, None

    # totals of 2 ** 63, of 2 ** 63 + 2, and of 2 ** 64 - 2, by accepting lists in both orders; state 63 is unused
    states = list(range(62, -1, -1))
    for accepting, cases in (([62], ((0, 0, 63), (2 ** 63 - 1, 2 ** 63 - 1, 63))),
                             ([62, 0], ((2 ** 63 - 1, 2 ** 63 - 1, 63), (2 ** 63, 0, 1), (2 ** 63 + 1, 1, 1))),
                             ([0, 62], ((0, 0, 1), (1, 1, 1), (2, 0, 63), (2 ** 63 + 1, 2 ** 63 - 1, 63))),
                             (states, ((2 ** 63 - 1, 2 ** 63 - 1, 63), (2 ** 63, 0, 62), (2 ** 64 - 5, 3, 2), (2 ** 64 - 4, 0, 1), (2 ** 64 - 3, 1, 1))),
                             (states[::-1], ((0, 0, 1), (2, 0, 2), (2 ** 32 - 2, 0, 32), (2 ** 63 - 3, 2 ** 62 - 1, 62), (2 ** 63 - 2, 0, 63),
                                             (2 ** 64 - 3, 2 ** 63 - 1, 63)))):
        table = (64, flat(doubling), accepting)
        for k, value, length in cases:
            yield from (both if k == cases[-1][0] else there_and_back)(table, k, bits_of(value, length))
        yield (WRITE, *table, cases[-1][0] + 1, room(130)), 'refused 15 0', None
        yield (WRITE, *table, LIMIT, room(130)), 'refused 15 0', None
        yield number(table, bits_of(2 ** 64 - 1, 64), 'refused 14 127')


def digits_edges():
    """Rows over leaves: a number's digits are its tree's leaves."""
    # a row of 16 arguments that count 2: the number's bits, the first child for the highest
    table = (2, [1, 0, 0, 2, 0, 0, 3, 1, 16] + [0] * 16, [0, 1])
    for k in (0, 1, 2, 255, 256, 32767, 32768, 43690, 65534, 65535):
        yield from both(table, k + 2, node(3, *([1 + int(bit), 0] for bit in format(k, '016b'))))
    yield (WRITE, *table, 65538, room(40)), 'refused 15 0', None
    # a row of five arguments that count 10: the number's digits
    table = (2, flat([[10 + digit, 0, 0] for digit in range(10)] + [[1, 1, 5, 0, 0, 0, 0, 0]]), [1])
    for k in (0, 9, 10, 12345, 99998, 99999):
        yield from both(table, k, node(1, *([10 + int(digit), 0] for digit in format(k, '05'))))
    yield (WRITE, *table, 100000, room(40)), 'refused 15 0', None
    # of a row of 16 arguments, the first of which counts 10, 15 or 15, and the others 10, 15 or 16
    for first, base in ((10, 10), (15, 15), (15, 16)):
        leaves = [[10 + digit, 0, 0] for digit in range(first)] + [[30 + digit, 1, 0] for digit in range(base)]
        table = (3, flat(leaves + [[1, 2, 16, 0] + [1] * 15]), [2])
        total = first * base ** 15
        for k in (0, base ** 15 - 1, base ** 15, total - 1, *NOTABLE[3:]):
            if k < total:
                digits = [k // base ** i % base for i in range(14, -1, -1)]
                yield from there_and_back(table, k, node(1, [10 + k // base ** 15, 0], *([30 + digit, 0] for digit in digits)))
        yield (WRITE, *table, total, room(40)), 'refused 15 0', None


def many_edges():
    """1,024 rows."""
    # row i counts 1, and its tree in state 1 has the value i - 1
    table = (2, flat(many_rows(1024)), [1])
    yield number(table, [255, 0], 'result 253')
    yield written(table, 254, [1, 1, 0, 0])
    yield from both(table, 1022, node(4, *[[1, 0]] * 4))
    yield (WRITE, *table, 1023, room(10)), 'refused 15 0', None
    yield number(table, node(5, *[[1, 0]] * 4), 'refused 14 9')
    yield number(table, [1, 0], 'refused 14 1')
    # nearly all with 16 arguments that differ little
    bits = [[*map(int, format(i, '016b'))] for i in range(1022)]
    table = (3, flat([[1, 0, 0], [2, 1, 0]] + [[7, 2, 16, *arguments] for arguments in bits]), [2, 0])
    yield number(table, node(7, *([1 + bit, 0] for bit in bits[1021])), 'result 1021')
    yield written(table, 682, node(7, *([1 + bit, 0] for bit in bits[682])))
    yield number(table, node(7, *([1 + int(bit), 0] for bit in format(1022, '016b'))), 'refused 14 33')


def unused_edges():
    """Trees through states that are in no accepted tree, and count too much or have too long trees (document 02, request (c))."""
    def stuck(table, tree, place):
        return number(table, tree, f'refused 14 {place}')

    def not_listed(table, tree):
        return stuck(table, tree, len(tree) - 1)

    # over the paper's table: state 5 counts 100, state 6 counts 100 ** 16
    rows = flat(PAPER + [[3, 5, 2, 4, 4], [3, 6, 16] + [5] * 16])
    table = (7, rows, [2, 4])
    for k, tree in enumerate(TWO + FOUR):
        yield from there_and_back(table, k, tree)
    yield (WRITE, *table, 12, room(20)), 'refused 15 0', None
    hundred = node(3, FOUR[9], FOUR[9])   # 34 entries, the last tree of state 5
    huge = node(3, *[hundred] * 16)       # 546 entries, the last tree of state 6
    for tree in (node(3, FOUR[0], FOUR[0]), hundred, huge, node(3, *[node(3, FOUR[0], FOUR[9])] * 16)):
        yield not_listed(table, tree)
    # the node over it reaches no state
    for tree in (a(hundred), node(3, hundred), node(3, hundred, FOUR[0]), node(3, FOUR[0], hundred), node(3, hundred, hundred), a(TWO[0], hundred),
                 a(huge), node(3, huge), b(huge), a(huge, huge), b(TWO[0], THREE[0], huge), b(huge, THREE[0], b()), node(3, huge, FOUR[9]), node(9, hundred, a(), huge),
                 node(3, *[hundred] * 15), node(3, *[hundred] * 17), node(3, *[hundred] * 15, FOUR[0]), node(3, *[hundred] * 8, TWO[0], *[hundred] * 7),
                 node(3, *[huge] * 7)):
        yield not_listed(table, tree)
    # a node within that one, before it and after it
    yield stuck(table, a(a(huge)), 548)
    yield stuck(table, a(a(huge), [9, 0]), 548)
    yield stuck(table, a(huge, [9, 0]), 548)
    yield stuck(table, a([9, 0], huge), 2)
    yield stuck(table, a(huge, b(a(), a())), 552)
    yield stuck(table, a(hundred, a(b(), [4, 0])), 39)
    yield stuck(table, node(3, *[hundred] * 15, [9, 0]), 512)
    yield stuck(table, node(3, hundred, node(3, FOUR[0], TWO[0]), *[hundred] * 14), 56)
    yield stuck(table, [1] * 10 + huge + [0] * 10, 556)
    # state 5 used, and state 6 not
    table = (7, rows, [2, 5])
    for i, j in ((0, 0), (0, 9), (3, 7), (9, 8), (9, 9)):
        yield from both(table, 2 + 10 * i + j, node(3, FOUR[i], FOUR[j]))
    yield not_listed(table, huge)
    yield not_listed(table, FOUR[9])
    yield number((7, rows, [2, 5, 6]), TWO[0], 'refused 9 6')
    yield (WRITE, 7, rows, [2, 5, 6], 0, room(6)), 'refused 9 6', None

    # unused states below the used ones and above: 1 to 8 count 2, 4, 16 to 2 ** 128, 9 counts 0. Of the rows of 10 those of 3 and 4 count 0
    rows = [[1, 0, 0], [10, 1, 0], [11, 1, 0]] + [[12, q, 2, q - 1, q - 1] for q in range(2, 9)]
    rows += [[3, 10, 2, 8, 9], [1, 10, 1, 0], [7, 12, 1, 8], [2, 10, 2, 0, 0], [4, 10, 2, 9, 7], [5, 10, 1, 1], [6, 11, 2, 10, 10]]
    table = (13, flat(rows), [9, 10, 0])
    trees = [a(a()), b(a(), a()), node(5, [10, 0]), node(5, [11, 0]), a()]
    for k, tree in enumerate(trees):
        yield from both(table, k, tree)
    yield (WRITE, *table, 5, room(9)), 'refused 15 0', None
    squares = [[11, 0]]
    for _ in range(7):
        squares.append(node(12, squares[-1], squares[-1]))
    for tree in squares[1:] + [[10, 0], [11, 0], node(7, squares[7]), node(6, trees[0], trees[3]), node(6, trees[3], trees[3])]:
        yield not_listed(table, tree)
    for tree in (node(3, squares[7]), node(3, squares[7], a()), node(4, a(), squares[6]), node(5, squares[1]), node(6, trees[0], squares[7]),
                 node(12, squares[6], squares[7]), node(12, squares[7], squares[7]), node(7, squares[6]), node(6, trees[4], trees[4])):
        yield not_listed(table, tree)
    yield stuck(table, node(6, trees[0], node(5, squares[7])), 5 + 511)
    yield stuck(table, node(6, node(5, squares[7]), trees[0]), 1 + 511)
    yield stuck(table, node(12, squares[7], [9, 0]), 512)
    # the used ones listed in another order, and an unused one that is small
    table = (13, flat(rows), [0, 1, 11, 9])
    for k, tree in ((0, a()), (1, [10, 0]), (2, [11, 0]), (3, node(6, trees[0], trees[0])), (6, node(6, trees[0], trees[3])), (18, node(6, trees[3], trees[3]))):
        yield from both(table, k, tree)
    yield not_listed(table, trees[0])
    yield not_listed(table, squares[7])

    # state q counts 2 ** (q + 1), and state 30 or 62 is listed: its numbers are the bits of its trees, the root's the highest
    rows = flat([[1, 0, 0], [2, 0, 0]] + [[symbol, q, 1, q - 1] for q in range(1, 256) for symbol in (1, 2)])
    for n in (31, 63):
        table = (256, rows, [n - 1])
        yield number(table, bits_of(2 ** n - 1, n), f'result {2 ** n - 1}')
        yield not_listed(table, [2] * 256 + [0] * 256)
        yield stuck(table, [2] * 257 + [0] * 257, 513)
        yield stuck(table, [2] * 2048 + [0] * 2048, 2304)
        # the same of 66 states
        table = (66, rows[:2 * 3 + 65 * 8], [n - 1])
        for k in (0, 1, 2 ** (n - 1), 2 ** n - 1, 0x2AAAAAAA, 0x2AAAAAAAAAAAAAAA):
            if k < 2 ** n:
                yield from there_and_back(table, k, bits_of(k, n))
        yield (WRITE, *table, 2 ** n, room(2 * n)), 'refused 15 0', None
        for depth in (30, 32, 33, 62, 64, 65, 66):
            yield not_listed(table, [2] * depth + [0] * depth)
        yield stuck(table, [2] * 67 + [0] * 67, 133)
        yield stuck(table, [2] * 10 + [3] + [2] * 64 + [0] * 75, 139)
        yield stuck(table, node(2, [2] * 64 + [0] * 64, [2] * 65 + [0] * 65), 259)

    # numbers up to 2 ** 32 - 2 in state 31, or up to 2 ** 64 - 2 in state 63, with states above it that count up to 2 ** 71 - 1
    for n in (32, 64):
        table = (71, flat(halving(71)), [n - 1])
        for k, tree in ((0, [9 + n, 0]), (1, [1, 8 + n, 0, 0]), (2 ** (n - 1), b([8 + n, 0])), (2 ** n - 2, [2] * (n - 1) + [10] + [0] * n)):
            yield from both(table, k, tree)
        yield (WRITE, *table, 2 ** n - 1, room(140)), 'refused 15 0', None
        for tree in ([10 + n, 0], b([9 + n, 0]), b(b([9 + n, 0])), [2] * 64 + [10] + [0] * 65, [2] * 70 + [10] + [0] * 71):
            yield not_listed(table, tree)
        yield stuck(table, [2] * 71 + [10] + [0] * 72, 143)

    # states 4 and 5 have trees of 4,098 entries; of 4 there is one of 4,096 too, and of 5 a short one
    leaf = [9, 0]
    sixteen = node(5, *[leaf] * 16)
    more = node(5, *[sixteen] * 16)
    most = node(5, *[more] * 7, *[sixteen] * 8)
    rows = flat([[9, 0, 0], [5, 1, 16] + [0] * 16, [5, 2, 16] + [1] * 16, [5, 3, 15] + [2] * 7 + [1] * 8, [6, 4, 1, 3], [7, 4, 15] + [2] * 7 + [1] * 8,
                 [6, 5, 1, 0], [8, 5, 1, 4]])
    table = (6, rows, [3, 0])
    yield from both(table, 0, most)
    yield from both(table, 1, leaf)
    yield not_listed(table, [7] + most[1:])
    yield not_listed(table, [8] + most[1:])
    yield not_listed(table, node(6, leaf))
    yield not_listed(table, node(8, leaf))
    yield stuck(table, node(5, *[more] * 7, *[sixteen] * 7, leaf), 4063)
    yield stuck(table, node(8, node(6, leaf)), 5)
    yield number(table, node(6, most), 'refused 12 0')
    for accepting, answer in (([4], 'refused 10 4'), ([5], 'refused 10 4'), ([5, 4, 3], 'refused 10 4')):
        yield number((6, rows, accepting), leaf, answer)
        yield (WRITE, 6, rows, accepting, 0, room(4096)), answer, None


def check_edges():
    """'It first refuses as the check does.': whatever the tree, the number and the lent list."""
    for case, answer in table_edges():
        if answer.startswith('refused') and len(case[1]) + len(case[2]) < 300:
            yield number(case, [1, 0], answer)
            yield (WRITE, *case, 0, room(2)), answer, None
    # state 5 counts 2 ** 32; 6 and 7 count 2 ** 63 each
    large = [[1, 0, 0], [2, 0, 0]] + [[1, q, 2, q - 1, q - 1] for q in range(1, 6)] + [[3, 6, 6, 0, 1, 2, 3, 4, 5], [4, 7, 6, 0, 1, 2, 3, 4, 5]]
    for states, rows, accepting, answer in ((257, [1], [300], 'refused 1 0'), (5, flat(PAPER) + [1], [2, 4], 'refused 2 9'),
                                            (5, flat(PAPER), [2, 4, 2], 'refused 7 2'), (8, flat(large), [7, 6], 'refused 11 0')):
        for tree in ([1, 0], [], [0], [256], [3, 0], [1] * 4097):
            yield number((states, rows, accepting), tree, answer)
        for k in (0, 12, 2 ** 32, 2 ** 64 - 1):
            yield (WRITE, states, rows, accepting, k, []), answer, None


def edges():
    yield from paper_edges()
    yield from long_edges()
    yield from empty_edges()
    yield from sums_edges()
    yield from many_edges()
    yield from unused_edges()
    yield from check_edges()


# All trees of small tables

def enumerated(draw, count):
    """Cases with their outcomes, and what the lent list then holds: every tree and every number, the total, and some trees that are refused."""
    small = 0
    while small < count:
        t = sound(draw, draw.between(2, 5), draw.between(3, 8), draw.pick([2, 2, 3]), 2)
        _, rows, accepting = t.case()
        answer = check(*t.case())
        if answer[0] == 'refused' or answer[1] not in range(2, 31):
            continue
        small += 1
        trees = trees_in_order(whole_rows(rows), accepting)
        # in every third, states that are in no accepted tree: the accepted trees and their order stay
        if small % 3 == 0:
            half_drawn(draw, t)
        _, rows, accepting = table = t.case()
        for k, tree in enumerate(map(list_of, trees)):
            n = len(tree)
            yield (NUMBER, *table, tree), ('result', k), None
            lent = room(some_room(draw, n))
            if len(lent) < n:
                yield (WRITE, *table, k, lent), refused(16, n), lent
            else:
                yield (WRITE, *table, k, lent), ('result', n), tree + lent[n:]
        yield (WRITE, *table, len(trees), room(4)), refused(15), room(4)
        known = {}
        others = [tree for nodes in range(1, 5) for tree in all_trees([1, 2], nodes, known)]
        some = draw.shuffled(others)[:6]
        if small % 3 == 0:
            of_state = [tree for tree in least_trees(whole_rows(rows), 300).values() if tree not in some]
            some += draw.shuffled(of_state)[:6] + [(draw.pick([1, 2]), (draw.pick(of_state), draw.pick(trees)))]
        for tree in some:
            place = refused_place(whole_rows(rows), accepting, tree)
            outcome = ('result', trees.index(tree)) if place is None else refused(14, place)
            yield (NUMBER, *table, list_of(tree)), outcome, None


# Larger tables

def least_trees(table, most):
    """For each state one of its shortest trees, if that has at most so many entries."""
    found = {}
    for row in sorted(table, key=lambda row: row.target):
        if all(argument in found for argument in row.arguments):
            tree = (row.symbol, tuple(found[argument][1] for argument in row.arguments))
            length = 2 + sum(found[argument][0] for argument in row.arguments)
            if length <= min(most, found[row.target][0] - 1 if row.target in found else most):
                found[row.target] = (length, tree)
    return {state: tree for state, (_, tree) in found.items()}


def passing(draw, table, tree):
    """A tree that passes through some state, used or not: one of its shortest trees, alone or in place of a subtree."""
    other = list_of(draw.pick(list(least_trees(whole_rows(table[1]), 400).values())))
    nodes = [place for place, entry in enumerate(tree) if entry]
    at = draw.pick(nodes)
    return other if draw.chance(0.4) else tree[:at] + other + tree[end_of(tree, at):]


def end_of(tree, at):
    """The place after the subtree that begins here."""
    opened = 0
    while True:
        opened += 1 if tree[at] else -1
        at += 1
        if opened == 0:
            return at


def damaged(draw, tree, symbols):
    """A tree with a symbol replaced, a subtree taken out, repeated, or replaced by another one; or a list with an entry edited."""
    kind = draw.below(6)
    if kind == 0:
        return edited_tree(draw, tree, max(symbols))
    nodes = [place for place, entry in enumerate(tree) if entry]
    at = draw.pick(nodes[1:] or nodes)
    end = end_of(tree, at)
    if kind == 1:
        return tree[:at] + [draw.pick(symbols)] + tree[at + 1:]
    if kind == 2:
        return tree[:at] + tree[end:]
    if kind == 3:
        return tree[:end] + tree[at:end] + tree[end:]
    other = draw.pick(nodes)
    return tree[:at] + tree[other:end_of(tree, other)] + tree[end:]


def layered(draw, states, rows, arguments, symbols):
    """A sound table that has many trees: arguments are mostly among the states just below the target."""
    t = sound(draw, states, 0, 0, 1)
    t.rows, seen = [], set()
    for i in range(rows):
        target = i % states if i < states else draw.below(states)
        count = draw.between(0, arguments) if target > 0 else 0
        symbol = draw.between(1, symbols)
        key = (symbol, *(max(0, target - draw.pick([1, 1, 2, 3, target])) for _ in range(count)))
        if key not in seen:
            seen.add(key)
            t.row(symbol, target, *key[1:])
    return t


def wide(draw):
    """1,024 rows, most of them with up to 16 arguments: nearly all arguments are states that count 1."""
    t = Table(8, [[1, 0, 0], [2, 1, 0], [3, 2, 0], [4, 2, 0]], [7, 5, 6, 3])
    seen = set()
    while len(t.rows) < 1024:
        target = draw.between(3, 7)
        key = (draw.between(1, 255), *(2 if draw.chance(0.1) else draw.below(2) for _ in range(draw.between(1, 16))))
        if target > 3 and draw.chance(0.1):
            key += (draw.between(3, target - 1),)
            key = key[:17]
        if key not in seen:
            seen.add(key)
            t.row(key[0], target, *key[1:])
    return t


def tall(draw):
    """Few rows, with long trees: state 0 counts 1, state 1 counts 2, and one state in three has a second row."""
    t = Table(draw.between(5, 12), [[1, 0, 0], [2, 1, 0], [3, 1, 0]])
    for target in range(2, t.states):
        arguments = [draw.pick([target - 1, target - 2, 0, 0, 0, 0, draw.below(target)]) for _ in range(draw.between(1, 16))]
        t.row(draw.between(4, 6), target, *arguments)
        if draw.chance(0.3):
            t.row(draw.between(7, 9), target, *draw.shuffled(arguments))
    t.accepting = [t.states - 1, t.states - 2]
    return t


def some_table(draw, n):
    """A table that passes the check, with its total. Totals of all sizes."""
    least = draw.pick([1, 1, 10, 100, 10000, 100000000, 2 ** 32, 2 ** 48, 2 ** 60])
    while True:
        if n % 100 == 99:
            t = wide(draw)
            least = 1
        elif n % 50 == 24:
            t = sound(draw, 256, draw.between(300, 1024), 2, draw.pick([20, 255]))
            least = 100
        elif n % 10 == 9:
            t = tall(draw)
            least = 2
        else:
            t = layered(draw, draw.between(3, 12), draw.between(6, 25), draw.pick([2, 3, 5]), draw.pick([2, 5, 255])) if draw.chance(0.6) else any_sound(draw)
            if draw.chance(0.6):
                t.accepting = draw.shuffled(range(t.states))
            if n % 3 == 0:
                half_drawn(draw, t)
        # a first look, quicker than the check
        counts = Counts([Row(row[0], row[1], tuple(row[3:])) for row in t.rows])
        if counts.total(t.accepting) not in range(least, LIMIT + 1):
            continue
        if n % 10 == 9 and n % 100 != 99 and counts.longest(t.accepting[0]) < 500:
            continue
        if check(*t.case())[0] == 'total':
            return t.case(), counts.total(t.accepting)


def some_number(draw, total):
    """Mostly below the total, near its ends too."""
    kind = draw.below(12)
    if kind == 0:
        return draw.pick([0, total - 1])
    if kind == 1:
        return min(draw.pick([total, total + 1, total + 2 ** 32, LIMIT]), 2 ** 64 - 1)
    return draw.below(total)


def drawn(draw, count):
    """Trees of numbers below the total, numbered and written; damaged trees, and trees that pass through any state."""
    for n in range(count):
        table, total = some_table(draw, n)
        symbols = table[1][:1] + [row.symbol for row in whole_rows(table[1])] + [255]
        outcome, tree = write(*table, draw.below(total), [0] * 4096)
        tree = tree[:outcome[1]]
        yield NUMBER, *table, tree
        k = some_number(draw, total)
        yield WRITE, *table, k, room(some_room(draw, min(len(tree) * 2, 4096)))
        if n % 6 == 0:
            yield NUMBER, *table, passing(draw, table, tree)
        elif n % 100 != 99:
            yield NUMBER, *table, damaged(draw, tree, symbols)
