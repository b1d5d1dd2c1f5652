"""The five operations and the program treenum, written a second time from document 01, in plain Python.

check(states, rows, accepting) answers ('total', N) or ('refused', number, place). Numbers have no upper
bound here; only what an unused state counts is not followed beyond MANY.

number(states, rows, accepting, tree) answers ('result', N) or ('refused', number, place). A tree is a list
of numbers.

write(states, rows, accepting, number, lent), read_term(names, text, lent) and write_term(names, tree, lent)
answer a pair: ('result', N) or ('refused', number, place), and what the lent list then holds. Names and
texts are bytes.

treenum_lines(bytes) gives what the program treenum prints for these bytes.

Quotations are document 01's sentences; of spellings, those of document 02, request (a), of used states, those of
request (c), and of the limit on counts and totals, those of request (h).

Run with --self-test: compares with document 01's own numbers, and with trees, terms and texts that are listed
one by one.
"""

import functools
import itertools
import math
import random
import re
import sys
from collections import namedtuple

Row = namedtuple('Row', 'symbol target arguments')

# 'a count above 4,294,967,295 is 9', 'a total above 4,294,967,295 is 11' (document 01); 'the limit in 9 and 11 becomes
# 18,446,744,073,709,551,615' (document 02, request (h)).
LIMIT = 18446744073709551615


def refused(number, place=0):
    """'The place is 0 unless said otherwise.'"""
    return ('refused', number, place)


# Checking a table

def check(states, rows, accepting, limit=LIMIT):
    """'Checking a table gives the total.' The self test asks with lower limits too."""

    # 'First, more than 256 states is 1.'
    if states > 256:
        return refused(1)

    # 'Then rows are taken in turn, and the first faulty row decides; its row number is the place.'
    table = []
    at = 0
    while at < len(rows):
        fault = row_fault(states, table, rows, at)
        if fault is not None:
            return refused(fault, len(table))
        table.append(row_at(rows, at))
        at += 3 + rows[at + 2]

    # 'Then the accepting list: the first entry that is no state or equals an earlier entry is 7, with its
    # place;'
    for place, entry in enumerate(accepting):
        if entry >= states or entry in accepting[:place]:
            return refused(7, place)

    # 'a list longer than the count of states is 8': withdrawn by document 02, request (f), for after 7 there is none
    # (accepting_tests).

    # 'Then states are taken in turn from 0, the first faulty state decides, and its number is the place; for
    # each, a count above' the limit 'is 9, and after that a longest tree above 4,096 entries is 10.' '9 and 10 speak
    # of used states only, in their old places.'
    counts = Counts(table)
    used = counts.used(accepting)
    for state in range(states):
        if state not in used:
            continue
        if counts.of_state(state) > limit:
            return refused(9, state)
        longest = counts.longest(state)
        if longest is not None and longest > 4096:
            return refused(10, state)

    # 'Last, a total above' the limit 'is 11.'
    total = counts.total(accepting)
    if total > limit:
        return refused(11)
    return ('total', total)


def row_at(rows, at):
    """'A row is: symbol (1 to 255), target state, argument count (0 to 16), then that many argument states.'"""
    symbol, target, count = rows[at:at + 3]
    return Row(symbol, target, tuple(rows[at + 3:at + 3 + count]))


def row_fault(states, earlier, rows, at):
    """The number of the first fault of the row that begins at this entry, None if it has none.

    'Within a row, in this order:'
    """
    # 'fewer than three entries left, or fewer arguments left than counted, is 2;'
    left = len(rows) - at
    if left < 3 or left - 3 < rows[at + 2]:
        return 2
    row = row_at(rows, at)

    # 'a row beyond the 1,024th, or more than 16 arguments, is 3;'
    if len(earlier) + 1 > 1024 or len(row.arguments) > 16:
        return 3

    # 'symbol 0 or above 255, or a target or argument that is no state, is 4;'
    if row.symbol == 0 or row.symbol > 255:
        return 4
    if row.target >= states or any(argument >= states for argument in row.arguments):
        return 4

    # 'an argument not below the target is 5;'
    if any(argument >= row.target for argument in row.arguments):
        return 5

    # 'the symbol and arguments of an earlier row are 6.'
    if any(row.symbol == other.symbol and row.arguments == other.arguments for other in earlier):
        return 6
    return None


# Far above every limit, and so no answer hangs on how much more a state counts. A state over 16 of the state below it,
# and so on, counts more than there is room for.
MANY = 2 ** 2000


class Counts:
    """Counting, for a table in which every argument is below its target.

    What was found for a row or a state is kept, and is found once. States are taken from the lowest up, so that none waits for
    many below it.
    """

    def __init__(self, table, many=MANY):
        self.table = table
        self.many = many
        self.state_rows = {}
        self.row_counts = {}
        self.state_counts = {}
        self.longest_trees = {}
        self.earlier_counts = {}
        self.state_trees = {}
        self.by_contents = {(row.symbol, row.arguments): row for row in table}
        for state in sorted({row.target for row in table}):
            self.of_state(state)
            self.longest(state)

    def rows_of(self, state):
        if state not in self.state_rows:
            self.state_rows[state] = [row for row in self.table if row.target == state]
        return self.state_rows[state]

    def row_with(self, symbol, arguments):
        """The row with this symbol and these arguments, None if there is none. There are no two."""
        return self.by_contents.get((symbol, tuple(arguments)))

    def of_row(self, row):
        """'A row without arguments counts 1; any other row counts the product of its arguments' counts.'"""
        if row not in self.row_counts:
            self.row_counts[row] = math.prod(self.of_state(argument) for argument in row.arguments)
        return self.row_counts[row]

    def of_state(self, state):
        """'A state counts the sum over the rows with it as target'

        'A state without rows counts 0, and so does a row that uses it.' A state that counts more than `many` has that
        many here: a row that uses it then has at least as many, or 0, as it should.
        """
        if state not in self.state_counts:
            self.state_counts[state] = min(sum(self.of_row(row) for row in self.rows_of(state)), self.many)
        return self.state_counts[state]

    def total(self, accepting):
        """'The total is the sum over the accepting list.'"""
        return sum(self.of_state(state) for state in accepting)

    def longest(self, state):
        """'A state's longest tree has the most entries among the trees that reach it. A state that counts 0
        has none.'

        A tree has the entries of its children, its symbol and its bar. A row that counts 0 has no tree.
        """
        if state not in self.longest_trees:
            self.longest_trees[state] = max(
                (2 + sum(self.longest(argument) for argument in row.arguments)
                 for row in self.rows_of(state) if self.of_row(row) > 0),
                default=None)
        return self.longest_trees[state]

    def used(self, accepting):
        """'A state is used if some accepted tree has a subtree reaching it.'

        The accepted trees are listed where they are few and short. Where they are not, the rows decide.
        """
        if self.total(accepting) <= 20 and all((self.longest(state) or 0) <= 9000 for state in accepting):
            return self.used_by_trees(accepting)
        return self.used_by_rows(accepting)

    def used_by_trees(self, accepting):
        """The states that subtrees of accepted trees reach; a tree is a subtree of itself."""
        used = set()
        waiting = [tree for state in accepting for tree in self.trees(state)]
        while waiting:
            row, children = waiting.pop()
            used.add(row.target)
            waiting += children
        return used

    def trees(self, state):
        """The trees that reach a state, one by one, each as its row and its children. A row that counts 0 has none."""
        if state not in self.state_trees:
            self.state_trees[state] = [
                (row, children) for row in self.rows_of(state) if self.of_row(row) > 0
                for children in itertools.product(*map(self.trees, row.arguments))]
        return self.state_trees[state]

    def used_by_rows(self, accepting):
        """A listed state that counts above 0 is used, and so is each argument of a row that counts above 0 and has a
        used state as its target.
        """
        used = set()
        waiting = [state for state in accepting if self.of_state(state) > 0]
        while waiting:
            state = waiting.pop()
            if state not in used:
                used.add(state)
                waiting += [argument for row in self.rows_of(state) if self.of_row(row) > 0 for argument in row.arguments]
        return used

    def earlier(self, row):
        """'the counts of all earlier rows with the same target'"""
        if row not in self.earlier_counts:
            same = self.rows_of(row.target)
            self.earlier_counts[row] = sum(self.of_row(other) for other in same[:same.index(row)])
        return self.earlier_counts[row]

    def value(self, row, values):
        """The value of a tree with this row, from those of its children.

        'start at 0; for each child from the first, multiply by the count of the child's state and add the child's
        value; then add the counts of all earlier rows with the same target'
        """
        value = 0
        for argument, child in zip(row.arguments, values):
            value = value * self.of_state(argument) + child
        return value + self.earlier(row)

    def tree_of(self, accepting, number):
        """'Back again: find the accepting state, then the row, by the sums.'"""
        return self.tree_in(*by_the_sums(accepting, self.of_state, number))

    def tree_in(self, state, value):
        """'With h the rest and w the row's count, for each child divide w by the child's count; the child's value is
        h divided by w, rounded down, and h becomes the remainder.'
        """
        row, h = by_the_sums(self.rows_of(state), self.of_row, value)
        w = self.of_row(row)
        children = []
        for argument in row.arguments:
            w //= self.of_state(argument)
            children.append(self.tree_in(argument, h // w))
            h %= w
        return row.symbol, tuple(children)


def by_the_sums(items, count, rest):
    """The item in whose count the rest falls when those before it are taken off, and what is left."""
    for item in items:
        if rest < count(item):
            return item, rest
        rest -= count(item)


def whole_rows(rows):
    """The rows of a list that is without fault."""
    table, at = [], 0
    while at < len(rows):
        table.append(row_at(rows, at))
        at += 3 + rows[at + 2]
    return table


# Trees as lists, numbering a tree, writing the tree of a number. A tree that is no list is a pair of its symbol and
# the tuple of its children.

def list_of(tree):
    """'the symbol of a node, its children one after another, then the bar, which is entry 0'"""
    symbol, children = tree
    return [symbol, *itertools.chain.from_iterable(map(list_of, children)), 0]


def tree_fault(tree):
    """The place of 13, None for a well-formed tree.

    'each entry read opens a node, closes one, or is refused: the place is the first entry that is above 255, is a
    bar with no node open, or follows the root's bar; for a list that ends too soon (an empty one too) the place
    is its length.'
    """
    opened = 0
    for place, entry in enumerate(tree):
        follows = place > 0 and opened == 0
        if entry > 255 or (entry == 0 and opened == 0) or follows:
            return place
        opened += -1 if entry == 0 else 1
    return len(tree) if opened > 0 or len(tree) == 0 else None


@functools.lru_cache(maxsize=8)
def checked(states, rows, accepting):
    """The check's answer, and the counts and used states of a table that passes. The tables asked for last are kept."""
    answer = check(states, rows, accepting)
    if answer[0] == 'refused':
        return answer, None, None
    counts = Counts(whole_rows(rows))
    return answer, counts, counts.used(accepting)


def state_and_value(counts, used, tree):
    """The state that a well-formed tree reaches, and its value there, None if the state is not used. If a subtree
    reaches no state, None and the place of the first bar that closes one.

    'no value is formed in an unused one': a tree with a subtree in an unused state is in none that is used.
    """
    opened = [(None, [])]   # the symbols of the open nodes, with the states and values of their children so far
    for place, entry in enumerate(tree):
        if entry != 0:
            opened.append((entry, []))
        else:
            symbol, children = opened.pop()
            row = counts.row_with(symbol, [state for state, _ in children])
            if row is None:
                return None, place
            value = counts.value(row, [value for _, value in children]) if row.target in used else None
            opened[-1][1].append((row.target, value))
    return opened[0][1][0]


def number(states, rows, accepting, tree):
    """'Numbering a tree gives its number.'"""
    # 'It first refuses as the check does.'
    answer, counts, used = checked(states, tuple(rows), tuple(accepting))
    if answer[0] == 'refused':
        return answer

    # 'More than 4,096 entries is 12.' Then 13.
    if len(tree) > 4096:
        return refused(12)
    fault = tree_fault(tree)
    if fault is not None:
        return refused(13, fault)

    # 'A tree that the table does not accept is 14. Its place is the first bar that closes a subtree reaching no
    # state;'
    state, found = state_and_value(counts, used, tree)
    if state is None:
        return refused(14, found)

    # 'if the whole tree reaches a state that is not listed, it is the last bar.'
    if state not in accepting:
        return refused(14, len(tree) - 1)

    # 'Its number is that value plus the counts of the accepting states listed earlier'
    return ('result', found + counts.total(accepting[:accepting.index(state)]))


def write(states, rows, accepting, number, lent):
    """'Writing a tree gives the count of entries written at the front; later entries stay.'"""
    # 'A refusal writes to no lent list.'
    same = list(lent)

    # 'It first refuses as the check does.'
    answer, counts, _ = checked(states, tuple(rows), tuple(accepting))
    if answer[0] == 'refused':
        return answer, same

    # 'A number not below the total is 15.'
    if number >= answer[1]:
        return refused(15), same

    # 'A lent list shorter than the tree is 16, the place being the entries needed.'
    tree = list_of(counts.tree_of(accepting, number))
    if len(lent) < len(tree):
        return refused(16, len(tree)), same
    return ('result', len(tree)), tree + same[len(tree):]

# Names lists

CAPITALS = b'ABCDEFGHIJKLMNOPQRSTUVWXYZ'
SMALL = b'abcdefghijklmnopqrstuvwxyz'
LETTERS = CAPITALS + SMALL
DIGITS = b'0123456789'


def name_pattern(longest):
    """'an ASCII letter, then letters, digits, `-` or `_`', at most so many bytes in all"""
    return re.compile(b'[' + LETTERS + b'][' + LETTERS + DIGITS + b'_-]{0,%d}' % (longest - 1))


# 'A name is 1 to 24 bytes'
NAME = name_pattern(24)

# Each letter with the same letter in the other case, A with a to Z with z and back. No other byte has another case.
OTHER_CASE = {*zip(CAPITALS, SMALL), *zip(SMALL, CAPITALS)}


def alike(one, other):
    """Whether two bytes are the same but for the case of an ASCII letter."""
    return one == other or (one, other) in OTHER_CASE


def equal(one, other):
    """'Two names shall be equal if they differ only in the case of ASCII letters.': byte by byte."""
    return len(one) == len(other) and all(map(alike, one, other))


def lines_of(names):
    """The lines, each with the byte 10 that ends it; the last one may lack it."""
    return [line for line in re.split(b'(?<=\n)', names) if line != b'']


def names_fault(names):
    """The place of 17, None for a names list: 'its first faulty line, or 0 if it is empty'"""
    lines = lines_of(names)
    if not lines:
        return 0
    for k, line in enumerate(lines):
        # 'of equal names the later line is faulty, and so are a 256th line and a last line without byte 10'
        if (not line.endswith(b'\n') or not NAME.fullmatch(line[:-1]) or k + 1 >= 256
                or any(equal(line, earlier) for earlier in lines[:k])):
            return k
    return None


def names_of(names):
    """'Line k (from 0) names symbol k + 1.': the names in turn."""
    return [line[:-1] for line in lines_of(names)]


# Terms and trees as nodes. `place` is where a term's name begins in its text.

Node = namedtuple('Node', 'name place children')


def parse(text, pattern=NAME):
    """The term that a text is, as a node; if it is none, the place of 19.

    'A term is a name, or a name followed by `(`, one or more terms with `,` between them, and `)`.'

    'the first byte with which no term can go on, or the text's length if it ends too soon': what can go on with
    a byte is looked at from byte to byte, and the first that cannot is the place.
    """
    opened = []   # the nodes whose `)` is to come
    at = 0
    while True:
        # a term begins, with its name
        name = pattern.match(text, at)
        if name is None:
            return at
        node = Node(name.group(), at, [])
        if opened:
            opened[-1].children.append(node)
        at = name.end()
        if text[at:at + 1] == b'(':
            opened.append(node)
            at += 1
            continue
        # it has ended, and each `)` ends one more
        while opened and text[at:at + 1] == b')':
            node = opened.pop()
            at += 1
        if opened and text[at:at + 1] == b',':
            at += 1
            continue
        return node if not opened and at == len(text) else at


def nodes_of(term):
    """The nodes in the order of their names in the text."""
    waiting = [term]
    while waiting:
        node = waiting.pop()
        yield node
        waiting.extend(reversed(node.children))


def symbols_of(term, names):
    """'Reading takes either spelling.': for each name in the term, as spelt in the term, its symbol if it is listed."""
    spellings = {node.name for node in nodes_of(term)}
    return {spelling: k + 1 for k, name in enumerate(names) for spelling in spellings if equal(spelling, name)}


def entries_of(term, symbols):
    """'the symbol of a node, its children one after another, then the bar, which is entry 0'"""
    bar = object()
    entries = []
    waiting = [term]
    while waiting:
        node = waiting.pop()
        if node is bar:
            entries.append(0)
        else:
            entries.append(symbols[node.name])
            waiting += [bar, *reversed(node.children)]
    return entries


def read_term(names, text, lent):
    """'Reading a term gives the count of tree entries written at the front; later entries stay.'"""
    # 'A refusal writes to no lent list.'
    same = list(lent)

    # 'A names list against the rules above is 17, the place being its first faulty line, or 0 if it is empty'
    fault = names_fault(names)
    if fault is not None:
        return refused(17, fault), same

    # 'A text above 65,536 bytes is 18.'
    if len(text) > 65536:
        return refused(18), same

    # 'A text that is no term is 19, the place being the first byte with which no term can go on, or the text's
    # length if it ends too soon.'
    term = parse(text)
    if not isinstance(term, Node):
        return refused(19, term), same

    # 'A name not listed is 20, at its first byte, the earliest such name.'
    symbols = symbols_of(term, names_of(names))
    for node in nodes_of(term):
        if node.name not in symbols:
            return refused(20, node.place), same

    # 'A tree above 4,096 entries is 21.'
    tree = entries_of(term, symbols)
    if len(tree) > 4096:
        return refused(21), same

    # 'A short lent list is 22, with the entries needed.'
    if len(lent) < len(tree):
        return refused(22, len(tree)), same
    return ('result', len(tree)), tree + same[len(tree):]


def text_of(tree, names):
    """The term of a well-formed tree, 'in the list's spelling'.

    'A term is a name, or a name followed by `(`, one or more terms with `,` between them, and `)`.'
    """
    opened = [(None, [])]   # the names of the open nodes, with the terms of their children so far
    for entry in tree:
        if entry != 0:
            opened.append((names[entry - 1], []))
        else:
            name, children = opened.pop()
            opened[-1][1].append(name + b'(' + b','.join(children) + b')' if children else name)
    return opened[0][1][0]


def write_term(names, tree, lent):
    """'Writing a term gives the count of bytes written at the front; later bytes stay.'"""
    # 'A refusal writes to no lent list.'
    same = bytes(lent)

    # 'It refuses 17, then 12, then 13, as above.' 'More than 4,096 entries is 12.'
    fault = names_fault(names)
    if fault is not None:
        return refused(17, fault), same
    if len(tree) > 4096:
        return refused(12), same
    fault = tree_fault(tree)
    if fault is not None:
        return refused(13, fault), same

    # 'A symbol above the count of names is 23, at the first such entry.'
    listed = names_of(names)
    for place, entry in enumerate(tree):
        if entry > len(listed):
            return refused(23, place), same

    # 'A short lent list is 24, with the bytes needed.'
    text = text_of(tree, listed)
    if len(lent) < len(text):
        return refused(24, len(text)), same
    return ('result', len(text)), text + same[len(text):]


# The program treenum

# 'Symbol 1 is `a`, symbol 2 is `b`; there are five states.' 'The accepting list is 2, 4.'
PAPER_NAMES = b'a\nb\n'
PAPER_ROWS = [1, 0, 0, 2, 1, 0, 1, 2, 2, 0, 0, 2, 2, 2, 0, 1, 1, 3, 2, 1, 0, 1, 3, 2, 1, 1, 2, 3, 2, 1, 1,
              1, 4, 2, 2, 2, 2, 4, 3, 2, 3, 1]
PAPER = (5, PAPER_ROWS, [2, 4])


def treenum_lines(text):
    """'`treenum` reads lines from standard input and prints one line for each'"""
    # 'A last line without byte 10 counts if it is not empty.'
    return b''.join(treenum_line(line.removesuffix(b'\n')) + b'\n' for line in lines_of(text))


def treenum_line(line):
    """'A refusal prints as `refused`, its number and its place.'"""
    outcome, answer = treenum_answer(line)
    return answer if outcome[0] == 'result' else b'refused %d %d' % outcome[1:]


def treenum_answer(line):
    # 'A line of one or more decimal digits and no other byte is a number of any length, leading zeros allowed,
    # answered by its term, or 15 from 12 up.'
    if re.fullmatch(b'[' + DIGITS + b']+', line):
        digits = line.lstrip(b'0')
        if len(digits) > 2:
            return refused(15), None
        outcome, tree = write(*PAPER, int(digits or b'0'), [0] * 4096)
        if outcome[0] == 'refused':
            return outcome, None
        outcome, text = write_term(PAPER_NAMES, tree[:outcome[1]], bytes(4096))
        return outcome, text[:outcome[1]]

    # 'Any other line is a term, answered by its number; an empty line is 19 at 0, and a term line above 4,096 bytes
    # is 18 at 0.'
    if len(line) > 4096:
        return refused(18), None
    outcome, tree = read_term(PAPER_NAMES, line, [0] * 4096)
    if outcome[0] == 'result':
        outcome = number(*PAPER, tree[:outcome[1]])
    return outcome, b'%d' % outcome[1]


# The self test

def entries(tree):
    """'the symbol of a node, its children one after another, then the bar'"""
    symbol, children = tree
    return 2 + sum(entries(child) for child in children)


def reached(table, tree):
    """The states that a tree reaches.

    'A tree reaches a state when its children reach the arguments of a row with its symbol, in order; the state
    is that row's target'
    """
    symbol, children = tree
    return [row.target for row in table
            if row.symbol == symbol and len(row.arguments) == len(children)
            and all(argument in reached(table, child) for argument, child in zip(row.arguments, children))]


def all_trees(symbols, nodes, known):
    """Every tree of so many nodes over these symbols, whatever the table says."""
    if nodes not in known:
        known[nodes] = [(symbol, children) for symbol in symbols
                        for children in all_forests(symbols, nodes - 1, known)]
    return known[nodes]


def all_forests(symbols, nodes, known):
    if nodes == 0:
        yield ()
    for first in range(1, nodes + 1):
        for tree in all_trees(symbols, first, known):
            for others in all_forests(symbols, nodes - first, known):
                yield (tree,) + others


def trees_of_rows(table, state):
    """Every tree that the rows give a state."""
    return [(row.symbol, children) for row in table if row.target == state
            for children in itertools.product(*(trees_of_rows(table, argument) for argument in row.arguments))]


def subtrees(tree):
    """The tree itself and all below it."""
    yield tree
    for child in tree[1]:
        yield from subtrees(child)


def agrees(states, rows, accepting):
    """Whether the counts, longest trees, total and used states of a sound table are those of its trees, listed one by
    one.
    """
    table = whole_rows(rows)
    counts = Counts(table)
    lists = [trees_of_rows(table, state) for state in range(states)]
    for state, trees in enumerate(lists):
        if len(set(trees)) != len(trees) or len(trees) != counts.of_state(state):
            return False
        if max(map(entries, trees), default=None) != counts.longest(state):
            return False

    # The same among all trees up to the longest.
    found = [0] * states
    accepted = 0
    used = set()
    known = {}
    symbols = sorted({row.symbol for row in table})
    most = max((counts.longest(state) or 0 for state in range(states)), default=0) // 2
    for nodes in range(1, most + 1):
        for tree in all_trees(symbols, nodes, known):
            targets = reached(table, tree)
            for state in targets:
                found[state] += 1
            # 'A tree is accepted if it reaches a state on the accepting list.'
            if any(state in accepting for state in targets):
                accepted += 1
                # 'A state is used if some accepted tree has a subtree reaching it.'
                used.update(state for subtree in subtrees(tree) for state in reached(table, subtree))
    return (found == [counts.of_state(state) for state in range(states)]
            and check(states, rows, accepting) == ('total', accepted)
            and counts.used_by_trees(accepting) == used and counts.used_by_rows(accepting) == used)


# The order, by the definitions alone

def known_trees(table):
    """Every tree that reaches a state, with the number of its row: rows are applied to the trees found so far, until
    no other is found.

    'its row is the one with its symbol and its children's states, in order'
    """
    known = {}
    while True:
        before = len(known)
        for i, row in enumerate(table):
            of_arguments = [[tree for tree, j in known.items() if table[j].target == argument] for argument in row.arguments]
            for children in itertools.product(*of_arguments):
                known[row.symbol, children] = i
        if len(known) == before:
            return known


def row_before(known, one, other):
    """'if its row stands earlier; with the same row, by the first child in which they differ, compared by row and
    child again'
    """
    if known[one] != known[other]:
        return known[one] < known[other]
    for child, other_child in zip(one[1], other[1]):
        if child != other_child:
            return row_before(known, child, other_child)
    return False


def trees_in_order(table, accepting):
    """The accepted trees.

    'one accepted tree comes before another if its accepting state is listed earlier; with the same state,' by row and
    child. 'A tree's accepting state is the one it reaches'
    """
    known = known_trees(table)

    def entry_of(tree):
        return accepting.index(table[known[tree]].target)

    def comes_before(one, other):
        if entry_of(one) != entry_of(other):
            return entry_of(one) < entry_of(other)
        return row_before(known, one, other)

    trees = [tree for tree, i in known.items() if table[i].target in accepting]
    trees.sort(key=functools.cmp_to_key(lambda one, other: comes_before(other, one) - comes_before(one, other)))
    # 'How many accepted trees come before a tree is counted over those trees by this order'
    if len(trees) <= 60:
        for place, tree in enumerate(trees):
            assert sum(comes_before(other, tree) for other in trees) == place
    return trees


def stuck_place(table, tree, place=0):
    """'the first bar that closes a subtree reaching no state', for a tree whose list begins at this place; None if
    there is none
    """
    place += 1
    for child in tree[1]:
        found = stuck_place(table, child, place)
        if found is not None:
            return found
        place += entries(child)
    return None if reached(table, tree) else place


def refused_place(table, accepting, tree):
    """The place of 14, None for an accepted tree."""
    place = stuck_place(table, tree)
    if place is not None:
        return place
    # 'if the whole tree reaches a state that is not listed, it is the last bar'
    return None if any(state in accepting for state in reached(table, tree)) else entries(tree) - 1


def misnumbered(states, rows, accepting, nodes):
    """What is wrong with the numbers of a sound table: of its trees, and of all trees of at most so many nodes."""
    table = whole_rows(rows)
    trees = trees_in_order(table, accepting)
    wrong = []
    if check(states, rows, accepting) != ('total', len(trees)):
        wrong.append('total')
    for place, tree in enumerate(trees):
        list_ = list_of(tree)
        if number(states, rows, accepting, list_) != ('result', place):
            wrong.append(list_)
        if write(states, rows, accepting, place, [300] * (len(list_) + 2)) != (('result', len(list_)), list_ + [300, 300]):
            wrong.append(place)
        if write(states, rows, accepting, place, [300] * (len(list_) - 1)) != (refused(16, len(list_)), [300] * (len(list_) - 1)):
            wrong.append(place)
    for more in range(2):
        if write(states, rows, accepting, len(trees) + more, [300] * 9) != (refused(15), [300] * 9):
            wrong.append(len(trees) + more)
    symbols = sorted({row.symbol for row in table} | {3})
    accepted = set(trees)
    known = {}
    for tree in itertools.chain.from_iterable(all_trees(symbols, n, known) for n in range(1, nodes + 1)):
        place = refused_place(table, accepting, tree)
        if (place is None) != (tree in accepted):
            wrong.append(tree)
        if place is not None and number(states, rows, accepting, list_of(tree)) != refused(14, place):
            wrong.append(list_of(tree))
    return wrong


def small_table(draw):
    """A sound table of few rows, drawn at random."""
    states = draw.randint(1, 5)
    rows, seen = [], set()
    for _ in range(draw.randint(0, 7)):
        target = draw.randint(0, states - 1)
        count = draw.randint(0, 2) if target > 0 else 0
        row = (draw.randint(1, 2), tuple(draw.randint(0, target - 1) for _ in range(count)))
        if row not in seen:
            seen.add(row)
            rows += [row[0], target, count, *row[1]]
    accepting = [state for state in range(states) if draw.random() < 0.6]
    draw.shuffle(accepting)
    return states, rows, accepting


def sparse_table(draw):
    """A sound table of six states, most of them with a leaf, one or two without rows. One or two are listed."""
    filled = draw.sample(range(6), draw.randint(4, 5))
    rows = [Row(10 + state, state, ()) for state in filled if draw.random() < 0.7]
    for target in draw.choices(filled, k=draw.randint(2, 6)):
        row = Row(draw.randint(1, 2), target, tuple(draw.choices(range(target), k=draw.randint(1, 3)) if target else ()))
        if not any(row.symbol == other.symbol and row.arguments == other.arguments for other in rows):
            rows.append(row)
    draw.shuffle(rows)
    return 6, rows, draw.sample(range(6), draw.randint(1, 2))


def check_with_8(states, rows, accepting):
    """The check as it was before 8 was withdrawn: after 7 and before 9, 'a list longer than the count of states is 8'."""
    answer = check(states, rows, accepting)
    if answer[0] == 'refused' and answer[1] <= 7:
        return answer
    return refused(8) if len(accepting) > states else answer


# Terms by the grammar alone, for short texts. A name has at most `longest` bytes.

class Grammar:
    """'A term is a name, or a name followed by `(`, one or more terms with `,` between them, and `)`.'"""

    def __init__(self, longest):
        self.longest = longest
        self.known = {}

    def kept(self, question, text):
        if (question, text) not in self.known:
            self.known[question, text] = question(text)
        return self.known[question, text]

    def is_name(self, text):
        return (1 <= len(text) <= self.longest and text[:1].isalpha()
                and all(byte in LETTERS + DIGITS + b'-_' for byte in text))

    def is_term(self, text):
        return self.is_name(text) or (text.endswith(b')') and any(
            self.is_name(text[:i]) and text[i:i + 1] == b'(' and self.kept(self.are_terms, text[i + 1:-1])
            for i in range(len(text))))

    def are_terms(self, text):
        """One or more terms with `,` between them."""
        return self.kept(self.is_term, text) or any(
            text[i:i + 1] == b',' and self.kept(self.is_term, text[:i]) and self.kept(self.are_terms, text[i + 1:])
            for i in range(len(text)))

    def goes_on(self, text):
        """Whether a term begins with this text: with a part of a name, or with a name, `(` and a part of the terms."""
        return text == b'' or self.kept(self.is_term, text) or any(
            self.is_name(text[:i]) and text[i:i + 1] == b'(' and self.kept(self.terms_go_on, text[i + 1:])
            for i in range(len(text)))

    def terms_go_on(self, text):
        return self.kept(self.goes_on, text) or any(
            text[i:i + 1] == b',' and self.kept(self.is_term, text[:i]) and self.kept(self.terms_go_on, text[i + 1:])
            for i in range(len(text)))

    def place(self, text):
        """The place of 19, None for a term."""
        if self.kept(self.is_term, text):
            return None
        return next((i for i in range(len(text)) if not self.kept(self.goes_on, text[:i + 1])), len(text))


def all_lists(items, most):
    """All lists of at most so many of the items."""
    return itertools.chain.from_iterable(itertools.product(items, repeat=n) for n in range(most + 1))


def term_of(node):
    """The text of a node, by itself."""
    return node.name + (b'(' + b','.join(map(term_of, node.children)) + b')' if node.children else b'')


def spellings_of(text):
    """The text with each letter in either case."""
    return map(bytes, itertools.product(*([other for other in range(256) if alike(byte, other)] for byte in text)))


def spelled(tree):
    """The term of a tree that has names for symbols."""
    name, children = tree
    return name + (b'(' + b','.join(map(spelled, children)) + b')' if children else b'')


def spelling_tests(expect):
    # All pairs of bytes: alike are those that are the same, or lie 32 apart with the lower one from 65 to 90, A to Z.
    expect('bytes that are alike', {pair for pair in itertools.product(range(256), repeat=2) if alike(*pair)},
           {(one, other) for one in range(256) for other in range(256)
            if one == other or abs(one - other) == 32 and 65 <= min(one, other) <= 90})
    for one, other in (b'@`', b'[{', b'_\x7f', b'\0 ', b'-\r', b'-M', b'-m', b'0P', b'0p', b'-_', b'\xc1\xe1'):
        expect(f'bytes {one} and {other}', alike(one, other) or alike(other, one), False)
    for one, other in (b'Aa', b'Mm', b'Zz'):
        expect(f'bytes {one} and {other}', alike(one, other) and alike(other, one), True)
    # Names: bytes.lower(), which changes the 26 capitals alone, makes equal ones the same.
    expect('what lower() changes', [byte for byte in range(256) if bytes([byte]).lower() != bytes([byte])], list(range(65, 91)))
    expect('what lower() gives', CAPITALS.lower(), SMALL)
    short = [name for name in map(bytes, all_lists(b'aAbB1', 3)) if Grammar(3).is_name(name)]
    expect('short names', [pair for pair in itertools.product(short, repeat=2) if equal(*pair) != (pair[0].lower() == pair[1].lower())], [])
    # Names of 24 bytes: in the other case, or with another letter, at each place.
    name = SMALL[:24]
    expect('24 bytes, one in the other case', [at for at in range(24) if not equal(name, name[:at] + CAPITALS[at:at + 1] + name[at + 1:])], [])
    expect('24 bytes, one other letter', [at for at in range(24) if equal(name, name[:at] + b'Z' + name[at + 1:])], [])
    # 17 of both operations, and the earliest of two names not listed.
    expect('reading by equal names', read_term(b'a\nA\n', b'a', [7] * 3), (refused(17, 1), [7] * 3))
    expect('writing by equal names', write_term(b'a\nA\n', [1, 0], b'!!'), (refused(17, 1), b'!!'))
    expect('the earliest of two', read_term(b'a\n', b'A(C,c)', [7] * 3), (refused(20, 2), [7] * 3))
    # Names of two bytes: one listed after another, and one read where another is listed.
    wrong = []
    for one, other in itertools.product(LETTERS + DIGITS + b'-_', repeat=2):
        one, other = b'k%c' % one, b'K%c' % other
        same = one.lower() == other.lower()
        if names_fault(one + b'\n' + other + b'\n') != (1 if same else None):
            wrong.append((one, other))
        if read_term(one + b'\n', other, [7] * 3) != ((('result', 2), [1, 0, 7]) if same else (refused(20), [7] * 3)):
            wrong.append((one, other))
    expect('names of two bytes', wrong, [])
    # 'Reading a written term still gives the tree; writing a read term gives the text in the list's spelling.'
    wrong = []
    for listed in ((b'a', b'b'), (b'A', b'B'), (b'b', b'A'), (b'a1', b'B-')):
        names = b'%b\n%b\n' % listed
        known = {}
        for tree in itertools.chain.from_iterable(all_trees(listed, nodes, known) for nodes in range(1, 5)):
            text = spelled(tree)
            entries = [0 if name == 0 else listed.index(name) + 1 for name in list_of(tree)]
            if write_term(names, entries, b'!' * 30) != (('result', len(text)), text + b'!' * (30 - len(text))):
                wrong.append(text)
            wrong += [spelling for spelling in spellings_of(text)
                      if read_term(names, spelling, [9] * 10) != (('result', len(entries)), entries + [9] * (10 - len(entries)))]
    expect('spellings there and back', wrong, [])


def term_tests(expect):
    # Every short text, with names of at most 2 bytes: its place, or its nodes.
    grammar = Grammar(2)
    pattern = name_pattern(2)
    terms = []
    wrong = []
    for text in map(bytes, all_lists(b'a1(),!', 7)):
        place = grammar.place(text)
        found = parse(text, pattern)
        if place is None:
            terms.append(text)
            if not isinstance(found, Node) or term_of(found) != text:
                wrong.append(text)
        elif found != place:
            wrong.append(text)
    expect('places of texts', wrong, [])
    # `goes_on` against the terms themselves: a text of at most 4 bytes that goes on is a term after at most 3 more
    beginnings = {text[:n] for text in terms for n in range(5)}
    expect('beginnings of terms', beginnings,
           {text for text in map(bytes, all_lists(b'a1(),!', 4)) if grammar.goes_on(text)})
    # Names byte by byte
    for byte in range(256):
        one = bytes([byte])
        expect(f'byte {byte} as a name', parse(one), Node(one, 0, []) if one.isalpha() else 0)
        inside = one.isalnum() or one in b'-_'
        expect(f'byte {byte} in a name', parse(b'a' + one), Node(b'a' + one, 0, []) if inside else 2 if one == b'(' else 1)
    expect('24 bytes', parse(b'a' * 24), Node(b'a' * 24, 0, []))
    expect('25 bytes', parse(b'a' * 25), 24)
    expect('25 bytes within', parse(b'a(b,' + b'c' * 25 + b')'), 28)

    # Every short list: well-formed are those of the trees, and 13's place is the first entry that begins no such list.
    known = {}
    lists = {tuple(list_of(tree)) for nodes in range(1, 5) for tree in all_trees([1, 255], nodes, known)}
    beginnings = {entries[:n] for entries in lists for n in range(9)}
    wrong = []
    for entries in all_lists([0, 1, 255, 256, 65535], 4):
        place = next((i for i in range(len(entries)) if entries[:i + 1] not in beginnings), len(entries))
        if tree_fault(list(entries)) != (None if entries in lists else place):
            wrong.append(entries)
    for entries in all_lists([0, 1], 8):
        place = next((i for i in range(len(entries)) if entries[:i + 1] not in beginnings), len(entries))
        if entries.count(1) <= 4 and tree_fault(list(entries)) != (None if entries in lists else place):
            wrong.append(entries)
    expect('places of lists', wrong, [])

    # Every short names list: a line is faulty or not by its bytes, its place and the lines before it.
    wrong = []
    for names in map(bytes, itertools.chain(all_lists(b'aA1\n!', 6), all_lists(b'aAbB\n', 6))):
        lines, faulty = [b''], None
        for byte in names:
            lines[-1] += bytes([byte])
            if byte == 10:
                lines.append(b'')
        if lines[-1] == b'':
            lines.pop()
        for k in reversed(range(len(lines))):
            earlier = [line.lower() for line in lines[:k]]
            if lines[k][-1:] != b'\n' or lines[k].lower() in earlier or not Grammar(24).is_name(lines[k][:-1]):
                faulty = k
        if names_fault(names) != (0 if names == b'' else faulty):
            wrong.append(names)
    expect('faulty lines', wrong, [])

    # The paper's trees, there and back; every small tree too.
    names = b'a\nb\n'
    for text, tree in ((b'a(a,a)', [1, 1, 0, 1, 0, 0]), (b'b(a,b)', [2, 1, 0, 2, 0, 0]), (b'a', [1, 0]),
                       (b'b(b(a,b),a(b,b),b)', [2, 2, 1, 0, 2, 0, 0, 1, 2, 0, 2, 0, 0, 2, 0, 0])):
        expect(f'reading {text}', read_term(names, text, [7] * 20),
               (('result', len(tree)), tree + [7] * (20 - len(tree))))
        expect(f'writing {tree}', write_term(names, tree, b'!' * 20), (('result', len(text)), text + b'!' * (20 - len(text))))
    wrong = []
    known = {}
    for nodes in range(1, 6):
        for tree in all_trees([1, 2], nodes, known):
            entries = list_of(tree)
            (word, n), text = write_term(names, entries, bytes(30))
            if read_term(names, text[:n], [9] * 10) != (('result', 2 * nodes), entries + [9] * (10 - 2 * nodes)):
                wrong.append(entries)
    expect('trees there and back', wrong, [])


def accepting_tests(expect):
    # All short lists over few states: one of distinct states passes, any other is 7 at its first entry that is no state or a repeat.
    tables = [(states, [], accepting) for states in range(4) for accepting in all_lists(range(states + 2), states + 2)]
    wrong = []
    for states, rows, accepting in tables:
        distinct = max(k for k in range(len(accepting) + 1) if len({*accepting[:k]} & {*range(states)}) == k)
        if check(states, rows, accepting) != (('total', 0) if distinct == len(accepting) else refused(7, distinct)):
            wrong.append((states, accepting))
    expect('accepting lists', wrong, [])

    # 8 is withdrawn: with it, these and drawn tables get the same answers.
    draw = random.Random(3)
    for _ in range(2000):
        states, rows, accepting = small_table(draw)
        rows += draw.choice([[], [], [1]])
        accepting += [draw.randint(0, states) for _ in range(draw.randint(0, 3))]
        tables.append((states, rows, accepting))
    expect('tables with 8', [table for table in tables if check_with_8(*table) != check(*table)], [])


def unfinished(draw, states, rows):
    """More states and rows: five states, the first over 16 of some state, each other over 16 of the one before it. No
    row below names them. Where that state counts 2 and more the last one counts over 10 ** 315000, and has trees of
    1,048,576 leaves.
    """
    first = draw.randrange(states)
    more = [[3, states + k, 16] + [states + k - 1 if k else first] * 16 for k in range(5)]
    draw.shuffle(more)
    more = [entry for row in more for entry in row]
    return states + 5, more + rows if draw.random() < 0.5 else rows + more


def used_tests(expect):
    # By hand: states, rows, accepting list and used states.
    empty = [1, 0, 0, 1, 3, 1, 2, 2, 3, 2, 0, 2, 2, 4, 1, 3, 3, 4, 1, 1, 2, 1, 0]   # 2 has no row, 3 counts 0
    for states, rows, accepting, used in (
            (*PAPER, {0, 1, 2, 3, 4}), (5, PAPER_ROWS, [2], {0, 1, 2}), (5, PAPER_ROWS, [3], {0, 1, 3}), (5, PAPER_ROWS, [1], {1}),
            (5, PAPER_ROWS, [1, 0], {0, 1}), (5, PAPER_ROWS, [4], {0, 1, 2, 3, 4}), (5, PAPER_ROWS, [], set()), (0, [], [], set()),
            (2, [1, 0, 0, 1, 1, 1, 0], [0], {0}), (2, [1, 0, 0, 1, 1, 1, 0], [1], {0, 1}), (3, [1, 0, 0], [1, 2], set()),
            # of state 4 the row over 3 counts 0, and so does each row of 3, over 2 and over 0 and 2: they use nothing
            (5, empty, [4], {1, 4}), (5, empty, [3], set()), (5, empty, [2, 3], set()), (5, empty, [3, 0], {0}), (5, empty, [0, 1, 2, 3, 4], {0, 1, 4})):
        counts = Counts(whole_rows(rows))
        expect(f'used, by trees, of {rows} {accepting}', counts.used_by_trees(accepting), used)
        expect(f'used, by rows, of {rows} {accepting}', counts.used_by_rows(accepting), used)

    # Drawn tables: the two ways, and the definition over all trees that reach a state.
    draw = random.Random(4)
    met = dict.fromkeys(('unused', 'listed and empty', 'named in vain', 'as an argument'), 0)
    tried = 0
    while tried < 300:
        states, table, accepting = sparse_table(draw)
        counts = Counts(table)
        if sum(map(counts.of_state, range(states))) > 150:
            continue
        tried += 1
        trees = known_trees(table)
        used = set()
        for tree in trees:
            if any(state in accepting for state in reached(table, tree)):
                used.update(state for subtree in subtrees(tree) for state in reached(table, subtree))
        expect(f'used states of {table} {accepting}', (counts.used_by_trees(accepting), counts.used_by_rows(accepting)), (used, used))
        met['unused'] += any(counts.of_state(state) > 0 and state not in used for state in range(states))
        met['listed and empty'] += any(counts.of_state(state) == 0 for state in accepting)
        met['named in vain'] += any(row.target in used and counts.of_state(argument) > 0 and argument not in used
                                    for row in table for argument in row.arguments)
        met['as an argument'] += any(state not in accepting for state in used)
        # 'no value is formed in an unused one': those that are formed, and the places of 14, are the same as with all values
        for tree in itertools.chain(trees, all_trees([1, 2], 3, {})):
            formed, all_formed = (state_and_value(counts, some, list_of(tree)) for some in (used, set(range(states))))
            if formed[0] is None or formed[0] in used:
                expect(f'value of {tree} in {table} {accepting}', formed, all_formed)
            else:
                expect(f'no value of {tree} in {table} {accepting}', formed, (all_formed[0], None))
    expect('kinds of drawn tables', [kind for kind, times in met.items() if times < 5], [])

    # With unfinished states beside them: the same total, numbers and trees, and 14 by the definition.
    draw = random.Random(5)
    tried = 0
    while tried < 100:
        states, rows, accepting = small_table(draw)
        trees = trees_in_order(whole_rows(rows), accepting)
        if not 1 <= len(trees) <= 60:
            continue
        tried += 1
        table = (*unfinished(draw, states, rows), accepting)
        counts = Counts(whole_rows(table[1]))
        what = f'of {table}'
        expect('used ' + what, counts.used_by_rows(accepting), Counts(whole_rows(rows)).used_by_rows(accepting))
        if len(trees) <= 20:
            expect('used, by trees, ' + what, counts.used_by_trees(accepting), counts.used_by_rows(accepting))
        expect('total ' + what, check(*table), ('total', len(trees)))
        for place, tree in enumerate(map(list_of, trees)):
            expect(f'number {place} ' + what, number(*table, tree), ('result', place))
            expect(f'tree {place} ' + what, write(*table, place, [7] * len(tree)), (('result', len(tree)), tree))
        all_known = list(known_trees(whole_rows(rows)))
        for tree in draw.choices(all_known, k=3):
            over = (3, (tree,) * 16)
            twice = (3, (over,) * 16)
            for other in (over, twice, (1, (over,)), (2, (over, twice)), (1, (tree, twice)), (3, (over,) * 15 + (tree,)), (3, (over,) * 15 + ((9, ()),))):
                expect(f'{other} ' + what, number(*table, list_of(other)), refused(14, refused_place(whole_rows(table[1]), accepting, other)))

    # What a state counts is not followed beyond `many`, and up to it is exact.
    draw = random.Random(6)
    for _ in range(300):
        states, rows, _ = small_table(draw)
        for many in (2, 3, 10, 100):
            kept, exact = Counts(whole_rows(rows), many), Counts(whole_rows(rows))
            expect(f'at most {many} of {rows}', [kept.of_state(state) for state in range(states)],
                   [min(exact.of_state(state), many) for state in range(states)])


def tree_tests(expect):
    # 'Starred facts'
    expect('trees of the paper, in order', [text_of(list_of(tree), [b'a', b'b']) for tree in trees_in_order(whole_rows(PAPER_ROWS), [2, 4])],
           [b'a(a,a)', b'b(a,b)', b'a(a(a,a),a(a,a))', b'a(a(a,a),b(a,b))', b'a(b(a,b),a(a,a))', b'a(b(a,b),b(a,b))',
            b'b(a(a,a),a(b,a),b)', b'b(a(a,a),a(b,b),b)', b'b(a(a,a),b(b,b),b)', b'b(b(a,b),a(b,a),b)', b'b(b(a,b),a(b,b),b)',
            b'b(b(a,b),b(b,b),b)'])
    expect('numbers of the paper', misnumbered(*PAPER, 5), [])
    expect('number 12', write(*PAPER, 12, [9]), (refused(15), [9]))
    expect('1 0', number(*PAPER, [1, 0]), refused(14, 1))
    expect('2 1 0 1 0 0', number(*PAPER, [2, 1, 0, 1, 0, 0]), refused(14, 5))

    # Small tables against their trees, listed and put in order.
    draw = random.Random(2)
    small = 0
    while small < 100:
        states, rows, accepting = small_table(draw)
        if Counts(whole_rows(rows)).total(accepting) in range(1, 150):
            expect(f'numbers of {states} {rows} {accepting}', misnumbered(states, rows, accepting, 4), [])
            small += 1


def line_tests(expect):
    # the example of document 01
    expect('treenum', treenum_lines(b'a(a,a)\nb(b(a,b),a(b,b),b)\na\nb(a,a)\n10\n12\na(\nc\n'),
           b'0\n10\nrefused 14 1\nrefused 14 5\nb(b(a,b),a(b,b),b)\nrefused 15 0\nrefused 19 2\nrefused 20 0\n')
    # lines and their ends
    for text, printed in ((b'', b''), (b'\n', b'refused 19 0\n'), (b'\n\n', b'refused 19 0\n' * 2), (b'a(a,a)', b'0\n'),
                          (b'a(a,a)\n0', b'0\na(a,a)\n'), (b'0\n\n', b'a(a,a)\nrefused 19 0\n'), (b'\na(a,a)', b'refused 19 0\n0\n'),
                          (b'0\r\n', b'refused 19 0\n'), (b'a(a,a)\r\n', b'refused 19 6\n'), (b'\0', b'refused 19 0\n'),
                          (b'0\x0b', b'refused 19 0\n'), (b'00000', b'a(a,a)\n'), (b'0' * 9999 + b'11', b'b(b(a,b),b(b,b),b)\n'),
                          (b'1' * 200000, b'refused 15 0\n'), (b'-1', b'refused 19 0\n'), (b'1 ', b'refused 19 0\n'),
                          (b'a(' + b'a,' * 2046 + b'a)', b'refused 14 4095\n'), (b'(' * 4096, b'refused 19 0\n'), (b'(' * 4097, b'refused 18 0\n')):
        expect(f'treenum on {text[:40]}', treenum_lines(text), printed)
    for k in range(12):
        term = treenum_lines(b'%d\n' % k)
        expect(f'treenum on {k}, in small letters', term, term.lower())
        expect(f'treenum on {k}, there and back', {treenum_lines(spelling) for spelling in spellings_of(term)}, {b'%d\n' % k})
    # of request (a), and names that are listed in no spelling
    expect('treenum on spellings', treenum_lines(b'A(a,a)\nB(A,B)\nA\nB(a,A)\nA(\nC\na(A,AB)\n'),
           b'0\n1\nrefused 14 1\nrefused 14 5\nrefused 19 2\nrefused 20 0\nrefused 20 4\n')


def edge_tests(expect):
    # 'Edges': 'In document 01's first edges the arguments now have 4,294,967,295 and 4,294,967,297 trees, which make the
    # new limit and pass, and twice 4,294,967,296, which give 9.' Those are 3 * 5 * 17 * 257 * 65,537, 2 ** 32 + 1, and
    # 2 ** 32.
    squares = [[1, 0, 0], [2, 0, 0], [1, 1, 2, 0, 0], [1, 2, 2, 1, 1], [1, 3, 2, 2, 2], [1, 4, 2, 3, 3], [1, 5, 2, 4, 4]]
    factors = [[3, 6, 0], [4, 6, 0], [5, 6, 0], [3, 7, 1, 1], [6, 7, 0], [3, 8, 1, 2], [7, 8, 0], [3, 9, 1, 3], [8, 9, 0], [3, 10, 1, 4], [9, 10, 0],
               [1, 11, 4, 6, 7, 8, 9], [1, 12, 2, 10, 11], [3, 13, 1, 5], [10, 13, 0]]
    below = list(itertools.chain.from_iterable(squares + factors))
    counts = Counts(whole_rows(below))
    expect('edges', [counts.of_state(state) for state in range(14)],
           [2, 4, 16, 256, 65536, 4294967296, 3, 5, 17, 257, 65537, 65535, 4294967295, 4294967297])
    product = below + [1, 14, 2, 12, 13]
    expect('4,294,967,295 times 4,294,967,297', check(15, product, [14]), ('total', 18446744073709551615))
    expect('one tree more', check(15, product + [11, 14, 0], [14]), refused(9, 14))
    expect('one tree more, in no accepted tree', check(15, product + [11, 14, 0], [12]), ('total', 4294967295))
    expect('one tree more in the total', check(16, product + [11, 15, 0], [14, 15]), refused(11))
    expect('the same from the other end', check(16, product + [11, 15, 0], [15, 14]), refused(11))
    twice = below + [2, 14, 2, 5, 5]
    expect('4,294,967,296 twice', check(15, twice, [14]), refused(9, 14))
    expect('4,294,967,296 twice, not used', check(15, twice, [5]), ('total', 4294967296))
    # 'The latter with a third argument that counts 0 make a row of 0, which passes.' State 14 is empty.
    for arguments in ([5, 5, 14], [5, 14, 5], [14, 5, 5]):
        expect(f'4,294,967,296 twice and 0: {arguments}', check(16, below + [2, 15, 3, *arguments], [15]), ('total', 0))
        expect(f'beside a tree: {arguments}', check(16, below + [2, 15, 3, *arguments, 11, 15, 0], [15]), ('total', 1))

    # The edges of the limit before: all pass.
    expect('65,535 times 65,537', check(15, below + [1, 14, 2, 11, 10], [14]), ('total', 4294967295))
    expect('65,536 twice', check(14, below, [5]), ('total', 4294967296))
    expect('a total above the limit before', check(14, below, [12, 13]), ('total', 8589934592))


def limit_tests(expect):
    expect('a count that is not followed is above the limit', MANY > LIMIT, True)
    # Small tables, at each limit: what the check says by the trees, listed one by one.
    draw = random.Random(7)
    met = dict.fromkeys((9, 11, 'passes', 'passes, an unused state above the limit'), 0)
    tried = 0
    while tried < 300:
        states, rows, accepting = small_table(draw)
        counted = Counts(whole_rows(rows))
        if not 1 <= counted.total(accepting) <= 60:
            continue
        tried += 1
        table = whole_rows(rows)
        counts = [len(trees_of_rows(table, state)) for state in range(states)]
        total = sum(counts[state] for state in accepting)
        used = counted.used_by_trees(accepting)
        for limit in range(max(counts) + total + 2):
            above = [state for state in sorted(used) if counts[state] > limit]
            expected = refused(9, above[0]) if above else refused(11) if total > limit else ('total', total)
            expect(f'at the limit {limit} {states} {rows} {accepting}', check(states, rows, accepting, limit), expected)
            met[expected[1] if expected[0] == 'refused' else 'passes' if max(counts) <= limit else 'passes, an unused state above the limit'] += 1
    expect('answers at limits', [kind for kind, times in met.items() if times < 100], [])


def self_test():
    tried = failed = 0

    def expect(what, found, expected):
        nonlocal tried, failed
        tried += 1
        if found != expected:
            failed += 1
            print(f'{what}: {found}, expected {expected}')

    # 'The paper's own table'
    counts = Counts(whole_rows(PAPER_ROWS))
    expect('states of the paper', [counts.of_state(state) for state in range(5)], [1, 1, 2, 3, 10])
    expect('the paper', check(*PAPER), ('total', 12))
    expect('trees of the paper', agrees(*PAPER), True)

    # 'No states, rows or accepting entries: total 0.'
    expect('nothing', check(0, [], []), ('total', 0))

    edge_tests(expect)
    limit_tests(expect)

    # 'Edges': longest trees. 'A leaf has 2 entries, a row of 16 leaves 34, a row of 16 of those 546. Seven of
    # 546 and eight of 34 make 4,096, which passes; one leaf more makes 4,098, which is 10.'
    long = [1, 0, 0, 1, 1, 16] + [0] * 16 + [1, 2, 16] + [1] * 16
    most = long + [1, 3, 15] + [2] * 7 + [1] * 8
    more = long + [1, 3, 16] + [2] * 7 + [1] * 8 + [0]
    for rows, expected in ((most, [2, 34, 546, 4096]), (more, [2, 34, 546, 4098])):
        counts = Counts(whole_rows(rows))
        expect('longest trees', [counts.longest(state) for state in range(4)], expected)
    expect('4,096 entries', check(4, most, [3]), ('total', 1))
    expect('4,098 entries', check(4, more, [3]), refused(10, 3))
    expect('4,098 entries, not used', check(4, more, [2]), ('total', 1))

    # Small tables against trees listed one by one.
    draw = random.Random(1)
    small = 0
    while small < 300:
        states, rows, accepting = small_table(draw)
        counts = Counts(whole_rows(rows))
        if max((counts.longest(state) or 0 for state in range(states)), default=0) <= 10:
            expect(f'trees of {states} {rows} {accepting}', agrees(states, rows, accepting), True)
            small += 1

    accepting_tests(expect)
    used_tests(expect)
    tree_tests(expect)
    term_tests(expect)
    spelling_tests(expect)
    line_tests(expect)

    print(f'reference: {tried} self tests, {failed} failed')
    return failed == 0


if __name__ == '__main__':
    if sys.argv[1:] != ['--self-test']:
        sys.exit('usage: treenum_reference.py --self-test')
    sys.exit(0 if self_test() else 1)
