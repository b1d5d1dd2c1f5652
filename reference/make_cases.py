"""Writes test cases, one a line, for the program of crates/cases, which has the form of a line.

    make_cases.py SEED COUNT              the edges, which are always the same; COUNT drawn tables to check; all trees and
                                          numbers of COUNT / 50 small tables; trees and numbers of COUNT / 10 larger ones;
                                          COUNT / 2 drawn terms to read, and their trees to write; lines that are no cases
    make_cases.py SEED COUNT --expected   the answers of the reference to them, a line each
    make_cases.py SEED COUNT --tally      how many cases have each answer

An edge comes with its answer, written down by hand, and a small table's trees with theirs, from listing them all in
order; the program stops if the reference gives another.
"""

import sys
from collections import Counter

import table_cases
import term_cases
import tree_cases
from table_cases import Draw
from treenum_reference import check, number, read_term, write, write_term

# Lines that are no cases, which the program answers by `bad line`

BAD_TABLES = ['', ' ', '0', '0 0', '0 0 ', '0 0 0 ', ' 0 0 0', '0  0 0', '0 0 0 0', '0 1 0', '0 1 0 0 0',
              '0 0 1', '1 3 1 0 0 1', '1 3 1 0 0 1 0 0', '1 3 1 0 0 2 0', '1 5 1 0 0 1 0', '-1 0 0', '+1 0 0', '1,0,0',
              '0 0 0\r', '0\t0 0', 'a 0 0', '0x1 0 0', '1.0 0 0', '18446744073709551616 0 0',
              '18446744073709551620 0 0', '184467440737095516150 0 0', '99999999999999999999999999999999 0 0',
              '1 3 65536 0 0 0', '1 3 1 0 65536 0', '0 65536 0', '0 0 65536', '1 3 1 0 0 1 65536',
              '1 3 18446744073709551617 0 0 0', '1 66001 99999 66001 1 0 0', '1 0 66001 99999 66001 1 0',
              '0 18446744073709551615 0', '0 0 18446744073709551615']
BAD_LINES = ['', ' ', '1', '2', '3', '4', '5', '0 0 0 0', '0 0 0 0 0', '6 0 0 0', '7 0 0', '14 0 0 0', '257 0 0 0', ' 4 0 0 0',
             '18446744073709551617 0 0 0',
             # lists that are not whole, or followed by more
             '4 0', '4 0 0', '4 0 0 0 0', '4 1 97 0', '4 2 97 0 0', '4 0 1 97', '4 0 1 97 1', '4 0 1 97 0 0', '4 0 0 1', '4 0 0 1 0 0',
             '5 0', '5 0 0', '5 0 0 0 0', '5 1 97 0', '5 0 2 1 0', '5 0 0 1', '4 18446744073709551615 0 0', '5 0 18446744073709551615 0',
             '4 0 0 18446744073709551615',
             '2 0', '2 0 0', '2 0 0 0', '2 0 0 0 1', '2 0 0 0 0 0', '2 0 0 0 2 1', '2 0 0 1 0', '2 0 1 0 0', '2 1 3 1 0 0 1 0', '3 0', '3 0 0', '3 0 0 0',
             '3 0 0 0 0', '3 0 0 0 0 1', '3 0 0 0 0 0 0', '3 0 0 0 7 2 1', '3 0 0 1 0 0', '3 0 1 0 0 0', '3 1 3 1 0 0 1 0 0', '2 0 0 0 18446744073709551615',
             '2 0 18446744073709551615 0 0', '3 0 0 18446744073709551615 0 0', '3 0 0 0 0 18446744073709551615',
             # entries that do not fit
             '2 0 1 65536 0 0', '2 0 0 1 65536 0', '2 0 0 0 1 65536', '2 18446744073709551616 0 0 0', '3 0 1 65536 0 0 0', '3 0 0 1 65536 0 0',
             '3 0 0 0 0 1 65536', '3 0 0 0 18446744073709551616 0', '3 18446744073709551616 0 0 0 0',
             '4 1 256 0 0', '4 0 1 256 0', '4 0 0 1 65536', '5 1 256 0 0', '5 0 1 65536 0', '5 0 0 1 256', '4 1 65633 0 0',
             # too long
             '2 0 66001 99999 66001 1 0 0 0', '2 0 0 66001 99999 66001 1 0 0', '2 0 0 0 66001 99999 66001 1 0', '3 0 66001 99999 66001 1 0 0 0 0',
             '3 0 0 66001 99999 66001 1 0 0 0', '3 0 0 0 0 66001 99999 66001 1 0',
             '4 66001 99999 66001 1 97 0 0', '4 0 66001 99999 66001 1 97 0', '4 0 0 66001 99999 66001 1 0',
             '5 66001 99999 66001 1 97 0 0', '5 0 66001 99999 66001 1 0 0', '5 0 0 66001 99999 66001 1 0',
             # short forms that are none, or too long
             '3 0 0 0 99999 0', '3 0 0 0 99999 1 1 0', '2 0 0 0 99999 80001 1 0', '4 2 99999', '4 2 99999 2', '4 2 99999 2 1', '4 2 99999 2 0', '4 2 99999 2 0 0 0', '4 2 99999 2 3 97 0',
             '4 2 99999 1 1 97 0 0', '4 2 99999 3 1 97 0 0', '4 0 0 0 99999 80001 1 0', '4 0 0 0 99999 79998 1 0', '4 0 0 99999 18446744073709551615 1 0',
             '4 0 0 0 99999 1 18446744073709551615 0', '99999 2 1 4 0 0', '4 99999 2 1 0 0 0']


# The short form of a list

def shortened(entries):
    """The list as numbers of a line, with `99999 c k v1 .. vk` for c entries that are v1 to vk over and over."""
    entries = list(entries)
    if len(entries) <= 64:
        return entries
    numbers = []
    at = 0
    while at < len(entries):
        for k in range(1, 31):
            end = at + k
            while end < len(entries) and entries[end] == entries[end - k]:
                end += 1
            if end - at > k + 20:
                numbers += [99999, end - at, k, *entries[at:at + k]]
                at = end
                break
        else:
            numbers.append(entries[at])
            at += 1
    return numbers


# The output

CHECK = 1
OPERATIONS = {CHECK: check, tree_cases.NUMBER: number, tree_cases.WRITE: write, term_cases.READ: read_term, term_cases.WRITE: write_term}


def digest(entries):
    number = 0
    for entry in entries:
        number = (number * 65599 + entry) % 4294967291
    return number


def shown(outcome, lent=None):
    """An answer, and what the lent list then holds."""
    answer = ' '.join(map(str, outcome))
    if lent is None:
        return answer
    held = map(str, lent if len(lent) <= 64 else [len(lent), 'entries', digest(lent)])
    return ' '.join([answer + ';', *held])


def answer_to(operation, *case):
    answer = OPERATIONS[operation](*case)
    return shown(answer) if operation in (CHECK, tree_cases.NUMBER) else shown(*answer)


def line(operation, *parts):
    """The case as a line: numbers, and lists after their lengths. From the third number on, 99999 begins a short form."""
    numbers = [operation]
    for part in parts:
        if not isinstance(part, int):
            numbers += [len(part), *shortened(part)]
        elif part == 99999 and len(numbers) > 1:
            numbers += [99999, 1, 1, 99999]
        else:
            numbers.append(part)
    return ' '.join(map(str, numbers))


def answered(seed, count):
    """Cases with their answers, found without the reference's operations."""
    for case, by_hand in table_cases.edges():
        yield (CHECK, *case), by_hand
    for case, by_hand, held in tree_cases.edges():
        yield case, shown([by_hand], case[-1] if held is None and case[0] == tree_cases.WRITE else held)
    for case, by_hand, held in term_cases.edges():
        yield case, shown([by_hand], case[3] if held is None else held)
    for case, outcome, held in tree_cases.enumerated(Draw(seed), count // 50):
        yield case, shown(outcome, held)


def drawn(seed, count):
    for case in table_cases.drawn(Draw(seed), count):
        yield (CHECK, *case)
    yield from tree_cases.drawn(Draw(seed), count // 10)
    yield from term_cases.drawn(Draw(seed), count // 2)


def cases(seed, count):
    """Pairs of a line and its answer."""
    for case, expected in answered(seed, count):
        answer = answer_to(*case)
        if answer != expected:
            sys.exit(f'the reference answers `{answer[:400]}`, not `{expected[:400]}`: {line(*case)[:400]}')
        yield line(*case), answer
    for case in drawn(seed, count):
        yield line(*case), answer_to(*case)
    for text in ['1 ' + text for text in BAD_TABLES] + BAD_LINES:
        yield text, 'bad line'


def main(arguments):
    mode = arguments.pop() if arguments and arguments[-1] in ('--expected', '--tally') else '--cases'
    if len(arguments) != 2:
        sys.exit('usage: make_cases.py SEED COUNT [--expected | --tally]')
    both = list(cases(*map(int, arguments)))
    if mode == '--tally':
        tally = Counter(' '.join(answer.split(';')[0].split()[:2 if answer[0:3] == 'ref' else 1]) for _, answer in both)
        print(len(both), 'cases:', ', '.join(f'{tally[key]} {key}' for key in sorted(tally, key=lambda key: (len(key), key))))
    else:
        sys.stdout.writelines(pair[mode == '--expected'] + '\n' for pair in both)


if __name__ == '__main__':
    main(sys.argv[1:])
