"""Writes lines for the program treenum.

    make_lines.py SEED COUNT [MODE]           the edges, which are always the same; COUNT drawn lines; a last line without byte 10
    make_lines.py SEED COUNT --short [MODE]   of these, the lines of at most 60 printable bytes: crates/treenum/stdin

MODE is --expected for what the reference prints for them, --tally for how many lines have each answer. An edge comes with
its answer, written down by hand; the program stops if the reference gives another. COUNT 0 gives the edges alone.
"""

import sys
from collections import Counter

from table_cases import Draw
from term_cases import edited_text, respelled
from treenum_reference import treenum_line, treenum_lines

TERMS = [b'a(a,a)', b'b(a,b)', b'a(a(a,a),a(a,a))', b'a(a(a,a),b(a,b))', b'a(b(a,b),a(a,a))', b'a(b(a,b),b(a,b))', b'b(a(a,a),a(b,a),b)',
         b'b(a(a,a),a(b,b),b)', b'b(a(a,a),b(b,b),b)', b'b(b(a,b),a(b,a),b)', b'b(b(a,b),a(b,b),b)', b'b(b(a,b),b(b,b),b)']


# The edges: lines and their answers

def edges():
    # the lines of document 01
    yield from zip((b'a(a,a)', b'b(b(a,b),a(b,b),b)', b'a', b'b(a,a)', b'10', b'12', b'a(', b'c'),
                   (b'0', b'10', b'refused 14 1', b'refused 14 5', b'b(b(a,b),a(b,b),b)', b'refused 15 0', b'refused 19 2', b'refused 20 0'))
    # the twelve numbers, there and back, with leading zeros
    for k, term in enumerate(TERMS):
        number = b'%d' % k
        yield term, number
        for zeros in (0, 1, 2, 19, 20, 21, 4094, 4095, 4096, 4097):
            if k in (0, 11) or zeros < 20:
                yield b'0' * zeros + number, term
    # terms in other spellings
    yield from ((b'A(a,a)', b'0'), (b'B(A,B)', b'1'), (b'a(A,a)', b'0'), (b'a(a,A)', b'0'), (b'b(a,B)', b'1'), (b'B(b(A,b),a(B,b),B)', b'10'))
    for k, term in enumerate(TERMS):
        for spelling in (term.upper(), term.replace(b'a', b'A'), term.replace(b'b', b'B'), term.replace(b',a', b',A')):
            yield spelling, b'%d' % k
    # numbers of any length from 12 up; those that are below 12 where 8, 16, 32 or 64 bits are kept
    for number in (12, 13, 19, 20, 99, 100, 110, 255, 256, 257, 267, 65536, 65537, 99999, 2 ** 32 - 1, 2 ** 32, 2 ** 32 + 3, 2 ** 63 - 1, 2 ** 63,
                   2 ** 64 - 2, 2 ** 64 - 1, 2 ** 64, 2 ** 64 + 4, 2 ** 64 + 7, 2 ** 64 + 11, 3 * 2 ** 64 + 5, 10 * 2 ** 64, 100 * 2 ** 64,
                   2 ** 128, 2 ** 128 + 11, 10 ** 19, 10 ** 20, 10 ** 40):
        yield b'%d' % number, b'refused 15 0'
        yield b'000%d' % number, b'refused 15 0'
    # past 64 bits by the last digit's sum, by its product, and by a digit before it
    for digits in (b'18446744073709551615', b'18446744073709551616', b'18446744073709551619', b'18446744073709551620', b'99999999999999999999',
                   b'184467440737095516150', b'184467440737095516160', b'184467440737095516167', b'999999999999999999999'):
        yield b'0' * 30 + digits, b'refused 15 0'
    for digits in (b'1' + b'0' * 199999, b'1' * 4096, b'1' * 4097, b'0' * 4095 + b'12', b'0' * 66000 + b'12', b'1' + b'0' * 4096, b'11' + b'0' * 65536):
        yield digits, b'refused 15 0'
    yield b'0' * 199998 + b'11', TERMS[11]
    # digits and another byte
    for line, place in ((b'1a', 0), (b'1 ', 0), (b' 1', 0), (b'+1', 0), (b'-1', 0), (b'1.0', 0), (b'0x1', 0), (b'1,1', 0), (b'1\r', 0), (b'1\0', 0),
                        (b'\x001', 0), (b'12\t', 0), (b'1' * 4095 + b'x', 0), (b'/', 0), (b':', 0), (b'0:', 0), (b'0/', 0), (b'\xb2', 0), (b'1\xb2', 0)):
        yield line, b'refused 19 %d' % place
    # a term line of 4,096 bytes, and above
    for line, answer in ((b'1' * 4096 + b'x', b'refused 18 0'), (b'x' + b'1' * 4096, b'refused 18 0'), (b'1' * 66000 + b' ', b'refused 18 0'),
                         (b'0' * 70000 + b'a', b'refused 18 0'), (b'0' * 4095 + b'a', b'refused 19 0'), (b'0' * 4096 + b'a', b'refused 18 0'),
                         (b'a' * 4096, b'refused 19 24'), (b'a' * 4097, b'refused 18 0'), (b'(' * 4096, b'refused 19 0'), (b'(' * 4097, b'refused 18 0'),
                         (b'a(' + b'a,' * 2046 + b'a)', b'refused 14 4095'), (b'a(' + b'a,' * 2046 + b'c)', b'refused 20 4094'),
                         (b'a(' + b'a,' * 2046 + b'ab)', b'refused 18 0'), (b'a(' * 2048, b'refused 19 4096'), (b'a(' * 2048 + b'a', b'refused 18 0'),
                         (b'a(' * 1365 + b'a' + b')' * 1365, b'refused 14 1367'), (b'\0' * 5000, b'refused 18 0'), (b'\xff' * 4096, b'refused 19 0'),
                         (b' ' * 70000, b'refused 18 0'), (b'c(' * 65536, b'refused 18 0'), (b'A(' + b'B,a,' * 1023 + b'A)', b'refused 14 4095'),
                         (b'A(' + b'B,a,' * 1023 + b'C)', b'refused 20 4094'), (b'A' * 4096, b'refused 19 24'), (b'A' * 4097, b'refused 18 0')):
        yield line, answer
    # no terms; only byte 10 ends a line
    for line, place in ((b'', 0), (b'', 0), (b' ', 0), (b'\r', 0), (b'\0', 0), (b'\x7f', 0), (b'\x80', 0), (b'\xff', 0), (b'a(a,a)\r', 6), (b'a(a,a)\0', 6),
                        (b'a(a,a) ', 6), (b' a(a,a)', 0), (b'a(a,a', 5), (b'a(a,a))', 6), (b'a(a,)', 4), (b'a()', 2), (b'a(,a)', 2), (b'a\0', 1),
                        (b'a(a,a)a', 6), (b'a(a,a),a(a,a)', 6), (b'a(a,\xe1)', 4), (b'\xe1', 0), (b'a(a;a)', 3), (b'a\x0ba', 1), (b'a\x85', 1), (b'a\xa0', 1),
                        (b'zz(', 3), (b'c()', 2), (b'a(c', 3), (b'abcdefghijklmnopqrstuvwxy', 24), (b'ABCDEFGHIJKLMNOPQRSTUVWXY', 24),
                        (b'A(', 2), (b'A()', 2), (b'A(a,B', 5), (b'C(', 2), (b'@', 0), (b'[', 0), (b'`', 0), (b'{', 0), (b'A@', 1), (b'A[', 1),
                        (b'A`', 1), (b'A{', 1), (b'A\x7f', 1), (b'A(a,\xc1)', 4), (b'!', 0), (b'"', 0), (b'\x01', 0)):
        yield line, b'refused 19 %d' % place
    # names that are not listed
    for line, place in ((b'C', 0), (b'D', 0), (b'aa', 0), (b'ab', 0), (b'a(a,c)', 4), (b'a(c,d)', 2), (b'c(a,a)', 0), (b'a(C,a)', 2), (b'a(a,a1)', 4),
                        (b'a(a,b-)', 4), (b'b_(a,b)', 0), (b'abcdefghijklmnopqrstuvwx', 0), (b'b(b(a,b),a(b,b),c)', 16), (b'AA', 0), (b'Ab', 0),
                        (b'A(a,C)', 4), (b'A(A,c)', 4), (b'C(A,A)', 0), (b'A(A1,c)', 2), (b'B-', 0), (b'ABCDEFGHIJKLMNOPQRSTUVWX', 0)):
        yield line, b'refused 20 %d' % place
    # terms that are not accepted
    for line, place in ((b'b', 1), (b'a(b,a)', 5), (b'a(a)', 3), (b'a(a,b)', 5), (b'a(a,a,a)', 7), (b'b(b,a)', 5), (b'a(a(a,b),b(a))', 6),
                        (b'b(a(a,a),a(b,a))', 13), (b'b(a(a,a),a(b,a),a)', 15), (b'a(a(a,a),a(b,a))', 13), (b'a(b(b,b),b(a))', 10),
                        (b'A', 1), (b'B', 1), (b'A(B,a)', 5), (b'B(A,A)', 5), (b'B(A(a,A),a(B,A),A)', 15), (b'A(b(B,b),B(A))', 10)):
        yield line, b'refused 14 %d' % place


# Drawn lines

def some_term(draw, names, depth):
    name = draw.pick(names)
    count = draw.pick([0, 1, 2, 2, 2, 3, 3]) if depth > 0 else 0
    return name + (b'(' + b','.join(some_term(draw, names, depth - 1) for _ in range(count)) + b')' if count else b'')


def drawn(draw, count):
    names = [b'a', b'b'] * 20 + [b'c', b'aa', b'C']
    for _ in range(count):
        kind = draw.below(10)
        if kind < 2:
            line = draw.pick(TERMS)
        elif kind < 4:
            line = edited_text(draw, draw.pick(TERMS))
        elif kind < 7:
            line = some_term(draw, names, draw.between(0, 4))
        elif kind < 8:
            line = b'0' * draw.pick([0, 0, 0, 1, 5, 30, 5000]) + b'%d' % draw.below(draw.pick([12, 12, 12, 20, 300, 2 ** 40]))
        elif kind < 9:
            line = bytes(draw.below(256) for _ in range(draw.between(0, 12)))
        else:
            line = some_term(draw, names, draw.between(4, 7))
        yield respelled(draw, line, [0, 0, 0.1, 0.5, 1]).replace(b'\n', b'')


LAST = b'b(a,b)'


def some_lines(seed, count):
    for line, by_hand in edges():
        answer = treenum_line(line)
        if answer != by_hand:
            sys.exit(f'the reference answers {answer} to an edge, not {by_hand}: {line[:400]}')
        yield line
    yield from drawn(Draw(seed), count)


def short_lines(seed, count):
    """Lines that are easy to read."""
    return [line for line in some_lines(seed, count) if len(line) <= 60 and all(32 <= b < 127 for b in line)]


def main(arguments):
    mode = arguments.pop() if arguments and arguments[-1] in ('--expected', '--tally') else '--lines'
    short = arguments[-1:] == ['--short'] and arguments.pop()
    if len(arguments) != 2:
        sys.exit('usage: make_lines.py SEED COUNT [--short] [--expected | --tally]')
    lines = (short_lines if short else some_lines)(*map(int, arguments))
    text = b'\n'.join([*lines, LAST])
    if mode == '--lines':
        sys.stdout.buffer.write(text)
        return
    printed = treenum_lines(text)
    if mode == '--expected':
        sys.stdout.buffer.write(printed)
        return
    tally = Counter(b' '.join(line.split()[:2]) if line[:3] == b'ref' else b'number' if line.isdigit() else b'term' for line in printed.splitlines())
    print(sum(tally.values()), 'lines:', ', '.join(f'{tally[key]} {key.decode()}' for key in sorted(tally)))


if __name__ == '__main__':
    main(sys.argv[1:])
