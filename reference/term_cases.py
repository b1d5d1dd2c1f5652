"""Cases of reading and writing terms, for make_cases.py.

A case is the operation's number, the names, the text or the tree, and the lent list. edges() gives cases with their
answers, written down by hand; drawn(draw, count) gives cases from so many drawn terms.
"""

READ, WRITE = 4, 5

AB = b'a\nb\n'
LONG = b'abcdefghijklmnopqrstuvw'   # 23 bytes
CAPITALS = b'ABCDEFGHIJKLMNOPQRSTUVWXYZ'
SMALL = b'abcdefghijklmnopqrstuvwxyz'
LETTERS = CAPITALS + SMALL
OTHERS = b'0123456789-_'


def many_names(count):
    """So many names of two bytes."""
    return b''.join(bytes([97 + k // 20, 97 + k % 20]) + b'\n' for k in range(count))


def over_leaves(root, leaves):
    """The tree of a root over leaves."""
    return [root, *(entry for leaf in leaves for entry in (leaf, 0)), 0]


def room(count):
    """A lent list of entries that no tree has."""
    return [300 + i % 7 for i in range(count)]


def blank(count):
    """A lent list of bytes that no term has."""
    return bytes(200 + i % 7 for i in range(count))


# The edges: a case, its answer, and what the lent list then holds

FAULTY_NAMES = [
    (b'', 0), (b'\n', 0), (b'a', 0), (b'a\n\n', 1), (b'a\nb', 1), (b'\na\n', 0), (b'a\n\nb\n', 1), (b'\n\n', 0), (b'a\nb\n\n', 2),
    # equal names, and faults before and after them
    (b'a\na\n', 1), (b'a\nb\na\n', 2), (b'a\nb\nb\na\n', 2), (b'a\na', 1), (b'ab\na\nab\n', 2), (b'a\na\n1\n', 1), (b'a\n1\na\n', 1),
    (LONG + b'x\n' + LONG + b'y\n' + LONG + b'x\n', 2),
    # names that differ only in the case of letters: each letter, and some
    *((b'%c\n%c\n' % pair, 1) for pair in zip(CAPITALS, SMALL)), *((b'k%c\nk%c\n' % pair, 1) for pair in zip(SMALL, CAPITALS)),
    (b'Probe\nprobe\n', 1), (b'probe\nshut\nPROBE\n', 2), (b'a\nA\na\n', 1), (b'a\nb\nA\nB\n', 2), (b'A\nb\nB\na\n', 2),
    (b'aB\nab\nAb\nAB\n', 1), (b'b\naB\nAb\nab\n', 2), (b'x1-a\nX1-b\nx1_A\nx1-A\n', 3), (b'ab\nA\naB\n', 2), (b'a-Z9\nb\nA-z9\n', 2),
    # the same, and other faults before and after them
    (b'a\nA\n1\n', 1), (b'a\n1\nA\n', 1), (b'1\na\nA\n', 0), (b'a\nA\n\n', 1), (b'a\nb\n\nA\n', 2), (b'a\nA', 1), (b'a\nb\nA', 2),
    (b'a\nb\nA\nb\n', 2), (b'a\nb\nb\nA\n', 2), (b'a\nA\n' + LONG + b'xy\n', 1), (LONG + b'xy\na\nA\n', 0),
    # the same, of 24 bytes, that differ in the last byte, the first, all; of 24 and 25, and of 25
    (LONG + b'x\n' + LONG + b'X\n', 1), (LONG + b'x\nA' + LONG[1:] + b'x\n', 1), (LONG.upper() + b'X\nb\n' + LONG + b'x\n', 2),
    (LONG + b'x\n' + LONG + b'y\n' + LONG + b'X\n', 2), (LONG + b'x\n' + LONG.upper() + b'XY\n', 1), (b'a\n' + LONG + b'xy\n' + LONG + b'xY\n', 1),
    # bytes that cannot begin a name, or stand in one
    (b'1\n', 0), (b'-\n', 0), (b'_a\n', 0), (b'@\n', 0), (b'[\n', 0), (b'`\n', 0), (b'{\n', 0), (b'a\n9b\n', 1), (b' a\n', 0),
    (b'a \n', 0), (b'a b\n', 0), (b'a\r\n', 0), (b'a\t\n', 0), (b'a,\nb\n', 0), (b'b\na.\n', 1), (b'a/\n', 0), (b'a:\n', 0),
    (b'a@\n', 0), (b'a[\n', 0), (b'a^\n', 0), (b'a`\n', 0), (b'a{\n', 0), (b'a(\n', 0), (b'a)\n', 0),
    (b'\x7f\n', 0), (b'a\x7f\n', 0), (b'a_\na\x7f\n', 1), (b'a-\na\r\n', 1), (b'a0\na\x10\n', 1), (b'a]\n', 0), (b'a}\n', 0), (b'a|\n', 0), (b'a~\n', 0),
    (b'\0\n', 0), (b'a\0\n', 0), (b'a\nb\0', 1), (b'\x80\n', 0), (b'a\xff\n', 0), (b'\xc3\xa9\n', 0), (b'a\nb\xe1\n', 1),
    (b'a\nb\x8a', 1), (b'\xe1\n', 0),
    # lengths
    (LONG + b'xy\n', 0), (b'a\n' + LONG + b'xy\n', 1), (b'a' * 25 + b'\n', 0), (b'a' * 256 + b'\n', 0), (b'a' * 257 + b'\n', 0),
    (b'a' * 6500, 0), (b'a\n' + b'b' * 6500 + b'\n', 1), (b'\n' * 6500, 0),
    # how many
    (many_names(256), 255), (many_names(257), 255), (many_names(300), 255), (many_names(256)[:-1], 255), (many_names(255)[:-1], 254),
    (many_names(255) + b'1\n', 255), (many_names(255) + b'\n', 255), (many_names(255) + b'aa\n', 255), (many_names(255) + b'x', 255),
    (many_names(3) + b'-\n' + many_names(300), 3), (many_names(254) + many_names(254), 254),
    (many_names(254) + b'AA\n', 254), (many_names(254) + b'mN\n', 254), (many_names(255) + b'AA\n', 255), (b'AA\n' + many_names(254), 1),
]

# names with each byte that can stand in one, of letters the small one
NEAR = [b'a%c' % byte for byte in SMALL + OTHERS]

NAMES = [b'a\n', AB, b'A\nB\n', b'A\nb\n', b'a-_9\nZ0\nz-\n', b'a\nab\nabc\n', b'abc\nAb\na\n', LONG + b'x\n', LONG + b'X\n' + LONG + b'y\n',
         b'a--\na__\na00\n', b'Z\nY\n', many_names(255), many_names(254), many_names(255).upper(),
         # a letter and another byte that lie 16, 32 or 64 apart
         b'aP\na0\n', b'ap\na0\n', b'a9\naY\n', b'a9\nay\n', b'aM\na-\n', b'a-\nam\n', b'a-\na_\n', b'aO\na_\n', b'a_\nao\n',
         LONG + b'P\n' + LONG + b'0\n', LONG + b'-\n' + LONG + b'm\n']

# texts that are no terms over any names, with their places
NO_TERMS = [
    (b'', 0), (b'(', 0), (b')', 0), (b',', 0), (b'1', 0), (b'-', 0), (b'_', 0), (b' ', 0), (b'\n', 0), (b'\0', 0), (b'\x80', 0),
    (b'\xff', 0), (b'\xe1', 0), (b'@', 0), (b'[', 0), (b'`', 0), (b'{', 0), (b'(a)', 0), (b' a', 0), (b'1a', 0),
    (b'a()', 2), (b'a(', 2), (b'a(a', 3), (b'a(a,', 4), (b'a(a,)', 4), (b'a(,a)', 2), (b'a(,', 2), (b'a(a,,a)', 4), (b'a(a,a', 5),
    (b'a,', 1), (b'a,a', 1), (b'a)', 1), (b'a(a))', 4), (b'a(a)a', 4), (b'a(a)1', 4), (b'a(a)(a)', 4), (b'a(a)(', 4), (b'a(a),', 4),
    (b'a(a),a', 4), (b'a(a(a)a)', 6), (b'a(a(a)(a))', 6), (b'a(a(a)', 6), (b'a(a(a),', 7), (b'a(a(a),)', 7), (b'a((a))', 2),
    (b'a(a,(a))', 4), (b'a(a(a,a),(a))', 9), (b'a(a(a', 5), (b'a(a(a)))', 7), (b'a(a())', 4),
    (b'a (a)', 1), (b'a( a)', 2), (b'a(a ,a)', 3), (b'a(a, a)', 4), (b'a(a )', 3), (b'a(a) ', 4), (b'a ', 1), (b'a(a,a) ', 6),
    (b'a\n', 1), (b'a\r', 1), (b'a(a,a)\n', 6), (b'a\nb', 1), (b'a(a\n)', 3), (b'a\0', 1), (b'a(a\0)', 3), (b'a(\0)', 2), (b'a(a)\0', 4),
    (b'a\x80', 1), (b'a(\xff', 2), (b'a\xe1', 1), (b'a(a\xa8a)', 3), (b'a(a)\xac', 4),
    (b'a(1)', 2), (b'a(a,1)', 4), (b'a(-)', 2), (b'a(_a)', 2), (b'a(a;a)', 3), (b'a[a]', 1), (b'a.a', 1), (b'a/', 1), (b'a:', 1),
    (b'a@', 1), (b'a^', 1), (b'a`', 1), (b'a{', 1), (b'a*', 1), (b'a+', 1), (b'a.', 1),
    # capitals; bytes that lie beside the letters, or 32 or 64 from a byte of a name or a mark
    (b'A(', 2), (b'A()', 2), (b'A(a,B', 5), (b'A(B))', 4), (b'A,a', 1), (b'A(a)B', 4), (b'ZZ(', 3), (b'A[', 1), (b'A{', 1), (b'A@', 1), (b'A`', 1),
    (b'\x7f', 0), (b'a\x7f', 1), (b'A(B\x7f)', 3), (b'A(\x7f)', 2), (b'A\0', 1), (b'A(\0)', 2), (b'A(B )', 3), (b'A( B)', 2), (b'A(B\r)', 3),
    (b'A(@)', 2), (b'A([)', 2), (b'A(`)', 2), (b'A({)', 2), (b'A(B@)', 3), (b'A(B[)', 3), (b'A(B`)', 3), (b'A(B{)', 3), (b'a]', 1), (b'a}', 1), (b'a|', 1),
    (b'a~', 1), (b'a\x10', 1), (b'\x01', 0), (b'!', 0), (b'\xc1', 0), (b'A\xc2', 1), (b'A\x08a)', 1), (b'a(a\x0ca)', 3), (b'a(a\t', 3),
    # names that are not listed do not matter before the text is a term
    (b'zz(', 3), (b'zz(zz))', 6), (b'zz,', 2), (b'c()', 2),
    # names of 25 bytes
    (b'a' * 25, 24), (LONG + b'xy', 24), (b'a(' + LONG + b'xy)', 26), (b'a(a,' + LONG + b'xy)', 28), (LONG + b'x1(', 24), (b'a' * 280, 24),
    (LONG + b'x(' + LONG + b'xy', 49), (LONG + b'x-', 24), (b'A' * 25, 24), (LONG.upper() + b'XY', 24), (b'A(' + LONG + b'xY)', 26),
]

# terms over a and b, and their trees
TERMS = [
    (b'a', [1, 0]), (b'b', [2, 0]), (b'a(a)', [1, 1, 0, 0]), (b'a(b)', [1, 2, 0, 0]), (b'b(a)', [2, 1, 0, 0]),
    (b'a(a,a)', [1, 1, 0, 1, 0, 0]), (b'b(a,b)', [2, 1, 0, 2, 0, 0]), (b'a(a(a))', [1, 1, 1, 0, 0, 0]),
    (b'a(a(a),b)', [1, 1, 1, 0, 0, 2, 0, 0]), (b'a(b,a(a))', [1, 2, 0, 1, 1, 0, 0, 0]),
    (b'a(a(a,a),b(a,b))', [1, 1, 1, 0, 1, 0, 0, 2, 1, 0, 2, 0, 0, 0]),
    (b'b(a(a,a),a(b,a),b)', [2, 1, 1, 0, 1, 0, 0, 1, 2, 0, 1, 0, 0, 2, 0, 0]),
    (b'b(b(a,b),a(b,b),b)', [2, 2, 1, 0, 2, 0, 0, 1, 2, 0, 2, 0, 0, 2, 0, 0]),
    (b'b(b(a,b),b(b,b),b)', [2, 2, 1, 0, 2, 0, 0, 2, 2, 0, 2, 0, 0, 2, 0, 0]),
    (b'a(' + b'b,' * 40 + b'a)', [1] + [2, 0] * 40 + [1, 0, 0]),
    (b'a(' * 40 + b'b' + b')' * 40, [1] * 40 + [2] + [0] * 41),
]

# texts with a name that is not among a and b, and its place
UNLISTED = [(b'c', 0), (b'C', 0), (b'ab', 0), (b'aa', 0), (b'D(a)', 0), (b'a(c)', 2), (b'a(a,c,c)', 4), (b'c(d)', 0), (b'a(c(d),e)', 2),
            (b'a(aa)', 2), (b'a(b(c))', 4), (b'a(b(a),c)', 7), (b'a(b,b-)', 4), (b'a(b,a_,c)', 4), (b'a1', 0), (b'a' * 24, 0),
            (b'a(' + LONG + b'x)', 2), (b'a(b,a,b(a(b),zz),zz)', 13), (b'Aa', 0), (b'AB', 0), (b'A(B,C,c)', 4), (b'A(B,c,C)', 4), (b'B(a,Ab)', 4),
            (b'A1', 0), (b'B-', 0), (b'B(A_)', 2), (b'A' * 24, 0), (b'A(b,A,B(a(b),ZZ),zz)', 13)]

# names, a text with another that is near, and its place
UNLISTED_NEAR = [(b'aP\n', b'a0', 0), (b'a0\n', b'aP', 0), (b'a0\n', b'ap', 0), (b'aM\n', b'a-', 0), (b'a-\n', b'aM', 0), (b'a-\n', b'am', 0),
                 (b'a-\n', b'A_', 0), (b'a_\n', b'A-', 0), (b'a_\n', b'aO', 0), (b'a_\n', b'ao', 0), (b'Probe\n', b'PROBES', 0),
                 (b'Probe\n', b'prob', 0), (b'Probe\n', b'Probe(PROBE,Prob)', 12), (LONG + b'x\n', LONG.upper() + b'Y', 0), (LONG + b'x\n', LONG.upper(), 0),
                 (LONG + b'm\n', LONG + b'-', 0), (LONG + b'0\n', LONG.upper() + b'P', 0), (b'B' + LONG + b'\n', b'a' + LONG, 0)]

# names, a text that is not in their spelling, its tree, and the tree's text
SPELLED = [
    (AB, b'A', [1, 0], b'a'), (AB, b'B', [2, 0], b'b'), (AB, b'A(b)', [1, 2, 0, 0], b'a(b)'), (AB, b'a(B)', [1, 2, 0, 0], b'a(b)'),
    (AB, b'A(a,a)', [1, 1, 0, 1, 0, 0], b'a(a,a)'), (AB, b'B(A,B)', [2, 1, 0, 2, 0, 0], b'b(a,b)'), (AB, b'a(a,A)', [1, 1, 0, 1, 0, 0], b'a(a,a)'),
    (AB, b'B(b(A,b),a(B,b),B)', [2, 2, 1, 0, 2, 0, 0, 1, 2, 0, 2, 0, 0, 2, 0, 0], b'b(b(a,b),a(b,b),b)'),
    (b'A\nB\n', b'b(a,b)', [2, 1, 0, 2, 0, 0], b'B(A,B)'), (b'A\nB\n', b'b(A,B)', [2, 1, 0, 2, 0, 0], b'B(A,B)'),
    (b'A\nb\n', b'B(a,b)', [2, 1, 0, 2, 0, 0], b'b(A,b)'), (b'b\nA\n', b'a(A,B)', [2, 2, 0, 1, 0, 0], b'A(A,b)'),
    (b'Z\ny\n', b'z(Y,Z)', [1, 2, 0, 1, 0, 0], b'Z(y,Z)'),
    (b'Probe\nshut\n', b'probe(SHUT,sHuT,Shut)', [1, 2, 0, 2, 0, 2, 0, 0], b'Probe(shut,shut,shut)'),
    (b'probe\nSHUT\n', b'Probe(shut,pROBE)', [1, 2, 0, 1, 0, 0], b'probe(SHUT,probe)'),
    (b'd0\nD-1_x\n', b'D0(d-1_X,D-1_x,d-1_x)', [1, 2, 0, 2, 0, 2, 0, 0], b'd0(D-1_x,D-1_x,D-1_x)'),
    (b'a\nab\nabc\n', b'ABC(aB,A,AbC)', [3, 2, 0, 1, 0, 3, 0, 0], b'abc(ab,a,abc)'),
    (b'ABC\nAB\nA\n', b'abc(ab,a,Abc)', [1, 2, 0, 3, 0, 1, 0, 0], b'ABC(AB,A,ABC)'),
    (LONG + b'x\n' + LONG + b'Y\n', LONG + b'y(' + LONG + b'X,' + LONG.upper() + b'Y)', [2, 1, 0, 2, 0, 0], LONG + b'Y(' + LONG + b'x,' + LONG + b'Y)'),
    (b'A' + LONG + b'\nb\n', b'a' + LONG + b'(B)', [1, 2, 0, 0], b'A' + LONG + b'(b)'),
    # each byte, the list in small letters and in capitals
    (b'\n'.join(NEAR) + b'\n', b'AA(' + b','.join(NEAR).upper() + b')', over_leaves(1, range(1, 39)), b'aa(' + b','.join(NEAR) + b')'),
    (b'\n'.join(NEAR).upper() + b'\n', b'aa(' + b','.join(NEAR) + b')', over_leaves(1, range(1, 39)), b'AA(' + b','.join(NEAR).upper() + b')'),
]

# lists that are no trees, with their places
NO_TREES = [
    ([], 0), ([0], 0), ([0, 0], 0), ([0, 1, 0], 0), ([1], 1), ([2], 1), ([1, 1], 2), ([1, 1, 0], 3), ([1, 1, 0, 1, 0], 5), ([1, 0, 0], 2),
    ([1, 0, 1], 2), ([1, 0, 1, 0], 2), ([1, 0, 0, 1, 0], 2), ([1, 1, 0, 0, 0], 4), ([1, 1, 0, 0, 2, 0], 4), ([256], 0), ([256, 0], 0),
    ([65535, 0], 0), ([257, 0], 0), ([1, 256, 0, 0], 1), ([1, 0, 256], 2), ([1, 0, 65535], 2), ([1, 1, 0, 512, 0, 0], 3), ([1, 256], 1),
    # symbols without a name do not matter before the list is a tree
    ([3], 1), ([3, 0, 0], 2), ([3, 256], 1), ([255, 255, 0], 3), ([255, 0, 1], 2),
    # more than 2,048 open
    ([1] * 2049, 2049), ([1] * 3000 + [256], 3000), ([1] * 4096, 4096), ([1] * 2049 + [0] * 2047, 4096), ([1] * 2500 + [0] * 1500, 4000),
    ([1] * 2049 + [0] * 2046 + [256], 4095), ([1] * 2048 + [0] * 2047, 4095), ([1] * 2047 + [0] * 2047 + [0], 4094),
    ([1] * 2047 + [0] * 2047 + [1, 0], 4094), ([1] + [1, 0] * 2047, 4095), ([1] + [1, 0] * 2046 + [0, 0], 4094), ([1, 0] * 2048, 2),
]

# trees with a symbol above two names, and its place
UNNAMED = [([3, 0], 0), ([255, 0], 0), ([1, 3, 0, 0], 1), ([3, 4, 0, 0], 0), ([1, 255, 0, 3, 0, 0], 1), ([1, 2, 0, 1, 2, 0, 3, 0, 0, 0], 6),
           ([1, 1, 0, 1, 0, 9, 0, 3, 0, 0], 5), ([1] * 2047 + [3] + [0] * 2048, 2047), ([1] + [2, 0] * 2046 + [3, 0, 0], 4093)]


def place_edges():
    """A name of some lengths with another byte in one place: in the text, alone and within, and as a second line."""
    for length in (1, 7, 8, 9, 15, 16, 17, 23, 24):
        name = (b'Kp0_-Za' * 4)[:length]
        for at in sorted({0, 1, 6, 7, 8, 15, 16, 22, 23} & set(range(length))):
            for byte in sorted({name[at] ^ 32, name[at] ^ 128, *b'\0\x19-@Qq[_`{\x7f\x80\xff'}):
                other = name[:at] + bytes([byte]) + name[at + 1:]
                equal = byte == name[at] or byte ^ 32 == name[at] and byte in LETTERS
                is_name = byte in LETTERS or at > 0 and byte in OTHERS
                names, within = name + b'\nb\n', b'b(' + other + b',b,b,b,b,b)'
                if equal:
                    yield (READ, names, other, room(3)), 'result 2', [1, 0, 302]
                    yield (READ, names, within, room(14)), 'result 14', over_leaves(2, [1, 2, 2, 2, 2, 2])
                else:
                    refused, place = ('20', 0) if is_name else ('19', at)
                    yield (READ, names, other, room(3)), f'refused {refused} {place}', None
                    yield (READ, names, within, room(14)), f'refused {refused} {place + 2}', None
                if equal or not is_name:
                    yield (READ, name + b'\n' + other + b'\n', name, room(3)), 'refused 17 1', None
                else:
                    yield (READ, name + b'\n' + other + b'\n', other, room(3)), 'result 2', [2, 0, 302]
    # lists as long as they can be, one line longer, and with a byte that no name has
    lines = [b'%03d' % k + b'-' * 20 for k in range(256)]
    full = [b'n' + line for line in lines]
    yield (READ, b'\n'.join(full[:255]) + b'\n', full[254].upper(), room(2)), 'result 2', [255, 0]
    yield (READ, b'\n'.join(full) + b'\n', full[254], room(2)), 'refused 17 255', None
    for line in (0, 127, 254, 255):
        for count in (255, 256):
            if line < count:
                bad = full[:line] + [full[line][:-1] + b'.'] + full[line + 1:count]
                yield (READ, b'\n'.join(bad) + b'\n', full[1], room(2)), f'refused 17 {line}', None
                yield (READ, b'\n'.join(bad), full[1], room(2)), f'refused 17 {line}', None


def read_edges():
    yield from place_edges()
    for names, line in FAULTY_NAMES:
        yield (READ, names, b'a', room(4)), f'refused 17 {line}', None
    for names in NAMES:
        lines = names.split(b'\n')[:-1]
        last = len(lines)
        yield (READ, names, lines[-1], room(3)), 'result 2', [last, 0, 302]
        yield (READ, names, lines[0] + b'(' + lines[-1] + b')', room(4)), 'result 4', [1, last, 0, 0]
    # names that begin alike
    yield (READ, b'a\nab\nabc\n', b'abc(ab,a,abc)', room(9)), 'result 8', [3, 2, 0, 1, 0, 3, 0, 0, 301]
    yield (READ, b'abc\nab\na\n', b'abc(ab,a,abc)', room(8)), 'result 8', [1, 2, 0, 3, 0, 1, 0, 0]
    yield (READ, b'abc\nabd\n', b'ab', room(8)), 'refused 20 0', None
    yield (READ, b'ab\n', b'abc', room(8)), 'refused 20 0', None
    yield (READ, b'ab\n', b'a', room(8)), 'refused 20 0', None
    yield (READ, LONG + b'x\n' + LONG + b'y\n', LONG + b'y(' + LONG + b'x,' + LONG + b'y)', room(6)), 'result 6', [2, 1, 0, 2, 0, 0]

    for text, place in NO_TERMS:
        yield (READ, AB, text, room(6)), f'refused 19 {place}', None
    for text, place in UNLISTED:
        yield (READ, AB, text, room(6)), f'refused 20 {place}', None
    for names, text, place in UNLISTED_NEAR:
        yield (READ, names, text, room(6)), f'refused 20 {place}', None
    for names, text, tree, _ in SPELLED:
        n = len(tree)
        yield (READ, names, text, room(n + 1)), f'result {n}', tree + room(n + 1)[n:]
        yield (READ, names, text, room(n - 1)), f'refused 22 {n}', None
    # lists from none to longer than needed
    for text, tree in TERMS:
        n = len(tree)
        for count in sorted({0, 1, n - 1, n, n + 1, n + 2, n + 70}):
            if count < n:
                yield (READ, AB, text, room(count)), f'refused 22 {n}', None
            else:
                yield (READ, AB, text, room(count)), f'result {n}', tree + room(count)[n:]
    yield (READ, b'x\n', b'x(x)', [0, 1, 65535, 9, 0, 65535]), 'result 4', [1, 1, 0, 0, 0, 65535]

    # 2,048 names in a text, side by side and one within the other, and 2,049
    for text, tree in ((b'a(' + b'a,' * 2046 + b'b)', [1] + [1, 0] * 2046 + [2, 0, 0]),
                       (b'a(' * 2047 + b'b' + b')' * 2047, [1] * 2047 + [2] + [0] * 2048),
                       (b'b(' * 1023 + b'a(' + b'a,' * 1023 + b'b)' + b')' * 1023,
                        [2] * 1023 + [1] + [1, 0] * 1023 + [2, 0] + [0] * 1024)):
        yield (READ, AB, text, room(4095)), 'refused 22 4096', None
        yield (READ, AB, text, room(4096)), 'result 4096', tree
        yield (READ, AB, text, room(4200)), 'result 4096', tree + room(4200)[4096:]
        yield (READ, AB, text, []), 'refused 22 4096', None
        more = text.replace(b'b)', b'b,a)', 1)
        yield (READ, AB, more, room(4200)), 'refused 21 0', None
        yield (READ, AB, more, []), 'refused 21 0', None
        yield (READ, AB, more.replace(b'a)', b'c)', 1), []), f'refused 20 {more.index(b"a)")}', None
        yield (READ, AB, more + b')', []), f'refused 19 {len(more)}', None
        yield (READ, AB, more[:-1], []), f'refused 19 {len(more) - 1}', None
    yield (READ, AB, b'a(' * 2048 + b'b' + b')' * 2048, room(4200)), 'refused 21 0', None
    yield (READ, LONG + b'x\n', (LONG + b'x(') * 2047 + LONG + b'x' + b')' * 2047, room(4100)), 'result 4096', \
        [1] * 2048 + [0] * 2048 + room(4100)[4096:]
    names = many_names(255)
    each = names.split(b'\n')[:-1]
    yield (READ, names, b'aa(' + b','.join(each * 8) + b')', room(4083)), 'result 4082', over_leaves(1, [*range(1, 256)] * 8) + room(4083)[4082:]
    for listed, text in ((names, b'AA(' + b','.join(each).upper() + b')'), (names.upper(), b'Aa(' + b','.join(each) + b')')):
        yield (READ, listed, text, room(513)), 'result 512', over_leaves(1, range(1, 256)) + room(513)[512:]
    yield (READ, AB, b'A(' + b'a,B,' * 1023 + b'b)', room(4100)), 'result 4096', [1] + [1, 0, 2, 0] * 1023 + [2, 0, 0] + room(4100)[4096:]
    yield (READ, b'A\nb\n', b'A(a(' * 1023 + b'B(b' + b')' * 2047, room(4096)), 'result 4096', [1] * 2046 + [2, 2] + [0] * 2048

    # 65,536 and 65,537 bytes
    wide, deep = b'a(' + b'a,' * 32766 + b'a)', b'a(' * 21845 + b'b' + b')' * 21845
    for text in (wide, deep):
        whole = text + b',' * (65536 - len(text))
        yield (READ, AB, text, room(9)), 'refused 21 0', None
        yield (READ, AB, whole[:65536], room(9)), 'refused 21 0' if len(text) == 65536 else f'refused 19 {len(text)}', None
        yield (READ, AB, whole + b'a', room(9)), 'refused 18 0', None
        yield (READ, AB, text[:-1], room(9)), f'refused 19 {len(text) - 1}', None
        yield (READ, AB, b'c' + text[1:], room(9)), 'refused 20 0', None
    yield (READ, AB, wide[:-2] + b'c)', room(9)), 'refused 20 65534', None
    yield (READ, AB, wide[:-2] + b'C)', room(9)), 'refused 20 65534', None
    yield (READ, AB, b'A(' + b'B,a,' * 16383 + b'A)', room(9)), 'refused 21 0', None
    yield (READ, AB, wide[:-1] + b'b)', room(9)), 'refused 18 0', None
    yield (READ, AB, b'a(' * 32768, room(9)), 'refused 19 65536', None
    yield (READ, AB, b'a(' * 32768 + b'a', room(9)), 'refused 18 0', None
    yield (READ, AB, b'a' * 65536, room(9)), 'refused 19 24', None
    yield (READ, AB, b'a' * 65537, room(9)), 'refused 18 0', None
    yield (READ, AB, b'(' * 65536, room(9)), 'refused 19 0', None
    yield (READ, AB, b'(' * 65537, room(9)), 'refused 18 0', None

    # the order: 17, 18, 19, 20, 21, 22
    yield (READ, b'a\na\n', b'(' * 65537, []), 'refused 17 1', None
    yield (READ, b'', b'', []), 'refused 17 0', None
    yield (READ, b'a\n1\n', b'c(', []), 'refused 17 1', None
    yield (READ, b'a\nA\n', b'(' * 65537, []), 'refused 17 1', None
    yield (READ, AB, b'c()', []), 'refused 19 2', None
    yield (READ, AB, b'a(c,a', []), 'refused 19 5', None
    yield (READ, AB, b'a(c)', []), 'refused 20 2', None
    yield (READ, AB, b'A(C,', []), 'refused 19 4', None
    yield (READ, AB, b'A(C)', []), 'refused 20 2', None


def write_edges():
    for names, line in FAULTY_NAMES:
        yield (WRITE, names, [1, 0], blank(4)), f'refused 17 {line}', None
    for names in NAMES:
        lines = names.split(b'\n')[:-1]
        last = len(lines)
        for tree, text in (([last, 0], lines[-1]), ([1, last, 0, 0], lines[0] + b'(' + lines[-1] + b')')):
            yield (WRITE, names, tree, blank(60)), f'result {len(text)}', text + blank(60)[len(text):]
        if last < 255:
            yield (WRITE, names, [1, last + 1, 0, 0], blank(60)), 'refused 23 1', None
    for tree, place in NO_TREES:
        yield (WRITE, AB, tree, blank(6)), f'refused 13 {place}', None
    for tree, place in UNNAMED:
        yield (WRITE, AB, tree, blank(6)), f'refused 23 {place}', None
    for text, tree in TERMS:
        n = len(text)
        for count in sorted({0, 1, n - 1, n, n + 1, n + 2, n + 70}):
            if count < n:
                yield (WRITE, AB, tree, blank(count)), f'refused 24 {n}', None
            else:
                yield (WRITE, AB, tree, blank(count)), f'result {n}', text + blank(count)[n:]
    yield (WRITE, b'x\n', [1, 1, 0, 0], bytes([0, 10, 255, 120, 0, 255])), 'result 4', b'x(x)\0\xff'
    # in the list's spelling
    for names, _, tree, text in SPELLED:
        n = len(text)
        yield (WRITE, names, tree, blank(n + 1)), f'result {n}', text + blank(n + 1)[n:]
        yield (WRITE, names, tree, blank(n - 1)), f'refused 24 {n}', None

    # 4,096 entries, and more
    long = LONG + b'x\n'
    for names, tree, text, count in (
            (AB, [1] + [1, 0] * 2046 + [2, 0, 0], b'a(' + b'a,' * 2046 + b'b)', 4096),
            (AB, [1] * 2047 + [2] + [0] * 2048, b'a(' * 2047 + b'b' + b')' * 2047, 6142),
            (long, [1] + [1, 0] * 2047 + [0], LONG + b'x(' + (LONG + b'x,') * 2046 + LONG + b'x)', 51200),
            (long, [1] * 2048 + [0] * 2048, (LONG + b'x(') * 2047 + LONG + b'x' + b')' * 2047, 53246)):
        yield (WRITE, names, tree, blank(count - 1)), f'refused 24 {count}', None
        yield (WRITE, names, tree, blank(count)), f'result {count}', text
        yield (WRITE, names, tree, blank(count + 100)), f'result {count}', text + blank(count + 100)[count:]
        yield (WRITE, names, tree, b''), f'refused 24 {count}', None
        yield (WRITE, names, tree + [0], blank(9)), 'refused 12 0', None
    yield (WRITE, AB, [1] * 2049 + [0] * 2049, blank(9)), 'refused 12 0', None
    yield (WRITE, AB, [1] * 4097, blank(9)), 'refused 12 0', None
    yield (WRITE, AB, [0] * 4097, blank(9)), 'refused 12 0', None
    yield (WRITE, AB, [256] * 4200, blank(9)), 'refused 12 0', None
    yield (WRITE, AB, [1] * 9000 + [0] * 9000, blank(9)), 'refused 12 0', None
    yield (WRITE, AB, [1, 0] + [0] * 65534, blank(9)), 'refused 12 0', None
    names = many_names(255)
    tree = [entry for symbol in range(1, 256) for entry in ([symbol] if symbol % 2 else [symbol, 0])]
    tree += [0] * (2 * 255 - len(tree))
    text = b''
    for k, name in enumerate(names.split(b'\n')[:-1]):
        text += (b'' if k == 0 else b'(' if k % 2 else b',') + name
    text += b')' * 127
    yield (WRITE, names, tree, blank(len(text))), f'result {255 * 2 + 254 + 127}', text
    yield (WRITE, names[:-3], tree, blank(len(text))), f'refused 23 {tree.index(255)}', None

    # the order: 17, 12, 13, 23, 24
    yield (WRITE, b'a\na\n', [256] * 4097, b''), 'refused 17 1', None
    yield (WRITE, b'a\nA\n', [256] * 4097, b''), 'refused 17 1', None
    yield (WRITE, b'', [], b''), 'refused 17 0', None
    yield (WRITE, AB, [3] * 4097, b''), 'refused 12 0', None
    yield (WRITE, AB, [3, 0, 0], b''), 'refused 13 2', None
    yield (WRITE, AB, [3, 0], b''), 'refused 23 0', None
    yield (WRITE, AB, [2, 0], b''), 'refused 24 1', None


def edges():
    yield from read_edges()
    yield from write_edges()


# Drawn terms

def some_name(draw, letters):
    count = draw.pick([1, 1, 2, 2, 3, 4, 6, 9, 23, 24])
    return bytes(draw.pick(letters if i == 0 or draw.chance(0.7) else OTHERS) for i in range(count))


def near_name(draw, name):
    """The name with another byte in one place."""
    at = draw.below(len(name))
    return name[:at] + bytes([draw.pick(LETTERS + OTHERS if at > 0 else LETTERS)]) + name[at + 1:]


def some_names(draw, count):
    """So many names, all different in every spelling."""
    letters = draw.pick([b'ab', b'abcXYZ', LETTERS, LETTERS])
    names = []
    while len(names) < count:
        name = near_name(draw, draw.pick(names)) if names and draw.chance(0.1) else some_name(draw, letters)
        if name.lower() not in [other.lower() for other in names]:
            names.append(name)
    return names


def respelled(draw, text, chances):
    """The text with letters in the other case, each with the chance that is picked."""
    chance = draw.pick(chances)
    return bytes(byte ^ 32 if byte in LETTERS and draw.chance(chance) else byte for byte in text)


def some_tree(draw, names, nodes):
    """A tree of so many nodes: its text and its entries. Every child is made after its parent."""
    symbols = [draw.between(1, len(names)) for _ in range(nodes)]
    children = [[] for _ in range(nodes)]
    deep = draw.pick([0.1, 0.5, 0.9])
    for node in range(1, nodes):
        parent = node - 1 if draw.chance(deep) else draw.below(node)
        children[parent].append(node)
    texts, trees = [b''] * nodes, [[]] * nodes
    for node in reversed(range(nodes)):
        inner = b','.join(texts[child] for child in children[node])
        texts[node] = names[symbols[node] - 1] + (b'(' + inner + b')' if children[node] else b'')
        trees[node] = [symbols[node], *(entry for child in children[node] for entry in trees[child]), 0]
        for child in children[node]:
            texts[child], trees[child] = b'', []
    return texts[0], trees[0]


def edited(draw, items, values):
    """A list with one entry replaced, put in, taken out or repeated, or with its end cut off."""
    items = list(items)
    at = draw.below(len(items) + 1)
    kind = draw.below(6)
    if kind < 2 and at < len(items):
        items[at] = draw.pick(values)
    elif kind < 4 or not items:
        items.insert(at, draw.pick(values))
    elif kind == 4:
        del items[at:at + draw.pick([1, 1, 2, len(items)])]
    else:
        items.insert(at, items[draw.below(len(items))])
    return items


def edited_names(draw, names):
    return bytes(edited(draw, names, b'\n\n\naabZ19-_ ,(@[`{\x7f\0\r\x80\xff' + names))


def edited_text(draw, text):
    return bytes(edited(draw, text, b'(((),,,aabZ19-_ @[`{\x7f\n\0\x80\xff' + text))


def edited_tree(draw, tree, count):
    return edited(draw, tree, [0, 0, 1, 1, count, count + 1, count + 2, 255, 256, 257, 65535])


def some_room(draw, needed):
    """A length for a lent list: often just what is needed, often more, sometimes less."""
    if draw.chance(0.1):
        return draw.below(needed)
    return needed + draw.pick([0, 0, 1, 2, 5, 20, 100])


def drawn(draw, count):
    """Each term read, in its names' spelling or another, and its tree written back. Of one in four the names, the text or the tree are
    edited, once or twice. Now and then two names are listed that differ at most in the case of letters.
    """
    for n in range(count):
        if n % 150 == 149:
            names = some_names(draw, draw.pick([1, 2, 5]))
            nodes = draw.between(2040, 2052)
        elif n % 150 == 74:
            names = some_names(draw, draw.between(200, 255))
            nodes = draw.between(1, 40)
        else:
            names = some_names(draw, draw.pick([1, 2, 3, 3, 4, 5, 9, 14]))
            nodes = draw.pick([1, 2, 3, 4, 5, 6, 7, 8, 10, 14, 20])
        text, tree = some_tree(draw, names, nodes)
        entries, size = len(tree), len(text)
        text = respelled(draw, text, [0, 0, 0.1, 0.5, 1])
        lines = list(names)
        if draw.chance(0.04):
            lines.insert(draw.between(0, len(names)), respelled(draw, draw.pick(names), [0.2, 0.5, 1]))
        listed = b''.join(name + b'\n' for name in lines)
        if n % 4 == 3:
            for _ in range(draw.between(1, 2)):
                which = draw.below(5)
                if which == 0:
                    listed = edited_names(draw, listed)
                if which != 1:
                    text = edited_text(draw, text)
                if which != 2:
                    tree = edited_tree(draw, tree, len(names))
        yield READ, listed, text, room(some_room(draw, entries))
        yield WRITE, listed, tree, blank(some_room(draw, size))
