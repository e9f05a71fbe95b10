#!/usr/bin/env python3
"""Writes the cases of the program `book_cases` and three books of examples/, from descriptions of their records.

    python3 tools/book_cases.py            writes the files
    python3 tools/book_cases.py --list     prints each case: its number, what is expected, what it shows
    python3 tools/book_cases.py --check    says whether the files are those that the descriptions make

Each expected answer is worked out by hand from document 01, 'Numbers', 'The book of terms' and 'Verdicts'; no program
of this repository is asked for one. The comment above a case says what its answer follows from.
"""
import sys

import generated
from books import to_bytes

# ---- records from their parts


def integer(v):
    return to_bytes(('integer', v))


def real(n, d):
    return to_bytes(('real', n, d))


def bits(v, w):
    return to_bytes(('vector', v, w))


def atom(sort, name, w=0):
    return to_bytes(('atom', sort, name, w))


def op(o, *args):
    return to_bytes(('operation', o, *args))


def changed(record, *changes):
    """The record with (place, byte) changed."""
    out = bytearray(record)
    for at, b in changes:
        out[at] = b
    return bytes(out)


BOOL, INT, REAL, VECTOR = 1, 2, 3, 4
NOT, AND, OR, EQ, LT, LE, GT, GE, ADD, SUB, MUL, DIV, OVER, TO_REAL, BVADD, BVSUB, BVNEG, BVMUL = range(1, 19)

p = atom(BOOL, 0)
x = atom(INT, 0)
u = atom(REAL, 0)
v = atom(VECTOR, 0, 8)
w = atom(VECTOR, 0, 9)

LIMIT = 2147483647

# ---- the cases: (what it shows, atoms in front, the bytes that follow, refusal, record)

cases = []


def case(shows, records, refusal, record, front=0, more=b''):
    """A book of `front` atoms of sort Int, named 0, 1, 2 and so on, then the records, then the bytes `more`. With refusal 0
    `record` is the number of records, else the record that is refused."""
    cases.append((shows, front, b''.join(records) + more, refusal, record))


def good(shows, *records, front=0):
    case(shows, records, 0, front + len(records), front)


def bad(shows, refusal, *records, front=0):
    """The last record is the one that is refused."""
    case(shows, records, refusal, front + len(records) - 1, front)


def sizes():
    good('an empty book')
    good('one whole record', x)
    for n in (1, 2, 4, 8, 16, 31, 33, 34, 36, 40, 48, 63):
        case('%d bytes' % n, [(x + p)[:n]], 2, 0)
    good('two records, with no header and nothing between', x, p)
    good('2,048 records', p, front=2047)
    case('2,049 records', [p], 2, 0, front=2048)
    case('2,048 records and a byte', [p], 2, 0, front=2047, more=bytes(1))
    bad('the last of 2,048 records is refused', 3, bytes(32), front=2047)
    # order: 2 comes before every 3, 4 and 5
    case('2,049 records, the last with no layout', [bytes(32)], 2, 0, front=2048)
    case('no layout, and a byte too many', [bytes(32)], 2, 0, more=bytes(1))


def kinds():
    bad('kind 0', 3, bytes(32))
    for k in (6, 7, 128, 255):
        bad('kind %d' % k, 3, changed(bytes(32), (0, k)))
    good('each kind', integer(1), real(1, 2), bits(1, 1), x, op(ADD, 0, 3))
    # numbered from 0: the refused record is the first, the second, the third
    bad('a refusal at record 0', 3, bytes(32))
    bad('a refusal at record 1', 3, x, bytes(32))
    bad('a refusal at record 2', 3, x, p, bytes(32))


def unused_bytes():
    # kind 1 has bytes 4-11, kinds 2 and 3 bytes 4-19; an atom has byte 3 too, and 12-19 only with sort 4
    for name, record, used in (
        ('integer', integer(1), range(4, 12)),
        ('real', real(1, 2), range(4, 20)),
        ('bit-vector', bits(1, 8), range(4, 20)),
        ('Bool atom', p, range(3, 12)),
        ('Int atom', x, range(3, 12)),
        ('Real atom', u, range(3, 12)),
        ('bit-vector atom', v, range(3, 20)),
    ):
        for at in range(1, 32):
            if at not in used:
                bad('%s, byte %d is not 0' % (name, at), 3, changed(record, (at, 1)))
    # an operation of n arguments has bytes 1, 2 and 4 up to 4 + 2n
    for n in (2, 13, 14):
        record = op(ADD, *[0] * n)
        good('a sum of %d' % n, x, record)
        bad('a sum of %d, byte 3 is not 0' % n, 3, x, changed(record, (3, 1)))
        for at in range(4 + 2 * n, 32):
            bad('a sum of %d, byte %d is not 0' % (n, at), 3, x, changed(record, (at, 1)))
    bad('an unused byte with its highest bit', 3, changed(integer(1), (31, 128)))


def integers():
    for n in (0, 1, -1, 255, 256, LIMIT, -LIMIT):
        good('integer %d' % n, integer(n))
    for n in (LIMIT + 1, -LIMIT - 1, 2**32, 2**32 + 1, -2**32, 2**63 - 1, -2**63):
        bad('integer %d' % n, 3, integer(n))
    # little-endian: 1 in byte 4 is 1, in byte 5 it is 256, in byte 11 it is 2^56
    good('1 in byte 5', changed(integer(0), (5, 1)))
    bad('1 in byte 11', 3, changed(integer(0), (11, 1)))


def reals():
    for n, d in ((0, 1), (1, 1), (-1, 1), (1, 2), (-1, 2), (7, 3), (LIMIT, 1), (-LIMIT, 1), (1, LIMIT), (LIMIT, LIMIT - 1),
                 (-LIMIT, 2)):
        good('real %d/%d' % (n, d), real(n, d))
    # not in lowest terms; 0 has the denominator 1
    for n, d in ((2, 4), (-2, 4), (6, 9), (0, 2), (0, LIMIT), (LIMIT, LIMIT), (LIMIT - 1, 2)):
        bad('real %d/%d, not in lowest terms' % (n, d), 3, real(n, d))
    # the denominator is at least 1, and both parts have a range
    for n, d in ((1, 0), (0, 0), (1, -1), (1, -2), (-1, -2)):
        bad('real %d/%d' % (n, d), 3, real(n, d))
    for n, d in ((LIMIT + 1, 1), (-LIMIT - 1, 1), (1, LIMIT + 1), (2**32 + 1, 1), (1, 2**32 + 1), (-2**63, 1), (1, -2**63)):
        bad('real %d/%d, out of range' % (n, d), 3, real(n, d))


def bit_vectors():
    for n, width in ((0, 1), (1, 1), (255, 8), (0, 30), (2**30 - 1, 30)):
        good('%d of %d bits' % (n, width), bits(n, width))
    for n, width in ((2, 1), (256, 8), (2**30, 30), (2**32, 8), (2**64 - 1, 8), (2**64 - 1, 30)):
        bad('%d of %d bits' % (n, width), 3, bits(n, width))
    for width in (0, 31, 32, 64, 256 + 8, 2**32 + 8, 2**64 - 1):
        bad('0 of %d bits' % width, 3, bits(0, width))


def atoms():
    for sort in (BOOL, INT, REAL):
        for name in (0, 1, 2**32, 2**63, 2**64 - 1):
            good('atom of sort %d, named %d' % (sort, name), atom(sort, name))
        bad('atom of sort %d with a width' % sort, 3, atom(sort, 0, 8))
    for width in (1, 8, 30):
        good('atom of %d bits' % width, atom(VECTOR, 2**64 - 1, width))
    for width in (0, 31, 256 + 8, 2**64 - 1):
        bad('atom of %d bits' % width, 3, atom(VECTOR, 0, width))
    for sort in (0, 5, 6, 255):
        bad('atom of sort %d' % sort, 3, atom(sort, 0))
        bad('atom of sort %d, 8 bits' % sort, 3, atom(sort, 0, 8))


# operator: its name, the fewest and the most arguments, a record of a sort that it takes
OPERATORS = {
    NOT: ('not', 1, 1, p),
    AND: ('and', 2, 14, p),
    OR: ('or', 2, 14, p),
    EQ: ('=', 2, 14, p),
    LT: ('<', 2, 14, x),
    LE: ('<=', 2, 14, x),
    GT: ('>', 2, 14, x),
    GE: ('>=', 2, 14, x),
    ADD: ('+', 2, 14, x),
    SUB: ('-', 1, 14, x),
    MUL: ('*', 2, 14, x),
    DIV: ('div', 2, 2, x),
    OVER: ('/', 2, 2, x),
    TO_REAL: ('to_real', 1, 1, x),
    BVADD: ('bvadd', 2, 14, v),
    BVSUB: ('bvsub', 2, 2, v),
    BVNEG: ('bvneg', 1, 1, v),
    BVMUL: ('bvmul', 2, 14, v),
}


def operations():
    for o in (0, 19, 20, 128, 255):
        bad('operator %d' % o, 3, x, op(o, 0, 0))
    for o, (name, fewest, most, a) in OPERATORS.items():
        good('%s of %d' % (name, fewest), a, op(o, *[0] * fewest))
        bad('%s of %d' % (name, fewest - 1), 3, a, op(o, *[0] * (fewest - 1)))
        if most < 14:
            bad('%s of %d' % (name, most + 1), 3, a, op(o, *[0] * (most + 1)))
        else:
            good('%s of 14' % name, a, op(o, *[0] * 14))
            bad('%s of 15' % name, 3, a, changed(op(o, *[0] * 14), (2, 15)))
        bad('%s of 255' % name, 3, a, changed(op(o, *[0] * 14), (2, 255)))


def arguments():
    # each argument is smaller than the record's own number
    good('an argument one below', x, u, op(ADD, 1, 0))
    bad('the record itself as first argument', 3, x, op(ADD, 1, 0))
    bad('the record itself as second argument', 3, x, op(ADD, 0, 1))
    bad('the record itself as 14th argument', 3, x, op(ADD, *[0] * 13, 1))
    case('a later record', [x, op(ADD, 0, 2), u], 3, 1)
    bad('the number of no record', 3, x, op(ADD, 0, 5))
    bad('65535', 3, x, op(ADD, 0, 65535))
    bad('an operation at record 0', 3, op(SUB, 0))
    # little-endian numbers of 16 bits: 299 is 43 + 256
    good('argument 299 of record 300', op(ADD, 299, 0), front=300)
    bad('argument 300 of record 300', 3, op(ADD, 300, 0), front=300)
    bad('argument 256 of record 256', 3, op(ADD, 0, 256), front=256)
    good('argument 255 of record 256', op(ADD, 0, 255), front=256)
    good('argument 2046 of record 2047', op(ADD, 2046, 0), front=2047)
    bad('argument 2047 of record 2047', 3, op(ADD, 0, 2047), front=2047)
    # and the sort is that of the record so numbered
    good('not of record 256', p, op(NOT, 256), front=256)
    bad('not of record 0 beside it', 4, p, op(NOT, 0), front=256)


# 0 p Bool, 1 x Int, 2 u Real, 3 v 8 bits, 4 w 9 bits
ALL = [p, x, u, v, w]
P, X, U, V, W = range(5)


def takes(operators, accepted, refused):
    for o in operators:
        name = OPERATORS[o][0]
        for args in accepted:
            good('(%s %s)' % (name, ' '.join('pxuvw'[a] for a in args)), *ALL, op(o, *args))
        for args in refused:
            bad('(%s %s)' % (name, ' '.join('pxuvw'[a] for a in args)), 4, *ALL, op(o, *args))


def gives(operators, args, others_good, others_bad):
    """Record 5 is the operation, record 6 one that takes it or does not."""
    for o in operators:
        name = OPERATORS[o][0]
        for record in others_good:
            good('%s, taken by operator %d' % (name, record[1]), *ALL, op(o, *args), record)
        for record in others_bad:
            bad('%s, not taken by operator %d' % (name, record[1]), 4, *ALL, op(o, *args), record)


def sorts():
    is_bool = ([op(NOT, 5)], [op(SUB, 5), op(BVNEG, 5)])
    is_int = ([op(DIV, 5, X)], [op(NOT, 5), op(BVNEG, 5)])
    is_real = ([op(SUB, 5), op(EQ, 5, U)], [op(DIV, 5, X), op(NOT, 5), op(BVNEG, 5)])
    is_v = ([op(BVADD, 5, V), op(EQ, V, 5)], [op(BVADD, 5, W), op(NOT, 5), op(SUB, 5)])
    is_w = ([op(BVADD, 5, W), op(EQ, W, 5)], [op(BVADD, 5, V), op(EQ, 5, V)])
    # 1 to 3 take and give Bool
    takes([NOT], [[P]], [[X], [U], [V]])
    takes([AND, OR], [[P, P], [P, P, P]], [[X, X], [U, U], [V, V], [P, X], [X, P], [P, P, V], [P, X, P]])
    gives([NOT], [P], *is_bool)
    gives([AND, OR], [P, P], *is_bool)
    # 4 takes one sort, or Int and Real mixed; widths count
    takes([EQ], [[P, P], [X, X], [U, U], [V, V], [W, W], [X, U], [U, X], [X, X, U], [U, X, X, U]],
          [[P, X], [X, P], [P, U], [X, V], [V, U], [V, W], [W, V], [P, V], [V, V, W], [V, W, V], [P, P, X], [P, X, P],
           [X, U, P], [X, P, U], [X, U, V]])
    # 5 to 8 take numbers
    takes([LT, LE, GT, GE], [[X, X], [U, U], [X, U], [U, X], [X, U, X]],
          [[P, P], [V, V], [P, X], [X, P], [U, V], [X, U, P], [X, P, U]])
    # 4 to 8 give Bool
    gives([EQ, LT, LE, GT, GE], [X, U], *is_bool)
    # 9 to 11 take numbers and give Real if any argument is Real, else Int
    takes([ADD, SUB, MUL], [[X, X], [U, U], [X, U], [U, X], [X, X, U]],
          [[P, P], [V, V], [P, X], [X, P], [U, V], [X, X, P], [X, V, X]])
    takes([SUB], [[X], [U]], [[P], [V]])
    gives([ADD, SUB, MUL], [X, X], *is_int)
    gives([ADD, SUB, MUL], [X, U], *is_real)
    gives([ADD, SUB, MUL], [U, X], *is_real)
    gives([ADD, SUB, MUL], [X, U, X], *is_real)
    gives([ADD, SUB, MUL], [X, X, X, U], *is_real)
    gives([SUB], [X], *is_int)
    gives([SUB], [U], *is_real)
    # 12 takes and gives Int
    takes([DIV], [[X, X]], [[X, U], [U, X], [U, U], [P, X], [X, P], [V, V]])
    gives([DIV], [X, X], *is_int)
    # 13 and 14 take numbers and give Real
    takes([OVER], [[X, X], [X, U], [U, X], [U, U]], [[P, X], [X, P], [V, V], [P, P]])
    takes([TO_REAL], [[X], [U]], [[P], [V]])
    gives([OVER], [X, X], *is_real)
    gives([OVER], [U, X], *is_real)
    gives([TO_REAL], [X], *is_real)
    gives([TO_REAL], [U], *is_real)
    # 15 to 18 take and give one width
    takes([BVADD, BVSUB, BVMUL], [[V, V], [W, W]], [[V, W], [W, V], [X, X], [U, U], [P, P], [V, X], [X, V]])
    takes([BVADD, BVMUL], [[V, V, V]], [[V, V, W], [V, W, V], [V, V, P]])
    takes([BVNEG], [[V], [W]], [[P], [X], [U]])
    gives([BVADD, BVSUB, BVMUL], [V, V], *is_v)
    gives([BVADD, BVSUB, BVMUL], [W, W], *is_w)
    gives([BVNEG], [V], *is_v)
    gives([BVNEG], [W], *is_w)


def constants_have_sorts():
    # 0 Int, 1 Real, 2 and 3 of 8 bits, 4 and 5 of 9 bits: an integer and a whole real differ in sort
    book = [integer(1), real(1, 1), bits(1, 8), v, bits(1, 9), w]
    good('an integer is Int', *book, op(DIV, 0, 0))
    bad('a whole real is no Int', 4, *book, op(DIV, 0, 1))
    good('a real is a number', *book, op(LT, 0, 1))
    good('a bit-vector of 8 bits has its width', *book, op(BVADD, 2, 3))
    good('a bit-vector of 9 bits has its width', *book, op(BVADD, 4, 5))
    bad('bit-vectors of 8 and of 9 bits', 4, *book, op(BVADD, 2, 4))
    bad('a bit-vector is no number', 4, *book, op(ADD, 0, 2))
    bad('an integer is no Bool', 4, *book, op(NOT, 0))


def equal_records():
    bad('integer 1 twice', 5, integer(1), integer(1))
    good('integers 1 and -1', integer(1), integer(-1))
    good('integer 1 and real 1/1', integer(1), real(1, 1))
    bad('real 1/2 twice', 5, real(1, 2), real(1, 2))
    good('1/2 and 1/3', real(1, 2), real(1, 3))
    good('0 at two widths', bits(0, 8), bits(0, 9))
    bad('0 of 8 bits twice', 5, bits(0, 8), bits(0, 8))
    good('one name at five sorts', *ALL)
    bad('an atom twice', 5, v, v)
    bad('equal to the first of three', 5, p, x, p)
    bad('equal to the second of three', 5, p, x, x)
    bad('one operation twice', 5, x, op(ADD, 0, 0), op(ADD, 0, 0))
    good('two operators', x, op(ADD, 0, 0), op(MUL, 0, 0))
    good('two orders of arguments', x, u, op(ADD, 0, 1), op(ADD, 1, 0))
    good('two counts', x, op(SUB, 0), op(SUB, 0, 0))
    good('names that differ in their last byte', atom(INT, 2**56), atom(INT, 2**57))
    # 0 and 256 as 14th argument differ in byte 31 alone
    good('records that differ in their last byte', op(ADD, *[0] * 14), op(ADD, *[0] * 13, 256), front=300)
    bad('equal to a record far before', 5, p, atom(INT, 7), front=300)
    bad('the last of 2,048 equals the first', 5, atom(INT, 0), front=2047)


def order():
    # record by record, and within a record 3, then 4, then 5
    case('5 at record 2 before 3 at record 3', [x, p, x, bytes(32)], 5, 2)
    case('4 at record 1 before 3 at record 2', [p, op(ADD, 0, 0), bytes(32)], 4, 1)
    case('3 at record 1 before 4 at record 2', [p, bytes(32), op(ADD, 0, 0)], 3, 1)
    case('3 at record 1 before 5 at record 2', [p, bytes(32), p], 3, 1)
    case('4 at record 1 before 5 at record 2', [p, op(ADD, 0, 0), p], 4, 1)
    case('of two refused records the first', [p, op(ADD, 0, 0), op(MUL, 0, 0)], 4, 1)
    bad('a wrong sort and an unused byte', 3, p, changed(op(ADD, 0, 0), (3, 1)))
    bad('a wrong sort and a wrong count', 3, x, op(NOT, 0, 0))
    bad('a wrong sort beside a later record', 3, p, op(ADD, 0, 2))


def all_cases():
    for part in (sizes, kinds, unused_bytes, integers, reals, bit_vectors, atoms, operations, arguments, sorts,
                 constants_have_sorts, equal_records, order):
        part()


# ---- the books for `mark`, whose words are in tools/mark_calls.txt

EVERY_KIND = [
    atom(INT, 7),  # 0
    atom(REAL, 8),
    atom(BOOL, 9),
    atom(VECTOR, 10, 8),
    integer(3),  # 4
    integer(-7),
    real(1, 2),
    bits(128, 8),
    op(ADD, 0, 4),  # 8
    op(LT, 8, 1),
    op(NOT, 9),
    op(SUB, 4),
    op(OVER, 11, 6),  # 12
    op(BVADD, 3, 7),
    op(EQ, 0, 1),
    op(AND, 2, 14),
    op(DIV, 5, 4),  # 16
    op(OR, 2, 10, 15),
    op(LE, 0, 4),
    op(GT, 0, 16),
    op(GE, 1, 12),  # 20
    op(MUL, 4, 0, 1),
    op(TO_REAL, 0),
    op(BVSUB, 3, 13),
    op(BVNEG, 3),  # 24
    op(BVMUL, 7, 24, 3),
    real(-7, 3),
    atom(INT, 2**64 - 1),
    op(ADD, *range(4, 6), *[0] * 12),  # 28
    bits(2**30 - 1, 30),
]

# record 1 has kind 6
NO_LAYOUT = [x, changed(bytes(32), (0, 6))]

# (+ p 1), p Bool
WRONG_SORT = [p, integer(1), op(ADD, 0, 1)]


def case_file():
    out = b''
    for shows, front, more, refusal, record in cases:
        out += front.to_bytes(2, 'little') + len(more).to_bytes(2, 'little')
        out += bytes([refusal]) + record.to_bytes(2, 'little') + more
    return out


def files():
    return {
        'crates/book_cases/data/cases': case_file(),
        'crates/book_cases/stdout': b'%d cases agree\n' % len(cases),
        'examples/every_kind.book': b''.join(EVERY_KIND),
        'examples/no_layout.book': b''.join(NO_LAYOUT),
        'examples/wrong_sort.book': b''.join(WRONG_SORT),
    }


def main():
    all_cases()
    words = sys.argv[1:]
    if words == ['--list']:
        for i, (shows, front, more, refusal, record) in enumerate(cases):
            print('%d: %d at %d: %s' % (i, refusal, record, shows))
    elif words == ['--check']:
        generated.check(files())
    elif not words:
        generated.write(files())
    else:
        sys.exit(__doc__)


if __name__ == '__main__':
    main()
