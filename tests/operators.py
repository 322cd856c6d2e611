#!/usr/bin/env python3
"""Cases of the operators, cells and constants, with the answers that documents 01 and 02 give.

Written from these documents alone: it shares nothing with the code or the definitions of the crates that it asks.
Writes crates/cases_values/data/operators.bin and crates/cases_values/stdout; with --check it only compares.

A case has 17 bytes, its numbers big-endian:
    0       what to ask: 0 a dyadic operator, 1 a monadic one, 2 a cell, 3 a constant, 4 a value's number
    1       the operator
    2, 3    the kinds of the left and of the right operand: 0 BOOLEAN, 1 INTEGER, 2 SET
    4..7    the left operand's 32 bits
    8..11   the right operand's 32 bits
    12      the answer: a value of kind 0, 1 or 2; 3 a trap; 4 stuck
    13..16  the value's 32 bits, or the number of the trap
A cell's number has 64 bits, 4 to 11, and its kind is the left one. A constant is the left operand itself.
A value's number is put into a cell of its kind and read back."""
import os
import random
import sys

BOOLEAN, INTEGER, SET = 0, 1, 2
TRAP, STUCK = 3, 4
LEAST, MOST = -2147483648, 2147483647
ALL = frozenset(range(32))
stuck = (STUCK, 0)


# A value is a kind and a bool, an int, or a frozenset of elements.
def bits(kind, value):
    if kind == BOOLEAN:
        return 1 if value else 0
    if kind == INTEGER:
        return value if value >= 0 else 4294967296 + value
    return sum(2 ** i for i in value)


def read(kind, number):
    """The value of a kind that 32 bits stand for, if there is one."""
    if kind == BOOLEAN:
        return (kind, number == 1) if number < 2 else None
    if kind == INTEGER:
        return kind, number - 4294967296 if number > MOST else number
    if kind == SET:
        return kind, frozenset(i for i in range(32) if number // 2 ** i % 2 == 1)
    return None


def answer(value):
    return (value[0], bits(*value))


def integer(n):
    """INTEGER overflow is trap 4."""
    return answer((INTEGER, n)) if LEAST <= n <= MOST else (TRAP, 4)


def truth(b):
    return answer((BOOLEAN, b))


def division(op, x, y):
    """DIV, operator 4, and MOD, 5. "5 divisor zero"; "-2147483648 DIV -1 gives trap 4, and its MOD is 0." """
    if y == 0:
        return TRAP, 5
    # "DIV rounds down, and x = (x DIV y) * y + (x MOD y) with 0 <= x MOD y < y, for a negative divisor
    # y < x MOD y <= 0."
    quotient = x // y
    remainder = x - quotient * y
    assert 0 <= remainder < y or y < remainder <= 0
    return integer(quotient if op == 4 else remainder)


def dyadic(op, left, right):
    (j, x), (k, y) = left, right
    if j == INTEGER and k == INTEGER:
        if op in (4, 5):
            return division(op, x, y)
        if op == 16 and not (0 <= x <= 31 and 0 <= y <= 31):
            return TRAP, 6
        return {
            1: lambda: integer(x + y), 2: lambda: integer(x - y), 3: lambda: integer(x * y),
            7: lambda: truth(x == y), 8: lambda: truth(x != y), 9: lambda: truth(x < y),
            10: lambda: truth(x <= y), 11: lambda: truth(x > y), 12: lambda: truth(x >= y),
            16: lambda: answer((SET, frozenset(i for i in ALL if x <= i <= y))),
        }.get(op, lambda: stuck)()
    if j == SET and k == SET:
        return {
            1: lambda: answer((SET, x | y)), 2: lambda: answer((SET, x - y)), 3: lambda: answer((SET, x & y)),
            6: lambda: answer((SET, x ^ y)), 7: lambda: truth(x == y), 8: lambda: truth(x != y),
        }.get(op, lambda: stuck)()
    if j == BOOLEAN and k == BOOLEAN:
        return {
            7: lambda: truth(x == y), 8: lambda: truth(x != y), 13: lambda: truth(x and y), 14: lambda: truth(x or y),
        }.get(op, lambda: stuck)()
    if j == INTEGER and k == SET and op == 15:
        # "IN with an element outside 0 to 31 now gives trap 6, after both operands are found."
        return truth(x in y) if 0 <= x <= 31 else (TRAP, 6)
    return stuck


def monadic(op, operand):
    kind, x = operand
    if op == 1 and kind == INTEGER:
        return integer(-x)
    if op == 1 and kind == SET:
        return answer((SET, ALL - x))
    if op == 2 and kind == BOOLEAN:
        return truth(not x)
    return stuck


def cell(kind, number):
    if kind == BOOLEAN and number in (0, 1):
        return truth(number == 1)
    if kind == INTEGER and LEAST <= number <= MOST:
        return integer(number)
    if kind == SET and 0 <= number <= 4294967295:
        return answer(read(SET, number))
    return stuck


def constant(kind, number):
    value = read(kind, number)
    return stuck if value is None else answer(value)


# ---- the cases

integers = [LEAST, LEAST + 1, -65536, -33, -5, -3, -2, -1, 0, 1, 2, 3, 5, 7, 30, 31, 32, 33, 46341, MOST - 1, MOST]
sets = [0, 1, 2, 5, 15, 65536, 2147483648, 2863311530, 4294967294, 4294967295]
edges = {
    BOOLEAN: [(BOOLEAN, False), (BOOLEAN, True)],
    INTEGER: [(INTEGER, n) for n in integers],
    SET: [read(SET, n) for n in sets],
}
pick = random.Random(1993)


def some(kind):
    """A value of a kind, small as often as large."""
    if kind == BOOLEAN:
        return kind, pick.random() < 0.5
    if kind == SET:
        return read(SET, pick.randrange(4294967296))
    return kind, pick.randrange(-40, 41) if pick.random() < 0.5 else pick.randrange(LEAST, MOST + 1)


def case(what, op, left, right, result):
    (j, x), (k, y), (kind, number) = left, right, result
    return bytes([what, op, j, k]) + x.to_bytes(4, 'big') + y.to_bytes(4, 'big') + bytes([kind]) + number.to_bytes(4, 'big')


def held(value):
    return value[0], bits(*value)


def dyadic_cases():
    for op in range(18):
        for j in edges:
            for k in edges:
                pairs = [(v, w) for v in edges[j] for w in edges[k]]
                if all(dyadic(op, v, w) == stuck for v, w in pairs):
                    pairs = pick.sample(pairs, min(4, len(pairs)))
                else:
                    pairs += [(some(j), some(k)) for _ in range(24)]
                for v, w in pairs:
                    yield case(0, op, held(v), held(w), dyadic(op, v, w))


def monadic_cases():
    for op in range(18):
        for kind in edges:
            for v in edges[kind] + [some(kind) for _ in range(6)]:
                yield case(1, op, held(v), (0, 0), monadic(op, v))


def cell_cases():
    numbers = sorted(set(integers) | set(sets) | {LEAST - 1, MOST + 1, 4294967296, -4294967296, -(2 ** 63), 2 ** 63 - 1})
    for kind in range(5):
        for z in numbers + [pick.randrange(-(2 ** 34), 2 ** 34) for _ in range(12)]:
            number = z % 2 ** 64
            yield case(2, 0, (kind, number // 2 ** 32), (0, number % 2 ** 32), cell(kind, z))


def constant_cases():
    for kind in range(5):
        for n in sorted({n % 2 ** 32 for n in integers + sets}) + [pick.randrange(2 ** 32) for _ in range(12)]:
            yield case(3, 0, (kind, n), (0, 0), constant(kind, n))


def number_cases():
    for kind in edges:
        for v in edges[kind] + [some(kind) for _ in range(12)]:
            yield case(4, 0, held(v), (0, 0), answer(v))


families = [('dyadic', dyadic_cases), ('monadic', monadic_cases), ('cell', cell_cases), ('constant', constant_cases),
            ('number', number_cases)]
data, lines = b'', ''
for name, cases in families:
    found = list(cases())
    data += b''.join(found)
    lines += f'{name} {len(found)} same, 0 different\n'

top = os.path.join(os.path.dirname(os.path.abspath(__file__)), '..', 'crates', 'cases_values')
files = [(os.path.join(top, 'data', 'operators.bin'), data), (os.path.join(top, 'stdout'), lines.encode())]
if '--check' in sys.argv:
    sys.exit(0 if all(open(path, 'rb').read() == content for path, content in files) else 'the files are not these cases')
for path, content in files:
    with open(path, 'wb') as f:
        f.write(content)
