#!/usr/bin/env python3
"""Images whose steps cost the most time or stack that we found, for examples/measure.c.

worst.py FOLDER   write them there

tests.img     each step but the first asks 1,023 type tests, each up a chain of 60 bases
call.img      a step passes 14 arrays of 4,096 cells by value and zeroes 4,087 cells: all but 3 of 65,536 cells
copy.img      a step copies an array of 4,096 cells
nested-N.img  an expression of N nodes, each inside the next: -(-(.. 0))

Each is accepted, and needs no input. Nothing here comes from the crates.
"""
import pathlib
import sys

sys.dont_write_bytecode = True  # no folder beside large.py
sys.path.insert(0, str(pathlib.Path(__file__).resolve().parent.parent / 'tests'))

from large import ASSIGN, DYADIC, GLOBAL, GOTO, INTEGER, LOCAL, MINUS, MONADIC, RETURN, TEST, UNLESS, VALUE
from large import VAR, VARIABLE, WRITE, Image

EQUAL, UNEQUAL, MOST_NODES = 7, 8, 2048
NESTED = 60, 100, 200, 500, 1000, 2047


def tests():
    image = Image()
    first = last = image.record(None, [INTEGER])
    while len(image.types) < 64:
        last = image.record(last, [])
    global_row, parameter = image.variable(GLOBAL, last), image.variable(VAR, first)
    image.add(image.procedures, 0)
    image.add(image.procedures, 0, 2, 1)
    image.call(1, [image.node(VARIABLE, global_row)])
    image.statement(RETURN)
    row = image.node(TEST, parameter, first)
    while len(image.nodes) + 2 <= MOST_NODES:
        # the last one makes it FALSE, so that the jump goes back to itself
        operator = EQUAL if len(image.nodes) + 4 <= MOST_NODES else UNEQUAL
        row = image.node(DYADIC, row, image.node(TEST, parameter, first), operator)
    image.statement(UNLESS, row, 2)
    image.statement(RETURN)
    return image.bytes()


def call():
    image = Image()
    array, rest = image.array(INTEGER, 4096), image.array(INTEGER, 4087)
    source = image.variable(GLOBAL, array)
    for _ in range(14):
        image.variable(VALUE, array)
    image.variable(LOCAL, rest)
    image.add(image.procedures, 0)
    image.add(image.procedures, 0, 2, 14, 1)
    image.call(1, [image.node(VARIABLE, source) for _ in range(14)])
    image.statement(GOTO, 0, 0)
    image.statement(RETURN)
    return image.bytes()


def copy():
    image = Image()
    array = image.array(INTEGER, 4096)
    target, source = image.variable(GLOBAL, array), image.variable(GLOBAL, array)
    image.add(image.procedures, 0)
    image.statement(ASSIGN, image.node(VARIABLE, target), image.node(VARIABLE, source))
    image.statement(GOTO, 0, 0)
    return image.bytes()


def nested(count):
    image = Image()
    image.add(image.procedures, 0)
    row = image.constant(0)
    while len(image.nodes) < count:
        row = image.node(MONADIC, row, 0, MINUS - 1)
    image.statement(WRITE, row)
    image.statement(RETURN)
    return image.bytes()


def main(words):
    if len(words) != 1:
        print('usage: worst.py FOLDER', file=sys.stderr)
        return 2
    folder = pathlib.Path(words[0])
    folder.mkdir(parents=True, exist_ok=True)
    images = {'tests': tests(), 'call': call(), 'copy': copy()}
    images.update({f'nested-{count}': nested(count) for count in NESTED})
    for name, data in images.items():
        (folder / f'{name}.img').write_bytes(data)
    return 0


if __name__ == '__main__':
    sys.exit(main(sys.argv[1:]))
