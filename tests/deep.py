#!/usr/bin/env python3
"""The deepest expressions that the check accepts, as programs for the benchmark.

deep.py          write tests/bench/programs/deep-*.img
deep.py --check  compare these with what would be written; exits 1 where one differs

Each has 2,048 nodes, all of them in `x := ..`, and goes back to that assignment for ever. x stays as it is.

deep-minus.img  x := -(-( .. -x)), 2,046 monadic operators: the longest chain of nodes
deep-left.img   x := (((x + 1) - 1) + 1 ..) * 1, 1,023 dyadic operators, each the left operand of the next
deep-right.img  x := 1 * (1 - (1 - ( .. x))), 1,023 dyadic operators, each the right operand of the next
deep-index.img  x := a[a[ .. a[0]]], 1,023 elements, each the index of the next; all of a is 0

By construction each is accepted, and a run of any number of steps uses these up. Nothing here comes from the crates.
"""
import pathlib
import sys

sys.dont_write_bytecode = True  # no folder beside large.py

from large import ASSIGN, DYADIC, ELEMENT, GLOBAL, GOTO, INTEGER, MINUS, MONADIC, PLUS, VARIABLE, Image

FOLDER = pathlib.Path(__file__).resolve().parent / 'bench/programs'
TIMES, LEVELS = 3, 1023  # the operator *; dyadic operators or elements that make 2,046 nodes with an operand each


def program(name):
    """An image with the globals x and a, and `x := ..` as its loop. Node 0 is the target."""
    image = Image()
    line = image.array(INTEGER, 4)
    x, a = image.variable(GLOBAL, INTEGER), image.variable(GLOBAL, line)
    image.add(image.procedures, 0)
    target = image.node(VARIABLE, x)
    row = image.constant(0) if name == 'index' else image.node(VARIABLE, x)
    while len(image.nodes) < 2048:
        level = len(image.nodes) // 2
        if name == 'minus':
            row = image.node(MONADIC, row, 0, MINUS - 1)
        elif name == 'left':
            operator = TIMES if level == LEVELS else PLUS if level % 2 else MINUS
            row = image.node(DYADIC, row, image.constant(1), operator)
        elif name == 'right':
            row = image.node(DYADIC, image.constant(1), row, TIMES if level == LEVELS else MINUS)
        else:
            row = image.node(ELEMENT, image.node(VARIABLE, a), row)
    image.statement(ASSIGN, target, row)
    image.statement(GOTO, 0, 0)
    return image.bytes()


def main(words):
    if words not in ([], ['--check']):
        print('usage: deep.py [--check]', file=sys.stderr)
        return 2
    wanted = {f'deep-{name}.img': program(name) for name in ('minus', 'left', 'right', 'index')}
    if not words:
        FOLDER.mkdir(exist_ok=True)
        for name, data in wanted.items():
            (FOLDER / name).write_bytes(data)
    there = {path.name: path.read_bytes() for path in FOLDER.glob('deep-*.img')}
    wrong = [name for name in sorted(wanted.keys() | there.keys()) if wanted.get(name) != there.get(name)]
    for name in wrong:
        print(f'deep: tests/bench/programs/{name} is not what is made here; run tests/deep.py')
    print(f'deep: {len(wanted)} images; {len(wrong)} differences')
    return 1 if wrong else 0


if __name__ == '__main__':
    sys.exit(main(sys.argv[1:]))
