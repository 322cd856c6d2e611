#!/usr/bin/env python3
"""Large images for the check, the benchmark and the examples, small ones for question 9, and the answers that document
01 gives.

large.py          write vectors/large/
large.py --check  compare vectors/large/ with what would be written; exits 1 where it differs

longest.img  29,713 bytes, every table full, accepted. It has arrays, records with bases, value and VAR parameters,
             guards, tests, every kind of node and every kind of statement.
hostile.img  1,022 calls that all name the same 255 arguments. Refused by question 9, at the first of these.
bases.img    a chain of 61 records; each node asks for the last one's first field, or for a guard from the first
             record to the last. Accepted.

The others are small, and right in all but question 9, which the calls of one body decide. Their arguments follow one
another behind the constants that they hold.
named-3.img, named-4.img, named-256.img, named-257.img
             so many calls that all name the same three arguments. Refused at the first of these.
overlap.img  two calls of three arguments; the last one of the first is the first one of the second. Refused there.
ends.img     a call of two arguments and one of three, which begins at the second one of the first. Refused there.
falling.img  three calls of three arguments, each ending where the one before begins. Refused at the lowest argument
             that is named twice, whose second name comes last.
gap.img      two calls of two arguments, and between these one that nothing names. Refused there.

The answers are by construction; answers.txt has them, `NAME REFUSAL ROW` to a line. Nothing here comes from the
crates.
"""
import pathlib
import sys

FOLDER = pathlib.Path(__file__).resolve().parent.parent / 'vectors/large'

BOOLEAN, INTEGER, SET = 0, 1, 2
GLOBAL, LOCAL, VALUE, VAR = range(4)
CONSTANT, VARIABLE, FIELD, ELEMENT, GUARD, DYADIC, MONADIC, TEST, ARGUMENT = range(9)
ASSIGN, CALL, UNLESS, GOTO, RETURN, READ, WRITE, HALT = range(8)
PLUS, MINUS, LESS, IN, RANGE = 1, 2, 9, 15, 16


class Image:
    """Six tables that grow. Each call that adds a row answers its number."""

    def __init__(self):
        self.tables = types, fields, variables, procedures, nodes, statements = [[] for _ in range(6)]
        self.types, self.fields, self.variables = types, fields, variables
        self.procedures, self.nodes, self.statements = procedures, nodes, statements
        for scalar in (BOOLEAN, INTEGER, SET):
            self.add(types, scalar)

    def add(self, table, kind, a=0, b=0, c=0):
        table.append((kind, a, b, c))
        return len(table) - 1

    def array(self, element, length):
        return self.add(self.types, 3, element, length)

    def record(self, base, types):
        """A record that extends row `base`, or none, by fields of these types."""
        row = self.add(self.types, 4, 0 if base is None else base + 1, len(self.fields), len(types))
        for t in types:
            self.add(self.fields, 0, t)
        return row

    def variable(self, kind, t):
        return self.add(self.variables, kind, t)

    def node(self, kind, a=0, b=0, c=0):
        return self.add(self.nodes, kind, a, b, c)

    def constant(self, number):
        return self.node(CONSTANT, INTEGER, number // 65536, number % 65536)

    def chain(self, count):
        """An INTEGER expression of that many nodes."""
        row = self.constant(count)
        if count % 2 == 0:
            row = self.node(MONADIC, row, 0, MINUS - 1)
        while count >= 3:
            row = self.node(DYADIC, row, self.constant(count), PLUS if count % 4 < 2 else MINUS)
            count -= 2
        return row

    def statement(self, kind, a=0, b=0):
        return self.add(self.statements, kind, a, b)

    def call(self, procedure, children):
        """A call whose arguments hold these nodes."""
        rows = [self.node(ARGUMENT, child) for child in children]
        return self.statement(CALL, procedure, rows[0] if rows else 0)

    def bytes(self):
        rows = b''
        for table in self.tables:
            rows += len(table).to_bytes(2, 'big')
            for kind, *numbers in table:
                rows += bytes([kind, 0]) + b''.join(number.to_bytes(2, 'big') for number in numbers)
        return b'\x01' + (5 + len(rows)).to_bytes(4, 'big') + rows


def longest():
    image = Image()
    line = image.array(INTEGER, 8)
    matrix = image.array(line, 4)
    chains, arrays = [], []  # each chain six records, each the base of the next; an array of the last one
    while len(image.types) < 64:
        chain = []
        while len(chain) < 6 and len(image.types) < 64:
            own = [INTEGER, BOOLEAN, SET, INTEGER, line] + ([SET] if not image.fields else [])
            chain.append(image.record(chain[-1] if chain else None, own))
        chains.append(chain)
        if len(image.types) < 64:
            arrays.append(image.array(chain[-1], 3))

    number, some_set, truth = (image.variable(GLOBAL, t) for t in (INTEGER, SET, BOOLEAN))
    table = image.variable(GLOBAL, matrix)
    records = [image.variable(GLOBAL, chain[-1]) for chain in chains[:8]]
    lists = [image.variable(GLOBAL, t) for t in arrays[:4]]

    own = [{'n': image.variable(LOCAL, INTEGER), 'row': image.variable(LOCAL, line)}]
    image.variable(LOCAL, chains[0][-1])
    image.add(image.procedures, 0, 0, 0, 3)
    for p in range(1, 64):
        first, base = len(image.variables), chains[p % 8][0]
        names = {'n': image.variable(VALUE, INTEGER), 'r': image.variable(VAR, base)}
        if p <= 48:
            names['more'] = image.variable(VAR, INTEGER) if p % 2 else image.variable(VALUE, base)
        parameters = len(image.variables) - first
        names['row'] = image.variable(LOCAL, line)
        image.add(image.procedures, 0, 16 * p, parameters, 1)
        own.append(names)

    for p in range(64):
        body(image, p, own, chains, number, some_set, truth, table, records, lists)
    return image


def body(image, p, own, chains, number, some_set, truth, table, records, lists):
    """Sixteen statements that name 32 nodes."""
    names, node, begin, last_node = own[p], image.node, 16 * p, 32 * (p + 1)
    deepest = chains[p % 8][-1]

    # a call; where the callee's record has the caller's type, the caller's VAR parameter is handed on
    callee = p + 8 if p + 8 < 64 else p % 8 + 1
    children = [image.constant(p)]
    if 'r' not in names or callee % 8 != p % 8:
        children.append(node(VARIABLE, records[callee % 8]))
    else:
        children.append(node(GUARD, names['r'], chains[p % 8][2]) if p % 2 else node(VARIABLE, names['r']))
    if 'more' in own[callee]:
        whole = node(VARIABLE, records[callee % 8])
        children.append(node(FIELD, whole, 3) if callee % 2 else whole)
    image.call(callee, children)

    # a field of a guarded record, a test, a whole record
    whole = node(GUARD, names['r'], deepest) if 'r' in names else node(VARIABLE, records[0])
    image.statement(ASSIGN, node(FIELD, whole, 3), image.constant(65536 * p + 1))
    image.statement(UNLESS, node(TEST, names['r'], deepest) if 'r' in names else node(VARIABLE, truth), begin + 15)
    target = node(VARIABLE, names['r'] if 'r' in names else records[0])
    image.statement(ASSIGN, target, node(VARIABLE, records[p % 8]))

    # elements
    target = node(ELEMENT, node(VARIABLE, names['row']), image.constant(p % 8))
    image.statement(ASSIGN, target, node(DYADIC, node(VARIABLE, names['n']), image.constant(1), PLUS))
    image.statement(READ, node(VARIABLE, names['n']))
    if p % 4:
        element = node(ELEMENT, node(VARIABLE, lists[p % 4]), image.constant(p % 3))
        image.statement(WRITE, node(FIELD, element, 0))
    else:
        line = node(ELEMENT, node(VARIABLE, table), node(VARIABLE, number))
        image.statement(WRITE, node(ELEMENT, line, image.constant(p % 8)))

    # sets
    if p % 2:
        element = node(DYADIC, node(VARIABLE, names['n']), node(VARIABLE, some_set), IN)
        image.statement(UNLESS, element, begin + 8)
    else:
        some = node(DYADIC, image.constant(0), image.constant(3), RANGE)
        image.statement(ASSIGN, node(VARIABLE, some_set), some)

    # what is left: writes that use up the nodes, then jumps and returns
    halts = p % 3 == 2
    left, nodes_left = begin + 15 - len(image.statements), last_node - halts - len(image.nodes)
    writes = min(left - 1, nodes_left)
    for i in range(writes):
        image.statement(WRITE, image.chain(nodes_left - writes + 1 if i == 0 else 1))
    while len(image.statements) < begin + 15:
        if len(image.statements) % 2:
            image.statement(GOTO, 0, len(image.statements) + 1)
        else:
            image.statement(RETURN)
    if halts:
        image.statement(HALT, image.constant(p))
    elif p % 3:
        image.statement(GOTO, 0, begin)
    else:
        image.statement(RETURN)


def hostile():
    """The same 255 arguments for each call: 1,022 calls, a RETURN, and the RETURN of what is called."""
    image = Image()
    image.variable(GLOBAL, INTEGER)
    for _ in range(255):
        image.variable(VALUE, INTEGER)
    children = [image.chain(2048 - 255 - 254)] + [image.constant(i) for i in range(254)]
    first = len(image.nodes)
    image.call(1, children)
    while len(image.statements) < 1022:
        image.statement(CALL, 1, first)
    image.add(image.procedures, 0, 0, 0, 0)
    image.add(image.procedures, 0, image.statement(RETURN) + 1, 255, 0)
    image.statement(RETURN)
    return image, first


def bases():
    image = Image()
    last = first = image.record(None, [INTEGER] * 16)
    while len(image.types) < 64:
        last = image.record(last, [INTEGER] * 4)
    whole, parameter = image.variable(GLOBAL, last), image.variable(VAR, first)
    for p, parameters in ((0, 0), (1, 1)):
        image.add(image.procedures, 0, len(image.statements), parameters, 0)
        for _ in range(511):
            record = image.node(GUARD, parameter, last) if p else image.node(VARIABLE, whole)
            image.statement(WRITE, image.node(FIELD, record, 0))
        image.statement(RETURN)
    return image


def calls(*spans):
    """A body of calls, each with its first argument and how many it has, both by numbers. The row of argument 0 too."""
    image = Image()
    counts = sorted({count for _, count in spans})
    for _ in range(sum(counts)):
        image.variable(VALUE, INTEGER)
    arguments = max(first + count for first, count in spans)
    children = [image.constant(i) for i in range(arguments)]
    begin = len(image.nodes)
    for child in children:
        image.node(ARGUMENT, child)
    for first, count in spans:
        image.statement(CALL, 1 + counts.index(count), begin + first)
    image.add(image.procedures, 0, 0, 0, 0)
    for count in counts:
        image.add(image.procedures, 0, image.statement(RETURN) + 1, count, 0)
    image.statement(RETURN)
    return image, begin


def files():
    """What vectors/large/ is to have: each file's bytes by its name."""
    first, (again, row) = longest(), hostile()
    lengths = [len(table) for table in first.tables]
    if lengths != [64, 256, 256, 64, 2048, 1024]:
        sys.exit(f'large: the tables of longest.img have {lengths} rows')
    made = [('bases.img', bases(), 0, 0), ('hostile.img', again, 9, row), ('longest.img', first, 0, 0)]
    for name, at, spans in (
        ('ends', 1, [(0, 2), (1, 3)]),
        ('falling', 2, [(4, 3), (2, 3), (0, 3)]),
        ('gap', 2, [(0, 2), (3, 2)]),
        ('overlap', 2, [(0, 3), (2, 3)]),
        *((f'named-{times}', 0, [(0, 3)] * times) for times in (3, 4, 256, 257)),
    ):
        image, row = calls(*spans)
        made.append((f'{name}.img', image, 9, row + at))
    made.sort(key=lambda row: row[0])
    found = {name: image.bytes() for name, image, _, _ in made}
    found['answers.txt'] = ''.join(f'{name} {no} {row}\n' for name, _, no, row in made).encode('ascii')
    return found


def main(words):
    if words not in ([], ['--check']):
        print('usage: large.py [--check]', file=sys.stderr)
        return 2
    wanted = files()
    if not words:
        FOLDER.mkdir(exist_ok=True)
        for name, data in wanted.items():
            (FOLDER / name).write_bytes(data)
    there = {path.name: path.read_bytes() for path in FOLDER.iterdir()} if FOLDER.is_dir() else {}
    wrong = [name for name in sorted(wanted.keys() | there.keys()) if wanted.get(name) != there.get(name)]
    for name in wrong:
        print(f'large: vectors/large/{name} is not what is made here; run tests/large.py')
    print(f'large: {len(wanted) - 1} images; {len(wrong)} differences')
    return 1 if wrong else 0


if __name__ == '__main__':
    sys.exit(main(sys.argv[1:]))
