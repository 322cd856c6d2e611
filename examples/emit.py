#!/usr/bin/env python3
"""An image from a program that is plain Python data: emit.py OUT.img

For makers of tools: from names and nested expressions to the rows of docs/IMAGE.md, to be read, copied or imported.
image_of(program) gives the bytes; emit.py writes those of FIRST, below, which is examples/first.lst. A program has

    types       name: ('array', length, type) or ('record', base or None, {field: type})
    globals     name: type
    procedures  name: ({parameter: ('value' or 'VAR', type)}, {local: type}, body), the module body first

A type is BOOLEAN, INTEGER, SET or a name. A body is a list of statements, where e is an expression:

    ('assign', target, e)   ('call', procedure, e ..)   ('read', target)   ('write', e)   ('halt', 7)   ('return',)
    ('label', name)   ('goto', name)   ('unless', e, name): go there if e is FALSE

    True   -5   {1, 4}   'variable'   ('.', e, field)   ('[]', e, index)   ('guard', variable, type)
    ('is', variable, type)   ('DIV', e, e), and so on for each dyadic operator   ('-', e)   ('~', e)

A name that is not there is a KeyError, one that is there twice or a word that is not known a ValueError, and a number
that does not fit an OverflowError. The rest is the check's to ask: doordump OUT.img says what it answers."""
import sys

TYPES, FIELDS, VARIABLES, PROCEDURES, NODES, STATEMENTS = range(6)
SCALARS = ['BOOLEAN', 'INTEGER', 'SET']
KINDS_OF_VARIABLES = ['global', 'local', 'value', 'VAR']
KINDS_OF_STATEMENTS = ['assign', 'call', 'unless', 'goto', 'return', 'read', 'write', 'halt']
JUMPS = 'unless', 'goto'
DYADIC = ['+', '-', '*', 'DIV', 'MOD', '/', '=', '#', '<', '<=', '>', '>=', '&', 'OR', 'IN', '..']
MONADIC = ['-', '~']


def declare(names, name, value):
    if name in names:
        raise ValueError(f'{name} is there twice')
    names[name] = value


class Emitter:
    def __init__(self, program):
        self.tables = [[] for _ in range(6)]
        self.shapes, self.types, self.fields = program['types'], {}, {}
        self.procedures = {name: row for row, name in enumerate(program['procedures'])}
        for kind, scalar in enumerate(SCALARS):
            self.types[scalar] = self.add(TYPES, kind)
        for name, shape in self.shapes.items():
            self.types[name] = self.array(shape) if shape[0] == 'array' else self.record(name, shape)
        self.globals = {name: self.variable('global', of) for name, of in program['globals'].items()}
        for parameters, own, body in program['procedures'].values():
            self.procedure(parameters, own, body)

    def add(self, table, kind, a=0, b=0, c=0):
        """Adds a row, and says which."""
        self.tables[table].append([kind, a, b, c])
        return len(self.tables[table]) - 1

    def array(self, shape):
        _, length, element = shape
        return self.add(TYPES, 3, self.types[element], length)

    def record(self, name, shape):
        """A record's own fields are the next field rows; their numbers come after those of the base."""
        _, base, own = shape
        self.fields[name] = dict(self.fields[base]) if base else {}
        first = len(self.tables[FIELDS])
        for field, of in own.items():
            self.add(FIELDS, 0, self.types[of])
            declare(self.fields[name], field, (len(self.fields[name]), of))
        return self.add(TYPES, 4, self.types[base] + 1 if base else 0, first, len(own))

    def variable(self, kind, of):
        """A variable's row and type."""
        return self.add(VARIABLES, KINDS_OF_VARIABLES.index(kind), self.types[of]), of

    def procedure(self, parameters, own, body):
        first = len(self.tables[STATEMENTS])
        self.add(PROCEDURES, 0, first, len(parameters), len(own))
        self.known = dict(self.globals)
        self.known.update({name: self.variable(kind, of) for name, (kind, of) in parameters.items()})
        self.known.update({name: self.variable('local', of) for name, of in own.items()})
        self.labels = {}
        for statement in body:
            self.statement(*statement)
        for row in self.tables[STATEMENTS][first:]:
            if KINDS_OF_STATEMENTS[row[0]] in JUMPS:  # there the label stands for its row
                row[2] = self.labels[row[2]]

    def statement(self, word, *parts):
        if word == 'label':
            declare(self.labels, parts[0], len(self.tables[STATEMENTS]))
            return
        if word == 'call':
            numbers = self.procedures[parts[0]], self.arguments(parts[1:])
        elif word in JUMPS:
            numbers = self.node(parts[0]) if word == 'unless' else 0, parts[-1]
        else:
            numbers = [self.node(part) for part in parts]
        self.add(STATEMENTS, KINDS_OF_STATEMENTS.index(word), *numbers)

    def arguments(self, parts):
        """What all arguments hold, then the arguments, in consecutive rows; the first of these, or 0 without any."""
        rows = [self.add(NODES, 8, node) for node in [self.node(part) for part in parts]]
        return rows[0] if rows else 0

    def node(self, e):
        """The row of an expression, after those of its operands. Each use has rows of its own."""
        if isinstance(e, str):
            return self.add(NODES, 1, self.known[e][0])
        if not isinstance(e, tuple):
            return self.constant(e)
        word, *parts = e
        if word == '.':
            return self.add(NODES, 2, self.node(parts[0]), self.fields[self.type_of(parts[0])][parts[1]][0])
        if word == '[]':
            return self.add(NODES, 3, *[self.node(part) for part in parts])
        if word in ('guard', 'is'):
            return self.add(NODES, 4 if word == 'guard' else 7, self.known[parts[0]][0], self.types[parts[1]])
        if len(parts) == 1:
            return self.add(NODES, 6, self.node(parts[0]), 0, MONADIC.index(word) + 1)
        return self.add(NODES, 5, *[self.node(part) for part in parts], DYADIC.index(word) + 1)

    def constant(self, value):
        if isinstance(value, (set, frozenset)):
            of, bits = 'SET', sum(1 << element for element in value).to_bytes(4, 'big')
        else:
            of, bits = 'BOOLEAN' if isinstance(value, bool) else 'INTEGER', value.to_bytes(4, 'big', signed=True)
        return self.add(NODES, 0, SCALARS.index(of), int.from_bytes(bits[:2], 'big'), int.from_bytes(bits[2:], 'big'))

    def type_of(self, e):
        """The type of a designator."""
        if isinstance(e, str):
            return self.known[e][1]
        if e[0] == '.':
            return self.fields[self.type_of(e[1])][e[2]][1]
        return e[2] if e[0] == 'guard' else self.shapes[self.type_of(e[1])][2]


def image_of(program):
    tables = b''
    for rows in Emitter(program).tables:
        tables += len(rows).to_bytes(2, 'big')
        for kind, *numbers in rows:
            tables += bytes([kind, 0]) + b''.join(number.to_bytes(2, 'big') for number in numbers)
    return b'\x01' + (5 + len(tables)).to_bytes(4, 'big') + tables


FIRST = {
    'types': {'Card': ('record', None, {'number': 'INTEGER'}), 'Member': ('record', 'Card', {'groups': 'SET'})},
    'globals': {'card': 'Card', 'member': 'Member'},
    'procedures': {
        'First': ({}, {}, [
            ('assign', ('.', 'member', 'groups'), {1, 4}),
            ('call', 'Ask', 'card'),
            ('call', 'Ask', 'member'),
            ('return',),
        ]),
        'Ask': ({'c': ('VAR', 'Card')}, {}, [
            ('unless', ('&', ('is', 'c', 'Member'), ('IN', 4, ('.', ('guard', 'c', 'Member'), 'groups'))), 'else'),
            ('write', 1), ('goto', 'end'),
            ('label', 'else'), ('write', 0),
            ('label', 'end'), ('return',),
        ]),
    },
}


if __name__ == '__main__':
    if len(sys.argv) != 2 or sys.argv[1].startswith('-'):
        sys.exit('usage: emit.py OUT.img')
    with open(sys.argv[1], 'wb') as file:
        file.write(image_of(FIRST))
