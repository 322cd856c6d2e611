#!/usr/bin/env python3
"""Holds examples/emit.py to the image format: emit.py --check

MEMBERS is the program of examples/door/members.lst, written by hand from its Oberon-2 comments: its image must be
vectors/input/members-1.img, which tests/report.py makes of the listing. SMALL has what neither that program nor the
emitter's own example has; its rows were found by hand from docs/IMAGE.md. The emitter's own example is compared by
tests/listing and run by examples/run."""
import pathlib
import sys

sys.dont_write_bytecode = True  # no folder beside the emitter
TOP = pathlib.Path(__file__).resolve().parent.parent
sys.path.insert(0, str(TOP / 'examples'))

import emit

NEW, FOUND = ('[]', 'members', 'count'), ('[]', 'members', 'i')
MEMBERS = {
    'types': {
        'Member': ('record', None, {'card': 'INTEGER', 'expiry': 'INTEGER', 'groups': 'SET'}),
        'Members': ('array', 6, 'Member'),
    },
    'globals': {'members': 'Members', 'count': 'INTEGER', 'card': 'INTEGER', 'day': 'INTEGER', 'door': 'SET',
                'open': 'BOOLEAN'},
    'procedures': {
        'Door': ({}, {}, [
            ('call', 'Add', 4711, 20000, {1, 4}),
            ('call', 'Add', 815, 19500, {2}),
            ('call', 'Add', 1234, 21000, {0, 4, 7}),
            ('call', 'Add', 42, 20500, {5}),
            ('assign', 'door', {4, 5}),
            ('read', 'card'),
            ('read', 'day'),
            ('call', 'Decide', 'card', 'day', 'open'),
            ('unless', 'open', 'else'), ('write', 1), ('goto', 'end'),
            ('label', 'else'), ('write', 0),
            ('label', 'end'), ('return',),
        ]),
        'Add': ({'card': ('value', 'INTEGER'), 'expiry': ('value', 'INTEGER'), 'groups': ('value', 'SET')}, {}, [
            ('assign', ('.', NEW, 'card'), 'card'),
            ('assign', ('.', NEW, 'expiry'), 'expiry'),
            ('assign', ('.', NEW, 'groups'), 'groups'),
            ('assign', 'count', ('+', 'count', 1)),
            ('return',),
        ]),
        'Decide': ({'card': ('value', 'INTEGER'), 'day': ('value', 'INTEGER'), 'open': ('VAR', 'BOOLEAN')},
                   {'i': 'INTEGER'}, [
            ('assign', 'open', False),
            ('label', 'while'), ('unless', ('&', ('<', 'i', 'count'), ('#', ('.', FOUND, 'card'), 'card')), 'found'),
            ('assign', 'i', ('+', 'i', 1)), ('goto', 'while'),
            ('label', 'found'), ('unless', ('<', 'i', 'count'), 'end'),
            ('assign', 'open', ('&', ('<=', 'day', ('.', FOUND, 'expiry')),
                                ('#', ('*', ('.', FOUND, 'groups'), 'door'), set()))),
            ('label', 'end'), ('return',),
        ]),
    },
}

SMALL = {
    'types': {
        'Base': ('record', None, {'x': 'INTEGER', 'on': 'BOOLEAN'}),
        'Empty': ('record', 'Base', {}),
        'Row': ('array', 3, 'Empty'),
        'More': ('record', 'Empty', {'row': 'Row'}),
    },
    'globals': {'more': 'More'},
    'procedures': {
        'Small': ({}, {'s': 'SET'}, [
            ('assign', ('.', ('[]', ('.', 'more', 'row'), 2), 'on'), ('~', True)),
            ('assign', 's', ('-', ('..', -5, 0))),
            ('call', 'Nothing'),
            ('halt', 65536),
        ]),
        'Nothing': ({}, {}, [('return',)]),
    },
}
SMALL_TABLES = [
    [[0, 0, 0, 0], [1, 0, 0, 0], [2, 0, 0, 0], [4, 0, 0, 2], [4, 4, 2, 0], [3, 4, 3, 0], [4, 5, 2, 1]],
    [[0, 1, 0, 0], [0, 0, 0, 0], [0, 5, 0, 0]],
    [[0, 6, 0, 0], [1, 2, 0, 0]],
    [[0, 0, 0, 1], [0, 4, 0, 0]],
    [
        [1, 0, 0, 0], [2, 0, 2, 0], [0, 1, 0, 2], [3, 1, 2, 0], [2, 3, 1, 0],  # more.row[2].on
        [0, 0, 0, 1], [6, 5, 0, 2],  # ~TRUE
        [1, 1, 0, 0], [0, 1, 65535, 65531], [0, 1, 0, 0], [5, 8, 9, 16], [6, 10, 0, 1],  # s := -{-5..0}
        [0, 1, 1, 0],  # 65536
    ],
    [[0, 4, 6, 0], [0, 7, 11, 0], [1, 1, 0, 0], [7, 12, 0, 0], [4, 0, 0, 0]],
]

# Bodies of a module with a SET s, and what each must raise; the first is good.
BODIES = [
    ([('write', -2**31), ('write', 2**31 - 1), ('return',)], None),
    ([('write', 2**31)], OverflowError),
    ([('assign', 's', {32})], OverflowError),
    ([('write', 'x')], KeyError),
    ([('goto', 'end')], KeyError),
    ([('call', 'Nobody')], KeyError),
    ([('label', 'end'), ('label', 'end'), ('return',)], ValueError),
    ([('write', ('AND', True, True))], ValueError),
]


def raised(program):
    """What the emitter raises, if it does."""
    try:
        emit.image_of(program)
    except Exception as error:
        return type(error)
    return None


def main():
    if sys.argv[1:] != ['--check']:
        sys.exit('usage: emit.py --check')
    wrong = []
    if emit.image_of(MEMBERS) != (TOP / 'vectors/input/members-1.img').read_bytes():
        wrong.append('the program of examples/door/members.lst has another image')
    for wanted, found in zip(SMALL_TABLES, emit.Emitter(SMALL).tables):
        if wanted != found:
            wrong.append(f'expected the rows {wanted}, not {found}')
    twice = {'types': {'A': ('record', None, {'x': 'SET'}), 'B': ('record', 'A', {'x': 'SET'})}, 'globals': {},
             'procedures': {}}
    programs = [({'types': {}, 'globals': {'s': 'SET'}, 'procedures': {'P': ({}, {}, body)}}, error)
                for body, error in BODIES]
    for program, error in [*programs, (twice, ValueError)]:
        if raised(program) != error:
            wrong.append(f'expected {error}, not {raised(program)}, of {program}')
    print('\n'.join(f'emit: {line}' for line in wrong) or f'emit: {3 + len(BODIES)} programs')
    return 1 if wrong else 0


if __name__ == '__main__':
    sys.exit(main())
