#!/usr/bin/env python3
"""Holds the documents to the repository: documents.py --check, or --write to write the table that is made from it

First a few small texts, each with one mistake that must be found. Then of README.md, docs/*.md and each folder's
README.md:
- a file or folder in backticks is there; words in capitals such as NAME or FILE stand for any name; what is built lies
  in target/ and is not asked for;
- an indented block behind a line that ends with a file in backticks and a colon stands in that file word for word, up
  to white space; a line `..` parts pieces that follow one another there;
- of `crate::name` the crate has such a function, struct, enum, constant or type;
- of `crate/Module`: `name`, `name` the module, in specs/ or proofs/, defines or proves each name;
- of `crate/must-fail/name` there is such an edit;
- of a decision's number, as D17, docs/DECISIONS.md has the entry;
- no line has more than 120 characters, but for rows of tables.
And of two tables:
- that of the plan's cells, in docs/PLAN.md and above the constants in crates/sizes/src/lib.rt, has each constant with
  its value, and crates/sizes/specs/Cells.antt has the same constants;
- that between two comments in docs/PROOFS.md is what opened.py finds; --write writes it.
And of the crates: what a comment has in double quotes stands in a paragraph of document 01 or 02 (docs/spec/), word for
word up to white space, the signs * and `, and the form of minus and quotes; `..` stands for what is left out.
Each mistake is a line; the exit status is 1 where there is one."""
import pathlib
import re
import sys

sys.dont_write_bytecode = True  # no folder beside opened.py

import opened

TOP = pathlib.Path(__file__).resolve().parent.parent
CRATES = TOP / 'crates'
FILE = re.compile(r'(?:crates|docs|examples|include|rust|tests|tools|vectors|\.ci)/[^\s`]*')
ANY = re.compile('[A-Z]{2,}(?=[/.]|$)|NNNNN')
ITEM = r'(?:pub )?(?:extern "C" )?(?:fn|struct|enum|const|type) '
DEFINES = r'(?:unfoldable |abbrev )?(?:pub )?(?:record |data )?'
DECISIONS = set(re.findall(r'^\*\*(D[0-9]+)\.', (TOP / 'docs/DECISIONS.md').read_text(encoding='utf-8'), re.MULTILINE))
MODULE = re.compile(r'`([a-z_]+)/([A-Z]\w*)`(?::((?:(?:,| and)?\s+`[^`\s/]+`)+))?')
PLAN, CONSTANTS, PROOFS = TOP / 'docs/PLAN.md', CRATES / 'sizes/src/lib.rt', TOP / 'docs/PROOFS.md'
CONSTANT = re.compile(r'^(?:pub const )?([A-Z_]+)(?:: usize)? = (\w+)(?: \+ (\d+))?;?$', re.MULTILINE)
CELL = re.compile(r'^(?:\||//) +(\d+) (?:\| `| )([A-Z_]+)\b', re.MULTILINE)
COMMENT = re.compile(r'(?:^[ \t]*(?:--|//).*\n?)+', re.MULTILINE)
BEGIN, END = '<!-- opened by proofs -->\n', '<!-- end -->\n'


def flat(text):
    return ' '.join(text.split())


def quotes(text):
    """Each block that a line with its file stands before: the line's number, the file and the block's lines."""
    found, block = [], None
    for number, line in enumerate(text.splitlines(), 1):
        if line.startswith('    '):
            if block:
                block[2].append(line)
        elif line.strip():
            named = re.search(r'`([^`]+)`:$', line)
            quoted = named and FILE.fullmatch(named[1]) and not ANY.search(named[1])
            block = (number, named[1], []) if quoted else None
            found += [block] if block else []
    return [block for block in found if block[2]]


def wrong_quote(file, lines):
    path = TOP / file
    if not path.is_file():
        return f'there is no file {file} to quote'
    rest = flat(path.read_text(encoding='utf-8'))
    for piece in re.split(r'\n *\.\.\n', '\n'.join(lines)):
        _, found, rest = rest.partition(flat(piece))
        if not found:
            return f'{file} has no "{flat(piece)[:60]}"'
    return None


def any_has(paths, pattern):
    """Whether a line of one of the files begins with the pattern, behind white space."""
    line = re.compile(rf'^\s*{pattern}(?![\w-])', re.MULTILINE)
    return any(line.search(path.read_text(encoding='utf-8')) for path in paths)


def modules(crate, module):
    return [path for path in (CRATES / crate).glob(f'*/{module}.antt') if path.parent.name in ('specs', 'proofs')]


def mistakes(text):
    for number, line in enumerate(text.splitlines(), 1):
        if len(line) > 120 and not line.startswith('|'):
            yield f'line {number} has {len(line)} characters'
    for number, file, lines in quotes(text):
        wrong = wrong_quote(file, lines)
        if wrong:
            yield f'line {number}: {wrong}'
    prose = '\n'.join(line for line in text.splitlines() if not line.startswith('    '))
    for token in sorted(set(re.findall(r'`([^`\n]+)`', prose))):
        if FILE.fullmatch(token) and not list(TOP.glob(ANY.sub('*', token))):
            yield f'there is no {token}'
        code, edit = re.fullmatch(r'(?!std:)([a-z_]+)::(\w+)', token), re.fullmatch(r'([a-z_]+)/must-fail/(\w+)', token)
        if code and not any_has((CRATES / code[1] / 'src').glob('*.rt'), ITEM + code[2]):
            yield f'there is no {token}'
        if edit and not (CRATES / edit[1] / 'must-fail' / f'{edit[2]}.edit').is_file():
            yield f'there is no edit {token}'
    for number in sorted(set(re.findall(r'\bD[1-9][0-9]*\b', prose)) - DECISIONS):
        yield f'there is no decision {number}'
    for crate, module, names in MODULE.findall(prose):
        if not modules(crate, module):
            yield f'there is no module {crate}/{module}'
        for name in re.findall(r'`([^`]+)`', names):
            if not any_has(modules(crate, module), DEFINES + re.escape(name)):
                yield f'{crate}/{module} has no {name}'


def constants(path):
    """The plan's constants: each is a number or an earlier one, or that plus a number."""
    values = {}
    for name, first, more in CONSTANT.findall(path.read_text(encoding='utf-8')):
        values[name] = int(values.get(first, first)) + int(more or 0)
    return values


def wrong_cells(text, values):
    """Where a table of the plan's cells, in a document or a comment, has not the constants' values."""
    cells = {name: int(cell) for cell, name in CELL.findall(text)}
    for name in {**values, **cells}:
        if values.get(name) != cells.get(name):
            yield f'{name} is {values.get(name, "no constant")}, and the table has {cells.get(name, "no such row")}'


def wrong_rows(text, rows):
    """Where the table between the two comments has not these rows."""
    there = text.partition(BEGIN)[2].partition(END)[0].splitlines()
    for first in dict.fromkeys(row.split(' | ')[0] for row in there + rows):
        if [row for row in there if row.startswith(first)] != [row for row in rows if row.startswith(first)]:
            yield f'the row {first} | is not what the proofs open: documents.py --write writes it'


def tables():
    """The mistakes of the tables that are held to the code and the proofs, each behind its file."""
    values = constants(CONSTANTS)
    for path in (PLAN, CONSTANTS):
        yield from ((path, wrong) for wrong in wrong_cells(path.read_text(encoding='utf-8'), values))
    if constants(CRATES / 'sizes/specs/Cells.antt') != values:
        yield CONSTANTS, 'specs/Cells.antt has other constants'
    yield from ((PROOFS, wrong) for wrong in wrong_rows(PROOFS.read_text(encoding='utf-8'), opened.table()))


def write():
    before, begin, rest = PROOFS.read_text(encoding='utf-8').partition(BEGIN)
    _, end, after = rest.partition(END)
    PROOFS.write_text(before + begin + '\n'.join([*opened.table(), end]) + after, encoding='utf-8')


def plain(text):
    """A text without what a quotation need not keep: bold, backticks, the form of minus and of quotes, white space."""
    return flat(re.sub('[*`]', '', text.replace('\u2212', '-').replace('"', "'")))


def paragraphs():
    return [plain(part) for path in sorted((TOP / 'docs/spec').glob('*.md'))
            for part in path.read_text(encoding='utf-8').split('\n\n')]


def wrong_quotations(text, papers):
    """What the comments of a source have in double quotes, and no paragraph has."""
    for block in COMMENT.findall(text):
        words = flat(' '.join(re.sub(r'^\s*(?:--|//)', '', line) for line in block.splitlines()))
        if words.count('"') % 2:
            yield f'a quotation does not end in "{words[:60]}"'
        for quotation in re.findall('"([^"]+)"', words):
            pieces = [re.escape(piece.strip()) for piece in plain(quotation).split('..') if piece.strip()]
            if not any(re.search('.*?'.join(pieces), paper) for paper in papers):
                yield f'documents 01 and 02 have no "{quotation[:60]}"'


def quotations():
    """The mistakes of the crates' quotations, each behind its file."""
    papers = paragraphs()
    for path in sorted(path for part in ('src/**/*.rt', 'specs/**/*.antt', 'proofs/**/*.antt')
                       for path in CRATES.glob(f'*/{part}')):
        yield from ((path, wrong) for wrong in wrong_quotations(path.read_text(encoding='utf-8'), papers))


def documents():
    inner = [path for folder in ('rust', 'tests', 'tools', 'vectors') for path in (TOP / folder).rglob('README.md')]
    return [TOP / 'README.md', *sorted((TOP / 'docs').glob('*.md')), *sorted(inner)]


BROKEN = [
    'a' * 121,
    '`docs/none.md`',
    '`crates/NAME/specs/MODULE.none`',
    'Of `crates/sets/src/lib.rt`:\n\n    fn contains(x: i64, s: u32) -> Answer\n',
    'Of `crates/sets/src/lib.rt`:\n\n    // The elements a to b.\n    ..\n    // Whether x is an element that a SET can have.\n',
    '`sets::remember`',
    '`sets/None`',
    '`sets/Sets`: `contains_of` and `remember`',
    '`sets/Members`: `member_elements`, `member`',
    '`sets/must-fail/none`',
    'D17 and D999',
]
# Tables with one mistake each, and what they should have.
BROKEN_CELLS = [
    ('| 385 | `PLACES` | where variables begin |', {'PLACES': 384}),
    ('// 1807  RUN_PLAN  how many cells', {'RUN_PLAN': 1806}),
    ('| 384 | `PLACES` | where variables begin |', {'PLACES': 384, 'FRAMES': 640}),
    ('| 384 | `PLACES` | |\n| 640 | `FRAMES` | |', {'PLACES': 384}),
]
BROKEN_ROWS = [
    (f'{BEGIN}| `sets` | `image`: `row_at` |\n{END}', ['| `sets` | `image`: `row_at`, `rows_of` |']),
    (f'{BEGIN}| `sets` | `image`: `row_at` |\n{END}', []),
    (f'{BEGIN}{END}', ['| `sets` | `image`: `row_at` |']),
]
# Comments with one mistake each, against a paper of one paragraph.
PAPER = plain('The **first** "no" decides; the row is `at` \u2212 1, 0 for 1 to 3.')
BROKEN_QUOTATIONS = [
    '-- "The first no decides"\n',
    '// "the row is the\n// lowest"\n',
    '  -- "the row is .. The first"\n',
    '-- "The first \'no\' decides\n',
]
WHOLE_QUOTATIONS = '-- "The first \'no\' decides; .. at - 1,\n-- 0 for 1 to 3.": laws\nlaw : "no comment"\n'
# A module of proofs that opens two definitions of a lower crate, and one of its own.
OPENING = '''
use Rattle.image.specs.Rows.{row_at as row, rows_of}
use Rattle.sets.specs.Sets.{contains_of}

  law : (t : List ℕ) → rows_of t ≡ 0
      → row t 0 ≡ row t 1
  unfolding row contains_of
      rows_of
  law t h = refl
'''
# A source whose first function opens one, and one of its own.
OPENING_CODE = '''
#[tactic(auto, using(Rattle.image.proofs.Bytes.{row_small}), unfolding(image::specs::Rows::row_at,
    crate::specs::Sets::contains_of))]
#[cycle(first_second)]
pub fn first() {}
#[tactic(auto)]
fn second() {}
'''


def missed():
    """What is not found that must be."""
    yield from (text for text in BROKEN if len(list(mistakes(text))) != 1)
    yield from (text for text, values in BROKEN_CELLS if len(list(wrong_cells(text, values))) != 1)
    yield from (text for text, rows in BROKEN_ROWS if len(list(wrong_rows(text, rows))) != 1)
    yield from (text for text in BROKEN_QUOTATIONS if len(list(wrong_quotations(text, [PAPER]))) != 1)
    yield from (WHOLE_QUOTATIONS for wrong in wrong_quotations(WHOLE_QUOTATIONS, [PAPER]))
    both = {('image', 'row_at'), ('image', 'rows_of')}
    if {(found.lower, found.name) for found in opened.openings(OPENING, 'sets')} != both:
        yield OPENING
    if [(found.name, function) for found, function in opened.openings_of_code(OPENING_CODE)] != [('row_at', 'first')]:
        yield OPENING_CODE


def main(arguments):
    if arguments == ['--write']:
        write()
        return 0
    if arguments != ['--check']:
        print('usage: documents.py --check | --write', file=sys.stderr)
        return 2
    found = [f'not found in {text[:60]!r}' for text in missed()]
    for path in documents():
        found += [f'{path.relative_to(TOP)}: {mistake}' for mistake in mistakes(path.read_text(encoding='utf-8'))]
    found += [f'{path.relative_to(TOP)}: {mistake}' for path, mistake in [*tables(), *quotations()]]
    for mistake in found:
        print(f'documents: {mistake}')
    return 1 if found else 0


if __name__ == '__main__':
    sys.exit(main(sys.argv[1:]))
