#!/usr/bin/env python3
"""Compares what doordump prints with the outputs in this folder and with the answers of vectors/: see run."""
import os
import pathlib
import random
import re
import shutil
import subprocess
import sys
import tempfile

sys.dont_write_bytecode = True  # no folder beside page.py

from page import Page, flat

TOP = pathlib.Path(__file__).resolve().parent.parent.parent
HERE, VECTORS = TOP / 'tests/dump', TOP / 'vectors'
LISTING, DOORDUMP = TOP / 'target/release/listing', TOP / 'target/release/doordump'
TAKEN = 29714  # the bytes that doorrun takes, which the answers of expect.txt are about
DAMAGED = 400
COMPARED = 5  # every so many of them is compared with the good image
TABLES = {4: 'type', 5: 'variable', 6: 'procedure', 7: 'node', 8: 'statement', 9: 'node', 10: 'node', 11: 'statement'}
ORDER = ['type', 'field', 'variable', 'procedure', 'node', 'statement']
OPTIONS = {  # the stored output, the words of the command and its exit status
    'first-statement-4': ('--statement 4 first.img', 0),
    'report-10-57': ('--refusal 10 57', 0),
    'report-12': ('--refusal 12 0', 0),
    'report-13': ('--reader 851968 first.img', 0),
    'report-14': ('--refusal 14 0', 0),
    'report-other': ('--reader 655362 first.img', 0),
    'report-both': ('--refusal 4 4 10-index.img', 1),
    'report-row': ('--refusal 10 1 10-index.img', 1),
    'against-damaged': ('--against good.img 08-damaged.img', 1),
    'against-shorter': ('--against good.img 08-shorter.img', 1),
    'against-length': ('--against first.img 02-length.img', 1),
    'names-good': ('--names good.lst good.img', 0),
    'names-damaged': ('--names good.lst --against good.img 08-damaged.img', 1),
    'brief': ('--brief --refusal 10 2 first.img 10-index.img 02-length.img', 1),
    'brief-against': ('--brief --against first.img first.img 04-unclaimed.img', 1),
}
FAILURES = []


def fail(what):
    FAILURES.append(what)
    print(f'dump: FAILED: {what}')


def dumped(image, *options):
    """The exit status and the text for a file, which is named without its folder."""
    done = subprocess.run([DOORDUMP, *options, image.name], cwd=image.parent, stdout=subprocess.PIPE,
                          stderr=subprocess.PIPE, timeout=60, check=False)
    if done.stderr and done.returncode != 2:
        fail(f'{image.name}: on standard error: {done.stderr[:200]!r}')
    return done.returncode, done.stdout.decode('utf-8')


def image_of(source, room):
    """The image of a listing or of hexadecimal bytes."""
    image = room / (source.stem + '.img')
    if source.suffix == '.lst':
        subprocess.run([LISTING, 'assemble', source, image], check=True)
    else:
        lines = (line.split('#')[0] for line in source.read_text(encoding='ascii').splitlines())
        image.write_bytes(bytes.fromhex(' '.join(lines)))
    return image


def stored_text(name):
    return (HERE / f'{name}.txt').read_text(encoding='utf-8')


def stored(room):
    """The outputs in this folder; how many."""
    sources = sorted([*HERE.glob('*.lst'), *HERE.glob('*.hex'), TOP / 'examples/first.lst'])
    for source in sources:
        image = image_of(source, room)
        status, text = dumped(image)
        if text != stored_text(source.stem):
            fail(f'{source.name}: this is not {source.stem}.txt:\n{text}')
        if status != (1 if source.stem[0].isdigit() else 0):
            fail(f'{source.name}: exit status {status}')
        page_of(text, room, image.name)
    shutil.copy(HERE / 'good.lst', room)
    for name, (words, expected) in OPTIONS.items():
        status, text, said = command(room, *words.split())
        if (status, text, said) != (expected, stored_text(name), ''):
            fail(f'doordump {words}: exit status {status}, and this is not {name}.txt:\n{text}{said}')
        if '--brief' not in words:
            page_of(text, room, *words.split())
    outputs = {path.stem for path in HERE.glob('*.txt')}
    known = {source.stem for source in sources} | OPTIONS.keys()
    if outputs != known:
        fail(f'without a source or an output: {outputs ^ known}')
    return len(outputs)


def command(room, *words, stdin=b''):
    """Exit status, text and complaint of a command."""
    done = subprocess.run([DOORDUMP, *words], cwd=room, input=stdin, capture_output=True, timeout=60, check=False)
    return done.returncode, done.stdout.decode('utf-8'), done.stderr.decode('utf-8')


def page_of(text, room, *words):
    """The page for a command: its form, and every line of the plain text."""
    _, written, _ = command(room, '--html', *words)
    page = Page(written)
    for wrong in page.wrong:
        fail(f'--html {words}: {wrong}')
    if not re.search('<html lang="en">.*<meta name="viewport".*<title>[^<]', written, re.DOTALL):
        fail(f'--html {words}: no language, viewport or title')
    if re.search(r'src=|url\(|@import|<script', written):
        fail(f'--html {words}: the page needs another file, or a script')
    name, _, rest = text.partition(': ')
    for line in [name, *rest.splitlines()]:
        if flat(line) not in page.text:
            fail(f'--html {words}: without {flat(line)!r}')
    marked_row = re.search(r'<div id="([^"]*)" class="line marked"><a href="#rule-1">', written)
    if '\n>> ' in text and 'refused by' in text and not (marked_row and f'href="#{marked_row[1]}"' in written):
        fail(f'--html {words}: the marked row and its rule do not lead to each other')


def statements(room):
    """The option --statement, or --row: the row that a run stopped at."""
    for words in ['--row', '4'], ['--row=4'], ['--statement=4']:
        if command(room, 'first.img', *words) != (0, stored_text('first-statement-4'), ''):
            fail(f'{words} is not --statement 4')
    said = ('\nno run stops at a statement of this image: it is refused before its first step; '
            "a refusal's row is told by --refusal\n")
    for name, row in ('08-jump', '1'), ('08-jump', '500'), ('02-length', '3'):
        if dumped(room / f'{name}.img', '--statement', row) != (1, stored_text(name) + said):
            fail(f'{name}: --statement {row} of a refused image')


def second_line(text, line):
    """The text with a line more after the verdict."""
    first, verdict, rest = text.split('\n', 2)
    return '\n'.join([first, verdict, line, rest])


def notes(room):
    """Options that say no more than a line beside what is stored."""
    report = "the reader's report, refusal %s and row %s, is what this file gives"
    no_names = 'no names: good.lst gives another image, which differs in %s'
    for words, name, line in [
            ('--refusal 10 2', '10-index', report % (10, 2)), ('--reader 655,362', '10-index', report % (10, 2)),
            ('--reader 65536', '01-version', report % (1, 0)), ('--refusal 0 0', 'first', report % (0, 0)),
            ('--against good.img', 'good', 'the same bytes as good.img'),
            ('--names good.lst', '08-damaged', no_names % '1 field row, 1 node row, 2 statement rows'),
            ('--names good.lst', '08-shorter', no_names % '1 node row, 1 statement row')]:
        status, text, said = command(room, *words.split(), f'{name}.img')
        if (status, text, said) != (1 if name[0].isdigit() else 0, second_line(stored_text(name), line), ''):
            fail(f'{words} {name}.img: {status} {said}\n{text}')


def never(room):
    """Refusal 13 of a program that needs more cells than any reader lends: 17 arrays and procedure 0's three links."""
    lines = ['type 0 = BOOLEAN', 'type 1 = INTEGER', 'type 2 = SET', 'type 3 = ARRAY 4096 OF INTEGER',
             'procedure 0 at 0 parameters 0 locals 0', 'statement 0: RETURN']
    lines += [f'var {v} = global v: 3' for v in range(17)]
    (room / 'large.lst').write_text('\n'.join(lines) + '\n', encoding='ascii')
    status, text, _ = command(room, '--refusal', '13', '0', image_of(room / 'large.lst', room).name)
    said = ('this file is accepted. A run of it needs 69635 cells to begin, and more for calls. '
            'That is more than a reader may lend: it never runs.')
    if status != 0 or said not in flat(text):
        fail(f'refusal 13 of a large program: {text}')


def several(room):
    """Several files, one of which may not be there, and standard input."""
    texts = [stored_text('first'), stored_text('10-index')]
    expected = ''.join(f'==== {text.split(":")[0]}\n{text}\n' for text in texts)
    done = command(room, 'first.img', '10-index.img')
    if done != (1, expected + '==== 2 files: 1 accepted, 1 refused\n', ''):
        fail(f'two files: {done}')
    status, text, said = command(room, 'first.img', 'none.img', '10-index.img')
    if (status, text) != (2, expected + '==== 3 files: 1 accepted, 1 refused, 1 without an answer\n'):
        fail(f'a file that is not there: {status}\n{text}')
    if not said.startswith('doordump: none.img: '):
        fail(f'a file that is not there: {said}')
    page = Page(command(room, '--html', 'first.img', 'none.img', '10-index.img', '08-damaged.img')[1])
    if page.wrong or any(flat(line) not in page.text for text in texts for line in text.splitlines()[1:]):
        fail(f'a page of several: {page.wrong}')
    for words in ['-'], ['--', '-']:
        done = command(room, *words, stdin=(room / 'first.img').read_bytes())
        if done != (0, texts[0].replace('first.img', 'standard input'), ''):
            fail(f'standard input: {done}')
    done = command(room, '--against', '-', 'good.img', stdin=(room / 'good.img').read_bytes())
    if done != (0, second_line(stored_text('good'), 'the same bytes as standard input'), ''):
        fail(f'--against standard input: {done}')


def wrong_commands(room):
    """Words of the command that are wrong, or in another order."""
    row = "--row needs the number of a statement row, not '%s'\n"
    for words, status, said in [
            ('', 2, 'no file is named\n'), ('--rwo 4', 2, 'there is no option --rwo\n'),
            ('--row abc first.img', 2, row % 'abc'), ('first.img --row', 2, row % ''), ('-h', 0, ''), ('--help', 0, ''),
            ('first.img --statement 9', 2, 'first.img has statement rows 0 to 8, and no 9\n'),
            ('none.img', 2, 'none.img: '), ('--against none.img first.img', 2, 'none.img: '),
            ('--names none.lst first.img', 2, 'none.lst: '), ('--names first.img first.img', 2, 'first.img:1:'),
            ('--refusal', 2, "--refusal needs the number of a refusal and a row, not ''\n"),
            ('--refusal 10', 2, "--refusal needs a row after the refusal, not ''\n"),
            ('--refusal 10 first.img', 2, "--refusal needs a row after the refusal, not 'first.img'\n"),
            ('--refusal 15 0', 2, 'there is no refusal 15: they are 1 to 14\n'),
            ('--refusal 3 1', 2, 'refusal 3 has row 0, and never 1\n'),
            ('--refusal 0 7', 2, 'refusal 0 has row 0, and never 7\n'),
            ('--refusal 4 64', 0, ''), ('--refusal 4 65', 2, 'refusal 4 has type rows 0 to 64, and never 65\n'),
            ('--refusal 10 2047', 0, ''),
            ('--refusal 10 2048', 2, 'refusal 10 has node rows 0 to 2047, and never 2048\n'),
            ('--reader 10', 2, "10 is not a reader's one number, which is 65536 at least; "
             'a refusal and its row are told by --refusal REFUSAL ROW\n'),
            ('--reader 0', 0, ''), ('--reader 786433', 2, '786433: refusal 12 has row 0, and never 1\n'),
            ('--reader x', 2, "--reader needs the reader's one number, not 'x'\n"),
            ('--refusal 1 0 --reader 0', 2, 'one report at a time\n'),
            ('--refusal 1 0 --brief', 2, 'no file is named\n'),
            ('--refusal 1 0 --names good.lst', 2, 'no file is named\n'),
            ('--refusal 1 0 --row 4 first.img', 2, 'a reader shows a refusal or a statement row, not both\n'),
            ('--brief --html first.img', 2, '--brief and --html do not go together\n'),
            ('--brief=4 first.img', 2, '--brief has nothing behind =\n'),
            ('--brief --row 4 first.img', 2, '--brief shows no statement\n'),
            ('--brief --names good.lst good.img', 2, '--brief shows no names\n'),
            ('--against', 2, '--against needs a file\n'), ('- -', 2, 'standard input can be read once\n'),
            ('--against - -', 2, 'standard input can be read once\n'), ('-- --help', 2, '--help: ')]:
        found = command(room, *words.split())
        begins = f'doordump: {said}' if said else ''
        if found[0] != status or not found[2].startswith(begins) or bool(said) != bool(found[2]):
            fail(f'doordump {words}: exit status {found[0]}, {found[2]!r}')


def help_text(room):
    """The help: in ASCII, with every option, and with examples that can be run."""
    text = command(room, '--help')[1]
    options = 'refusal reader statement row against names brief html help'.split()
    for wrong in [f'no --{option}' for option in options if f'--{option}' not in text]:
        fail(f'--help: {wrong}')
    if not text.isascii() or max(map(len, text.splitlines())) > 110:
        fail('--help: a line is too long, or not in ASCII')
    for name in 'door', 'sent', 'received':
        shutil.copy(room / 'good.img', room / f'{name}.img')
    shutil.copy(room / 'good.lst', room / 'door.lst')
    examples = re.findall('^ {20,}(doordump .*)', text, re.MULTILINE)
    for example in examples:
        words = [word for word in example.split()[1:] if not word.startswith('>')]
        words = [name for word in words for name in (['good.img', 'door.img'] if word == '*.img' else [word])]
        if '--statement' in words:
            words[words.index('--statement') + 1] = '3'
        if command(room, *words)[0] != 0:
            fail(f'--help: {example}: {command(room, *words)}')
    if len(examples) < len(options) - 1:
        fail(f'--help: {len(examples)} examples')


def file_names(room):
    """File names of any bytes, in text and page; a reader of the text that wants no more."""
    hostile = b'<b on="1">&amp;\'\xff\x1b[31m.img'
    shown = '<b on="1">&amp;\'\ufffd\\u{1b}[31m.img'
    shutil.copy(room / 'first.img', os.fsencode(room) + b'/' + hostile)
    status, text, _ = command(room, hostile)
    if status != 0 or not text.startswith(f'{shown}: version 1, 305 bytes'):
        fail(f'a name of other bytes: {text[:100]!r}')
    for words in [hostile], [hostile, hostile + b'x', 'first.img'], ['--against', hostile, 'good.img']:
        page = Page(command(room, '--html', *words)[1])
        if page.wrong or shown not in page.text:
            fail(f'a page with names of other bytes: {page.wrong}, {page.text[:100]!r}')
    reader, writer = os.pipe()
    os.close(reader)
    done = subprocess.run([DOORDUMP, 'first.img'], cwd=room, stdout=writer, stderr=subprocess.PIPE, check=False)
    os.close(writer)
    if (done.returncode, done.stderr) != (0, b''):
        fail(f'a closed pipe: {done}')


def answers():
    """For each image of vectors/ its bytes, refusal and row."""
    for file in sorted(VECTORS.glob('*/expect.txt')):
        lines = file.read_text(encoding='ascii').splitlines()
        for name, numbers in zip(lines, lines[1:]):
            if name.endswith('.img'):
                yield file.parent / name, numbers.split()[:2]
    for file in sorted(VECTORS.glob('*/answers.txt')):
        for line in file.read_text(encoding='ascii').splitlines():
            yield file.parent / line.split()[0], line.split()[1:3]
    for file in sorted(VECTORS.glob('*/runs.txt')):
        for line in file.read_text(encoding='ascii').splitlines():
            if not line.startswith('#'):
                parts = line.split('|')
                yield file.parent / parts[0].split()[0], parts[2].split()[:2]


def marked(text):
    return [line[2:].strip() for line in text.splitlines() if line.startswith('>>')]


def names_row(line, question, row):
    """Whether a marked line is that of the row."""
    begins = {4: rf'(T{row} =|type {row} =|fields of no record$)', 5: rf'((VAR |value |local )?v{row}:|var {row} =)',
              6: rf'(PROCEDURE p{row}\b|procedure {row} =|variables of no procedure$)', 8: rf'{row}: '}
    begins[11], begins[7] = begins[8], rf'node {row} ='
    begins[9] = begins[10] = begins[7]
    return re.match(begins[question], line) is not None


def answer_in(text):
    """Refusal and row, as they stand in a line of the text."""
    if re.search(r'^accepted; ', text, re.M):
        return 0, 0
    no_row = r'(?: \(there is none: .*\))?'
    found = re.search(rf'^refused by question ([0-9]+)(?: at ([a-z]+) row ([0-9]+){no_row})?$', text, re.M)
    if not found or TABLES.get(int(found[1])) != found[2]:
        return None
    return int(found[1]), int(found[3] or 0)


def tables_of(data):
    """Where each table's rows begin, and how many it has."""
    at, found = 5, {}
    for name in ORDER:
        count = int.from_bytes(data[at:at + 2], 'big')
        found[name] = at + 2, count
        at += 2 + 8 * count
    return found


def row_lines(data, table, row):
    """The lines of an explanation with the row's numbers and bytes; none where it is not there."""
    first, count = tables_of(data)[table]
    if row >= count:
        return ''
    at = first + 8 * row
    kind, zero, *numbers = data[at], data[at + 1], *(int.from_bytes(data[at + k:at + k + 2], 'big') for k in (2, 4, 6))
    a, b, c = numbers
    digits = f'{kind:02x} {zero:02x} {a:04x} {b:04x} {c:04x}'
    return (f'  row        {table} {row}: kind {kind}, zero byte {zero}, a {a}, b {b}, c {c}\n'
            f'  bytes      {at} to {at + 7} (hexadecimal {at:x} to {at + 7:x}): {digits}\n')


def answered(image):
    """Refusal and row that are printed of an image; exit status and marks have to fit."""
    status, text = dumped(image)
    answer = answer_in(text)
    if answer is None or status != (1 if answer[0] else 0):
        fail(f'{image.name}: exit status {status}, answer {answer}')
        return answer
    refusal, row = answer
    lines = marked(text)
    if (refusal > 3) != bool(lines) or not all(names_row(line, refusal, row) for line in lines):
        fail(f'{image.name}: refused by {refusal} at {row}, and marked: {lines}')
    if refusal > 3 and row_lines(image.read_bytes(), TABLES[refusal], row) not in text:
        fail(f'{image.name}: not the bytes of the row')
    if not text.isascii():
        fail(f'{image.name}: the text is not in ASCII')
    return answer


def vectors(room):
    """Every image of vectors/, each once; how many."""
    known = dict(answers())
    for image, (refusal, row) in known.items():
        data = image.read_bytes()
        if len(data) > TAKEN:
            image = room / image.name
            image.write_bytes(data[:TAKEN])
        expected = (0, 0) if refusal in ('0', '12', '13') else (int(refusal), int(row))
        found = answered(image)
        if found != expected:
            fail(f'{image.name}: {found}, and the stored answer is {expected}')
    if known.keys() != set(VECTORS.glob('*/*.img')):
        fail('vectors/ has images without an answer')
    return known


def damaged(room, known):
    """Accepted images with one to eight bytes changed; how many of them are refused."""
    random.seed(7)
    accepted = sorted(image for image, (refusal, _) in known.items() if refusal == '0' and image.stat().st_size < 5000)
    refused = 0
    for k in range(DAMAGED):
        good = random.choice(accepted)
        data = bytearray(good.read_bytes())
        for _ in range(random.randint(1, 8)):
            data[random.randrange(5, len(data))] = random.choice([0, 1, 2, 3, 4, 255, random.randrange(256)])
        image = room / f'damaged{k}.img'
        image.write_bytes(data)
        refused += answered(image) != (0, 0)
        if k % COMPARED == 0:
            compared(good, image, room)
    return refused


def compared(good, image, room):
    """A damaged image against the good one: the rows that differ, in the summary and each with its lines."""
    _, text, _ = command(room, '--against', good, image.name)
    data, other = image.read_bytes(), good.read_bytes()
    first = next((at for at in range(len(data)) if data[at] != other[at]), None)
    rows = {} if answer_in(text)[0] in (1, 2, 3) else differing_rows(data, other)
    counts = [f'{len(found)} {name} row{"" if len(found) == 1 else "s"}' for name, found in rows.items() if found]
    inside = f' in {", ".join(counts)}' if counts else ''
    line = f'the same bytes as {good}\n' if first is None else f'differs from {good}{inside}; first at byte {first} '
    if f'\n{line}' not in text:
        fail(f'{image.name}: without {line!r}')
    for name, found in rows.items():
        for row in found:
            if not re.search(rf'^ +good: {"var" if name == "variable" else name} {row}\b', text, re.MULTILINE):
                fail(f'{image.name}: without {name} row {row} of the good image')
    page_of(text, room, '--against', good, image.name)


def differing_rows(data, other):
    """The rows of each table that differ, where both images have the same counts."""
    found = {}
    for name, (first, count) in tables_of(data).items():
        starts = {row: first + 8 * row for row in range(count)}
        found[name] = [row for row, at in starts.items() if data[at:at + 8] != other[at:at + 8]]
    return found


def hostile(room):
    """Images that could make a printer go on for ever: the text must be short. How many."""
    scalars = 'type 0 = BOOLEAN\ntype 1 = INTEGER\ntype 2 = SET\n'
    lines = {
        'doubled': ['procedure 0 at 0 parameters 0 locals 0', 'node 0 = INTEGER 1', 'statement 0: WRITE 2047']
                   + [f'node {n} = {n - 1} + {n - 1}' for n in range(1, 2048)],
        'shared': ['procedure 0 at 0 parameters 0 locals 0', 'node 0 = INTEGER 1']
                  + [f'node {n} = - {n - 1}' for n in range(1, 2048)]
                  + [f'statement {s}: WRITE 2047' for s in range(1024)],
        'again': ['procedure 0 at 0 parameters 0 locals 0', 'node 0 = INTEGER 1']
                 + [f'node {n} = - {n - 1}' for n in range(1, 2048)]
                 + [f'statement {s}: WRITE 2047' for s in range(1023)] + ['statement 1023: RETURN'],
        'circle': ['procedure 0 at 0 parameters 0 locals 0', 'statement 0: WRITE 0']
                  + [f'node {n} = {(n + 1) % 2048} + {n}' for n in range(2048)],
        'parameters': [f'procedure {p} at 0 parameters 65535 locals 65535' for p in range(64)]
                      + ['node 0 = argument 0'] + [f'statement {s}: call 1' for s in range(1024)],
        'records': ['type 3 = row 4 0 4 0 65535'] + [f'type {t} = row 4 0 {t + 1} 0 65535' for t in range(4, 64)]
                   + [f'field {f} = 63' for f in range(256)]
                   + ['procedure 0 at 65535 parameters 0 locals 0', 'statement 0: RETURN'],
    }
    for name, rows_of in lines.items():
        source = room / f'{name}.lst'
        source.write_text(scalars + '\n'.join(rows_of) + '\n', encoding='ascii')
        image = image_of(source, room)
        answered(image)
        for words in [], ['--against', 'good.img'], ['--html']:
            if len(dumped(image, *words)[1]) > 2000000:
                fail(f'{name}: more than 2,000,000 characters')
        for wrong in Page(dumped(image, '--html')[1]).wrong:
            fail(f'{name}: a page with {wrong}')
    return len(lines)


def main():
    with tempfile.TemporaryDirectory() as name:
        room = pathlib.Path(name)
        outputs = stored(room)
        statements(room)
        notes(room)
        never(room)
        several(room)
        wrong_commands(room)
        help_text(room)
        file_names(room)
        known = vectors(room)
        refused = damaged(room, known)
        tried = hostile(room)
    print(f'dump: {outputs} stored outputs; {len(known)} images of vectors/; {DAMAGED} damaged, of these {refused} '
          f'refused; {tried} hostile; {len(FAILURES)} failures')
    return 1 if FAILURES else 0


if __name__ == '__main__':
    sys.exit(main())
