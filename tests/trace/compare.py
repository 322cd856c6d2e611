#!/usr/bin/env python3
"""Compares what doortrace prints with the outputs in this folder and with the answers of vectors/: see run.

compare.py --print 'doortrace ...' prints a command as the outputs have it, for reading."""
import os
import pathlib
import random
import re
import shlex
import shutil
import struct
import subprocess
import sys
import tempfile
import time

TOP = pathlib.Path(__file__).resolve().parent.parent.parent
HERE, VECTORS, BUILT = TOP / 'tests/trace', TOP / 'vectors', TOP / 'target/trace'
LISTING, DOORTRACE = TOP / 'target/release/listing', TOP / 'target/release/doortrace'
DIFFERENTIAL = TOP / 'target/release/differential'
TAKEN = 29714  # the bytes that doorrun takes, which the answers of expect.txt are about
SLICED = 300  # the steps of a stored run that are taken one by one
RANDOM, SEED = 400, 7
STATUS = {'0': 5, '1': 0, '2': 4}  # of each outcome
FAILURES = []


def fail(what):
    FAILURES.append(what)
    print(f'trace: FAILED: {what}')


def traced(words, folder=TOP):
    """Exit status, standard output and standard error of doortrace with these words."""
    done = subprocess.run([DOORTRACE, *words], cwd=folder, capture_output=True, timeout=60, check=False)
    return done.returncode, done.stdout.decode('ascii'), done.stderr.decode('ascii')


def printed(command):
    """A command as an output has it: the command, what it prints, and its exit status."""
    status, text, wrong = traced(shlex.split(command)[1:])
    return f'$ {command}\n{text}{wrong}exit status {status}\n'


def assembled():
    """The images of this folder's listings and of a refused one."""
    BUILT.mkdir(parents=True, exist_ok=True)
    for listing in [*HERE.glob('*.lst'), TOP / 'tests/dump/10-index.lst']:
        subprocess.run([LISTING, 'assemble', listing, BUILT / (listing.stem + '.img')], check=True)


def stored():
    """The outputs in this folder; how many."""
    outputs = sorted(HERE.glob('*.txt'))
    for output in outputs:
        expected = output.read_text(encoding='ascii')
        command = expected.splitlines()[0].removeprefix('$ ')
        if printed(command) != expected:
            fail(f'{output.name}: this is printed:\n{printed(command)}')
    return len(outputs)


def commands():
    """Words of the command, in any order."""
    smallest = 'vectors/special/smallest.img'
    needs = 'doortrace: %s needs a number of %d to %d, not \'%s\'\n'
    rows = "doortrace: --rows needs statement rows, as 7 or 3,7,10-12, not '%s'\n"
    inputs = "doortrace: an input is a number of -2147483648 to 2147483647, not '%s'\n"
    for words, status, said in [
            ('', 2, 'doortrace: no file is named\n'), ('-5', 2, 'doortrace: there is no option -5\n'),
            (f'--stpes 5 {smallest}', 2, 'doortrace: there is no option --stpes\n'),
            (f'{smallest} --steps', 2, needs % ('--steps', 0, 4294967295, '')),
            (f'{smallest} --steps=4294967296', 2, needs % ('--steps', 0, 4294967295, '4294967296')),
            (f'{smallest} --cells -1', 2, needs % ('--cells', 0, 16777216, '-1')),
            (f'{smallest} --places x', 2, needs % ('--places', 0, 16777216, 'x')),
            (f'{smallest} --from 0', 2, needs % ('--from', 1, 4294967295, '0')),
            (f'{smallest} --from 5 --to 4', 2, 'doortrace: step 5 comes after step 4\n'),
            (f'{smallest} --rows 3-1', 2, rows % '3-1'), (f'{smallest} --rows=1,', 2, rows % '1,'),
            (f'{smallest} --rows 1', 2, f'doortrace: {smallest} has statement rows 0 to 0, and no 1\n'),
            (f'{smallest} 2147483648', 2, inputs % '2147483648'), (f'{smallest} -x', 2, inputs % '-x'),
            (f'{smallest} {smallest}', 2, inputs % smallest),
            (f'{smallest} --summary=steps', 2, 'doortrace: there is no option --summary\n'),
            (f'{smallest} --input none', 2, 'doortrace: none: '),
            (f'{smallest} --names none', 2, 'doortrace: none: '), ('none.img', 2, 'doortrace: none.img: '),
            (f'{smallest} --names README.md', 2, 'doortrace: README.md:1'),
            ('-h', 0, ''), ('--help', 0, ''), (f'--steps 1 {smallest} -5 --cells=3 +4 --rows 0', 0, ''),
            (f'{smallest} --cells 2', 1, ''), (f'{smallest} --steps 0', 5, '')]:
        found, _, wrong = traced(words.split())
        if found != status or not wrong.startswith(said) or bool(said) != bool(wrong):
            fail(f'{words}: exit status {found}, {wrong!r}')


def surroundings(room):
    """A name of other bytes, inputs in a file, a reader that wants no more, and a late step, which is quick."""
    smallest = VECTORS / 'special/smallest.img'
    shutil.copy(smallest, os.fsencode(room) + b'/\xff.img')
    done = subprocess.run([DOORTRACE, b'\xff.img'], cwd=room, capture_output=True, check=False)
    if done.returncode != 0 or not done.stdout.startswith('\ufffd.img: lent 0 inputs'.encode()):
        fail(f'a name of other bytes: {done}')
    (room / 'inputs').write_text('1234\n\n  19800\t-7', encoding='ascii')
    members = str(VECTORS / 'input/members-1.img')
    if traced([members, '5', '--input', 'inputs'], room) != traced([members, '5', '1234', '19800', '-7'], room):
        fail('--input gives other inputs')
    reader, writer = os.pipe()
    os.close(reader)
    done = subprocess.run([DOORTRACE, members], stdout=writer, stderr=subprocess.PIPE, check=False)
    os.close(writer)
    if (done.returncode, done.stderr) != (0, b''):
        fail(f'a closed pipe: {done}')
    began = time.monotonic()
    endless = str(VECTORS / 'special/jump_to_itself.img')
    status, text, _ = traced([endless, '--steps', '20000000', '--from', '10000000', '--to', '10000001'])
    if status != 5 or '\n10000000     0     0  p0: GOTO 0\n10000001     0     0  p0: GOTO 0\n\n' not in text:
        fail(f'a late step: exit status {status}:\n{text[:500]}')
    if time.monotonic() - began > 10:
        fail('a late step takes more than 10 s')


class Globals:
    """Where the globals of an image lie, read from its bytes, and their cells as a trace says them."""

    def __init__(self, image):
        self.tables, at = [], 5
        for _ in range(6):
            count = int.from_bytes(image[at:at + 2], 'big')
            self.tables.append([struct.unpack('>BBHHH', image[k:k + 8]) for k in range(at + 2, at + 2 + 8 * count, 8)])
            at += 2 + 8 * count
        self.places, self.cells = [], []
        for kind, _, a, _, _ in self.tables[2]:
            if kind == 0:
                self.places.append((len(self.cells), a))
                self.cells += [0] * self.size(a)

    def fields(self, row):
        _, _, base, first, count = self.tables[0][row]
        own = [field[2] for field in self.tables[1][first:first + count]]
        return (self.fields(base - 1) if base else []) + own

    def size(self, row):
        kind, _, a, b, _ = self.tables[0][row]
        return 1 if kind < 3 else b * self.size(a) if kind == 3 else sum(map(self.size, self.fields(row)))

    def put(self, path, value):
        """Takes a line of the trace; those of parameters and locals have no place here."""
        variable, *parts = re.findall(r'\d+', path)
        if int(variable) >= len(self.places):
            return
        place, row = self.places[int(variable)]
        for part in map(int, parts):
            if self.tables[0][row][0] == 3:
                row = self.tables[0][row][2]
                place += part * self.size(row)
            else:
                fields = self.fields(row)
                place += sum(map(self.size, fields[:part]))
                row = fields[part]
        self.cells[place] = number_of(value)


def number_of(value):
    """The number of a cell with this value."""
    if value.startswith('{'):
        spans = [re.findall(r'\d+', part) for part in value.split(',')]
        return sum(1 << element for span in spans if span for element in range(int(span[0]), int(span[-1]) + 1))
    return {'FALSE': 0, 'TRUE': 1}[value] if value in ('FALSE', 'TRUE') else int(value)


def rebuilt(image, text, outputs, cells):
    """Whether the lines of a trace with all its steps come to the stored globals and outputs."""
    lines = [line.strip() for line in text.splitlines() if line.startswith(' ' * 24)]
    written = [line.split()[1].rstrip(',') for line in lines if line.startswith('writes ')]
    if written != outputs[:len(written)]:
        fail(f'{image}: writes {written}, and the stored outputs are {outputs}')
    found = Globals(image.read_bytes())
    for line in lines:
        if ' := ' in line and ' of ' not in line:
            found.put(*line.split(' := '))
    if [str(cell) for cell in found.cells] != cells[:len(found.cells)]:
        fail(f'{image}: the changes come to {found.cells}, and the stored cells are {cells}')


def answers():
    """For each image of vectors/: its file, doortrace's words, the nine numbers; outputs and cells where these are
    known."""
    for file in sorted(VECTORS.glob('*/expect.txt')):
        lines = file.read_text(encoding='ascii').splitlines()
        names = [k for k, line in enumerate(lines) if line.endswith('.img')] + [len(lines)]
        for k, after in zip(names, names[1:]):
            yield file.parent / lines[k], [], lines[k + 1].split(), lines[k + 2:after], None
    for file in sorted(VECTORS.glob('*/answers.txt')):
        for line in file.read_text(encoding='ascii').splitlines():
            name, *numbers = line.split()
            yield file.parent / name, [], numbers, None, None
    for file in sorted(VECTORS.glob('*/runs.txt')):
        for line in file.read_text(encoding='ascii').splitlines():
            if not line.startswith('#'):
                lent, inputs, numbers, outputs, cells = (part.split() for part in line.split('|'))
                name, lent_cells, _, places, steps = lent
                words = ['--cells', lent_cells, '--places', places, '--steps', steps, *inputs]
                yield file.parent / name, words, numbers, outputs, cells


def ends(text):
    """Outcome, trap, HALT number, row, steps, read and written, as the text has them; nothing where it has none."""
    for outcome, pattern in [
            ('0', r'^steps used up after (?P<steps>\d+) steps?; next is \w+ row (?P<row>\d+): '),
            ('1', r'^finished at \w+ row (?P<row>\d+), step (?P<steps>\d+)$'),
            ('2', r'^trap (?P<trap>\d+) at \w+ row (?P<row>\d+), step (?P<steps>\d+): (HALT\((?P<halt>-?\d+)\)$)?')]:
        found = re.search(pattern, text, re.M)
        counts = re.search(r'^(\d+) of \d+ inputs? read, (\d+) outputs? written, \d+ cells? needed$', text, re.M)
        if found and counts:
            numbers = found.groupdict()
            trap, halt = numbers.get('trap') or '0', numbers.get('halt') or '0'
            return [outcome, trap, halt, numbers['row'], numbers['steps'], *counts.groups()]
    return None


def is_whole(image, status, text, wrong):
    """Whether a trace of an accepted image is as it has to be, whatever it came to; its trap."""
    found = ends(text)
    if wrong or found is None or status != STATUS[found[0]]:
        fail(f'{image}: exit status {status}, {found}, {wrong!r}')
        return None
    if not text.endswith(' the same numbers, cells and outputs\n'):
        fail(f'{image}: the comparison with one run is missing')
    if (status == 4) != ('\n  because     ' in text):
        fail(f'{image}: a trap without its reason, or a reason without a trap')
    return found


def vectors(room):
    """Every image of vectors/ with what the answers are about; how many, and how many were rebuilt from their steps."""
    traps, seen, whole = set(), set(), 0
    for image, words, numbers, outputs, cells in answers():
        seen.add(image)
        name = image
        if not words and image.stat().st_size > TAKEN:
            name = room / image.name
            name.write_bytes(image.read_bytes()[:TAKEN])
        shown = ['--to', str(SLICED), '--changes', '4096']
        status, text, wrong = traced([*words[:6], *shown, name, *words[6:]])
        if numbers[0] != '0':
            row = rf', [a-z]+ row {numbers[1]}' if 4 <= int(numbers[0]) <= 11 else ''
            if status != 1 or not re.search(rf'\.img: refusal {numbers[0]}{row}: ', text):
                fail(f'{image}: exit status {status}, {text}')
            continue
        found = is_whole(image, status, text, wrong)
        if found and outputs is not None and found != numbers[2:]:
            fail(f'{image}: {found}, and the stored answer is {numbers[2:]}')
        if found and outputs is not None and found[6] != '0':
            shown = re.search(r'^output: (.*)$', text, re.M)[1].split(' and ')[0].split()
            if shown != outputs[:len(shown)]:
                fail(f'{image}: outputs {shown}, and the stored ones are {outputs}')
        traps.add(found and found[1])
        if found and cells and int(found[4]) <= SLICED:
            rebuilt(image, text, outputs, cells)
            whole += 1
    if seen != set(VECTORS.glob('*/*.img')):
        fail('vectors/ has images without an answer')
    if traps != {str(trap) for trap in range(11)}:
        fail(f'vectors/ comes to the traps {traps}')
    return len(seen), whole


def random_images(room):
    """Random images, with random inputs and little of all that is lent; how many, and how many of them trap."""
    subprocess.run([DIFFERENTIAL, 'write', room, str(RANDOM), str(SEED)], check=True, stdout=subprocess.DEVNULL)
    random.seed(SEED)
    images, trapped = sorted(room.glob(f'{SEED}-*.img')), 0
    for image in images:
        inputs = [str(random.choice([0, 1, 2, 3, 31, 32, -1, 2147483647, -2147483648])) for _ in range(6)]
        lent = ['--cells', random.choice(['8192', '400']), '--places', '5', '--steps', '300']
        status, text, wrong = traced([*lent, image, *inputs])
        if status == 1 and 'refusal 13: ' in text:
            continue
        is_whole(image, status, text, wrong)
        trapped += status == 4
    return len(images), trapped


def main():
    if sys.argv[1:2] == ['--print']:
        assembled()
        print(printed(sys.argv[2]), end='')
        return 0
    assembled()
    outputs = stored()
    commands()
    with tempfile.TemporaryDirectory() as name:
        room = pathlib.Path(name)
        surroundings(room)
        images, whole = vectors(room)
        made, trapped = random_images(room)
    print(f'trace: {outputs} stored outputs; {images} images of vectors/, {whole} of them rebuilt from their steps; '
          f'{made} random images, of these {trapped} trap; {len(FAILURES)} failures')
    return 1 if FAILURES else 0


if __name__ == '__main__':
    sys.exit(main())
