#!/usr/bin/env python3
"""The listings of examples/ as images with the answers of documents 01 and 02, and the listings of the benchmark.

report.py          write vectors/report/, vectors/input/, the images in tests/bench/programs/, and examples/latch.img
report.py --check  compare these with what would be written; exits 1 where one differs

The images are what `listing assemble` makes of the listings; tools/listing is built by cargo. Without cargo
nothing is compared, and a line says so.

The answers stand in the first comments of each listing. Outputs, traps and HALT numbers were found by hand from the
Oberon-2 report and documents 01 and 02; statement rows, steps and cells by an interpreter that is not kept here, which
was written from these documents and their readings, shares nothing with the crates, and gives the answers of all
accepted images of vectors/special, doorrun, in, division and runs. A listing of examples/ without inputs has the answer
of `doorrun`, in vectors/report/expect.txt:

    -- expect: the nine numbers
    -- output: the numbers written

One with inputs has, for each run of it, the answer of the run with its own store, in vectors/input/runs.txt. Run K of
NAME is that of NAME-K.img:

    -- run: cells, what each holds before, output places, steps
    -- input: the numbers to read
    -- expect: the nine numbers
    -- output: the numbers written
    -- cells: what each holds after the run, in one line or more

What the numbers must have by the documents alone, whatever the program, is asked here: so many outputs as are written,
no more read than there is, and so on.
"""
import pathlib
import re
import shutil
import subprocess
import sys
import tempfile

TOP = pathlib.Path(__file__).resolve().parent.parent
TOOL = TOP / 'target/release/listing'
KEYS = re.compile(r'-- (run|input|expect|output|cells):((?: -?[0-9]+)*)$')
UNWRITTEN = 7  # what each output place holds before a run
OUTPUTS, STEPS = 4096, 100000  # what doorrun lends
FIRST_LINE = '# image cells fill outputs steps | inputs | the nine numbers | every output place | every cell\n'


class Bad(Exception):
    """What is wrong with a listing."""


def built():
    """Whether the tool is there, after building it if it can be built."""
    if not shutil.which('cargo'):
        return False
    build = ['cargo', 'build', '--quiet', '--release', '--offline', '-p', 'listing']
    subprocess.run(build, cwd=TOP, check=True)
    return True


def assembled(listing, room):
    image = pathlib.Path(room) / 'image'
    done = subprocess.run([TOOL, 'assemble', listing, image], stderr=subprocess.PIPE, text=True, check=False)
    if done.returncode:
        raise Bad(done.stderr.strip())
    return image.read_bytes()


def answers(listing):
    """The runs in a listing's comments: for each a dictionary from `run`, `input` .. to its numbers."""
    runs = []
    for line in listing.read_text(encoding='utf-8').splitlines():
        found = KEYS.match(line)
        if not found:
            continue
        key, numbers = found[1], [int(word) for word in found[2].split()]
        if key == 'run' or not runs:
            runs.append({})
        if key in runs[-1] and key != 'cells':
            raise Bad(f'{listing.name}: {key} twice for one run')
        runs[-1][key] = runs[-1].get(key, []) + numbers
    return runs


def good(run):
    """Whether the numbers can be an answer at all."""
    expect, output = run.get('expect', []), run.get('output')
    if len(expect) != 9 or output is None:
        return False
    refusal, row, outcome, trap, number, _, steps, read, written = expect
    cells, _, places, most = run.get('run', [0, 0, OUTPUTS, STEPS])
    return (refusal == row == 0 and outcome in (0, 1, 2) and (outcome == 2) == (1 <= trap <= 10)
            and (number == 0 or trap == 10) and len(output) == written <= places and read <= len(run.get('input', []))
            and steps <= most and (outcome != 0 or steps == most) and ('cells' in run) == ('run' in run)
            and len(run.get('cells', [])) == cells)


def words(numbers):
    return ' '.join(str(number) for number in numbers)


def files():
    """What is to be there: for each folder the bytes of each file."""
    report, inputs, programs = {}, {}, {}
    expect, lines = '', FIRST_LINE
    with tempfile.TemporaryDirectory() as room:
        for listing in sorted((TOP / 'examples').glob('*/*.lst'), key=lambda path: path.name):
            image, runs = assembled(listing, room), answers(listing)
            if not runs or not all(good(run) for run in runs):
                raise Bad(f'{listing.name}: the answers in its comments are not complete or contradict each other')
            if 'run' not in runs[0]:
                report[f'{listing.stem}.img'] = image
                expect += f'{listing.stem}.img\n{words(runs[0]["expect"])}\n'
                expect += ''.join(f'{number}\n' for number in runs[0]['output'])
                continue
            for k, run in enumerate(runs, 1):
                inputs[f'{listing.stem}-{k}.img'] = image
                places = run['output'] + [UNWRITTEN] * (run['run'][2] - len(run['output']))
                parts = [f'{listing.stem}-{k}.img {words(run["run"])}', words(run.get('input', [])),
                         words(run['expect']), words(places), words(run['cells'])]
                lines += ' | '.join(parts) + '\n'
        for listing in sorted((TOP / 'tests/bench/programs').glob('*.lst')):
            programs[f'{listing.stem}.img'] = assembled(listing, room)
        examples = {'latch.img': assembled(TOP / 'examples/latch.lst', room)}
    report['expect.txt'], inputs['runs.txt'] = expect.encode('ascii'), lines.encode('ascii')
    return {'vectors/report': report, 'vectors/input': inputs, 'tests/bench/programs': programs, 'examples': examples}


def made(path):
    """Whether a file of these folders is made here: an image or answers, but not what tests/deep.py makes."""
    return path.suffix in ('.img', '.txt') and not path.name.startswith('deep-')


def main(arguments):
    if arguments not in ([], ['--check']):
        print('usage: report.py [--check]', file=sys.stderr)
        return 2
    if not built():
        print('report: skipped: there is no cargo')
        return 0 if arguments else 2
    try:
        wanted = files()
    except Bad as error:
        print(f'report: {error}')
        return 1
    images = differences = 0
    for name, there in wanted.items():
        folder = TOP / name
        if not arguments:
            folder.mkdir(exist_ok=True)
            for file, data in there.items():
                (folder / file).write_bytes(data)
        paths = [path for path in folder.iterdir() if made(path)] if folder.is_dir() else []
        found = {path.name: path.read_bytes() for path in paths}
        for file in sorted(there.keys() | found.keys()):
            if there.get(file) != found.get(file):
                print(f'report: {name}/{file} is not what the listings give; run tests/report.py')
                differences += 1
        images += sum(file.endswith('.img') for file in there)
    print(f'report: {images} images; {differences} differences')
    return 1 if differences else 0


if __name__ == '__main__':
    sys.exit(main(sys.argv[1:]))
