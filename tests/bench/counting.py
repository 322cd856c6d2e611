"""Instructions of one call, counted by valgrind: what run-check and run-continue share."""
import pathlib
import re
import shutil
import subprocess
import sys

TOP = pathlib.Path(__file__).resolve().parents[2]
OUT = TOP / 'target/bench'


def missing():
    """A tool that is not here, if there is one."""
    return next((tool for tool in ('gcc', 'valgrind') if not shutil.which(tool)), None)


def build(name):
    """The program that NAME.c makes with the library."""
    library = subprocess.run(['bash', 'tools/library'], cwd=TOP, stdout=subprocess.PIPE, text=True, check=True)
    OUT.mkdir(parents=True, exist_ok=True)
    subprocess.run(['gcc', '-std=c11', '-O2', '-g', '-Wall', '-Wextra', '-Werror', '-I', 'include', '-I', 'examples',
                    '-I', 'tests/bench', '-o', OUT / name, f'tests/bench/{name}.c', library.stdout.strip()], cwd=TOP,
                   check=True)
    return OUT / name


def counted(*words):
    """The instructions of the program's function `measured`, and what the program says."""
    valgrind = ['valgrind', '--tool=callgrind', '--toggle-collect=measured', '--callgrind-out-file=/dev/null']
    done = subprocess.run([*valgrind, *words], cwd=TOP, capture_output=True, text=True, check=False)
    number = re.search(r'Collected : (\d+)', done.stderr)
    if done.returncode or not number:
        sys.exit(f'{" ".join(map(str, words))}: {done.stderr[-500:]}')
    return int(number[1]), done.stdout.split()
