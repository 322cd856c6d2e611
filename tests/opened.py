#!/usr/bin/env python3
"""Prints where a proof opens a definition of a lower crate: opened.py

A line `unfolding` of crates/CRATE/proofs/ opens what it names, and goes on in lines that stand further in. A name is a
lower crate's where `use Rattle.LOWER.specs.MODULE.{..}`, or `.proofs.`, brings it, perhaps `as` another one. A line
`#[tactic(.. unfolding(..))]` above a function in crates/CRATE/src/ opens too, and names as LOWER::specs::MODULE::NAME.
An opener is a definition of type Unit that is there for its `unfolding` line: whoever unfolds it opens the whole line.

A printed line has the crate, what it opens, and the modules of proofs/ that do, or the functions. tests/documents.py holds the table of
docs/PROOFS.md to the same list."""
import collections
import pathlib
import re

CRATES = pathlib.Path(__file__).resolve().parent.parent / 'crates'
ORDER = re.findall(r'^(\w+)(?: staticlib)?:', (CRATES.parent / 'crates.txt').read_text(encoding='utf-8'), re.MULTILINE)
USE = re.compile(r'^use Rattle\.(\w+)\.(?:specs|proofs)\.([\w.]+)\.\{([^}]*)\}', re.MULTILINE)
UNFOLDING = re.compile(r'^(.*)\n( *)unfolding (.*(?:\n\2 +.*)*)', re.MULTILINE)
TACTIC = re.compile(r'#\[tactic\((.*?)\)\]\s*(?:#\[[^\n]*\]\s*)*(?:pub )?fn (\w+)', re.DOTALL)
PATH = re.compile(r'\b(\w+)::(?:specs|proofs)::((?:\w+::)*\w+)::(\w+)')
OPENER = re.compile(r'unfoldable pub \S+ : Unit\b')
OF_A_FUNCTION = ('Invariants', 'Answers', 'Proof')  # the files of proofs/FUNCTION/
WORDS = 'prelude'  # the words that definitions are written in, which nearly every crate opens; not in the table

Opening = collections.namedtuple('Opening', 'lower source name by_opener')


def lower_names(text, crate):
    """What the names that a module of the crate has from lower ones stand for: crate, module and definition."""
    found = {}
    for lower, source, items in USE.findall(text):
        if lower not in ORDER or lower == crate:
            continue
        for item in re.split(r',\s*', items):
            name, _, other = item.partition(' as ')
            found[other or name] = (lower, source, name)
    return found


def openings(text, crate):
    """What a module of the crate's proofs/ opens of lower crates."""
    lower = lower_names(text, crate)
    return {Opening(*lower[name], bool(OPENER.match(signature))) for signature, _, names in UNFOLDING.findall(text)
            for name in names.split() if name in lower}


def openings_of_code(text):
    """What the lines `#[tactic(..)]` of a source open of lower crates, each with its function."""
    for words, function in TACTIC.findall(text):
        _, _, names = words.partition('unfolding(')
        for lower, source, name in PATH.findall(names.partition(')')[0]):
            if lower in ORDER:
                yield Opening(lower, source.replace('::', '.'), name, False), function


def opened(crate):
    """What a crate opens of lower ones, lowest first, each with the modules that do."""
    found, proofs = collections.defaultdict(list), CRATES / crate / 'proofs'
    for path in sorted(proofs.rglob('*.antt')):
        module = path.relative_to(proofs).with_suffix('')
        module = module.parent if module.name in OF_A_FUNCTION else module
        for opening in openings(path.read_text(encoding='utf-8'), crate):
            if str(module) not in found[opening]:
                found[opening].append(str(module))
    for path in sorted((CRATES / crate / 'src').rglob('*.rt')):
        for opening, function in openings_of_code(path.read_text(encoding='utf-8')):
            found[opening].append(f'{function} (tactic)')
    return {key: found[key] for key in sorted(found, key=lambda key: (ORDER.index(key.lower), key.name, key))}


def quoted(names):
    return ', '.join(f'`{name}`' for name in dict.fromkeys(names))


def row(crate):
    """A crate's row of the table, or None: lower crates and definitions; of what openers open, the crates alone."""
    found = {opening: modules for opening, modules in opened(crate).items() if opening.lower != WORDS}
    plain, cases = [o for o in found if not o.by_opener], [o for o in found if o.by_opener]
    parts = [f'`{lower}`: {quoted(o.name for o in plain if o.lower == lower)}'
             for lower in dict.fromkeys(o.lower for o in plain)]
    if cases:
        openers = sorted({module for o in cases for module in found[o]})
        parts.append(f'and for computed cases, by {quoted(openers)}, of {quoted(o.lower for o in cases)}')
    return f'| `{crate}` | {"; ".join(parts)} |' if parts else None


def table():
    return ['| crate | opens |', '|---|---|', *filter(None, map(row, ORDER))]


if __name__ == '__main__':
    for crate in ORDER:
        for opening, modules in opened(crate).items():
            print(f'{crate}: {opening.lower}/{opening.source}: {opening.name}, in {", ".join(modules)}')
