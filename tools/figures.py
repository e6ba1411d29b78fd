#!/usr/bin/env python3
"""Writes docs/FIGURES.md: the size of the tree by crate, read off the tree. With --check nothing is written, and the status is 1 if the file is not what would be
written, or if a contract has more than six lines, or one of more than 140 characters."""
import glob
import os
import re
import sys

ROOT = os.path.dirname(os.path.dirname(os.path.abspath(__file__)))
FILE = 'docs/FIGURES.md'
CONTRACT_LINES, CONTRACT_WIDTH = 6, 140


def read(file):
    with open(file, encoding='utf-8') as text:
        return text.read()


def size(files):
    """Lines that are no comment and not blank."""
    return sum(1 for file in files for line in read(file).split('\n') if not re.match(r'\s*(?:--|//|$)', line))


def crates():
    """The crates in the order of crates.txt."""
    return re.findall(r'^(\w+)[^:#\n]*:', read('crates.txt'), re.M)


def functions(source):
    """Name, number of parameters, lines of contract, the longest of these, and lines of body of each function of a file."""
    code = re.sub(r'//.*', '', source)
    # a trait's functions have no body
    code = re.sub(r'^(?:pub )?trait .*?^\}', lambda trait: re.sub(r'(\n    fn .*?);\n', r'\1\n    {\n    }\n', trait.group(0), flags=re.S), code, flags=re.M | re.S)
    for found in re.finditer(r'^( *)(?:pub )?(?:extern "C" )?fn (\w+)(.*?)^ *\{', code, re.M | re.S):
        # past the type parameters
        head = re.sub(r'^<(?:[^<>]|<[^<>]*>)*>', '', found.group(3))
        body = code[found.end():].split(f'\n{found.group(1)}}}', 1)[0]
        depth, inside, at = 0, '', 0
        for at, letter in enumerate(head):
            depth += {'(': 1, ')': -1}.get(letter, 0)
            if depth == 0:
                break
            inside += letter
        parameters = len([part for part in inside[1:].split(',') if part.strip()])
        rest = head[at:].split('\n')
        # a function without a contract opens its body on the line that ends its head
        clauses = [] if rest[0].rstrip().endswith('{') else [line for line in rest[1:] if line.strip()]
        lines = sum(1 for line in body.split('\n') if line.strip())
        yield found.group(2), parameters, len(clauses), max([0, *map(len, clauses)]), lines


def table():
    rows, sums = [], [0] * 5
    for crate in crates():
        here = f'crates/{crate}/'
        row = [
            size(glob.glob(here + 'src/*.rt')),
            size(glob.glob(here + 'specs/*.antt')),
            size(glob.glob(here + 'proofs/**/*.antt', recursive=True)),
            len(glob.glob(here + 'must-fail/*.edit')),
            len(glob.glob(here + 'tried/*.edit')),
        ]
        sums = [a + b for a, b in zip(sums, row)]
        rows.append((crate, row))
    yield '| Crate | Code | Specs | Proofs | Must-fail | Tried |'
    yield '|---|---|---|---|---|---|'
    for crate, row in [*rows, ('**together**', sums)]:
        yield '| ' + ' | '.join([crate, *(f'{number:,}' if number else '' for number in row)]) + ' |'


def every_function():
    """Path, number of parameters, lines of contract, the longest of these, and lines of body of each function of the tree."""
    for crate in crates():
        for file in sorted(glob.glob(f'crates/{crate}/src/*.rt')):
            for name, *numbers in functions(read(file)):
                yield f'`{crate}::{name}`', *numbers


def long_contracts():
    """Contracts of more lines, or of longer lines, than a reader likes."""
    return [name for name, _, clauses, longest, _ in every_function() if clauses > CONTRACT_LINES or longest > CONTRACT_WIDTH]


def shapes():
    """Functions and lines that are longer than a reader likes."""
    all_functions = list(every_function())
    wide = [f'{name} {parameters}' for name, parameters, *_ in all_functions if parameters > 12]
    high = [f'{name} {body}' for name, *_, body in all_functions if body > 40]
    lines, tall = max((clauses, name) for name, _, clauses, *_ in all_functions)
    width, broad = max((longest, name) for name, _, _, longest, _ in all_functions)
    proofs = [line for file in glob.glob('crates/*/proofs/**/*.antt', recursive=True) for line in read(file).split('\n')]
    every = [line for part in ('src/**/*.rt', 'specs/**/*.antt', 'proofs/**/*.antt') for file in glob.glob('crates/*/' + part, recursive=True)
             for line in read(file).split('\n')]
    yield f'- Functions of more than 12 parameters: {len(wide)}' + (': ' + ', '.join(wide) if wide else '') + '.'
    yield f'- Functions of more than 40 lines: {len(high)}' + (': ' + ', '.join(high) if high else '') + '.'
    yield f'- Longest contract: {lines} lines, in {tall}; longest line of one: {width} characters, in {broad}.'
    yield f'- `.before` in proofs: {sum(line.count(".before") for line in proofs):,}; lines with more than two outside of a named place: ' \
        f'{sum(1 for line in proofs if not re.match(r" *let ", line) and re.search(r"(?:[.]before ?){3,}", line)):,}.'
    yield f'- Lines of more than 140 characters in .rt and .antt: {sum(len(line) > 140 for line in every):,}; the longest has {max(map(len, every)):,}.'


def filled(line, width=160):
    """A line of prose, broken at the width."""
    out = ['']
    for word in line.split(' '):
        if out[-1] and len(out[-1]) + 1 + len(word) > width:
            out.append(' ')
        out[-1] += (' ' if out[-1] and out[-1] != ' ' else '') + word if out[-1] != ' ' else ' ' + word
    return out


def page():
    lines = ['# Figures', '', 'The size of the tree, written by `tools/figures.py` and checked in the gate. Lines without comments and blank lines.', '']
    lines += [*table(), '']
    for line in shapes():
        lines += filled(line)
    return '\n'.join(lines) + '\n'


def main():
    os.chdir(ROOT)
    text = page()
    if '--check' in sys.argv[1:]:
        if not os.path.exists(FILE) or read(FILE) != text:
            print(f'figures: {FILE} is not that of the tree; tools/figures.py writes it')
            return 1
        long = long_contracts()
        if long:
            print(f'figures: a contract of more than {CONTRACT_LINES} lines of {CONTRACT_WIDTH} characters: ' + ', '.join(long))
            return 1
        print(f'figures: {FILE} is that of the tree; no contract has more than {CONTRACT_LINES} lines of {CONTRACT_WIDTH} characters')
        return 0
    with open(FILE, 'w', encoding='utf-8') as out:
        out.write(text)
    return 0


sys.exit(main())
