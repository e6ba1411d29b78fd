#!/usr/bin/env python3
"""Counts, in crates/*/src and in the proofs, the places of docs/DESIGN-PASS.md, and lists them with --list. It judges none: what stays is in that page, with its reason.

  1  enums of their own, fields that are a flag, tests of a kind or of a refusal by its number
  2  functions that are one text but for names, types and numbers (with a branch, or three lines of body or more)
  3  `while` loops, and those of them that count a variable up or down by one
  4  functions that only cast or unwrap a number, and comparisons of the numbers within two values
  5  functions of eight parameters or more, and clauses of a `requires` that three functions or more share
  6  arrays that a function makes, and fields that are a length or an index
  7  `match` on a call or a kind that is asked, and chains of tests of one word
  8  answers in the proofs, and files of them"""
import collections
import glob
import os
import re
import sys

sys.path.insert(0, os.path.dirname(os.path.abspath(__file__)))
import forms  # noqa: E402

KEYWORDS = set('as break const continue else false fn for if impl in let loop match mut pub return self true while use struct enum'.split())


def bodies():
    """Crate, name, clauses and body of each function."""
    for file in sorted(glob.glob('crates/*/src/*.rt')):
        code = re.sub(r'//.*', '', forms.read(file))
        for found in re.finditer(r'^ *(?:pub )?(?:extern "C" )?fn (\w+)\b', code, re.M):
            end = forms.closing(code, forms.parameters_at(code, found.end()))
            opens = forms.body_at(code, end + 1)
            yield file.split('/')[1], found.group(1), code[end + 1:opens], code[opens + 1:forms.closing(code, opens)]


def shape(body):
    """A body with its names and numbers numbered in the order in which they come."""
    names = {}

    def number(found):
        word = found.group(0)
        return word if word in KEYWORDS else names.setdefault(word, f'x{len(names)}')
    return re.sub(r'\b\w+\b', number, re.sub(r'\s+', ' ', body)).strip()


def loops():
    """Crate, test and counted variable of each `while`."""
    for crate, name, _, body in bodies():
        for found in re.finditer(r'\bwhile ([^{]*)\{', body):
            inner = body[found.end():forms.closing(body, found.end() - 1)]
            tested = set(re.findall(r'\b[a-z]\w*\b', found.group(1)))
            counted = sorted(v for v in tested if re.search(rf'\b{v} [+-]= 1;|\b{v} = next;', inner))
            yield f'{crate}::{name}: while {found.group(1).strip()}', counted


def lines_of(pattern, skip=None):
    for file in sorted(glob.glob('crates/*/src/*.rt')):
        for number, line in enumerate(forms.read(file).split('\n'), 1):
            code = re.sub(r'//.*', '', line)
            if re.search(pattern, code) and not (skip and re.search(skip, code)):
                yield f'{file}:{number}: {code.strip()}'


def points():
    whole = list(bodies())
    yield '1 enums', list(lines_of(r'^\s*(?:pub )?enum '))
    yield '1 flags', list(lines_of(r'^\s+(?:pub )?\w+: bool,$'))
    yield '1 numbers', list(lines_of(r'\b(?:kind|number|question)\b(?:\.question)? [!=]= '))
    shapes = collections.defaultdict(list)
    for crate, name, _, body in whole:
        if body.strip().count('\n') >= 2 or re.search(r'\b(?:if|while|for|match)\b', body):
            shapes[shape(body)].append(f'{crate}::{name}')
    yield '2 twins', [', '.join(names) for names in shapes.values() if len(names) > 1]
    every = list(loops())
    yield '3 while', [told for told, _ in every]
    yield '3 counted', [f'{told} ({", ".join(counted)})' for told, counted in every if counted]
    yield '4 casts', [f'{crate}::{name}: {body.strip()}' for crate, name, _, body in whole
                      if re.fullmatch(r'\s*(?:\w+ as \w+|[\w.]+\.0|\w+\(\w+\)|\w+\(\w+ as \w+\))\s*', body)]
    yield '4 compared', list(lines_of(r'\w\.0 (?:[!=<>]=|<|>) \w+\.0\b'))
    yield '5 parameters', [f'{forms.path(f)}: {len(f.parameters)}' for f in forms.every() if len(f.parameters) >= 8]
    asked = collections.defaultdict(set)
    for crate, name, told, _ in whole:
        for at in re.finditer(r'\brequires(?: \w+)? \{', told):
            for fact in re.split(r' × ', re.sub(r'\s+', ' ', told[at.end():forms.closing(told, at.end() - 1)])):
                asked[re.sub(r'\.(?:now|old)\b', '', fact).strip(' ()')].add(f'{crate}::{name}')
    yield '5 facts', [f'{fact}: {", ".join(sorted(names))}' for fact, names in sorted(asked.items()) if len(names) >= 3]
    yield '6 arrays', list(lines_of(r'= \[[^\]]*; '))
    yield '6 lengths', list(lines_of(r'^    (?:pub )?(?:at|end|kept|length|count|said): (?:u32|usize),$'))
    yield '7 switches', list(lines_of(r'\bmatch (?:call|asked|kind|c)\b|\bif kind == '))
    answers = glob.glob('crates/*/proofs/**/Answers.antt', recursive=True)
    yield '8 answers', [f'{file}: {name}' for file in sorted(answers) for name in re.findall(r'^pub ([^\s:]+) :', forms.read(file), re.M)]
    yield '8 files', sorted(answers)


def main():
    os.chdir(forms.ROOT)
    for point, places in points():
        print(f'{point}: {len(places)}')
        if '--list' in sys.argv[1:]:
            print(*(f'  {place}' for place in places), sep='\n')


if __name__ == '__main__':
    main()
