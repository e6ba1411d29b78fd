#!/usr/bin/env python3
"""Checks that every wrong program can be made: of each edit in crates/*/must-fail and crates/*/tried the file stands in its crate, and what it
replaces stands there once, after the replacements before it. `rt ci` tells so of the former only when it tries them, counts them as bad and
passes, and the latter are not part of the gate. Nothing else stands in must-fail but files to be read (.md), since it would be tried by none.
What is wrong is told with its line, and the status is 1."""
import glob
import os
import re
import sys

ROOT = os.path.dirname(os.path.dirname(os.path.abspath(__file__)))


def faults(edit):
    """Number and fault of each line of an edit that cannot be made, as `rt ci` reads it."""
    crate = os.path.dirname(os.path.dirname(edit))
    texts, file, old, made = {}, None, '', 0
    with open(edit, encoding='utf-8') as lines:
        for number, line in enumerate(lines.read().split('\n'), 1):
            if line.startswith('file: '):
                inside = line[len('file: '):].strip()
                if os.path.normpath(inside) != inside or not inside.startswith(('src/', 'specs/', 'proofs/')):
                    yield number, 'no file below src/, specs/ or proofs/'
                file = os.path.join(crate, inside)
                if file not in texts:
                    texts[file] = None
                    if os.path.isfile(file):
                        with open(file, encoding='utf-8') as text:
                            texts[file] = text.read()
                    else:
                        yield number, 'no such file'
            elif line.startswith('old: '):
                old = line[len('old: '):]
                times = (texts.get(file) or '').count(old)
                if times != 1:
                    yield number, f'stands {times} times: {old}'
            elif line.startswith('new:'):
                new = line[len('new:'):].removeprefix(' ')
                made += 1
                if old == new:
                    yield number, 'changes nothing'
                elif texts.get(file):
                    texts[file] = texts[file].replace(old, new)
    if not made:
        yield 1, 'replaces nothing'


# what `rt ci` takes for an edit, right in must-fail
NAMED = re.compile(r'[A-Za-z0-9_-][A-Za-z0-9_.-]*\.edit')


def strays():
    """Files of must-fail that are no edits."""
    for file in sorted(glob.glob('crates/*/must-fail/**', recursive=True)):
        right = os.path.dirname(file).endswith('/must-fail') and NAMED.fullmatch(os.path.basename(file))
        if os.path.isfile(file) and not right and not file.endswith('.md'):
            yield file, 1, 'no edit by its name or place'


def main():
    os.chdir(ROOT)
    edits = sorted(glob.glob('crates/*/must-fail/*.edit') + glob.glob('crates/*/tried/*.edit'))
    found = [*strays(), *((edit, number, fault) for edit in edits for number, fault in faults(edit))]
    for edit, number, fault in found:
        print(f'{edit}:{number}: {fault}')
    print(f'edits: {len(edits)} wrong programs, {len(found)} lines that cannot be replaced')
    return 1 if found else 0


if __name__ == '__main__':
    sys.exit(main())
