#!/usr/bin/env python3
"""Holds what makes the code and the proofs readable. The status is 1, with a line for each place, where one of these is broken:

  width     a line of a .rt or .antt file has more than 140 characters
  places    two `.before` stand in a row: a step is named after the source, and nothing is counted. In the
            crates that still count (COUNTED), more than two, where no place is named by `let PLACE = .. in` or an accessor, `place c = ..`
  parts     more than two numbered parts in a row (`.1.1.0`): a fact is taken by its name
  blanks    more than three `_` in a row: what can be inferred is an implicit argument
  opening   a file of proofs or specs does not begin with a comment that says in a sentence what it is for (a Lib.antt that only lists
            modules needs none; of a function's Invariants.antt and Answers.antt one has it)

With --count the broken places are counted by rule, and the status is 0."""
import glob
import os
import re
import sys

ROOT = os.path.dirname(os.path.dirname(os.path.abspath(__file__)))
WIDTH, CHAIN, PARTS, BLANKS = 140, 1, 2, 3
# the crates whose proofs still count places, and how far they may where none is named
COUNTED = re.compile(r'crates/(search_junctions|search_labels|unit_(answers|c|script|switch_on)|program_shell)/')
COUNTED_CHAIN = 2

END = r'(?![^\s)\]},;])'
# a projection is written tight, so another may follow at once
PART_END = r'(?![^\s)\]},;.])'
BEFORE = r'(?:\.before' + PART_END + r'\s*){%d,}'
CHAINS, COUNTED_CHAINS = re.compile(BEFORE % (CHAIN + 1)), re.compile(BEFORE % (COUNTED_CHAIN + 1))
# what stands before the chain where a place is named, and what after it
OWNER = r'(?:[^\s()=]+|\([^\s()=]+ [^\s()=]+\))$'
LET = re.compile(r'\blet [^\s=]+ = ' + OWNER)
ACCESSOR = re.compile(r'^[^\s=]+ [^\s=]+ =\s+' + OWNER)
NUMBERED = re.compile(r'(?:\.\d+' + PART_END + r'\s*){%d,}' % (PARTS + 1))
BLANK = re.compile(r'(?<![^\s(])(?:_' + END + r'\s*){%d,}' % (BLANKS + 1))


def line_of(text, at):
    return text.count('\n', 0, at) + 1


def named(text, found):
    """Is the chain the way to a place that is given a name here?"""
    # the definition in which the chain stands
    begin = max(text.rfind('\n\n', 0, found.start()) + 2, 0)
    before, after = text[begin:found.start()], text[found.end():]
    # a definition may be broken behind its `=`
    own_line = re.sub(r'=\n\s+', '= ', before).split('\n')[-1]
    if LET.search(before):
        return re.match(r'in\b', after) is not None
    if ACCESSOR.match(own_line):
        return after == '' or after[0] == '\n' or text[found.start():found.end()].endswith('\n')
    return False


def breaches(file):
    """Rule and line of each breach in a file."""
    with open(file, encoding='utf-8') as source:
        text = source.read()
    for number, line in enumerate(text.split('\n'), 1):
        if len(line) > WIDTH:
            yield 'width', number
    if file.endswith('.rt'):
        return
    # comments speak of places too
    text = re.sub(r'--[^\n]*', '', text)
    counted = COUNTED.match(file)
    for found in (COUNTED_CHAINS if counted else CHAINS).finditer(text):
        if not (counted and named(text, found)):
            yield 'places', line_of(text, found.start())
    for rule, shape in ('parts', NUMBERED), ('blanks', BLANK):
        for found in shape.finditer(text):
            yield rule, line_of(text, found.start())


def sources():
    """The files of src, specs and proofs, and none of what rt keeps in out/."""
    found = [file for part in ('src/**/*.rt', 'specs/**/*.antt', 'proofs/**/*.antt') for file in glob.glob('crates/*/' + part, recursive=True)]
    return sorted(found)


# the two files of what a function's proof is written in
BESIDE = {'Invariants.antt': 'Answers.antt', 'Answers.antt': 'Invariants.antt'}


def opening(file):
    """Does the file begin with a sentence, if it needs one?"""
    folder, name = os.path.split(file)
    beside = os.path.join(folder, BESIDE.get(name, ''))
    return begins_with_a_sentence(file) or (name in BESIDE and os.path.isfile(beside) and begins_with_a_sentence(beside))


def begins_with_a_sentence(file):
    with open(file, encoding='utf-8') as source:
        lines = source.read().split('\n')
    if os.path.basename(file) == 'Lib.antt' and all(re.match(r'(?:pub )?(?:mod|use) |$', line) for line in lines):
        return True
    comment = []
    for line in lines:
        if not line.startswith('--'):
            break
        comment.append(line[2:].strip())
    words = ' '.join(comment)
    return len(words.split()) >= 5 and words.endswith(('.', ':'))


def main(argv):
    os.chdir(ROOT)
    counts, broken = {}, 0
    for file in sources():
        found = list(breaches(file))
        if file.endswith('.antt') and not opening(file):
            found.append(('opening', 1))
        for rule, line in found:
            broken += 1
            counts[rule] = counts.get(rule, 0) + 1
            if '--count' not in argv:
                print(f'{file}:{line}: {rule}')
    if '--count' in argv:
        print(', '.join(f'{rule} {counts[rule]}' for rule in sorted(counts)) or 'none')
        return 0
    return 1 if broken else 0


if __name__ == '__main__':
    sys.exit(main(sys.argv[1:]))
