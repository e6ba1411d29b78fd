#!/usr/bin/env python3
"""Holds that no mark of 32 bits is left as a time (document 02, A7: none and closed are 18,446,744,073,709,551,615, unasked one below). The status
is 1, with a line for each place, where one of these stands in code, specs, proofs, wrong programs, tests, tools or documents (the runs in
data/ are made by tools/scenarios.py):

  literal   the largest number of 32 bits or the one below it, in digits, with or without separators, in hexadecimal, as a power or shift less
            one, or as all ones of that width
  largest   the largest number of 32 bits by a name (u32::MAX, UINT32_MAX) in a line that speaks of none, closed or unasked

The lines that may have one are listed below with what it is there; one of these that stands nowhere breaks the rule too. docs/LANDINGS.md and
docs/DECISIONS.md tell what was, and are not looked at."""
import glob
import os
import re
import sys

ROOT = os.path.dirname(os.path.dirname(os.path.abspath(__file__)))
PLACES = ['crates/*/src/**', 'crates/*/specs/**', 'crates/*/proofs/**', 'crates/*/must-fail/*', 'crates/*/tried/*', 'crates/*/std*',
          'c/**', 'rust/src/**', 'rust/tests/**', 'rust/*', 'tools/*', 'examples/**', 'docs/*.md', 'README.md',
          'try', '.ci/*']
HISTORY = ['docs/LANDINGS.md', 'docs/DECISIONS.md', 'tools/marks.py']

# by file, the lines, or what is peculiar to them
ALLOWED = {
    # the largest word of a card, as a junction, a time or a number of sections that no card has
    'crates/model_cases/specs/Notation.antt': ['largest = 4294967295'],
    # a junction or a road that is out of range, which stands for every larger number of a line
    'crates/line_console/specs/Lines.antt': ['out_of_range = 4294967295'],
    # lines with such numbers: a time that 11 refuses, and junctions
    'crates/line_console/specs/Examples.antt': ['line = "set 0 4294967295"; says = Some (Set 0 (record { 0 = 4294967295 }))', 'line = "aim 4294967294"; says',
                                                'line = "aim 4294967295"; says', 'line = "set 0 4294967295"; refused = some NotAllowed'],
    # document 01 word for word
    'docs/SENTENCES.md': ['- "The mark none, 4,294,967,295, is written where no such chain exists."', '  4,294,967,294."', 'closed is 4,294,967,295."'],
    # the two words of each mark in a script
    'rust/src/time.rs': ['(UNASKED, [u32::MAX - 1, u32::MAX]),', '(CLOSED, [u32::MAX; 2]),', '((1 << 32) - 1, [u32::MAX, 0]),'],
    # times that 11 refuses
    'rust/tests/calls.rs': ['random.pick(&[(1 << 32) - 1, (1 << 32) + base, CLOSED', '((1 << 32) - 2, false),', '((1 << 32) - 1, false),'],
    'rust/tests/preview.rs': ['1 << 31, (1 << 32) - 1, (1 << 32) + base'],
    'rust/tests/stops.rs': ['UNASKED, (1 << 32) - 1, (1 << 32) + base'],
    # totals on both sides of 2^32
    'rust/tests/reports.rs': ['(429, 4_967_295, 4_294_967_296, 4_294_967_295, -1),', '(429, 4_967_295, 4_294_967_295, 4_294_967_295, 0),',
                              '(429, 4_967_296, 4_294_967_295, 4_294_967_296, 1),'],
    # the largest word of a card
    'tools/cases.py': ['LARGEST = 2 ** 32 - 1  # of the words of a card'],
    # wrong programs: the old mark in 11; as many entries, or junctions, as there can be
    'crates/unit_questions/must-fail/old_mark_closes.edit': ['The mark of 32 bits, 4,294,967,295, closes a road in question 11 still'],
    'crates/unit_script/tried/whole_areas_lent.edit': ['let roads = route.min(4294967295);'],
    'crates/call_stops/must-fail/junction_found_by_its_leg.edit': ['network::ask(all_below(4294967295, stops), Refusal::NoJunction)?;'],
    # a wrong answer, which the C program is to see
    'rust/tests/c.rs': ['"foretold.then == UNIT_NONE", "foretold.then == UINT32_MAX"'],
    # numbers past the longest time, which 11 refuses
    'c/map_p.c': ['refused[] = {0, 9, 10000001, UINT32_MAX, UINT32_MAX - 1u, UNIT_UNASKED, UNIT_CLOSED >> 1, UNIT_CLOSED << 32};'],
}

SEPARATOR = "[_,'.\u2009\u202f ]?"
# a group of digits goes on behind an underscore; behind a comma or a space another number begins, but for a group of three
DIGITS = re.compile(rf'(?<![\d_]){SEPARATOR.join(["0*4", "294", "967", "29[45]"])}(?!_?\d)(?![,. ]\d\d\d(?!\d))')
FORMULA = re.compile(r'2 ?(?:\*\*|\^) ?32 ?- ?[12]\b|\b1 ?<< ?32\)? ?- ?[12]\b|!0_?u32\b|\(uint32_t\) ?-[12]\b|~\(?0u\b')
HEXADECIMAL = re.compile(r'\b0x_?(?:0_?)*(?:f_?){7}[ef](?!_?[0-9a-f])', re.IGNORECASE)
NAMED = re.compile(r'\b(?:u32::MAX|UINT32_MAX)\b')
MARKS = re.compile(r'(?:\b|_)(?:none|closed|unasked)\b', re.IGNORECASE)


def breach(line):
    """The rule that a line breaks, or None."""
    if DIGITS.search(line) or HEXADECIMAL.search(line) or FORMULA.search(line):
        return 'literal'
    return 'largest' if NAMED.search(line) and MARKS.search(line) else None


def files():
    found = {file for place in PLACES for file in glob.glob(place, recursive=True, include_hidden=True) if os.path.isfile(file)}
    return sorted(found - set(HISTORY))


def main():
    os.chdir(ROOT)
    told, missing = [], {(file, words) for file, lines in ALLOWED.items() for words in lines}
    looked_at = files()
    assert len(looked_at) > 300, f'marks: only {len(looked_at)} files are looked at'
    for file in looked_at:
        with open(file, encoding='utf-8') as text:
            for number, line in enumerate(text, 1):
                rule = breach(line)
                allowed = [words for words in ALLOWED.get(file, []) if words in line]
                if rule and not allowed:
                    told.append(f'{file}:{number}: {rule}: {line.strip()[:120]}')
                missing -= {(file, words) for words in allowed if rule}
    told += [f'{file}: an allowed line is not there: {words}' for file, words in sorted(missing)]
    print('\n'.join(told), end='\n' if told else '')
    return 1 if told else 0


if __name__ == '__main__':
    sys.exit(main())
