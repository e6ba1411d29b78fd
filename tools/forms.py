#!/usr/bin/env python3
"""Holds the sentences of documents 01 and 02 that no contract says and that a function's parameter list keeps: what a function is not lent it can
neither read nor write. Areas that travel together in a struct count by its fields, wherever it stands. The status is 1, with a line for each place, where a list of crates/*/src differs from the tables below, or where a
function of theirs is gone.

  LENT      what a function is lent to be read (&), lent to be written (&mut) and given by value: these parameters and no other
  ONLY      no function of the crate is lent another slice
  NEVER     no function of the crates has a parameter of that name
  others    as their functions say"""
import collections
import functools
import glob
import os
import re
import sys

ROOT = os.path.dirname(os.path.dirname(os.path.abspath(__file__)))

Function = collections.namedtuple('Function', 'crate owner name public generic parameters result contract')

BUILT = 'card ranks pairs times leaving groups'

# crate, function, lent to be read, lent to be written, given by value, the sentence
LENT = [
    ('search_junctions', 'Trip::ask', 'roads order ranks pairs times access live down group', 'estimates', 'self',
     'A1: going on from a logged junction is lent only its group of the roads by tail, and neither area whole'),
    ('search_junctions', 'ask_head', 'roads order ranks pairs times access live down', 'estimates', 'trip i',
     'A1: the same of one road'),
    ('search_junctions', 'Trip::relax', 'roads access live estimates group', 'words n', 'self from',
     'A1: going on from a logged junction is lent only its group of the roads by tail, and neither area whole'),
    ('search_junctions', 'relax_road', 'roads access live estimates', 'words n', 'trip i from',
     'A1: the same of one road'),
    ('search_queue', 'choose', 'words', '', '', 'A4: choosing is lent no estimate'),
    ('search_queue', 'Room::choose', 'words n', '', '', 'A4: choosing is lent no estimate'),
    ('search_queue', 'Room::better_of', 'words n', '', 'x y', 'A4: sums are only compared while choosing'),
    ('search_queue', 'Room::better_tied', 'words n', '', 'x y', 'A4: sums are only compared while choosing'),
    ('unit', 'Header::set', f'{BUILT} down estimates elapsed', 'live', 'self road time',
     '01: a call writes only in the areas lent to be written: a set in the live times'),
    ('unit', 'Header::aim', f'{BUILT} live elapsed', 'down estimates', 'self j',
     '01: a call writes only in the areas lent to be written: an aim in down totals and estimates; it has no class'),
    ('unit', 'Header::estimate', f'{BUILT} live down elapsed', 'estimates', 'self j',
     '01: a call writes only in the areas lent to be written: an estimate in the estimates; it has no class'),
    ('unit', 'Header::go', f'{BUILT} live down', 'estimates elapsed route log', 'self class start',
     "01: a call writes only in the areas lent to be written: a go in estimates, elapsed and its two areas"),
    ('unit', 'Header::preview', f'{BUILT} live down elapsed', 'estimates work', 'self class road time start',
     'A2: live times, target and elapsed stay'),
    ('unit', 'Header::stops', f'{BUILT} live stops', 'down estimates elapsed route log', 'self class',
     'A3: each leg is an aim and a go, so a list of stops writes what they write'),
    ('unit_script', 'replay', f'{BUILT} script', 'live down estimates elapsed route log work out', 'start',
     'A1: no list of calls writes the roads by tail, nor any other area that preparing made for good'),
    ('call_set', 'set', 'card', 'live', 'sizes l road time', '01: a set knows one area, the live times'),
    ('call_set', 'time_asked', 'card', '', 'sizes road time', '01: 11 asks the base time, not the live one'),
    ('call_aim', 'aim', 'card pairs times', 'down estimates', 'sizes target l j', 'DECISIONS: set, aim and estimate are lent only what they read or write'),
    ('call_estimate', 'estimate', 'card ranks pairs times down', 'estimates', 'sizes target l j',
     'DECISIONS: set, aim and estimate are lent only what they read or write'),
    ('card', 'write', 'roads order', 'area', '', 'A6: the writer still knows only maps without classes'),
    ('network', 'rank_of', 'ranks', '', 'j', '01: junction number and rank are converted only through the rank area or the order'),
    ('network', 'junction_of', 'order', '', 'r', '01: junction number and rank are converted only through the rank area or the order'),
]

# crate, its slices, the sentence
ONLY = [
    ('search_queue', 'words n', 'A4: choosing is lent no estimate'),
]

# crates, parameters, the sentence
NEVER = [
    ('pairs_*', 'live', '01: no pair, down total or estimate is made from live times'),
    ('pairs_*', 'access class', 'A6: estimates remain over all roads'),
    ('search_queue', 'estimate estimates down pairs times', 'A4: choosing is lent no estimate'),
]

# crates whose public functions ask nothing of their callers: "No caller has anything to test beforehand."
FREE = 'card unit unit_switch_on unit_script unit_c line_console line_input program_shell program_serve'.split()

# a function's price is its slices that are written (docs/DECISIONS.md)
MOST_WRITTEN = 12

# file, name, type: what the plain machine is fed
TYPES = [
    ('crates/model/specs/Calls.antt', 'machine_step', 'CardMap → Machine → Plain → Told',
     "01: the plain machine is fed the map, each call's arguments and lengths, and nothing from the unit's areas, header or answers"),
]


@functools.lru_cache(maxsize=None)
def read(file):
    with open(file, encoding='utf-8') as text:
        return text.read()


def closing(text, at):
    """Where the bracket closes that opens there."""
    depth = 0
    for place in range(at, len(text)):
        depth += {'(': 1, '[': 1, '{': 1, ')': -1, ']': -1, '}': -1}.get(text[place], 0)
        if depth == 0:
            return place
    raise ValueError('a bracket is not closed')


def parts(text):
    """The parts between commas outside of brackets."""
    found, depth = [''], 0
    for before, letter in zip(' ' + text, text):
        depth += {'(': 1, '[': 1, '<': 1, ')': -1, ']': -1, '>': -1 if before != '-' else 0}.get(letter, 0)
        if letter == ',' and depth == 0:
            found.append('')
        else:
            found[-1] += letter
    return [part.strip() for part in found if part.strip()]


# what opens a clause of a contract: `ensures {`, `requires low {`, `ensures* {`
CLAUSE = r'\b(?:ghost|requires|ensures)\b'


def body_at(code, at):
    """Where a function's body opens whose parameter list ends there: past its result and its clauses."""
    while True:
        brace = code.index('{', at)
        if not re.search(CLAUSE + r'\*?(?: \w+)?\s*$', code[at:brace]):
            return brace
        at = closing(code, brace) + 1


def parameters_at(code, at):
    """Where the parameter list opens of a function whose name ends there: past its type parameters."""
    depth = 0
    for place in range(at, len(code)):
        depth += {'<': 1, '>': -1 if code[place - 1] != '-' else 0}.get(code[place], 0)
        if depth == 0 and code[place] == '(':
            return place
    raise ValueError('a function has no parameters')


def functions(crate, source):
    """The functions of a crate: parameters by name, each with its type, result, and the clauses of the contract."""
    code = re.sub(r'//.*', '', source)
    impls = re.finditer(r'^impl(?:<[^{]*?>)? (?:[^{]* for )?(\w+)(?:<[^{]*>)? \{', code, re.M)
    blocks = [(found.start(), closing(code, found.end() - 1), found.group(1)) for found in impls]
    for found in re.finditer(r'^ *(pub )?(?:extern "C" )?fn (\w+)\b', code, re.M):
        begin = parameters_at(code, found.end())
        end = closing(code, begin)
        parameters = [part.partition(':')[::2] for part in parts(code[begin + 1:end])]
        told = code[end + 1:body_at(code, end + 1)]
        result, contract = re.match(r'\s*(?:->\s*(.*?))?\s*(' + CLAUSE + r'.*)?$', told, re.S).groups()
        owner = [name for start, stop, name in blocks if start < found.start() < stop]
        generic = re.findall(r'[<,]\s*(\w+)\s*[:,>]', code[found.end():begin])
        yield Function(crate, owner[0] if owner else '', found.group(2), bool(found.group(1)), generic,
                       {name.strip(): kind.strip() for name, kind in parameters}, result or '', contract or '')


def every():
    for file in sorted(glob.glob('crates/*/src/*.rt')):
        yield from functions(file.split('/')[1], read(file))


def path(f):
    return '::'.join(part for part in (f.crate, f.owner, f.name) if part)


@functools.lru_cache(maxsize=None)
def structs():
    """The fields of each struct of the tree: names, each with its type."""
    found = {}
    for file in sorted(glob.glob('crates/*/src/*.rt')):
        code = re.sub(r'//.*', '', read(file))
        for struct in re.finditer(r"^(?:pub )?struct (\w+)(?:<[^{(;]*>)? \{", code, re.M):
            fields = [part.partition(':')[::2] for part in parts(code[struct.end():closing(code, struct.end() - 1)])]
            found[struct.group(1)] = {re.sub(r'^pub ', '', name.strip()): kind.strip() for name, kind in fields
                                      if not re.match(r'(?:pub )?ghost\b', name.strip())}
    return found


def bare(kind):
    """A type without its reference and its lifetimes."""
    return re.sub(r"<(?:'\w+|_)(?:, '\w+)*>$", '', re.sub(r"^&(?:'\w+ )?(?:mut )?", '', kind))


def areas_of(name, kind):
    """What a parameter lends, name and mode: itself, or, of a struct that holds areas, each of its fields."""
    written, lent = re.match(r"&(?:'\w+ )?mut ", kind), kind.startswith('&')
    fields = structs().get(bare(kind))
    inner = [area for field, of in fields.items() for area in areas_of(field, of)] if fields else []
    if any(mode != 'given' for _, mode in inner) or (fields and written):
        # a struct behind a `&` lends nothing to be written; one that is itself lent to be written lends its own arrays so
        return [(field, 'read' if lent and not written else 'written' if mode == 'given' and written else mode) for field, mode in inner]
    return [(name, 'written' if written else 'read' if lent and not fields else 'given')]


def of_mode(f, mode):
    """The areas that are lent to be written or to be read, or the parameters given by value."""
    own = {name: kind for name, kind in f.parameters.items()}
    for receiver in ('self', '&self', '&mut self'):
        if receiver in own:
            own['self'] = receiver[:-4] + f.owner
            if receiver != 'self':
                del own[receiver]
    return [area for name, kind in own.items() for area, has in areas_of(name, kind) if has == mode]


def lent(all_functions):
    """Where a function of the table is not lent just what the table says."""
    for crate, name, *lists, sentence in LENT:
        found = [f for f in all_functions if f.crate == crate and path(f) == f'{crate}::{name}']
        if len(found) != 1:
            yield f'{crate}::{name} is gone, or stands twice; it holds "{sentence}"'
        for f in found:
            for mode, told in zip(('read', 'written', 'given'), lists):
                has, wanted = set(of_mode(f, mode)), set(told.split())
                for word, names in (('is', has - wanted), ('is not', wanted - has)):
                    if names:
                        verb = 'given' if mode == 'given' else f'lent to be {mode}'
                        yield f'{path(f)} {word} {verb}: {", ".join(sorted(names))}; it holds "{sentence}"'


def only(all_functions):
    for crate, slices, sentence in ONLY:
        of_crate = [f for f in all_functions if f.crate == crate]
        if not of_crate:
            yield f'{crate} has no functions; it holds "{sentence}"'
        for f in of_crate:
            other = set(of_mode(f, 'read') + of_mode(f, 'written')) - set(slices.split())
            if other:
                yield f'{path(f)} is lent {", ".join(sorted(other))}; the crate holds "{sentence}"'


def never(all_functions):
    for crates, names, sentence in NEVER:
        of_crates = [f for f in all_functions if re.fullmatch(crates.replace('*', r'\w+'), f.crate)]
        if not of_crates:
            yield f'there is no crate {crates}; it holds "{sentence}"'
        for f in of_crates:
            lent_names = set(f.parameters) | {name for mode in ('read', 'written', 'given') for name in of_mode(f, mode)}
            for name in sorted(set(names.split()) & lent_names):
                yield f'{path(f)} has a parameter {name}; {crates} holds "{sentence}"'


def calls(all_functions):
    """"Calls are methods on the header by value, returning it with the answer." """
    unit = read('crates/unit/src/lib.rt')
    methods = [f for f in all_functions if f.crate == 'unit' and f.owner == 'Header' and f.public]
    cases = re.search(r'^pub data Asked .*?\n\n', read('crates/model/specs/Calls.antt'), re.M | re.S)
    number = len(re.findall(r'^  [A-Z]\w* :', cases.group(0), re.M)) if cases else 0
    if not number or len(methods) != number:
        yield f'unit has {len(methods)} public methods of the header; there are {number} calls (Asked, in crates/model/specs/Calls.antt)'
    for f in methods:
        if f.parameters.get('self') != '':
            yield f'{path(f)} does not take the header by value, as `self`'
        if not re.search(rf'pub struct {re.escape(f.result)} \{{[^}}]*\bpub header: Header,', unit):
            yield f'{path(f)} answers {f.result or "nothing"}, which has no header'
    for f in all_functions:
        handed = [name for name, kind in f.parameters.items() if kind == 'Header']
        if f.crate.startswith('unit') and f.public and handed and path(f) not in ('unit::call', 'unit_script::replay'):
            yield f'{path(f)} is given a header, and is no method of it'


def asked(all_functions):
    """"No caller has anything to test beforehand." """
    for crate in FREE:
        public = [f for f in all_functions if f.crate == crate and f.public]
        if not public:
            yield f'{crate} has no public functions'
        for f in public:
            if re.search(r'\brequires\b', f.contract):
                yield f'{path(f)} is public and has a `requires`'


# Who makes a rank of a junction, or the other way. The third asks the second, of a number that may be no rank.
CONVERTED = 'network::rank_of network::junction_of pairs_descents::junction_in'.split()


def inner(kind):
    """What a type holds, without a reference and what an absence or a refusal puts around it."""
    return bare(re.sub(r'^(?:Option|Result)<(\w+)\b.*>$', r'\1', bare(kind)))


def converted(all_functions):
    """CONVERTED alone take a junction and answer a rank, or the other way."""
    found = {path(f): f for f in all_functions for one, other in (('Junction', 'Rank'), ('Rank', 'Junction'))
             if one in map(inner, f.parameters.values()) and inner(f.result) == other}
    for name in sorted(set(found) - set(CONVERTED)):
        yield f'{name} makes a {inner(found[name].result)}; only the rank area and the order make a rank of a junction, or the other way'
    for name in sorted(set(CONVERTED) - set(found)):
        yield f'{name} makes no rank of a junction, nor the other way'


def narrow(all_functions):
    """What is lent under a type parameter, as the program's input and output, is no slice."""
    for f in all_functions:
        number = sum(bare(f.parameters.get(name, '')) not in f.generic for name in of_mode(f, 'written'))
        if number > MOST_WRITTEN:
            yield f'{path(f)} is lent {number} slices to be written; at most {MOST_WRITTEN}'


def typed():
    for file, name, kind, sentence in TYPES:
        found = re.findall(rf'^abbrev pub {re.escape(name)} : (.*)$', read(file) if os.path.isfile(file) else '', re.M)
        if found != [kind]:
            yield f'{file}: {name} is {"gone" if not found else "of the type " + found[0]}; it holds "{sentence}"'


def safe():
    """No line is unsafe; the mark of an export, `#[unsafe(no_mangle)]`, makes no code so."""
    for file in sorted(glob.glob('crates/*/src/*.rt')):
        for number, line in enumerate(read(file).split('\n'), 1):
            if re.search(r'\bunsafe\b', re.sub(r'//.*|^#\[unsafe\(no_mangle\)\]$', '', line)):
                yield f'{file}:{number}: unsafe'


def main():
    os.chdir(ROOT)
    all_functions = list(every())
    faults = [fault for rule in (lent, only, never, calls, asked, converted, narrow) for fault in rule(all_functions)]
    faults += [*typed(), *safe()]
    print(*(f'forms: {fault}' for fault in faults), sep='\n', end='\n' if faults else '')
    print(f'forms: {len(all_functions)} functions looked at, {len(faults)} places are not as the documents say')
    return 1 if faults or not all_functions else 0


if __name__ == '__main__':
    sys.exit(main())
