#!/usr/bin/env python3
"""Checks that the documents are true to the tree. What is wrong is told with its line, and the status is 1. docs/LANDINGS.md
tells what was, so only its links are looked at; docs/BENCHMARK.md is written by the benchmark, and of it links and paths are.

  sentences   docs/SENTENCES.md is a list: a sentence, an arrow, and what holds it. Each name after the arrow stands in the
              place named before it. A place is `crate/File` (crates/crate/specs/File.antt, and proofs/File.antt, where its theorems
              stand), `crate/src`, `crate/must-fail` (wrong programs of the gate), `crate/tried` (those outside of it),
              `program_scenarios/data`, or a file of rust/ or crates/ by its path. Names in brackets are fields, declared somewhere
              in the tree. A sentence that a request of document 02 has changed (CHANGED) says since when.
  names       A name in backquotes is declared somewhere in the tree, `crate::name` in that crate's code, `Type::name` in some
              crate's, `File.name` or `Record.field` in that file or one that declares the record. In a table whose last column
              is File, it is declared in one of the files that its row names. Of docs/PROOFS.md from its part 5 on.
  edits       A wrong program stands in the folder that is said: must-fail, or tried. It begins with a sentence. An edit that
              survives, in docs/MUTANTS.md, changes a line of the code as it stands.
  paths       Links lead to a file and to a heading of it; paths of the repository exist, also those of commands.
  commands    rt has the command that is told, and what rt, tools/tried and tools/mutate are given is a crate.
  counts      Numbers in words and in digits: those of COUNTS, and how many calls and areas there are.
  believed    THEOREMS, part 5, lists every file of definitions that a public contract cites, or that these cite in turn; of the
              crates of code no other; every file of model; and the lines of definitions are those of the tree. Part 1 says how to
              read each sign that they have.
  house       README lists every crate, and no other.
  quotations  In docs/PROOFS.md a paragraph that ends in "From FILE:" has a quotation under it, which stands so in that file.
  width       No line of a document in docs/ has more than 160 characters.
"""
import functools
import glob
import os
import re
import sys
import unicodedata

import forms

ROOT = os.path.dirname(os.path.dirname(os.path.abspath(__file__)))
DOCS = ('docs/THEOREMS.md', 'docs/THEORY.md', 'docs/DECISIONS.md', 'docs/MUTANTS.md', 'docs/REPORTS.md', 'README.md')
WIDTH, EDIT_WIDTH = 160, 140

# what a sentence of document 01 says that a request of document 02 has changed since
CHANGED = (r'base time in seconds', r'\b1,000,000\b', r'4,095,000,000', r'4,294,967,29[45]', r'8,189,000,000', r'28 bytes', r'first word 2\b', r'first start 28',
           r'two bodies\.', r'16,384\?', r'four words', r'multiple of 4 words', r'six areas', r'number of pairs and the target', r'All but 8 and 15',
           r'at most (?:the number of|those) junctions', r'on equal keys the smaller', r'live time isn.t closed', r'16,000 words', r'a signed number of seconds')

# words of Rattle, of antt, of the kit and of the commands: no name of ours
FOREIGN = set('''eqb ltb leb not cond none some replicate get_or take drop length min abbrev unfoldable unfolding use data record
    requires ensures result Some None Ok Err rt cc tried'''.split())
NAME = r"[\w'-]*[^\W\d][\w'-]*"
TOP = ('c', 'crates', 'docs', 'examples', 'rust', 'target', 'tools')
KIT = ('bytes', 'io', 'libc', 'os', 'std')
# what rt has today; LANDINGS and PORT alone tell of commands that are gone
COMMANDS = set('all check ci doc expand fmt help lemma lib must-fail new plant run seed selftest test tidy try verdict version'.split())


@functools.lru_cache(maxsize=None)
def read(file):
    with open(file, encoding='utf-8') as text:
        return text.read()


@functools.lru_cache(maxsize=None)
def names_of(file):
    """The names that a file declares, or has."""
    if file.endswith(('.edit', '.lines', '.card')):
        return {os.path.basename(file).split('.')[0]}
    forms = {
        '.antt': r'^ *(?:abbrev |unfoldable )?(?:pub )?(?:record |data |mod )?(\S+)(?= )',
        '.rs': r'(?:fn|struct|enum|const) (\w+)',
        '.rt': r'(?:fn|struct|enum|trait|const|type) (\w+)|^    (?:pub )?(\w+)[:,(]',
    }
    form = forms.get(os.path.splitext(file)[1])
    found = re.finditer(form, read(file), re.M) if form and os.path.isfile(file) else ()
    return {name for names in found for name in names.groups() if name}


def declared(name, file):
    """Does the file declare the name, or have it?"""
    return name in names_of(file)


@functools.lru_cache(maxsize=None)
def files_of(*patterns):
    return [file for pattern in patterns for file in sorted(glob.glob(pattern, recursive=True))]


# ---- the parts of a document

def blocks(text):
    """Each heading, paragraph, row of a table and item of a list, in one line, with the number of its first line; no code."""
    number, block = 0, []
    for at, line in enumerate([*text.split('\n'), ''], 1):
        code = line.startswith('    ') and not block
        if block and (not line.strip() or re.match(r'\||#| *- |\d+\. ', line)):
            yield number, ' '.join(block)
            block = []
        if line.strip() and not code:
            number = number if block else at
            block.append(line.strip())


def wide(file):
    """The lines of a document that are too long."""
    for number, line in enumerate(read(file).split('\n'), 1):
        if len(line) > WIDTH:
            yield file, number, f'a line of {len(line)} characters; at most {WIDTH}'


# ---- docs/SENTENCES.md

def place_files(place):
    """The files of a place."""
    if place.startswith(('rust/', 'crates/')):
        return [place]
    crate, part = place.split('/', 1)
    if part == 'src':
        return files_of(f'crates/{crate}/src/*.rt')
    if part in ('must-fail', 'tried', 'data'):
        return files_of(f'crates/{crate}/{part}/*')
    return of_name(crate, part)


def of_name(crate, name):
    """The file of that name in specs, and the one in proofs, as far as they are there."""
    return files_of(f'crates/{crate}/specs/{name}.antt', f'crates/{crate}/proofs/{name}.antt')


def where(name):
    """The files that have the name."""
    every = files_of('crates/*/must-fail/*', 'crates/*/tried/*', 'crates/*/specs/*.antt', 'crates/*/proofs/*.antt', 'crates/*/src/*.rt', 'rust/tests/*.rs')
    return [file for file in every if declared(name, file)]


def sentence(block):
    """What is wrong with an item of SENTENCES, None for each name that is right."""
    if ' → ' not in block:
        yield 'nothing holds it'
        return
    said, held = block.split(' → ', 1)
    for words in CHANGED:
        if re.search(words, said):
            yield None if re.search(r'\bsince A\d', held) else f'document 02 has changed "{re.search(words, said).group(0)}": since when is not said'
    for word in re.findall(r"`([\w'-]+)`", ' '.join(re.findall(r'\(`[^)]*\)', held))):
        yield None if word in FOREIGN or anywhere(word) else f'{word} is declared nowhere'
    held = re.sub(r'\(`[^)]*\)', '', held)
    place = None
    for word in re.findall(r'`([^`]+)`', held):
        if '/' in word:
            place = word
            if not all(map(os.path.exists, place_files(place) or ['-'])):
                yield 'no such place: ' + place
        elif place is not None and re.fullmatch(r"[\w'-]+", word) and word not in FOREIGN:
            if any(declared(word, file) for file in place_files(place) if os.path.isfile(file)):
                yield None
            else:
                yield f'{word} is not in {place}; it is in {", ".join(where(word)) or "nothing"}'


def sentences(text):
    """Of each item below the first heading: what is wrong with it, None for each name that is right. Other paragraphs have names too."""
    below = False
    for number, block in blocks(text):
        below = below or block.startswith('## ')
        if below and block.startswith('- '):
            for fault in sentence(block):
                yield number, fault
        elif below and not block.startswith('#'):
            for _, fault in names(block):
                yield number, fault


# ---- names of the other documents

def named_files(cell):
    """The files of a File column: [Card](..) or Card, of model; graph/Map; Map after graph/ in the same cell. Of specs and of proofs."""
    found = []
    for link, word in re.findall(r'\[[^\]]*\]\(\.\./([^)]*)\)|((?:\w+/)?[A-Z]\w+)', cell):
        place = re.fullmatch(r'crates/(\w+)/(?:specs|proofs)/(\w+)\.antt', link)
        if link and not (place and os.path.isfile(link)):
            found.append(link)
        else:
            crate, _, file = word.rpartition('/') if '/' in word else ('model', '', word)
            crate, file = place.groups() if place else (crate, file)
            found += of_name(crate, file) or [f'crates/{crate}/specs/{file}.antt']
    return found


def of_code(owner, name):
    """Is `owner::name` a function or constant of the crate, or one in a block of the type? The kit's are not looked for."""
    if owner in KIT:
        return True
    if os.path.isdir(f'crates/{owner}'):
        sources = files_of(f'crates/{owner}/src/*.rt')
        if name == '*':
            return any('pub fn' in read(file) for file in sources)
        return any(re.search(rf'(?:fn|const|struct|enum) {name}\b', read(file)) for file in sources)
    blocks = [block for file in files_of('crates/*/src/*.rt')
              for block in re.findall(rf'^impl(?:<[^{{]*?>)? (?:[^{{]* for )?{owner}(?:<[^{{]*>)? \{{.*?^\}}', read(file), re.M | re.S)]
    return any(re.search(rf'(?:fn|const) {name}\b', block) for block in blocks)


@functools.lru_cache(maxsize=None)
def anywhere(name):
    """Is the name declared in the tree, or is it that of a crate, a file or an edit?"""
    inside = [f'crates/*/{part}/{name}.*' for part in ('src', 'specs', 'proofs', 'must-fail', 'tried', 'data')]
    if os.path.isdir(f'crates/{name}') or files_of(*inside, f'tools/{name}', f'tools/{name}.*', f'rust/**/{name}.rs'):
        return True
    every = files_of('crates/*/specs/*.antt', 'crates/*/proofs/**/*.antt', 'crates/*/src/*.rt', 'rust/**/*.rs')
    return any(declared(name, file) for file in every)


def is_place(place):
    """Is it a place, as SENTENCES has them, a folder of a crate, or `crate/edit`?"""
    crate, part = place.split('/')
    return bool(files_of(f'crates/{crate}/{part}', f'crates/{crate}/specs/{part}.antt', f'crates/{crate}/proofs/{part}.antt',
                         f'crates/{crate}/must-fail/{part}.edit', f'crates/{crate}/tried/{part}.edit'))


def qualified(owner, name):
    """Is the name declared in a file of the owner's name, or in one that declares the owner as a record?"""
    files = files_of('crates/*/specs/*.antt', 'crates/*/proofs/**/*.antt')
    return any(declared(name, file) for file in files if os.path.basename(file) == f'{owner}.antt' or declared(owner, file))


def names(text):
    """What is wrong with the names of a document, None for each that is right."""
    by_file = False
    for number, line in blocks(text):
        cells = [cell.strip() for cell in line.strip().strip('|').split(' | ')]
        if not line.startswith('|'):
            by_file = False
        elif cells[-1] == 'File':
            by_file = True
            continue
        places = named_files(cells[-1]) if by_file and line.startswith('|') and len(cells) > 2 else []
        for place in places:
            if not os.path.isfile(place):
                yield number, f'no such file: {place}'
        for told, place in re.findall(r'((?:`\w+`(?:, )?)+), in (?:\[[^\]]*\]\(\.\./([^)]*)\)|crates/\w+)', line):
            for word in re.findall(r'\w+', told):
                if place.endswith('.rt'):
                    yield number, None if declared(word, place) else f'{word} is not in {place}'
        plain = re.sub(r'\(`[^)]*\)', '', cells[1]) if places else line
        for word in re.findall(rf'`({NAME})`', ' '.join(re.findall(r'\(`[^)]*\)', cells[1])) if places else ''):
            yield number, None if word in FOREIGN or anywhere(word) else f'{word} is declared nowhere'
        for word in re.findall(r'`([^`]+)`', plain):
            if re.fullmatch(r'\w+/\w[\w-]*', word) and word.split('/')[0] not in TOP:
                yield number, None if is_place(word) else f'no such place, nor such an edit: {word}'
            elif re.fullmatch(r'\w+::[A-Z]\w*::\w+', word):
                yield number, None if of_code(*word.split('::')[1:]) else f'{word} is in no code'
            elif re.fullmatch(r'\w+::[\w*]+', word):
                yield number, None if of_code(*word.split('::')) else f'{word} is in no code'
            elif re.fullmatch(r'[A-Z]\w*\.[\w-]+', word):
                yield number, None if qualified(*word.split('.')) else f'{word} is declared nowhere'
            elif re.fullmatch(NAME, word) and word not in FOREIGN:
                if places:
                    code = files_of(*(os.path.dirname(os.path.dirname(place)) + '/src/*.rt' for place in places))
                    good = any(declared(word, place) for place in [*places, *code] if os.path.isfile(place))
                    yield number, None if good else f'{word} is not in {", ".join(places)}; it is in {", ".join(where(word)) or "nothing"}'
                else:
                    yield number, None if anywhere(word) else f'{word} is declared nowhere'


# ---- wrong programs

def in_folder(folder, edit, crate='*'):
    return bool(files_of(f'crates/{crate}/{folder}/{edit}.edit'))


def edits(text):
    """Of each wrong program that a document names: what is wrong with it, None if it stands where it is said."""
    for number, block in blocks(text):
        # `crate/edit`, in the gate where nothing else is said
        for crate, edit, after in re.findall(r'`(\w+)/(\w+)`((?: \(tried\)|, outside of the gate)?)', block):
            if in_folder('*', edit, crate):
                folder = 'tried' if after else 'must-fail'
                yield number, None if in_folder(folder, edit, crate) else f'{crate}/{folder} has no {edit}'
        # `edit`, `edit` (must-fail)
        for told, folder in re.findall(r'((?:`\w+`(?:, | and )?)+) \((must-fail|tried)\)', block):
            for edit in re.findall(r'\w+', told.replace(' and ', ' ')):
                yield number, None if in_folder(folder, edit) else f'no crate has {edit} in {folder}'
        # `crate`'s must-fail edit `edit`
        for crate, folder, edit in re.findall(r"`(\w+)`'s (must-fail|tried) edit `(\w+)`", block):
            yield number, None if in_folder(folder, edit, crate) else f'{crate}/{folder} has no {edit}'
        # `edit` of `crate`
        for edit, crate in re.findall(r'`(\w+)` of `(\w+)`', block):
            if in_folder('*', edit):
                yield number, None if in_folder('*', edit, crate) else f'{crate} has no wrong program {edit}'


def titles():
    """Each wrong program begins with a sentence that says it, in lines that are not too long."""
    for file in files_of('crates/*/must-fail/*.edit', 'crates/*/tried/*.edit'):
        title = read(file).split('\nfile:')[0].split('\n')
        good = re.match(r'[^\W_a-z]|[\d"`\'(≤]', title[0]) and title[-1].endswith('.') and max(map(len, title)) <= EDIT_WIDTH and not title[0].startswith('file:')
        yield file, 1, None if good else 'does not begin with a sentence that says the wrong program'


def survivors(text):
    """Of each row of an edit that survives: whether the line that it changes stands in the code."""
    for found in re.finditer(r'^\| `(\w+)::(?:const )?(\w+)` \| `([^`]+)` → `([^`]+)` \|', text, re.M):
        crate, name, old, new = found.groups()
        code = [line.strip() for file in files_of(f'crates/{crate}/src/*.rt') for line in read(file).split('\n')]
        good = of_code(crate, name) and old in code and old != new
        yield text.count('\n', 0, found.start()) + 1, None if good else f'{crate}::{name} has no line `{old}`'


# ---- paths and commands

PLACEHOLDER = re.compile(r'NAME|FUNCTION|WHAT|FILE|CRATE|EDIT')


def slug(heading):
    return re.sub(r'[^\w -]', '', heading.lower()).strip().replace(' ', '-')


def links(file, text):
    """Of each link: what is wrong with it, None if it leads somewhere."""
    folder = os.path.dirname(file)
    for found in re.finditer(r'\]\(([^)\s]+)\)', text):
        number = text.count('\n', 0, found.start()) + 1
        target, _, heading = found.group(1).partition('#')
        if '://' in target:
            continue
        there = os.path.normpath(os.path.join(folder, target)) if target else file
        if not os.path.exists(there):
            yield number, f'no such file: {target}'
        else:
            headings = [slug(line.lstrip('#')) for line in read(there).split('\n') if line.startswith('#')] if heading else []
            yield number, None if not heading or heading in headings else f'{there} has no heading {heading}'


def paths(text):
    """Of each path of the repository: what is wrong with it, None if it is there. What rt makes in a crate's out/ may not be there yet."""
    for found in re.finditer(r'(?<![\w./(-])((?:crates|docs|tools|rust|c|examples|\.ci)/[\w./-]*\w)', text):
        path = re.sub(r'^(crates/\w+)/out(/.*)?$', r'\1', found.group(1))
        if not PLACEHOLDER.search(path):
            yield text.count('\n', 0, found.start()) + 1, None if os.path.exists(path) else f'no such file: {path}'


def commands(text):
    """Of each command of rt, and of each crate that a command is given: what is wrong with it, None if there is one."""
    for found in re.finditer(r'(?<![\w-])rt ([a-z][\w-]*)', text):
        before = text[:found.start()]
        if before.count('`') % 2 or re.search(r'^    (?:.*(?:&&|[;|(]) ?)?$', before.split('\n')[-1]):
            yield before.count('\n') + 1, None if found.group(1) in COMMANDS else f'rt has no command {found.group(1)}'
    for found in re.finditer(r'\b(?:rt (?:check|verdict|lib|run|test|try|ci|must-fail|plant|tidy|expand)|tools/(?:tried|mutate))((?: [a-z]\w*)+)', text):
        before = text[:found.start()]
        if before.count('`') % 2 or before.split('\n')[-1].startswith('    '):
            for crate in found.group(1).split():
                yield before.count('\n') + 1, None if os.path.isdir(f'crates/{crate}') else f'a command is given {crate}, which is no crate'


# ---- docs/PROOFS.md

def quotations(text):
    """Of each quotation: what is wrong with it, None if the file has it."""
    for found in re.finditer(r'From (crates/\S+):\n\n((?:    .*\n|\n(?=    ))+)', text):
        file, quoted = found.group(1), re.sub(r'^    ', '', found.group(2), flags=re.M)
        good = os.path.isfile(file) and quoted.strip('\n') + '\n' in read(file)
        yield text.count('\n', 0, found.start()) + 1, None if good else f'{file} has no such lines'


# ---- counts

NUMBERS = 'no one two three four five six seven eight nine ten eleven twelve thirteen fourteen fifteen sixteen seventeen eighteen nineteen twenty twenty-one twenty-two twenty-three twenty-four twenty-five'.split()


def how_many(form, file):
    return len(re.findall(form, read(file), re.M))


def questions():
    """The refusals, one for each question."""
    return how_many(r'^abbrev pub \w+ : (?:\((?:place|count|leg) : ℕ\) → )?Refusal$', 'crates/model/specs/Types.antt')


def refusal_cases():
    """The cases of the code's refusal."""
    cases = re.search(r'^pub enum Refusal \{\n(.*?)^\}', read('crates/network/src/lib.rt'), re.M | re.S).group(1)
    return len(re.findall(r'^    \w+(?:\(u32\))?,$', cases, re.M))


def calls():
    """The calls, which are the public methods of the header."""
    return sum(f.crate == 'unit' and f.owner == 'Header' and f.public for f in forms.every())


def areas():
    return len(re.search(r'^abbrev pub areas_of : .*?\((.*?) : A\)', read('crates/model/specs/Areas.antt'), re.M).group(1).split())


def answers():
    """How many goals are answered in the proof that docs/PROOFS.md walks through."""
    return how_many(r'^pub \S+ : goal\.', 'crates/pairs_descents/proofs/down_totals/Answers.antt')


# document, what it says, the number in brackets, and what that is
COUNTS = (
    ('docs/THEOREMS.md', r'the ([\w-]+) from `Short` to `\w+`', questions),
    ('docs/SENTENCES.md', r'`Short` to `\w+` are the ([\w-]+)', questions),
    ('docs/DECISIONS.md', r'each of the (\w+) questions', refusal_cases),
    ('docs/THEOREMS.md', r'`Refusal` has a case for each of the (\w+) questions', refusal_cases),
    ('docs/THEOREMS.md', r'the (\w+), with what each is lent', calls),
    ('docs/DECISIONS.md', r'`Calls` lists the (\w+)', calls),
    ('README.md', r'the (\w+) calls, a list of calls, and what C', calls),
    ('docs/SENTENCES.md', r'since A7 (\w+) areas', areas),
    ('docs/PROOFS.md', r'(\w+) say why the function is right', answers),
)


def value_of(word):
    return NUMBERS.index(word.lower()) if word.lower() in NUMBERS else int(word) if word.isdigit() else None


def counts():
    """Of each number: what is wrong with it, None if it is right."""
    for document, form, number_of in COUNTS:
        found = re.findall(form, re.sub(r'\s+', ' ', read(document)))
        if not found:
            yield document, 0, f'nothing says "{form}"'
        for word in found:
            yield document, 0, None if value_of(word) == number_of() else f'"{form}": {word} is said, there are {number_of()}'
    # any other number of calls and of areas; go's two, and document 01's four, go by that name; what is quoted is document 01's
    for document in (*DOCS, 'docs/SENTENCES.md', 'docs/PROOFS.md'):
        for number, block in blocks(read(document)):
            told = re.sub(r'"[^"]*"|#.*', '', block)
            for word in re.findall(r"(?<!document 01's )\b(?:[Tt]he|[Aa]ll|unit's|of) (\w+) calls\b", told):
                if value_of(word):
                    yield document, number, None if value_of(word) == calls() else f'"the {word} calls": there are {calls()}'
            for word in re.findall(r"\b(?:all|unit's) (\w+) (?:unit's )?areas\b", told):
                if value_of(word):
                    yield document, number, None if value_of(word) == areas() else f'"{word} areas": there are {areas()}'


# ---- which lines must be believed

TOKEN = re.compile(r'[^\s(){};,"]+')


def words_of(text):
    """The words of a text, each once: a projection is written tight, so of `goes.total` also `goes`."""
    found = dict.fromkeys(TOKEN.findall(text))
    return [*found, *dict.fromkeys(word.partition('.')[0] for word in found if '.' in word)]


def bare(name):
    """A name without the holes of an operator."""
    return name.strip('◌') or name


@functools.lru_cache(maxsize=None)
def imported(file):
    """Of each name that a file takes from specs of ours, the file and the name there; and the files that it names as a whole."""
    found, whole = {}, {}
    for crate, there, listed, alias in re.findall(r'^(?:ghost |pub )*use Rattle\.(\w+)\.specs\.([\w-]+)(?:\.\{([^}]*)\}| as ([\w-]+));?$', read(file), re.M):
        if alias:
            whole[alias] = spec(crate, there)
        for item in filter(None, map(str.split, listed.split(','))):
            # `name`, or `name as another`
            found[bare(item[-1])] = (spec(crate, there), bare(item[0]))
    return found, whole


@functools.lru_cache(maxsize=None)
def definitions(file):
    """The paragraphs of a file that define something, each with the names that it declares."""
    found = []
    for block in re.split(r'\n\s*\n', read(file)):
        if re.search(r'^(?:abbrev|unfoldable|pub record|pub data|record|data) ', block, re.M):
            text = re.sub(r'^ *--.*$', '', block, flags=re.M)
            found.append((frozenset(bare(name) for name in re.findall(
                r'^ *(?:abbrev |unfoldable )?(?:pub )?(?:record |data )?([^\s:({]+)(?= )', text, re.M)), text))
    return found


def cited(text, file):
    """What a text of the file cites: files with names."""
    found, whole = imported(file)
    for word in words_of(text):
        owner, _, name = word.partition('.')
        if word in found:
            yield found[word]
        elif name and owner in whole:
            yield whole[owner], name.partition('.')[0]


def contracts():
    """The clauses of public functions, the unit's and the program's promises, each with the file of the code; of program_serve those of its loop too."""
    for f in forms.every():
        if f.crate in forms.FREE and (f.public or f.crate == 'program_serve'):
            yield f.contract, f'crates/{f.crate}/src/lib.rt'


def believed():
    """The definitions that public contracts cite, and those that these cite, by file."""
    found, left = {}, [name for contract, file in contracts() for name in cited(contract, file)]
    while left:
        file, name = left.pop()
        for own, text in definitions(file) if os.path.isfile(file) else []:
            if name in own and text not in found.setdefault(file, set()):
                found[file].add(text)
                left += cited(text, file)
                left += [(file, word) for word in set(words_of(text)) - own for others, _ in definitions(file) if word in others]
    return found


def rows(part):
    """The rows of the table: files of model, their lines, files of graph, their lines."""
    return re.findall(r'^\| (\w[\w, ]*?)? *\| ([\d +]*?) *\| ([\w, ]*?) *\| ([\d +]*?) *\|$', part, re.M)


def specs_in(told):
    """The files that a sentence lists: Words and Script (unit_script)."""
    return [spec(crate, name) for files, crates in re.findall(r'((?:\w+(?:, | and )?)+) \(([\w, ]+)\)', told)
            for name in re.findall(r'[A-Z]\w*', files) for crate in re.findall(r'\w+', crates)]


def listed(theorems):
    """The files of definitions that THEOREMS lists: of model and graph, and of the crates of code."""
    part = theorems.split('## 5.')[1].split('\n## ')[0]
    ours = {spec(crate, name) for row in rows(part) for crate, cell in zip(('model', 'graph'), row[::2]) for name in re.findall(r'\w+', cell)}
    part = re.sub(r'\s+', ' ', part)
    code = {file for told in re.findall(r'(?:The code adds|Lines and answers as text|The program:).*?[\d,]+ lines', part) for file in specs_in(told)}
    return ours, code, part


def beliefs(theorems):
    """Whether THEOREMS lists what must be believed, and says how to read it."""
    found = believed()
    ours, code, part = listed(theorems)
    for file in sorted(found):
        yield None if file in ours | code else f'part 5 does not list {file}, which public contracts cite'
    for file in sorted(code - set(found)):
        yield f'part 5 lists {file}, which no public contract cites'
    for file in files_of(spec('model', '*'), 'crates/model/proofs/*.antt'):
        name = os.path.basename(file).split('.')[0]
        yield None if name == 'Lib' or re.search(rf'\b{name}\b', part) else f'part 5 does not name {name} of model'
    reading = theorems.split('## 1.')[1].split('\n## ')[0]
    text = '\n'.join(block for texts in found.values() for block in texts)
    signs = {sign for sign in text if ord(sign) > 127 and (unicodedata.category(sign) == 'Sm' or sign in 'ℕℤ')}
    for sign in sorted(signs) + [word for word in ('data', 'record', 'let', 'cond') if re.search(rf'\b{word}\b', text)]:
        yield None if sign in reading else f'part 1 does not say how to read {sign}'


# ---- README: the house

def house(readme):
    """Whether the listing of README has every crate, and no other."""
    listing = readme.split('## The house')[1].split('\n\n    try,')[0]
    rooms = [room for line in re.findall(r'^    ([a-z]\w*(?:\.\.)?(?:, [a-z]\w*(?:\.\.)?)*)  ', listing, re.M) for room in line.split(', ')]
    crates = [os.path.basename(folder) for folder in files_of('crates/*')]
    for room in rooms:
        there = [crate for crate in crates if crate == room or (room.endswith('_..') and crate.startswith(room[:-2]))]
        yield None if there else f'the house has a room {room}, and no such crate'
    for crate in crates:
        good = any(crate == room or (room.endswith('_..') and crate.startswith(room[:-2])) for room in rooms)
        yield None if good else f'the house has no room for {crate}'
    for word in re.findall(r'\b(?:card|pairs|search|unit|call|line|program)_[a-z]\w*', listing):
        yield None if word in crates else f'the house names {word}, which is no crate'


# ---- figures

def lines(*files):
    """LINES of definitions: of the paragraphs that define something, those that are no comment, import or blank line."""
    found = 0
    for file in files:
        for block in re.split(r'\n\s*\n', read(file) if os.path.isfile(file) else ''):
            if re.search(r'^(?:abbrev|unfoldable|pub record|pub data) ', block, re.M):
                found += sum(not re.match(r' *(?:--|use |pub use |unfolding |infix|$)', line) for line in block.split('\n'))
    return found


def spec(crate, name):
    return f'crates/{crate}/specs/{name}.antt'


def figures(theorems, theory, readme):
    """Pairs of what a figure is and whether it is right."""
    def told(document, form, value, what):
        found = re.findall(form, re.sub(r'\s+', ' ', document))
        good = len(found) == 1 and int(found[0].replace(',', '')) == value
        return None if good else f'{what} {"are told as " + found[0] if len(found) == 1 else "are not told once"}; they are {value:,}'

    part = theorems.split('## 5.')[1].split('\n## ')[0]
    sums = [0, 0]
    for row in rows(part):
        for crate, (files, counts) in enumerate((row[0:2], row[2:4])):
            for file, count in zip(re.findall(r'\w+', files), re.findall(r'\d+', counts)):
                value = lines(spec(('model', 'graph')[crate], file))
                sums[crate] += value
                yield None if value == int(count) else f'{file}: {count} lines are told, there are {value}'
    both = re.findall(r'\*\*together\*\* \| \*\*(\d+)\*\* \| *\| \*\*(\d+)\*\* \|', part)
    yield None if both == [(str(sums[0]), str(sums[1]))] else f'the sums are told as {both}; they are {sums}'
    for kind, begin in (('code', 'The code adds'), ('text', 'Lines and answers as text'), ('program', 'The program:')):
        sentence_of = re.search(re.escape(begin) + r'.*?([\d,]+) lines', re.sub(r'\s+', ' ', part))
        if sentence_of is None:
            yield f'part 5 has no figure for the {kind}'
            continue
        files = specs_in(sentence_of.group(0))
        yield from (f'{kind}: no such file: {file}' for file in files if not os.path.isfile(file))
        value = lines(*files)
        sums.append(value)
        yield None if value == int(sentence_of.group(1).replace(',', '')) else f'{kind}: {sentence_of.group(1)} lines are told, there are {value}'
    yield told(readme, r'\(([\d,]+) lines, \[listed\]', sum(sums), 'lines to believe (README)')
    graph = files_of('crates/graph/specs/*.antt', 'crates/graph/proofs/*.antt')
    every = sum(not re.match(r' *(?:--|use |pub use |$)', line) for file in graph for line in read(file).split('\n'))
    yield told(theory, r'It is ([\d,]+) lines without', every, 'lines of the theory')
    yield told(theory, r'of which ([\d,]+) are definitions', lines(*graph), 'lines of its definitions')


def main():
    os.chdir(ROOT)
    faults, right = [], 0
    found = [fault for file in files_of('docs/*.md') for fault in wide(file)]
    found += [('docs/SENTENCES.md', number, fault) for number, fault in sentences(read('docs/SENTENCES.md'))]
    found += [(document, number, fault) for document in DOCS for number, fault in names(read(document))]
    proofs = read('docs/PROOFS.md')
    above = proofs.index('\n## 5.') + 1
    found += [('docs/PROOFS.md', number + proofs.count('\n', 0, above), fault) for number, fault in names(proofs[above:])]
    found += [('docs/PROOFS.md', number, fault) for number, fault in quotations(proofs)]
    found += [('docs/MUTANTS.md', number, fault) for number, fault in survivors(read('docs/MUTANTS.md'))]
    for document in (*DOCS, 'docs/PROOFS.md', 'docs/SENTENCES.md'):
        found += [(document, number, fault) for check in (edits, commands) for number, fault in check(read(document))]
    for document in ('README.md', *files_of('docs/*.md')):
        found += [(document, number, fault) for number, fault in links(document, read(document))]
        if document != 'docs/LANDINGS.md':
            found += [(document, number, fault) for number, fault in paths(read(document))]
    found += [*titles(), *counts()]
    found += [('docs/THEOREMS.md', 0, fault) for fault in beliefs(read('docs/THEOREMS.md'))]
    found += [('README.md', 0, fault) for fault in house(read('README.md'))]
    found += [('figures', 0, fault) for fault in figures(read('docs/THEOREMS.md'), read('docs/THEORY.md'), read('README.md'))]
    for document, number, fault in found:
        if fault is None:
            right += 1
        else:
            faults.append(f'{document}:{number}: {fault}' if number else f'{document}: {fault}')
    print(*faults, sep='\n', end='\n' if faults else '')
    print(f'sentences: {right} names and figures are those of the tree, {len(faults)} are not')
    return 1 if faults or not right else 0


if __name__ == '__main__':
    sys.exit(main())
