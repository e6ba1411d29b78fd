#!/usr/bin/env python3
"""Run once, after port.py, at the top: brings this repository's own definitions and lemmas to today's spelling, which port.py leaves to the
repository (snake case; a dash joins two names, `_` a plain word). It goes by text, over crates/ alone:

  - names that specs/*.antt and proofs/*.antt define are respelled there, where a file imports them, and in clauses;
  - in a function's own proof files only what is imported from those, the fields of records, and the proof's own name, `f_spec`;
  - names that fall together get `_lem` behind the one that had dashes.

usage: port_names.py [FOLDER]      with --list: only prints the names, old and new"""
import os
import re
import sys

SEP = r"\s(){}\[\];,.:\"`"
TOKEN = re.compile(r"[^" + SEP + r"]+")
DEFINES = re.compile(r"^(\s*)((?:(?:abbrev|unfoldable|pub|data|record|ruleset)\s+)*)([^" + SEP + r"]+)(?=\s*(:(?!=)|\(|\{| where|$))")
WORDS = set("use module elim let in where record data pub abbrev mod λ _ -- unfolding unfold | ↦ = ruleset open Type".split())
# words of the library that stand in lemmas' names
LIBRARY = set("length append take drop set min max replicate map mem reverse concat filter zip get_or none some cons nil suc zero".split())


def texts(root):
    for folder, folders, files in os.walk(os.path.join(root, 'crates')):
        folders[:] = sorted(f for f in folders if f != 'out')
        for name in sorted(files):
            if name.endswith(('.rt', '.antt')):
                yield os.path.join(folder, name)


def place(root, path):
    """'rt', 'shared' (specs and lemma files) or 'own' (the files of a function's proof)."""
    parts = os.path.relpath(path, root).split(os.sep)
    if path.endswith('.rt'):
        return 'rt'
    return 'shared' if parts[2] == 'specs' or len(parts) == 4 else 'own'


def snake(part):
    if not re.search(r'[a-z0-9][A-Z]', part) or part[0].isupper():
        return part
    return re.sub(r'(?<=[a-z0-9])([A-Z])', lambda m: '_' + m.group(1).lower(), part)


def definitions(text):
    """Names that a file defines, and of these the fields of its records."""
    names, fields, record = [], set(), None
    for line in text.split('\n'):
        if line.lstrip().startswith('--') or not line.strip():
            continue
        indent = len(line) - len(line.lstrip())
        if record is not None and indent <= record:
            record = None
        found = DEFINES.match(line)
        if found:
            typed = re.search(r'\b(data|record)\b', found.group(2))
            if found.group(4).startswith(':') or typed:
                name = found.group(3)
                if name not in WORDS:
                    names.append(name)
                    if record is not None:
                        fields.add(name)
        if re.match(r'\s*(pub )?record\s', line) and 'where' in line:
            record = indent
    return names, fields


def spelling(names, scopes):
    """Old and new names. scopes: of each file the names that it sees; two names of one scope that fall together are told apart by `_lem`
    behind the one that is no definition in camel case."""
    plain = {snake(n) for n in names if '-' not in n} | LIBRARY
    new = {}
    for name in sorted(names):
        if name.startswith('+') or name[0].isupper() or not re.search(r"-|[a-z0-9][A-Z]", name):
            continue
        parts = [snake(p) for p in name.split('-')]
        if '' in parts:
            continue
        made = parts[0]
        for i in range(1, len(parts)):
            left, right = made, '_'.join(parts[i:])
            symbol = not re.match(r'\w', parts[i]) or not re.search(r'\w$', left)
            dash = symbol or (left in plain and right in plain)
            made += ('-' if dash else '_') + parts[i]
        if made != name:
            new[name] = made
    sharing = {}
    for name in sorted(names):
        sharing.setdefault(new.get(name, name), []).append(name)
    for made, old in sorted(sharing.items()):
        # a definition in camel case keeps the plain name, then what had it already
        old.sort(key=lambda n: (not re.search(r'[a-z0-9][A-Z]', n) or '-' in n, n != made, n))
        for i, name in enumerate(old[1:], 1):
            if any(name in seen and other in seen for other in old[:i] for seen in scopes.values()):
                new[name] = made + '_lem'
    return new


def imported(text):
    """Names that the file takes from modules of this repository, those that it takes from elsewhere, and aliases of the former."""
    own, other = set(), set()
    for module, listed in re.findall(r'(?:ghost )?use ([^\s{;]+?)\.?\{([^}]*)\}', text):
        into = own if re.match(r'Rattle\.(?!std\b)\w+\.(specs|proofs)\b', module) else other
        for item in listed.split(','):
            words = item.split()
            if words:
                into.add(words[0])
                into.add(words[-1])
    return own, other


def main():
    listing = '--list' in sys.argv
    folders = [a for a in sys.argv[1:] if not a.startswith('--')]
    root = folders[0] if folders else '.'
    files = {p: open(p, encoding='utf-8').read() for p in texts(root)}
    names, fields = set(), set()
    for path, text in files.items():
        if place(root, path) == 'shared':
            n, f = definitions(text)
            names |= set(n)
            fields |= f
    scopes = {}
    for path, text in files.items():
        seen = set(imported(text)[0])
        if place(root, path) == 'shared':
            seen |= set(definitions(text)[0])
        scopes[path] = seen
    new = spelling(names, scopes)
    if listing:
        for name in sorted(new):
            print(name, new[name], '(field)' if name in fields else '')
        return
    for path, text in files.items():
        kind = place(root, path)
        own, other = imported(text)
        if kind == 'shared':
            there = set(new) - (other - own)
        else:
            there = {n for n in new if n in own}

        def one(match):
            token = match.group(0)
            before = text[:match.start()]
            dotted = before.endswith('.')
            if kind == 'rt':
                if token in new and (token in there or dotted) and re.search(r'[A-Z]|-', token):
                    return new[token]
                return token
            if token in there or token in new and (dotted or kind == 'own') and token in fields:
                return new[token]
            if token in new and dotted and re.search(r'[a-z][A-Z]', token):
                return new[token]
            if kind == 'own' and token.endswith('-spec') and not dotted:
                return token.replace('-', '_')
            return token

        made = TOKEN.sub(one, text)
        if made != text:
            with open(path, 'w', encoding='utf-8') as out:
                out.write(made)


if __name__ == '__main__':
    main()
