#!/usr/bin/env python3
"""Brings the repository's own definitions and lemmas to the spelling of today's Rattle.

usage: python3 tools/respell.py     at the top of the repository, once, after the kit's port.py

What is defined in specs/ and proofs/ under a name like `lastWhole` or `last-classed` becomes `last_whole` and
`last_classed`, wherever it is cited: specs, proofs, ghost lines and clauses of src/, and names in backticks in the
documents. Names that begin with a capital, names that Rattle makes, names of Rust functions, strings and outputs stay.
A lemma whose name would fall together with a definition's gets `_lem`.
"""
import glob
import re
import sys

SPECS = sorted(glob.glob('crates/*/specs/**/*.antt', recursive=True))
LEMMAS = sorted(glob.glob('crates/*/proofs/*.antt'))
ANSWERS = sorted(set(glob.glob('crates/*/proofs/**/*.antt', recursive=True)) - set(LEMMAS))
SOURCES = sorted(glob.glob('crates/*/src/**/*.rt', recursive=True))
PAGES = sorted(glob.glob('docs/*.md') + ['README.md'])

SIGNATURE = re.compile(r'^\s*(?:abbrev |unfoldable )*(?:pub )?(?:record |data )?([^\s(){}:;,.]+)(?: [({].*[)}])? :(?=\s|$)')
# A name: a run without blanks and punctuation. The dot joins the names of a path, so it ends one.
NAME = re.compile(r'[^\s(){}\[\]:;,.`"]+')


def defined(path):
    """The names that a file defines; in a function's own proof folder only those that are not goals."""
    for line in open(path, encoding='utf-8'):
        found = SIGNATURE.match(line)
        if found and not re.search(r': goal\.', line):
            yield found.group(1)


def respelled(name):
    if not re.match('[a-z]', name):
        return name
    name = re.sub(r'([a-z0-9])([A-Z])', lambda k: k.group(1) + '_' + k.group(2).lower(), name)
    return re.sub(r'(?<=[^-])-(?=[^-])', '_', name)


def renaming():
    """The old names with their new ones."""
    definitions = {n for f in SPECS for n in defined(f)}
    lemmas = {n for f in LEMMAS + ANSWERS for n in defined(f)}
    names = {n: respelled(n) for n in definitions | lemmas}
    taken = {new for old, new in names.items() if '-' not in old}
    for old in sorted(names):
        if '-' in old and names[old] in taken:
            names[old] += '_lem'
    fall = {}
    for old, new in names.items():
        fall.setdefault(new, []).append(old)
    clashes = {new: olds for new, olds in fall.items() if len(olds) > 1}
    if clashes:
        sys.exit(f'respell: these names fall together: {clashes}')
    return {old: new for old, new in names.items() if old != new}


def turned(text, names):
    return NAME.sub(lambda k: names.get(k.group(0), k.group(0)), text)


def turned_source(line, names):
    """A line of Rust. One with a string is left alone, unless it is a ghost line, since a string keeps its words."""
    return line if '"' in line and 'ghost' not in line else turned(line, names)


def turned_page(text, names):
    return re.sub(r'`[^`\n]+`', lambda k: turned(k.group(0), names), text)


def rewrite(path, change):
    with open(path, encoding='utf-8') as f:
        old = f.read()
    new = change(old)
    if new != old:
        with open(path, 'w', encoding='utf-8') as f:
            f.write(new)


def main():
    names = renaming()
    for path in SPECS + LEMMAS:
        rewrite(path, lambda text: turned(text, names))
    # in a function's own folder the names of goals stay: they are Rattle's
    for path in ANSWERS:
        rewrite(path, lambda text: turned_answers(text, names))
    for path in SOURCES:
        rewrite(path, lambda text: ''.join(turned_source(line, names) for line in text.splitlines(keepends=True)))
    for path in PAGES:
        rewrite(path, lambda text: turned_page(text, names))
    print(f'respell: {len(names)} names')


def turned_answers(text, names):
    goals = set(re.findall(r'goal\.([^\s(){}\[\]:;,.`"]+)', text))
    # fields of the known facts, as `c.loop-s.invariant`, and goals are made by Rattle
    made = goals | set(re.findall(r'\b[cgwl]\.([^\s(){}\[\]:;,.`"]+)', text))
    kept = {old: new for old, new in names.items() if old not in made}
    return turned(text, kept)


if __name__ == '__main__':
    main()
