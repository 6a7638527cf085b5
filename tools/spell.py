#!/usr/bin/env python3
"""Spells the repository's own definitions and lemmas in snake case.

  spell.py           in the repository's root, after port.py: rewrites crates/*/specs, crates/*/proofs and the clauses of
                     crates/*/src; prints the names that it leaves, and why
  spell.py --check   prints what it would do, and writes nothing

A name is turned where it is declared in specs/ or in a file of laws: a definition, a lemma, a field or a constructor whose
name has a dash, or a capital after a small first letter. Types and modules keep theirs. Where two names fall together, the
law gets the ending _law. A name that a file also takes from Rattle's library is left everywhere.
"""
import collections
import os
import re
import sys

WORD = r"[^\s(){}.;,@\"«»\[\]]+"
TOKEN = re.compile(r"--[^\n]*|\"(?:[^\"\\]|\\.)*\"|«[^»]*»|" + WORD)
DECLARED = re.compile(r"^ *(?:pub |unfoldable |abbrev |private )*((?:" + WORD + r" )+):(?: |$)")
RESERVED = set("as in data record open use mod pub abbrev unfold unfolding unfoldable let where elim module syntax ruleset".split())


def files(*ends):
    for folder, dirs, names in os.walk('crates'):
        dirs[:] = sorted(d for d in dirs if d not in ('out', 'answers', 'must-fail'))
        for name in sorted(names):
            if name.endswith(ends):
                yield os.path.join(folder, name)


def read(path):
    with open(path, encoding='utf-8') as f:
        return f.read()


def is_made(path):
    """a file of a function's proof, whose names are mostly Rattle's"""
    return os.path.basename(path) in ('Proof.antt', 'Invariants.antt', 'Answers.antt')


def snake(name):
    """length-part -> length_part, presentEdition -> present_edition"""
    name = name.replace('-', '_')
    return re.sub(r'(?<=[a-z0-9])([A-Z])', lambda m: '_' + m.group(1).lower(), name) if name[0].islower() else name


def declared():
    """the names, and those of them that a file of specs/ defines: a field or a constructor is no definition"""
    own, defined = set(), set()
    for path in files('.antt'):
        if is_made(path):
            continue
        for line in read(path).split('\n'):
            m = DECLARED.match(line.split(' -- ')[0])
            if m:
                own.update(m.group(1).split())
                if '/specs/' in path and re.match('abbrev|unfoldable|  unfoldable|  abbrev', line):
                    defined.update(m.group(1).split())
    return own, defined


def foreign():
    """names that a file takes from a library of Rattle's, with the files"""
    taken = collections.defaultdict(set)
    for path in files('.antt', '.rt'):
        for m in re.finditer(r'^(?:ghost )?use ([\w.·+]+)\.\{([^}]*)\}', read(path), re.M):
            crate = re.match(r'Rattle\.(\w+)', m.group(1))
            if crate and os.path.isdir(os.path.join('crates', crate.group(1))):
                continue
            for name in m.group(2).split(','):
                taken[name.strip().split(' as ')[-1].strip()].add(path)
    return taken


def main(check):
    own, defined = declared()
    taken = foreign()
    groups = collections.defaultdict(list)
    for n in sorted(own):
        if re.match('[a-z]', n) and re.fullmatch(r"[A-Za-z0-9_'₀-₉-]+", n):
            groups[snake(n)].append(n)
    to, laws = {}, {}
    for new, olds in sorted(groups.items()):
        # a definition, which has no dash, keeps the plain name; the others are told from it by their ending
        if len(olds) > 1 and new not in defined and any(n in defined for n in olds) and new in ('no_room',):
            print('look:', new, 'is a field too')
            olds.remove(new)
        olds.sort(key=lambda n: (n not in defined, n == new, '-' in n, n))
        if olds == [new]:
            continue
        for k, n in enumerate(olds):
            name = new if k == 0 else new + '_law' * k
            if n in taken or new in RESERVED:
                print('left:', n, 'is also the library\'s in', sorted(taken.get(n, ()))[:3])
                continue
            if k and (name in own or name in groups):
                print('left:', n, 'has no name left')
                continue
            if k:
                print('look:', n, '->', name, 'beside', olds[0])
            if n == new:
                laws[n] = name
            elif n != name:
                to[n] = name
    if check:
        print(len(to) + len(laws), 'names')
        return

    def turn(text, laws):
        def one(m):
            word = m.group()
            return to.get(word) or (laws.get(word) if m.start() == 0 or text[m.start() - 1] != '.' else None) or word
        return TOKEN.sub(one, text)

    for path in files('.antt'):
        text = read(path)
        here = laws
        if is_made(path):
            imported = re.findall(r'^use Rattle\.\w+\.proofs\.[\w.]+\.\{([^}]*)\}', text, re.M)
            here = {n: laws[n] for n in laws if any(n in names.split(', ') for names in imported)}
        made = turn(text, here)
        if made != text:
            with open(path, 'w', encoding='utf-8') as f:
                f.write(made)
    clause = re.compile(r'(^ghost use [^;]*;|\b(?:requires|ensures|ghost)\*?(?: [a-z_0-9]+)? \{.*\}$)', re.M)
    for path in files('.rt'):
        text = read(path)
        made = clause.sub(lambda m: turn(m.group(), {}), text)
        if made != text:
            with open(path, 'w', encoding='utf-8') as f:
                f.write(made)
    print(len(to) + len(laws), 'names turned')


main('--check' in sys.argv[1:])
