#!/usr/bin/env python3
"""Brings the repository's own definitions and lemmas to today's spelling: words in snake case, a dash only between the names of two
functions, as `length-drop`.

    tools/respell.py make     from the files at hand, writes tools/spelling.tsv: the old and the new name, a line each
    tools/respell.py          respells by tools/spelling.tsv

Names of src/ (functions, types, constants, fields), exported names and texts are no names of this list. A lemma whose new name would be
that of a definition ends in `_lem`.
"""
import collections
import glob
import re
import sys

LIST = 'tools/spelling.tsv'
# What makes up a name in antt.
LETTER = r"[^\s(){}\[\],;:.@\"`λ∷]"
TOKEN = re.compile(LETTER + '+')
TEXT = re.compile(r'"[^"]*"')
# Functions of the library whose names stand in names of lemmas.
LIBRARY = {'length', 'append', 'take', 'drop', 'map', 'set', 'paste', 'get_or', 'min', 'add', 'sub', 'mul'}


def antt_files():
    found = glob.glob('crates/*/specs/**/*.antt', recursive=True) + glob.glob('crates/*/proofs/**/*.antt', recursive=True)
    return sorted(f for f in found if '/out/' not in f)


def declared():
    """Each name that a file of definitions or lemmas declares, with the ranks of its declarations: 0 and 1 in specs/, 0 and 2 compute."""
    names = collections.defaultdict(set)
    for f in antt_files():
        if f.endswith('/Proof.antt'):
            continue
        for line in open(f):
            m = re.match(r'\s*((?:(?:abbrev|unfoldable|pub|private)\s+)*)(' + LETTER + r'+)\s*(?:[({][^)}]*[)}]\s*)*:\s', line)
            if not line.lstrip().startswith('--'):
                # A variable, too.
                for n in TOKEN.findall(TEXT.sub('', line.split(' -- ')[0])):
                    if re.match(r"[a-z]\w*[A-Z]|[a-zA-Z][\w']*-[a-zA-Z]", n):
                        names[n].add(4)
            if m and not line.lstrip().startswith('--') and m.group(2) not in ('where', 'record', 'data', 'let', 'in'):
                computes, agreed = re.search(r'abbrev|unfoldable', m.group(1)), '/specs/' in f
                names[m.group(2)].add(0 if computes and agreed else 1 if agreed else 2 if computes else 3)
    return names


def foreign():
    """Each name that a file takes from a library of the kit."""
    taken = set()
    for f in antt_files():
        for m in re.finditer(r'^use ([\w.]+)\.\{([^}]*)\}', open(f).read(), re.M):
            own = m.group(1).startswith('Rattle.') and not m.group(1).startswith('Rattle.std.')
            if not own:
                taken.update(n.strip() for n in m.group(2).split(','))
    return taken


def snake(name):
    """camelCase as snake_case; names such as cRLSign begin with an acronym."""
    name = re.sub(r'^cRL', 'crl', name)
    name = re.sub(r'(?<=[a-z0-9])(?=[A-Z])', '_', name)
    return name[0] + name[1:].lower() if name[0].isupper() else name.lower()


def respelt(name, functions):
    """The new name. A capital at the front stays: it is a type's or a fact's."""
    if not re.search(r"[a-zA-Z]", name) or '◌' in name:
        return name
    parts = name.split('-')
    if len(parts) == 1 and name[0].isupper():
        return name
    parts = [p if p[:1].isupper() else snake(p) for p in parts]
    if len(parts) > 1 and all(p in functions for p in parts):
        return '-'.join(parts)
    return '_'.join(parts)


def make():
    names, theirs = declared(), foreign()
    functions = LIBRARY
    new, made = {}, collections.defaultdict(list)
    for n in sorted(names):
        new[n] = n if n in theirs else respelt(n, functions)
        made[new[n]].append(n)
    for n, olds in made.items():
        if len(olds) < 2 and n not in (theirs - set(olds)):
            continue
        # The definition keeps the plain name.
        olds.sort(key=lambda o: (min(names[o]), o != n, o))
        for o in olds[(0 if n in theirs and n not in olds else 1):]:
            new[o] = n + '_lem'
            print('falls together:', o, 'becomes', new[o], 'beside', n, file=sys.stderr)
    again = collections.Counter(new.values())
    for n, times in again.items():
        if times > 1:
            print('still together:', n, [o for o in new if new[o] == n], file=sys.stderr)
    # What stands behind a dot only is a name that Rattle makes.
    with open(LIST, 'w') as out:
        for n in sorted(new):
            if new[n] != n:
                out.write(n + '\t' + new[n] + '\n')


def respell():
    new = dict(line.rstrip('\n').split('\t') for line in open(LIST))

    def word(m):
        return new.get(m.group(0), m.group(0))

    def words(line):
        """Names alone: a text in quotes stays."""
        parts = re.split(r'("[^"]*")', line)
        return ''.join(p if p.startswith('"') and len(p) > 1 else TOKEN.sub(word, p) for p in parts)

    def antt(text):
        return '\n'.join(words(line) for line in text.split('\n'))

    def source(text):
        """The ghost lines of a .rt file: imports and clauses, each of which may go on over lines until its bracket closes."""
        out, depth, ghost = [], 0, False
        for line in text.split('\n'):
            begins = re.match(r'\s*(ghost |requires|ensures|invariant|pub ghost )', line)
            if begins and not ghost:
                ghost, depth = True, 0
            if ghost:
                line = words(line)
                depth += line.count('{') - line.count('}')
                if depth <= 0 and ('}' in line or ';' in line or ',' in line):
                    ghost = False
            out.append(line)
        return '\n'.join(out)

    changed = 0
    for f in antt_files() + sorted(glob.glob('crates/*/src/**/*.rt', recursive=True)):
        old = open(f).read()
        now = antt(old) if f.endswith('.antt') else source(old)
        if now != old:
            open(f, 'w').write(now)
            changed += 1
    print('respelt:', changed, 'files')


if __name__ == '__main__':
    make() if sys.argv[1:] == ['make'] else respell()
