#!/usr/bin/env python3
"""Makes docs/CONTRACTS.md from the sources of the crates and from tools/contracts.md: prints it, or with --write writes it.

Of each crate: the comment at the head of its code, what tools/contracts.md says of it in words, and each public function with its comment, its
signature and what it ensures, as they stand in the source."""
import re
import sys

sys.dont_write_bytecode = True  # nothing is left beside the sources
import pages

HEAD = """# Contracts

Made by `tools/contracts.py` from `crates/*/src` and, for the words, from `tools/contracts.md`; do not edit it by hand, but run
`python3 tools/contracts.py --write`.

What every public function of every crate ensures, bottom up. None has a `requires`. `result` is what the function returns, and `s.now` is what the
lent `s` holds; where `s` is lent to be changed, `s.old` is what it holds when the function is called, `s.new` when it returns. A clause may have a
name, behind `ensures`. The other names in a contract are definitions of `specs/`, of the crate itself or of one below it;
each name is defined in one crate only. Functions that are `pub` for the other files of their crate alone are listed too; only their contracts
may name definitions of `specs/Workings`. "In words" says what contracts say together, which laws of `proofs/Laws` go with them, and which wrong
answers the kept edits stand for ([EDITS.md](EDITS.md) has each of them as it is made). Files are given from the crate's folder on.
"""

FUNCTION = re.compile(r'( *)pub (?:extern "C" )?fn (\w+)')


def words_by_crate():
    """The sections of tools/contracts.md, by the crate that heads each."""
    sections = re.split(r'^## `(\w+)`\n', pages.read('tools', 'contracts.md'), flags=re.MULTILINE)
    return dict(zip(sections[1::2], (text.strip() for text in sections[2::2])))


def head_from(lines, indent):
    """The signature and the clauses that these lines begin with: all before the brace that opens the body."""
    head = []
    for line in lines:
        if line == indent + '{':
            return head
        head.append(line.removeprefix(indent))
        if line.endswith(' {') and line.startswith((indent + 'pub', indent + ')')):
            return head[:-1] + [head[-1].removesuffix(' {')]
    raise ValueError(f'a function without a body: {lines[0]}')


def comment_above(lines):
    """The comment that ends these lines, behind which attributes may stand."""
    above = [line for line in reversed(lines) if not line.strip().startswith('#[')]
    return list(reversed(pages.comment_lines(above)))


def functions_in(text):
    """(name, comment, head) of each public function of a source."""
    lines, holder = text.splitlines(), ''
    for k, line in enumerate(lines):
        if line and not line.startswith((' ', '}')):
            opened = re.match(r'impl (\w+)', line)
            holder = opened[1] + '::' if opened else ''
        found = FUNCTION.match(line)
        if found:
            yield (holder if found[1] else '') + found[2], comment_above(lines[:k]), head_from(lines[k:], found[1])


def section(crate, words):
    parts = [f'## `{crate}`\n', '\n'.join(pages.head_comment(crate)) + '\n']
    if words:
        parts.append(f'### In words: `{crate}`\n\n{words}\n')
    for file in pages.files_in('crates', crate, 'src', extension='.rt'):
        functions = list(functions_in(pages.read('crates', crate, 'src', file)))
        if functions:
            parts.append(f'### `crates/{crate}/src/{file}`\n')
        for name, comment, head in functions:
            parts.append('\n'.join([f'**`{name}`** {line}'.rstrip() if k == 0 else line for k, line in enumerate(comment or [''])]) + '\n')
            parts.append('\n'.join(['```', *head, '```', '']))
    return '\n'.join(parts)


def main():
    words = words_by_crate()
    names = [crate for crate, _ in pages.crates()]
    unknown = sorted(set(words) - set(names))
    if unknown:
        raise SystemExit(f'tools/contracts.md speaks of what is no crate: {unknown}')
    pages.finish(('docs', 'CONTRACTS.md'), '\n'.join([HEAD, *(section(crate, words.get(crate)) for crate in names)]))


main()
