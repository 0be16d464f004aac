#!/usr/bin/env python3
"""Makes docs/EDITS.md from crates/*/must-fail: prints it, or with --write writes it."""
import sys

sys.dont_write_bytecode = True  # nothing is left beside the sources
import pages

HEAD = """# Must-fail edits

Made by `tools/edits.py` from `crates/*/must-fail`; do not edit it by hand, but run `python3 tools/edits.py --write`.

Each edit makes a wrong program, or a wrong definition. In the gate `rt ci` makes it, checks its crate, and asks that the check fails;
`tools/refused_at_facts` asks that it fails first at a fact. The words are the edit's own: what is right, or what is wrong with it.
What was tried once and is not kept stands in [TRIED.md](TRIED.md).
"""


def shown(name, text):
    words, pairs = pages.edit(text)
    files = ', '.join(f'`{file}`' for file in dict.fromkeys(file for file, _, _ in pairs))
    changes = [line for _, old, new in pairs for line in (f'- {old}', f'+ {new}')]
    return '\n'.join([f'**`{name}`** in {files}: {words}.', '', '```diff', *changes, '```', ''])


def main():
    sections, count = [], 0
    for crate, _ in pages.crates():
        names = pages.files_in('crates', crate, 'must-fail', extension='.edit')
        if names:
            sections.append(f'## `{crate}`\n')
        for name in names:
            sections.append(shown(name.removesuffix('.edit'), pages.read('crates', crate, 'must-fail', name)))
        count += len(names)
    pages.finish(('docs', 'EDITS.md'), '\n'.join([HEAD, f'There are {count}.\n', *sections]))


main()
