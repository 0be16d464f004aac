#!/usr/bin/env python3
"""Makes the picture of the crates in docs/ARCHITECTURE.md from crates.txt: prints it, or with --write puts it into the page.

A crate stands one layer above the highest of the crates that it rests on; what is not of the repository is no layer. The purpose is the first
sentence of the comment at the head of its code."""
import re
import sys
import textwrap

sys.dont_write_bytecode = True  # nothing is left beside the sources
import pages

BEGIN, END = '<!-- made by tools/layers.py -->\n', '<!-- end -->\n'
WIDTH = 156


def layers():
    """The layer of each crate, by its name."""
    found = {}
    for name, used in pages.crates():
        found[name] = 1 + max((found[other] for other in used if other in found), default=0)
    return found


def purpose(crate):
    said = ' '.join(pages.head_comment(crate))
    first = re.split(r'\.(?= [A-Z]|$)', said.removeprefix('No code: this crate '))[0]
    return ('(no code) ' if said.startswith('No code: ') else '') + first


def main():
    found = layers()
    widest = max(map(len, found))
    lines = []
    for layer in range(max(found.values()), 0, -1):
        for k, name in enumerate(name for name in found if found[name] == layer):
            margin = f'{layer if k == 0 else "":>2}  {name:<{widest}}  '
            lines += textwrap.wrap(purpose(name), WIDTH, initial_indent=margin, subsequent_indent=' ' * len(margin), break_on_hyphens=False)
    made = BEGIN + '```\n' + '\n'.join(line.rstrip() for line in lines) + '\n```\n' + END
    page = ('docs', 'ARCHITECTURE.md')
    text = pages.read(*page)
    start, end = text.index(BEGIN), text.index(END) + len(END)
    pages.finish(page, made, text[start:end])


main()
