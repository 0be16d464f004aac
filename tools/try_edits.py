#!/usr/bin/env python3
"""Tries must-fail edits and keeps all that the checker says of each; `rt ci` and `rt must-fail` print the beginning alone.

    tools/try_edits.py [CRATE..]      the edits of these crates, else of all

Each is made in a copy of the crates, whose check begins with what `rt check` kept here. What it says stands then in target/must-fail/CRATE/EDIT/.log,
and `tools/refused_at_facts target/must-fail` judges that."""
import os
import shutil
import subprocess
import sys
import tempfile

sys.dont_write_bytecode = True  # nothing is left beside the sources
import pages

LOGS = os.path.join(pages.ROOT, 'target', 'must-fail')


def edited(pairs, folder):
    """The texts of the files of a crate as the edit makes them, and as they were, by their paths."""
    texts, was = {}, {}
    for file, old, new in pairs:
        path = os.path.join(folder, file)
        if path not in texts:
            with open(path, encoding='utf-8') as source:
                texts[path] = was[path] = source.read()
        if texts[path].count(old) != 1:
            raise ValueError(f'`{old}` stands in {file} {texts[path].count(old)} times, and not once')
        texts[path] = texts[path].replace(old, new)
    return texts, was


def write(texts):
    for path, text in texts.items():
        with open(path, 'w', encoding='utf-8') as source:
            source.write(text)


def tried(crate, name, folder):
    """What the checker says of the crate in this folder with the edit made."""
    try:
        texts, was = edited(pages.edit(pages.read('crates', crate, 'must-fail', name))[1], folder)
    except (OSError, ValueError) as error:
        return f'it cannot be made: {error}\n'
    write(texts)
    how = {'cwd': folder, 'stdin': subprocess.DEVNULL, 'stdout': subprocess.PIPE, 'stderr': subprocess.STDOUT}
    ran = subprocess.run(['rt', 'check'], check=False, text=True, errors='replace', **how)
    write(was)
    return ran.stdout


def main():
    names = sys.argv[1:] or [crate for crate, _ in pages.crates()]
    with tempfile.TemporaryDirectory() as room:
        shutil.copyfile(os.path.join(pages.ROOT, 'crates.txt'), os.path.join(room, 'crates.txt'))
        shutil.copytree(os.path.join(pages.ROOT, 'crates'), os.path.join(room, 'crates'), ignore=shutil.ignore_patterns('out', 'must-fail', 'data'))
        for crate in names:
            shutil.rmtree(os.path.join(LOGS, crate), ignore_errors=True)
            for name in pages.files_in('crates', crate, 'must-fail', extension='.edit'):
                log = tried(crate, name, os.path.join(room, 'crates', crate))
                to = os.path.join(LOGS, crate, name.removesuffix('.edit'))
                os.makedirs(to)
                with open(os.path.join(to, '.log'), 'w', encoding='utf-8') as file:
                    file.write(log)
                print(f'{crate}/{name}: {log.splitlines()[-1] if log.startswith("it cannot") else "tried"}', flush=True)


main()
