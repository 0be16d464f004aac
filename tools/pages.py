"""What the tools that make pages share: the crates in their order, the comments of sources, and printing or writing a page."""
import os
import sys

ROOT = os.path.normpath(os.path.join(os.path.dirname(os.path.abspath(__file__)), '..'))


def read(*path):
    """The text of a file of the repository."""
    with open(os.path.join(ROOT, *path), encoding='utf-8') as file:
        return file.read()


def files_in(*folder, extension):
    """The names of the files of a folder of the repository, sorted; none where the folder is not there."""
    path = os.path.join(ROOT, *folder)
    return sorted(name for name in os.listdir(path) if name.endswith(extension)) if os.path.isdir(path) else []


def crates():
    """(name, the crates that it rests on) of each line of crates.txt, bottom up. Behind the name may stand `staticlib`."""
    lines = [line for line in read('crates.txt').splitlines() if line and not line.startswith('#')]
    return [(name.split()[0], used.split()) for name, used in (line.split(':', 1) for line in lines)]


def edit(text):
    """(words, [(file, old, new), ..]) of a must-fail edit: lines that begin with `#`, `file: `, `old: ` and `new: `; a file stands for all pairs behind it."""
    words, pairs, file, old = [], [], None, None
    for line in text.splitlines():
        key, _, value = line.partition(' ')
        if key == 'file:':
            file = value.strip()
        elif key == 'old:':
            old = value
        elif key == 'new:':
            pairs.append((file, old, value))
        elif line.startswith('#'):
            words.append(line[1:].strip())
        elif line.strip():
            raise ValueError(f'a line of an edit that nothing reads: {line}')
    return ' '.join(words), pairs


def comment_lines(lines):
    """The comment that these lines begin with, without its slashes."""
    comment = []
    for line in lines:
        if not line.strip().startswith('//'):
            break
        comment.append(line.strip()[2:].strip())
    return comment


def head_comment(crate):
    """The comment at the head of the crate's code, up to its first blank line."""
    name = 'lib.rt' if 'lib.rt' in files_in('crates', crate, 'src', extension='.rt') else 'main.rt'
    comment = comment_lines(read('crates', crate, 'src', name).splitlines())
    return comment[:comment.index('')] if '' in comment else comment


def finish(page, made, old=None):
    """Prints what was made, or with --write puts it into the page. `old` is the part of the page that it takes the place of, all if None."""
    if sys.argv[1:] not in ([], ['--write']):
        sys.exit(f'usage: {sys.argv[0]} [--write]')
    if len(sys.argv) == 1:
        sys.stdout.buffer.write(made.encode())
        return
    text = made if old is None else read(*page).replace(old, made)
    with open(os.path.join(ROOT, *page), 'w', encoding='utf-8') as file:
        file.write(text)
