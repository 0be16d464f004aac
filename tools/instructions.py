#!/usr/bin/env python3
"""Counts the instructions that a record costs in a listing: `decklint` (proved) against `list_deck` (reference).

    tools/instructions.py                            the table of docs/BENCHMARKS.md, "A record in the listing"
    tools/instructions.py --reference PROGRAM        the same with this build of list_deck
    tools/instructions.py --functions ROW [PROGRAM]  where they go, by function, in a row of the table (1 to 9)

A deck has one record of samples/night.deck over and over; a record's count is (10 records less 5) / 5, so that the
start and the end of the process drop out. Valgrind's callgrind counts, on an x86-64 machine, for which the programs are made.
"""

import collections
import re
import subprocess
import sys
import tempfile
from pathlib import Path

ROOT = Path(__file__).resolve().parent.parent
DECKLINT = ROOT / "crates/decklint/out/decklint"
LIST_DECK = ROOT / "target/cargo/release/list_deck"
BLOCK = 512

# What stands in the table, the record of the sample, and the block of it that is spoiled.
ROWS = [
    ("1: profile 1, clean", 1, None),
    ("2: profile 2, clean", 2, None),
    ("3: profile 3, clean", 3, None),
    ("4: profile 1, one finding", 4, None),
    ("6: profile 2, two findings", 6, None),
    ("8: profile 3, four findings", 8, None),
    ("15: profile 4, clean", 15, None),
    ("16: profile 4, six findings", 16, None),
    ("1 with its second block unsound: four lost blocks", 1, 1),
]


def record_of(number, spoiled):
    """The blocks of a record of the sample: octets 0 to 3 of a block are its number."""
    deck = (ROOT / "samples/night.deck").read_bytes()
    blocks = [deck[at : at + BLOCK] for at in range(0, len(deck) - BLOCK + 1, BLOCK)]
    mine = [bytearray(block) for block in blocks if int.from_bytes(block[:4], "big") == number]
    if spoiled is not None:
        mine[spoiled][300] ^= 1
    return b"".join(mine)


def counted(program, deck):
    """How many instructions were run, by function and in all, as callgrind says it."""
    if not program.is_file():
        sys.exit(f"there is no {program}: build it first (docs/BENCHMARKS.md says how)")
    with tempfile.TemporaryDirectory() as folder:
        out = Path(folder) / "counted"
        command = ["valgrind", "--tool=callgrind", f"--callgrind-out-file={out}", program]
        done = subprocess.run(command, input=deck, capture_output=True, check=False)
        if done.returncode != 0:
            sys.exit(f"{command} ended with {done.returncode}: {done.stderr[-400:].decode(errors='replace')}")
        lines = out.read_text(errors="replace").splitlines()
    total = next(int(line.split()[1]) for line in lines if line.startswith(("totals:", "summary:")))
    return by_function(lines), total


def by_function(lines):
    """What each function itself ran. `fn=(3) name` names a function the first time, `fn=(3)` later; the line behind
    `calls=` is what was called, and no part of the caller."""
    met, names, current, is_called = collections.Counter(), {}, None, False
    for line in lines:
        named = re.match(r"(c?)fn=(\(\d+\))(?: (.*))?", line)
        if named:
            names.setdefault(named[2], named[3])
            current = current if named[1] else names[named[2]]
        elif line.startswith("calls="):
            is_called = True
        elif re.match(r"[+\-*\d]\S* \d+$", line):
            if not is_called:
                met[current] += int(line.split()[1])
            is_called = False
    return met


def a_record(program, record):
    return (counted(program, record * 10)[1] - counted(program, record * 5)[1]) / 5


def print_table(reference):
    print("| Record | `decklint` | `list_deck` | ratio |\n|---|---|---|---|")
    for what, number, spoiled in ROWS:
        record = record_of(number, spoiled)
        proved, other = (a_record(program, record) for program in (DECKLINT, reference))
        print(f"| {what} | {proved:,.0f} | {other:,.0f} | {proved / other:.2f} |", flush=True)


def print_functions(program, record):
    ten, five = counted(program, record * 10)[0], counted(program, record * 5)[0]
    ten.subtract(five)
    print("| Function | instructions a record |\n|---|---|")
    for name, met in ten.most_common():
        if met >= 5:
            print(f"| `{name}` | {met / 5:,.0f} |")
    print(f"| all | {sum(ten.values()) / 5:,.0f} |")


def main(words):
    if words[:1] == ["--functions"] and len(words) in (2, 3):
        program = Path(words[2]) if len(words) == 3 else DECKLINT
        print_functions(program, record_of(*ROWS[int(words[1]) - 1][1:]))
    elif not words or (words[0] == "--reference" and len(words) == 2):
        print_table(Path(words[1]) if words else LIST_DECK)
    else:
        sys.exit(__doc__)


if __name__ == "__main__":
    main(sys.argv[1:])
