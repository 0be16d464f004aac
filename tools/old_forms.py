#!/usr/bin/env python3
"""Lists the places in crates/*/src/ (and in proofs/, for the last point) that may be written in an older form than Rattle has today, by
the points of docs/DESIGN-PASS.md, which says of each list what was made of it.

    tools/old_forms.py [COMMIT] [--point N]      of the checkout, or of a commit

It finds by shape, so what it lists is to be read: not every line is an old form, and the page says which are.
"""
import collections
import re
import subprocess
import sys


def sources(commit, pattern):
    """The files that a pattern names, with their texts."""
    where = [commit] if commit else []
    listed = ["git", "ls-tree", "-r", "--name-only", *where] if commit else ["git", "ls-files", "-co", "--exclude-standard"]
    names = subprocess.run(listed, capture_output=True, text=True, check=True).stdout.split("\n")
    for name in sorted(n for n in names if re.fullmatch(pattern, n)):
        if commit:
            yield name, subprocess.run(["git", "show", f"{commit}:{name}"], capture_output=True, text=True, check=True).stdout
        else:
            try:
                with open(name, encoding="utf-8") as file:
                    yield name, file.read()
            except FileNotFoundError:
                continue


def bare(text):
    """A source without its comments and ghost lines, line for line."""
    return [re.sub(r"(^|\s)//.*", "", line) if not line.startswith("ghost use") else "" for line in text.split("\n")]


def functions(text):
    """Each function: its line, name, signature and body."""
    lines = bare(text)
    for at, line in enumerate(lines):
        head = re.match(r"( *)(?:pub )?(?:extern \"C\" )?fn (\w+)", line)
        if not head:
            continue
        end = next((i for i in range(at, len(lines)) if lines[i] == head[1] + "}"), None)
        whole = lines[at:(end or at) + 1]
        opening = next((i for i, l in enumerate(whole) if l == head[1] + "{" or (i == 0 and l.endswith("{"))), len(whole) - 1)
        signature = " ".join(whole[:opening + 1])
        signature = re.sub(r"\bensures\b.*|\brequires\b.*", "", signature)
        yield at + 1, head[2], signature, "\n".join(whole[opening + 1:-1])


def enums(text):
    """Each enum: its line, name and variants."""
    lines = bare(text)
    for at, line in enumerate(lines):
        head = re.match(r" *(?:pub )?enum (\w+)", line)
        if head:
            end = lines.index("}", at)
            yield at + 1, head[1], [l.strip().rstrip(",") for l in lines[at + 1:end] if l.strip()]


def parameters(signature):
    inside = re.search(r"\((.*)\)", signature)
    return re.findall(r"(\w+): ((?:&(?:'\w+ )?(?:mut )?)?\[?\w+[^,)]*)", inside[1]) if inside else []


def point_1(files):
    for name, text in files:
        for at, enum, variants in enums(text):
            yield f"{name}:{at}: enum {enum} {{ {', '.join(variants)} }}"
    yield from lines_with(files, r"^\s+(pub )?\w+: bool,$")
    for name, text in files:
        for at, function, _, body in functions(text):
            if len(re.findall(r"^\s+(?:0x)?[0-9A-F]+(?: \| \w+)* =>", body, re.M)) > 1:
                yield f"{name}:{at}: numbers for kinds in {function}"


def point_2(files):
    shapes = collections.defaultdict(list)
    for name, text in files:
        for at, function, signature, body in functions(text):
            names = {}
            words = re.findall(r'b?"[^"]*"|b\'.\'|\w+|\S', signature + body)
            if len(words) < 24:
                continue
            shape = []
            for word in words:
                if re.match(r'b?["\']|0x|\d', word):
                    shape.append("#")
                elif re.match(r"\w", word) and word not in ("fn", "pub", "let", "mut", "if", "else", "while", "return", "match", "usize", "u8", "bool"):
                    shape.append(names.setdefault(word, f"n{len(names)}"))
                else:
                    shape.append(word if word != "pub" else "")
            shapes[" ".join(shape).replace("  ", " ").strip()].append(f"{name}:{at} {function}")
    for twins in shapes.values():
        if len(twins) > 1:
            yield "; ".join(twins)


def lines_with(files, pattern):
    """The lines in which a pattern is found, each with its place."""
    for name, text in files:
        for at, line in enumerate(bare(text)):
            if re.search(pattern, line):
                yield f"{name}:{at + 1}: {line.strip()}"


def point_3(files):
    return lines_with(files, r"\b(while|loop)\b")


def point_4(files):
    by_hand = r"^(is_\w+|wide\d*|minus|one_more|lower_case|copy\w*|equals|\w+_number|number_of\w*|written_on|push)$"
    for name, text in files:
        for at, function, signature, body in functions(text):
            arms = re.findall(r"=> ([^,{]+),", body)
            if re.match(r"\s*match \w+ \{", body) and arms and all(re.fullmatch(r"true|false|\d+|[A-Z_]+", a.strip()) for a in arms):
                yield f"{name}:{at}: {function} gives a value for each case"
            elif re.match(by_hand, function) and body.count("\n") < 6 and len(parameters(signature)) < 3 and "match" not in body:
                yield f"{name}:{at}: {function} {' '.join(body.split())}"


def point_5(files):
    together = collections.defaultdict(list)
    for name, text in files:
        for at, function, signature, _ in functions(text):
            listed = [f"{p}: {t.strip()}" for p, t in parameters(signature)]
            for size in (2, 3):
                for first in range(len(listed) - size + 1):
                    together[", ".join(listed[first:first + size])].append(function)
    for pair, users in sorted(together.items(), key=lambda item: -len(item[1])):
        if len(users) > 2:
            yield f"{pair}: {len(users)} functions"


def point_6(files):
    return lines_with(files, r"\[[^\]]+; [^\]]+\]")


def point_7(files):
    kinds = {enum for _, text in files for _, enum, _ in enums(text)}
    for name, text in files:
        for at, function, signature, body in functions(text):
            for parameter, kind in parameters(signature):
                if kind.strip() in kinds and re.search(rf"\bmatch {parameter} \{{|if let \w+::\w+ = {parameter}\b", body):
                    yield f"{name}:{at}: {function} goes by {parameter}: {kind.strip()}"


def point_8(files):
    answers = alone = 0
    for name, text in files:
        if not name.endswith("Answers.antt"):
            continue
        answers += len(re.findall(r"^pub \S+ : goal\.", text, re.M))
        alone += len(re.findall(r"= (?:search rules|grind \(arith, common_steps\))$", text, re.M))
        lines = collections.Counter(line.strip() for line in text.split("\n") if len(line.strip()) > 60 and not line.startswith(("use ", "--")))
        for line, times in lines.items():
            if times > 1:
                yield f"{name}: {times} times: {line[:100]}"
    yield f"(answers: {answers}; of them only a call of search or grind with no fact: {alone})"


POINTS = [point_1, point_2, point_3, point_4, point_5, point_6, point_7, point_8]


def main(arguments):
    wanted = None
    if "--point" in arguments:
        at = arguments.index("--point")
        wanted = int(arguments[at + 1])
        del arguments[at:at + 2]
    commit = arguments[0] if arguments else None
    code = list(sources(commit, r"crates/\w+/src/.*\.rt"))
    proofs = list(sources(commit, r"crates/\w+/proofs/.*\.antt"))
    for number, point in enumerate(POINTS, 1):
        if wanted in (None, number):
            found = list(point(proofs if number == 8 else code))
            print(f"{number}. {len(found)} lines")
            for line in found:
                print(f"   {line}")


if __name__ == "__main__":
    main(sys.argv[1:])
