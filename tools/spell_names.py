#!/usr/bin/env python3
"""Spells the repository's own names in antt as the library spells its names.

usage: tools/spell_names.py ROOT

Words are in snake case: 'withBit' becomes 'with_bit'. In a lemma's name a dash stands before the name of a definition,
and '_' before any other word: 'true-or-false' becomes 'true_or_false', and 'with-bit' keeps its dash. A lemma that
would have another name's spelling gets '_lem'.
Types, facts and modules keep their capitals, a name of capitals is a constant's, and Rust's names stay.
It turns .antt and .edit files and the clauses of .rt files. A name that would fall together with another of the same
file is said on a line that begins 'clash:'. A second run changes nothing.
"""

import os
import re
import sys

TOKEN = re.compile(r"[^\s(){}.;,@\"«»`]+")
DECLARED = re.compile(r"(?m)^ *((?:pub |abbrev |unfoldable )*)(?!--)([^\s(){}.;,@\"]+)((?: [^\s(){}.;,@\"]+)*) :")
SHAPES = re.compile(r"(?m)^(?:pub )?(?:data|record) (?:pub )?([^\s(){}.;,@\"]+)")
# names of the library that lemmas' names have as parts
LIBRARY = set("zero suc true false none some le lt eq ne length append add mul sub div mod pow shl shr and or not min max map".split())
# names that a plain spelling would make a field's
OTHERWISE = {"latestStart": "latest_start_of", "perMille": "per_mille_of", "digitValue": "digit_value_of"}
QUOTED = re.compile(r'"(?:[^"\\\n]|\\.)*"')
RUST_CLAUSE = re.compile(r"(?:requires|ensures)\s*\*?\s*(?:\w+\s*)?\{|ghost\s*(?:\w+\s*(?::\s*|=\s*))?\{|ghost use [^;]*;", re.S)


def files(root, ends):
    for folder, dirs, names in os.walk(os.path.join(root, "crates")):
        dirs[:] = sorted(d for d in dirs if d != "out")
        for name in sorted(names):
            if name.endswith(ends):
                yield os.path.join(folder, name)


def read(path):
    with open(path, encoding="utf-8") as f:
        return f.read()


def of_a_function(root, path):
    """Whether the file is in the folder of one function's proof, whose names the toolchain makes."""
    parts = os.path.relpath(path, os.path.join(root, "crates")).split(os.sep)
    return parts[1] == "proofs" and len(parts) > 3


def snake(part):
    if part in OTHERWISE:
        return OTHERWISE[part]
    part = part.replace("′", "'")
    if not part[:1].islower():
        return part
    return re.sub(r"(?<=[a-z0-9])([A-Z])(?=[a-z]|$)", lambda m: "_" + m.group(1).lower(), part)


def humped(token):
    return any(p[:1].islower() and re.search(r"[a-z0-9][A-Z]", p) for p in token.split("-")) and re.fullmatch(r"[\w'′\-]+", token)


def names(root):
    """The names of definitions, those of lemmas with a dash, and all without one."""
    words, lemmas, others = set(), set(), set()
    for path in files(root, ".antt"):
        if of_a_function(root, path):
            continue
        text = read(path)
        inside = os.sep + "specs" + os.sep in path
        for m in DECLARED.finditer(text):
            for name in [m.group(2)] + m.group(3).split():
                if inside and ("abbrev" in m.group(1) or "unfoldable" in m.group(1)):
                    words.add(snake(name))
                elif "-" in name and re.fullmatch(r"[\w'′\-]+", name):
                    lemmas.add(name)
                else:
                    others.add(snake(name))
        if inside:
            words.update(SHAPES.findall(text))
    return words, lemmas, words | others


def spelled(name, words):
    def is_name(part):
        return part[:1].isupper() or any(p in words or p in LIBRARY for p in (part, part.split("_")[0]))

    first, *others = [snake(p) for p in name.split("-")]
    return first + "".join(("-" if is_name(p) else "_") + p for p in others)


def main(root):
    words, lemmas, others = names(root)
    turned = {n: spelled(n, words) for n in lemmas}
    turned = {n: it + "_lem" if it != n and it in others else it for n, it in turned.items()}
    clashes = 0

    def of(token):
        if token in turned:
            return turned[token]
        return "-".join(snake(p) for p in token.split("-")) if humped(token) else token

    def turn(text):
        return TOKEN.sub(lambda m: of(m.group()), text)

    def outside_quotes(text):
        out, at = [], 0
        for m in QUOTED.finditer(text):
            out += [turn(text[at : m.start()]), m.group()]
            at = m.end()
        return "".join(out + [turn(text[at:])])

    def clauses(text):
        out, at = [], 0
        for m in RUST_CLAUSE.finditer(text):
            if m.start() < at:
                continue
            end = m.end()
            if not m.group().startswith("ghost use"):
                depth = 1
                while depth:
                    depth += (text[end] == "{") - (text[end] == "}")
                    end += 1
            out += [text[at : m.start()], turn(text[m.start() : end])]
            at = end
        return "".join(out + [text[at:]])

    for path in files(root, (".antt", ".rt", ".edit")):
        old = read(path)
        if path.endswith(".antt"):
            new = outside_quotes(old)
        elif path.endswith(".rt"):
            new = clauses(old)
        else:
            new = old if re.search(r"(?m)^file: src/", old) and not re.search(r"ensures|requires|ghost|≡", old) else turn(old)
        if new == old:
            continue
        before = set(TOKEN.findall(old))
        for token in before:
            it = of(token)
            if it != token and it in before:
                print(f"clash: {os.path.relpath(path, root)}: {token} becomes {it}, which is there")
                clashes += 1
        with open(path, "w", encoding="utf-8") as f:
            f.write(new)
    print(f"spelled: {sum(a != b for a, b in turned.items())} names of lemmas, {clashes} clashes")


if __name__ == "__main__":
    main(sys.argv[1] if len(sys.argv) > 1 else ".")
