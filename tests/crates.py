#!/usr/bin/env python3
"""Holds the crates to their order.

- crates.txt lists for each crate exactly the crates that its own files use, and each crate once.
- What a reader must believe stands in specs/ and src/: nothing there imports from a proofs/ folder.
- Nothing uses the crates of TOP: the demands, the examples, the library for C and the programs.
- The README's map has the groups of crates.txt with their crates, and says how many there are. The picture in docs/ARCHITECTURE.md has each
  crate once, above all that it uses.
"""
import pathlib
import re
import sys

ROOT = pathlib.Path(__file__).parent.parent
# crates above all others: no crate uses them
TOP = {'demands', 'examples', 'depot', 'print_plan', 'edges'}


def listed():
    """The crates of crates.txt with what each uses, as lists in the file's order."""
    lines = [line for line in (ROOT / 'crates.txt').read_text().splitlines() if line.strip() and not line.startswith('#')]
    return {name.split()[0]: uses.split() for name, uses in (line.split(':') for line in lines)}


def used(crate, names):
    """The crates that the crate's files name, in code or in a citation. The kit's std is always there, and never listed."""
    folder = ROOT / 'crates' / crate
    paths = [path for part in ('src', 'specs', 'proofs') for path in (folder / part).rglob('*')]
    texts = [path.read_text() for path in paths if path.suffix in ('.rt', '.antt')]
    text = '\n'.join(re.sub(r'(//|--).*', '', text) for text in texts)
    cited = set(re.findall(r'\bRattle\.(\w+)\.', text))
    called = {name for name in names if re.search(rf'(?<![\w:.]){name}::', text)}
    return (cited | called) - {crate, 'std'}


def proofs_in_specs():
    """The lines of definitions and contracts that name a proofs/ folder of the repository."""
    for folder in ('specs', 'src'):
        for path in sorted((ROOT / 'crates').glob(f'*/{folder}/**/*')):
            for line in path.read_text().splitlines() if path.suffix in ('.rt', '.antt') else []:
                if re.search(r'\bRattle\.(?!std\.)\w+\.proofs\.', re.sub(r'(//|--).*', '', line)):
                    yield path.relative_to(ROOT), line


def groups(text, group, crate):
    """The groups of a text, each with its crates: what the two patterns find, line by line."""
    found = {}
    for line in text.splitlines():
        if heading := re.match(group, line):
            found[heading[1]] = []
        elif found and (entry := re.match(crate, line)):
            found[list(found)[-1]].append(entry[1])
    return {heading: crates for heading, crates in found.items() if crates}


def unmapped(uses):
    """What is wrong with the README's map."""
    readme = (ROOT / 'README.md').read_text()
    there = groups((ROOT / 'crates.txt').read_text(), r'# (.*)', r'(\w+)(?: staticlib)?:')
    said = groups(readme, r'\*\*(.*)\*\*$', r'\| \[`(\w+)`\]\(crates/\1\)')
    for heading in [*there, *(heading for heading in said if heading not in there)]:
        if there.get(heading) != said.get(heading):
            yield f'README.md: the group {heading!r} has the crates {said.get(heading)}, and crates.txt has {there.get(heading)}'
    if list(there) != list(said):
        yield 'README.md: its groups stand in another order than those of crates.txt'
    if f'the {len(uses)} crates' not in readme:
        yield f'README.md: does not say that there are {len(uses)} crates'


def misdrawn(uses):
    """What is wrong with the picture of the crates: words in brackets, and the first column, are names of groups."""
    section = (ROOT / 'docs/ARCHITECTURE.md').read_text().partition('## Layers\n')[2].partition('\n## ')[0]
    drawn = [re.sub(r'\(.*?\)', '', line[17:]) for line in section.splitlines() if line.startswith('    ')]
    places = [(name, at) for at, line in enumerate(drawn) for name in re.findall(r'\w+', line)]
    line_of = dict(places)
    for name in sorted({name for name, _ in places} ^ set(uses) | {name for name, at in places if line_of[name] != at}):
        yield f'docs/ARCHITECTURE.md: {name} does not stand once in the picture'
    for crate, said in uses.items():
        for name in said:
            if line_of.get(name, len(drawn)) <= line_of.get(crate, -1):
                yield f'docs/ARCHITECTURE.md: {crate} does not stand above {name}, which it uses'


def main():
    uses = listed()
    wrong = 0
    for fault in [*unmapped(uses), *misdrawn(uses)]:
        print(fault)
        wrong += 1
    for path, line in proofs_in_specs():
        print(f'{path}: rests on proofs: {line}')
        wrong += 1
    for crate, said in uses.items():
        real = used(crate, {*uses, *said})
        for name in sorted(real - set(said)):
            print(f'crates.txt: {crate} uses {name}, which its line leaves out')
            wrong += 1
        for name in said:
            if name in TOP:
                print(f'crates.txt: {crate} uses {name}, which stands above all others')
                wrong += 1
            if name not in real or said.count(name) > 1:
                print(f'crates.txt: {crate} lists {name}, which nothing in it uses')
                wrong += 1
    missing = {path.name for path in (ROOT / 'crates').iterdir() if path.is_dir()} ^ set(uses)
    for name in sorted(missing):
        print(f'crates.txt: {name} stands only in one of crates.txt and crates/')
    print(f'{len(uses)} crates, {sum(map(len, uses.values()))} uses')
    return 1 if wrong or missing else 0


sys.exit(main())
