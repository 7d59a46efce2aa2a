#!/usr/bin/env python3
"""Whether every must-fail edit still meets its crate: it says which sentence it breaks, and what it replaces stands once in its file.

The prover tries the edits at the end of a long run; an edit that a change has left behind is found here in a second.
"""
import pathlib
import re
import sys

ROOT = pathlib.Path(__file__).parent.parent


def faults(edit):
    """What is wrong with an edit. Its replacements are made one after another."""
    text = edit.read_text()
    if not text.startswith('# '):
        yield 'has no remark that says which sentence it breaks'
    source = edit.parent.parent / re.search(r'^file: (.*)$', text, re.MULTILINE).group(1)
    if not source.is_file():
        yield f'changes {source.relative_to(ROOT)}, which is not there'
        return
    changed = source.read_text()
    for old, new in re.findall(r'^old: (.*)\nnew: (.*)$', text, re.MULTILINE):
        if old == new or changed.count(old) != 1:
            yield f'replaces what does not stand once in {source.relative_to(ROOT)}: {old.strip()}'
        changed = changed.replace(old, new, 1)
    if not re.fullmatch(r'(# .*\n)+file: .*\n(old: .*\nnew: .*\n)+', text):
        yield 'has lines beside its remark, its file, and its pairs of old and new'


def main():
    edits = sorted(ROOT.glob('crates/*/must-fail/*.edit'))
    wrong = [f'{edit.relative_to(ROOT)} {fault}' for edit in edits for fault in faults(edit)]
    print('\n'.join(wrong) or f'{len(edits)} edits')
    return 1 if wrong else 0


sys.exit(main())
