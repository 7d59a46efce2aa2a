#!/usr/bin/env python3
"""Holds the code to its shape: no function takes more than 10 parameters, and no path in a proof has more than 8 steps by position."""
import pathlib
import re
import sys

ROOT = pathlib.Path(__file__).parent.parent / 'crates'
MOST_PARAMETERS = 10
LONGEST_PATH = 8


def parameters(text):
    """Each function of the text and how many parameters it has."""
    for function, inside in re.findall(r'\bfn\s+(\w+)(?:<[^>]*>)?\s*\(([^)]*)\)', text):
        yield function, len([part for part in re.split(r',(?![^\[]*\])', inside) if part.strip()])


def main():
    functions = paths = wrong = 0
    for path in sorted(ROOT.glob('*/src/**/*.rt')):
        for function, count in parameters(path.read_text()):
            functions += 1
            if count > MOST_PARAMETERS:
                print(f'{path.relative_to(ROOT)}: {function} takes {count} parameters')
                wrong += 1
    for path in sorted([*ROOT.glob('*/specs/**/*.antt'), *ROOT.glob('*/proofs/**/*.antt')]):
        for steps in re.findall(r'(?:\.before\b)+|(?:\.1\b)+', path.read_text()):
            paths += 1
            if steps.count('.') > LONGEST_PATH:
                print(f'{path.relative_to(ROOT)}: a path of {steps.count(".")} steps')
                wrong += 1
    print(f'{functions} functions, {paths} paths')
    return 1 if wrong else 0


sys.exit(main())
