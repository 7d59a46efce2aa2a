#!/usr/bin/env python3
"""Whether the machine has the toolchain of the file TOOLCHAIN: that kit, and a Rust that is no older."""
import pathlib
import re
import subprocess
import sys

ROOT = pathlib.Path(__file__).parent.parent


def said(*command):
    """What a command prints, or nothing where there is no such command."""
    try:
        return subprocess.run(command, capture_output=True, text=True).stdout.strip()
    except FileNotFoundError:
        return ''


def version(text):
    """The first version number of a text, to compare."""
    found = re.search(r'\d+(?:\.\d+)+', text)
    return [int(part) for part in found.group().split('.')] if found else []


def main():
    lines = [line for line in (ROOT / 'TOOLCHAIN').read_text().splitlines() if line and not line.startswith('#')]
    pinned = dict(line.split(' ', 1) for line in lines)
    kit, rust = said('rt', 'version'), said('rustc', '--version')
    cargo = re.search(r'^rust-version = "(.*)"$', (ROOT / 'host/Cargo.toml').read_text(), re.MULTILINE)
    wrong = []
    if kit != pinned['rt']:
        wrong.append(f"the Rattle kit is {kit or 'missing'!r}, and TOOLCHAIN names {pinned['rt']!r}: install that kit. To move to another "
                     "one, run the whole gate with it, then write what 'rt version' prints into TOOLCHAIN")
    if version(rust) < version(pinned['rustc']):
        wrong.append(f"Rust is {rust or 'missing'!r}, and TOOLCHAIN names {pinned['rustc']}: update it ('rustup update stable')")
    if not cargo or not version(pinned['rustc'])[:2] == version(cargo.group(1))[:2]:
        wrong.append(f"rust-version in host/Cargo.toml is not {pinned['rustc']}, the Rust of TOOLCHAIN")
    print('\n'.join(wrong) or f"{kit}; {rust}")
    return 1 if wrong else 0


sys.exit(main())
