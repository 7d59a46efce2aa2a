#!/usr/bin/env python3
"""Measures the search without its rules; not in the gate.

The bare search makes no cut and tries every job that may come next: `hopeless`, `overfilled` and `passed_over` answer false and `to_try`
gives the whole set, which their contracts allow. The repository is copied to a folder of its own for temporary files, these bodies are
replaced there, the library is proved and built anew, and the benchmark compares it with the plain search without rules. Words after the
script's name are the benchmark's options, such as --sizes 8,9 --memory 0.
"""
import pathlib
import re
import shutil
import subprocess
import sys
import tempfile

ROOT = pathlib.Path(__file__).parent.parent
# a function of the search, and the body that stands in its place; that it meets the contract needs no proof file
BODIES = {
    ('bounds', 'hopeless'): 'false',
    ('bounds', 'overfilled'): 'false',
    ('branching', 'passed_over'): 'false',
    ('branching', 'to_try'): 'set',
}


def copy_files(bare):
    listed = subprocess.run(['git', 'ls-files', 'crates.txt', 'crates', 'tools', 'host'], cwd=ROOT, check=True, capture_output=True, text=True)
    for name in listed.stdout.splitlines():
        (bare / name).parent.mkdir(parents=True, exist_ok=True)
        shutil.copy(ROOT / name, bare / name)


def replace_body(bare, crate, function, body):
    source = bare / 'crates' / crate / 'src/lib.rt'
    text, count = re.subn(rf'(\npub fn {function}\b.*?\n{{\n).*?\n}}\n', rf'\g<1>    {body}\n}}\n', source.read_text(), flags=re.S)
    assert count == 1, f'{crate} has no function {function}'
    source.write_text(text)
    shutil.rmtree(bare / 'crates' / crate / 'proofs' / function)


def main():
    # beside the repository, not in it: 'rt ci' refuses code outside the crates
    with tempfile.TemporaryDirectory(prefix='depot-bare-') as folder:
        bare = pathlib.Path(folder)
        copy_files(bare)
        for (crate, function), body in BODIES.items():
            replace_body(bare, crate, function, body)
        subprocess.run([bare / 'tools/staticlib', 'depot', 'two_pass'], check=True, stdout=subprocess.DEVNULL)
        options = sys.argv[1:] or ['--sizes', '8,9', '--memory', '0']
        bench = ['cargo', 'run', '--quiet', '--release', '--offline', '--bin', 'bench', 'plans', '--bare', *options]
        subprocess.run(bench, cwd=bare / 'host', check=True)


main()
