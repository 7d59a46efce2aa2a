#!/usr/bin/env python3
"""Runs the printing program, which 'rt run' leaves in its crate's out/, on sheets and compares what it prints with the lines of X-2 to X-4, written out here.

'depot plan --raw' is held to the same cases, which stand in host/tests/golden/printed.txt: --write writes that file, and without
it the file is compared."""
import pathlib
import struct
import subprocess
import sys

ROOT = pathlib.Path(__file__).parent.parent
PROGRAM = ROOT / 'crates/print_plan/out/print_plan'
CASES = ROOT / 'host/tests/golden/printed.txt'


def record(label=1, modules=1, minutes=10, earlier=0, departure=30, arrival=0):
    return struct.pack('<BBHIHH', label, modules, minutes, earlier, departure, arrival)


def sheet(labels, records, modules, offset=None, changeover=0):
    offset = len(labels) if offset is None else offset
    return labels + b''.join(records) + struct.pack('<IHHH', offset, len(records), modules, changeover)


E1 = bytes.fromhex(
    '414243 01010A0000000000 1E00 0000 0102140000000000 1900 0000 01010A0000000000 1E00 0000 0300000003000200 0000')
LONGEST = sheet(b'L' * 320, [record(label=16, modules=64, minutes=1440, departure=2880)] * 20, 64)

PLANS = [
    ('E1', E1,
     'plan 30 3 2\n'
     '0 10 -20 0000000000000001 A\n'
     '10 30 5 0000000000000003 B\n'
     '0 10 -20 0000000000000002 C\n'),
    ('E2: no jobs', sheet(b'', [], 1), 'plan 0 0 1\n'),
    ('E7', sheet(b'ABC', [record(departure=0), record(departure=20), record(minutes=20, departure=2880)], 2),
     'plan 20 3 2\n'
     '0 10 10 0000000000000001 A\n'
     '10 20 0 0000000000000001 B\n'
     '0 20 -2860 0000000000000002 C\n'),
    ('E8', sheet(b'oneBBthree,4444', [
        record(label=3, minutes=1), record(label=2),
        record(label=6, modules=2, minutes=1, earlier=1), record(label=4, earlier=4)], 2),
     'plan 12 4 2\n'
     '0 1 -29 0000000000000001 one\n'
     '2 12 -18 0000000000000001 BB\n'
     '1 2 -28 0000000000000003 three,\n'
     '2 12 -18 0000000000000002 4444\n'),
    ('fleet numbers with spaces', sheet(b'N 417 BN  9', [record(label=7), record(label=4)], 2),
     'plan 10 2 2\n'
     '0 10 -20 0000000000000001 N 417 B\n'
     '0 10 -20 0000000000000002 N  9\n'),
    ('E1 with A on the road until minute 25', sheet(b'ABC', [record(arrival=25), record(modules=2, minutes=20, departure=25), record()], 2),
     'plan 35 3 2\n'
     '25 35 5 0000000000000001 A\n'
     '0 20 -5 0000000000000003 B\n'
     '25 35 5 0000000000000002 C\n'),
    ('E1 with a changeover of 5', sheet(b'ABC', [record(), record(modules=2, minutes=20, departure=25), record()], 2, changeover=5),
     'plan 35 3 2\n'
     '0 10 -20 0000000000000001 A\n'
     '15 35 10 0000000000000003 B\n'
     '0 10 -20 0000000000000002 C\n'),
    ('a wait without a rest', sheet(b'AB', [record(), record(earlier=1)], 2, changeover=30),
     'plan 20 2 2\n'
     '0 10 -20 0000000000000001 A\n'
     '10 20 -10 0000000000000002 B\n'),
    ('a departure before the arrival', sheet(b'A', [record(departure=0, arrival=1440)], 1),
     'plan 1450 1 1\n'
     '1440 1450 1450 0000000000000001 A\n'),
    ('the lowest lateness, and all of 64 modules',
     sheet(b'!~', [record(minutes=1, departure=2880), record(modules=64, minutes=2, departure=0)], 64),
     'plan 3 2 64\n'
     '0 1 -2879 0000000000000001 !\n'
     '1 3 3 FFFFFFFFFFFFFFFF ~\n'),
    ('the highest module', sheet(b'AB', [record(modules=63), record()], 64),
     'plan 10 2 64\n'
     '0 10 -20 7FFFFFFFFFFFFFFF A\n'
     '0 10 -20 8000000000000000 B\n'),
    ('the longest sheet, of the latest end', LONGEST,
     'plan 28800 20 64\n' + ''.join(
         f'{1440 * j} {1440 * j + 1440} {1440 * j + 1440 - 2880} FFFFFFFFFFFFFFFF LLLLLLLLLLLLLLLL\n' for j in range(20))),
]

REFUSED = [
    (1, 'nothing', b''),
    (1, '9 bytes', bytes(9)),
    (1, '571 bytes', LONGEST + b'\0'),
    (1, 'a byte before the longest sheet', b'L' + LONGEST),
    (1, '100000 bytes', bytes(100000)),
    (2, '21 jobs', sheet(b'A' * 21, [record()] * 21, 1)),
    (3, 'no modules', sheet(b'A', [record()], 0)),
    (3, '65 modules', sheet(b'A', [record()], 65)),
    (19, 'a changeover of 31', sheet(b'A', [record()], 1, changeover=31)),
    (3, '65 modules and a changeover of 31', sheet(b'A', [record()], 65, changeover=31)),
    (19, 'a changeover of 31 and an offset of one more', sheet(b'A', [record()], 1, offset=2, changeover=31)),
    (4, 'an offset of one more', sheet(b'A', [record()], 1, offset=2)),
    (5, 'no minutes', sheet(b'A', [record(minutes=0)], 1)),
    (5, '1441 minutes', sheet(b'A', [record(minutes=1441)], 1)),
    (5, 'arrival 1441', sheet(b'A', [record(arrival=1441)], 1)),
    (5, 'an earlier job that is not there', sheet(b'A', [record(earlier=2)], 1)),
    (6, 'a label byte too few', sheet(b'A', [record(label=2)], 1)),
    (5, 'a label of 17 bytes', sheet(b'A' * 17, [record(label=17)], 1)),
    (7, 'a label that is a space', sheet(b' ', [record()], 1)),
    (7, 'a space first', sheet(b' A', [record(label=2)], 1)),
    (7, 'a space last', sheet(b'A ', [record(label=2)], 1)),
    (7, 'a space where two labels meet', sheet(b'A B', [record(label=2), record()], 1)),
    (7, 'byte 31 in a label', sheet(b'A\x1fB', [record(label=3)], 1)),
    (7, 'byte 127 in a label', sheet(b'\x7f', [record()], 1)),
    (8, 'E3: a job that is too wide', sheet(b'A', [record(modules=2)], 1)),
    (8, 'E6: E4 with one job too wide', sheet(b'AB', [record(modules=2, earlier=2), record(earlier=1)], 1)),
    (9, 'E4: two jobs each before the other', sheet(b'AB', [record(earlier=2), record(earlier=1)], 1)),
    (9, 'E5: a job before itself', sheet(b'A', [record(earlier=1)], 1)),
]


def cases_text(cases):
    """Every case of a sheet that is not too long to be kept: its name, the sheet in hexadecimal, the lines."""
    return ''.join(f'case {name}\nsheet {s.hex()}\n{lines}' for name, s, lines in cases if len(s) < 1000)


def main():
    cases = PLANS + [(f'refusal {k}: {name}', s, f'refused {k}\n') for k, name, s in REFUSED]
    if '--write' in sys.argv[1:]:
        CASES.write_text(cases_text(cases))
    failed = 0
    if CASES.read_text() != cases_text(cases):
        failed += 1
        print(f'{CASES.relative_to(ROOT)} has other cases: write it with --write')
    for name, s, lines in cases:
        run = subprocess.run([PROGRAM], input=s, capture_output=True)
        if (run.returncode, run.stdout, run.stderr) != (0, lines.encode(), b''):
            failed += 1
            print(f'{name}: expected {lines!r}, got {run.stdout!r}, status {run.returncode}, errors {run.stderr!r}')
    print(f'{len(cases) + 1 - failed} passed, {failed} failed')
    sys.exit(1 if failed else 0)


if __name__ == '__main__':
    main()
