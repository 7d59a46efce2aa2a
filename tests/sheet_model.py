#!/usr/bin/env python3
"""A model of job sheets, written from docs/REQUIREMENTS.md alone: reading, labels, writing and their refusals.

Run as a program it tries the round trip, both ways, on random sheets, sheets at the edges and damaged sheets, and writes
rows, a sheet and what is read of it, that the checker computes by the definitions; with --check it compares them instead. Sheets of the
layout before F-2 are put into the layout of today and read the same."""
import random
import struct

from rows import numbers, settle, table

MOST_JOBS, MOST_MODULES, LONGEST_CHANGEOVER, LONGEST_SHEET = 20, 64, 30, 570
RECORD, TRAILER = struct.Struct('<BBHIHH'), struct.Struct('<IHHH')
OLDER_RECORD, OLDER_TRAILER = struct.Struct('<BBHIH'), struct.Struct('<IHH')
LAYOUTS = {OLDER_RECORD: 'before_arrivals', RECORD: 'before_changeovers'}
LONGEST_LABEL, LABEL_BYTES, MOST_MINUTES, LAST_DEPARTURE, LAST_ARRIVAL = 16, range(32, 127), 1440, 2880, 1440


def faulty(job, n):
    length, modules, minutes, earlier, departure, arrival = job
    return (not 1 <= length <= LONGEST_LABEL or not 1 <= modules <= 255 or not 1 <= minutes <= MOST_MINUTES
            or earlier >= 2 ** n or departure > LAST_DEPARTURE or arrival > LAST_ARRIVAL)


def cut(jobs, labels):
    """The labels of the jobs, one behind another."""
    start = 0
    for length, *_ in jobs:
        yield labels[start:start + length]
        start += length


def wrong(label):
    """F-1.1: bytes of 32 to 126, and neither the first nor the last a space."""
    return any(b not in LABEL_BYTES for b in label) or label.startswith(b' ') or label.endswith(b' ')


def figures_refusal(n, modules, changeover):
    """2, 3 and 19, in this order."""
    if n > MOST_JOBS:
        return 2
    if not 1 <= modules <= MOST_MODULES:
        return 3
    return 19 if changeover > LONGEST_CHANGEOVER else 0


def content_refusal(jobs, labels):
    if any(faulty(job, len(jobs)) for job in jobs):
        return 5
    if sum(job[0] for job in jobs) != len(labels):
        return 6
    return 7 if any(wrong(label) for label in cut(jobs, labels)) else 0


def read(sheet):
    """(refusal, jobs, (N, changeover))"""
    if not TRAILER.size <= len(sheet) <= LONGEST_SHEET:
        return 1, [], (0, 0)
    offset, n, *cabinet = TRAILER.unpack(sheet[-TRAILER.size:])
    refusal = figures_refusal(n, *cabinet)
    if refusal:
        return refusal, [], (0, 0)
    if offset + RECORD.size * n + TRAILER.size != len(sheet):
        return 4, [], (0, 0)
    jobs = [RECORD.unpack_from(sheet, offset + RECORD.size * i) for i in range(n)]
    refusal = content_refusal(jobs, sheet[:offset])
    return (refusal, [], (0, 0)) if refusal else (0, jobs, tuple(cabinet))


def read_older(sheet, record):
    """The same of a sheet of before F-4, and, where records have no arrival, of before F-2."""
    longest = MOST_JOBS * (LONGEST_LABEL + record.size) + OLDER_TRAILER.size
    if not OLDER_TRAILER.size <= len(sheet) <= longest:
        return 1, [], (0, 0)
    offset, n, modules = OLDER_TRAILER.unpack(sheet[-OLDER_TRAILER.size:])
    refusal = figures_refusal(n, modules, 0)
    if refusal:
        return refusal, [], (0, 0)
    if offset + record.size * n + OLDER_TRAILER.size != len(sheet):
        return 4, [], (0, 0)
    jobs = [(*record.unpack_from(sheet, offset + record.size * i), 0)[:6] for i in range(n)]
    refusal = content_refusal(jobs, sheet[:offset])
    return (refusal, [], (0, 0)) if refusal else (0, jobs, (modules, 0))


def relaid(sheet, record):
    """F-2.4, F-4: a sheet of before in the layout of today, with the changeover 0, and arrivals 0 where it had none."""
    offset, n, _ = OLDER_TRAILER.unpack(sheet[-OLDER_TRAILER.size:])
    places = [offset + record.size * i for i in range(n)]
    records = [sheet[at:at + record.size] + bytes(RECORD.size - record.size) for at in places]
    return sheet[:offset] + b''.join(records) + sheet[-OLDER_TRAILER.size:] + bytes(2)


def label(sheet, job):
    """(refusal, label)"""
    refusal, jobs, _ = read(sheet)
    if refusal or job >= len(jobs):
        return refusal or 14, b''
    start = sum(j[0] for j in jobs[:job])
    return 0, sheet[start:start + jobs[job][0]]


def write(jobs, labels, cabinet, room=LONGEST_SHEET):
    """(refusal, sheet)"""
    refusal = figures_refusal(len(jobs), *cabinet) or content_refusal(jobs, labels)
    if refusal:
        return refusal, b''
    sheet = labels + b''.join(RECORD.pack(*job) for job in jobs) + TRAILER.pack(len(labels), len(jobs), *cabinet)
    return (10, b'') if room < len(sheet) else (0, sheet)


def random_jobs(rng, n):
    return [(rng.choice([1, 16, rng.randint(1, 16)]), rng.randint(1, 255), rng.choice([1, 1440, rng.randint(1, 1440)]),
             rng.randrange(2 ** n), rng.choice([0, 2880, rng.randint(0, 2880)]),
             rng.choice([0, 1440, rng.randint(0, 1440)])) for _ in range(n)]


def try_bytes(sheet):
    """Every byte string that reads is what writing its jobs and its labels gives."""
    refusal, jobs, cabinet = read(sheet)
    if refusal == 0:
        labels = b''.join(label(sheet, i)[1] for i in range(len(jobs)))
        assert write(jobs, labels, cabinet) == (0, sheet)
    assert label(sheet, len(jobs)) == (refusal or 14, b'')
    return refusal


def damage(rng, sheet):
    damaged = bytearray(sheet)
    for _ in range(rng.randint(1, 3)):
        damaged[rng.randrange(len(damaged))] = rng.choice([0, 1, 16, 17, 31, 32, 127, 255, rng.randrange(256)])
    return bytes(damaged)


def random_label(rng, length):
    """Spaces stand inside alone."""
    inside = [rng.choice([32, 33, 126, rng.randint(32, 126)]) for _ in range(length)]
    inside[0], inside[-1] = (rng.choice([33, 126, rng.randint(33, 126)]) for _ in range(2))
    return bytes(inside)


def random_sheet(rng, n):
    """Legal jobs, their labels, modules and changeover, and the sheet that they are written as."""
    jobs, cabinet = random_jobs(rng, n), (rng.randint(1, 64), rng.choice([0, 30, rng.randint(0, 30)]))
    labels = b''.join(random_label(rng, length) for length, *_ in jobs)
    refusal, sheet = write(jobs, labels, cabinet)
    assert refusal == 0 and read(sheet) == (0, jobs, cabinet)
    assert b''.join(label(sheet, i)[1] for i in range(n)) == labels
    return sheet


def try_sheets(rng):
    seen = set()
    for _ in range(2000):
        sheet = damage(rng, random_sheet(rng, rng.choice([0, 1, 20, rng.randint(0, 20)])))
        seen.add(try_bytes(sheet[:rng.choice([len(sheet), rng.randint(0, len(sheet))])]))
        seen.add(try_bytes(sheet + bytes(rng.randint(0, 2) * 265)))
    assert seen == {*range(8), 19}, seen


def older_sheet(rng, n, record):
    """A sheet of random_sheet as it was before F-4 and, where records have no arrival, before F-2."""
    sheet = random_sheet(rng, n)
    offset, n, modules, _ = TRAILER.unpack(sheet[-TRAILER.size:])
    places = [offset + RECORD.size * i for i in range(n)]
    return sheet[:offset] + b''.join(sheet[at:at + record.size] for at in places) + OLDER_TRAILER.pack(offset, n, modules)


def try_older(rng):
    seen = set()
    for k in range(8000):
        record = (OLDER_RECORD, RECORD)[k % 2]
        sheet = older_sheet(rng, rng.choice([0, 1, 20, rng.randint(0, 20)]), record)
        sheet = rng.choice([sheet, damage(rng, sheet)])
        if read_older(sheet, record)[0] not in range(1, 5):
            assert read(relaid(sheet, record)) == read_older(sheet, record)
            seen.add((record.size, read_older(sheet, record)[0]))
    assert seen == {(size, refusal) for size in (10, 12) for refusal in (0, 5, 6, 7)}, seen


def row(sheet):
    """The sheet; the refusal, n, N, the changeover and the jobs' figures; for each job and one number past them, the label call's answers."""
    refusal, jobs, cabinet = read(sheet)
    figures = [refusal, len(jobs), *cabinet, *(x for job in jobs for x in job)]
    shown = [x for i in range(len(jobs) + 1) for number, part in [label(sheet, i)] for x in [number, *part]]
    return f'row ({numbers(sheet)})\n    ({numbers(figures)})\n    ({numbers(shown)})'


HEAD = """-- Random sheets, whole and damaged, and what tests/sheet_model.py, which reads the document on its own, says of them.
-- Written by that model: its rows are compared with these by the gate.
use mathlib.Core.Path.{◌≡◌, refl}
use mathlib.Core.List.{List, [], ◌∷◌}
use Rattle.counting.specs.Counting.{sum, any, joined}
use Rattle.checking.specs.Checking.{first_failing}
use Rattle.words.specs.Words.{number_at}
use Rattle.sheet_format.specs.Format.{record_at, places}
use Rattle.sheet_format.specs.Checks.{outside, faulty, wrong_label}
use Rattle.sheet.specs.Read.{reading}
use Rattle.sheet.specs.Label.{label_of}
use Rattle.sheet.proofs.Rows.{Row, row, found, told}
"""
FOOT = """
pub rows_right : found rows ≡ told rows
unfolding rows found told reading label_of first_failing outside faulty wrong_label any sum places joined record_at number_at
rows_right = refl
"""


def spaces():
    """One job whose label has a space inside, first, last, and alone; two jobs with one where their labels meet."""
    for lengths, labels in [([7], b'N 417 B'), ([2], b' B'), ([2], b'A '), ([1], b' '), ([2, 1], b'A B'), ([1, 2], b'A B')]:
        records = b''.join(RECORD.pack(length, 1, 10, 0, 30, 0) for length in lengths)
        yield labels + records + TRAILER.pack(len(labels), len(lengths), 2, 5)


def samples(rng):
    """Two rows or more of every answer, from short sheets, and spaces in labels."""
    chosen = {refusal: [] for refusal in [*range(8), 19]}
    for s in spaces():
        chosen[read(s)[0]].append(s)
    assert [len(chosen[0]), len(chosen[7])] == [1, 5]
    while any(len(sheets) < 2 for sheets in chosen.values()):
        sheet = random_sheet(rng, rng.randint(0, 2))
        for s in [sheet, damage(rng, sheet), sheet[:rng.randint(0, len(sheet))]]:
            sheets = chosen[read(s)[0]]
            if len(sheets) < 2 or (read(s)[0] == 0 and len(sheets) < 4):
                sheets.append(s)
    return HEAD + table('rows', 'Row', [row(s) for refusal in chosen for s in chosen[refusal]]) + FOOT


OLDER_HEAD = """-- Random sheets of the layouts before F-2 and before F-4, whole and damaged, and what tests/sheet_model.py, which reads the document on its own, says
-- of them. Written by that model: its rows are compared with these by the gate.
use mathlib.Core.Path.{◌≡◌, refl}
use mathlib.Core.List.{List, [], ◌∷◌}
use Rattle.counting.specs.Counting.{sum, any, joined}
use Rattle.checking.specs.Checking.{first_failing}
use Rattle.words.specs.Words.{number_at}
use Rattle.sheet_format.specs.Format.{record_at}
use Rattle.sheet_format.specs.Checks.{outside, faulty, wrong_label}
use Rattle.older_sheets.specs.Older as older
use Rattle.older_sheets.specs.Older.{before_arrivals, before_changeovers}
use Rattle.older_sheets.specs.Relaid.{relaid}
use Rattle.older_sheets.proofs.Rows.{Row, row, found, told}
"""
OLDER_FOOT = """
pub rows_right : found rows ≡ told rows
unfolding
    rows found told relaid first_failing outside faulty wrong_label any sum joined record_at older.record_at number_at
rows_right = refl
"""


def older_samples(rng):
    """Two rows of every answer of a sheet that is laid out: the sheet, the same in the layout of today, and the number that both get."""
    chosen = {(refusal, record): [] for refusal in (0, 5, 6, 7) for record in (OLDER_RECORD, RECORD)}
    while any(len(sheets) < 2 for sheets in chosen.values()):
        record = rng.choice([OLDER_RECORD, RECORD])
        sheet = older_sheet(rng, rng.randint(1, 2), record)
        for s in [sheet, damage(rng, sheet)]:
            sheets = chosen.get((read_older(s, record)[0], record), [])
            if len(sheets) < 2:
                sheets.append(s)
    rows = [f'row {LAYOUTS[record]} ({numbers(s)})\n    ({numbers(relaid(s, record))}) {refusal}'
            for (refusal, record), sheets in chosen.items() for s in sheets]
    return OLDER_HEAD + table('rows', 'Row', rows) + OLDER_FOOT


def main():
    rng = random.Random(1)
    try_sheets(rng)
    settle('sheet', samples(rng))
    try_older(rng)
    settle('older_sheets', older_samples(rng))


if __name__ == '__main__':
    main()
