"""An independent model of plans (docs/REQUIREMENTS.md, P), and the rows that the checker holds the definitions to.

The model reads the document minute by minute: a grid of modules and minutes, every permutation of the jobs. It shares
nothing with the definitions in crates/schedule/specs. With a fixed seed it writes crates/schedule/proofs/Samples.antt,
whose rows the checker computes by those definitions.

    python3 tests/schedule_model.py            write the rows
    python3 tests/schedule_model.py --check    fail where the rows in the repository are not the model's
"""
import itertools
import random
from dataclasses import dataclass

from rows import numbers, settle, table


@dataclass
class Job:
    need: int
    minutes: int
    earlier: list
    arrival: int


@dataclass
class Sheet:
    jobs: list
    modules: int
    rest: int


def list_plan(sheet, order):
    """The list plan of an order: for each job its start and its modules, as one grid of modules and minutes gives them."""
    horizon = sum(j.minutes + j.arrival + sheet.rest for j in sheet.jobs) + 1
    taken = [[False] * (horizon * 2) for _ in range(sheet.modules)]
    slots, previous = {}, 0
    for number in order:
        job = sheet.jobs[number]
        minute = previous
        while True:
            waits = [slots[e][0] + sheet.jobs[e].minutes > minute for e in job.earlier]
            free = [m for m in range(sheet.modules) if not any(taken[m][minute:])]
            if minute >= job.arrival and not any(waits) and len(free) >= job.need:
                break
            minute += 1
        for m in free[: job.need]:
            for t in range(minute, minute + job.minutes + sheet.rest):
                taken[m][t] = True
        slots[number] = (minute, free[: job.need])
        previous = minute
    return [slots[number] for number in range(len(sheet.jobs))]


def end(sheet, slots):
    return max([start + job.minutes for (start, _), job in zip(slots, sheet.jobs)], default=0)


def orders(sheet):
    """Every order in which each job follows its earlier jobs, in dictionary order."""
    for order in itertools.permutations(range(len(sheet.jobs))):
        if all(set(sheet.jobs[j].earlier) <= set(order[:k]) for k, j in enumerate(order)):
            yield order


def circular(sheet):
    """Some job can be reached from itself along the earlier jobs."""
    for first in range(len(sheet.jobs)):
        seen, todo = set(), list(sheet.jobs[first].earlier)
        while todo:
            job = todo.pop()
            if job not in seen:
                seen.add(job)
                todo += sheet.jobs[job].earlier
        if first in seen:
            return True
    return False


def answer(sheet):
    if any(job.need > sheet.modules for job in sheet.jobs):
        return "wide"
    if circular(sheet):
        return "circular"
    plans = [(end(sheet, list_plan(sheet, order)), order) for order in orders(sheet)]
    least, order = min(plans)
    return f"planned ({numbers(order)}) {least}"


def valid(sheet, slots):
    """P-2 to P-5 (and arrivals), with a module's minutes counted one by one."""
    used = {}
    for (start, modules), job in zip(slots, sheet.jobs):
        if len(set(modules)) != job.need or any(m >= sheet.modules for m in modules) or start < job.arrival:
            return False
        if any(slots[e][0] + sheet.jobs[e].minutes > start for e in job.earlier):
            return False
        for m in set(modules):
            for minute in range(start, start + job.minutes + sheet.rest):
                used[m, minute] = used.get((m, minute), 0) + 1
    return all(count == 1 for count in used.values())


# ---- random sheets and plans


def random_sheet(rng, most_jobs, wide=0.05, resting=True):
    n = rng.randint(0, most_jobs)
    modules = rng.randint(1, 4)
    marks = rng.choice([0, 0.15, 0.4])
    backward = rng.random() < 0.3
    jobs = []
    for j in range(n):
        need = rng.randint(1, modules) if rng.random() >= wide else modules + 1
        earlier = [i for i in range(n) if (i < j or backward) and rng.random() < marks]
        jobs.append(Job(need, rng.randint(1, 6), earlier, rng.randint(0, 4) if resting else 0))
    return Sheet(jobs, modules, rng.choice([0, 0, 1, 2]) if resting else 0)


def random_slots(rng, sheet):
    """Slots near a list plan: some valid, some off by a minute, a module or an earlier job."""
    order = rng.choice(list(itertools.islice(orders(sheet), 40)))
    slots = [list(slot) for slot in list_plan(sheet, order)]
    for slot in slots:
        if rng.random() < 0.2:
            slot[0] = max(0, slot[0] + rng.choice([-1, 1, 2]))
        if rng.random() < 0.15:
            slot[1] = sorted(rng.sample(range(sheet.modules + 1), len(slot[1])))
        if rng.random() < 0.05:
            slot[1] = slot[1][1:]
    return slots


# ---- rows as antt text


def sheet_text(sheet):
    jobs = " ∷ ".join(f"late {j.need} {j.minutes} ({numbers(j.earlier)}) {j.arrival}" for j in sheet.jobs)
    return f"(resting_sheet ({jobs + ' ∷ ' if jobs else ''}[]) {sheet.modules} {sheet.rest})"


def slots_text(slots):
    rows = " ∷ ".join(f"slot {start} ({numbers(modules)})" for start, modules in slots)
    return f"({rows + ' ∷ ' if rows else ''}[])"


HEADER = """\
-- Random sheets and plans, and what tests/schedule_model.py, which reads the document on its own, says of them.
-- Written by that model: its rows are compared with these by the gate.
use mathlib.Core.Path.{◌≡◌, refl}
use mathlib.Core.Bool.{true, false}
use mathlib.Core.List.{List, [], ◌∷◌}
use Prim.Native.Nat.{ℕ}
use Rattle.counting.specs.Counting.{sum, largest, every, any, joined}
use Rattle.schedule.specs.Plan.{over_wide}
use Rattle.schedule.specs.ListPlan.{ready, first_minute, start_of, place_all}
use Rattle.schedule.specs.TieRule.{wide, circular, planned, orders_after, earliest_of, answer_of}
use Rattle.schedule.specs.Rows.{Job, resting_sheet, slot, Row, answers, places, all_hold}
use Rattle.schedule.specs.ValidTest.{is_valid}
use Rattle.schedule.proofs.ValidTest.{Judged, judged, all_judged}

abbrev late : ℕ → ℕ → List ℕ → ℕ → Job
late w m e a = record { need = w; minutes = m; earlier = e; arrival = a }
"""


def samples():
    rng = random.Random(2016)
    answered = [random_sheet(rng, 4) for _ in range(60)] + [random_sheet(rng, 5, 0, False) for _ in range(8)]
    placed, judged = [], []
    while len(placed) < 40:
        sheet = random_sheet(rng, 6, 0)
        if not circular(sheet):
            order = rng.choice(list(itertools.islice(orders(sheet), 200)))
            placed.append((sheet, order, list_plan(sheet, order)))
    while len(judged) < 60:
        sheet = random_sheet(rng, 5, 0)
        if not circular(sheet):
            slots = random_slots(rng, sheet)
            judged.append((sheet, slots, valid(sheet, slots)))
    lists = [
        ("answered", "Row", [f"answers {sheet_text(s)} ({answer(s)})" for s in answered]),
        ("placed", "Row", [f"places {sheet_text(s)} ({numbers(o)}) {slots_text(p)}" for s, o, p in placed]),
        ("plans", "Judged", [f"judged {sheet_text(s)} {slots_text(p)} {str(v).lower()}" for s, p, v in judged]),
    ]
    opened = "sum largest every any joined over_wide ready first_minute start_of place_all orders_after earliest_of answer_of is_valid"
    text = HEADER
    for name, kind, rows in lists:
        test = "all_judged" if kind == "Judged" else "all_hold"
        text += table(name, kind, rows)
        text += f"\npub {name}_right : {test} {name} ≡ true\nunfolding {name} {opened}\n{name}_right = refl\n"
    return text


if __name__ == "__main__":
    settle("schedule", samples())
