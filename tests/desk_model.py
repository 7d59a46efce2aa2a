"""An independent model of the desk (docs/REQUIREMENTS.md, K and C), and the rows that the checker holds the definitions to.

The model keeps a ledger of what each controller holds, in hundreds of watts, and finds the desks that can be by making every
call from the opening on. It shares nothing with the definitions in crates/desk/specs. With a fixed seed it
writes crates/desk/proofs/Samples.antt, whose rows the checker computes by those definitions.

    python3 tests/desk_model.py            write the rows
    python3 tests/desk_model.py --check    fail where the rows in the repository are not the model's
"""
import functools
import random
from collections import Counter, namedtuple

from rows import numbers, settle, table

PLACES = 8
MOST_POWER = 400_000

# five figures as firmware sees them; the lists have eight places
Desk = namedtuple("Desk", "count limit held assured ceiling")


def fixed(figures):
    return tuple(figures) + (0,) * (PLACES - len(figures))


NO_DESK = Desk(0, 0, fixed(()), fixed(()), fixed(()))


def open_desk(limit, assured, ceilings):
    """The number, and the desk."""
    if len(assured) != len(ceilings) or len(assured) not in range(2, 9):
        return 11, NO_DESK
    if limit not in range(1, MOST_POWER + 1) or any(not share <= top <= limit for share, top in zip(assured, ceilings)):
        return 12, NO_DESK
    if sum(assured) > limit:
        return 13, NO_DESK
    return 0, Desk(len(assured), limit, fixed(()), fixed(assured), fixed(ceilings))


def book(desk, controller, power):
    """The holdings after a claim (power above 0) or a hand-back (below 0) that the sums allow, else the number."""
    ledger = Counter({c: desk.held[c] for c in range(desk.count)})
    if power < 0:
        if ledger[controller] + power < 0:
            return 18
    else:
        if ledger[controller] + power > desk.ceiling[controller]:
            return 16
        kept = [max(ledger[c], desk.assured[c]) for c in range(desk.count) if c != controller]
        if sum(kept) + ledger[controller] + power > desk.limit:
            return 17
    ledger[controller] += power
    return fixed([ledger[c] for c in range(desk.count)])


@functools.lru_cache(maxsize=None)
def holdings_that_can_be(count, limit, assured, ceiling):
    """Every list of holdings that calls leave on the desk opened with these figures; none where they do not open."""
    number, first = open_desk(limit, assured[:count], ceiling[:count])
    if number or (first.assured, first.ceiling) != (assured, ceiling):
        return frozenset()
    found, todo = {first.held}, [first]
    while todo:
        desk = todo.pop()
        for controller in range(count):
            for power in range(-limit, limit + 1):
                held = book(desk, controller, power) if power else desk.held
                if not isinstance(held, int) and held not in found:
                    found.add(held)
                    todo.append(desk._replace(held=held))
    return frozenset(found)


def can_be(desk):
    if desk.count > PLACES:
        return False
    return desk.held in holdings_that_can_be(desk.count, desk.limit, desk.assured, desk.ceiling)


def change_desk(desk, limit, assured, ceilings, known):
    """The number, and the desk with new figures and its own holdings. `known`: the desk can be."""
    if not (known or can_be(desk)):
        return 14, desk
    number, fresh = open_desk(limit, assured, ceilings)
    if number == 11 or len(assured) != desk.count:
        return 11, desk
    if number:
        return number, desk
    held = desk.held[: desk.count]
    if any(own > top for own, top in zip(held, ceilings)):
        return 21, desk
    if sum(max(own, share) for own, share in zip(held, assured)) > limit:
        return 22, desk
    return 0, fresh._replace(held=desk.held)


def call(desk, kind, controller, power, known):
    """The number, the figure that a look shows, and the holdings afterwards. `known`: the desk can be."""
    if controller >= desk.count or not (known or can_be(desk)):
        return 14, 0, desk.held
    if kind == "look":
        granted = (k for k in range(desk.limit, 0, -1) if not isinstance(book(desk, controller, k), int))
        return 0, next(granted, 0), desk.held
    if power == 0:
        return 15, 0, desk.held
    after = book(desk, controller, power if kind == "claim" else -power)
    return (after, 0, desk.held) if isinstance(after, int) else (0, 0, after)


# ---- random openings, lists of calls, and desks


def random_opening(rng):
    limit = rng.choice([0, 1, MOST_POWER, MOST_POWER + 1] + [rng.randint(1, 40)] * 8)
    count = rng.choice([0, 1, 8, 9] + [rng.randint(2, 8)] * 10)
    ceilings = [rng.choice([limit, limit, rng.randint(0, limit)]) for _ in range(count)]
    assured = [rng.randint(0, min(top, limit * 2 // count)) for top in ceilings]
    if rng.random() < 0.1 and count:
        rng.choice([assured, ceilings])[rng.randint(0, count - 1)] = limit + 1
    if rng.random() < 0.1:
        assured = assured[1:]
    return limit, assured, ceilings


def random_calls(rng, desk, length):
    """Calls by controllers of the desk and by others; some too large, some for nothing."""
    steps = []
    for _ in range(length):
        controller = rng.randint(0, desk.count - 1) if rng.random() < 0.93 else rng.choice([desk.count, 8, 4000000000])
        kind = rng.choice(["claim", "claim", "claim", "hand_back", "look"])
        own = desk.held[controller] if controller < desk.count else 5
        most = max(own, 1) if kind == "hand_back" else max(desk.limit // desk.count, 2)
        power = rng.choice([0, 1, own, own + 1, desk.limit] + [rng.randint(1, most)] * 5)
        number, figure, held = call(desk, kind, controller, power, True)
        steps.append((kind, controller, power, number, figure, held))
        desk = desk._replace(held=held)
    return steps


def random_change(rng, desk):
    """New figures, often such as the holdings allow."""
    held = list(desk.held[: desk.count])
    reserves = sum(max(pair) for pair in zip(held, desk.assured))
    limit = rng.choice([desk.limit, reserves, max(0, reserves - 1), sum(held), max(0, sum(held) - 1), rng.randint(0, 2 * desk.limit)])
    ceilings = [rng.choice([limit, limit, own, rng.randint(0, limit)]) for own in held]
    assured = [rng.randint(0, rng.choice([top, limit // max(1, desk.count)])) for top in ceilings]
    assured = [min(share, top) for share, top in zip(assured, ceilings)]
    if rng.random() < 0.1 and held:
        ceilings[rng.randrange(len(held))] = max(0, held[0] - 1)
    if rng.random() < 0.1:
        assured, ceilings = assured + [0], ceilings + [0]
    if rng.random() < 0.05:
        assured = assured[1:]
    return limit, assured, ceilings


def random_desk(rng):
    """A small desk: one that calls leave, or one figure off, or many."""
    limit, count = rng.randint(1, 6), rng.randint(2, 3)
    ceiling = [rng.randint(0, limit) for _ in range(count)]
    assured = [rng.randint(0, max(0, min(top, limit // 2))) for top in ceiling]
    held = [rng.randint(0, max(0, min(top, limit // 2 + 1))) for top in ceiling]
    desk = Desk(count, limit, fixed(held), fixed(assured), fixed(ceiling))
    if rng.random() < 0.35:
        field = rng.choice(["held", "assured", "ceiling"])
        place, value = rng.randint(0, 7), rng.randint(0, limit + 1)
        figures = list(getattr(desk, field))
        figures[place] = value
        desk = desk._replace(**{field: tuple(figures)})
    if rng.random() < 0.1:
        desk = desk._replace(count=rng.choice([0, 1, 2, 3, 8, 9]))
    if rng.random() < 0.05:
        desk = desk._replace(limit=0)
    return desk


# ---- rows as antt text


def desk_text(desk):
    return f"(desk {desk.count} {desk.limit} ({numbers(desk.held)}) ({numbers(desk.assured)}) ({numbers(desk.ceiling)}))"


def step_text(step):
    kind, controller, power, number, figure, held = step
    what = f"look {controller}" if kind == "look" else f"{kind} {controller} {power}"
    return f"step ({what}) {number} {figure} ({numbers(held)})"


def change_text(desk, limit, assured, ceilings, number, after):
    return f"changes {desk_text(desk)} {limit} ({numbers(assured)}) ({numbers(ceilings)}) {number} {desk_text(after)}"


def run_text(desk, steps):
    return f"runs {desk_text(desk)}\n    (" + "\n    ∷ ".join([step_text(s) for s in steps] + ["[]"]) + ")"


HEADER = """\
-- Random openings, desks and lists of calls, and what tests/desk_model.py, which reads the document on its own, says of them.
-- Written by that model: its rows are compared with these by the gate.
use mathlib.Core.Path.{◌≡◌, refl}
use mathlib.Core.Bool.{true}
use mathlib.Core.List.{List, [], ◌∷◌}
use Rattle.counting.specs.Counting.{sum, every, any}
use Rattle.checking.specs.Checking.{first_failing}
use Rattle.desk.specs.Checks.{wrong_lengths, wrong_figures, shares_exceed, desk_ok, not_of_desk, wrong_count, some_holds_more, raised_exceed}
use Rattle.desk.specs.Calls.{claim, hand_back, look}
use Rattle.desk.specs.Calls.{open_refusal, opened, claim_refusal, claimed, hand_back_refusal, handed_back, look_refusal, looked}
use Rattle.desk.specs.Calls.{change_refusal, changed}
use Rattle.desk.specs.Rows.{desk, step, Row, opens, runs, changes, all_hold}
"""

OPENED = """\
unfolding sum every any first_failing wrong_lengths wrong_figures shares_exceed desk_ok not_of_desk wrong_count some_holds_more raised_exceed
    open_refusal opened claim_refusal claimed hand_back_refusal handed_back look_refusal looked change_refusal changed
"""


def samples():
    rng = random.Random(400_000)
    openings, runs, desks = [], [], []
    for _ in range(40):
        limit, assured, ceilings = random_opening(rng)
        number, desk = open_desk(limit, assured, ceilings)
        openings.append(f"opens {limit} ({numbers(assured)}) ({numbers(ceilings)}) {number} {desk_text(desk)}")
    while len(runs) < 20:
        number, desk = open_desk(*random_opening(rng))
        if number == 0:
            runs.append(run_text(desk, random_calls(rng, desk, 12)))
    while len(desks) < 60:
        desk = random_desk(rng)
        kind, controller = rng.choice(["claim", "hand_back", "look"]), rng.randint(0, 2)
        power = rng.randint(0, 3)
        desks.append(run_text(desk, [(kind, controller, power) + call(desk, kind, controller, power, False)]))
    # on desks as calls leave them: changes, and calls behind each that is granted; changes of desks that may not be
    changes, given = [], Counter()
    while len(changes) < 60:
        number, desk = open_desk(*random_opening(rng))
        if number:
            continue
        for kind, controller, power, number, figure, held in random_calls(rng, desk, 10):
            desk = desk._replace(held=held)
        figures = random_change(rng, desk)
        number, after = change_desk(desk, *figures, True)
        changes.append(change_text(desk, *figures, number, after))
        given[number] += 1
        if number == 0:
            changes.append(run_text(after, random_calls(rng, after, 4)))
    while len(changes) < 100:
        desk = random_desk(rng)
        figures = random_change(rng, desk)
        number, after = change_desk(desk, *figures, False)
        changes.append(change_text(desk, *figures, number, after))
        given[number] += 1
    assert {0, 11, 12, 13, 14, 21, 22} <= set(given), given
    text = HEADER
    for name, rows in [("openings", openings), ("lists", runs), ("desks", desks), ("figures", changes)]:
        text += table(name, "Row", rows)
        text += f"\npub {name}_right : all_hold {name} ≡ true\n{OPENED.replace('unfolding sum', f'unfolding {name} sum')}{name}_right = refl\n"
    return text


if __name__ == "__main__":
    settle("desk", samples())
