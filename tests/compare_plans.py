"""Compares the verified planners, check and session with the reference program, through the C library: every answer, every
byte of every area, every session.

usage: python3 tests/compare_plans.py [--seed N] [--scale N]

Needs target/staticlib/libyolkgorge.a (`make`). Ends with status 1 and an explanation at the first difference,
or where some answer never came up.
"""
import argparse
import sys
import tempfile
from collections import Counter
from pathlib import Path

sys.path.insert(0, str(Path(__file__).resolve().parent / "reference"))
import examples  # noqa: E402  (needs the folder above)
import library  # noqa: E402
import planning  # noqa: E402
import planning_cases  # noqa: E402
import record as records  # noqa: E402
import sparing  # noqa: E402
import sparing_cases  # noqa: E402
from library import BOUNDS_BYTES  # noqa: E402
from record_cases import in_turn  # noqa: E402

EXAMPLES = Path(__file__).resolve().parent.parent / "examples/records"
# the examples and what the paper says of them: a refusal, or the step count
PLANNED = {"case-a": 5, "case-b": -9, "case-c": -9, "case-d": -9, "case-e": 1, "case-h": -9, "case-k-short": -1, "case-k-long": -7,
           "ladder-1001": -5, "total-over": -4, "stock-ladder": 17}
# the same for fewest payments, deliveries and moves, worked out by hand
SPARED = {"case-a": (5, 5, 5), "case-b": (-9,) * 3, "case-c": (-9,) * 3, "case-e": (1, 1, 1), "case-f": (-2,) * 3, "case-g": (4, 5, 4),
          "case-h": (-9,) * 3, "case-k-short": (-1,) * 3, "case-k-long": (-7,) * 3, "table-3": (-2,) * 3, "total-largest": (2, 2, 2),
          "two-rules": (7, 8, 7)}
# examples for which an order or rows are chosen: the order and the steps
CASE_F = (), [(1, 5), (1, 10), (4, 10), (4, 22), (9, 22)]
CHOSEN = {"case-f": CASE_F, "table-3": CASE_F, "case-g": ((1, 2), [(1, 1), (1, 6), (2, 6), (2, 8)]),
          "two-orders": ((2, 1), [(1, 1), (2, 1), (2, 3)]), "first-row": ((), [(1, 2), (1, 4), (3, 4), (3, 6)]),
          "two-rules": ((2, 1, 3, 4), [(1, 1), (2, 4), (4, 6), (5, 10), (7, 11), (7, 13), (8, 13)])}
# examples that the paper only says are read: the longest ladder, and the greatest totals
READ = ("ladder-1000", "total-largest")
# brought plans: the one that the published method prints for its table 3, and case C's of old, also with a first step that stays
CASE_C = [(1, 0), (1, 4), (2, 4), (2, 7)]
BROUGHT = (("table-3", [(2, 5), (3, 14), (4, 18), (4, 22), (9, 22)], 0), ("case-c", CASE_C, 12), ("case-c", [(0, 0), *CASE_C], 12))
# the answers that each entry can give; all must come up
PLAN_ANSWERS = *range(-9, 0), "made"
ANSWERS = {"plan": PLAN_ANSWERS, "bounds": (*range(9), 12), "check": (*range(9), 12), "open": (*range(9), 12),
           "report": (0, 8, 10, 11), "finished": (0, 1, 8)}
ANSWERS |= {f"fewest {goal}": (*PLAN_ANSWERS, "-2 for a table") for goal in sparing.GOALS}


class Difference(Exception):
    pass


def same(kind, what, got, wanted, *shown):
    if got != wanted:
        raise Difference(f"{kind}: {what} is {got!r}, the reference says {wanted!r}\n" + "\n".join(map(repr, shown)))


def example(name):
    return (EXAMPLES / f"{name}.bin").read_bytes()


def planned(lib, record):
    """The answer, and the areas of places, sums and order."""
    answer, _, after = lib.plan(record, bytes(9_000), bytes(9_000), bytes(8), bytes(40_000))
    return answer, after[:3]


def example_plans(lib):
    for name, wanted in PLANNED.items():
        same(name, "the answer to planning", planned(lib, example(name))[0], wanted)
        yield "example"
    for name, (items, steps) in CHOSEN.items():
        answer, (places, sums, order) = planned(lib, example(name))
        got = [planning.state_after(k, places, sums) for k in range(1, answer + 1)]
        same(name, "the order and the plan", (order, got), (planning.order_bytes(items), steps))
        yield "example"
    for name, wanted in SPARED.items():
        answers = [lib.plan_fewest(goal, example(name), bytes(9_000), bytes(9_000), bytes(8))[0] for goal in sparing.GOALS]
        same(name, "the answers for fewest payments, deliveries, moves", answers, list(wanted))
        yield "example"
    for name in READ:
        answer = lib.bounds(example(name), 0, bytes(8), bytes(BOUNDS_BYTES))[0]
        same(name, "the answer to a question for bounds", answer, 0)
        yield "example"
    for name, plan, wanted in BROUGHT:
        places, sums = (b"".join(state[side].to_bytes(size, "little") for state in plan) for side, size in ((0, 2), (1, 4)))
        brought = example(name), len(plan), places, sums, bytes(8)
        same(name, "the check of a brought plan", (lib.check(*brought), planning.check(*brought)), (wanted, wanted), plan)
        same(name, "the answer to opening it", lib.open(bytes(10), *brought)[0], wanted, plan)
        yield "example"
    yield stock_prices(lib)
    yield two_orders(lib)


def stock_prices(lib):
    """The stock figure as unit prices: the order that the figure prints, and the plan of the ladder in this order."""
    answer, (places, sums, order) = planned(lib, example("stock-prices"))
    along, areas = planned(lib, example("stock-ladder"))
    same("stock-prices", "the order", order, planning.order_bytes(examples.STOCK_ORDER))
    same("stock-prices", "the plan in its order", (answer, places, sums), (along, *areas[:2]))
    return "example"


def two_orders(lib):
    """The count for unit prices is against plans in our order: another one may have a shorter plan."""
    counts = [planned(lib, examples.ladder(examples.TWO_ORDERS_DEAL, rises))[0]
              for rises in (examples.TWO_ORDERS, examples.TWO_ORDERS[::-1])]
    same("two-orders", "the steps of each order", counts, [2, 3])
    return "example"


def plans(lib, seed, scale):
    """Each case through all four planners: the work area is the first one's only."""
    for case in in_turn(planning_cases.plan_cases(seed, scale), sparing_cases.sparing_cases(seed, scale)):
        areas = (case.places, case.sums, case.order)
        reply = planning.plan(case.record, *map(len, areas), len(case.work))
        wanted = planning.areas_after(case.record, reply, *areas, case.work)
        yield f"plan {planner(case, 'planning', lib.plan(case.record, *areas, case.work), reply, wanted)}"
        for goal in sparing.GOALS:
            reply = sparing.plan(goal, case.record, *map(len, areas))
            wanted = sparing.areas_after(case.record, reply, *areas)
            answer = planner(case, f"planning with fewest {goal}", lib.plan_fewest(goal, case.record, *areas), reply, wanted)
            for_a_table = answer == -2 and isinstance(records.parse(case.record), records.Contract)
            yield f"fewest {goal} {answer}{' for a table' if for_a_table else ''}"


def planner(case, what, got, reply, areas):
    """Holds the answer, the record and all areas to the reference's reply; a refusal with its sign, or 'made'."""
    answer, record, after = got
    number = -reply[1] if reply[0] == "refused" else len(reply[1])
    same(case.kind, f"the answer to {what}", answer, number, case)
    same(case.kind, f"the record after {what}", record, case.record)
    same(case.kind, f"an area after {what}", after, areas, case)
    return number if number < 0 else "made"


def bounds(lib, seed, scale):
    for case in planning_cases.bounds_cases(seed, scale):
        reply = planning.bounds(case.record, case.place, case.order)
        room = b"\xa5" * (BOUNDS_BYTES + 3)
        answer, after = lib.bounds(case.record, case.place, case.order, room)
        if reply[0] == "refused":
            number, wanted = reply[1], room
        else:
            number = 0
            wanted = b"".join(x.to_bytes(8, "little", signed=True) for x in reply) + room[BOUNDS_BYTES:]
        same(case.kind, "the answer to a question for bounds", answer, number, case)
        same(case.kind, "the area of the bounds", after, wanted, case)
        yield f"bounds {number}"


def checks(lib, seed, scale):
    for case in planning_cases.check_cases(seed, scale):
        brought = (case.record, case.count, case.places, case.sums, case.order)
        wanted = planning.check(*brought)
        same(case.kind, "the answer to a check", lib.check(*brought), wanted, case)
        yield f"check {wanted}"


def sessions(lib, seed, scale):
    for case in planning_cases.session_cases(seed, scale):
        area, plan = case.area, (case.count, case.places, case.sums)
        if case.opens:
            number, wanted = planning.open_in(area, case.record, *plan, case.order)
            answer, area = lib.open(area, case.record, *plan, case.order)
            same(case.kind, "the answer to opening", answer, number, case)
            same(case.kind, "the session area after opening", area, wanted, case)
            yield f"open {number}"
        yield finished(lib, case, area)
        for side, value in () if case.opens and number else case.reports:
            number, wanted = planning.report_in(area, *plan, side, value)
            answer, after = lib.report(area, *plan, side, value)
            same(case.kind, "the reply to a report", answer, number, case, area, side, value)
            same(case.kind, "the session area after a report", after, wanted, case, area, side, value)
            yield f"report {number}"
            area = after
            yield finished(lib, case, area)
        yield "session"


def finished(lib, case, area):
    wanted = planning.finished_in(area, case.count)
    same(case.kind, f"finished, for an area of {len(area)} bytes,", lib.finished(area, case.count), wanted, case, area)
    return f"finished {wanted}"


def main():
    words = argparse.ArgumentParser(description=__doc__, formatter_class=argparse.RawDescriptionHelpFormatter)
    words.add_argument("--seed", type=int, default=1)
    words.add_argument("--scale", type=int, default=3)
    words = words.parse_args()
    with tempfile.TemporaryDirectory() as folder:
        lib = library.Library(library.build(folder))
        seen = Counter(example_plans(lib))
        seen.update(in_turn(*(compare(lib, words.seed, words.scale) for compare in (plans, bounds, checks, sessions))))
    for name, count in sorted(seen.items()):
        print(f"{count:8} {name}")
    missing = [f"{entry} {answer}" for entry, some in ANSWERS.items() for answer in some if not seen[f"{entry} {answer}"]]
    if missing:
        sys.exit(f"no case has the answer {missing}")
    print(f"{sum(seen.values())} answers agree")


if __name__ == "__main__":
    try:
        main()
    except Difference as difference:
        sys.exit(f"difference: {difference}")
