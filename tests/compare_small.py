"""Holds the verified planners, called through the C library, against all safe plans of small deals: for planning in all orders of
their units whether a plan exists, that ours is safe and has the fewest steps, and that along our order nobody is ever ahead; for
the plans that spare payments, deliveries or moves that no safe plan in the same order has fewer. For unit prices also that of all
orders of the items ours alone is the one that the paper chooses, for a table that no fewest plan has earlier rows.

usage: python3 tests/compare_small.py [--seed N] [--deals N] [--sparing-deals N]

Needs target/staticlib/libyolkgorge.a (`make`). Ends with status 1 and an explanation at the first fault, or
where some kind of deal came up too rarely.
"""
import argparse
import random
import struct
import sys
import tempfile
from collections import Counter
from pathlib import Path

sys.path.insert(0, str(Path(__file__).resolve().parent / "reference"))
import brute  # noqa: E402  (needs the folder above)
import library  # noqa: E402
import planning_cases  # noqa: E402
import record  # noqa: E402
import sparing_cases  # noqa: E402
from planning_cases import NAMES  # noqa: E402
from record import LADDER, UNIT_PRICES  # noqa: E402
from record_cases import FORMS  # noqa: E402

ROOM = 256  # bytes, enough for every area of a small deal


def record_of(contract):
    return record.write(contract.header, contract.costs, contract.values, ROOM)


def found(contract, count, places, sums, order):
    """(steps, items), or None where the library says that no plan exists."""
    if count == -9:
        return None
    if count < 0:
        sys.exit(f"refused {-count}: {contract}")
    steps = list(zip(struct.unpack_from(f"<{count}H", places), struct.unpack_from(f"<{count}I", sums)))
    return steps, tuple(item for item in order if item)


def planned(lib, contract):
    count, _, (places, sums, order, _) = lib.plan(record_of(contract), bytes(ROOM), bytes(ROOM), bytes(8), bytes(ROOM))
    return found(contract, count, places, sums, order)


def spared(lib, contract, goal):
    count, _, areas = lib.plan_fewest(goal, record_of(contract), bytes(ROOM), bytes(ROOM), bytes(8))
    return found(contract, count, *areas)


def hold(contract, judged, shown):
    for what, got, wanted in judged:
        if got != wanted:
            sys.exit(f"{what}: the library has {got}, all plans say {wanted}: {contract} {shown}")


def small_deals(lib, rng, deals):
    """How many deals of each kind there were; one may be of several kinds, or of none."""
    for form in FORMS:
        seen = Counter()
        for _ in range(deals):
            contract = planning_cases.tiny_deal(rng, form)
            plan = planned(lib, contract)
            hold(contract, brute.judged(contract, plan), plan)
            seen.update(["planned" if plan else "impossible", *brute.kinds(contract, plan)])
        yield from enough(NAMES[form], seen, brute.KINDS[form], deals)


def sparing_deals(lib, rng, deals):
    """The same for the three sparing plans of each deal."""
    for form in LADDER, UNIT_PRICES:
        seen = Counter()
        for _ in range(deals):
            contract = sparing_cases.small_deal(rng, form)
            plans = {goal: spared(lib, contract, goal) for goal in library.GOALS}
            hold(contract, brute.judged_sparing(contract, plans), plans)
            seen.update([brute.starts_kind(contract, plans), *brute.kinds(contract, plans["moves"])])
        yield from enough(f"{NAMES[form]}, sparing", seen, brute.START_KINDS + brute.KINDS[form], deals)


def enough(name, seen, kinds, deals):
    """A line for each kind; ends the program where one came up too rarely."""
    rare = [kind for kind in kinds if seen[kind] < deals / 30]
    if rare:
        sys.exit(f"{name}: too few of the kinds {rare}: {seen}")
    return (f"{count:8} {name}, {kind}" for kind, count in sorted(seen.items()))


def main():
    words = argparse.ArgumentParser(description=__doc__, formatter_class=argparse.RawDescriptionHelpFormatter)
    words.add_argument("--seed", type=int, default=2)
    words.add_argument("--deals", type=int, default=4_000, help="of each form")
    words.add_argument("--sparing-deals", type=int, default=5_000, help="of each form but tables, each with three plans")
    words = words.parse_args()
    rng = random.Random(words.seed)
    with tempfile.TemporaryDirectory() as folder:
        lib = library.Library(library.build(folder))
        print(*small_deals(lib, rng, words.deals), sep="\n")
        print(*sparing_deals(lib, rng, words.sparing_deals), sep="\n")
    print(f"{len(FORMS) * words.deals + 2 * words.sparing_deals} small deals held against all their plans")


if __name__ == "__main__":
    main()
