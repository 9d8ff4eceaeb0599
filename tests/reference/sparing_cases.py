"""Cases for the plans with fewest payments, deliveries and moves, beside those of planning_cases.py; the same on every run.

sparing_cases(seed)        PlanCases one by one; for these plans their work areas do not count
small_deal(rng, form)      a ladder or unit prices, for going through all plans
"""
import random

import planning
import planning_cases
from planning_cases import NAMES, PlanCase, filled, needed, plan_case, record_of
from record import LADDER, TABLE, UNIT_PRICES
from record_cases import FORMS, in_turn

MOST_UNITS = {LADDER: 5, UNIT_PRICES: 4}
TIGHT = {LADDER: 0.4, UNIT_PRICES: 0.6}  # how many of the deals are tight
MOST_PRICE, MOST_LEAVING_COST = 10, 4
MOST_ORDER = 12  # bytes of an order area, of which eight count


def small_deal(rng, form):
    """Some leaving costs are about the least with which a plan exists, so that plans have many steps; others are any. Most
    prices are within the range in which the start is safe, so that often both sides can move first."""
    make = planning_cases.goods_maker(rng, form)
    while True:
        goods = make(rng, MOST_UNITS[form], rng.choice((1, 2, 3, 4)))
        if planning.all_units(goods) < rng.randint(1, MOST_UNITS[form]):
            continue
        contract = planning_cases.tight(rng, goods) if rng.random() < TIGHT[form] else evenly_priced(rng, goods)
        if contract.header.price <= MOST_PRICE:
            return contract


def evenly_priced(rng, goods):
    supplier, buyer = rng.randint(0, MOST_LEAVING_COST), rng.randint(0, MOST_LEAVING_COST)
    cost, value = planning_cases.whole_rises(goods)
    beside = rng.choice((0, 0, 1))  # at times as far off as the leaving costs reach, and further
    ends = sorted((cost - beside * (supplier + 1), value + beside * (buyer + 1)))
    return planning_cases.with_deal(goods, rng.randint(*ends), supplier, buyer)


def small_plans(rng, each):
    return (plan_case(rng, "small starts, " + NAMES[form], small_deal(rng, form)) for _ in range(each) for form in MOST_UNITS)


def order_areas(rng, each):
    """Every length of the order area about the eight bytes that it takes."""
    for length in range(MOST_ORDER + 1):
        for form in FORMS:
            for _ in range(each):
                contract = planning_cases.small_deal(rng, form)
                places, sums, _, work = needed(contract)
                yield plan_case(rng, f"order area of {length} bytes", contract, [places, sums, length, work])


def table_areas(rng, count):
    """Tables with areas of all lengths, whole and damaged: 2 stands after the record's refusals and ahead of 8."""
    for _ in range(count):
        contract = planning_cases.small_deal(rng, TABLE)
        need = needed(contract)
        for lengths in [0] * 4, planning_cases.short_lengths(rng, need), need:
            yield PlanCase("table, areas", record_of(rng, contract), *filled(rng, lengths))
            yield PlanCase("damaged table, areas", planning_cases.damaged(rng, contract), *filled(rng, lengths))


def sparing_cases(seed, scale=1):
    rng = random.Random(seed)
    return in_turn(small_plans(rng, 500 * scale), order_areas(rng, 2 * scale), table_areas(rng, 40 * scale))
