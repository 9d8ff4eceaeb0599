"""Inputs for the plan printer, the same on every run: all_inputs(seed) gives a kind and the bytes of each, one by one."""
import random

import examples
import planning
import planning_cases
import record
import record_cases
from planning_cases import NAMES, even_deal, unit_by_unit
from record import LADDER, MOST_MONEY, TABLE, UNIT_PRICES, Contract
from record_cases import FORMS

LONGEST = 8_016  # bytes of the longest record
# units of deals with as many places as there can be, and of tables with 128 rows
LARGE = {LADDER: ((1_000,),), UNIT_PRICES: ((125,) * 8, (255, 255, 255, 235), (250,) * 4),
         TABLE: ((127,), (1, 63), (3, 3, 3, 1), (7, 15))}
ROUNDS = 40  # of small deals in each form


def content_of(contract):
    return record_cases.joined(record_cases.fields_of(contract))


def longest_plans():
    """2U + 1 steps with small and with the greatest sums; and 2U, from a delivery on and from a payment on."""
    for form, some in LARGE.items():
        for units in some:
            for amount in 2, MOST_MONEY // sum(units):
                yield unit_by_unit(form, units, amount)
            for supplier, buyer in (0, 10), (10, 0):
                yield even_deal(form, units, 10, supplier, buyer)


def near_limit(rng, form):
    """A small deal in coins so small that its greatest amount is just below the limit; at times the leaving costs are one off."""
    deal = planning_cases.small_deal(rng, form)
    header = deal.header
    greatest = max(record.limited_amounts(header, planning.item_units(deal), deal.costs, deal.values))
    factor = MOST_MONEY // max(1, greatest)
    goods = Contract(header, *([factor * amount for amount in amounts] for amounts in (deal.costs, deal.values)))
    more = rng.choice((0, 0, 0, -1, 1))
    return planning_cases.with_deal(goods, factor * header.price, factor * header.supplier + more, factor * header.buyer)


def deals(rng):
    for form in FORMS:
        for _ in range(ROUNDS):
            yield "small " + NAMES[form], planning_cases.small_deal(rng, form)
        for _ in range(ROUNDS // 2):
            yield "near the limit", near_limit(rng, form)
        for _ in range(ROUNDS // 5):
            yield "large " + NAMES[form], planning_cases.large_deal(rng, form)
    for deal in longest_plans():
        yield "longest " + NAMES[deal.header.form], deal
    for _ in range(ROUNDS // 4):
        yield "amounts at the limit", planning_cases.with_deal(record_cases.some_contract(rng), *[MOST_MONEY] * 3)


def around_longest(rng):
    """Inputs whose lengths are about that of the longest record and far beyond, sound and faulty."""
    longest = content_of(unit_by_unit(LADDER, (1_000,)))
    assert len(longest) == LONGEST
    starts = [longest] + [content_of(planning_cases.small_deal(rng, form)) for form in FORMS]
    starts += [planning_cases.damaged(rng, planning_cases.small_deal(rng, form)) for form in FORMS for _ in range(6)]
    yield longest[:-1]
    for start in starts:
        for length in LONGEST, LONGEST + 1, rng.randint(8_200, 70_000):
            yield start + rng.randbytes(length - len(start))
    yield longest + bytes(300_000)


def all_inputs(seed):
    rng = random.Random(seed)
    yield "nothing", b""
    for example in examples.examples():
        yield "example " + example.name, example.record
    for kind, deal in deals(rng):
        yield kind, planning_cases.record_of(rng, deal)
    for i in range(3 * ROUNDS):
        yield "damaged", planning_cases.damaged(rng, planning_cases.small_deal(rng, FORMS[i % 3]))
    for content in around_longest(rng):
        yield "long input", content
