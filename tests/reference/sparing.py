"""Plans along one order with fewest payments, fewest deliveries, or fewest moves of both kinds, written from the papers alone.

plan(goal, record, places_len, sums_len, order_len)   ('refused', n) or ('steps', [(place, paid), ..], order bytes)
areas_after(record, reply, places, sums, order)       the three areas as planning with this reply leaves them
moves(steps)                                          how many payments and deliveries the steps have together

A goal is one of GOALS. Records and areas are bytes, lengths are in bytes, as in planning.py.
"""
import planning
import record as records
from planning import IMPOSSIBLE, START, areas_too_short, deal_of, order_bytes, rule_step, steps_onwards
from record import MAP, SHORT, TABLE, Contract

GOALS = PAYMENTS, DELIVERIES, MOVES = "payments", "deliveries", "moves"


def plan(goal, record, places_len, sums_len, order_len):
    contract = records.parse(record)
    if not isinstance(contract, Contract):
        return "refused", contract
    if contract.header.form == TABLE:
        return "refused", MAP
    if areas_too_short(contract, places_len, sums_len, order_len, work_len=0):
        return "refused", SHORT
    found = plan_of(goal, contract)
    if found is None:
        return "refused", IMPOSSIBLE
    steps, items = found
    return "steps", steps, order_bytes(items)


def plan_of(goal, contract):
    """The steps and the order of the items, or None. The paper: "refusal 9 has the same condition as before"; the order is the
    one that planning chooses, too."""
    found = planning.plan_of(contract)
    if found is None:
        return None
    _, items = found
    deal = deal_of(contract, items)
    steps = sparing_steps(goal, deal)
    assert deal.is_plan(steps) and len(steps) <= 2 * planning.all_units(contract) + 1
    return steps, items


def sparing_steps(goal, deal):
    """The paper: "fewest payments (start with a delivery only), fewest deliveries (start with a payment only), fewest moves of
    both kinds (the smaller of the two, the payment start on a tie)"."""
    place, paid = rule_step(deal, START)
    delivery_start = steps_after(deal, (place, 0))
    payment_start = steps_after(deal, (0, paid))
    if goal == MOVES:
        return min(payment_start, delivery_start, key=moves)  # the first of two equal ones
    return {PAYMENTS: delivery_start, DELIVERIES: payment_start}[goal]


def steps_after(deal, first):
    """A forced first step, then those of the rule. The paper: "an empty first step is dropped"."""
    steps = [] if first == START else [first]
    return steps + steps_onwards(deal, first)


def moves(steps):
    """The paper: "a payment is a step in which the paid total rises, a delivery one in which the place rises"."""
    path = [START, *steps]
    return sum((b > a) + (q > p) for (a, p), (b, q) in zip(path, steps))


def areas_after(record, reply, places, sums, order):
    """The areas after planning; there is no work area."""
    return planning.areas_after(record, reply, places, sums, order, b"")[:3]
