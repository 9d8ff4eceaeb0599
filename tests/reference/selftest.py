"""Tries planning.py and sparing.py against the paper's cases and, on tiny deals, against going through all plans.

usage: python3 tests/reference/selftest.py [SEED]

Prints how many checks passed. The first check that fails ends the run with a message.
"""
import random
import struct
import sys
from collections import Counter
from itertools import islice, permutations

import brute
import planning
import planning_cases
import record
import sparing
import sparing_cases
from planning import DELIVERY, PAYMENT
from record import LADDER, TABLE, UNIT_PRICES
from record_cases import in_turn

TINY_DEALS = 3_000     # of each form
MOST_LISTED = 300      # plans of one deal that are listed one by one
MIDDLE_DEALS = 60      # tables with more rows and a greater price
SPARING_DEALS = 5_000  # of each form but tables
RAREST = 30            # at least one of so many deals is of each kind
RAREST_GENERATED = 60  # the same of generated cases, many of which are refused for something else

ROOM = 9_000           # bytes, enough for every area of the cases below but a table's work area
WORK = 40_000

passed = 0


def expect(got, wanted, what):
    global passed
    if got != wanted:
        sys.exit(f"FAILED: {what}\n  got     {got}\n  wanted  {wanted}")
    passed += 1


# The paper's records, byte by byte

def amounts(*numbers):
    return struct.pack(f"<{len(numbers)}I", *numbers)


def deal_bytes(form_bit, price, supplier, buyer):
    bits = 1 << form_bit | (price > 0) | (supplier > 0) << 1 | (buyer > 0) << 2
    return struct.pack("<H", bits) + amounts(*(amount for amount in (price, supplier, buyer) if amount))


def ladder(deal, rises):
    return deal_bytes(3, *deal) + struct.pack("<H", len(rises)) + b"".join(amounts(*rise) for rise in rises)


def unit_prices(deal, items):
    lines = (bytes([units]) + amounts(cost, value) for units, cost, value in items)
    return deal_bytes(4, *deal) + bytes([len(items)]) + b"".join(lines)


def table(deal, units, costs, values):
    """Every cell is given."""
    row_map = (2 ** len(costs) - 1).to_bytes((len(costs) + 7) // 8, "little")
    return deal_bytes(5, *deal) + bytes([len(units), *units]) + row_map + amounts(*costs) + row_map + amounts(*values)


A = bytes.fromhex("0f00 0a000000 01000000 03000000 0200 04000000 06000000 04000000 06000000")
A_STEPS = [(0, 3), (1, 3), (1, 7), (2, 7), (2, 10)]
A_RISES = [(4, 6), (4, 6)]
C = ladder((7, 1, 3), A_RISES)
C_STEPS = [(1, 0), (1, 4), (2, 4), (2, 7)]  # safe but for the start
F = table((22, 2, 2), (1, 4), (0, 5, 9, 13, 17, 10, 13, 16, 18, 19), (0, 3, 6, 10, 14, 6, 10, 15, 20, 26))
G_ITEMS = [(1, 5, 3), (1, 3, 6)]
# the surplus of a unit is greater in items 2 and 4, that of all units together in items 1 and 3
M = unit_prices((13, 1, 1), [(3, 2, 1), (1, 3, 1), (3, 1, 2), (1, 1, 3)])
M_STEPS = [(1, 1), (2, 4), (4, 6), (5, 10), (7, 11), (7, 13), (8, 13)]

# units, cost and value of a unit in cents: MSFT, HWP, DELL, EBAY, PG; the figure delivers 3, 5, 4, 1, 2
STOCKS = [(60, 9_081, 9_800), (30, 10_263, 10_990), (10, 4_181, 4_250), (100, 12_025, 12_725), (40, 8_510, 8_844)]
STOCK_DEAL = (2_586_460, 100_000, 150_000)
STOCK_ORDER = (3, 5, 4, 1, 2)

ZEROS = bytes(8)


def planned(data):
    return planning.plan(data, ROOM, ROOM, 8, WORK)


def steps_reply(steps, order=ZEROS):
    return "steps", steps, order


def order_of(*items):
    return bytes(items).ljust(8, b"\0")


def refused(number):
    return "refused", number


def areas(steps):
    places, sums = ([state[side] for state in steps] for side in (DELIVERY, PAYMENT))
    return struct.pack(f"<{len(steps)}H", *places), struct.pack(f"<{len(steps)}I", *sums)


def paper_cases():
    expect(len(A), 32, "A's record has 32 bytes")
    expect(A, ladder((10, 1, 3), A_RISES), "A's record")
    expect([planning.bounds(A, place, ZEROS) for place in range(3)], [(0, 3), (1, 7), (7, 10)], "A's bounds")
    expect(planning.bounds(A, 3, ZEROS), refused(5), "A's bounds beyond the last place")
    expect(planned(A), steps_reply(A_STEPS), "A")
    expect(planned(ladder((10, 1, 2), A_RISES)), refused(9), "B")
    expect(planned(C), refused(9), "C")
    d = ladder((6, 1, 3), A_RISES)
    expect(planned(d), refused(9), "D")
    expect([planning.bounds(d, place, ZEROS) for place in range(3)], [(0, -1), (0, 3), (3, 6)], "D's bounds, a negative one too")
    expect(planned(ladder((0, 0, 0), [(0, 0)])), steps_reply([(1, 0)]), "E")
    expect(planned(F), steps_reply([(1, 5), (1, 10), (4, 10), (4, 22), (9, 22)]), "F, its earliest rows")
    expect(planning.check(F, 5, *areas([(2, 5), (3, 14), (4, 18), (4, 22), (9, 22)]), ZEROS), 0, "F, the printed plan")
    expect(planned(unit_prices((8, 1, 2), G_ITEMS)),
           steps_reply([(1, 1), (1, 6), (2, 6), (2, 8)], order_of(1, 2)), "G")
    expect(planned(unit_prices((8, 1, 1), G_ITEMS)), refused(9), "H")
    expect(planning.check(A, 5, *areas(A_STEPS), ZEROS), 0, "A's plan is safe")
    expect(planning.check(A, 3, *areas([(0, 3), (2, 3), (2, 10)]), ZEROS), 12, "J")
    expect((planned(A[:31]), planned(A + b"\0")), (refused(1), refused(7)), "K")
    two_ways = table((2, 0, 1), (1, 1), (0, 0, 1, 1), (0, 0, 0, 2))
    expect(planned(two_ways), steps_reply([(2, 1), (3, 2)]), "the shorter way to a row is not always the better one")


def starts_by_hand():
    """P at both ends of its range and next to them, where leaving costs would let each deal be; C's plan of old; and row 0."""
    for what, low, high, of in (
            ("ladder", 1, 2, lambda price: ladder((price, 1, 1), [(1, 2)])),
            ("unit prices", 3, 4, lambda price: unit_prices((price, 2, 2), [(1, 2, 1), (1, 1, 3)])),
            ("table", 2, 3, lambda price: table((price, 1, 1), (1,), (5, 7), (7, 10)))):
        for price in range(low - 1, high + 2):
            for reply in planned(of(price)), *(spared(of(price)) if what != "table" else ()):
                expect(reply[0] == "steps", low <= price <= high, f"the start, {what}, P {price}")
            old = brute.some_plan_exists(record.parse(of(price)), brute.costly_safe)
            expect(old, True, f"a plan but for the start, {what}, P {price}")
    for steps in C_STEPS, [(0, 0), *C_STEPS], [(0, 0)] * 3 + C_STEPS:
        brought = len(steps), *areas(steps), ZEROS
        expect((planning.check(C, *brought), planning.open(C, *brought)), (12, (12, None)), f"C's plan of old: {steps}")
    expect([planning.bounds(C, place, ZEROS) for place in range(3)], [(0, 0), (0, 4), (4, 7)], "C's bounds are as they were")
    row_0 = table((6, 1, 2), (1, 1), (3, 5, 6, 8), (2, 4, 5, 9))
    expect(planned(row_0), steps_reply([(1, 2), (1, 4), (3, 4), (3, 6)]), "P below the last cost, not below its rise")
    above = table((8, 1, 2), (1, 1), (3, 5, 6, 8), (2, 4, 5, 9))
    expect(planned(above), refused(9), "P below the last value, above its rise")


def case_i():
    plan = (5, *areas(A_STEPS))
    number, session = planning.open(A, *plan, ZEROS)
    expect((number, session), (0, (0, False, False)), "I, opening")
    number, session = planning.report(session, *plan, PAYMENT, 3)
    expect((number, session), (0, (1, False, False)), "I, payment 3")
    expect(planning.report(session, *plan, DELIVERY, 2), (10, session), "I, delivery 2")
    expect(planning.report(session, *plan, DELIVERY, 1), (0, (2, False, False)), "I, delivery 1")


def other_cases():
    def long(units):
        return ladder((0, 0, 0), [(0, 0)] * units)

    expect(planned(long(1_000)), steps_reply([(1_000, 0)]), "1,000 units")
    expect(planned(long(1_001)), refused(5), "1,001 units")
    limit = ((400_000_000, 1), (600_000_000, 1))
    expect(planned(ladder((0, 0, 0), limit)), refused(9), "total 1,000,000,000 is read")
    expect(planned(ladder((0, 0, 0), (*limit, (1, 0)))), refused(4), "total 1,000,000,001")
    rises = [STOCKS[item - 1][1:] for item in STOCK_ORDER for _ in range(STOCKS[item - 1][0])]
    along = planned(ladder(STOCK_DEAL, rises))
    expect(len(along[1]), 17, "the stock figure's order as a ladder")
    expect(planned(unit_prices(STOCK_DEAL, STOCKS)), steps_reply(along[1], order_of(*STOCK_ORDER)),
           "the stock figure as unit prices")
    longest = planning.plan_of(planning_cases.unit_by_unit(LADDER, (1_000,)))
    expect(len(longest[0]), 2_001, "2U + 1 steps")


def orders_by_hand():
    """The order for unit prices: ties, a greater surplus that has to wait, and whole segments, which are not compared."""
    same, first, last = (1, 2, 2), (1, 2, 1), (1, 1, 2)
    for what, deal, items, wanted in (
            ("the lower number on a tie, from behind nearer the end", (6, 1, 0), [first, first, last, last], (1, 2, 4, 3)),
            ("equal cost and value come first", (5, 1, 1), [last, same, first], (3, 2, 1)),
            ("the greater surplus from the front", (7, 2, 1), [(1, 5, 3), first, (1, 0, 3)], (1, 2, 3)),
            ("the greater surplus waits for room", (7, 1, 1), [(1, 5, 3), first, (1, 0, 3)], (2, 1, 3)),
            ("the greater surplus from behind", (6, 2, 1), [(1, 3, 5), last], (2, 1)),
            ("the greater surplus waits for room behind", (6, 1, 1), [(1, 3, 5), last], (1, 2))):
        expect(planned(unit_prices(deal, items))[::2], ("steps", order_of(*wanted)), what)
    expect(planned(M), steps_reply(M_STEPS, order_of(2, 1, 3, 4)), "M, where the surplus of a unit counts")
    by_delivery = steps_reply([(1, 0), (1, 4), (4, 4), (4, 10), (7, 10), (7, 13), (8, 13)], order_of(2, 1, 3, 4))
    by_payment = steps_reply([(0, 1), (2, 1), (2, 6), (5, 6), (5, 11), (7, 11), (7, 13), (8, 13)], order_of(2, 1, 3, 4))
    expect(spared(M), [by_delivery, by_payment, by_delivery], "M, sparing, in the same order")
    segments = [brute.whole_segments(record.parse(data)) for data in (M, unit_prices(STOCK_DEAL, STOCKS))]
    expect(segments, [(1, 2, 4, 3), (3, 5, 2, 1, 4)], "document 000's rule has other orders, for its own stock figure too")


def orders_by_unclipped_bounds():
    """What each order would be, if the difference were taken between the clipped bounds."""
    for clipped, deal, items, wanted in (
            ([], (5, 2, 0), [(1, 5, 5), (1, 0, 100)], (1, 2)),
            ([(2, 1, 3)], (3, 0, 0), [(1, 2, 1), (1, 1, 0), (1, 0, 3)], (1, 2, 3)),
            ([(1, 2)], (1, 1, 0), [(1, 1, 2), (1, 0, 1)], (2, 1))):
        data = unit_prices(deal, items)
        expect(planned(data)[::2], ("steps", order_of(*wanted)), f"the order by unclipped bounds: {deal} {items}")
        orders = permutations(range(1, len(items) + 1))
        by_clipped = [some for some in orders if brute.is_chosen(record.parse(data), some, brute.bounds)]
        expect(by_clipped, clipped, f"the orders by clipped bounds: {deal} {items}")


def refusals_and_areas():
    """The order of the refusals, and every byte of the areas after each kind of reply."""
    lent = b"\7" * 13, b"\7" * 23, b"\7" * 9, b"\7" * 3
    expect(planning.plan(A, 10, 20, 8, 0), steps_reply(A_STEPS), "A, areas just long enough")
    for lengths in (9, 20, 8, 0), (10, 19, 8, 0), (10, 20, 7, 0):
        expect(planning.plan(A, *lengths), refused(8), f"A, areas of {lengths}")
    expect(planning.plan(F, 22, 44, 8, 120)[0], "steps", "F, areas just long enough")
    expect(planning.plan(F, 22, 44, 8, 119), refused(8), "F, work area too short")
    expect(planning.plan(A[:31], 0, 0, 0, 0), refused(1), "a record's refusal stands before 8")
    expect(planning.areas_after(A, planned(A), *lent),
           (bytes.fromhex("0000 0100 0100 0200 0200 0000 07"),
            bytes.fromhex("03000000 03000000 07000000 07000000 0a000000 070707"), ZEROS + b"\7", bytes(3)), "A's areas")
    expect(planning.areas_after(A, refused(9), *lent), (*lent[:3], bytes(3)), "areas after 9")
    for number in (1, 2, 3, 4, 5, 6, 7, 8):
        expect(planning.areas_after(A, refused(number), *lent), lent, f"areas after {number}")
    g, two, one = unit_prices((8, 1, 2), G_ITEMS), order_of(2, 1), order_of(1, 1)
    expect([planning.bounds(g, place, two) for place in range(3)], [(0, 1), (3, 4), (6, 8)], "G's bounds, other order")
    expect(planning.bounds(g, 1, two + b"\5"), (3, 4), "a ninth order byte does not count")
    expect((planning.bounds(g, 3, one[:7]), planning.bounds(g, 3, one), planning.bounds(g, 2, one)),
           (refused(8), refused(5), refused(12)), "8, then 5, then 12")
    expect(planning.check(A, 0, b"", b"", ZEROS), 12, "a plan of no steps")
    expect(planning.check(A, 6, *areas(A_STEPS), ZEROS), 8, "a count above the areas")
    expect(planning.check(A, 5, *areas(A_STEPS), b"\1" + bytes(7)), 12, "order bytes for a ladder")


# Fewest payments, deliveries and moves

def spared(data, *lengths):
    """The replies for each goal, in areas of these lengths or in large ones."""
    return [sparing.plan(goal, data, *lengths or (ROOM, ROOM, 8)) for goal in sparing.GOALS]


def sparing_cases_by_hand():
    expect(spared(A), [steps_reply(A_STEPS)] * 3, "A, sparing: no first delivery")
    no_payment = steps_reply([(1, 0), (1, 4), (2, 4), (2, 8)])
    expect(spared(ladder((8, 0, 4), A_RISES)), [no_payment] * 3, "no first payment")
    expect(spared(ladder((0, 0, 0), [(0, 0)])), [steps_reply([(1, 0)])] * 3, "E, sparing")
    one_two = order_of(1, 2)
    by_delivery = steps_reply([(1, 0), (1, 6), (2, 6), (2, 8)], one_two)
    by_payment = steps_reply([(0, 1), (1, 1), (1, 6), (2, 6), (2, 8)], one_two)
    expect(spared(unit_prices((8, 1, 2), G_ITEMS)), [by_delivery, by_payment, by_delivery], "G, sparing: two payments are enough")
    by_delivery, by_payment = steps_reply([(1, 0), (1, 1)]), steps_reply([(0, 1), (1, 1)])
    expect(spared(ladder((1, 1, 1), [(0, 1)])), [by_delivery, by_payment, by_payment], "the payment start on a tie")
    by_delivery, by_payment = steps_reply([(1, 0), (1, 2), (2, 2)]), steps_reply([(0, 2), (2, 2)])
    expect(spared(ladder((2, 0, 1), [(0, 1)] * 2)), [by_delivery, by_payment, by_payment], "one delivery is enough")
    for name, data in (("B", ladder((10, 1, 2), A_RISES)), ("C", C), ("D", ladder((6, 1, 3), A_RISES)),
                       ("H", unit_prices((8, 1, 1), G_ITEMS))):
        expect(spared(data), [refused(9)] * 3, f"{name}, sparing")
    longest = planning_cases.unit_by_unit(LADDER, (1_000,))
    expect([len(sparing.plan_of(goal, longest)[0]) for goal in sparing.GOALS], [2_001] * 3, "2U + 1 steps, sparing")


def sparing_refusals_and_areas():
    """The record's refusals, then 2 for a table, then 8, then 9; and every byte of the areas."""
    b = ladder((10, 1, 2), A_RISES)
    for data, number in (A[:31], 1), (A + b"\0", 7), (F[:-1], 1), (F + b"\0", 7), (F, 2), (A, 8), (b, 8):
        expect(spared(data, 0, 0, 0), [refused(number)] * 3, f"{number} without areas")
    expect(spared(F), [refused(2)] * 3, "2 for a table")
    expect((spared(A, 10, 20, 8), spared(b, 10, 20, 8)), ([steps_reply(A_STEPS)] * 3, [refused(9)] * 3), "areas just long enough")
    for lengths in (9, 20, 8), (10, 19, 8), (10, 20, 7):
        expect((spared(A, *lengths), spared(b, *lengths)), ([refused(8)] * 3,) * 2, f"areas of {lengths}")
    lent = b"\7" * 13, b"\7" * 23, b"\7" * 9
    expect(sparing.areas_after(A, steps_reply(A_STEPS), *lent),
           (bytes.fromhex("0000 0100 0100 0200 0200 0000 07"),
            bytes.fromhex("03000000 03000000 07000000 07000000 0a000000 070707"), ZEROS + b"\7"), "A's areas, sparing")
    for number in range(1, 10):
        expect(sparing.areas_after(A, refused(number), *lent), lent, f"areas after {number}, sparing")


def sparing_deals(rng):
    """Against all safe plans in the same order; each kind of start and of order has to come up."""
    for form in LADDER, UNIT_PRICES:
        seen = Counter()
        for _ in range(SPARING_DEALS):
            contract = sparing_cases.small_deal(rng, form)
            found = {goal: sparing.plan_of(goal, contract) for goal in sparing.GOALS}
            for what, got, wanted in brute.judged_sparing(contract, found):
                expect(got, wanted, f"{what}: {contract} {found}")
            seen.update([brute.starts_kind(contract, found), *brute.kinds(contract, found[sparing.MOVES])])
        all_kinds(seen, brute.START_KINDS + brute.KINDS[form], SPARING_DEALS)


def all_kinds(seen, kinds, deals, rarest=RAREST):
    expect([kind for kind in kinds if seen[kind] < deals / rarest], [], f"kinds that are too rare: {seen}")


# Tiny deals against all plans

def tiny_deal(contract):
    """What the planner says of one deal, against all safe plans of all orders; of which kinds the deal is."""
    found = planning.plan_of(contract)
    for what, got, wanted in brute.judged(contract, found):
        expect(got, wanted, f"{what}: {contract} {found}")
    if found:
        world = brute.own_world(contract, found[1])
        ways = brute.all_steps(world)
        listed_plans(contract, world, ways, brute.layers(world, ways))
    return brute.kinds(contract, found)


def listed_plans(contract, world, ways, layers):
    """Where the plans are few, they are listed one by one: the layers hold exactly their states."""
    plans = list(islice(brute.all_plans(world, ways), MOST_LISTED + 1))
    if len(plans) <= MOST_LISTED:
        longest = max(map(len, plans))
        listed = [{([brute.START] + plan)[k] for plan in plans if k <= len(plan)} for k in range(longest + 1)]
        expect(listed, layers, f"all plans one by one: {contract}")
        expect(min(map(len, plans)), brute.least_count(world, layers), f"fewest of all plans: {contract}")
        for goal in sparing.GOALS:
            fewest = min(brute.plan_moves(goal, plan) for plan in plans)
            expect(brute.fewest_moves(goal, world, ways), fewest, f"fewest {goal} of all plans: {contract}")


def changed_plans(rng, contract):
    """Brought plans, most of them changed, are safe exactly if all their steps are among all steps, and opening says the same. Of
    which kinds they are."""
    plan = planning_cases.brought(rng, contract)
    world = brute.own_world(contract, plan.items)
    ways = [brute.all_steps(world, judge) for judge in (brute.safe, brute.costly_safe, brute.safe_or_start)]
    data = record.write(contract.header, contract.costs, contract.values, ROOM)
    for change in *rng.sample(planning_cases.CHANGES, 4), planning_cases.unchanged, planning_cases.empty_start:
        states = change(rng, plan)
        brought = data, len(states), *areas(states), planning.order_bytes(plan.items)
        safe, *otherwise = (brute.is_plan(world, some, states) for some in ways)
        what = f"{change.__name__}: {contract} {states}"
        expect(planning.check(*brought), 0 if safe else 12, what)
        expect(planning.open(*brought)[0], 0 if safe else 12, f"opening, {what}")
        yield from brute.brought_kinds(world, states, safe, *otherwise)


def tiny_deals(rng):
    for form in (LADDER, UNIT_PRICES, TABLE):
        seen, brought = Counter(), Counter()
        for _ in range(TINY_DEALS):
            contract = planning_cases.tiny_deal(rng, form)
            seen.update(tiny_deal(contract))
            brought.update(set(changed_plans(rng, contract)))
        all_kinds(seen, brute.KINDS[form], TINY_DEALS)
        all_kinds(brought, brute.BROUGHT_KINDS, TINY_DEALS)


def tiny_bounds(rng):
    """Each kind of bounds has to come up."""
    for form in (LADDER, UNIT_PRICES, TABLE):
        seen = Counter()
        for _ in range(TINY_DEALS):
            seen.update(set(bounds_of_deal(rng, planning_cases.tiny_deal(rng, form))))
        all_kinds(seen, brute.BOUNDS_KINDS, TINY_DEALS)


def bounds_of_deal(rng, contract):
    """The sums between the bounds answered are the safe ones; so are those between the unclipped bounds with 0 <= paid <= P. The
    bounds of place 0 don't tell of the start: there leaving costs count in them still. A negative upper bound is answered as it
    is. Of which kinds the bounds are."""
    price = contract.header.price
    data = record.write(contract.header, contract.costs, contract.values, ROOM)
    order = planning_cases.some_order(rng, contract)
    world = brute.own_world(contract, planning.items_in(contract, order))
    for place, safe in enumerate(brute.safe_sums(world, brute.costly_safe)):
        what = f"place {place}, order {order}: {contract}"
        answered, unclipped = planning.bounds(data, place, order), brute.unclipped_bounds(world, place)
        expect(answered, brute.bounds(world, place), f"bounds, {what}")
        expect(between(*answered), safe, f"sums between the bounds, {what}")
        expect(between(*unclipped) & between(0, price), safe, f"sums between the unclipped bounds, {what}")
        if unclipped[1] < 0:
            expect(answered[1], unclipped[1], f"a negative upper bound, {what}")
        yield from brute.bounds_kinds(price, *unclipped)


def between(lower, upper):
    return set(range(lower, upper + 1))


def middle_tables(rng):
    left = MIDDLE_DEALS
    while left:
        contract = planning_cases.tight(rng, planning_cases.some_goods(rng, TABLE, 18, 5))
        if len(contract.costs) > 9 and 8 < contract.header.price < 25:
            tiny_deal(contract)
            list(changed_plans(rng, contract))
            left -= 1


# The generated cases, where another way to the result is at hand

def generated_plans(seed):
    """Each kind of start has to come up."""
    seen = {form: Counter() for form in brute.KINDS}
    for case in in_turn(planning_cases.plan_cases(seed), sparing_cases.sparing_cases(seed)):
        contract = record.parse(case.record)
        reply = generated_plan(case, contract)
        if reply[0] == "steps" or reply == refused(9):
            seen[contract.header.form].update(["deals", *starts(contract, reply)])
        if isinstance(contract, record.Contract) and contract.header.form == TABLE:
            reply = refused(2)
        for goal in sparing.GOALS:
            generated_sparing(goal, case, reply)
    for form, some in seen.items():
        all_kinds(some, brute.STARTS + brute.ROW_0 * (form == TABLE), some["deals"], RAREST_GENERATED)


def starts(contract, reply):
    """Of which kinds the start of a deal is."""
    if reply[0] == "steps":
        return brute.planned_kinds(world_of(contract, planning.items_in(contract, reply[2])), reply[1])
    return brute.start_faults(world_of(contract, range(1, contract.header.count + 1))) if planned_but_for_start(contract) else set()


def world_of(contract, items):
    """As brute.own_world, which is slow for large deals."""
    return brute.World(contract.header, *planning.place_totals(contract, items), planning.held_units(contract))


def generated_plan(case, contract):
    """Whether a plan exists, by the least leaving costs; its order, or its rows; and the areas give back a plan that the check
    takes."""
    lent = case.places, case.sums, case.order, case.work
    reply = planning.plan(case.record, *map(len, lent))
    after = planning.areas_after(case.record, reply, *lent)
    expect([len(area) for area in after], [len(area) for area in lent], f"lengths of areas: {case}")
    if reply[0] == "steps":
        expect(planning.check(case.record, len(reply[1]), *after[:3]), 0, f"the plan in the areas: {case}")
    if reply[0] == "steps" or reply == refused(9):
        expect(reply[0] == "steps", can_be_planned(contract), f"whether a plan exists: {case}")
        if contract.header.form == TABLE:
            rows = [row for row, _ in reply[1]] if reply[0] == "steps" else None
            expect(rows, rows_by_needs(contract), f"fewest steps, earliest rows: {case}")
        elif contract.header.form == UNIT_PRICES and reply[0] == "steps":
            expect(brute.is_chosen(contract, reply[2][:contract.header.count]), True, f"the chosen order: {case}")
    return reply


def generated_sparing(goal, case, planned_reply):
    """Refused as planning is, or planned in the same order; and the areas give back a plan that the check takes."""
    lent = case.places, case.sums, case.order
    reply = sparing.plan(goal, case.record, *map(len, lent))
    after = sparing.areas_after(case.record, reply, *lent)
    expect([len(area) for area in after], [len(area) for area in lent], f"lengths of areas, {goal}: {case}")
    if reply[0] == "steps":
        expect(planning.check(case.record, len(reply[1]), *after), 0, f"the plan in the areas, {goal}: {case}")
        expect(("steps", reply[2]), planned_reply[::2], f"the order, {goal}: {case}")
    else:
        expect(reply, planned_reply, f"the refusal, {goal}: {case}")


def rows_by_needs(contract):
    """The rows of the table plan once more, from the end: how much must be paid in a row to end in k more steps."""
    deal = planning.deal_of(contract)
    above = [[b for b in range(deal.last + 1) if deal.holds(b, a)] for a in range(deal.last + 1)]
    needs = [{deal.last: deal.price}]
    while needs[-1].get(0, 1) > 0 and len(needs) <= 2 * planning.all_units(contract) + 1:
        needs.append({a: min(ways) for a in range(deal.last + 1)
                      if (ways := [deal.lower[b] for b in above[a] if b in needs[-1] and needs[-1][b] <= deal.upper[a]])})
    if needs[-1].get(0, 1) > 0 or not deal.safe(*planning.START):
        return None
    rows, row, paid = [], 0, 0
    for need in reversed(needs[:-1]):
        after = next(b for b in above[row] if deal.lower[b] <= paid and need.get(b, deal.price + 1) <= deal.upper[row])
        rows.append(after)
        row, paid = after, deal.upper[row]
    return rows


def can_be_planned(contract):
    cost, value = planning_cases.whole_rises(contract)
    return cost <= contract.header.price <= value and planned_but_for_start(contract)


def planned_but_for_start(contract):
    """Whether a plan would exist if leaving at the start were as costly as later on."""
    header = contract.header
    cost, value = planning_cases.whole_rises(contract)
    start_is_safe = cost - header.supplier <= header.price <= value + header.buyer
    return start_is_safe and header.supplier + header.buyer >= planning_cases.least_leaving_costs(contract)


def generated_bounds(seed):
    """Each kind of bounds has to come up."""
    seen = Counter()
    for case in planning_cases.bounds_cases(seed):
        if planning.bounds(case.record, case.place, case.order)[0] != "refused":
            contract = record.parse(case.record)
            lower, upper = planning.unclipped_bounds(contract, planning.items_in(contract, case.order))
            seen.update(["answers", *brute.bounds_kinds(contract.header.price, lower[case.place], upper[case.place])])
    all_kinds(seen, brute.BOUNDS_KINDS, seen["answers"])


def generated_checks(seed):
    """Each kind of brought plans has to come up."""
    seen = Counter(kind for case in planning_cases.check_cases(seed) for kind in ("checks", *brought_kinds(case)))
    all_kinds(seen, brute.BROUGHT_KINDS, seen["checks"], RAREST_GENERATED)


def brought_kinds(case):
    """Of which kinds the plan of a check or an opening is, if it is not refused ahead of 12."""
    plan = case.record, case.count, case.places, case.sums, case.order
    if planning.check(*plan) not in (0, 12):
        return set()
    contract = record.parse(case.record)
    items = planning.items_in(contract, case.order)
    if items is None:
        return set()
    states = [planning.state_after(k, case.places, case.sums) for k in range(1, case.count + 1)]
    world = world_of(contract, items)
    but_for_start = planning_cases.from_any_start(contract, items).is_plan(states)
    by_costs = but_for_start and brute.costly_safe(world, *brute.START)
    return brute.brought_kinds(world, states, planning.check(*plan) == 0, by_costs, but_for_start)


def generated_sessions(seed):
    """Each kind of brought plans has to come up where sessions are opened, too."""
    seen = Counter(kind for case in planning_cases.session_cases(seed) if case.opens for kind in ("openings", *brought_kinds(case)))
    all_kinds(seen, brute.BROUGHT_KINDS, seen["openings"], RAREST_GENERATED)
    for case in planning_cases.session_cases(seed):
        if len(case.area) < 10:
            short_session(case)
        elif case.opens:
            opened_session(case)
        else:
            invented_session(case)


def short_session(case):
    """Whatever is asked, 8 and the same area; a record's own refusal stands ahead of it."""
    plan = case.count, case.places, case.sums
    read = record.parse(case.record)
    expect(planning.open_in(case.area, case.record, *plan, case.order),
           (read if isinstance(read, int) else 8, case.area), f"opening in a short area: {case}")
    for reported in case.reports:
        expect(planning.report_in(case.area, *plan, *reported), (8, case.area), f"a report to a short area: {case}")
    expect(planning.finished_in(case.area, case.count), 8, f"finished, a short area: {case}")


def opened_session(case):
    """Against a list of the moves that are outstanding, step by step."""
    plan = case.count, case.places, case.sums
    number, area = planning.open_in(case.area, case.record, *plan, case.order)
    expect(number, planning.check(case.record, *plan, case.order), f"opening: {case}")
    expect(number != 0, area == case.area, f"a refused opening leaves the area: {case}")
    if number == 0:
        replies = []
        for reported in case.reports:
            number, area = planning.report_in(area, *plan, *reported)
            replies.append((number, planning.finished_in(area, case.count) == 1))
        expect(replies, list(outstanding_replies(*plan, case.reports)), f"reports: {case}")
        expect(area[10:], case.area[10:], f"the area after a session: {case}")


def plan_moves(count, places, sums):
    """For each step the reports that it asks for."""
    states = [(0, 0)] + [(struct.unpack_from("<H", places, 2 * k)[0], struct.unpack_from("<I", sums, 4 * k)[0])
                         for k in range(count)]
    return [{(side, after[side]) for side in (0, 1) if after[side] != before[side]}
            for before, after in zip(states, states[1:])]


def invented_session(case):
    """Each report by itself: the same area on a refusal, else the open step marked or all done steps passed."""
    plan = case.count, case.places, case.sums
    too_long = case.count > len(case.places) // 2 or case.count > len(case.sums) // 4
    moves = [] if too_long else plan_moves(*plan)
    area = case.area
    for reported in case.reports:
        at, *marks = struct.unpack_from("<Q??", area)
        outstanding = {move for move in moves[at] if not marks[move[0]]} if at < len(moves) else set()
        if too_long:
            wanted = 8, area
        elif at >= case.count:
            wanted = 11, area
        elif reported not in outstanding:
            wanted = 10, area
        elif len(outstanding) == 2:
            wanted = 0, session_at(area, at, reported[0] == DELIVERY, reported[0] == PAYMENT)
        else:
            wanted = 0, session_at(area, next((k for k in range(at + 1, case.count) if moves[k]), case.count), False, False)
        got = planning.report_in(area, *plan, *reported)
        expect(got, wanted, f"report {reported} to {area}: {case}")
        area = got[1]
        at = struct.unpack_from("<Q", area)[0]
        expect(planning.finished_in(area, case.count), int(at >= case.count), f"finished: {area} {case}")


def session_at(area, passed, delivered, paid):
    return struct.pack("<Q??", passed, delivered, paid) + area[10:]


def outstanding_replies(count, places, sums, reports):
    moves = [step for step in plan_moves(count, places, sums) if step]
    for reported in reports:
        if not moves:
            yield 11, True
        elif reported in moves[0]:
            moves[0].remove(reported)
            moves = [step for step in moves if step]
            yield 0, not moves
        else:
            yield 10, False


def main():
    seed = int(sys.argv[1]) if len(sys.argv) > 1 else 1
    rng = random.Random(seed)
    paper_cases()
    starts_by_hand()
    case_i()
    other_cases()
    orders_by_hand()
    orders_by_unclipped_bounds()
    refusals_and_areas()
    sparing_cases_by_hand()
    sparing_refusals_and_areas()
    tiny_deals(rng)
    tiny_bounds(rng)
    middle_tables(rng)
    sparing_deals(rng)
    generated_plans(seed)
    generated_bounds(seed)
    generated_checks(seed)
    generated_sessions(seed)
    print(f"{passed} checks passed")


if __name__ == "__main__":
    main()
