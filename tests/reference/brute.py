"""Every safe plan of a small deal, step by step from the paper's definitions, to try the planner of planning.py.

A World is a set of places with the units that each holds. A ladder has one world. Unit prices have one for each order
of the units, those of one item together or not. A table has one, whose places are all rows. States are tested by
whether a side gains by leaving, not by the bounds that the planner uses; those stand only where the papers name them.
No plan is thought better than another one: whatever is said of all plans comes from going through all states that they
have after k steps.

Plans without repeated states are enough: a step that moves nothing only delays what follows.
"""
from dataclasses import dataclass
from itertools import compress, permutations, product
from typing import NamedTuple

from record import LADDER, TABLE, UNIT_PRICES

START = (0, 0)


@dataclass(frozen=True)
class World:
    header: object
    costs: list   # of each place
    values: list
    held: list    # units of each item in each place

    @property
    def end(self):
        return len(self.costs) - 1, self.header.price


# Worlds of a contract

def worlds(contract):
    """All worlds in which a rival may plan."""
    if contract.header.form in (LADDER, TABLE):
        return [own_world(contract)]
    return [world_along(contract, order) for order in unit_orders(contract)]


def own_world(contract, items=()):
    """The world of our plan; for unit prices all units of the first item in items, then of the second, and so on."""
    header = contract.header
    if header.form == TABLE:
        held = list(product(*(range(n + 1) for n in header.units[:header.count])))
        return World(header, contract.costs, contract.values, held)
    if header.form == LADDER:
        places = range(header.count + 1)
        return World(header, [sum(contract.costs[:k]) for k in places], [sum(contract.values[:k]) for k in places],
                     [(k,) for k in places])
    return world_along(contract, [item for item in items for _ in range(header.units[item - 1])])


def unit_orders(contract):
    """Every order of the units, each unit named by its item."""
    header = contract.header
    named = [item for item in range(1, header.count + 1) for _ in range(header.units[item - 1])]
    return sorted(set(permutations(named)))


def world_along(contract, order):
    held = [tuple(order[:k].count(item) for item in range(1, contract.header.count + 1)) for k in range(len(order) + 1)]
    costs, values = ([sum(n * amount for n, amount in zip(units, amounts)) for units in held]
                     for amounts in (contract.costs, contract.values))
    return World(contract.header, costs, values, held)


# Steps

def safe(world, place, paid):
    """Whether neither side gains by leaving. The paper: a firm that withdraws "while nothing is delivered and nothing paid bears
    no leaving cost"."""
    return free_safe(world, place, paid) if (place, paid) == START else costly_safe(world, place, paid)


def costly_safe(world, place, paid):
    """The same where each side bears its leaving cost, as at the start too before the terms changed."""
    return nobody_leaves(world, place, paid, world.header.supplier, world.header.buyer)


def free_safe(world, place, paid):
    return nobody_leaves(world, place, paid, 0, 0)


def safe_or_start(world, place, paid):
    return (place, paid) == START or costly_safe(world, place, paid)


def nobody_leaves(world, place, paid, supplier, buyer):
    price = world.header.price
    supplier_leaves = paid - world.costs[place] - supplier > price - world.costs[-1]
    buyer_leaves = world.values[place] - paid - buyer > world.values[-1] - price
    return 0 <= paid <= price and not supplier_leaves and not buyer_leaves


def safe_sums(world, judge=safe):
    """For each place the safe paid sums."""
    return [{paid for paid in range(world.header.price + 1) if judge(world, place, paid)}
            for place in range(len(world.costs))]


def all_steps(world, judge=safe):
    """For each safe state the states to which a step leads that moves something."""
    sums = safe_sums(world, judge)
    places = range(len(world.costs))
    above = [[b for b in places if all(m >= n for m, n in zip(world.held[b], world.held[a]))] for a in places]
    return {(a, p): [(b, q) for b in above[a] if p in sums[b]
                     for q in sums[a] if q >= p and q in sums[b] and (b, q) != (a, p)]
            for a in places for p in sums[a]}


# What holds of all plans

def all_plans(world, steps):
    """Every safe plan without repeated states, one after the other."""
    def onwards(state, path):
        if state == world.end:
            yield path
        for after in steps[state]:
            yield from onwards(after, path + [after])

    if START in steps:
        yield from onwards(START, [])


def layers(world, steps):
    """For each k the states after k steps of all plans that reach the end; empty if there is no plan."""
    going_on = ending(world, steps)
    layer, found = {START} & going_on, []
    while layer:
        found.append(layer)
        layer = {after for state in layer for after in steps[state]} & going_on
    return found


def ending(world, steps):
    """The states from which the end is reached. A step only adds, so later states are settled first."""
    found = set()
    for state in sorted(steps, reverse=True):  # a place that holds more has a higher number
        if state == world.end or any(after in found for after in steps[state]):
            found.add(state)
    return found


def least_count(world, found_layers):
    """The fewest steps of all plans, or None if there is none."""
    return next((k for k, layer in enumerate(found_layers) if world.end in layer), None)


def greatest(found_layers):
    """For each k the greatest place and the greatest sum that any plan has after k steps."""
    return [(max(place for place, _ in layer), max(paid for _, paid in layer)) for layer in found_layers]


def earliest_rows(world, steps, count, first=min):
    """Of all plans with so many steps the earliest list of rows, whatever they pay; with max the latest one."""
    ends_in = [{world.end}]  # by number of steps left
    for _ in range(count):
        ends_in.append({state for state in steps if any(after in ends_in[-1] for after in steps[state])})
    rows, here = [], {START} & ends_in[count]
    for left in reversed(range(count)):
        after = {after for state in here for after in steps[state]} & ends_in[left]
        rows.append(first(row for row, _ in after))
        here = {state for state in after if state[0] == rows[-1]}
    return rows


def is_plan(world, steps, states):
    """Whether these states make a safe plan; a step that moves nothing only needs a safe state."""
    path = [START, *states]
    return path[-1] == world.end and all(
        before in steps and (after == before or after in steps[before]) for before, after in zip(path, path[1:]))


def some_plan_exists(contract, judge=safe):
    """Whether a rival plan exists in any order."""
    return any(layers(world, all_steps(world, judge)) for world in worlds(contract))


# The order for unit prices: the paper's own sentences, by the bounds along the very order that is judged

FRONT, BEHIND = "from the front", "from behind"


class Offer(NamedTuple):
    item: int
    surplus: int  # cost less value of a unit; from behind value less cost
    need: int     # the value of a unit; from behind its cost


class Pick(NamedTuple):
    side: str
    offers: list  # the items of this side that have no place yet
    room: int     # upper less lower at the place where the item starts; from behind where it ends

    def taken(self):
        """The paper: the greatest surplus "among those whose unit value is at most upper less lower there", from behind "whose
        unit cost"; "the lower item number is taken on a tie"."""
        admitted = [offer for offer in self.offers if offer.need <= self.room]
        return min(admitted, key=lambda offer: (-offer.surplus, offer.item), default=None)


def unclipped_bounds(world, place):
    """Lower and upper."""
    header = world.header
    return (header.price - world.values[-1] + world.values[place] - header.buyer,
            header.price - world.costs[-1] + world.costs[place] + header.supplier)


def bounds(world, place):
    """The paper: "the lower bound answered becomes the greater of itself and 0, the upper bound the smaller of itself and P"."""
    lower, upper = unclipped_bounds(world, place)
    return max(lower, 0), min(upper, world.header.price)


def sides(contract, items):
    """The paper: "items whose unit cost is at least the unit value come first"; then "the others"."""
    amounts = [(item, contract.costs[item - 1], contract.values[item - 1]) for item in items]
    return ([Offer(item, cost - value, value) for item, cost, value in amounts if cost >= value],
            [Offer(item, value - cost, cost) for item, cost, value in amounts if cost < value])


def picks(contract, items, cited=unclipped_bounds):
    """For each item in turn, out of what it was taken: itself and those of its side that follow; from behind those before it. The
    paper: the difference "is still taken between the unclipped bounds"."""
    first, others = sides(contract, items)
    world = own_world(contract, items)
    places = [sum(contract.header.units[item - 1] for item in items[:k]) for k in range(len(items) + 1)]
    room = [upper - lower for lower, upper in (cited(world, place) for place in places)]
    n = len(first)
    return ([Pick(FRONT, first[k:], room[k]) for k in range(n)]
            + [Pick(BEHIND, others[:k], room[n + k]) for k in range(1, len(others) + 1)])


def is_chosen(contract, items, cited=unclipped_bounds):
    """Whether both sides stand in their places and each item is the one that is taken there."""
    first, others = sides(contract, items)
    standing = first + others
    return ([offer.item for offer in standing] == list(items)
            and [pick.taken() for pick in picks(contract, items, cited)] == standing)


def judged_order(contract, found):
    """Triples as below: of all orders of the items, which should be few, ours is the only chosen one; where there is no plan,
    none is chosen or the start is not safe."""
    orders = permutations(range(1, contract.header.count + 1))
    chosen = [items for items in orders if is_chosen(contract, items) and safe(own_world(contract, items), *START)]
    yield "the chosen orders", [found[1]] if found else [], chosen


# A planner held to all plans

def judged(contract, found):
    """What a planner found, (steps, items) or None, against all safe plans of all orders: triples of what is judged, whether
    or how it is, and how it has to be."""
    yield "whether a plan exists", found is not None, some_plan_exists(contract)
    if contract.header.form == UNIT_PRICES:
        yield from judged_order(contract, found)
    if found is None:
        return
    steps, items = found
    world = own_world(contract, items)
    ways = all_steps(world)
    rivals = layers(world, ways)
    yield "a safe plan", is_plan(world, ways, steps), True
    yield "the number of steps", len(steps), least_count(world, rivals)
    if contract.header.form == TABLE:
        rows, sums = zip(*steps)
        yield "the earliest rows", list(rows), earliest_rows(world, ways, len(steps))
        yield "the payments", list(sums), [bounds(world, row)[1] for row in (0, *rows[:-1])]
        return
    for k, (ours, ahead) in enumerate(zip([START, *steps], greatest(rivals))):
        yield f"ahead along our order after {k} steps", ours[0] >= ahead[0] and ours[1] >= ahead[1], True


# Fewest payments, deliveries and moves along one order

COUNTED = {"payments": (0, 1), "deliveries": (1, 0), "moves": (1, 1)}  # whether a delivery counts, and a payment


def step_moves(goal, before, after):
    """How many moves of the counted kinds a step has: a delivery if the place rises, a payment if the paid total does."""
    return sum(counts for counts, earlier, later in zip(COUNTED[goal], before, after) if later > earlier)


def plan_moves(goal, states):
    return sum(step_moves(goal, before, after) for before, after in zip([START, *states], states))


def fewest_moves(goal, world, steps):
    """The fewest of all safe plans, however many steps they have, or None if there is none."""
    least = {START: 0} if START in steps else {}
    for state in sorted(steps):  # a step only adds, so all ways to a state are settled ahead of it
        for after in steps[state] if state in least else ():
            moves = least[state] + step_moves(goal, state, after)
            least[after] = min(moves, least.get(after, moves))
    return least.get(world.end)


def judged_sparing(contract, found):
    """What planners for each goal found, (steps, items) or None, against all safe plans: triples as above."""
    exists = some_plan_exists(contract)
    for goal in COUNTED:
        yield f"whether a plan with fewest {goal} exists", found[goal] is not None, exists
    if not exists or None in found.values():
        return
    plans, orders = ({goal: found[goal][part] for goal in COUNTED} for part in (0, 1))
    yield "orders", len(set(orders.values())), 1
    if contract.header.form == UNIT_PRICES:
        yield from judged_order(contract, found["moves"])
    world = own_world(contract, orders["moves"])
    ways = all_steps(world)
    for goal, steps in plans.items():
        yield f"a safe plan with fewest {goal}", is_plan(world, ways, steps), True
        yield f"the number of {goal}", plan_moves(goal, steps), fewest_moves(goal, world, ways)
        yield f"at most 2U + 1 steps for fewest {goal}", len(steps) <= 2 * world.end[0] + 1, True
        yield f"one move in each step for fewest {goal}", len(steps), plan_moves("moves", steps)
    yield from judged_starts(world, ways, plans)


def judged_starts(world, steps, plans):
    """A delivery start goes as far as one can without a payment, a payment start the other way round; an empty one is dropped,
    so that the other kind of move comes first. For moves it is one of these two, the payment start on a tie."""
    delivery, payment = first_moves(steps)
    yield "the start for fewest payments", plans["payments"][0], delivery if delivery != START else payment
    yield "the start for fewest deliveries", plans["deliveries"][0], payment if payment != START else delivery
    both = plans["deliveries"], plans["payments"]
    yield "the plan for fewest moves", plans["moves"], min(both, key=lambda plan: plan_moves("moves", plan))


def first_moves(steps):
    """The states after the greatest first delivery without a payment, and after the greatest first payment without a delivery."""
    ways = [START, *steps[START]]
    return max(state for state in ways if state[1] == 0), max(state for state in ways if state[0] == 0)


START_KINDS = ("impossible", "empty first delivery", "empty first payment", "delivery start shorter", "payment start shorter",
               "both starts equal")


def starts_kind(contract, found):
    """Which of the starts is empty or has fewer moves, to see that all kinds come up; found is as above."""
    if found["moves"] is None:
        return "impossible"
    delivery, payment = first_moves(all_steps(own_world(contract, found["moves"][1])))
    if START in (delivery, payment):
        return "empty first delivery" if delivery == START else "empty first payment"
    by_delivery, by_payment = (plan_moves("moves", found[goal][0]) for goal in ("payments", "deliveries"))
    if by_delivery == by_payment:
        return "both starts equal"
    return "delivery start shorter" if by_delivery < by_payment else "payment start shorter"


# Kinds of deals that have to come up where plans and orders are judged

TIE, WAITS, SEGMENTS, LATER_ROWS = "tie", "greater surplus waits", "other by whole segments", "later rows in as many steps"
CLIPPED = "other by clipped bounds, or none"
TOO_LOW, TOO_HIGH = (f"a plan but for the start, P too {how}" for how in ("low", "high"))
LEAST, MOST = (f"planned, P at the {end} end" for end in ("lower", "upper"))
UNPAID, UNDELIVERED = (f"{state} is safe by leaving costs" for state in ("(a, 0)", "(0, q)"))
FIRST_COST, FIRST_VALUE = (f"other without row 0's {amount}" for amount in ("cost", "value"))
STARTS, ROW_0 = (TOO_LOW, TOO_HIGH, LEAST, MOST, UNPAID, UNDELIVERED), (FIRST_COST, FIRST_VALUE)
KINDS = {LADDER: STARTS, TABLE: (LATER_ROWS, *STARTS, *ROW_0),
         UNIT_PRICES: (*(f"{kind} {side}" for kind in (TIE, WAITS) for side in (FRONT, BEHIND)), SEGMENTS, CLIPPED, *STARTS)}


def kinds(contract, found):
    """Which of its form's kinds a deal is of; found is (steps, items) or None."""
    if found is None:
        seen = start_faults(own_world(contract, range(1, contract.header.count + 1)))  # the start is the same in every order
        return seen if seen and some_plan_exists(contract, costly_safe) else set()
    steps, items = found
    seen = planned_kinds(own_world(contract, items), steps)
    if contract.header.form == UNIT_PRICES:
        seen |= order_kinds(contract, items)
    elif contract.header.form == TABLE:
        seen |= table_kinds(contract, len(steps))
    return seen


def start_faults(world):
    """Of which kinds a deal is that has a plan but for its start; of none if the price is beyond both ends, or beyond neither."""
    price = world.header.price
    low, high = price < world.costs[-1] - world.costs[0], price > world.values[-1] - world.values[0]
    of_kind = low and not high, high and not low, high and not low and price <= world.values[-1]
    return set(compress((TOO_LOW, TOO_HIGH, FIRST_VALUE), of_kind))


def planned_kinds(world, steps):
    """A price at an end of the start's range, or below the last cost; and states where firms only stay for their leaving costs."""
    price, (costs, values) = world.header.price, (world.costs, world.values)
    of_kind = price == costs[-1] - costs[0], price == values[-1] - values[0], price < costs[-1]
    return set(compress((LEAST, MOST, FIRST_COST), of_kind)) | passed_kinds(world, steps)


def passed_kinds(world, steps):
    """Among the states of a plan's steps those with nothing paid or nothing delivered."""
    path = [START, *steps]
    passed = {(place, paid) for (a, p), (b, q) in zip(path, path[1:]) for place in (a, b) for paid in (p, q)}
    costly = [state for state in passed - {START} if not free_safe(world, *state)]
    return set(compress((UNPAID, UNDELIVERED), (any(paid == 0 for _, paid in costly), any(place == 0 for place, _ in costly))))


# Kinds of brought plans that have to come up where they are checked

START_ALONE = "refused for the start alone"
EMPTY_START, NEVER_SAFE = (START_ALONE + more for more in (", where the first step stays", ", which leaving costs would not save"))
BROUGHT_KINDS = START_ALONE, EMPTY_START, NEVER_SAFE, UNPAID, UNDELIVERED


def brought_kinds(world, states, safe_plan, safe_by_costs, safe_but_for_start):
    """Of which kinds a plan is, by whether it is safe, whether it would be if leaving the start had its cost, and whether it would
    be if the start were not judged."""
    if safe_plan:
        return passed_kinds(world, states)
    of_kind = safe_by_costs, safe_by_costs and states[0] == START, safe_but_for_start and not safe_by_costs
    return set(compress((START_ALONE, EMPTY_START, NEVER_SAFE), of_kind))


def order_kinds(contract, items):
    """A tie is one of the greatest surplus that is admitted. A greater surplus waits while it is not admitted."""
    seen = {SEGMENTS} if whole_segments(contract) != items else set()
    if not is_chosen(contract, items, bounds):
        seen.add(CLIPPED)
    for pick in picks(contract, items):
        best = pick.taken()
        others = [offer for offer in pick.offers if offer != best]
        if any(offer.surplus == best.surplus and offer.need <= pick.room for offer in others):
            seen.add(f"{TIE} {pick.side}")
        if any(offer.surplus > best.surplus for offer in others):
            seen.add(f"{WAITS} {pick.side}")
    return seen


def table_kinds(contract, count):
    world = own_world(contract)
    ways = all_steps(world)
    return {LATER_ROWS} if earliest_rows(world, ways, count) != earliest_rows(world, ways, count, first=max) else set()


def whole_segments(contract):
    """The order of document 000's SEQUENCE-SEGMENTS, the lower number on a tie, or None. Among those that the bounds admit it
    takes the greatest difference of all units of an item together, where ours compares that of one unit."""
    header = contract.header
    lines = list(zip(range(1, header.count + 1), header.units, contract.costs, contract.values))
    at_end = header.supplier + header.buyer
    at_start = at_end - sum(units * (cost - value) for _, units, cost, value in lines)
    first = sequenced({item: (units * (cost - value), value) for item, units, cost, value in lines if cost >= value}, at_start)
    last = sequenced({item: (units * (value - cost), cost) for item, units, cost, value in lines if cost < value}, at_end)
    return None if first is None or last is None else (*first, *reversed(last))


def sequenced(segments, room):
    """For each item the difference of its segment, and what its first unit needs."""
    order = []
    while segments:
        feasible = [item for item, (_, need) in segments.items() if need <= room]
        if not feasible:
            return None
        order.append(max(feasible, key=lambda item: segments[item][0]))  # the first of equal ones
        room += segments.pop(order[-1])[0]
    return order


# Kinds of bounds that have to come up where they are answered

BOUNDS_KINDS = "lower bound below 0", "upper bound above P", "negative upper bound", "bounds left alone"


def bounds_kinds(price, lower, upper):
    """Of which kinds the unclipped bounds of a place are."""
    of_kind = lower < 0, upper > price, upper < 0, lower >= 0 and 0 <= upper <= price
    return set(compress(BOUNDS_KINDS, of_kind))
