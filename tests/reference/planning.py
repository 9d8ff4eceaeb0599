"""Planner, checker of plans and session, written from the paper alone.

It shares no code with the verified crates, so that comparing the two is evidence for both.

bounds(record, place, order)                           ('refused', n) or (lower, upper)
plan(record, places_len, sums_len, order_len, work_len) ('refused', n) or ('steps', [(place, paid), ..], order bytes)
areas_after(record, reply, places, sums, order, work)  the four areas as planning with this reply leaves them
check(record, count, places, sums, order)              0 or the number of a refusal
open(record, count, places, sums, order)               (number, session); the session is None on a refusal
report(session, count, places, sums, side, number)     (number, session); number 0 means that the report was taken
finished(session, count)                               whether the session is finished
open_in, report_in, finished_in                        the same with a session in a byte area, as a C program holds it

Records and areas are bytes, lengths are in bytes. A session is (steps passed, delivered mark, paid mark).
"""
from bisect import bisect_right
from dataclasses import dataclass
from itertools import accumulate
from typing import NamedTuple

import record as records
from record import LADDER, RANGE, SHORT, TABLE, UNIT_PRICES, Contract

IMPOSSIBLE, UNFIT, FINISHED, UNSAFE = 9, 10, 11, 12

PLACE_SIZE, SUM_SIZE, ORDER_SIZE = 2, 4, 8  # bytes of an entry, and of the order that counts
PASSED_SIZE, SESSION_SIZE = 8, 10           # bytes of the steps passed, and with the two marks
DELIVERY, PAYMENT = 0, 1                    # the sides of a report
START = (0, 0)                              # nothing delivered, nothing paid


# Deals: the places of a contract along one order of its items, with the cost, the value and the bounds of each place

@dataclass(frozen=True)
class Deal:
    price: int
    costs: list
    values: list
    lower: list
    upper: list
    held: list  # for each place the units of every item; along one order the number of units says it all

    @property
    def last(self):
        return len(self.lower) - 1

    def holds(self, place, other):
        """Whether the place holds at least the other's units of every item."""
        return all(m >= n for m, n in zip(self.held[place], self.held[other]))

    def safe(self, place, paid):
        """The start by its own rule. Elsewhere clipped bounds admit no sum below 0 and none above P."""
        if (place, paid) == START:
            return self.fair_start()
        return self.lower[place] <= paid <= self.upper[place]

    def fair_start(self):
        """The paper: (0, 0) is safe "if P lies from vs(L) - vs(0) to vd(L) - vd(0), both ends included"."""
        return self.costs[-1] - self.costs[0] <= self.price <= self.values[-1] - self.values[0]

    def is_step(self, before, after):
        """The paper's step: nothing is taken back, and all four states are safe."""
        (a, p), (b, q) = before, after
        if b > self.last or q < p or not self.holds(b, a):
            return False
        return all(self.safe(place, paid) for place in (a, b) for paid in (p, q))

    def is_plan(self, states):
        """Whether the states after each step, from the start on, are steps that end at (L, P)."""
        path = [START, *states]
        return path[-1] == (self.last, self.price) and all(map(self.is_step, path, path[1:]))


def deal_of(contract, order=()):
    """The deal of a contract; order lists the items from 1, for unit prices only.

    The paper: "the lower bound answered becomes the greater of itself and 0, the upper bound the smaller of itself and P";
    "all else that cites the bounds cites the new ones".
    """
    price = contract.header.price
    lower, upper = unclipped_bounds(contract, order)
    return Deal(price, *place_totals(contract, order), [max(bound, 0) for bound in lower], [min(bound, price) for bound in upper],
                held_units(contract))


def unclipped_bounds(contract, order):
    """The lower and the upper bounds of all places; only the choice of an order cites them unclipped."""
    header = contract.header
    costs, values = place_totals(contract, order)
    lower = [header.price - values[-1] + value - header.buyer for value in values]
    upper = [header.price - costs[-1] + cost + header.supplier for cost in costs]
    return lower, upper


def place_totals(contract, order):
    """The supplier's cost and the buyer's value of every place."""
    if contract.header.form == TABLE:
        return contract.costs, contract.values
    if contract.header.form == LADDER:
        rises = contract.costs, contract.values
    else:
        rises = (along_order(contract, order, amounts) for amounts in (contract.costs, contract.values))
    return tuple(list(accumulate(column, initial=0)) for column in rises)


def along_order(contract, order, amounts):
    """The amount of each unit, all units of the first item in the order first."""
    return [amounts[item - 1] for item in order for _ in range(contract.header.units[item - 1])]


def held_units(contract):
    if contract.header.form != TABLE:
        return [(place,) for place in range(last_place(contract) + 1)]
    held = [()]
    for n in item_units(contract):  # the last item runs fastest
        held = [row + (units,) for row in held for units in range(n + 1)]
    return held


def item_units(contract):
    return contract.header.units[:contract.header.count]


def all_units(contract):
    """U of the paper."""
    return contract.header.count if contract.header.form == LADDER else sum(item_units(contract))


def last_place(contract):
    """L of the paper."""
    if contract.header.form == TABLE:
        return records.row_count(item_units(contract)) - 1
    return all_units(contract)


# Order bytes

def order_bytes(items):
    return bytes(items).ljust(ORDER_SIZE, b"\0")


def items_in(contract, order):
    """The items that the order bytes list, or None if they are wrong; only the first eight bytes count."""
    count = contract.header.count if contract.header.form == UNIT_PRICES else 0
    items = tuple(order[:count])
    right = sorted(items) == list(range(1, count + 1)) and order[:ORDER_SIZE] == order_bytes(items)
    return items if right else None


# Bounds

def bounds(record, place, order):
    contract = records.parse(record)
    if not isinstance(contract, Contract):
        return "refused", contract
    if len(order) < ORDER_SIZE:
        return "refused", SHORT
    if place > last_place(contract):
        return "refused", RANGE
    items = items_in(contract, order)
    if items is None:
        return "refused", UNSAFE
    deal = deal_of(contract, items)
    return deal.lower[place], deal.upper[place]


# Planning

def plan(record, places_len, sums_len, order_len, work_len):
    contract = records.parse(record)
    if not isinstance(contract, Contract):
        return "refused", contract
    if areas_too_short(contract, places_len, sums_len, order_len, work_len):
        return "refused", SHORT
    found = plan_of(contract)
    if found is None:
        return "refused", IMPOSSIBLE
    steps, items = found
    return "steps", steps, order_bytes(items)


def areas_too_short(contract, places_len, sums_len, order_len, work_len):
    entries = 2 * all_units(contract) + 1
    work = (last_place(contract) + 1) * (entries + 1) if contract.header.form == TABLE else 0
    return (places_len // PLACE_SIZE < entries or sums_len // SUM_SIZE < entries or order_len < ORDER_SIZE
            or work_len < work)


def plan_of(contract):
    """The steps and the order of the items, or None if no plan exists in any order."""
    items = chosen_order(contract) if contract.header.form == UNIT_PRICES else ()
    if items is None:
        return None
    deal = deal_of(contract, items)
    steps = steps_in(contract, deal)
    if steps is None:
        assert contract.header.form != UNIT_PRICES or not deal.safe(*START)  # the order itself admits a plan
        return None
    assert deal.is_plan(steps) and len(steps) <= 2 * all_units(contract) + 1
    return steps, items


def steps_in(contract, deal):
    """The steps that the rule of the contract's form makes, or None if there is no plan in this order."""
    return fewest_steps(deal) if contract.header.form == TABLE else steps_along(deal)


def steps_along(deal):
    """The plan that the rule for a given order makes, or None if there is none."""
    if not deal.safe(*START):
        return None
    return steps_onwards(deal, START)


def steps_onwards(deal, state):
    """The rule's steps from a state on, or None where it comes to a stand before the end."""
    steps = []
    while state != (deal.last, deal.price):
        before, state = state, rule_step(deal, state)
        if state == before:
            return None
        steps.append(state)
    return steps


def rule_step(deal, state):
    """The paper: "each step delivers to the greatest place whose lower bound is at most p, and pays to the smaller of
    upper(a) and P", which clipped is upper(a).
    """
    place, paid = state
    # lower bounds never fall along an order, so the places within reach are the first ones
    return bisect_right(deal.lower, paid) - 1, deal.upper[place]


# The order for unit prices. The gap is upper less lower, "still taken between the unclipped bounds"; the next unit is safe
# exactly if its value is at most the gap.

def chosen_order(contract):
    """The items in the order that the paper picks, or None if no order is safe from unit to unit."""
    order = picked_order(contract)
    assert (order is not None) == some_order_is_safe(contract)
    return order


class Pick(NamedTuple):
    item: int
    units: int
    gain: int  # by which a unit widens the gap, towards the end or backwards from it
    need: int  # the gap that its first unit asks for


def picked_order(contract):
    """Both parts of the order, or None if one of them cannot be completed.

    The paper: "items whose unit cost is at least the unit value come first", picked by their values; "the others fill
    the places from the last backwards", picked by their costs.
    """
    header = contract.header
    items = list(zip(range(1, header.count + 1), item_units(contract), contract.costs, contract.values))
    lower, upper = unclipped_bounds(contract, range(1, header.count + 1))  # at both ends the same in every order
    gap_at_start, gap_at_end = upper[0] - lower[0], upper[-1] - lower[-1]
    forwards = [Pick(item, units, cost - value, value) for item, units, cost, value in items if cost >= value]
    backwards = [Pick(item, units, value - cost, cost) for item, units, cost, value in items if cost < value]
    first, last = picked(forwards, gap_at_start), picked(backwards, gap_at_end)
    return None if first is None or last is None else (*first, *reversed(last))


def picked(picks, gap):
    """Again and again the greatest gain of a unit among those that the gap admits, on a tie the lower item number."""
    order = []
    while picks:
        admitted = [pick for pick in picks if pick.need <= gap]
        if not admitted:
            return None
        best = max(admitted, key=lambda pick: (pick.gain, -pick.item))
        order.append(best.item)
        picks.remove(best)
        gap += best.units * best.gain
    return order


def some_order_is_safe(contract):
    """Whether any order of whole items is safe from unit to unit, by trying every set of items delivered so far."""
    header = contract.header
    lines = list(zip(item_units(contract), contract.costs, contract.values))
    gap_at_end = header.supplier + header.buyer
    gaps = {0: gap_at_end - sum(units * (cost - value) for units, cost, value in lines)}  # by set of items
    for done in range(2 ** len(lines)):
        for i, (units, cost, value) in enumerate(lines):
            if done in gaps and not done >> i & 1:
                first, last = gaps[done], gaps[done] + (units - 1) * (cost - value)
                if value <= min(first, last):  # before each unit the gap lies between these two
                    gaps[done | 1 << i] = last + cost - value
    return 2 ** len(lines) - 1 in gaps


# The table: search through the states themselves, breadth first

def fewest_steps(deal):
    """Of the plans with fewest steps the one "whose list of rows is earliest, compared from the first step", or None.

    A state's successors are tried by rising row, and the states of one length stand in the order of their rows. So the
    first path to any state is a shortest one and of these the earliest. A path's rows settle all of its payments.
    """
    above = [[row for row in range(deal.last + 1) if deal.holds(row, below)] for below in range(deal.last + 1)]
    end = (deal.last, deal.price)
    came_from = {START: None}
    queue = [START] if deal.safe(*START) else []
    for state in queue:  # grows on the way
        if state == end:
            return path_to(end, came_from)
        row, paid = state
        pays = deal.upper[row]
        for higher in above[row]:
            if deal.lower[higher] <= paid and (higher, pays) not in came_from:
                came_from[higher, pays] = state
                queue.append((higher, pays))
    return None


def path_to(state, came_from):
    path = []
    while state != START:
        path.append(state)
        state = came_from[state]
    return path[::-1]


# Areas

def areas_after(record, reply, places, sums, order, work):
    """The areas after planning a record with this reply; the record itself is only read."""
    if reply == ("refused", IMPOSSIBLE):
        return places, sums, order, bytes(len(work))
    if reply[0] == "refused":
        return places, sums, order, work
    _, steps, order8 = reply
    places = with_entries(places, PLACE_SIZE, [place for place, _ in steps])
    sums = with_entries(sums, SUM_SIZE, [paid for _, paid in steps])
    return places, sums, order8 + order[ORDER_SIZE:], bytes(len(work))


def with_entries(area, size, numbers):
    """The numbers, then zeros up to the last whole entry; a remainder too short for an entry stays."""
    written = b"".join(number.to_bytes(size, "little") for number in numbers)
    whole = entry_count(area, size) * size
    return written.ljust(whole, b"\0") + area[whole:]


def entry_count(area, size):
    return len(area) // size


def entry(area, size, i):
    return int.from_bytes(area[i * size:(i + 1) * size], "little")


# Checking a plan

def check(record, count, places, sums, order):
    contract = records.parse(record)
    if not isinstance(contract, Contract):
        return contract
    if above_areas(count, places, sums) or len(order) < ORDER_SIZE:
        return SHORT
    items = items_in(contract, order)
    if items is None:
        return UNSAFE
    states = [state_after(k, places, sums) for k in range(1, count + 1)]
    return 0 if deal_of(contract, items).is_plan(states) else UNSAFE


def above_areas(count, places, sums):
    return count > min(entry_count(places, PLACE_SIZE), entry_count(sums, SUM_SIZE))


def state_after(k, places, sums):
    """Where a plan stands after k steps."""
    return (entry(places, PLACE_SIZE, k - 1), entry(sums, SUM_SIZE, k - 1)) if k else START


# Sessions

def open(record, count, places, sums, order):
    number = check(record, count, places, sums, order)
    if number:
        return number, None
    return 0, passed_over((0, False, False), count, places, sums)


def report(session, count, places, sums, side, number):
    """The report is tested against the session as it is, and only a report that fits moves it.

    The paper: it fits "if it equals the plan's entry, that entry differs from the step before, and that side isn't
    marked". So any other side fits no step.
    """
    if above_areas(count, places, sums):
        return SHORT, session
    if finished(session, count):
        return FINISHED, session
    passed, *marks = session
    if side not in open_moves(session, places, sums) or state_after(passed + 1, places, sums)[side] != number:
        return UNFIT, session
    marks[side] = True
    return 0, passed_over((passed, *marks), count, places, sums)


def finished(session, count):
    return session[0] >= count


def open_moves(session, places, sums):
    """The sides of the open step that move and aren't marked."""
    passed, *marks = session
    before, after = (state_after(k, places, sums) for k in (passed, passed + 1))
    return [side for side in (DELIVERY, PAYMENT) if before[side] != after[side] and not marks[side]]


def passed_over(session, count, places, sums):
    """The session after every step "whose moves are all reported, or that has none", several in a row too."""
    while not finished(session, count) and not open_moves(session, places, sums):
        session = (session[0] + 1, False, False)
    return session


# Sessions in byte areas: the steps passed, then a byte for each mark; zero is no mark, any other byte is one

def open_in(area, record, count, places, sums, order):
    """The number and the area after it. A short area gets 8 at 8's place: after the record's refusals, ahead of 12."""
    if len(area) < SESSION_SIZE and isinstance(records.parse(record), Contract):
        return SHORT, area
    number, session = open(record, count, places, sums, order)
    return number, area if number else with_session(area, session)


def report_in(area, count, places, sums, side, number):
    """The reply and the area after it: byte for byte as it was, unless the report is taken."""
    if len(area) < SESSION_SIZE:
        return SHORT, area
    reply, session = report(session_in(area), count, places, sums, side, number)
    return reply, area if reply else with_session(area, session)


def finished_in(area, count):
    """1 or 0, and 8 for a short area."""
    return SHORT if len(area) < SESSION_SIZE else int(finished(session_in(area), count))


def session_in(area):
    return (int.from_bytes(area[:PASSED_SIZE], "little"), *(mark != 0 for mark in area[PASSED_SIZE:SESSION_SIZE]))


def with_session(area, session):
    """The area with the session at its start; what lies after it stays."""
    passed, *marks = session
    return passed.to_bytes(PASSED_SIZE, "little") + bytes(marks) + area[SESSION_SIZE:]
