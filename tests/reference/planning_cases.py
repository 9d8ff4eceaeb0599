"""Cases for comparing two planners, checkers and sessions, the same on every run.

plan_cases(seed), bounds_cases(seed), check_cases(seed), session_cases(seed)   one by one, of the classes below

Most deals are tight: the leaving costs are about the least with which a plan exists, and the price is within the range in
which the start is safe, at an end of it, or next to one. So many are impossible and many just possible; of some the start
alone is not safe.
"""
import random
from dataclasses import dataclass, replace
from itertools import product
from math import inf

import examples
import planning
import record
import record_cases
from record import LADDER, MOST_MONEY, TABLE, UNIT_PRICES, Contract, Header
from record_cases import FORMS, MAX_U16, MAX_U32, MAX_U64, in_turn

LARGE_TABLES = ((3, 3, 3, 1), (7, 15), (1, 1, 1, 15), (127,), (10, 10), (1, 7, 7), (4, 4, 4), (63, 1), (5, 20))

NAMES = {LADDER: "ladder", UNIT_PRICES: "unit prices", TABLE: "table"}


@dataclass(frozen=True)
class PlanCase:
    """The areas as they are lent, with bytes in them that planning may have to leave or to clear."""
    kind: str
    record: bytes
    places: bytes
    sums: bytes
    order: bytes
    work: bytes


@dataclass(frozen=True)
class BoundsCase:
    kind: str
    record: bytes
    place: int
    order: bytes


@dataclass(frozen=True)
class CheckCase:
    kind: str
    record: bytes
    count: int
    places: bytes
    sums: bytes
    order: bytes


@dataclass(frozen=True)
class SessionCase(CheckCase):
    """Reports one after the other, to the session in the area, or to the one that opening the plan stores there."""
    area: bytes
    opens: bool
    reports: tuple  # of (side, number)


# Goods: contracts without price and leaving costs

def some_goods(rng, form, most_units, most_amount):
    return goods_maker(rng, form)(rng, most_units, most_amount)


def goods_maker(rng, form):
    """More than half of the unit prices are items whose order is hard to pick. These meet the conditions on a small deal less
    often than others, so that its maker is drawn once."""
    make = ranked_items if form == UNIT_PRICES and rng.random() < 0.6 else (some_ladder, some_items, some_table)[form]
    return lambda *limits: worth_it(rng, make(*limits))


def worth_it(rng, goods):
    """Mostly goods that are worth at least what they cost: no price suits others. Cost and value are exchanged for that."""
    cost, value = whole_rises(goods)
    return replace(goods, costs=goods.values, values=goods.costs) if cost > value and rng.random() < 0.9 else goods


def some_ladder(rng, most_units, most_amount):
    units = rng.randint(1, most_units)
    columns = ([rng.randint(0, most_amount) for _ in range(units)] for _ in range(2))
    return Contract(Header(form=LADDER, count=units), *columns)


def some_items(rng, most_units, most_amount):
    """Amounts of a unit that differ between items; equal ones are common, so that ties are tried."""
    count = rng.randint(1, min(most_units, record.MOST_ITEMS[UNIT_PRICES]))
    most = min(record.MOST_ITEM_UNITS, most_units // count)
    units = [rng.choice((1, rng.randint(1, most))) for _ in range(count)]
    columns = ([rng.randint(0, most_amount) for _ in units] for _ in range(2))
    return Contract(Header(form=UNIT_PRICES, count=count, units=record.padded(units)), *columns)


def ranked_items(rng, most_units, most_amount):
    """Items that all come last, or all first but one that outweighs them: else no price would suit. One may have more units than
    the others, which tells where whole segments are compared. Of some a greater surplus needs more room, so that in a tight deal
    it has to wait."""
    outweighed = most_units > 2 and rng.random() < 0.7
    most_units -= outweighed
    count = rng.randint(2, min(most_units, record.MOST_ITEMS[UNIT_PRICES] - outweighed))
    units = [1] * count
    more = min(most_units - count, record.MOST_ITEM_UNITS - 1)
    units[rng.randrange(count)] += rng.randint(min(more, 1), more)
    amounts = [range(least, least + max(count, most_amount // 2 + 2)) for least in (0, 1)]
    if rng.random() < 0.55:
        needs, surplus = (sorted(rng.sample(some, count)) for some in amounts)
    else:
        needs, surplus = (rng.choices(some, k=count) for some in amounts)
    lines = [(n, need + gain, need) for n, need, gain in zip(units, needs, surplus)]
    if outweighed:
        cost = rng.choice((0, 0, rng.choice(needs)))
        lines.append((1, cost, cost + sum(n * gain for n, gain in zip(units, surplus)) + rng.choice((0, 0, 0, 1, 2))))
    else:
        lines = [(n, need, more) for n, more, need in lines]
    rng.shuffle(lines)
    units, *columns = (list(column) for column in zip(*lines))
    return Contract(Header(form=UNIT_PRICES, count=len(lines), units=record.padded(units)), *columns)


def some_table(rng, most_rows, most_amount):
    units = table_units(rng, most_rows)
    columns = (some_cells(rng, units, most_amount) for _ in range(2))
    return Contract(Header(form=TABLE, count=len(units), units=record.padded(units)), *columns)


def table_units(rng, most_rows):
    while True:
        units = [rng.choice((1, 1, 2, 3, rng.randint(1, most_rows))) for _ in range(rng.randint(1, 4))]
        if record.row_count(units) <= most_rows:
            return units


def some_cells(rng, units, most_amount):
    """Cells that never fall. Of some tables many cells are what the filling rule restores; row 0 is mostly not zero."""
    flat = rng.choice((0, 0, 0.3, 0.7))
    cells = []
    for row in range(record.row_count(units)):
        rise = 0 if rng.random() < (flat if row else 0.4) else rng.randint(row == 0, most_amount)
        cells.append(record.filling(cells, row, units) + rise)
    return cells


# Price and leaving costs

def with_deal(contract, price, supplier, buyer):
    amounts = (min(max(amount, 0), MOST_MONEY) for amount in (price, supplier, buyer))
    price, supplier, buyer = amounts
    return replace(contract, header=replace(contract.header, price=price, supplier=supplier, buyer=buyer))


def tight(rng, contract):
    total = max(0, least_leaving_costs(contract) + rng.choice((-1, -1, 0, 0, 0, 0, 1, 2)))
    return priced(rng, contract, total)


def loose(rng, contract):
    least = least_leaving_costs(contract)
    return priced(rng, contract, least + rng.randint(0, 2 * least + 3))


def priced(rng, contract, leaving_costs):
    """Splits the leaving costs between the two sides. Takes a price at which the start is safe; or one beside these, next to them
    or about as far off as the leaving costs reach, and these costs at times greater, so that the start alone is at fault."""
    beside = rng.random() < 0.4
    leaving_costs += rng.choice((0, 1, 2)) if beside else 0
    supplier = rng.choice((0, leaving_costs, rng.randint(0, leaving_costs)))
    buyer = leaving_costs - supplier
    cost, value = whole_rises(contract)
    if beside:
        below = cost - rng.choice((1, 1, supplier, supplier + 1, rng.randint(0, supplier)))
        above = value + rng.choice((1, 1, buyer, buyer + 1, rng.randint(0, buyer)))
        price = rng.choice((below, above))
    else:
        price = rng.choice((cost, value, *(rng.randint(min(cost, value), max(cost, value)) for _ in range(4))))
    return with_deal(contract, price, supplier, buyer)


def whole_rises(contract):
    """How much cost and value rise from the first place to the last."""
    items = tuple(range(1, contract.header.count + 1))
    costs, values = planning.place_totals(contract, items)
    return costs[-1] - costs[0], values[-1] - values[0]


def least_leaving_costs(contract):
    """The least sum of both leaving costs with which every delivery of a plan can be safe."""
    if contract.header.form == UNIT_PRICES:
        return least_for_items(contract)
    header = contract.header
    units = (header.count,) if header.form == LADDER else header.units[:header.count]
    costs, values = planning.place_totals(contract, ())
    # unit by unit a delivery from a to b needs values[b] - costs[a]; of all ways the one whose greatest need is least
    need = [-inf]
    for b in range(1, len(costs)):
        need.append(min(max(need[a], values[b] - costs[a]) for a in record.rows_below(b, units)))
    return max(0, need[-1] + costs[-1] - values[-1])


def least_for_items(contract):
    enough, too_little = whole_rises(contract)[0], -1  # with all of the cost no upper bound is below the price
    while enough - too_little > 1:
        middle = (enough + too_little) // 2
        if planning.some_order_is_safe(with_deal(contract, 0, 0, middle)):
            enough = middle
        else:
            too_little = middle
    return enough


def some_amount(rng):
    return rng.choice((1, 2, 3, 5, 8, 8, 30, 1_000, 100_000))


def small_deal(rng, form=None):
    form = rng.choice(FORMS) if form is None else form
    goods = some_goods(rng, form, rng.choice((2, 4, 8, 24)), some_amount(rng))
    return rng.choice((tight, tight, tight, loose))(rng, goods)


def large_deal(rng, form):
    most_amount = rng.choice((1, 9, 1_000, 900_000))
    if form == LADDER:
        units = rng.choice((1_000, rng.randint(300, 1_000)))
        columns = ([rng.randint(0, most_amount) for _ in range(units)] for _ in range(2))
        goods = Contract(Header(form=LADDER, count=units), *columns)
    elif form == UNIT_PRICES:
        goods = some_items(rng, 1_000, most_amount)
    else:
        units = rng.choice(LARGE_TABLES)
        columns = (some_cells(rng, units, min(most_amount, 10_000)) for _ in range(2))
        goods = Contract(Header(form=TABLE, count=len(units), units=record.padded(units)), *columns)
    return rng.choice((tight, tight, loose))(rng, worth_it(rng, goods))


def even_deal(form, units, amount, supplier, buyer):
    """Each unit costs this amount and is worth it; the price is that of all. Units of each item, of a ladder all in one."""
    price = amount * sum(units)
    if form == LADDER:
        count, units, entries = sum(units), (), [amount] * sum(units)
    elif form == UNIT_PRICES:
        count, entries = len(units), [amount] * len(units)
    else:
        count, entries = len(units), [amount * sum(held) for held in product(*(range(n + 1) for n in units))]
    return Contract(Header(price, supplier, buyer, form, count, record.padded(units)), entries, entries)


def unit_by_unit(form, units, amount=2):
    """A deal with the most steps that a plan can have: payments and single units by turns, payments at both ends."""
    return even_deal(form, units, amount, amount // 2, amount - amount // 2)


def tiny_deal(rng, form):
    """At most four units and a price of at most eight, for going through all plans; most have several of both."""
    make = goods_maker(rng, form)
    while True:
        goods = make(rng, 9 if form == TABLE else 4, rng.choice((1, 2, 3, 4)))
        units = planning.all_units(goods)
        if units > 4 or units < rng.randint(1, 4):
            continue
        contract = rng.choice((tight, tight, tight, loose))(rng, goods)
        if rng.randint(0, 5) <= contract.header.price <= 8:
            return contract


# Records and areas

def record_of(rng, contract):
    """The record, with restorable cells blank, given, or mixed."""
    gives = rng.choice((lambda: False, lambda: True, lambda: rng.random() < 0.5))
    return record_cases.joined(record_cases.fields_of(contract, gives))


def damaged(rng, contract):
    """A record with one fault or two; of a table often one cell that is too low, the rarest refusal."""
    draft = record_cases.drafted(rng, contract)
    faults = rng.sample(record_cases.FAULTS[:-1], rng.choice((1, 1, 2)))
    if contract.header.form == TABLE and rng.random() < 0.4:
        faults = [record_cases.lower_cell]
    for fault in faults:
        fault(rng, draft)
    return draft.record()


def needed(contract):
    """The bytes that planning needs: places, sums, order, work."""
    entries = 2 * planning.all_units(contract) + 1
    rows = planning.last_place(contract) + 1
    work = rows * (entries + 1) if contract.header.form == TABLE else 0
    return [planning.PLACE_SIZE * entries, planning.SUM_SIZE * entries, planning.ORDER_SIZE, work]


def longer_lengths(rng, lengths):
    """Odd remainders, further entries, or nothing more."""
    return [length + rng.choice((0, 0, 1, 2, 3, 4, 5, 40)) for length in lengths]


def short_lengths(rng, lengths):
    """One area, at times two, a byte or an entry too short, or of no length."""
    lengths = longer_lengths(rng, lengths) if rng.random() < 0.5 else list(lengths)
    need = list(lengths)
    for area in rng.sample(range(4), rng.choice((1, 1, 1, 2))):
        lengths[area] = max(0, rng.choice((need[area] - 1, need[area] - 2, need[area] - 4, need[area] // 2, 0)))
    return lengths


def filled(rng, lengths):
    """Areas of these lengths: mostly random bytes, at times zeros or ones."""
    return [rng.choice((rng.randbytes(length), rng.randbytes(length), bytes(length), b"\xff" * length))
            for length in lengths]


# Planning

def plan_case(rng, kind, contract, lengths=None):
    lengths = longer_lengths(rng, needed(contract)) if lengths is None else lengths
    return PlanCase(kind, record_of(rng, contract), *filled(rng, lengths))


def example_plans(rng):
    for example in examples.examples():
        contract = record.parse(example.record)
        need = needed(contract) if isinstance(contract, Contract) else [40, 80, 8, 40]
        for lengths in need, longer_lengths(rng, need):
            yield PlanCase("example " + example.name, example.record, *filled(rng, lengths))


def small_plans(rng, each):
    return (plan_case(rng, "small " + NAMES[form], small_deal(rng, form)) for _ in range(each) for form in FORMS)


def tiny_plans(rng, each):
    return (plan_case(rng, "tiny " + NAMES[form], tiny_deal(rng, form)) for _ in range(each) for form in FORMS)


def large_plans(rng, each):
    deals = [large_deal(rng, form) for form in FORMS for _ in range(each)] + [unit_by_unit(LADDER, (1_000,))]
    yield from (plan_case(rng, "large " + NAMES[deal.header.form], deal) for deal in deals)


def area_plans(rng, each):
    """For every deal areas of exactly the needed lengths, then each area in turn at its edges, then some at random."""
    for form in FORMS:
        for _ in range(each):
            contract = small_deal(rng, form)
            need = needed(contract)
            lengths = [need] + [changed(need, area, more)
                                for area in range(4) for more in (-need[area], -4, -2, -1, 1, 3)]
            lengths += [short_lengths(rng, need) for _ in range(4)] + [[0, 0, 0, 0]]
            yield from [plan_case(rng, "areas " + NAMES[form], contract, some) for some in lengths]


def changed(lengths, area, more):
    return [max(0, length + more) if i == area else length for i, length in enumerate(lengths)]


def damaged_plans(rng, count):
    """Damaged records, with good and with short areas: the record's refusals stand first."""
    for i in range(count):
        contract = small_deal(rng, FORMS[i % 3])
        lengths = rng.choice((longer_lengths, longer_lengths, short_lengths))(rng, needed(contract))
        yield PlanCase("damaged", damaged(rng, contract), *filled(rng, lengths))


def extreme_plans(rng, count):
    """Amounts up to the limit, mostly far from any plan; some make every state safe."""
    contracts = [record_cases.some_contract(rng, FORMS[i % 3]) for i in range(count)]
    goods = [worth_it(rng, contract) for contract in contracts[::2]]
    contracts += [with_deal(some, rng.choice((0, MOST_MONEY, *whole_rises(some))), MOST_MONEY, MOST_MONEY) for some in goods]
    yield from (plan_case(rng, "extreme", contract) for contract in contracts)


def limit_plans(rng):
    """Contracts at the limits of a record and one beyond, whole, cut by a byte, and cut behind the first units."""
    for contract in (*record_cases.limit_contracts(), record_cases.too_many_rows_early()):
        case = plan_case(rng, "limits", contract)
        yield from (replace(case, record=case.record[:end]) for end in (None, -1, 4))


def plan_cases(seed, scale=1):
    rng = random.Random(seed)
    return in_turn(example_plans(rng), limit_plans(rng), tiny_plans(rng, 400 * scale), small_plans(rng, 600 * scale),
                   area_plans(rng, 20 * scale), damaged_plans(rng, 900 * scale), extreme_plans(rng, 300 * scale),
                   large_plans(rng, 15 * scale))


# Orders

def some_order(rng, contract):
    """Right order bytes for unit prices, else zeros."""
    count = contract.header.count if contract.header.form == UNIT_PRICES else 0
    return planning.order_bytes(rng.sample(range(1, count + 1), count))


def wrong_order(rng, order):
    """Order bytes with a fault, or at least others: an item twice, none, one too many, a byte after the last, cut."""
    order = bytearray(order)
    i, j = rng.randrange(len(order)), rng.randrange(len(order))
    fault = rng.randrange(6)
    if fault < 3:
        order[i] = (order[j], 0, rng.choice((1, 9, 255, order[i] + 1)) % 256)[fault]
    elif fault == 3:
        order[i], order[j] = order[j], order[i]
    elif fault == 4:
        order[-1] = rng.randint(1, 9)
    else:
        del order[rng.choice((7, 0, 4)):]
    return bytes(order)


def with_tail(rng, order):
    """Bytes after the eighth do not count."""
    return order + rng.randbytes(rng.choice((0, 0, 1, 8)))


# Bounds

def bounds_case(rng, contract, damage):
    last = planning.last_place(contract)
    place = rng.choice((0, last, rng.randint(0, last), rng.randint(0, last), last + 1, MAX_U16))
    order = with_tail(rng, some_order(rng, contract))
    if rng.random() < 0.3:
        order = wrong_order(rng, order)
    data = damaged(rng, contract) if damage else record_of(rng, contract)
    return BoundsCase("bounds " + ("damaged" if damage else NAMES[contract.header.form]), data, place, order)


def bounds_cases(seed, scale=1):
    rng = random.Random(seed)
    yield from (bounds_case(rng, small_deal(rng, form), damage=False) for form in FORMS for _ in range(700 * scale))
    yield from (bounds_case(rng, small_deal(rng), damage=True) for _ in range(300 * scale))
    yield from (bounds_case(rng, record_cases.some_contract(rng), damage=False) for _ in range(300 * scale))
    yield from (bounds_case(rng, large_deal(rng, form), damage=False) for form in FORMS for _ in range(10 * scale))


# Brought plans: lists of states, changed in one way each

class AnyStart(planning.Deal):
    """A deal in which the start is not judged, so that plans come up that are safe but for it."""

    def safe(self, place, paid):
        return (place, paid) == planning.START or self.lower[place] <= paid <= self.upper[place]


def from_any_start(contract, items):
    return AnyStart(**vars(planning.deal_of(contract, items)))


@dataclass
class Brought:
    contract: Contract
    deal: AnyStart
    items: tuple
    steps: list


def brought(rng, contract):
    """Ours, or another walk along bounds, whether or not the start is safe; where no such plan is found, states at random."""
    items = ()
    if contract.header.form == UNIT_PRICES:
        items = planning.chosen_order(contract) or tuple(rng.sample(range(1, contract.header.count + 1), contract.header.count))
    deal = from_any_start(contract, items)
    # the walk itself needs bounds that admit the start
    steps = planning.steps_in(contract, replace(deal, lower=[0, *deal.lower[1:]], upper=[max(deal.upper[0], 0), *deal.upper[1:]]))
    if steps is None or not deal.is_plan(steps):
        steps = sorted((rng.randint(0, deal.last), rng.randint(0, deal.price)) for _ in range(rng.randint(0, 4)))
        steps.append((deal.last, deal.price))
    elif rng.random() < 0.4:
        steps = slower(rng, deal, steps)
    return Brought(contract, deal, items, steps)


def slower(rng, deal, steps):
    """A safe plan that at times delivers or pays less than ours does, each step within our own states."""
    path = [planning.START]
    for state in steps:
        (a, p), (b, q) = path[-1], state
        choices = [(b, q), (a, q), (b, p), (b, rng.randint(min(p, q), q))]
        rng.shuffle(choices)
        path += [choice for choice in choices if deal.is_step(path[-1], choice)][:1]
    while path[-1] != (deal.last, deal.price) and len(path) < 3 * len(steps) + 4:
        a, p = path[-1]
        delivered = max(b for b in range(deal.last + 1) if deal.is_step((a, p), (b, p)))
        path.append((delivered, max(p, deal.upper[a])))
    return path[1:]


def unchanged(rng, plan):
    return plan.steps


def state_changed(rng, plan):
    """One place or sum is another one: next to it, at an end, or beyond."""
    i = rng.randrange(len(plan.steps))
    place, paid = plan.steps[i]
    places = (place + 1, place - 1, rng.randint(0, plan.deal.last), plan.deal.last + 1, MAX_U16)
    sums = (paid + 1, paid - 1, rng.randint(0, plan.deal.price), plan.deal.price + 1, MAX_U32)
    if rng.random() < 0.5:
        place = max(0, rng.choice(places))
    else:
        paid = max(0, rng.choice(sums))
    return plan.steps[:i] + [(place, paid)] + plan.steps[i + 1:]


def state_dropped(rng, plan):
    i = rng.randrange(len(plan.steps))
    return plan.steps[:i] + plan.steps[i + 1:]


def state_doubled(rng, plan):
    """Empty steps, also several in a row; they are safe."""
    i = rng.randrange(len(plan.steps))
    return plan.steps[:i] + plan.steps[i:i + 1] * rng.randint(2, 4) + plan.steps[i + 1:]


def empty_start(rng, plan):
    """Steps at the start that move nothing."""
    return [planning.START] * rng.randint(1, 3) + plan.steps


def needless_step(rng, plan):
    """One step parted into two, delivery first or payment first."""
    i = rng.randrange(len(plan.steps))
    (a, p), (b, q) = ([planning.START] + plan.steps)[i:i + 2]
    return plan.steps[:i] + [rng.choice(((b, p), (a, q)))] + plan.steps[i:]


def swapped(rng, plan):
    """Falling places or sums."""
    i, j = rng.randrange(len(plan.steps)), rng.randrange(len(plan.steps))
    steps = list(plan.steps)
    steps[i], steps[j] = steps[j], steps[i]
    return steps


def places_swapped(rng, plan):
    """The places of one plan with the sums of another order."""
    others = swapped(rng, plan)
    return [(place, paid) for (place, _), (_, paid) in zip(others, plan.steps)]


def taken_back(rng, plan):
    """The units of one step taken back and delivered again: each state is safe, only units are taken back."""
    i = rng.randrange(len(plan.steps))
    (a, _), (b, q) = ([planning.START] + plan.steps)[i:i + 2]
    return plan.steps[:i + 1] + [(a, q), (b, q)] + plan.steps[i + 1:]


def cut_short(rng, plan):
    return plan.steps[:rng.randrange(len(plan.steps) + 1)]


def all_at_once(rng, plan):
    return [(plan.deal.last, plan.deal.price)]


def merged(rng, plan):
    """Two neighbouring steps as one: mostly a delivery before the payment that it needs."""
    return plan.steps[1::2] if len(plan.steps) % 2 == 0 else plan.steps[::2]


CHANGES = (unchanged, unchanged, state_changed, state_changed, state_changed, state_dropped, state_doubled, empty_start,
           needless_step, needless_step, swapped, places_swapped, taken_back, cut_short, all_at_once, merged)


def plan_areas(rng, steps):
    """Areas with the steps, then further entries and a remainder."""
    places = b"".join(place.to_bytes(planning.PLACE_SIZE, "little") for place, _ in steps)
    sums = b"".join(paid.to_bytes(planning.SUM_SIZE, "little") for _, paid in steps)
    return [area + rng.randbytes(rng.choice((0, 0, 1, 2, 3, 4, 13))) for area in (places, sums)]


def check_case(rng, kind, plan):
    change = rng.choice(CHANGES)
    steps = change(rng, plan) if plan.steps else []
    return brought_case(rng, f"{kind} {change.__name__}", plan, steps)


def brought_case(rng, kind, plan, steps):
    return CheckCase(kind, record_of(rng, plan.contract), len(steps), *plan_areas(rng, steps),
                     with_tail(rng, planning.order_bytes(plan.items)))


def with_other_count(rng, case):
    """A count beside the plan's, at the end of the shorter area, or above it."""
    entries = min(len(case.places) // planning.PLACE_SIZE, len(case.sums) // planning.SUM_SIZE)
    count = rng.choice((0, case.count - 1, case.count + 1, entries, entries + 1, MAX_U16, MAX_U32))
    return replace(case, kind=case.kind + ", count", count=max(0, count))


def with_wrong_order(rng, case):
    return replace(case, kind=case.kind + ", order", order=wrong_order(rng, case.order))


def with_cut_area(rng, case):
    name = rng.choice(("places", "sums", "order"))
    area = getattr(case, name)
    left = max(0, len(area) - rng.choice((1, 2, 4, 8, len(area))))
    return replace(case, kind=case.kind + ", cut", **{name: area[:left]})


def with_damage(rng, case):
    contract = record.parse(case.record)
    # a reader with a fault may refuse a sound record, which is found where the case is compared
    return replace(case, kind="damaged", record=damaged(rng, contract)) if isinstance(contract, Contract) else case


def check_cases(seed, scale=1):
    rng = random.Random(seed)
    kinds = [changed_plans(rng, form, 500 * scale, 3 * scale) for form in FORMS]
    return in_turn(*kinds, *(spoiled_plans(rng, spoiled, 400 * scale)
                             for spoiled in (with_other_count, with_wrong_order, with_cut_area, with_damage)))


def changed_plans(rng, form, small, large):
    for _ in range(small):
        plan = brought(rng, small_deal(rng, form))
        yield from [check_case(rng, NAMES[form], plan) for _ in range(5)]
        if not planning.deal_of(plan.contract, plan.items).safe(*planning.START):
            yield from [brought_case(rng, f"{NAMES[form]} start", plan, steps) for steps in (plan.steps, empty_start(rng, plan))]
    for _ in range(large):
        plan = brought(rng, large_deal(rng, form))
        yield from [check_case(rng, "large " + NAMES[form], plan) for _ in range(4)]


def spoiled_plans(rng, spoiled, count):
    for i in range(count):
        plan = brought(rng, small_deal(rng, FORMS[i % 3]))
        yield spoiled(rng, brought_case(rng, "brought", plan, plan.steps))


# Sessions

def fitting_reports(rng, steps, passed=0):
    """The reports of all steps after those passed, of each step in either order."""
    reports = []
    for before, after in list(zip([planning.START] + steps, steps))[passed:]:
        moves = [(side, after[side]) for side in (planning.DELIVERY, planning.PAYMENT) if after[side] != before[side]]
        rng.shuffle(moves)
        reports += moves
    return reports


def disturbed(rng, reports):
    """With reports that do not fit: off by one, of another side, made before, not due yet, equal in low bits."""
    mixed = []
    for i, (side, number) in enumerate(reports):
        wrong = [(side, number + 1), (side, max(0, number - 1)), (1 - side, number), reports[i - 1],
                 reports[min(i + 1, len(reports) - 1)], (side, number + 2 ** 16), (side, 0), (1 - side, 0),
                 (side, MAX_U32), (side + 2, number)]
        mixed += rng.sample(wrong, rng.choice((0, 0, 1, 2)))
        mixed += [(side, number)] * rng.choice((1, 1, 1, 2))
    return [(side, min(number, MAX_U32)) for side, number in mixed]


def session_case(rng, kind, plan, steps, length=None):
    case = brought_case(rng, kind, plan, steps)
    reports = fitting_reports(rng, steps)
    if rng.random() < 0.7:
        reports = disturbed(rng, reports)
    after_the_end = [(rng.randrange(2), rng.choice((0, plan.deal.last, plan.deal.price))) for _ in range(2)]
    return SessionCase(case.kind, case.record, case.count, case.places, case.sums, case.order,
                       session_area(rng, rng.randbytes(planning.SESSION_SIZE), length), True, tuple(reports + after_the_end))


def session_area(rng, content, length=None):
    """An area with these bytes: of some length, or mostly just these, at times with others after them, at times cut short."""
    lengths = (planning.SESSION_SIZE,) * 6 + (rng.randrange(planning.SESSION_SIZE), planning.SESSION_SIZE + rng.randint(1, 4))
    return (content + rng.randbytes(4))[:rng.choice(lengths) if length is None else length]


def session_content(rng, passed):
    """Any byte but zero is a mark."""
    return passed.to_bytes(planning.PASSED_SIZE, "little") + bytes(rng.choice((0, 0, 0, 0, 1, 255)) for _ in range(2))


def opened_sessions(rng, count):
    """Along plans that are safe for the most part, with empty and parted steps; of some the record is damaged."""
    while count:
        plan = brought(rng, small_deal(rng))
        change = rng.choice((unchanged, state_doubled, empty_start, needless_step, state_changed))
        if plan.deal.is_plan(plan.steps) or rng.random() < 0.2:
            case = session_case(rng, "opened " + change.__name__, plan, change(rng, plan))
            yield with_damage(rng, case) if rng.random() < 0.05 else case
            count -= 1


def invented_sessions(rng, count):
    """Sessions that no opening produced, on plan bytes that no check has seen."""
    for _ in range(count):
        steps = invented_steps(rng)
        places, sums = plan_areas(rng, steps)
        passed = rng.choice((0, 0, *(rng.randint(0, len(steps)) for _ in range(5)), len(steps) + 1, MAX_U32, 2 ** 32, MAX_U64))
        reports = disturbed(rng, fitting_reports(rng, steps, passed))[:rng.randint(4, 12)]
        reports += [near_entry(rng, steps, passed) for _ in range(2)]
        entries = min(len(places) // planning.PLACE_SIZE, len(sums) // planning.SUM_SIZE)
        steps_count = rng.choice((len(steps),) * 12 + (0, entries, entries + 1, MAX_U32, MAX_U64))
        yield SessionCase("invented", b"", steps_count, places, sums, bytes(planning.ORDER_SIZE),
                          session_area(rng, session_content(rng, passed)), False, tuple(reports))


def invented_steps(rng):
    """Few different numbers, so that steps without a move are common; they may fall."""
    places, sums = rng.choice(((2, 2), (3, 3), (MAX_U16, MAX_U32)))
    steps = [(rng.choice((0, rng.randint(0, places))), rng.choice((0, rng.randint(0, sums))))
             for _ in range(rng.randint(0, 7))]
    return [step for step in steps for _ in range(rng.choice((1, 1, 1, 2)))]


def near_entry(rng, steps, passed):
    """A report with a number of a step about the open one, at times off by one."""
    side = rng.randrange(2)
    near = steps[passed:passed + 1] * 3 + steps[max(0, passed - 1):passed + 3] or steps[-2:] or [(0, 0)]
    number = rng.choice(near)[side] + rng.choice((0, 0, 0, 0, 0, 0, 1, -1, 2 ** 16))
    return side, min(max(number, 0), MAX_U32)


def session_lengths(rng):
    """Every length of a session area about the ten bytes that it takes: to open, with a cut record too, under way, finished."""
    plan = brought(rng, unit_by_unit(LADDER, (2,)))
    for length in range(planning.SESSION_SIZE + 5):
        case = session_case(rng, "session area", plan, plan.steps, length)
        yield case
        yield replace(case, record=case.record[:-1])
        for passed in 0, case.count:
            yield replace(case, area=session_area(rng, session_content(rng, passed), length), opens=False)


def session_cases(seed, scale=1):
    rng = random.Random(seed)
    long = brought(rng, unit_by_unit(LADDER, (150,)))
    return in_turn(session_lengths(rng), opened_sessions(rng, 1_500 * scale), invented_sessions(rng, 3_000 * scale),
                   [session_case(rng, "opened, long", long, long.steps, planning.SESSION_SIZE)])
