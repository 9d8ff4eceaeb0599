"""Faults for copies of the reference program: what is wrong, the text that is right, and the faulty one.

GROUPS has for each group the module that its faults are in, and the comparisons that have to find them.
"""


def dropped(text):
    return text, ""


def swapped(first, second):
    return first + second, second + first


# planning.py

UNSAFE_START = "    if not deal.safe(*START):\n        return None\n    return steps"
ENTRIES_SHORT = "    if above_areas(count, places, sums) or len(order) < ORDER_SIZE:\n        return SHORT\n"
ORDER_UNSAFE = "    items = items_in(contract, order)\n    if items is None:\n        return UNSAFE\n"
AREA_AFTER_REPORT = "    return reply, area if reply else with_session(area, session)"

PLANNING = (
    ("upper bound without the supplier's leaving cost", "+ cost + header.supplier", "+ cost"),
    ("lower bound with the buyer's leaving cost added", "+ value - header.buyer", "+ value + header.buyer"),
    ("a plan of one step where the start is not safe", UNSAFE_START,
     UNSAFE_START.replace("None", "[(deal.last, deal.price)]")),
    ("delivers one place less far", "bisect_right(deal.lower, paid) - 1", "max(place, bisect_right(deal.lower, paid) - 2)"),
    ("a delivery tested by the payment of its own step", "deal.lower[higher] <= paid and", "deal.lower[higher] <= pays and"),
    ("a step may take units back", "if b > self.last or q < p or not self.holds(b, a):", "if b > self.last or q < p:"),
    ("the payment is not tested before the delivery", "for place in (a, b) for paid in (p, q))",
     "for place, paid in ((a, p), (b, p), (b, q)))"),
    ("a plan need not end at the price", "path[-1] == (self.last, self.price)", "path[-1][0] == self.last"),
    ("room for one entry less", "entries = 2 * all_units(contract) + 1", "entries = 2 * all_units(contract)"),
    ("work area as it was after 9", "return places, sums, order, bytes(len(work))", "return places, sums, order, work"),
    ("a remainder is cleared", 'written.ljust(whole, b"\\0") + area[whole:]', 'written.ljust(len(area), b"\\0")'),
    ("finished one step early", "return session[0] >= count", "return session[0] + 1 >= count"),
    ("a finished session answers 10", "        return FINISHED, session\n", "        return UNFIT, session\n"),
    ("an empty step is not passed over", "0, passed_over((0, False, False), count, places, sums)", "0, (0, False, False)"),
    ("8 after 12 in a check", *swapped(ENTRIES_SHORT, ORDER_UNSAFE)),
    ("the last place has no bounds", "    if place > last_place(contract):\n", "    if place >= last_place(contract):\n"),
    ("a refused report moves the session", AREA_AFTER_REPORT,
     "    return reply, with_session(area, (session[0] + (reply == UNFIT), *session[1:]))"),
    ("a refused report stores the marks anew", AREA_AFTER_REPORT, "    return reply, with_session(area, session)"),
    ("0 for whether a short area is finished", "SHORT if len(area) < SESSION_SIZE", "0 if len(area) < SESSION_SIZE"),
    ("nine bytes are enough for a session", "PASSED_SIZE, SESSION_SIZE = 8, 10", "PASSED_SIZE, SESSION_SIZE = 8, 9"),
    ("8 for a session area ahead of the record's refusals",
     " and isinstance(records.parse(record), Contract):\n        return SHORT, area", ":\n        return SHORT, area"),
    ("only the byte 1 is a mark", "(mark != 0 for mark in", "(mark == 1 for mark in"),
    ("four bytes of the steps passed are read", "int.from_bytes(area[:PASSED_SIZE]", "int.from_bytes(area[:4]"),
    ("bytes after a session are cut off", "+ bytes(marks) + area[SESSION_SIZE:]", "+ bytes(marks)"),
)

# planning.py: bounds clipped to what a cashier can read; the answer alone, or all that cites them

ANSWERED = "    return deal.lower[place], deal.upper[place]\n"
LOWER, UPPER = "[max(bound, 0) for bound in lower]", "[min(bound, price) for bound in upper]"

CLIPPED = (
    ("lower bound left below 0", LOWER, "lower"),
    ("upper bound left above the price", ANSWERED, ANSWERED.replace("deal.upper", "unclipped_bounds(contract, items)[1]")),
    ("negative upper bound clipped to 0", ANSWERED, ANSWERED.replace("deal.upper[place]", "max(deal.upper[place], 0)")),
    ("a payment above the price", UPPER, "upper"),
)

# planning.py: the start, where nothing has moved and leaving costs nothing; its neighbours, where it does

FAIR = "self.costs[-1] - self.costs[0] <= self.price <= self.values[-1] - self.values[0]\n"
JUDGED = "        if (place, paid) == START:\n            return self.fair_start()\n"
ALONG, SEARCHED = "deal.safe(*START):\n        return None\n    return steps", "[START] if deal.safe(*START) else []"
BY_BOUNDS = "deal.lower[0] <= 0 <= deal.upper[0]"
CHECKED = "    return 0 if deal_of(contract, items).is_plan(states) else UNSAFE\n"
OPENED = "    number = check(record, count, places, sums, order)\n"
RULED = "    return bisect_right(deal.lower, paid) - 1, deal.upper[place]\n"
NO_COST_LOWER, NO_COST_UPPER = "deal.price - deal.values[-1] + deal.values[0]", "deal.price - deal.costs[-1] + deal.costs[0]"


def by_old_start(lines, deal):
    """The lines while the start is judged by its bounds."""
    return f"    fair, {deal}.fair_start = {deal}.fair_start, lambda deal: {BY_BOUNDS}\n{lines}    {deal}.fair_start = fair\n"


def brought_start(rule, where=True):
    """A check that has another rule for the start, if its states are such."""
    return CHECKED, f'''\
    class Other(Deal):
        def fair_start(deal):
            return {rule}

    deal = Other if {where} else Deal
    return 0 if deal(**vars(deal_of(contract, items))).is_plan(states) else UNSAFE
'''


WITHDRAWAL = (
    ("the start's lower end not included", FAIR, FAIR.replace("<= self.price", "< self.price")),
    ("the start's upper end not included", FAIR, FAIR.replace("price <=", "price <")),
    ("the start judged by its bounds", *dropped(JUDGED)),
    ("the supplier's leaving cost at the start", FAIR, "0 <= self.upper[0] and self.price <= self.values[-1] - self.values[0]\n"),
    ("the buyer's leaving cost at the start", FAIR, "self.costs[-1] - self.costs[0] <= self.price and self.lower[0] <= 0\n"),
    ("row 0's cost left out at the start", FAIR, FAIR.replace(" - self.costs[0]", "")),
    ("row 0's value left out at the start", FAIR, FAIR.replace(" - self.values[0]", "")),
    ("no leaving cost while nothing is paid", JUDGED, JUDGED.replace("(place, paid) == START", "paid == 0")
     .replace("self.fair_start()", FAIR[:-1].replace("[0]", "[place]"))),
    ("no leaving cost while nothing is delivered", JUDGED, JUDGED.replace("(place, paid) == START", "place == 0")
     .replace("self.fair_start()", FAIR[:-1].replace("self.price", "self.price - paid"))),
    ("the start's rule for all places while nothing is paid", JUDGED, JUDGED.replace("(place, paid) == START", "paid == 0")),
    ("the start's rule for all sums while nothing is delivered", JUDGED, JUDGED.replace("(place, paid) == START", "place == 0")),
    ("plans along an order from a start by its bounds", ALONG, ALONG.replace("deal.safe(*START)", BY_BOUNDS)),
    ("plans of a table from a start by its bounds", SEARCHED, SEARCHED.replace("deal.safe(*START)", BY_BOUNDS)),
    ("the start of a brought plan without its lower end", *brought_start("deal.price <= deal.values[-1] - deal.values[0]")),
    ("the start of a brought plan without its upper end", *brought_start("deal.costs[-1] - deal.costs[0] <= deal.price")),
    ("the start of a brought plan by its bounds", *brought_start(BY_BOUNDS)),
    ("the same where the first step stays", *brought_start(BY_BOUNDS, "states[:1] == [START]")),
    ("the same where the first step moves", *brought_start(BY_BOUNDS, "states[:1] != [START]")),
    ("the start of a brought plan not judged", *brought_start(True)),
    ("the start of a brought plan not judged if it is outside its bounds",
     *brought_start(f"not {BY_BOUNDS} or Deal.fair_start(deal)")),
    ("opening by the start's bounds", OPENED, by_old_start(OPENED, "Deal")),
    ("a first delivery without leaving cost", RULED, RULED.replace(
        "deal.lower,", "deal.lower if paid else [deal.price - deal.values[-1] + value for value in deal.values],")),
    ("a first payment without leaving cost", RULED, RULED.replace(
        "deal.upper[place]", f"deal.upper[place] if place else {NO_COST_UPPER}")),
    ("place 0's lower bound without leaving cost", ANSWERED, ANSWERED.replace(
        "deal.lower[place]", f"deal.lower[place] if place else max(0, {NO_COST_LOWER})")),
    ("place 0's upper bound without leaving cost", ANSWERED, ANSWERED.replace(
        "deal.upper[place]", f"deal.upper[place] if place else {NO_COST_UPPER}")),
    ("a negative upper bound for every start that is not safe", ANSWERED, ANSWERED.replace(
        "deal.upper[place]", "deal.upper[place] if place or deal.safe(*START) else -1")),
)

# planning.py: the order for unit prices, and the rows of a table

FORWARDS = "    forwards = [Pick(item, units, cost - value, value) for item, units, cost, value in items if cost >= value]\n"
BACKWARDS = "    backwards = [Pick(item, units, value - cost, cost) for item, units, cost, value in items if cost < value]\n"
PICKED = "    first, last = picked(forwards, gap_at_start), picked(backwards, gap_at_end)\n"
BOTH = "    return None if first is None or last is None else (*first, *reversed(last))\n"
ADMITTED = "[pick for pick in picks if pick.need <= gap]"
BEST = "max(admitted, key=lambda pick: (pick.gain, -pick.item))"
MOVED_ON = "        gap += best.units * best.gain\n"
ORDER = "    order = picked_order(contract)\n"
OWN_ORDER = ORDER + '''\
    if order and steps_along(deal_of(contract, sorted(order))):
        order = tuple(sorted(order))
'''
SUCCESSORS = "for higher in above[row]:"
PAYS = "        pays = deal.upper[row]\n"
GAPS = "upper[0] - lower[0], upper[-1] - lower[-1]\n"

CHOICE = (
    ("the items' own order where it has a plan", ORDER, OWN_ORDER),
    ("the higher number on a tie", BEST, BEST.replace("-pick.item", "pick.item")),
    ("the higher number on a tie from behind", PICKED + BOTH,
     PICKED.replace("picked(backwards,", "picked([pick._replace(item=-pick.item) for pick in backwards],")
     + BOTH.replace("reversed(last)", "map(abs, reversed(last))")),
    ("more units on a tie", BEST, BEST.replace("-pick.item", "pick.units, -pick.item")),
    ("whole segments compared", BEST, BEST.replace("pick.gain", "pick.units * pick.gain")),
    ("the least surplus", BEST, BEST.replace("pick.gain", "-pick.gain")),
    ("the least need ahead of the surplus", BEST, BEST.replace("pick.gain", "-pick.need, pick.gain")),
    ("the first item admitted", BEST, "admitted[0]"),
    ("the bound not looked at", ADMITTED, "list(picks)"),
    ("less than the bound", ADMITTED, ADMITTED.replace("<=", "<")),
    ("the bound after the item's first unit", ADMITTED, ADMITTED.replace("<= gap", "<= gap + pick.gain")),
    ("the bound at the item's other end", ADMITTED, ADMITTED.replace("<= gap", "<= gap + pick.units * pick.gain")),
    ("the bound not moved on", *dropped(MOVED_ON)),
    ("the bound moved on by one unit", MOVED_ON, MOVED_ON.replace("best.units * ", "")),
    ("clipped bounds for the front", GAPS, GAPS.replace("upper[0] - lower[0]", "min(upper[0], header.price) - max(lower[0], 0)")),
    ("clipped bounds for the last places", GAPS,
     GAPS.replace("upper[-1] - lower[-1]", "min(upper[-1], header.price) - max(lower[-1], 0)")),
    ("the bound at the end for the front", PICKED, PICKED.replace("gap_at_start", "gap_at_end")),
    ("the bound at the start for the last places", PICKED, PICKED.replace("gap_at_end", "gap_at_start")),
    ("the cost as the need from the front", FORWARDS, FORWARDS.replace("value, value)", "value, cost)")),
    ("the value as the need from behind", BACKWARDS, BACKWARDS.replace("cost, cost)", "cost, value)")),
    ("equal cost and value among the others", FORWARDS + BACKWARDS,
     FORWARDS.replace(">=", ">") + BACKWARDS.replace("cost < value", "cost <= value")),
    ("the others not from the last place backwards", BOTH, BOTH.replace("reversed(last)", "last")),
    ("the others first", BOTH, BOTH.replace("*first, *reversed(last)", "*reversed(last), *first")),
    ("the last rows of a table", SUCCESSORS, "for higher in reversed(above[row]):"),
    ("a table's steps pay a coin less than the most", PAYS, PAYS[:-1] + " - (paid < deal.upper[row] < deal.price)\n"),
)

# sparing.py

SPARING_TABLE = '    if contract.header.form == TABLE:\n        return "refused", MAP\n'
SPARING_SHORT = ('    if areas_too_short(contract, places_len, sums_len, order_len, work_len=0):\n'
                 '        return "refused", SHORT\n')
SPARING_FOUND = ('    found = plan_of(goal, contract)\n'
                 '    if found is None:\n        return "refused", IMPOSSIBLE\n')
SPARING_PARSED = "    contract = records.parse(record)\n"
SPARING_ITEMS = "    _, items = found\n"
SPARING_PLANNED = "    found = planning.plan_of(contract)\n"
SPARING_OWN_ORDER = SPARING_ITEMS + '''\
    if planning.steps_along(deal_of(contract, sorted(items))):
        items = tuple(sorted(items))
'''
STARTS = "{PAYMENTS: delivery_start, DELIVERIES: payment_start}"
SMALLER = "min(payment_start, delivery_start, key=moves)"
FIRST = "    steps = [] if first == START else [first]\n"
ONWARDS = "    return steps + steps_onwards(deal, first)\n"
MOVES_OF_A_STEP = "(b > a) + (q > p)"
SPARING_AREAS = '    return planning.areas_after(record, reply, places, sums, order, b"")[:3]\n'
OLD_TAIL = SPARING_AREAS.replace("return", "after =") + '''\
    n = len(reply[1]) if reply[0] == "steps" else 0
    return after[0][:2 * n] + places[2 * n:], after[1][:4 * n] + sums[4 * n:], after[2]
'''

SPARING = (
    ("the delivery start on a tie", SMALLER, "min(delivery_start, payment_start, key=moves)"),
    ("the greater number of moves", SMALLER, "max(payment_start, delivery_start, key=moves)"),
    ("only payments are counted as moves", MOVES_OF_A_STEP, "(q > p)"),
    ("only deliveries are counted as moves", MOVES_OF_A_STEP, "(b > a)"),
    ("payments and deliveries exchanged", STARTS, "{DELIVERIES: delivery_start, PAYMENTS: payment_start}"),
    ("fewest moves for fewest payments", "if goal == MOVES:", "if goal != DELIVERIES:"),
    ("an empty first step kept", FIRST, "    steps = [first]\n"),
    ("any first step dropped", FIRST, "    steps = []\n"),
    ("a delivery start that pays as well", "steps_after(deal, (place, 0))", "steps_after(deal, (place, paid))"),
    ("a payment start that delivers as well", "steps_after(deal, (0, paid))", "steps_after(deal, (place, paid))"),
    ("a delivery start of one unit", "steps_after(deal, (place, 0))", "steps_after(deal, (min(place, 1), 0))"),
    ("a payment start of one coin", "steps_after(deal, (0, paid))", "steps_after(deal, (0, min(paid, 1)))"),
    ("the rule from the start on after a forced step", ONWARDS, ONWARDS.replace("first)", "START)")),
    ("the last step twice", ONWARDS, "    steps += steps_onwards(deal, first)\n    return steps + steps[-1:]\n"),
    ("entries after the last step as they were", SPARING_AREAS, OLD_TAIL),
    ("order bytes after the eighth cleared", SPARING_AREAS,
     SPARING_AREAS.replace("order, b", "order[:8] + bytes(len(order[8:])), b")),
    ("the plan area zero after 9", SPARING_AREAS,
     '    if reply == ("refused", IMPOSSIBLE):\n        places = bytes(len(places))\n' + SPARING_AREAS),
    ("a plan along the items' own order where it has one", SPARING_ITEMS, SPARING_OWN_ORDER),
    ("plans from a start by its bounds", SPARING_PLANNED, by_old_start(SPARING_PLANNED, "planning.Deal")),
    ("items in their own order", '"steps", steps, order_bytes(items)', '"steps", steps, order_bytes(sorted(items))'),
    ("8 for every table", SPARING_TABLE, SPARING_TABLE.replace("MAP", "SHORT")),
    ("8 ahead of 2 for a table", SPARING_TABLE, SPARING_TABLE.replace("MAP", "MAP if order_len >= 8 else SHORT")),
    ("2 for a table ahead of the record's refusals", SPARING_PARSED,
     '    if record[:1] and record[0] & 32:\n        return "refused", MAP\n' + SPARING_PARSED),
    ("2 for a table ahead of 7", SPARING_PARSED, SPARING_PARSED
     + '    if contract == records.TRAILING and record[0] & 32:\n        return "refused", MAP\n'),
    ("9 ahead of 8", *swapped(SPARING_SHORT, SPARING_FOUND)),
    ("room for the forced step beside all others", SPARING_SHORT, SPARING_SHORT.replace("places_len", "places_len - 2")),
    ("the order area not tested", SPARING_SHORT, SPARING_SHORT.replace("order_len", "8")),
    ("the sums area not tested", SPARING_SHORT, SPARING_SHORT.replace("sums_len", "2 * places_len")),
)

# record.py, reading

MOST_MONEY = "MOST_MONEY = 1_000_000_000"
TRAILING = "    refuse(TRAILING, fields.rest)\n"
FALLING = "    refuse(FALLING, form == TABLE and (falls(costs, units) or falls(values, units)))\n"
LADDER_COUNT = "    count = fields.number_within(2, MOST_UNITS)\n"
RISE, RISE_LIMIT = "            rises.append(fields.number(4))\n", "            refuse(LIMIT, sum(rises) > MOST_MONEY)\n"
ALL_UNITS = "        refuse(RANGE, sum(units) > MOST_UNITS)\n"
AMOUNT = "        for amounts in costs, values:\n            amounts.append(fields.number(4))\n"
AMOUNT_LIMIT = "            refuse(LIMIT, total(units, amounts) > MOST_MONEY)\n"
TABLE_UNITS = "    units = [fields.number_within(1, MOST_ITEM_UNITS) for _ in range(count)]\n"
ROWS = "    refuse(RANGE, row_count(units) > MOST_ROWS)\n"
COSTS = "    costs = parse_cells(fields, units)\n"
BEYOND = "    refuse(VALUE, row_map >> rows)\n"
ONES = "4 * row_map.bit_count()"
BELOW = "for lower in rows_below(row, units)), default=0)"

READING = (
    ("two forms accepted", "len(forms) != 1)", "not forms)"),
    ("no form accepted", "len(forms) != 1)\n    form = forms[0]", "len(forms) > 1)\n    form = (*forms, LADDER)[0]"),
    ("bits 6 to 15 accepted", "bits >> FORM_BIT + 3 or len(forms) != 1", "len(forms) != 1"),
    ("bit 15 accepted", "bits >> FORM_BIT + 3 or", "bits >> FORM_BIT + 3 & 511 or"),
    ("a standing zero accepted", *dropped("    refuse(VALUE, amount == 0)\n")),
    ("an amount over the limit accepted", *dropped("    refuse(LIMIT, amount > MOST_MONEY)\n")),
    ("the limit one too high", MOST_MONEY, "MOST_MONEY = 1_000_000_001"),
    ("the limit one too low", MOST_MONEY, "MOST_MONEY = 999_999_999"),
    ("7 where a record ends inside a field", "(TRUNCATED, len(self.rest) < size)", "(TRAILING, len(self.rest) < size)"),
    ("7 ahead of a ladder's amounts", LADDER_COUNT, LADDER_COUNT + "    refuse(TRAILING, len(fields.rest) > 8 * count)\n"),
    ("bytes after the last field accepted", *dropped(TRAILING)),
    ("6 ahead of 7", *swapped(TRAILING, FALLING)),
    ("6 not tested for values", FALLING, FALLING.replace(" or falls(values, units)", "")),
    ("6 not tested for costs", FALLING, FALLING.replace("falls(costs, units) or ", "")),
    ("6 for an equal cell", "any(cells[row] < cells[lower]", "any(cells[row] <= cells[lower]"),
    ("counts of 0 accepted", "not 1 <= number <= most", "number > most"),
    ("a ladder of 1,001 units accepted", "(2, MOST_UNITS)", "(2, MOST_UNITS + 1)"),
    ("a ladder of 1,000 units refused", "(2, MOST_UNITS)", "(2, MOST_UNITS - 1)"),
    ("a ladder's totals tested at the end only", RISE + RISE_LIMIT,
     RISE + "    refuse(LIMIT, max(sum(costs), sum(values)) > MOST_MONEY)\n"),
    ("a ladder's amounts tested and not their total", RISE_LIMIT, RISE_LIMIT.replace("sum(rises)", "rises[-1]")),
    ("255 units of an item refused", "MOST_ITEM_UNITS = 255", "MOST_ITEM_UNITS = 254"),
    ("1,001 units of all items accepted", ALL_UNITS, ALL_UNITS.replace("MOST_UNITS", "MOST_UNITS + 1")),
    ("1,000 units of all items refused", ALL_UNITS, ALL_UNITS.replace(">", ">=")),
    ("the units of all items tested at the end only", ALL_UNITS + AMOUNT + AMOUNT_LIMIT, AMOUNT + AMOUNT_LIMIT + ALL_UNITS[4:]),
    ("the totals of unit prices tested at the end only", AMOUNT_LIMIT,
     "    refuse(LIMIT, max(total(units, costs), total(units, values)) > MOST_MONEY)\n"),
    ("129 rows accepted", ROWS, ROWS.replace("MOST_ROWS", "MOST_ROWS + 1")),
    ("128 rows refused", ROWS, ROWS.replace(">", ">=")),
    ("the rows tested at each item", TABLE_UNITS + ROWS, "    units = []\n    for _ in range(count):\n"
     "        units.append(fields.number_within(1, MOST_ITEM_UNITS))\n    " + ROWS),
    ("the rows tested after the costs", *swapped(ROWS, COSTS)),
    ("bits beyond the last row passed over", BEYOND, "    row_map &= 2 ** rows - 1\n"),
    ("bits beyond the last row counted as cells", *dropped(BEYOND)),
    ("a cell for each row", ONES, "4 * rows"),
    ("the ones of all bytes but the last counted", ONES, "4 * (row_map & 2 ** (8 * map_size(rows) - 8) - 1).bit_count()"),
    ("each cell a field of its own", f"Fields(fields.take({ONES}))", "fields"),
    ("a cell over the limit accepted", *dropped("        refuse(LIMIT, cells[row] > MOST_MONEY)\n")),
    ("a row map a byte too long", "return (rows + 7) // 8", "return rows // 8 + 1"),
    ("a blank filled by items that have no unit there", "if row // stride % (n + 1) > 0:", "if row >= stride:"),
    ("a blank filled by all rows before it", BELOW, "for lower in range(row)), default=0)"),
    ("a blank filled by the row before it", BELOW, "for lower in range(row)[-1:]), default=0)"),
    ("a blank filled by the smallest cell", "return max((cells[lower]", "return min((cells[lower]"),
    ("the first item runs fastest", "for n in reversed(units):", "for n in units:"),
)

LENT = "(len(contract.costs) > m or len(contract.values) > n)"

LENGTHS = (
    ("8 by the costs only", LENT, "len(contract.costs) > m"),
    ("an area just long enough refused", LENT, LENT.replace("> n", ">= n")),
)

# record.py, writing

STANDING = "if cells[row] != filling(cells, row, units)]"
INPUT_SHORT = "    refuse(SHORT, len(costs) < entries or len(values) < entries)\n"
ENTRIES = "    costs, values = costs[:entries], values[:entries]\n"
LIMIT = "    refuse(LIMIT, max(limited_amounts(header, units, costs, values)) > MOST_MONEY)\n"
FALLING_GIVEN = "    refuse(FALLING, header.form == TABLE and (falls(costs, units) or falls(values, units)))\n"
ITEM_UNITS = "all(1 <= n <= MOST_ITEM_UNITS for n in units)"

WRITING = (
    ("every cell written", STANDING, "]"),
    ("a cell left blank that equals the one before", STANDING, "if cells[row] != max(cells[:row][-1:], default=0)]"),
    ("a zero price written", "        if amount:\n", "        if amount or bit == 0:\n"),
    ("8 for an input area after 4", INPUT_SHORT + ENTRIES + LIMIT,
     LIMIT.replace("costs, values", "costs[:entries], values[:entries]") + INPUT_SHORT + ENTRIES),
    ("6 ahead of 4", *swapped(LIMIT, FALLING_GIVEN)),
    ("entries after those that count are tested", ENTRIES + LIMIT,
     LIMIT.replace("max(limited_amounts(header, units, costs, values))", "max(costs)") + ENTRIES + LIMIT),
    ("a ladder's amounts tested and not their total", "amounts + [sum(costs), sum(values)]", "amounts + costs + values"),
    ("room just enough refused", "refuse(SHORT, len(record) > room)", "refuse(SHORT, len(record) >= room)"),
    ("no units written", ITEM_UNITS, "all(n <= MOST_ITEM_UNITS for n in units)"),
    ("units after the last item tested", ITEM_UNITS, "all(n <= MOST_ITEM_UNITS for n in header.units)"),
    ("1,001 units of all items written", "and sum(units) > MOST_UNITS)", "and sum(units) > MOST_UNITS + 1)"),
    ("129 rows written", "TABLE and row_count(units) > MOST_ROWS)", "TABLE and row_count(units) > MOST_ROWS + 1)"),
)

# the C library has ways of its own to a record, so the reader's rules have to be tried there too
GROUPS = ((PLANNING, "planning", ("plans",)), (CLIPPED, "planning", ("plans",)), (WITHDRAWAL, "planning", ("plans",)),
          (CHOICE, "planning", ("plans",)), (SPARING, "sparing", ("plans",)), (READING, "record", ("records", "plans")),
          (LENGTHS, "record", ("records",)), (WRITING, "record", ("records",)))
