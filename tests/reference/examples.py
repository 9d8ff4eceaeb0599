"""Writes the example records: NAME.bin is a record, NAME.txt says what it is and what comes out.

usage: python3 tests/reference/examples.py [DIR]      (DIR: examples/records beside tests/)

The bytes are put together here field by field, so that they also try the reader of record.py.
"""
import sys
from dataclasses import dataclass
from pathlib import Path

import record

PRICE_BIT, LADDER_BIT, UNIT_PRICES_BIT, TABLE_BIT = 0, 3, 4, 5


@dataclass(frozen=True)
class Example:
    name: str
    record: bytes
    reading: int      # 0, or the number of the refusal
    about: tuple      # lines: what it is
    outcome: tuple    # lines: what comes out after reading


# Records

def number(x, size):
    return x.to_bytes(size, "little")


def amounts(*xs):
    return b"".join(number(x, 4) for x in xs)


def map_and_amounts(form_bit, deal):
    """The bit map and those of price, cs and cd that are not zero."""
    bits = 1 << form_bit
    for bit, amount in enumerate(deal, PRICE_BIT):
        bits |= (amount != 0) << bit
    return number(bits, 2) + amounts(*filter(None, deal))


def ladder(deal, rises):
    return map_and_amounts(LADDER_BIT, deal) + number(len(rises), 2) + b"".join(amounts(*rise) for rise in rises)


def unit_prices(deal, items):
    lines = (number(units, 1) + amounts(cost, value) for units, cost, value in items)
    return map_and_amounts(UNIT_PRICES_BIT, deal) + number(len(items), 1) + b"".join(lines)


def table(deal, units, costs, values):
    """A cell that is None is blank."""
    head = map_and_amounts(TABLE_BIT, deal) + bytes([len(units), *units])
    return head + cells(costs) + cells(values)


def cells(column):
    row_map = sum((cell is not None) << row for row, cell in enumerate(column))
    return number(row_map, (len(column) + 7) // 8) + amounts(*(cell for cell in column if cell is not None))


# Amounts of the two documents

CASE_A = (10, 1, 3)
CASE_A_RISES = [(4, 6), (4, 6)]

TABLE_3_DEAL = (22, 2, 2)
TABLE_3_UNITS = (1, 4)
TABLE_3_COSTS = (0, 5, 9, 13, 17, 10, 13, 16, 18, 19)
TABLE_3_VALUES = (0, 3, 6, 10, 14, 6, 10, 15, 20, 26)

# Figure 1 in cents: name, units, cost and value of a unit; then the order of its output, by item number
STOCK_DEAL = (2_586_460, 100_000, 150_000)
STOCKS = (("MSFT", 60, 9_081, 9_800), ("HWP", 30, 10_263, 10_990), ("DELL", 10, 4_181, 4_250),
          ("EBAY", 100, 12_025, 12_725), ("PG", 40, 8_510, 8_844))
STOCK_ORDER = (3, 5, 4, 1, 2)

# Two items of one unit each, and the deal: the order 1, 2 has a shorter plan than the order 2, 1
TWO_ORDERS_DEAL = (3, 0, 2)
TWO_ORDERS = ((2, 3), (0, 1))

# Units, cost and value of a unit, and the deal: comparing units gives another order than comparing all units of an item
TWO_RULES_DEAL = (13, 1, 1)
TWO_RULES = ((3, 2, 1), (1, 3, 1), (3, 1, 2), (1, 1, 3))

# A table in which not all cost and value are still to come at the start
FIRST_ROW_DEAL = (6, 1, 2)
FIRST_ROW_COSTS = (3, 5, 6, 8)
FIRST_ROW_VALUES = (2, 4, 5, 9)

LARGEST = 1_000_000_000


# Examples

def examples():
    return [*case_a_and_its_changes(), case_e(), case_f(), *cases_g_and_h(), *sessions_and_cuts(),
            two_orders(), two_rules(), table_3(), first_row(), *stocks(), *long_ladders(), *totals()]


def case_a_and_its_changes():
    rises = "Rises of cost and value: (4, 6), (4, 6)."
    return [
        Example("case-a", ladder(CASE_A, CASE_A_RISES), 0, ("Case A: ladder, P 10, cs 1, cd 3.", rises),
                ("Upper bounds 3, 7, 10; lower bounds 0, 1, 7.", "The printer writes:",
                 "steps 5", "1 0 3", "2 1 3", "3 1 7", "4 2 7", "5 2 10")),
        Example("case-b", ladder((10, 1, 2), CASE_A_RISES), 0, ("Case B: case A with cd 2.", rises),
                ("Planning: refused 9.",)),
        Example("case-c", ladder((7, 1, 3), CASE_A_RISES), 0, ("Case C: case A with P 7.", rises),
                ("Planning: refused 9, since the start is not safe: P is below 8, the whole cost. All else would admit",
                 "(1, 0), (1, 4), (2, 4), (2, 7).")),
        Example("case-d", ladder((6, 1, 3), CASE_A_RISES), 0, ("Case D: case A with P 6.", rises),
                ("Planning: refused 9, since the start is not safe.",)),
    ]


def case_e():
    return Example("case-e", ladder((0, 0, 0), [(0, 0)]), 0,
                   ("Case E: ladder of one unit, P, cs and cd 0.", "Rises of cost and value: (0, 0)."),
                   ("Planning: (1, 0).",))


def case_f():
    blank_first_row = (None, *TABLE_3_COSTS[1:]), (None, *TABLE_3_VALUES[1:])
    return Example("case-f", table(TABLE_3_DEAL, TABLE_3_UNITS, *blank_first_row), 0,
                   ("Case F: table 3 of document 000 with P 22, cs 2, cd 2, as the writer writes it:",
                    "row 0 is blank in both maps, since the filling rule restores its 0. Units 1 and 4, ten rows.",
                    *table_3_lines()),
                   ("Planning: (1, 5), (1, 10), (4, 10), (4, 22), (9, 22); of all plans of 5 steps its rows are the earliest.",))


def table_3_lines():
    return (f"Costs: {listed(TABLE_3_COSTS)}.", f"Values: {listed(TABLE_3_VALUES)}.")


def listed(xs):
    return ", ".join(map(str, xs))


def cases_g_and_h():
    items = [(1, 5, 3), (1, 3, 6)]
    lines = "Two items of one unit, cost and value (5, 3) and (3, 6)."
    return [
        Example("case-g", unit_prices((8, 1, 2), items), 0, ("Case G: unit prices, P 8, cs 1, cd 2.", lines),
                ("Planning: order 1, 2; (1, 1), (1, 6), (2, 6), (2, 8).",)),
        Example("case-h", unit_prices((8, 1, 1), items), 0, ("Case H: case G with cd 1.", lines),
                ("Planning: refused 9.",)),
    ]


def sessions_and_cuts():
    whole = ladder(CASE_A, CASE_A_RISES)
    return [
        Example("case-i", whole, 0, ("Case I: case A's record, for a session along case A's plan.",),
                ("Payment 3: taken.", "Then delivery 2: refused 10.", "Then delivery 1: taken.")),
        Example("case-j", whole, 0, ("Case J: case A's record, with the brought plan (0, 3), (2, 3), (2, 10).",),
                ("Checking the plan: refused 12.",)),
        Example("case-k-short", whole[:-1], record.TRUNCATED, ("Case K: case A's record cut to 31 bytes.",), ()),
        Example("case-k-long", whole + b"\0", record.TRAILING,
                ("Case K: case A's record with one byte more, 33 bytes.",), ()),
    ]


def two_orders():
    return Example("two-orders", unit_prices(TWO_ORDERS_DEAL, [(1, *item) for item in TWO_ORDERS]), 0,
                   ("Unit prices, two items of one unit each, cost and value (2, 3) and (0, 1); P 3, cs 0, cd 2.",),
                   ("Planning: order 2, 1; (1, 1), (2, 1), (2, 3). Both items would fill the last place equally well, so that",
                    "the lower number does. The order 1, 2 has a plan of 2 steps: the count is against plans in the same order.",))


def two_rules():
    lines = (f"Item {item}: {units} unit{'s' * (units > 1)}, cost {cost}, value {value}{' each' * (units > 1)}."
             for item, (units, cost, value) in enumerate(TWO_RULES, 1))
    return Example("two-rules", unit_prices(TWO_RULES_DEAL, TWO_RULES), 0,
                   ("Unit prices, four items, P 13, cs 1, cd 1.", *lines),
                   ("Planning: order 2, 1, 3, 4; (1, 1), (2, 4), (4, 6), (5, 10), (7, 11), (7, 13), (8, 13).",
                    "The difference of cost and value of one unit is compared. Document 000's algorithm compares that of all",
                    "units of an item, which gives the order 1, 2, 4, 3."))


def table_3():
    return Example("table-3", table(TABLE_3_DEAL, TABLE_3_UNITS, TABLE_3_COSTS, TABLE_3_VALUES), 0,
                   ("Table 3 of document 000 with every cell given, also the zeros of row 0; P 22, cs 2, cd 2.",
                    "Units 1 (plug-in) and 4 (package), ten rows, the package running fastest.", *table_3_lines()),
                   ("The same contract as case F. Writing it again gives case F's record.",
                    "Planning: case F's plan, whose first row is 1. Document 000's own plan of 5 steps is safe too, and later:",
                    "rows 2, 3, 4, 4, 9 and paid totals 5, 14, 18, 22, 22."))


def first_row():
    return Example("first-row", table(FIRST_ROW_DEAL, (1, 1), FIRST_ROW_COSTS, FIRST_ROW_VALUES), 0,
                   ("Table whose row 0 has a cost and a value; P 6, cs 1, cd 2. Units 1 and 1, four rows.",
                    f"Costs: {listed(FIRST_ROW_COSTS)}.", f"Values: {listed(FIRST_ROW_VALUES)}."),
                   ("Upper bounds 2, 4, 5, 6; lower bounds 0, 0, 0, 4.",
                    "Planning: (1, 2), (1, 4), (3, 4), (3, 6). The start is safe, since P lies from 8 - 3 to 9 - 2; the last",
                    "cost and value alone do not tell. With P 8 planning would be refused with 9, though P is between them still."))


def stocks():
    """The stock figure: its order as a ladder, and its items as they are put in."""
    ordered = [STOCKS[item - 1] for item in STOCK_ORDER]
    rises = [(cost, value) for _, units, cost, value in ordered for _ in range(units)]
    terms = "P 2586460, cs 100000, cd 150000."
    return [
        Example("stock-ladder", ladder(STOCK_DEAL, rises), 0,
                ("The order of document 000's stock figure as a ladder of 240 units, amounts in cents.",
                 terms, *stock_lines(ordered)),
                ("Planning: 17 steps; the 16 that the figure prints do not bind.",)),
        Example("stock-prices", unit_prices(STOCK_DEAL, [stock[1:] for stock in STOCKS]), 0,
                ("The items of document 000's stock figure as unit prices, 240 units, amounts in cents.",
                 terms, *stock_lines(STOCKS)),
                (f"Planning: order {listed(STOCK_ORDER)}, as the figure prints; the 17 steps of the ladder in this order.",
                 "Comparing all units of an item, as document 000's algorithm does, gives the order 3, 5, 2, 1, 4.")),
    ]


def stock_lines(some):
    return (f"{name}: {units} units, cost {cost}, value {value} each." for name, units, cost, value in some)


def long_ladders():
    """Rises (1, 2), (2, 3), .. differ in every unit, so that a misplaced entry shows."""
    def of(units):
        return ladder((501_000, 1_000, 1_000), [(unit, unit + 1) for unit in range(1, units + 1)])

    lines = "P 501000, cs 1000, cd 1000. Rises of unit k: (k, k + 1)."
    return [
        Example("ladder-1000", of(1_000), 0, ("Ladder of 1,000 units, the most that is read.", lines), ()),
        Example("ladder-1001", of(1_001), record.RANGE, ("Ladder of 1,001 units, one too many.", lines), ()),
    ]


def totals():
    deal = (LARGEST,) * 3
    lines = ("P, cs and cd are 1000000000 each, the largest amount.",
             "Rises of cost and value: (400000000, 600000000), ")
    return [
        Example("total-largest", ladder(deal, [(400_000_000, 600_000_000), (600_000_000, 400_000_000)]), 0,
                ("Ladder whose total cost and total value are exactly 1000000000.",
                 lines[0], lines[1] + "(600000000, 400000000)."),
                ("Planning: (2, 1000000000).",)),
        Example("total-over", ladder(deal, [(400_000_000, 600_000_000), (600_000_001, 400_000_000)]), record.LIMIT,
                ("Ladder whose total cost is 1000000001, one over the limit.",
                 lines[0], lines[1] + "(600000001, 400000000)."), ()),
    ]


# Files

def text(example):
    reading = f"refused {example.reading}" if example.reading else "accepted"
    lines = (*example.about, f"Record: {len(example.record)} bytes. Reading: {reading}.", *example.outcome)
    return "".join(line + "\n" for line in lines)


def check(example):
    """What the text says of reading is what the reference reader does."""
    parsed = record.parse(example.record)
    refusal = parsed if isinstance(parsed, int) else 0
    if refusal != example.reading:
        sys.exit(f"{example.name}: reading gives {refusal}, the text says {example.reading}")


def main():
    default = Path(__file__).resolve().parents[2] / "examples" / "records"
    folder = Path(sys.argv[1]) if len(sys.argv) > 1 else default
    folder.mkdir(parents=True, exist_ok=True)
    for example in examples():
        check(example)
        (folder / f"{example.name}.bin").write_bytes(example.record)
        (folder / f"{example.name}.txt").write_text(text(example), encoding="utf-8")


if __name__ == "__main__":
    main()
