"""Reader and writer of the contract record, written from the scope document alone.

It shares no code with the verified crates, so that comparing the two is evidence for both.

parse(record)                        a refusal number, or the Contract in the record
read(record, m, n)                   the same for areas of m costs and n values
write(header, costs, values, room)   a refusal number, or the bytes of the record
"""
from dataclasses import dataclass
from math import prod

LADDER, UNIT_PRICES, TABLE = 0, 1, 2
FORM_BIT = 3  # of a ladder; the other forms have the next bits, the three amounts those before

TRUNCATED, MAP, VALUE, LIMIT, RANGE, FALLING, TRAILING, SHORT = range(1, 9)

MOST_MONEY = 1_000_000_000  # for an amount, and for a form's total cost and total value
MOST_UNITS = 1_000          # of a ladder, and of all items with unit prices together
MOST_ITEM_UNITS = 255
MOST_ITEMS = {UNIT_PRICES: 8, TABLE: 4}
MOST_ROWS = 128
HEADER_ITEMS = 8            # places for units in a header


@dataclass(frozen=True)
class Header:
    """All of a contract but its costs and values; count is U of a ladder, else the number of items."""
    price: int = 0
    supplier: int = 0  # defection cost cs
    buyer: int = 0     # defection cost cd
    form: int = LADDER
    count: int = 0
    units: tuple = (0,) * HEADER_ITEMS


@dataclass(frozen=True)
class Contract:
    """The costs and values are rises of a ladder, unit amounts of items, or all cells of a table."""
    header: Header
    costs: list
    values: list


class Refused(Exception):
    """The cause why a record is not read or not written, by its number."""

    def __init__(self, number):
        super().__init__(number)
        self.number = number


def refuse(number, fault):
    if fault:
        raise Refused(number)


# Reading. Each field is tested in full before the next one is taken, so the first faulty field decides.

class Fields:
    """The fields of a record, taken from the front."""

    def __init__(self, record):
        self.rest = record

    def take(self, size):
        refuse(TRUNCATED, len(self.rest) < size)
        field, self.rest = self.rest[:size], self.rest[size:]
        return field

    def number(self, size):
        return int.from_bytes(self.take(size), "little")

    def number_within(self, size, most):
        number = self.number(size)
        refuse(RANGE, not 1 <= number <= most)
        return number


def parse(record):
    try:
        return parse_fields(Fields(bytes(record)))
    except Refused as refusal:
        return refusal.number


def read(record, m, n):
    contract = parse(record)
    if isinstance(contract, Contract) and (len(contract.costs) > m or len(contract.values) > n):
        return SHORT
    return contract


def parse_fields(fields):
    bits = fields.number(2)
    forms = [form for form in (LADDER, UNIT_PRICES, TABLE) if stands(bits, FORM_BIT + form)]
    refuse(MAP, bits >> FORM_BIT + 3 or len(forms) != 1)
    form = forms[0]
    price, supplier, buyer = (parse_amount(fields) if stands(bits, bit) else 0 for bit in range(FORM_BIT))
    parse_form = {LADDER: parse_ladder, UNIT_PRICES: parse_unit_prices, TABLE: parse_table}[form]
    count, units, costs, values = parse_form(fields)
    refuse(TRAILING, fields.rest)
    refuse(FALLING, form == TABLE and (falls(costs, units) or falls(values, units)))
    return Contract(Header(price, supplier, buyer, form, count, padded(units)), costs, values)


def stands(bits, bit):
    return bits >> bit & 1 == 1


def padded(units):
    return tuple(units) + (0,) * (HEADER_ITEMS - len(units))


def parse_amount(fields):
    amount = fields.number(4)
    refuse(VALUE, amount == 0)
    refuse(LIMIT, amount > MOST_MONEY)
    return amount


def parse_ladder(fields):
    count = fields.number_within(2, MOST_UNITS)
    costs, values = [], []
    for _ in range(count):
        for rises in costs, values:
            rises.append(fields.number(4))
            refuse(LIMIT, sum(rises) > MOST_MONEY)
    return count, (), costs, values


def parse_unit_prices(fields):
    count = fields.number_within(1, MOST_ITEMS[UNIT_PRICES])
    units, costs, values = [], [], []
    for _ in range(count):
        units.append(fields.number_within(1, MOST_ITEM_UNITS))
        refuse(RANGE, sum(units) > MOST_UNITS)
        for amounts in costs, values:
            amounts.append(fields.number(4))
            refuse(LIMIT, total(units, amounts) > MOST_MONEY)
    return count, units, costs, values


def total(units, amounts):
    return sum(n * amount for n, amount in zip(units, amounts))


def parse_table(fields):
    count = fields.number_within(1, MOST_ITEMS[TABLE])
    units = [fields.number_within(1, MOST_ITEM_UNITS) for _ in range(count)]
    refuse(RANGE, row_count(units) > MOST_ROWS)
    costs = parse_cells(fields, units)
    values = parse_cells(fields, units)
    return count, units, costs, values


def parse_cells(fields, units):
    """The cells of every row. Those that stand are one field: a record ending inside it is truncated."""
    rows = row_count(units)
    row_map = fields.number(map_size(rows))
    refuse(VALUE, row_map >> rows)
    field = Fields(fields.take(4 * row_map.bit_count()))
    cells = []
    for row in range(rows):
        cells.append(field.number(4) if stands(row_map, row) else filling(cells, row, units))
        refuse(LIMIT, cells[row] > MOST_MONEY)
    return cells


# Tables. A row is a mixed-radix number whose digits are the units of each item, the last item fastest.

def row_count(units):
    return prod(n + 1 for n in units)


def map_size(rows):
    return (rows + 7) // 8


def rows_below(row, units):
    """The rows with one unit less of one item; an item that has no unit in this row gives none."""
    below, stride = [], 1
    for n in reversed(units):
        if row // stride % (n + 1) > 0:
            below.append(row - stride)
        stride *= n + 1
    return below


def filling(cells, row, units):
    """What a blank cell takes."""
    return max((cells[lower] for lower in rows_below(row, units)), default=0)


def falls(cells, units):
    return any(cells[row] < cells[lower] for row in range(len(cells)) for lower in rows_below(row, units))


# Writing. Every test comes before the first byte, in the writer's own order.

def write(header, costs, values, room):
    try:
        record = written(header, costs, values)
        refuse(SHORT, len(record) > room)
        return record
    except Refused as refusal:
        return refusal.number


def written(header, costs, values):
    units = item_units(header)
    entries = entry_count(header, units)
    refuse(SHORT, len(costs) < entries or len(values) < entries)
    costs, values = costs[:entries], values[:entries]
    refuse(LIMIT, max(limited_amounts(header, units, costs, values)) > MOST_MONEY)
    refuse(FALLING, header.form == TABLE and (falls(costs, units) or falls(values, units)))
    return map_and_amounts(header) + form_bytes(header, units, costs, values)


def item_units(header):
    """The units of each item, none for a ladder; refuses every count that no record can hold."""
    if header.form == LADDER:
        refuse(RANGE, not 1 <= header.count <= MOST_UNITS)
        return ()
    refuse(RANGE, not 1 <= header.count <= MOST_ITEMS[header.form])
    units = header.units[:header.count]
    refuse(RANGE, not all(1 <= n <= MOST_ITEM_UNITS for n in units))
    refuse(RANGE, header.form == UNIT_PRICES and sum(units) > MOST_UNITS)
    refuse(RANGE, header.form == TABLE and row_count(units) > MOST_ROWS)
    return units


def entry_count(header, units):
    return row_count(units) if header.form == TABLE else header.count


def limited_amounts(header, units, costs, values):
    """Price and defection costs, then the two totals of the form, or each cell of a table."""
    amounts = [header.price, header.supplier, header.buyer]
    if header.form == LADDER:
        return amounts + [sum(costs), sum(values)]
    if header.form == UNIT_PRICES:
        return amounts + [total(units, costs), total(units, values)]
    return amounts + costs + values


def map_and_amounts(header):
    bits, amounts = 1 << FORM_BIT + header.form, b""
    for bit, amount in enumerate((header.price, header.supplier, header.buyer)):
        if amount:
            bits |= 1 << bit
            amounts += number_bytes(amount, 4)
    return number_bytes(bits, 2) + amounts


def form_bytes(header, units, costs, values):
    if header.form == LADDER:
        pairs = (number_bytes(cost, 4) + number_bytes(value, 4) for cost, value in zip(costs, values))
        return number_bytes(header.count, 2) + b"".join(pairs)
    if header.form == UNIT_PRICES:
        items = (bytes([n]) + number_bytes(cost, 4) + number_bytes(value, 4)
                 for n, cost, value in zip(units, costs, values))
        return bytes([header.count]) + b"".join(items)
    return bytes([header.count, *units]) + cell_bytes(costs, units) + cell_bytes(values, units)


def cell_bytes(cells, units):
    """The row map and the cells that stand: every cell that the filling rule restores is left blank."""
    standing = [row for row in range(len(cells)) if cells[row] != filling(cells, row, units)]
    row_map = sum(1 << row for row in standing)
    return number_bytes(row_map, map_size(len(cells))) + b"".join(number_bytes(cells[row], 4) for row in standing)


def number_bytes(number, size):
    return number.to_bytes(size, "little")
