"""Cases for comparing two readers and writers of the contract record, the same on every run.

A Case is a record with the lengths of the areas lent for reading it, the room for writing it again, and a second
contract to write. Faulty records start as the list of a sound record's fields, some of which are then spoiled.
"""
import random
from dataclasses import dataclass, replace
from itertools import zip_longest

import examples
import record
from record import FORM_BIT, LADDER, MOST_ITEMS, MOST_ITEM_UNITS, MOST_MONEY, MOST_ROWS, MOST_UNITS, TABLE, UNIT_PRICES
from record import Contract, Header

FORMS = (LADDER, UNIT_PRICES, TABLE)
MAX_U16, MAX_U32, MAX_U64 = 2 ** 16 - 1, 2 ** 32 - 1, 2 ** 64 - 1
MOST_ENTRIES = 1_010   # the longest areas that the driver has
MOST_ROOM = 8_100


@dataclass(frozen=True)
class Writing:
    header: Header
    costs: list
    values: list
    room: int


@dataclass(frozen=True)
class Case:
    kind: str
    record: bytes
    m: int      # entries of the costs area
    n: int      # entries of the values area
    room: int   # bytes of the output area when the contract that was read is written
    second: Writing


# Contracts

def some_amount(rng, most):
    """Often small or at an end of the range, where mistakes show."""
    return rng.choice((0, min(1, most), most, rng.randint(0, most), rng.randint(0, min(most, 300))))


def some_contract(rng, form=None, standing=False):
    """A contract that can be written; standing asks that price, supplier and buyer are not zero."""
    form = rng.choice(FORMS) if form is None else form
    amounts = [some_amount(rng, MOST_MONEY) for _ in range(3)]
    if standing:
        amounts = [max(amount, 1) for amount in amounts]
    count, units, costs, values = (some_ladder, some_items, some_table)[form](rng)
    return Contract(Header(*amounts, form, count, record.padded(units)), costs, values)


def some_ladder(rng):
    count = rng.choice((1, 2, 3, rng.randint(1, 12)))
    return count, (), some_rises(rng, [1] * count), some_rises(rng, [1] * count)


def some_items(rng):
    count = rng.randint(1, MOST_ITEMS[UNIT_PRICES])
    most = min(MOST_ITEM_UNITS, MOST_UNITS // count)
    units = [rng.choice((1, 2, most, rng.randint(1, most))) for _ in range(count)]
    return count, units, some_rises(rng, units), some_rises(rng, units)


def some_rises(rng, units):
    """Amounts of a unit whose total fits, at times exactly."""
    left, rises = MOST_MONEY, []
    share = rng.choice((1, len(units), 1_000_000))
    for n in units:
        rises.append(some_amount(rng, left // n // share))
        left -= n * rises[-1]
    if rng.random() < 0.2:
        rises[-1] += left // units[-1]
    return rises


def some_units(rng, least_rows=1):
    """Units of a table's items."""
    while True:
        units = [rng.choice((1, 1, 2, 3, 4, rng.randint(1, MOST_ROWS))) for _ in range(rng.randint(1, MOST_ITEMS[TABLE]))]
        if least_rows <= record.row_count(units) <= MOST_ROWS:
            return units


def some_table(rng, least_rows=1):
    units = some_units(rng, least_rows)
    return len(units), units, some_cells(rng, units), some_cells(rng, units)


def some_cells(rng, units):
    """Cells that never fall; of some tables many, of others few are what the filling rule restores."""
    most = MOST_MONEY // (sum(units) + 1)
    flat = rng.choice((0, 0.3, 0.7, 1))
    cells = []
    for row in range(record.row_count(units)):
        rise = 0 if rng.random() < flat else some_amount(rng, most)
        cells.append(record.filling(cells, row, units) + rise)
    return cells


# Records as lists of fields

@dataclass
class Field:
    name: str
    size: int
    number: int

    def bytes(self):
        return (self.number % 256 ** self.size).to_bytes(self.size, "little")


def joined(fields):
    return b"".join(field.bytes() for field in fields)


def fields_of(contract, gives=lambda: False):
    """The fields of a contract's record; gives() says whether a cell is given that could be blank."""
    header = contract.header
    amounts = header.price, header.supplier, header.buyer
    bits = 1 << FORM_BIT + header.form | sum((amount > 0) << bit for bit, amount in enumerate(amounts))
    start = [Field("map", 2, bits)] + [Field("amount", 4, amount) for amount in amounts if amount]
    start.append(Field("count", 2 if header.form == LADDER else 1, header.count))
    if header.form == TABLE:
        units = header.units[:header.count]
        cells = cell_fields(contract.costs, units, gives) + cell_fields(contract.values, units, gives)
        return start + [Field("units", 1, n) for n in units] + cells
    return start + entry_fields(contract)


def entry_fields(contract):
    fields = []
    for i, pair in enumerate(zip(contract.costs, contract.values)):
        if contract.header.form == UNIT_PRICES:
            fields.append(Field("units", 1, contract.header.units[i]))
        fields += [Field("entry", 4, amount) for amount in pair]
    return fields


def cell_fields(cells, units, gives):
    rows = [row for row in range(len(cells)) if cells[row] != record.filling(cells, row, units) or gives()]
    row_map = Field("row map", (len(cells) + 7) // 8, sum(1 << row for row in rows))
    return [row_map] + [Field("cell", 4, cells[row]) for row in rows]


# Faults, in the order of the refusals that they are made for. One that finds no such field changes another one.

@dataclass
class Draft:
    fields: list
    m: int
    n: int
    cut: int = 0
    tail: bytes = b""

    def record(self):
        whole = joined(self.fields) + self.tail
        return whole[:max(0, len(whole) - self.cut)]

    def named(self, *names):
        return [field for field in self.fields if field.name in names]


def drafted(rng, contract):
    gives = rng.choice((lambda: False, lambda: True, lambda: rng.random() < 0.5))
    return Draft(fields_of(contract, gives), len(contract.costs), len(contract.values))


def truncate(rng, draft):
    draft.cut = rng.choice((1, 2, rng.randint(1, 12), rng.randint(1, len(draft.record()))))


def spoil_map(rng, draft):
    draft.fields[0].number ^= 1 << rng.choice((rng.randrange(FORM_BIT, 6), rng.randrange(6, 16)))


def spoil_value(rng, draft):
    field = rng.choice(draft.named("amount", "row map") or draft.fields)
    if field.name == "row map":
        field.number |= 1 << 8 * field.size - 1 - rng.randrange(3)  # beyond the last row, if the map has such a bit
    else:
        field.number = 0


def spoil_amount(rng, draft):
    field = rng.choice(draft.named("amount", "entry", "cell") or draft.fields)
    field.number = rng.choice((MOST_MONEY + 1, MAX_U32, field.number + MOST_MONEY, rng.randint(MOST_MONEY, MAX_U32)))


def spoil_count(rng, draft):
    field = rng.choice(draft.named("count") + draft.named("units"))
    field.number = rng.choice((0, 0, 5, 9, 127, 128, 250, 255, 1_001, field.number + 1, MAX_U16))


def lower_cell(rng, draft):
    field = rng.choice(draft.named("cell") or draft.fields[-1:])
    field.number = rng.choice((0, max(0, field.number - 1), field.number // 2))


def append(rng, draft):
    draft.tail = rng.randbytes(rng.choice((1, 1, 2, 4, 8)))


def shorten_areas(rng, draft):
    m, n = rng.choice(((1, 0), (0, 1), (1, 1), (draft.m, draft.n)))
    draft.m, draft.n = max(0, draft.m - m), max(0, draft.n - n)


FAULTS = (truncate, spoil_map, spoil_value, spoil_amount, spoil_count, lower_cell, append, shorten_areas)


# The second contract to write, spoiled in its own ways

def some_writing(rng):
    contract = some_contract(rng)
    writing = Writing(with_other_units(rng, contract.header), list(contract.costs), list(contract.values), MOST_ROOM)
    for _ in range(rng.choice((0, 0, 1, 1, 1, 2))):
        writing = rng.choice(WRITING_FAULTS)(rng, writing)
    writing = replace(writing, costs=longer(rng, writing.costs), values=longer(rng, writing.values))
    return replace(writing, room=some_room(rng, writing.header, writing.costs, writing.values))


def with_other_units(rng, header):
    """Units that the writer does not look at hold anything."""
    used = 0 if header.form == LADDER else header.count
    others = tuple(rng.choice((0, 1, 300, MAX_U16)) for _ in range(used, record.HEADER_ITEMS))
    return replace(header, units=header.units[:used] + others)


def longer(rng, entries):
    return (entries + rng.choice(([], [], [0], [MAX_U32] * 3)))[:MOST_ENTRIES]


def some_room(rng, header, costs, values):
    """Mostly what the record takes, or a little less or more."""
    written = record.write(header, costs, values, MOST_ROOM)
    need = len(written) if isinstance(written, bytes) else rng.randint(0, 40)
    return min(MOST_ROOM, max(0, need + rng.choice((0, 0, 0, 5, -1, -need))))


def with_count(rng, writing):
    one_more = min(writing.header.count + 1, MAX_U16)
    count = rng.choice((0, 1, 4, 5, 8, 9, 1_000, 1_001, MAX_U16, one_more))
    return replace(writing, header=replace(writing.header, count=count))


def with_units(rng, writing):
    units = list(writing.header.units)
    units[rng.randrange(max(1, min(8, writing.header.count)))] = rng.choice((0, 127, 128, 255, 256, MAX_U16))
    return replace(writing, header=replace(writing.header, units=tuple(units)))


def with_form(rng, writing):
    return replace(writing, header=replace(writing.header, form=rng.choice(FORMS)))


def with_deal(rng, writing):
    name = rng.choice(("price", "supplier", "buyer"))
    amount = rng.choice((0, 1, MOST_MONEY, MOST_MONEY + 1, MAX_U32))
    return replace(writing, header=replace(writing.header, **{name: amount}))


def with_entry(rng, writing):
    """Another entry: too large, one more, or lower, so that a table falls."""
    name = rng.choice(("costs", "values"))
    entries = list(getattr(writing, name))
    if entries:
        i = rng.randrange(len(entries))
        one_more = min(entries[i] + 1, MAX_U32)
        entries[i] = rng.choice((0, MOST_MONEY, MOST_MONEY + 1, MAX_U32, one_more, max(0, entries[i] - 1)))
    return replace(writing, **{name: entries})


def with_fewer(rng, writing):
    name = rng.choice(("costs", "values"))
    return replace(writing, **{name: getattr(writing, name)[:-rng.choice((1, 1, 2, 5))]})


WRITING_FAULTS = (with_count, with_units, with_form, with_deal, with_entry, with_entry, with_fewer)


# Cases

def case(rng, kind, data, m, n, second=None):
    m, n = min(m, MOST_ENTRIES), min(n, MOST_ENTRIES)
    contract = record.read(data, m, n)
    if isinstance(contract, Contract):
        room = some_room(rng, contract.header, contract.costs, contract.values)
    else:
        room = rng.choice((0, 4, 40))
    return Case(kind, data, m, n, room, second or some_writing(rng))


def roomy(rng, kind, data):
    """A case whose areas are exactly long enough or a little longer, as far as the record is sound."""
    contract = record.parse(data)
    costs, values = (contract.costs, contract.values) if isinstance(contract, Contract) else ([0] * 3, [0] * 3)
    return case(rng, kind, data, len(costs) + rng.choice((0, 0, 2)), len(values) + rng.choice((0, 0, 3)))


def example_cases(rng):
    return (roomy(rng, "example", example.record) for example in examples.examples())


def sound_cases(rng):
    return (roomy(rng, f"sound {name}", drafted(rng, some_contract(rng, form)).record())
            for _ in range(1_400) for form, name in zip(FORMS, ("ladder", "unit prices", "table")))


def table_cases(rng):
    """The same table with its restorable cells blank, given, and mixed."""
    for _ in range(600):
        contract = some_contract(rng, TABLE)
        for gives in lambda: False, lambda: True, lambda: rng.random() < 0.5:
            yield roomy(rng, "restorable cells", joined(fields_of(contract, gives)))


def area_cases(rng):
    """Areas exactly as long as needed, one entry shorter, one longer."""
    for _ in range(250):
        contract = some_contract(rng)
        m, n = len(contract.costs), len(contract.values)
        for more_m, more_n in (0, 0), (-1, 0), (0, -1), (-1, -1), (1, 1), (-m, -n):
            yield case(rng, "area lengths", joined(fields_of(contract)), m + more_m, n + more_n)


def truncation_cases(rng):
    """Every cut of sound and of faulty records: a fault counts only from the end of its field on."""
    records = [joined(fields_of(too_many_rows_early()))[:8], *(joined(fields_of(contract)) for contract in limit_counts(1))]
    records += [example.record for example in examples.examples() if len(example.record) < 120]
    for form in FORMS:
        for faults in (), (), (spoil_value,), (spoil_amount,), (spoil_amount,), (spoil_count,), (spoil_count,):
            records += [faulty(rng, form, faults) for _ in range(5)]
    yield from in_turn(*(cuts(rng, data) for data in records))


def cuts(rng, data):
    return (roomy(rng, "truncation", data[:end]) for end in reversed(range(min(len(data), 110))))


def faulty(rng, form, faults):
    draft = drafted(rng, some_contract(rng, form, standing=True))
    for fault in faults:
        fault(rng, draft)
    return draft.record()


def fault_cases(rng, kind, faults_at_once, count):
    for i in range(count):
        contract = some_contract(rng, FORMS[i % 3], standing=rng.random() < 0.8)
        draft = drafted(rng, contract)
        for fault in rng.sample(FAULTS, faults_at_once):
            fault(rng, draft)
        yield case(rng, kind, draft.record(), draft.m, draft.n)


def map_cases(rng):
    """Every pattern of the six low bits and each high bit, before fields that some of them ask for."""
    maps = [*range(64), *(1 << bit | 0x0F for bit in range(6, 16)), *(rng.getrandbits(16) for _ in range(126))]
    yield from (roomy(rng, "bit map", bits.to_bytes(2, "little") + rng.randbytes(rng.randint(0, 30))) for bits in maps)


def random_cases(rng):
    """Random bytes, half of them after a map with one form."""
    for i in range(3_000):
        data = rng.randbytes(rng.randint(0, 70))
        if i % 2:
            data = bytes([rng.getrandbits(3) | 1 << rng.randrange(3, 6), 0, *data[:3], 0, *(b & 7 for b in data[3:])])
        yield roomy(rng, "random bytes", data)


def flip_cases(rng):
    """Each bit of three examples, and up to three bits of other records."""
    records = {example.name: example.record for example in examples.examples()}
    yield from (flipped(rng, data, [bit]) for data in (records["case-a"], records["case-g"], records["table-3"])
                for bit in range(8 * len(data)))
    for _ in range(2_500):
        data = drafted(rng, some_contract(rng)).record()
        yield flipped(rng, data, rng.sample(range(8 * len(data)), rng.randint(1, 3)))


def flipped(rng, data, bits):
    flips = sum(1 << bit for bit in bits)
    number = int.from_bytes(data, "little") ^ flips
    return roomy(rng, "bit flips", number.to_bytes(len(data), "little"))


def limit_cases(rng):
    """Contracts at their limits and one beyond, read and written."""
    for contract in limit_contracts():
        second = Writing(contract.header, contract.costs, contract.values, 1_200)
        data = joined(fields_of(contract, lambda: True))
        yield case(rng, "limits", data, len(contract.costs), len(contract.values), second)


def limit_contracts():
    """Amounts, totals, units and rows at their limits and one beyond."""
    for over in 0, 1:
        yield from (*limit_amounts(MOST_MONEY + over), *limit_totals(MOST_MONEY + over), *limit_counts(over))


def limit_amounts(most):
    return [Contract(Header(*amounts, LADDER, 1), [0], [0]) for amounts in ((most, 0, 0), (1, most, 2), (0, 0, most))]


def limit_totals(most):
    """Each form with one total of this amount, first in its costs and then in its values."""
    odd = most % 2
    columns = {Header(form=LADDER, count=2): [most - 5, 5],
               Header(form=UNIT_PRICES, count=2, units=record.padded([2, 3])): [(most - 3 * odd) // 2, odd],
               Header(form=TABLE, count=2, units=record.padded([1, 1])): [0, 1, 2, most]}
    for header, column in columns.items():
        yield Contract(header, column, [0] * len(column))
        yield Contract(header, [0] * len(column), column)


def limit_counts(over):
    for units in ([255, 255, 255, 235 + over], [125] * 7 + [125 + over], [245 + over, 255, 255, 245]):
        header = Header(form=UNIT_PRICES, count=len(units), units=record.padded(units))
        yield Contract(header, [1] * len(units), [2] * len(units))
    for units in ([127 + over], [1, 63 + over], [31 + over, 3], [1, 3, 15 + over], [1, 1, 1, 15 + over], [15, 7 + over]):
        yield table_of(units)


def too_many_rows_early():
    """A table whose first item alone has too many rows."""
    return table_of([200, 1])


def table_of(units):
    rows = list(range(record.row_count(units)))
    return Contract(Header(form=TABLE, count=len(units), units=record.padded(units)), rows, rows)


def large_cases(rng):
    """Ladders of about 1,000 units and tables of many rows."""
    for units in (999, 1_000, 1_001) * 8:
        costs, values = ([rng.randint(0, MOST_MONEY // MOST_UNITS) for _ in range(units)] for _ in range(2))
        contract = Contract(Header(5, 6, 7, LADDER, units), costs, values)
        draft = drafted(rng, contract)
        if rng.random() < 0.5:
            rng.choice(FAULTS)(rng, draft)
        second = Writing(contract.header, costs, values, rng.choice((8_016, 8_015, MOST_ROOM)))
        yield case(rng, "large", draft.record(), draft.m, draft.n, second)
    for _ in range(300):
        count, units, costs, values = some_table(rng, least_rows=90)
        contract = Contract(Header(1, 2, 3, TABLE, count, record.padded(units)), costs, values)
        yield roomy(rng, "large", drafted(rng, contract).record())


def all_cases(seed):
    rng = random.Random(seed)
    return in_turn(example_cases(rng), sound_cases(rng), table_cases(rng), area_cases(rng), truncation_cases(rng),
                   fault_cases(rng, "one fault", 1, 2_400), fault_cases(rng, "two faults", 2, 4_800),
                   fault_cases(rng, "three faults", 3, 900), map_cases(rng), random_cases(rng), flip_cases(rng),
                   limit_cases(rng), large_cases(rng))


def in_turn(*kinds):
    """One of each kind in turn until all are through, so that a fault of any kind shows early."""
    for some in zip_longest(*kinds):
        yield from (one for one in some if one is not None)


def few_cases():
    """A small batch, one example of each form and of some refusals."""
    names = ("case-a", "case-f", "case-g", "case-k-short", "case-k-long", "total-over")
    rng = random.Random(1)
    return [roomy(rng, "example", example.record) for example in examples.examples() if example.name in names]
