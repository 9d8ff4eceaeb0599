//! Reads a contract record. The first faulty field in byte order decides; what the fields mean together is tested after.

pub const TRUNCATED: u32 = 1;
pub const MAP: u32 = 2;
pub const VALUE: u32 = 3;
pub const LIMIT: u32 = 4;
pub const RANGE: u32 = 5;
pub const FALLING: u32 = 6;
pub const TRAILING: u32 = 7;
pub const SHORT: u32 = 8;
pub const IMPOSSIBLE: u32 = 9;
pub const UNFIT: u32 = 10;
pub const FINISHED: u32 = 11;
pub const UNSAFE: u32 = 12;

/// No amount and no total is greater.
const MOST: i64 = 1_000_000_000;
/// Marks a cell that is not given; no amount is as great.
const BLANK: u32 = u32::MAX;
pub const MOST_ROWS: usize = 128;

/// The cost and the value of a place, or of some units.
#[derive(Clone, Copy, Default)]
pub struct Level {
    pub cost: i64,
    pub value: i64,
}

impl Level {
    fn within_limit(self) -> bool {
        self.cost <= MOST && self.value <= MOST
    }
}

/// Price and defection costs.
#[derive(Clone, Copy)]
pub struct Terms {
    pub price: i64,
    supplier: i64,
    buyer: i64,
}

/// The bounds of all places: the lower bound of a place is `low` and its value, the upper bound `high` and its cost.
/// Clipped, no lower bound is below 0 and no upper bound above the price.
#[derive(Clone, Copy)]
pub struct Frame {
    pub price: i64,
    pub low: i64,
    pub high: i64,
    /// The lower bound of the last place, unclipped.
    pub last_lower: i64,
    /// The level of the last place.
    all: Level,
}

impl Terms {
    /// `all` is the level of the last place.
    pub fn frame(&self, all: Level) -> Frame {
        let last_lower = self.price - self.buyer;
        Frame { price: self.price, low: last_lower - all.value, high: self.price - all.cost + self.supplier, last_lower, all }
    }
}

impl Frame {
    /// The clipped lower bound.
    pub fn lower(&self, level: Level) -> i64 {
        (self.low + level.value).max(0)
    }

    /// The clipped upper bound. It may be negative: then not even the start is safe.
    pub fn upper(&self, level: Level) -> i64 {
        (self.high + level.cost).min(self.price)
    }

    /// Whether a sum is not below the lower bound. No sum is below 0, so the unclipped bound tells.
    pub fn allows(&self, paid: i64, level: Level) -> bool {
        self.low + level.value <= paid
    }

    /// Whether nothing delivered and nothing paid is safe; `first` is the level of place 0. Leaving then costs nothing, so the
    /// price must cover what the goods still cost and be covered by what they still bring. Then 0 is within the bounds, too.
    pub fn safe_start(&self, first: Level) -> bool {
        self.all.cost - first.cost <= self.price && self.price <= self.all.value - first.value
    }
}

#[derive(Clone, Copy)]
pub enum Form {
    Ladder,
    Items,
    Table,
}

/// What is left to read.
struct Reader<'a> {
    rest: &'a [u8],
}

impl<'a> Reader<'a> {
    fn take<const N: usize>(&mut self) -> Result<[u8; N], u32> {
        let (field, rest) = self.rest.split_first_chunk::<N>().ok_or(TRUNCATED)?;
        self.rest = rest;
        Ok(*field)
    }

    fn byte(&mut self) -> Result<u8, u32> {
        Ok(self.take::<1>()?[0])
    }

    fn amount(&mut self) -> Result<i64, u32> {
        Ok(u32::from_le_bytes(self.take()?) as i64)
    }

    /// Price or defection cost: 0 if its bit is clear, else not 0.
    fn term(&mut self, stands: bool) -> Result<i64, u32> {
        if !stands {
            return Ok(0);
        }
        match self.amount()? {
            0 => Err(VALUE),
            amount if amount > MOST => Err(LIMIT),
            amount => Ok(amount),
        }
    }

    fn end(&self) -> Result<(), u32> {
        if self.rest.is_empty() {
            Ok(())
        } else {
            Err(TRAILING)
        }
    }
}

/// Reads the map and the terms; hands back what follows them.
pub fn head(record: &[u8]) -> Result<(Terms, Form, &[u8]), u32> {
    let mut reader = Reader { rest: record };
    let map = u16::from_le_bytes(reader.take()?);
    let form = match map >> 3 {
        1 => Form::Ladder,
        2 => Form::Items,
        4 => Form::Table,
        _ => return Err(MAP),
    };
    let price = reader.term(map & 1 != 0)?;
    let supplier = reader.term(map & 2 != 0)?;
    let buyer = reader.term(map & 4 != 0)?;
    Ok((Terms { price, supplier, buyer }, form, reader.rest))
}

/// A ladder: the rises of cost and value of each unit, as they stand in the record.
pub struct Ladder<'a> {
    pub rises: &'a [[u8; 8]],
    pub all: Level,
}

/// Cost and value of one rise.
#[inline(always)]
pub fn rise(bytes: &[u8; 8]) -> Level {
    let both = u64::from_le_bytes(*bytes);
    Level { cost: (both & 0xffff_ffff) as i64, value: (both >> 32) as i64 }
}

/// Sum of rises. Amounts have 32 bits and there are few of them, so 64 bits hold every sum.
pub fn total(rises: &[[u8; 8]]) -> Level {
    let (mut cost, mut value) = (0, 0);
    for bytes in rises {
        let unit = rise(bytes);
        cost += unit.cost;
        value += unit.value;
    }
    Level { cost, value }
}

impl<'a> Ladder<'a> {
    pub fn read(rest: &'a [u8]) -> Result<Self, u32> {
        let mut reader = Reader { rest };
        let units = u16::from_le_bytes(reader.take()?) as usize;
        if !(1..=1000).contains(&units) {
            return Err(RANGE);
        }
        let Some((body, after)) = reader.rest.split_at_checked(8 * units) else {
            return Err(cut_ladder(reader.rest));
        };
        // Rises are never negative: if the whole sum is within the limit, every running sum is.
        let rises = body.as_chunks::<8>().0;
        let all = total(rises);
        if !all.within_limit() {
            return Err(LIMIT);
        }
        Reader { rest: after }.end()?;
        Ok(Ladder { rises, all })
    }
}

/// The refusal of a ladder that ends too early: a total over the limit stands in an earlier field than the end.
fn cut_ladder(body: &[u8]) -> u32 {
    let (rises, cut) = body.as_chunks::<8>();
    let mut all = total(rises);
    if let Some(cost) = cut.first_chunk::<4>() {
        all.cost += u32::from_le_bytes(*cost) as i64;
    }
    if all.within_limit() {
        TRUNCATED
    } else {
        LIMIT
    }
}

/// An item of unit prices, or a run of its units in an order.
#[derive(Clone, Copy, Default)]
pub struct Run {
    pub units: i64,
    pub cost: i64,
    pub value: i64,
}

/// Unit prices.
pub struct Items {
    pub count: usize,
    pub runs: [Run; 8],
    pub units: usize,
    pub all: Level,
}

impl Items {
    pub fn read(rest: &[u8]) -> Result<Self, u32> {
        let mut reader = Reader { rest };
        let count = reader.byte()? as usize;
        if !(1..=8).contains(&count) {
            return Err(RANGE);
        }
        let mut items = Items { count, runs: [Run::default(); 8], units: 0, all: Level::default() };
        for run in &mut items.runs[..count] {
            run.units = reader.byte()? as i64;
            items.units += run.units as usize;
            if run.units == 0 || items.units > 1000 {
                return Err(RANGE);
            }
            run.cost = reader.amount()?;
            items.all.cost += run.units * run.cost;
            if items.all.cost > MOST {
                return Err(LIMIT);
            }
            run.value = reader.amount()?;
            items.all.value += run.units * run.value;
            if items.all.value > MOST {
                return Err(LIMIT);
            }
        }
        reader.end()?;
        Ok(items)
    }
}

/// A table: cost and value of each row, blanks filled.
pub struct Table {
    pub items: usize,
    /// Units of each item.
    pub units: [usize; 4],
    pub rows: usize,
    pub cost: [u32; MOST_ROWS],
    pub value: [u32; MOST_ROWS],
}

impl Table {
    pub fn empty() -> Self {
        Table { items: 0, units: [0; 4], rows: 0, cost: [0; MOST_ROWS], value: [0; MOST_ROWS] }
    }

    /// Fills the table from what follows the terms.
    pub fn read(&mut self, rest: &[u8]) -> Result<(), u32> {
        let mut reader = Reader { rest };
        self.items = reader.byte()? as usize;
        if !(1..=4).contains(&self.items) {
            return Err(RANGE);
        }
        self.rows = 1;
        for units in &mut self.units[..self.items] {
            *units = reader.byte()? as usize;
            if *units == 0 {
                return Err(RANGE);
            }
            self.rows *= *units + 1;
        }
        if self.rows > MOST_ROWS {
            return Err(RANGE);
        }
        let costs_given = read_cells(&mut reader, &mut self.cost[..self.rows])?;
        let values_given = read_cells(&mut reader, &mut self.value[..self.rows])?;
        reader.end()?;
        let units = &self.units[..self.items];
        settle(&mut self.cost[..self.rows], units, costs_given)?;
        settle(&mut self.value[..self.rows], units, values_given)
    }

    pub fn all_units(&self) -> usize {
        self.units[..self.items].iter().sum()
    }

    pub fn level(&self, row: usize) -> Level {
        Level { cost: self.cost[row] as i64, value: self.value[row] as i64 }
    }
}

/// Reads one map and its cells into `cells`, BLANK where none is given. Tells whether every cell is given.
fn read_cells(reader: &mut Reader, cells: &mut [u32]) -> Result<bool, u32> {
    let rows = cells.len();
    let (map, rest) = reader.rest.split_at_checked(rows.div_ceil(8)).ok_or(TRUNCATED)?;
    if rows % 8 != 0 && map[map.len() - 1] >> (rows % 8) != 0 {
        return Err(VALUE);
    }
    let count: usize = map.iter().map(|byte| byte.count_ones() as usize).sum();
    // The cells of a map are one field: its end is tested before its amounts.
    let (body, after) = rest.split_at_checked(4 * count).ok_or(TRUNCATED)?;
    let given = body.as_chunks::<4>().0;
    if given.iter().fold(false, |any, cell| any | (u32::from_le_bytes(*cell) > MOST as u32)) {
        return Err(LIMIT);
    }
    reader.rest = after;
    if count == rows {
        for (cell, bytes) in cells.iter_mut().zip(given) {
            *cell = u32::from_le_bytes(*bytes);
        }
    } else {
        spread(map, given, cells);
    }
    Ok(count == rows)
}

/// Puts the given cells into their rows, and BLANK into the others.
fn spread(map: &[u8], given: &[[u8; 4]], cells: &mut [u32]) {
    cells.fill(BLANK);
    let mut given = given.iter();
    for (byte, group) in map.iter().zip(cells.chunks_mut(8)) {
        let mut bits = *byte;
        while bits != 0 {
            let row = bits.trailing_zeros() as usize;
            if let (Some(cell), Some(bytes)) = (group.get_mut(row), given.next()) {
                *cell = u32::from_le_bytes(*bytes);
            }
            bits &= bits - 1;
        }
    }
}

/// Fills the blanks and refuses a cell below that of a row with one unit less.
fn settle(cells: &mut [u32], units: &[usize], all_given: bool) -> Result<(), u32> {
    if all_given {
        return rising(cells, units);
    }
    // A filled cell is the greatest given cell among the rows that its row holds. Going through the items one after
    // the other finds it; a given cell that changes by that was too small.
    let mut filled = [0; MOST_ROWS];
    let filled = &mut filled[..cells.len()];
    for (full, cell) in filled.iter_mut().zip(cells.iter()) {
        *full = if *cell == BLANK { 0 } else { *cell };
    }
    let mut stride = 1;
    for units in units.iter().rev() {
        for block in filled.chunks_exact_mut(stride * (units + 1)) {
            raise(block, stride);
        }
        stride *= units + 1;
    }
    if filled.iter().zip(cells.iter()).any(|(full, cell)| full > cell) {
        return Err(FALLING);
    }
    cells.copy_from_slice(filled);
    Ok(())
}

/// Lifts each cell to the one a stride before it, in order.
fn raise(block: &mut [u32], stride: usize) {
    if stride == 1 {
        let mut most = 0;
        for cell in block {
            most = most.max(*cell);
            *cell = most;
        }
        return;
    }
    for start in (stride..block.len()).step_by(stride) {
        let (before, rest) = block.split_at_mut(start);
        for (cell, earlier) in rest[..stride].iter_mut().zip(&before[start - stride..]) {
            *cell = (*cell).max(*earlier);
        }
    }
}

/// Whether no cell is below that of a row with one unit less; nothing is blank.
fn rising(cells: &[u32], units: &[usize]) -> Result<(), u32> {
    let mut stride = 1;
    for units in units.iter().rev() {
        for block in cells.chunks_exact(stride * (units + 1)) {
            let falls = block[stride..].iter().zip(block).fold(false, |any, (cell, earlier)| any | (cell < earlier));
            if falls {
                return Err(FALLING);
            }
        }
        stride *= units + 1;
    }
    Ok(())
}
