//! Builds contract records, and the areas that planning them needs.

/// Price, the supplier's and the buyer's defection cost.
#[derive(Clone, Copy, Debug, Default)]
pub struct Terms {
    pub price: u32,
    pub supplier: u32,
    pub buyer: u32,
}

/// A record, with the units and the rows (0 unless it is a table) that its areas are measured by.
#[derive(Clone)]
pub struct Deal {
    pub record: Vec<u8>,
    pub units: usize,
    pub rows: usize,
}

/// The areas that planning writes.
#[derive(Clone, PartialEq, Debug)]
pub struct Areas {
    pub places: Vec<u8>,
    pub sums: Vec<u8>,
    pub order: Vec<u8>,
    pub work: Vec<u8>,
}

impl Deal {
    pub fn most_steps(&self) -> usize {
        2 * self.units + 1
    }

    /// Areas exactly as long as planning needs, filled with a byte.
    pub fn areas(&self, fill: u8) -> Areas {
        let steps = self.most_steps();
        Areas {
            places: vec![fill; 2 * steps],
            sums: vec![fill; 4 * steps],
            order: vec![fill; 8],
            work: vec![fill; self.rows * (steps + 1)],
        }
    }

    pub fn last_place(&self) -> usize {
        if self.rows > 0 {
            self.rows - 1
        } else {
            self.units
        }
    }
}

impl Areas {
    pub fn each_mut(&mut self) -> [&mut Vec<u8>; 4] {
        [&mut self.places, &mut self.sums, &mut self.order, &mut self.work]
    }

    pub fn place(&self, step: usize) -> u32 {
        u16::from_le_bytes([self.places[2 * step], self.places[2 * step + 1]]) as u32
    }

    pub fn sum(&self, step: usize) -> u32 {
        let at = 4 * step;
        u32::from_le_bytes([self.sums[at], self.sums[at + 1], self.sums[at + 2], self.sums[at + 3]])
    }

    /// Stores steps in the first entries.
    pub fn put(&mut self, steps: &[(usize, i64)]) {
        for (at, (place, sum)) in steps.iter().enumerate() {
            self.places[2 * at..2 * at + 2].copy_from_slice(&(*place as u16).to_le_bytes());
            self.sums[4 * at..4 * at + 4].copy_from_slice(&(*sum as u32).to_le_bytes());
        }
    }

    /// How many of the first steps pay, and how many deliver.
    pub fn moves(&self, steps: usize) -> [usize; 2] {
        let mut before = (0, 0);
        let mut moves = [0, 0];
        for step in 0..steps {
            let now = (self.place(step), self.sum(step));
            moves[0] += (now.1 > before.1) as usize;
            moves[1] += (now.0 > before.0) as usize;
            before = now;
        }
        moves
    }
}

/// The map with the bit of a form, then the terms that are not 0.
fn start(terms: Terms, form: u16) -> Vec<u8> {
    let amounts = [terms.price, terms.supplier, terms.buyer];
    let mut map = 1 << form;
    for (bit, amount) in amounts.iter().enumerate() {
        map |= ((*amount != 0) as u16) << bit;
    }
    let mut record = map.to_le_bytes().to_vec();
    for amount in amounts.iter().filter(|amount| **amount != 0) {
        record.extend(amount.to_le_bytes());
    }
    record
}

pub fn ladder(terms: Terms, rises: &[(u32, u32)]) -> Deal {
    let mut record = start(terms, 3);
    record.extend((rises.len() as u16).to_le_bytes());
    for (cost, value) in rises {
        record.extend(cost.to_le_bytes());
        record.extend(value.to_le_bytes());
    }
    Deal { record, units: rises.len(), rows: 0 }
}

/// Items are units, cost of a unit, value of a unit.
pub fn items(terms: Terms, items: &[(u8, u32, u32)]) -> Deal {
    let mut record = start(terms, 4);
    record.push(items.len() as u8);
    for (units, cost, value) in items {
        record.push(*units);
        record.extend(cost.to_le_bytes());
        record.extend(value.to_le_bytes());
    }
    Deal { record, units: items.iter().map(|item| item.0 as usize).sum(), rows: 0 }
}

/// The rows of a table with these units of each item; for unit prices, the number of different amounts delivered.
pub fn rows(units: &[u8]) -> usize {
    units.iter().fold(1, |rows: usize, units| rows.saturating_mul(*units as usize + 1))
}

/// The units of each item that a row holds.
pub fn held(units: &[u8], row: usize) -> Vec<usize> {
    let mut rest = row;
    let mut held = vec![0; units.len()];
    for (entry, units) in held.iter_mut().zip(units).rev() {
        *entry = rest % (*units as usize + 1);
        rest /= *units as usize + 1;
    }
    held
}

/// Cells that are none stay blank.
pub fn table(terms: Terms, units: &[u8], costs: &[Option<u32>], values: &[Option<u32>]) -> Deal {
    let mut record = start(terms, 5);
    record.push(units.len() as u8);
    record.extend(units);
    for cells in [costs, values] {
        let mut map = vec![0u8; cells.len().div_ceil(8)];
        for (row, _) in cells.iter().enumerate().filter(|(_, cell)| cell.is_some()) {
            map[row / 8] |= 1 << (row % 8);
        }
        record.extend(map);
        cells.iter().flatten().for_each(|cell| record.extend(cell.to_le_bytes()));
    }
    Deal { record, units: units.iter().map(|units| *units as usize).sum(), rows: rows(units) }
}
