//! Pseudo-random deals of all forms, most of them near the border between possible and impossible.

use crate::deals::{self, Deal, Terms};
use crate::random::Random;

/// What a deal says, beside its record.
pub enum Content {
    Ladder(Vec<(u32, u32)>),
    Items(Vec<(u8, u32, u32)>),
    /// Units of each item, and the cells with blanks filled.
    Table(Vec<u8>, Vec<u32>, Vec<u32>),
}

pub struct Sample {
    pub deal: Deal,
    pub terms: Terms,
    pub content: Content,
}

impl Sample {
    /// Right order bytes: with unit prices the items by number, else zeros.
    pub fn order(&self) -> Vec<u8> {
        let items = if let Content::Items(items) = &self.content { items.len() as u8 } else { 0 };
        (1..=8).map(|item| if item <= items { item } else { 0 }).collect()
    }
}

/// Amounts are random numbers up to `most`, times `unit`.
struct Scale {
    most: u64,
    unit: u32,
}

fn scale(random: &mut Random, amounts: u64) -> Scale {
    let most = [1, 3, 8, 20, 100][random.below(5) as usize];
    let greatest = 1_000_000_000 / (most * amounts).max(1);
    let unit = match random.below(4) {
        0 => random.within(1, greatest.max(1)) as u32,
        1 => greatest.max(1) as u32,
        _ => 1,
    };
    Scale { most, unit }
}

fn amount(random: &mut Random, scale: &Scale) -> u32 {
    random.within(0, scale.most) as u32 * scale.unit
}

/// Whether cost and value of the goods are to be exchanged: no price suits goods that cost more than they are worth.
fn exchanged(random: &mut Random, cost: u64, value: u64) -> bool {
    cost > value && !random.once_in(8)
}

/// Terms for what all goods cost and are worth, counted from place 0, and the greatest amount of a unit. The start is mostly
/// safe, or would be if leaving it had its cost; the defection costs are mostly near what is needed.
fn terms(random: &mut Random, cost: u64, value: u64, widest: u64) -> Terms {
    let tight = random.within(0, 2 * widest + 2);
    let supplier = if random.once_in(6) { 0 } else { random.within(0, tight) };
    let buyer = if random.once_in(6) { tight } else { tight - supplier.min(tight) };
    let least = cost.saturating_sub(supplier);
    let most = value + buyer;
    let price = match random.below(14) {
        0 => cost,
        1 => value,
        2 => cost.saturating_sub(1),
        3 => value + 1,
        4 => least,
        5 => most,
        6 => random.within(least, cost),
        7 => random.within(value, most),
        8 => random.within(0, cost.max(value) + 2),
        _ => random.within(cost.min(value), cost.max(value)),
    };
    let cut = |amount: u64| amount.min(1_000_000_000) as u32;
    Terms { price: cut(price), supplier: cut(supplier), buyer: cut(buyer) }
}

fn ladder(random: &mut Random) -> Sample {
    let units = match random.below(20) {
        0 => random.within(1, 1000),
        1..=4 => random.within(1, 60),
        _ => random.within(1, 9),
    };
    let scale = scale(random, units);
    let alike = random.once_in(3);
    let mut rises = Vec::new();
    for _ in 0..units {
        let cost = amount(random, &scale);
        rises.push((cost, if alike { cost } else { amount(random, &scale) }));
    }
    let mut cost = rises.iter().map(|rise| rise.0 as u64).sum();
    let mut value = rises.iter().map(|rise| rise.1 as u64).sum();
    if exchanged(random, cost, value) {
        rises.iter_mut().for_each(|rise| *rise = (rise.1, rise.0));
        (cost, value) = (value, cost);
    }
    let terms = terms(random, cost, value, scale.most * scale.unit as u64);
    Sample { deal: deals::ladder(terms, &rises), terms, content: Content::Ladder(rises) }
}

fn items(random: &mut Random) -> Sample {
    let count = random.within(1, 8);
    let most_units = match random.below(8) {
        0 => 1000 / count,
        1 | 2 => 12,
        _ => 3,
    };
    let scale = scale(random, 255 * 8);
    let mut items = Vec::new();
    for _ in 0..count {
        let units = random.within(1, most_units.min(255)) as u8;
        items.push((units, amount(random, &scale), amount(random, &scale)));
    }
    let mut cost = items.iter().map(|item| item.0 as u64 * item.1 as u64).sum();
    let mut value = items.iter().map(|item| item.0 as u64 * item.2 as u64).sum();
    if exchanged(random, cost, value) {
        items.iter_mut().for_each(|item| *item = (item.0, item.2, item.1));
        (cost, value) = (value, cost);
    }
    let widest = items.iter().map(|item| item.1.max(item.2) as u64).max().unwrap_or(0);
    let terms = terms(random, cost, value, widest);
    Sample { deal: deals::items(terms, &items), terms, content: Content::Items(items) }
}

/// Units of the items of a table with at most 128 rows.
fn table_units(random: &mut Random) -> Vec<u8> {
    let mut units = Vec::new();
    let mut room = [128, 128, 40, 16][random.below(4) as usize];
    for _ in 0..random.within(1, 4) {
        if room < 2 {
            break;
        }
        let most = if random.once_in(3) { room - 1 } else { (room - 1).min(4) };
        let count = random.within(1, most);
        units.push(count as u8);
        room /= count + 1;
    }
    units
}

/// Cells that never fall, and the same with blanks where the filling rule restores them.
fn cells(random: &mut Random, units: &[u8], scale: &Scale) -> (Vec<u32>, Vec<Option<u32>>) {
    let (mut full, mut given) = (Vec::new(), Vec::new());
    let blanks = random.below(4);
    for row in 0..deals::rows(units) {
        let least = below(units, row).map(|below| full[below]).max().unwrap_or(0);
        let rise = if random.below(4) < blanks { 0 } else { amount(random, scale) };
        let first = row == 0 && random.once_in(2);
        let cell: u32 = if first { 0 } else { least + rise };
        full.push(cell);
        given.push((cell != least || random.once_in(3)).then_some(cell));
    }
    (full, given)
}

/// The rows with one unit less of one item.
fn below(units: &[u8], row: usize) -> impl Iterator<Item = usize> {
    let held = deals::held(units, row);
    let mut stride = 1;
    let mut rows = Vec::new();
    for (held, units) in held.iter().zip(units).rev() {
        if *held > 0 {
            rows.push(row - stride);
        }
        stride *= *units as usize + 1;
    }
    rows.into_iter()
}

fn table(random: &mut Random) -> Sample {
    let units = table_units(random);
    let scale = scale(random, 200);
    let (mut costs, mut values) = (cells(random, &units, &scale), cells(random, &units, &scale));
    let rise = |cells: &[u32]| (cells[cells.len() - 1] - cells[0]) as u64;
    if exchanged(random, rise(&costs.0), rise(&values.0)) {
        (costs, values) = (values, costs);
    }
    let ((costs, given_costs), (values, given_values)) = (costs, values);
    let terms = terms(random, rise(&costs), rise(&values), scale.most * scale.unit as u64);
    let deal = deals::table(terms, &units, &given_costs, &given_values);
    Sample { deal, terms, content: Content::Table(units, costs, values) }
}

pub fn any(random: &mut Random) -> Sample {
    match random.below(3) {
        0 => ladder(random),
        1 => items(random),
        _ => table(random),
    }
}
