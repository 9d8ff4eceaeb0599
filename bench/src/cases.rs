//! The deals that are timed. In all of them cost and value rise alike and the price is the whole cost, so that the
//! defection costs alone decide how far a step can go.

use crate::deals::{self, Deal, Terms};
use crate::random::Random;

/// How much can be risked at a time.
#[derive(Clone, Copy, PartialEq)]
pub enum Risk {
    /// Everything is delivered at once: two steps.
    Great,
    /// Some 30 units a step.
    Middle,
    /// One unit at a time, and its payment apart: 2U + 1 steps.
    Small,
    /// As small, and a unit is too dear: impossible. It is the last unit of a ladder, each unit of the sixth of eight items,
    /// and in a table whichever unit comes half-way, so that a search from either end gets half the way.
    None,
}

/// Twice this covers any one unit (at most 110), but no two (at least 180).
const TIGHT: u32 = 60;
/// More than twice TIGHT.
const TOO_DEAR: u32 = 130;
/// Covers one irregular rise or some.
const UNEVEN: u32 = 150;

fn terms(total: u32, risk: Risk) -> Terms {
    let (supplier, buyer) = match risk {
        Risk::Great => (total / 2, total),
        Risk::Middle => (3_000, 3_000),
        Risk::Small | Risk::None => (TIGHT, TIGHT),
    };
    Terms { price: total, supplier, buyer }
}

/// Amounts from 90 to 110, in no simple order.
fn amount(number: usize) -> u32 {
    90 + (number * 37 % 21) as u32
}

pub fn ladder(units: usize, risk: Risk) -> Deal {
    let mut rises: Vec<u32> = (0..units).map(amount).collect();
    if risk == Risk::None {
        rises[units - 1] = TOO_DEAR;
    }
    let both: Vec<_> = rises.iter().map(|rise| (*rise, *rise)).collect();
    deals::ladder(terms(rises.iter().sum(), risk), &both)
}

/// Eight items with so many units in all.
pub fn items(units: usize, risk: Risk) -> Deal {
    let mut items = Vec::new();
    for item in 0..8 {
        let count = units * (item + 1) / 8 - units * item / 8;
        let dear = risk == Risk::None && item == 5;
        let each = if dear { TOO_DEAR } else { amount(item) };
        items.push((count as u8, each, each));
    }
    let total = items.iter().map(|item| item.0 as u32 * item.1).sum();
    deals::items(terms(total, risk), &items)
}

/// Cost and value of each row: each unit adds the amount of its item.
fn cells(units: &[u8], risk: Risk) -> Vec<u32> {
    let half = units.iter().map(|units| *units as usize).sum::<usize>() / 2;
    let cell = |row| {
        let held = deals::held(units, row);
        let dear = risk == Risk::None && held.iter().sum::<usize>() > half;
        let amounts = held.iter().enumerate().map(|(item, count)| *count as u32 * amount(item));
        amounts.sum::<u32>() + if dear { TOO_DEAR } else { 0 }
    };
    (0..deals::rows(units)).map(cell).collect()
}

/// A table with every cell given.
pub fn table(units: &[u8], risk: Risk) -> Deal {
    let cells = cells(units, risk);
    let total = cells[cells.len() - 1];
    let given: Vec<_> = cells.into_iter().map(Some).collect();
    deals::table(terms(total, risk), units, &given, &given)
}

/// A cell for each row: that of the greatest row with one unit less, and from 0 to 99 more, in no simple order.
fn irregular(units: &[u8], random: &mut Random) -> Vec<u32> {
    let mut cells = vec![0; deals::rows(units)];
    for row in 1..cells.len() {
        let held = deals::held(units, row);
        let mut stride = 1;
        let mut below = 0;
        for (item, count) in held.iter().enumerate().rev() {
            if *count > 0 {
                below = below.max(cells[row - stride]);
            }
            stride *= units[item] as usize + 1;
        }
        cells[row] = below + random.below(100) as u32;
    }
    cells
}

/// A table with every cell given, whose costs and values rise by irregular amounts: in some steps one unit, in others many.
pub fn irregular_table(units: &[u8]) -> Deal {
    let mut random = Random::new(16);
    let (costs, values) = (irregular(units, &mut random), irregular(units, &mut random));
    let price = costs[costs.len() - 1];
    let given = |cells: Vec<u32>| -> Vec<_> { cells.into_iter().map(Some).collect() };
    let terms = Terms { price, supplier: UNEVEN, buyer: UNEVEN };
    deals::table(terms, units, &given(costs), &given(values))
}

/// A table with every cell blank but the last.
pub fn blank_table(units: &[u8]) -> Deal {
    let mut cells = vec![None; deals::rows(units)];
    cells[deals::rows(units) - 1] = Some(1000);
    deals::table(terms(1000, Risk::Great), units, &cells, &cells)
}
