//! Checks plans that are brought, and answers the bounds of a place.

use super::choice::{names_each, Order, Runs};
use super::line::{At, Places};
use super::record::{head, total, Form, Frame, Items, Ladder, Level, Table, RANGE, SHORT, UNSAFE};
use super::table::Held;

/// A plan as it is brought.
#[derive(Clone, Copy)]
pub struct Brought<'a> {
    pub count: usize,
    pub places: &'a [u8],
    pub sums: &'a [u8],
}

impl<'a> Brought<'a> {
    /// The entries of the steps, or the refusal of a count above an area.
    pub fn entries(&self) -> Result<(&'a [[u8; 2]], &'a [[u8; 4]]), u32> {
        let places = self.places.as_chunks().0.get(..self.count).ok_or(SHORT)?;
        let sums = self.sums.as_chunks().0.get(..self.count).ok_or(SHORT)?;
        Ok((places, sums))
    }
}

/// The eight order bytes.
pub fn order_bytes(order: &[u8]) -> Result<&Order, u32> {
    order.first_chunk().ok_or(SHORT)
}

/// Refuses order bytes that are not as they must be; only unit prices have items to order.
fn ordered(order: &Order, items: usize) -> Result<(), u32> {
    if names_each(order, items) {
        Ok(())
    } else {
        Err(UNSAFE)
    }
}

/// Checks a plan. `long_enough` says whether all other areas of the call are.
pub fn check(record: &[u8], plan: Brought, order: &[u8], long_enough: bool) -> Result<(), u32> {
    let (terms, form, rest) = head(record)?;
    let areas = || if long_enough { Ok((plan.entries()?, order_bytes(order)?)) } else { Err(SHORT) };
    match form {
        Form::Ladder => {
            let ladder = Ladder::read(rest)?;
            let (steps, order) = areas()?;
            ordered(order, 0)?;
            follow(&terms.frame(ladder.all), &ladder, ladder.rises.len(), steps)
        }
        Form::Items => {
            let items = Items::read(rest)?;
            let (steps, order) = areas()?;
            ordered(order, items.count)?;
            follow(&terms.frame(items.all), &Runs::new(&items, order), items.units, steps)
        }
        Form::Table => {
            let mut table = Table::empty();
            table.read(rest)?;
            let (steps, order) = areas()?;
            ordered(order, 0)?;
            let frame = terms.frame(table.level(table.rows - 1));
            follow(&frame, &Rows { table: &table, held: Held::new(&table) }, table.rows - 1, steps)
        }
    }
}

/// Goes through the steps. Bounds never fall as units are added, so a step is safe if its start allows its payment and the
/// sum before it allows its delivery; the other states lie between. Where nothing has moved a rule of its own decides.
fn follow<P: Places>(frame: &Frame, places: &P, last: usize, steps: (&[[u8; 2]], &[[u8; 4]])) -> Result<(), u32> {
    let frame = *frame;
    let mut at = places.start();
    if !frame.safe_start(at.level) {
        return Err(UNSAFE);
    }
    let mut paid = 0;
    for (place, sum) in steps.0.iter().zip(steps.1) {
        let sum = u32::from_le_bytes(*sum) as i64;
        let most = frame.upper(at.level);
        at = places.to(at, u16::from_le_bytes(*place) as usize).ok_or(UNSAFE)?;
        if sum < paid || sum > most || !frame.allows(paid, at.level) {
            return Err(UNSAFE);
        }
        paid = sum;
    }
    if at.place == last && paid == frame.price {
        Ok(())
    } else {
        Err(UNSAFE)
    }
}

/// The rows of a table.
struct Rows<'a> {
    table: &'a Table,
    held: Held,
}

impl Places for Rows<'_> {
    #[inline(always)]
    fn start(&self) -> At {
        At { place: 0, level: self.table.level(0), run: 0 }
    }

    #[inline(always)]
    fn to(&self, at: At, place: usize) -> Option<At> {
        let reached = place < self.table.rows && self.held.holds(place, at.place);
        reached.then(|| At { place, level: self.table.level(place), run: 0 })
    }
}

/// The level of a place of a ladder. The whole is known, so only the shorter side of the place is added up.
fn ladder_level(ladder: &Ladder, place: usize) -> Level {
    let (before, after) = ladder.rises.split_at(place);
    if before.len() <= after.len() {
        return total(before);
    }
    let after = total(after);
    Level { cost: ladder.all.cost - after.cost, value: ladder.all.value - after.value }
}

/// The lower and the upper bound of a place, clipped.
pub fn bounds(record: &[u8], place: usize, order: &[u8], long_enough: bool) -> Result<(i64, i64), u32> {
    let (terms, form, rest) = head(record)?;
    let areas = |last| {
        let order = if long_enough { order_bytes(order)? } else { return Err(SHORT) };
        if place > last {
            Err(RANGE)
        } else {
            Ok(order)
        }
    };
    let (all, level) = match form {
        Form::Ladder => {
            let ladder = Ladder::read(rest)?;
            ordered(areas(ladder.rises.len())?, 0)?;
            (ladder.all, ladder_level(&ladder, place))
        }
        Form::Items => {
            let items = Items::read(rest)?;
            let order = areas(items.units)?;
            ordered(order, items.count)?;
            let runs = Runs::new(&items, order);
            (items.all, runs.to(runs.start(), place).ok_or(RANGE)?.level)
        }
        Form::Table => {
            let mut table = Table::empty();
            table.read(rest)?;
            ordered(areas(table.rows - 1)?, 0)?;
            (table.level(table.rows - 1), table.level(place))
        }
    };
    let frame = terms.frame(all);
    Ok((frame.lower(level), frame.upper(level)))
}
