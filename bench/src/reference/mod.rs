//! A second implementation of the planner, with the same entries as the library: the same answers, and the same bytes left
//! in every area.

mod check;
mod choice;
mod line;
mod record;
mod session;
mod sparing;
mod table;

use check::Brought;
use choice::Runs;
use line::Writer;
use record::{Form, Items, Ladder, Table, Terms, IMPOSSIBLE, MAP, SHORT};
use session::Session;
use sparing::Fewest;
use table::Search;

/// The areas that planning writes.
struct Areas<'a> {
    places: &'a mut [u8],
    sums: &'a mut [u8],
    order: &'a mut [u8],
    work: &'a mut [u8],
}

impl<'a> Areas<'a> {
    /// Refuses areas that are too short for a deal of so many units, and of so many rows if it is a table.
    fn fit(&self, units: usize, rows: usize) -> Result<(), u32> {
        let steps = 2 * units + 1;
        let enough = self.places.len() / 2 >= steps && self.sums.len() / 4 >= steps && self.order.len() >= 8;
        if enough && self.work.len() >= rows * (2 * units + 2) {
            Ok(())
        } else {
            Err(SHORT)
        }
    }

    /// Leaves the order bytes of a plan.
    fn put_order(&mut self, order: choice::Order) {
        if let Some(bytes) = self.order.first_chunk_mut() {
            *bytes = order;
        }
    }

    fn writer(self) -> Writer<'a> {
        Writer::new(self.places, self.sums)
    }
}

/// Zeroes the work area, which both a plan and its absence leave so. Hands on what was found, if the deal is possible.
fn decide<T>(found: Option<T>, work: &mut [u8]) -> Result<T, u32> {
    // Filling nothing at no address is slow on some processors.
    if !work.is_empty() {
        work.fill(0);
    }
    found.ok_or(IMPOSSIBLE)
}

/// Plans a deal: the number of steps, or minus the number of a refusal.
pub fn plan(record: &[u8], places: &mut [u8], sums: &mut [u8], order: &mut [u8], work: &mut [u8]) -> i64 {
    plan_with(Fewest::Steps, record, Areas { places, sums, order, work })
}

/// Plans a ladder or unit prices with fewest payments.
pub fn plan_fewest_payments(record: &[u8], places: &mut [u8], sums: &mut [u8], order: &mut [u8]) -> i64 {
    plan_with(Fewest::Payments, record, Areas { places, sums, order, work: &mut [] })
}

/// The same with fewest deliveries.
pub fn plan_fewest_deliveries(record: &[u8], places: &mut [u8], sums: &mut [u8], order: &mut [u8]) -> i64 {
    plan_with(Fewest::Deliveries, record, Areas { places, sums, order, work: &mut [] })
}

/// The same with fewest payments and deliveries together.
pub fn plan_fewest_moves(record: &[u8], places: &mut [u8], sums: &mut [u8], order: &mut [u8]) -> i64 {
    plan_with(Fewest::Moves, record, Areas { places, sums, order, work: &mut [] })
}

fn plan_with(fewest: Fewest, record: &[u8], areas: Areas) -> i64 {
    let steps = record::head(record).and_then(|(terms, form, rest)| match form {
        Form::Ladder => plan_ladder(fewest, terms, rest, areas),
        Form::Items => plan_items(fewest, terms, rest, areas),
        Form::Table if fewest == Fewest::Steps => plan_table(terms, rest, areas),
        Form::Table => Err(Table::empty().read(rest).err().unwrap_or(MAP)),
    });
    answer(steps)
}

fn answer(steps: Result<usize, u32>) -> i64 {
    match steps {
        Ok(steps) => steps as i64,
        Err(refusal) => -(refusal as i64),
    }
}

fn plan_ladder(fewest: Fewest, terms: Terms, rest: &[u8], mut areas: Areas) -> Result<usize, u32> {
    let ladder = Ladder::read(rest)?;
    areas.fit(ladder.rises.len(), 0)?;
    let frame = terms.frame(ladder.all);
    decide(line::admits(&frame, &ladder).then_some(()), areas.work)?;
    areas.put_order([0; 8]);
    Ok(sparing::write(fewest, &frame, &ladder, ladder.rises.len(), areas.writer()))
}

fn plan_items(fewest: Fewest, terms: Terms, rest: &[u8], mut areas: Areas) -> Result<usize, u32> {
    let items = Items::read(rest)?;
    areas.fit(items.units, 0)?;
    let frame = terms.frame(items.all);
    let order = choice::choose(&items, &frame);
    let order = decide(order, areas.work)?;
    areas.put_order(order);
    Ok(sparing::write(fewest, &frame, &Runs::new(&items, &order), items.units, areas.writer()))
}

fn plan_table(terms: Terms, rest: &[u8], mut areas: Areas) -> Result<usize, u32> {
    let mut table = Table::empty();
    table.read(rest)?;
    areas.fit(table.all_units(), table.rows)?;
    let frame = terms.frame(table.level(table.rows - 1));
    let mut search = Search::new(&frame, &table);
    let steps = decide(search.run(), areas.work)?;
    areas.put_order([0; 8]);
    Ok(search.write(steps, areas.writer()))
}

/// 0, or the number of a refusal.
fn reply(result: Result<(), u32>) -> u32 {
    result.err().unwrap_or(0)
}

/// Checks a plan.
pub fn check(record: &[u8], count: usize, places: &[u8], sums: &[u8], order: &[u8]) -> u32 {
    reply(check::check(record, Brought { count, places, sums }, order, true))
}

/// Stores the bounds of a place.
pub fn bounds(record: &[u8], place: usize, order: &[u8], bounds: &mut [u8]) -> u32 {
    match check::bounds(record, place, order, bounds.len() >= 16) {
        Ok((lower, upper)) => {
            bounds[..8].copy_from_slice(&lower.to_le_bytes());
            bounds[8..16].copy_from_slice(&upper.to_le_bytes());
            0
        }
        Err(refusal) => refusal,
    }
}

/// Checks a plan and opens a session on it.
pub fn open(session: &mut [u8], record: &[u8], count: usize, places: &[u8], sums: &[u8], order: &[u8]) -> u32 {
    let plan = Brought { count, places, sums };
    reply((|| {
        check::check(record, plan, order, session.len() >= session::SIZE)?;
        Session::open(plan)?.store(session::area(session)?);
        Ok(())
    })())
}

/// Reports a delivery or a payment.
pub fn report(session: &mut [u8], count: usize, places: &[u8], sums: &[u8], side: u32, number: u32) -> u32 {
    reply((|| {
        let area = session::area(session)?;
        Session::load(area).report(Brought { count, places, sums }, side, number)?.store(area);
        Ok(())
    })())
}

/// 1 if all steps are passed, else 0; a short area is refused.
pub fn finished(session: &[u8], count: usize) -> u32 {
    session.first_chunk().map_or(SHORT, |area| Session::load(area).finished(count) as u32)
}
