//! The plain pass: what any planner must do at least. It reads once each byte that the call must look at, and writes once
//! each byte that the call must leave written. It works out nothing.

use crate::deals::{Areas, Deal};
use std::hint::black_box;

/// Reads an area: adds up its little-endian 32-bit words, and the bytes after the last whole word.
fn read(area: &[u8]) -> u32 {
    let (words, rest) = area.as_chunks::<4>();
    let sum = words.iter().fold(0u32, |sum, word| sum.wrapping_add(u32::from_le_bytes(*word)));
    rest.iter().fold(sum, |sum, byte| sum.wrapping_add(*byte as u32))
}

/// Writes an area: the same byte everywhere. Filling nothing at no address is slow on some processors, so it is left out.
fn write(area: &mut [u8], byte: u8) {
    if !area.is_empty() {
        area.fill(byte);
    }
}

/// Planning: reads the record; writes places, sums, order and work, or only work if the deal is impossible.
pub fn plan(deal: &Deal, areas: &mut Areas, possible: bool) {
    let byte = black_box(read(black_box(&deal.record)) as u8);
    if possible {
        write(&mut areas.places, byte);
        write(&mut areas.sums, byte);
        write(&mut areas.order, byte);
    }
    write(&mut areas.work, byte);
    black_box(areas);
}

/// Checking: reads the record and the plan.
pub fn check(deal: &Deal, plan: &Areas, count: usize) -> u32 {
    let record = read(black_box(&deal.record));
    let places = read(black_box(&plan.places[..2 * count]));
    let sums = read(black_box(&plan.sums[..4 * count]));
    record.wrapping_add(places).wrapping_add(sums).wrapping_add(read(&plan.order))
}

/// Bounds: reads the record and the order bytes; writes the bounds.
pub fn bounds(deal: &Deal, plan: &Areas, bounds: &mut [u8; 16]) {
    let byte = read(black_box(&deal.record)).wrapping_add(read(&plan.order));
    write(bounds, black_box(byte as u8));
    black_box(bounds);
}

/// A report: reads the session, the entries of a step and of the step before it; writes the session.
pub fn report(plan: &Areas, session: &mut [u8; 10], step: usize) {
    let from = step.saturating_sub(1);
    let places = read(&plan.places[2 * from..2 * step + 2]);
    let sums = read(&plan.sums[4 * from..4 * step + 4]);
    let byte = read(session).wrapping_add(places).wrapping_add(sums);
    write(session, black_box(byte as u8));
}
