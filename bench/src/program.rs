//! The entries of a planner, so that the library and the reference are called in the same way.

use crate::deals::Areas;
use crate::{library, reference};

/// Planning that spares something; it needs no work area.
type Sparing = fn(&[u8], &mut [u8], &mut [u8], &mut [u8]) -> i64;

/// What the sparing entries are called, in their order in a program.
pub const SPARING: [&str; 3] = ["fewest payments", "fewest deliveries", "fewest moves"];

pub struct Program {
    pub plan: fn(&[u8], &mut [u8], &mut [u8], &mut [u8], &mut [u8]) -> i64,
    pub sparing: [Sparing; 3],
    pub check: fn(&[u8], usize, &[u8], &[u8], &[u8]) -> u32,
    pub bounds: fn(&[u8], usize, &[u8], &mut [u8]) -> u32,
    pub open: fn(&mut [u8], &[u8], usize, &[u8], &[u8], &[u8]) -> u32,
    pub report: fn(&mut [u8], usize, &[u8], &[u8], u32, u32) -> u32,
    pub finished: fn(&[u8], usize) -> u32,
}

impl Program {
    pub fn plan_into(&self, record: &[u8], areas: &mut Areas) -> i64 {
        (self.plan)(record, &mut areas.places, &mut areas.sums, &mut areas.order, &mut areas.work)
    }

    pub fn spare_into(&self, which: usize, record: &[u8], areas: &mut Areas) -> i64 {
        (self.sparing[which])(record, &mut areas.places, &mut areas.sums, &mut areas.order)
    }
}

pub static LIBRARY: Program = Program {
    plan: library::plan,
    sparing: [library::plan_fewest_payments, library::plan_fewest_deliveries, library::plan_fewest_moves],
    check: library::check,
    bounds: library::bounds,
    open: library::open,
    report: library::report,
    finished: library::finished,
};

pub static REFERENCE: Program = Program {
    plan: reference::plan,
    sparing: [reference::plan_fewest_payments, reference::plan_fewest_deliveries, reference::plan_fewest_moves],
    check: reference::check,
    bounds: reference::bounds,
    open: reference::open,
    report: reference::report,
    finished: reference::finished,
};
