//! Keeps account of how far a plan is carried out. A session is the number of steps passed, eight bytes, and two marks.

use super::check::Brought;
use super::record::{FINISHED, SHORT, UNFIT};

pub const SIZE: usize = 10;
pub type Area = [u8; SIZE];

const DELIVERY: u32 = 0;
const PAYMENT: u32 = 1;

#[derive(Clone, Copy, Default)]
pub struct Session {
    passed: u64,
    delivered: bool,
    paid: bool,
}

/// The steps of a plan.
type Steps<'a> = (&'a [[u8; 2]], &'a [[u8; 4]]);

/// A step: where it goes to, and whether that differs from the step before it.
struct Step {
    place: u32,
    sum: u32,
    delivers: bool,
    pays: bool,
}

#[inline(always)]
fn step(steps: Steps, number: usize) -> Step {
    let place = u16::from_le_bytes(steps.0[number]);
    let sum = u32::from_le_bytes(steps.1[number]);
    let (earlier_place, earlier_sum) = match number.checked_sub(1) {
        None => (0, 0),
        Some(before) => (u16::from_le_bytes(steps.0[before]), u32::from_le_bytes(steps.1[before])),
    };
    Step { place: place as u32, sum, delivers: place != earlier_place, pays: sum != earlier_sum }
}

impl Session {
    pub fn load(area: &Area) -> Self {
        let [passed @ .., delivered, paid] = *area;
        Session { passed: u64::from_le_bytes(passed), delivered: delivered != 0, paid: paid != 0 }
    }

    pub fn store(self, area: &mut Area) {
        area[..8].copy_from_slice(&self.passed.to_le_bytes());
        area[8] = self.delivered as u8;
        area[9] = self.paid as u8;
    }

    pub fn finished(self, count: usize) -> bool {
        self.passed >= count as u64
    }

    /// The session of a plan of which nothing is carried out.
    pub fn open(plan: Brought) -> Result<Self, u32> {
        Ok(Session::at(0, plan.entries()?))
    }

    /// The session with so many steps passed and those after them that move nothing.
    #[inline(always)]
    fn at(mut passed: u64, steps: Steps) -> Self {
        while (passed as usize) < steps.0.len().min(steps.1.len()) {
            let open = step(steps, passed as usize);
            if open.delivers || open.pays {
                break;
            }
            passed += 1;
        }
        Session { passed, delivered: false, paid: false }
    }

    /// Takes a report: the next session, or a refusal.
    pub fn report(self, plan: Brought, side: u32, number: u32) -> Result<Self, u32> {
        let steps = plan.entries()?;
        if self.finished(plan.count) {
            return Err(FINISHED);
        }
        let open = step(steps, self.passed as usize);
        let (entry, moves, marked, next) = match side {
            DELIVERY => (open.place, open.delivers, self.delivered, Session { delivered: true, ..self }),
            PAYMENT => (open.sum, open.pays, self.paid, Session { paid: true, ..self }),
            _ => return Err(UNFIT),
        };
        if number != entry || !moves || marked {
            return Err(UNFIT);
        }
        if (open.delivers && !next.delivered) || (open.pays && !next.paid) {
            return Ok(next);
        }
        Ok(Session::at(self.passed + 1, steps))
    }
}

/// The session in an area, if the area is long enough.
pub fn area(session: &mut [u8]) -> Result<&mut Area, u32> {
    session.first_chunk_mut().ok_or(SHORT)
}
