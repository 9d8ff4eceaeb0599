//! Plans along a given order with fewest payments, with fewest deliveries, or with fewest moves of both kinds.
//!
//! Each starts with one move only, a delivery for nothing or a payment for nothing. From then on a delivery is as large as
//! the last payment allows and a payment as large as the last delivery allows, so that they take turns: a step is a move.

use super::line::{self, Line, Writer};
use super::record::Frame;

/// What a plan has fewest of.
#[derive(Clone, Copy, PartialEq)]
pub enum Fewest {
    Steps,
    Payments,
    Deliveries,
    Moves,
}

/// Writes the plan along a line that admits one. `last` is its last place.
#[inline(always)]
pub fn write<L: Line>(fewest: Fewest, frame: &Frame, line: &L, last: usize, plan: Writer) -> usize {
    let first = frame.upper(line.start().level);
    match fewest {
        Fewest::Steps => line::write(frame, line, last, plan),
        Fewest::Payments => take_turns(frame, line, last, 0, plan),
        Fewest::Deliveries => take_turns(frame, line, last, first, plan),
        Fewest::Moves => moves(frame, line, last, first, plan),
    }
}

/// Starts with a payment of `first`, or with a delivery if that is 0. An empty start is left out; it can only be the first
/// move, since the line admits a plan.
#[inline(always)]
fn take_turns<L: Line>(frame: &Frame, line: &L, last: usize, first: i64, mut plan: Writer) -> usize {
    let frame = *frame;
    let mut at = line.start();
    let mut paid = first;
    if paid > 0 {
        plan.step(at.place, paid);
    }
    while paid < frame.last_lower {
        at = line.go(at, paid - frame.low);
        if at.place > 0 {
            plan.step(at.place, paid);
        }
        paid = frame.upper(at.level);
        plan.step(at.place, paid);
    }
    // Now everything may be delivered, and once it is, everything may be paid.
    plan.step(last, paid);
    if paid < frame.price {
        plan.step(last, frame.price);
    }
    plan.finish()
}

/// The plan with fewest steps is both starts at once: while one pays, the other delivers. So its end tells which of them
/// is shorter, and that one is what is left if every second delivery and every second payment is put off.
#[inline(always)]
fn moves<L: Line>(frame: &Frame, line: &L, last: usize, first: i64, mut plan: Writer) -> usize {
    let delivers = frame.last_lower <= 0 || line.go(line.start(), -frame.low).place > 0;
    if first == 0 || !delivers {
        // Only one start moves anything, and the other is the same plan without its empty step.
        return take_turns(frame, line, last, first, plan);
    }
    line::run(frame, line, last, &mut plan);
    let (place, paid) = plan.before_last();
    let odd = plan.steps() % 2 == 1;
    // If the last step makes one move only, it ends the start whose turn that move is. If it makes both, each start needs
    // one move more.
    let delivery_first = match (place as usize == last, paid as i64 == frame.price) {
        (_, true) => odd,
        (true, _) => !odd,
        _ => {
            plan.step(last, frame.price);
            false
        }
    };
    plan.put_off(delivery_first);
    plan.finish()
}
