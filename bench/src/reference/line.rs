//! Plans along a given order: each step delivers as far as the sum paid before it allows, and pays as much as the place
//! before it allows.

use super::record::{rise, Frame, Ladder, Level};

/// Where a walk along places stands. It is handed on by value, so that it stays in registers.
#[derive(Clone, Copy, Default)]
pub struct At {
    pub place: usize,
    pub level: Level,
    /// The run of units that is open, where a line has runs.
    pub run: usize,
}

/// Places to go through, never back.
pub trait Places {
    /// Place 0.
    fn start(&self) -> At;
    /// A place that is named; none if it does not hold what is delivered, or is above the last place.
    fn to(&self, at: At, place: usize) -> Option<At>;
}

/// Places in one order.
pub trait Line: Places {
    /// The greatest place whose value is at most `most`; the last place has a greater value.
    fn go(&self, at: At, most: i64) -> At;
}

/// The places and sums of a plan that is being written, step by step.
pub struct Writer<'a> {
    places: &'a mut [[u8; 2]],
    sums: &'a mut [[u8; 4]],
    steps: usize,
}

impl<'a> Writer<'a> {
    pub fn new(places: &'a mut [u8], sums: &'a mut [u8]) -> Self {
        Writer { places: places.as_chunks_mut().0, sums: sums.as_chunks_mut().0, steps: 0 }
    }

    #[inline(always)]
    pub fn step(&mut self, place: usize, paid: i64) {
        if let (Some(entry), Some(sum)) = (self.places.get_mut(self.steps), self.sums.get_mut(self.steps)) {
            *entry = (place as u16).to_le_bytes();
            *sum = (paid as u32).to_le_bytes();
            self.steps += 1;
        }
    }

    pub fn steps(&self) -> usize {
        self.steps
    }

    /// Place and sum before the last step.
    pub fn before_last(&self) -> (u16, u32) {
        match self.steps.checked_sub(2) {
            None => (0, 0),
            Some(step) => (u16::from_le_bytes(self.places[step]), u32::from_le_bytes(self.sums[step])),
        }
    }

    /// Puts off every second delivery and every second payment to the next step, so that each step makes one move: the first
    /// a delivery or a payment.
    pub fn put_off(&mut self, delivery_first: bool) {
        let places = &mut self.places[..self.steps];
        let sums = &mut self.sums[..self.steps];
        if delivery_first {
            repeat(places);
            sums[0] = [0; 4];
            repeat(&mut sums[1..]);
        } else {
            repeat(sums);
            places[0] = [0; 2];
            repeat(&mut places[1..]);
        }
    }

    /// Clears the entries after the last step; answers the number of steps.
    pub fn finish(self) -> usize {
        self.places[self.steps..].as_flattened_mut().fill(0);
        self.sums[self.steps..].as_flattened_mut().fill(0);
        self.steps
    }
}

/// Makes each second entry the same as the one before it.
fn repeat<T: Copy>(entries: &mut [T]) {
    for pair in entries.chunks_exact_mut(2) {
        pair[1] = pair[0];
    }
}

/// Writes the plan along a line that admits one. `last` is its last place.
#[inline(always)]
pub fn write<L: Line>(frame: &Frame, line: &L, last: usize, mut plan: Writer) -> usize {
    run(frame, line, last, &mut plan);
    plan.finish()
}

/// The steps of that plan.
#[inline(always)]
pub fn run<L: Line>(frame: &Frame, line: &L, last: usize, plan: &mut Writer) {
    let frame = *frame;
    let mut at = line.start();
    let mut paid = 0;
    while paid < frame.last_lower {
        let sum = frame.upper(at.level);
        at = line.go(at, paid - frame.low);
        plan.step(at.place, sum);
        paid = sum;
    }
    // Now everything may be delivered, and once it is, everything may be paid.
    let sum = frame.upper(at.level);
    plan.step(last, sum);
    if sum < frame.price {
        plan.step(last, frame.price);
    }
}

impl Line for Ladder<'_> {
    #[inline(always)]
    fn go(&self, mut at: At, most: i64) -> At {
        while let Some(bytes) = self.rises.get(at.place) {
            let unit = rise(bytes);
            if at.level.value + unit.value > most {
                break;
            }
            at.level.cost += unit.cost;
            at.level.value += unit.value;
            at.place += 1;
        }
        at
    }
}

impl Places for Ladder<'_> {
    #[inline(always)]
    fn start(&self) -> At {
        At::default()
    }

    #[inline(always)]
    fn to(&self, mut at: At, place: usize) -> Option<At> {
        for bytes in self.rises.get(at.place..place)? {
            let unit = rise(bytes);
            at.level.cost += unit.cost;
            at.level.value += unit.value;
        }
        at.place = place;
        Some(at)
    }
}

/// Whether a ladder admits a plan: the start is safe, and at each place enough may be paid for the next unit.
pub fn admits(frame: &Frame, ladder: &Ladder) -> bool {
    if !frame.safe_start(Level::default()) {
        return false;
    }
    let room = frame.high - frame.low;
    // No value is above the whole value: often that is enough, and the units need not be looked at.
    ladder.all.value <= room || widest(ladder.rises) <= room
}

/// The greatest difference between the value of a place and the cost of the place before it.
fn widest(rises: &[[u8; 8]]) -> i64 {
    // Four parts at once, since each sum waits for the one before it. A part's differences are counted from its start.
    let (parts, rest) = rises.split_at(rises.len() / 4 * 4);
    let quarter = parts.len() / 4;
    let (front, back) = parts.split_at(2 * quarter);
    let (first, second) = front.split_at(quarter);
    let (third, fourth) = back.split_at(quarter);
    let mut gaps = [Gap::new(); 4];
    for (((first, second), third), fourth) in first.iter().zip(second).zip(third).zip(fourth) {
        gaps[0].add(first);
        gaps[1].add(second);
        gaps[2].add(third);
        gaps[3].add(fourth);
    }
    let mut all = Gap::new();
    for gap in gaps {
        all.most = all.most.max(all.now + gap.most);
        all.now += gap.now;
    }
    rest.iter().for_each(|bytes| all.add(bytes));
    all.most
}

/// Value less cost of the units so far, and the most that the value of a unit went above it.
#[derive(Clone, Copy)]
struct Gap {
    now: i64,
    most: i64,
}

impl Gap {
    fn new() -> Self {
        // No amount is as great, and sums with it stay far from the ends of the numbers.
        Gap { now: 0, most: -(1 << 60) }
    }

    #[inline(always)]
    fn add(&mut self, bytes: &[u8; 8]) {
        let unit = rise(bytes);
        self.most = self.most.max(self.now + unit.value);
        self.now += unit.value - unit.cost;
    }
}
