//! Plans that are brought: those of the planner, changed somewhere.

use crate::deals::Areas;
use crate::random::Random;

#[derive(Debug)]
pub struct Brought {
    pub count: usize,
    pub places: Vec<u8>,
    pub sums: Vec<u8>,
    pub order: Vec<u8>,
}

impl Brought {
    /// What a step says for a side: its place for 0, its sum for 1; 0 if there is no such step.
    pub fn entry(&self, side: u32, step: usize) -> u32 {
        match side {
            0 => self.places.as_chunks::<2>().0.get(step).map_or(0, |place| u16::from_le_bytes(*place) as u32),
            _ => self.sums.as_chunks::<4>().0.get(step).map_or(0, |sum| u32::from_le_bytes(*sum)),
        }
    }
}

impl Brought {
    /// The steps that count, if the areas hold so many.
    pub fn steps(&self) -> Option<Vec<(usize, i64)>> {
        let places = self.places.as_chunks::<2>().0.get(..self.count)?;
        let sums = self.sums.as_chunks::<4>().0.get(..self.count)?;
        let entry = |(place, sum): (&[u8; 2], &[u8; 4])| (u16::from_le_bytes(*place) as usize, u32::from_le_bytes(*sum) as i64);
        Some(places.iter().zip(sums).map(entry).collect())
    }
}

/// Order bytes: those of a plan, or others.
pub fn some_order(random: &mut Random, planned: &Areas) -> Vec<u8> {
    let mut order = planned.order.clone();
    match random.below(8) {
        0 => order.iter_mut().for_each(|byte| *byte = 0),
        1 => order[random.below(8) as usize] = random.below(10) as u8,
        2 => order.swap(random.below(8) as usize, random.below(8) as usize),
        3 => order.truncate(random.below(9) as usize),
        4 => order.extend([7, 7]),
        _ => {}
    }
    order
}

/// A plan of `steps` steps as it was planned, or changed in some entries, in its lengths, in its order.
pub fn some_plan(random: &mut Random, planned: &Areas, steps: usize) -> Brought {
    let mut entries: Vec<_> = (0..steps).map(|step| (planned.place(step) as u16, planned.sum(step))).collect();
    for _ in 0..random.below(3) {
        if !entries.is_empty() {
            change(random, &mut entries);
        }
    }
    if random.once_in(4) {
        entries.insert(0, (0, 0));
    }
    lay_out(random, planned, &entries)
}

fn change(random: &mut Random, entries: &mut Vec<(u16, u32)>) {
    let at = random.below(entries.len() as u64) as usize;
    let (place, sum) = entries[at];
    match random.below(7) {
        0 => entries[at].0 = place.wrapping_add(random.within(1, 3) as u16).wrapping_sub(2),
        1 => entries[at].1 = sum.wrapping_add(random.within(1, 3) as u32).wrapping_sub(2),
        // A step that moves nothing stays safe.
        2 | 3 => entries.insert(at, (place, sum)),
        // The payment alone first: safe too.
        4 => entries.insert(at, (if at == 0 { 0 } else { entries[at - 1].0 }, sum)),
        5 => drop(entries.remove(at)),
        _ => entries[at].1 = random.next() as u32,
    }
}

fn lay_out(random: &mut Random, planned: &Areas, entries: &[(u16, u32)]) -> Brought {
    let mut count = entries.len();
    if random.once_in(10) {
        count = random.below(count as u64 + 3) as usize;
    }
    let mut places: Vec<u8> = entries.iter().flat_map(|entry| entry.0.to_le_bytes()).collect();
    let mut sums: Vec<u8> = entries.iter().flat_map(|entry| entry.1.to_le_bytes()).collect();
    match random.below(10) {
        0 => places.truncate(places.len().saturating_sub(1)),
        1 => sums.truncate(sums.len().saturating_sub(random.within(1, 4) as usize)),
        2 => places.extend([1, 2, 3]),
        3 => sums.extend([1, 2, 3, 4, 5]),
        _ => {}
    }
    let order = if random.once_in(4) { some_order(random, planned) } else { planned.order.clone() };
    Brought { count, places, sums, order }
}
