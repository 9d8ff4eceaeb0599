//! Unit prices: chooses the order of the items and walks along it, a run of equal units at a time.

use super::line::{At, Line, Places};
use super::record::{Frame, Items, Level, Run};

/// Order bytes: item numbers from 1, then zeros.
pub type Order = [u8; 8];

/// The order in which the items are delivered, or none if no order of the units admits a plan.
///
/// The room is the upper bound less the lower bound, both unclipped. A unit can be delivered if its value is at most the
/// room before it, that is, if its cost is at most the room after it. Items that do not lessen the room come first, always
/// the one that widens it most among those that can be delivered. Read backwards, the others widen the room as well, with
/// cost and value exchanged: they are placed in the same way from the end. An item that can be delivered keeps that while
/// the room grows, so whichever is taken, the others are not worse off, and no order does better.
pub fn choose(items: &Items, frame: &Frame) -> Option<Order> {
    let (mut first, mut last) = (Waiting::default(), Waiting::default());
    for (item, run) in items.runs[..items.count].iter().enumerate() {
        if run.cost >= run.value {
            first.add(item, run.cost - run.value);
        } else {
            last.add(item, run.value - run.cost);
        }
    }
    let room = frame.high - frame.low;
    let last_room = room + items.all.cost - items.all.value;
    let placed = first.place(items, room, |run| run.value) && last.place(items, last_room, |run| run.cost);
    if !placed || !frame.safe_start(Level::default()) {
        return None;
    }
    let mut order = [0; 8];
    let in_order = first.items().chain(last.items().rev());
    order.iter_mut().zip(in_order).for_each(|(entry, item)| *entry = item as u8 + 1);
    Some(order)
}

/// Items that are to be placed. A key is the gain of a unit, that is, by how much it widens the room, and the item number.
#[derive(Default)]
struct Waiting {
    keys: [u64; 8],
    count: usize,
}

impl Waiting {
    /// Puts an item behind those of the same or a greater gain. Items are added by number, so the lower number is first.
    fn add(&mut self, item: usize, gain: i64) {
        let mut at = self.count;
        while at > 0 && ((self.keys[(at - 1) & 7] >> 8) as i64) < gain {
            self.keys[at & 7] = self.keys[(at - 1) & 7];
            at -= 1;
        }
        self.keys[at & 7] = (gain as u64) << 8 | item as u64;
        self.count += 1;
    }

    /// Takes, again and again, the first item with a unit that fits into the room. False if items are left that do not.
    fn place(&mut self, items: &Items, mut room: i64, size: impl Fn(&Run) -> i64) -> bool {
        for at in 0..self.count {
            let waiting = &mut self.keys[at..self.count];
            let Some(taken) = waiting.iter().position(|key| size(&items.runs[*key as usize & 7]) <= room) else {
                return false;
            };
            waiting[..=taken].rotate_right(1);
            let key = waiting[0];
            room += items.runs[key as usize & 7].units * (key >> 8) as i64;
        }
        true
    }

    fn items(&self) -> impl DoubleEndedIterator<Item = usize> + '_ {
        self.keys[..self.count].iter().map(|key| *key as usize & 7)
    }
}

/// Whether the order bytes name each item once, and then zeros.
pub fn names_each(order: &Order, count: usize) -> bool {
    let mut seen = 0u32;
    for item in &order[..count] {
        if *item == 0 || *item as usize > count {
            return false;
        }
        seen |= 1 << *item;
    }
    seen.count_ones() as usize == count && order[count..].iter().all(|byte| *byte == 0)
}

/// Runs of equal units, one after the other.
pub struct Runs {
    runs: [Run; 8],
    /// The place after each run, and its level.
    ends: [(usize, Level); 8],
    count: usize,
}

impl Runs {
    /// `order` names each item once.
    pub fn new(items: &Items, order: &Order) -> Self {
        let mut line = Runs { runs: [Run::default(); 8], ends: [(0, Level::default()); 8], count: items.count };
        let (mut place, mut level) = (0, Level::default());
        for ((run, end), item) in line.runs.iter_mut().zip(&mut line.ends).zip(&order[..items.count]) {
            *run = items.runs[(*item as usize - 1) & 7];
            place += run.units as usize;
            level.cost += run.units * run.cost;
            level.value += run.units * run.value;
            *end = (place, level);
        }
        line
    }

    /// Units of the open run further.
    #[inline(always)]
    fn pass(&self, at: At, units: i64) -> At {
        let run = &self.runs[at.run & 7];
        let level = Level { cost: at.level.cost + units * run.cost, value: at.level.value + units * run.value };
        At { place: at.place + units as usize, level, run: at.run }
    }

    /// The start of the run after the open one.
    #[inline(always)]
    fn next(&self, at: At) -> At {
        let (place, level) = self.ends[at.run & 7];
        At { place, level, run: at.run + 1 }
    }
}

impl Line for Runs {
    #[inline(always)]
    fn go(&self, mut at: At, most: i64) -> At {
        while self.ends[at.run & 7].1.value <= most {
            at = self.next(at);
        }
        let value = self.runs[at.run & 7].value;
        let room = most - at.level.value;
        if room < value {
            return at;
        }
        // A division is slower than a comparison, and a single unit is common. The run goes on after these units, so
        // its value is not 0.
        let units = if room < 2 * value { 1 } else { room as u32 / (value as u32).max(1) };
        self.pass(at, units as i64)
    }
}

impl Places for Runs {
    #[inline(always)]
    fn start(&self) -> At {
        At::default()
    }

    #[inline(always)]
    fn to(&self, at: At, place: usize) -> Option<At> {
        if place < at.place || place > self.ends[(self.count - 1) & 7].0 {
            return None;
        }
        let mut run = at.run;
        while self.ends[run & 7].0 < place {
            run += 1;
        }
        // Counted back from the end of its run, a place need not wait for the one before it.
        let (end, level) = self.ends[run & 7];
        let missing = self.pass(At { place: 0, level: Level::default(), run }, (end - place) as i64).level;
        let level = Level { cost: level.cost - missing.cost, value: level.value - missing.value };
        Some(At { place, level, run })
    }
}
