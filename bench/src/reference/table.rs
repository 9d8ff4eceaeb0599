//! Tables: of the plans with fewest steps over all orders, the one whose list of rows is earliest.
//!
//! The search goes back from the last row. With a number of steps left, a row has a need: the smallest sum paid there
//! from which these steps lead to the end. Once a row has one, one step more lowers it to the lower bound of the row, since
//! that step can pay all that may be paid there. So a row has only two needs that count, and leads back to
//! other rows twice at most. The plan is then written forwards: each step goes to the first row whose need is met.
//!
//! Sums are counted here from `low`, so that a sum allows a row if it is not below the value of the row.

use super::line::Writer;
use super::record::{Frame, Table, MOST_ROWS};

/// The units of each row, a byte an item, the last item lowest; no row has more than 127 of one.
pub struct Held([u32; MOST_ROWS]);

impl Held {
    pub fn new(table: &Table) -> Self {
        let mut held = [0; MOST_ROWS];
        for (row, entry) in held.iter_mut().enumerate() {
            *entry = row as u32;
        }
        let last = table.items - 1;
        let mut stride = table.units[last & 3] + 1;
        for (item, units) in table.units[..last].iter().rev().enumerate() {
            for unit in 1..=*units {
                let (before, rest) = held.split_at_mut(unit * stride);
                for (entry, less) in rest[..stride].iter_mut().zip(before) {
                    *entry = *less + ((unit as u32) << (8 * item + 8));
                }
            }
            stride *= units + 1;
        }
        Held(held)
    }

    #[inline(always)]
    fn of(&self, row: usize) -> u32 {
        self.0[row & (MOST_ROWS - 1)]
    }

    /// Whether a row holds at least the units of another. With the top bits set first no byte borrows from the next;
    /// a top bit stays if there are not fewer units of its item.
    #[inline(always)]
    pub fn holds(&self, row: usize, other: usize) -> bool {
        const TOP: u32 = 0x8080_8080;
        ((self.of(row) | TOP) - self.of(other)) & TOP == TOP
    }
}

/// What leads from a row to the end: the number of steps in the upper half, in the lower half the need with so many. Fewer
/// steps are better, and then a smaller need: the smaller number is better.
type Rest = u64;

/// Nothing leads to the end.
const NONE: Rest = u64::MAX;

fn rest(steps: usize, need: u32) -> Rest {
    (steps as u64) << 32 | need as u64
}

/// An item: how far off the row with one unit less is, and where its byte stands in the units of a row.
#[derive(Clone, Copy, Default)]
struct Side {
    stride: usize,
    shift: u32,
    mask: u32,
}

pub struct Search<'a> {
    frame: Frame,
    table: &'a Table,
    held: Held,
    /// The items from the last to the first.
    sides: [Side; 4],
    rest: [Rest; MOST_ROWS],
    /// The rows that lead to the end, in the order in which they were found, and how many there are.
    found: [u8; MOST_ROWS],
    count: usize,
}

impl<'a> Search<'a> {
    pub fn new(frame: &Frame, table: &'a Table) -> Self {
        let mut sides = [Side::default(); 4];
        let mut stride = 1;
        for (item, (side, units)) in sides.iter_mut().zip(table.units[..table.items].iter().rev()).enumerate() {
            let shift = 8 * item as u32;
            *side = Side { stride, shift, mask: 0xff << shift };
            stride *= units + 1;
        }
        let mut search = Search {
            frame: *frame,
            table,
            held: Held::new(table),
            sides,
            rest: [NONE; MOST_ROWS],
            found: [0; MOST_ROWS],
            count: 0,
        };
        // The last row needs the price.
        search.find(table.rows - 1, rest(0, (frame.price - frame.low) as u32));
        search
    }

    /// The most that may be paid at a row, not cut to the price: nothing needs more than the price.
    #[inline(always)]
    fn most(&self, row: usize) -> i64 {
        self.table.cost[row & (MOST_ROWS - 1)] as i64 + self.frame.high - self.frame.low
    }

    /// The number of steps of a fewest plan, or none.
    pub fn run(&mut self) -> Option<usize> {
        if !self.frame.safe_start(self.table.level(0)) {
            return None;
        }
        // Rows found before `old` have led back twice, those before `new` once.
        let (mut old, mut new) = (0, 0);
        let mut steps = 1;
        while old < self.count {
            if let Some(need) = self.arrival(old, new) {
                self.rest[0] = rest(steps, need);
                return Some(steps + (need as i64 > -self.frame.low) as usize);
            }
            let end = self.count;
            for at in old..end {
                let (row, need) = self.source(at, at >= new);
                self.lead(row, need, steps);
            }
            (old, new) = (new, end);
            steps += 1;
        }
        None
    }

    /// A row that was found, and its need: its own value if it has led back before.
    #[inline(always)]
    fn source(&self, at: usize, fresh: bool) -> (usize, u32) {
        let row = self.found[at & (MOST_ROWS - 1)] as usize & (MOST_ROWS - 1);
        (row, if fresh { self.rest[row] as u32 } else { self.table.value[row] })
    }

    /// The need of row 0 with one step more, if it has one.
    #[inline(always)]
    fn arrival(&self, old: usize, new: usize) -> Option<u32> {
        let most = self.most(0);
        let sources = (old..self.count).map(|at| self.source(at, at >= new));
        let near = sources.filter(|(_, need)| *need as i64 <= most);
        near.map(|(row, _)| self.table.value[row]).min()
    }

    /// Finds the rows from which a step can go to a row and pay what it needs: it must hold their units. Costs never
    /// fall, so what lies behind a row that is too cheap is too cheap.
    #[inline(always)]
    fn lead(&mut self, row: usize, need: u32, steps: usize) {
        let least = (need as i64 + self.frame.low - self.frame.high).max(0) as u32;
        let rest = rest(steps, self.table.value[row]);
        let held = self.held.of(row);
        let mut left = held;
        let mut head = row;
        'heads: loop {
            self.lead_last(head, (held & 0xff) as usize, least, rest);
            for side in &self.sides[1..self.table.items] {
                let before = head.wrapping_sub(side.stride) & (MOST_ROWS - 1);
                if left & side.mask != 0 && self.table.cost[before] >= least {
                    left -= 1 << side.shift;
                    head = before;
                    self.find(head, rest);
                    continue 'heads;
                }
                // Back to what the row itself holds of this item, and on to the next.
                let used = (held - left) & side.mask;
                head += (used >> side.shift) as usize * side.stride;
                left += used;
            }
            return;
        }
    }

    /// The same for the last item alone, whose units stand in neighbouring rows.
    #[inline(always)]
    fn lead_last(&mut self, head: usize, units: usize, least: u32, rest: Rest) {
        for row in (head - units..head).rev() {
            if self.table.cost[row & (MOST_ROWS - 1)] < least {
                break;
            }
            self.find(row, rest);
        }
    }

    /// Notes what leads from a row to the end, if it is better than what was found before.
    #[inline(always)]
    fn find(&mut self, row: usize, rest: Rest) {
        let best = &mut self.rest[row & (MOST_ROWS - 1)];
        if *best == NONE {
            self.found[self.count & (MOST_ROWS - 1)] = row as u8;
            self.count += 1;
        }
        *best = rest.min(*best);
    }

    /// Writes the plan of `steps` steps.
    pub fn write(&self, steps: usize, mut plan: Writer) -> usize {
        let last = self.table.rows - 1;
        let mut row = 0;
        let mut paid = -self.frame.low;
        for left in (0..steps).rev() {
            let sum = self.most(row);
            let enough = rest(left, sum as u32);
            let fits = |next: &usize| {
                let at = next & (MOST_ROWS - 1);
                self.rest[at] <= enough && self.table.value[at] as i64 <= paid && self.held.holds(at, row)
            };
            let next = (row..last).find(fits).unwrap_or(last);
            plan.step(next, (sum + self.frame.low).min(self.frame.price));
            (row, paid) = (next, sum);
        }
        plan.finish()
    }
}
