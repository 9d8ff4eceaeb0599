//! A third opinion for small deals: whether a plan exists and how few steps one has, how few payments, deliveries and moves, by
//! plain search from the definitions.

use crate::deals::{held, rows, Terms};
use crate::sample::{Content, Sample};

/// All places of a deal, or all amounts of delivered units.
struct Places {
    price: i64,
    /// What the goods cost in all, and what they are worth, counted from place 0.
    rise: (i64, i64),
    lower: Vec<i64>,
    upper: Vec<i64>,
    units: Vec<Vec<usize>>,
}

fn places(terms: Terms, levels: &[(i64, i64)], units: Vec<Vec<usize>>) -> Places {
    let (first, last) = (levels[0], levels[levels.len() - 1]);
    let rise = (last.0 - first.0, last.1 - first.1);
    let price = terms.price as i64;
    let lower = levels.iter().map(|level| (price - last.1 + level.1 - terms.buyer as i64).max(0)).collect();
    let upper = levels.iter().map(|level| (price - last.0 + level.0 + terms.supplier as i64).min(price)).collect();
    Places { price, rise, lower, upper, units }
}

impl Places {
    /// Leaving costs nothing while nothing has moved; from then on the bounds decide.
    fn safe(&self, place: usize, paid: i64) -> bool {
        if (place, paid) == (0, 0) {
            self.rise.0 <= self.price && self.price <= self.rise.1
        } else {
            self.within_bounds(place, paid)
        }
    }

    fn within_bounds(&self, place: usize, paid: i64) -> bool {
        self.lower[place] <= paid && paid <= self.upper[place]
    }

    fn holds(&self, place: usize, other: usize) -> bool {
        self.units[place].iter().zip(&self.units[other]).all(|(more, less)| more >= less)
    }

    fn is_step(&self, from: (usize, i64), to: (usize, i64)) -> bool {
        let states = [from, (to.0, from.1), (from.0, to.1), to];
        self.holds(to.0, from.0) && to.1 >= from.1 && states.iter().all(|state| self.safe(state.0, state.1))
    }

    /// The fewest steps of a plan, none if there is none. A step that pays the most it can is never worse than another.
    fn fewest(&self) -> Option<usize> {
        let last = self.lower.len() - 1;
        let mut best = vec![None; last + 1];
        best[0] = Some(0);
        for steps in 1.. {
            let mut next = best.clone();
            for (from, paid) in best.iter().enumerate().filter_map(|(place, paid)| Some((place, (*paid)?))) {
                let sum = self.upper[from];
                for to in 0..=last {
                    if self.is_step((from, paid), (to, sum)) {
                        next[to] = next[to].max(Some(sum));
                    }
                }
            }
            if next[last] == Some(self.price) {
                return Some(steps);
            }
            if next == best {
                return None;
            }
            best = next;
        }
        None
    }
}

/// No plan weighs as much.
const FAR: usize = usize::MAX / 2;
/// So many states are looked at.
const MOST_STATES: usize = 1000;

impl Places {
    /// The least weight of a plan along one order, by what a payment and a delivery weigh. All sums are tried. A step with both
    /// moves weighs as much as two steps with one each, which are safe because its four states are.
    fn lightest(&self, payment: usize, delivery: usize) -> usize {
        // The least weights so far with each sum at an earlier place.
        let mut earlier = vec![FAR; self.price as usize + 1];
        earlier[0] = if self.safe(0, 0) { 0 } else { FAR };
        let mut weight = FAR;
        for place in 0..self.lower.len() {
            let mut smaller = FAR;
            for (paid, earlier) in earlier.iter_mut().enumerate() {
                let delivered = if place > 0 { delivery } else { 0 };
                let reached = self.safe(place, paid as i64);
                weight = if reached { (*earlier + delivered).min(smaller + payment) } else { FAR };
                *earlier = weight.min(*earlier);
                smaller = weight.min(smaller);
            }
        }
        weight
    }
}

/// Plans in which the start is not judged.
impl Places {
    fn safe_or_start(&self, state: (usize, i64)) -> bool {
        state == (0, 0) || self.within_bounds(state.0, state.1)
    }

    /// Each step goes as far as it can. None if that does not come to the end.
    fn walk(&self) -> Option<Vec<(usize, i64)>> {
        let last = self.lower.len() - 1;
        let mut steps = Vec::new();
        let (mut place, mut paid) = (0, 0);
        while (place, paid) != (last, self.price) {
            let to = (place..=last).rev().find(|to| self.holds(*to, place) && self.safe_or_start((*to, paid)))?;
            let before = (place, paid);
            (paid, place) = (self.upper[place].max(paid), to);
            if (place, paid) == before {
                return None;
            }
            steps.push((place, paid));
        }
        Some(steps).filter(|steps| self.is_walk(steps))
    }

    fn is_walk(&self, steps: &[(usize, i64)]) -> bool {
        let last = self.lower.len() - 1;
        let mut from = (0, 0);
        for to in steps {
            let forth = to.0 <= last && self.holds(to.0, from.0) && to.1 >= from.1;
            if !forth || ![(to.0, from.1), (from.0, to.1), *to].iter().all(|state| self.safe_or_start(*state)) {
                return false;
            }
            from = *to;
        }
        from == (last, self.price)
    }
}

/// The places of a deal; of unit prices along the order that is handed in.
fn along(terms: Terms, content: &Content, order: &[u8]) -> Places {
    match content {
        Content::Ladder(rises) => ladder(terms, rises),
        Content::Items(items) => ladder(terms, &in_order(items, order)),
        Content::Table(units, costs, values) => table(terms, units, costs, values),
    }
}

/// For a deal that has no plan: steps that are safe but for the start, if they are easily found.
pub fn walk(sample: &Sample, order: &[u8]) -> Option<Vec<(usize, i64)>> {
    along(sample.terms, &sample.content, order).walk()
}

/// Whether brought steps are safe, or would be but for the start.
pub fn is_walk(sample: &Sample, order: &[u8], steps: &[(usize, i64)]) -> bool {
    along(sample.terms, &sample.content, order).is_walk(steps)
}

/// What is counted of a deal with steps that are safe but for the start, if it is not: where the price is in the start's range,
/// at its ends or beyond them, and whether defection costs alone make states next to the start safe, or would save the start.
pub fn start_kinds(sample: &Sample, order: &[u8], steps: &[(usize, i64)]) -> Vec<&'static str> {
    let Sample { terms, content, .. } = sample;
    let places = along(*terms, content, order);
    let free = along(Terms { supplier: 0, buyer: 0, ..*terms }, content, order);
    let (price, rise) = (places.price, places.rise);
    let last = match content {
        Content::Table(_, costs, values) => (costs[costs.len() - 1] as i64, values[values.len() - 1] as i64),
        _ => rise,
    };
    let (safe, saved) = (places.safe(0, 0), places.within_bounds(0, 0));
    let (low, high) = (saved && price < rise.0 && price <= rise.1, saved && price > rise.1 && price >= rise.0);
    let pairs = std::iter::once(&(0, 0)).chain(steps).zip(steps);
    let passed = pairs.flat_map(|(from, to)| [(to.0, from.1), (from.0, to.1), *to]).filter(|state| *state != (0, 0));
    let costly: Vec<_> = passed.filter(|state| !free.within_bounds(state.0, state.1)).collect();
    let kinds = [
        (safe && price == rise.0, "planned, price at the lower end"),
        (safe && price == rise.1, "planned, price at the upper end"),
        (safe && price < last.0, "planned, price below the last row's cost"),
        (safe && costly.iter().any(|state| state.1 == 0), "planned, (a, 0) safe by defection costs only"),
        (safe && costly.iter().any(|state| state.0 == 0), "planned, (0, q) safe by defection costs only"),
        (low, "start alone not safe, price too low"),
        (high, "start alone not safe, price too high"),
        (high && price <= last.1, "start alone not safe, price not above the last row's value"),
        (!saved, "start alone not safe, nor saved by defection costs"),
    ];
    kinds.into_iter().filter_map(|(is, kind)| is.then_some(kind)).collect()
}

/// The fewest payments, the fewest deliveries and the fewest moves of plans along the order that is handed in; none for a
/// table, or if there are too many states.
pub fn sparing(sample: &Sample, order: &[u8]) -> Option<[usize; 3]> {
    let rises = match &sample.content {
        Content::Ladder(rises) => rises.clone(),
        Content::Items(items) => in_order(items, order),
        Content::Table(..) => return None,
    };
    if (rises.len() + 1) * (sample.terms.price as usize + 1) > MOST_STATES {
        return None;
    }
    let places = ladder(sample.terms, &rises);
    Some([(1, 0), (0, 1), (1, 1)].map(|(payment, delivery)| places.lightest(payment, delivery)))
}

/// The units of the items in the order that the eight order bytes name; the area may be longer.
fn in_order(items: &[(u8, u32, u32)], order: &[u8]) -> Vec<(u32, u32)> {
    let named = order.iter().take(8).filter_map(|number| items.get((*number as usize).wrapping_sub(1)));
    named.flat_map(|item| (0..item.0).map(|_| (item.1, item.2))).collect()
}

/// What planning should answer.
#[derive(Debug)]
pub enum Expected {
    Impossible,
    /// Along the order that is chosen; another order may need fewer steps.
    Possible,
    Steps(usize),
}

impl Expected {
    pub fn allows(&self, answer: i64) -> bool {
        match self {
            Expected::Impossible => answer == -9,
            Expected::Possible => answer > 0,
            Expected::Steps(steps) => answer == *steps as i64,
        }
    }
}

/// What planning a sample should answer; none if the sample is too large for a plain search.
pub fn expect(sample: &Sample) -> Option<Expected> {
    let steps = match &sample.content {
        Content::Ladder(rises) if rises.len() <= 40 => ladder(sample.terms, rises).fewest(),
        Content::Table(units, costs, values) if costs.len() <= 64 => table(sample.terms, units, costs, values).fewest(),
        Content::Items(all) => {
            let units: Vec<u8> = all.iter().map(|item| item.0).collect();
            let amounts = Some(rows(&units)).filter(|rows| *rows <= 150)?;
            let fewest = items(sample.terms, all, (0..amounts).map(|row| held(&units, row)).collect()).fewest();
            return Some(fewest.map_or(Expected::Impossible, |_| Expected::Possible));
        }
        _ => return None,
    };
    Some(steps.map_or(Expected::Impossible, Expected::Steps))
}

fn ladder(terms: Terms, rises: &[(u32, u32)]) -> Places {
    let mut levels = vec![(0, 0)];
    for (at, rise) in rises.iter().enumerate() {
        levels.push((levels[at].0 + rise.0 as i64, levels[at].1 + rise.1 as i64));
    }
    places(terms, &levels, (0..levels.len()).map(|place| vec![place]).collect())
}

/// Every order of the units is a way through these amounts of each item.
fn items(terms: Terms, items: &[(u8, u32, u32)], amounts: Vec<Vec<usize>>) -> Places {
    let level = |amounts: &Vec<usize>| {
        let parts = amounts.iter().zip(items).map(|(count, item)| (*count as i64, item));
        parts.fold((0, 0), |sum, (count, item)| (sum.0 + count * item.1 as i64, sum.1 + count * item.2 as i64))
    };
    let levels: Vec<_> = amounts.iter().map(level).collect();
    places(terms, &levels, amounts)
}

fn table(terms: Terms, units: &[u8], costs: &[u32], values: &[u32]) -> Places {
    let levels: Vec<_> = costs.iter().zip(values).map(|(cost, value)| (*cost as i64, *value as i64)).collect();
    places(terms, &levels, (0..costs.len()).map(|row| held(units, row)).collect())
}
