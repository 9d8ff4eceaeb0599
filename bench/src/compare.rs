//! Compares the library and the reference on pseudo-random records of all forms, damaged ones too: every answer and every
//! byte of every area must be the same.

use crate::brought::{some_order, some_plan, Brought};
use crate::damage::damage;
use crate::deals::{Areas, Deal};
use crate::plain;
use crate::program::{Program, LIBRARY, REFERENCE, SPARING};
use crate::random::Random;
use crate::sample::{self, Sample};
use std::collections::BTreeMap;
use std::fmt::Debug;

/// How many disagreements are printed whole.
const SHOWN: usize = 20;

#[derive(Default)]
struct Tally {
    records: u64,
    calls: u64,
    plans: u64,
    searched: u64,
    disagreements: usize,
    /// How often the library refused a call with each number; at 0, how often it did not refuse.
    answers: [u64; 13],
    /// How often the library gave each answer to whether a session is finished.
    finished: BTreeMap<u32, u64>,
    /// How many deals and brought plans of each kind there were, by their starts.
    starts: BTreeMap<&'static str, u64>,
}

/// Compares `count` records; true if all agree.
pub fn run(count: u64) -> bool {
    let mut random = Random::new(0x005e_ed0f_a11d_ea15);
    let mut tally = Tally::default();
    for _ in 0..count {
        let sample = sample::any(&mut random);
        let mut record = sample.deal.record.clone();
        let whole = !random.once_in(3);
        if !whole {
            damage(&mut random, &mut record);
        }
        tally.records += 1;
        let mut case = Case { tally: &mut tally, random: &mut random, record: &record, deal: &sample.deal };
        case.all(whole.then_some(&sample));
    }
    tally.print();
    tally.disagreements == 0
}

impl Tally {
    fn print(&self) {
        println!("records {}, of these planned {}", self.records, self.plans);
        println!("calls compared {}", self.calls);
        println!("answers held to a plain search {}", self.searched);
        let numbers = self.answers.iter().enumerate().skip(1);
        let refusals: Vec<String> = numbers.map(|(number, count)| format!("{number}: {count}")).collect();
        println!("refusals by number {}", refusals.join(", "));
        println!("answers to whether a session is finished {:?}", self.finished);
        self.starts.iter().for_each(|(kind, count)| println!("{kind} {count}"));
        println!("disagreements {}", self.disagreements);
    }
}

/// One record under comparison.
struct Case<'a> {
    tally: &'a mut Tally,
    random: &'a mut Random,
    record: &'a [u8],
    deal: &'a Deal,
}

impl Case<'_> {
    /// `sample` is what the record says, unless it is damaged.
    fn all(&mut self, sample: Option<&Sample>) {
        let (answer, mut planned) = self.plan("plan", self.deal.areas(0), Program::plan_into);
        let mut steps = answer.max(0) as usize;
        self.tally.plans += (steps > 0) as u64;
        if let Some(sample) = sample {
            self.search(sample, answer);
            if steps == 0 {
                // No order was left, and with a wrong one nothing would be answered of deals that have no plan.
                planned.order = sample.order();
                steps = self.bring(sample, &mut planned);
            }
            if steps > 0 {
                let states: Vec<_> = (0..steps).map(|step| (planned.place(step) as usize, planned.sum(step) as i64)).collect();
                plain::start_kinds(sample, &planned.order, &states).into_iter().for_each(|kind| self.note(kind));
            }
        }
        let lent = self.varied();
        self.plan("plan", lent, Program::plan_into);
        self.sparing(sample);
        self.bounds(&planned);
        for _ in 0..3 {
            self.check(sample, &planned, steps);
        }
        self.session(sample, &planned, steps);
    }

    /// Brings a plan that is safe but for its start, for a deal that has none, if it is easily found; its number of steps.
    fn bring(&self, sample: &Sample, planned: &mut Areas) -> usize {
        let most = self.deal.most_steps();
        let walk = plain::walk(sample, &planned.order).filter(|steps| steps.len() <= most).unwrap_or_default();
        planned.put(&walk);
        walk.len()
    }

    fn note(&mut self, kind: &'static str) {
        *self.tally.starts.entry(kind).or_default() += 1;
    }

    /// Counts a brought plan that was refused for its start alone, and whether its first step stays there.
    fn note_start(&mut self, sample: Option<&Sample>, planned: &Areas, plan: &Brought, answer: u32) {
        let ordered = plan.order.get(..8) == planned.order.get(..8);
        let (Some(sample), Some(steps), true, 12) = (sample, plan.steps(), ordered, answer) else {
            return;
        };
        if plain::is_walk(sample, &planned.order, &steps) {
            let stays = steps.first() == Some(&(0, 0));
            self.note(if stays { "brought, start alone not safe, first step stays" } else { "brought, start alone not safe" });
        }
    }

    /// Makes a call to both programs. Counts it, prints it if the results differ, and hands on the library's result.
    fn both<T: PartialEq + Debug>(&mut self, what: impl Debug, call: impl Fn(&Program) -> T) -> T {
        let (ours, theirs) = (call(&LIBRARY), call(&REFERENCE));
        self.tally.calls += 1;
        if ours != theirs {
            self.disagree(what, [("library", &ours), ("reference", &theirs)]);
        }
        ours
    }

    fn disagree<T: Debug>(&mut self, what: impl Debug, results: [(&str, T); 2]) {
        self.tally.disagreements += 1;
        if self.tally.disagreements <= SHOWN {
            println!("DISAGREE {what:?}");
            results.iter().for_each(|(who, result)| println!("  {who}: {result:?}"));
            println!("  record: {}", self.record.iter().map(|byte| format!("{byte:02x}")).collect::<String>());
        }
    }

    /// Counts an answer of the library.
    fn seen(&mut self, answer: u32) {
        self.tally.answers[(answer as usize).min(12)] += 1;
    }

    /// Plans into areas of random bytes, as long as those that are handed in.
    fn plan(&mut self, what: &str, mut lent: Areas, call: impl Fn(&Program, &[u8], &mut Areas) -> i64) -> (i64, Areas) {
        for area in lent.each_mut() {
            self.random.fill(area);
        }
        let record = self.record;
        let (steps, areas) = self.both(what, |program| {
            let mut areas = lent.clone();
            (call(program, record, &mut areas), areas)
        });
        self.seen(steps.min(0).unsigned_abs() as u32);
        (steps, areas)
    }

    /// Plans in each sparing way, into areas that are long enough and into others.
    fn sparing(&mut self, sample: Option<&Sample>) {
        for (which, what) in SPARING.iter().enumerate() {
            let call = |program: &Program, record: &[u8], areas: &mut Areas| program.spare_into(which, record, areas);
            for mut lent in [self.deal.areas(0), self.varied()] {
                lent.work.clear();
                let (steps, areas) = self.plan(what, lent, call);
                if let Some(sample) = sample.filter(|_| steps > 0) {
                    self.search_sparing(sample, which, steps as usize, &areas);
                }
            }
        }
    }

    /// Areas of other lengths: longer, with odd ends, sometimes too short.
    fn varied(&mut self) -> Areas {
        let mut areas = self.deal.areas(0);
        for area in areas.each_mut() {
            let length = match self.random.below(12) {
                0 => self.random.below(area.len() as u64 + 1) as usize,
                1 => area.len().saturating_sub(1),
                2..=5 => area.len() + self.random.below(12) as usize,
                _ => area.len(),
            };
            area.resize(length, 0);
        }
        areas
    }

    /// Holds the number of steps to a plain search, where the deal is small.
    fn search(&mut self, sample: &Sample, steps: i64) {
        let Some(expected) = plain::expect(sample) else {
            return;
        };
        self.tally.searched += 1;
        if !expected.allows(steps) {
            self.disagree("plan", [("both", format!("{steps}")), ("plain search", format!("{expected:?}"))]);
        }
    }

    /// Holds the moves of a plan to a plain search, where the deal is small.
    fn search_sparing(&mut self, sample: &Sample, which: usize, steps: usize, areas: &Areas) {
        let Some(fewest) = plain::sparing(sample, &areas.order) else {
            return;
        };
        self.tally.searched += 1;
        let moves = areas.moves(steps);
        let count = [moves[0], moves[1], moves[0] + moves[1]][which];
        if count != fewest[which] {
            self.disagree(SPARING[which], [("both", count), ("plain search", fewest[which])]);
        }
    }

    fn bounds(&mut self, planned: &Areas) {
        let last = self.deal.last_place() as u64;
        for place in [0, last, last + 1, self.random.below(last + 3), self.random.below(last + 1), u64::MAX] {
            let order = some_order(self.random, planned);
            let length = if self.random.once_in(8) { self.random.below(20) } else { 16 } as usize;
            let record = self.record;
            let (answer, _) = self.both(("bounds", place, &order, length), |program| {
                let mut bounds = vec![0xa5; length];
                ((program.bounds)(record, place as usize, &order, &mut bounds), bounds)
            });
            self.seen(answer);
        }
    }

    fn check(&mut self, sample: Option<&Sample>, planned: &Areas, steps: usize) {
        let plan = some_plan(self.random, planned, steps);
        let (record, count) = (self.record, plan.count);
        let call = |program: &Program| (program.check)(record, count, &plan.places, &plan.sums, &plan.order);
        let answer = self.both(("check", &plan), call);
        self.seen(answer);
        self.note_start(sample, planned, &plan, answer);
    }

    fn session(&mut self, sample: Option<&Sample>, planned: &Areas, steps: usize) {
        let plan = some_plan(self.random, planned, steps);
        let length = if self.random.once_in(8) { self.random.below(14) } else { 10 };
        let before: Vec<u8> = (0..length).map(|_| self.random.byte()).collect();
        let record = self.record;
        let (answer, mut session) = self.both(("open", &plan, length), |program| {
            let mut session = before.clone();
            ((program.open)(&mut session, record, plan.count, &plan.places, &plan.sums, &plan.order), session)
        });
        self.seen(answer);
        self.note_start(sample, planned, &plan, answer);
        if answer != 0 {
            session = self.some_session(plan.count);
        }
        self.finished(&session, plan.count);
        for _ in 0..40.min(3 * plan.count + 4) {
            session = self.report(&plan, session);
        }
    }

    /// A session of any kind: reports need no check. Sometimes its area is too short, sometimes longer.
    fn some_session(&mut self, count: usize) -> Vec<u8> {
        let random = &mut *self.random;
        let passed = if random.once_in(5) { random.next() } else { random.below(count as u64 + 2) };
        let marks = [random.byte() & 3, random.byte() & 3];
        let tail = [random.byte(), random.byte(), random.byte(), random.byte()];
        let mut session = [&passed.to_le_bytes()[..], &marks, &tail].concat();
        session.truncate(match random.below(4) {
            0 => random.below(10),
            1 => random.within(11, 14),
            _ => 10,
        } as usize);
        session
    }

    fn finished(&mut self, session: &[u8], count: usize) {
        let answer = self.both(("finished", session, count), |program| (program.finished)(session, count));
        *self.tally.finished.entry(answer).or_default() += 1;
    }

    /// A report, mostly one that fits; the session after it.
    fn report(&mut self, plan: &Brought, session: Vec<u8>) -> Vec<u8> {
        let random = &mut *self.random;
        let passed = session.first_chunk().map_or(0, |bytes| u64::from_le_bytes(*bytes)) as usize;
        let mut side = random.below(2) as u32;
        let mut number = plan.entry(side, passed);
        match random.below(12) {
            0 => number = number.wrapping_add(1),
            1 => number = number.wrapping_add(1 << 16),
            2 => number = plan.entry(side, passed.wrapping_add(1)),
            3 => side = random.next() as u32,
            _ => {}
        }
        let count = if random.once_in(12) { random.below(plan.count as u64 + 3) as usize } else { plan.count };
        let (answer, after) = self.both(("report", side, number, count, &session, plan), |program| {
            let mut after = session.clone();
            ((program.report)(&mut after, count, &plan.places, &plan.sums, side, number), after)
        });
        self.seen(answer);
        self.finished(&after, count);
        after
    }
}
