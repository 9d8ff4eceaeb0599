//! The rows of the benchmark. In each, library and reference must first give the same; then they are timed.

use crate::carried::Carried;
use crate::cases::{self, Risk};
use crate::deals::{Areas, Deal};
use crate::pass;
use crate::program::{Program, LIBRARY, REFERENCE, SPARING};
use crate::timing::side_by_side;
use std::hint::black_box;

const RISKS: [Risk; 4] = [Risk::Great, Risk::Middle, Risk::Small, Risk::None];

/// Prints rows as they are timed.
pub struct Bench {
    pub rounds: usize,
    /// Only the deals whose names hold this text.
    pub only: String,
}

impl Bench {
    fn heading(&self, what: &str) {
        println!("\n### {what}\n");
        println!("| deal | steps | library ns | reference ns | plain pass ns | library / reference | library / pass |");
        println!("|---|--:|--:|--:|--:|--:|--:|");
    }

    fn wanted(&self, name: &str) -> bool {
        name.contains(&self.only)
    }

    fn row(&self, name: &str, steps: &str, times: [f64; 3]) {
        let [library, reference, pass] = times;
        let (to_reference, to_pass) = (library / reference, library / pass);
        println!("| {name} | {steps} | {library:.1} | {reference:.1} | {pass:.1} | {to_reference:.2} | {to_pass:.2} |");
    }

    pub fn all(&self) {
        self.planning();
        self.sparing();
        self.filling();
        self.checking();
        self.reporting();
        self.reading();
        self.growth();
    }

    fn planning(&self) {
        self.heading("Planning");
        for risk in RISKS {
            self.plan("ladder, 1,000 units", &cases::ladder(1000, risk));
        }
        for risk in RISKS {
            self.plan("eight items, 1,000 units", &cases::items(1000, risk));
        }
        for units in [&[127][..], &[1, 63], &[3, 3, 3, 1]] {
            for risk in [Risk::Great, Risk::Small, Risk::None] {
                self.plan(&format!("table, 128 rows, units {units:?}"), &cases::table(units, risk));
            }
        }
        for units in [&[7, 15][..], &[7, 3, 3], &[3, 3, 3, 1]] {
            self.plan(&format!("table, irregular cells, units {units:?}"), &cases::irregular_table(units));
        }
    }

    /// The same deals as for planning; the steps of each kind of plan are its own.
    fn sparing(&self) {
        for (which, what) in SPARING.iter().enumerate() {
            self.heading(&format!("Planning with {what}"));
            let call = |program: &Program, record: &[u8], areas: &mut Areas| program.spare_into(which, record, areas);
            for risk in RISKS {
                self.plan_by("ladder, 1,000 units", &cases::ladder(1000, risk), call);
            }
            for risk in RISKS {
                self.plan_by("eight items, 1,000 units", &cases::items(1000, risk), call);
            }
        }
    }

    fn plan(&self, name: &str, deal: &Deal) {
        self.plan_by(name, deal, Program::plan_into);
    }

    fn plan_by(&self, name: &str, deal: &Deal, call: impl Fn(&Program, &[u8], &mut Areas) -> i64) {
        if !self.wanted(name) {
            return;
        }
        let (steps, mut ours) = agreed(deal, &call);
        let mut theirs = ours.clone();
        let mut passed = ours.clone();
        let times = side_by_side(
            self.rounds,
            || keep_plan(&LIBRARY, deal, &mut ours, &call),
            || keep_plan(&REFERENCE, deal, &mut theirs, &call),
            || pass::plan(deal, &mut passed, steps > 0),
        );
        let steps = if steps > 0 { steps.to_string() } else { "impossible".to_string() };
        self.row(name, &steps, times);
    }

    /// What the form of the table search costs by itself: the requirements name an array of 128 sums of 32 bits, filled before
    /// each step. The last step needs no search.
    fn filling(&self) {
        self.heading("The form of the table search by itself (as library: only its array filled before each step)");
        for units in [&[127][..], &[1, 63]] {
            let name = format!("table, 128 rows, units {units:?}");
            if !self.wanted(&name) {
                continue;
            }
            let deal = cases::table(units, Risk::Small);
            let (steps, mut theirs) = agreed_plan(&deal);
            let mut passed = theirs.clone();
            let times = side_by_side(
                self.rounds,
                || fill_sums(steps - 1),
                || keep_plan(&REFERENCE, &deal, &mut theirs, Program::plan_into),
                || pass::plan(&deal, &mut passed, true),
            );
            self.row(&name, &steps.to_string(), times);
        }
    }

    fn checking(&self) {
        self.heading("Checking");
        self.check("ladder, 1,000 units", &cases::ladder(1000, Risk::Small));
        self.check("eight items, 1,000 units", &cases::items(1000, Risk::Small));
        self.check("table, 128 rows, units [127]", &cases::table(&[127], Risk::Small));
        self.check("table, 128 rows, units [1, 63]", &cases::table(&[1, 63], Risk::Small));
    }

    fn check(&self, name: &str, deal: &Deal) {
        if !self.wanted(name) {
            return;
        }
        let (steps, plan) = agreed_plan(deal);
        let count = steps as usize;
        let call = |program: &Program| {
            let record = black_box(&deal.record[..]);
            (program.check)(record, black_box(count), &plan.places, &plan.sums, &plan.order)
        };
        assert_eq!((call(&LIBRARY), call(&REFERENCE)), (0, 0), "checks of {name}");
        let times = side_by_side(
            self.rounds,
            || keep(call(&LIBRARY)),
            || keep(call(&REFERENCE)),
            || keep(pass::check(deal, &plan, count)),
        );
        self.row(name, &steps.to_string(), times);
    }

    fn reporting(&self) {
        if !self.wanted("report") {
            return;
        }
        self.heading("Reporting (ladder, 1,000 units; the whole session is given per report)");
        let deal = cases::ladder(1000, Risk::Small);
        let (steps, plan) = agreed_plan(&deal);
        let carried = Carried::new(&deal, &plan, steps as usize);
        let each = carried.reports.len() as f64;
        let (mut ours, mut theirs, mut passed) = ([0; 10], [0; 10], [0; 10]);
        let whole = side_by_side(
            self.rounds,
            || carried.session(&LIBRARY, &mut ours),
            || carried.session(&REFERENCE, &mut theirs),
            || carried.pass(&mut passed),
        );
        assert_eq!(ours, theirs, "sessions");
        self.row("opening and all 2,001 reports", &steps.to_string(), whole.map(|time| time / each));
        let middle = carried.until(carried.reports.len() / 2);
        let (side, number) = carried.reports[carried.reports.len() / 2];
        let times = side_by_side(
            self.rounds,
            || carried.report(&LIBRARY, &mut ours, &middle, side, number),
            || carried.report(&REFERENCE, &mut theirs, &middle, side, number),
            || pass::report(&plan, black_box(&mut passed), carried.count / 2),
        );
        assert_eq!(ours, theirs, "one report");
        self.row("one report in the middle", &steps.to_string(), times);
    }

    fn reading(&self) {
        self.heading("Reading (bounds of the last place)");
        self.bounds("ladder, 1,000 units", &cases::ladder(1000, Risk::Small));
        self.bounds("eight items, 1,000 units", &cases::items(1000, Risk::Small));
        for units in [&[127][..], &[3, 3, 3, 1]] {
            self.bounds(&format!("table, units {units:?}, every cell given"), &cases::table(units, Risk::Small));
            self.bounds(&format!("table, units {units:?}, blank but the last"), &cases::blank_table(units));
        }
    }

    fn bounds(&self, name: &str, deal: &Deal) {
        if !self.wanted(name) {
            return;
        }
        let (_, plan) = agreed_plan(deal);
        let call = |program: &Program, bounds: &mut [u8; 16]| {
            let record = black_box(&deal.record[..]);
            let answer = (program.bounds)(record, deal.last_place(), &plan.order, bounds);
            black_box((answer, &*bounds));
            answer
        };
        let (mut ours, mut theirs, mut passed) = ([0; 16], [0; 16], [0; 16]);
        assert_eq!((call(&LIBRARY, &mut ours), call(&REFERENCE, &mut theirs)), (0, 0), "bounds of {name}");
        assert_eq!(ours, theirs, "bounds of {name}");
        let times = side_by_side(
            self.rounds,
            || keep(call(&LIBRARY, &mut ours)),
            || keep(call(&REFERENCE, &mut theirs)),
            || pass::bounds(deal, &plan, black_box(&mut passed)),
        );
        self.row(name, "", times);
    }

    fn growth(&self) {
        self.heading("Growth (planning with 2U + 1 steps)");
        for units in [250, 500, 1000] {
            self.plan(&format!("ladder, {units} units"), &cases::ladder(units, Risk::Small));
        }
        for units in [250, 500, 1000] {
            self.plan(&format!("eight items, {units} units"), &cases::items(units, Risk::Small));
        }
    }
}

/// Uses an answer, so that its call is not left out.
fn keep(answer: u32) {
    black_box(answer);
}

fn keep_plan(program: &Program, deal: &Deal, areas: &mut Areas, call: impl Fn(&Program, &[u8], &mut Areas) -> i64) {
    black_box(call(program, black_box(&deal.record), areas));
    black_box(areas);
}

fn fill_sums(steps: i64) {
    for _ in 0..steps {
        black_box(&mut [u32::MAX; 128]);
    }
}

fn agreed_plan(deal: &Deal) -> (i64, Areas) {
    agreed(deal, Program::plan_into)
}

/// Plans with both: the answer and all areas must be the same.
fn agreed(deal: &Deal, call: impl Fn(&Program, &[u8], &mut Areas) -> i64) -> (i64, Areas) {
    let (mut ours, mut theirs) = (deal.areas(0xa5), deal.areas(0xa5));
    let steps = call(&LIBRARY, &deal.record, &mut ours);
    assert_eq!(steps, call(&REFERENCE, &deal.record, &mut theirs), "number of steps");
    assert!(steps > 0 || steps == -9, "refused: {steps}");
    assert!(ours == theirs, "areas of a plan");
    (steps, ours)
}
