//! Plans that are carried out, from opening to the last report.

use crate::deals::{Areas, Deal};
use crate::pass;
use crate::program::{Program, LIBRARY, REFERENCE};
use std::hint::black_box;

pub struct Carried<'a> {
    deal: &'a Deal,
    plan: &'a Areas,
    pub count: usize,
    /// All reports, each a side and a number.
    pub reports: Vec<(u32, u32)>,
}

impl<'a> Carried<'a> {
    /// A plan of `count` steps.
    pub fn new(deal: &'a Deal, plan: &'a Areas, count: usize) -> Self {
        let mut reports = Vec::new();
        let mut before = (0, 0);
        for step in 0..count {
            let now = (plan.place(step), plan.sum(step));
            if now.0 != before.0 {
                reports.push((0, now.0));
            }
            if now.1 != before.1 {
                reports.push((1, now.1));
            }
            before = now;
        }
        Carried { deal, plan, count, reports }
    }

    /// The session after so many reports; both programs must agree after each.
    pub fn until(&self, number: usize) -> [u8; 10] {
        let (mut ours, mut theirs) = ([0; 10], [0; 10]);
        let plan = self.plan;
        for (program, session) in [(&LIBRARY, &mut ours), (&REFERENCE, &mut theirs)] {
            let answer = (program.open)(session, &self.deal.record, self.count, &plan.places, &plan.sums, &plan.order);
            assert_eq!(answer, 0, "opening");
        }
        assert_eq!(ours, theirs, "sessions");
        for (side, number) in &self.reports[..number] {
            for (program, session) in [(&LIBRARY, &mut ours), (&REFERENCE, &mut theirs)] {
                let answer = (program.report)(session, self.count, &plan.places, &plan.sums, *side, *number);
                assert_eq!(answer, 0, "a report");
            }
            assert_eq!(ours, theirs, "sessions");
        }
        ours
    }

    /// Opens, makes all reports, and asks whether the session is finished.
    pub fn session(&self, program: &Program, session: &mut [u8; 10]) {
        let (record, plan) = (black_box(&self.deal.record[..]), self.plan);
        let mut refused = (program.open)(session, record, self.count, &plan.places, &plan.sums, &plan.order);
        for (side, number) in &self.reports {
            refused |= (program.report)(black_box(session), self.count, &plan.places, &plan.sums, *side, *number);
        }
        let finished = (program.finished)(session, self.count);
        assert!(refused == 0 && finished == 1, "a whole session");
    }

    /// One report, from the session `start`.
    pub fn report(&self, program: &Program, session: &mut [u8; 10], start: &[u8; 10], side: u32, number: u32) {
        session.copy_from_slice(black_box(start));
        let (side, number) = (black_box(side), black_box(number));
        let answer = (program.report)(session, self.count, &self.plan.places, &self.plan.sums, side, number);
        black_box((answer, &*session));
    }

    /// The plain pass of a whole session: that of a check, then that of a report for each report.
    pub fn pass(&self, session: &mut [u8; 10]) {
        black_box(pass::check(self.deal, self.plan, self.count));
        for number in 0..self.reports.len() {
            pass::report(self.plan, black_box(session), number.min(self.count - 1));
        }
    }
}
