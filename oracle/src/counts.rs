//! What compared traces came to: how many there were, and how often each check's
//! each kind was reported.

use std::borrow::Borrow;

use crate::generate::Trace;
use crate::report::{CHECKS, KINDS, Reports};

/// What a profile's traces came to.
#[derive(Default)]
pub struct Counts {
    traces: u64,
    records: u64,
    passes: u64,
    faults: [[u64; 5]; 8],
}

impl Counts {
    /// One trace more, with the reports that both judges gave.
    pub fn add(&mut self, trace: &Trace, reports: &Reports) {
        self.traces += 1;
        self.records += trace.records.len() as u64;
        self.passes += u64::from(reports.iter().all(|report| report.kind == 0));
        for (faults, report) in self.faults.iter_mut().zip(reports) {
            faults[usize::from(report.kind)] += 1;
        }
    }

    pub fn join(&mut self, other: &Counts) {
        self.traces += other.traces;
        self.records += other.records;
        self.passes += other.passes;
        for (all, more) in self.faults.iter_mut().flatten().zip(other.faults.iter().flatten()) {
            *all += more;
        }
    }

    /// A row of the table that `header` begins.
    pub fn row(&self, name: &str) -> String {
        let mut numbers = vec![self.traces, self.records, self.passes];
        for (faults, kinds) in self.faults.iter().zip(KINDS) {
            numbers.extend(&faults[1..=usize::from(kinds)]);
        }
        line(name, &numbers)
    }
}

/// The first two lines of the table: a column for each check and kind.
pub fn header() -> String {
    let mut names = vec!["profile".to_owned(), "traces".to_owned(), "records".to_owned()];
    names.push("all pass".to_owned());
    for (check, kinds) in CHECKS.iter().zip(KINDS) {
        names.extend((1..=kinds).map(|kind| format!("{check} {kind}")));
    }
    columns(&names)
}

/// The first two lines of a table with these columns.
pub fn columns<N: Borrow<str>>(names: &[N]) -> String {
    format!("| {} |\n|{}", names.join(" | "), "---|".repeat(names.len()))
}

/// A row of a table: its name and its numbers.
pub fn line(name: &str, numbers: &[u64]) -> String {
    let numbers: String = numbers.iter().map(|number| format!(" | {number}")).collect();
    format!("| {name}{numbers} |")
}
