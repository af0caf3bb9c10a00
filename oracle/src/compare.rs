//! The comparison: the same bytes to the oracle and to the model, all reports
//! after each record, every look-up, and a word about the first disagreement.

use std::mem;

use ananke_env::sim::TraceRecord;

use crate::decode::{Marks, events, meta_event, meta_event_apart, unmarked};
use crate::driver::{Five, Oracle, judge_whole};
use crate::generate::{Trace, trace};
use crate::judging::Judging;
use crate::lookups::questions;
use crate::model::judge::Judge;
use crate::random::Random;
use crate::report::{CHECKS, Reports};
use crate::text::answer_line;
use crate::wire::Record;

/// Keeps the oracle's marks from one trace to the next.
#[derive(Default)]
pub struct Comparer {
    marks: Marks,
    /// Look-ups compared so far, records taken that continue an event, and records
    /// that both refused since they continue nothing.
    pub asked: u64,
    pub continued: u64,
    pub refused: u64,
}

/// Whether look-ups are asked after each record, or at the end only.
#[derive(Clone, Copy, PartialEq, Eq)]
pub enum Asking {
    EachRecord,
    AtTheEnd,
}

impl Comparer {
    /// Both judges over one trace: the reports they agree on, or what differs.
    pub fn run(
        &mut self,
        tenant: u64,
        records: &[Record],
        asking: Asking,
    ) -> Result<Reports, String> {
        self.against(&mut Judge::roomy(tenant), tenant, records, asking)
    }

    /// The oracle and any judge that was just opened for that tenant.
    pub fn against(
        &mut self,
        judge: &mut impl Judging,
        tenant: u64,
        records: &[Record],
        asking: Asking,
    ) -> Result<Reports, String> {
        let mut oracle = Oracle::with_marks(tenant, mem::take(&mut self.marks));
        let found = self.walk(&mut oracle, judge, records, asking);
        let reports = *oracle.reports();
        self.marks = oracle.into_marks();
        let taken = found?;
        self.continued += taken.iter().filter(|record| record.continues()).count() as u64;
        self.refused += (records.len() - taken.len()) as u64;
        feedings_agree(&reports, &taken, tenant)?;
        Ok(reports)
    }

    /// What is said of the records so far beside the table.
    pub fn counted(&self) -> String {
        let Comparer { asked, continued, refused, .. } = self;
        format!(
            "look-ups compared: {asked}; records that continue: {continued}, refused by 11: {refused}"
        )
    }

    fn walk(
        &mut self,
        oracle: &mut Oracle,
        judge: &mut impl Judging,
        records: &[Record],
        asking: Asking,
    ) -> Result<Vec<Record>, String> {
        let mut taken = Vec::with_capacity(records.len());
        for (place, record) in records.iter().enumerate() {
            let bytes = record.encode();
            let (theirs, ours) = (oracle.take(&bytes), judge.take(&bytes));
            match (theirs, ours) {
                (0, 0) => taken.push(record.clone()),
                (11, 11) => {}
                _ => return Err(format!("record {}: refused {theirs}, {ours}", place + 1)),
            }
            if let Some(words) = judge.amiss() {
                return Err(format!("record {}: {words}", place + 1));
            }
            same_reports(oracle.eight(), judge.eight(), place + 1)?;
            if asking == Asking::EachRecord || place + 1 == records.len() {
                self.same_answers(oracle, judge, records, place + 1)?;
            }
        }
        if !oracle.first_faults_stand() {
            return Err("a verdict no longer says its first fault".to_owned());
        }
        Ok(taken)
    }

    fn same_answers(
        &mut self,
        oracle: &Oracle,
        judge: &impl Judging,
        records: &[Record],
        after: usize,
    ) -> Result<(), String> {
        for question in questions(records) {
            let (theirs, ours) = (question.ask(oracle), question.ask(judge));
            self.asked += 1;
            if theirs != ours {
                let line = answer_line(question, &theirs);
                return Err(format!("after record {after}: oracle {line}, model {ours:?}"));
            }
        }
        Ok(())
    }
}

fn same_reports(theirs: &Reports, ours: &Reports, after: usize) -> Result<(), String> {
    for (check, (theirs, ours)) in CHECKS.iter().zip(theirs.iter().zip(ours)) {
        if theirs != ours {
            return Err(format!("after record {after}: {check}: oracle {theirs}, model {ours}"));
        }
    }
    Ok(())
}

/// Whether the records can be of one event: one apply of one node has one index.
fn one_apply(a: &Record, b: &Record) -> bool {
    a.kind == 12 && b.kind == 12 && a.node == b.node && a.numbers[1] == b.numbers[1]
}

/// The five structs over records that are given as so many events.
fn fed<'a>(
    events: impl Iterator<Item = &'a [Record]>,
    join: fn(&[Record]) -> TraceRecord,
    tenant: u64,
) -> Five {
    let mut five = Five::default();
    for event in events {
        let whole = if event.len() > 1 { join(event) } else { unmarked(&event[0]) };
        five.push(&whole, tenant);
    }
    five
}

/// Whether the Rust finds the same faults however kind 12 records come to it: by
/// their events; with a descriptor for each record of one; each as an event of its
/// own; and neighbours of one node and index as one event, whatever their flags.
/// Positions then differ, kinds and evidence do not.
fn feedings_agree(reports: &Reports, records: &[Record], tenant: u64) -> Result<(), String> {
    if !records.windows(2).any(|pair| one_apply(&pair[0], &pair[1])) {
        return Ok(());
    }
    let whole = judge_whole(records, tenant);
    let others = [
        ("a descriptor a record", fed(events(records), meta_event_apart, tenant)),
        ("an event a record", fed(records.chunks(1), meta_event, tenant)),
        ("an event an apply", fed(records.chunk_by(one_apply), meta_event, tenant)),
    ];
    for (check, report) in reports.iter().enumerate() {
        let case = whole.case(check);
        if case.as_ref().map_or(0, |(kind, _)| *kind) != report.kind {
            return Err(format!("{}: the whole events differ", CHECKS[check]));
        }
        if let Some((name, _)) = others.iter().find(|(_, other)| other.case(check) != case) {
            return Err(format!("{}: {name} differs from whole events", CHECKS[check]));
        }
    }
    Ok(())
}

/// The records that are taken one after the other: without those that continue
/// nothing.
pub fn taken(records: &[Record]) -> Vec<Record> {
    let mut out: Vec<Record> = Vec::new();
    for record in records {
        let goes_on = out.last().is_some_and(|last| one_apply(last, record));
        if !record.continues() || goes_on {
            out.push(record.clone());
        }
    }
    out
}

/// The trace number `number` of a profile: mostly short, some long.
pub fn numbered(profile: &str, seed: u64, number: u64) -> Trace {
    let mut random = Random::new(seed.wrapping_add(number.wrapping_mul(0x51_7cc1_b727_220a)));
    let (least, most) = [(5, 14), (15, 40), (41, 96)][random.weighted(&[75, 21, 4])];
    trace(profile, random.next(), least, most)
}
