//! The stored vectors: a fixed sample of traces with the oracle's answers, in
//! the format of vectors/FORMAT.md.

use crate::compare::taken;
use crate::driver::Oracle;
use crate::generate::{Trace, trace};
use crate::lookups::{Question, questions};
use crate::random::Random;
use crate::report::{KINDS, Report, Reports};

/// How often each check's kind has to be in the sample.
pub const LEAST: u64 = 12;

fn report_bytes(report: &Report) -> Vec<u8> {
    let mut out = vec![report.kind];
    out.extend((report.position as u16).to_le_bytes());
    report.evidence.iter().for_each(|number| out.extend(number.to_le_bytes()));
    out
}

/// Two bytes with a bit for each check whose report changed, then those reports.
fn change_bytes(before: &Reports, after: &Reports) -> Vec<u8> {
    let mut changed = 0u16;
    let mut reports = Vec::new();
    for (check, (before, after)) in before.iter().zip(after).enumerate() {
        if before != after {
            changed |= 1 << check;
            reports.extend(report_bytes(after));
        }
    }
    [changed.to_le_bytes().to_vec(), reports].concat()
}

fn question_bytes(question: Question, answer: &[u64]) -> Vec<u8> {
    let (what, first, second) = match question {
        Question::Before(range, index) => (1u8, range, index),
        Question::At(range, index) => (2, range, index),
        Question::FirstAtGeneration(range, generation) => (3, range, generation),
        Question::Statements => (4, 0, 0),
        Question::IsEmpty => (5, 0, 0),
        Question::HoldersOf(id) => (6, id, 0),
        Question::Blocks => (7, 0, 0),
    };
    let mut out = vec![what];
    out.extend(first.to_le_bytes());
    out.extend(second.to_le_bytes());
    out.extend((answer.len() as u16).to_le_bytes());
    answer.iter().for_each(|number| out.extend(number.to_le_bytes()));
    out
}

/// The questions kept for a trace: all for a very short one, else those about
/// everything and a sample.
fn kept_questions(trace: &Trace, random: &mut Random) -> Vec<Question> {
    let mut all = questions(&trace.records);
    if trace.records.len() <= 6 {
        return all;
    }
    let mut kept: Vec<Question> = all.drain(..3).collect();
    for _ in 0..12.min(all.len()) {
        kept.push(all.swap_remove(random.below(all.len() as u64) as usize));
    }
    kept
}

/// A trace and its answers as bytes.
pub fn trace_bytes(trace: &Trace, random: &mut Random) -> Vec<u8> {
    let mut out = trace.tenant.to_le_bytes().to_vec();
    out.extend((trace.records.len() as u16).to_le_bytes());
    trace.records.iter().for_each(|record| out.extend(record.encode()));
    let mut oracle = Oracle::open(trace.tenant);
    for record in &trace.records {
        let before = *oracle.reports();
        assert_eq!(oracle.push(record), 0, "a stored record has no refusal");
        out.extend(change_bytes(&before, oracle.reports()));
    }
    let kept = kept_questions(trace, random);
    out.extend((kept.len() as u16).to_le_bytes());
    for question in kept {
        out.extend(question_bytes(question, &question.ask(&oracle)));
    }
    out
}

fn final_reports(trace: &Trace) -> Reports {
    let mut oracle = Oracle::open(trace.tenant);
    for record in &trace.records {
        oracle.push(record);
    }
    *oracle.reports()
}

/// How often each check's kinds are in the sample so far; kind 0 is a pass.
pub type Tally = [[u64; 5]; 8];

fn rare(tally: &Tally, reports: &Reports) -> bool {
    let mut each = tally.iter().zip(reports);
    each.any(|(seen, report)| report.kind > 0 && seen[usize::from(report.kind)] < LEAST)
}

fn complete(tally: &Tally) -> bool {
    let each = tally.iter().zip(KINDS);
    each.into_iter().all(|(seen, kinds)| (1..=kinds).all(|k| seen[usize::from(k)] >= LEAST))
}

/// A drawn trace, without the records that would be refused.
fn stored(name: &str, seed: u64) -> Trace {
    let mut drawn = trace(name, seed, 5, 14);
    drawn.records = taken(&drawn.records);
    drawn
}

/// `drawn` traces of each of these profiles as they come.
pub fn as_drawn(seed: u64, names: &[&str], drawn: u64) -> Vec<Trace> {
    let mut random = Random::new(seed);
    let each = names.iter().flat_map(|name| (0..drawn).map(move |_| name));
    each.map(|name| stored(name, random.next())).collect()
}

/// The sample: `drawn` traces of each of these profiles as they come, then traces
/// that have a kind which is still rare.
pub fn sample(seed: u64, names: &[&str], drawn: u64) -> (Vec<Trace>, Tally) {
    let mut random = Random::new(seed);
    let (mut out, mut tally) = (Vec::new(), Tally::default());
    let mut turn = 0;
    while turn < drawn * names.len() as u64 || !complete(&tally) {
        let name = names[turn as usize % names.len()];
        let next = stored(name, random.next());
        let reports = final_reports(&next);
        if turn < drawn * names.len() as u64 || rare(&tally, &reports) {
            let counts = tally.iter_mut().zip(&reports);
            counts.for_each(|(seen, report)| seen[usize::from(report.kind)] += 1);
            out.push(next);
        }
        turn += 1;
    }
    (out, tally)
}
