//! export-small: small traces with the oracle's answers, as lines of text.
//!
//!   export-small [TRACES [SEED [LEAST_PER_KIND]]]
//!   export-small told    document 01's examples, then for each other reading of
//!                        it the smallest trace that speaks against that reading,
//!                        then the traces of slips.txt
//!
//! Nine tenths are drawn in turn from all profiles, unselected; then traces are
//! added until every check's every kind was reached often enough. For each:
//!   trace NUMBER profile=NAME tenant=T records=N
//!   record I: kind node|- sub flag A B C D E voters=[..] spans=[start:end,...]
//!   reports I: eight groups `kind position e1 e2 e3 e4 e5`, parted by ` ; `
//!   final: the same once more, after the last record
//!   lookup: QUESTION = [ANSWER]   (record numbers, 0 for none)
//!   end

use oracle::compare::{Comparer, taken};
use oracle::driver::Oracle;
use oracle::examples::examples;
use oracle::generate::{Trace, names, trace};
use oracle::lookups::questions;
use oracle::misread::against;
use oracle::model::readings::READINGS;
use oracle::random::Random;
use oracle::report::KINDS;
use oracle::slips::slips;
use oracle::text::{answer_line, record_line, reports_line};

/// How often each kind of each check was exported.
#[derive(Default)]
struct Seen([[u64; 5]; 8]);

impl Seen {
    /// Whether the trace has a kind that is still too rare.
    fn wants(&self, oracle: &Oracle, least: u64) -> bool {
        let mut reports = self.0.iter().zip(oracle.reports());
        reports.any(|(seen, report)| report.kind > 0 && seen[usize::from(report.kind)] < least)
    }

    fn add(&mut self, oracle: &Oracle) {
        for (seen, report) in self.0.iter_mut().zip(oracle.reports()) {
            seen[usize::from(report.kind)] += 1;
        }
    }

    fn lacks(&self, least: u64) -> bool {
        let checks = self.0.iter().zip(KINDS);
        checks.into_iter().any(|(seen, kinds)| (1..=kinds).any(|k| seen[usize::from(k)] < least))
    }
}

fn judged(trace: &Trace) -> Oracle {
    let mut oracle = Oracle::open(trace.tenant);
    for record in &trace.records {
        oracle.push(record);
    }
    oracle
}

fn print(number: u64, trace: &Trace) {
    let Trace { profile, tenant, records } = trace;
    println!("trace {number} profile={profile} tenant={tenant} records={}", records.len());
    let mut oracle = Oracle::open(*tenant);
    for (place, record) in records.iter().enumerate() {
        assert_eq!(oracle.push(record), 0, "a record that is taken");
        println!("record {}: {}", place + 1, record_line(record));
        println!("reports {}: {}", place + 1, reports_line(oracle.reports()));
    }
    println!("final: {}", reports_line(oracle.reports()));
    // Every seventh question, from a place that moves: enough, and not all.
    for question in questions(records).into_iter().skip(number as usize % 7).step_by(7) {
        println!("lookup: {}", answer_line(question, &question.ask(&oracle)));
    }
    println!("end");
}

/// The examples and the traces against other readings, all short.
fn told() {
    let mut comparer = Comparer::default();
    let misread = READINGS.iter().filter_map(|(reading, _)| against(&mut comparer, *reading));
    let examples = examples().into_iter().map(|example| example.trace);
    let found = misread.map(|(trace, _)| trace).chain(slips());
    for (number, trace) in examples.chain(found).enumerate() {
        print(number as u64 + 1, &trace);
    }
}

fn drawn(traces: u64, seed: u64, least: u64) {
    let (names, mut random) = (names(), Random::new(seed));
    let (mut seen, mut number) = (Seen::default(), 0);
    let unselected = traces * 9 / 10;
    while number < traces || seen.lacks(least) {
        let name = names[random.below(names.len() as u64) as usize];
        let mut drawn = trace(name, random.next(), 5, 14);
        drawn.records = taken(&drawn.records);
        let oracle = judged(&drawn);
        let wanted = seen.wants(&oracle, least) || !seen.lacks(least);
        if number < unselected || wanted {
            number += 1;
            seen.add(&oracle);
            print(number, &drawn);
        }
    }
    eprintln!("{number} traces; by check, passes then kinds: {:?}", seen.0);
}

fn main() {
    let words: Vec<String> = std::env::args().skip(1).collect();
    if words.first().is_some_and(|word| word == "told") {
        return told();
    }
    let number =
        |at: usize, other: u64| words.get(at).map_or(other, |word| word.parse().expect("a number"));
    drawn(number(0, 3000), number(1, 1), number(2, 50));
}
