//! Reports by beginnings, as document 02 says them: the first of a trace's
//! beginnings that has a fault, each of whole events and the last as far as it was
//! taken, with a fresh run of the Rust for each. Slow, and without anything that the
//! driver keeps from one record to the next.

use crate::decode::events;
use crate::driver::{Five, Oracle, judge_whole};
use crate::generate::{WITH_EVENTS, trace};
use crate::report::{CHECKS, Report, Reports};
use crate::wire::Record;

/// How many records each beginning has: one event more each time.
fn beginnings(records: &[Record]) -> Vec<usize> {
    let mut ends = vec![0];
    for event in events(records) {
        ends.push(ends[ends.len() - 1] + event.len());
    }
    ends
}

/// The eight reports after these records, none of which is refused.
fn reports(records: &[Record], tenant: u64) -> Reports {
    let runs = beginnings(records).into_iter().map(|end| judge_whole(&records[..end], tenant));
    let runs: Vec<Five> = runs.collect();
    std::array::from_fn(|check| {
        let mut cases = runs.iter().zip(0..).filter_map(|(five, n)| Some((five.case(check)?, n)));
        let first = cases.next();
        first.map_or(Report::default(), |((kind, numbers), n)| Report::fault(kind, n, &numbers))
    })
}

/// The driver's reports after each record of `each` traces with events are those by
/// beginnings. How many records were compared, or what differs.
pub fn check(each: u64) -> Result<u64, String> {
    let mut compared = 0;
    for profile in WITH_EVENTS {
        for seed in 0..each {
            let drawn = trace(profile, seed, 5, 24);
            let (mut oracle, mut taken) = (Oracle::open(drawn.tenant), Vec::new());
            for record in &drawn.records {
                if oracle.push(record) == 0 {
                    taken.push(record.clone());
                }
                let expected = reports(&taken, drawn.tenant);
                for (check, name) in CHECKS.iter().enumerate() {
                    let (driven, expected) = (oracle.reports()[check], expected[check]);
                    if driven != expected {
                        let at = format!("{profile} {seed}, after {} records", taken.len());
                        return Err(format!("{at}: {name}: {driven}, by beginnings {expected}"));
                    }
                }
                compared += 1;
            }
        }
    }
    Ok(compared)
}
