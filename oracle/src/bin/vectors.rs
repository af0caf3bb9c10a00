//! vectors: writes the stored vectors, form.bin and traces.bin, or reads them
//! back and holds the oracle and the model against them.
//!
//!   vectors write DIR
//!   vectors check DIR   also names the other readings that pass unseen

use std::path::Path;
use std::process::exit;

use oracle::compare::Comparer;
use oracle::damage::{form_file, stored_cases};
use oracle::driver::Oracle;
use oracle::examples::examples;
use oracle::generate::{WITH_EVENTS, without_events};
use oracle::misread::against;
use oracle::model::form::refusal;
use oracle::model::judge::Judge;
use oracle::model::readings::{READINGS, take};
use oracle::random::Random;
use oracle::report::{CHECKS, KINDS};
use oracle::slips::slips;
use oracle::stored::{check_form, check_traces};
use oracle::vectors::{as_drawn, sample, trace_bytes};
use oracle::wire::Record;

/// The sample is fixed: one seed for the traces, one for the questions kept.
const SEED: u64 = 20_261_115;

fn write_form(dir: &Path) {
    let cases = stored_cases(SEED);
    std::fs::write(dir.join("form.bin"), form_file(&cases)).expect("form.bin");
    let by_refusal: [usize; 5] =
        std::array::from_fn(|n| cases.iter().filter(|c| usize::from(c.refusal) == n).count());
    println!("form.bin: {} cases, by refusal 0 to 4: {by_refusal:?}", cases.len());
}

fn write_traces(dir: &Path) {
    let (drawn, tally) = sample(SEED, &without_events(), 10);
    let events = as_drawn(SEED, &WITH_EVENTS, 10);
    let mut comparer = Comparer::default();
    let misread = READINGS.iter().filter_map(|(reading, _)| against(&mut comparer, *reading));
    let told = examples().into_iter().map(|example| example.trace);
    let found = misread.map(|(trace, _)| trace).chain(slips());
    let traces: Vec<_> = told.chain(found).chain(drawn).chain(events).collect();
    let mut random = Random::new(SEED);
    let bytes: Vec<u8> = traces.iter().flat_map(|t| trace_bytes(t, &mut random)).collect();
    std::fs::write(dir.join("traces.bin"), bytes).expect("traces.bin");
    let records: usize = traces.iter().map(|trace| trace.records.len()).sum();
    println!("traces.bin: {} traces, {records} records", traces.len());
    println!("in those drawn without events, passes and then kinds:");
    for (check, name) in CHECKS.iter().enumerate() {
        println!("  {name}: {:?}", &tally[check][..=usize::from(KINDS[check])]);
    }
}

/// Says what was checked, or what differs and ends with status 1.
fn say(who: &str, found: Result<usize, String>) {
    match found {
        Ok(count) => println!("{who}: all {count} as stored"),
        Err(words) => {
            println!("{who}: {words}");
            exit(1)
        }
    }
}

fn check(dir: &Path) {
    let form = std::fs::read(dir.join("form.bin")).expect("form.bin");
    let traces = std::fs::read(dir.join("traces.bin")).expect("traces.bin");
    say("form, the driver's reader", check_form(&form, |b| Record::decode(b).err().unwrap_or(0)));
    say("form, the model", check_form(&form, refusal));
    say("traces, the oracle", check_traces(&traces, Oracle::open));
    say("traces, the model", check_traces(&traces, Judge::roomy));
    for (reading, _) in READINGS {
        take(Some(reading));
        if check_traces(&traces, Judge::roomy).is_ok() {
            println!("{reading:?}: not found out");
        }
        take(None);
    }
}

fn main() {
    let words: Vec<String> = std::env::args().skip(1).collect();
    match &words.iter().map(String::as_str).collect::<Vec<_>>()[..] {
        ["write", dir] => {
            write_form(Path::new(dir));
            write_traces(Path::new(dir));
        }
        ["check", dir] => check(Path::new(dir)),
        _ => panic!("usage: vectors write DIR, or vectors check DIR"),
    }
}
