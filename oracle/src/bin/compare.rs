//! compare: the model against the oracle.
//!
//!   compare [TRACES_PER_PROFILE [SEED]]   numbered traces of every profile
//!   compare long [TRACES_PER_PROFILE]     the same with 200 to 512 records
//!   compare exhaustive                    all short traces over small alphabets
//!   compare form [SEED]                   the two form checks on damaged copies
//!   compare examples                      the documents' examples
//!   compare limits                        the model's refusals 5 to 8 and 11, and their order
//!   compare beginnings [TRACES_PER_PROFILE]
//!                                         the oracle's reports against fresh runs of it
//!   compare readings                      other readings of the documents, each with
//!                                         the smallest trace that speaks against it
//!
//! Prints counts by profile and by check and kind; a disagreement is shrunk to
//! its smallest trace, printed, and ends the run with status 1.

use std::process::exit;
use std::time::Instant;

use oracle::beginnings;
use oracle::compare::{Asking, Comparer, numbered};
use oracle::counts::{Counts, header};
use oracle::damage::every_case;
use oracle::examples::examples;
use oracle::exhaustive::alphabets;
use oracle::generate::{Trace, names, trace};
use oracle::limits;
use oracle::misread::{against, smallest};
use oracle::model::readings::READINGS;
use oracle::report::{Report, Reports, sheet};
use oracle::text::{readable, record_line};
use oracle::wire::Record;

/// Prints the smallest trace that still disagrees, and ends the run.
fn disagree(comparer: &mut Comparer, trace: &Trace, number: u64, first: &str) -> ! {
    println!("disagreement in {} number {number}, tenant {}", trace.profile, trace.tenant);
    println!("as found: {first}");
    let (least, words) = smallest(comparer, trace, Asking::EachRecord);
    for (place, record) in least.records.iter().enumerate() {
        println!("{}: {}\n   {}", place + 1, readable(record), record_line(record));
    }
    println!("smallest: {words}");
    exit(1)
}

fn readings() {
    let mut comparer = Comparer::default();
    for (reading, sentence) in READINGS {
        println!("\n{reading:?}: {sentence}");
        let Some((least, words)) = against(&mut comparer, reading) else {
            println!("  no trace speaks against it");
            continue;
        };
        for (place, record) in least.records.iter().enumerate() {
            println!("  {}: {}", place + 1, readable(record));
        }
        println!("  {words}");
    }
}

/// Long traces: fewer, since the model looks back over all of them.
fn long(each: u64) {
    let mut comparer = Comparer::default();
    println!("{}", header());
    for profile in names() {
        let mut counts = Counts::default();
        for number in 0..each {
            // A number that is not a multiple of four: look-ups at the end only.
            count(&mut comparer, &mut counts, &trace(profile, number, 200, 512), 4 * number + 1);
        }
        println!("{}", counts.row(profile));
    }
    println!("\n{}", comparer.counted());
}

/// One trace through both judges, counted; a disagreement ends the run.
fn count(comparer: &mut Comparer, counts: &mut Counts, trace: &Trace, number: u64) {
    let asking = if number % 4 == 0 { Asking::EachRecord } else { Asking::AtTheEnd };
    match comparer.run(trace.tenant, &trace.records, asking) {
        Ok(reports) => counts.add(trace, &reports),
        Err(words) => disagree(comparer, trace, number, &words),
    }
}

fn profiles(each: u64, seed: u64) {
    let mut comparer = Comparer::default();
    let mut all = Counts::default();
    println!("{}", header());
    for profile in names() {
        let mut counts = Counts::default();
        for number in 0..each {
            count(&mut comparer, &mut counts, &numbered(profile, seed, number), number);
        }
        println!("{}", counts.row(profile));
        all.join(&counts);
    }
    println!("{}", all.row("all"));
    println!("\n{}; seed {seed}", comparer.counted());
}

fn exhaustive() {
    let mut comparer = Comparer::default();
    let mut all = Counts::default();
    println!("{}", header());
    for alphabet in alphabets() {
        let mut counts = Counts::default();
        for number in 0..alphabet.size() {
            let trace =
                Trace { profile: alphabet.name, tenant: 0, records: alphabet.trace(number) };
            count(&mut comparer, &mut counts, &trace, number);
        }
        let (letters, length) = (alphabet.letters.len(), alphabet.length);
        println!("{}", counts.row(&format!("{} ({letters}^{length})", alphabet.name)));
        all.join(&counts);
    }
    println!("{}", all.row("all"));
    println!("\n{}", comparer.counted());
}

/// The driver's reader and the model's form check on every damaged copy.
fn form(seed: u64) {
    let mut by_refusal = [0u64; 5];
    for case in every_case(seed) {
        let read = Record::decode(&case.bytes).err().unwrap_or(0);
        by_refusal[usize::from(read)] += 1;
        if read != case.refusal {
            println!("reader {read}, model {}: {:?}", case.refusal, case.bytes);
            exit(1)
        }
    }
    println!("form cases by refusal, none first: {by_refusal:?}; seed {seed}");
}

fn told_examples() {
    let mut comparer = Comparer::default();
    for example in examples() {
        let Trace { tenant, records, .. } = &example.trace;
        let mut expected = Reports::default();
        for (check, kind, position, evidence) in &example.faults {
            expected[*check] = Report::fault(*kind, *position, evidence);
        }
        let found = comparer.run(*tenant, records, Asking::EachRecord);
        if found != Ok(expected) {
            println!("{}: {found:?}, where the documents say\n{}", example.name, sheet(&expected));
            exit(1)
        }
        println!("{}: as the documents say", example.name);
    }
}

/// The driver against fresh runs of the Rust over every beginning.
fn by_beginnings(each: u64) {
    match beginnings::check(each) {
        Ok(records) => println!("after each of {records} records the reports by beginnings"),
        Err(words) => {
            println!("{words}");
            exit(1)
        }
    }
}

fn main() {
    let args: Vec<String> = std::env::args().skip(1).collect();
    let number =
        |at: usize, other: u64| args.get(at).map_or(other, |word| word.parse().expect("a number"));
    let began = Instant::now();
    match args.first().map(String::as_str) {
        Some("exhaustive") => exhaustive(),
        Some("form") => form(number(1, 1)),
        Some("examples") => told_examples(),
        Some("readings") => readings(),
        Some("limits") => println!("{} limits as the documents say", limits::check()),
        Some("beginnings") => by_beginnings(number(1, 500)),
        Some("long") => long(number(1, 40)),
        _ => profiles(number(0, 20_000), number(1, 1)),
    }
    eprintln!("{:.1} s", began.elapsed().as_secs_f64());
}
