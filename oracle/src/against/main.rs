//! against: the Rattle judge against the oracle, through the static library.
//!
//!   against [TRACES_PER_PROFILE [SEED]]   numbered traces of every profile
//!   against long [TRACES_PER_PROFILE]     the same with 200 to 512 records
//!   against full [TRACES_PER_PROFILE]     the same with 1,000 to 4,096 records
//!   against tails [TRACES_PER_PROFILE]    numbered traces whose keys differ at their ends alone
//!   against exhaustive                    all short traces over small alphabets
//!   against previews [TRACES_PER_PROFILE [SEED]]
//!                                         previews of records that are not taken, at every point
//!   against orders [TRACES_PER_PROFILE [SEED]]
//!                                         the grants of a trace in other orders: one ids verdict
//!   against form [SEED]                   pushes, previews and commits with things wrong
//!   against tally [ENTRIES [SEED]]        a campaign, and entries of every sort into a tally
//!   against vectors DIR                   the stored vectors, form.bin and traces.bin
//!
//! All reports after each record, so with an event cut at each of its records,
//! every look-up, and the whole trace in one call; then the judge is entered into its row's tally. Every record is
//! previewed before it is taken, another one beside it, and the taking is by
//! turns a push and a commit: console.rs. A disagreement is shrunk, printed, and
//! ends the run with status 1.

mod buffers;
mod calls;
mod console;
mod host;
mod orders;
mod previews;
mod tallies;

use std::path::Path;
use std::process::exit;
use std::time::Instant;

use console::{Console, Drew};
use host::{Host, report_in, whole};
use oracle::compare::{Asking, Comparer, numbered, taken};
use oracle::counts::{Counts, header};
use oracle::driver::Oracle;
use oracle::exhaustive::alphabets;
use oracle::generate::{Trace, names, trace};
use oracle::minimise::minimise;
use oracle::report::Reports;
use oracle::stored::{check_form, check_traces};
use oracle::text::{readable, record_line};
use oracle::wire::Record;
use previews::Neighbours;
use tallies::Campaign;

/// A capacity for a trace: just enough, so that buckets are shared, or roomy.
fn capacity(records: usize, number: u64) -> usize {
    let least = records.max(1);
    [least, (least + 7).min(4096), 96.max(least)][(number % 3) as usize]
}

/// What both sides came to: the reports, the judge, and its previews by refusal.
type Came = (Reports, Host, Drew);

/// The oracle against the judge, record by record and at once.
fn both(
    comparer: &mut Comparer,
    tenant: u64,
    records: &[Record],
    asking: Asking,
    number: u64,
) -> Result<Came, String> {
    let sound = taken(records);
    let room = capacity(sound.len(), number);
    let others = Neighbours { records, number };
    let mut console = Console::open(tenant, room, number / 3, others);
    let reports = comparer.against(&mut console, tenant, records, asking)?;
    let (judge, previews) = console.finish()?;
    at_once(tenant, room, &sound, None, &reports)?;
    if sound.len() < records.len() {
        up_to_refusal(tenant, room, records)?;
    }
    Ok((reports, judge, previews))
}

/// A whole trace with a record that is refused: those before it are taken, and no more.
fn up_to_refusal(tenant: u64, room: usize, records: &[Record]) -> Result<(), String> {
    let mut oracle = Oracle::open(tenant);
    let place = records.iter().position(|record| oracle.push(record) != 0).expect("a refusal");
    at_once(tenant, room, records, Some(place), oracle.reports())
}

/// The whole trace in one call gives the same reports; where a record is refused by 11, those of the
/// records before it. What it counts are records.
fn at_once(
    tenant: u64,
    room: usize,
    records: &[Record],
    refused: Option<usize>,
    reports: &Reports,
) -> Result<(), String> {
    let bytes: Vec<u8> = records.iter().flat_map(|record| record.encode()).collect();
    let (refusal, words) = whole(tenant, room, &bytes);
    let expected = match refused {
        None => (0, records.len() as u64, 0),
        Some(place) => (11, place as u64, place as u64 + 1),
    };
    if (refusal, words[0], words[1]) != expected {
        return Err(format!("at once: refused {refusal}, {} taken at {}", words[0], words[1]));
    }
    for (check, report) in reports.iter().enumerate() {
        if report_in(&words[2 + 7 * check..]) != *report {
            return Err(format!("at once: check {} differs", check + 1));
        }
    }
    Ok(())
}

/// Runs records of a trace through both sides.
type Run<'a> = &'a mut dyn FnMut(&[Record]) -> Result<Reports, String>;

/// Prints the smallest trace that still disagrees, and ends the run.
fn disagree(trace: &Trace, number: u64, first: &str, run: Run) -> ! {
    println!("disagreement in {} number {number}, tenant {}", trace.profile, trace.tenant);
    println!("as found: {first}");
    let least = minimise(&trace.records, &mut |records: &[Record]| run(records).is_err());
    for (place, record) in least.iter().enumerate() {
        println!("{}: {}\n   {}", place + 1, readable(record), record_line(record));
    }
    println!("smallest: {:?}", run(&least));
    exit(1)
}

/// A row of the table: what its traces came to, and the library's tally of their judges.
#[derive(Default)]
struct Row {
    counts: Counts,
    campaign: Campaign,
    previews: Drew,
}

/// All rows together.
#[derive(Default)]
struct All {
    counts: Counts,
    previews: Drew,
}

impl All {
    fn join(&mut self, name: &str, row: &Row) {
        println!("{}", row.counts.row(name));
        self.counts.join(&row.counts);
        previews::add(&mut self.previews, row.previews);
    }
}

/// One trace through both, counted and entered. Every fourth is asked after each record.
fn count(comparer: &mut Comparer, row: &mut Row, trace: &Trace, number: u64) {
    let asking = if number % 4 == 0 { Asking::EachRecord } else { Asking::AtTheEnd };
    match both(comparer, trace.tenant, &trace.records, asking, number) {
        Ok((reports, judge, previews)) => {
            row.counts.add(trace, &reports);
            previews::add(&mut row.previews, previews);
            enter(&mut row.campaign, trace, &reports, &judge);
        }
        Err(words) => disagree(trace, number, &words, &mut |records| {
            let came = both(comparer, trace.tenant, records, Asking::EachRecord, number);
            came.map(|(reports, ..)| reports)
        }),
    }
}

/// The judge into its row's tally. A difference is not shrunk: the traces before it count too.
fn enter(campaign: &mut Campaign, trace: &Trace, reports: &Reports, judge: &Host) {
    if let Err(words) = campaign.enter(judge, reports, taken(&trace.records).len() as u64) {
        println!("tally of {}: {words}\n{reports:?}", trace.profile);
        exit(1)
    }
}

/// The last lines of a table.
fn end(all: &All, comparer: &Comparer) {
    println!("{}", all.counts.row("all"));
    println!("\n{}", comparer.counted());
    println!("previews, refusals 0 to 11: {:?}", all.previews);
    println!("every judge entered into its row's tally: all bytes as counted");
}

/// Traces of every profile, each drawn by its number.
fn profiles(each: u64, draw: impl Fn(&'static str, u64) -> (Trace, u64)) {
    let mut comparer = Comparer::default();
    let mut all = All::default();
    println!("{}", header());
    for profile in names() {
        let mut row = Row::default();
        for number in 0..each {
            let (trace, number) = draw(profile, number);
            count(&mut comparer, &mut row, &trace, number);
        }
        all.join(profile, &row);
    }
    end(&all, &comparer);
}

/// The same trace with its short keys behind a common beginning: in their places of 32 bytes they
/// differ in the length and in the last eight alone. A RaftApply's end stays empty.
fn tails(mut trace: Trace) -> Trace {
    for record in &mut trace.records {
        let ends = record.kind != 3;
        for (start, end) in &mut record.spans {
            for key in [Some(start), ends.then_some(end)].into_iter().flatten() {
                if key.len() <= 8 {
                    key.splice(0..0, [b'm'; 23]);
                }
            }
        }
    }
    trace
}

/// All short traces over small alphabets.
fn exhaustive() {
    let mut comparer = Comparer::default();
    let mut all = All::default();
    println!("{}", header());
    for alphabet in alphabets() {
        let mut row = Row::default();
        for number in 0..alphabet.size() {
            let records = alphabet.trace(number);
            let trace = Trace { profile: alphabet.name, tenant: 0, records };
            count(&mut comparer, &mut row, &trace, number);
        }
        all.join(alphabet.name, &row);
    }
    end(&all, &comparer);
}

/// The refusal that the form of bytes draws in a judge that has taken nothing. 11 is none of the
/// form's, and comes after those.
fn form_of(bytes: &[u8]) -> u8 {
    match Host::open(0, 1).buffers.push(bytes) {
        11 => 0,
        refusal => refusal as u8,
    }
}

/// The stored vectors through the library.
fn stored(dir: &str) {
    let file = |name: &str| std::fs::read(Path::new(dir).join(name)).expect("a stored file");
    let form = check_form(&file("form.bin"), form_of);
    let traces = check_traces(&file("traces.bin"), |tenant| Host::open(tenant, 14));
    for (name, found) in [("form", form), ("traces", traces)] {
        match found {
            Ok(count) => println!("{name}: all {count} as stored"),
            Err(words) => {
                println!("{name}: {words}");
                exit(1)
            }
        }
    }
}

fn main() {
    let args: Vec<String> = std::env::args().skip(1).collect();
    let number =
        |at: usize, other: u64| args.get(at).map_or(other, |word| word.parse().expect("a number"));
    let began = Instant::now();
    match args.first().map(String::as_str) {
        Some("exhaustive") => exhaustive(),
        Some("form") => calls::compare(number(1, 1)),
        Some("orders") => orders::compare(number(1, 4_000), number(2, 1)),
        Some("previews") => previews::compare(number(1, 4_000), number(2, 1)),
        Some("tally") => tallies::compare(number(1, 1_000_000), number(2, 1)),
        Some("vectors") => stored(args.get(1).expect("a folder")),
        Some("tails") => profiles(number(1, 4_000), |name, k| (tails(numbered(name, 1, k)), k)),
        // Not multiples of four: look-ups at the end only.
        Some("long") => profiles(number(1, 40), |name, k| (trace(name, k, 200, 512), 4 * k + 1)),
        Some("full") => profiles(number(1, 4), |name, k| (trace(name, k, 1000, 4096), 4 * k + 1)),
        _ => {
            let seed = number(1, 1);
            profiles(number(0, 16_000), |name, k| (numbered(name, seed, k), k));
        }
    }
    eprintln!("{:.1} s", began.elapsed().as_secs_f64());
}
