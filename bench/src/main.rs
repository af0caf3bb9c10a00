//! The judge beside the published Rust: nanoseconds of processor time a record, the same bytes
//! on both sides, in turns, the least of many runs.

mod clock;
mod direct;
mod hard;
mod sides;
mod story;
mod tally;
#[cfg(values)]
mod values;
mod worst;

use std::hint::black_box;

use ananke_env::sim::TraceRecord;
use oracle::driver::Oracle;
use oracle::report::{CHECKS, Reports};
use oracle::wire::Record;

use sides::Buffers;

const SIZES: [usize; 3] = [96, 512, 4096];
const TENANT: u64 = 0;

/// The stories: how many replicas tell of a meta apply, how many records in a hundred go wrong, and
/// how many ranges a meta apply names, which are the records of its event.
const STORIES: [(&str, (u64, u64, u64)); 4] = [
    ("well-behaved", (3, 0, 1)),
    ("well-behaved, meta told once", (1, 0, 1)),
    ("well-behaved, meta events of six", (3, 0, 6)),
    ("with faults", (3, 3, 1)),
];

/// A trace as bytes, with its events and the Rust's reports.
struct Trace {
    bytes: Vec<u8>,
    events: Vec<TraceRecord>,
    reports: Reports,
}

impl Trace {
    fn new(records: &[Record]) -> Trace {
        let bytes: Vec<u8> = records.iter().flat_map(Record::encode).collect();
        let mut oracle = Oracle::open(TENANT);
        for record in records {
            assert_eq!(oracle.push(record), 0, "a record that is taken");
        }
        let events = direct::grouped(&bytes).map(direct::event).collect();
        Trace { bytes, events, reports: *oracle.reports() }
    }
}

/// One line of the tables: traces of one size.
struct Row {
    name: String,
    size: usize,
    traces: Vec<Trace>,
}

fn row(name: &str, size: usize, traces: Vec<Vec<Record>>) -> Row {
    let traces: Vec<Trace> = traces.iter().map(|records| Trace::new(records)).collect();
    Row { name: name.to_owned(), size, traces }
}

/// Stories of different seeds, so that no run learns one trace by heart: fewer of the long ones.
fn stories(name: &str, size: usize, (tellers, noise, named): (u64, u64, u64)) -> Row {
    let count = (16_384 / size as u64).clamp(4, 32);
    let story = |seed| story::story(seed, size, tellers, noise, named);
    let told = (1..=count).map(story).collect();
    row(name, size, told)
}

/// The judge's answers must be the Rust's. The benchmark measures nothing that is wrong.
fn compare(row: &Row, loose: bool) {
    let mut buffers = Buffers::new(row.size);
    for (seed, trace) in row.traces.iter().enumerate() {
        buffers.judge(TENANT, &trace.bytes);
        buffers.push(TENANT, &trace.bytes);
        let (taken, reports) = buffers.answer();
        assert_eq!(taken as usize, row.size, "{}: records taken", row.name);
        assert_eq!(buffers.pushed(), (taken, reports), "{}: a trace and its pushes differ", row.name);
        let pushed = buffers.state();
        buffers.preview(TENANT, &trace.bytes);
        assert_eq!(buffers.state(), pushed, "{}: pushes and commits differ", row.name);
        assert_eq!(buffers.previewed(), pushed[sides::HEADER..], "{}: a preview and its record", row.name);
        for check in 0..CHECKS.len() {
            let (ours, rust) = (reports[check], trace.reports[check]);
            if ours != rust {
                println!("{} {}: {} differs: {ours} / {rust}", row.name, seed + 1, CHECKS[check]);
                assert!(loose, "the judge and the Rust differ");
            }
        }
    }
}

fn faults(row: &Row) -> usize {
    let faults = |trace: &Trace| trace.reports.iter().filter(|r| r.kind != 0).count();
    row.traces.iter().map(faults).sum()
}

/// The sides that are measured.
const SIDES: usize = 7;
const NAMES: [&str; SIDES] = ["judge", "Rust", "direct", "decoded", "each", "push", "preview"];

fn run(side: usize, row: &Row, buffers: &mut Buffers) -> u64 {
    let mut kept = Vec::with_capacity(row.traces.len());
    let from = clock::now();
    for trace in &row.traces {
        match side {
            0 => buffers.judge(TENANT, &trace.bytes),
            1 => kept.push(sides::rust(TENANT, &trace.bytes)),
            2 => kept.push(sides::rust_direct(TENANT, &trace.bytes)),
            3 => kept.push(sides::rust_decoded(TENANT, &trace.events)),
            4 => kept.push(sides::rust_each(TENANT, &trace.bytes)),
            5 => buffers.push(TENANT, &trace.bytes),
            _ => buffers.preview(TENANT, &trace.bytes),
        }
    }
    let time = clock::now() - from;
    black_box(kept);
    time
}

/// The least time a record of each side, over rounds in which all take turns.
fn measure(row: &Row, rounds: usize, capacity: Option<usize>) -> [f64; SIDES] {
    let mut buffers = Buffers::new(capacity.unwrap_or(row.size).max(row.size));
    let mut least = [u64::MAX; SIDES];
    for _ in 0..rounds {
        for (side, least) in least.iter_mut().enumerate() {
            *least = (*least).min(run(side, row, &mut buffers));
        }
    }
    let records = (row.size * row.traces.len()) as f64;
    least.map(|time| time as f64 / records)
}

fn print(row: &Row, rounds: usize, capacity: Option<usize>, loose: bool) {
    compare(row, loose);
    let times = measure(row, rounds, capacity);
    print!("| {} | {} | {} |", row.name, row.size, faults(row));
    for time in times {
        print!(" {time:.0} |");
    }
    for (over, under) in [(0, 1), (0, 2), (6, 5)] {
        print!(" {:.2} |", times[over] / times[under]);
    }
    println!();
}

/// Writes the traces of a row to files, for a profiler or the oracle's tools.
fn save(row: &Row, folder: &str) {
    for (i, trace) in row.traces.iter().enumerate() {
        let name = row.name.replace([' ', ',', ':'], "-");
        let path = format!("{folder}/{name}-{}-{}", row.size, i + 1);
        std::fs::write(path, &trace.bytes).expect("a folder to write to");
    }
}

/// Judges a row again and again, for a profiler.
fn repeat(row: &Row, times: usize) {
    let mut buffers = Buffers::new(row.size);
    for _ in 0..times {
        run(0, row, &mut buffers);
    }
}

/// Whether a row's name has one of the words; without words all are wanted.
fn is_wanted(words: &[String], name: &str) -> bool {
    words.is_empty() || words.iter().any(|word| name.contains(word))
}

/// The rows whose names have one of the words; the hard ones only where they are asked for.
fn rows(words: &[String], hard: bool) -> Vec<Row> {
    let wanted = |name: &str| is_wanted(words, name);
    let mut rows = Vec::new();
    for (name, told) in STORIES {
        if wanted(name) {
            rows.extend(SIZES.map(|size| stories(name, size, told)));
        }
    }
    let hard: &[_] = if hard { &hard::HARD } else { &[] };
    for &(name, make) in worst::WORST.iter().chain(hard) {
        if wanted(name) {
            rows.extend(SIZES.map(|size| row(name, size, vec![make(size)])));
        }
    }
    rows
}

fn main() {
    let mut words: Vec<String> = std::env::args().skip(1).collect();
    let mut take = |flag: &str| {
        let at = words.iter().position(|word| word.starts_with(flag))?;
        Some(words.remove(at)[flag.len()..].to_owned())
    };
    let rounds = take("--rounds=").map_or(40, |n| n.parse().expect("a number of rounds"));
    let loose = take("--loose").is_some();
    let hard = take("--hard").is_some();
    let saved = take("--save=");
    let repeated: Option<usize> = take("--repeat=").map(|n| n.parse().expect("a number"));
    let size: Option<usize> = take("--size=").map(|n| n.parse().expect("a size"));
    let capacity: Option<usize> = take("--capacity=").map(|n| n.parse().expect("a capacity"));
    let mut rows = rows(&words, hard);
    rows.retain(|row| size.is_none_or(|size| row.size == size));
    if let Some(times) = repeated {
        return rows.iter().for_each(|row| repeat(row, times));
    }
    if let Some(folder) = saved {
        return rows.iter().for_each(|row| save(row, &folder));
    }
    for row in &rows {
        if row.name.starts_with("well-behaved") {
            assert_eq!(faults(row), 0, "a well-behaved trace must pass");
        }
    }
    if !rows.is_empty() {
        let names = NAMES.join(" | ");
        let ratios = "judge/Rust | judge/direct | preview/push";
        println!("| trace | records | faults | {names} | {ratios} |");
        println!("|{}", "---|".repeat(3 + SIDES + 3));
    }
    for row in &rows {
        print(row, rounds, capacity, loose);
    }
    if size.is_none_or(|size| size == tally::RECORDS) {
        tally::print(&words, rounds);
    }
    #[cfg(values)]
    values::print(&words, rounds);
}
