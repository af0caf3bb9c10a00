//! The cost of one comparison of two values: where they lie, as the judge compares them, and
//! with every part copied first; over the same records.

use std::hint::black_box;

use oracle::wire::Record;

use crate::{clock, is_wanted, story};

unsafe extern "C" {
    fn probe_same_held(a: *const u8, a_length: usize, b: *const u8, b_length: usize) -> bool;
    fn probe_same_copied(a: *const u8, a_length: usize, b: *const u8, b_length: usize) -> bool;
}

const SIZE: usize = 368;
const GENERATION: usize = 32;
const VOTERS: usize = 56;
const START: usize = 112;
const END: usize = 144;

type Bytes = [u8; SIZE];
type Same = fn(&Bytes, &Bytes) -> bool;

/// How often a round compares, at least, so that reading the clock weighs nothing.
const TIMES: usize = 16_384;

/// The judge's own comparison.
fn lying(a: &Bytes, b: &Bytes) -> bool {
    unsafe { probe_same_held(a.as_ptr(), SIZE, b.as_ptr(), SIZE) }
}

/// The same in Rattle, with start, end and voters copied to arrays first.
fn copied(a: &Bytes, b: &Bytes) -> bool {
    unsafe { probe_same_copied(a.as_ptr(), SIZE, b.as_ptr(), SIZE) }
}

fn state(record: &Bytes) -> u8 {
    match (record[0], record[2]) {
        (1, _) | (_, 1) => 1,
        (_, 2) => 2,
        _ => 3,
    }
}

/// A key of the first span, which may be missing.
fn key(record: &Bytes, at: usize) -> &[u8] {
    let length = if record[49] == 0 { 0 } else { usize::from(record[at]).min(31) };
    &record[at + 1..at + 1 + length]
}

fn voters(record: &Bytes) -> &[u8] {
    &record[VOTERS..VOTERS + 8 * usize::from(record[48]).min(5)]
}

fn generation(record: &Bytes) -> &[u8] {
    &record[GENERATION..GENERATION + 8]
}

/// The same in Rust, where they lie. Not inlined, since the library's are not either.
#[inline(never)]
fn rust_lying(a: &Bytes, b: &Bytes) -> bool {
    generation(a) == generation(b)
        && key(a, START) == key(b, START)
        && key(a, END) == key(b, END)
        && voters(a) == voters(b)
        && state(a) == state(b)
}

/// A value with lists of its own.
#[derive(PartialEq)]
struct Held {
    start: Vec<u8>,
    end: Vec<u8>,
    generation: u64,
    voters: Vec<u64>,
    state: u8,
}

fn number(bytes: &[u8]) -> u64 {
    u64::from_le_bytes(bytes.try_into().expect("eight bytes"))
}

fn held(record: &Bytes) -> Held {
    Held {
        start: key(record, START).to_vec(),
        end: key(record, END).to_vec(),
        generation: number(generation(record)),
        voters: voters(record).chunks(8).map(number).collect(),
        state: state(record),
    }
}

/// The same in Rust, with every part copied to lists first.
#[inline(never)]
fn rust_copied(a: &Bytes, b: &Bytes) -> bool {
    held(a) == held(b)
}

const SIDES: [Same; 4] = [lying, copied, rust_lying, rust_copied];

/// A RangeDescriptor with keys and voters of such lengths.
fn descriptor(keys: usize, count: usize) -> Bytes {
    let mut record = [0; SIZE];
    (record[0], record[1], record[2], record[4]) = (2, 1, 1, 1);
    (record[8], record[GENERATION]) = (7, 3);
    (record[48], record[49]) = (count as u8, 1);
    for voter in 0..count {
        record[VOTERS + 8 * voter] = voter as u8 + 1;
    }
    for (at, first) in [(START, 40), (END, 41)] {
        record[at] = keys as u8;
        record[at + 1..at + 1 + keys].fill(first);
    }
    record
}

fn with(mut record: Bytes, at: usize) -> Bytes {
    record[at] = record[at].wrapping_add(1);
    record
}

/// Each RangeCreated and RangeDescriptor of well-behaved stories, with the one before it of its
/// range.
fn told() -> Vec<(Bytes, Bytes)> {
    let mut pairs = Vec::new();
    for seed in 1..=4 {
        let told = story::story(seed, 4096, 3, 0, 1);
        let values: Vec<Bytes> = told.iter().map(Record::encode).filter(|r| r[0] < 3).collect();
        for (i, value) in values.iter().enumerate() {
            let earlier = values[..i].iter().rev().find(|earlier| earlier[8..16] == value[8..16]);
            pairs.extend(earlier.map(|&earlier| (earlier, *value)));
        }
    }
    pairs
}

fn rows() -> Vec<(&'static str, Vec<(Bytes, Bytes)>)> {
    let (small, large) = (descriptor(8, 3), descriptor(31, 5));
    let voter = with(large, VOTERS + 8 * 4);
    vec![
        ("values: equal, keys of 8 bytes, three voters", vec![(small, small)]),
        ("values: equal, keys of 31 bytes, five voters", vec![(large, large)]),
        ("values: another fifth voter, keys of 31 bytes", vec![(large, voter)]),
        ("values: another generation", vec![(large, with(large, GENERATION))]),
        ("values: those of well-behaved traces", told()),
    ]
}

/// Nanoseconds a comparison in one round.
fn round(same: Same, pairs: &[(Bytes, Bytes)]) -> f64 {
    let turns = TIMES.div_ceil(pairs.len());
    let from = clock::now();
    for _ in 0..turns {
        for (a, b) in pairs {
            black_box(same(black_box(a), black_box(b)));
        }
    }
    (clock::now() - from) as f64 / (turns * pairs.len()) as f64
}

/// The median of each side, over rounds in which they take turns.
fn measure(pairs: &[(Bytes, Bytes)], rounds: usize) -> [f64; SIDES.len()] {
    let mut times = [const { Vec::new() }; SIDES.len()];
    for _ in 0..rounds {
        for (side, times) in SIDES.iter().zip(&mut times) {
            times.push(round(*side, pairs));
        }
    }
    times.map(clock::median)
}

/// The one answer of all sides.
fn same(a: &Bytes, b: &Bytes) -> bool {
    let answers = SIDES.map(|same| same(a, b));
    assert_eq!(answers, [answers[0]; SIDES.len()], "two comparisons differ");
    answers[0]
}

/// All sides have to give one answer to every pair, and to its values with any one byte altered.
/// The benchmark measures nothing that is wrong.
fn compare(pairs: &[(Bytes, Bytes)]) -> usize {
    for (a, b) in pairs {
        for at in 0..SIZE {
            same(&with(*a, at), b);
            same(a, &with(*b, at));
        }
    }
    pairs.iter().filter(|(a, b)| same(a, b)).count()
}

/// The rows whose names have one of the words.
pub fn print(words: &[String], rounds: usize) {
    let rows = rows();
    let wanted: Vec<_> = rows.iter().filter(|(name, _)| is_wanted(words, name)).collect();
    if !wanted.is_empty() {
        let names = "lying | copied | Rust, lying | Rust, copied";
        println!("\n| comparison | pairs | equal | {names} | copied/lying |");
        println!("|---|---|---|---|---|---|---|---|");
    }
    for (name, pairs) in wanted {
        let equal = compare(pairs);
        let times = measure(pairs, rounds);
        print!("| {name} | {} | {equal} |", pairs.len());
        for time in times {
            print!(" {time:.1} |");
        }
        println!(" {:.1} |", times[1] / times[0]);
    }
}
