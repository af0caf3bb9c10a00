//! The cost of one entry into a tally: the library beside a plain Rust counter, over the same
//! judges' words and the same bytes.

use std::hint::black_box;

use oracle::report::KINDS;
use oracle::wire::Record;

use crate::sides::{Buffers, HEADER, STATE};
use crate::{STORIES, TENANT, clock, is_wanted, story};

unsafe extern "C" {
    fn petalchurn_tally_enter(
        state: *const u64,
        state_length: usize,
        tally: *mut u8,
        tally_length: usize,
    ) -> u64;
}

/// The judges are those of stories of so many records, as many as a row of stories has.
pub const RECORDS: usize = 96;
const JUDGES: u64 = 32;

/// How often a round enters each judge, so that reading the clock weighs nothing.
const TIMES: usize = 64;

const SIZE: usize = 360;
const PLACES: usize = 10;
const TRACES: usize = 80;
const TAKEN: usize = 81;

type Judge = [u64; STATE];
type Enter = fn(&[u64], &mut [u8]) -> u64;

fn library(state: &[u64], tally: &mut [u8]) -> u64 {
    unsafe { petalchurn_tally_enter(state.as_ptr(), state.len(), tally.as_mut_ptr(), tally.len()) }
}

/// For each place the bits that have to be zero: all of an unused one.
const UNUSED: [u32; SIZE / 4] = {
    let mut bits = [u32::MAX; SIZE / 4];
    (bits[TRACES], bits[TAKEN]) = (0, 0);
    let mut check = 0;
    while check < KINDS.len() {
        let mut place = 0;
        while place <= KINDS[check] as usize {
            bits[PLACES * check + place] = 0;
            place += 1;
        }
        check += 1;
    }
    bits
};

fn count(tally: &[u8; SIZE], place: usize) -> u32 {
    u32::from_le_bytes(tally[4 * place..4 * place + 4].try_into().expect("four bytes"))
}

fn raise(tally: &mut [u8; SIZE], place: usize, by: u32) {
    let raised = count(tally, place) + by;
    tally[4 * place..4 * place + 4].copy_from_slice(&raised.to_le_bytes());
}

/// The same entry in plain Rust, with the same tests and refusals in the same order. The lengths
/// are fixed before the rest, so that the compiler can unroll and need not test each index; the
/// unused places are one pass without a branch. Not inlined, since the library is not either.
#[inline(never)]
fn plain(state: &[u64], tally: &mut [u8]) -> u64 {
    let Ok(state) = <&Judge>::try_from(state) else { return 5 };
    let Ok(tally) = <&mut [u8; SIZE]>::try_from(tally) else { return 5 };
    if state[0] > 4096 || state[1] > state[0] {
        return 5;
    }
    let mut places = [0; KINDS.len()];
    for check in 0..KINDS.len() {
        let kind = state[HEADER + 7 * check];
        if kind > u64::from(KINDS[check]) {
            return 5;
        }
        places[check] = PLACES * check + kind as usize;
    }
    if (0..UNUSED.len()).fold(0, |bits, place| bits | count(tally, place) & UNUSED[place]) != 0 {
        return 4;
    }
    let taken = state[1] as u32;
    let checks_full = places.iter().any(|place| count(tally, *place) == u32::MAX);
    if checks_full || count(tally, TRACES) == u32::MAX || count(tally, TAKEN) > u32::MAX - taken {
        return 9;
    }
    places.iter().for_each(|place| raise(tally, *place, 1));
    raise(tally, TRACES, 1);
    raise(tally, TAKEN, taken);
    0
}

/// The judges of stories of different seeds, so that no run learns one by heart.
fn judges((tellers, noise, named): (u64, u64, u64)) -> Vec<Judge> {
    let mut buffers = Buffers::new(RECORDS);
    let judge = |seed| {
        let records = story::story(seed, RECORDS, tellers, noise, named);
        let bytes: Vec<u8> = records.iter().flat_map(Record::encode).collect();
        buffers.push(TENANT, &bytes);
        buffers.state()
    };
    (1..=JUDGES).map(judge).collect()
}

fn faults(judges: &[Judge]) -> usize {
    let kinds = judges.iter().flat_map(|judge| judge[HEADER..].iter().step_by(7));
    kinds.filter(|kind| **kind != 0).count()
}

/// Both sides must say and leave the same: over all judges from zeros, and at each refusal.
fn compare(judges: &[Judge]) {
    let mut tallies = [[0; SIZE]; 2];
    for judge in judges {
        same(judge, &mut tallies, 0);
    }
    let mut unknown = judges[0];
    unknown[HEADER] = 10;
    same(&unknown, &mut tallies, 5);
    let mut unused = tallies.map(|mut tally| {
        tally[SIZE - 1] = 1;
        tally
    });
    same(&judges[0], &mut unused, 4);
    let mut full = tallies.map(|mut tally| {
        tally[4 * TAKEN..4 * TAKEN + 4].fill(255);
        tally
    });
    same(&judges[0], &mut full, 9);
}

fn same(judge: &Judge, tallies: &mut [[u8; SIZE]; 2], refusal: u64) {
    let [ours, theirs] = tallies;
    assert_eq!((library(judge, ours), plain(judge, theirs)), (refusal, refusal), "refusals");
    assert_eq!(ours, theirs, "the library's tally and the plain one differ");
}

/// Nanoseconds an entry in one round, from a tally of zeros.
fn round(enter: Enter, judges: &[Judge]) -> f64 {
    let mut tally = [0; SIZE];
    let from = clock::now();
    for _ in 0..TIMES {
        for judge in judges {
            assert_eq!(enter(black_box(judge), &mut tally), 0, "an entry was refused");
        }
    }
    let time = clock::now() - from;
    black_box(tally);
    time as f64 / (TIMES * judges.len()) as f64
}

/// The median of each side, over rounds in which they take turns.
fn measure(judges: &[Judge], rounds: usize) -> [f64; 2] {
    let mut times = [const { Vec::new() }; 2];
    for _ in 0..rounds {
        times[0].push(round(library, judges));
        times[1].push(round(plain, judges));
    }
    times.map(clock::median)
}

/// The rows whose names have one of the words: the judges of the well-behaved stories and of
/// those with faults.
pub fn print(words: &[String], rounds: usize) {
    let rows = [STORIES[0], STORIES[3]].map(|(name, told)| (format!("tally: {name}"), told));
    let wanted: Vec<_> = rows.iter().filter(|(name, ..)| is_wanted(words, name)).collect();
    if !wanted.is_empty() {
        println!("\n| entry into a tally | judges | faults | library | plain | library/plain |");
        println!("|---|---|---|---|---|---|");
    }
    for (name, told) in wanted {
        let judges = judges(*told);
        compare(&judges);
        let (faults, [ours, plain]) = (faults(&judges), measure(&judges, rounds));
        println!("| {name} | {JUDGES} | {faults} | {ours:.0} | {plain:.0} | {:.1} |", ours / plain);
    }
}
