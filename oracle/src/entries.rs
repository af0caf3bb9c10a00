//! Entries into a tally for the comparison: a judge's words and stored bytes, sound, or with one
//! or several things wrong. Nothing here says what they come to.

use crate::random::Random;
use crate::report::{CHECKS, KINDS};
use crate::tally::{MOST, PLACES, RECORDS, SIZE, STATE, kind_word, used};

/// What an entry is given.
#[derive(Clone, Debug)]
pub struct Entry {
    pub state: Vec<u64>,
    pub bytes: Vec<u8>,
}

/// A judge's words, position and evidence of each report any number.
fn state_of(random: &mut Random, capacity: u64, count: u64, kinds: [u64; 8]) -> Vec<u64> {
    let mut state: Vec<u64> = (0..STATE).map(|_| random.next()).collect();
    (state[0], state[1]) = (capacity, count);
    for (check, kind) in kinds.into_iter().enumerate() {
        state[kind_word(check)] = kind;
    }
    state
}

fn put(bytes: &mut [u8], place: usize, number: u64) {
    let number = u32::try_from(number).expect("a count of 32 bits");
    bytes[4 * place..4 * place + 4].copy_from_slice(&number.to_le_bytes());
}

/// The places of a tally that are used, or those that are not.
fn places(wanted: bool) -> Vec<usize> {
    let is_used = |place: &usize| place % PLACES < used(place / PLACES);
    (0..PLACES * RECORDS).filter(|place| is_used(place) == wanted).collect()
}

/// The totals' two places.
const TRACES: usize = PLACES * CHECKS.len();
const RECORDS_TAKEN: usize = TRACES + 1;

/// The places that a judge of these kinds raises: one of each check, and the totals' two.
fn raised(kinds: [u64; 8]) -> Vec<usize> {
    let checks = (0..CHECKS.len()).map(|check| PLACES * check + kinds[check] as usize);
    checks.chain([TRACES, RECORDS_TAKEN]).collect()
}

/// A tally whose places are full where this judge raises nothing, and else have just room.
fn brim(count: u64, kinds: [u64; 8]) -> Vec<u8> {
    let mut bytes = vec![0; SIZE];
    places(true).into_iter().for_each(|place| put(&mut bytes, place, MOST));
    raised(kinds).into_iter().for_each(|place| put(&mut bytes, place, MOST - 1));
    put(&mut bytes, RECORDS_TAKEN, MOST - count);
    bytes
}

/// A pass each; the first kind of each; the last; and some of all.
const KINDS_ENTERED: [[u64; 8]; 4] =
    [[0; 8], [1; 8], [3, 1, 1, 1, 2, 2, 3, 4], [2, 0, 1, 0, 2, 1, 0, 3]];

/// Counts that one more carries into the next byte, or that are full or nearly so.
const EDGES: [u64; 6] = [255, 65_535, 16_777_215, 2_147_483_647, MOST - 1, MOST];

/// Kinds that a check may have or lack: all up to 300, and those that a cut to fewer bits would
/// make sound.
fn kinds_tried() -> Vec<u64> {
    let wide = [8, 16, 31, 32, 63].map(|bits| 1u64 << bits);
    let cut = wide.into_iter().flat_map(|high| (0..5).map(move |low| high | low));
    (0..=300).chain(cut).chain([u64::MAX - 1, u64::MAX]).collect()
}

/// Every entry with one thing wrong, or at the edge of it, for judges of several kinds of faults.
pub fn single(random: &mut Random) -> Vec<Entry> {
    let mut out = Vec::new();
    for kinds in KINDS_ENTERED {
        let state = state_of(random, 96, 19, kinds);
        out.extend(lengths(&state));
        out.extend(numbers(random, kinds));
        out.extend(kinds_of_each(&state));
        out.extend(bytes_of_each(&state));
        out.extend(counts_of_each(random, kinds));
    }
    out
}

/// Every length of the tally and of the state.
fn lengths(state: &[u64]) -> Vec<Entry> {
    let tally = |length| Entry { state: state.to_vec(), bytes: vec![0; length] };
    let words = |length| {
        let mut state = state.to_vec();
        state.resize(length, 0);
        Entry { state, bytes: vec![0; SIZE] }
    };
    (0..=3 * SIZE).map(tally).chain((0..=3 * STATE).map(words)).collect()
}

/// Capacities and counts, the refused opening's 0 among them.
fn numbers(random: &mut Random, kinds: [u64; 8]) -> Vec<Entry> {
    let high = [4095, 4096, 4097, 1 << 16, 1 << 32, 1 << 32 | 96, 1 << 63, u64::MAX];
    let tried: Vec<u64> = (0..4).chain([95, 96, 97]).chain(high).collect();
    let mut out = Vec::new();
    for capacity in &tried {
        for count in &tried {
            let state = state_of(random, *capacity, *count, kinds);
            out.push(Entry { state, bytes: vec![0; SIZE] });
        }
    }
    out
}

/// Each kind that is tried, of each check.
fn kinds_of_each(state: &[u64]) -> Vec<Entry> {
    let mut out = Vec::new();
    for check in 0..CHECKS.len() {
        for kind in kinds_tried() {
            let mut state = state.to_vec();
            state[kind_word(check)] = kind;
            out.push(Entry { state, bytes: vec![0; SIZE] });
        }
    }
    out
}

/// Each byte of a tally of zeros, used or not, set to some values.
fn bytes_of_each(state: &[u64]) -> Vec<Entry> {
    let mut out = Vec::new();
    for at in 0..SIZE {
        for value in [1, 128, 255] {
            let mut bytes = vec![0; SIZE];
            bytes[at] = value;
            out.push(Entry { state: state.to_vec(), bytes });
        }
    }
    out
}

/// Each used place at each edge, in a tally of zeros and in one with just room; the records also
/// at the edge of what the judge's count leaves.
fn counts_of_each(random: &mut Random, kinds: [u64; 8]) -> Vec<Entry> {
    let mut out = Vec::new();
    for count in [0, 1, 2, 19, 4096] {
        let state = state_of(random, 4096, count, kinds);
        let at_edges = places(true).into_iter().flat_map(|place| EDGES.map(|edge| (place, edge)));
        let left = (count.saturating_sub(2)..=count + 2).map(|left| (RECORDS_TAKEN, MOST - left));
        for (place, number) in at_edges.chain(left) {
            for mut bytes in [vec![0; SIZE], brim(count, kinds)] {
                put(&mut bytes, place, number);
                out.push(Entry { state: state.clone(), bytes });
            }
        }
    }
    out
}

/// An entry with nothing wrong or several things at once: the order of the refusals shows.
pub fn several(random: &mut Random) -> Entry {
    let capacity = *random.pick(&[0, 1, 2, 96, 4095, 4096]);
    let count = if random.percent(30) { capacity } else { random.from_to(0, capacity) };
    let kinds = KINDS.map(|most| random.from_to(0, u64::from(most)));
    let mut state = state_of(random, capacity, count, kinds);
    let mut bytes = drawn(random, count, kinds);
    if random.percent(25) {
        spoil_state(random, &mut state);
    }
    if random.percent(25) {
        spoil_bytes(random, &mut bytes);
    }
    Entry { state, bytes }
}

/// Bytes of a tally with its unused places zero: all counts drawn alike, or just room, or at one
/// place perhaps none.
fn drawn(random: &mut Random, count: u64, kinds: [u64; 8]) -> Vec<u8> {
    let mut bytes = brim(count, kinds);
    match random.below(6) {
        0 => {}
        1 => {
            let place = *random.pick(&raised(kinds));
            put(&mut bytes, place, MOST - random.below(3));
        }
        how => places(true).into_iter().for_each(|place| put(&mut bytes, place, some(random, how))),
    }
    bytes
}

/// A small count, any, one at an edge of its bytes or one that is nearly full.
fn some(random: &mut Random, how: u64) -> u64 {
    match how {
        2 => random.below(1000),
        3 => random.below(MOST + 1),
        4 => *random.pick(&EDGES[..4]),
        _ => MOST - random.below(5000),
    }
}

/// One or two things wrong with a judge's words.
fn spoil_state(random: &mut Random, state: &mut Vec<u64>) {
    let (capacity, count) = (state[0], state[1]);
    for _ in 0..random.from_to(1, 2) {
        match random.below(5) {
            0 => state[0] = *random.pick(&[4097, 1 << 32, 1 << 32 | capacity, u64::MAX]),
            1 => state[1] = *random.pick(&[capacity + 1, 4097, 1 << 32 | count, u64::MAX]),
            4 => {
                state.resize(*random.pick(&[0, 1, 4, 53, 59, 61, 67, 120]), 0);
                return;
            }
            _ => {
                let word = kind_word(random.below(8) as usize);
                state[word] = *random.pick(&kinds_tried());
            }
        }
    }
}

/// An unused place not zero, another length, or both; or any bytes.
fn spoil_bytes(random: &mut Random, bytes: &mut Vec<u8>) {
    if random.percent(5) {
        bytes.iter_mut().for_each(|byte| *byte = random.next() as u8);
    }
    if random.percent(70) {
        let at = 4 * random.pick(&places(false)) + random.below(4) as usize;
        bytes[at] = random.from_to(1, 255) as u8;
    }
    if random.percent(40) {
        let length = *random.pick(&[0, 1, 4, 40, 320, 356, 359, 361, 364, 400, 800]);
        bytes.resize(length, 0);
    }
}
