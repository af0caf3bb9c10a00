//! The campaign tally as document 02 has it: counted from reports, stored in bytes, and what an
//! entry of a judge's words into such bytes comes to.

use crate::report::{CHECKS, KINDS, Reports};

/// "Records of 40 bytes", and counts of "32 bits": ten places a record.
pub const PLACES: usize = 10;

/// "One for each check in printing order and one for the totals".
pub const RECORDS: usize = CHECKS.len() + 1;

/// The bytes of a stored tally.
pub const SIZE: usize = 4 * PLACES * RECORDS;

/// The greatest count.
pub const MOST: u64 = 4_294_967_295;

/// The words of a judge: capacity, count, events, tenant, and seven for each check, its kind first.
pub const STATE: usize = 4 + 7 * CHECKS.len();

/// The greatest capacity.
const CAPACITY: u64 = 4096;

/// The word of a check's kind.
pub fn kind_word(check: usize) -> usize {
    4 + 7 * check
}

/// What is counted of a campaign.
#[derive(Clone, Debug, Default)]
pub struct Tally {
    /// For each check the traces that passed, then those that faulted by kind.
    checks: [[u64; 5]; CHECKS.len()],
    traces: u64,
    records: u64,
}

impl Tally {
    /// One trace more, with its reports and how many records were taken.
    pub fn add(&mut self, reports: &Reports, records: u64) {
        for (counts, report) in self.checks.iter_mut().zip(reports) {
            counts[usize::from(report.kind)] += 1;
        }
        self.traces += 1;
        self.records += records;
    }

    /// The stored form.
    pub fn bytes(&self) -> Vec<u8> {
        let mut places = Places::default();
        for (record, counts) in places.iter_mut().zip(&self.checks) {
            record[..counts.len()].copy_from_slice(counts);
        }
        places[CHECKS.len()][0] = self.traces;
        places[CHECKS.len()][1] = self.records;
        stored(&places)
    }
}

/// The number at each place of each record.
type Places = [[u64; PLACES]; RECORDS];

fn stored(places: &Places) -> Vec<u8> {
    let narrow = |number: &u64| u32::try_from(*number).expect("a count of 32 bits").to_le_bytes();
    places.iter().flatten().flat_map(narrow).collect()
}

fn places_in(bytes: &[u8]) -> Places {
    let number = |at: usize| u32::from_le_bytes(bytes[at..at + 4].try_into().expect("four bytes"));
    let place = |record: usize, place: usize| u64::from(number(40 * record + 4 * place));
    std::array::from_fn(|r| std::array::from_fn(|p| place(r, p)))
}

/// How many places of a record are used: passes and each kind, or traces and records.
pub fn used(record: usize) -> usize {
    KINDS.get(record).map_or(2, |kinds| usize::from(*kinds) + 1)
}

/// Whether "each check's passes and faults add up to the traces" in bytes of a tally's length.
pub fn adds_up(bytes: &[u8]) -> bool {
    let places = places_in(bytes);
    let traces = places[CHECKS.len()][0];
    places[..CHECKS.len()].iter().all(|record| record.iter().sum::<u64>() == traces)
}

/// "A judge whose reports are refused or one with a fault kind its check lacks".
fn is_unfit(state: &[u64]) -> bool {
    let lacks = |check: usize| state[kind_word(check)] > u64::from(KINDS[check]);
    state.len() != STATE
        || state[0] > CAPACITY
        || state[1] > state[0]
        || (0..CHECKS.len()).any(lacks)
}

/// An entry of a judge's words into stored bytes: the refusal's number, 0 for none, and the
/// bytes after it, which a refusal leaves.
pub fn enter(state: &[u64], bytes: &[u8]) -> (u64, Vec<u8>) {
    if bytes.len() != SIZE || is_unfit(state) {
        return (5, bytes.to_vec());
    }
    let mut places = places_in(bytes);
    let is_zero = |record: usize| places[record][used(record)..].iter().all(|n| *n == 0);
    if !(0..RECORDS).all(is_zero) {
        return (4, bytes.to_vec());
    }
    for check in 0..CHECKS.len() {
        places[check][state[kind_word(check)] as usize] += 1;
    }
    places[CHECKS.len()][0] += 1;
    places[CHECKS.len()][1] += state[1];
    if places.iter().flatten().any(|number| *number > MOST) {
        return (9, bytes.to_vec());
    }
    (0, stored(&places))
}
