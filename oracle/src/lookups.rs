//! The look-ups that document 01 names, as the oracle and the model both answer
//! them, and the questions that a trace gives rise to.

use std::collections::BTreeSet;

use crate::wire::Record;

/// Every look-up. The first three give the number of the putting record.
pub trait Lookups {
    fn before(&self, range: u64, index: u64) -> Option<u64>;
    fn at(&self, range: u64, index: u64) -> Option<u64>;
    fn first_at_generation(&self, range: u64, generation: u64) -> Option<u64>;
    fn statements(&self) -> u64;
    fn is_empty(&self) -> bool;
    fn holders_of(&self, id: u64) -> Vec<u64>;
    fn blocks(&self) -> Vec<[u64; 3]>;
}

/// One question.
#[derive(Clone, Copy, Debug, PartialEq, Eq)]
pub enum Question {
    Before(u64, u64),
    At(u64, u64),
    FirstAtGeneration(u64, u64),
    Statements,
    IsEmpty,
    HoldersOf(u64),
    Blocks,
}

impl Question {
    /// The answer as numbers: a record's number or 0 for none, a count, 1 or 0
    /// for yes or no, the holders, three numbers a block.
    pub fn ask(self, of: &impl Lookups) -> Vec<u64> {
        match self {
            Question::Before(range, index) => vec![of.before(range, index).unwrap_or(0)],
            Question::At(range, index) => vec![of.at(range, index).unwrap_or(0)],
            Question::FirstAtGeneration(range, generation) => {
                vec![of.first_at_generation(range, generation).unwrap_or(0)]
            }
            Question::Statements => vec![of.statements()],
            Question::IsEmpty => vec![u64::from(of.is_empty())],
            Question::HoldersOf(id) => of.holders_of(id),
            Question::Blocks => of.blocks().concat(),
        }
    }
}

/// Each number with its two neighbours, and the two ends.
fn around(numbers: impl Iterator<Item = u64>) -> BTreeSet<u64> {
    let near = numbers.flat_map(|n| [n.saturating_sub(1), n, n.saturating_add(1)]);
    near.chain([0, u64::MAX]).collect()
}

/// The ranges that have values or are asked about, with one that is not there.
fn ranges(records: &[Record]) -> BTreeSet<u64> {
    let named = records.iter().filter(|r| matches!(r.kind, 1..=4 | 7 | 9 | 12));
    named.map(|r| r.numbers[0]).chain([99]).collect()
}

/// All questions whose answers could differ on this trace.
pub fn questions(records: &[Record]) -> Vec<Question> {
    let puts = || records.iter().filter(|r| matches!(r.kind, 1 | 2));
    let indexes = around(puts().flat_map(|r| [r.numbers[1], r.numbers[2]]));
    let generations: BTreeSet<u64> = puts().map(|r| r.numbers[3]).chain([77]).collect();
    let mut out = vec![Question::Statements, Question::IsEmpty, Question::Blocks];
    for range in ranges(records) {
        out.extend(indexes.iter().map(|i| Question::Before(range, *i)));
        out.extend(indexes.iter().map(|i| Question::At(range, *i)));
        out.extend(generations.iter().map(|g| Question::FirstAtGeneration(range, *g)));
    }
    out.extend(ids(records).into_iter().map(Question::HoldersOf));
    out
}

/// The ids whose holders could differ: the bounds of each grant, and those beside them.
pub fn ids(records: &[Record]) -> BTreeSet<u64> {
    let grants = records.iter().filter(|r| r.kind == 11);
    around(grants.flat_map(|r| [r.numbers[3], r.numbers[4]]))
}
