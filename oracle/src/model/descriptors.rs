//! Document 01, `Descriptors`: agreement and its look-ups.

use std::collections::BTreeSet;

use super::Case;
use super::form::Entry;
use super::readings::{Reading, takes};

/// What a record is to this check.
#[derive(Clone, Copy, Debug, PartialEq, Eq)]
pub enum Role {
    Put { range: u64, index: u64 },
    Statement { range: u64, index: u64 },
    Neither,
}

/// "The applied index of (node, range) is that of the latest marked kind 1
/// (floor), 3 (index) or 4 (applied)."
fn applied(past: &[Entry], node: u64, range: u64) -> Option<u64> {
    for x in past.iter().rev().filter(|x| x.node == Some(node)) {
        match x.kind {
            1 | 3 | 4 if x.a == range => return Some(x.b),
            2 if x.a == range && takes(Reading::DescriptorSetsApplied) => return Some(x.c),
            9 if x.a == range && takes(Reading::RemovalForgetsApplied) => return None,
            6 if takes(Reading::CrashForgetsApplied) => return None,
            10 if takes(Reading::RefusalForgetsApplied) => return None,
            _ => {}
        }
    }
    None
}

/// The role of the last record of `past`.
pub fn role(past: &[Entry]) -> Role {
    let (x, before) = past.split_last().expect("a record");
    let range = x.a;
    match (x.kind, x.sub) {
        (1, 1 | 2) => Role::Put { range, index: x.b },
        (1, _) if x.node.is_none() && takes(Reading::UnmarkedSnapshotIsNothing) => Role::Neither,
        (2, _) if x.node.is_none() && takes(Reading::UnmarkedDescriptorIsNothing) => Role::Neither,
        (1, _) => Role::Statement { range, index: x.b },
        (2, _) => {
            let known = x.node.and_then(|node| applied(before, node, range));
            if known.is_some_and(|known| known >= x.c) {
                Role::Statement { range, index: x.c }
            } else {
                Role::Put { range, index: x.b }
            }
        }
        _ => Role::Neither,
    }
}

/// "A value is (start, end, generation, voters, state); RangeCreated's state is
/// Live."
fn same_value(x: &Entry, y: &Entry) -> bool {
    let state = |e: &Entry| if e.kind == 1 { 1 } else { e.sub };
    x.spans[0] == y.spans[0]
        && x.d == y.d
        && same_voters(x, y)
        && (state(x) == state(y) || takes(Reading::StateIgnored))
}

/// "Voters compare as lists."
pub fn same_voters(x: &Entry, y: &Entry) -> bool {
    let set = |e: &Entry| e.voters.iter().copied().collect::<BTreeSet<u64>>();
    let four = |e: &Entry| (e.voters.len(), e.voters.iter().copied().take(4).collect::<Vec<u64>>());
    x.voters == y.voters
        || takes(Reading::VotersAsSets) && set(x) == set(y)
        || takes(Reading::FifthVoterIgnored) && four(x) == four(y)
}

/// The records with the roles they had when they were taken.
#[derive(Clone, Copy)]
pub struct Puts<'a> {
    pub past: &'a [Entry],
    pub roles: &'a [Role],
}

impl<'a> Puts<'a> {
    /// "The first put at (range, index) stands": the standing values of a range
    /// as (index, place), in the order they were put.
    fn standing(self, range: u64) -> Vec<(u64, usize)> {
        let mut out: Vec<(u64, usize)> = Vec::new();
        for (place, role) in self.roles.iter().enumerate() {
            let (of, index) = match *role {
                Role::Put { range, index } => (range, index),
                Role::Statement { range, index } if takes(Reading::StatementsAlsoStand) => {
                    if out.iter().any(|(taken, _)| *taken <= index) {
                        continue;
                    }
                    (range, index)
                }
                _ => continue,
            };
            if of == range && out.iter().all(|(taken, _)| *taken != index) {
                out.push((index, place));
            }
        }
        out
    }

    /// The standing value with the greatest index that `fits`.
    fn greatest(self, range: u64, fits: impl Fn(u64) -> bool) -> Option<usize> {
        let values = self.standing(range).into_iter().filter(|(index, _)| fits(*index));
        values.max_by_key(|(index, _)| *index).map(|(_, place)| place)
    }

    /// "`before` takes the greatest index below the one given".
    pub fn before(self, range: u64, index: u64) -> Option<usize> {
        self.greatest(range, |at| at < index)
    }

    /// "`at` the greatest not above it".
    pub fn at(self, range: u64, index: u64) -> Option<usize> {
        self.greatest(range, |at| at <= index)
    }

    /// Document 01 says the lowest index with that generation; the Rust takes the
    /// first put in time, and the Rust holds.
    pub fn first_at_generation(self, range: u64, generation: u64) -> Option<usize> {
        let mut values = self.standing(range);
        if takes(Reading::LowestIndexAtGeneration) {
            values.sort();
        }
        values.into_iter().map(|(_, place)| place).find(|p| self.past[*p].d == generation)
    }

    /// How many statements there are.
    pub fn statements(self) -> u64 {
        let stated = |role: &&Role| matches!(role, Role::Statement { .. });
        self.roles.iter().filter(stated).count() as u64
    }

    /// Whether nothing was ever put.
    pub fn is_empty(self) -> bool {
        !self.roles.iter().any(|role| matches!(role, Role::Put { .. }))
    }

    /// The case of the statement at `place`, judged over all of the records.
    fn statement_case(self, place: usize) -> Case {
        let Role::Statement { range, index } = self.roles[place] else {
            return None;
        };
        let said = &self.past[place];
        let standing = &self.past[self.at(range, index)?];
        if same_value(said, standing) {
            return None;
        }
        if said.d <= standing.d {
            return Some((3, vec![range, index]));
        }
        let higher = self.standing(range).into_iter().filter(|(at, _)| *at > index);
        let taking = higher.filter(|(_, place)| self.past[*place].d == said.d).map(|(at, _)| at);
        let highest = takes(Reading::HighestTakenIndex);
        let taken = if highest { taking.max() } else { taking.min() };
        Some((2, vec![range, index, taken?]))
    }

    /// Agreement over these records: a put that differs, else the earliest
    /// faulty statement of them all.
    pub fn agreement(self) -> Case {
        let last = self.past.len() - 1;
        if let Role::Put { range, index } = self.roles[last] {
            let standing = self.standing(range).into_iter().find(|(at, _)| *at == index);
            let (_, place) = standing.expect("this put, if no other");
            if !same_value(&self.past[last], &self.past[place]) {
                return Some((1, vec![range, index]));
            }
        }
        let from = if takes(Reading::JudgedOnlyWhenTraced) { last } else { 0 };
        let mut cases = (from..=last).filter_map(|place| self.statement_case(place));
        if takes(Reading::LatestFaultyStatement) { cases.last() } else { cases.next() }
    }
}
