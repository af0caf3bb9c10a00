//! Traces on which the judge is far behind the Rust: two look-backs nest, or a list is long that the Rust keeps in order. They are
//! measured only where `--hard` is given, since some take minutes at 4,096 records.

use oracle::random::Random;
use oracle::wire::Record;

use crate::worst::{Maker, all, descriptor, grants, key_of, metas, record, slot, valued};

/// A server that is no node's.
const OTHER: u64 = 1 << 40;

/// The numbers below n in a mixed order, the same each time.
fn mixed(n: usize) -> Vec<usize> {
    let mut random = Random::new(17);
    let mut numbers: Vec<usize> = (0..n).collect();
    for i in (1..n).rev() {
        numbers.swap(i, random.below(i as u64 + 1) as usize);
    }
    numbers
}

/// One name opposes all that follow, but another hides it; the rest, at rising indexes, win all pieces so far and one more.
fn hidden_name(n: usize) -> Vec<Record> {
    let high = 10 * n as u64;
    metas(n, 3, |i, at| match i {
        0 => (high, 1, slot(0)),
        1 => (2 * high, 2, slot(0)),
        _ => (at, 2, (key_of(0), key_of(2 * i + 1))),
    })
}

/// The registering of a split of range 1 by a node that takes no part in the rest.
fn registered(node: u32, right: u64, index: u64, voter: u64) -> Record {
    let numbers = [right, index, 1, 1, 0];
    let mut made = valued(record(1, 2, Some(node), numbers), slot(index as usize));
    made.voters = vec![voter];
    made.flag = 1;
    made
}

/// A quarter of the records register splits whose one voter is another server; then the record given.
fn of_others(n: usize, then: impl Fn(usize) -> Record) -> Vec<Record> {
    let splits = n / 4;
    let split = |i: usize| registered(9, i as u64 + 100, i as u64 + 1, OTHER);
    (0..n).map(|i| if i < splits { split(i) } else { then(i) }).collect()
}

/// A node that is no voter applies each split by a Took, over and over.
fn taken_by_another(n: usize) -> Vec<Record> {
    of_others(n, |i| record(3, 4, Some(1), [1, (i % (n / 4)) as u64 + 1, 0, 0, 0]))
}

/// A node's descriptors that apply no split, and then its restatements.
fn restated_after_descriptors(n: usize) -> Vec<Record> {
    of_others(n, |i| match i {
        i if i < n / 2 => descriptor(Some(1), [1, 1, 0, 1, 0], (key_of(1 << 20), key_of(1 << 21))),
        _ => record(5, 0, Some(1), [0; 5]),
    })
}

/// Many restated nodes that recorded the parent's index, and then splits of one right range in which none of them votes.
fn many_restated(n: usize) -> Vec<Record> {
    let nodes = n / 3;
    let one = |i: usize| match i {
        i if i < 2 * nodes && i % 2 == 0 => {
            descriptor(Some(i as u32 / 2 + 1), [1, 1, 1 << 30, 1, 0], all())
        }
        i if i < 2 * nodes => record(5, 0, Some(i as u32 / 2 + 1), [0; 5]),
        _ => registered(1_000_000 + i as u32, 7, i as u64 + 2, OTHER),
    };
    (0..n).map(one).collect()
}

/// Two values far apart, statements between them, and then puts of the same value at rising indexes below those.
fn puts_below_statements(n: usize) -> Vec<Record> {
    let high = 10 * n as u64;
    let one = |i: usize| match i {
        0 => descriptor(None, [1, 1, 1, 1, 0], all()),
        1 => descriptor(None, [1, 2 * high, 1, 1, 0], all()),
        i if i < n / 2 => valued(record(1, 3, Some(i as u32), [1, high, 0, 1, 0]), all()),
        _ => descriptor(None, [1, i as u64, 1, 1, 0], all()),
    };
    (0..n).map(one).collect()
}

fn mixed_names(n: usize) -> Vec<Record> {
    let places = mixed(n);
    metas(n, 1, |i, at| (at, 0, slot(places[i])))
}

fn mixed_grants(n: usize) -> Vec<Record> {
    let mut records = grants(n);
    for (record, place) in records.iter_mut().zip(mixed(n)) {
        record.numbers[3] = 10 * place as u64;
        record.numbers[4] = 10 * place as u64 + 9;
    }
    records
}

/// A node makes a range, and removes the one that it made twenty before.
fn queue_of_twenty(n: usize) -> Vec<Record> {
    let one = |i: usize| {
        let turn = (i / 2) as u64;
        match i % 2 {
            0 => valued(record(1, 1, Some(1), [turn + 21, 1, 0, 1, 0]), slot(i)),
            _ => record(9, 0, Some(1), [turn + 1, 0, 0, 0, 0]),
        }
    };
    (0..n).map(one).collect()
}

/// The traces by name.
pub const HARD: [(&str, Maker); 8] = [
    ("hard: kind 12, a hidden name, then names over all pieces", hidden_name),
    ("hard: splits of another server, taken again and again", taken_by_another),
    ("hard: splits, descriptors that apply none, then restated", restated_after_descriptors),
    ("hard: many restated nodes, then splits of one right range", many_restated),
    ("hard: puts below many statements", puts_below_statements),
    ("hard: kind 12, keys in a mixed order", mixed_names),
    ("hard: grants in a mixed order", mixed_grants),
    ("hard: one node's queue of twenty ranges", queue_of_twenty),
];
