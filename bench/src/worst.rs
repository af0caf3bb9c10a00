//! Traces that are hard on one look-back each: every record of one range, node or kind.

use oracle::random::Random;
use oracle::wire::{Record, Span};

pub fn key_of(number: usize) -> Vec<u8> {
    format!("meter/{number:08}").into_bytes()
}

pub fn slot(i: usize) -> Span {
    (key_of(2 * i), key_of(2 * i + 1))
}

pub fn all() -> Span {
    (key_of(0), b"n".to_vec())
}

pub fn record(kind: u8, sub: u8, node: Option<u32>, numbers: [u64; 5]) -> Record {
    Record { kind, sub, node, numbers, ..Record::default() }
}

pub fn valued(mut record: Record, span: Span) -> Record {
    record.voters = vec![1, 2, 3];
    record.spans = vec![span];
    record
}

pub fn descriptor(node: Option<u32>, numbers: [u64; 5], span: Span) -> Record {
    valued(record(2, 1, node, numbers), span)
}

/// A put of each generation below `generations`, and then kind 12s.
pub fn metas(n: usize, generations: u64, name: impl Fn(usize, u64) -> (u64, u64, Span)) -> Vec<Record> {
    let put = |g: u64| descriptor(None, [1, g + 1, g + 1, g, 0], all());
    let mut records: Vec<Record> = (0..generations).map(put).collect();
    for i in 0..n - records.len() {
        let (index, generation, won) = name(i, i as u64 + 1);
        let numbers = [1, index, 0, generation, 0];
        let mut named = valued(record(12, 0, Some(1), numbers), all());
        named.spans.push(won);
        records.push(named);
    }
    records
}

/// Disjoint spans, eight records to an event.
fn eight_to_an_event(n: usize) -> Vec<Record> {
    let mut records = metas(n, 1, |i, _| (i as u64 / 8 + 1, 0, slot(i)));
    for (i, record) in records[1..].iter_mut().enumerate() {
        record.flag = u8::from(i % 8 > 0);
    }
    records
}

fn puts(n: usize) -> Vec<Record> {
    let put = |i: u64| descriptor(Some(1), [1, i, i, i, 0], all());
    (1..=n as u64).map(put).collect()
}

fn statements(n: usize) -> Vec<Record> {
    let mut records = vec![valued(record(1, 1, Some(1), [1, 1, 0, 1, 0]), all())];
    let again = descriptor(Some(1), [1, 1, 1, 1, 0], all());
    records.resize(n, again);
    records
}

/// Values at rising indexes by one node, each restated by another that has applied it.
fn puts_and_statements(n: usize) -> Vec<Record> {
    let mut records = Vec::new();
    let mut i = 0;
    while records.len() < n {
        i += 1;
        records.push(descriptor(Some(2), [1, i, i, i, 0], all()));
        records.push(record(4, 0, Some(1), [1, i, 1, 0, 0]));
        records.push(descriptor(Some(1), [1, i, i, i, 0], all()));
    }
    records.truncate(n);
    records
}

/// Fifty ranges at each of three nodes, then writes and restatements in turn.
fn fifty_ranges(n: usize) -> Vec<Record> {
    let mut random = Random::new(50);
    let mut records = Vec::new();
    for range in 0..50 {
        for node in 1..=3 {
            let numbers = [range as u64 + 1, 1, 0, 1, 0];
            records.push(valued(record(1, 1, Some(node), numbers), slot(range)));
        }
    }
    let mut index = 1;
    while records.len() < n {
        index += 1;
        let range = random.below(50) as usize;
        let numbers = [range as u64 + 1, index, 0, 0, 0];
        for node in 1..=3 {
            let mut apply = record(3, 1, Some(node), numbers);
            apply.spans = vec![(key_of(2 * range), Vec::new())];
            records.push(apply);
        }
        records.push(descriptor(Some(1), [range as u64 + 1, 1, index, 1, 0], slot(range)));
    }
    records.truncate(n);
    records
}

fn every_range_held(n: usize) -> Vec<Record> {
    let made = |i: usize| valued(record(1, 1, Some(1), [i as u64 + 1, 1, 0, 1, 0]), slot(i));
    (0..n).map(made).collect()
}

fn made_and_removed(n: usize) -> Vec<Record> {
    let pair = |i: usize| match i % 2 {
        0 => valued(record(1, 1, Some(1), [1, 1, 0, 1, 0]), all()),
        _ => record(9, 0, Some(1), [1, 0, 0, 0, 0]),
    };
    (0..n).map(pair).collect()
}

/// Splits of one parent at three nodes, each told in full.
fn splits(n: usize) -> Vec<Record> {
    let mut records = Vec::new();
    let mut high = 1 << 20;
    for node in 1..=3 {
        let span = (key_of(0), key_of(high));
        records.push(valued(record(1, 1, Some(node), [1, 1, 0, 1, 0]), span));
    }
    let mut index = 1;
    while records.len() < n {
        index += 1;
        let (right, low) = (index + 100, high - 2);
        for node in 1..=3 {
            let node = Some(node);
            records.push(record(7, 0, node, [1, index, right, 0, 0]));
            let left = (key_of(0), key_of(low));
            records.push(descriptor(node, [1, index, index, index, 0], left));
            let numbers = [right, index, 1, index, 0];
            let mut made = valued(record(1, 2, node, numbers), (key_of(low), key_of(high)));
            made.flag = 1;
            records.push(made);
            records.push(record(3, 4, node, [1, index, 0, 0, 0]));
        }
        high = low;
    }
    records.truncate(n);
    records
}

/// A quarter of the records register splits of one parent, told by a node that takes no part; then the record given, by
/// nodes that owe nothing: each looks through all of the splits.
fn looked_through(n: usize, then: impl Fn(u64) -> Record) -> Vec<Record> {
    let mut records = Vec::new();
    for i in 0..(n / 4) as u64 {
        let mut made = valued(record(1, 2, Some(9), [i + 100, i + 1, 1, 1, 0]), slot(i as usize));
        made.flag = 1;
        records.push(made);
    }
    for i in 0..(n - records.len()) as u64 {
        records.push(then(i));
    }
    records
}

/// A node that restates over and over.
fn restated(n: usize) -> Vec<Record> {
    looked_through(n, |_| record(5, 0, Some(1), [0; 5]))
}

/// A node that holds the right range of each split and applies it by a Took, over and over.
fn taken(n: usize) -> Vec<Record> {
    let splits = (n / 4) as u64;
    looked_through(n, |i| {
        let at = i % splits;
        if i < splits {
            return valued(record(1, 1, Some(1), [at + 100, at + 1, 0, 1, 0]), slot(at as usize));
        }
        record(3, 4, Some(1), [1, at + 1, 0, 0, 0])
    })
}

/// A node that owes every split's right range and holds all but the first, which it is told of at the end.
fn owed(n: usize) -> Vec<Record> {
    let splits = (n / 4) as u64;
    let mut records = looked_through(n, |i| match i {
        i if i < splits => record(7, 0, Some(1), [1, i + 1, i + 100, 0, 0]),
        i if i < 2 * splits - 1 => {
            let at = i - splits + 1;
            valued(record(1, 1, Some(1), [at + 100, at + 1, 0, 1, 0]), slot(at as usize))
        }
        _ => record(9, 0, Some(1), [50, 0, 0, 0, 0]),
    });
    records.pop();
    records.push(record(5, 0, Some(1), [0; 5]));
    records
}

fn one_key(n: usize) -> Vec<Record> {
    let mut records = vec![valued(record(1, 1, Some(1), [1, 1, 0, 1, 0]), all())];
    for index in 2..=n as u64 {
        let mut apply = record(3, 1, Some(1), [1, index, 0, 0, 0]);
        apply.spans = vec![(key_of(7), Vec::new())];
        records.push(apply);
    }
    records
}

pub fn grants(n: usize) -> Vec<Record> {
    let grant = |i: u64| record(11, 0, Some(1), [1, i, 1, 10 * i, 10 * i + 9]);
    (1..=n as u64).map(grant).collect()
}

fn grants_falling(n: usize) -> Vec<Record> {
    let mut records = grants(n);
    for (i, record) in records.iter_mut().enumerate() {
        let first = 10 * (n - i) as u64;
        record.numbers[3] = first;
        record.numbers[4] = first + 9;
    }
    records
}

pub type Maker = fn(usize) -> Vec<Record>;

/// The traces by name.
pub const WORST: [(&str, Maker); 18] = [
    ("one range: puts at rising indexes", puts),
    ("one range: one put, then statements", statements),
    ("one range: puts, each restated", puts_and_statements),
    ("fifty ranges at three nodes", fifty_ranges),
    ("kind 12, disjoint spans", |n| metas(n, 1, |i, at| (at, 0, slot(i)))),
    ("kind 12, disjoint spans, eight to an event", eight_to_an_event),
    ("kind 12, each wins everything", |n| metas(n, 1, |_, at| (at, 0, all()))),
    ("kind 12, disjoint, generations vary", |n| metas(n, 16, |i, at| (at, at * 7 % 16, slot(i)))),
    ("kind 12, disjoint, indexes fall", |n| metas(n, 1, |i, at| (10_000 - at, 0, slot(i)))),
    ("one node makes every range", every_range_held),
    ("one range made and removed", made_and_removed),
    ("one parent splits again and again", splits),
    ("splits, then one node restates", restated),
    ("splits, then one node applies each", taken),
    ("splits, all owed, one missing at the end", owed),
    ("one key written again and again", one_key),
    ("grants, rising", grants),
    ("grants, falling", grants_falling),
];
