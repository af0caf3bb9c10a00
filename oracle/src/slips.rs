//! The traces of slips.txt: each tells some single slip from the Rust.

use crate::generate::Trace;
use crate::text::record_line;
use crate::wire::{Record, Span};

const TEXT: &str = include_str!("slips.txt");

fn numbers(words: &str) -> Vec<u64> {
    let digits = words.split(|c: char| !c.is_ascii_digit()).filter(|word| !word.is_empty());
    digits.map(|word| word.parse().expect("a number")).collect()
}

/// The spans of `[start:end,...]`, each key a list in brackets of its own.
fn spans(words: &str) -> Vec<Span> {
    let lists = words.split(']').filter_map(|part| part.rsplit_once('['));
    let key = |list: &str| numbers(list).into_iter().map(|byte| byte as u8).collect();
    let keys: Vec<Vec<u8>> = lists.map(|(_, list)| key(list)).collect();
    keys.chunks_exact(2).map(|pair| (pair[0].clone(), pair[1].clone())).collect()
}

/// The record of a line that `record_line` writes.
fn record(line: &str) -> Record {
    let (head, lists) = line.split_once(" voters=").expect("voters");
    let (voters, places) = lists.split_once(" spans=").expect("spans");
    let words: Vec<&str> = head.split(' ').collect();
    let byte = |at: usize| words[at].parse().expect("a byte");
    let record = Record {
        kind: byte(0),
        node: words[1].parse().ok(),
        sub: byte(2),
        flag: byte(3),
        numbers: std::array::from_fn(|i| words[4 + i].parse().expect("a number")),
        voters: numbers(voters),
        spans: spans(places),
    };
    assert_eq!(record_line(&record), line);
    record
}

/// All of them.
pub fn slips() -> Vec<Trace> {
    let trace = |told: &str| {
        let mut lines = told.lines();
        let (_, tenant) =
            lines.next().and_then(|line| line.split_once(" | tenant ")).expect("a tenant");
        let tenant = tenant.parse().expect("a number");
        Trace { profile: "slips", tenant, records: lines.map(record).collect() }
    };
    TEXT.split("\n\n").skip(1).map(trace).collect()
}
