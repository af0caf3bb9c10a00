//! Shrinks a trace for as long as a predicate still holds: fewer records first,
//! then smaller fields.

use crate::wire::{Record, form_of};

/// The smallest trace found that still `holds`.
pub fn minimise(records: &[Record], holds: &mut dyn FnMut(&[Record]) -> bool) -> Vec<Record> {
    let mut best = records.to_vec();
    loop {
        let before = best.clone();
        drop_records(&mut best, holds);
        shrink_fields(&mut best, holds);
        shrink_events(&mut best, holds);
        if best == before {
            return best;
        }
    }
}

/// Leaves out stretches of records, the long ones first.
fn drop_records(best: &mut Vec<Record>, holds: &mut dyn FnMut(&[Record]) -> bool) {
    let mut length = best.len();
    while length > 0 {
        let mut at = 0;
        while at + length <= best.len() {
            let mut fewer = best.clone();
            fewer.drain(at..at + length);
            if holds(&fewer) {
                *best = fewer;
            } else {
                at += 1;
            }
        }
        length /= 2;
    }
}

/// Tries each smaller form of each record.
fn shrink_fields(best: &mut Vec<Record>, holds: &mut dyn FnMut(&[Record]) -> bool) {
    for at in 0..best.len() {
        let mut tries = smaller(&best[at]);
        while let Some(next) = tries.pop() {
            let mut changed = best.clone();
            changed[at] = next.clone();
            if holds(&changed) {
                *best = changed;
                tries = smaller(&next);
            }
        }
    }
}

/// Tries a smaller node and index in all records of an event at once: in one alone
/// it would part the event.
fn shrink_events(best: &mut Vec<Record>, holds: &mut dyn FnMut(&[Record]) -> bool) {
    for at in 0..best.len() {
        let more = best[at + 1..].iter().take_while(|record| record.continues()).count();
        if more == 0 {
            continue;
        }
        let mut tries = smaller_applies(&best[at]);
        while let Some((node, index)) = tries.pop() {
            let mut changed = best.clone();
            for record in &mut changed[at..=at + more] {
                record.node = node;
                record.numbers[1] = index;
            }
            if changed != *best && holds(&changed) {
                *best = changed;
                tries = smaller_applies(&best[at]);
            }
        }
    }
}

/// A smaller node or a smaller index of a MetaApplied.
fn smaller_applies(record: &Record) -> Vec<(Option<u32>, u64)> {
    let (node, index) = (record.node, record.numbers[1]);
    let nodes = [None, node.map(|node| node.min(1))].map(|node| (node, index));
    nodes.into_iter().chain(less_than(index).into_iter().map(|less| (node, less))).collect()
}

/// Smaller numbers, few enough that a great one comes down in a few steps.
fn less_than(number: u64) -> Vec<u64> {
    let near = (number <= 16).then(|| number.saturating_sub(1));
    let tries = [number / 2].into_iter().chain(near).chain([3, 2, 1, 0]);
    tries.filter(|less| *less < number).collect()
}

/// Records one step smaller: a smaller number, a shorter list, a shorter key.
fn smaller(record: &Record) -> Vec<Record> {
    let mut out = Vec::new();
    let mut add = |change: &dyn Fn(&mut Record)| {
        let mut next = record.clone();
        change(&mut next);
        if next != *record && Record::decode(&next.encode()).is_ok() {
            out.push(next);
        }
    };
    add(&|r| r.node = r.node.map(|node| node.saturating_sub(1).max(1)));
    add(&|r| r.node = None);
    add(&|r| r.sub = form_of(r.kind).expect("a kind").sub.0);
    // A MetaApplied that begins an event; a parent is left.
    add(&|r| r.flag = if r.kind == 12 { 0 } else { r.flag });
    for place in 0..5 {
        for less in less_than(record.numbers[place]) {
            add(&|r| r.numbers[place] = less);
        }
    }
    add(&|r| {
        r.voters.pop();
    });
    add(&|r| {
        r.spans.pop();
    });
    for place in 0..record.spans.len() {
        add(&|r| {
            r.spans[place].0.pop();
        });
        add(&|r| {
            r.spans[place].1.pop();
        });
    }
    out
}
