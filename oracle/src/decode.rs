//! From a record of document 01 to the Rust's own TraceRecord. Fields that the
//! record does not carry and the five checks do not read are 0 or empty.

use std::collections::HashMap;

use ananke_env::sim::TraceRecord;
use ananke_env::{
    ApplyEffect, Instant, MetaDescriptor, NodeId, RangeCause, RangeRemovedCause, RangeState,
    RecoveredAs, TraceEvent,
};
use bytes::Bytes;

use crate::wire::{Record, Span};

/// Marks that let a `Held` be traced back to the record that put it: every
/// record's start key has an address of its own, and the Rust's clones keep it.
/// An address is made once for each pair of number and key, and never freed.
#[derive(Default)]
pub struct Marks {
    keys: HashMap<(u64, Vec<u8>), &'static [u8]>,
    numbers: HashMap<usize, u64>,
}

impl Marks {
    fn key(&mut self, number: u64, key: &[u8]) -> Bytes {
        if let Some(known) = self.keys.get(&(number, key.to_vec())) {
            return Bytes::from_static(known);
        }
        // One byte more than the key, so that an empty key has an address too.
        let room: &'static [u8] = Box::leak([key, &[0]].concat().into_boxed_slice());
        let marked = &room[..key.len()];
        self.keys.insert((number, key.to_vec()), marked);
        self.numbers.insert(marked.as_ptr() as usize, number);
        Bytes::from_static(marked)
    }

    /// The number of the record whose start this is.
    pub fn number_of(&self, start: &Bytes) -> Option<u64> {
        self.numbers.get(&(start.as_ptr() as usize)).copied()
    }
}

fn plain(key: &[u8]) -> Bytes {
    Bytes::copy_from_slice(key)
}

fn plain_span((start, end): &Span) -> (Bytes, Bytes) {
    (plain(start), plain(end))
}

fn cause(sub: u8) -> RangeCause {
    match sub {
        1 => RangeCause::Bootstrap,
        2 => RangeCause::Split,
        _ => RangeCause::Snapshot,
    }
}

fn state(sub: u8) -> RangeState {
    match sub {
        1 => RangeState::Live,
        2 => RangeState::Merging,
        _ => RangeState::Subsumed,
    }
}

fn effect(sub: u8) -> ApplyEffect {
    match sub {
        1 => ApplyEffect::Applied,
        2 => ApplyEffect::OutOfSpan,
        3 => ApplyEffect::Frozen,
        4 => ApplyEffect::Took,
        5 => ApplyEffect::Aborted,
        6 => ApplyEffect::Refused,
        _ => ApplyEffect::None,
    }
}

fn created(r: &Record, start: Bytes) -> TraceEvent {
    let [range, floor_index, parent, generation, _] = r.numbers;
    TraceEvent::RangeCreated {
        range,
        cause: cause(r.sub),
        parent: (r.flag == 1).then_some(parent),
        start,
        end: plain(&r.spans[0].1),
        generation,
        voters: r.voters.clone(),
        floor_index,
        floor_term: 0,
        incarnation: 0,
    }
}

fn descriptor(r: &Record, start: Bytes) -> TraceEvent {
    let [range, index, applied, generation, _] = r.numbers;
    TraceEvent::RangeDescriptor {
        range,
        index,
        applied,
        start,
        end: plain(&r.spans[0].1),
        generation,
        voters: r.voters.clone(),
        state: state(r.sub),
    }
}

fn apply(r: &Record) -> TraceEvent {
    TraceEvent::RaftApply {
        server: 0,
        range: r.numbers[0],
        index: r.numbers[1],
        entry_term: 0,
        hash: 0,
        key: r.spans.first().map(|(key, _)| plain(key)),
        effect: effect(r.sub),
    }
}

fn recovered(r: &Record) -> TraceEvent {
    TraceEvent::RaftRecovered {
        server: r.numbers[2],
        range: r.numbers[0],
        term: 0,
        applied: r.numbers[1],
        last_index: 0,
        incarnation: 0,
        state: RecoveredAs::Neither,
    }
}

fn installed(r: &Record) -> TraceEvent {
    TraceEvent::SpanInstalled {
        manifest: 0,
        spans: r.spans.iter().map(plain_span).collect(),
        seq: 0,
        removed: Vec::new(),
        rewritten: Vec::new(),
        added: Vec::new(),
        repair: None,
    }
}

fn meta_row(r: &Record) -> MetaDescriptor {
    let (start, end) = plain_span(&r.spans[0]);
    MetaDescriptor {
        range: r.numbers[0],
        start,
        end,
        generation: r.numbers[3],
        voters: r.voters.clone(),
        won: r.spans[1..].iter().map(plain_span).collect(),
    }
}

/// The Rust's event that is written as these kind 12 records, with all its
/// descriptors: document 01 writes a record for each won span, so neighbours
/// that name one descriptor are that descriptor with several won spans.
pub fn meta_event(records: &[Record]) -> TraceRecord {
    let mut rows: Vec<MetaDescriptor> = Vec::new();
    for row in records.iter().map(meta_row) {
        match rows.last_mut() {
            Some(last) if same_descriptor(last, &row) => last.won.extend(row.won),
            _ => rows.push(row),
        }
    }
    meta_stamped(&records[0], rows)
}

/// The same with a descriptor of its own for each record: the records do not say
/// which of the two the Rust traced.
pub fn meta_event_apart(records: &[Record]) -> TraceRecord {
    meta_stamped(&records[0], records.iter().map(meta_row).collect())
}

fn meta_stamped(first: &Record, descriptors: Vec<MetaDescriptor>) -> TraceRecord {
    stamped(first, TraceEvent::MetaApplied { index: first.numbers[1], descriptors })
}

fn same_descriptor(a: &MetaDescriptor, b: &MetaDescriptor) -> bool {
    let value = |m: &MetaDescriptor| MetaDescriptor { won: Vec::new(), ..m.clone() };
    value(a) == value(b)
}

fn stamped(r: &Record, event: TraceEvent) -> TraceRecord {
    let node = r.node.map(NodeId::new);
    TraceRecord { at: Instant::ZERO, decided: Instant::ZERO, node, event }
}

fn event(r: &Record, start: Bytes) -> TraceEvent {
    let [a, b, c, d, e] = r.numbers;
    match r.kind {
        1 => created(r, start),
        2 => descriptor(r, start),
        3 => apply(r),
        4 => recovered(r),
        5 => TraceEvent::RangesRestated { ranges: Vec::new() },
        6 => TraceEvent::NodeCrashed { node: NodeId::new(r.node.unwrap_or(0)) },
        7 => TraceEvent::RangeSplit { range: a, right: c, key: Bytes::new(), index: b },
        8 => installed(r),
        9 => TraceEvent::RangeRemoved {
            range: a,
            generation: 0,
            incarnation: 0,
            cause: RangeRemovedCause::Collected,
        },
        10 => TraceEvent::RaftRefused { server: 0, reason: String::new() },
        11 => TraceEvent::RangeIdsLeased { node: a, run: c, first: d, last: e, index: b },
        _ => TraceEvent::MetaApplied { index: b, descriptors: vec![meta_row(r)] },
    }
}

/// The Rust's record, its start key marked with the record's number.
pub fn marked(r: &Record, number: u64, marks: &mut Marks) -> TraceRecord {
    let start = r.spans.first().map_or(&[][..], |(start, _)| start);
    stamped(r, event(r, marks.key(number, start)))
}

/// The Rust's record without a mark: what a measurement of time should use.
pub fn unmarked(r: &Record) -> TraceRecord {
    let start = r.spans.first().map_or(&[][..], |(start, _)| start);
    stamped(r, event(r, plain(start)))
}

/// The records of each event: the one that begins it, and those that continue it.
pub fn events(records: &[Record]) -> impl Iterator<Item = &[Record]> {
    records.chunk_by(|_, next| next.continues())
}

/// The Rust's record of a whole event, without a mark.
pub fn whole(records: &[Record]) -> TraceRecord {
    if records.len() > 1 { meta_event(records) } else { unmarked(&records[0]) }
}
