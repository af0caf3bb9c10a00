//! Bytes to the Rust's own events with nothing between: no decoded record, no test of the form.

use ananke_env::sim::TraceRecord;
use ananke_env::{
    ApplyEffect, Instant, MetaDescriptor, NodeId, RangeCause, RangeRemovedCause, RangeState,
    RecoveredAs, TraceEvent,
};
use bytes::Bytes;
use oracle::wire::RECORD;

fn number(bytes: &[u8], at: usize) -> u64 {
    u64::from_le_bytes(bytes[at..at + 8].try_into().expect("eight bytes"))
}

fn voters(bytes: &[u8]) -> Vec<u64> {
    (0..usize::from(bytes[48])).map(|i| number(bytes, 56 + 8 * i)).collect()
}

fn key(bytes: &[u8], at: usize) -> Bytes {
    Bytes::copy_from_slice(&bytes[at + 1..=at + usize::from(bytes[at])])
}

fn span(bytes: &[u8], i: usize) -> (Bytes, Bytes) {
    (key(bytes, 112 + 64 * i), key(bytes, 144 + 64 * i))
}

fn cause(sub: u8) -> RangeCause {
    match sub {
        1 => RangeCause::Bootstrap,
        2 => RangeCause::Split,
        _ => RangeCause::Snapshot,
    }
}

fn state(sub: u8) -> RangeState {
    match sub {
        1 => RangeState::Live,
        2 => RangeState::Merging,
        _ => RangeState::Subsumed,
    }
}

fn effect(sub: u8) -> ApplyEffect {
    match sub {
        1 => ApplyEffect::Applied,
        2 => ApplyEffect::OutOfSpan,
        3 => ApplyEffect::Frozen,
        4 => ApplyEffect::Took,
        5 => ApplyEffect::Aborted,
        6 => ApplyEffect::Refused,
        _ => ApplyEffect::None,
    }
}

fn created(bytes: &[u8]) -> TraceEvent {
    let (start, end) = span(bytes, 0);
    TraceEvent::RangeCreated {
        range: number(bytes, 8),
        cause: cause(bytes[2]),
        parent: (bytes[3] == 1).then(|| number(bytes, 24)),
        start,
        end,
        generation: number(bytes, 32),
        voters: voters(bytes),
        floor_index: number(bytes, 16),
        floor_term: 0,
        incarnation: 0,
    }
}

fn descriptor(bytes: &[u8]) -> TraceEvent {
    let (start, end) = span(bytes, 0);
    TraceEvent::RangeDescriptor {
        range: number(bytes, 8),
        index: number(bytes, 16),
        applied: number(bytes, 24),
        start,
        end,
        generation: number(bytes, 32),
        voters: voters(bytes),
        state: state(bytes[2]),
    }
}

fn apply(bytes: &[u8]) -> TraceEvent {
    TraceEvent::RaftApply {
        server: 0,
        range: number(bytes, 8),
        index: number(bytes, 16),
        entry_term: 0,
        hash: 0,
        key: (bytes[49] == 1).then(|| key(bytes, 112)),
        effect: effect(bytes[2]),
    }
}

fn recovered(bytes: &[u8]) -> TraceEvent {
    TraceEvent::RaftRecovered {
        server: number(bytes, 24),
        range: number(bytes, 8),
        term: 0,
        applied: number(bytes, 16),
        last_index: 0,
        incarnation: 0,
        state: RecoveredAs::Neither,
    }
}

fn installed(bytes: &[u8]) -> TraceEvent {
    TraceEvent::SpanInstalled {
        manifest: 0,
        spans: (0..usize::from(bytes[49])).map(|i| span(bytes, i)).collect(),
        seq: 0,
        removed: Vec::new(),
        rewritten: Vec::new(),
        added: Vec::new(),
        repair: None,
    }
}

fn won(bytes: &[u8]) -> Option<(Bytes, Bytes)> {
    (bytes[49] == 2).then(|| span(bytes, 1))
}

/// Whether two records of an event name one descriptor: range, generation, voters and span.
fn is_same_row(a: &[u8], b: &[u8]) -> bool {
    a[8..16] == b[8..16] && a[32..40] == b[32..40] && a[48] == b[48] && a[56..176] == b[56..176]
}

/// All records of an event: a descriptor for each, or a won span more of the one before.
fn meta_applied(records: &[[u8; RECORD]]) -> TraceEvent {
    let mut descriptors: Vec<MetaDescriptor> = Vec::with_capacity(records.len());
    for (i, bytes) in records.iter().enumerate() {
        if i > 0 && is_same_row(&records[i - 1], bytes) {
            descriptors.last_mut().expect("a row").won.extend(won(bytes));
            continue;
        }
        let (start, end) = span(bytes, 0);
        descriptors.push(MetaDescriptor {
            range: number(bytes, 8),
            start,
            end,
            generation: number(bytes, 32),
            voters: voters(bytes),
            won: won(bytes).into_iter().collect(),
        });
    }
    TraceEvent::MetaApplied { index: number(&records[0], 16), descriptors }
}

/// The records of each event of a sound trace: kind 12 with the flag continues one.
pub fn grouped(trace: &[u8]) -> impl Iterator<Item = &[[u8; RECORD]]> {
    trace.as_chunks().0.chunk_by(|_, next: &[u8; RECORD]| next[0] == 12 && next[3] == 1)
}

/// The event of its records, which are sound.
pub fn event(records: &[[u8; RECORD]]) -> TraceRecord {
    let bytes = &records[0];
    let node = u32::from_le_bytes(bytes[4..8].try_into().expect("four bytes"));
    let event = match bytes[0] {
        1 => created(bytes),
        2 => descriptor(bytes),
        3 => apply(bytes),
        4 => recovered(bytes),
        5 => TraceEvent::RangesRestated { ranges: Vec::new() },
        6 => TraceEvent::NodeCrashed { node: NodeId::new(node) },
        7 => TraceEvent::RangeSplit {
            range: number(bytes, 8),
            right: number(bytes, 24),
            key: Bytes::new(),
            index: number(bytes, 16),
        },
        8 => installed(bytes),
        9 => TraceEvent::RangeRemoved {
            range: number(bytes, 8),
            generation: 0,
            incarnation: 0,
            cause: RangeRemovedCause::Collected,
        },
        10 => TraceEvent::RaftRefused { server: 0, reason: String::new() },
        11 => TraceEvent::RangeIdsLeased {
            node: number(bytes, 8),
            run: number(bytes, 24),
            first: number(bytes, 32),
            last: number(bytes, 40),
            index: number(bytes, 16),
        },
        _ => meta_applied(records),
    };
    let node = (bytes[1] == 1).then(|| NodeId::new(node));
    TraceRecord { at: Instant::ZERO, decided: Instant::ZERO, node, event }
}
