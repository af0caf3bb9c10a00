//! Document 01, `OneOwnerPerKey`: overlap, install and twice.

use std::collections::BTreeSet;

use super::Case;
use super::form::Entry;
use super::readings::{Reading, takes};

type Span = (Vec<u8>, Vec<u8>);

/// The span over which the node holds the range: "kinds 1 and 2 make the node
/// hold the range over the span, the latest replacing; removal, crash or
/// RaftRefused end it".
pub fn held(past: &[Entry], node: u64, range: u64) -> Option<&Span> {
    for x in past.iter().rev().filter(|x| x.node == Some(node)) {
        match x.kind {
            1 | 2 if x.a == range => return Some(&x.spans[0]),
            9 if x.a == range => return None,
            6 | 10 => return None,
            _ => {}
        }
    }
    None
}

/// The ranges that the node holds, rising.
fn ranges_held(past: &[Entry], node: u64) -> Vec<u64> {
    let named: BTreeSet<u64> =
        past.iter().filter(|x| matches!(x.kind, 1 | 2)).map(|x| x.a).collect();
    named.into_iter().filter(|range| held(past, node, *range).is_some()).collect()
}

/// "from < end and start < to".
fn overlaps((from, to): &Span, (start, end): &Span) -> bool {
    from < end && start < to
}

/// overlap at the last record: node, range, lowest other.
pub fn overlap(past: &[Entry]) -> Case {
    let x = past.last().expect("a record");
    let node = x.node?;
    if !matches!(x.kind, 1 | 2) {
        return None;
    }
    let kept: Vec<Entry>;
    let past = if takes(Reading::RemovedStillOverlaps) {
        kept = past.iter().filter(|y| y.kind != 9).cloned().collect();
        &kept[..]
    } else {
        past
    };
    let meets = |other: &u64| {
        *other != x.a && overlaps(held(past, node, *other).expect("held"), &x.spans[0])
    };
    let others = ranges_held(past, node).into_iter().filter(meets);
    let other = if takes(Reading::HighestOther) { others.max() } else { others.min() };
    Some((1, vec![node, x.a, other?]))
}

/// "A start names a group if it has 16 bytes or more and its first 8,
/// big-endian, are the tenant; the next 8 are the group."
fn group(start: &[u8], tenant: u64) -> Option<u64> {
    let number = |bytes: &[u8]| bytes.iter().fold(0u64, |n, b| n << 8 | u64::from(*b));
    (start.len() >= 16 && number(&start[..8]) == tenant).then(|| number(&start[8..16]))
}

/// install at the last record: node, range; first span, then lowest range.
pub fn install(past: &[Entry], tenant: u64) -> Case {
    let x = past.last().expect("a record");
    let node = x.node?;
    if x.kind != 8 {
        return None;
    }
    let keyspace = x.spans.iter().enumerate();
    let mut keyspace: Vec<_> =
        keyspace.filter(|(_, span)| group(&span.0, tenant).is_none()).collect();
    if takes(Reading::LastSpanInstalled) {
        keyspace.reverse();
    }
    for (place, span) in keyspace {
        let earlier = takes(Reading::NamedByEarlierStartsOnly);
        let naming = if earlier { &x.spans[..place] } else { &x.spans[..] };
        let named: Vec<u64> = naming.iter().filter_map(|span| group(&span.0, tenant)).collect();
        let lost = |range: &u64| {
            !named.contains(range) && overlaps(held(past, node, *range).expect("held"), span)
        };
        let lost = ranges_held(past, node).into_iter().filter(lost);
        let highest = takes(Reading::HighestRangeInstalled);
        if let Some(range) = if highest { lost.max() } else { lost.min() } {
            return Some((1, vec![node, range]));
        }
    }
    None
}

/// twice at the last record: "a RangeCreated of a range already held: node,
/// range, floor".
pub fn twice(past: &[Entry]) -> Case {
    let (x, before) = past.split_last().expect("a record");
    let node = x.node?;
    if x.kind != 1 {
        return None;
    }
    held(before, node, x.a)?;
    let own = |y: &&Entry| y.node == Some(node) && matches!(y.kind, 1 | 2) && y.a == x.a;
    let latest = before.iter().rev().find(own).expect("what holds it");
    if takes(Reading::OnlyCreationsAreHeldTwice) && latest.kind == 2 {
        return None;
    }
    Some((1, vec![node, x.a, x.b]))
}
