//! Document 01, `MetaNeverGoesBack`: meta.

use super::Case;
use super::descriptors::{Puts, same_voters};
use super::form::Entry;
use super::readings::{Reading, takes};

/// The won span that names keys: "a won span with start < end".
fn won(x: &Entry) -> Option<&(Vec<u8>, Vec<u8>)> {
    let span = (x.kind == 12).then(|| x.spans.get(1)).flatten()?;
    (span.0 < span.1).then_some(span)
}

/// "A key's standing name has the greatest index, earliest among equals":
/// (index, generation).
fn standing(before: &[Entry], key: &[u8]) -> Option<(u64, u64)> {
    let mut best: Option<(u64, u64)> = None;
    for x in before {
        let Some((start, end)) = won(x) else { continue };
        let covers = start[..] <= *key && *key < end[..];
        let latest = takes(Reading::LatestNameAtEqualIndex);
        let above = |(index, _): (u64, u64)| x.b > index || latest && x.b == index;
        if covers && best.is_none_or(above) {
            best = Some((x.b, x.d));
        }
    }
    best
}

/// The keys at which a standing name can begin inside the span, in key order.
fn piece_starts(before: &[Entry], span: &(Vec<u8>, Vec<u8>)) -> Vec<Vec<u8>> {
    let ends = before.iter().filter_map(won).flat_map(|(start, end)| [start, end]);
    let inside = ends.filter(|key| span.0 < **key && **key < span.1).cloned();
    let mut keys: Vec<Vec<u8>> = inside.chain([span.0.clone()]).collect();
    keys.sort();
    keys
}

/// Kinds 3 and 4 at one key.
fn conflict(x: &Entry, (old_index, old): (u64, u64)) -> Case {
    let (index, range, new) = (x.b, x.a, x.d);
    if old_index < index && old > new {
        return Some((3, vec![index, range, new, old]));
    }
    if old_index >= index && old < new {
        return Some((4, vec![index, range, new, old, old_index]));
    }
    None
}

/// The case at the last record.
pub fn case(puts: Puts) -> Case {
    let (x, before) = puts.past.split_last().expect("a record");
    if x.kind != 12 {
        return None;
    }
    let evidence = vec![x.a, x.d, x.b];
    let Some(place) = puts.first_at_generation(x.a, x.d) else {
        return Some((1, evidence));
    };
    let named = &puts.past[place];
    let (start, end) = &named.spans[0];
    let differs = *start != x.spans[0].0 && !takes(Reading::MetaStartIgnored)
        || *end != x.spans[0].1 && !takes(Reading::MetaEndIgnored)
        || !same_voters(named, x) && !takes(Reading::MetaVotersIgnored);
    if differs {
        return Some((2, evidence));
    }
    let span = won(x)?;
    let names = piece_starts(before, span).into_iter().filter_map(|key| standing(before, &key));
    let mut conflicts = names.filter_map(|name| conflict(x, name));
    if takes(Reading::LastFaultyPiece) { conflicts.last() } else { conflicts.next() }
}
