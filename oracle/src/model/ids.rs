//! Document 01, `IdsUnique`: ids, `holders_of` and `blocks`.

use super::Case;
use super::form::Entry;
use super::readings::{Reading, takes};

/// The first grant at each index, in time.
fn first_grants(past: &[Entry]) -> Vec<&Entry> {
    let mut out: Vec<&Entry> = Vec::new();
    for x in past.iter().filter(|x| x.kind == 11) {
        if out.iter().all(|y| y.b != x.b) {
            out.push(x);
        }
    }
    out
}

/// "Blocks are the nonempty first grants, after a fault too", by first, then by
/// time: first, last, node.
pub fn blocks(past: &[Entry]) -> Vec<[u64; 3]> {
    let grants = first_grants(past).into_iter().filter(|x| x.d <= x.e);
    let mut out: Vec<[u64; 3]> = grants.map(|x| [x.d, x.e, x.a]).collect();
    out.sort_by_key(|block| block[0]);
    out
}

/// "the nodes of the blocks that contain the id".
pub fn holders_of(past: &[Entry], id: u64) -> Vec<u64> {
    let holding = blocks(past).into_iter().filter(|b| b[0] <= id && id <= b[1]);
    holding.map(|block| block[2]).collect()
}

/// The case at the last record.
pub fn case(past: &[Entry]) -> Case {
    let (x, before) = past.split_last().expect("a record");
    if x.kind != 11 {
        return None;
    }
    let run = |y: &Entry| if takes(Reading::RunIgnored) { 0 } else { y.c };
    let grant = |y: &Entry| (y.a, run(y), y.d, y.e);
    let older = first_grants(before);
    if let Some(first) = older.iter().find(|y| y.b == x.b) {
        return (grant(first) != grant(x)).then(|| (1, vec![x.b]));
    }
    if x.d > x.e {
        return Some((2, vec![x.b]));
    }
    let nonempty = || older.iter().filter(|y| y.d <= y.e);
    let lowest = nonempty().filter(|y| y.d <= x.e && x.d <= y.e).map(|y| y.d).min()?;
    if takes(Reading::LowestSharingBlock) {
        return Some((3, vec![x.b, lowest]));
    }
    let greatest = nonempty().map(|y| y.d).filter(|first| *first <= x.e).max();
    Some((3, vec![x.b, greatest.expect("the one that shares")]))
}
