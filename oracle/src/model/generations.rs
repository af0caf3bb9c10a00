//! Document 01, `GenerationsRise`: generations.

use super::Case;
use super::descriptors::Puts;
use super::form::Entry;
use super::readings::{Reading, takes};

/// Whether the record is an Applied write with a key.
fn writes(x: &Entry) -> bool {
    x.kind == 3 && x.sub == 1 && !x.spans.is_empty()
}

/// "The first Applied write with a key at each (range, index) counts".
fn counts(past: &[Entry], place: usize) -> bool {
    let x = &past[place];
    let any = takes(Reading::AnyWriteUsesUpTheIndex);
    let uses_up = |y: &Entry| (writes(y) || any && y.kind == 3) && (y.a, y.b) == (x.a, x.b);
    writes(x) && !past[..place].iter().any(uses_up)
}

/// The generation of `before` at that record, for one that counts.
fn generation(puts: Puts, place: usize) -> Option<u64> {
    let now = takes(Reading::LaterValuesRaiseEarlierWrites);
    let count = if now { puts.past.len() } else { place + 1 };
    let then = Puts { past: &puts.past[..count], roles: &puts.roles[..count] };
    let x = &puts.past[place];
    then.before(x.a, x.b).map(|put| puts.past[put].d)
}

/// The case at the last record.
pub fn case(puts: Puts) -> Case {
    let past = puts.past;
    let last = past.len() - 1;
    if !counts(past, last) {
        return None;
    }
    let (range, index, key) = (past[last].a, past[last].b, &past[last].spans[0].0);
    let Some(new) = generation(puts, last) else {
        return Some((1, vec![range, index]));
    };
    // A write without a generation was a fault of its own; it opposes nothing.
    let same_key = (0..last).filter(|p| counts(past, *p) && past[*p].spans[0].0 == *key);
    let earlier: Vec<(u64, u64)> =
        same_key.filter_map(|p| Some((generation(puts, p)?, past[p].a))).collect();
    let opposes = |(old, by): &(u64, u64)| {
        let other = *by != range;
        *old > new && (other || !takes(Reading::SameRangeMayFall)) || other && *old == new
    };
    let opposing = *earlier.iter().find(|write| opposes(write))?;
    let last = *earlier.last().expect("the one that opposes");
    let (old, by) = if takes(Reading::FirstOpposingWrite) { opposing } else { last };
    Some((2, vec![range, index, new, old, by]))
}
