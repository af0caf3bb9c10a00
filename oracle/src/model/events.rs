//! Document 02's change 5: events, their numbers, and what may not continue one.

use super::form::Entry;
use super::readings::{Reading, takes};

/// "In kind 12, flag 1 means that the record continues the event before it; flag
/// 0 begins one."
fn continues(x: &Entry) -> bool {
    let parent = x.kind == 1 && takes(Reading::ParentContinues);
    (x.kind == 12 || parent) && x.flag == 1
}

/// The number of the last record's event: "positions in reports now count events".
pub fn number(past: &[Entry]) -> u64 {
    if takes(Reading::PositionByRecord) {
        return past.len() as u64;
    }
    let begins = |place: &usize| {
        let joined = takes(Reading::SameNumbersContinue)
            && *place > 0
            && same_apply(&past[place - 1], &past[*place]);
        !continues(&past[*place]) && !joined
    };
    (0..past.len()).filter(begins).count() as u64
}

/// "Kind 12 with the same node mark, node and index".
fn same_apply(last: &Entry, x: &Entry) -> bool {
    let range = last.a == x.a || !takes(Reading::OneRangeAnEvent);
    let first = last.flag == 0 || !takes(Reading::TwoRecordsAnEvent);
    last.kind == 12 && x.kind == 12 && last.node == x.node && last.b == x.b && range && first
}

/// Refusal 11: "flag 1 where no record has been taken, or the last one is not kind
/// 12 with the same node mark, node and index".
pub fn continues_nothing(past: &[Entry], x: &Entry) -> bool {
    x.kind == 12 && x.flag == 1 && !past.last().is_some_and(|last| same_apply(last, x))
}
