//! For each other reading of the documents, the smallest trace found on which the
//! Rust speaks against it.

use crate::compare::{Asking, Comparer, taken};
use crate::generate::{Trace, names, trace};
use crate::minimise::minimise;
use crate::model::readings::{Reading, take};

/// The smallest form of a trace on which oracle and model still disagree, and in
/// what they do.
pub fn smallest(comparer: &mut Comparer, found: &Trace, asking: Asking) -> (Trace, String) {
    let tenant = found.tenant;
    let mut holds = |records: &[_]| comparer.run(tenant, records, asking).is_err();
    let records = minimise(&found.records, &mut holds);
    let words = comparer.run(tenant, &records, asking).unwrap_err();
    (Trace { profile: found.profile, tenant, records }, words)
}

/// The same with no record that is refused.
fn smallest_taken(comparer: &mut Comparer, found: &Trace) -> (Trace, String) {
    let (tenant, asking) = (found.tenant, Asking::AtTheEnd);
    let mut holds = |records: &[_]| {
        taken(records).len() == records.len() && comparer.run(tenant, records, asking).is_err()
    };
    let records = minimise(&found.records, &mut holds);
    let words = comparer.run(tenant, &records, asking).unwrap_err();
    (Trace { profile: found.profile, tenant, records }, words)
}

/// Traces tried in each profile, disagreements shrunk in each, and in all.
const TRIED: u64 = 3000;
const SHRUNK: usize = 1;
const ENOUGH: usize = 5;
const LONGER: [&str; 3] = ["half", "half-restated", "splits"];

/// The disagreements of one profile, shrunk, on traces of so many records.
fn in_profile(comparer: &mut Comparer, profile: &str, length: (u64, u64)) -> Vec<(Trace, String)> {
    let mut out = Vec::new();
    for number in 0..TRIED {
        let mut next = trace(profile, number, length.0, length.1);
        next.records = taken(&next.records);
        if comparer.run(next.tenant, &next.records, Asking::AtTheEnd).is_err() {
            out.push(smallest_taken(comparer, &next));
        }
        if out.len() == SHRUNK {
            break;
        }
    }
    out
}

/// The smallest of the traces found against the reading; none if none was.
pub fn against(comparer: &mut Comparer, reading: Reading) -> Option<(Trace, String)> {
    take(Some(reading));
    let mut search = |profiles: &[&str], length: (u64, u64)| {
        let found = profiles.iter().flat_map(|name| in_profile(comparer, name, length));
        found.take(ENOUGH).min_by_key(|(trace, _)| trace.records.len())
    };
    // Short traces first; the rarest slips, all in half, show on longer ones.
    let least = search(&names(), (4, 12)).or_else(|| search(&LONGER, (13, 30)));
    take(None);
    least
}
