//! Document 02's push, preview and commit: which refusal each draws, how a ticket is written, and
//! what a push that takes its record leaves in the words before the reports. Nothing here says what
//! it does to the reports.

use crate::model::form;
use crate::report::Reports;
use crate::tally::{STATE, kind_word};
use crate::wire::RECORD;

/// The words of eight reports, and where a judge's words have them.
pub const REPORTS: usize = 56;
pub const REPORTS_FROM: usize = STATE - REPORTS;
/// The bytes of a ticket: a count, then a record.
pub const COUNT: usize = 8;
pub const TICKET: usize = COUNT + RECORD;

/// The word of a judge that counts its events.
pub const EVENTS: usize = 2;

/// What is lent beside a judge's words: the log, and how many words the work area has.
pub type Lent<'a> = (&'a [u8], usize);
/// The words and bytes of a preview's lists.
pub type Lengths = (usize, usize);

/// "State is no judge's", or the buffers do not fit it.
pub fn is_unfit(state: &[u64], (log, work): Lent) -> bool {
    if state.len() != STATE {
        return true;
    }
    let (capacity, count) = (state[0], state[1]);
    let unread = (0..8).any(|check| state[kind_word(check)] > 255);
    unread
        || capacity > 4096
        || count > capacity
        || log.len() as u64 != 368 * capacity
        || work as u64 != 32 * capacity
}

/// "In kind 12, flag 1 means that the record continues the event before it".
fn continues(bytes: &[u8]) -> bool {
    (bytes[0], bytes[3]) == (12, 1)
}

/// The node that a record of the log is marked with; a mark that no record has is none.
fn node(bytes: &[u8]) -> Option<&[u8]> {
    (bytes[1] == 1).then_some(&bytes[4..8])
}

/// "Flag 1 where no record has been taken, or the last one is not kind 12 with the same node mark,
/// node and index". The last one is what the log holds there, whatever it is.
fn continues_nothing(count: u64, log: &[u8], bytes: &[u8]) -> bool {
    let last = log[..RECORD * count as usize].chunks(RECORD).next_back();
    let goes_on =
        |last: &[u8]| last[0] == 12 && node(last) == node(bytes) && last[16..24] == bytes[16..24];
    continues(bytes) && !last.is_some_and(goes_on)
}

/// The refusal of a push: 5, 1, 2, 3, 4, 11, 6.
pub fn push(state: &[u64], lent: Lent, bytes: &[u8]) -> u64 {
    if is_unfit(state, lent) {
        return 5;
    }
    match form::refusal(bytes) {
        0 if continues_nothing(state[1], lent.0, bytes) => 11,
        0 if state[0] == state[1] => 6,
        other => u64::from(other),
    }
}

/// The words before the reports that a push leaves which takes its record, whatever they were: the
/// count rises, and the events where the record begins one, but not past what a word holds.
pub fn header_after(state: &[u64], bytes: &[u8]) -> [u64; REPORTS_FROM] {
    let events = state[EVENTS].saturating_add(u64::from(!continues(bytes)));
    [state[0], state[1] + 1, events, state[3]]
}

/// The log that it leaves: the record in its place, and every other byte as it was.
pub fn log_after(state: &[u64], log: &[u8], bytes: &[u8]) -> Vec<u8> {
    let (mut out, at) = (log.to_vec(), RECORD * state[1] as usize);
    out[at..at + RECORD].copy_from_slice(bytes);
    out
}

/// The refusal of a preview into lists of so many words and bytes: 8 first, since it writes its
/// answer also at a refusal, and else as a push.
pub fn preview(state: &[u64], lent: Lent, bytes: &[u8], lists: Lengths) -> u64 {
    if lists.0 < REPORTS || lists.1 < TICKET { 8 } else { push(state, lent, bytes) }
}

/// The refusal of a commit: "10 follows 5", "a push's other checks then follow".
pub fn commit(state: &[u64], lent: Lent, ticket: &[u8]) -> u64 {
    if is_unfit(state, lent) {
        5
    } else if count_of(ticket) != Some(state[1]) {
        10
    } else {
        push(state, lent, &ticket[COUNT..])
    }
}

/// The count that a ticket holds, none where it is too short for one.
pub fn count_of(ticket: &[u8]) -> Option<u64> {
    let bytes = ticket.get(..COUNT)?;
    Some(u64::from_le_bytes(bytes.try_into().expect("eight bytes")))
}

/// A ticket: "the record and the judge's count".
pub fn ticket(count: u64, bytes: &[u8]) -> Vec<u8> {
    [&count.to_le_bytes(), bytes].concat()
}

/// Reports as words, seven each: kind, position, evidence.
pub fn words(reports: &Reports) -> Vec<u64> {
    let seven = |r: &crate::report::Report| {
        let [a, b, c, d, e] = r.evidence;
        [u64::from(r.kind), r.position, a, b, c, d, e]
    };
    reports.iter().flat_map(seven).collect()
}
