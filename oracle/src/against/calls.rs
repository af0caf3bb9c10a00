//! `against form`: pushes, previews and commits with things wrong. Damaged records come as a push,
//! a preview and a commit into judges that are full or not, and whose last record they continue or
//! not; then calls of every sort, with one thing wrong and with several, each beside the model of
//! document 02's changes 4 and 5.

use std::process::exit;

use oracle::damage::{continuing, every_case, good};
use oracle::generate::trace;
use oracle::preview::{
    EVENTS, REPORTS, REPORTS_FROM, TICKET, commit, header_after, log_after, preview, push, ticket,
};
use oracle::random::Random;
use oracle::tally::kind_word;

use crate::buffers::{Buffers, Lists};
use crate::console::Drew;
use crate::host::Host;

/// Everything that a preview and a commit are given.
#[derive(Clone, Debug)]
struct Call {
    buffers: Buffers,
    record: Vec<u8>,
    /// The words and bytes of the preview's lists.
    lists: (usize, usize),
    /// The commit's ticket.
    ticket: Vec<u8>,
}

impl Call {
    /// A call with nothing wrong: the right lengths, and a ticket of the judge's count.
    fn sound(buffers: &Buffers, record: &[u8]) -> Call {
        let ticket = ticket(buffers.state[1], record);
        Call { buffers: buffers.clone(), record: record.to_vec(), lists: (REPORTS, TICKET), ticket }
    }

    /// The same with other buffers and another record, in its ticket too.
    fn with(sound: &Call, buffers: &Buffers, record: &[u8]) -> Call {
        let ticket = [&sound.ticket[..8], record].concat();
        Call { buffers: buffers.clone(), record: record.to_vec(), ticket, ..sound.clone() }
    }
}

/// A push beside the model: the number; at a refusal every buffer as it stood; else the words before
/// the reports and the log, whatever stood in them.
fn same_push(call: &Call) -> Result<u64, String> {
    let Buffers { state, log, .. } = &call.buffers;
    let expected = push(state, call.buffers.lent(), &call.record);
    let mut buffers = call.buffers.clone();
    let refusal = buffers.push(&call.record);
    if refusal != expected {
        return Err(format!("a push refused {refusal}, by the model {expected}"));
    }
    if refusal != 0 {
        let moved =
            buffers.differ(&call.buffers).map(|name| format!("a refused push moved {name}"));
        return moved.map_or(Ok(refusal), Err);
    }
    let (header, after) = (header_after(state, &call.record), &buffers.state[..REPORTS_FROM]);
    if after != header {
        return Err(format!("a push left {after:?}, by the model {header:?}"));
    }
    if buffers.log != log_after(state, log, &call.record) {
        return Err("a push left another log than the model's".to_owned());
    }
    Ok(refusal)
}

/// A preview beside the model: the number, both lists with what lies around them, and every buffer
/// as it stood. The reports of one that is not refused are those that a push leaves.
fn same_preview(call: &Call) -> Result<u64, String> {
    let state = &call.buffers.state;
    let expected = preview(state, call.buffers.lent(), &call.record, call.lists);
    let lists = Lists::new(call.lists.0, call.lists.1);
    let zeros = [0; TICKET];
    let written = match expected {
        8 => lists.clone(),
        5 => lists.clone().with(&[0; REPORTS], &zeros),
        0 => {
            let mut pushed = call.buffers.clone();
            pushed.push(&call.record);
            lists.clone().with(&pushed.state[REPORTS_FROM..], &ticket(state[1], &call.record))
        }
        _ => lists.clone().with(&state[REPORTS_FROM..], &zeros),
    };
    let (mut buffers, mut ours) = (call.buffers.clone(), lists);
    let refusal = buffers.preview(&call.record, &mut ours);
    if refusal != expected {
        return Err(format!("a preview refused {refusal}, by the model {expected}"));
    }
    if let Some(name) = buffers.differ(&call.buffers) {
        return Err(format!("a preview refused {refusal} moved {name}"));
    }
    if let Some(words) = ours.differ(&written) {
        return Err(format!("a preview refused {refusal}: {words}"));
    }
    Ok(refusal)
}

/// A commit beside the model: the number, and every buffer as a push of what follows the count
/// leaves it, or as it stood.
fn same_commit(call: &Call) -> Result<u64, String> {
    let expected = commit(&call.buffers.state, call.buffers.lent(), &call.ticket);
    let mut pushed = call.buffers.clone();
    if expected == 0 {
        pushed.push(&call.ticket[8..]);
    }
    let mut buffers = call.buffers.clone();
    let refusal = buffers.commit(&call.ticket);
    if refusal != expected {
        return Err(format!("a commit refused {refusal}, by the model {expected}"));
    }
    if let Some(name) = buffers.differ(&pushed) {
        return Err(format!("a commit refused {refusal}: {name} is not as it should be"));
    }
    Ok(refusal)
}

/// A call that differs ends the run: it has few enough parts to be read as it is.
fn counted(drew: &mut Drew, call: &Call, found: Result<u64, String>) {
    match found {
        Ok(refusal) => drew[refusal as usize] += 1,
        Err(words) => {
            let Call { buffers, record, lists, ticket } = call;
            println!("{words}\nrecord {record:?}\nlists of {lists:?}\nticket {ticket:?}");
            let (log, work) = (buffers.log.len(), buffers.work.len());
            println!("state {:?}\nlog and work {log}, {work}", buffers.state);
            exit(1)
        }
    }
}

/// The last record that a judge has taken: any, or a MetaApplied that others continue, which has no
/// node and small numbers, or a node and great ones.
#[derive(Clone, Copy, Debug)]
enum Last {
    Any,
    Bare,
    Full,
}

/// A judge that has taken so many records of a trace with faults, so that its present reports are
/// not all passes.
fn taken(capacity: usize, count: u64, last: Last, seed: u64) -> Buffers {
    let mut judge = Host::open(0, capacity).buffers;
    let mut records = trace("wild", seed, count, count).records;
    match last {
        Last::Any => {}
        Last::Bare => records[count as usize - 1] = good(12, false),
        Last::Full => records[count as usize - 1] = good(12, true),
    }
    for record in &records {
        assert_eq!(judge.push(&record.encode()), 0, "a sound record");
    }
    judge
}

/// The first such judge from a seed on that has faults.
fn faulty(capacity: usize, count: u64, last: Last, seed: u64) -> Buffers {
    let judges = (seed..).map(|seed| taken(capacity, count, last, seed));
    let is_faulty = |judge: &Buffers| (0..8).any(|check| judge.state[kind_word(check)] != 0);
    judges.take(1_000).find(is_faulty).expect("a trace with faults")
}

/// Every case into a judge that has taken 19 records, as a push, as a preview, and as commits of its
/// ticket and of one of another count: the refusal is the model's, and then every byte and word
/// stays as it stood.
fn damaged(capacity: usize, last: Last, seed: u64) {
    let (mut pushes, mut previews, mut commits) =
        (Drew::default(), Drew::default(), Drew::default());
    let judge = faulty(capacity, 19, last, seed);
    for case in every_case(seed) {
        let mut call = Call::sound(&judge, &case.bytes);
        counted(&mut pushes, &call, same_push(&call));
        counted(&mut previews, &call, same_preview(&call));
        counted(&mut commits, &call, same_commit(&call));
        call.ticket[0] ^= 1 << (case.bytes.len() % 8);
        counted(&mut commits, &call, same_commit(&call));
    }
    println!(
        "capacity {capacity}, last {last:?}, seed {seed}: pushes, refusals 0 to 11: {pushes:?}"
    );
    println!("    previews, refusals 0 to 11: {previews:?}; commits: {commits:?}");
}

/// The judges of the calls: just opened, with some records, full, with more than a byte counts, with
/// an event that can go on, and what a refused opening gives, over no bytes and words.
fn judges(seed: u64) -> Vec<Buffers> {
    let (refusal, unopened) = Host::lent(7, 0, 0);
    assert_eq!(refusal, 7, "an opening over nothing");
    let opened = Host::open(0, 3).buffers;
    let some = [
        (20, 19, Last::Any),
        (19, 19, Last::Any),
        (260, 258, Last::Any),
        (20, 19, Last::Full),
        (19, 19, Last::Full),
        (20, 19, Last::Bare),
    ];
    let some = some.map(|(capacity, count, last)| faulty(capacity, count, last, seed));
    some.into_iter().chain([opened, unopened.buffers]).collect()
}

/// Lengths next to one that is right, and far from it.
fn lengths_around(right: usize, step: usize) -> Vec<usize> {
    let near = [right.saturating_sub(1), right + 1, right.saturating_sub(step), right + step];
    near.into_iter().chain([0, 1, 2 * right]).filter(|length| *length != right).collect()
}

/// The judge with one thing wrong: words that no judge has or that do not fit, other lengths.
/// Some are still a judge's.
fn other_buffers(sound: &Buffers) -> Vec<Buffers> {
    let mut out = Vec::new();
    let mut add = |change: &dyn Fn(&mut Buffers)| {
        let mut other = sound.clone();
        change(&mut other);
        out.push(other);
    };
    let (capacity, count) = (sound.state[0], sound.state[1]);
    for wide in [0, 1, 2, 4095, 4096, 4097, 1 << 32, u64::MAX] {
        for value in [wide, capacity.wrapping_add(wide), count.wrapping_add(wide)] {
            add(&|b| b.state[0] = value);
            add(&|b| b.state[1] = value);
        }
    }
    for events in [0, 1, count, count.wrapping_add(1), 1 << 32, u64::MAX - 1, u64::MAX] {
        add(&|b| b.state[EVENTS] = events);
    }
    for last in other_lasts() {
        add(&|b| write_last(b, &last));
    }
    for check in 0..8 {
        for kind in [9, 255, 256, 1 << 32, u64::MAX] {
            add(&|b| b.state[kind_word(check)] = kind);
            add(&|b| b.state[kind_word(check) + 1] = kind);
        }
    }
    lengths_around(60, 7).into_iter().for_each(|n| add(&|b| b.state.resize(n, 0)));
    lengths_around(sound.log.len(), 368).into_iter().for_each(|n| add(&|b| b.log.resize(n, 0)));
    lengths_around(sound.work.len(), 32).into_iter().for_each(|n| add(&|b| b.work.resize(n, 0)));
    out
}

/// What a log may hold as its last record: a MetaApplied that others continue, and the same with
/// one byte another, among them those that an event goes on by, and those that it does not. Some are
/// no record.
fn other_lasts() -> Vec<Vec<u8>> {
    let mut out = Vec::new();
    for base in [good(12, false), good(12, true)] {
        for place in [0, 1, 3, 4, 7, 8, 16, 23, 32, 48, 49, 50, 112, 367] {
            for value in [0, 1, 2, 11, 12, 255] {
                let mut last = base.encode().to_vec();
                last[place] = value;
                out.push(last);
            }
        }
    }
    out
}

/// Writes the last record of the log, where the judge has one.
fn write_last(buffers: &mut Buffers, last: &[u8]) {
    let count = buffers.state.get(1).copied().unwrap_or(0);
    let records = buffers.log.chunks_exact_mut(368);
    let at = usize::try_from(count).ok().and_then(|count| count.checked_sub(1));
    if let Some(place) = at.and_then(|at| records.skip(at).next()) {
        place.copy_from_slice(last);
    }
}

/// Records that draw each refusal of their form, sound ones, and some that continue.
fn other_records() -> Vec<Vec<u8>> {
    let sound = good(11, true).encode();
    let mut out: Vec<Vec<u8>> = (1..=12).map(|kind| good(kind, true).encode().to_vec()).collect();
    out.extend([false, true].map(|full| continuing(full).encode().to_vec()));
    let changes =
        [(1, 0), (1, 2), (3, 2), (4, 9), (7, 9), (8, 9), (16, 9), (23, 9), (32, 9), (50, 1)];
    for (full, (place, value)) in changes.into_iter().flat_map(|c| [(false, c), (true, c)]) {
        let mut other = continuing(full).encode().to_vec();
        other[place] = value;
        out.push(other);
    }
    let mut nodeless = continuing(true);
    nodeless.node = None;
    let mut marked = continuing(false);
    marked.node = Some(0);
    out.extend([nodeless, marked].map(|record| record.encode().to_vec()));
    for length in [0, 1, 8, 360, 367, 369, 376, 736] {
        let mut torn = sound.to_vec();
        torn.resize(length, 0);
        out.push(torn);
    }
    for (place, value) in [(0, 0), (0, 13), (0, 255), (1, 2), (2, 1), (48, 6), (50, 1), (367, 1)] {
        let mut other = sound.to_vec();
        other[place] = value;
        out.push(other);
    }
    out.push(vec![0; 368]);
    out
}

/// Lists too short, just long enough, and longer.
fn other_lists() -> Vec<(usize, usize)> {
    let reports = (0..=61).chain([112, 1000]);
    let tickets = (0..=400).chain([752]);
    let corners = [(0, 0), (55, 375), (57, 375), (55, 377), (57, 377), (112, 752)];
    let reports = reports.map(|words| (words, TICKET));
    reports.chain(tickets.map(|bytes| (REPORTS, bytes))).chain(corners).collect()
}

/// Tickets of every length, of other counts in each bit and in every order of the bytes, and of
/// zeros; and of each other record.
fn other_tickets(count: u64, record: &[u8]) -> Vec<Vec<u8>> {
    let sound = ticket(count, record);
    let mut out: Vec<Vec<u8>> = (0..=400).map(|length| resized(&sound, length)).collect();
    let bits = (0..64).map(|bit| count ^ 1 << bit);
    let near = [count.wrapping_add(1), count.wrapping_sub(1), count.swap_bytes(), u64::MAX];
    out.extend(bits.chain(near).map(|other| ticket(other, record)));
    out.extend([0, 7, 8, 367, 375, TICKET, 377].map(|length| vec![0; length]));
    out.extend(other_records().iter().flat_map(|r| [ticket(count, r), ticket(count ^ 256, r)]));
    out
}

fn resized(bytes: &[u8], length: usize) -> Vec<u8> {
    let mut out = bytes.to_vec();
    out.resize(length, 0);
    out
}

/// What may be wrong with a call on one judge.
struct Wrongs {
    sound: Call,
    buffers: Vec<Buffers>,
    lasts: Vec<Vec<u8>>,
    records: Vec<Vec<u8>>,
    lists: Vec<(usize, usize)>,
    tickets: Vec<Vec<u8>>,
}

impl Wrongs {
    fn new(judge: &Buffers) -> Wrongs {
        let record = good(11, true).encode();
        Wrongs {
            sound: Call::sound(judge, &record),
            buffers: other_buffers(judge),
            lasts: other_lasts(),
            records: other_records(),
            lists: other_lists(),
            tickets: other_tickets(judge.state[1], &record),
        }
    }

    /// Each of them alone; other buffers also with records that continue.
    fn single(&self) -> Vec<Call> {
        let sound = || self.sound.clone();
        let records = [good(11, true), continuing(false), continuing(true)];
        let calls = |b: &Buffers| records.clone().map(|r| Call::with(&self.sound, b, &r.encode()));
        let buffers = self.buffers.iter().flat_map(calls);
        let records = self.records.iter().map(|r| Call { record: r.clone(), ..sound() });
        let lists = self.lists.iter().map(|lists| Call { lists: *lists, ..sound() });
        let tickets = self.tickets.iter().map(|t| Call { ticket: t.clone(), ..sound() });
        [sound()].into_iter().chain(buffers).chain(records).chain(lists).chain(tickets).collect()
    }

    /// Any of them together, so that the order of the refusals shows.
    fn several(&self, random: &mut Random) -> Call {
        let mut call = self.sound.clone();
        if random.percent(40) {
            call.buffers = random.pick(&self.buffers).clone();
        }
        if random.percent(20) {
            let last: &Vec<u8> = random.pick(&self.lasts);
            write_last(&mut call.buffers, last);
        }
        if random.percent(20) && call.buffers.state.len() > EVENTS {
            call.buffers.state[EVENTS] = *random.pick(&[0, 1, 1 << 32, u64::MAX - 1, u64::MAX]);
        }
        if random.percent(60) {
            call.record = random.pick(&self.records).clone();
        }
        if random.percent(30) {
            call.lists = *random.pick(&self.lists);
        }
        match random.below(5) {
            0 | 1 => call.ticket = random.pick(&self.tickets).clone(),
            2 => call.ticket.splice(8.., random.pick(&self.records).iter().copied()).for_each(drop),
            _ => {}
        }
        call
    }
}

/// Calls through both, counted by refusal.
fn calls(name: &str, all: impl Iterator<Item = Call>) {
    let (mut pushes, mut previews, mut commits) =
        (Drew::default(), Drew::default(), Drew::default());
    for call in all {
        counted(&mut pushes, &call, same_push(&call));
        counted(&mut previews, &call, same_preview(&call));
        counted(&mut commits, &call, same_commit(&call));
    }
    println!("{name}, refusals 0 to 11: pushes {pushes:?}");
    println!("    previews {previews:?}; commits {commits:?}");
}

/// Damaged records, then calls with one thing wrong and with several.
pub fn compare(seed: u64) {
    for last in [Last::Any, Last::Bare, Last::Full] {
        [19, 20].into_iter().for_each(|capacity| damaged(capacity, last, seed));
    }
    let wrongs: Vec<Wrongs> = judges(seed).iter().map(Wrongs::new).collect();
    calls("one thing wrong", wrongs.iter().flat_map(Wrongs::single));
    let mut random = Random::new(seed);
    let several = wrongs.iter().cycle().take(100_000).map(|wrong| wrong.several(&mut random));
    calls("several", several);
}
