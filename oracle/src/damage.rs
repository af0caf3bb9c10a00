//! Damaged copies of good records: torn at every length, each field out of its
//! values, each unused place not zero, several damages at once.

use crate::random::Random;
use crate::wire::{FORMS, KEY, RECORD, Record, SPAN, SPANS};

/// Bytes for the form check, and the refusal that document 01's table gives.
#[derive(Clone, Debug)]
pub struct Case {
    pub bytes: Vec<u8>,
    pub refusal: u8,
}

impl Case {
    pub fn new(bytes: &[u8]) -> Case {
        Case { bytes: bytes.to_vec(), refusal: crate::model::form::refusal(bytes) }
    }
}

/// The file of cases: two bytes length, one byte refusal, the bytes.
pub fn form_file(cases: &[Case]) -> Vec<u8> {
    let mut out = Vec::new();
    for case in cases {
        out.extend((case.bytes.len() as u16).to_le_bytes());
        out.push(case.refusal);
        out.extend(&case.bytes);
    }
    out
}

/// A good record of the kind: everything used and full, or as bare as may be. A
/// MetaApplied begins an event.
pub fn good(kind: u8, full: bool) -> Record {
    let form = &FORMS[usize::from(kind) - 1];
    let letter = |i: usize| u64::from_le_bytes([0x11 + i as u8; 8]);
    let key = |length: usize| (0..length).map(|i| 0x41 + i as u8).collect::<Vec<u8>>();
    let flag = u8::from(full && kind == 1);
    let mut numbers: [u64; 5] =
        std::array::from_fn(|i| if full && form.numbers[i] { letter(i) } else { 0 });
    if kind == 1 && flag == 0 {
        numbers[2] = 0;
    }
    let spans = if full { form.spans.1 } else { form.spans.0 };
    let lengths = |i: usize| if full { (KEY - i, KEY - 2 * i) } else { (0, 0) };
    let span = |i: usize| {
        let (start, end) = lengths(i);
        (key(start), if kind == 3 { Vec::new() } else { key(end) })
    };
    Record {
        kind,
        node: full.then_some(0x0403_0201),
        sub: if full { form.sub.1 } else { form.sub.0 },
        flag,
        numbers,
        voters: if full { (0..form.voters).map(letter).collect() } else { Vec::new() },
        spans: (0..spans).map(span).collect(),
    }
}

/// A good MetaApplied that continues an event, the one of `good(12, full)`.
pub fn continuing(full: bool) -> Record {
    Record { flag: 1, ..good(12, full) }
}

/// A full and a bare record of every kind, with other counts of voters, spans
/// and key bytes between; and those that continue an event.
pub fn bases() -> Vec<[u8; RECORD]> {
    let mut out = Vec::new();
    for kind in 1..=12 {
        let form = &FORMS[usize::from(kind) - 1];
        out.push(good(kind, false).encode());
        out.push(good(kind, true).encode());
        for fewer in 1..form.spans.1.saturating_sub(form.spans.0) {
            let mut record = good(kind, true);
            record.spans.truncate(form.spans.1 - fewer);
            record.voters.truncate(fewer);
            out.push(record.encode());
        }
        if form.voters > 0 {
            let mut record = good(kind, true);
            record.voters.truncate(3);
            record.spans[0].0.truncate(5);
            out.push(record.encode());
        }
    }
    out.extend([false, true].map(|full| continuing(full).encode()));
    out
}

/// The base torn or stretched to every length up to 400, but its own.
pub fn torn(base: &[u8; RECORD]) -> Vec<Case> {
    let stretched = [&base[..], &[0; 32]].concat();
    let lengths = (0..=400).filter(|length| *length != RECORD);
    lengths.map(|length| Case::new(&stretched[..length])).collect()
}

/// The places whose every value matters: kind, mark, sub-code, flag, the two
/// counts and the length bytes of all keys.
pub fn field_places() -> Vec<usize> {
    let keys = (0..4).flat_map(|i| [SPANS + SPAN * i, SPANS + SPAN * i + 32]);
    [0, 1, 2, 3, 48, 49].into_iter().chain(keys).collect()
}

/// The base with one byte set.
fn with(base: &[u8; RECORD], place: usize, value: u8) -> Case {
    let mut bytes = *base;
    bytes[place] = value;
    Case::new(&bytes)
}

/// Every value at every field's place.
pub fn fields(base: &[u8; RECORD]) -> Vec<Case> {
    let places = field_places().into_iter();
    places.flat_map(|place| (0..=255).map(move |value| with(base, place, value))).collect()
}

/// Some values at every place of the record.
pub fn places(base: &[u8; RECORD], values: &[u8]) -> Vec<Case> {
    let each = |place: usize| values.iter().map(move |value| with(base, place, *value));
    (0..RECORD).flat_map(each).collect()
}

/// Several damages at once: the order of the refusals shows.
pub fn several(random: &mut Random, bases: &[[u8; RECORD]]) -> Case {
    let mut bytes = random.pick(bases).to_vec();
    for _ in 0..random.from_to(2, 4) {
        let fields = field_places();
        let place =
            if random.percent(60) { *random.pick(&fields) } else { random.below(368) as usize };
        bytes[place] = *random.pick(&[0, 1, 2, 3, 4, 5, 6, 7, 8, 12, 13, 31, 32, 33, 128, 255]);
    }
    if random.percent(10) {
        bytes.truncate(random.below(368) as usize);
    }
    Case::new(&bytes)
}

/// Counts of five, six and seven voters, each byte of the last two places alone
/// set or none: six and seven draw 3 whatever the places hold, also where byte
/// 50 would draw 4; five draw 4 unless those places are zero.
fn voter_places() -> Vec<Case> {
    let mut out = Vec::new();
    for kind in [1, 2, 12] {
        for count in 5..=7 {
            let mut base = good(kind, true).encode();
            base[48] = count;
            out.push(Case::new(&base));
            out.extend((96..112).map(|place| with(&base, place, 1)));
            base[50] = 1;
            out.push(Case::new(&base));
        }
    }
    out
}

/// Every kind with flags of no use to it, none first: 1 is kind 1's and kind 12's.
/// With byte 50 set as well, which alone draws 4.
fn flags() -> Vec<Case> {
    let mut out = Vec::new();
    for kind in 1..=12 {
        for flag in [0, 1, 2, 3, 4, 12, 127, 128, 254, 255] {
            let mut base = good(kind, true).encode();
            base[3] = flag;
            out.push(Case::new(&base));
            out.push(with(&base, 50, 1));
        }
    }
    out
}

/// All the cases that the comparison runs.
pub fn every_case(seed: u64) -> Vec<Case> {
    let mut random = Random::new(seed);
    let bases = bases();
    let mut out: Vec<Case> = bases.iter().map(|base| Case::new(base)).collect();
    for base in &bases {
        out.extend(torn(base));
        out.extend(fields(base));
        out.extend(places(base, &[0, 1, 2, 31, 32, 128, 255]));
    }
    out.extend(voter_places());
    out.extend(flags());
    out.extend((0..100_000).map(|_| several(&mut random, &bases)));
    out
}

/// The cases that are stored: each boundary, and a sample of the rest.
pub fn stored_cases(seed: u64) -> Vec<Case> {
    let mut random = Random::new(seed);
    let bases = bases();
    let mut out: Vec<Case> = bases.iter().map(|base| Case::new(base)).collect();
    out.extend(torn(&good(2, true).encode()));
    out.extend([0, 1, 2, 255].map(|kind| with(&good(5, false).encode(), 0, kind)));
    for base in &bases {
        out.extend(boundary_fields(base));
        out.extend(
            (0..4).map(|_| with(base, random.below(368) as usize, 1 + random.below(255) as u8)),
        );
    }
    out.extend(unused_places());
    out.extend(voter_places());
    out.extend((0..200).map(|_| several(&mut random, &bases)));
    out.extend(flags());
    out
}

/// Each field at the edges of its values: only those that the base's refusal
/// depends on, so a place past the counts is left to the unused ones.
fn boundary_fields(base: &[u8; RECORD]) -> Vec<Case> {
    let form = &FORMS[usize::from(base[0]) - 1];
    let values = |place: usize| match place {
        0 => vec![0, 13],
        1 => vec![2],
        2 => vec![form.sub.0.wrapping_sub(1), form.sub.1 + 1],
        3 => vec![form.flag + 1],
        48 => vec![form.voters as u8 + 1],
        49 => vec![(form.spans.0 as u8).wrapping_sub(1), form.spans.1 as u8 + 1],
        _ => vec![32],
    };
    let counted = |place: &usize| *place < SPANS || *place < SPANS + SPAN * usize::from(base[49]);
    let places = field_places().into_iter().filter(counted);
    places.flat_map(|place| values(place).into_iter().map(move |v| with(base, place, v))).collect()
}

/// For every kind, every eighth place of its bare record and each place whose
/// use changes with the kind, set to 1.
fn unused_places() -> Vec<Case> {
    let mut out = Vec::new();
    for kind in 1..=12 {
        let base = good(kind, false).encode();
        let numbers = (4..56).step_by(4);
        let voters = (56..112).step_by(24);
        let keys = (SPANS..RECORD).step_by(31);
        let places = numbers.chain(voters).chain(keys).chain([367]);
        out.extend(places.map(|place| with(&base, place, 1)));
    }
    out
}
