//! Document 01's record form: the refusals 1 to 4, place by place, and the
//! fields of a record that has none.

/// A record taken. Numbers are A to E.
#[derive(Clone, Debug)]
pub struct Entry {
    pub kind: u8,
    pub node: Option<u64>,
    pub sub: u8,
    pub flag: u8,
    pub a: u64,
    pub b: u64,
    pub c: u64,
    pub d: u64,
    pub e: u64,
    pub voters: Vec<u64>,
    pub spans: Vec<(Vec<u8>, Vec<u8>)>,
}

/// The refusal a push of these bytes draws for their form, 0 for none.
pub fn refusal(bytes: &[u8]) -> u8 {
    if bytes.len() != 368 {
        1
    } else if bytes[0] < 1 || bytes[0] > 12 {
        2
    } else if outside_values(bytes) {
        3
    } else if unused_not_zero(bytes) {
        4
    } else {
        0
    }
}

/// "node mark not 0 or 1; sub-code, flag, voter or span count outside its kind's
/// values (0 alone where it has none); a counted span's key length above 31";
/// "six or seven draw refusal 3"; kind 12's flag is 0 or 1.
fn outside_values(bytes: &[u8]) -> bool {
    let kind = bytes[0];
    let subs = match kind {
        1 | 2 => 1..=3,
        3 => 1..=7,
        _ => 0..=0,
    };
    let flags = if matches!(kind, 1 | 12) { 0..=1 } else { 0..=0 };
    let voters = if matches!(kind, 1 | 2 | 12) { 0..=5 } else { 0..=0 };
    let spans = match kind {
        1 | 2 => 1..=1,
        3 => 0..=1,
        8 => 0..=4,
        12 => 1..=2,
        _ => 0..=0,
    };
    if bytes[1] > 1
        || !subs.contains(&bytes[2])
        || !flags.contains(&bytes[3])
        || !voters.contains(&bytes[48])
        || !spans.contains(&bytes[49])
    {
        return true;
    }
    (0..bytes[49] as usize).any(|i| bytes[112 + 64 * i] > 31 || bytes[144 + 64 * i] > 31)
}

/// "a place the kind doesn't use is not zero".
fn unused_not_zero(bytes: &[u8]) -> bool {
    let used = used_places(bytes);
    bytes.iter().zip(used).any(|(byte, used)| !used && *byte != 0)
}

/// The numbers A to E that the kind, with this flag, uses: their letters.
fn used_numbers(kind: u8, flag: u8) -> &'static str {
    match (kind, flag) {
        (1, 0) => "ABD",
        (1, _) | (2, _) => "ABCD",
        (3, _) => "AB",
        (4 | 7, _) => "ABC",
        (9, _) => "A",
        (11, _) => "ABCDE",
        (12, _) => "ABD",
        _ => "",
    }
}

fn used_places(bytes: &[u8]) -> [bool; 368] {
    let mut used = [false; 368];
    used[..4].fill(true);
    used[48..50].fill(true);
    used[4..8].fill(bytes[1] == 1);
    for letter in used_numbers(bytes[0], bytes[3]).bytes() {
        let at = 8 + 8 * (letter - b'A') as usize;
        used[at..at + 8].fill(true);
    }
    used[56..56 + 8 * bytes[48] as usize].fill(true);
    for i in 0..bytes[49] as usize {
        let start = 112 + 64 * i;
        used[start..=start + bytes[start] as usize].fill(true);
        // The end of a write's span is the one place in a counted span that a
        // kind does not use.
        if bytes[0] != 3 {
            let end = start + 32;
            used[end..=end + bytes[end] as usize].fill(true);
        }
    }
    used
}

fn word(bytes: &[u8], at: usize) -> u64 {
    (0..8).map(|i| u64::from(bytes[at + i]) << (8 * i)).sum()
}

fn key(bytes: &[u8], at: usize) -> Vec<u8> {
    bytes[at + 1..at + 1 + bytes[at] as usize].to_vec()
}

/// The fields of a record whose form has no refusal.
pub fn entry(bytes: &[u8]) -> Entry {
    let node = (0..4).map(|i| u64::from(bytes[4 + i]) << (8 * i)).sum();
    let span = |i: usize| (key(bytes, 112 + 64 * i), key(bytes, 144 + 64 * i));
    Entry {
        kind: bytes[0],
        node: (bytes[1] == 1).then_some(node),
        sub: bytes[2],
        flag: bytes[3],
        a: word(bytes, 8),
        b: word(bytes, 16),
        c: word(bytes, 24),
        d: word(bytes, 32),
        e: word(bytes, 40),
        voters: (0..bytes[48] as usize).map(|i| word(bytes, 56 + 8 * i)).collect(),
        spans: (0..bytes[49] as usize).map(span).collect(),
    }
}
