//! The 368-byte record of document 01: the decoded shape, its writer and its
//! reader. The reader refuses what its own writer would not have written, so it
//! shares no method with the model's field by field check.

/// The length of a record in bytes.
pub const RECORD: usize = 368;
/// The longest key.
pub const KEY: usize = 31;
/// The most voters. There are places for seven.
pub const VOTERS: usize = 5;
/// Where the spans begin, and the length of one.
pub const SPANS: usize = 112;
pub const SPAN: usize = 64;

/// A start and an end.
pub type Span = (Vec<u8>, Vec<u8>);

/// A decoded record: document 01's fields under their own names.
#[derive(Clone, Debug, Default, PartialEq, Eq)]
pub struct Record {
    pub kind: u8,
    pub node: Option<u32>,
    pub sub: u8,
    pub flag: u8,
    /// A to E.
    pub numbers: [u64; 5],
    pub voters: Vec<u64>,
    pub spans: Vec<Span>,
}

/// What a kind's fields may be: document 01's list of kinds as data.
pub struct Form {
    pub sub: (u8, u8),
    pub flag: u8,
    pub voters: usize,
    pub spans: (usize, usize),
    pub numbers: [bool; 5],
}

const Y: bool = true;
const N: bool = false;

const fn form(sub: (u8, u8), spans: (usize, usize), numbers: [bool; 5]) -> Form {
    Form { sub, flag: 0, voters: 0, spans, numbers }
}

const fn with_voters(form: Form, flag: u8) -> Form {
    Form { flag, voters: VOTERS, ..form }
}

/// The forms of kinds 1 to 12, in order.
pub const FORMS: [Form; 12] = [
    with_voters(form((1, 3), (1, 1), [Y, Y, Y, Y, N]), 1),
    with_voters(form((1, 3), (1, 1), [Y, Y, Y, Y, N]), 0),
    form((1, 7), (0, 1), [Y, Y, N, N, N]),
    form((0, 0), (0, 0), [Y, Y, Y, N, N]),
    form((0, 0), (0, 0), [N, N, N, N, N]),
    form((0, 0), (0, 0), [N, N, N, N, N]),
    form((0, 0), (0, 0), [Y, Y, Y, N, N]),
    form((0, 0), (0, 4), [N, N, N, N, N]),
    form((0, 0), (0, 0), [Y, N, N, N, N]),
    form((0, 0), (0, 0), [N, N, N, N, N]),
    form((0, 0), (0, 0), [Y, Y, Y, Y, Y]),
    with_voters(form((0, 0), (1, 2), [Y, Y, N, Y, N]), 1),
];

/// The form of a kind, none for a number that is no kind.
pub fn form_of(kind: u8) -> Option<&'static Form> {
    FORMS.get(usize::from(kind).checked_sub(1)?)
}

fn write_key(place: &mut [u8], key: &[u8]) {
    place[0] = key.len() as u8;
    place[1..=key.len()].copy_from_slice(key);
}

fn read_key(place: &[u8]) -> Option<Vec<u8>> {
    place.get(1..=usize::from(place[0])).map(<[u8]>::to_vec)
}

fn number_at(bytes: &[u8], at: usize) -> u64 {
    u64::from_le_bytes(bytes[at..at + 8].try_into().expect("eight bytes"))
}

impl Record {
    /// Whether it goes on with the event of the record before it: a MetaApplied
    /// with the flag. A RangeCreated's flag is a parent.
    pub fn continues(&self) -> bool {
        self.kind == 12 && self.flag == 1
    }

    /// The record's bytes.
    pub fn encode(&self) -> [u8; RECORD] {
        let mut out = [0; RECORD];
        out[0] = self.kind;
        out[1] = u8::from(self.node.is_some());
        out[2] = self.sub;
        out[3] = self.flag;
        out[4..8].copy_from_slice(&self.node.unwrap_or(0).to_le_bytes());
        for (i, number) in self.numbers.iter().enumerate() {
            out[8 + 8 * i..16 + 8 * i].copy_from_slice(&number.to_le_bytes());
        }
        out[48] = self.voters.len() as u8;
        out[49] = self.spans.len() as u8;
        for (i, voter) in self.voters.iter().enumerate() {
            out[56 + 8 * i..64 + 8 * i].copy_from_slice(&voter.to_le_bytes());
        }
        for (i, (start, end)) in self.spans.iter().enumerate() {
            let at = SPANS + SPAN * i;
            write_key(&mut out[at..at + 32], start);
            write_key(&mut out[at + 32..at + 64], end);
        }
        out
    }

    /// The record in `bytes`, or its refusal: 1, 2, 3 or 4.
    pub fn decode(bytes: &[u8]) -> Result<Record, u8> {
        if bytes.len() != RECORD {
            return Err(1);
        }
        let form = form_of(bytes[0]).ok_or(2)?;
        let record = Self::read(bytes, form).ok_or(3)?;
        if record.encode()[..] == *bytes && record.leaves_unused_zero(form) {
            Ok(record)
        } else {
            Err(4)
        }
    }

    /// The fields, where each is among its kind's values.
    fn read(bytes: &[u8], form: &Form) -> Option<Record> {
        let (voters, spans) = (usize::from(bytes[48]), usize::from(bytes[49]));
        let within = bytes[1] <= 1
            && (form.sub.0..=form.sub.1).contains(&bytes[2])
            && bytes[3] <= form.flag
            && voters <= form.voters
            && (form.spans.0..=form.spans.1).contains(&spans);
        if !within {
            return None;
        }
        let node = u32::from_le_bytes(bytes[4..8].try_into().expect("four bytes"));
        let span = |i: usize| {
            let at = SPANS + SPAN * i;
            let (start, end) = (&bytes[at..at + 32], &bytes[at + 32..at + 64]);
            Some((read_key(start)?, read_key(end)?))
        };
        Some(Record {
            kind: bytes[0],
            node: (bytes[1] == 1).then_some(node),
            sub: bytes[2],
            flag: bytes[3],
            numbers: std::array::from_fn(|i| number_at(bytes, 8 + 8 * i)),
            voters: (0..voters).map(|i| number_at(bytes, 56 + 8 * i)).collect(),
            spans: (0..spans).map(span).collect::<Option<_>>()?,
        })
    }

    /// Whether the numbers and the end that the kind does not use are empty; the
    /// other unused places are not in a decoded record and so written as zero.
    fn leaves_unused_zero(&self, form: &Form) -> bool {
        let numbers = self.numbers.iter().zip(form.numbers).all(|(n, used)| used || *n == 0);
        let parent = self.kind != 1 || self.flag == 1 || self.numbers[2] == 0;
        let end = self.kind != 3 || self.spans.iter().all(|(_, end)| end.is_empty());
        numbers && parent && end
    }
}
