//! All short traces over small alphabets: one alphabet for each check, with a
//! fixed beginning where the check needs something to stand on.

use crate::wire::Record;

/// Every trace is the beginning and then `length` letters in any order.
pub struct Alphabet {
    pub name: &'static str,
    pub beginning: Vec<Record>,
    pub letters: Vec<Record>,
    pub length: usize,
}

impl Alphabet {
    /// How many traces there are.
    pub fn size(&self) -> u64 {
        (self.letters.len() as u64).pow(self.length as u32)
    }

    /// The trace of a number below the size: its digits are its letters.
    pub fn trace(&self, number: u64) -> Vec<Record> {
        let base = self.letters.len() as u64;
        let mut records = self.beginning.clone();
        let mut rest = number;
        for _ in 0..self.length {
            records.push(self.letters[(rest % base) as usize].clone());
            rest /= base;
        }
        records
    }
}

fn bare(kind: u8, node: u32, numbers: [u64; 5]) -> Record {
    Record { kind, node: Some(node), numbers, ..Record::default() }
}

fn valued(kind: u8, node: u32, sub: u8, numbers: [u64; 5], span: (&str, &str)) -> Record {
    let mut record = bare(kind, node, numbers);
    record.sub = sub;
    record.flag = u8::from(kind == 1 && numbers[2] > 0);
    record.voters = vec![1, 2];
    record.spans = vec![(span.0.as_bytes().to_vec(), span.1.as_bytes().to_vec())];
    record
}

/// A RangeDescriptor of range 1 or 2: they lie side by side.
fn descriptor(node: u32, range: u64, index: u64, applied: u64) -> Record {
    let span = if range == 1 { ("b", "d") } else { ("d", "f") };
    valued(2, node, 1, [range, index, applied, 1, 0], span)
}

fn took(node: u32, range: u64, index: u64) -> Record {
    Record { sub: 4, ..bare(3, node, [range, index, 0, 0, 0]) }
}

/// Range 1 splits at 1 and 2 into ranges 2 and 3, on two nodes.
fn half() -> Alphabet {
    let letters = vec![
        bare(7, 1, [1, 2, 2, 0, 0]),
        descriptor(1, 1, 2, 2),
        descriptor(1, 1, 2, 1),
        valued(1, 2, 2, [2, 2, 1, 1, 0], ("d", "f")),
        valued(1, 1, 2, [2, 1, 1, 1, 0], ("d", "f")),
        descriptor(2, 1, 2, 2),
        descriptor(2, 2, 2, 2),
        took(1, 1, 2),
        took(2, 1, 2),
        bare(5, 1, [0; 5]),
        bare(5, 2, [0; 5]),
        bare(6, 1, [0; 5]),
        bare(9, 1, [2, 0, 0, 0, 0]),
        bare(10, 1, [0; 5]),
        bare(10, 2, [0; 5]),
        bare(4, 1, [1, 2, 3, 0, 0]),
    ];
    Alphabet { name: "half", beginning: Vec::new(), letters, length: 5 }
}

/// One node with two right halves of one parent, longer.
fn half_one_node() -> Alphabet {
    let letters = vec![
        bare(7, 1, [1, 2, 2, 0, 0]),
        descriptor(1, 1, 2, 2),
        valued(1, 1, 2, [2, 3, 1, 1, 0], ("d", "f")),
        took(1, 1, 2),
        bare(5, 1, [0; 5]),
        bare(6, 1, [0; 5]),
        bare(9, 1, [2, 0, 0, 0, 0]),
        bare(10, 1, [0; 5]),
    ];
    Alphabet { name: "half, one node", beginning: Vec::new(), letters, length: 7 }
}

fn value(node: Option<u32>, index: u64, applied: u64, generation: u64) -> Record {
    let mut record = valued(2, 1, 1, [1, index, applied, generation, 0], ("b", "d"));
    record.node = node;
    record
}

/// Puts and statements of one range.
fn agreement() -> Alphabet {
    let mut merging = value(None, 2, 2, 1);
    merging.sub = 2;
    let letters = vec![
        value(None, 1, 1, 1),
        value(None, 2, 2, 1),
        value(None, 2, 2, 2),
        value(None, 3, 3, 2),
        value(Some(1), 3, 2, 1),
        value(Some(1), 3, 2, 2),
        value(Some(1), 4, 1, 2),
        valued(1, 1, 3, [1, 2, 0, 2, 0], ("b", "d")),
        valued(1, 2, 1, [1, 1, 0, 2, 0], ("b", "d")),
        bare(4, 1, [1, 2, 1, 0, 0]),
        bare(4, 1, [1, 0, 1, 0, 0]),
        merging,
        bare(6, 1, [0; 5]),
    ];
    Alphabet { name: "agreement", beginning: Vec::new(), letters, length: 5 }
}

fn held(range: u64, span: (&str, &str)) -> Record {
    valued(2, 1, 1, [range, 9, 9, 1, 0], span)
}

fn installed(spans: &[(&str, &str)]) -> Record {
    let mut record = bare(8, 1, [0; 5]);
    let keys = |(start, end): &(&str, &str)| (start.as_bytes().to_vec(), end.as_bytes().to_vec());
    record.spans = spans.iter().map(keys).collect();
    record
}

/// Holding, installs and creations on one node; the tenant is 0.
fn owners() -> Alphabet {
    let group = "\0\0\0\0\0\0\0\0\0\0\0\0\0\0\0\u{2}";
    let letters = vec![
        held(1, ("b", "f")),
        held(1, ("b", "b")),
        held(2, ("c", "c")),
        held(2, ("e", "g")),
        held(3, ("", "c")),
        valued(1, 1, 1, [2, 1, 0, 1, 0], ("f", "g")),
        installed(&[("c", "d")]),
        installed(&[(group, "z"), ("a", "z")]),
        installed(&[("c", "c"), ("\0", "b")]),
        installed(&[("z", "a")]),
        bare(9, 1, [2, 0, 0, 0, 0]),
        bare(6, 1, [0; 5]),
        bare(10, 1, [0; 5]),
        bare(5, 1, [0; 5]),
    ];
    Alphabet { name: "owners", beginning: Vec::new(), letters, length: 5 }
}

fn write(range: u64, index: u64, key: &str) -> Record {
    let mut record = bare(3, 1, [range, index, 0, 0, 0]);
    record.sub = 1;
    record.spans = vec![(key.as_bytes().to_vec(), Vec::new())];
    record
}

fn put(range: u64, index: u64, generation: u64) -> Record {
    let mut record = valued(2, 1, 1, [range, index, index, generation, 0], ("b", "f"));
    record.node = None;
    record
}

/// Writes of two keys by two ranges, with values put before and between.
fn generations() -> Alphabet {
    let letters = vec![
        put(1, 2, 2),
        put(2, 1, 2),
        put(2, 0, 0),
        write(1, 0, "c"),
        write(1, 1, "c"),
        write(1, 2, "c"),
        write(1, 3, "c"),
        write(2, 1, "c"),
        write(2, 2, "c"),
        write(2, 3, "cc"),
        write(1, 3, "cc"),
        Record { sub: 2, ..write(1, 3, "c") },
    ];
    let beginning = vec![put(1, 0, 1), put(2, 0, 1)];
    Alphabet { name: "generations", beginning, letters, length: 5 }
}

fn grant(index: u64, node: u64, first: u64, last: u64) -> Record {
    bare(11, 1, [node, index, 1, first, last])
}

/// Grants of a few ids.
fn ids() -> Alphabet {
    let letters = vec![
        grant(1, 1, 1, 2),
        grant(1, 2, 1, 2),
        grant(2, 1, 2, 3),
        grant(2, 1, 1, 1),
        grant(3, 2, 3, 3),
        grant(3, 1, 1, 5),
        grant(4, 1, 2, 2),
        grant(4, 1, 5, 4),
        grant(5, 2, 1, 1),
        grant(6, 1, 4, 4),
        grant(0, 1, 0, u64::MAX),
    ];
    Alphabet { name: "ids", beginning: Vec::new(), letters, length: 5 }
}

fn named(range: u64, index: u64, generation: u64, won: Option<(&str, &str)>) -> Record {
    let mut record = bare(12, 1, [range, index, 0, generation, 0]);
    record.voters = vec![1, 2];
    let spans = [("b", "f")].into_iter().chain(won);
    record.spans =
        spans.map(|(start, end)| (start.as_bytes().to_vec(), end.as_bytes().to_vec())).collect();
    record
}

/// Names of overlapping spans at three indexes and three generations.
fn meta() -> Alphabet {
    let letters = vec![
        named(1, 1, 1, Some(("b", "f"))),
        named(1, 2, 1, Some(("b", "d"))),
        named(1, 2, 2, Some(("c", "e"))),
        named(1, 1, 2, Some(("d", "f"))),
        named(1, 3, 2, Some(("c", "d"))),
        named(1, 3, 3, Some(("cc", "g"))),
        named(1, 2, 3, Some(("", "c"))),
        named(1, 3, 1, Some(("e", "f"))),
        named(1, 2, 2, Some(("d", "d"))),
        named(1, 2, 2, None),
        named(1, 2, 4, None),
        Record { voters: vec![2, 1], ..named(1, 2, 2, None) },
    ];
    let beginning = vec![put(1, 1, 1), put(1, 2, 2), put(1, 3, 3)];
    Alphabet { name: "meta", beginning, letters, length: 5 }
}

fn continuing(record: Record) -> Record {
    Record { flag: 1, ..record }
}

fn without_node(record: Record) -> Record {
    Record { node: None, ..record }
}

/// Applies with a node and without at two indexes, with records that continue, some
/// of them nothing, a parent's flag, and a grant whose fault is told by its event.
/// The beginning ends in an event that can go on at once.
fn events() -> Alphabet {
    let letters = vec![
        named(1, 2, 1, Some(("b", "d"))),
        named(1, 2, 2, Some(("c", "e"))),
        named(1, 3, 1, Some(("b", "f"))),
        without_node(named(1, 2, 3, Some(("", "c")))),
        continuing(named(1, 2, 1, Some(("c", "d")))),
        continuing(named(1, 2, 2, Some(("b", "f")))),
        continuing(named(1, 3, 3, Some(("cc", "g")))),
        continuing(named(1, 2, 4, None)),
        continuing(Record { voters: vec![2, 1], ..named(1, 2, 2, None) }),
        continuing(without_node(named(1, 2, 1, Some(("a", "f"))))),
        valued(1, 1, 2, [2, 1, 1, 1, 0], ("f", "g")),
        grant(1, 1, 5, 4),
    ];
    let begun = named(1, 2, 2, Some(("e", "f")));
    let beginning = vec![put(1, 1, 1), put(1, 2, 2), put(1, 3, 3), begun];
    Alphabet { name: "events", beginning, letters, length: 5 }
}

/// All alphabets.
pub fn alphabets() -> Vec<Alphabet> {
    vec![half(), half_one_node(), agreement(), owners(), generations(), ids(), meta(), events()]
}
