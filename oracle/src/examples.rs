//! Document 01's examples E1 to E10 as traces, each with the reports it names,
//! its three wrong judges, and four more, as traces on which they are found out;
//! then those of events, event_examples.rs.

use crate::event_examples::event_examples;
use crate::generate::Trace;
use crate::wire::Record;

/// An example: what it is, its trace, and the check, kind, position and evidence
/// that are not a pass.
pub struct Example {
    pub name: &'static str,
    pub trace: Trace,
    pub faults: Vec<(usize, u8, u64, Vec<u64>)>,
}

/// The checks that are not a pass: check, kind, position, evidence.
pub(crate) type Faults = Vec<(usize, u8, u64, Vec<u64>)>;

pub(crate) fn example(name: &'static str, records: Vec<Record>, faults: Faults) -> Example {
    Example { name, trace: Trace { profile: "examples", tenant: 0, records }, faults }
}

pub(crate) fn grant(index: u64, node: u64, first: u64, last: u64) -> Record {
    Record { kind: 11, numbers: [node, index, 1, first, last], ..Record::default() }
}

pub(crate) fn span(start: &str, end: &str) -> (Vec<u8>, Vec<u8>) {
    (start.as_bytes().to_vec(), end.as_bytes().to_vec())
}

/// A RangeCreated by Bootstrap.
pub(crate) fn created(
    node: Option<u32>,
    range: u64,
    floor: u64,
    generation: u64,
    s: (&str, &str),
) -> Record {
    Record {
        kind: 1,
        node,
        sub: 1,
        numbers: [range, floor, 0, generation, 0],
        spans: vec![span(s.0, s.1)],
        ..Record::default()
    }
}

/// A RangeDescriptor; without a node it is a put at its index.
pub(crate) fn descriptor(
    node: Option<u32>,
    range: u64,
    index: u64,
    applied: u64,
    generation: u64,
) -> Record {
    Record {
        kind: 2,
        node,
        sub: 1,
        numbers: [range, index, applied, generation, 0],
        spans: vec![span("b", "f")],
        ..Record::default()
    }
}

pub(crate) fn write(range: u64, index: u64, key: &str) -> Record {
    Record {
        kind: 3,
        node: Some(1),
        sub: 1,
        numbers: [range, index, 0, 0, 0],
        spans: vec![span(key, "")],
        ..Record::default()
    }
}

pub(crate) fn bare(kind: u8, node: u32) -> Record {
    Record { kind, node: Some(node), ..Record::default() }
}

pub(crate) fn meta(range: u64, index: u64, generation: u64, won: (&str, &str)) -> Record {
    Record {
        kind: 12,
        numbers: [range, index, 0, generation, 0],
        spans: vec![span("b", "f"), span(won.0, won.1)],
        ..Record::default()
    }
}

fn ids_examples() -> Vec<Example> {
    let twice = || vec![grant(5, 1, 10, 19), grant(6, 2, 19, 30)];
    vec![
        example("E1 no records", vec![], vec![]),
        example("E2 two grants share an id", twice(), vec![(6, 3, 2, vec![6, 10])]),
        example("E3 one grant repeated", vec![grant(5, 1, 10, 19); 2], vec![]),
        example("E4 7 to 7", vec![grant(5, 1, 7, 7)], vec![]),
        example("E4 8 to 7", vec![grant(5, 1, 8, 7)], vec![(6, 2, 1, vec![5])]),
    ]
}

fn owners_examples() -> Vec<Example> {
    let (one, two) = (Some(1), 2);
    let first = || created(one, 1, 1, 1, ("b", "f"));
    let inner = vec![first(), created(one, two, 1, 1, ("c", "c"))];
    let outer = vec![first(), created(one, two, 1, 1, ("b", "b"))];
    vec![
        example("E5 [c, c) inside", inner, vec![(1, 1, 2, vec![1, 2, 1])]),
        example("E5 [b, b) at the start", outer, vec![]),
        example("E9 a crash between", vec![first(), bare(6, 1), first()], vec![]),
        example("E9 no crash", vec![first(), first()], vec![(3, 1, 2, vec![1, 1, 1])]),
    ]
}

/// The applied index 5 makes the second descriptor a statement at 5.
fn agreement_examples() -> Vec<Example> {
    let recovered = Record { numbers: [2, 5, 1, 0, 0], ..bare(4, 1) };
    let begin = |index: u64| {
        vec![
            descriptor(None, 2, 3, 3, 1),
            recovered.clone(),
            descriptor(Some(1), 2, 9, 5, 2),
            descriptor(None, 2, index, index, 2),
        ]
    };
    vec![
        example("E6 equal put at 9", begin(9), vec![(0, 2, 4, vec![2, 5, 9])]),
        example("E6 put at 4", begin(4), vec![]),
    ]
}

fn generations_examples() -> Vec<Example> {
    let value = |range: u64| descriptor(None, range, 3, 3, 1);
    let siblings = vec![value(1), value(2), write(1, 4, "c"), write(2, 4, "c")];
    vec![
        example("E7 write at 3", vec![value(1), write(1, 3, "c")], vec![(5, 1, 2, vec![1, 3])]),
        example("E7 write at 4", vec![value(1), write(1, 4, "c")], vec![]),
        example("E8 one key, two ranges", siblings, vec![(5, 2, 4, vec![2, 4, 1, 1, 1])]),
    ]
}

fn meta_examples() -> Vec<Example> {
    let told = |second: u64| {
        vec![
            descriptor(None, 1, 3, 3, 2),
            descriptor(None, 2, 3, 3, 1),
            meta(1, 10, 2, ("b", "f")),
            meta(2, second, 1, ("c", "g")),
        ]
    };
    vec![
        example("E10 at 11", told(11), vec![(7, 3, 4, vec![11, 2, 1, 2])]),
        example("E10 at 10", told(10), vec![]),
    ]
}

/// A judge that replaced a meta name at an equal index would pass the first; one
/// that ceased to put after a fault would say meta kind 1 in the second; one that
/// dropped debts at a crash would pass the third.
fn wrong_judges() -> Vec<Example> {
    let mut named = meta_examples().remove(1).trace.records;
    named.push(meta(2, 11, 1, ("c", "d")));
    let mut after = vec![descriptor(None, 1, 3, 3, 1), descriptor(None, 1, 3, 3, 2)];
    after.extend([descriptor(None, 1, 4, 4, 2), meta(1, 5, 2, ("b", "f"))]);
    let split = Record { numbers: [1, 3, 2, 0, 0], ..bare(7, 1) };
    let mut left = descriptor(Some(1), 1, 3, 3, 2);
    left.voters = vec![1];
    let debts = vec![split, left, bare(6, 1), bare(5, 1)];
    vec![
        example("wrong: replacing at an equal index", named, vec![(7, 3, 5, vec![11, 2, 1, 2])]),
        example("wrong: ceasing to put", after, vec![(0, 1, 2, vec![1, 3])]),
        example("wrong: dropping debts", debts, vec![(4, 2, 4, vec![1, 1, 3, 2])]),
    ]
}

/// A later name in the middle leaves both sides of the earlier one standing.
fn pieces() -> Vec<Example> {
    let told = |won: (&str, &str)| {
        vec![
            descriptor(None, 1, 3, 3, 2),
            descriptor(None, 2, 3, 3, 1),
            meta(1, 10, 2, ("b", "f")),
            meta(1, 11, 2, ("c", "d")),
            meta(2, 12, 1, won),
        ]
    };
    let fault = || vec![(7, 3, 5, vec![12, 2, 1, 2])];
    vec![
        example("wrong: losing the left piece", told(("b", "c")), fault()),
        example("wrong: losing the right piece", told(("e", "f")), fault()),
    ]
}

/// What the random traces seldom show: a start alone that meta names wrongly, and
/// a server that a RaftRefused does not forget.
fn rare() -> Vec<Example> {
    let mut named = meta(1, 5, 1, ("b", "f"));
    named.spans[0].0 = b"c".to_vec();
    let start = vec![descriptor(None, 1, 3, 3, 1), named];
    let mut left = descriptor(Some(1), 1, 3, 3, 2);
    left.voters = vec![2];
    let server = vec![
        Record { numbers: [9, 0, 2, 0, 0], ..bare(4, 1) },
        bare(10, 1),
        Record { numbers: [1, 3, 2, 0, 0], ..bare(7, 1) },
        left,
        bare(5, 1),
    ];
    vec![
        example("wrong: comparing no start", start, vec![(7, 2, 2, vec![1, 1, 5])]),
        example("wrong: forgetting the server", server, vec![(4, 2, 5, vec![1, 1, 3, 2])]),
    ]
}

/// All examples.
pub fn examples() -> Vec<Example> {
    let groups = [
        ids_examples(),
        owners_examples(),
        agreement_examples(),
        generations_examples(),
        meta_examples(),
        wrong_judges(),
        pieces(),
        rare(),
        event_examples(),
    ];
    groups.into_iter().flatten().collect()
}
