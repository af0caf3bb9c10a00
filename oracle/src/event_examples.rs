//! Examples of document 02's change 5, with the reports that its words give: faults
//! inside events and after them, in every check, told by the numbers of events.

use crate::examples::{
    Example, Faults, bare, created, descriptor, example, grant, meta, span, write,
};
use crate::wire::Record;

/// The record as one that continues the event before it.
fn then(record: Record) -> Record {
    Record { flag: 1, ..record }
}

fn by(node: u32, record: Record) -> Record {
    Record { node: Some(node), ..record }
}

/// A MetaApplied whose descriptor has no won span.
fn without_won(mut record: Record) -> Record {
    record.spans.truncate(1);
    record
}

/// Range 1 at generation 2, range 2 at generation 1, both put at 3.
fn values() -> Vec<Record> {
    vec![descriptor(None, 1, 3, 3, 2), descriptor(None, 2, 3, 3, 1)]
}

/// Four records of one apply at index 10, whose faults are none: two won spans of
/// range 1, range 2 inside them at the same index, and range 2 without one.
fn event() -> Vec<Record> {
    vec![
        meta(1, 10, 2, ("b", "d")),
        then(meta(1, 10, 2, ("d", "f"))),
        then(meta(2, 10, 1, ("c", "e"))),
        then(without_won(meta(2, 10, 1, ("", "")))),
    ]
}

/// The values, the event, and then these records.
fn after_event(more: Vec<Record>) -> Vec<Record> {
    [values(), event(), more].concat()
}

fn told(name: &'static str, more: Vec<Record>, faults: Faults) -> Example {
    example(name, after_event(more), faults)
}

/// The names of the examples with a fault of each kind of meta in an event's second
/// record, and in its third.
const PLACES: [[&str; 4]; 2] = [
    [
        "event, meta 1 in its second record",
        "event, meta 2 in its second record",
        "event, meta 3 in its second record",
        "event, meta 4 in its second record",
    ],
    [
        "event, meta 1 in its third record",
        "event, meta 2 in its third record",
        "event, meta 3 in its third record",
        "event, meta 4 in its third record",
    ],
];

/// A record that has meta's fault of a kind after the one before it, that one, and
/// the fault's evidence.
fn faulty(kind: u8) -> (Record, Record, Vec<u64>) {
    let high = meta(1, 10, 2, ("b", "f"));
    match kind {
        1 => (high, meta(1, 11, 7, ("b", "c")), vec![1, 7, 11]),
        2 => {
            let voters = vec![1];
            (high, Record { voters, ..meta(1, 11, 2, ("b", "c")) }, vec![1, 2, 11])
        }
        3 => (high, meta(2, 11, 1, ("c", "d")), vec![11, 2, 1, 2]),
        _ => {
            let low = meta(2, 10, 1, ("b", "f"));
            (low, meta(1, 9, 2, ("c", "d")), vec![9, 1, 2, 1, 10])
        }
    }
}

/// Each kind of meta in a later record of the fourth event: the event's number, and
/// the record's evidence.
fn later() -> Vec<Example> {
    let mut out = Vec::new();
    for (more, names) in PLACES.iter().enumerate() {
        for (name, kind) in names.iter().zip(1..) {
            let (before, fault, evidence) = faulty(kind);
            let begins = without_won(meta(1, fault.numbers[1], 2, ("", "")));
            let mut records = [values(), vec![before, begins.clone()]].concat();
            records.extend(vec![then(begins); more]);
            records.push(then(fault));
            out.push(example(name, records, vec![(7, kind, 4, evidence)]));
        }
    }
    out
}

/// A fault in an event's fifth record, and in its first.
fn first_and_last() -> Vec<Example> {
    let mut other = then(meta(1, 10, 2, ("b", "c")));
    other.voters = vec![1];
    let unknown = vec![then(meta(1, 10, 7, ("b", "c")))];
    let first = vec![meta(2, 11, 1, ("b", "c")), then(meta(1, 11, 2, ("c", "d")))];
    vec![
        told("event, meta 1 in its fifth record", unknown, vec![(7, 1, 3, vec![1, 7, 10])]),
        told("event, meta 2 in its fifth record", vec![other], vec![(7, 2, 3, vec![1, 2, 10])]),
        told("event, meta 3 in its first record", first, vec![(7, 3, 4, vec![11, 2, 1, 2])]),
    ]
}

/// Several faulty records in one event: the first one's kind and evidence.
fn several() -> Vec<Example> {
    let first = || then(meta(1, 10, 7, ("b", "c")));
    let second = || then(meta(2, 10, 8, ("b", "c")));
    let fault = |range: u64, generation: u64| vec![(7, 1, 3, vec![range, generation, 10])];
    let names = vec![meta(1, 11, 2, ("b", "c")), then(meta(2, 11, 1, ("d", "f")))];
    vec![
        told("event, two of a kind", vec![first(), second()], fault(1, 7)),
        told("event, the other first", vec![second(), first()], fault(2, 8)),
        told(
            "event, kind 3 and then 1",
            [names, vec![then(meta(1, 11, 7, ("b", "c")))]].concat(),
            vec![(7, 3, 4, vec![11, 2, 1, 2])],
        ),
    ]
}

/// What an event's first record names counts for its second: at the same index a
/// higher generation is a fault, inside the event as after it.
fn named_within() -> Vec<Example> {
    let values = || vec![descriptor(None, 1, 3, 3, 2), descriptor(None, 2, 3, 3, 3)];
    let (low, high) = (meta(1, 10, 2, ("b", "d")), meta(2, 10, 3, ("c", "e")));
    let fault = |at: u64| vec![(7, 4, at, vec![10, 2, 3, 2, 10])];
    let apart = vec![low.clone(), high.clone()];
    vec![
        example("event, a name of its own", [values(), vec![low, then(high)]].concat(), fault(3)),
        example("the same in two events", [values(), apart].concat(), fault(4)),
    ]
}

/// Won spans of one descriptor, which the Rust has in one list: the first faulty one
/// is told, and an empty one does not end the list.
fn won_spans() -> Vec<Example> {
    let names = vec![meta(1, 10, 2, ("b", "c")), meta(1, 11, 3, ("d", "e"))];
    let both = vec![meta(2, 12, 1, ("b", "c")), then(meta(2, 12, 1, ("d", "e")))];
    let third = vec![descriptor(None, 1, 4, 4, 3)];
    let empty = vec![meta(2, 11, 1, ("d", "d")), then(meta(2, 11, 1, ("c", "d")))];
    vec![
        example(
            "event, two won spans, both faulty",
            [values(), third, names, both].concat(),
            vec![(7, 3, 6, vec![12, 2, 1, 2])],
        ),
        told("event, an empty won span first", empty, vec![(7, 3, 4, vec![11, 2, 1, 2])]),
    ]
}

/// Events beside each other: flag 0 begins another, whatever its numbers are.
fn beside() -> Vec<Example> {
    let unknown = || meta(1, 10, 7, ("b", "c"));
    let fault = |at: u64| vec![(7, 1, at, vec![1, 7, 10])];
    let of_one = by(1, meta(1, 10, 2, ("b", "c")));
    let two = vec![of_one.clone(), then(of_one.clone()), of_one.clone(), then(of_one)];
    vec![
        told("events of one node and index side by side", vec![unknown()], fault(4)),
        told(
            "the second of two, in its second record",
            vec![meta(1, 10, 2, ("b", "c")), then(unknown())],
            fault(4),
        ),
        told(
            "four records of a node, two events",
            [two, vec![grant(5, 1, 8, 7)]].concat(),
            vec![(6, 2, 6, vec![5])],
        ),
        told("a node of number 0 is not none", vec![by(0, unknown())], fault(4)),
    ]
}

/// A fault of every other check after an event of four records: records and events
/// are counted apart.
fn after() -> Vec<Example> {
    let (one, two) = (created(Some(1), 7, 1, 1, ("b", "f")), created(Some(1), 8, 1, 1, ("c", "g")));
    let install = Record { spans: vec![span("c", "d")], ..bare(8, 1) };
    let split = Record { numbers: [1, 9, 4, 0, 0], ..bare(7, 1) };
    let mut left = descriptor(Some(1), 1, 9, 9, 3);
    left.voters = vec![1];
    let took = Record { sub: 4, numbers: [1, 9, 0, 0, 0], ..bare(3, 1) };
    vec![
        told(
            "after an event, agreement",
            vec![descriptor(None, 1, 3, 3, 9)],
            vec![(0, 1, 4, vec![1, 3])],
        ),
        told("after an event, overlap", vec![one.clone(), two], vec![(1, 1, 5, vec![1, 8, 7])]),
        told("after an event, install", vec![one.clone(), install], vec![(2, 1, 5, vec![1, 7])]),
        told("after an event, twice", vec![one.clone(), one], vec![(3, 1, 5, vec![1, 7, 1])]),
        told(
            "after an event, half at a restatement",
            vec![split.clone(), left.clone(), bare(5, 1)],
            vec![(4, 2, 6, vec![1, 1, 9, 4])],
        ),
        told(
            "after an event, half at an apply",
            vec![split, left, took],
            vec![(4, 1, 6, vec![1, 1, 9, 4])],
        ),
        told("after an event, generations", vec![write(1, 3, "c")], vec![(5, 1, 4, vec![1, 3])]),
        told("after an event, ids", vec![grant(5, 1, 8, 7)], vec![(6, 2, 4, vec![5])]),
        told(
            "after an event, meta",
            vec![meta(1, 12, 7, ("b", "c"))],
            vec![(7, 1, 4, vec![1, 7, 12])],
        ),
    ]
}

/// A RangeCreated with a parent begins an event, before faults and inside what would
/// else be one.
fn parents() -> Vec<Example> {
    let mut made = created(Some(1), 7, 1, 1, ("b", "f"));
    (made.flag, made.numbers[2]) = (1, 1);
    let other = Record { node: Some(2), ..made.clone() };
    let two = vec![made.clone(), other, grant(5, 1, 8, 7)];
    vec![
        example("parents are no events that go on", two, vec![(6, 2, 3, vec![5])]),
        example(
            "a parent made twice",
            vec![made.clone(), made.clone()],
            vec![(3, 1, 2, vec![1, 7, 1])],
        ),
        told("a parent after an event", vec![made, grant(5, 1, 8, 7)], vec![(6, 2, 5, vec![5])]),
    ]
}

/// All of them.
pub fn event_examples() -> Vec<Example> {
    let inside = [later(), first_and_last(), several(), named_within(), won_spans()];
    let groups = inside.into_iter().chain([beside(), after(), parents()]);
    groups.flatten().collect()
}
