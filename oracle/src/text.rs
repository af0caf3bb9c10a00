//! Records, reports and look-ups as plain lines of text.

use crate::lookups::Question;
use crate::report::{Report, Reports};
use crate::wire::Record;

fn list<T: ToString>(items: &[T]) -> String {
    let items: Vec<String> = items.iter().map(T::to_string).collect();
    format!("[{}]", items.join(","))
}

/// `kind node|- sub flag A B C D E voters=[..] spans=[start:end,...]`, keys as
/// lists of decimal bytes.
pub fn record_line(r: &Record) -> String {
    let node = r.node.map_or("-".to_owned(), |node| node.to_string());
    let [a, b, c, d, e] = r.numbers;
    let spans = r.spans.iter().map(|(start, end)| format!("{}:{}", list(start), list(end)));
    format!(
        "{} {node} {} {} {a} {b} {c} {d} {e} voters={} spans={}",
        r.kind,
        r.sub,
        r.flag,
        list(&r.voters),
        list(&spans.collect::<Vec<_>>())
    )
}

fn report_numbers(report: &Report) -> String {
    let numbers: Vec<String> = report.evidence.iter().map(u64::to_string).collect();
    format!("{} {} {}", report.kind, report.position, numbers.join(" "))
}

/// Eight groups of seven numbers: kind, position, five evidence numbers.
pub fn reports_line(reports: &Reports) -> String {
    let groups: Vec<String> = reports.iter().map(report_numbers).collect();
    groups.join(" ; ")
}

/// A question and its answer.
pub fn answer_line(question: Question, answer: &[u64]) -> String {
    let words = match question {
        Question::Before(range, index) => format!("before {range} {index}"),
        Question::At(range, index) => format!("at {range} {index}"),
        Question::FirstAtGeneration(range, generation) => {
            format!("first_at_generation {range} {generation}")
        }
        Question::Statements => "statements".to_owned(),
        Question::IsEmpty => "is_empty".to_owned(),
        Question::HoldersOf(id) => format!("holders_of {id}"),
        Question::Blocks => "blocks".to_owned(),
    };
    format!("{words} = {}", list(answer))
}

/// The names of kinds 1 to 12.
const KINDS: [&str; 12] = [
    "RangeCreated",
    "RangeDescriptor",
    "RaftApply",
    "RaftRecovered",
    "RangesRestated",
    "NodeCrashed",
    "RangeSplit",
    "SpanInstalled",
    "RangeRemoved",
    "RaftRefused",
    "RangeIdsLeased",
    "MetaApplied",
];

/// The words for the sub-codes of kinds 1 to 3.
fn sub_word(r: &Record) -> &'static str {
    let words: &[&str] = match r.kind {
        1 => &["Bootstrap", "Split", "Snapshot"],
        2 => &["Live", "Merging", "Subsumed"],
        3 => &["Applied", "OutOfSpan", "Frozen", "Took", "Aborted", "Refused", "None"],
        _ => return "",
    };
    words[usize::from(r.sub) - 1]
}

/// The names of the numbers that a kind uses, in the order A to E.
fn number_names(kind: u8) -> [&'static str; 5] {
    match kind {
        1 => ["range", "floor", "parent", "generation", ""],
        2 => ["range", "index", "applied", "generation", ""],
        3 => ["range", "index", "", "", ""],
        4 => ["range", "applied", "server", "", ""],
        7 => ["range", "index", "right", "", ""],
        9 => ["range", "", "", "", ""],
        11 => ["node", "index", "run", "first", "last"],
        12 => ["range", "index", "", "generation", ""],
        _ => [""; 5],
    }
}

fn key_words(key: &[u8]) -> String {
    format!("\"{}\"", key.escape_ascii())
}

/// A record for a reader: names in place of numbers.
pub fn readable(r: &Record) -> String {
    let mut words = vec![match r.node {
        Some(node) => format!("node {node}:"),
        None => "no node:".to_owned(),
    }];
    words.push(KINDS[usize::from(r.kind) - 1].to_owned());
    words.push(sub_word(r).to_owned());
    if r.continues() {
        words.push("continues:".to_owned());
    }
    for (name, number) in number_names(r.kind).iter().zip(r.numbers) {
        if !name.is_empty() && (*name != "parent" || r.flag == 1) {
            words.push(format!("{name} {number}"));
        }
    }
    if matches!(r.kind, 1 | 2 | 12) {
        words.push(format!("voters {}", list(&r.voters)));
    }
    for (start, end) in &r.spans {
        let key = key_words(start);
        words.push(if r.kind == 3 { key } else { format!("[{key}, {})", key_words(end)) });
    }
    words.retain(|word| !word.is_empty());
    words.join(" ")
}
