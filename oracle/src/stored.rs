//! The reader of the stored vectors: the format of vectors/FORMAT.md read back,
//! and any judge held against it. `replay` does the same without Rust.

use crate::judging::Judging;
use crate::lookups::Question;
use crate::report::{CHECKS, Report, Reports};
use crate::wire::RECORD;

/// What is left of a file.
struct Bytes<'a>(&'a [u8]);

impl<'a> Bytes<'a> {
    fn take(&mut self, count: usize) -> &'a [u8] {
        let (taken, rest) = self.0.split_at(count);
        self.0 = rest;
        taken
    }

    fn one(&mut self) -> u8 {
        self.take(1)[0]
    }

    fn two(&mut self) -> usize {
        usize::from(u16::from_le_bytes(self.take(2).try_into().expect("two bytes")))
    }

    fn eight(&mut self) -> u64 {
        u64::from_le_bytes(self.take(8).try_into().expect("eight bytes"))
    }

    fn report(&mut self) -> Report {
        let (kind, position) = (self.one(), self.two() as u64);
        Report { kind, position, evidence: std::array::from_fn(|_| self.eight()) }
    }

    fn question(&mut self) -> (Question, Vec<u64>) {
        let (what, first, second) = (self.one(), self.eight(), self.eight());
        let question = match what {
            1 => Question::Before(first, second),
            2 => Question::At(first, second),
            3 => Question::FirstAtGeneration(first, second),
            4 => Question::Statements,
            5 => Question::IsEmpty,
            6 => Question::HoldersOf(first),
            7 => Question::Blocks,
            _ => panic!("question {what}"),
        };
        let count = self.two();
        (question, (0..count).map(|_| self.eight()).collect())
    }
}

/// The number of cases of form.bin, or the first that `refusal` gets wrong.
pub fn check_form(file: &[u8], refusal: impl Fn(&[u8]) -> u8) -> Result<usize, String> {
    let (mut bytes, mut number) = (Bytes(file), 0);
    while !bytes.0.is_empty() {
        number += 1;
        let length = bytes.two();
        let expected = bytes.one();
        let found = refusal(bytes.take(length));
        if found != expected {
            return Err(format!("form case {number}: {found}, stored {expected}"));
        }
    }
    Ok(number)
}

/// The number of traces of traces.bin, or the first answer that differs from
/// those of the judge that `open` gives for a tenant.
pub fn check_traces<J: Judging>(file: &[u8], open: impl Fn(u64) -> J) -> Result<usize, String> {
    let (mut bytes, mut number) = (Bytes(file), 0);
    while !bytes.0.is_empty() {
        number += 1;
        let mut judge = open(bytes.eight());
        let count = bytes.two();
        let records = bytes.take(RECORD * count);
        let name = format!("trace {number}");
        check_reports(&mut bytes, &mut judge, records).map_err(|w| format!("{name}: {w}"))?;
        for _ in 0..bytes.two() {
            let (question, expected) = bytes.question();
            let found = question.ask(&judge);
            if found != expected {
                return Err(format!("{name}: {question:?}: {found:?}, stored {expected:?}"));
            }
        }
    }
    Ok(number)
}

fn check_reports(
    bytes: &mut Bytes,
    judge: &mut impl Judging,
    records: &[u8],
) -> Result<(), String> {
    let mut expected = Reports::default();
    for (place, record) in records.chunks(RECORD).enumerate() {
        let refusal = judge.take(record);
        let changed = bytes.two();
        for (check, report) in expected.iter_mut().enumerate() {
            if changed & (1 << check) != 0 {
                *report = bytes.report();
            }
        }
        if refusal != 0 {
            return Err(format!("record {}: refused {refusal}", place + 1));
        }
        for (name, (found, stored)) in CHECKS.iter().zip(judge.eight().iter().zip(&expected)) {
            if found != stored {
                return Err(format!("record {}: {name} {found}, stored {stored}", place + 1));
            }
        }
    }
    Ok(())
}
