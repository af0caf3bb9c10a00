//! What the programs `driver` and `model` share: a trace from standard input, the
//! sheet that document 01 prints, reports after each record and look-ups.

use std::io::Read;

use crate::judging::Judging;
use crate::lookups::{Question, questions};
use crate::report::sheet;
use crate::text::answer_line;
use crate::wire::{RECORD, Record};

/// What the command line asks for.
pub struct Wishes {
    pub tenant: u64,
    pub capacity: u64,
    pub each: bool,
    pub all: bool,
    pub asked: Vec<Question>,
}

const USAGE: &str = "options: --tenant T, --capacity C, --each, --ask-all, and any of \
    --before R I, --at R I, --first-at-generation R G, --holders-of ID, \
    --statements, --is-empty, --blocks; the trace is read from standard input";

/// The command line's wishes; a word that is none of them ends the program.
pub fn wishes() -> Wishes {
    let mut words = std::env::args().skip(1);
    let mut out = Wishes { tenant: 0, capacity: 96, each: false, all: false, asked: Vec::new() };
    while let Some(word) = words.next() {
        let mut number = || {
            let word = words.next().and_then(|word| word.parse().ok());
            word.unwrap_or_else(|| panic!("{USAGE}"))
        };
        match &word[..] {
            "--tenant" => out.tenant = number(),
            "--capacity" => out.capacity = number(),
            "--each" => out.each = true,
            "--ask-all" => out.all = true,
            "--before" => out.asked.push(Question::Before(number(), number())),
            "--at" => out.asked.push(Question::At(number(), number())),
            "--first-at-generation" => {
                out.asked.push(Question::FirstAtGeneration(number(), number()));
            }
            "--holders-of" => out.asked.push(Question::HoldersOf(number())),
            "--statements" => out.asked.push(Question::Statements),
            "--is-empty" => out.asked.push(Question::IsEmpty),
            "--blocks" => out.asked.push(Question::Blocks),
            _ => panic!("{USAGE}"),
        }
    }
    out
}

/// Judges standard input record by record and prints what was wished. The judge
/// has the room that was wished.
pub fn run(judge: &mut impl Judging, wishes: &Wishes) {
    let mut bytes = Vec::new();
    std::io::stdin().read_to_end(&mut bytes).expect("standard input");
    let mut taken: Vec<Record> = Vec::new();
    let mut refused = None;
    for stretch in bytes.chunks(RECORD) {
        let refusal = judge.take(stretch);
        if refusal != 0 {
            refused = Some(refusal);
            break;
        }
        taken.push(Record::decode(stretch).expect("a record just taken"));
        if wishes.each {
            print!("after record {}\n{}", taken.len(), sheet(judge.eight()));
        }
    }
    if !wishes.each || taken.is_empty() {
        print!("{}", sheet(judge.eight()));
    }
    print!("records {}", taken.len());
    match refused {
        Some(number) => println!(" refused {number} at {}", taken.len() + 1),
        None => println!(),
    }
    let all = if wishes.all { questions(&taken) } else { Vec::new() };
    for question in wishes.asked.iter().chain(&all) {
        println!("{}", answer_line(*question, &question.ask(judge)));
    }
}
