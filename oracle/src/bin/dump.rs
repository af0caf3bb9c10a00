//! dump: a trace from standard input as readable lines, one a record.
//!
//!   dump          names and values
//!   dump --antt   the bare fields of each record, as in export-small's lines,
//!                 and nothing more

use std::io::Read;

use oracle::text::{readable, record_line};
use oracle::wire::{RECORD, Record};

fn main() {
    let bare = std::env::args().nth(1).is_some_and(|word| word == "--antt");
    let mut bytes = Vec::new();
    std::io::stdin().read_to_end(&mut bytes).expect("standard input");
    for (place, stretch) in bytes.chunks(RECORD).enumerate() {
        match Record::decode(stretch) {
            Ok(record) if bare => println!("{}", record_line(&record)),
            Ok(record) => println!("{}: {}", place + 1, readable(&record)),
            Err(refusal) => println!("{}: refused {refusal}", place + 1),
        }
    }
}
