//! generate: one seeded trace in the record form, to standard output; its tenant
//! goes to standard error. Without arguments it names the profiles.
//!
//!   generate PROFILE SEED [LEAST MOST]
//!   generate damaged SEED   cases for the form check, as in vectors/FORMAT.md

use std::io::Write;

use oracle::damage::{every_case, form_file};
use oracle::generate::{names, trace};

fn main() {
    let words: Vec<String> = std::env::args().skip(1).collect();
    let number =
        |at: usize, other: u64| words.get(at).map_or(other, |word| word.parse().expect("a number"));
    let Some(profile) = words.first() else {
        println!("{} damaged", names().join(" "));
        return;
    };
    let bytes = if profile == "damaged" {
        form_file(&every_case(number(1, 1)))
    } else {
        let trace = trace(profile, number(1, 1), number(2, 5), number(3, 14));
        eprintln!("tenant {}", trace.tenant);
        trace.records.iter().flat_map(|record| record.encode()).collect()
    };
    std::io::stdout().write_all(&bytes).expect("standard output");
}
