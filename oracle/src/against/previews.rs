//! What the console previews and does not take: in the ordinary comparison a record or two of the
//! trace, sound or damaged; in `against previews` several in a row, of this trace and of another,
//! each with the reports of a fresh run of the Rust.

use std::mem;

use oracle::compare::{Asking, Comparer, numbered, taken};
use oracle::counts::{Counts, header};
use oracle::damage;
use oracle::decode::Marks;
use oracle::driver::Oracle;
use oracle::generate::{Trace, names};
use oracle::preview::words;
use oracle::random::Random;
use oracle::report::Reports;
use oracle::wire::Record;

use crate::console::{Console, Drew, Other, Others};
use crate::{capacity, disagree};

/// Draws for a point of a trace: the same again where it is shrunk.
pub fn draws(number: u64, count: usize) -> Random {
    Random::new(number.wrapping_mul(0x9e37_79b9).wrapping_add(count as u64))
}

/// A record's bytes, or in some of a hundred cases what damage leaves of them.
fn bytes_of(random: &mut Random, record: &Record, damaged: u64) -> Vec<u8> {
    let bytes = record.encode();
    if random.percent(damaged) { damage::several(random, &[bytes]).bytes } else { bytes.to_vec() }
}

/// One record of the trace or two, taken already or not yet; a third of them damaged.
pub struct Neighbours<'a> {
    pub records: &'a [Record],
    pub number: u64,
}

impl Others for Neighbours<'_> {
    fn at(&mut self, count: usize) -> Vec<Other> {
        if self.records.is_empty() {
            return Vec::new();
        }
        let mut random = draws(self.number, count);
        let many = random.from_to(1, 2);
        let mut draw = || {
            let record = random.pick(self.records);
            Other { bytes: bytes_of(&mut random, record, 33), reports: None }
        };
        (0..many).map(|_| draw()).collect()
    }
}

/// Up to four records, of the trace and of another of its profile; a fifth of them damaged.
struct Drawn<'a> {
    tenant: u64,
    records: &'a [Record],
    taken: Vec<Record>,
    elsewhere: &'a [Record],
    number: u64,
    marks: &'a mut Marks,
}

impl Drawn<'_> {
    /// The words of the Rust's reports after so many records taken of the trace, and then this one;
    /// none where it would be refused.
    fn fresh(&mut self, count: usize, record: &Record) -> Option<Vec<u64>> {
        let mut oracle = Oracle::with_marks(self.tenant, mem::take(self.marks));
        for record in &self.taken[..count] {
            oracle.push(record);
        }
        let refusal = oracle.push(record);
        let reports = words(oracle.reports());
        *self.marks = oracle.into_marks();
        (refusal == 0).then_some(reports)
    }
}

impl Others for Drawn<'_> {
    fn at(&mut self, count: usize) -> Vec<Other> {
        let mut random = draws(self.number, count);
        let many = random.from_to(1, 4);
        let pool: Vec<&Record> = self.records.iter().chain(self.elsewhere).collect();
        let mut draw = || {
            let record = *random.pick(&pool);
            let bytes = bytes_of(&mut random, record, 20);
            let reports = Record::decode(&bytes).ok().and_then(|record| self.fresh(count, &record));
            Other { bytes, reports }
        };
        (0..many).map(|_| draw()).collect()
    }
}

/// What the mode keeps from one trace to the next.
#[derive(Default)]
struct Kept {
    comparer: Comparer,
    marks: Marks,
    previews: Drew,
}

/// One trace with previews of records that are not taken at every point of it.
fn run(
    kept: &mut Kept,
    trace: &Trace,
    records: &[Record],
    number: u64,
    elsewhere: &[Record],
) -> Result<Reports, String> {
    let (tenant, marks) = (trace.tenant, &mut kept.marks);
    let drawn = Drawn { tenant, records, taken: taken(records), elsewhere, number, marks };
    let mut console = Console::open(tenant, capacity(records.len(), number), number / 3, drawn);
    let asking = if number % 4 == 0 { Asking::EachRecord } else { Asking::AtTheEnd };
    let reports = kept.comparer.against(&mut console, tenant, records, asking)?;
    let (_, previews) = console.finish()?;
    add(&mut kept.previews, previews);
    Ok(reports)
}

/// Counts, such as those of previews by refusal, added up.
pub fn add<const N: usize>(all: &mut [u64; N], more: [u64; N]) {
    all.iter_mut().zip(more).for_each(|(all, more)| *all += more);
}

/// `against previews`: numbered traces of every profile.
pub fn compare(each: u64, seed: u64) {
    let mut kept = Kept::default();
    let mut all = Counts::default();
    println!("{}", header());
    for profile in names() {
        let mut row = Counts::default();
        for number in 0..each {
            let trace = numbered(profile, seed, number);
            let elsewhere = numbered(profile, seed, each + number).records;
            let mut both = |records: &[Record]| run(&mut kept, &trace, records, number, &elsewhere);
            match both(&trace.records) {
                Ok(reports) => row.add(&trace, &reports),
                Err(words) => disagree(&trace, number, &words, &mut both),
            }
        }
        println!("{}", row.row(profile));
        all.join(&row);
    }
    println!("{}", all.row("all"));
    println!("\n{}", kept.comparer.counted());
    println!("previews, refusals 0 to 11: {:?}; seed {seed}", kept.previews);
}
