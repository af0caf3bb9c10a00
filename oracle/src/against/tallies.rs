//! The library's tally: entered with judged traces beside counts of the Rust's own reports, and
//! with entries of every sort beside the model of document 02.

use std::process::exit;

use oracle::compare::{numbered, taken};
use oracle::driver::Oracle;
use oracle::entries::{Entry, several, single};
use oracle::generate::names;
use oracle::judging::Judging;
use oracle::random::Random;
use oracle::report::{CHECKS, Reports};
use oracle::tally::{PLACES, SIZE, Tally, adds_up, enter as model, kind_word};

use crate::host::{Host, enter};

/// A tally of the library, and what was counted of the Rust's reports.
pub struct Campaign {
    bytes: [u8; SIZE],
    counted: Tally,
    entries: u64,
    refused: u64,
}

/// "A tally of zeros".
impl Default for Campaign {
    fn default() -> Campaign {
        Campaign { bytes: [0; SIZE], counted: Tally::default(), entries: 0, refused: 0 }
    }
}

impl Campaign {
    /// A judge with the reports that the Rust gives for its records: all bytes as counted.
    pub fn enter(&mut self, judge: &Host, reports: &Reports, records: u64) -> Result<(), String> {
        self.counted.add(reports, records);
        self.entries += 1;
        self.come_to(&judge.buffers.state, SIZE, 0)
    }

    /// An entry that has to be refused by 5, and leaves everything.
    fn refuse(&mut self, state: &[u64], length: usize) -> Result<(), String> {
        self.refused += 1;
        self.come_to(state, length, 5)
    }

    /// The library's entry has that refusal, and then all is as counted.
    fn come_to(&mut self, state: &[u64], length: usize, refusal: u64) -> Result<(), String> {
        let mut lent = state.to_vec();
        let ours = enter(&mut lent, &mut self.bytes[..length]);
        if ours != refusal {
            return Err(format!("{ours} where {refusal} was to come: {length} bytes, {state:?}"));
        }
        if lent != state {
            return Err(format!("after {} entries the judge moved", self.entries));
        }
        if let Some(at) = differs(&self.bytes, &self.counted.bytes()) {
            return Err(format!("after {} entries: {at}", self.entries));
        }
        if !adds_up(&self.bytes) {
            return Err(format!("after {} entries a check does not add up", self.entries));
        }
        Ok(())
    }
}

/// Where two tallies differ first, in words.
fn differs(ours: &[u8], counted: &[u8]) -> Option<String> {
    let at = (0..counted.len()).find(|at| ours[*at] != counted[*at])?;
    let (record, place, byte) = (at / 4 / PLACES, at / 4 % PLACES, at % 4);
    let name = CHECKS.get(record).copied().unwrap_or("totals");
    let (ours, counted) = (ours[at], counted[at]);
    Some(format!("{name}, place {place}, byte {byte}: {ours}, counted {counted}"))
}

/// One campaign over traces of every profile, with judges entered before their first record,
/// half-way, at the end and some twice, and refused entries between.
fn campaign(each: u64, seed: u64) -> Result<Campaign, String> {
    let mut campaign = Campaign::default();
    for profile in names() {
        for number in 0..each {
            let trace = numbered(profile, seed, number);
            let records = taken(&trace.records);
            let mut judge = Host::open(trace.tenant, records.len());
            let mut oracle = Oracle::open(trace.tenant);
            campaign.enter(&judge, oracle.eight(), 0)?;
            for (place, record) in records.iter().enumerate() {
                let bytes = record.encode();
                assert_eq!((oracle.take(&bytes), judge.take(&bytes)), (0, 0), "a sound record");
                if place == records.len() / 2 {
                    campaign.enter(&judge, oracle.eight(), place as u64 + 1)?;
                }
            }
            for _ in 0..=number % 2 {
                campaign.enter(&judge, oracle.eight(), records.len() as u64)?;
            }
            refused(&mut campaign, &judge, number)?;
        }
        unopened(&mut campaign)?;
    }
    Ok(campaign)
}

/// Entries that are refused: a kind that a check lacks, numbers of no judge, other lengths.
fn refused(campaign: &mut Campaign, judge: &Host, number: u64) -> Result<(), String> {
    let (check, stood) = (number as usize % CHECKS.len(), &judge.buffers.state);
    for (word, value) in [(kind_word(check), 10), (kind_word(check), 256), (0, 4097), (1, 4097)] {
        let mut state = stood.clone();
        state[word] = value;
        campaign.refuse(&state, SIZE)?;
    }
    campaign.refuse(&stood[1..], SIZE)?;
    campaign.refuse(stood, SIZE - 1)
}

/// What a refused opening gives is entered: eight passes, and no records.
fn unopened(campaign: &mut Campaign) -> Result<(), String> {
    let (refusal, judge) = Host::lent(7, 1, 1);
    assert_eq!(refusal, 7, "an opening over one byte");
    campaign.enter(&judge, &Reports::default(), 0)
}

/// What stands before and after the tally: no entry may write there.
const AROUND: [u8; 64] = [0x5a; 64];

/// The library's entry beside the model's: the number, every byte of the tally and around it, and
/// every word of the state.
fn same_entry(entry: &Entry) -> Result<u64, String> {
    let (refusal, bytes) = model(&entry.state, &entry.bytes);
    let mut state = entry.state.clone();
    let mut lent = [&AROUND, &entry.bytes[..], &AROUND].concat();
    let ours = enter(&mut state, &mut lent[AROUND.len()..AROUND.len() + bytes.len()]);
    if ours != refusal {
        return Err(format!("refused {ours}, by the model {refusal}"));
    }
    if lent != [&AROUND, &bytes[..], &AROUND].concat() {
        let at = differs(&lent[AROUND.len()..], &bytes);
        return Err(format!("refused {ours}: {}", at.unwrap_or("bytes around the tally".into())));
    }
    if state != entry.state {
        return Err(format!("refused {ours}: the judge moved"));
    }
    Ok(refusal)
}

/// Entries through both, counted by refusal; the first that differs ends the run.
fn entries(name: &str, all: impl Iterator<Item = Entry>) {
    let mut by_refusal = [0u64; 10];
    for entry in all {
        match same_entry(&entry) {
            Ok(refusal) => by_refusal[refusal as usize] += 1,
            Err(words) => {
                println!("{name}: {words}\n{entry:?}");
                exit(1)
            }
        }
    }
    println!("{name}, refusals 0 to 9: {by_refusal:?}");
}

/// A campaign with refused entries between, then entries with one thing wrong and `many` drawn
/// ones, each beside the model.
pub fn compare(many: u64, seed: u64) {
    match campaign(400, seed) {
        Ok(campaign) => println!(
            "one campaign: {} entries, and {} refused between them: all bytes as counted",
            campaign.entries, campaign.refused
        ),
        Err(words) => {
            println!("one campaign: {words}");
            exit(1)
        }
    }
    let mut random = Random::new(seed);
    entries("one thing wrong", single(&mut random).into_iter());
    entries("several", (0..many).map(|_| several(&mut random)));
    println!("seed {seed}");
}
