//! Seeded traces in the record form: the random profiles, drawn record by
//! record, and the ones that are built from a small cluster's story.

use crate::cluster;
use crate::keys::Keys;
use crate::profiles::{PROFILES, Profile};
use crate::random::Random;
use crate::wire::{Record, Span};

/// A trace with the tenant it is judged under.
#[derive(Clone, Debug)]
pub struct Trace {
    pub profile: &'static str,
    pub tenant: u64,
    pub records: Vec<Record>,
}

/// The tenants that traces are judged under.
pub const TENANTS: [u64; 5] = [0, 1, 7, u64::MAX, 0x6162_6364_6566_6768];

/// The profiles whose MetaApplied events have several records. The others have
/// none, and draw what they drew before there were any.
pub const WITH_EVENTS: [&str; 4] = ["events", "mixed-events", "cluster-events", "noisy-events"];

/// The other profiles' names, the built ones last.
pub fn without_events() -> Vec<&'static str> {
    let random = PROFILES.iter().filter(|profile| profile.events == 0);
    let random = random.map(|profile| profile.name);
    random.chain(["cluster", "noisy", "splits", "extremes"]).collect()
}

/// Every profile's name.
pub fn names() -> Vec<&'static str> {
    without_events().into_iter().chain(WITH_EVENTS).collect()
}

/// The trace of a profile and a seed, with `least` to `most` records.
pub fn trace(name: &str, seed: u64, least: u64, most: u64) -> Trace {
    let name = names().into_iter().find(|n| *n == name).expect("a profile");
    let mut random = Random::new(seed ^ hash(name));
    let tenant = if random.percent(40) { 0 } else { *random.pick(&TENANTS) };
    let length = random.from_to(least, most) as usize;
    let records = match name {
        "cluster" => cluster::story(&mut random, length, 0, 1),
        "cluster-events" => cluster::story(&mut random, length, 0, 8),
        "noisy" | "noisy-events" => {
            let noise = random.from_to(1, 6);
            cluster::story(&mut random, length, noise, if name == "noisy" { 1 } else { 8 })
        }
        "splits" => cluster::splits(&mut random, length),
        "extremes" => extremes(&mut random, tenant, length),
        _ => {
            let profile = PROFILES.iter().find(|p| p.name == name).expect("a profile");
            Draw::new(profile, tenant, random).records(length)
        }
    };
    Trace { profile: name, tenant, records }
}

fn hash(name: &str) -> u64 {
    name.bytes()
        .fold(0xcbf2_9ce4_8422_2325, |h, b| (h ^ u64::from(b)).wrapping_mul(0x100_0000_01b3))
}

/// Numbers and nodes at their limits, over the mixed profile.
fn extremes(random: &mut Random, tenant: u64, length: usize) -> Vec<Record> {
    let numbers = [0, 1, 2, u64::MAX - 1, u64::MAX];
    let mut records = Draw::new(&PROFILES[0], tenant, random.clone()).records(length);
    random.next();
    for record in &mut records {
        let used = crate::wire::form_of(record.kind).expect("a kind").numbers;
        for (number, used) in record.numbers.iter_mut().zip(used) {
            if used && random.percent(60) {
                *number = *random.pick(&numbers);
            }
        }
        if record.kind == 1 && record.flag == 0 {
            record.numbers[2] = 0;
        }
        if record.node.is_some() && random.percent(50) {
            record.node = Some(*random.pick(&[0, 1, u32::MAX]));
        }
    }
    records
}

/// The state of one random trace.
struct Draw<'a> {
    profile: &'a Profile,
    random: Random,
    keys: Keys,
    records: Vec<Record>,
}

impl<'a> Draw<'a> {
    fn new(profile: &'a Profile, tenant: u64, random: Random) -> Draw<'a> {
        Draw { profile, random, keys: Keys::new(tenant), records: Vec::new() }
    }

    fn records(mut self, length: usize) -> Vec<Record> {
        while self.records.len() < length {
            let told = self.records.len() as u64;
            let record = if told < self.profile.roots { self.root(told) } else { self.record() };
            let begins = record.kind == 12 && self.profile.events > 0;
            self.records.push(record);
            if begins && self.random.percent(self.profile.events) {
                self.go_on();
            }
        }
        self.records.truncate(length);
        self.records
    }

    /// One to seven more records of the last one's event.
    fn go_on(&mut self) {
        let mut last = self.records.last().expect("a record").clone();
        for _ in 0..self.random.weighted(&[0, 5, 4, 3, 2, 1, 1, 1]) {
            if self.random.percent(self.profile.torn) {
                self.tear(&last);
            }
            last = self.next_of(&last);
            self.records.push(last.clone());
        }
    }

    /// A record that continues the event: another won span of the descriptor before
    /// it, or another descriptor. Some begin an event beside it, with its numbers.
    fn next_of(&mut self, last: &Record) -> Record {
        let mut next = last.clone();
        if self.random.percent(40) {
            next.spans.truncate(1);
            next.spans.push(self.keys.span(&mut self.random, self.profile.tenant));
        } else {
            self.meta(&mut next);
            next.numbers[1] = last.numbers[1];
        }
        next.flag = u8::from(!self.random.percent(8));
        next
    }

    /// Something between two records of an event: one that continues nothing, since
    /// its node, its mark or its index is another, which leaves the event whole; or
    /// a record of any kind, after which nothing continues it.
    fn tear(&mut self, last: &Record) {
        let mut torn = Record { flag: 1, ..last.clone() };
        match self.random.below(5) {
            0 => torn.node = Some(last.node.unwrap_or(0) ^ 1 << self.random.below(32)),
            1 => torn.node = if last.node.is_some() { None } else { Some(0) },
            2 => torn.numbers[1] ^= 1 << self.random.below(64),
            3 => torn.numbers[1] = self.index(),
            _ => torn = self.fresh(),
        }
        self.records.push(torn);
    }

    /// A value to begin with: the ranges in turn, the index rising.
    fn root(&mut self, told: u64) -> Record {
        let (range, index) = (told % self.profile.ranges + 1, told / self.profile.ranges);
        let generation = self.random.from_to(1, self.profile.generations);
        let mut record = Record { kind: 2, sub: 1, ..Record::default() };
        record.numbers = [range, index, index, generation, 0];
        let (span, voters) = self.value(range, generation);
        record.spans = vec![span];
        record.voters = voters;
        record
    }

    fn record(&mut self) -> Record {
        let again = !self.records.is_empty() && self.random.percent(self.profile.repeats);
        let mut record = if again { self.again() } else { self.fresh() };
        if self.random.percent(self.profile.unmarked) {
            record.node = None;
        } else if record.node.is_none() || self.random.percent(25) {
            record.node = Some(self.node() as u32);
        }
        record
    }

    /// An earlier record, often by another node, sometimes with a new number or
    /// another last voter.
    fn again(&mut self) -> Record {
        let mut record = self.random.pick(&self.records).clone();
        if record.kind == 11 && self.random.percent(30) {
            record.numbers[1] = self.index();
        } else if matches!(record.kind, 1 | 2) && self.random.percent(30) {
            let (span, voters) = self.value(record.numbers[0], record.numbers[3]);
            record.spans = vec![span];
            record.voters = voters;
        }
        if !record.voters.is_empty() && self.random.percent(10) {
            record.voters.pop();
            record.voters.push(self.node());
        }
        record
    }

    fn fresh(&mut self) -> Record {
        let kind = self.random.weighted(&self.profile.kinds) as u8 + 1;
        let mut record = Record { kind, node: Some(self.node() as u32), ..Record::default() };
        match kind {
            1 => self.created(&mut record),
            2 => self.descriptor(&mut record),
            3 => self.apply(&mut record),
            4 => self.recovered(&mut record),
            7 => record.numbers = [self.range(), self.index(), self.range(), 0, 0],
            8 => self.installed(&mut record),
            9 => record.numbers[0] = self.range(),
            11 => self.leased(&mut record),
            12 => self.meta(&mut record),
            _ => {}
        }
        record
    }

    fn node(&mut self) -> u64 {
        self.random.from_to(1, self.profile.nodes)
    }

    fn range(&mut self) -> u64 {
        self.random.from_to(1, self.profile.ranges)
    }

    fn index(&mut self) -> u64 {
        self.random.from_to(1, self.profile.indexes)
    }

    /// The generation at an index: rising with it where the draw is sound.
    fn generation(&mut self, index: u64) -> u64 {
        if self.random.percent(self.profile.sound) {
            (index / 2).min(self.profile.generations)
        } else {
            self.random.from_to(0, self.profile.generations)
        }
    }

    fn voters(&mut self) -> Vec<u64> {
        let count = *self.random.pick(&[0, 1, 1, 2, 2, 3, 4, 5]);
        (0..count).map(|_| self.node()).collect()
    }

    /// The span and voters of a range at a generation.
    fn value(&mut self, range: u64, generation: u64) -> (Span, Vec<u64>) {
        let own = self.random.percent(self.profile.sound);
        let span = if own {
            Keys::own_span(range, generation)
        } else {
            self.keys.span(&mut self.random, self.profile.tenant)
        };
        let voters = if own { (1..=self.profile.nodes).collect() } else { self.voters() };
        (span, voters)
    }

    fn created(&mut self, record: &mut Record) {
        record.sub = self.random.weighted(&[3, 4, 3]) as u8 + 1;
        let parent = if record.sub == 2 { 85 } else { 10 };
        record.flag = u8::from(self.random.percent(parent));
        let (range, floor) = (self.range(), self.index());
        let parent = if record.flag == 1 { self.range() } else { 0 };
        let generation = self.generation(floor);
        record.numbers = [range, floor, parent, generation, 0];
        let (span, voters) = self.value(range, generation);
        record.spans = vec![span];
        record.voters = voters;
    }

    fn descriptor(&mut self, record: &mut Record) {
        record.sub = self.random.weighted(&[10, 1, 1]) as u8 + 1;
        let (range, index) = (self.range(), self.index());
        let applied = if self.random.percent(40) { index } else { self.index() };
        let generation = self.generation(index);
        record.numbers = [range, index, applied, generation, 0];
        let (span, voters) = self.value(range, generation);
        record.spans = vec![span];
        record.voters = voters;
        self.follow_split(record);
    }

    /// Often the descriptor that belongs to a RangeSplit already traced.
    fn follow_split(&mut self, record: &mut Record) {
        let split = self.records.iter().rev().find(|r| r.kind == 7);
        if let Some(split) = split.cloned()
            && self.random.percent(50)
        {
            record.node = split.node;
            record.numbers[0] = split.numbers[0];
            record.numbers[1] = split.numbers[1];
        }
    }

    fn apply(&mut self, record: &mut Record) {
        record.sub = self.random.weighted(&self.profile.effects) as u8 + 1;
        record.numbers[0] = self.range();
        record.numbers[1] = self.index();
        let keyed = if record.sub == 4 { 10 } else { 85 };
        if self.random.percent(keyed) {
            let few = self.random.below(4) as usize;
            let key = [&b"b"[..], b"ba", b"c", b""][few].to_vec();
            record.spans = vec![(key, Vec::new())];
        }
    }

    fn recovered(&mut self, record: &mut Record) {
        let own = self.random.percent(60);
        let server = if own { u64::from(record.node.unwrap_or(0)) } else { self.node() };
        record.numbers = [self.range(), self.index(), server, 0, 0];
    }

    fn installed(&mut self, record: &mut Record) {
        let count = *self.random.pick(&[0, 1, 1, 2, 2, 3, 4]);
        let tenant = self.profile.tenant;
        for _ in 0..count {
            let span = if self.random.percent(20) {
                let (range, generation) = (self.range(), self.random.below(3));
                Keys::own_span(range, generation)
            } else {
                self.keys.span(&mut self.random, tenant)
            };
            record.spans.push(span);
        }
    }

    fn leased(&mut self, record: &mut Record) {
        let sound = self.random.percent(self.profile.sound);
        let index = if sound { self.random.from_to(1, 40) } else { self.index() };
        let first = if sound { index * 4 } else { self.random.from_to(0, 60) };
        let last = match self.random.weighted(&[20, 60, if sound { 1 } else { 12 }]) {
            0 => first,
            1 => first + self.random.below(if sound { 4 } else { 12 }),
            _ => first.saturating_sub(1 + self.random.below(3)),
        };
        let (node, run) = (self.node(), self.random.from_to(1, 2));
        record.numbers = [node, index, run, first, last];
    }

    /// Mostly a descriptor already put, so that the later kinds are reached. The
    /// node and the flag are left.
    fn meta(&mut self, record: &mut Record) {
        let puts = self.records.iter().filter(|r| matches!(r.kind, 1 | 2)).cloned();
        let puts: Vec<Record> = puts.collect();
        let (range, index) = (self.range(), self.index());
        let generation = self.generation(index);
        let (span, voters) = self.value(range, generation);
        record.numbers = [range, index, 0, generation, 0];
        record.spans = vec![span];
        record.voters = voters;
        if !puts.is_empty() && self.random.percent(92) {
            let put = self.random.pick(&puts).clone();
            record.numbers = [put.numbers[0], index, 0, put.numbers[3], 0];
            record.spans = put.spans;
            record.voters = put.voters;
        }
        if self.random.percent(85) {
            let won = self.keys.span(&mut self.random, self.profile.tenant);
            record.spans.push(won);
        }
    }
}
