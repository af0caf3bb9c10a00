//! Traces that tell a small cluster's story: bootstrap, writes, splits, leases,
//! meta applies, crashes with restatements, refusals with installs. Told without
//! noise they pass; with noise a record is lost, told twice or altered.

use crate::keys::group_key;
use crate::random::Random;
use crate::wire::{Record, Span};

/// A range as the cluster has it.
#[derive(Clone, Debug)]
struct Range {
    id: u64,
    span: Span,
    generation: u64,
    /// The latest index applied, and the one its descriptor dates from.
    index: u64,
    changed: u64,
    voters: Vec<u64>,
}

/// The cluster, and the records told so far.
struct Cluster {
    random: Random,
    nodes: u64,
    ranges: Vec<Range>,
    meta: u64,
    leases: u64,
    next: u64,
    /// The most records of a meta apply.
    most: u64,
    told: Vec<Record>,
}

fn record(kind: u8, node: u64, numbers: [u64; 5]) -> Record {
    Record { kind, node: Some(node as u32), numbers, ..Record::default() }
}

fn valued(mut record: Record, sub: u8, range: &Range) -> Record {
    record.sub = sub;
    record.voters = range.voters.clone();
    record.spans = vec![range.span.clone()];
    record
}

fn created(node: u64, sub: u8, range: &Range, floor: u64, parent: Option<u64>) -> Record {
    let numbers = [range.id, floor, parent.unwrap_or(0), range.generation, 0];
    let mut record = valued(record(1, node, numbers), sub, range);
    record.flag = u8::from(parent.is_some());
    record
}

fn descriptor(node: u64, range: &Range, applied: u64) -> Record {
    valued(record(2, node, [range.id, range.changed, applied, range.generation, 0]), 1, range)
}

impl Cluster {
    fn new(random: &mut Random, most: u64) -> Cluster {
        let nodes = random.from_to(1, 3);
        let voters: Vec<u64> = (1..=nodes).collect();
        let range = |id: u64, start: &[u8], end: &[u8]| Range {
            id,
            span: (start.to_vec(), end.to_vec()),
            generation: 1,
            index: 1,
            changed: 1,
            voters: voters.clone(),
        };
        let ranges = vec![range(2, b"b", b"k"), range(3, b"k", b"t")];
        let random = Random::new(random.next());
        Cluster { random, nodes, ranges, meta: 0, leases: 0, next: 10, most, told: Vec::new() }
    }

    fn tell(&mut self, record: Record) {
        self.told.push(record);
    }

    fn bootstrap(&mut self) {
        let keep = self.random.from_to(1, 2) as usize;
        self.ranges.truncate(keep);
        for node in 1..=self.nodes {
            for range in self.ranges.clone() {
                self.tell(created(node, 1, &range, 1, None));
            }
        }
    }

    fn choose(&mut self) -> usize {
        self.random.below(self.ranges.len() as u64) as usize
    }

    fn write(&mut self) {
        let at = self.choose();
        self.ranges[at].index += 1;
        let range = self.ranges[at].clone();
        let key = [range.span.0.clone(), vec![self.random.below(3) as u8]].concat();
        for node in 1..=self.nodes {
            let mut apply = record(3, node, [range.id, range.index, 0, 0, 0]);
            apply.sub = 1;
            apply.spans = vec![(key.clone(), Vec::new())];
            self.tell(apply);
        }
    }

    /// A key strictly inside the span, if the span has room for one.
    fn middle(span: &Span) -> Option<Vec<u8>> {
        let (start, end) = (*span.0.first()?, *span.1.first()?);
        (end > start + 1).then(|| vec![start + (end - start) / 2])
    }

    fn split(&mut self) {
        let at = self.choose();
        let Some(middle) = Self::middle(&self.ranges[at].span) else {
            return self.write();
        };
        let left = &mut self.ranges[at];
        left.index += 1;
        left.changed = left.index;
        left.generation += 1;
        let mut right = Range { id: self.next, ..left.clone() };
        right.span.0 = middle.clone();
        left.span.1 = middle;
        let left = left.clone();
        self.next += 1;
        for node in 1..=self.nodes {
            self.tell(record(7, node, [left.id, left.index, right.id, 0, 0]));
            self.tell(descriptor(node, &left, left.index));
            self.tell(created(node, 2, &right, left.index, Some(left.id)));
            let mut took = record(3, node, [left.id, left.index, 0, 0, 0]);
            took.sub = 4;
            self.tell(took);
        }
        self.ranges.push(right);
    }

    fn lease(&mut self) {
        self.leases += 1;
        let (index, first) = (self.leases, self.leases * 10);
        let to = self.random.from_to(1, self.nodes);
        for node in 1..=self.nodes {
            self.tell(record(11, node, [to, index, 1, first, first + 9]));
        }
    }

    fn meta(&mut self) {
        self.meta += 1;
        let at = self.choose();
        let range = self.ranges[at].clone();
        let node = self.random.from_to(1, self.nodes);
        self.name(node, &range, range.span.clone());
        if self.most > 1 {
            self.name_more(node, at);
        }
    }

    /// A record of a meta apply: the descriptor, and a span that it won.
    fn name(&mut self, node: u64, range: &Range, won: Span) {
        let mut named = record(12, node, [range.id, self.meta, 0, range.generation, 0]);
        named.voters = range.voters.clone();
        named.spans = vec![range.span.clone(), won];
        self.tell(named);
    }

    /// The same apply names other ranges too, and some by two spans: one event.
    fn name_more(&mut self, node: u64, at: usize) {
        let many = self.random.below(self.most);
        let from = self.told.len();
        for range in self.ranges.clone().into_iter().skip(at + 1) {
            let middle = Self::middle(&range.span).filter(|_| self.random.percent(40));
            let (start, end) = range.span.clone();
            let middle = middle.unwrap_or(end.clone());
            self.name(node, &range, (start, middle.clone()));
            if middle != end {
                self.name(node, &range, (middle, end));
            }
        }
        self.told.truncate(from + many as usize);
        self.told[from..].iter_mut().for_each(|record| record.flag = 1);
    }

    fn restart(&mut self) {
        let node = self.random.from_to(1, self.nodes);
        self.tell(record(6, node, [0; 5]));
        self.restate(node);
    }

    fn restate(&mut self, node: u64) {
        for range in self.ranges.clone() {
            self.tell(record(4, node, [range.id, range.index, node, 0, 0]));
            self.tell(descriptor(node, &range, range.index));
        }
        self.tell(record(5, node, [0; 5]));
    }

    fn reseed(&mut self) {
        let node = self.random.from_to(1, self.nodes);
        self.tell(record(10, node, [0; 5]));
        for range in self.ranges.clone() {
            let mut install = record(8, node, [0; 5]);
            let group = group_key(0, range.id);
            install.spans = vec![(group.clone(), [group, vec![255]].concat()), range.span.clone()];
            self.tell(install);
            self.tell(created(node, 3, &range, range.index, None));
        }
    }

    fn remove(&mut self) {
        // Never a right half: a node that restates its parent would owe it again.
        let at = self.choose();
        if self.ranges.len() < 2 || self.ranges[at].id >= 10 {
            return self.write();
        }
        let gone = self.ranges.remove(at);
        for node in 1..=self.nodes {
            self.tell(record(9, node, [gone.id, 0, 0, 0, 0]));
        }
    }

    fn step(&mut self) {
        match self.random.weighted(&[8, 6, 3, 4, 3, 1, 1]) {
            0 => self.write(),
            1 => self.split(),
            2 => self.lease(),
            3 => self.meta(),
            4 => self.restart(),
            5 => self.reseed(),
            _ => self.remove(),
        }
    }

    /// One record lost, told twice, told by another node or with a number off.
    fn noise(&mut self) {
        let at = self.random.below(self.told.len() as u64) as usize;
        let other = self.random.from_to(1, self.nodes) as u32;
        match self.random.weighted(&[4, 2, 2, 3]) {
            0 => {
                self.told.remove(at);
            }
            1 => {
                let twice = self.told[at].clone();
                self.told.insert(at, twice);
            }
            2 => self.told[at].node = Some(other),
            _ => {
                let used = crate::wire::form_of(self.told[at].kind).expect("a kind").numbers;
                let place = self.random.below(5) as usize;
                let parentless = self.told[at].kind == 1 && self.told[at].flag == 0 && place == 2;
                if used[place] && !parentless {
                    self.told[at].numbers[place] ^= 1;
                }
            }
        }
    }
}

/// A story of so many records at most; `noise` records in a hundred go wrong. A
/// meta apply has up to `most` records.
pub fn story(random: &mut Random, length: usize, noise: u64, most: u64) -> Vec<Record> {
    let mut cluster = Cluster::new(random, most);
    cluster.bootstrap();
    while cluster.told.len() < length {
        cluster.step();
    }
    let wrong = (cluster.told.len() as u64 * noise).div_ceil(100);
    for _ in 0..wrong {
        cluster.noise();
    }
    cluster.told.truncate(length);
    cluster.told
}

/// One split told by several nodes, each leaving parts out, with crashes,
/// refusals and restatements between: what `half` is about.
pub fn splits(random: &mut Random, length: usize) -> Vec<Record> {
    let mut told = Vec::new();
    while told.len() < length {
        let node = random.from_to(1, 3);
        for record in split_part(random, node) {
            if !random.percent(12) {
                told.push(record);
            }
        }
    }
    told.truncate(length);
    told
}

/// The left half, range 1, and the right half, range 2, 3 or 4, of one split.
fn halves(random: &mut Random) -> (Range, Range) {
    let index = random.from_to(2, 3);
    let voters: Vec<u64> = (1..=random.from_to(1, 3)).collect();
    let id = if random.percent(80) { index } else { random.from_to(2, 4) };
    let span = (b"b".to_vec(), b"d".to_vec());
    let left = Range { id: 1, span, generation: 2, index, changed: index, voters };
    let right = Range { id, span: (b"d".to_vec(), b"f".to_vec()), ..left.clone() };
    (left, right)
}

fn split_part(random: &mut Random, node: u64) -> Vec<Record> {
    let (left, right) = halves(random);
    let index = left.index;
    let mut took = record(3, node, [left.id, index, 0, 0, 0]);
    took.sub = 4;
    let applied = random.from_to(1, 4);
    let server = if random.percent(70) { node } else { random.from_to(1, 3) };
    let part = random.weighted(&[5, 2, 2, 6, 2, 1, 1, 2]);
    match part {
        0 => vec![
            record(7, node, [left.id, index, right.id, 0, 0]),
            descriptor(node, &left, index),
            created(node, 2, &right, index, Some(left.id)),
            took,
        ],
        1 => {
            vec![record(7, node, [left.id, index, right.id, 0, 0]), descriptor(node, &left, index)]
        }
        2 => vec![created(node, 2, &right, index, Some(left.id)), took],
        3 => vec![
            record(6, node, [0; 5]),
            record(4, node, [left.id, applied, server, 0, 0]),
            descriptor(node, &left, applied),
            descriptor(node, &right, applied),
            record(5, node, [0; 5]),
        ],
        4 => vec![descriptor(node, &left, applied), record(5, node, [0; 5])],
        5 => vec![record(10, node, [0; 5])],
        6 => vec![record(9, node, [right.id, 0, 0, 0, 0])],
        _ => vec![record(4, node, [left.id, applied, server, 0, 0])],
    }
}
