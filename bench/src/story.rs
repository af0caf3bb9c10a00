//! A well-behaved cluster: five nodes, three voters to a range, writes with keys, splits with
//! their descriptors and meta applies, grants, restarts, refusals with installs, and ranges
//! that move to another node. Told without noise every check passes.

use oracle::keys::group_key;
use oracle::random::Random;
use oracle::wire::{Record, Span, form_of};

const NODES: u64 = 5;
/// Ranges at the start, and the distance between their first keys.
const FIRST: u64 = 4;
const WIDTH: u64 = 1 << 20;

/// A range as the cluster has it.
#[derive(Clone)]
struct Range {
    id: u64,
    low: u64,
    high: u64,
    generation: u64,
    /// The latest index applied, and the one that its descriptor dates from.
    index: u64,
    changed: u64,
    voters: Vec<u64>,
    /// The nodes that ever held it: it never comes back to one.
    holders: Vec<u64>,
}

struct Cluster {
    random: Random,
    /// How many replicas of the meta range tell of each apply, and how many ranges it names.
    tellers: u64,
    named: u64,
    ranges: Vec<Range>,
    meta: u64,
    leases: u64,
    next: u64,
    told: Vec<Record>,
}

fn key_of(number: u64) -> Vec<u8> {
    format!("meter/{number:08}").into_bytes()
}

fn span_of(range: &Range) -> Span {
    (key_of(range.low), key_of(range.high))
}

fn record(kind: u8, node: u64, numbers: [u64; 5]) -> Record {
    Record { kind, node: Some(node as u32), numbers, ..Record::default() }
}

fn valued(mut record: Record, sub: u8, range: &Range) -> Record {
    record.sub = sub;
    record.voters = range.voters.clone();
    record.spans = vec![span_of(range)];
    record
}

fn created(node: u64, sub: u8, range: &Range, floor: u64, parent: Option<u64>) -> Record {
    let numbers = [range.id, floor, parent.unwrap_or(0), range.generation, 0];
    let mut record = valued(record(1, node, numbers), sub, range);
    record.flag = u8::from(parent.is_some());
    record
}

fn descriptor(node: u64, range: &Range) -> Record {
    valued(record(2, node, [range.id, range.changed, range.index, range.generation, 0]), 1, range)
}

fn apply(node: u64, sub: u8, range: &Range) -> Record {
    let mut record = record(3, node, [range.id, range.index, 0, 0, 0]);
    record.sub = sub;
    record
}

impl Cluster {
    fn new(seed: u64, tellers: u64, named: u64) -> Cluster {
        let range = |i: u64| {
            let voters: Vec<u64> = (0..3).map(|k| (i + k) % NODES + 1).collect();
            Range {
                id: i + 1,
                low: i * WIDTH,
                high: (i + 1) * WIDTH,
                generation: 1,
                index: 1,
                changed: 1,
                holders: voters.clone(),
                voters,
            }
        };
        let ranges = (0..FIRST).map(range).collect();
        let (meta, leases, next) = (0, 0, 100);
        let random = Random::new(seed);
        Cluster { random, tellers, named, ranges, meta, leases, next, told: Vec::new() }
    }

    fn tell(&mut self, record: Record) {
        self.told.push(record);
    }

    fn choose(&mut self) -> usize {
        self.random.below(self.ranges.len() as u64) as usize
    }

    fn bootstrap(&mut self) {
        for range in self.ranges.clone() {
            for node in &range.voters {
                self.tell(created(*node, 1, &range, 1, None));
            }
        }
        for at in 0..self.ranges.len() {
            self.meta(at);
        }
    }

    fn write(&mut self) {
        let at = self.choose();
        self.ranges[at].index += 1;
        let range = self.ranges[at].clone();
        let key = key_of(self.random.from_to(range.low, range.high - 1));
        for node in &range.voters {
            let mut record = apply(*node, 1, &range);
            record.spans = vec![(key.clone(), Vec::new())];
            self.tell(record);
        }
    }

    fn split(&mut self) {
        let at = self.choose();
        let left = &mut self.ranges[at];
        if left.high - left.low < 4 {
            return self.write();
        }
        left.index += 1;
        left.changed = left.index;
        left.generation += 1;
        let middle = left.low + (left.high - left.low) / 2;
        let mut right = Range { id: self.next, low: middle, ..left.clone() };
        left.high = middle;
        let left = left.clone();
        right.holders = right.voters.clone();
        self.next += 1;
        for node in &left.voters {
            self.tell(record(7, *node, [left.id, left.index, right.id, 0, 0]));
            self.tell(descriptor(*node, &left));
            self.tell(created(*node, 2, &right, left.index, Some(left.id)));
            self.tell(apply(*node, 4, &left));
        }
        self.ranges.push(right);
        self.meta(at);
        self.meta(self.ranges.len() - 1);
    }

    fn lease(&mut self) {
        self.leases += 1;
        let (index, first) = (self.leases, self.leases * 10);
        let to = self.random.from_to(1, NODES);
        for node in 1..=3 {
            self.tell(record(11, node, [to, index, 1, first, first + 9]));
        }
    }

    /// The meta range has nodes 1 to 3, and won the whole of the span. Where an apply names several
    /// ranges, they are this one and those after it, as one event.
    fn meta(&mut self, at: usize) {
        self.meta += 1;
        let many = self.ranges.len().min(self.named as usize);
        for node in 1..=self.tellers {
            for more in 0..many {
                let range = self.ranges[(at + more) % self.ranges.len()].clone();
                let mut named = record(12, node, [range.id, self.meta, 0, range.generation, 0]);
                named.flag = u8::from(more > 0);
                named.voters = range.voters.clone();
                named.spans = vec![span_of(&range), span_of(&range)];
                self.tell(named);
            }
        }
    }

    fn held_by(&self, node: u64) -> Vec<Range> {
        self.ranges.iter().filter(|range| range.voters.contains(&node)).cloned().collect()
    }

    fn restart(&mut self) {
        let node = self.random.from_to(1, NODES);
        self.tell(record(6, node, [0; 5]));
        for range in self.held_by(node) {
            self.tell(record(4, node, [range.id, range.index, node, 0, 0]));
            self.tell(descriptor(node, &range));
        }
        self.tell(record(5, node, [0; 5]));
    }

    fn install(&mut self, node: u64, range: &Range) {
        let mut install = record(8, node, [0; 5]);
        let group = group_key(0, range.id);
        install.spans = vec![(group.clone(), [group, vec![255]].concat()), span_of(range)];
        self.tell(install);
        self.tell(created(node, 3, range, range.index, None));
    }

    fn reseed(&mut self) {
        let node = self.random.from_to(1, NODES);
        self.tell(record(10, node, [0; 5]));
        for range in self.held_by(node) {
            self.install(node, &range);
        }
    }

    /// A range of the start moves to a node that never held it. Never a right half: a node
    /// that restates its parent would owe it again.
    fn shift(&mut self) {
        let at = self.random.below(FIRST) as usize;
        let range = &mut self.ranges[at];
        let Some(to) = (1..=NODES).find(|node| !range.holders.contains(node)) else {
            return self.write();
        };
        let from = range.voters[0];
        range.index += 1;
        range.changed = range.index;
        range.generation += 1;
        let before = range.voters.clone();
        range.voters = before[1..].iter().copied().chain([to]).collect();
        range.holders.push(to);
        let range = range.clone();
        for node in before {
            self.tell(descriptor(node, &range));
            self.tell(apply(node, 7, &range));
        }
        self.install(to, &range);
        self.tell(record(9, from, [range.id, 0, 0, 0, 0]));
        self.meta(at);
    }

    fn step(&mut self) {
        match self.random.weighted(&[150, 8, 12, 20, 2, 1, 1]) {
            0 => self.write(),
            1 => self.split(),
            2 => self.lease(),
            3 => {
                let at = self.choose();
                self.meta(at);
            }
            4 => self.restart(),
            5 => self.reseed(),
            _ => self.shift(),
        }
    }

    /// One record lost, told twice, told by another node or with a number off.
    fn noise(&mut self) {
        let at = self.random.below(self.told.len() as u64) as usize;
        let other = self.random.from_to(1, NODES) as u32;
        match self.random.weighted(&[4, 2, 2, 3]) {
            0 => {
                self.told.remove(at);
            }
            1 => {
                let twice = self.told[at].clone();
                self.told.insert(at, twice);
            }
            2 => self.told[at].node = Some(other),
            _ => {
                let used = form_of(self.told[at].kind).expect("a kind").numbers;
                let place = self.random.below(5) as usize;
                let parentless = self.told[at].kind == 1 && self.told[at].flag == 0 && place == 2;
                if used[place] && !parentless {
                    self.told[at].numbers[place] ^= 1;
                }
            }
        }
    }
}

/// A story of so many records, each meta apply told by so many replicas and naming so many ranges;
/// in so many of a hundred records something goes wrong.
pub fn story(seed: u64, length: usize, tellers: u64, noise: u64, named: u64) -> Vec<Record> {
    let mut cluster = Cluster::new(seed, tellers, named);
    cluster.bootstrap();
    while cluster.told.len() < length + length / 10 + 10 {
        cluster.step();
    }
    let wrong = (length as u64 * noise).div_ceil(100);
    if noise > 0 {
        for _ in 0..wrong {
            cluster.noise();
        }
    }
    cluster.told.truncate(length);
    cluster.told
}
