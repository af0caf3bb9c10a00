//! The oracle: the five published structs, driven directly, Descriptors first,
//! by whole events, with the first fault of each of the eight checks kept.
//!
//! A MetaApplied comes as several records. After each of them the reports are
//! those of a run of the Rust whose last event is cut there: the structs as they
//! stood before the event are given all of it that was taken, as one event.

use ananke_env::sim::TraceRecord;
use ananke_raft::store::set_tenant;
use ananke_shard::invariants::{
    Descriptors, GenerationsRise, Held, IdsUnique, MetaNeverGoesBack, OneOwnerPerKey,
};

use crate::decode::{Marks, events, marked, meta_event, whole};
use crate::lookups::Lookups;
use crate::report::{CHECKS, Report, Reports};
use crate::verdict;
use crate::wire::Record;

/// The five structs as they stand after the records pushed.
#[derive(Clone, Debug, Default)]
pub struct Five {
    pub descriptors: Descriptors,
    pub owners: OneOwnerPerKey,
    pub generations: GenerationsRise,
    pub ids: IdsUnique,
    pub meta: MetaNeverGoesBack,
}

impl Five {
    /// Pushes one record, Descriptors first: the others read them.
    pub fn push(&mut self, record: &TraceRecord, tenant: u64) {
        set_tenant(tenant);
        self.descriptors.push(record);
        self.owners.push(record);
        self.generations.push(record, &self.descriptors);
        self.ids.push(record);
        self.meta.push(record, &self.descriptors);
    }

    /// The verdict of one of the eight checks, by its place in printing order.
    pub fn verdict(&self, check: usize) -> Result<(), String> {
        match check {
            0 => self.descriptors.verdict(),
            1 => self.owners.overlap_verdict(),
            2 => self.owners.install_verdict(),
            3 => self.owners.created_twice_verdict(),
            4 => self.owners.right_half_verdict(),
            5 => self.generations.verdict(),
            6 => self.ids.verdict(),
            _ => self.meta.verdict(),
        }
    }

    /// Kind and evidence that the check's verdict says now, none for a pass.
    pub fn case(&self, check: usize) -> Option<verdict::Case> {
        let read = [
            verdict::agreement,
            verdict::overlap,
            verdict::install,
            verdict::twice,
            verdict::half,
            verdict::generations,
            verdict::ids,
            verdict::meta,
        ];
        let message = self.verdict(check).err()?;
        let case = read[check](&message);
        Some(case.unwrap_or_else(|| panic!("{}: cannot read {message}", CHECKS[check])))
    }
}

/// The five structs as they stood at some earlier event, and the events since. An
/// event that goes on is given anew to the structs as they stood before it; where
/// none does, nothing is pushed here, so a long trace costs little more.
#[derive(Default)]
struct Behind {
    five: Five,
    since: Vec<TraceRecord>,
}

impl Behind {
    /// The structs after all the events, with this one in place of the last.
    fn with_last(&mut self, event: TraceRecord, tenant: u64) -> Five {
        self.since.pop();
        for event in self.since.drain(..) {
            self.five.push(&event, tenant);
        }
        let mut five = self.five.clone();
        five.push(&event, tenant);
        self.since.push(event);
        five
    }
}

/// The oracle for one trace.
pub struct Oracle {
    tenant: u64,
    room: u64,
    five: Five,
    behind: Behind,
    /// Records taken, and events.
    count: u64,
    events: u64,
    /// The records of the last event as far as it was taken.
    last: Vec<Record>,
    /// The reports before the last event, and after it.
    before: Reports,
    reports: Reports,
    marks: Marks,
}

impl Oracle {
    /// An oracle with no records and eight passes.
    pub fn open(tenant: u64) -> Oracle {
        Oracle::with_marks(tenant, Marks::default())
    }

    /// The same, over marks that an earlier oracle made: they cost memory once.
    pub fn with_marks(tenant: u64, marks: Marks) -> Oracle {
        Oracle {
            tenant,
            room: u64::MAX,
            five: Five::default(),
            behind: Behind::default(),
            count: 0,
            events: 0,
            last: Vec::new(),
            before: Reports::default(),
            reports: Reports::default(),
            marks,
        }
    }

    /// The same with room for so many records. The Rust has no such limit.
    pub fn with_room(tenant: u64, room: u64) -> Oracle {
        Oracle { room, ..Oracle::open(tenant) }
    }

    /// The marks back, for the next trace.
    pub fn into_marks(self) -> Marks {
        self.marks
    }

    /// Takes a record's bytes, or gives its refusal.
    pub fn push_bytes(&mut self, bytes: &[u8]) -> Result<(), u8> {
        let record = Record::decode(bytes)?;
        match self.push(&record) {
            0 => Ok(()),
            refusal => Err(refusal),
        }
    }

    /// Takes a decoded record, or gives its refusal, 11 or 6; 0 for none.
    pub fn push(&mut self, record: &Record) -> u8 {
        if record.continues() && !self.goes_on_with(record) {
            return 11;
        }
        if self.count == self.room {
            return 6;
        }
        self.count += 1;
        if record.continues() {
            self.go_on(record)
        } else {
            self.begin(record)
        }
        self.hear();
        0
    }

    /// Whether the last event can be the record's: one apply of one node has one
    /// index.
    fn goes_on_with(&self, record: &Record) -> bool {
        let apply = |r: &Record| (r.kind, r.node, r.numbers[1]);
        self.last.last().is_some_and(|last| apply(last) == apply(record))
    }

    fn begin(&mut self, record: &Record) {
        self.events += 1;
        self.before = self.reports;
        self.last = vec![record.clone()];
        let event = marked(record, self.count, &mut self.marks);
        self.five.push(&event, self.tenant);
        self.behind.since.push(event);
    }

    fn go_on(&mut self, record: &Record) {
        self.last.push(record.clone());
        self.five = self.behind.with_last(meta_event(&self.last), self.tenant);
    }

    /// The reports after the last event as far as it was taken.
    fn hear(&mut self) {
        self.reports = self.before;
        for check in 0..CHECKS.len() {
            if self.reports[check].kind == 0
                && let Some((kind, evidence)) = self.five.case(check)
            {
                self.reports[check] = Report::fault(kind, self.events, &evidence);
            }
        }
    }

    /// The eight reports: each check's first fault, or a pass.
    pub fn reports(&self) -> &Reports {
        &self.reports
    }

    /// Whether every verdict still says what was kept as its first fault.
    pub fn first_faults_stand(&self) -> bool {
        (0..CHECKS.len()).all(|check| {
            let now = self.five.case(check);
            let kept = self.reports[check];
            let said = now.map(|(kind, numbers)| Report::fault(kind, kept.position, &numbers));
            said.unwrap_or_default() == kept
        })
    }

    fn number(&self, held: Option<&Held>) -> Option<u64> {
        held.map(|held| self.marks.number_of(&held.start).expect("a marked start"))
    }
}

impl Lookups for Oracle {
    fn before(&self, range: u64, index: u64) -> Option<u64> {
        self.number(self.five.descriptors.before(range, index))
    }

    fn at(&self, range: u64, index: u64) -> Option<u64> {
        self.number(self.five.descriptors.at(range, index))
    }

    fn first_at_generation(&self, range: u64, generation: u64) -> Option<u64> {
        self.number(self.five.descriptors.first_at_generation(range, generation))
    }

    fn statements(&self) -> u64 {
        self.five.descriptors.statements() as u64
    }

    fn is_empty(&self) -> bool {
        self.five.descriptors.is_empty()
    }

    fn holders_of(&self, id: u64) -> Vec<u64> {
        self.five.ids.holders_of(id)
    }

    fn blocks(&self) -> Vec<[u64; 3]> {
        let blocks = self.five.ids.blocks().iter();
        let rows = |(first, held): (&u64, &Vec<(u64, u64)>)| {
            let row = |(last, node): &(u64, u64)| [*first, *last, *node];
            held.iter().map(row).collect::<Vec<_>>()
        };
        blocks.flat_map(rows).collect()
    }
}

/// The five structs over a trace, with no marks and no reports asked between:
/// what a measurement of the Rust alone runs.
pub fn judge_whole(records: &[Record], tenant: u64) -> Five {
    let mut five = Five::default();
    for event in events(records) {
        five.push(&whole(event), tenant);
    }
    five
}
