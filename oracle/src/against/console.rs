//! A station's console, as a `Judging`: every record is previewed before it is taken, other records
//! are previewed beside it and not taken, and the taking is by turns a push and a commit.
//!
//! Beside it stands a judge that only gets the pushes of the records that are taken. Every byte and
//! word of both is the same after the previews of a record, so they left no mark, and after the
//! taking, so that a commit ends as a push does, and a refused one leaves no mark. The console counts
//! the events itself.

use oracle::judging::Judging;
use oracle::lookups::Lookups;
use oracle::preview::{EVENTS, REPORTS, REPORTS_FROM, TICKET, push, ticket};
use oracle::report::Reports;
use oracle::text::readable;
use oracle::wire::Record;

use crate::buffers::Lists;
use crate::host::{BEFORE, Host};

/// A record that is previewed and not taken, with the words of the reports that the Rust would
/// have after it, where they are known.
pub struct Other {
    pub bytes: Vec<u8>,
    pub reports: Option<Vec<u64>>,
}

/// What is previewed and not taken.
pub trait Others {
    /// When so many records are taken.
    fn at(&mut self, count: usize) -> Vec<Other>;
}

pub struct Console<O> {
    judge: Host,
    plain: Host,
    others: O,
    turn: u64,
    /// How many of the records taken begin an event, and the bytes of all that were taken.
    events: u64,
    told: Vec<u8>,
    amiss: Option<String>,
    /// How many previews were refused by each number, 0 for none.
    pub previews: Drew,
}

/// How many calls drew each refusal, 0 to 11.
pub type Drew = [u64; 12];

impl<O: Others> Console<O> {
    pub fn open(tenant: u64, capacity: usize, turn: u64, others: O) -> Console<O> {
        let (judge, plain) = (Host::open(tenant, capacity), Host::open(tenant, capacity));
        Console {
            judge,
            plain,
            others,
            turn,
            events: 0,
            told: Vec::new(),
            amiss: None,
            previews: [0; 12],
        }
    }

    /// The judge, once no record is left: others are still previewed, some of them past its room.
    pub fn finish(mut self) -> Result<(Host, Drew), String> {
        let others = self.others.at(self.count() as usize);
        self.preview_all(&others)?;
        self.same("a preview at the end")?;
        let (log, rest) = self.judge.buffers.log.split_at(self.told.len());
        if log != self.told || rest.iter().any(|byte| *byte != BEFORE) {
            return Err("the log is not the records taken, and then as it was".to_owned());
        }
        Ok((self.judge, self.previews))
    }

    fn count(&self) -> u64 {
        self.plain.buffers.state[1]
    }

    /// The previews, some before that of the record itself and some after it, and the taking.
    fn step(&mut self, bytes: &[u8]) -> Result<u64, String> {
        let count = self.count();
        let mut before = self.others.at(count as usize);
        let after = before.split_off(before.len() / 2);
        self.preview_all(&before)?;
        let (_, shown) = self.preview(bytes, None)?;
        self.preview_all(&after)?;
        self.same("a preview")?;
        let taken = self.take_shown(bytes, &shown)?;
        if shown.reports.first(REPORTS) != &self.judge.buffers.state[REPORTS_FROM..] {
            return Err("the previewed reports are not those after the record".to_owned());
        }
        let continues = Record::decode(bytes).is_ok_and(|record| record.continues());
        if taken == 0 {
            self.events += u64::from(!continues);
            self.told.extend(bytes);
        }
        let counted = self.judge.buffers.state[EVENTS];
        if counted != self.events {
            return Err(format!("the judge has {counted} events, not {}", self.events));
        }
        self.judge.ask();
        Ok(taken)
    }

    /// Takes a record by turns by a push and by its ticket: as the judge that only gets pushes. The
    /// ticket serves no second time, since the judge's count is then another.
    ///
    /// A record that draws a refusal is given to this judge alone, pushed, and committed by a ticket
    /// that the host makes, since the preview gave none. The ticket of zeros has another count, or
    /// where the count is 0 a kind that is none.
    fn take_shown(&mut self, bytes: &[u8], shown: &Lists) -> Result<u64, String> {
        let (stood, count) = (&self.plain.buffers, self.count());
        let expected = push(&stood.state, stood.lent(), bytes);
        let commits = (count + self.turn) % 2 == 1;
        let (judge, given) = (&mut self.judge.buffers, shown.ticket.first(TICKET));
        let made = ticket(count, bytes);
        let (name, taken) = match (expected, commits) {
            (0, true) => ("a commit", judge.commit(given)),
            (_, true) => ("a commit", judge.commit(&made)),
            _ => ("a push", judge.push(bytes)),
        };
        let again = judge.commit(given);
        let stale = if expected != 0 && count == 0 { 2 } else { 10 };
        if (taken, again) != (expected, stale) {
            return Err(format!(
                "{name} refused {taken}, not {expected}; the ticket again {again}"
            ));
        }
        if expected == 0 {
            let plain = self.plain.buffers.push(bytes);
            if plain != 0 {
                return Err(format!("a push without previews refused {plain}"));
            }
        }
        self.same(name)?;
        Ok(taken)
    }

    /// Previews them all. One that is refused is pushed too: it is refused alike, and as the
    /// comparison with the other judge shows it leaves no mark, in the middle of an event either.
    fn preview_all(&mut self, others: &[Other]) -> Result<(), String> {
        for other in others {
            let (refusal, _) = self.preview(&other.bytes, other.reports.as_deref())?;
            if refusal == 0 {
                continue;
            }
            let pushed = self.judge.buffers.push(&other.bytes);
            if pushed != refusal {
                let of = named(&other.bytes);
                return Err(format!("a push of {of}: refused {pushed}, its preview {refusal}"));
            }
        }
        Ok(())
    }

    /// A preview: its refusal, the rest of its lists, its ticket, and its reports where they are
    /// known. They are at a refusal, since those are the present ones.
    fn preview(&mut self, bytes: &[u8], reports: Option<&[u64]>) -> Result<(u64, Lists), String> {
        let stood = &self.plain.buffers;
        let expected = push(&stood.state, stood.lent(), bytes);
        let mut lists = Lists::default();
        let refusal = self.judge.buffers.preview(bytes, &mut lists);
        if refusal != expected {
            let of = named(bytes);
            return Err(format!("a preview of {of}: refused {refusal}, not {expected}"));
        }
        self.previews[refusal as usize] += 1;
        let (known, expected) = match refusal {
            0 => (reports, ticket(stood.state[1], bytes)),
            _ => (Some(&stood.state[REPORTS_FROM..]), vec![0; TICKET]),
        };
        let given = lists.reports.first(REPORTS);
        let written = Lists::default().with(known.unwrap_or(given), &expected);
        match lists.differ(&written) {
            Some(words) => Err(format!("a preview of {}: {refusal}, {words}", named(bytes))),
            None => Ok((refusal, lists)),
        }
    }

    /// Both judges have the same bytes and words.
    fn same(&self, after: &str) -> Result<(), String> {
        match self.judge.buffers.differ(&self.plain.buffers) {
            Some(name) => Err(format!("after {after}: {name} is not as after pushes alone")),
            None => Ok(()),
        }
    }
}

/// A record in words, or its bytes where it is none.
fn named(bytes: &[u8]) -> String {
    Record::decode(bytes).map_or_else(|_| format!("{bytes:?}"), |record| readable(&record))
}

impl<O: Others> Judging for Console<O> {
    fn take(&mut self, bytes: &[u8]) -> u8 {
        match self.step(bytes) {
            Ok(refusal) => refusal as u8,
            Err(words) => {
                self.amiss = Some(words);
                0
            }
        }
    }

    fn eight(&self) -> &Reports {
        self.judge.eight()
    }

    fn amiss(&self) -> Option<&str> {
        self.amiss.as_deref()
    }
}

impl<O> Lookups for Console<O> {
    fn before(&self, range: u64, index: u64) -> Option<u64> {
        self.judge.before(range, index)
    }

    fn at(&self, range: u64, index: u64) -> Option<u64> {
        self.judge.at(range, index)
    }

    fn first_at_generation(&self, range: u64, generation: u64) -> Option<u64> {
        self.judge.first_at_generation(range, generation)
    }

    fn statements(&self) -> u64 {
        self.judge.statements()
    }

    fn is_empty(&self) -> bool {
        self.judge.is_empty()
    }

    fn holders_of(&self, id: u64) -> Vec<u64> {
        self.judge.holders_of(id)
    }

    fn blocks(&self) -> Vec<[u64; 3]> {
        self.judge.blocks()
    }
}
