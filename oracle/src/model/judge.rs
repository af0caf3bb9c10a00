//! Document 01's judge over the model, with document 02's events: opening,
//! pushing, the eight reports, the look-ups and every refusal.

use super::descriptors::{Puts, Role, role};
use super::form::{Entry, entry, refusal};
use super::half::Columns;
use super::readings::{Reading, takes};
use super::{events, generations, ids, meta, owners};
use crate::lookups::Lookups;
use crate::report::{Report, Reports};

/// The greatest capacity.
pub const MOST: usize = 4096;

/// The model's judge. The records taken stand in for the log.
#[derive(Clone, Default)]
pub struct Judge {
    pub capacity: usize,
    pub tenant: u64,
    past: Vec<Entry>,
    roles: Vec<Role>,
    half: Columns,
    reports: Reports,
}

impl Judge {
    /// Opening with a log of so many bytes and a work area of so many words.
    pub fn open(log: usize, work: usize, tenant: u64) -> (u8, Judge) {
        let fits = |c: &usize| log == 368 * c && work == 32 * c;
        let capacity = (1..=MOST).find(fits);
        let refusal = if capacity.is_none() { 7 } else { 0 };
        let judge = Judge { capacity: capacity.unwrap_or(0), tenant, ..Judge::default() };
        (refusal, judge)
    }

    /// A judge with room for as many records as any.
    pub fn roomy(tenant: u64) -> Judge {
        Judge::open(368 * MOST, 32 * MOST, tenant).1
    }

    /// The number of records taken.
    pub fn count(&self) -> usize {
        self.past.len()
    }

    fn wrong_lengths(&self, log: usize, work: usize) -> bool {
        let c = self.capacity;
        c > MOST || log != 368 * c || work != 32 * c || self.count() > c
    }

    /// A push with the log and work area lent: refusals 5, 1, 2, 3, 4, 11, 6.
    pub fn push_lent(&mut self, log: usize, work: usize, bytes: &[u8]) -> u8 {
        if self.wrong_lengths(log, work) {
            return 5;
        }
        let form = refusal(bytes);
        if form != 0 {
            return form;
        }
        let x = entry(bytes);
        if events::continues_nothing(&self.past, &x) {
            11
        } else if self.count() == self.capacity {
            6
        } else {
            self.take(x);
            0
        }
    }

    /// A push with the right lengths.
    pub fn push(&mut self, bytes: &[u8]) -> u8 {
        self.push_lent(368 * self.capacity, 32 * self.capacity, bytes)
    }

    /// The words of `holders_of` or `blocks` into a list lent: refusals 5, 8. The
    /// rest of the list is left as it was.
    pub fn write_list(&self, log: usize, work: usize, answer: &[u64], list: &mut [u64]) -> u8 {
        if self.wrong_lengths(log, work) {
            return 5;
        }
        if list.len() < answer.len() {
            return 8;
        }
        list[..answer.len()].copy_from_slice(answer);
        0
    }

    fn take(&mut self, x: Entry) {
        self.past.push(x);
        self.roles.push(role(&self.past));
        self.half.take(&self.past);
        let puts = self.puts();
        let cases = [
            puts.agreement(),
            owners::overlap(&self.past),
            owners::install(&self.past, self.tenant),
            owners::twice(&self.past),
            self.half.case(&self.past),
            generations::case(puts),
            ids::case(&self.past),
            meta::case(puts),
        ];
        let position = events::number(&self.past);
        for (report, case) in self.reports.iter_mut().zip(cases) {
            let again = takes(Reading::LastFaultyRecord) && report.position == position;
            if (report.kind == 0 || again)
                && let Some((kind, evidence)) = case
            {
                *report = Report::fault(kind, position, &evidence);
            }
        }
    }

    fn puts(&self) -> Puts<'_> {
        Puts { past: &self.past, roles: &self.roles }
    }

    /// The eight reports.
    pub fn reports(&self) -> &Reports {
        &self.reports
    }
}

fn number(place: Option<usize>) -> Option<u64> {
    place.map(|place| place as u64 + 1)
}

impl Lookups for Judge {
    fn before(&self, range: u64, index: u64) -> Option<u64> {
        number(self.puts().before(range, index))
    }

    fn at(&self, range: u64, index: u64) -> Option<u64> {
        number(self.puts().at(range, index))
    }

    fn first_at_generation(&self, range: u64, generation: u64) -> Option<u64> {
        number(self.puts().first_at_generation(range, generation))
    }

    fn statements(&self) -> u64 {
        self.puts().statements()
    }

    fn is_empty(&self) -> bool {
        self.puts().is_empty()
    }

    fn holders_of(&self, id: u64) -> Vec<u64> {
        ids::holders_of(&self.past, id)
    }

    fn blocks(&self) -> Vec<[u64; 3]> {
        ids::blocks(&self.past)
    }
}
