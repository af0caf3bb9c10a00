//! The three buffers that a host lends a judge, whatever they hold and however long they are, and
//! the calls that take a record: push, preview and commit.
//!
//! What a preview only reads is lent as if it were written: else the compiler might take it that it
//! is not, and a comparison would see nothing.

use oracle::preview::{Lent, REPORTS, TICKET};

unsafe extern "C" {
    fn petalchurn_push(
        state: *mut u64,
        state_len: usize,
        log: *mut u8,
        log_len: usize,
        work: *mut u64,
        work_len: usize,
        record: *const u8,
        record_len: usize,
    ) -> u64;
    fn petalchurn_preview(
        state: *const u64,
        state_len: usize,
        log: *const u8,
        log_len: usize,
        work: *const u64,
        work_len: usize,
        record: *const u8,
        record_len: usize,
        reports: *mut u64,
        reports_len: usize,
        ticket: *mut u8,
        ticket_len: usize,
    ) -> u64;
    fn petalchurn_commit(
        state: *mut u64,
        state_len: usize,
        log: *mut u8,
        log_len: usize,
        work: *mut u64,
        work_len: usize,
        ticket: *const u8,
        ticket_len: usize,
    ) -> u64;
}

#[derive(Clone, Debug, PartialEq, Eq)]
pub struct Buffers {
    pub state: Vec<u64>,
    pub log: Vec<u8>,
    pub work: Vec<u64>,
}

impl Buffers {
    /// The refusal of a push.
    pub fn push(&mut self, bytes: &[u8]) -> u64 {
        unsafe {
            petalchurn_push(
                self.state.as_mut_ptr(),
                self.state.len(),
                self.log.as_mut_ptr(),
                self.log.len(),
                self.work.as_mut_ptr(),
                self.work.len(),
                bytes.as_ptr(),
                bytes.len(),
            )
        }
    }

    /// The refusal of a preview, which writes to the lists.
    pub fn preview(&mut self, bytes: &[u8], lists: &mut Lists) -> u64 {
        let mut lent = bytes.to_vec();
        let refusal = unsafe {
            let (reports, ticket) = (lists.reports.lent(), lists.ticket.lent());
            petalchurn_preview(
                self.state.as_mut_ptr(),
                self.state.len(),
                self.log.as_mut_ptr(),
                self.log.len(),
                self.work.as_mut_ptr(),
                self.work.len(),
                lent.as_mut_ptr(),
                lent.len(),
                reports.as_mut_ptr(),
                reports.len(),
                ticket.as_mut_ptr(),
                ticket.len(),
            )
        };
        assert_eq!(lent, bytes, "a preview wrote to its record");
        refusal
    }

    /// The refusal of a commit.
    pub fn commit(&mut self, ticket: &[u8]) -> u64 {
        let mut lent = ticket.to_vec();
        let refusal = unsafe {
            petalchurn_commit(
                self.state.as_mut_ptr(),
                self.state.len(),
                self.log.as_mut_ptr(),
                self.log.len(),
                self.work.as_mut_ptr(),
                self.work.len(),
                lent.as_mut_ptr(),
                lent.len(),
            )
        };
        assert_eq!(lent, ticket, "a commit wrote to its ticket");
        refusal
    }

    /// What is lent beside the state: the log, and the length of the work area.
    pub fn lent(&self) -> Lent<'_> {
        (&self.log, self.work.len())
    }

    /// Which of the three is not as the other's, in words.
    pub fn differ(&self, other: &Buffers) -> Option<&'static str> {
        let same = [self.state == other.state, self.log == other.log, self.work == other.work];
        let at = same.iter().position(|same| !same)?;
        Some(["state", "log", "work"][at])
    }
}

/// A list for an answer, with room on both sides that no call may write. All of it starts as one
/// value that no answer has everywhere, so that a place which is not written shows, and one that is
/// written past the list.
#[derive(Clone, Debug, PartialEq, Eq)]
pub struct List<T> {
    all: Vec<T>,
    around: usize,
}

impl<T: Copy> List<T> {
    fn new(length: usize, before: T, around: usize) -> List<T> {
        List { all: vec![before; length + 2 * around], around }
    }

    /// What the call is given.
    fn lent(&mut self) -> &mut [T] {
        let end = self.all.len() - self.around;
        &mut self.all[self.around..end]
    }

    /// The first elements of what the call was given.
    pub fn first(&self, length: usize) -> &[T] {
        &self.all[self.around..self.around + length]
    }

    fn write(&mut self, answer: &[T]) {
        self.lent()[..answer.len()].copy_from_slice(answer);
    }
}

/// The two lists of a preview.
#[derive(Clone, Debug, PartialEq, Eq)]
pub struct Lists {
    pub reports: List<u64>,
    pub ticket: List<u8>,
}

impl Lists {
    /// Lists of so many words and bytes, with as much around them as an answer takes.
    pub fn new(reports: usize, ticket: usize) -> Lists {
        Lists {
            reports: List::new(reports, 0xa5a5_a5a5_a5a5_a5a5, REPORTS),
            ticket: List::new(ticket, 0xa5, TICKET),
        }
    }

    /// The same with an answer at their beginnings, and the rest as it was.
    pub fn with(mut self, reports: &[u64], ticket: &[u8]) -> Lists {
        self.reports.write(reports);
        self.ticket.write(ticket);
        self
    }

    /// Which of the two is not as the other's, in words: the element where it first differs, from
    /// the list's beginning, and both values.
    pub fn differ(&self, other: &Lists) -> Option<String> {
        let reports = first_other("reports", &self.reports, &other.reports);
        reports.or_else(|| first_other("ticket", &self.ticket, &other.ticket))
    }
}

fn first_other<T>(name: &str, ours: &List<T>, other: &List<T>) -> Option<String>
where
    T: PartialEq + std::fmt::Display,
{
    let at = (0..other.all.len()).find(|at| ours.all[*at] != other.all[*at])?;
    let place = at as i64 - ours.around as i64;
    Some(format!("{name} at {place}: {}, not {}", ours.all[at], other.all[at]))
}

impl Default for Lists {
    /// Just long enough.
    fn default() -> Lists {
        Lists::new(REPORTS, TICKET)
    }
}
