//! The Rattle judge behind its C interface (include/petalchurn.h), as a `Judging`.

use oracle::judging::Judging;
use oracle::lookups::Lookups;
use oracle::report::{Report, Reports};

use crate::buffers::Buffers;

const STATE: usize = 60;
const WORDS: usize = 32;
const RECORD: usize = 368;

#[repr(C)]
struct Answer {
    refusal: u64,
    value: u64,
}

unsafe extern "C" {
    fn petalchurn_open(
        tenant: u64,
        log: *const u8,
        log_len: usize,
        work: *mut u64,
        work_len: usize,
        state: *mut u64,
        state_len: usize,
    ) -> u64;
    fn petalchurn_report(
        state: *const u64,
        state_len: usize,
        check: u64,
        out: *mut u64,
        out_len: usize,
    ) -> u64;
    fn petalchurn_trace(
        tenant: u64,
        log: *mut u8,
        log_len: usize,
        work: *mut u64,
        work_len: usize,
        trace: *const u8,
        trace_len: usize,
        out: *mut u64,
        out_len: usize,
    ) -> u64;
    fn petalchurn_tally_enter(
        state: *const u64,
        state_len: usize,
        tally: *mut u8,
        tally_len: usize,
    ) -> u64;
}

/// Declares look-ups that take a state, a log, a work area and so many numbers.
macro_rules! look_ups {
    ($($name:ident($($number:ident),*);)*) => {
        unsafe extern "C" {
            $(fn $name(
                state: *const u64,
                state_len: usize,
                log: *const u8,
                log_len: usize,
                work: *const u64,
                work_len: usize,
                $($number: u64),*
            ) -> Answer;)*
        }
    };
}

look_ups! {
    petalchurn_before(range, index);
    petalchurn_at(range, index);
    petalchurn_first_at_generation(range, generation);
    petalchurn_statements();
    petalchurn_is_empty();
}

unsafe extern "C" {
    fn petalchurn_holders_of(
        state: *const u64,
        state_len: usize,
        log: *const u8,
        log_len: usize,
        work: *const u64,
        work_len: usize,
        id: u64,
        out: *mut u64,
        out_len: usize,
    ) -> Answer;
    fn petalchurn_blocks(
        state: *const u64,
        state_len: usize,
        log: *const u8,
        log_len: usize,
        work: *const u64,
        work_len: usize,
        out: *mut u64,
        out_len: usize,
    ) -> Answer;
}

/// A judge with its buffers.
#[derive(Clone)]
pub struct Host {
    pub buffers: Buffers,
    reports: Reports,
}

/// What stands in the buffers before an opening: nothing may depend on it.
pub const BEFORE: u8 = 0xa5;

impl Host {
    pub fn open(tenant: u64, capacity: usize) -> Host {
        let (refusal, host) = Host::lent(tenant, RECORD * capacity, WORDS * capacity);
        assert_eq!(refusal, 0, "an opening of capacity {capacity}");
        host
    }

    /// The refusal of an opening over so many bytes and words, and what it gives: a judge that has
    /// taken nothing and passes, of capacity 0 where it is refused.
    pub fn lent(tenant: u64, bytes: usize, words: usize) -> (u64, Host) {
        let mut buffers = Buffers {
            log: vec![BEFORE; bytes],
            work: vec![u64::from(BEFORE); words],
            state: vec![u64::MAX; STATE],
        };
        let refusal = unsafe {
            petalchurn_open(
                tenant,
                buffers.log.as_ptr(),
                buffers.log.len(),
                buffers.work.as_mut_ptr(),
                buffers.work.len(),
                buffers.state.as_mut_ptr(),
                STATE,
            )
        };
        let capacity = if refusal == 0 { bytes / RECORD } else { 0 };
        let header = [capacity as u64, 0, 0, tenant];
        assert_eq!(buffers.state, [&header[..], &[0; 56]].concat(), "the judge of an opening");
        (refusal, Host { buffers, reports: Reports::default() })
    }

    /// Asks all eight reports.
    pub fn ask(&mut self) {
        for check in 1..=8 {
            self.reports[check - 1] = self.report(check as u64);
        }
    }

    fn report(&self, check: u64) -> Report {
        let mut out = [0u64; 7];
        let state = self.buffers.state.as_ptr();
        let refusal =
            unsafe { petalchurn_report(state, STATE, check, out.as_mut_ptr(), out.len()) };
        assert_eq!(refusal, 0, "report {check}");
        report_in(&out)
    }

    fn value(
        &self,
        call: impl FnOnce(*const u64, usize, *const u8, usize, *const u64, usize) -> Answer,
    ) -> u64 {
        let Buffers { state, log, work } = &self.buffers;
        let state = state.as_ptr();
        let answer = call(state, STATE, log.as_ptr(), log.len(), work.as_ptr(), work.len());
        assert_eq!(answer.refusal, 0, "a look-up");
        answer.value
    }
}

/// A report in seven words: kind, position, evidence.
pub fn report_in(words: &[u64]) -> Report {
    let kind = u8::try_from(words[0]).expect("a kind");
    Report { kind, position: words[1], evidence: words[2..7].try_into().expect("five numbers") }
}

/// The whole trace in one call: the refusal, and the 58 words.
pub fn whole(tenant: u64, capacity: usize, trace: &[u8]) -> (u64, [u64; 58]) {
    let mut log = vec![BEFORE; RECORD * capacity];
    let mut work = vec![u64::from(BEFORE); WORDS * capacity];
    let mut out = [u64::MAX; 58];
    let refusal = unsafe {
        petalchurn_trace(
            tenant,
            log.as_mut_ptr(),
            log.len(),
            work.as_mut_ptr(),
            work.len(),
            trace.as_ptr(),
            trace.len(),
            out.as_mut_ptr(),
            out.len(),
        )
    };
    (refusal, out)
}

/// The refusal of an entry of a judge's words into a tally. The words are lent as if they were
/// written: else the compiler might take it that they are not, and a comparison would see nothing.
pub fn enter(state: &mut [u64], tally: &mut [u8]) -> u64 {
    unsafe { petalchurn_tally_enter(state.as_ptr(), state.len(), tally.as_mut_ptr(), tally.len()) }
}

/// 0 stands for none.
fn found(number: u64) -> Option<u64> {
    (number != 0).then_some(number)
}

impl Lookups for Host {
    fn before(&self, range: u64, index: u64) -> Option<u64> {
        found(
            self.value(|s, n, l, m, w, k| unsafe {
                petalchurn_before(s, n, l, m, w, k, range, index)
            }),
        )
    }

    fn at(&self, range: u64, index: u64) -> Option<u64> {
        found(
            self.value(|s, n, l, m, w, k| unsafe { petalchurn_at(s, n, l, m, w, k, range, index) }),
        )
    }

    fn first_at_generation(&self, range: u64, generation: u64) -> Option<u64> {
        found(self.value(|s, n, l, m, w, k| unsafe {
            petalchurn_first_at_generation(s, n, l, m, w, k, range, generation)
        }))
    }

    fn statements(&self) -> u64 {
        self.value(|s, n, l, m, w, k| unsafe { petalchurn_statements(s, n, l, m, w, k) })
    }

    fn is_empty(&self) -> bool {
        self.value(|s, n, l, m, w, k| unsafe { petalchurn_is_empty(s, n, l, m, w, k) }) != 0
    }

    fn holders_of(&self, id: u64) -> Vec<u64> {
        let mut out = vec![0u64; self.buffers.log.len() / RECORD];
        let (list, room) = (out.as_mut_ptr(), out.len());
        let count = self.value(|s, n, l, m, w, k| unsafe {
            petalchurn_holders_of(s, n, l, m, w, k, id, list, room)
        });
        out.truncate(count as usize);
        out
    }

    fn blocks(&self) -> Vec<[u64; 3]> {
        let mut out = vec![0u64; 3 * (self.buffers.log.len() / RECORD)];
        let (list, room) = (out.as_mut_ptr(), out.len());
        let count = self
            .value(|s, n, l, m, w, k| unsafe { petalchurn_blocks(s, n, l, m, w, k, list, room) });
        let words = out[..3 * count as usize].chunks_exact(3);
        words.map(|block| block.try_into().expect("three words")).collect()
    }
}

impl Judging for Host {
    fn take(&mut self, bytes: &[u8]) -> u8 {
        let refusal = self.buffers.push(bytes) as u8;
        self.ask();
        refusal
    }

    fn eight(&self) -> &Reports {
        &self.reports
    }
}
