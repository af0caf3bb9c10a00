//! The two sides: the judge's library, and the published Rust fed in three ways.

use std::hint::black_box;

use ananke_env::sim::TraceRecord;
use oracle::decode::{unmarked, whole};
use oracle::driver::Five;
use oracle::report::{CHECKS, Report, Reports};
use oracle::wire::{RECORD, Record};

use crate::direct;

unsafe extern "C" {
    #[allow(clippy::too_many_arguments)]
    fn petalchurn_trace(
        tenant: u64,
        log: *mut u8,
        log_length: usize,
        work: *mut u64,
        work_length: usize,
        trace: *const u8,
        trace_length: usize,
        out: *mut u64,
        out_length: usize,
    ) -> u64;

    fn petalchurn_open(
        tenant: u64,
        log: *const u8,
        log_length: usize,
        work: *mut u64,
        work_length: usize,
        state: *mut u64,
        state_length: usize,
    ) -> u64;

    #[allow(clippy::too_many_arguments)]
    fn petalchurn_push(
        state: *mut u64,
        state_length: usize,
        log: *mut u8,
        log_length: usize,
        work: *mut u64,
        work_length: usize,
        rec: *const u8,
        rec_length: usize,
    ) -> u64;

    #[allow(clippy::too_many_arguments)]
    fn petalchurn_preview(
        state: *const u64,
        state_length: usize,
        log: *const u8,
        log_length: usize,
        work: *const u64,
        work_length: usize,
        rec: *const u8,
        rec_length: usize,
        reports: *mut u64,
        reports_length: usize,
        ticket: *mut u8,
        ticket_length: usize,
    ) -> u64;

    #[allow(clippy::too_many_arguments)]
    fn petalchurn_commit(
        state: *mut u64,
        state_length: usize,
        log: *mut u8,
        log_length: usize,
        work: *mut u64,
        work_length: usize,
        ticket: *const u8,
        ticket_length: usize,
    ) -> u64;
}

/// How many words an answer has: records taken, the refused record, eight reports of seven.
const ANSWER: usize = 58;

/// How many words a judge has: capacity, count, events, tenant, eight reports of seven.
pub const STATE: usize = HEADER + REPORTS;
pub const HEADER: usize = 4;

/// How many words a preview's reports have, and how many bytes its ticket.
const REPORTS: usize = 56;
const TICKET: usize = 376;

/// The buffers that a host lends the judge, for one capacity.
pub struct Buffers {
    log: Vec<u8>,
    work: Vec<u64>,
    out: [u64; ANSWER],
    state: [u64; STATE],
    reports: [u64; REPORTS],
    ticket: [u8; TICKET],
}

impl Buffers {
    pub fn new(capacity: usize) -> Buffers {
        let (log, work) = (vec![0; RECORD * capacity], vec![0; 32 * capacity]);
        let (reports, ticket) = ([0; REPORTS], [0; TICKET]);
        Buffers { log, work, out: [0; ANSWER], state: [0; STATE], reports, ticket }
    }

    /// Judges a trace. The call opens the judge, which clears the work area.
    pub fn judge(&mut self, tenant: u64, trace: &[u8]) {
        let refusal = unsafe {
            petalchurn_trace(
                tenant,
                self.log.as_mut_ptr(),
                self.log.len(),
                self.work.as_mut_ptr(),
                self.work.len(),
                trace.as_ptr(),
                trace.len(),
                self.out.as_mut_ptr(),
                ANSWER,
            )
        };
        assert_eq!(refusal, 0, "a trace was refused");
        black_box(&self.out);
    }

    /// The same record by record: opens a judge and pushes each, its words kept between the calls.
    pub fn push(&mut self, tenant: u64, trace: &[u8]) {
        self.open(tenant);
        let (log, work, state) = (&mut self.log, &mut self.work, &mut self.state);
        for record in trace.chunks(RECORD) {
            let refusal = unsafe {
                petalchurn_push(
                    state.as_mut_ptr(),
                    STATE,
                    log.as_mut_ptr(),
                    log.len(),
                    work.as_mut_ptr(),
                    work.len(),
                    record.as_ptr(),
                    record.len(),
                )
            };
            assert_eq!(refusal, 0, "a record was refused");
        }
        black_box(&self.state);
    }

    /// The same with each record previewed, and then committed by its ticket.
    pub fn preview(&mut self, tenant: u64, trace: &[u8]) {
        self.open(tenant);
        for record in trace.chunks(RECORD) {
            assert_eq!(self.show(record), 0, "a preview was refused");
            black_box(&self.reports);
            assert_eq!(self.commit(), 0, "a commit was refused");
        }
        black_box(&self.state);
    }

    fn open(&mut self, tenant: u64) {
        let refusal = unsafe {
            petalchurn_open(
                tenant,
                self.log.as_ptr(),
                self.log.len(),
                self.work.as_mut_ptr(),
                self.work.len(),
                self.state.as_mut_ptr(),
                STATE,
            )
        };
        assert_eq!(refusal, 0, "an opening was refused");
    }

    fn show(&mut self, record: &[u8]) -> u64 {
        unsafe {
            petalchurn_preview(
                self.state.as_ptr(),
                STATE,
                self.log.as_ptr(),
                self.log.len(),
                self.work.as_ptr(),
                self.work.len(),
                record.as_ptr(),
                record.len(),
                self.reports.as_mut_ptr(),
                REPORTS,
                self.ticket.as_mut_ptr(),
                TICKET,
            )
        }
    }

    fn commit(&mut self) -> u64 {
        unsafe {
            petalchurn_commit(
                self.state.as_mut_ptr(),
                STATE,
                self.log.as_mut_ptr(),
                self.log.len(),
                self.work.as_mut_ptr(),
                self.work.len(),
                self.ticket.as_ptr(),
                TICKET,
            )
        }
    }

    /// The eight reports of the last trace, and how many records it took.
    pub fn answer(&self) -> (u64, Reports) {
        (self.out[0], std::array::from_fn(|check| report(&self.out[2 + 7 * check..])))
    }

    /// The same of the last trace that was pushed or committed.
    pub fn pushed(&self) -> (u64, Reports) {
        (self.state[1], std::array::from_fn(|check| report(&self.state[HEADER + 7 * check..])))
    }

    /// The judge of the last trace that was pushed or committed.
    pub fn state(&self) -> [u64; STATE] {
        self.state
    }

    /// What was previewed of its last record.
    pub fn previewed(&self) -> [u64; REPORTS] {
        self.reports
    }
}

fn report(words: &[u64]) -> Report {
    Report {
        kind: words[0] as u8,
        position: words[1],
        evidence: std::array::from_fn(|i| words[2 + i]),
    }
}

/// The Rust over a trace's bytes, each record read by the oracle's own decoder, which tests
/// the form; the eight verdicts at the end. The structs come back, so that freeing them is
/// not measured.
pub fn rust(tenant: u64, trace: &[u8]) -> Five {
    let mut five = Five::default();
    let read = |bytes: &[u8; RECORD]| Record::decode(bytes).expect("a sound record");
    for records in direct::grouped(trace) {
        let event = match records {
            [one] => unmarked(&read(one)),
            _ => whole(&records.iter().map(read).collect::<Vec<_>>()),
        };
        five.push(&event, tenant);
    }
    verdicts(&five);
    five
}

/// The same with a decoder that tests nothing and makes the event at once.
pub fn rust_direct(tenant: u64, trace: &[u8]) -> Five {
    let mut five = Five::default();
    for records in direct::grouped(trace) {
        five.push(&direct::event(records), tenant);
    }
    verdicts(&five);
    five
}

/// The same over events that were decoded beforehand.
pub fn rust_decoded(tenant: u64, events: &[TraceRecord]) -> Five {
    let mut five = Five::default();
    for event in events {
        five.push(event, tenant);
    }
    verdicts(&five);
    five
}

/// As `rust_direct`, with the eight verdicts after each event. The judge gives them after each
/// record, inside an event too, which the Rust cannot do.
pub fn rust_each(tenant: u64, trace: &[u8]) -> Five {
    let mut five = Five::default();
    for records in direct::grouped(trace) {
        five.push(&direct::event(records), tenant);
        verdicts(&five);
    }
    five
}

fn verdicts(five: &Five) {
    for check in 0..CHECKS.len() {
        let _ = black_box(five.verdict(check));
    }
}
