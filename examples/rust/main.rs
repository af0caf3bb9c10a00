//! A Rust host: the library's version, then two grants of ids that share an id, the first pushed, the second shown to an operator
//! and then committed, counted in a tally, and then judged as one trace; and last an event of two records.

/// What a look-up answers: the refusal's number, and the value, 0 where the call is refused.
#[repr(C)]
struct Answer {
    refusal: u64,
    value: u64,
}

/// The functions of `include/petalchurn.h` that this host calls.
mod library {
    use super::Answer;

    extern "C" {
        pub fn petalchurn_version() -> u64;
        pub fn petalchurn_open(
            tenant: u64,
            log: *const u8,
            log_len: usize,
            work: *mut u64,
            work_len: usize,
            state: *mut u64,
            state_len: usize,
        ) -> u64;
        pub fn petalchurn_push(
            state: *mut u64,
            state_len: usize,
            log: *mut u8,
            log_len: usize,
            work: *mut u64,
            work_len: usize,
            rec: *const u8,
            rec_len: usize,
        ) -> u64;
        pub fn petalchurn_preview(
            state: *const u64,
            state_len: usize,
            log: *const u8,
            log_len: usize,
            work: *const u64,
            work_len: usize,
            rec: *const u8,
            rec_len: usize,
            reports: *mut u64,
            reports_len: usize,
            ticket: *mut u8,
            ticket_len: usize,
        ) -> u64;
        pub fn petalchurn_commit(
            state: *mut u64,
            state_len: usize,
            log: *mut u8,
            log_len: usize,
            work: *mut u64,
            work_len: usize,
            ticket: *const u8,
            ticket_len: usize,
        ) -> u64;
        pub fn petalchurn_report(
            state: *const u64,
            state_len: usize,
            k: u64,
            out: *mut u64,
            out_len: usize,
        ) -> u64;
        pub fn petalchurn_blocks(
            state: *const u64,
            state_len: usize,
            log: *const u8,
            log_len: usize,
            work: *const u64,
            work_len: usize,
            out: *mut u64,
            out_len: usize,
        ) -> Answer;
        pub fn petalchurn_holders_of(
            state: *const u64,
            state_len: usize,
            log: *const u8,
            log_len: usize,
            work: *const u64,
            work_len: usize,
            id: u64,
            out: *mut u64,
            out_len: usize,
        ) -> Answer;
        pub fn petalchurn_trace(
            tenant: u64,
            log: *mut u8,
            log_len: usize,
            work: *mut u64,
            work_len: usize,
            trace: *const u8,
            trace_len: usize,
            out: *mut u64,
            out_len: usize,
        ) -> u64;
        pub fn petalchurn_tally_enter(
            state: *const u64,
            state_len: usize,
            tally: *mut u8,
            tally_len: usize,
        ) -> u64;
    }
}

// The macros of the header.
const VERSION: u64 = 5;
const RECORD_SIZE: usize = 368;
const WORK_WORDS: usize = 32;
const STATE_WORDS: usize = 60;
const REPORT_WORDS: usize = 7;
const TRACE_WORDS: usize = 58;
const TALLY_SIZE: usize = 360;
const TICKET_SIZE: usize = 376;

const CHECKS: [&str; 8] = [
    "agreement", "overlap", "install", "twice", "half", "generations", "ids", "meta",
];

/// What a preview gives: the refusal, the reports that the judge would have, and the ticket by which the record is committed.
struct Preview {
    refusal: u64,
    reports: [u64; 8 * REPORT_WORDS],
    ticket: [u8; TICKET_SIZE],
}

/// A judge with the buffers that it is lent. A slice's pointer and length meet what the header asks of a buffer, and `&mut` that
/// no other buffer overlaps one that is written, so each call below is safe.
struct Judge {
    state: [u64; STATE_WORDS],
    log: Vec<u8>,
    work: Vec<u64>,
}

impl Judge {
    fn open(tenant: u64, capacity: usize) -> Result<Judge, u64> {
        let mut judge = Judge {
            state: [0; STATE_WORDS],
            log: vec![0; RECORD_SIZE * capacity],
            work: vec![0; WORK_WORDS * capacity],
        };
        let refusal = unsafe {
            library::petalchurn_open(
                tenant,
                judge.log.as_ptr(),
                judge.log.len(),
                judge.work.as_mut_ptr(),
                judge.work.len(),
                judge.state.as_mut_ptr(),
                judge.state.len(),
            )
        };
        if refusal == 0 { Ok(judge) } else { Err(refusal) }
    }

    fn push(&mut self, rec: &[u8]) -> u64 {
        unsafe {
            library::petalchurn_push(
                self.state.as_mut_ptr(),
                self.state.len(),
                self.log.as_mut_ptr(),
                self.log.len(),
                self.work.as_mut_ptr(),
                self.work.len(),
                rec.as_ptr(),
                rec.len(),
            )
        }
    }

    /// Alters nothing of the judge: `&self` is enough.
    fn preview(&self, rec: &[u8]) -> Preview {
        let mut preview = Preview { refusal: 0, reports: [0; 8 * REPORT_WORDS], ticket: [0; TICKET_SIZE] };
        preview.refusal = unsafe {
            library::petalchurn_preview(
                self.state.as_ptr(),
                self.state.len(),
                self.log.as_ptr(),
                self.log.len(),
                self.work.as_ptr(),
                self.work.len(),
                rec.as_ptr(),
                rec.len(),
                preview.reports.as_mut_ptr(),
                preview.reports.len(),
                preview.ticket.as_mut_ptr(),
                preview.ticket.len(),
            )
        };
        preview
    }

    fn commit(&mut self, ticket: &[u8]) -> u64 {
        unsafe {
            library::petalchurn_commit(
                self.state.as_mut_ptr(),
                self.state.len(),
                self.log.as_mut_ptr(),
                self.log.len(),
                self.work.as_mut_ptr(),
                self.work.len(),
                ticket.as_ptr(),
                ticket.len(),
            )
        }
    }

    fn report(&self, k: u64, out: &mut [u64]) -> u64 {
        unsafe {
            library::petalchurn_report(
                self.state.as_ptr(),
                self.state.len(),
                k,
                out.as_mut_ptr(),
                out.len(),
            )
        }
    }

    fn blocks(&self, out: &mut [u64]) -> Answer {
        unsafe {
            library::petalchurn_blocks(
                self.state.as_ptr(),
                self.state.len(),
                self.log.as_ptr(),
                self.log.len(),
                self.work.as_ptr(),
                self.work.len(),
                out.as_mut_ptr(),
                out.len(),
            )
        }
    }

    fn holders_of(&self, id: u64, out: &mut [u64]) -> Answer {
        unsafe {
            library::petalchurn_holders_of(
                self.state.as_ptr(),
                self.state.len(),
                self.log.as_ptr(),
                self.log.len(),
                self.work.as_ptr(),
                self.work.len(),
                id,
                out.as_mut_ptr(),
                out.len(),
            )
        }
    }

    fn enter(&self, tally: &mut [u8]) -> u64 {
        unsafe {
            library::petalchurn_tally_enter(
                self.state.as_ptr(),
                self.state.len(),
                tally.as_mut_ptr(),
                tally.len(),
            )
        }
    }

    fn trace(&mut self, tenant: u64, trace: &[u8], out: &mut [u64]) -> u64 {
        unsafe {
            library::petalchurn_trace(
                tenant,
                self.log.as_mut_ptr(),
                self.log.len(),
                self.work.as_mut_ptr(),
                self.work.len(),
                trace.as_ptr(),
                trace.len(),
                out.as_mut_ptr(),
                out.len(),
            )
        }
    }
}

/// Kind 11: a node is granted the ids from first to last, at an index.
fn grant(node: u64, index: u64, run: u64, first: u64, last: u64) -> [u8; RECORD_SIZE] {
    let mut rec = [0u8; RECORD_SIZE];
    rec[0] = 11;
    for (k, number) in [node, index, run, first, last].into_iter().enumerate() {
        rec[8 + 8 * k..16 + 8 * k].copy_from_slice(&number.to_le_bytes());
    }
    rec
}

/// The descriptor of range 1, [b, f) and no voters: kind 2 puts it at an index, kind 12 says that the meta range names it.
fn descriptor(kind: u8, flag: u8, index: u64, generation: u64) -> [u8; RECORD_SIZE] {
    let mut rec = [0u8; RECORD_SIZE];
    rec[0] = kind;
    rec[2] = u8::from(kind == 2);
    rec[3] = flag;
    for (at, number) in [(8, 1), (16, index), (32, generation)] {
        rec[at..at + 8].copy_from_slice(&number.to_le_bytes());
    }
    rec[49] = 1;
    rec[112..114].copy_from_slice(b"\x01b");
    rec[144..146].copy_from_slice(b"\x01f");
    rec
}

fn words(list: &[u64]) -> String {
    list.iter().map(|word| format!(" {word}")).collect()
}

fn print_report(check: &str, report: &[u64]) {
    if report[0] == 0 {
        println!("{check} pass");
    } else {
        println!("{check} fault {} at {}:{}", report[0], report[1], words(&report[2..]));
    }
}

/// What a previewed record would do, for an operator: each report that would change, and the one that still stands.
fn show_changes(judge: &Judge, preview: &Preview) {
    for (place, then) in preview.reports.chunks(REPORT_WORDS).enumerate() {
        let mut now = [0; REPORT_WORDS];
        judge.report(place as u64 + 1, &mut now);
        if then != now {
            print!("would be: ");
            print_report(CHECKS[place], then);
            print!("still is: ");
            print_report(CHECKS[place], &now);
        }
    }
}

/// A record shown and then committed by its ticket, which serves once: after that the count is another. A refused preview gives a
/// ticket of zeros, which names no record.
fn show_then_commit(judge: &mut Judge, rec: &[u8]) {
    let preview = judge.preview(rec);
    println!("preview {}", preview.refusal);
    show_changes(judge, &preview);
    println!("commit {}", judge.commit(&preview.ticket));
    println!("commit of the same ticket {}", judge.commit(&preview.ticket));
    let torn = judge.preview(&rec[..RECORD_SIZE - 1]);
    let given = if torn.ticket == [0; TICKET_SIZE] { "a ticket of zeros" } else { "a ticket" };
    println!("preview of 367 bytes {}, {given}", torn.refusal);
}

/// A push, and what the judge then has: the second word of its state counts records, the third events.
fn push_counted(judge: &mut Judge, rec: &[u8]) {
    let refusal = judge.push(rec);
    println!("push {refusal}: record {}, event {}", judge.state[1], judge.state[2]);
}

/// A descriptor, and then one meta apply that names two: kind 12 with flag 1 continues the event before it. The second is unknown,
/// and the fault has the number of the event. With another index nothing is continued.
fn show_event(mut judge: Judge) {
    println!("open 0");
    push_counted(&mut judge, &descriptor(2, 0, 3, 1));
    push_counted(&mut judge, &descriptor(12, 0, 10, 1));
    push_counted(&mut judge, &descriptor(12, 1, 11, 2));
    push_counted(&mut judge, &descriptor(12, 1, 10, 2));
    let mut report = [0; REPORT_WORDS];
    judge.report(8, &mut report);
    print_report(CHECKS[7], &report);
}

/// The count at a place of a record of a tally: of a check in printing order, or of the totals, the last.
fn counted(tally: &[u8], record: usize, place: usize) -> u32 {
    let at = 40 * record + 4 * place;
    u32::from_le_bytes(tally[at..at + 4].try_into().expect("four bytes"))
}

fn main() {
    let version = unsafe { library::petalchurn_version() };
    println!("version {version}");
    if version != VERSION {
        println!("the header's is {VERSION}");
        return;
    }

    let first = grant(1, 5, 1, 10, 19);
    let second = grant(2, 6, 1, 19, 30);

    let mut judge = match Judge::open(0, 96) {
        Ok(judge) => judge,
        Err(refusal) => {
            println!("open {refusal}");
            return;
        }
    };
    println!("open 0");
    println!("push {}", judge.push(&first));
    show_then_commit(&mut judge, &second);
    println!("push of 367 bytes {}", judge.push(&first[..RECORD_SIZE - 1]));

    let mut report = [0; REPORT_WORDS];
    println!("report {}", judge.report(7, &mut report));
    print_report(CHECKS[6], &report);

    let mut list = [0; 8];
    let blocks = judge.blocks(&mut list);
    println!("blocks {} {}:{}", blocks.refusal, blocks.value, words(&list[..3 * blocks.value as usize]));
    let holders = judge.holders_of(19, &mut list[..1]);
    println!("holders in one word {} {}", holders.refusal, holders.value);

    let mut tally = [0; TALLY_SIZE];
    println!("tally {}", judge.enter(&mut tally));
    let (faults, traces, records) = (counted(&tally, 6, 3), counted(&tally, 8, 0), counted(&tally, 8, 1));
    println!("{} faults of kind 3: {faults} of {traces} traces, {records} records", CHECKS[6]);

    let mut answer = [0; TRACE_WORDS];
    println!("trace {}", judge.trace(0, &[first, second].concat(), &mut answer));
    for (check, report) in CHECKS.iter().zip(answer[2..].chunks(REPORT_WORDS)) {
        print_report(check, report);
    }
    println!("records {}", answer[0]);
    println!("refused at {}", answer[1]);

    match Judge::open(0, 96) {
        Ok(judge) => show_event(judge),
        Err(refusal) => println!("open {refusal}"),
    }
}
