/* Petalchurn, a judge of recorded traces: the interface for C, and for any language that can call C.
 *
 * A trace is a run of records of 368 bytes each; an event is one of them, or several. A judge takes them one at a time and reports,
 * for eight checks, the first fault or a pass. A record can be previewed before it is taken, and then committed by the ticket that
 * the preview gave. The judges of many traces are entered into a tally, which counts them. docs/MANUAL.md says what a record holds and
 * what each check means. Every function of the library is proved against its contract (crates/petalchurn/specs); none has a
 * condition on the values that it is given.
 *
 * Version
 *   PETALCHURN_VERSION is this header's version, petalchurn_version() that of the library which was linked. The number rises
 *   whenever a function, a length or a number in this header changes. A host compares the two before its first call.
 *
 * Buffers
 *   The caller owns every buffer. The library allocates nothing, keeps no pointer after a call, and has no state of its own:
 *   what it knows between calls is in three buffers, which belong together and which nothing else may change:
 *     state   PETALCHURN_STATE_WORDS words: the judge
 *     log     368 * C bytes: the records taken, one after the other
 *     work    32 * C words: what the checks note
 *   C is the capacity, the most records that the judge takes: 1 to 4096.
 *   A tally belongs to no judge: PETALCHURN_TALLY_SIZE bytes, which count the judges of a campaign of traces. It starts as zeros.
 *   Its bytes do not depend on the machine: it may be stored in a file as it is, and read back to be raised further.
 *   A ticket is PETALCHURN_TICKET_SIZE bytes that a preview writes and a commit takes: the count of the records that the judge had
 *   taken, in eight bytes, little-endian, then the record. Its bytes do not depend on the machine either. A host may keep it, lose
 *   it, or make one of its own: a commit tests everything anew.
 *   A buffer is passed as a pointer and a length: bytes for log, rec, ticket, trace and tally, words of 64 bits for the others. A pointer
 *   is not null, also where the length is 0, and is aligned for its elements; a buffer that a call writes overlaps no other of
 *   that call.
 *   If state, log and work do not come from one run of calls, every call is still safe. A push, a commit and a preview then still
 *   give the refusals of the table; a push or commit that takes its record still counts it, copies it to its place and changes no
 *   other byte of the log; a refused preview still shows what is said below, and any preview still gives the ticket that is; a
 *   report still is what stands in state, and so is what an entry counts; a look-up is still refused by 5 where the table says so
 *   and else by 8 alone, which only petalchurn_holders_of and petalchurn_blocks give. The last record taken is then what the log
 *   holds there; a node mark that is not 1 counts as none. Whatever number the events were, a push or commit that takes its record
 *   leaves them as they were where the record continues an event, and else one higher, but 18446744073709551615 as it was. Nothing is
 *   promised of the reports and the words of work that such a push or commit writes, nor of the reports that a preview shows of a
 *   record that would be taken, nor of what a look-up that is not refused answers. A refused push, commit, report, look-up or entry
 *   still leaves every buffer as it was.
 *
 * At the same time
 *   A call touches no memory but the buffers that it is given and its stack, and takes no lock. Two calls may run at the same
 *   time unless one of them writes a buffer that the other is given too. So on one judge
 *     petalchurn_report, the look-ups and petalchurn_preview, which only read its three buffers, may run together, each with lists of
 *     its own to write;
 *     petalchurn_tally_enter, which only reads state, may run beside those, each with a tally of its own;
 *     petalchurn_push and petalchurn_commit write all three and need them alone; petalchurn_open and petalchurn_trace need alone
 *     what they are given.
 *   Calls on different judges are independent; they may read one record or one trace together. But each entry writes its tally:
 *   entries into one tally come one after the other, whichever judges they are of.
 *
 * Refusals
 *   A refused call returns a number from this table, else 0; a look-up has it in its answer. A refused call leaves every buffer
 *   as it was, except where petalchurn_open, petalchurn_trace and petalchurn_preview say otherwise.
 *     1  a record, or a trace's tail, is not 368 bytes
 *     2  kind not 1 to 12
 *     3  node mark not 0 or 1; sub-code, flag, voter count or span count not one of the kind's values (0 alone where it has
 *        none; the flag is 0 or 1 in kinds 1 and 12, voters are 0 to 5 in kinds 1, 2 and 12); a counted span's key length above 31
 *     4  a place that the kind does not use is not zero: also the node without its mark, a parent without the flag, bytes 50 to
 *        55, voters and spans past their counts, so the last two voter places always, a key's padding, kind 3's end; or a place
 *        that a tally does not use is not zero
 *     5  state is no judge's: not 60 words, a report's kind above 255, a capacity above 4096, a count above the capacity; or log
 *        is not 368 * capacity bytes, or work not 32 * capacity words; or tally is not 360 bytes, or a report to be counted has a
 *        kind that its check lacks
 *     6  the judge has taken as many records as its capacity
 *     7  for no capacity from 1 to 4096 is log 368 * C bytes and work 32 * C words
 *     8  the list for the answer is too short (for petalchurn_open: state is not 60 words)
 *     9  a count of a tally that is to be raised would pass 4294967295
 *     10 a ticket's count is not the judge's, or the ticket has fewer than eight bytes and so no count
 *     11 a record of kind 12 with flag 1 where no record has been taken, or where the last record taken is not of kind 12 with the
 *        same node mark, node and index
 *   A push tests 5, 1, 2, 3, 4, 11, 6 in that order, a preview 8 and then the same, a commit 5, 10, 1, 2, 3, 4, 11, 6. petalchurn_report
 *   and the look-ups test 5, then 8. petalchurn_open and petalchurn_trace test 8, then 7; petalchurn_trace then pushes.
 *   petalchurn_tally_enter tests 5, 4, 9.
 *
 * A report is seven words: its kind, the number of the event that it arose at (from 1), and five evidence numbers, missing ones
 * 0. A pass is seven zeros. The eight reports, numbered in printing order:
 *     1 agreement  2 overlap  3 install  4 twice  5 half  6 generations  7 ids  8 meta
 *
 * Events and records. A record of kind 12 with flag 1 continues the event of the record taken before it; every other record begins an
 * event, one of kind 12 with flag 0 also where its numbers are those of the record before it. (Kind 1's flag is a parent, and
 * continues nothing.) The number of an event is how many records up to it begin one. A fault that arises inside an event has that
 * event's number, and the kind and evidence of its first faulty record; after each record the reports are those of the events so far,
 * the last of them as far as it was taken. Refused pushes and previews between two records of an event do not part it. Numbers of
 * events are the positions of all eight reports, and the events in state. Records are counted by the capacity, the count in state and
 * in a ticket, both numbers of petalchurn_trace and a tally's totals, and a look-up that names a record gives the record's number.
 *
 * The 60 words of state: capacity, count of the records taken, count of their events, tenant, then the eight reports, seven words each.
 *
 * The 360 bytes of a tally: nine records of ten counts, each of 32 bits, little-endian. The count at place p of record r, both
 * from 0, is the four bytes from 40 * r + 4 * p on.
 *     records 0 to 7   a check each, in printing order: at place 0 the traces that passed, at place k those with a fault of kind k
 *     record 8         the totals: at place 0 the traces, at place 1 the records taken
 * Every other place is unused, and zero. How many kinds of fault a check has, in printing order: 3, 1, 1, 1, 2, 2, 3, 4.
 *
 * Usage: a judge for up to 96 records
 *     static uint8_t log_[368 * 96];
 *     static uint64_t work[32 * 96], state[PETALCHURN_STATE_WORDS], report[PETALCHURN_REPORT_WORDS];
 *     if (petalchurn_version() != PETALCHURN_VERSION)
 *         return 1;
 *     if (petalchurn_open(0, log_, sizeof log_, work, 32 * 96, state, PETALCHURN_STATE_WORDS) != 0)
 *         return 1;
 *     while (next_record(rec))
 *         if ((refusal = petalchurn_push(state, PETALCHURN_STATE_WORDS, log_, sizeof log_, work, 32 * 96, rec, 368)) != 0)
 *             return 1;
 *     petalchurn_report(state, PETALCHURN_STATE_WORDS, 7, report, PETALCHURN_REPORT_WORDS);
 *     if (report[0] != 0)
 *         printf("ids: fault %" PRIu64 " at event %" PRIu64 "\n", report[0], report[1]);
 * or, to show an operator what a record would do before it is taken, with uint64_t reports[8 * PETALCHURN_REPORT_WORDS] and
 * uint8_t ticket[PETALCHURN_TICKET_SIZE],
 *     refusal = petalchurn_preview(state, PETALCHURN_STATE_WORDS, log_, sizeof log_, work, 32 * 96, rec, 368,
 *                                  reports, 8 * PETALCHURN_REPORT_WORDS, ticket, sizeof ticket);
 *     if (refusal == 0 && agreed(reports))
 *         refusal = petalchurn_commit(state, PETALCHURN_STATE_WORDS, log_, sizeof log_, work, 32 * 96, ticket, sizeof ticket);
 * and, with one static uint8_t tally[PETALCHURN_TALLY_SIZE] for all traces,
 *     if ((refusal = petalchurn_tally_enter(state, PETALCHURN_STATE_WORDS, tally, sizeof tally)) != 0)
 *         return 1;
 */
#ifndef PETALCHURN_H
#define PETALCHURN_H

#include <stddef.h>
#include <stdint.h>

#ifdef __cplusplus
extern "C" {
#endif

#define PETALCHURN_VERSION 5        /* rises with every change of this interface */
#define PETALCHURN_RECORD_SIZE 368  /* bytes of a record */
#define PETALCHURN_VOTER_LIMIT 5    /* the most voters of a record, which has places for seven */
#define PETALCHURN_WORK_WORDS 32    /* words of the work area for each record of the capacity */
#define PETALCHURN_CAPACITY 4096    /* the largest capacity */
#define PETALCHURN_STATE_WORDS 60   /* words of a judge */
#define PETALCHURN_REPORT_WORDS 7   /* words of a report */
#define PETALCHURN_TRACE_WORDS 58   /* words of a whole trace's answer */
#define PETALCHURN_TICKET_SIZE 376  /* bytes of a ticket */
#define PETALCHURN_TALLY_SIZE 360   /* bytes of a tally */

/* What a look-up answers: the refusal's number, and the value, which is 0 where the call is refused. */
typedef struct {
    uint64_t refusal;
    uint64_t value;
} petalchurn_answer;

/* The library's version: PETALCHURN_VERSION of the header that it was made with. Never refused. */
uint64_t petalchurn_version(void);

/* Opens a judge over a log and a work area, whose lengths say its capacity; tenant is the number that names a group's keys.
 * Refusals: 8 (nothing is written), 7.
 * Writes all of state: the opened judge, of count 0, no events and eight passes; at refusal 7 the same with capacity 0.
 * Zeroes all of work; at refusal 7 work is as it was. Of the log only the length is looked at. */
uint64_t petalchurn_open(uint64_t tenant, const uint8_t *log, size_t log_len, uint64_t *work, size_t work_len,
                         uint64_t *state, size_t state_len);

/* Takes one record: judges it, notes it in work, copies it to the log after those taken before, and writes the judge to state.
 * After a fault records are still taken; a check's first fault stays. A refused push leaves all three as they were.
 * Refusals: 5, 1, 2, 3, 4, 11, 6. */
uint64_t petalchurn_push(uint64_t *state, size_t state_len, uint8_t *log, size_t log_len, uint64_t *work, size_t work_len,
                         const uint8_t *rec, size_t rec_len);

/* Shows what a push of a record would do, and alters nothing of state, log and work. It returns what that push would return.
 * Refusals: 8 where reports has fewer than 56 words or ticket fewer than 376 bytes (nothing is written), then 5, 1, 2, 3, 4, 11, 6.
 * Writes the first 56 words of reports and the first 376 bytes of ticket, at every refusal but 8 too, and leaves the rest:
 *     not refused   the eight reports that the judge would have, seven words each; the ticket of the record
 *     refused       the present eight reports, under 5 eight passes; a ticket of zeros
 * Previews leave no mark: between other calls any number of them may be made, and every later call gives what it gives without. */
uint64_t petalchurn_preview(const uint64_t *state, size_t state_len, const uint8_t *log, size_t log_len, const uint64_t *work,
                            size_t work_len, const uint8_t *rec, size_t rec_len, uint64_t *reports, size_t reports_len,
                            uint8_t *ticket, size_t ticket_len);

/* Takes the record of a ticket where the judge has taken as many records as the ticket says, and is then the push of that record:
 * what follows the ticket's eight bytes of count is pushed, so that a ticket of another length than 376 bytes draws 1. A second
 * commit of one ticket draws 10, and so does a ticket of zeros, which in a judge that has taken no record draws 2. A refused
 * commit leaves all three as they were.
 * Refusals: 5, 10, 1, 2, 3, 4, 11, 6. */
uint64_t petalchurn_commit(uint64_t *state, size_t state_len, uint8_t *log, size_t log_len, uint64_t *work, size_t work_len,
                           const uint8_t *ticket, size_t ticket_len);

/* Writes the report with number k, 1 to 8, to the first seven words of out; the rest of out is left. Any other k
 * gives a pass.
 * Refusals: 5 (by the state alone), 8. */
uint64_t petalchurn_report(const uint64_t *state, size_t state_len, uint64_t k, uint64_t *out, size_t out_len);

/* Judges a whole trace: opens a judge, and pushes the trace's records, of 368 bytes each, up to the first refusal, which it
 * returns; a tail that is shorter is refused with 1. The records before it remain taken: log and work are as those pushes left
 * them, and the log's bytes past them as they were.
 * Refusals: 8 (nothing is written), 7 (log and work are as they were), 1, 2, 3, 4, 11, 6.
 * Writes the first 58 words of out, at every refusal but 8 too, and leaves the rest:
 *     0        how many records were taken
 *     1        the number of the refused record, from 1; 0 where none was refused or the opening was
 *     2 to 57  the eight reports, seven words each */
uint64_t petalchurn_trace(uint64_t tenant, uint8_t *log, size_t log_len, uint64_t *work, size_t work_len,
                          const uint8_t *trace, size_t trace_len, uint64_t *out, size_t out_len);

/* The number of the record that put one of a range's standing values, which are the first put at each index: the value at the
 * greatest index below the one given; at the greatest index not above it; and of those with a generation the one put first, in
 * time. 0 where there is none.
 * Refusals: 5. */
petalchurn_answer petalchurn_before(const uint64_t *state, size_t state_len, const uint8_t *log, size_t log_len,
                                    const uint64_t *work, size_t work_len, uint64_t range, uint64_t index);
petalchurn_answer petalchurn_at(const uint64_t *state, size_t state_len, const uint8_t *log, size_t log_len,
                                const uint64_t *work, size_t work_len, uint64_t range, uint64_t index);
petalchurn_answer petalchurn_first_at_generation(const uint64_t *state, size_t state_len, const uint8_t *log, size_t log_len,
                                                 const uint64_t *work, size_t work_len, uint64_t range, uint64_t generation);

/* How many statements of descriptors were taken; and 1 where no value has been put, else 0.
 * Refusals: 5. */
petalchurn_answer petalchurn_statements(const uint64_t *state, size_t state_len, const uint8_t *log, size_t log_len,
                                        const uint64_t *work, size_t work_len);
petalchurn_answer petalchurn_is_empty(const uint64_t *state, size_t state_len, const uint8_t *log, size_t log_len,
                                      const uint64_t *work, size_t work_len);

/* Writes the node of each block of ids that contains an id, one word each; or every block, three words each: first, last, node.
 * Both come by first id, then by time. The value is how many there are, not how many words; the rest of out is left. As many
 * words as the records taken, or three times as many, are always enough. Where the ids report is a pass an id has one holder at
 * most, and one word is enough for petalchurn_holders_of.
 * Refusals: 5, then 8 where out is shorter than the answer. */
petalchurn_answer petalchurn_holders_of(const uint64_t *state, size_t state_len, const uint8_t *log, size_t log_len,
                                        const uint64_t *work, size_t work_len, uint64_t id, uint64_t *out, size_t out_len);
petalchurn_answer petalchurn_blocks(const uint64_t *state, size_t state_len, const uint8_t *log, size_t log_len,
                                    const uint64_t *work, size_t work_len, uint64_t *out, size_t out_len);

/* Enters a judge into a tally: for each check raises its passes or the faults of its report's kind by one, the traces by one, and
 * the records by those that the judge has taken; every other byte stays. From a tally of zeros, after any entries, every count is
 * that of the entries not refused, and each check's passes and faults add up to the traces. Whether a tally that is given adds up
 * is not tested. State is only read; log and work are not needed. Whether the judge has finished is not tested either: it counts
 * as it stands, and again if it is entered again; one whose opening was refused counts as eight passes, with no records.
 * Refusals: 5 (by the state alone, a report's kind, or the tally's length), 4, 9 (a full count that is not to be raised is none).
 * All are tested before anything is added; a refused entry leaves the tally as it was. */
uint64_t petalchurn_tally_enter(const uint64_t *state, size_t state_len, uint8_t *tally, size_t tally_len);

#ifdef __cplusplus
}
#endif

#endif
