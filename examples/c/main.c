/* A C host: the library's version, then two grants of ids that share an id, the first pushed, the second shown to an operator and
 * then committed, counted in a tally, and then judged as one trace; and last an event of two records. */
#include <inttypes.h>
#include <stdio.h>
#include <string.h>

#include "petalchurn.h"

#define CAPACITY 96

static uint8_t log_bytes[PETALCHURN_RECORD_SIZE * CAPACITY];
static uint64_t work[PETALCHURN_WORK_WORDS * CAPACITY];
static uint64_t state[PETALCHURN_STATE_WORDS];
static uint8_t tally[PETALCHURN_TALLY_SIZE];
static uint64_t previewed[8 * PETALCHURN_REPORT_WORDS];
static uint8_t ticket[PETALCHURN_TICKET_SIZE];

static const char *const checks[8] = {"agreement", "overlap", "install", "twice", "half", "generations", "ids", "meta"};

static void put_number(uint8_t *rec, size_t at, uint64_t number) {
    for (size_t i = 0; i < 8; i++)
        rec[at + i] = (uint8_t)(number >> (8 * i));
}

/* Kind 11: a node is granted the ids from first to last, at an index. */
static void grant(uint8_t *rec, uint64_t node, uint64_t index, uint64_t run, uint64_t first, uint64_t last) {
    memset(rec, 0, PETALCHURN_RECORD_SIZE);
    rec[0] = 11;
    put_number(rec, 8, node);
    put_number(rec, 16, index);
    put_number(rec, 24, run);
    put_number(rec, 32, first);
    put_number(rec, 40, last);
}

/* The descriptor of range 1, [b, f) and no voters: kind 2 puts it at an index, kind 12 says that the meta range names it. */
static void descriptor(uint8_t *rec, uint8_t kind, uint64_t index, uint64_t generation) {
    memset(rec, 0, PETALCHURN_RECORD_SIZE);
    rec[0] = kind;
    rec[2] = kind == 2 ? 1 : 0;
    put_number(rec, 8, 1);
    put_number(rec, 16, index);
    put_number(rec, 32, generation);
    rec[49] = 1;
    memcpy(rec + 112, "\001b", 2);
    memcpy(rec + 144, "\001f", 2);
}

static void print_report(const char *check, const uint64_t *report) {
    if (report[0] == 0) {
        printf("%s pass\n", check);
        return;
    }
    printf("%s fault %" PRIu64 " at %" PRIu64 ":", check, report[0], report[1]);
    for (size_t i = 2; i < PETALCHURN_REPORT_WORDS; i++)
        printf(" %" PRIu64, report[i]);
    printf("\n");
}

/* The count at a place of a record of the tally: of a check in printing order, or of the totals, the last. */
static uint32_t counted(size_t record, size_t place) {
    const uint8_t *at = tally + 40 * record + 4 * place;
    return at[0] | (uint32_t)at[1] << 8 | (uint32_t)at[2] << 16 | (uint32_t)at[3] << 24;
}

static uint64_t push(const uint8_t *rec, size_t len) {
    return petalchurn_push(state, PETALCHURN_STATE_WORDS, log_bytes, sizeof log_bytes, work, CAPACITY * PETALCHURN_WORK_WORDS, rec, len);
}

static uint64_t preview(const uint8_t *rec, size_t len) {
    return petalchurn_preview(state, PETALCHURN_STATE_WORDS, log_bytes, sizeof log_bytes, work, CAPACITY * PETALCHURN_WORK_WORDS, rec, len,
                              previewed, 8 * PETALCHURN_REPORT_WORDS, ticket, sizeof ticket);
}

static uint64_t commit(void) {
    return petalchurn_commit(state, PETALCHURN_STATE_WORDS, log_bytes, sizeof log_bytes, work, CAPACITY * PETALCHURN_WORK_WORDS, ticket,
                             sizeof ticket);
}

/* What the previewed record would do, for an operator: each report that would change, and the one that still stands. */
static void show_changes(void) {
    for (size_t i = 0; i < 8; i++) {
        const uint64_t *then = previewed + PETALCHURN_REPORT_WORDS * i;
        uint64_t now[PETALCHURN_REPORT_WORDS];
        petalchurn_report(state, PETALCHURN_STATE_WORDS, i + 1, now, PETALCHURN_REPORT_WORDS);
        if (memcmp(then, now, sizeof now) == 0)
            continue;
        printf("would be: ");
        print_report(checks[i], then);
        printf("still is: ");
        print_report(checks[i], now);
    }
}

/* A refused preview gives a ticket of zeros, which names no record. */
static int is_zeros(void) {
    for (size_t i = 0; i < sizeof ticket; i++)
        if (ticket[i] != 0)
            return 0;
    return 1;
}

/* A record shown and then committed by its ticket, which serves once: after that the count is another. */
static void show_then_commit(const uint8_t *rec) {
    printf("preview %" PRIu64 "\n", preview(rec, PETALCHURN_RECORD_SIZE));
    show_changes();
    printf("commit %" PRIu64 "\n", commit());
    printf("commit of the same ticket %" PRIu64 "\n", commit());
    printf("preview of 367 bytes %" PRIu64 ", ", preview(rec, PETALCHURN_RECORD_SIZE - 1));
    printf("%s\n", is_zeros() ? "a ticket of zeros" : "a ticket");
}

/* A push, and what the judge then has: the second word of state counts records, the third events. */
static void push_counted(const uint8_t *rec) {
    uint64_t refusal = push(rec, PETALCHURN_RECORD_SIZE);
    printf("push %" PRIu64 ": record %" PRIu64 ", event %" PRIu64 "\n", refusal, state[1], state[2]);
}

/* A descriptor, and then one meta apply that names two: kind 12 with flag 1 continues the event before it. The second is unknown,
 * and the fault has the number of the event. With another index nothing is continued. */
static void show_event(void) {
    uint8_t rec[PETALCHURN_RECORD_SIZE];
    uint64_t report[PETALCHURN_REPORT_WORDS];
    printf("open %" PRIu64 "\n",
           petalchurn_open(0, log_bytes, sizeof log_bytes, work, CAPACITY * PETALCHURN_WORK_WORDS, state, PETALCHURN_STATE_WORDS));
    descriptor(rec, 2, 3, 1);
    push_counted(rec);
    descriptor(rec, 12, 10, 1);
    push_counted(rec);
    descriptor(rec, 12, 11, 2);
    rec[3] = 1;
    push_counted(rec);
    descriptor(rec, 12, 10, 2);
    rec[3] = 1;
    push_counted(rec);
    petalchurn_report(state, PETALCHURN_STATE_WORDS, 8, report, PETALCHURN_REPORT_WORDS);
    print_report(checks[7], report);
}

int main(void) {
    uint8_t trace[2 * PETALCHURN_RECORD_SIZE];
    uint8_t *second = trace + PETALCHURN_RECORD_SIZE;
    uint64_t report[PETALCHURN_REPORT_WORDS], answer[PETALCHURN_TRACE_WORDS], list[8];

    printf("version %" PRIu64 "\n", petalchurn_version());
    if (petalchurn_version() != PETALCHURN_VERSION) {
        printf("the header's is %d\n", PETALCHURN_VERSION);
        return 1;
    }

    grant(trace, 1, 5, 1, 10, 19);
    grant(second, 2, 6, 1, 19, 30);

    printf("open %" PRIu64 "\n",
           petalchurn_open(0, log_bytes, sizeof log_bytes, work, CAPACITY * PETALCHURN_WORK_WORDS, state, PETALCHURN_STATE_WORDS));
    printf("push %" PRIu64 "\n", push(trace, PETALCHURN_RECORD_SIZE));
    show_then_commit(second);
    printf("push of 367 bytes %" PRIu64 "\n", push(trace, PETALCHURN_RECORD_SIZE - 1));

    printf("report %" PRIu64 "\n", petalchurn_report(state, PETALCHURN_STATE_WORDS, 7, report, PETALCHURN_REPORT_WORDS));
    print_report(checks[6], report);

    petalchurn_answer blocks = petalchurn_blocks(state, PETALCHURN_STATE_WORDS, log_bytes, sizeof log_bytes, work,
                                                 CAPACITY * PETALCHURN_WORK_WORDS, list, 8);
    printf("blocks %" PRIu64 " %" PRIu64 ":", blocks.refusal, blocks.value);
    for (size_t i = 0; i < 3 * blocks.value; i++)
        printf(" %" PRIu64, list[i]);
    printf("\n");
    petalchurn_answer holders = petalchurn_holders_of(state, PETALCHURN_STATE_WORDS, log_bytes, sizeof log_bytes, work,
                                                      CAPACITY * PETALCHURN_WORK_WORDS, 19, list, 1);
    printf("holders in one word %" PRIu64 " %" PRIu64 "\n", holders.refusal, holders.value);

    printf("tally %" PRIu64 "\n", petalchurn_tally_enter(state, PETALCHURN_STATE_WORDS, tally, sizeof tally));
    printf("%s faults of kind 3: %" PRIu32 " of %" PRIu32 " traces, %" PRIu32 " records\n", checks[6], counted(6, 3), counted(8, 0),
           counted(8, 1));

    printf("trace %" PRIu64 "\n", petalchurn_trace(0, log_bytes, sizeof log_bytes, work, CAPACITY * PETALCHURN_WORK_WORDS, trace,
                                                   sizeof trace, answer, PETALCHURN_TRACE_WORDS));
    for (size_t i = 0; i < 8; i++)
        print_report(checks[i], answer + 2 + PETALCHURN_REPORT_WORDS * i);
    printf("records %" PRIu64 "\n", answer[0]);
    printf("refused at %" PRIu64 "\n", answer[1]);

    show_event();
    return 0;
}
