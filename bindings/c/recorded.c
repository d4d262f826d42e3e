/* What selfcheck_recorder.h writes down of calls, whose books are worked by hand, and of threads
 * that come and go. Ends with 0 where all holds, and else with 1 and what doesn't. */
#define _POSIX_C_SOURCE 200809L
#include "selfcheck_recorder.h"
#include <pthread.h>

#define HOLDS(is_so) \
    do { \
        if (!(is_so)) { \
            printf("%s:%d: %s doesn't hold\n", __FILE__, __LINE__, #is_so); \
            exit(1); \
        } \
    } while (0)

enum { LONGEST = SELFCHECK_MAX_CALLERS * SELFCHECK_MAX_CALLS };

static uint8_t text[1 << 20];

static const uint64_t inc = (uint64_t)SELFCHECK_OP_INC << 32;
static const uint64_t deq = (uint64_t)SELFCHECK_OP_DEQ << 32;

static uint64_t enq(uint32_t value) {
    return selfcheck_word(SELFCHECK_OP_ENQ, value);
}

static struct selfcheck_recorder *opened(const char *kind, size_t calls) {
    struct selfcheck_recorder *recorder = selfcheck_recorder_new(kind, calls);
    HOLDS(recorder);
    return recorder;
}

static void call(struct selfcheck_recorder *recorder, uint64_t word, uint64_t reply) {
    selfcheck_return(recorder, selfcheck_invoke(recorder, word, 0), reply);
}

/* The book of a recorder's calls with a key, or of all, has so many calls and leaves out so many. */
static uint32_t verdict_of(struct selfcheck_recorder *recorder, const uint32_t *key, size_t kept,
    size_t left_out) {
    struct selfcheck_refusal refusal;
    struct selfcheck_extent extent = {0, 0};
    size_t written = 0, room = sizeof text - 1;
    uint32_t status = selfcheck_recorded_of(recorder, key, text, room, &written, &extent);
    HOLDS(status == SELFCHECK_DONE);
    HOLDS(extent.kept == kept && extent.left_out == left_out);
    text[written] = 0;
    return selfcheck_verify(text, written, &refusal);
}

/* The same of all calls of a recorder, which is freed. */
static uint32_t verdict(struct selfcheck_recorder *recorder, size_t kept, size_t left_out) {
    uint32_t status = verdict_of(recorder, NULL, kept, left_out);
    selfcheck_recorder_free(recorder);
    return status;
}

/* Whether the recorder, which is freed, has no book of a key, or of all calls. */
static int is_unfit(struct selfcheck_recorder *recorder, const uint32_t *key) {
    struct selfcheck_extent extent;
    size_t written;
    uint32_t status =
        selfcheck_recorded_of(recorder, key, text, sizeof text, &written, &extent);
    selfcheck_recorder_free(recorder);
    return status == SELFCHECK_UNFIT;
}

static int is_text(const char *wanted) {
    return strcmp((const char *)text, wanted) == 0;
}

static void try_texts(void) {
    struct selfcheck_recorder *recorder = opened("queue", 2);
    call(recorder, enq(5), SELFCHECK_REPLY_DONE);
    call(recorder, deq, SELFCHECK_REPLY_NONE);
    HOLDS(verdict(recorder, 2, 0) == SELFCHECK_ILLEGAL);
    HOLDS(is_text("book 2\nobject queue\ncallers 1\ncalls 2\n"
                  "0 0 enq 5 done view 0:1\n0 1 deq none view 0:2\nend\n"));

    recorder = opened("queue", 2);
    size_t put = selfcheck_invoke(recorder, enq(5), 0), take = selfcheck_invoke(recorder, deq, 0);
    selfcheck_return(recorder, put, SELFCHECK_REPLY_DONE);
    selfcheck_return(recorder, take, SELFCHECK_REPLY_NONE);
    HOLDS(verdict(recorder, 2, 0) == SELFCHECK_LEGAL);
    HOLDS(is_text("book 2\nobject queue\ncallers 2\ncalls 1 1\n"
                  "0 0 enq 5 done view 0:1 1:1\n1 0 deq none view 0:1 1:1\nend\n"));

    recorder = opened("casreg", 4);
    const uint64_t cas = selfcheck_word(SELFCHECK_OP_CAS, UINT32_MAX);
    call(recorder, selfcheck_word(SELFCHECK_OP_WRITE, UINT32_MAX), SELFCHECK_REPLY_DONE);
    selfcheck_return(recorder, selfcheck_invoke(recorder, cas, 9), SELFCHECK_REPLY_YES);
    selfcheck_return(recorder, selfcheck_invoke(recorder, cas, 8), SELFCHECK_REPLY_NO);
    call(recorder, selfcheck_word(SELFCHECK_OP_READ, 0), selfcheck_reply_value(9));
    HOLDS(verdict(recorder, 4, 0) == SELFCHECK_LEGAL);
    HOLDS(is_text("book 2\nobject casreg\ncallers 1\ncalls 4\n0 0 write 4294967295 done view 0:1\n"
                  "0 1 cas 4294967295 9 yes view 0:2\n0 2 cas 4294967295 8 no view 0:3\n"
                  "0 3 read =9 view 0:4\nend\n"));
    HOLDS(verdict(opened("map", 0), 0, 0) == SELFCHECK_LEGAL);
    HOLDS(is_text("book 2\nobject map\ncallers 1\ncalls 0\nend\n"));
}

/* Calls that never return keep their callers. */
static void try_lost(void) {
    struct selfcheck_recorder *recorder = opened("queue", 100);
    for (uint32_t value = 0; value < SELFCHECK_MAX_CALLERS; value++) {
        call(recorder, enq(value), SELFCHECK_REPLY_DONE);
        selfcheck_invoke(recorder, deq, 0);
    }
    call(recorder, deq, selfcheck_reply_value(0));
    HOLDS(verdict(recorder, 2 * SELFCHECK_MAX_CALLERS, 1) == SELFCHECK_LEGAL);
    recorder = opened("queue", 100);
    selfcheck_invoke(recorder, enq(7), 0);
    call(recorder, deq, selfcheck_reply_value(8));
    HOLDS(verdict(recorder, 2, 0) == SELFCHECK_ILLEGAL);
    HOLDS(is_text("book 2\nobject queue\ncallers 2\ncalls 1 1\n"
                  "0 0 enq 7\n1 0 deq =8 view 0:1 1:1\nend\n"));
}

/* Reads that never return are in no book. */
static void try_lost_reads(void) {
    static const struct {
        const char *kind, *calls;
    } cases[] = {
        {"queue", "0 0 enq 1\n1 0 deq\n"}, {"stack", "0 0 push 1\n1 0 pop\n"},
        {"register", "0 0 write 1\n"}, {"counter", "0 0 inc\n"},
        {"set", "0 0 add 1\n1 0 remove 1\n"}, {"pqueue", "0 0 insert 1\n1 0 min\n"},
        {"casreg", "0 0 write 1\n1 0 cas 1 0\n"}, {"map", "0 0 put 1 0\n1 0 del 1\n"},
    };
    for (size_t at = 0; at < sizeof cases / sizeof *cases; at++) {
        struct selfcheck_recorder *recorder = opened(cases[at].kind, 3);
        size_t lines = 0;
        for (unsigned number = 0; number < 3 && recorder->kind->operations[number].name; number++)
            selfcheck_invoke(recorder, ((uint64_t)(number + 1) << 32) + 1, 0);
        for (const char *it = cases[at].calls; *it; it++)
            lines += *it == '\n';
        HOLDS(verdict(recorder, lines, 0) == SELFCHECK_LEGAL);
        HOLDS(strstr((const char *)text, cases[at].calls) && strstr((const char *)text, "calls 1"));
    }
}

/* Two keys, of which one lost what was put: the book of each, and that of all. */
static void try_keys(void) {
    const uint64_t replies[] = {SELFCHECK_REPLY_NONE, SELFCHECK_REPLY_NONE, SELFCHECK_REPLY_NONE,
        selfcheck_reply_value(9)};
    const char *const texts[] = {"0 0 put 0 9 none view 0:1\n0 1 get 0 none view 0:2\nend\n",
        "0 0 put 1 9 none view 0:1\n0 1 get 1 =9 view 0:2\nend\n"};
    const uint32_t verdicts[] = {SELFCHECK_ILLEGAL, SELFCHECK_LEGAL}, none = 0;
    struct selfcheck_recorder *recorder = opened("map", 4);
    for (uint32_t at = 0; at < 4; at++) {
        enum selfcheck_operation operation = at < 2 ? SELFCHECK_OP_PUT : SELFCHECK_OP_GET;
        size_t made = selfcheck_invoke(recorder, selfcheck_word(operation, at % 2), at < 2 ? 9 : 0);
        selfcheck_return(recorder, made, replies[at]);
    }
    for (uint32_t key = 0; key < 2; key++) {
        HOLDS(verdict_of(recorder, &key, 2, 0) == verdicts[key]);
        HOLDS(strstr((const char *)text, texts[key]));
    }
    HOLDS(verdict(recorder, 4, 0) == SELFCHECK_ILLEGAL);
    HOLDS(is_unfit(opened("queue", 1), &none));
}

static void try_cuts(void) {
    /* seventeen at once: the book ends where the last one is invoked */
    struct selfcheck_recorder *recorder = opened("counter", 17);
    size_t calls[17];
    for (int at = 0; at < 17; at++)
        calls[at] = selfcheck_invoke(recorder, inc, 0);
    for (uint32_t at = 0; at < 17; at++)
        selfcheck_return(recorder, calls[at], selfcheck_reply_value(at));
    HOLDS(verdict(recorder, 16, 1) == SELFCHECK_LEGAL);
    HOLDS(strstr((const char *)text, "\n0 0 inc\n1 0 inc\n2 0 inc\n"));
    /* more than the recorder is for: what had returned by then has its reply */
    recorder = opened("counter", 2);
    size_t open = selfcheck_invoke(recorder, inc, 0);
    call(recorder, inc, selfcheck_reply_value(0));
    call(recorder, inc, selfcheck_reply_value(2));
    selfcheck_return(recorder, open, selfcheck_reply_value(1));
    HOLDS(verdict(recorder, 3, 0) == SELFCHECK_LEGAL);
    HOLDS(is_text("book 2\nobject counter\ncallers 2\ncalls 1 2\n"
                  "0 0 inc\n1 0 inc =0 view 0:1 1:1\n1 1 inc\nend\n"));
    recorder = opened("counter", 2);
    for (uint32_t number = 0; number < 5; number++)
        call(recorder, inc, selfcheck_reply_value(number));
    HOLDS(verdict(recorder, 2, 3) == SELFCHECK_LEGAL);
    /* how many calls come before two that overlap, and how many fit */
    const size_t cases[][2] = {
        {LONGEST, LONGEST}, {LONGEST - 1, LONGEST - 1}, {LONGEST - 2, LONGEST}};
    for (int at = 0; at < 3; at++) {
        size_t before = cases[at][0], kept = cases[at][1];
        recorder = opened("counter", before + 2);
        for (size_t number = 0; number < before; number++)
            call(recorder, inc, selfcheck_reply_value((uint32_t)number));
        calls[0] = selfcheck_invoke(recorder, inc, 0);
        calls[1] = selfcheck_invoke(recorder, inc, 0);
        selfcheck_return(recorder, calls[0], selfcheck_reply_value((uint32_t)before));
        selfcheck_return(recorder, calls[1], selfcheck_reply_value((uint32_t)before + 1));
        HOLDS(verdict(recorder, kept, before + 2 - kept) == SELFCHECK_LEGAL);
        HOLDS(!strstr((const char *)text, " inc\n"));
    }
}

static void try_refusals(void) {
    struct selfcheck_extent extent;
    size_t written = 0;
    HOLDS(!selfcheck_recorder_new("heap", 1) && !selfcheck_recorder_new("queue", SIZE_MAX));
    struct selfcheck_recorder *recorder = opened("counter", 1);
    HOLDS(selfcheck_recorded(recorder, NULL, 0, &written, &extent) == SELFCHECK_NO_ROOM);
    HOLDS(written == strlen("book 2\nobject counter\ncallers 1\ncalls 0\nend\n"));
    selfcheck_recorder_free(recorder);
    const uint64_t wrong[] = {0, (uint64_t)SELFCHECK_OP_CAS << 32, UINT64_MAX};
    for (int at = 0; at < 3; at++) {
        recorder = opened("register", 1);
        call(recorder, wrong[at], SELFCHECK_REPLY_DONE);
        HOLDS(is_unfit(recorder, NULL));
    }
}

struct shared {
    struct selfcheck_recorder *recorder;
    uint32_t number;
    int is_torn;
    pthread_barrier_t between;
};

/* Increments by one addition, or by a load and a store with a meeting of all threads between them.
 * */
static void *increment(void *at) {
    struct shared *shared = (struct shared *)at;
    for (int round = 0; round < 4; round++) {
        size_t made = selfcheck_invoke(shared->recorder, inc, 0);
        uint32_t number;
        if (shared->is_torn) {
            number = __atomic_load_n(&shared->number, __ATOMIC_SEQ_CST);
            pthread_barrier_wait(&shared->between);
            __atomic_store_n(&shared->number, number + 1, __ATOMIC_SEQ_CST);
        } else {
            number = __atomic_fetch_add(&shared->number, 1, __ATOMIC_SEQ_CST);
        }
        selfcheck_return(shared->recorder, made, selfcheck_reply_value(number));
    }
    return NULL;
}

/* Ten threads at once, and then the next ten. */
static void try_threads(int threads, int is_torn) {
    struct shared shared;
    shared.recorder = opened("counter", 4 * (size_t)threads);
    shared.number = 0;
    shared.is_torn = is_torn;
    pthread_barrier_init(&shared.between, NULL, 10);
    for (int begun = 0; begun < threads; begun += 10) {
        pthread_t made[10];
        for (int at = 0; at < 10; at++)
            HOLDS(pthread_create(&made[at], NULL, increment, &shared) == 0);
        for (int at = 0; at < 10; at++)
            pthread_join(made[at], NULL);
    }
    pthread_barrier_destroy(&shared.between);
    uint32_t wanted = is_torn ? SELFCHECK_ILLEGAL : SELFCHECK_LEGAL;
    HOLDS(verdict(shared.recorder, 4 * (size_t)threads, 0) == wanted);
}

int main(void) {
    try_texts();
    try_lost();
    try_lost_reads();
    try_keys();
    try_cuts();
    try_refusals();
    try_threads(1000, 0);
    try_threads(10, 1);
    return 0;
}
