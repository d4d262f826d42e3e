/* What selfcheck_model.h says of histories, by models.h and by models that are wrong. Ends with 0
 * where all holds, and else with 1 and what doesn't. */
#define _POSIX_C_SOURCE 200809L
#include "models.h"
#include <pthread.h>

#define HOLDS(is_so) \
    do { \
        if (!(is_so)) { \
            printf("%s:%d: %s doesn't hold\n", __FILE__, __LINE__, #is_so); \
            exit(1); \
        } \
    } while (0)

static struct selfcheck_check check;

static void open_check(const struct selfcheck_model *model, uint32_t callers) {
    HOLDS(selfcheck_check_open(&check, model, callers) == SELFCHECK_DONE);
}

static void begin(uint32_t caller, uint32_t op) {
    HOLDS(selfcheck_check_begin(&check, caller, op) == SELFCHECK_DONE);
}

static void end(uint32_t caller, uint32_t reply) {
    HOLDS(selfcheck_check_end(&check, caller, reply) == SELFCHECK_DONE);
}

/* The verdict of the check, which the model confirms, and which is closed. */
static uint32_t verdict(void) {
    uint32_t status = selfcheck_check_go_on(&check, UINT64_MAX);
    HOLDS(selfcheck_check_again(&check) == SELFCHECK_DONE);
    HOLDS(selfcheck_check_go_on(&check, UINT64_MAX) == status);
    selfcheck_check_close(&check);
    return status;
}

/* Calls one after another, worked by hand. With another reply to the last one the history is
 * illegal. */
static void try_models(void) {
    static const struct {
        const struct selfcheck_model *model;
        struct {
            uint32_t code, first, second, reply;
        } calls[8];
        uint32_t count, other;
    } cases[] = {
        {&deque_model, {{PUSH_BACK, 1, 0, DONE}, {PUSH_FRONT, 2, 0, DONE}, {POP_BACK, 0, 0, VALUE + 1},
            {POP_BACK, 0, 0, VALUE + 2}, {POP_FRONT, 0, 0, REFUSED}}, 5, VALUE},
        {&deque_model, {{PUSH_BACK, 1, 0, DONE}, {PUSH_BACK, 2, 0, DONE}, {PUSH_FRONT, 3, 0, DONE},
            {PUSH_BACK, 4, 0, DONE}, {PUSH_BACK, 5, 0, REFUSED}, {POP_FRONT, 0, 0, VALUE + 3},
            {POP_FRONT, 0, 0, VALUE + 1}, {POP_BACK, 0, 0, VALUE + 4}}, 8, VALUE + 2},
        {&lock_model, {{ACQUIRE, 1, 0, DONE}, {ACQUIRE, 2, 0, REFUSED}, {RELEASE, 2, 0, REFUSED},
            {RELEASE, 1, 0, DONE}, {ACQUIRE, 2, 0, DONE}}, 5, REFUSED},
        {&semaphore_model, {{ACQUIRE, 0, 0, DONE}, {ACQUIRE, 0, 0, DONE}, {ACQUIRE, 0, 0, REFUSED},
            {RELEASE, 0, 0, DONE}, {ACQUIRE, 0, 0, DONE}}, 5, REFUSED},
        {&counter_model, {{ADD, 3, 0, DONE}, {READ, 0, 0, VALUE + 3}, {ADD, 4, 0, DONE},
            {READ, 0, 0, VALUE + 7}}, 4, VALUE + 3},
        {&accounts_model, {{DEPOSIT, 1, 5, DONE}, {TRANSFER, 8 * 1 + 2, 6, REFUSED},
            {TRANSFER, 8 * 1 + 2, 5, DONE}, {BALANCE, 1, 0, VALUE}, {BALANCE, 2, 0, VALUE + 5}}, 5, VALUE},
        {&store_model, {{GET, 0, 0, VALUE}, {PUT, 0, 7, VALUE + 1}, {PUT_IF, 0, 8, REFUSED},
            {PUT_IF, 1, 9, VALUE + 2}, {GET, 0, 0, VALUE + 2 * 4096 + 9}}, 5, VALUE + 2 * 4096 + 7},
    };
    for (size_t at = 0; at < sizeof cases / sizeof *cases; at++)
        for (int is_wrong = 0; is_wrong < 2; is_wrong++) {
            open_check(cases[at].model, 1);
            for (uint32_t call = 0; call < cases[at].count; call++) {
                uint32_t reply = cases[at].calls[call].reply;
                begin(0, op_of(cases[at].calls[call].code, cases[at].calls[call].first,
                    cases[at].calls[call].second));
                end(0, is_wrong && call + 1 == cases[at].count ? cases[at].other : reply);
            }
            HOLDS(verdict() == (is_wrong ? SELFCHECK_ILLEGAL : SELFCHECK_LEGAL));
        }
}

/* The evidence of a counter of which one is added and two is read, worked by hand. */
static void try_evidence(void) {
    static const char wanted[] = "book 2\nobject model\ncallers 1\ncalls 2\n0 0 op 100667392 =1 view 0:1\n"
        "0 1 op 184549376 =4 view 0:2\nend\nsteps 2\nleaves op 184549376 =4\n0 op 100667392 1 =1\n"
        "1 op 184549376 1 =3\nend\n";
    uint8_t text[256] = {0};
    size_t length = 7;
    open_check(&counter_model, 1);
    begin(0, op_of(ADD, 1, 0));
    end(0, DONE);
    begin(0, op_of(READ, 0, 0));
    end(0, VALUE + 2);
    HOLDS(selfcheck_check_go_on(&check, UINT64_MAX) == SELFCHECK_ILLEGAL);
    HOLDS(selfcheck_model_evidence(&check.slot, NULL, 0, &length) == SELFCHECK_NO_ROOM && length == strlen(wanted));
    HOLDS(selfcheck_model_evidence(&check.slot, text, length - 1, &length) == SELFCHECK_NO_ROOM && text[0] == 0);
    HOLDS(selfcheck_model_evidence(&check.slot, text, sizeof text, &length) == SELFCHECK_DONE);
    HOLDS(length == strlen(wanted) && memcmp(text, wanted, length) == 0 && text[length] == 0);
    selfcheck_check_close(&check);
    HOLDS(selfcheck_model_evidence(&check.slot, text, sizeof text, &length) == SELFCHECK_UNFIT);
}

/* An order, what is asked for it, and how it is lost. */
static void try_orders(void) {
    struct selfcheck_placed order[4] = {{9, 9}, {9, 9}, {9, 9}, {9, 9}};
    size_t count = 7;
    open_check(&counter_model, 2);
    HOLDS(selfcheck_model_order(&check.slot, order, 4, &count) == SELFCHECK_UNFIT && count == 7);
    begin(0, op_of(ADD, 1, 0));
    begin(1, op_of(READ, 0, 0));
    end(1, VALUE + 1);
    end(0, DONE);
    HOLDS(selfcheck_check_go_on(&check, UINT64_MAX) == SELFCHECK_LEGAL);
    HOLDS(selfcheck_model_order(&check.slot, NULL, 0, &count) == SELFCHECK_NO_ROOM && count == 2);
    HOLDS(selfcheck_model_order(&check.slot, order, 4, &count) == SELFCHECK_DONE && count == 2);
    HOLDS(order[0].caller == 0 && order[0].number == 0 && order[1].caller == 1 && order[1].number == 0);
    HOLDS(order[2].caller == 9 && check.ops[1][0] == op_of(READ, 0, 0));
    begin(1, op_of(READ, 0, 0));
    HOLDS(selfcheck_model_order(&check.slot, order, 4, &count) == SELFCHECK_UNFIT);
    size_t tells = check.tells;
    end(1, VALUE);
    HOLDS(selfcheck_check_go_on(&check, UINT64_MAX) == SELFCHECK_ILLEGAL && check.tells >= tells);
    HOLDS(selfcheck_model_order(&check.slot, order, 4, &count) == SELFCHECK_UNFIT);
    selfcheck_check_close(&check);
}

static struct selfcheck_recorder *opened(const char *kind) {
    struct selfcheck_recorder *recorder = selfcheck_recorder_new(kind, 500);
    HOLDS(recorder);
    return recorder;
}

/* A deque that was emptied is as it was at first. */
static void try_states(void) {
    open_check(&deque_model, 1);
    for (int at = 0; at < 2; at++) {
        begin(0, op_of(PUSH_BACK, 5, 0));
        end(0, DONE);
        begin(0, op_of(POP_BACK, 0, 0));
        end(0, VALUE + 5);
    }
    HOLDS(selfcheck_check_go_on(&check, UINT64_MAX) == SELFCHECK_LEGAL);
    HOLDS(check.count == 2 && check.tells == 2);
    HOLDS(verdict() == SELFCHECK_LEGAL);
}

/* A lost call may have had its effect or not, at any time since. */
static void try_lost(void) {
    for (uint32_t taken = 5; taken <= 7; taken++) {
        open_check(&deque_model, 3);
        begin(1, op_of(PUSH_BACK, 6, 0));
        begin(0, op_of(PUSH_BACK, 5, 0));
        end(0, DONE);
        begin(2, op_of(POP_BACK, 0, 0));
        end(2, VALUE + taken);
        HOLDS(verdict() == (taken == 7 ? SELFCHECK_ILLEGAL : SELFCHECK_LEGAL));
    }
}

static void try_limits(void) {
    HOLDS(selfcheck_check_open(&check, &lock_model, 0) == SELFCHECK_UNFIT);
    HOLDS(selfcheck_check_open(&check, &lock_model, 17) == SELFCHECK_UNFIT);
    open_check(&counter_model, 16);
    for (uint32_t call = 0; call < SELFCHECK_MAX_CALLS; call++) {
        HOLDS(selfcheck_check_end(&check, 15, DONE) == SELFCHECK_UNFIT);
        begin(15, op_of(ADD, 1, 0));
        HOLDS(selfcheck_check_begin(&check, 15, op_of(ADD, 1, 0)) == SELFCHECK_UNFIT);
        end(15, DONE);
    }
    HOLDS(selfcheck_check_begin(&check, 15, 0) == SELFCHECK_UNFIT);
    HOLDS(selfcheck_check_begin(&check, 16, 0) == SELFCHECK_UNFIT);
    HOLDS(selfcheck_check_end(&check, 16, 0) == SELFCHECK_UNFIT);
    HOLDS(selfcheck_model_open(1, &check.slot) == SELFCHECK_UNFIT);
    HOLDS(verdict() == SELFCHECK_LEGAL);
    struct selfcheck_question question = {3, 4};
    HOLDS(selfcheck_model_next(&check.slot, 1, &question) == SELFCHECK_UNFIT && question.state == 3);
    HOLDS(selfcheck_model_tell(&check.slot, 0, 0, 0, 0) == SELFCHECK_UNFIT);
    HOLDS(selfcheck_model_leaves(&check.slot, 0, 0) == SELFCHECK_UNFIT);
}

/* Step by step, with pauses, the verdict is the same. */
static void try_pauses(void) {
    for (uint32_t seen = 0; seen < 2; seen++) {
        unsigned pauses = 0;
        uint32_t status;
        open_check(&counter_model, 8);
        for (uint32_t caller = 0; caller < 7; caller++)
            begin(caller, op_of(ADD, 1 << caller, 0));
        begin(7, op_of(READ, 0, 0));
        end(7, VALUE + 85 + 128 * seen);
        HOLDS(selfcheck_check_go_on(&check, 0) == SELFCHECK_PAUSED && check.tells == 0);
        HOLDS(selfcheck_check_go_on(&check, 32) == SELFCHECK_PAUSED && check.tells <= 2);
        while ((status = selfcheck_check_go_on(&check, 1)) == SELFCHECK_PAUSED)
            pauses++;
        HOLDS(status == (seen ? SELFCHECK_ILLEGAL : SELFCHECK_LEGAL) && pauses > 2);
        HOLDS(verdict() == status);
    }
}

static uint32_t forgotten;

static void remembering_init(void *state) {
    *(uint32_t *)state = forgotten & 16;
}

static uint32_t remembering_step(void *state, uint32_t op) {
    *(uint32_t *)state += op + (forgotten & 1);
    return DONE + (forgotten & 2);
}

static int leaves_all(uint32_t op, uint32_t reply) {
    (void)op;
    return reply == DONE;
}

/* A model that depends on what it isn't given, and one whose `leaves` isn't so. */
static void try_wrong_models(void) {
    static const struct selfcheck_model remembering = {
        sizeof(uint32_t), remembering_init, remembering_step, NULL};
    static const struct selfcheck_model changing = {
        sizeof(uint32_t), remembering_init, remembering_step, leaves_all};
    static const uint32_t changes[] = {1, 2, 16};
    for (size_t at = 0; at < 3; at++) {
        forgotten = 0;
        open_check(&remembering, 1);
        begin(0, 8);
        end(0, DONE);
        HOLDS(selfcheck_check_go_on(&check, UINT64_MAX) == SELFCHECK_LEGAL);
        HOLDS(selfcheck_check_again(&check) == SELFCHECK_DONE);
        forgotten = changes[at];
        HOLDS(selfcheck_check_again(&check) == SELFCHECK_CONTRADICTS);
        HOLDS(check.question.state == 0 && check.question.op == 8);
        forgotten = 0;
        HOLDS(verdict() == SELFCHECK_LEGAL);
    }
    /* it says so of a reply that is recorded, and of one that isn't, before and after the step */
    for (uint32_t reply = DONE; reply <= DONE + 1; reply++) {
        open_check(&changing, 1);
        begin(0, 8);
        end(0, reply);
        HOLDS(selfcheck_check_go_on(&check, UINT64_MAX) == SELFCHECK_LEAVES_NOT);
        HOLDS(check.question.state == 0 && check.question.op == 8);
        selfcheck_check_close(&check);
    }
    open_check(&changing, 1);
    HOLDS(selfcheck_model_tell(&check.slot, 0, 8, 1, DONE) == SELFCHECK_DONE);
    HOLDS(selfcheck_model_tell(&check.slot, 0, 8, 1, DONE) == SELFCHECK_DONE);
    HOLDS(selfcheck_model_tell(&check.slot, 0, 8, 0, DONE) == SELFCHECK_CONTRADICTS);
    begin(0, 8);
    HOLDS(selfcheck_check_end(&check, 0, DONE) == SELFCHECK_LEAVES_NOT);
    selfcheck_check_close(&check);
}

struct shared {
    const struct selfcheck_model *model;
    struct selfcheck_recorder *recorder;
    pthread_mutex_t lock;
    const uint32_t *codes;
    uint32_t count, state[8], threads;
};

/* Calls of random operations to the model itself behind a lock. */
static void *work(void *argument) {
    struct shared *shared = (struct shared *)argument;
    uint32_t draw = 2654435761u * __atomic_add_fetch(&shared->threads, 1, __ATOMIC_SEQ_CST);
    for (int at = 0; at < 40; at++) {
        draw = draw * 1664525u + 1013904223u;
        uint32_t code = shared->codes[(draw >> 16) % shared->count];
        uint32_t op = op_of(code, (draw >> 20) % 4, (draw >> 24) % 4);
        size_t call = selfcheck_model_invoke(shared->recorder, op);
        pthread_mutex_lock(&shared->lock);
        uint32_t reply = shared->model->step(shared->state, op);
        pthread_mutex_unlock(&shared->lock);
        selfcheck_model_return(shared->recorder, call, reply);
    }
    return NULL;
}

static void try_threads(const struct selfcheck_model *model, const uint32_t *codes, uint32_t count) {
    struct shared shared = {
        model, opened("model"), PTHREAD_MUTEX_INITIALIZER, codes, count, {0}, 0};
    struct selfcheck_extent extent;
    pthread_t threads[4];
    model->init(shared.state);
    for (int at = 0; at < 4; at++)
        HOLDS(pthread_create(&threads[at], NULL, work, &shared) == 0);
    for (int at = 0; at < 4; at++)
        pthread_join(threads[at], NULL);
    HOLDS(selfcheck_check_recorded(&check, model, shared.recorder, &extent) == SELFCHECK_DONE);
    HOLDS(extent.kept == 160 && extent.left_out == 0);
    HOLDS(verdict() == SELFCHECK_LEGAL);
    selfcheck_recorder_free(shared.recorder);
}

/* More calls at once than a book has callers, a lost one, and a recorder of a kind. */
static void try_recorders(void) {
    struct selfcheck_extent extent;
    size_t calls[17];
    struct selfcheck_recorder *recorder = opened("model");
    for (uint32_t at = 0; at < 17; at++)
        calls[at] = selfcheck_model_invoke(recorder, op_of(ACQUIRE, at, 0));
    for (uint32_t at = 0; at < 17; at++)
        selfcheck_model_return(recorder, calls[at], DONE);
    HOLDS(selfcheck_check_recorded(&check, &lock_model, recorder, &extent) == SELFCHECK_DONE);
    HOLDS(extent.kept == 16 && extent.left_out == 1 && verdict() == SELFCHECK_LEGAL);
    selfcheck_recorder_free(recorder);
    for (uint32_t reply = REFUSED; reply <= DONE; reply++) {
        recorder = opened("model");
        selfcheck_model_invoke(recorder, op_of(RELEASE, 1, 0));
        for (uint32_t owner = 1; owner <= 2; owner++) {
            size_t call = selfcheck_model_invoke(recorder, op_of(ACQUIRE, owner, 0));
            selfcheck_model_return(recorder, call, owner == 2 ? reply : (uint32_t)DONE);
        }
        HOLDS(selfcheck_check_recorded(&check, &lock_model, recorder, &extent) == SELFCHECK_DONE);
        HOLDS(extent.kept == 3 && verdict() == SELFCHECK_LEGAL);
        selfcheck_return(recorder, selfcheck_model_invoke(recorder, 0), SELFCHECK_REPLY_NONE);
        HOLDS(selfcheck_check_recorded(&check, &lock_model, recorder, &extent) == SELFCHECK_UNFIT);
        selfcheck_recorder_free(recorder);
    }
    recorder = opened("queue");
    HOLDS(selfcheck_check_recorded(&check, &lock_model, recorder, &extent) == SELFCHECK_UNFIT);
    selfcheck_check_close(&check);
    selfcheck_recorder_free(recorder);
}

int main(void) {
    try_models();
    try_evidence();
    try_orders();
    try_states();
    try_lost();
    try_limits();
    try_pauses();
    try_wrong_models();
    try_recorders();
    static const uint32_t codes[] = {PUSH_FRONT, PUSH_BACK, POP_FRONT, POP_BACK, ACQUIRE, RELEASE,
        ADD, READ, DEPOSIT, TRANSFER, BALANCE, PUT, PUT_IF, GET};
    try_threads(&deque_model, codes, 4);
    try_threads(&lock_model, codes + 4, 2);
    try_threads(&semaphore_model, codes + 4, 2);
    try_threads(&counter_model, codes + 6, 2);
    try_threads(&accounts_model, codes + 8, 3);
    try_threads(&store_model, codes + 11, 3);
    return 0;
}
