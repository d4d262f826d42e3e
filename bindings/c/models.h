/* Ready models for selfcheck_model.h, as examples: a deque, which is a bounded queue where it is
 * used at its two ends alone, a lock with an owner, a semaphore, a counter, accounts, and a store
 * with versions of one key.
 *
 * An operation is a code with two arguments below 4096. A reply is REFUSED, DONE, or VALUE and more.
 */
#ifndef MODELS_H
#define MODELS_H

#include "selfcheck_model.h"

enum { REFUSED, DONE, VALUE };

/* codes; those from READS on change nothing */
enum {
    PUSH_FRONT, PUSH_BACK, POP_FRONT, POP_BACK, /* a deque: a value to push */
    ACQUIRE, RELEASE,                           /* a lock, by an owner; a semaphore */
    ADD,                                        /* a counter: by how much */
    DEPOSIT, TRANSFER,                          /* accounts: one, or 8 times the first and the second; how much */
    PUT, PUT_IF,                                /* a store: a value; for put_if, a version before it */
    READS, READ = READS, BALANCE, GET
};

static inline uint32_t op_of(uint32_t code, uint32_t first, uint32_t second) {
    return code << 24 | first << 12 | second;
}

static inline uint32_t code_of(uint32_t op) {
    return op >> 24;
}

static inline uint32_t first_of(uint32_t op) {
    return op >> 12 & 4095;
}

static inline uint32_t second_of(uint32_t op) {
    return op & 4095;
}

static inline int leaves_state(uint32_t op, uint32_t reply) {
    return reply == REFUSED || code_of(op) >= READS;
}

/* at first zeros */
static inline void zero_state(void *state) {
    (void)state;
}

/* Refuses to push when it has as many values as it has places, and to pop when it has none. */
enum { DEQUE_PLACES = 4 };

struct deque_state {
    uint32_t count, values[DEQUE_PLACES];
};

static inline uint32_t deque_step(void *state, uint32_t op) {
    struct deque_state *deque = (struct deque_state *)state;
    uint32_t *values = deque->values, value = first_of(op);
    const size_t all_but_one = sizeof deque->values - sizeof *deque->values;
    if (code_of(op) == PUSH_FRONT || code_of(op) == PUSH_BACK) {
        if (deque->count == DEQUE_PLACES) return REFUSED;
        if (code_of(op) == PUSH_FRONT) memmove(values + 1, values, all_but_one);
        values[code_of(op) == PUSH_FRONT ? 0 : deque->count] = value;
        deque->count++;
        return DONE;
    }
    if (deque->count == 0) return REFUSED;
    value = values[code_of(op) == POP_FRONT ? 0 : deque->count - 1];
    if (code_of(op) == POP_FRONT) memmove(values, values + 1, all_but_one);
    values[--deque->count] = 0;
    return VALUE + value;
}

/* The state is the owner and 1, or 0. Who doesn't own the lock is refused to release it. */
static inline uint32_t lock_step(void *state, uint32_t op) {
    uint32_t *owner = (uint32_t *)state, caller = first_of(op) + 1;
    if (*owner != (code_of(op) == ACQUIRE ? 0 : caller)) return REFUSED;
    *owner = code_of(op) == ACQUIRE ? caller : 0;
    return DONE;
}

static inline void semaphore_init(void *state) {
    *(uint32_t *)state = 2;
}

static inline uint32_t semaphore_step(void *state, uint32_t op) {
    uint32_t *permits = (uint32_t *)state;
    if (code_of(op) == ACQUIRE && *permits == 0) return REFUSED;
    *permits += code_of(op) == ACQUIRE ? (uint32_t)-1 : 1;
    return DONE;
}

static inline uint32_t counter_step(void *state, uint32_t op) {
    uint32_t *total = (uint32_t *)state;
    if (code_of(op) == READ) return VALUE + *total;
    *total += first_of(op);
    return DONE;
}

/* Eight accounts. A transfer of more than there is is refused. */
static inline uint32_t accounts_step(void *state, uint32_t op) {
    uint32_t *balances = (uint32_t *)state, amount = second_of(op);
    uint32_t *from = &balances[first_of(op) / 8 % 8], *to = &balances[first_of(op) % 8];
    if (code_of(op) == BALANCE) return VALUE + *to;
    if (code_of(op) == TRANSFER) {
        if (*from < amount) return REFUSED;
        *from -= amount;
    }
    *to += amount;
    return DONE;
}

/* Each put gives the next version; put_if is refused where the version isn't this one. The reply to
 * get is 4096 times the version, and the value. */
struct store_state {
    uint32_t version, value;
};

static inline uint32_t store_step(void *state, uint32_t op) {
    struct store_state *store = (struct store_state *)state;
    if (code_of(op) == GET) return VALUE + (store->version << 12) + store->value;
    if (code_of(op) == PUT_IF && store->version != first_of(op)) return REFUSED;
    store->value = second_of(op);
    return VALUE + ++store->version;
}

static const struct selfcheck_model deque_model = {
    sizeof(struct deque_state), zero_state, deque_step, leaves_state};
static const struct selfcheck_model lock_model = {
    sizeof(uint32_t), zero_state, lock_step, leaves_state};
static const struct selfcheck_model semaphore_model = {
    sizeof(uint32_t), semaphore_init, semaphore_step, leaves_state};
static const struct selfcheck_model counter_model = {
    sizeof(uint32_t), zero_state, counter_step, leaves_state};
static const struct selfcheck_model accounts_model = {
    8 * sizeof(uint32_t), zero_state, accounts_step, leaves_state};
static const struct selfcheck_model store_model = {
    sizeof(struct store_state), zero_state, store_step, leaves_state};

#endif
