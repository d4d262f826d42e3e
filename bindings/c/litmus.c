/* litmus: whether the header's fences order the object's own call after the announcement, and
 * before what hands in its reply. The library isn't linked: its exports are here the weakest steps
 * that they might be.
 *
 * Each of two threads stores to a word of its own, and loads the other's. One of the two steps is
 * what the object does; the other one is the announcement before it, or the view after it. Where no
 * fence is between the two steps, both loads may find nothing. Ends with 0 where that never
 * happens. */
#include "selfcheck.h"
#include <pthread.h>
#include <sched.h>
#include <stdio.h>
#undef selfcheck_announce
#undef selfcheck_answered
#undef selfcheck_publish

enum { ROUNDS = 100000 };

/* Each on a cache line of its own. */
struct word {
    _Alignas(128) uint32_t value;
};

struct thread {
    struct word *own, *other, *arrived;
    void (*call)(struct thread *me);
    uint32_t round, loaded;
    uint8_t missed[ROUNDS]; /* whether the other thread's store wasn't found, by rounds */
};

static void store_own(struct thread *me) {
    __atomic_store_n(&me->own->value, me->round, __ATOMIC_RELAXED);
}

static void load_other(struct thread *me) {
    me->loaded = __atomic_load_n(&me->other->value, __ATOMIC_RELAXED);
}

/* The announcement stores. */
uint32_t selfcheck_announce(struct selfcheck_slot *caller, uint64_t low, uint64_t high) {
    (void)low;
    (void)high;
    store_own((struct thread *)caller->at);
    return SELFCHECK_DONE;
}

/* The view loads. */
uint32_t selfcheck_answered(struct selfcheck_slot *caller, uint64_t reply) {
    (void)reply;
    load_other((struct thread *)caller->at);
    return SELFCHECK_DONE;
}

uint32_t selfcheck_publish(struct selfcheck_slot *caller, uint64_t reply) {
    return selfcheck_answered(caller, reply);
}

static void announce_and_ask(struct thread *me) {
    struct selfcheck_slot slot = {1, me};
    selfcheck_announce_inline(&slot, 0, 0);
    load_other(me);
}

static void ask_and_answer(struct thread *me) {
    struct selfcheck_slot slot = {1, me};
    store_own(me);
    selfcheck_answered_inline(&slot, 0);
}

static void ask_and_publish(struct thread *me) {
    struct selfcheck_slot slot = {1, me};
    store_own(me);
    selfcheck_publish_inline(&slot, 0);
}

/* Waits until both threads have come to this round. */
static void meet(uint32_t *arrived, uint32_t round) {
    __atomic_add_fetch(arrived, 1, __ATOMIC_ACQ_REL);
    for (unsigned spins = 1; __atomic_load_n(arrived, __ATOMIC_ACQUIRE) < 2 * round; spins++)
        /* the other thread may wait for this one's processor */
        if (spins % 1000 == 0) sched_yield();
}

static void *make_calls(void *argument) {
    struct thread *me = argument;
    for (me->round = 1; me->round <= ROUNDS; me->round++) {
        meet(&me->arrived->value, me->round);
        me->call(me);
        me->missed[me->round - 1] = me->loaded < me->round;
    }
    return NULL;
}

/* In how many rounds both threads missed what the other one stored. */
static unsigned missed_by_both(void (*call)(struct thread *me)) {
    static struct thread threads[2];
    struct word words[2] = {{0}, {0}}, arrived = {0};
    pthread_t second;
    unsigned both = 0;
    for (int i = 0; i < 2; i++) {
        threads[i].own = &words[i];
        threads[i].other = &words[1 - i];
        threads[i].arrived = &arrived;
        threads[i].call = call;
    }
    if (pthread_create(&second, NULL, make_calls, &threads[1]) != 0) return ROUNDS;
    make_calls(&threads[0]);
    pthread_join(second, NULL);
    for (int round = 0; round < ROUNDS; round++)
        both += threads[0].missed[round] && threads[1].missed[round];
    return both;
}

int main(void) {
    unsigned announced = missed_by_both(announce_and_ask);
    unsigned answered = missed_by_both(ask_and_answer);
    unsigned published = missed_by_both(ask_and_publish);
    printf("both missed: %u after the announcement, %u before the reply, ", announced, answered);
    printf("%u before the publication\n", published);
    return announced + answered + published != 0;
}
