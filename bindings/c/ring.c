/* ring [watched]: a queue that checks itself at each call. It is a ring of four places, which forgets to ask whether it is
 * full: the fifth value goes over the first one, and the call that takes it is the error. Writes the witness of the error,
 * and ends with the status of the last call. With the word `watched` its calls are only published, and a monitor judges
 * them at the end. The header's selfcheck_announce, selfcheck_answered and selfcheck_publish have the
 * fences round the ring's own calls. */
#include "selfcheck.h"
#include <pthread.h>
#include <stdio.h>
#include <stdlib.h>
#include <string.h>

struct ring {
    pthread_mutex_t lock;
    uint32_t values[4];
    unsigned first, count;
};

static void put(struct ring *ring, uint32_t value) {
    pthread_mutex_lock(&ring->lock);
    ring->values[(ring->first + ring->count) % 4] = value;
    ring->count++;
    pthread_mutex_unlock(&ring->lock);
}

/* Whether there was a value. */
static int take(struct ring *ring, uint32_t *value) {
    pthread_mutex_lock(&ring->lock);
    int some = ring->count > 0;
    if (some) {
        *value = ring->values[ring->first];
        ring->first = (ring->first + 1) % 4;
        ring->count--;
    }
    pthread_mutex_unlock(&ring->lock);
    return some;
}

/* The ring as one of its callers has it, for one thread at a time. */
struct caller {
    struct ring *ring;
    struct selfcheck_slot slot;
    uint32_t (*end)(struct selfcheck_slot *caller, uint64_t reply); /* judges a call, or publishes it for the monitor */
    uint32_t status;
};

static uint32_t enq(struct caller *me, uint32_t value) {
    uint32_t status = selfcheck_announce(&me->slot, selfcheck_word(SELFCHECK_OP_ENQ, value), 0);
    if (status != SELFCHECK_DONE) return status;
    put(me->ring, value);
    return me->end(&me->slot, SELFCHECK_REPLY_DONE);
}

static uint32_t deq(struct caller *me, int *some, uint32_t *value) {
    uint32_t status = selfcheck_announce(&me->slot, selfcheck_word(SELFCHECK_OP_DEQ, 0), 0);
    if (status != SELFCHECK_DONE) return status;
    *some = take(me->ring, value);
    return me->end(&me->slot, *some ? selfcheck_reply_value(*value) : SELFCHECK_REPLY_NONE);
}

static void *produce(void *argument) {
    struct caller *me = argument;
    for (uint32_t value = 1; value <= 5 && me->status == SELFCHECK_DONE; value++) me->status = enq(me, value);
    return NULL;
}

static void *consume(void *argument) {
    struct caller *me = argument;
    int some = 1;
    uint32_t value;
    while (some && me->status == SELFCHECK_DONE) {
        me->status = deq(me, &some, &value);
        if (some && me->status == SELFCHECK_DONE) printf("%u\n", (unsigned)value);
    }
    return NULL;
}

static void write_witness(struct selfcheck_slot *holder) {
    uint8_t *buffer = NULL;
    size_t room = 256, written = 0;
    uint32_t status = SELFCHECK_NO_MEMORY;
    do {
        uint8_t *longer = realloc(buffer, room);
        if (longer == NULL) break;
        buffer = longer;
        status = selfcheck_witness(holder, buffer, room, &written);
        room = written;
    } while (status == SELFCHECK_NO_ROOM);
    if (status == SELFCHECK_DONE) fwrite(buffer, 1, written, stdout);
    free(buffer);
}

int main(int count, char **words) {
    int watched = count == 2 && strcmp(words[1], "watched") == 0;
    uint32_t (*end)(struct selfcheck_slot *, uint64_t) = watched ? selfcheck_publish : selfcheck_answered;
    struct ring ring = {PTHREAD_MUTEX_INITIALIZER, {0}, 0, 0};
    struct selfcheck_slot table = {0, NULL}, monitor = {0, NULL};
    struct caller producer = {&ring, {0, NULL}, end, 0}, consumer = {&ring, {0, NULL}, end, 0};
    uint32_t status = selfcheck_open((const uint8_t *)"queue", 5, watched ? 3 : 2, 8, &table);
    if (status == SELFCHECK_DONE) status = selfcheck_caller(&table, &producer.slot);
    if (status == SELFCHECK_DONE) status = selfcheck_caller(&table, &consumer.slot);
    if (status == SELFCHECK_DONE && watched) status = selfcheck_monitor(&table, &monitor);
    if (status != SELFCHECK_DONE) return (int)status;
    selfcheck_drop(&table);

    pthread_t thread;
    if (pthread_create(&thread, NULL, produce, &producer) == 0) pthread_join(thread, NULL);
    if (pthread_create(&thread, NULL, consume, &consumer) == 0) pthread_join(thread, NULL);
    status = watched ? selfcheck_judge(&monitor) : consumer.status;
    if (status == SELFCHECK_ILLEGAL) write_witness(watched ? &monitor : &consumer.slot);
    selfcheck_drop(&producer.slot);
    selfcheck_drop(&consumer.slot);
    selfcheck_drop(&monitor);
    return (int)status;
}
