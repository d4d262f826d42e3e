/* A bounded queue that refuses when it is full, whose calls check themselves by a model of its own.
 * Four threads call a right one, none of whose calls is an error, and one that reads the first value
 * and removes it in two steps, with the processor given away between them: two threads take one
 * value, and the call that shows it is an error, with its calls. */
#define _POSIX_C_SOURCE 200809L
#include "selfcheck_model.h"
#include <pthread.h>
#include <sched.h>

/* put V is the operation V, below TAKE */
enum { PLACES = 2, THREADS = 4, CALLS = 64, TAKE = 1000, REFUSED = 0, PUT = 1, TAKEN = 2 };

struct queue {
    uint32_t count, values[PLACES];
};

static uint32_t put(struct queue *queue, uint32_t value) {
    if (queue->count == PLACES) return REFUSED;
    queue->values[queue->count++] = value;
    return PUT;
}

static uint32_t first(const struct queue *queue) {
    return queue->count == 0 ? REFUSED : TAKEN + queue->values[0];
}

static void remove_first(struct queue *queue) {
    if (queue->count == 0) return;
    memmove(queue->values, queue->values + 1, sizeof queue->values - sizeof *queue->values);
    queue->values[--queue->count] = 0;
}

/* The model. */
static void init(void *state) {
    ((struct queue *)state)->count = 0;
}

static uint32_t step(void *state, uint32_t op) {
    struct queue *queue = (struct queue *)state;
    if (op != TAKE) return put(queue, op);
    uint32_t reply = first(queue);
    remove_first(queue);
    return reply;
}

static int leaves(uint32_t op, uint32_t reply) {
    (void)op;
    return reply == REFUSED;
}

static const struct selfcheck_model model = {sizeof(struct queue), init, step, leaves};

/* The queue that threads call. */
struct shared {
    pthread_mutex_t lock;
    struct queue queue;
    int is_hasty;
};

static uint32_t call(struct shared *shared, uint32_t op) {
    uint32_t reply;
    pthread_mutex_lock(&shared->lock);
    if (op != TAKE) {
        reply = put(&shared->queue, op);
    } else {
        reply = first(&shared->queue);
        if (shared->is_hasty) {
            pthread_mutex_unlock(&shared->lock);
            sched_yield();
            pthread_mutex_lock(&shared->lock);
        }
        remove_first(&shared->queue);
    }
    pthread_mutex_unlock(&shared->lock);
    return reply;
}

/* A thread with its caller, and what became of its calls. */
struct worker {
    struct shared *shared;
    struct selfcheck_check caller;
    uint32_t number, delivered, status;
};

static void *work(void *argument) {
    struct worker *me = (struct worker *)argument;
    for (uint32_t at = 0; at < CALLS && me->status == SELFCHECK_DONE; at++) {
        uint32_t op = at % 2 == 0 ? me->number * CALLS + at : TAKE;
        if (selfcheck_check_announce(&me->caller, op) != SELFCHECK_DONE) break;
        me->status = selfcheck_check_answered(&me->caller, call(me->shared, op));
        me->delivered += me->status == SELFCHECK_DONE;
    }
    return NULL;
}

/* Writes the calls of an error: those that its caller had seen, by the numbers of operations and
 * replies. */
static int write_calls(struct selfcheck_slot *slot, FILE *file) {
    size_t room = 0;
    uint8_t *text = NULL;
    uint32_t status;
    while ((status = selfcheck_witness(slot, text, room, &room)) == SELFCHECK_NO_ROOM) {
        free(text);
        if (!(text = (uint8_t *)malloc(room))) return 0;
    }
    if (status == SELFCHECK_DONE) fwrite(text, 1, room, file);
    free(text);
    return status == SELFCHECK_DONE;
}

/* All threads make their calls. The number of those that are delivered, and of errors, whose calls
 * are written. */
static uint32_t run(int is_hasty, uint32_t *errors, FILE *file) {
    static struct worker workers[THREADS];
    struct shared shared = {PTHREAD_MUTEX_INITIALIZER, {0, {0}}, is_hasty};
    struct selfcheck_slot table = {0, NULL};
    pthread_t threads[THREADS];
    uint32_t delivered = 0;
    if (selfcheck_model_table(THREADS, CALLS, &table) != SELFCHECK_DONE) exit(7);
    for (uint32_t at = 0; at < THREADS; at++) {
        workers[at].shared = &shared;
        workers[at].number = at;
        workers[at].delivered = 0;
        workers[at].status = selfcheck_check_caller(&workers[at].caller, &model, &table);
        if (workers[at].status != SELFCHECK_DONE) exit(7);
    }
    selfcheck_drop(&table);
    for (int at = 0; at < THREADS; at++)
        if (pthread_create(&threads[at], NULL, work, &workers[at]) != 0) exit(7);
    for (int at = 0; at < THREADS; at++) {
        pthread_join(threads[at], NULL);
        delivered += workers[at].delivered;
        if (workers[at].status == SELFCHECK_ILLEGAL && write_calls(&workers[at].caller.slot, file))
            ++*errors;
        selfcheck_check_close(&workers[at].caller);
    }
    return delivered;
}

/* With a word the calls of the errors are written. */
int main(int argc, char **argv) {
    FILE *file = argc > 1 ? fopen(argv[1], "w") : tmpfile();
    uint32_t errors = 0;
    if (!file) return 7;
    uint32_t delivered = run(0, &errors, file);
    printf("right: %u calls are delivered, and %u are errors\n", (unsigned)delivered,
        (unsigned)errors);
    for (int at = 0; at < 100 && errors == 0; at++)
        run(1, &errors, file);
    printf("hasty: %s\n", errors ? "an error, with its calls" : "no error");
    fclose(file);
    return errors ? 0 : 1;
}
