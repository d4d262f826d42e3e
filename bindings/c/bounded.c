/* A bounded queue that refuses when it is full, which none of the library's kinds is, judged by a
 * model of its own: a right and a wrong history, and what threads did to a queue, which has as many
 * places as the model, or one more. */
#include "selfcheck_model.h"
#include <pthread.h>

/* put V is the operation V, below 1000 */
enum { PLACES = 2, TAKE = 1000, REFUSED = 0, PUT = 1, TAKEN = 2 };

struct queue {
    uint32_t count, values[PLACES];
};

static void init(void *state) {
    ((struct queue *)state)->count = 0;
}

static uint32_t step(void *state, uint32_t op) {
    struct queue *queue = (struct queue *)state;
    if (op != TAKE) {
        if (queue->count == PLACES) return REFUSED;
        queue->values[queue->count++] = op;
        return PUT;
    }
    if (queue->count == 0) return REFUSED;
    uint32_t value = queue->values[0];
    memmove(queue->values, queue->values + 1, sizeof queue->values - sizeof *queue->values);
    queue->values[--queue->count] = 0;
    return TAKEN + value;
}

static int leaves(uint32_t op, uint32_t reply) {
    (void)op;
    return reply == REFUSED;
}

static const struct selfcheck_model model = {sizeof(struct queue), init, step, leaves};

/* Writes the verdict, with the order of a short legal history, and closes the check. */
static void write_verdict(const char *name, struct selfcheck_check *check) {
    struct selfcheck_placed order[8];
    size_t count = 0;
    uint32_t status = selfcheck_check_go_on(check, UINT64_MAX);
    printf("%s: %s", name, status == SELFCHECK_LEGAL ? "legal"
        : status == SELFCHECK_ILLEGAL ? "illegal" : "not judged");
    if (selfcheck_model_order(&check->slot, order, 8, &count) == SELFCHECK_DONE)
        for (size_t at = 0; at < count; at++) {
            uint32_t op = check->ops[order[at].caller][order[at].number];
            printf(at ? ", " : ": ");
            if (op == TAKE)
                printf("take");
            else
                printf("put %u", (unsigned)op);
        }
    printf("\n");
    selfcheck_check_close(check);
}

/* While one caller puts 1, 2 and 3, of which the last is refused, the other one takes a value. */
static void judge_history(const char *name, uint32_t taken) {
    struct selfcheck_check check;
    if (selfcheck_check_open(&check, &model, 2) != SELFCHECK_DONE) return;
    selfcheck_check_begin(&check, 1, TAKE);
    for (uint32_t value = 1; value <= 3; value++) {
        selfcheck_check_begin(&check, 0, value);
        selfcheck_check_end(&check, 0, value <= PLACES ? PUT : REFUSED);
    }
    selfcheck_check_end(&check, 1, TAKEN + taken);
    write_verdict(name, &check);
}

/* The queue that threads call, and what records them. */
struct shared {
    pthread_mutex_t lock;
    struct selfcheck_recorder *recorder;
    uint32_t places, count, values[PLACES + 1];
};

static void call(struct shared *shared, uint32_t op) {
    size_t call = selfcheck_model_invoke(shared->recorder, op);
    uint32_t reply = REFUSED;
    pthread_mutex_lock(&shared->lock);
    if (op != TAKE && shared->count < shared->places) {
        shared->values[shared->count++] = op;
        reply = PUT;
    } else if (op == TAKE && shared->count > 0) {
        reply = TAKEN + shared->values[0];
        memmove(shared->values, shared->values + 1, sizeof *shared->values * PLACES);
        shared->count--;
    }
    pthread_mutex_unlock(&shared->lock);
    selfcheck_model_return(shared->recorder, call, reply);
}

static void *work(void *argument) {
    for (uint32_t at = 0; at < 24; at++)
        call((struct shared *)argument, at % 8 < 4 ? at : TAKE);
    return NULL;
}

static void judge_threads(const char *name, uint32_t places) {
    struct shared shared = {
        PTHREAD_MUTEX_INITIALIZER, selfcheck_recorder_new("model", 100), places, 0, {0}};
    struct selfcheck_extent extent;
    struct selfcheck_check check;
    pthread_t threads[3];
    if (!shared.recorder) return;
    /* one call more than the model has places for */
    for (uint32_t value = 0; value <= PLACES; value++)
        call(&shared, value);
    for (int at = 0; at < 3; at++)
        if (pthread_create(&threads[at], NULL, work, &shared) != 0) exit(7);
    for (int at = 0; at < 3; at++)
        pthread_join(threads[at], NULL);
    if (selfcheck_check_recorded(&check, &model, shared.recorder, &extent) == SELFCHECK_DONE)
        write_verdict(name, &check);
    selfcheck_recorder_free(shared.recorder);
}

int main(void) {
    judge_history("takes the first value", 1);
    judge_history("takes the second value", 2);
    judge_threads("two places", PLACES);
    judge_threads("three places", PLACES + 1);
    return 0;
}
