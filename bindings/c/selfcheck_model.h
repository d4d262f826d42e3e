/* Judges histories by a model: a sequential object of one's own, as functions of the program; and
 * calls of an object that are judged by a model as they are made. A verdict is proved for every
 * object that agrees with what the library is told. This header asks the model and tells the
 * library, which is tested.
 *
 *     struct selfcheck_model model = {sizeof(struct queue), init, step, NULL};
 *     struct selfcheck_recorder *recorder = selfcheck_recorder_new("model", 1000);
 *     size_t call = selfcheck_model_invoke(recorder, PUT + 5);
 *     selfcheck_model_return(recorder, call, put(queue, 5));
 *     ...
 *     struct selfcheck_check check;
 *     if (selfcheck_check_recorded(&check, &model, recorder, &extent) == SELFCHECK_DONE)
 *         status = selfcheck_check_go_on(&check, UINT64_MAX);
 *     selfcheck_check_close(&check);
 *
 * Calls that check themselves, each caller for one thread:
 *
 *     struct selfcheck_slot table = {0, NULL};
 *     struct selfcheck_check caller;
 *     if (selfcheck_model_table(4, 64, &table) == SELFCHECK_DONE)
 *         selfcheck_check_caller(&caller, &model, &table);
 *     ...
 *     if (selfcheck_check_announce(&caller, PUT + 5) == SELFCHECK_DONE)
 *         status = selfcheck_check_answered(&caller, put(queue, 5));
 *
 * An object of several keys, each of which is an object by itself, has a recorder and a check for
 * each key: all calls together have a legal order exactly where those of each key have one (Herlihy
 * and Wing 1990, theorem 1). */
#ifndef SELFCHECK_MODEL_H
#define SELFCHECK_MODEL_H

#include "selfcheck_recorder.h"

#ifdef __cplusplus
extern "C" {
#endif

/* A sequential object. A state is so many bytes, and states are the same where their bytes are. So
 * what no field uses, such as padding and places past the last item, is to stay zero, and a pointer
 * isn't followed. Operations and replies are numbers of the program's own choice. The functions
 * change nothing but the state, and depend on nothing but what they are given. */
struct selfcheck_model {
    size_t size;
    /* writes the initial state over zeros */
    void (*init)(void *state);
    /* makes the state the next one, and gives the reply */
    uint32_t (*step)(void *state, uint32_t op);
    /* whether the operation changes no state at which it has this reply; null where nobody says so.
     * It makes checks faster, of reads and refusals above all. */
    int (*leaves)(uint32_t op, uint32_t reply);
};

/* A check of a history by a model. The model and the check stay where they are while it is open. */
struct selfcheck_check {
    const struct selfcheck_model *model;
    struct selfcheck_slot slot;
    /* the last step that the model was asked for */
    struct selfcheck_question question;
    /* all of them, and the states, by their numbers, with room for so many */
    struct selfcheck_question *told;
    unsigned char *states;
    size_t tells, told_room, count, room;
    /* a hash table of the states' numbers, each one greater by 1, with twice as much room */
    uint32_t *table;
    /* the operations of each caller's calls */
    uint32_t ops[SELFCHECK_MAX_CALLERS][SELFCHECK_MAX_CALLS];
    unsigned calls[SELFCHECK_MAX_CALLERS];
};

static inline unsigned char *selfcheck_check_state(const struct selfcheck_check *check,
    size_t number) {
    return check->states + number * check->model->size;
}

/* The place of the table that has the number of this state, or else is free for it. */
static inline uint32_t *selfcheck_check_place(const struct selfcheck_check *check,
    const unsigned char *state) {
    size_t size = check->model->size;
    uint64_t hash = 14695981039346656037u; /* FNV-1a */
    for (size_t at = 0; at < size; at++)
        hash = (hash ^ state[at]) * 1099511628211u;
    size_t place = (size_t)(hash ^ hash >> 32) % (2 * check->room);
    while (check->table[place]
        && memcmp(selfcheck_check_state(check, check->table[place] - 1), state, size) != 0)
        place = (place + 1) % (2 * check->room);
    return &check->table[place];
}

/* Whether there is room for a further state and a further step, once more is taken for them. */
static inline int selfcheck_check_has_room(struct selfcheck_check *check) {
    if (check->tells == check->told_room) {
        size_t room = 2 * check->told_room + 64;
        void *told = realloc(check->told, room * sizeof *check->told);
        if (!told) return 0;
        check->told = (struct selfcheck_question *)told;
        check->told_room = room;
    }
    if (check->count < check->room) return 1;
    size_t room = 2 * check->room + 64;
    if (room >= UINT32_MAX || room > SIZE_MAX / 8 / (check->model->size + 1)) return 0;
    unsigned char *states = (unsigned char *)realloc(check->states, room * check->model->size + 1);
    if (!states) return 0;
    check->states = states;
    uint32_t *table = (uint32_t *)calloc(2 * room, sizeof *table);
    if (!table) return 0;
    free(check->table);
    check->table = table;
    check->room = room;
    for (size_t number = 0; number < check->count; number++)
        *selfcheck_check_place(check, selfcheck_check_state(check, number)) = (uint32_t)number + 1;
    return 1;
}

/* Frees what a check has taken, if it is open. */
static inline void selfcheck_check_close(struct selfcheck_check *check) {
    if (check->slot.in_use) selfcheck_drop(&check->slot);
    free(check->told);
    free(check->states);
    free(check->table);
    memset(check, 0, sizeof *check);
}

/* Opens a check of a history of so many callers, or, where there is a table, its next caller. */
static inline uint32_t selfcheck_check_begun(struct selfcheck_check *check,
    const struct selfcheck_model *model, uint32_t callers, struct selfcheck_slot *table) {
    memset(check, 0, sizeof *check);
    check->model = model;
    uint32_t status = SELFCHECK_NO_MEMORY;
    if (selfcheck_check_has_room(check))
        status = table ? selfcheck_model_caller(table, &check->slot)
            : selfcheck_model_open(callers, &check->slot);
    if (status != SELFCHECK_DONE) {
        selfcheck_check_close(check);
        return status;
    }
    if (model->size) memset(check->states, 0, model->size);
    model->init(check->states);
    *selfcheck_check_place(check, check->states) = (uint32_t)++check->count;
    return status;
}

/* Opens a check of a history of 1 to 16 callers, before its first call. DONE, NO_MEMORY or UNFIT;
 * but for DONE nothing is open. */
static inline uint32_t selfcheck_check_open(struct selfcheck_check *check,
    const struct selfcheck_model *model, uint32_t callers) {
    return selfcheck_check_begun(check, model, callers, NULL);
}

/* Opens a check of the calls of a table's next caller, which are judged as they are made. UNFIT
 * where none is left. Callers of one table have one model. DONE, NO_MEMORY or UNFIT; but for DONE
 * nothing is open. The check goes on after its table's slot is dropped. */
static inline uint32_t selfcheck_check_caller(struct selfcheck_check *check,
    const struct selfcheck_model *model, struct selfcheck_slot *table) {
    return selfcheck_check_begun(check, model, 1, table);
}

/* The caller's next call begins, as selfcheck_model_begin has it. */
static inline uint32_t selfcheck_check_begin(struct selfcheck_check *check, uint32_t caller,
    uint32_t op) {
    if (caller >= SELFCHECK_MAX_CALLERS) return SELFCHECK_UNFIT;
    uint32_t status = selfcheck_model_begin(&check->slot, caller, op);
    if (status == SELFCHECK_DONE) check->ops[caller][check->calls[caller]++] = op;
    return status;
}

/* The caller's call that has begun ends, as selfcheck_model_end has it, or the status is LEAVES_NOT
 * where a told step breaks what `leaves` says of it. */
static inline uint32_t selfcheck_check_end(struct selfcheck_check *check, uint32_t caller,
    uint32_t reply) {
    uint32_t status = selfcheck_model_end(&check->slot, caller, reply);
    if (status != SELFCHECK_DONE || !check->model->leaves) return status;
    uint32_t op = check->ops[caller][check->calls[caller] - 1];
    return check->model->leaves(op, reply) ? selfcheck_model_leaves(&check->slot, op, reply) : status;
}

/* Asks the model for the step of the check's question, and tells it. */
static inline uint32_t selfcheck_check_ask(struct selfcheck_check *check) {
    const struct selfcheck_model *model = check->model;
    uint32_t state = check->question.state, op = check->question.op;
    if (!selfcheck_check_has_room(check)) return SELFCHECK_NO_MEMORY;
    unsigned char *next = selfcheck_check_state(check, check->count);
    if (model->size) memcpy(next, selfcheck_check_state(check, state), model->size);
    uint32_t reply = model->step(next, op);
    uint32_t *number = selfcheck_check_place(check, next);
    if (!*number) *number = (uint32_t)++check->count;
    if (*number - 1 != state && model->leaves && model->leaves(op, reply))
        return SELFCHECK_LEAVES_NOT;
    return selfcheck_model_tell(&check->slot, state, op, *number - 1, reply);
}

/* Goes on with the check, by at most so many steps, or by as many as it takes for UINT64_MAX. They
 * are made in portions of 16, of which each question uses up one. LEGAL and ILLEGAL are verdicts on
 * the history as it is so far. PAUSED: the steps are used up, and it isn't known; a further call
 * goes on. LEAVES_NOT: the model's `leaves` isn't so of the step of the check's question.
 * NO_MEMORY or UNFIT. The order of a LEGAL history is given by selfcheck_model_order of the slot. */
static inline uint32_t selfcheck_check_go_on(struct selfcheck_check *check, uint64_t steps) {
    for (;;) {
        uint64_t portion = steps == UINT64_MAX || steps < 16 ? steps : 16;
        uint32_t status = selfcheck_model_next(&check->slot, portion, &check->question);
        if (status == SELFCHECK_ASK) {
            status = selfcheck_check_ask(check);
            if (status != SELFCHECK_DONE) return status;
            check->told[check->tells++] = check->question;
        } else if (status != SELFCHECK_PAUSED || steps == portion) {
            return status;
        }
        if (steps != UINT64_MAX) steps -= portion;
    }
}

/* Announces a call of the caller that the check is of: to be written right before the object's own,
 * which isn't to be made where the status is UNFIT. DONE or UNFIT. */
static inline uint32_t selfcheck_check_announce(struct selfcheck_check *check, uint32_t op) {
    check->ops[0][0] = op;
    return selfcheck_model_announce(&check->slot, op);
}

/* Hands in the object's reply to the announced call, to be written right after the object's own, and
 * judges the call. DONE: the reply is delivered. ILLEGAL: the object is wrong, and selfcheck_witness
 * of the check's slot has the calls. After that, and after LEAVES_NOT, where the model's `leaves`
 * isn't so, the caller makes no further call; and so after NO_MEMORY, but where
 * selfcheck_check_go_on then ends the judgement with DONE. UNFIT where no call is announced. */
static inline uint32_t selfcheck_check_answered(struct selfcheck_check *check, uint32_t reply) {
    uint32_t status = selfcheck_model_answered(&check->slot, reply), op = check->ops[0][0];
    if (status == SELFCHECK_DONE && check->model->leaves && check->model->leaves(op, reply))
        status = selfcheck_model_leaves(&check->slot, op, reply);
    return status == SELFCHECK_DONE ? selfcheck_check_go_on(check, UINT64_MAX) : status;
}

/* Calls the model again for its initial state and for each step that was told. DONE where all is as
 * before. CONTRADICTS where the model gives another initial state, or another next state or reply
 * to the check's question, or LEAVES_NOT where that breaks a promise: its functions depend on more
 * than they are given, or change more than the state. NO_MEMORY. */
static inline uint32_t selfcheck_check_again(struct selfcheck_check *check) {
    if (!selfcheck_check_has_room(check)) return SELFCHECK_NO_MEMORY;
    unsigned char *initial = selfcheck_check_state(check, check->count);
    if (check->model->size) memset(initial, 0, check->model->size);
    check->model->init(initial);
    if (memcmp(initial, check->states, check->model->size) != 0) return SELFCHECK_CONTRADICTS;
    for (size_t at = 0; at < check->tells; at++) {
        check->question = check->told[at];
        uint32_t status = selfcheck_check_ask(check);
        if (status != SELFCHECK_DONE) return status;
    }
    return SELFCHECK_DONE;
}

/* A recorder's call to an object that a model judges, as selfcheck_invoke and selfcheck_return
 * write it down. */
static inline size_t selfcheck_model_invoke(struct selfcheck_recorder *recorder, uint32_t op) {
    return selfcheck_invoke(recorder, ((uint64_t)1 << 32) + op, 0);
}

static inline void selfcheck_model_return(struct selfcheck_recorder *recorder, size_t call,
    uint32_t reply) {
    selfcheck_return(recorder, call, selfcheck_reply_value(reply));
}

/* Tells a check the calls, by the moments at which they begin and end. */
static inline uint32_t selfcheck_check_history(struct selfcheck_check *check,
    const struct selfcheck_recorded_call *calls, size_t count, size_t *at, size_t moments) {
    uint32_t status = SELFCHECK_DONE;
    for (size_t number = 0; number < count; number++) {
        at[calls[number].invoked] = number + 1;
        if (calls[number].returned != SIZE_MAX) at[calls[number].returned] = number + 1;
    }
    for (size_t moment = 0; status == SELFCHECK_DONE && moment < moments; moment++) {
        if (!at[moment]) continue;
        const struct selfcheck_recorded_call *call = &calls[at[moment] - 1];
        if (call->invoked == moment)
            status = selfcheck_check_begin(check, call->caller, (uint32_t)call->low);
        else if (call->reply >> 32 == 2)
            status = selfcheck_check_end(check, call->caller, (uint32_t)call->reply);
        else
            status = SELFCHECK_UNFIT;
    }
    return status;
}

/* Opens a check of what a recorder for the kind "model" has of its calls. Where they don't fit a
 * book, it is of the first of them, as selfcheck_recorded_of has it: if these have no legal order,
 * the whole history has none, and else nothing is said of the others. The extent says how many calls
 * it has, and how many not. DONE, NO_MEMORY, or UNFIT where the recorder or a call isn't for a
 * model; but for DONE nothing is open. */
static inline uint32_t selfcheck_check_recorded(struct selfcheck_check *check,
    const struct selfcheck_model *model, struct selfcheck_recorder *recorder,
    struct selfcheck_extent *extent) {
    struct selfcheck_recorded_call *calls;
    unsigned callers;
    memset(check, 0, sizeof *check);
    if (strcmp(recorder->kind->name, "model") != 0) return SELFCHECK_UNFIT;
    uint32_t status = selfcheck_recorded_calls(recorder, NULL, &calls, &callers, extent);
    if (status != SELFCHECK_DONE) return status;
    size_t *at = (size_t *)calloc(recorder->room + 1, sizeof *at);
    status = SELFCHECK_NO_MEMORY;
    if (at) status = selfcheck_check_open(check, model, callers);
    if (status == SELFCHECK_DONE) {
        status = selfcheck_check_history(check, calls, extent->kept, at, recorder->room);
        if (status != SELFCHECK_DONE) selfcheck_check_close(check);
    }
    free(at);
    free(calls);
    return status;
}

#ifdef __cplusplus
}
#endif

#endif
