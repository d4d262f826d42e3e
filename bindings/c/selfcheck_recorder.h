/* A recorder: writes down the calls that threads make to one object, and gives their book, whose
 * text selfcheck_verify judges. Only the library's part is proved; this header is tested.
 *
 *     struct selfcheck_recorder *recorder = selfcheck_recorder_new("queue", 1000);
 *     size_t call = selfcheck_invoke(recorder, selfcheck_word(SELFCHECK_OP_ENQ, 5), 0);
 *     enq(queue, 5);
 *     selfcheck_return(recorder, call, SELFCHECK_REPLY_DONE);
 *
 * Any number of threads may call at once, and a call may return in another thread. The object is to
 * be as its kind is at first. A call that never returns may have had its effect or not, at any time
 * since.
 *
 * A book has 16 callers, with 256 calls each. Which caller has which call is settled when the book
 * is made, and changes no verdict: what counts is which calls ended before which others began. Each
 * call has, in the order of invocations, a caller that is in no call and has had fewer calls than
 * 256: of these the one with the fewest calls, or with the most where the call never returns, since
 * then it keeps its caller. What only reads and never returns is in no book. */
#ifndef SELFCHECK_RECORDER_H
#define SELFCHECK_RECORDER_H

#include "selfcheck.h"
#include <inttypes.h>
#include <stdarg.h>
#include <stdio.h>
#include <stdlib.h>
#include <string.h>

#ifdef __cplusplus
extern "C" {
#endif

enum { SELFCHECK_MAX_CALLERS = 16, SELFCHECK_MAX_CALLS = 256 };

/* An operation of a kind in a book: its name, how many arguments it has, and whether it changes no
 * object, whatever its reply is. */
struct selfcheck_named {
    const char *name;
    unsigned arguments;
    int is_read_only;
};

struct selfcheck_kind {
    const char *name;
    /* whether it is made of one object for each first argument */
    int has_keys;
    /* by their numbers, from 1 on; a null name is no operation */
    struct selfcheck_named operations[3];
};

/* What happened at a moment: nothing that is known, an invocation, or the return of the call that
 * was invoked at the moment `low`, with the reply `high`. */
struct selfcheck_event {
    uint64_t low, high;
    uint32_t what;
};

enum { SELFCHECK_NOTHING, SELFCHECK_INVOKED, SELFCHECK_RETURNED };

/* The clock is apart from what lies beside it, since every call steps it twice. */
struct selfcheck_recorder {
    const struct selfcheck_kind *kind;
    struct selfcheck_event *events;
    size_t room;
    char before[128];
    size_t clock;
    char after[128];
    size_t beyond;
};

/* How many calls of a recorder are in its book, and how many aren't: those that were invoked later,
 * and reads that had no reply then. */
struct selfcheck_extent {
    size_t kept, left_out;
};

static inline const struct selfcheck_kind *selfcheck_kind_of(const char *name) {
    static const struct selfcheck_kind kinds[] = {
        {"queue", 0, {{"enq", 1, 0}, {"deq", 0, 0}, {NULL, 0, 0}}},
        {"stack", 0, {{"push", 1, 0}, {"pop", 0, 0}, {NULL, 0, 0}}},
        {"register", 0, {{"write", 1, 0}, {"read", 0, 1}, {NULL, 0, 0}}},
        {"counter", 0, {{"inc", 0, 0}, {NULL, 0, 0}, {NULL, 0, 0}}},
        {"set", 1, {{"add", 1, 0}, {"remove", 1, 0}, {"has", 1, 1}}},
        {"pqueue", 0, {{"insert", 1, 0}, {"min", 0, 0}, {NULL, 0, 0}}},
        {"casreg", 0, {{"write", 1, 0}, {"read", 0, 1}, {"cas", 2, 0}}},
        {"map", 1, {{"put", 2, 0}, {"get", 1, 1}, {"del", 1, 0}}},
        {"model", 0, {{"op", 1, 0}, {NULL, 0, 0}, {NULL, 0, 0}}},
    };
    for (size_t at = 0; at < sizeof kinds / sizeof *kinds; at++)
        if (strcmp(kinds[at].name, name) == 0) return &kinds[at];
    return NULL;
}

/* A recorder for so many calls to an object of the kind of this name, as selfcheck_open has it, or
 * by the name "model" to one that selfcheck_model.h judges, since selfcheck_verify reads no book of
 * it. Null where there is no such kind, and for want of memory. It is freed by
 * selfcheck_recorder_free. */
static inline struct selfcheck_recorder *selfcheck_recorder_new(const char *kind, size_t calls) {
    const struct selfcheck_kind *known = selfcheck_kind_of(kind);
    struct selfcheck_recorder *made;
    if (!known || calls > SIZE_MAX / 2) return NULL;
    made = (struct selfcheck_recorder *)calloc(1, sizeof *made);
    if (!made) return NULL;
    made->kind = known;
    made->room = 2 * calls;
    made->events = (struct selfcheck_event *)calloc(made->room + 1, sizeof *made->events);
    if (made->events) return made;
    free(made);
    return NULL;
}

static inline void selfcheck_recorder_free(struct selfcheck_recorder *recorder) {
    if (recorder) free(recorder->events);
    free(recorder);
}

/* The next moment. All steps of the clock are read-modify-writes that acquire and release, so each
 * one synchronizes with every later one. So what a call did before it returned happens before what
 * a later call does: the object needs no fence here, unlike beside a table, whose looks only load.
 * */
static inline size_t selfcheck_tick(struct selfcheck_recorder *recorder) {
    return __atomic_fetch_add(&recorder->clock, 1, __ATOMIC_SEQ_CST);
}

/* Writes down what happened at a moment. What comes after the last moment isn't recorded: the book
 * tells what was known then. */
static inline void selfcheck_happened(struct selfcheck_recorder *recorder, size_t moment,
    uint64_t low, uint64_t high, uint32_t what) {
    struct selfcheck_event *event;
    if (moment >= recorder->room) return;
    event = &recorder->events[moment];
    event->low = low;
    event->high = high;
    __atomic_store_n(&event->what, what, __ATOMIC_RELEASE);
}

/* Invokes a call: to be written right before the object's own. The words are those of
 * selfcheck_announce; the answer is for selfcheck_return. */
static inline size_t selfcheck_invoke(struct selfcheck_recorder *recorder, uint64_t low,
    uint64_t high) {
    size_t moment = selfcheck_tick(recorder);
    if (moment >= recorder->room) __atomic_fetch_add(&recorder->beyond, 1, __ATOMIC_RELAXED);
    selfcheck_happened(recorder, moment, low, high, SELFCHECK_INVOKED);
    return moment;
}

/* Returns from a call: to be written right after the object's own. */
static inline void selfcheck_return(struct selfcheck_recorder *recorder, size_t call,
    uint64_t reply) {
    size_t moment = selfcheck_tick(recorder);
    selfcheck_happened(recorder, moment, (uint64_t)call, reply, SELFCHECK_RETURNED);
}

/* A call as a book has it: its moments and words, and its caller. One that never returns has the
 * greatest moment as its return. */
struct selfcheck_recorded_call {
    size_t invoked, returned;
    uint64_t low, high, reply;
    unsigned caller;
};

/* Gives so many callers to the calls up to the first one that finds none, and gives the number of
 * these. */
static inline size_t selfcheck_place(struct selfcheck_recorded_call *calls, size_t count,
    unsigned callers) {
    size_t made[SELFCHECK_MAX_CALLERS] = {0}, last[SELFCHECK_MAX_CALLERS] = {0};
    for (size_t at = 0; at < count; at++) {
        int is_lost = calls[at].returned == SIZE_MAX;
        unsigned found = callers;
        for (unsigned it = 0; it < callers; it++) {
            int is_calling = made[it] && last[it] > calls[at].invoked;
            if (made[it] == SELFCHECK_MAX_CALLS || is_calling) continue;
            if (found == callers || (is_lost ? made[it] > made[found] : made[it] < made[found]))
                found = it;
        }
        if (found == callers) return at;
        made[found]++;
        last[found] = calls[at].returned;
        calls[at].caller = found;
    }
    return count;
}

/* A text, in a buffer as far as it has room. */
struct selfcheck_writer {
    char *buffer;
    size_t room, written;
};

__attribute__((format(printf, 2, 3))) static inline void selfcheck_write(
    struct selfcheck_writer *writer, const char *format, ...) {
    size_t left = writer->written < writer->room ? writer->room - writer->written : 0;
    char words[64];
    va_list given;
    va_start(given, format);
    size_t length = (size_t)vsnprintf(words, sizeof words, format, given);
    va_end(given);
    if (left) memcpy(writer->buffer + writer->written, words, left < length ? left : length);
    writer->written += length;
}

static inline void selfcheck_write_reply(struct selfcheck_writer *writer, uint64_t reply) {
    const char *word = reply == SELFCHECK_REPLY_DONE ? "done"
        : reply == SELFCHECK_REPLY_NONE              ? "none"
        : reply == SELFCHECK_REPLY_NO                ? "no"
        : reply == SELFCHECK_REPLY_YES               ? "yes"
                                                     : "bad";
    if (reply >> 32 == 2)
        selfcheck_write(writer, " =%" PRIu32, (uint32_t)reply);
    else
        selfcheck_write(writer, " %s", word);
}

/* The view of a call holds of each caller as many calls as were invoked before it returned. */
static inline void selfcheck_write_view(struct selfcheck_writer *writer,
    const struct selfcheck_recorded_call *calls, size_t count, size_t returned) {
    size_t held[SELFCHECK_MAX_CALLERS] = {0};
    for (size_t at = 0; at < count && calls[at].invoked < returned; at++)
        held[calls[at].caller]++;
    selfcheck_write(writer, " view");
    for (size_t caller = 0; caller < SELFCHECK_MAX_CALLERS; caller++)
        if (held[caller]) selfcheck_write(writer, " %zu:%zu", caller, held[caller]);
}

static inline void selfcheck_write_book(struct selfcheck_writer *writer,
    const struct selfcheck_kind *kind, const struct selfcheck_recorded_call *calls, size_t count,
    unsigned callers) {
    size_t made[SELFCHECK_MAX_CALLERS] = {0};
    for (size_t at = 0; at < count; at++)
        made[calls[at].caller]++;
    selfcheck_write(writer, "book 2\nobject %s\ncallers %u\ncalls", kind->name, callers);
    for (unsigned caller = 0; caller < callers; caller++)
        selfcheck_write(writer, " %zu", made[caller]);
    for (unsigned caller = 0; caller < callers; caller++) {
        size_t number = 0;
        for (size_t at = 0; at < count; at++) {
            const struct selfcheck_recorded_call *call = &calls[at];
            const struct selfcheck_named *operation = &kind->operations[(call->low >> 32) - 1];
            if (call->caller != caller) continue;
            selfcheck_write(writer, "\n%u %zu %s", caller, number++, operation->name);
            for (unsigned it = 0; it < operation->arguments; it++)
                selfcheck_write(writer, " %" PRIu32, (uint32_t)(it ? call->high : call->low));
            if (call->returned == SIZE_MAX) continue;
            selfcheck_write_reply(writer, call->reply);
            selfcheck_write_view(writer, calls, count, call->returned);
        }
    }
    selfcheck_write(writer, "\nend\n");
}

static inline int selfcheck_is_operation(const struct selfcheck_kind *kind, uint64_t low,
    uint64_t high) {
    uint64_t number = low >> 32;
    return number >= 1 && number <= 3 && kind->operations[number - 1].name && high <= UINT32_MAX;
}

/* Forgets the returns from a moment on, and leaves out the calls that only read and haven't
 * returned: they change no verdict, since an order that has one is an order without it too. Gives
 * the number of the others. */
static inline size_t selfcheck_forget(const struct selfcheck_kind *kind,
    struct selfcheck_recorded_call *calls, size_t count, size_t moment) {
    size_t others = 0;
    for (size_t at = 0; at < count; at++) {
        if (calls[at].returned >= moment) calls[at].returned = SIZE_MAX;
        int is_read_only = kind->operations[(calls[at].low >> 32) - 1].is_read_only;
        if (calls[at].returned != SIZE_MAX || !is_read_only) calls[others++] = calls[at];
    }
    return others;
}

/* After how many of the first calls to end a book that doesn't have all of them: before the last
 * moment at which no call is open, but such as never return, where that leaves half of these at
 * least. */
static inline size_t selfcheck_quiet(const struct selfcheck_recorded_call *calls, size_t placed) {
    size_t quiet = placed, last = 0;
    for (size_t at = 0; at <= placed; at++) {
        if (last < calls[at].invoked && 2 * at >= placed) quiet = at;
        if (calls[at].returned != SIZE_MAX && last < calls[at].returned) last = calls[at].returned;
    }
    return quiet;
}

/* The calls of a recorder that fit a book, of one key or of all, in the order of their invocations
 * and each with its caller, as selfcheck_recorded_of has them. They are the caller's to free. */
static inline uint32_t selfcheck_recorded_calls(struct selfcheck_recorder *recorder,
    const uint32_t *key, struct selfcheck_recorded_call **found, unsigned *callers,
    struct selfcheck_extent *extent) {
    size_t now = selfcheck_tick(recorder), end = now < recorder->room ? now : recorder->room;
    size_t count = 0, placed = 0;
    struct selfcheck_recorded_call *calls =
        (struct selfcheck_recorded_call *)calloc(end + 1, sizeof *calls);
    size_t *numbers = (size_t *)calloc(end + 1, sizeof *numbers);
    uint32_t status = !calls || !numbers ? SELFCHECK_NO_MEMORY
        : key && !recorder->kind->has_keys ? SELFCHECK_UNFIT : SELFCHECK_DONE;
    for (size_t moment = 0; status == SELFCHECK_DONE && moment < end; moment++) {
        const struct selfcheck_event *event = &recorder->events[moment];
        uint32_t what = __atomic_load_n(&event->what, __ATOMIC_ACQUIRE);
        if (what == SELFCHECK_INVOKED) {
            uint64_t low = event->low, high = event->high;
            struct selfcheck_recorded_call call = {moment, SIZE_MAX, low, high, 0, 0};
            if (!selfcheck_is_operation(recorder->kind, low, high)) status = SELFCHECK_UNFIT;
            /* one of another key is overwritten by the next call */
            numbers[moment] = count;
            calls[count] = call;
            count += !key || *key == (uint32_t)low;
        } else if (what == SELFCHECK_RETURNED && calls[numbers[event->low]].invoked == event->low) {
            calls[numbers[event->low]].returned = moment;
            calls[numbers[event->low]].reply = event->high;
        }
    }
    free(numbers);
    if (status != SELFCHECK_DONE) {
        free(calls);
        return status;
    }
    count = selfcheck_forget(recorder->kind, calls, count, SIZE_MAX);
    extent->left_out = count + __atomic_load_n(&recorder->beyond, __ATOMIC_RELAXED);
    *callers = 0;
    while (*callers < SELFCHECK_MAX_CALLERS && (placed < count || *callers == 0))
        placed = selfcheck_place(calls, count, ++*callers);
    if (placed < count) {
        count = selfcheck_quiet(calls, placed);
        count = selfcheck_forget(recorder->kind, calls, count, calls[count].invoked);
    }
    extent->kept = count;
    extent->left_out -= count;
    *found = calls;
    return SELFCHECK_DONE;
}

/* Writes the book of the recorder's calls with this key into the buffer, and its length into
 * `written`: of a set or a map, whose calls together have a legal order exactly where those of each
 * key have one (Herlihy and Wing 1990, theorem 1); or of all its calls where the key is null. What
 * is called meanwhile is in it as far as it has come. Where the calls don't fit a book, or were
 * more than the recorder is for, it is the book of the first of them: up to the first one that
 * finds no caller, or to the last moment before it at which no call was open, where that leaves
 * half of these at least. If it has no legal order, the whole history has none. The extent says how
 * many calls it has, and how many not.
 *
 * DONE, NO_MEMORY, NO_ROOM, with which `written` says how much is needed, or UNFIT where a call's
 * operation is none of the kind's, or the kind has no keys. A book takes some 200 bytes a call at
 * the most. */
static inline uint32_t selfcheck_recorded_of(struct selfcheck_recorder *recorder,
    const uint32_t *key, uint8_t *buffer, size_t room, size_t *written,
    struct selfcheck_extent *extent) {
    struct selfcheck_recorded_call *calls;
    unsigned callers;
    struct selfcheck_writer writer = {(char *)buffer, room, 0};
    uint32_t status = selfcheck_recorded_calls(recorder, key, &calls, &callers, extent);
    if (status != SELFCHECK_DONE) return status;
    selfcheck_write_book(&writer, recorder->kind, calls, extent->kept, callers);
    free(calls);
    *written = writer.written;
    return writer.written > room ? SELFCHECK_NO_ROOM : SELFCHECK_DONE;
}

static inline uint32_t selfcheck_recorded(struct selfcheck_recorder *recorder, uint8_t *buffer,
    size_t room, size_t *written, struct selfcheck_extent *extent) {
    return selfcheck_recorded_of(recorder, NULL, buffer, room, written, extent);
}

#ifdef __cplusplus
}
#endif

#endif
