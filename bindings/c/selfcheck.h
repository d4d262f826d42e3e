/* Verdicts on the texts of books and certificates, smaller books, explanations and pictures, books of the logs of other
 * tools, calls that check themselves or that monitors judge, and checks of histories by models, by a proved library.
 * docs/FORMATS.md has the texts.
 *
 * Link libselfcheck.a or libselfcheck.so, which takes memory from malloc.
 *
 * Each call keeps no pointer to anything it is given. Any number of threads may call at once. What
 * is asked of a caller, and nothing checks: no pointer is null but that of a text, a kind or a
 * buffer whose length is 0; each points to as many bytes as its length says; and what is written to
 * (the buffer, `written`, the refusal, a slot) overlaps nothing else that is given to the same
 * call. The text is any bytes, of any length.
 *
 * Some calls are inline functions of this header, each over the library's export of the same name:
 * they put an empty text or buffer in the place of a null pointer, and fences round the object's
 * own call. A program that calls the exports without this header sees to both. */
#ifndef SELFCHECK_H
#define SELFCHECK_H

#include <stddef.h>
#include <stdint.h>

#ifdef __cplusplus
extern "C" {
#endif

/* The version of this header: 65536 times the major number, 256 times the minor one, and the
 * patch. */
#define SELFCHECK_VERSION 0x000100

/* An export takes no null pointer. */
#define SELFCHECK_EXPORT __attribute__((nonnull))

enum selfcheck_status {
    SELFCHECK_LEGAL = 0,     /* the book has a legal order; the certificate's list is one */
    SELFCHECK_DONE = 0,      /* the call did what it is for; a reply is delivered */
    SELFCHECK_ILLEGAL = 1,   /* the book, or what is published, has none; the list isn't one */
    SELFCHECK_REFUSED = 3,   /* the text isn't one of the wanted form: the refusal says why */
    SELFCHECK_NO_MEMORY = 6, /* nothing is said of the text, or of the reply */
    SELFCHECK_NO_ROOM = 8,   /* the buffer is too short, and `written` says how long a one is needed */
    SELFCHECK_UNFIT = 9,     /* the slot or the words aren't as the call wants them, or there is no such table: nothing has changed */
    SELFCHECK_ASK = 10,      /* the question is written: what its operation does at its state is to be told */
    SELFCHECK_UNKNOWN = 11,  /* the steps are used up, and nothing is said of the book */
    SELFCHECK_PAUSED = 11,   /* the steps are used up, and nothing is said yet: a further call goes on */
    SELFCHECK_CONTRADICTS = 12, /* another step was told of this state and operation: nothing has changed */
    SELFCHECK_LEAVES_NOT = 13   /* the step breaks a promise, or a told step breaks this one: nothing has changed */
};

/* What is wrong with a text, by the names of docs/FORMATS.md. */
enum selfcheck_what {
    SELFCHECK_LONG, SELFCHECK_CUT, SELFCHECK_HEAD, SELFCHECK_OBJECT, SELFCHECK_CALLERS, SELFCHECK_CALLS,
    SELFCHECK_PLACE, SELFCHECK_OP, SELFCHECK_GAP, SELFCHECK_REPLY, SELFCHECK_VIEW, SELFCHECK_VIEW_OUTSIDE,
    SELFCHECK_VIEW_LACKS_OWN, SELFCHECK_VIEW_HAS_LATER, SELFCHECK_VIEWS_CROSS, SELFCHECK_MARK, SELFCHECK_SEEN,
    SELFCHECK_LAST, SELFCHECK_STOP, SELFCHECK_TURNS, SELFCHECK_END, SELFCHECK_REST
};

/* What is wrong with a log, by the names of docs/FORMATS.md. */
enum selfcheck_log_what {
    SELFCHECK_LOG_LINE, SELFCHECK_LOG_HEADER, SELFCHECK_LOG_PROCESS, SELFCHECK_LOG_TYPE, SELFCHECK_LOG_OPERATION,
    SELFCHECK_LOG_TIME, SELFCHECK_LOG_PENDING, SELFCHECK_LOG_UNASKED, SELFCHECK_LOG_VALUE, SELFCHECK_LOG_REPLY,
    SELFCHECK_LOG_TOO_MANY, SELFCHECK_LOG_LONG
};

/* The first fault of a text: its line, counted from 1, and what is wrong there, an enum selfcheck_what, or of a log an
 * enum selfcheck_log_what. A call writes it where its status is SELFCHECK_REFUSED, and else leaves it as it was. */
struct selfcheck_refusal {
    uint64_t line;
    uint32_t what;
};

/* The version of the library, as SELFCHECK_VERSION has that of the header. */
uint32_t selfcheck_version(void);

/* Whether the book with this text has a legal order. */
SELFCHECK_EXPORT uint32_t selfcheck_verify(const uint8_t *text, size_t length,
    struct selfcheck_refusal *refusal);

/* As selfcheck_verify, with a limit: where the library has to search for a legal order, it makes so many steps at the most,
 * and a step tries a call next or goes back by one. UNKNOWN where they are used up first; a further call begins anew. With
 * 0 steps nothing is searched. Only the search has this limit: reading the text, and deciding a queue's or a stack's book
 * without a search, take what they take. LEGAL, ILLEGAL, UNKNOWN, REFUSED or NO_MEMORY. */
SELFCHECK_EXPORT uint32_t selfcheck_verify_within(const uint8_t *text, size_t length,
    uint64_t steps, struct selfcheck_refusal *refusal);

/* Whether the list of the certificate with this text is a legal order of its book. */
SELFCHECK_EXPORT uint32_t selfcheck_order(const uint8_t *text, size_t length,
    struct selfcheck_refusal *refusal);

/* Writes the certificate of the book with this text into the buffer, and its length into `written`: the book's text
 * with a legal order of it, which selfcheck_order judges without a search. Where the status isn't SELFCHECK_LEGAL, the
 * buffer is as it was. A buffer of twice the text's length and 64 bytes is mostly long enough. */
SELFCHECK_EXPORT uint32_t selfcheck_certify(const uint8_t *text, size_t length, uint8_t *buffer,
    size_t room, size_t *written, struct selfcheck_refusal *refusal);

/* Writes into the buffer the text of a smaller book, and its length into `written`: a part of the book that the text gives,
 * which has no legal order and shows that the whole book has none, and which no rule makes smaller. The text is that of
 * a book, in version 1 or 2, or all that `run` or `monitor` have written with a witness; a refusal's line is counted from
 * the title of the book. ILLEGAL where the smaller book is in the buffer, LEGAL where the book has a legal order and there
 * is none, REFUSED, NO_MEMORY or NO_ROOM; but for ILLEGAL the buffer is as it was. As much room as the book takes in
 * version 2 should do, which no clause says; with NO_ROOM `written` says how much is needed. */
SELFCHECK_EXPORT uint32_t selfcheck_smaller(const uint8_t *text, size_t length, uint8_t *buffer,
    size_t room, size_t *written, struct selfcheck_refusal *refusal);

/* Writes into the buffer why the book has no legal order that such a text gives, and the length of that into `written`:
 * which rule of its kind it breaks, and by which calls, in one line; or, where it breaks none, its longest legal prefixes, at
 * most eight, and the calls that may come next after each. ILLEGAL where it has no legal order; DONE where no rule is broken and it has a legal
 * order, or has too many legal prefixes to try, which one line says; REFUSED, NO_MEMORY or NO_ROOM; but for ILLEGAL and DONE
 * the buffer is as it was. All pairs of calls are tried: it is made for small books, as selfcheck_smaller writes. */
SELFCHECK_EXPORT uint32_t selfcheck_explain(const uint8_t *text, size_t length, uint8_t *buffer,
    size_t room, size_t *written, struct selfcheck_refusal *refusal);

/* Writes into the buffer the picture, as SVG, of the book that such a text gives, and its length into `written`. DONE,
 * REFUSED, NO_MEMORY or NO_ROOM; but for DONE the buffer is as it was. */
SELFCHECK_EXPORT uint32_t selfcheck_picture(const uint8_t *text, size_t length, uint8_t *buffer,
    size_t room, size_t *written, struct selfcheck_refusal *refusal);

/* Writes into the buffer the books of a log of another tool, and the text's length into `written`: for each key its name,
 * the names of its values, the lines of its calls and its book, or why it has none, as "Logs of other tools" in
 * docs/FORMATS.md has it. The words say how the log is read, as they do there, each with a line feed after it:
 * "--format\njepsen\n--kind\nqueue\n". REFUSED where the log has a fault, UNFIT where the words aren't right. But for DONE
 * the buffer is as it was. DONE, REFUSED, NO_MEMORY, NO_ROOM or UNFIT. */
SELFCHECK_EXPORT uint32_t selfcheck_import(const uint8_t *words, size_t words_length,
    const uint8_t *log, size_t length, uint8_t *buffer, size_t room, size_t *written,
    struct selfcheck_refusal *refusal);

/* Calls that check themselves. A table of callers stands beside an object: each caller announces a call there, makes the
 * object's own call, and hands in its reply, which is delivered, or is an error with a witness. Or callers hand in replies
 * that are published without a judgement, and monitors, which are callers of the table that make no calls, judge them in
 * rounds.
 *
 * A slot is a place for one handle: of a table, of one of its callers, of one of its monitors, of one of its callers whose
 * calls a model judges, or of a check by a model.
 * It is all zero before its first use, and then the library alone writes to it. It isn't copied,
 * but may be moved, and is given to one call at a time: threads that pass it on order their calls
 * by a lock, by a start or a join. While it has a handle, `in_use` is 1. */
struct selfcheck_slot {
    uint32_t in_use;
    void *at;
};

/* Opens a table into an empty slot, for 1 to 16 callers with 1 to 256 calls each, whose calls are judged by the kind of
 * this name: "queue", "stack", "register", "counter", "set", "pqueue", "casreg" or "map". DONE, NO_MEMORY or UNFIT. */
SELFCHECK_EXPORT uint32_t selfcheck_open(const uint8_t *kind, size_t length, uint32_t callers,
    uint64_t calls, struct selfcheck_slot *slot);

/* Puts the next caller of a table into an empty slot. UNFIT where there is none left. A caller goes on after its table's
 * slot is dropped. DONE, NO_MEMORY or UNFIT. */
SELFCHECK_EXPORT uint32_t selfcheck_caller(struct selfcheck_slot *table,
    struct selfcheck_slot *slot);

/* Puts the next caller of a table as a monitor into an empty slot: else as selfcheck_caller. DONE, NO_MEMORY or UNFIT. */
SELFCHECK_EXPORT uint32_t selfcheck_monitor(struct selfcheck_slot *table,
    struct selfcheck_slot *slot);

/* Makes the slot's caller, which is between two calls, a monitor of its table, and its calls stay published. So a table of 16
 * callers has a monitor too, as soon as one of them has made its calls. UNFIT where the slot has no caller, amid a call, and
 * after an error. DONE or UNFIT. */
SELFCHECK_EXPORT uint32_t selfcheck_watch(struct selfcheck_slot *caller);

/* Announces a call of the caller: to be written right before the object's own. `low` is selfcheck_word of the operation
 * and its first argument, `high` its second argument, or 0. UNFIT where a call is announced already, where the caller
 * has made all its calls, and after an error; then the object isn't to be asked. DONE or UNFIT. */
SELFCHECK_EXPORT uint32_t selfcheck_announce(struct selfcheck_slot *caller, uint64_t low,
    uint64_t high);

/* Hands in the object's reply to the announced call: to be written right after the object's own.
 * DONE: the calls that are published and that the caller has seen, its own among them, have a legal
 * order, and the reply is delivered. ILLEGAL: they have none, and the object is wrong, if it began
 * as its kind does, and each of its calls was made between the announcement and the reply of a
 * caller of this table, with the fences of this header. NO_MEMORY: the reply isn't checked, but
 * others see it. After these two the caller makes no further call. UNFIT where no call is
 * announced. */
SELFCHECK_EXPORT uint32_t selfcheck_answered(struct selfcheck_slot *caller, uint64_t reply);

/* Hands in the object's reply to the announced call, in place of selfcheck_answered, and publishes the call without a
 * judgement: that is for monitors. The caller may then make its next call. DONE, or UNFIT where no call is announced. */
SELFCHECK_EXPORT uint32_t selfcheck_publish(struct selfcheck_slot *caller, uint64_t reply);

/* Makes a round of a monitor: judges all calls that are published. LEGAL: they have a legal order.
 * ILLEGAL: they have none, the object is wrong where it would be by selfcheck_answered, and the
 * monitor has the witness. NO_MEMORY: nothing is judged, and a further round may judge it. UNFIT
 * where the slot has no monitor, and after ILLEGAL. */
SELFCHECK_EXPORT uint32_t selfcheck_judge(struct selfcheck_slot *monitor);

/* Writes into the buffer the witness of a caller's or a monitor's error, the text of a book that has no legal order, and its
 * length into `written`. DONE, NO_MEMORY, NO_ROOM, or UNFIT where the caller's last call, or the monitor's last round,
 * wasn't ILLEGAL; but for DONE the buffer is as it was. */
SELFCHECK_EXPORT uint32_t selfcheck_witness(struct selfcheck_slot *holder, uint8_t *buffer,
    size_t room, size_t *written);

/* Checks of histories by a model: a sequential object of one's own. No function goes to the library. Where its check comes
 * to a step of the model that it doesn't know, it asks for it, and is told the step. selfcheck_model.h is the loop that
 * does so for a model of two functions.
 *
 * States, operations and replies are numbers, which the program gives to what they stand for, the same number to the
 * same thing always; 0 is the initial state. A history is told as calls begin and end, one after another; a caller has one
 * unanswered call at the most. A verdict holds for every sequential object that agrees with what was told. What was told
 * stays where more calls begin or end, and a verdict is for the history so far. */

/* What a check asks for: what this operation does at this state. */
struct selfcheck_question {
    uint32_t state, op;
};

/* A call in an order: its caller, and its number among the caller's calls, from 0. */
struct selfcheck_placed {
    uint32_t caller, number;
};

/* Opens a check of a history of 1 to 16 callers, before its first call, into an empty slot. DONE, NO_MEMORY or UNFIT. */
SELFCHECK_EXPORT uint32_t selfcheck_model_open(uint32_t callers, struct selfcheck_slot *slot);

/* The caller's next call begins, with this operation. UNFIT where there is no such caller, its last call hasn't ended, or
 * it has made 256 calls. DONE, NO_MEMORY or UNFIT. */
SELFCHECK_EXPORT uint32_t selfcheck_model_begin(struct selfcheck_slot *check, uint32_t caller,
    uint32_t op);

/* The caller's call that has begun ends, with this reply. UNFIT where there is none. DONE, NO_MEMORY or UNFIT. */
SELFCHECK_EXPORT uint32_t selfcheck_model_end(struct selfcheck_slot *check, uint32_t caller,
    uint32_t reply);

/* Promises that the operation changes no state at which it has this reply, which makes the check faster. Told steps are
 * held against it; it isn't known of the others. LEAVES_NOT where a told step breaks it. DONE, LEAVES_NOT, NO_MEMORY, or
 * UNFIT where the slot has neither a check nor a caller whose calls a model judges. */
SELFCHECK_EXPORT uint32_t selfcheck_model_leaves(struct selfcheck_slot *check, uint32_t op,
    uint32_t reply);

/* Goes on with the check, by at most so many steps. LEGAL: the history has an order that is legal for each object that
 * agrees with what was told. ILLEGAL: for no such object it has one. ASK: the question is written, of a step that wasn't
 * told; once it is told the check goes on. PAUSED: the steps are used up, and less is left to try. NO_MEMORY: the history
 * and what was told are as before. UNFIT where the slot has no check. But for ASK the question is as it was. Of a caller
 * whose calls a model judges this is the judgement of its published call, as selfcheck_model_answered has it. */
SELFCHECK_EXPORT uint32_t selfcheck_model_next(struct selfcheck_slot *check, uint64_t steps,
    struct selfcheck_question *question);

/* Tells a step of the model, asked for or not: at this state the operation leads to the state `next`, and has this reply.
 * CONTRADICTS where another step was told there, LEAVES_NOT where the step breaks a promise. DONE, CONTRADICTS,
 * LEAVES_NOT, NO_MEMORY, or UNFIT where the slot has neither a check nor a caller whose calls a model judges. */
SELFCHECK_EXPORT uint32_t selfcheck_model_tell(struct selfcheck_slot *check, uint32_t state,
    uint32_t op, uint32_t next, uint32_t reply);

/* Writes the legal order that the check has found into the buffer, which has room for so many calls, and the number of
 * its calls into `written`. An unanswered call needn't be in it. NO_ROOM where they are more: `written` says how many. UNFIT
 * where the slot has no check whose last answer was LEGAL, or a call has begun or ended since. But for DONE the buffer is as
 * it was. DONE, NO_MEMORY, NO_ROOM or UNFIT. */
SELFCHECK_EXPORT uint32_t selfcheck_model_order(struct selfcheck_slot *check,
    struct selfcheck_placed *order, size_t room, size_t *written);

/* Writes the evidence of the check into the buffer, which has room for so many bytes, and its length into `written`: the
 * text of the history's book and of what was told of the model, which selfcheck-judge-model judges without the model.
 * NO_ROOM where it is longer: `written` says how long. UNFIT where the slot has no check. But for DONE the buffer is as it
 * was. DONE, NO_MEMORY, NO_ROOM or UNFIT. */
SELFCHECK_EXPORT uint32_t selfcheck_model_evidence(struct selfcheck_slot *check, uint8_t *buffer,
    size_t room, size_t *written);

/* Calls that check themselves by a model. A table of callers stands beside an object, as above: each caller announces a
 * call, makes the object's own, and hands in its reply, which publishes the call. Then its judgement goes on by
 * selfcheck_model_next: it asks for steps of the model, is told them by selfcheck_model_tell, and ends with the reply
 * delivered, or as an error. What was told to a caller stays for its later calls, and promises may be made at any time.
 *
 * States have numbers of each caller's own, of which 0 is the initial one. Operations and replies have one number for all
 * callers of a table, also replies that the model gives and nobody has handed in yet: whoever gives a number first gives
 * it for all. selfcheck_model.h is the loop of a call. */

/* Opens a table into an empty slot, for 1 to 16 callers with 1 to 256 calls each, whose calls a model is to judge. DONE,
 * NO_MEMORY or UNFIT. */
SELFCHECK_EXPORT uint32_t selfcheck_model_table(uint32_t callers, uint64_t calls,
    struct selfcheck_slot *slot);

/* Puts the next caller of a table into an empty slot, as one whose calls a model judges: else as selfcheck_caller. DONE,
 * NO_MEMORY or UNFIT. */
SELFCHECK_EXPORT uint32_t selfcheck_model_caller(struct selfcheck_slot *table,
    struct selfcheck_slot *slot);

/* Announces a call of the caller: to be written right before the object's own. UNFIT where its last call isn't judged,
 * where the caller has made all its calls, and after an error; then the object isn't to be asked. DONE or UNFIT. */
SELFCHECK_EXPORT uint32_t selfcheck_model_announce(struct selfcheck_slot *caller, uint32_t op);

/* Hands in the object's reply to the announced call: to be written right after the object's own. DONE: the call is
 * published, and selfcheck_model_next goes on with its judgement. That gives LEGAL where the calls that are published and
 * that the caller has seen, its own among them, have an order that is legal for each object that agrees with what was
 * told: the reply is delivered, and the caller may make its next call. It gives ILLEGAL where they have none for any such
 * object: the object is wrong, if it began as the model does, and each of its calls was made between the announcement and
 * the reply of a caller of this table, with the fences of this header. Then selfcheck_witness has the text of their book,
 * whose operations and replies are those numbers, and the caller makes no further call. After NO_MEMORY of
 * selfcheck_model_next the judgement may go on. NO_MEMORY of this call: nobody judges the call, others see it, and the
 * caller makes no further call. UNFIT where no call is announced. DONE, NO_MEMORY or UNFIT. */
SELFCHECK_EXPORT uint32_t selfcheck_model_answered(struct selfcheck_slot *caller, uint32_t reply);

/* Lets the slot's handle go; an announced call stays unanswered. The slot is then empty. A table's memory is freed with
 * the last of its slots. DONE, or UNFIT where it was empty. */
SELFCHECK_EXPORT uint32_t selfcheck_drop(struct selfcheck_slot *slot);

/* The operations of each kind. */
enum selfcheck_operation {
    SELFCHECK_OP_ENQ = 1, SELFCHECK_OP_DEQ = 2,
    SELFCHECK_OP_PUSH = 1, SELFCHECK_OP_POP = 2,
    SELFCHECK_OP_WRITE = 1, SELFCHECK_OP_READ = 2, SELFCHECK_OP_CAS = 3,
    SELFCHECK_OP_INC = 1,
    SELFCHECK_OP_ADD = 1, SELFCHECK_OP_REMOVE = 2, SELFCHECK_OP_HAS = 3,
    SELFCHECK_OP_INSERT = 1, SELFCHECK_OP_MIN = 2,
    SELFCHECK_OP_PUT = 1, SELFCHECK_OP_GET = 2, SELFCHECK_OP_DEL = 3
};

/* The low word of an operation and its first argument, which is 0 where it has none. */
static inline uint64_t selfcheck_word(enum selfcheck_operation operation, uint32_t argument) {
    return ((uint64_t)operation << 32) + argument;
}

/* Replies: that the call is done, that there is no value, no, yes, that the object doesn't know the operation, a value. */
#define SELFCHECK_REPLY_DONE ((uint64_t)0)
#define SELFCHECK_REPLY_NONE ((uint64_t)1 << 32)
#define SELFCHECK_REPLY_NO ((uint64_t)3 << 32)
#define SELFCHECK_REPLY_YES (((uint64_t)3 << 32) + 1)
#define SELFCHECK_REPLY_BAD ((uint64_t)4 << 32)

static inline uint64_t selfcheck_reply_value(uint32_t value) {
    return ((uint64_t)2 << 32) + value;
}

/* The name of what is wrong, as the program selfcheck writes it; "?" where no fault has this
 * number. */
static inline const char *selfcheck_name(uint32_t what) {
    static const char *const names[SELFCHECK_REST + 1] = {
        "Long", "Cut", "Head", "Object", "Callers", "Calls", "Place", "Op", "Gap", "Reply", "View", "ViewOutside",
        "ViewLacksOwn", "ViewHasLater", "ViewsCross", "Mark", "Seen", "Last", "Stop", "Turns", "End", "Rest",
    };
    return what <= SELFCHECK_REST ? names[what] : "?";
}

/* The name of what is wrong with a log; "?" where no fault of a log has this number. */
static inline const char *selfcheck_log_name(uint32_t what) {
    static const char *const names[SELFCHECK_LOG_LONG + 1] = {
        "Line", "Header", "Process", "Type", "Operation", "Time", "Pending", "Unasked", "Value", "Reply", "TooMany", "Long",
    };
    return what <= SELFCHECK_LOG_LONG ? names[what] : "?";
}

/* The fences round the object's own call: the first one between the announcement and the call, the
 * second one between the call and what hands in its reply. The inline functions below have them.
 *
 * That call A ended before call B began is known by a load of A's view that found B's old count.
 * Such a load orders no other access. What A stored in the object with release order may still lie
 * in the store buffer of A's processor while the loads of A's view pass it. Then B announces
 * itself, asks the object, misses that store, and a right object is judged wrong: a ring for one
 * producer and one consumer is such an object. The fences are part of the program, since a fence of
 * the library orders nothing against weaker accesses in C. */
static inline void selfcheck_before_object(void) {
    __atomic_thread_fence(__ATOMIC_SEQ_CST);
}

static inline void selfcheck_after_object(void) {
    __atomic_thread_fence(__ATOMIC_SEQ_CST);
}

static inline uint32_t selfcheck_announce_inline(struct selfcheck_slot *caller, uint64_t low,
    uint64_t high) {
    uint32_t status = selfcheck_announce(caller, low, high);
    selfcheck_before_object();
    return status;
}

static inline uint32_t selfcheck_answered_inline(struct selfcheck_slot *caller, uint64_t reply) {
    selfcheck_after_object();
    return selfcheck_answered(caller, reply);
}

static inline uint32_t selfcheck_publish_inline(struct selfcheck_slot *caller, uint64_t reply) {
    selfcheck_after_object();
    return selfcheck_publish(caller, reply);
}

static inline uint32_t selfcheck_model_announce_inline(struct selfcheck_slot *caller, uint32_t op) {
    uint32_t status = selfcheck_model_announce(caller, op);
    selfcheck_before_object();
    return status;
}

static inline uint32_t selfcheck_model_answered_inline(struct selfcheck_slot *caller,
    uint32_t reply) {
    selfcheck_after_object();
    return selfcheck_model_answered(caller, reply);
}

/* What an export is given for a text of this length. */
static inline const uint8_t *selfcheck_text(const uint8_t *text, size_t length) {
    return length == 0 ? (const uint8_t *)"" : text;
}

/* What an export is given for a buffer of this length. */
static inline uint8_t *selfcheck_buffer(uint8_t *buffer, size_t room) {
    static uint8_t none;
    return room == 0 ? &none : buffer;
}

static inline uint32_t selfcheck_verify_inline(const uint8_t *text, size_t length,
    struct selfcheck_refusal *refusal) {
    return selfcheck_verify(selfcheck_text(text, length), length, refusal);
}

static inline uint32_t selfcheck_verify_within_inline(const uint8_t *text, size_t length,
    uint64_t steps, struct selfcheck_refusal *refusal) {
    return selfcheck_verify_within(selfcheck_text(text, length), length, steps, refusal);
}

static inline uint32_t selfcheck_order_inline(const uint8_t *text, size_t length,
    struct selfcheck_refusal *refusal) {
    return selfcheck_order(selfcheck_text(text, length), length, refusal);
}

static inline uint32_t selfcheck_certify_inline(const uint8_t *text, size_t length, uint8_t *buffer,
    size_t room, size_t *written, struct selfcheck_refusal *refusal) {
    text = selfcheck_text(text, length);
    return selfcheck_certify(text, length, selfcheck_buffer(buffer, room), room, written, refusal);
}

static inline uint32_t selfcheck_smaller_inline(const uint8_t *text, size_t length, uint8_t *buffer,
    size_t room, size_t *written, struct selfcheck_refusal *refusal) {
    text = selfcheck_text(text, length);
    return selfcheck_smaller(text, length, selfcheck_buffer(buffer, room), room, written, refusal);
}

static inline uint32_t selfcheck_explain_inline(const uint8_t *text, size_t length, uint8_t *buffer,
    size_t room, size_t *written, struct selfcheck_refusal *refusal) {
    text = selfcheck_text(text, length);
    return selfcheck_explain(text, length, selfcheck_buffer(buffer, room), room, written, refusal);
}

static inline uint32_t selfcheck_picture_inline(const uint8_t *text, size_t length, uint8_t *buffer,
    size_t room, size_t *written, struct selfcheck_refusal *refusal) {
    text = selfcheck_text(text, length);
    return selfcheck_picture(text, length, selfcheck_buffer(buffer, room), room, written, refusal);
}

static inline uint32_t selfcheck_import_inline(const uint8_t *words, size_t words_length,
    const uint8_t *log, size_t length, uint8_t *buffer, size_t room, size_t *written,
    struct selfcheck_refusal *refusal) {
    words = selfcheck_text(words, words_length);
    log = selfcheck_text(log, length);
    return selfcheck_import(words, words_length, log, length, selfcheck_buffer(buffer, room), room,
        written, refusal);
}

static inline uint32_t selfcheck_open_inline(const uint8_t *kind, size_t length, uint32_t callers,
    uint64_t calls, struct selfcheck_slot *slot) {
    return selfcheck_open(selfcheck_text(kind, length), length, callers, calls, slot);
}

static inline uint32_t selfcheck_witness_inline(struct selfcheck_slot *holder, uint8_t *buffer,
    size_t room, size_t *written) {
    return selfcheck_witness(holder, selfcheck_buffer(buffer, room), room, written);
}

static inline uint32_t selfcheck_model_order_inline(struct selfcheck_slot *check,
    struct selfcheck_placed *order, size_t room, size_t *written) {
    static struct selfcheck_placed none;
    return selfcheck_model_order(check, room == 0 ? &none : order, room, written);
}

static inline uint32_t selfcheck_model_evidence_inline(struct selfcheck_slot *check,
    uint8_t *buffer, size_t room, size_t *written) {
    return selfcheck_model_evidence(check, selfcheck_buffer(buffer, room), room, written);
}

/* A step of a schedule. Where C code is called from Rust or Python, and a hunt of the binding there runs it, the turn may
 * go to another thread at each `selfcheck_point()`: put one before each access to what threads share. C code between two
 * points is one step, so it mustn't wait for another thread without a point in the loop. In no hunt a point is one load
 * of a pointer, which is null.
 *
 * A program in Rust sets the pointer by itself, where the C code is linked into it as a static library. In Python the
 * shared library that has the code is named once, by `selfcheck.hunts.take_part(library)`. Each shared library has a
 * pointer of its own. When a run is given up, its C code goes on without a schedule until it returns. */
__attribute__((weak, visibility("default"))) void (*selfcheck_at_point)(const char *file, int line) = 0;

static inline void selfcheck_point_of(const char *file, int line) {
    void (*at_point)(const char *, int) = __atomic_load_n(&selfcheck_at_point, __ATOMIC_RELAXED);
    if (at_point)
        at_point(file, line);
}

#define selfcheck_point() selfcheck_point_of(__FILE__, __LINE__)

#define selfcheck_announce selfcheck_announce_inline
#define selfcheck_answered selfcheck_answered_inline
#define selfcheck_publish selfcheck_publish_inline
#define selfcheck_verify selfcheck_verify_inline
#define selfcheck_verify_within selfcheck_verify_within_inline
#define selfcheck_order selfcheck_order_inline
#define selfcheck_certify selfcheck_certify_inline
#define selfcheck_smaller selfcheck_smaller_inline
#define selfcheck_explain selfcheck_explain_inline
#define selfcheck_picture selfcheck_picture_inline
#define selfcheck_import selfcheck_import_inline
#define selfcheck_open selfcheck_open_inline
#define selfcheck_witness selfcheck_witness_inline
#define selfcheck_model_order selfcheck_model_order_inline
#define selfcheck_model_evidence selfcheck_model_evidence_inline
#define selfcheck_model_announce selfcheck_model_announce_inline
#define selfcheck_model_answered selfcheck_model_answered_inline

#ifdef __cplusplus
}
#endif

#endif
