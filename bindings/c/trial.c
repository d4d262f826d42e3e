/* trial names | empty | limits | handles ROUNDS: what neither `judge` nor `ring` shows of the header and of
 * the library. Ends with 0 where all holds, with 1 and what doesn't where something doesn't, and
 * with 2 where the words aren't right. */
#include "selfcheck.h"
#include <malloc.h>
#include <stdio.h>
#include <stdlib.h>
#include <string.h>

#define HOLDS(is_so) \
    do { \
        if (!(is_so)) { \
            printf("%s:%d: %s doesn't hold\n", __FILE__, __LINE__, #is_so); \
            exit(1); \
        } \
    } while (0)

static const char illegal[] =
    "book 2\nobject queue\ncallers 1\ncalls 1\n0 0 deq =5 view 0:1\nend\n";

static void try_names(void) {
    HOLDS(strcmp(selfcheck_name(SELFCHECK_LONG), "Long") == 0);
    HOLDS(strcmp(selfcheck_name(SELFCHECK_REST), "Rest") == 0);
    HOLDS(strcmp(selfcheck_name(SELFCHECK_REST + 1), "?") == 0);
    HOLDS(strcmp(selfcheck_name(UINT32_MAX), "?") == 0);
    HOLDS(strcmp(selfcheck_log_name(SELFCHECK_LOG_LINE), "Line") == 0);
    HOLDS(strcmp(selfcheck_log_name(SELFCHECK_LOG_LONG), "Long") == 0);
    HOLDS(strcmp(selfcheck_log_name(SELFCHECK_LOG_LONG + 1), "?") == 0);
}

/* Each text, kind and buffer of length 0 may be null. */
static void try_empty(void) {
    struct selfcheck_refusal refusal = {0, SELFCHECK_REST};
    struct selfcheck_slot table = {0, NULL}, caller = {0, NULL};
    const uint8_t *book = (const uint8_t *)illegal;
    const size_t length = sizeof illegal - 1;
    size_t written = 0;
    HOLDS(selfcheck_verify(NULL, 0, &refusal) == SELFCHECK_REFUSED);
    HOLDS(refusal.line == 1 && refusal.what == SELFCHECK_CUT);
    HOLDS(selfcheck_order(NULL, 0, &refusal) == SELFCHECK_REFUSED);
    HOLDS(selfcheck_certify(NULL, 0, NULL, 0, &written, &refusal) == SELFCHECK_REFUSED);
    HOLDS(selfcheck_smaller(NULL, 0, NULL, 0, &written, &refusal) == SELFCHECK_REFUSED);
    HOLDS(selfcheck_explain(NULL, 0, NULL, 0, &written, &refusal) == SELFCHECK_REFUSED);
    HOLDS(selfcheck_picture(NULL, 0, NULL, 0, &written, &refusal) == SELFCHECK_REFUSED);
    HOLDS(written == 0);
    const uint8_t words[] = "--format\njsonl\n--kind\nqueue\n";
    HOLDS(selfcheck_import(NULL, 0, NULL, 0, NULL, 0, &written, &refusal) == SELFCHECK_UNFIT && written == 0);
    HOLDS(selfcheck_import(words, sizeof words - 1, NULL, 0, NULL, 0, &written, &refusal) == SELFCHECK_NO_ROOM);
    HOLDS(written > strlen("key\nbook 2\n"));
    HOLDS(selfcheck_smaller(book, length, NULL, 0, &written, &refusal) == SELFCHECK_NO_ROOM);
    HOLDS(written == length);
    HOLDS(selfcheck_explain(book, length, NULL, 0, &written, &refusal) == SELFCHECK_NO_ROOM);
    HOLDS(written == strlen("call 0 0 took 5, which no call had put in before\n"));
    HOLDS(selfcheck_picture(book, length, NULL, 0, &written, &refusal) == SELFCHECK_NO_ROOM);
    HOLDS(written > length);
    HOLDS(selfcheck_open(NULL, 0, 1, 1, &table) == SELFCHECK_UNFIT);
    HOLDS(selfcheck_open((const uint8_t *)"queue", 5, 1, 1, &table) == SELFCHECK_DONE);
    HOLDS(selfcheck_caller(&table, &caller) == SELFCHECK_DONE);
    HOLDS(selfcheck_announce(&caller, selfcheck_word(SELFCHECK_OP_DEQ, 0), 0) == SELFCHECK_DONE);
    HOLDS(selfcheck_answered(&caller, selfcheck_reply_value(5)) == SELFCHECK_ILLEGAL);
    written = 0;
    HOLDS(selfcheck_witness(&caller, NULL, 0, &written) == SELFCHECK_NO_ROOM && written == length);
    HOLDS(selfcheck_drop(&table) == SELFCHECK_DONE && selfcheck_drop(&caller) == SELFCHECK_DONE);
}

/* Eight callers write to a register, each another value, and a ninth one reads, all at once. An order of nine calls takes nine
 * steps, and before it is known that nobody wrote what is read, each of the 256 sets of writes is tried. */
static void try_limit(int value, uint64_t few, uint32_t verdict) {
    const char *view = "view 0:1 1:1 2:1 3:1 4:1 5:1 6:1 7:1 8:1";
    struct selfcheck_refusal refusal = {0, SELFCHECK_REST};
    char book[1024];
    int length = snprintf(book, sizeof book, "book 2\nobject casreg\ncallers 9\ncalls 1 1 1 1 1 1 1 1 1\n");
    for (int caller = 0; caller < 8; caller++)
        length += snprintf(book + length, sizeof book - (size_t)length, "%d 0 write %d done %s\n", caller, caller, view);
    length += snprintf(book + length, sizeof book - (size_t)length, "8 0 read =%d %s\nend\n", value, view);
    HOLDS((size_t)length < sizeof book);
    const uint8_t *text = (const uint8_t *)book;
    HOLDS(selfcheck_verify_within(text, (size_t)length, 0, &refusal) == SELFCHECK_UNKNOWN);
    HOLDS(selfcheck_verify_within(text, (size_t)length, few, &refusal) == SELFCHECK_UNKNOWN);
    HOLDS(selfcheck_verify_within(text, (size_t)length, 1000000, &refusal) == verdict);
    HOLDS(selfcheck_verify_within(text, (size_t)length, UINT64_MAX, &refusal) == verdict);
    HOLDS(selfcheck_verify(text, (size_t)length, &refusal) == verdict);
    HOLDS(refusal.line == 0 && refusal.what == SELFCHECK_REST);
    HOLDS(selfcheck_verify_within(NULL, 0, 0, &refusal) == SELFCHECK_REFUSED);
    HOLDS(refusal.line == 1 && refusal.what == SELFCHECK_CUT);
}

static void try_limits(void) {
    try_limit(7, 8, SELFCHECK_LEGAL);
    try_limit(8, 255, SELFCHECK_ILLEGAL);
}

/* A table with all sorts of handles: callers between two calls, amid one and after an error, one
 * that only publishes, and a monitor before and after an error. They are dropped in an order that
 * begins with another one in each round. */
static void use_handles(unsigned round) {
    enum { TABLE, RIGHT, WRONG, AMID, PUBLISHED, WATCHING, FOUND, HANDLES };
    struct selfcheck_slot slots[HANDLES] = {{0, NULL}};
    struct selfcheck_slot *table = &slots[TABLE];
    const uint64_t enq = selfcheck_word(SELFCHECK_OP_ENQ, 5);
    const uint64_t deq = selfcheck_word(SELFCHECK_OP_DEQ, 0);
    uint8_t witness[512];
    size_t written;
    HOLDS(selfcheck_open((const uint8_t *)"queue", 5, 6, 2, table) == SELFCHECK_DONE);
    for (int caller = RIGHT; caller <= PUBLISHED; caller++)
        HOLDS(selfcheck_caller(table, &slots[caller]) == SELFCHECK_DONE);
    HOLDS(selfcheck_monitor(table, &slots[WATCHING]) == SELFCHECK_DONE);
    HOLDS(selfcheck_monitor(table, &slots[FOUND]) == SELFCHECK_DONE);
    HOLDS(selfcheck_announce(&slots[RIGHT], enq, 0) == SELFCHECK_DONE);
    HOLDS(selfcheck_answered(&slots[RIGHT], SELFCHECK_REPLY_DONE) == SELFCHECK_DONE);
    HOLDS(selfcheck_judge(&slots[WATCHING]) == SELFCHECK_LEGAL);
    HOLDS(selfcheck_announce(&slots[AMID], enq, 0) == SELFCHECK_DONE);
    HOLDS(selfcheck_announce(&slots[PUBLISHED], deq, 0) == SELFCHECK_DONE);
    HOLDS(selfcheck_publish(&slots[PUBLISHED], selfcheck_reply_value(6)) == SELFCHECK_DONE);
    HOLDS(selfcheck_announce(&slots[WRONG], deq, 0) == SELFCHECK_DONE);
    HOLDS(selfcheck_answered(&slots[WRONG], SELFCHECK_REPLY_NONE) == SELFCHECK_ILLEGAL);
    HOLDS(selfcheck_witness(&slots[WRONG], witness, sizeof witness, &written) == SELFCHECK_DONE);
    HOLDS(selfcheck_judge(&slots[FOUND]) == SELFCHECK_ILLEGAL);
    HOLDS(selfcheck_witness(&slots[FOUND], witness, sizeof witness, &written) == SELFCHECK_DONE);
    for (unsigned place = 0; place < HANDLES; place++)
        HOLDS(selfcheck_drop(&slots[(place + round) % HANDLES]) == SELFCHECK_DONE);
}

/* A table of 16 callers has a monitor too, once one of them has made its calls. */
static void try_watch(void) {
    struct selfcheck_slot table = {0, NULL}, callers[16] = {{0, NULL}}, more = {0, NULL};
    HOLDS(selfcheck_open((const uint8_t *)"queue", 5, 16, 1, &table) == SELFCHECK_DONE);
    for (int caller = 0; caller < 16; caller++)
        HOLDS(selfcheck_caller(&table, &callers[caller]) == SELFCHECK_DONE);
    HOLDS(selfcheck_monitor(&table, &more) == SELFCHECK_UNFIT && selfcheck_watch(&more) == SELFCHECK_UNFIT);
    HOLDS(selfcheck_watch(&table) == SELFCHECK_UNFIT);
    HOLDS(selfcheck_announce(&callers[15], selfcheck_word(SELFCHECK_OP_ENQ, 5), 0) == SELFCHECK_DONE);
    HOLDS(selfcheck_watch(&callers[15]) == SELFCHECK_UNFIT);
    HOLDS(selfcheck_publish(&callers[15], SELFCHECK_REPLY_DONE) == SELFCHECK_DONE);
    HOLDS(selfcheck_watch(&callers[15]) == SELFCHECK_DONE);
    HOLDS(selfcheck_watch(&callers[15]) == SELFCHECK_UNFIT);
    HOLDS(selfcheck_judge(&callers[15]) == SELFCHECK_LEGAL);
    HOLDS(selfcheck_announce(&callers[0], selfcheck_word(SELFCHECK_OP_DEQ, 0), 0) == SELFCHECK_DONE);
    HOLDS(selfcheck_publish(&callers[0], SELFCHECK_REPLY_NONE) == SELFCHECK_DONE);
    HOLDS(selfcheck_judge(&callers[15]) == SELFCHECK_ILLEGAL);
    for (int caller = 0; caller < 16; caller++)
        HOLDS(selfcheck_drop(&callers[caller]) == SELFCHECK_DONE);
    HOLDS(selfcheck_drop(&table) == SELFCHECK_DONE);
}

/* Dropped handles give their memory back: after the first rounds, further ones leave no byte more
 * in use. */
static void try_handles(unsigned rounds) {
    size_t in_use = 0;
    try_watch();
    for (unsigned round = 0; round < rounds + 100; round++) {
        if (round == 100) in_use = mallinfo2().uordblks;
        use_handles(round);
    }
    HOLDS(mallinfo2().uordblks <= in_use);
}

int main(int count, char **words) {
    if (count == 2 && strcmp(words[1], "names") == 0)
        try_names();
    else if (count == 2 && strcmp(words[1], "empty") == 0)
        try_empty();
    else if (count == 2 && strcmp(words[1], "limits") == 0)
        try_limits();
    else if (count == 3 && strcmp(words[1], "handles") == 0)
        try_handles((unsigned)strtoul(words[2], NULL, 10));
    else
        return 2;
    return 0;
}
