/* many_books THREADS FILE ..: judges many books in threads, each of which takes the next file that none has. There is a line
 * for each file, with its verdict or why it has none. Ends with 0 where all are legal, and else with 1. */
#include "selfcheck.h"
#include <errno.h>
#include <pthread.h>
#include <stdatomic.h>
#include <stdio.h>
#include <stdlib.h>
#include <string.h>

/* What is said of a book: the library's status, or what kept its file from being read. */
struct judged {
    uint32_t status;
    int error;
    struct selfcheck_refusal refusal;
};

struct work {
    char **names;
    size_t count;
    atomic_size_t next;
    struct judged *judged;
};

/* All that a file holds, and its length. Null, with errno set, where it can't be read. */
static uint8_t *read_file(const char *name, size_t *length) {
    FILE *file = fopen(name, "rb");
    if (file == NULL) return NULL;
    size_t room = 4096;
    uint8_t *text = malloc(room);
    *length = 0;
    while (text != NULL) {
        *length += fread(text + *length, 1, room - *length, file);
        if (*length < room) break;
        uint8_t *longer = realloc(text, room *= 2);
        if (longer == NULL) free(text);
        text = longer;
    }
    if (ferror(file)) {
        free(text);
        text = NULL;
    }
    int error = errno;
    fclose(file);
    errno = error;
    return text;
}

static void *judge_on(void *given) {
    struct work *work = given;
    for (size_t at; (at = atomic_fetch_add(&work->next, 1)) < work->count;) {
        struct judged *judged = &work->judged[at];
        size_t length;
        uint8_t *text = read_file(work->names[at], &length);
        if (text == NULL)
            judged->error = errno;
        else
            judged->status = selfcheck_verify(text, length, &judged->refusal);
        free(text);
    }
    return NULL;
}

static void tell(const char *name, const struct judged *judged) {
    if (judged->error != 0)
        printf("%s %s\n", name, strerror(judged->error));
    else if (judged->status == SELFCHECK_REFUSED)
        printf("%s refused %llu %s\n", name, (unsigned long long)judged->refusal.line,
               selfcheck_name(judged->refusal.what));
    else
        printf("%s %s\n", name, judged->status == SELFCHECK_LEGAL ? "legal"
               : judged->status == SELFCHECK_ILLEGAL ? "illegal" : "out of memory");
}

int main(int count, char **words) {
    int threads = count > 1 ? atoi(words[1]) : 0, all_legal = 1;
    if (threads < 1) {
        fputs("many_books THREADS FILE ..\n", stderr);
        return 2;
    }
    struct work work = {.names = words + 2, .count = (size_t)count - 2};
    pthread_t *running = calloc((size_t)threads, sizeof *running);
    work.judged = calloc(work.count + 1, sizeof *work.judged);
    if (running == NULL || work.judged == NULL) return 6;
    /* this thread judges too, whether or not others are to be had */
    int begun = 0;
    while (begun < threads - 1 && pthread_create(&running[begun], NULL, judge_on, &work) == 0) begun++;
    judge_on(&work);
    while (begun > 0) pthread_join(running[--begun], NULL);
    for (size_t at = 0; at < work.count; at++) {
        tell(work.names[at], &work.judged[at]);
        if (work.judged[at].error != 0 || work.judged[at].status != SELFCHECK_LEGAL) all_legal = 0;
    }
    free(running);
    free(work.judged);
    return !all_legal;
}
