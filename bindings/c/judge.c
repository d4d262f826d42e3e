/* judge verify|order|certify|smaller|explain|picture: reads a text from standard input, and writes what is said of it, as
 * the program selfcheck writes it, or the book's certificate, a smaller book, why it has no order, or its picture. Ends
 * with the library's status, and with 2 where the word isn't right.
 *
 * judge import WORD ..: reads a log, and writes its books and ends as the program selfcheck-import does. */
#include "selfcheck.h"
#include <stdio.h>
#include <stdlib.h>
#include <string.h>

/* All that the stream holds, and its length; null for want of memory. */
static uint8_t *read_all(FILE *stream, size_t *length) {
    size_t room = 4096;
    uint8_t *text = malloc(room);
    *length = 0;
    while (text != NULL) {
        size_t count = fread(text + *length, 1, room - *length, stream);
        *length += count;
        if (*length < room) break;
        uint8_t *longer = realloc(text, room *= 2);
        if (longer == NULL) free(text);
        text = longer;
    }
    return text;
}

/* An export that writes into a buffer. */
typedef uint32_t writer(const uint8_t *text, size_t length, uint8_t *buffer, size_t room, size_t *written,
                        struct selfcheck_refusal *refusal);

/* Writes what the export writes of the text, where its status is one of these. */
static uint32_t write_by(writer *write, uint32_t wanted, uint32_t other, const uint8_t *text, size_t length,
                         struct selfcheck_refusal *refusal) {
    size_t room = 2 * length + 64, written = 0;
    for (;;) {
        uint8_t *buffer = malloc(room);
        if (buffer == NULL) return SELFCHECK_NO_MEMORY;
        uint32_t status = write(text, length, buffer, room, &written, refusal);
        if (status == wanted || status == other) fwrite(buffer, 1, written, stdout);
        free(buffer);
        if (status != SELFCHECK_NO_ROOM) return status;
        room = written;
    }
}

/* The words, each with a line feed after it; null for want of memory. */
static char *lines_of(char **words, int count) {
    size_t length = 1;
    for (int i = 0; i < count; i++) length += strlen(words[i]) + 1;
    char *lines = malloc(length);
    if (lines == NULL) return NULL;
    char *end = lines;
    for (int i = 0; i < count; i++) end += sprintf(end, "%s\n", words[i]);
    *end = 0;
    return lines;
}

/* Writes the books of a log, or its first fault. */
static int import_log(const char *words, const uint8_t *log, size_t length) {
    struct selfcheck_refusal refusal = {0, 0};
    size_t room = length, written = 0;
    for (;;) {
        char *buffer = malloc(room + 1);
        if (buffer == NULL) return SELFCHECK_NO_MEMORY;
        uint32_t status = selfcheck_import((const uint8_t *)words, strlen(words), log, length, (uint8_t *)buffer, room,
                                           &written, &refusal);
        if (status == SELFCHECK_DONE) {
            fwrite(buffer, 1, written, stdout);
            buffer[written] = 0;
            /* a key without a book has such a line, and no other line begins so */
            if (strstr(buffer, "\nrefused ") != NULL) status = SELFCHECK_REFUSED;
        } else if (status == SELFCHECK_REFUSED) {
            printf("refused %llu %s\n", (unsigned long long)refusal.line, selfcheck_log_name(refusal.what));
        }
        free(buffer);
        if (status != SELFCHECK_NO_ROOM) return status == SELFCHECK_UNFIT ? 2 : (int)status;
        room = written;
    }
}

int main(int count, char **words) {
    const char *word = count >= 2 ? words[1] : "";
    struct selfcheck_refusal refusal = {0, 0};
    int says = 0; /* whether the verdict is told by a word */
    uint32_t status;
    size_t length;
    uint8_t *text = read_all(stdin, &length);
    if (text == NULL) return SELFCHECK_NO_MEMORY;
    if (strcmp(word, "import") == 0) {
        char *lines = lines_of(words + 2, count - 2);
        int ended = lines == NULL ? SELFCHECK_NO_MEMORY : import_log(lines, text, length);
        free(lines);
        free(text);
        return ended;
    }
    if (count != 2) {
        status = 2;
    } else if (strcmp(word, "verify") == 0) {
        says = 1;
        status = selfcheck_verify(text, length, &refusal);
    } else if (strcmp(word, "order") == 0) {
        says = 1;
        status = selfcheck_order(text, length, &refusal);
    } else if (strcmp(word, "certify") == 0) {
        status = write_by(selfcheck_certify, SELFCHECK_LEGAL, SELFCHECK_LEGAL, text, length, &refusal);
        says = status == SELFCHECK_ILLEGAL;
    } else if (strcmp(word, "smaller") == 0) {
        status = write_by(selfcheck_smaller, SELFCHECK_ILLEGAL, SELFCHECK_ILLEGAL, text, length, &refusal);
        says = status == SELFCHECK_LEGAL;
    } else if (strcmp(word, "explain") == 0) {
        status = write_by(selfcheck_explain, SELFCHECK_ILLEGAL, SELFCHECK_DONE, text, length, &refusal);
    } else if (strcmp(word, "picture") == 0) {
        status = write_by(selfcheck_picture, SELFCHECK_DONE, SELFCHECK_DONE, text, length, &refusal);
    } else {
        status = 2;
    }
    free(text);
    if (says && status == SELFCHECK_LEGAL) puts("legal");
    if (says && status == SELFCHECK_ILLEGAL) puts("illegal");
    if (status == SELFCHECK_REFUSED)
        printf("refused %llu %s\n", (unsigned long long)refusal.line, selfcheck_name(refusal.what));
    return (int)status;
}
