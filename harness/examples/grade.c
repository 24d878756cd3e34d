/* Grades the text on standard input: says in words what comes of it, then prints what the grading program prints. */
#include "ikhzorvan.h"

#include <stdio.h>

/* One byte more than is ever read, so that a text that is too long is seen to be so. */
static uint8_t text[IKHZORVAN_LONGEST_TEXT + 1];
static uint8_t answer[IKHZORVAN_ANSWER_LEN];
static uint8_t out[IKHZORVAN_LONGEST_SESSION];

static unsigned two_bytes(const uint8_t *bytes) { return bytes[0] * 256u + bytes[1]; }

static void say_accepted(const uint8_t *record) {
    static const char *const grades[] = {"const", "mover", "atomic", "cmpd", "error"};
    printf("accepted: %u methods, %u rounds\n", record[IKHZORVAN_AT_METHODS], two_bytes(record + IKHZORVAN_AT_ROUNDS));
    for (unsigned method = 0; method < record[IKHZORVAN_AT_METHODS]; method++)
        printf("method %u, no lock held: %s\n", method, grades[answer[16 * method]]);
}

static void say_refused(const uint8_t *record) {
    if (record[IKHZORVAN_AT_NUMBER] == IKHZORVAN_BROKEN)
        printf("refused: method %u breaks a constraint of kind %u at held set %u, fork node %u\n",
               record[IKHZORVAN_AT_METHOD], record[IKHZORVAN_AT_KIND], record[IKHZORVAN_AT_HELD],
               two_bytes(record + IKHZORVAN_AT_NODE));
    else
        printf("refused: number %u at line %u\n", record[IKHZORVAN_AT_NUMBER], two_bytes(record + IKHZORVAN_AT_LINE));
}

int main(void) {
    uint8_t record[IKHZORVAN_RECORD_LEN];
    size_t len = fread(text, 1, sizeof text, stdin);
    if (ikhzorvan_grade(text, len, answer, sizeof answer, record, sizeof record) == IKHZORVAN_ACCEPTED)
        say_accepted(record);
    else
        say_refused(record);

    size_t session = ikhzorvan_session(text, len, out, sizeof out);
    fwrite(out, 1, session, stdout);
    return 0;
}
