/* `why METHOD SET...` explains grades of the text on standard input: for each method and held set a line that says so, then a
 * frame 13 for each step, or the frame of the refusal. */
#include "ikhzorvan.h"

#include <stdio.h>
#include <stdlib.h>

/* One byte more than is ever read, so that a text that is too long is seen to be so. */
static uint8_t text[IKHZORVAN_LONGEST_TEXT + 1];
static struct ikhzorvan_step steps[IKHZORVAN_MOST_STEPS];

static unsigned two_bytes(const uint8_t *bytes) { return bytes[0] * 256u + bytes[1]; }

static void say_step(const struct ikhzorvan_step *step) {
    printf("13%02X%04X%02X%04X%02X%02X\n", step->method, step->node, step->set, step->round, step->grade, step->rule);
}

static void say_refused(const uint8_t *page) {
    printf("1F%02X%04X%02X%02X%04X%02X\n", page[IKHZORVAN_AT_NUMBER], two_bytes(page + IKHZORVAN_AT_LINE),
           page[IKHZORVAN_AT_METHOD], page[IKHZORVAN_AT_KIND], two_bytes(page + IKHZORVAN_AT_NODE),
           page[IKHZORVAN_AT_HELD]);
}

static void explain(size_t len, size_t method, size_t set) {
    uint8_t page[IKHZORVAN_PAGE_LEN];
    printf("why %lu %lu\n", (unsigned long)method, (unsigned long)set);
    if (ikhzorvan_explain(text, len, method, set, steps, IKHZORVAN_MOST_STEPS, page, sizeof page) != IKHZORVAN_ACCEPTED) {
        say_refused(page);
        return;
    }
    for (unsigned at = 0; at < two_bytes(page + IKHZORVAN_AT_STEPS); at++) say_step(&steps[at]);
}

int main(int count, char **words) {
    size_t len = fread(text, 1, sizeof text, stdin);
    for (int at = 1; at + 1 < count; at += 2)
        explain(len, strtoul(words[at], NULL, 10), strtoul(words[at + 1], NULL, 10));
    return 0;
}
