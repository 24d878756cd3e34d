/* Tries what the header promises beside the rules: NULL before a length of 0, the needed length where `out` or the list of
 * steps is short, what is left untouched, calls on several threads at once, and that IKHZORVAN_STACK bytes of stack are enough
 * for the deepest text, for the longest and for one whose reason is long. Says how much stack each of those took, and fails
 * where a promise is broken. */
#define _GNU_SOURCE
#include "ikhzorvan.h"

#include <pthread.h>
#include <stdio.h>
#include <stdlib.h>
#include <string.h>
#include <sys/mman.h>
#include <unistd.h>

static void expect(int so, const char *what) {
    if (so) return;
    fprintf(stderr, "broken: %s\n", what);
    exit(1);
}

/* --- texts */

struct text {
    const char *name;
    uint8_t bytes[IKHZORVAN_LONGEST_TEXT];
    size_t len;
    uint8_t number;     /* the verdict that it must get, so that what is measured is what its name says */
    size_t method, set; /* what is to be explained of it */
    unsigned steps;     /* how many steps that must have */
};

static void add(struct text *text, const char *line) {
    size_t len = strlen(line);
    expect(text->len + len + 1 <= sizeof text->bytes, "a text of the test fits");
    memcpy(text->bytes + text->len, line, len);
    text->bytes[text->len + len] = '\n';
    text->len += len + 1;
}

enum { FUNCTIONS = 3 };
static const char *const functions[FUNCTIONS] = {"grade", "session", "explain"};

static struct text smallest = {.name = "one node", .number = IKHZORVAN_ACCEPTED, .steps = 1};
static struct text deepest = {.name = "a chain of 1,024 nodes", .number = IKHZORVAN_ACCEPTED, .steps = 1023};
static struct text longest = {.name = "32,768 bytes", .number = IKHZORVAN_MISPLACED};
static struct text turning = {
    .name = "a reason of 26,134 steps", .number = IKHZORVAN_ACCEPTED, .method = 2, .set = 11, .steps = 26134};
static struct text paper = {.name = "the paper's session", .number = IKHZORVAN_ACCEPTED};
static struct text declared = {.name = "the same, declared", .number = IKHZORVAN_BROKEN};

static void make_smallest(struct text *text) {
    add(text, "0101000001");
    add(text, "040000010000000000000000000000000000000000");
    add(text, "03000000000000000000000000");
}

/* A main of all nodes but one: a plain value, a call with four locks without a name, then assertions each of the node before
 * it, so that grades are found as deep down as there are nodes, and each choice for the locks is tried down there. The node
 * left is the callee's. */
static void make_chain(struct text *text) {
    const unsigned nodes = 1024;
    char line[64];
    snprintf(line, sizeof line, "010200%04X", nodes);
    add(text, line);
    snprintf(line, sizeof line, "0400%04X0000000000000000000000000000000000", nodes - 1);
    add(text, line);
    add(text, "040400010000000000000000000000000000000000");
    add(text, "03000000000000000000000000");
    add(text, "030800000000000001FFFFFFFF");
    for (unsigned node = 2; node < nodes - 1; node++) {
        snprintf(line, sizeof line, "0307%04X000000000000000000", node - 1);
        add(text, line);
    }
    add(text, "03000000000000000000000000");
}

/* The chain, and then a line too many up to the last byte. */
static void make_longest(struct text *text) {
    make_chain(text);
    size_t last = sizeof text->bytes - 1;
    /* An odd count of digits would be another refusal. */
    while (last - text->len > 1000) add(text, "00");
    if ((last - text->len) % 2 == 1) add(text, "00");
    memset(text->bytes + text->len, '0', last - text->len);
    text->bytes[last] = '\n';
    text->len = last + 1;
}

/* A call with so many nodes before it, one of them its child. */
static void add_call(struct text *text, unsigned *nodes, unsigned callee, const char *names) {
    char line[64];
    add(text, "03000000000000000000000000");
    snprintf(line, sizeof line, "0308%04X00000000%02X%s", *nodes, callee, names);
    add(text, line);
    *nodes += 2;
}

/* A method that calls itself at other and other held sets, below reads of a final field. Its grades turn up at one set after
 * the other, first atomic and then cmpd, and the reason for the last goes back over each. */
static void make_turning(struct text *text) {
    static const char *const names[] = {"01010203", "00030203", "03020203", "00010200"};
    const unsigned all = 1022;
    unsigned nodes = 0;
    char line[64];
    add(text, "0103010400");
    add(text, "020000");
    add(text, "040000010000000000000000000000000000000000");
    add(text, "040400010100000000000000000000000000000200");
    snprintf(line, sizeof line, "0404%04X0000000000000000000000000000000000", all);
    add(text, line);
    add(text, "03000000000000000000000000");
    add(text, "03000000000000000000000000");
    add_call(text, &nodes, 1, "00010203");
    add_call(text, &nodes, 2, "03030003");
    add(text, "03030001000300000000000000");
    nodes++;
    for (int at = 0; at < 4; at++) {
        unsigned root = nodes - 1;
        add_call(text, &nodes, 2, names[at]);
        add(text, "03000000000000000000000000");
        snprintf(line, sizeof line, "0304%04X%04X%04X0000000000", nodes, nodes - 1, root);
        add(text, line);
        nodes += 2;
    }
    for (; nodes < all; nodes++) {
        snprintf(line, sizeof line, "0301%04X000000000000000000", nodes - 1);
        add(text, line);
    }
}

/* The text of "One whole session", or the same with line 5 declared. */
static void make_paper(struct text *text, int is_declared) {
    add(text, "010301000A");
    add(text, "020001");
    add(text, "040000020000000000000000000000000000000000");
    add(text, "040100030000000000000000000000000000000000");
    add(text, is_declared ? "040100050102020000000000000000000000000000" : "040100050000000000000000000000000000000000");
    add(text, "03000000000000000000000000");
    add(text, "030800000000000002FF000000");
    add(text, "03000000000000000000000000");
    add(text, "03010000000000000000000000");
    add(text, "03060001000000000000000000");
    add(text, "03000000000000000000000000");
    add(text, "03080000000000000100000000");
    add(text, "03000000000000000000000000");
    add(text, "03080002000000000100000000");
    add(text, "03030001000300000000000000");
}

/* --- NULL, and a short out */

static void try_null(void) {
    uint8_t answer[IKHZORVAN_ANSWER_LEN] = {9}, record[IKHZORVAN_RECORD_LEN], out[IKHZORVAN_LONGEST_SESSION];
    expect(ikhzorvan_grade(NULL, 0, answer, sizeof answer, record, sizeof record) == IKHZORVAN_MISPLACED, "a NULL text");
    expect(record[IKHZORVAN_AT_LINE + 1] == 1 && answer[0] == 9, "what a NULL text leaves");
    expect(ikhzorvan_grade(NULL, 0, NULL, 0, record, sizeof record) == IKHZORVAN_WRONG_LENGTH, "a NULL answer");
    expect(ikhzorvan_grade(smallest.bytes, smallest.len, NULL, 0, record, sizeof record) == IKHZORVAN_WRONG_LENGTH,
           "a NULL answer for a text");
    expect(ikhzorvan_grade(NULL, 0, NULL, 0, NULL, 0) == IKHZORVAN_BAD_RECORD, "a NULL record");
    expect(ikhzorvan_grade(smallest.bytes, smallest.len, answer, sizeof answer, NULL, 0) == IKHZORVAN_BAD_RECORD,
           "a NULL record for a text");
    expect(ikhzorvan_session(NULL, 0, NULL, 0) == 19, "the length of a NULL text's session");
    expect(ikhzorvan_session(NULL, 0, out, sizeof out) == 19 && memcmp(out, "1F0400010000000000\n", 19) == 0,
           "the session of a NULL text");
    expect(ikhzorvan_session(smallest.bytes, smallest.len, NULL, 0) == 18, "the length of a session, by a NULL out");
}

static unsigned two_bytes(const uint8_t *bytes) { return bytes[0] * 256u + bytes[1]; }

static void try_short_out(void) {
    uint8_t out[18];
    for (size_t len = 0; len < sizeof out; len++) {
        memset(out, 9, sizeof out);
        expect(ikhzorvan_session(smallest.bytes, smallest.len, out, len) == 18, "the needed length");
        for (size_t at = 0; at < sizeof out; at++) expect(out[at] == 9, "a short out is untouched");
    }
    expect(ikhzorvan_session(smallest.bytes, smallest.len, out, sizeof out) == 18, "the length");
    expect(memcmp(out, "10010000\n11000000\n", 18) == 0, "the session");
}

/* --- explaining */

/* The reason for the main's grade in the paper's session. */
static const struct ikhzorvan_step reason[] = {
    {0, 1, 0, 3, 3, IKHZORVAN_RULE_CALLEE},
    {2, 4, 0, 2, 3, IKHZORVAN_RULE_CHILD + IKHZORVAN_RULE_TWO_ATOMIC},
    {2, 3, 0, 2, 2, IKHZORVAN_RULE_CALLEE},
    {1, 2, 0, 1, 2, IKHZORVAN_RULE_LOCK},
};

enum { REASON = sizeof reason / sizeof reason[0], ROOM = REASON + 3, FILL = 0xB7 };

static int is_step(const struct ikhzorvan_step *one, const struct ikhzorvan_step *other) {
    return one->method == other->method && one->node == other->node && one->set == other->set && one->round == other->round &&
           one->grade == other->grade && one->rule == other->rule;
}

/* Explains with so many steps and bytes of a page lent; past those, and in a refusal, nothing may be written. */
static uint8_t explain(const struct text *text, size_t method, size_t set, size_t steps_len, uint8_t *page, size_t page_len) {
    struct ikhzorvan_step steps[ROOM];
    uint8_t *bytes = (uint8_t *)steps;
    memset(steps, FILL, sizeof steps);
    memset(page, FILL, IKHZORVAN_PAGE_LEN + 1);
    uint8_t number = ikhzorvan_explain(text->bytes, text->len, method, set, steps, steps_len, page, page_len);
    size_t written = number == IKHZORVAN_ACCEPTED ? REASON : 0;
    for (size_t at = 0; at < written; at++) expect(is_step(&steps[at], &reason[at]), "a step");
    for (size_t at = written * sizeof steps[0]; at < sizeof steps; at++) expect(bytes[at] == FILL, "untouched steps");
    for (size_t at = number == IKHZORVAN_BAD_RECORD ? 0 : page_len; at <= IKHZORVAN_PAGE_LEN; at++)
        expect(page[at] == FILL, "an untouched page");
    return number;
}

/* The page of a number that is no refusal of the text. */
static void expect_page(const uint8_t *page, uint8_t number, unsigned steps) {
    expect(page[IKHZORVAN_AT_NUMBER] == number && two_bytes(page + IKHZORVAN_AT_STEPS) == steps, "a page's number and count");
    for (size_t at = 1; at < IKHZORVAN_AT_STEPS; at++) expect(page[at] == 0, "a page's other numbers are 0");
}

static void try_steps(void) {
    uint8_t page[IKHZORVAN_PAGE_LEN + 1];
    expect(sizeof reason[0] == 10, "a step has ten bytes");
    for (size_t len = 0; len <= ROOM; len++) {
        uint8_t due = len < REASON ? IKHZORVAN_TOO_SHORT : IKHZORVAN_ACCEPTED;
        expect(explain(&paper, 0, 0, len, page, IKHZORVAN_PAGE_LEN) == due, "the number for a list of each length");
        expect_page(page, due, REASON);
    }
    for (size_t len = 0; len <= IKHZORVAN_PAGE_LEN + 1; len++)
        if (len != IKHZORVAN_PAGE_LEN)
            expect(explain(&paper, 0, 0, ROOM, page, len) == IKHZORVAN_BAD_RECORD, "a page of wrong length");
    expect(ikhzorvan_explain(paper.bytes, paper.len, 0, 0, NULL, 0, page, IKHZORVAN_PAGE_LEN) == IKHZORVAN_TOO_SHORT,
           "a NULL list");
    expect_page(page, IKHZORVAN_TOO_SHORT, REASON);
    expect(ikhzorvan_explain(paper.bytes, paper.len, 0, 0, NULL, 0, NULL, 0) == IKHZORVAN_BAD_RECORD, "a NULL page");
}

/* A text's own refusal is the one that grading gives, whatever is asked, be there such an entry or not. */
static void try_refused(const struct text *text) {
    static const size_t questions[][2] = {{0, 0}, {200, 0}, {0, SIZE_MAX}};
    uint8_t answer[IKHZORVAN_ANSWER_LEN], record[IKHZORVAN_RECORD_LEN], page[IKHZORVAN_PAGE_LEN + 1];
    uint8_t number = ikhzorvan_grade(text->bytes, text->len, answer, sizeof answer, record, sizeof record);
    expect(number == text->number, "the verdict on a refused text");
    for (int at = 0; at < 3; at++) {
        expect(explain(text, questions[at][0], questions[at][1], ROOM, page, IKHZORVAN_PAGE_LEN) == number,
               "the refusal of a text");
        expect(memcmp(page, record, sizeof record) == 0 && two_bytes(page + IKHZORVAN_AT_STEPS) == 0, "its page");
    }
}

static void try_refusals(void) {
    static const struct {
        const char *bytes;
        uint8_t number;
    } refused[] = {
        {"01 01\n", IKHZORVAN_MALFORMED},
        {"", IKHZORVAN_MISPLACED},
        {"0100000001\n", IKHZORVAN_OUT_OF_RANGE},
        {"0101000002\n040000010000000000000000000000000000000000\n", IKHZORVAN_UNLINKED},
    };
    static const size_t missing[][2] = {{3, 0}, {64, 0}, {256, 0}, {SIZE_MAX, 0}, {0, 1}, {1, 2}, {2, 256}, {2, SIZE_MAX}};
    static struct text text;
    static uint8_t overlong[IKHZORVAN_LONGEST_TEXT + 1];
    uint8_t page[IKHZORVAN_PAGE_LEN + 1];
    for (size_t at = 0; at < sizeof refused / sizeof refused[0]; at++) {
        text.len = strlen(refused[at].bytes);
        memcpy(text.bytes, refused[at].bytes, text.len);
        text.number = refused[at].number;
        try_refused(&text);
    }
    try_refused(&longest);
    try_refused(&declared);
    expect(ikhzorvan_explain(overlong, sizeof overlong, 0, 0, NULL, 0, page, IKHZORVAN_PAGE_LEN) == IKHZORVAN_OVERLONG,
           "a text too long to be explained");
    expect_page(page, IKHZORVAN_OVERLONG, 0);
    for (size_t at = 0; at < sizeof missing / sizeof missing[0]; at++) {
        /* A list of no length is not asked for more. */
        for (size_t len = 0; len <= ROOM; len += ROOM)
            expect(explain(&paper, missing[at][0], missing[at][1], len, page, IKHZORVAN_PAGE_LEN) == IKHZORVAN_NO_ENTRY,
                   "no such entry");
        expect_page(page, IKHZORVAN_NO_ENTRY, 0);
    }
}

/* --- stack */

enum { UNUSED = 0xA5 };

struct call {
    const struct text *text;
    int function; /* its place in `functions` */
    uint8_t answer[IKHZORVAN_ANSWER_LEN], record[IKHZORVAN_RECORD_LEN], out[IKHZORVAN_LONGEST_SESSION];
    struct ikhzorvan_step steps[IKHZORVAN_MOST_STEPS];
    uint8_t page[IKHZORVAN_PAGE_LEN];
};

static void *run_call(void *of) {
    struct call *call = of;
    const struct text *text = call->text;
    if (call->function == 0)
        ikhzorvan_grade(text->bytes, text->len, call->answer, sizeof call->answer, call->record, sizeof call->record);
    else if (call->function == 1)
        ikhzorvan_session(text->bytes, text->len, call->out, sizeof call->out);
    else
        ikhzorvan_explain(text->bytes, text->len, text->method, text->set, call->steps, IKHZORVAN_MOST_STEPS, call->page,
                          sizeof call->page);
    return NULL;
}

static void expect_verdict(const struct call *call) {
    if (call->function == 0)
        expect(call->record[IKHZORVAN_AT_NUMBER] == call->text->number, "the verdict");
    else if (call->function == 2)
        expect(call->page[IKHZORVAN_AT_NUMBER] == call->text->number &&
                   two_bytes(call->page + IKHZORVAN_AT_STEPS) == call->text->steps,
               "the page");
    else if (call->text->number == IKHZORVAN_ACCEPTED)
        expect(memcmp(call->out, "10", 2) == 0, "the session of an accepted text");
    else
        expect(memcmp(call->out, "1F04", 4) == 0, "the session of a refused text");
}

/* Runs a call on a thread of IKHZORVAN_STACK bytes of stack in all, with what the C library keeps there, above a page that
 * nothing may touch; says how many of the bytes were used. */
static void try_stack(const struct text *text, int function) {
    static struct call call;
    call.text = text;
    call.function = function;
    size_t page = (size_t)sysconf(_SC_PAGESIZE);
    uint8_t *pages =
        mmap(NULL, page + IKHZORVAN_STACK, PROT_READ | PROT_WRITE, MAP_PRIVATE | MAP_ANONYMOUS | MAP_STACK, -1, 0);
    expect(pages != MAP_FAILED && mprotect(pages, page, PROT_NONE) == 0, "memory for the test");
    uint8_t *stack = pages + page;
    memset(stack, UNUSED, IKHZORVAN_STACK);

    pthread_attr_t attributes;
    pthread_t thread;
    expect(pthread_attr_init(&attributes) == 0 && pthread_attr_setstack(&attributes, stack, IKHZORVAN_STACK) == 0 &&
               pthread_create(&thread, &attributes, run_call, &call) == 0 && pthread_join(thread, NULL) == 0,
           "a thread for the test");
    pthread_attr_destroy(&attributes);
    expect_verdict(&call);

    size_t unused = 0;
    while (unused < IKHZORVAN_STACK && stack[unused] == UNUSED) unused++;
    printf("  %-24s %-8s %7lu of %d bytes of stack\n", text->name, functions[function],
           (unsigned long)(IKHZORVAN_STACK - unused), IKHZORVAN_STACK);
    /* Room to spare, for another compiler or processor. */
    expect(unused > IKHZORVAN_STACK / 2, "no call needs half of the stack");
    munmap(pages, page + IKHZORVAN_STACK);
}

/* --- several threads at once */

enum { THREADS = 9, TIMES = 100 };

static void *grade_again_and_again(void *of) {
    struct call *call = of;
    for (int time = 0; time < TIMES; time++) {
        memset(call->record, 9, sizeof call->record);
        run_call(call);
        expect_verdict(call);
    }
    return NULL;
}

static void try_threads(void) {
    static struct call calls[THREADS];
    static const struct text *const texts[] = {&smallest, &deepest, &longest};
    pthread_t threads[THREADS];
    for (int at = 0; at < THREADS; at++) {
        calls[at].text = texts[at % 3];
        calls[at].function = at / 3 % FUNCTIONS;
        expect(pthread_create(&threads[at], NULL, grade_again_and_again, &calls[at]) == 0, "a thread for the test");
    }
    for (int at = 0; at < THREADS; at++) expect(pthread_join(threads[at], NULL) == 0, "a thread's end");
}

int main(void) {
    make_smallest(&smallest);
    make_chain(&deepest);
    make_longest(&longest);
    make_turning(&turning);
    make_paper(&paper, 0);
    make_paper(&declared, 1);
    try_null();
    try_short_out();
    try_steps();
    try_refusals();
    const struct text *const texts[] = {&smallest, &deepest, &longest, &turning};
    for (int at = 0; at < 4; at++)
        for (int function = 0; function < FUNCTIONS; function++) try_stack(texts[at], function);
    try_threads();
    return 0;
}
