/* The proved checker of atomicity, for C.
 *
 * A program comes as a text of frames. Each method is graded for each set of its lock names that its caller may hold:
 * const 0, mover 1, atomic 2, cmpd 3 or error 4. A lock that a call has no name for, FF, may be held or not: the worst of the
 * callee's grades counts, over all choices for such locks. `harness/install PREFIX` installs this header, libikhzorvan.a and a
 * pkg-config file: `cc program.c $(pkg-config --cflags --libs ikhzorvan)`.
 *
 * Each pointer must be good for as many bytes, or steps, as the length after it says, and no two of them may overlap. Before a
 * length of 0 any pointer will do, NULL too: nothing is read or written there.
 *
 * Nothing is kept between calls and nothing allocated, so calls may run on several threads at once. */
#ifndef IKHZORVAN_H
#define IKHZORVAN_H

#include <stddef.h>
#include <stdint.h>

#ifdef __cplusplus
extern "C" {
#endif

/* Entry number h of method m stands at 16m + h of the answer, every other byte is 0. Bit j of h says that the method's lock
 * name j is held. */
#define IKHZORVAN_ANSWER_LEN 1024

/* The longest text that is read at all. */
#define IKHZORVAN_LONGEST_TEXT 32768

/* The longest session: the answer frame, and 64 methods with 16 grades each. */
#define IKHZORVAN_LONGEST_SESSION 2505

/* The most steps that a reason has: a list of so many is never too short. */
#define IKHZORVAN_MOST_STEPS 32738

/* How many bytes of stack are enough for a call of any of the functions, whatever the text. A thread that calls must have as
 * many left: as a rule the main thread has, and a thread of glibc unless it is asked for less; a thread of musl has not unless
 * it is asked for more. It is measured and not proved: on x86-64 no call needs half of it. */
#define IKHZORVAN_STACK 524288

/* What ikhzorvan_grade returns, 0 to 7, and ikhzorvan_explain, all but 1. The names are those that Rattle's
 * `Refusal` in `frames`, `checker` and `explainer`, the wrapper for Rust and README have. Lines count from 1. */
enum {
    IKHZORVAN_ACCEPTED = 0,     /* the answer holds the lowest grades that meet every constraint */
    IKHZORVAN_WRONG_LENGTH = 1, /* the answer is not 1,024 bytes long */
    IKHZORVAN_OVERLONG = 2,     /* the text is longer than 32,768 bytes */
    IKHZORVAN_MALFORMED = 3,    /* the line is empty, has a byte that is no digit or an odd count of digits, or lacks its 0A */
    IKHZORVAN_MISPLACED = 4,    /* the frame is not of the kind due or of wrong length, the text ended early, or this is a
                                   line too many */
    IKHZORVAN_OUT_OF_RANGE = 5, /* a value is out of its range, or a byte that must be 00 isn't */
    IKHZORVAN_UNLINKED = 6,     /* node counts don't total the header's, or a child, field, method or lock name cannot be
                                   named here */
    IKHZORVAN_BROKEN = 7,       /* the text can be read, and its lowest grades break a constraint */

    IKHZORVAN_NO_ENTRY = 10,    /* of explaining alone: there is no such method, or it has no such held set */
    IKHZORVAN_TOO_SHORT = 11,   /* of explaining alone: the list of steps is too short; the page has the count needed */

    IKHZORVAN_BAD_RECORD = 255  /* no verdict on the text, and of C alone: the record is not 11 bytes long, or the page not
                                   13; nothing at all was written */
};

/* The places of a record. Two-byte numbers are high byte first, and numbers that don't apply are 0. */
enum {
    IKHZORVAN_AT_NUMBER = 0,  /* the refusal number, as returned */
    IKHZORVAN_AT_LINE = 1,    /* two bytes: the line of refusals 3 to 6 */
    IKHZORVAN_AT_METHOD = 3,  /* refusal 7: the method of the first broken constraint */
    IKHZORVAN_AT_KIND = 4,    /* refusal 7: the kind of the constraint, below */
    IKHZORVAN_AT_NODE = 5,    /* two bytes: for kind 3 the fork node, counted from 0 within its method */
    IKHZORVAN_AT_HELD = 7,    /* refusal 7: the lowest held set at which the constraint is broken */
    IKHZORVAN_AT_METHODS = 8, /* accepted: how many methods the text has */
    IKHZORVAN_AT_ROUNDS = 9,  /* two bytes, accepted: the least n such that round n + 1 changes no table */
    IKHZORVAN_RECORD_LEN = 11,

    /* A page is a record, whose last three bytes are 0, and a count. */
    IKHZORVAN_AT_STEPS = 11, /* two bytes: how many steps were written, or for refusal 11 are needed; 0 in another refusal */
    IKHZORVAN_PAGE_LEN = 13
};

/* The kinds of constraint. */
enum {
    IKHZORVAN_KIND_DECLARED = 1, /* a declared method's body is no worse than the method's declaration */
    IKHZORVAN_KIND_MAIN = 2,     /* the main, method 0, is at most cmpd */
    IKHZORVAN_KIND_FORK = 3      /* a forked method is at most cmpd wherever its lock 0 is held */
};

/* A step of a reason: a node, and the rule by which the reason goes on from there or ends. */
struct ikhzorvan_step {
    uint8_t method;
    uint16_t node;  /* counted from 0 within the method */
    uint8_t set;    /* the held set: bit j says that the method's lock name j is held */
    uint16_t round; /* from 1; 0 only for a declared method asked for, which has no rounds */
    uint8_t grade;  /* the node's under the held set, from the tables before the round */
    uint8_t rule;   /* one of those below, with 8 added where two atomic parts make the grade */
};

/* The rules of a step. Rules 1 and 2 go on to the next step, the others end the reason. */
enum {
    IKHZORVAN_RULE_PLAIN = 0,     /* a plain value */
    IKHZORVAN_RULE_CHILD = 1,     /* goes on to a child of the node */
    IKHZORVAN_RULE_CALLEE = 2,    /* goes on to the root of an undeclared callee */
    IKHZORVAN_RULE_ACCESS = 3,    /* the node's own access */
    IKHZORVAN_RULE_FORK = 4,      /* a fork's own atomic */
    IKHZORVAN_RULE_LOCK = 5,      /* a lock taken, which turned const or mover into atomic */
    IKHZORVAN_RULE_ASSERT = 6,    /* an assert, which turned cmpd into error */
    IKHZORVAN_RULE_DECLARED = 7,  /* a declared callee, or a declared method asked for */
    IKHZORVAN_RULE_TWO_ATOMIC = 8 /* added to another: the node is cmpd and no part of it is, and the rule tells of its last
                                     atomic part */
};

/* Grades a text, writes the record and returns the refusal number. The answer is written only if that is 0.
 *
 * `record` must be 11 bytes; at any other length 255 is returned and nothing at all is written. `answer` must be 1,024
 * bytes; any other length is refusal 1. */
uint8_t ikhzorvan_grade(const uint8_t *text, size_t text_len, uint8_t *answer, size_t answer_len, uint8_t *record,
                        size_t record_len);

/* Writes the bytes that the grading program prints for a text, and returns how many they are.
 *
 * If `out` is shorter than that, nothing is written, and the needed length is returned all the same: call with NULL and 0 to
 * ask for it. Bytes of `out` past the session are untouched. */
size_t ikhzorvan_session(const uint8_t *text, size_t text_len, uint8_t *out, size_t out_len);

/* Explains the grade of a method under a held set: writes the steps that lead to what made it, writes the page and returns the
 * refusal number, 0 if the steps are written. Bit j of `set` says that the method's lock name j is held.
 *
 * `steps` has room for `steps_len` steps. If they are too few, the number is 11, nothing is written to `steps`, and the page
 * has the count needed: call with NULL and 0 to ask for it. Nothing is written there in any other refusal, nor past the steps.
 *
 * `page` must be 13 bytes; at any other length 255 is returned and nothing at all is written. */
uint8_t ikhzorvan_explain(const uint8_t *text, size_t text_len, size_t method, size_t set, struct ikhzorvan_step *steps,
                          size_t steps_len, uint8_t *page, size_t page_len);

#ifdef __cplusplus
}
#endif

#endif
