/* Lets a program that cannot link the archive call it: the archive is for x86-64, and on another processor this bridge runs
 * under an emulator, with requests on standard input and replies on standard output.
 *
 * request: 'g' (grade), 's' (session) or 'e' (explain); two numbers of eight bytes and three lengths of four, high byte first;
 *          text, first buffer, second buffer
 * reply:   what the call returns in eight bytes, high byte first; 1 if the bytes around both buffers are as they were, else
 *          0; first buffer, second buffer
 *
 * The buffers are answer and record, or the output and nothing, or the steps and the page. The numbers are the method and the
 * held set to be explained. The bridge ends with its input. */
#include "ikhzorvan.h"

/* Of the C library only these are needed, so that no headers of another processor are. */
extern long read(int file, void *bytes, unsigned long len);
extern long write(int file, const void *bytes, unsigned long len);
extern void exit(int status);

enum { GUARD = 64, LONGEST = 1 << 19, GUARD_BYTE = 0xA5 };

/* A buffer to be lent, with guard bytes before and after. */
struct room {
    uint8_t bytes[GUARD + LONGEST + GUARD];
    size_t len;
};

static uint8_t text[LONGEST];
static struct room first, second;

/* Reads all of it; the input's end ends the bridge, well only between two requests. */
static void take(uint8_t *bytes, size_t len, int status_at_end) {
    while (len > 0) {
        long got = read(0, bytes, len);
        if (got <= 0) exit(status_at_end);
        bytes += got;
        len -= (size_t)got;
    }
}

static void give(const uint8_t *bytes, size_t len) {
    while (len > 0) {
        long put = write(1, bytes, len);
        if (put <= 0) exit(1);
        bytes += put;
        len -= (size_t)put;
    }
}

static uint64_t number(const uint8_t *bytes, int len) {
    uint64_t number = 0;
    for (int at = 0; at < len; at++) number = number << 8 | bytes[at];
    return number;
}

static size_t length(const uint8_t *bytes) {
    size_t len = (size_t)number(bytes, 4);
    if (len > LONGEST) exit(1);
    return len;
}

static uint8_t *lent(struct room *room) { return room->bytes + GUARD; }

static void take_room(struct room *room, size_t len) {
    room->len = len;
    for (size_t at = 0; at < GUARD; at++) room->bytes[at] = room->bytes[GUARD + len + at] = GUARD_BYTE;
    take(lent(room), len, 1);
}

static int is_intact(const struct room *room) {
    int intact = 1;
    for (size_t at = 0; at < GUARD; at++)
        intact &= room->bytes[at] == GUARD_BYTE && room->bytes[GUARD + room->len + at] == GUARD_BYTE;
    return intact;
}

/* The guard's length keeps the buffer as aligned as its room. */
static struct ikhzorvan_step *lent_steps(struct room *room) { return (struct ikhzorvan_step *)(void *)lent(room); }

static uint64_t call(const uint8_t *head, size_t text_len) {
    if (head[0] == 'g') return ikhzorvan_grade(text, text_len, lent(&first), first.len, lent(&second), second.len);
    if (head[0] == 's') return ikhzorvan_session(text, text_len, lent(&first), first.len);
    return ikhzorvan_explain(text, text_len, (size_t)number(head + 1, 8), (size_t)number(head + 9, 8), lent_steps(&first),
                             first.len / sizeof(struct ikhzorvan_step), lent(&second), second.len);
}

static void serve(const uint8_t *head) {
    size_t text_len = length(head + 17);
    take(text, text_len, 1);
    take_room(&first, length(head + 21));
    take_room(&second, length(head + 25));
    uint64_t returned = call(head, text_len);
    uint8_t reply[9];
    for (int at = 0; at < 8; at++) reply[at] = (uint8_t)(returned >> (56 - 8 * at));
    reply[8] = (uint8_t)(is_intact(&first) && is_intact(&second));
    give(reply, sizeof reply);
    give(lent(&first), first.len);
    give(lent(&second), second.len);
}

int main(void) {
    uint8_t head[29];
    for (;;) {
        take(head, 1, 0);
        take(head + 1, sizeof head - 1, 1);
        serve(head);
    }
}
