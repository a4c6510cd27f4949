/*
 * session.c - document 01's session on a board: the lines of session_input, and
 * the line that answers each.
 *
 * `hourlog`, whose lines are proved, reads and writes by Linux's calls.  This
 * stands in for it where there is no Linux: the lines are taken apart by plain C
 * here, and what answers them is the proved library.
 */
#include "hourlog.h"

#include <stdio.h>

#ifndef STORE_BYTES
#define STORE_BYTES HOURLOG_STORE_LENGTH(HOURLOG_PAGES_MAX, HOURLOG_CELLS_MAX)
#endif
#define LINE_MAX 40u

extern const unsigned char session_input[];
extern const unsigned session_length;

static uint8_t store[STORE_BYTES];
static size_t store_len; /* 0 before the first n: every call is refused 10 */

/* How many numbers go with a letter; -1 for another byte. */
static int numbers_of(unsigned char letter)
{
    switch (letter) {
    case 'f': return 0;
    case 'a': case 'g': case 'r': case 'w': case 'd': return 1;
    case 'n': case 's': return 2;
    default: return -1;
    }
}

/* One space and a number of decimal digits, from *at on; 1 if they are there. */
static int number(const unsigned char *line, unsigned length, unsigned *at, uint32_t *n)
{
    uint64_t value = 0;
    unsigned k = *at + 1;
    if (k >= length || line[*at] != ' ') {
        return 0;
    }
    for (; k < length && line[k] >= '0' && line[k] <= '9'; k++) {
        value = 10 * value + (unsigned)(line[k] - '0');
        if (value > 4294967295u) {
            return 0;
        }
    }
    if (k == *at + 1) {
        return 0;
    }
    *at = k;
    *n = (uint32_t)value;
    return 1;
}

static int64_t fresh(uint32_t pages, uint32_t cells)
{
    size_t length = 0;
    if (pages <= HOURLOG_PAGES_MAX && cells <= HOURLOG_CELLS_MAX && HOURLOG_STORE_LENGTH(pages, cells) <= sizeof store) {
        length = HOURLOG_STORE_LENGTH(pages, cells);
    }
    int64_t answer = hourlog_fresh(store, length, pages, cells);
    if (!hourlog_is_refused(answer)) {
        store_len = length;
    }
    return answer;
}

static int64_t answer_to(unsigned char letter, const uint32_t *n)
{
    switch (letter) {
    case 'n': return fresh(n[0], n[1]);
    case 'a': return hourlog_append(store, store_len, n[0]);
    case 's': return hourlog_set(store, store_len, n[0], n[1]);
    case 'g': return hourlog_count(store, store_len, n[0]);
    case 'r': return hourlog_reading(store, store_len, n[0]);
    case 'w': return hourlog_reach(store, store_len, n[0]);
    case 'd': return hourlog_day(store, store_len, n[0], NULL, 0);
    default: return hourlog_free(store, store_len);
    }
}

static void respond(const unsigned char *line, unsigned length)
{
    uint32_t n[2] = {0, 0};
    int wanted = length > 0 && length <= LINE_MAX ? numbers_of(line[0]) : -1;
    unsigned at = 1;
    for (int k = 0; k < wanted; k++) {
        if (!number(line, length, &at, &n[k])) {
            wanted = -1;
        }
    }
    if (wanted < 0 || at != length) {
        puts("line?");
        return;
    }
    int64_t answer = answer_to(line[0], n);
    if (hourlog_is_refused(answer)) {
        printf("refused %d\n", hourlog_refusal(answer));
    } else if (line[0] == 'n' || line[0] == 'a' || line[0] == 's') {
        puts("ok");
    } else {
        printf("%lu\n", (unsigned long)answer);
    }
}

int main(int argc, char **argv)
{
    (void)argc, (void)argv;
    for (unsigned from = 0, to; from < session_length; from = to + 1) {
        to = from;
        while (to < session_length && session_input[to] != '\n') {
            to++;
        }
        respond(session_input + from, to - from);
    }
    return 0;
}
