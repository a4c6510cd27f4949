/*
 * reserve_twice.c - how often a change of an hour works out the reserve of a
 * whole page, after its soundness check: at most twice, for the old sum and for
 * the new one.  An append that is refused 11 or 3 works out none.
 *
 * Linked with the counting copy of the library (tests/reserve_twice.sh), which
 * calls the two functions below.  Linked with the library as it is shipped,
 * nothing calls them, and the answers and bytes that it prints are to be the
 * same.  Lines of the first kind begin with 'count', all others are compared.
 */
#include "hourlog.h"

#include <stdio.h>
#include <stdlib.h>
#include <string.h>

#define PAGES 3
#define CELLS 11
#define PAGE_HEIGHT 6 /* 64 counts a page are 2^6 */

/* What an accepted change answers. */
#define TOOK(cells) (cells)
#define GAVE_BACK(cells) ((cells) * 65536)

static unsigned worked_out;

void hourlog_test_checked(void);
void hourlog_test_reserve(uint32_t height);

void hourlog_test_checked(void)
{
    worked_out = 0;
}

void hourlog_test_reserve(uint32_t height)
{
    worked_out += height == PAGE_HEIGHT;
}

static uint8_t store[HOURLOG_STORE_LENGTH(PAGES, CELLS)];
static int counting, good = 1;

/* An answer and a sum over the store's bytes, alike in both builds; and how
 * often the reserve was worked out, in the counting one. */
static void tell(const char *call, int64_t answer, int64_t expected, unsigned due)
{
    uint64_t bytes = 14695981039346656037u;
    for (size_t k = 0; k < sizeof store; k++) {
        bytes = (bytes ^ store[k]) * 1099511628211u;
    }
    printf("%s: answer %lld, bytes %016llx\n", call, (long long)answer, (unsigned long long)bytes);
    if (answer != expected) {
        printf("FAILED: %s\n", call);
        good = 0;
    }
    if (counting) {
        int right = worked_out == due;
        printf("count %s: %u%s\n", call, worked_out, right ? "" : " FAILED");
        good &= right;
    }
    worked_out = 0;
}

static void append(const char *call, uint32_t count, int64_t expected, unsigned due)
{
    tell(call, hourlog_append(store, sizeof store, count), expected, due);
}

static void set(const char *call, uint32_t hour, uint32_t count, int64_t expected, unsigned due)
{
    tell(call, hourlog_set(store, sizeof store, hour, count), expected, due);
}

static void fresh(void)
{
    tell("fresh", hourlog_fresh(store, sizeof store, PAGES, CELLS), 0, 0);
}

int main(int argc, char **argv)
{
    counting = argc > 1 && strcmp(argv[1], "counting") == 0;
    fresh();
    append("append that takes 1 cell", 1, TOOK(1), 2);
    append("append that takes none", 1, TOOK(0), 2);
    set("set that takes 1 cell", 0, 200, TOOK(1), 2);
    set("set that keeps its cells", 0, 300, TOOK(0), 2);
    set("set that gives 1 back", 0, 2, GAVE_BACK(1), 2);
    set("set that keeps its only cell", 0, 0, TOOK(0), 2);
    set("set that gives the last one back", 1, 0, GAVE_BACK(1), 2);
    fresh();
    append("append that takes 2 cells", 1000, TOOK(2), 2);
    set("set of an hour that is not logged", 1, 5, -HOURLOG_REFUSED_HOUR, 0);
    fresh();
    append("append that takes 8 cells", 4000000000u, TOOK(8), 2);
    append("append past the total", 4000000000u, -HOURLOG_REFUSED_TOTAL, 0);
    append("append of one coin", 1, TOOK(0), 2);
    set("set past the total", 1, 4000000000u, -HOURLOG_REFUSED_TOTAL, 1);
    for (uint32_t k = 2; k < HOURLOG_HOURS_A_PAGE; k++) {
        append("append of no coins", 0, TOOK(0), 2);
    }
    append("append past the cells", 200000000u, -HOURLOG_REFUSED_CELLS, 2);
    set("set that gives 7 back", 0, 100, GAVE_BACK(7), 2);
    fresh();
    for (uint32_t k = 0; k < PAGES * HOURLOG_HOURS_A_PAGE; k++) {
        append("append of one coin", 1, TOOK(k % HOURLOG_HOURS_A_PAGE == 0), 2);
    }
    append("append to a full log", 1, -HOURLOG_REFUSED_FULL, 0);
    return good ? EXIT_SUCCESS : EXIT_FAILURE;
}
