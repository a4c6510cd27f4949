/*
 * stack.c - how much stack each call takes, held to what the header says.
 *
 * The stack below is painted before a call; what is no longer paint afterwards
 * was used.  Store and image are as large as they come; the image has coins in every
 * hour, the store in the 200 that it has logged (an emulated board takes long for
 * more), so that no recursion ends early.  The calls on an image are measured on one
 * of each edition; a merge adds that of the other door, which is of edition 1.
 * Nothing here depends on a processor but that its stack grows downwards: boards run
 * it too (boards/run).
 */
#include "hourlog.h"

#include <stdio.h>
#include <stdlib.h>
#include <string.h>

#define PAINT 0xC5
#define PAINTED 524288u
#define OWN 256u /* bytes below a local of used_by that are its own frame */
#define IMAGE_E HOURLOG_E_MAX

static uint8_t store[HOURLOG_STORE_LENGTH(HOURLOG_PAGES_MAX, HOURLOG_CELLS_MAX)];
static uint32_t counts[HOURLOG_IMAGE_HOURS_MAX];
static uint8_t image[HOURLOG_IMAGE_LENGTH_MAX(HOURLOG_IMAGE_HOURS_MAX, IMAGE_E)];
static uint8_t door[HOURLOG_NARROW_LENGTH_MAX(HOURLOG_IMAGE_HOURS_MAX, IMAGE_E)];
static uint8_t merged[HOURLOG_IMAGE_LENGTH_MAX(HOURLOG_IMAGE_HOURS_MAX, HOURLOG_E_MIN)];
static uint32_t lost[HOURLOG_PAGES_MAX];
static uint8_t book[HOURLOG_BOOK_LENGTH(HOURLOG_IMAGE_HOURS_MAX)];
static size_t image_len, door_len;

#define STORE store, sizeof store
#define IMAGE image, image_len
#define DOOR door, door_len
#define LIST counts, HOURLOG_IMAGE_HOURS_MAX, IMAGE_E
#define LAST (HOURLOG_IMAGE_HOURS_MAX - 1)

static int64_t nothing(void) { return 0; }
static int64_t fresh(void) { return hourlog_fresh(STORE, HOURLOG_PAGES_MAX, HOURLOG_CELLS_MAX); }
static int64_t append(void) { return hourlog_append(STORE, 7); }
static int64_t set(void) { return hourlog_set(STORE, 63, HOURLOG_TOTAL_MAX / 2); }
static int64_t insert(void) { return hourlog_insert(STORE, 0, 7); }
static int64_t strike(void) { return hourlog_strike(STORE, 0); }
static int64_t count(void) { return hourlog_count(STORE, 62); }
static int64_t reading(void) { return hourlog_reading(STORE, 62); }
static int64_t reach(void) { return hourlog_reach(STORE, 100); }
static const uint32_t changes[] = {0, 25, 1, 23};
static int64_t day(void) { return hourlog_day(STORE, 1, changes, 4); }
static int64_t free_cells(void) { return hourlog_free(STORE); }
static int64_t repair(void) { return hourlog_repair(STORE, lost, HOURLOG_PAGES_MAX); }
static int64_t length(void) { return hourlog_image_length(LIST); }
static int64_t write_image(void) { return hourlog_image_write(LIST, image, sizeof image); }
static int64_t check(void) { return hourlog_image_check(IMAGE); }
static int64_t image_count(void) { return hourlog_image_count(IMAGE, LAST); }
static int64_t image_reading(void) { return hourlog_image_reading(IMAGE, LAST); }
static int64_t image_reach(void) { return hourlog_image_reach(IMAGE, 5000 * (uint64_t)counts[0]); }
static int64_t image_match(void) { return hourlog_image_match(IMAGE, 5000 * (uint64_t)counts[0] + 1); }
static int64_t image_busiest(void) { return hourlog_image_busiest(IMAGE, 1000); }
static int64_t to_bcd(void) { return hourlog_image_to_bcd(IMAGE, book, sizeof book); }
static int64_t from_bcd(void) { return hourlog_image_from_bcd(book, sizeof book, IMAGE_E, image, sizeof image); }

/* Freeze and merge at every page size: which one takes most is not said anywhere. */
static int64_t freeze(void)
{
    int64_t last = 0;
    for (uint32_t e = HOURLOG_E_MIN; e <= HOURLOG_E_MAX && !hourlog_is_refused(last); e++) {
        last = hourlog_freeze(STORE, e, image, sizeof image);
    }
    return last;
}

static int64_t merge(void)
{
    int64_t last = 0;
    for (uint32_t e = HOURLOG_E_MIN; e <= HOURLOG_E_MAX && !hourlog_is_refused(last); e++) {
        last = hourlog_image_merge(IMAGE, DOOR, e, merged, sizeof merged);
    }
    return last;
}

struct measured {
    const char *name;
    int64_t (*call)(void);
    size_t most;
};

/* In an order in which none is refused. */
static const struct measured of_store[] = {
    {"append", append, HOURLOG_STACK},
    {"set", set, HOURLOG_STACK},
    {"insert", insert, HOURLOG_MOVE_STACK},
    {"strike", strike, HOURLOG_MOVE_STACK},
    {"count", count, HOURLOG_STACK},
    {"reading", reading, HOURLOG_STACK},
    {"reach", reach, HOURLOG_STACK},
    {"day", day, HOURLOG_STACK},
    {"free", free_cells, HOURLOG_STACK},
    {"freeze", freeze, HOURLOG_FREEZE_STACK},
    {"repair", repair, HOURLOG_STACK},
    {"fresh", fresh, HOURLOG_STACK},
};

static const struct measured of_image[] = {
    {"image length", length, HOURLOG_STACK},
    {"image write", write_image, HOURLOG_STACK},
    {"image check", check, HOURLOG_STACK},
    {"image count", image_count, HOURLOG_STACK},
    {"image reading", image_reading, HOURLOG_STACK},
    {"image reach", image_reach, HOURLOG_STACK},
    {"image busiest", image_busiest, HOURLOG_STACK},
    {"image match", image_match, HOURLOG_STACK},
    {"image merge", merge, HOURLOG_STACK},
};

static const struct measured of_book[] = {
    {"image to bcd", to_bcd, HOURLOG_STACK},
    {"image from bcd", from_bcd, HOURLOG_STACK},
};

static int64_t answer;

/* The bytes that are no longer painted after a call, this function's own among
 * them. */
static size_t used_by(int64_t (*call)(void))
{
    volatile uint8_t here;
    const uintptr_t top = (uintptr_t)&here - OWN;
    for (uintptr_t k = top - PAINTED; k < top; k++) {
        *(volatile uint8_t *)k = PAINT;
    }
    answer = call();
    uintptr_t lowest = top - PAINTED;
    while (lowest < top && *(volatile uint8_t *)lowest == PAINT) {
        lowest++;
    }
    return (uintptr_t)&here - lowest;
}

/* Whether a call takes no more than it may, beyond what any call takes. */
static int holds(const char *before, struct measured m)
{
    size_t used = used_by(m.call);
    int good = !hourlog_is_refused(answer) && used <= m.most + used_by(nothing);
    printf("%s%s%s %lu", before, good ? "" : "FAILED: ", m.name, (unsigned long)used);
    return good;
}

static int all_hold(const char *before, const struct measured *all, size_t n)
{
    int good = 1;
    for (size_t k = 0; k < n; k++) {
        good &= holds(k == 0 ? before : ", ", all[k]);
    }
    return good;
}

#define ALL_HOLD(before, all) all_hold(before, all, sizeof all / sizeof *all)

static void fill_store(void)
{
    fresh();
    for (uint32_t k = 0; k < 200; k++) {
        answer = hourlog_append(STORE, 1 + k % 9);
    }
}

/* 1 if the image of so many coins in each hour, and some more, has this edition. */
static int fill_image(uint32_t coins, uint8_t edition)
{
    for (size_t k = 0; k <= LAST; k++) {
        counts[k] = coins + (uint32_t)(k % 7);
    }
    image_len = (size_t)write_image();
    return image[0] == edition;
}

int main(int argc, char **argv)
{
    (void)argc, (void)argv;
    fill_store();
    int good = ALL_HOLD("bytes of stack: ", of_store);
    good &= fill_image(1000, HOURLOG_IMAGE_EDITION);
    memcpy(door, image, image_len);
    door_len = image_len;
    good &= ALL_HOLD(", ", of_image);
    good &= ALL_HOLD(", ", of_book);
    good &= fill_image(16000000, HOURLOG_IMAGE_EDITION_WIDE);
    good &= ALL_HOLD("; of a wide image: ", of_image);
    printf("\n");
    return good ? EXIT_SUCCESS : EXIT_FAILURE;
}
