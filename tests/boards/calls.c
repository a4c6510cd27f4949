/*
 * calls.c - some thousand calls, the same on every processor, and a line for
 * each: which call, its numbers, its answer, and a checksum of every byte that
 * was lent and of some around.  What a board prints is held to what x86-64
 * prints.
 *
 * Stores and images are lent at the end of memory, at its start and at odd
 * addresses, whole and damaged, with lengths that are right, wrong, and above
 * what 32 bits hold.  Numbers are drawn in statements of their own, since C
 * leaves the order of a call's arguments open.
 */
#include "hourlog.h"
#include "lent.h"

#include <stdio.h>

#define ROUNDS 60u
#define COUNTS_MAX 300u
#define DOOR_MAX 250u
#define MARGIN 16u
#define BIG (HOURLOG_IMAGE_HOURS_MAX)

/* ---- numbers --------------------------------------------------------------- */

static uint32_t state = 2463534242u;

static uint32_t next(void)
{
    state ^= state << 13;
    state ^= state >> 17;
    state ^= state << 5;
    return state;
}

static uint32_t below(uint32_t n)
{
    return next() % n;
}

/* Of any width from no bit to 32. */
static uint32_t any(void)
{
    uint32_t bits = below(33);
    uint32_t n = next();
    return bits == 0 ? 0 : n >> (32 - bits);
}

/* Mostly an hour that is logged, or the one behind. */
static uint32_t hour_of(uint32_t hours)
{
    uint32_t far = below(8);
    uint32_t near = below(hours + 2);
    return far == 0 ? any() : near;
}

/* Mostly the length itself. */
static uint64_t length_near(uint64_t length)
{
    switch (below(16)) {
    case 0: return length - (length > 0);
    case 1: return length + 1;
    case 2: return 0;
    case 3: return 15;
    case 4: return ((uint64_t)1 << 32) + length;
    case 5: return ((uint64_t)1 << 63) + length;
    case 6: return UINT64_MAX;
    default: return length;
    }
}

/* ---- lent memory ------------------------------------------------------------ */

struct lent {
    uint8_t *at;
    size_t length;
};

/* What the calls are lent; merge and repair alone have a third one. */
static struct lent first, second, third;
static unsigned calls;

/* A buffer in one half of the memory: `high` puts it at the memory's end, else it
 * is at the start, `off` bytes from it.  It holds any bytes. */
static struct lent lend(size_t length, int high, size_t off)
{
    struct lent l = {high ? lent_to - length : lent_from + off, length};
    for (size_t k = 0; k < length; k++) {
        l.at[k] = (uint8_t)next();
    }
    return l;
}

static uint32_t checksum_of(struct lent l, uint32_t sum)
{
    const uint8_t *from = l.at - ((size_t)(l.at - lent_from) < MARGIN ? (size_t)(l.at - lent_from) : MARGIN);
    size_t behind = LENT - (size_t)(l.at - lent_from) - l.length;
    size_t n = (size_t)(l.at - from) + l.length + (behind < MARGIN ? behind : MARGIN);
    for (size_t k = 0; k < n; k++) {
        sum = (sum ^ from[k]) * 16777619u;
    }
    return sum;
}

static int64_t say(const char *call, uint64_t length, uint32_t x, uint32_t y, int64_t answer)
{
    uint32_t sum = checksum_of(third, checksum_of(second, checksum_of(first, 2166136261u)));
    printf("%u %s %08lx%08lx %lu %lu: %lld %08lx\n", ++calls, call, (unsigned long)(length >> 32),
           (unsigned long)(length & 0xFFFFFFFFu), (unsigned long)x, (unsigned long)y, (long long)answer, (unsigned long)sum);
    return answer;
}

/* Changes some bits of a buffer, few of them or whole bytes. */
static void damage(struct lent l)
{
    for (uint32_t k = below(3) + 1; k > 0 && l.length > 0; k--) {
        uint32_t place = below(2) ? below((uint32_t)l.length) : below(l.length < 40 ? (uint32_t)l.length : 40);
        uint32_t bit = below(8);
        uint32_t whole = below(4);
        l.at[place] ^= (uint8_t)(whole == 0 ? next() : 1u << bit);
    }
}

/* A figure to reach: a reading, at which the search has to stop, or one behind. */
static uint64_t figure_at(int64_t reading, uint32_t hour)
{
    return (hourlog_is_refused(reading) ? hour : (uint64_t)reading) + hour % 2;
}

/* Changed days, mostly right ones: at most three, and at times an entry too few, a
 * day again, or 24 hours. */
static uint32_t changes[6];

static uint64_t changed_days(void)
{
    uint32_t day = below(3);
    uint64_t n = 2 * below(4);
    for (uint64_t k = 0; k < n; k += 2) {
        changes[k] = day;
        changes[k + 1] = below(16) == 0 ? 24 : 23 + 2 * below(2);
        day += below(16) == 0 ? 0 : 1 + below(3);
    }
    return n - (n > 0 && below(16) == 0);
}

/* ---- calls on a store: the first buffer; freeze writes to the second -------- */

static void store_call(uint64_t length)
{
    uint8_t *store = first.at;
    uint32_t hour = hour_of(length >= 16 && first.length >= 16 ? hourlog_hours(store) % 70000 : 3);
    uint32_t number = any();
    uint64_t room = length_near(second.length);
    uint64_t changed;
    uint32_t call = below(16);
    if (room > second.length && (call == 12 || call == 13)) {
        room = second.length; /* a longer one would be written over its end */
    }
    switch (call) {
    case 4: say("set", length, hour, number, hourlog_set(store, length, hour, number)); break;
    case 5: say("set", length, hour, number % 50, hourlog_set(store, length, hour, number % 50)); break;
    case 6: say("count", length, hour, 0, hourlog_count(store, length, hour)); break;
    case 7: say("reading", length, hour, 0, hourlog_reading(store, length, hour)); break;
    case 8: say("reach", length, number, 0, hourlog_reach(store, length, number)); break;
    case 9: number = (uint32_t)figure_at(hourlog_reading(store, length, hour), hour);
        say("reach", length, number, 0, hourlog_reach(store, length, number)); break;
    case 10: changed = changed_days();
        say("day", length, hour / 24, (uint32_t)changed, hourlog_day(store, length, hour / 24, changes, changed)); break;
    case 11: say("free", length, 0, 0, hourlog_free(store, length)); break;
    case 12: case 13:
        number = number % 8 == 0 ? number : 2 + number % 7;
        say("freeze", length, number, (uint32_t)room, hourlog_freeze(store, length, number, second.at, room));
        break;
    case 14: say("insert", length, hour, number % 50, hourlog_insert(store, length, hour, number % 50)); break;
    case 15: say("strike", length, hour, 0, hourlog_strike(store, length, hour)); break;
    default:
        number = call == 0 ? number : call == 1 && number % 8 == 0 ? ~(number >> 4) : number % 40;
        say("append", length, number, 0, hourlog_append(store, length, number));
        break;
    }
}

static void store_calls(uint64_t length, unsigned n)
{
    for (; n > 0; n--) {
        store_call(length);
    }
}

/* Hours that are logged with one line for all of them. */
static void fill(uint64_t length, uint32_t hours)
{
    int64_t all = 0;
    for (uint32_t k = 0; k < hours; k++) {
        uint32_t coins = below(3) == 0 ? below(9) : 0;
        all += hourlog_append(first.at, length, coins);
    }
    say("appends", length, hours, 0, all);
}

/* Repairs of a store as it is now: with a list of an entry too few, with other
 * lengths of both, with room for all pages, and once more.  The third buffer is the
 * list, of which no more is written whatever its length is said to be; it takes the
 * place of the second. */
static void repair_calls(uint64_t length, uint32_t pages, unsigned round)
{
    third = lend(4 * pages, 1 - (int)(round % 2), 0);
    uint32_t *lost = (uint32_t *)(void *)third.at;
    uint64_t other = length_near(length);
    uint64_t n = length_near(pages);
    say("repair", length, pages - 1, 0, hourlog_repair(first.at, length, lost, pages - 1));
    say("repair", other, pages, 1, hourlog_repair(first.at, other, lost, pages));
    say("repair", length, (uint32_t)n, 2, hourlog_repair(first.at, length, lost, n));
    say("repair", length, pages, 3, hourlog_repair(first.at, length, lost, pages));
    say("free", length, 0, 1, hourlog_free(first.at, length));
    third = lend(0, 0, 0);
}

static void store_round(unsigned round)
{
    static uint8_t kept[HOURLOG_STORE_LENGTH(HOURLOG_PAGES_MAX, HOURLOG_CELLS_MAX)];
    uint32_t pages = round == 7 ? HOURLOG_PAGES_MAX : 1 + below(5);
    uint32_t cells = round == 7 ? HOURLOG_CELLS_MAX : 1 + below(8 * pages);
    size_t length = HOURLOG_STORE_LENGTH(pages, cells);
    first = lend(length, round % 2, round % 4);
    second = lend(HOURLOG_NARROW_LENGTH_MAX(64 * pages, 2) / (1 + round % 3), 1 - (int)(round % 2), round % 4);

    store_calls(length, 2); /* on bytes that are no store */
    repair_calls(length, pages, round);
    uint32_t wrong = any();
    say("fresh", length, wrong, cells, hourlog_fresh(first.at, length, wrong, cells));
    say("fresh", length, pages, wrong, hourlog_fresh(first.at, length, pages, wrong));
    for (int k = 0; k < 4; k++) {
        uint64_t other = length_near(length);
        say("fresh", other, pages, cells, hourlog_fresh(first.at, other, pages, cells));
    }
    say("fresh", length, pages, cells, hourlog_fresh(first.at, length, pages, cells));
    store_calls(length, 20);
    fill(length, round % 5 == 0 ? 64 * pages : below(64 * pages / (1 + round % 3)) % 400);
    store_calls(length, 40);
    for (int k = 0; k < 8; k++) {
        store_call(length_near(length));
    }
    for (int k = 0; k < 4; k++) {
        for (size_t b = 0; b < length; b++) {
            kept[b] = first.at[b];
        }
        damage(first);
        store_calls(length, 4);
        repair_calls(length, pages, round);
        for (size_t b = 0; b < length; b++) {
            first.at[b] = kept[b];
        }
    }
    store_calls(length, 4);
}

/* ---- calls on an image: the first buffer ------------------------------------- */

static void image_call(uint64_t length, uint32_t hours)
{
    const uint8_t *image = first.at;
    uint32_t hour = hour_of(hours);
    uint64_t figure = any();
    switch (below(9)) {
    case 0: say("check", length, 0, 0, hourlog_image_check(image, length)); break;
    case 1: case 2: say("image count", length, hour, 0, hourlog_image_count(image, length, hour)); break;
    case 3: case 4: say("image reading", length, hour, 0, hourlog_image_reading(image, length, hour)); break;
    case 5: say("busiest", length, hour, 0, hourlog_image_busiest(image, length, hour)); break;
    case 6:
        figure = figure % 16 == 0 ? figure << 32 | hour : figure % 2 == 0 ? figure_at(hourlog_image_count(image, length, hour), 0) : figure;
        say("match", length, (uint32_t)figure, (uint32_t)(figure >> 32), hourlog_image_match(image, length, figure));
        break;
    default:
        figure = figure % 16 == 0 ? figure << 32 | hour : figure % 2 == 0 ? figure_at(hourlog_image_reading(image, length, hour), hour) : figure;
        say("image reach", length, (uint32_t)figure, (uint32_t)(figure >> 32), hourlog_image_reach(image, length, figure));
        break;
    }
}

static void image_calls(uint64_t length, uint32_t hours, unsigned n)
{
    for (; n > 0; n--) {
        image_call(length, hours);
    }
}

/* The image at the memory's end or start, read as written and damaged. */
static void read_image(const uint8_t *from, size_t length, uint32_t hours, unsigned round)
{
    static uint8_t image[HOURLOG_IMAGE_LENGTH_MAX(COUNTS_MAX, 2)];
    for (size_t k = 0; k < length; k++) {
        image[k] = from[k];
    }
    for (unsigned turn = 0; turn < 6; turn++) {
        first = lend(length, (turn + round) % 2, turn % 4);
        second = first;
        for (size_t k = 0; k < length; k++) {
            first.at[k] = image[k];
        }
        if (turn > 1) {
            damage(first);
        }
        say("check", length, 0, 0, hourlog_image_check(first.at, length));
        image_calls(length, hours, 8);
        image_call(length_near(length), hours);
    }
}

/* A count of an image: in every fourth round of any size, in every other fourth one
 * as much as it can be, so that many totals are above those of edition 1, and some
 * above those of edition 2. */
static uint32_t count_of(unsigned round, uint32_t shift)
{
    uint32_t n = next();
    switch (round % 4) {
    case 0: return n >> shift;
    case 1: return UINT32_MAX - n % 3;
    default: return n >> shift >> 8;
    }
}

static void image_round(unsigned round)
{
    uint32_t n = below(COUNTS_MAX + 1);
    uint32_t e = 2 + round % 7;
    uint32_t shift = below(32);
    first = lend(4 * n, round % 2, 0);
    second = lend(HOURLOG_IMAGE_LENGTH_MAX(n, e), 1 - (int)(round % 2), round % 4);
    uint32_t *counts = (uint32_t *)(void *)first.at;
    for (uint32_t k = 0; k < n; k++) {
        counts[k] = count_of(round, shift);
    }
    for (int k = 0; k < 4; k++) {
        uint64_t many = length_near(n);
        uint32_t size = any();
        many = many > n && many < HOURLOG_IMAGE_HOURS_MAX ? n : many;
        say("image length", many, size, 0, hourlog_image_length(counts, many, size));
        say("image write", many, size, 0, hourlog_image_write(counts, many, size, second.at, second.length));
        say("image length", many, e, 0, hourlog_image_length(counts, many, e));
    }
    int64_t length = say("image length", n, e, 0, hourlog_image_length(counts, n, e));
    uint64_t exact = length < 0 ? 0 : (uint64_t)length;
    say("image write", n, e, 0, hourlog_image_write(counts, n, e, second.at, exact - (exact > 0)));
    say("image write", n, e, 1, hourlog_image_write(counts, n, e, second.at, exact));
    say("image write", n, e, 2, hourlog_image_write(counts, n, e, second.at, ((uint64_t)1 << 32) + exact));
    say("image write", n, e, 3, hourlog_image_write(counts, n, e, second.at, UINT64_MAX));
    if (length > 0) {
        read_image(second.at, (size_t)length, n, round);
    }
}

/* A book over and back: whole, with digits that are none, too short, into too
 * little room.  The first buffer is lent to read, the second to write. */
static void book_round(unsigned round)
{
    static uint8_t kept[HOURLOG_NARROW_LENGTH_MAX(COUNTS_MAX, 2)];
    uint32_t n = below(COUNTS_MAX + 1);
    uint32_t e = 2 + round % 7;
    first = lend(HOURLOG_BOOK_LENGTH(n), round % 2, round % 4);
    second = lend(HOURLOG_NARROW_LENGTH_MAX(n, e), 1 - (int)(round % 2), round % 4);
    say("from bcd", first.length, e, 0, hourlog_image_from_bcd(first.at, first.length, e, second.at, second.length));
    for (size_t k = 0; k < first.length; k++) {
        uint32_t two = below(100);
        first.at[k] = (uint8_t)(two / 10 * 16 + two % 10);
    }
    for (int k = 0; k < 4; k++) {
        uint64_t other = length_near(first.length);
        uint32_t size = any();
        other = other > first.length ? first.length : other;
        say("from bcd", other, size, 0, hourlog_image_from_bcd(first.at, other, size, second.at, second.length));
        say("from bcd", other, e, 1, hourlog_image_from_bcd(first.at, other, e, second.at, second.length));
    }
    int64_t length = say("from bcd", first.length, e, 2, hourlog_image_from_bcd(first.at, first.length, e, second.at, UINT64_MAX));
    say("from bcd", first.length, e, 3, hourlog_image_from_bcd(first.at, first.length, e, second.at, (uint64_t)length - 1));
    for (size_t k = 0; k < (size_t)length; k++) {
        kept[k] = second.at[k];
    }
    second = lend(first.length, 1 - (int)(round % 2), 0);
    first = lend((size_t)length, round % 2, round % 4);
    for (unsigned turn = 0; turn < 4; turn++) {
        for (size_t k = 0; k < first.length; k++) {
            first.at[k] = kept[k];
        }
        if (turn > 1) {
            damage(first);
        }
        uint64_t room = turn == 0 ? second.length - (second.length > 0) : second.length;
        say("to bcd", first.length, turn, 0, hourlog_image_to_bcd(first.at, first.length, second.at, room));
        say("to bcd", first.length - 1, turn, 1, hourlog_image_to_bcd(first.at, first.length - 1, second.at, room));
    }
}

/* A buffer at the memory's start, at its end, or in its middle. */
static struct lent lend_at(unsigned place, size_t length, size_t off)
{
    return lend(length, place % 3 == 1, place % 3 == 2 ? LENT / 2 + off : off);
}

/* An image of up to 250 hours, so that full ones are within edition 2. */
static size_t write_door(uint8_t *image, size_t room, unsigned round)
{
    static uint32_t counts[DOOR_MAX];
    uint32_t n = below(DOOR_MAX + 1);
    uint32_t e = 2 + below(7);
    uint32_t shift = below(32);
    for (uint32_t k = 0; k < n; k++) {
        counts[k] = count_of(round, shift);
    }
    return (size_t)hourlog_image_write(counts, n, e, image, room);
}

static void copy(struct lent to, const uint8_t *from)
{
    for (size_t k = 0; k < to.length; k++) {
        to.at[k] = from[k];
    }
}

/* A merge of what is lent now, with other lengths, into less room, with any e, and of
 * one image with itself. */
static void merge_calls(uint32_t e, unsigned turn)
{
    uint64_t len = length_near(first.length);
    uint64_t other = length_near(third.length);
    uint64_t room = length_near(second.length);
    uint32_t any_e = any();
    if (room > second.length) {
        room = second.length; /* a longer one would be written over its end */
    }
    int64_t bytes = say("merge", first.length, e, turn,
                        hourlog_image_merge(first.at, first.length, third.at, third.length, e, second.at, room));
    say("merge", len, e, 1, hourlog_image_merge(first.at, len, third.at, third.length, e, second.at, second.length));
    say("merge", other, e, 2, hourlog_image_merge(first.at, first.length, third.at, other, e, second.at, second.length));
    say("merge", len, any_e, 3, hourlog_image_merge(first.at, len, third.at, other, any_e, second.at, second.length));
    say("merge", first.length, e, 4, hourlog_image_merge(first.at, first.length, first.at, first.length, e, second.at, room));
    if (bytes > 0) {
        uint64_t less = (uint64_t)bytes - 1;
        say("merge", less, e, 5, hourlog_image_merge(first.at, first.length, third.at, third.length, e, second.at, less));
    }
}

/* Two images merged, whole and damaged.  The first buffer and the third are lent to
 * read, the second to write. */
static void merge_round(unsigned round)
{
    static uint8_t door[2][HOURLOG_IMAGE_LENGTH_MAX(DOOR_MAX, 2)];
    uint32_t e = 2 + round % 7;
    size_t length = write_door(door[0], sizeof door[0], round);
    first = lend_at(round, length, round % 4);
    length = write_door(door[1], sizeof door[1], round % 8 == 1 ? round : round + 2);
    third = lend_at(round + 1, length, round % 4);
    second = lend_at(round + 2, HOURLOG_IMAGE_LENGTH_MAX(DOOR_MAX, e), round % 4);
    for (unsigned turn = 0; turn < 5; turn++) {
        copy(first, door[0]);
        copy(third, door[1]);
        if (turn == 2 || turn == 4) {
            damage(first);
        }
        if (turn > 2) {
            damage(third);
        }
        merge_calls(e, turn);
    }
    third = lend(0, 0, 0);
}

/* As many counts as an image holds, and one more. */
static void longest_list(void)
{
    first = lend(4 * BIG, 1, 0);
    second = lend(LENT - 4 * BIG, 0, 0);
    uint32_t *counts = (uint32_t *)(void *)first.at;
    for (uint32_t k = 0; k < BIG; k++) {
        counts[k] = next() >> 20;
    }
    say("image write", BIG + 1, 8, 0, hourlog_image_write(counts, BIG + 1, 8, second.at, second.length));
    int64_t length = say("image write", BIG, 8, 0, hourlog_image_write(counts, BIG, 8, second.at, second.length));
    first = second;
    first.length = (size_t)length;
    say("check", first.length, 0, 0, hourlog_image_check(first.at, first.length));
    image_calls(first.length, BIG, 20);
}

int main(int argc, char **argv)
{
    (void)argc, (void)argv;
    guard();
#ifdef STEP_OUTSIDE /* only to see that the guard is there */
    printf("read %d\n", (lent_from + (STEP_OUTSIDE))[0]);
#endif
    third = lend(0, 0, 0);
    for (unsigned round = 0; round < ROUNDS; round++) {
        store_round(round);
        image_round(round);
        book_round(round);
        merge_round(round);
    }
    longest_list();
    return 0;
}
