/*
 * board.c - a coin board's hour log, from power-up to the service laptop.
 *
 * usage: board IMAGE-FILE
 *
 * The first half is what the firmware does: it logs one count an hour, by kept.c,
 * which keeps the log in memory that survives power loss, and answers questions.
 * The second half is what the laptop does with the image that the board wrote.
 * At the end every refusal but those of books is provoked once, to show what each
 * one looks like.
 * It compiles as C99 and as C++.
 */
#include "kept.h"

#include <stdio.h>
#include <stdlib.h>

/* Pages of 2^6 counts in the image, which is right unless you know better. */
#define IMAGE_E 6

static uint8_t image[HOURLOG_FREEZE_LENGTH_MAX(PAGES, CELLS, IMAGE_E)];

/* Prints what a call answered.  Every answer is tested before it is used. */
static void report(const char *call, int64_t answer)
{
    if (hourlog_is_refused(answer)) {
        int number = hourlog_refusal(answer);
        printf("%-32s refused %d: %s\n", call, number, hourlog_refusal_text(number));
    } else {
        printf("%-32s %lld\n", call, (long long)answer);
    }
}

/* Cells that an append or a set moved. */
static void report_cells(const char *call, int64_t answer)
{
    if (hourlog_is_refused(answer)) {
        report(call, answer);
    } else {
        printf("%-32s took %u cells, gave back %u\n", call,
               (unsigned)hourlog_taken(answer), (unsigned)hourlog_returned(answer));
    }
}

/* For a call that nothing but a fault in this program could have refused. */
static int64_t must(int64_t answer)
{
    if (hourlog_is_refused(answer)) {
        fprintf(stderr, "unexpected refusal %d: %s\n", hourlog_refusal(answer),
                hourlog_refusal_text(hourlog_refusal(answer)));
        exit(EXIT_FAILURE);
    }
    return answer;
}

/* ---- the board ----------------------------------------------------------- */

/* Stands in for the clock, in hours: it goes on while the board has no power. */
static uint32_t now;

/* On day 1 the clocks of this arcade were put back: it has 25 hours.  (Where the
 * laptop brings the list, it must survive power loss too: KEPT.) */
static const uint32_t changes[] = {1, 25};
#define CHANGES HOURLOG_CHANGES(changes)

static uint32_t hours_of(uint32_t day)
{
    for (size_t k = 0; k < CHANGES; k += 2) {
        if (changes[k] == day) {
            return changes[k + 1];
        }
    }
    return 24;
}

/* Which day an hour of the log belongs to, and which hour of that day it is. */
struct moment {
    uint32_t day, of_day;
};

static struct moment moment_of(uint32_t hour)
{
    struct moment m = {0, hour};
    while (m.of_day >= hours_of(m.day)) {
        m.of_day -= hours_of(m.day);
        m.day++;
    }
    return m;
}

/* Names hours to the operator as the arcade's clock did. */
static void tell_zero(uint32_t first, uint32_t last)
{
    struct moment from = moment_of(first), to = moment_of(last);
    printf("    -> lost: hours %u to %u, from day %u, hour %u, to day %u, hour %u, now read 0\n",
           (unsigned)first, (unsigned)last, (unsigned)from.day, (unsigned)from.of_day,
           (unsigned)to.day, (unsigned)to.of_day);
}

/* Tells the operator which hours now read 0.  After a power-up too: what is lost is
 * kept until it is told. */
static void tell_lost(void)
{
    uint32_t hours = hourlog_hours(store()), pages = 0;
    for (uint32_t page = 0; page < PAGES; page++) {
        uint32_t first = page * HOURLOG_HOURS_A_PAGE, end = first + HOURLOG_HOURS_A_PAGE;
        if (page_is_lost(page) && first < hours) {
            tell_zero(first, (end < hours ? end : hours) - 1);
        }
        pages += (uint32_t)page_is_lost(page);
    }
    if (pages > 0) {
        must(told());
    }
}

/* Makes a log of what is left of two damaged copies; 0 if nothing is.  (One in the
 * field would copy both away before: a laptop may make more of them.) */
static int repaired(void)
{
    int64_t answer = repair_log();
    report("repair, pages lost", answer);
    if (hourlog_is_refused(answer)) {
        return 0;
    }
    tell_lost();
    return 1;
}

/* Logs the hours that are over; 1 if all are logged.  A refused append has changed
 * nothing, and its coins go on waiting: the hour can be logged once the cause is
 * gone. */
static int log_hours(void)
{
    int64_t answer = catch_up(now);
    if (!hourlog_is_refused(answer)) {
        return 1;
    }
    report("append", answer);
    switch (hourlog_refusal(answer)) {
    case HOURLOG_REFUSED_FULL:
    case HOURLOG_REFUSED_CELLS:
        puts("    -> save the log, and log this hour in a fresh store");
        break;
    case HOURLOG_REFUSED_TOTAL:
        puts("    -> look at the coin counter: nobody pays that much");
        break;
    default: /* HOURLOG_REFUSED_UNSOUND, the only other one */
        puts("    -> both copies are damaged: copy them away, and repair");
        return repaired() && log_hours();
    }
    return 0;
}

/* What the board does when power comes on: where there is no log, it may be a damaged
 * one, or the blank memory of a first power-up, of which a repair makes nothing.
 * (The coin interrupt is let in at the end.) */
static void switch_on(void)
{
    if (power_up()) {
        tell_lost();
    } else {
        report("power-up, no log", hourlog_free(store(), STORE_LENGTH));
        if (!repaired()) {
            new_log(now);
        }
    }
    report("power-up, hours logged", hourlog_hours(store()));
    log_hours();
    report("up to the clock, hours logged", hourlog_hours(store()));
}

/* Stands in for the coin counter: shut at night, busiest in the evening. */
static uint32_t coins_in_hour(uint32_t hour)
{
    struct moment m = moment_of(hour);
    return m.of_day < 10 ? 0 : (m.of_day - 9) * (3 + m.day);
}

/* Goes on where the log stopped, which after a power-up can be any hour: coins
 * fall, by the coin interrupt, and the hour is over. */
static void log_days(uint32_t days)
{
    while (moment_of(now).day < days) {
        coins_fell(coins_in_hour(now));
        now++;
        if (!log_hours()) {
            return;
        }
    }
    printf("logged %u days\n", (unsigned)days);
}

/* A cash slip names a coin by its number, from 1 on.  Reach answers the first i
 * whose reading has that coin in it: so it fell in the hour before. */
static void report_coin(const char *call, int64_t reached)
{
    report(call, reached > 0 ? reached - 1 : reached);
}

static void show_takings(void)
{
    report("takings of day 0", hourlog_day(store(), STORE_LENGTH, 0, changes, CHANGES));
    report("takings of day 1, 25 hours", hourlog_day(store(), STORE_LENGTH, 1, changes, CHANGES));
    report("takings of day 2", hourlog_day(store(), STORE_LENGTH, 2, changes, CHANGES));
    report("takings of day 4, not yet over", hourlog_day(store(), STORE_LENGTH, 4, changes, CHANGES));
    report("count of hour 20", hourlog_count(store(), STORE_LENGTH, 20));
    report("meter after 72 hours", hourlog_reading(store(), STORE_LENGTH, 72));
    report_coin("coin number 500 fell in hour", hourlog_reach(store(), STORE_LENGTH, 500));
    report("all coins", hourlog_total(store()));
    report("free cells", hourlog_free(store(), STORE_LENGTH));
}

/* Power fails while coins fall, and is back three hours later.  The coins of that
 * hour have waited; the other two are logged with 0.  In one of them the coins were
 * counted by hand: it has its place in the log, so it is set. */
static void power_fails(void)
{
    uint32_t hour = now;
    coins_fell(20);
    now += 3;
    switch_on();
    report("count of the hour of the cut", hourlog_count(store(), STORE_LENGTH, hour));
    report("count of the hour after it", hourlog_count(store(), STORE_LENGTH, hour + 1));
    report_cells("that hour set to 5",
                 changed(hourlog_set(copy_of_store(), STORE_LENGTH, hour + 1, 5)));
}

/* A bit of the log flips while the board runs.  The other copy is the same log. */
static void damaged_copy(void)
{
    kept.copies[kept.in_use & 1].store[8] ^= 1; /* the number of free cells */
    report("free cells, of the copy in use", hourlog_free(store(), STORE_LENGTH));
    report("log found, in the other copy", find_log());
    report("hours logged", hourlog_hours(store()));
    report("all coins", hourlog_total(store()));
}

/* Bits flip in both copies.  What is damaged in them is lost, and no more. */
static void damaged_copies(void)
{
    report_cells("hour 100 set to 7", changed(hourlog_set(copy_of_store(), STORE_LENGTH, 100, 7)));
    for (int k = 0; k < 2; k++) {
        kept.copies[k].store[21] ^= 0x80; /* page 0's first cell */
    }
    log_hours();
    report("hours logged", hourlog_hours(store()));
    report("all coins", hourlog_total(store()));
}

/* A test coin was counted as 1,000: staff put it right. */
static void correct_an_hour(void)
{
    report_cells("hour 20 set to 1000",
                 changed(hourlog_set(copy_of_store(), STORE_LENGTH, 20, 1000)));
    report_cells("hour 20 set to 33",
                 changed(hourlog_set(copy_of_store(), STORE_LENGTH, 20, 33)));
    report("count of hour 20", hourlog_count(store(), STORE_LENGTH, 20));
}

/* The clock had stood for an hour: the log has no place for it, so it is inserted.
 * Then it turns out to be there, and is struck.  (Were it missing, the clock would
 * be put right now.) */
static void insert_and_strike(void)
{
    report_cells("hour 50 inserted, 12 coins",
                 changed(hourlog_insert(copy_of_store(), STORE_LENGTH, 50, 12)));
    report("hours logged", hourlog_hours(store()));
    report_cells("hour 50 struck",
                 changed(hourlog_strike(copy_of_store(), STORE_LENGTH, 50)));
    report("hours logged", hourlog_hours(store()));
}

/* The image goes to a file, as it would to a memory stick.  A board without
 * HOURLOG_FREEZE_STACK bytes of stack writes the store itself there, and the
 * laptop freezes it. */
static void freeze_to(const char *path)
{
    int64_t length = must(hourlog_freeze(store(), STORE_LENGTH, IMAGE_E, image, sizeof image));
    FILE *file = fopen(path, "wb");
    if (file == NULL || fwrite(image, 1, (size_t)length, file) != (size_t)length ||
        fclose(file) != 0) {
        perror(path);
        exit(EXIT_FAILURE);
    }
    report("image written, bytes", length);
}

/* A log that takes no more: it is saved, and the hour that was refused goes into
 * the next one, behind the hours of its day that are over.  (The log knows no
 * calendar: a board notes with the file on which day its hour 0 was.) */
static void save_and_start_over(const char *path)
{
    freeze_to(path);
    report_cells("refused hour, in a fresh store",
                 must(start_over(moment_of(hourlog_hours(store())).of_day)));
}

/* ---- the laptop ---------------------------------------------------------- */

static size_t read_back(const char *path)
{
    FILE *file = fopen(path, "rb");
    if (file == NULL) {
        perror(path);
        exit(EXIT_FAILURE);
    }
    size_t length = fread(image, 1, sizeof image, file);
    fclose(file);
    return length;
}

/* The whole image is checked once; after that no query can be refused 5 or 6. */
static void look_into_image(const char *path)
{
    size_t length = read_back(path);
    int64_t checked = hourlog_image_check(image, length);
    if (hourlog_is_refused(checked)) {
        report("image check", checked);
        return;
    }
    printf("image holds %u hours and %llu coins\n", (unsigned)hourlog_checked_hours(checked),
           (unsigned long long)hourlog_checked_total(checked));
    report("image: count of hour 20", hourlog_image_count(image, length, 20));
    report("image: meter after 72 hours", hourlog_image_reading(image, length, 72));
    report_coin("image: coin 500 fell in hour", hourlog_image_reach(image, length, 500));
    int64_t busiest = must(hourlog_image_busiest(image, length, 24));
    printf("busiest 24 hours, from hour %u:  %llu coins\n", (unsigned)hourlog_busiest_first(busiest),
           (unsigned long long)hourlog_busiest_sum(busiest));
    int64_t bag = must(hourlog_image_match(image, length, 100));
    printf("bag of 100 coins, from hour %u:  %u hours\n", (unsigned)hourlog_matched_first(bag),
           (unsigned)hourlog_matched_hours(bag));
}

/* An image can also be made of a list, without a store. */
static void image_of_a_list(void)
{
    static const uint32_t counts[5] = {1, 0, 2, 0, 5};
    uint8_t small[HOURLOG_IMAGE_LENGTH_MAX(5, 2)];
    int64_t length = must(hourlog_image_write(counts, 5, 2, small, sizeof small));
    printf("image of 1,0,2,0,5:             ");
    for (int64_t k = 16; k < length; k++) {
        printf(" %02X", (unsigned)small[k]);
    }
    printf("\n");
}

/* A ticket wall gives out more than a store could log.  Its image has the wide
 * edition by itself, and is asked as any other; its sums need 64 bits. */
static void image_of_a_ticket_wall(void)
{
    static const uint32_t tickets[3] = {4000000000u, 0, 3000000000u};
    uint8_t wall[HOURLOG_IMAGE_LENGTH_MAX(3, 2)];
    size_t length = (size_t)must(hourlog_image_write(tickets, 3, 2, wall, sizeof wall));
    report("ticket wall: edition", wall[0]);
    report("ticket wall: all three hours", hourlog_image_reading(wall, length, 3));
}

/* ---- every refusal once -------------------------------------------------- */

static void refusals_of_the_store(const char *path)
{
    report("fresh with no pages",
           changed(hourlog_fresh(copy_of_store(), STORE_LENGTH, 0, CELLS)));
    report("hour 0 set to 4,294,967,295",
           changed(hourlog_set(copy_of_store(), STORE_LENGTH, 0, HOURLOG_TOTAL_MAX)));
    report("count of hour 100", hourlog_count(store(), STORE_LENGTH, 100));
    static const uint32_t no_change[] = {1, 24};
    report("day 1, named with 24 hours",
           hourlog_day(store(), STORE_LENGTH, 1, no_change, HOURLOG_CHANGES(no_change)));
    report("reach of 4,000,000,000", hourlog_reach(store(), STORE_LENGTH, 4000000000u));
    report("freeze with e = 9", hourlog_freeze(store(), STORE_LENGTH, 9, image, sizeof image));
    report("freeze into 20 bytes", hourlog_freeze(store(), STORE_LENGTH, IMAGE_E, image, 20));
    report_cells("hour 0 set to 1,000,000,000",
                 changed(hourlog_set(copy_of_store(), STORE_LENGTH, 0, 1000000000u)));
    coins_fell(1000000000u);
    now++;
    log_hours();
    save_and_start_over(path);
    now += 256; /* hours without coins need no cells: they fit until the log is full */
    log_hours();
    damaged_copies();
}

static void refusals_of_the_image(const char *path)
{
    static uint32_t counts[HOURLOG_IMAGE_HOURS_MAX + 1];
    size_t length = read_back(path);
    report("length of 65,537 counts",
           hourlog_image_length(counts, HOURLOG_IMAGE_HOURS_MAX + 1, IMAGE_E));
    report("busiest of no hours", hourlog_image_busiest(image, length, 0));
    report("bag of no coins", hourlog_image_match(image, length, 0));
    report("check of half an image", hourlog_image_check(image, length / 2));
    image[length - 1] ^= 0xFF;
    report("check of a damaged image", hourlog_image_check(image, length));
}

int main(int argc, char **argv)
{
    if (argc != 2) {
        fprintf(stderr, "usage: %s IMAGE-FILE\n", argv[0]);
        return EXIT_FAILURE;
    }
    now = 10; /* the first power-up, at ten in the morning */
    switch_on();
    log_days(4);
    show_takings();
    power_fails();
    damaged_copy();
    correct_an_hour();
    insert_and_strike();
    freeze_to(argv[1]);
    look_into_image(argv[1]);
    image_of_a_list();
    image_of_a_ticket_wall();
    refusals_of_the_store(argv[1]);
    refusals_of_the_image(argv[1]);
    return EXIT_SUCCESS;
}
