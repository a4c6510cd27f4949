/*
 * hourlog.h - the hour log of the coin board, for C99 and C++.
 *
 * Two kinds of bytes are handled.  The live STORE is what the board changes
 * every hour; the frozen IMAGE is what a laptop reads.  Both are plain byte
 * buffers that the caller owns: the library keeps no state, allocates nothing
 * and reads and writes nothing outside the buffers it is lent.
 *
 * A count is coins in one hour.  Hours are numbered from 0, and N hours are
 * logged.  The READING at i is the sum of counts 0 to i-1.  A store has P pages
 * of 64 hours each, and C cells, which are its memory for coins: each page
 * takes as many of them as its coins need.
 *
 * Every call returns one int64_t.  Zero or above is success, and the answer;
 * below zero it is minus the number of a refusal.  Refusals are tried in the
 * order that is given with each call.  A refused call changes no byte, and no
 * call ever changes one that it is lent by a const pointer.
 *
 * A pointer must be good for the length given with it; with length 0 it is not
 * followed and may be NULL.  Bytes may lie at any address, counts, changes and
 * lost pages at one that is good for a uint32_t.  The buffers of one call must not
 * overlap; but the two images of a merge may be the same bytes.
 *
 * A 64-bit value handed to a uint32_t parameter is cut to its low 32 bits by C,
 * before the library sees it: test it first (hourlog_image_reach and
 * hourlog_image_match alone take a uint64_t).
 *
 * THE CLOCK
 *
 * The log numbers its hours and knows no calendar.  Let hour 0 begin at a
 * midnight, and note that date beside the store: it is day 0.  With N the hours
 * logged (hourlog_hours) and H the full hours since that midnight, by a clock
 * without summer time:
 *   after fresh     append 0 until N is H, the hour of the day;
 *   each full hour  append the coins of the hour that is over: N is H again;
 *   after power-up  while N is behind H, append: the hour in which power failed
 *                   with its coins (see WHEN POWER FAILS), each hour slept through
 *                   with 0;
 *   wrong count     set it, as that of an hour logged with 0 that had coins;
 *   hour missed     if the log has no place for it (the clock had stood), insert
 *                   it with its coins, and put the clock right;
 *   logged twice    strike it;
 *   N ahead of H    (the clock was put back) skip: append nothing and count on,
 *                   so that these coins come into the next hour logged.
 * A day has 24 hours, but 23 where the clocks of the arcade are put forward on
 * it and 25 where they are put back.  Keep these days beside that date, as a
 * LIST OF CHANGES: day number and hours by turns, the days rising, such as
 * {88, 23, 305, 25}; hourlog_day takes it, and sums each day from midnight to
 * midnight by those clocks.  The list may reach as far ahead as is known.  A
 * board without a calendar takes it from the laptop, with the time; a laptop
 * that reads the days keeps it beside the store's bytes.  A fresh store has a
 * new day 0, so its list starts anew.  Where no clock is changed, it is empty.
 *
 * WHAT A BOARD HAS TO GIVE
 *
 * Processor: x86-64; by boards/build also Cortex-M, RISC-V, AArch64 and
 * WebAssembly, whose figures docs/BOARDS.md has: those here are of x86-64.  The
 * bytes of a store or an image mean the same on every machine.
 * Memory: the buffers, which the macros below measure (the largest store has
 * 63,760 bytes); 14 to 45 KiB of code, by the calls that are linked, of which
 * docs/BOARDS.md has a table; memcpy and memset of the C library.
 * Stack: HOURLOG_STACK, for insert and strike HOURLOG_MOVE_STACK, for freeze
 * HOURLOG_FREEZE_STACK.  A board that has not so much sends its store's bytes as
 * they are, and the laptop freezes them.
 * Time: a store call reads the whole store to check it, so its time grows with
 * the store: by some 2,400 instructions for a page with tens of coins in each
 * hour, 4,600 with hundred thousands.  A change of an hour costs 3,000 to 12,000
 * more, by the coins of its page.  That is 13,000 to 27,000 for a change in a
 * store of 4 pages of which 3 have coins, and by that rule 2.5 to 5 million, a
 * fifth of a millisecond or more on a desktop, in one of 1,024.  An insert or
 * a strike costs as much again for each page from its hour on.  A repair takes as
 * long as a question to a sound store, twice as long at worst.  An image is
 * written and checked in time that grows with its hours; its count and reading
 * take the same few hundred instructions whatever its length, reach about twice
 * as many.  The busiest stretch, and a bag's match, take two to five times as
 * long as check where pages have 64 hours (e = 6), and up to six times where
 * they have four (e = 2).  A merge takes three to six times as long as write.
 * Threads and interrupts: any number of calls may run at once, unless one of
 * them changes a buffer that another is lent.
 * Memory that fails: a store has no checksum, and damage can leave it sound
 * with another count.  Where that is to be seen, keep a checksum of your own.
 *
 * WHEN POWER FAILS
 *
 * examples/kept.c does what follows, and loses no coin wherever it is cut off:
 * start from it.
 * Two copies: a call is not atomic.  Cut off within fresh, append, set, insert,
 * strike or repair, it may leave bytes that are not sound, or that are sound and
 * hold neither the old counts nor the new.  So keep two copies, and of your own a
 * byte that says which is IN USE and one that says that the other is WHOLE,
 * which is to say the same.  For a change see that the copy in use is sound,
 * lest damage be copied over the last good log.  Let WHOLE be 0, copy the one
 * in use over the other and change that.  Unless it was refused, let it be the
 * one IN USE.  Copy this over the other, and let WHOLE be 1.  At power-up copy
 * so, too: the change may have been cut off.
 * Two damaged copies: only where the one in use is not sound, and the other is
 * not sound or not WHOLE, repair; and copy both away before, for the other may
 * have pages that this one lost.  Let WHOLE be 0, copy the one in use over the
 * other, repair that, note with it the pages that are listed, and let it be the
 * one IN USE: then go on as behind a change.  Cut off before, the same bytes are
 * repaired again.  If its header would be refused 18, leave both as they are; but
 * if the other is WHOLE and its header would not, let that be IN USE first.
 * Coins: those that are not logged yet must survive as well, or the hour in
 * which power fails is logged without them.  Number the appends, and keep with
 * each copy the number of its next one.  Keep coins beside the number of the
 * append that is to log them: an append takes those that stand beside its
 * number, or else 0.  So each is logged once.  (Beside the number of their hour
 * they would not be, for insert and strike move it.)  Keep two such pairs,
 * since coins fall while an hour is logged.  For an hour that begins take the
 * pair that is logged: its coins become 0 first, and then its number the new
 * one.
 * Memory: what is kept stands in battery-backed RAM, FRAM or MRAM, in a section
 * that the start code leaves alone.  Flash and EEPROM wear out where a whole
 * store is written each hour: there make the change in RAM, and write what
 * differs.  An append changes bytes 12 to 15, which are N.  If its hour has
 * coins it also changes the entry of its page, 6 bytes from 16 + 6*page on, and
 * the page's cells, 32 bytes each; and bytes 6 to 9 if it takes cells: 270
 * bytes at most.  A set changes these but N, and cells that the page gives
 * back; insert and strike, all pages from their hour on.
 */
#ifndef HOURLOG_H
#define HOURLOG_H

#include <stddef.h>
#include <stdint.h>

#ifdef __cplusplus
extern "C" {
#endif

/* ---- versions ---------------------------------------------------------- */

/* Of this header.  MAJOR rises where a call takes or answers something else
 * than before, MINOR where something is added.  For #if: 1000*MAJOR + MINOR. */
#define HOURLOG_VERSION_MAJOR 2
#define HOURLOG_VERSION_MINOR 5
#define HOURLOG_VERSION (1000 * HOURLOG_VERSION_MAJOR + HOURLOG_VERSION_MINOR)

/* Of the bytes: what byte 0 of a store, and of an image, says.  An image of up
 * to HOURLOG_TOTAL_MAX coins has HOURLOG_IMAGE_EDITION, as ever; one of more is
 * WIDE, and readers of a version before 2.3 refuse it with 5. */
#define HOURLOG_STORE_EDITION 1
#define HOURLOG_IMAGE_EDITION 1
#define HOURLOG_IMAGE_EDITION_WIDE 2

/* ---- for the compiler -------------------------------------------------- */

/* A cast that neither C nor C++ warns of. */
#ifdef __cplusplus
#define HOURLOG_AS(type, x) static_cast<type>(x)
#else
#define HOURLOG_AS(type, x) ((type)(x))
#endif

/* Before a call whose answer nobody may pass over: gcc and clang warn of it. */
#ifdef __GNUC__
#define HOURLOG_MUST_USE __attribute__((warn_unused_result))
#else
#define HOURLOG_MUST_USE
#endif

/* A length that is handed over: 64 bits wide on every processor, as the library
 * takes it.  C widens a size_t to it by itself. */
typedef uint64_t hourlog_size;

/* ---- limits ------------------------------------------------------------ */

#define HOURLOG_PAGES_MAX 1024u        /* pages P of a store: 1 to this       */
#define HOURLOG_CELLS_MAX 1800u        /* cells C of a store: 1 to this       */
#define HOURLOG_HOURS_A_PAGE 64u       /* so a store logs at most 64*P hours  */
#define HOURLOG_TOTAL_MAX 4294967295u  /* the sum of all counts in a store    */
#define HOURLOG_IMAGE_TOTAL_MAX 1099511627775u /* in an image: 2^40 - 1       */
#define HOURLOG_IMAGE_HOURS_MAX 65536u /* counts in an image                  */
#define HOURLOG_E_MIN 2u               /* an image's pages hold 2^e counts, e */
#define HOURLOG_E_MAX 8u               /* from 2 to 8: 6 if nothing speaks    */
                                       /* for another                         */

/* Bytes of a store with P pages and C cells; a constant if P and C are. */
#define HOURLOG_STORE_LENGTH(P, C) \
    (16 + 6 * HOURLOG_AS(size_t, P) + 32 * HOURLOG_AS(size_t, C))

/* How many cells a page of 64 hours needs goes by the coins in it:
 *
 *     coins, up to   0  122  1,771  25,226  353,686  4,860,066  66,043,643
 *     cells          0    1      2       3        4          5           6
 *
 * and 7 up to 954,437,176, and 8 above.  So a store of 8*P cells is never
 * refused 12; with fewer, it goes by what all pages need together.  A page with
 * twice the coins needs at most one cell more (docs/SIZING.md has examples). */
#define HOURLOG_CELLS_A_PAGE_MAX 8u

/* Bytes that suffice for the image of this many hours at page size 2^e; a
 * constant if both are.  Most images are far shorter.  HOURLOG_IMAGE_LENGTH_MAX
 * is for any counts; HOURLOG_NARROW_LENGTH_MAX, which is less, for a total of up
 * to HOURLOG_TOTAL_MAX, as that of every store and of every book. */
#define HOURLOG_IMAGE_PAGE(e) (HOURLOG_AS(size_t, 1) << (e))
#define HOURLOG_IMAGE_PAGES(hours, e) \
    ((HOURLOG_AS(size_t, hours) + HOURLOG_IMAGE_PAGE(e) - 1) >> (e))
#define HOURLOG_IMAGE_BYTES(header, pages, bits_a_page) \
    ((header) + 4 * (pages) + ((pages) * (bits_a_page) + 7) / 8)
#define HOURLOG_IMAGE_LENGTH_MAX(hours, e)                  \
    HOURLOG_IMAGE_BYTES(24, HOURLOG_IMAGE_PAGES(hours, e),  \
                        HOURLOG_IMAGE_PAGE(e) * 35 + 4 - HOURLOG_AS(size_t, e))
#define HOURLOG_NARROW_LENGTH_MAX(hours, e)                 \
    HOURLOG_IMAGE_BYTES(16, HOURLOG_IMAGE_PAGES(hours, e),  \
                        HOURLOG_IMAGE_PAGE(e) * HOURLOG_AS(size_t, 35 - (e)) - 4)

/* Bytes that suffice for freezing any store of P pages and C cells; a constant
 * if all three are.  For e up to 6 a page of the image lies within a page of
 * the store, and all code takes no more than the cells: at e = 6 that is about
 * the length of the store.  For e of 7 or 8 it is HOURLOG_NARROW_LENGTH_MAX
 * for 64*P hours. */
#define HOURLOG_FREEZE_LENGTH_MAX(P, C, e)                              \
    ((e) > 6 ? HOURLOG_NARROW_LENGTH_MAX(64 * HOURLOG_AS(size_t, P), e) \
             : 16 + 30 * HOURLOG_AS(size_t, C) +                        \
                   8 * HOURLOG_IMAGE_PAGES(64 * HOURLOG_AS(size_t, P), e))

/* The entries of a list of changes, which is what hourlog_day takes as n; of an
 * array, not of a pointer to one. */
#define HOURLOG_CHANGES(list) (sizeof(list) / sizeof(uint32_t))

/* A book of the old boards, in packed decimal: two bytes an hour, four digits,
 * the high digit first, so that ten coins are 00 10 in hexadecimal. */
#define HOURLOG_BOOK_COUNT_MAX 9999u
#define HOURLOG_BOOK_LENGTH(hours) (2 * HOURLOG_AS(size_t, hours))

/* Bytes of stack that suffice for freeze, for insert and strike, and for every
 * other call: as measured on x86-64, with some room.  Recursion is never deeper
 * than 8. */
#define HOURLOG_FREEZE_STACK 12288u
#define HOURLOG_MOVE_STACK 12288u
#define HOURLOG_STACK 8192u

/* ---- refusals ---------------------------------------------------------- */

/*
 * A refused call answers MINUS one of these numbers.  So compare
 * hourlog_refusal(answer) with them, never the answer itself.
 *
 * What to do at one:
 *   1, 2, 4, 7, 8, 9, 13, 17  The arguments do not fit: a matter for the program.
 *       At 4 the macros above say what length suffices, for freeze, for write,
 *       for books and for merge; for write hourlog_image_length says the exact
 *       one.
 *   3   Nobody pays that much: look at the coin counter.  The refused hour is
 *       NOT logged: append it with the right count.  Of a list it says that no
 *       image holds so many coins: make two images of it.  Of a merge it says
 *       so of both logs together, or of one hour: keep the two images.
 *   5, 6  A laptop takes the image from the board again.  At 5 look at byte 0
 *       first: an edition that this header does not name was written by a later
 *       version, and the laptop needs that.  At 6, count and reading still answer
 *       for the hours whose path is whole.  Of a merge it is the second image
 *       exactly if hourlog_image_check takes the first.
 *   10  These bytes are not a sound store, or len is not their length (as after
 *       an update of the firmware that changes P or C).  First try the other
 *       copy: it is the log if it is sound and you know it to be WHOLE (see WHEN
 *       POWER FAILS); sound alone it may be half a change.  Only where it is not,
 *       let hourlog_repair bring a copy of these bytes back to sound; unless the
 *       board is new, copy both away before, for they may be a log that was
 *       damaged.
 *   11, 12  The log takes no more, and the refused hour is NOT in it.  Save the
 *       log, by freeze or as it stands; make a fresh store, filled up to the
 *       hour of the day (see THE CLOCK); append the refused count to it.  At 12
 *       a smaller count may still fit, and an hour without coins does; but no
 *       cell comes back but by a set, a strike or an insert.  An insert or a
 *       strike is refused 12 too, where the hours behind it would fall into
 *       pages that need more cells: the log is as it was, and goes on.
 *   14  Read the book from the old board again: an odd number of bytes, or a
 *       digit above 9, was never written by one.  No hour of it came over.
 *   15  No old board could have held that hour: keep the image.
 *   16  The list of changes is not valid (see THE CLOCK): set it right.  The log
 *       is whole; with the empty list every day has 24 hours.
 *   18  The header does not say what store this is, N is above 64*P, or the list
 *       has not an entry for each page: see that len and n are right.  If they
 *       are, the log is lost to the board: copy both copies away, for a laptop
 *       may put the header right; make a fresh store, filled up to the hour of
 *       the day (see THE CLOCK), and tell staff that it starts anew.
 */
#define HOURLOG_REFUSED_PAGE_SIZE 1 /* e outside 2 to 8                        */
#define HOURLOG_REFUSED_LIST 2      /* over 65,536 counts                      */
#define HOURLOG_REFUSED_TOTAL 3     /* the total would pass its limit: store   */
                                    /* HOURLOG_TOTAL_MAX, list for an image    */
                                    /* HOURLOG_IMAGE_TOTAL_MAX; merge: or an   */
                                    /* hour's sum the limit of a count         */
#define HOURLOG_REFUSED_BUFFER 4    /* output buffer too short: image or book  */
#define HOURLOG_REFUSED_HEADER 5    /* image: header or byte length wrong      */
#define HOURLOG_REFUSED_BODY 6      /* image: check, not the writer's bytes;   */
                                    /* queries, damage on the path they read   */
#define HOURLOG_REFUSED_HOUR 7      /* hour or day not logged                  */
#define HOURLOG_REFUSED_FIGURE 8    /* figure above the total                  */
#define HOURLOG_REFUSED_FRESH 9     /* fresh: P, C or buffer length wrong      */
#define HOURLOG_REFUSED_UNSOUND 10  /* these bytes are not a sound store       */
#define HOURLOG_REFUSED_FULL 11     /* append, insert: 64*P hours are logged   */
#define HOURLOG_REFUSED_CELLS 12    /* more cells needed than the store has    */
#define HOURLOG_REFUSED_STRETCH 13  /* busiest: no hours, or more than N       */
#define HOURLOG_REFUSED_BOOK 14     /* book: odd length, or a digit above 9    */
#define HOURLOG_REFUSED_DIGITS 15   /* image to book: a count above 9999       */
#define HOURLOG_REFUSED_CHANGES 16  /* day: the list of changes is wrong       */
#define HOURLOG_REFUSED_BAG 17      /* match: a bag of no coins                */
#define HOURLOG_REFUSED_REPAIR 18   /* repair: length or header of the store   */
                                    /* wrong, or fewer than P entries          */

/* 1 if the call was refused, else 0. */
static inline int hourlog_is_refused(int64_t answer)
{
    return answer < 0;
}

/* The refusal's number, or 0 if the call was not refused. */
static inline int hourlog_refusal(int64_t answer)
{
    return answer < 0 ? HOURLOG_AS(int, -answer) : 0;
}

/* What to tell staff: a text for every number that hourlog_refusal gives. */
static inline const char *hourlog_refusal_text(int number)
{
    switch (number) {
    case 0: return "no refusal";
    case HOURLOG_REFUSED_PAGE_SIZE: return "e must be 2 to 8";
    case HOURLOG_REFUSED_LIST: return "more than 65,536 counts";
    case HOURLOG_REFUSED_TOTAL: return "total would pass its limit";
    case HOURLOG_REFUSED_BUFFER: return "buffer too short";
    case HOURLOG_REFUSED_HEADER: return "not an image";
    case HOURLOG_REFUSED_BODY: return "image is damaged";
    case HOURLOG_REFUSED_HOUR: return "hour not logged";
    case HOURLOG_REFUSED_FIGURE: return "figure not reached yet";
    case HOURLOG_REFUSED_FRESH: return "wrong size for a store";
    case HOURLOG_REFUSED_UNSOUND: return "store is not sound";
    case HOURLOG_REFUSED_FULL: return "log is full";
    case HOURLOG_REFUSED_CELLS: return "no cells left";
    case HOURLOG_REFUSED_STRETCH: return "not so many hours logged";
    case HOURLOG_REFUSED_BOOK: return "book is not packed decimal";
    case HOURLOG_REFUSED_DIGITS: return "a count needs more than four digits";
    case HOURLOG_REFUSED_CHANGES: return "list of changed days is wrong";
    case HOURLOG_REFUSED_BAG: return "bag holds no coins";
    case HOURLOG_REFUSED_REPAIR: return "store cannot be repaired";
    default: return "unknown refusal";
    }
}

/* ---- the live store ---------------------------------------------------- */

/*
 * Every store call but fresh and repair first checks the whole store and refuses
 * with 10 if it is not sound, or if len is not exactly its length.
 */

/* Makes an empty store of P pages and C cells in a buffer of exactly
 * HOURLOG_STORE_LENGTH(P, C) bytes, whatever it held before.
 * Answers 0.  Refuses: 9. */
HOURLOG_MUST_USE
int64_t hourlog_fresh(uint8_t *store, hourlog_size len, uint32_t pages, uint32_t cells);

/* Logs the next hour.  Answers how many cells the store took and how many it
 * gave back, as a pair (see hourlog_taken, hourlog_returned); one of the two
 * is 0.  For d coins it takes at most d/40 cells, rounded up, and never more
 * than 8.  Refuses: 10, 11, 3, 12. */
HOURLOG_MUST_USE
int64_t hourlog_append(uint8_t *store, hourlog_size len, uint32_t count);

/* Changes the count of a logged hour.  Answers as append does, and takes at
 * most as many cells, where d is by how many coins the count rises.
 * Refuses: 10, 7 (hour >= N), 3, 12. */
HOURLOG_MUST_USE
int64_t hourlog_set(uint8_t *store, hourlog_size len, uint32_t hour, uint32_t count);

/* Inserts an hour that was forgotten, with its count, before the hour given: that
 * one and all behind it move up by one, N included.  At N it is an append.
 * Answers as append does, of all pages together: the rise or the fall of the
 * cells that the whole log needs.  Refuses: 10, 7 (hour > N), 11, 3, 12. */
HOURLOG_MUST_USE
int64_t hourlog_insert(uint8_t *store, hourlog_size len, uint32_t hour, uint32_t count);

/* Strikes an hour that was logged twice: all behind it move down by one, N
 * included.  Answers as insert does.  Refuses: 10, 7 (hour >= N), 12. */
HOURLOG_MUST_USE
int64_t hourlog_strike(uint8_t *store, hourlog_size len, uint32_t hour);

/* The count of an hour.  Refuses: 10, 7 (hour >= N). */
HOURLOG_MUST_USE
int64_t hourlog_count(const uint8_t *store, hourlog_size len, uint32_t hour);

/* The sum of the counts before an hour.  Refuses: 10, 7 (hour > N). */
HOURLOG_MUST_USE
int64_t hourlog_reading(const uint8_t *store, hourlog_size len, uint32_t hour);

/* The smallest i whose reading is the figure or more; 0 for figure 0.  So coin
 * number p, counted from 1, fell in the hour BEFORE it: a cash slip that says p
 * belongs to hour i - 1.
 * Refuses: 10, 8 (figure above the total). */
HOURLOG_MUST_USE
int64_t hourlog_reach(const uint8_t *store, hourlog_size len, uint32_t figure);

/* The sum of the hours of a day.  A day starts after the hours of all days
 * before it: 24 each, but for those that the list of changes names (see THE
 * CLOCK).  n is the number of its entries, two for each change, which is what
 * HOURLOG_CHANGES gives; with n = 0 day d is hours 24*d to 24*d + 23.
 * Refuses: 10; 16 (n is odd, a day number is not above the one before it, or
 * hours are neither 23 nor 25, anywhere in the list); 7 (the day ends after N). */
HOURLOG_MUST_USE
int64_t hourlog_day(const uint8_t *store, hourlog_size len, uint32_t day,
                    const uint32_t *changes, hourlog_size n);

/* How many cells are free; also the way to ask whether a store is sound.  It is
 * a question like those above, not the end of the store: it releases nothing
 * and changes no byte.  Refuses: 10. */
HOURLOG_MUST_USE
int64_t hourlog_free(const uint8_t *store, hourlog_size len);

/* Writes the image of all logged counts, pages of 2^e counts, and answers its
 * length in bytes.  Bytes of the buffer beyond the image are left unchanged.
 * A smaller e makes the image longer and its queries faster: take 6 unless you
 * know better.
 * Refuses: 10, 1, 4. */
HOURLOG_MUST_USE
int64_t hourlog_freeze(const uint8_t *store, hourlog_size len, uint32_t e,
                       uint8_t *image, hourlog_size image_len);

/* Brings a store back to sound that the other calls refuse with 10.  A page is
 * kept, page 0 first, if it is whole and runs over no cell of a page kept before
 * it, its hours from N on are 0, and the total of the pages kept is within
 * HOURLOG_TOTAL_MAX.  Each other page becomes zero, and its number is listed from
 * the start of lost, the numbers rising; later entries are left unchanged.  All
 * cells that no page keeps become free.  P, C and N stay.
 * Answers how many pages are listed: 0 of a sound store, which keeps every count.
 * n is the entries that lost has, P at least: HOURLOG_PAGES_MAX always suffice.
 *
 * Of a page p that is listed, the hours from 64*p to 64*p + 63, as far as they
 * are below N, now read 0; none, if 64*p is N or above.  Tell staff which, by day
 * and hour: take from h the hours of day 0, of day 1 and so on, each 24 or what
 * the list of changes says, so that the days are those of hourlog_day.  Coins that
 * fell in them are no longer in the log; a count that staff know can be set.  The
 * log goes on; but freeze it first, so that what is left is safe.
 *
 * Repair only once both copies have been tried (see refusal 10), and a COPY of
 * the bytes: what it clears is gone, and a laptop may make more of what was there.
 * What it keeps is whole, which is not to say true: damage can leave a page whole
 * with other counts, and that it does not see.  Nor does it see a wrong N: one too
 * low costs each page with coins from there on, one too high makes hours of 0.  So
 * hold N against the clock, in the bytes that were copied away too, before the
 * next append.
 * Refuses: 18 (len is not what P and C ask for; byte 0, byte 1, bytes 10 and 11, P,
 * C or N are not those of a store; n is less than P), and never 10. */
HOURLOG_MUST_USE
int64_t hourlog_repair(uint8_t *store, hourlog_size len, uint32_t *lost, hourlog_size n);

/* Cells taken, and cells given back, by an accepted append, set, insert or
 * strike. */
static inline uint32_t hourlog_taken(int64_t answer)
{
    return HOURLOG_AS(uint32_t, HOURLOG_AS(uint64_t, answer) & 0xFFFFu);
}

static inline uint32_t hourlog_returned(int64_t answer)
{
    return HOURLOG_AS(uint32_t, (HOURLOG_AS(uint64_t, answer) >> 16) & 0xFFFFu);
}

/*
 * What stands in the bytes of a SOUND store: after power-up, once some call on
 * it was not refused with 10.  The functions below test nothing; of other bytes
 * they tell nonsense, and hourlog_total may then read beyond the buffer.
 */

/* A number of two bytes, and of four, low byte first. */
static inline uint32_t hourlog_two_bytes(const uint8_t *at)
{
    return HOURLOG_AS(uint32_t, at[0]) | (HOURLOG_AS(uint32_t, at[1]) << 8);
}

static inline uint32_t hourlog_four_bytes(const uint8_t *at)
{
    return hourlog_two_bytes(at) | (hourlog_two_bytes(at + 2) << 16);
}

/* P and C, as fresh was given them. */
static inline uint32_t hourlog_pages(const uint8_t *store)
{
    return hourlog_two_bytes(store + 2);
}

static inline uint32_t hourlog_cells(const uint8_t *store)
{
    return hourlog_two_bytes(store + 4);
}

/* N, the hours logged: the next append logs hour N. */
static inline uint32_t hourlog_hours(const uint8_t *store)
{
    return hourlog_four_bytes(store + 12);
}

/* The total, all coins in the log: the sum of the pages' sums. */
static inline uint32_t hourlog_total(const uint8_t *store)
{
    const uint8_t *const entries = store + 16;
    const uint32_t pages = hourlog_pages(store);
    uint32_t total = 0;
    for (uint32_t page = 0; page < pages; page++) {
        total += hourlog_four_bytes(entries + 6 * page);
    }
    return total;
}

/* ---- the frozen image -------------------------------------------------- */

/*
 * An image has the edition that its total asks for, and every call takes both.
 * Sums of an image have up to 40 bits: keep them in 64, not in 32.
 */

/* The length in bytes of the image of n counts.
 * Refuses: 1, 2, 3 (the total is above HOURLOG_IMAGE_TOTAL_MAX). */
HOURLOG_MUST_USE
int64_t hourlog_image_length(const uint32_t *counts, hourlog_size n, uint32_t e);

/* Writes that image and answers its length in bytes.  Bytes of the buffer
 * beyond the image are left unchanged.  Refuses: 1, 2, 3, 4. */
HOURLOG_MUST_USE
int64_t hourlog_image_write(const uint32_t *counts, hourlog_size n, uint32_t e,
                            uint8_t *image, hourlog_size image_len);

/*
 * The calls below read an image of exactly len bytes: one byte more or less is
 * refusal 5.
 */

/* Whether these are exactly the bytes that write makes of some list.  Answers
 * its N and its total as a pair (see hourlog_checked_hours,
 * hourlog_checked_total).  Refuses: 5, 6. */
HOURLOG_MUST_USE
int64_t hourlog_image_check(const uint8_t *image, hourlog_size len);

/* The count of an hour; tests only the path to it.
 * Refuses: 5, 7 (hour >= N), 6 (also if the path ends at a count of more than
 * 4,294,967,295; no other hour's is looked at). */
HOURLOG_MUST_USE
int64_t hourlog_image_count(const uint8_t *image, hourlog_size len, uint32_t hour);

/* The sum of the counts before an hour; tests only the path to the last of
 * them, as count does.
 * Refuses: 5, 7 (hour > N), 6.  At hour 0 it is 0, whatever the body holds. */
HOURLOG_MUST_USE
int64_t hourlog_image_reading(const uint8_t *image, hourlog_size len, uint32_t hour);

/* The smallest i whose reading is the figure or more: coin number p fell in
 * hour i - 1, as in hourlog_reach.
 * Refuses: 5, 8 (figure above the total), 6.  On an image that check refuses
 * with 6 it answers refusal 6 or some index from 0 to N: check first. */
HOURLOG_MUST_USE
int64_t hourlog_image_reach(const uint8_t *image, hourlog_size len, uint64_t figure);

/* The run of exactly so many successive hours that holds the most coins, of all
 * such runs the earliest where several hold as many.  Answers its first hour and
 * its sum as a pair (see hourlog_busiest_first, hourlog_busiest_sum).  It checks
 * the whole image first.  Refuses: 5, 6 as check does, 13 (hours is 0 or > N). */
HOURLOG_MUST_USE
int64_t hourlog_image_busiest(const uint8_t *image, hourlog_size len, uint32_t hours);

/* The hours of a bag that was found without its label: a run of successive hours,
 * one at least, that hold exactly so many coins.  Of all such runs the one that
 * starts first, and of those the shortest: so it may begin with hours of 0, and
 * never ends with one.  Answers its first hour and how many hours it has as a
 * pair (see hourlog_matched_first, hourlog_matched_hours), or 0 if there is no
 * such run: a run has an hour.  It checks the whole image first.
 * Refuses: 5, 6 as check does, 17 (figure is 0). */
HOURLOG_MUST_USE
int64_t hourlog_image_match(const uint8_t *image, hourlog_size len, uint64_t figure);

/* ---- old credit books --------------------------------------------------- */

/* Writes the image of a book, pages of 2^e counts, and answers its length in
 * bytes.  Bytes of the buffer beyond the image are left unchanged.
 * HOURLOG_NARROW_LENGTH_MAX(book_len / 2, e) bytes suffice for it.
 * Refuses: 1, 14 (wherever in the book, and however long it is), 2, 4. */
HOURLOG_MUST_USE
int64_t hourlog_image_from_bcd(const uint8_t *book, hourlog_size book_len, uint32_t e,
                               uint8_t *image, hourlog_size image_len);

/* Writes the book of an image that check accepts, and answers its length in
 * bytes, HOURLOG_BOOK_LENGTH(N).  Bytes of the buffer beyond the book are left
 * unchanged.  Over and back, with the image's own e (its byte 1), the first
 * bytes come again, from a book as from an image.
 * Refuses: 5, 6 (both as check does), 15 (so every wide image), 4. */
HOURLOG_MUST_USE
int64_t hourlog_image_to_bcd(const uint8_t *image, hourlog_size len,
                             uint8_t *book, hourlog_size book_len);

/* ---- two coin doors ---------------------------------------------------- */

/* Writes the image of a cabinet whose two doors are logged each by itself: of the
 * hour-by-hour sums of two images that check accepts, pages of 2^e counts.  Answers
 * its length in bytes.  Bytes of the buffer beyond the image are left unchanged.
 * Hour i of both logs must be the same hour.  The longer log says how many hours
 * there are, and the shorter one has 0 beyond its end: so the reading at every hour
 * is the sum of the two readings, each held at its own total beyond its end.
 * Both images may have any e and either edition; the new one has the edition that
 * its total asks for, so two that are not wide may give a wide one.  The same bytes
 * may be lent as both; the buffer must lie apart from them.  With hours the larger N,
 * HOURLOG_IMAGE_LENGTH_MAX(hours, e) bytes suffice for it; if the totals of both
 * together are at most HOURLOG_TOTAL_MAX, HOURLOG_NARROW_LENGTH_MAX(hours, e).
 * Refuses: 1; 5, 6 of the first as check does; 5, 6 of the second; 3 (the sum of an
 * hour is above 4,294,967,295, or the total above HOURLOG_IMAGE_TOTAL_MAX); 4. */
HOURLOG_MUST_USE
int64_t hourlog_image_merge(const uint8_t *first, hourlog_size first_len,
                            const uint8_t *second, hourlog_size second_len, uint32_t e,
                            uint8_t *image, hourlog_size image_len);

/* ---- what is in an answer of an image ---------------------------------- */

/* N, and the total, of an image that check accepted. */
static inline uint32_t hourlog_checked_hours(int64_t answer)
{
    return HOURLOG_AS(uint32_t, HOURLOG_AS(uint64_t, answer) >> 40);
}

static inline uint64_t hourlog_checked_total(int64_t answer)
{
    return HOURLOG_AS(uint64_t, answer) & 0xFFFFFFFFFFu;
}

/* The first hour, and the sum, of the busiest stretch. */
static inline uint32_t hourlog_busiest_first(int64_t answer)
{
    return HOURLOG_AS(uint32_t, HOURLOG_AS(uint64_t, answer) >> 40);
}

static inline uint64_t hourlog_busiest_sum(int64_t answer)
{
    return HOURLOG_AS(uint64_t, answer) & 0xFFFFFFFFFFu;
}

/* The first hour, and how many hours, of a bag's run; 0 hours if there is none. */
static inline uint32_t hourlog_matched_first(int64_t answer)
{
    return HOURLOG_AS(uint32_t, HOURLOG_AS(uint64_t, answer) & 0xFFFFFFFFu);
}

static inline uint32_t hourlog_matched_hours(int64_t answer)
{
    return HOURLOG_AS(uint32_t, HOURLOG_AS(uint64_t, answer) >> 32);
}

#ifdef __cplusplus
}
#endif

#endif /* HOURLOG_H */
