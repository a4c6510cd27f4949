/*
 * header_words.h - what include/hourlog.h says by itself: its constants, its lengths, how it takes answers and a store's bytes apart, its
 * texts. All of it is held to numbers and texts that are written out here.
 *
 * tests/header.cpp runs it as C++. tests/header_copies runs it as C, and sees that it fails where any one number or text of the header is
 * another: so whatever is new in the header has its line here.
 */
#include "hourlog.h"

#undef NDEBUG
#include <assert.h>
#include <limits.h>
#include <string.h>

static inline void limits(void)
{
    assert(HOURLOG_VERSION_MAJOR == 2 && HOURLOG_VERSION_MINOR == 5 && HOURLOG_VERSION == 2005);
    assert(HOURLOG_STORE_EDITION == 1 && HOURLOG_IMAGE_EDITION == 1 && HOURLOG_IMAGE_EDITION_WIDE == 2);
    assert(HOURLOG_PAGES_MAX == 1024 && HOURLOG_CELLS_MAX == 1800);
    assert(HOURLOG_HOURS_A_PAGE == 64 && HOURLOG_CELLS_A_PAGE_MAX == 8);
    assert(HOURLOG_TOTAL_MAX == 4294967295 && HOURLOG_IMAGE_TOTAL_MAX == 1099511627775 && HOURLOG_IMAGE_HOURS_MAX == 65536);
    assert(HOURLOG_E_MIN == 2 && HOURLOG_E_MAX == 8);
    assert(HOURLOG_BOOK_COUNT_MAX == 9999);
    assert(HOURLOG_STACK == 8192 && HOURLOG_MOVE_STACK == 12288 && HOURLOG_FREEZE_STACK == 12288);
}

static inline void lengths(void)
{
    assert(HOURLOG_STORE_LENGTH(1, 2) == 86);
    assert(HOURLOG_STORE_LENGTH(1024, 1800) == 63760);
    assert(HOURLOG_BOOK_LENGTH(3) == 6 && HOURLOG_BOOK_LENGTH(65536) == 131072);

    /* entries and not changes, also where the changes are rows */
    static const uint32_t changes[] = {88, 23, 305, 25}, rows[3][2] = {{88, 23}, {305, 25}, {452, 23}};
    assert(HOURLOG_CHANGES(changes) == 4 && HOURLOG_CHANGES(rows) == 6);

    assert(HOURLOG_IMAGE_PAGE(2) == 4 && HOURLOG_IMAGE_PAGE(8) == 256);
    assert(HOURLOG_IMAGE_PAGES(0, 2) == 0 && HOURLOG_IMAGE_PAGES(1, 2) == 1);
    assert(HOURLOG_IMAGE_PAGES(4, 2) == 1 && HOURLOG_IMAGE_PAGES(5, 2) == 2);
    assert(HOURLOG_IMAGE_PAGES(65536, 8) == 256);
    assert(HOURLOG_IMAGE_LENGTH_MAX(0, 2) == 24);
    assert(HOURLOG_IMAGE_LENGTH_MAX(1, 2) == 46 && HOURLOG_IMAGE_LENGTH_MAX(1, 3) == 64 && HOURLOG_IMAGE_LENGTH_MAX(1, 4) == 98);
    assert(HOURLOG_IMAGE_LENGTH_MAX(256, 2) == 1416 && HOURLOG_IMAGE_LENGTH_MAX(256, 6) == 1159 && HOURLOG_IMAGE_LENGTH_MAX(256, 8) == 1148);
    assert(HOURLOG_IMAGE_LENGTH_MAX(65536, 2) == 356376);
    assert(HOURLOG_NARROW_LENGTH_MAX(0, 2) == 16);
    assert(HOURLOG_NARROW_LENGTH_MAX(1, 2) == 36 && HOURLOG_NARROW_LENGTH_MAX(1, 3) == 52);
    assert(HOURLOG_NARROW_LENGTH_MAX(1, 6) == 252 && HOURLOG_NARROW_LENGTH_MAX(1, 8) == 884);
    assert(HOURLOG_NARROW_LENGTH_MAX(65536, 2) == 327696);

    /* up to e = 6 by the cells, above it by the hours */
    assert(HOURLOG_FREEZE_LENGTH_MAX(1, 2, 6) == 84 && HOURLOG_FREEZE_LENGTH_MAX(1024, 1800, 2) == 185088);
    assert(HOURLOG_FREEZE_LENGTH_MAX(1, 2, 7) == 468 && HOURLOG_FREEZE_LENGTH_MAX(1024, 1800, 8) == 222096);
}

/* Words with all bits of a field set and its neighbours clear, and the reverse; what each field is in them. */
static inline void words(void)
{
    static const struct {
        int64_t word;
        uint32_t low_16, from_16, low_32, from_32;
        uint64_t low_40;
        uint32_t from_40;
    } all[] = {
        {0, 0, 0, 0, 0, 0, 0},
        {0xFFFF, 0xFFFF, 0, 0xFFFF, 0, 0xFFFF, 0},
        {0xFFFF0000, 0, 0xFFFF, 0xFFFF0000, 0, 0xFFFF0000, 0},
        {0xFFFFFFFF, 0xFFFF, 0xFFFF, 0xFFFFFFFF, 0, 0xFFFFFFFF, 0},
        {0xFFFFFFFFFF, 0xFFFF, 0xFFFF, 0xFFFFFFFF, 0xFF, 0xFFFFFFFFFF, 0},
        {0x7FFFFF0000000000, 0, 0, 0, 0x7FFFFF00, 0, 0x7FFFFF},
        {0x7FFFFFFF00000000, 0, 0, 0, 0x7FFFFFFF, 0xFF00000000, 0x7FFFFF},
        {0x7FFFFFFF0000FFFF, 0xFFFF, 0, 0xFFFF, 0x7FFFFFFF, 0xFF0000FFFF, 0x7FFFFF},
        {0x7FFFFFFFFFFF0000, 0, 0xFFFF, 0xFFFF0000, 0x7FFFFFFF, 0xFFFFFF0000, 0x7FFFFF},
        {0x0123456789ABCDEF, 0xCDEF, 0x89AB, 0x89ABCDEF, 0x01234567, 0x6789ABCDEF, 0x012345},
    };
    for (size_t k = 0; k < sizeof all / sizeof *all; k++) {
        const int64_t word = all[k].word;
        assert(hourlog_taken(word) == all[k].low_16 && hourlog_returned(word) == all[k].from_16);
        assert(hourlog_checked_total(word) == all[k].low_40 && hourlog_checked_hours(word) == all[k].from_40);
        assert(hourlog_busiest_sum(word) == all[k].low_40 && hourlog_busiest_first(word) == all[k].from_40);
        assert(hourlog_matched_first(word) == all[k].low_32 && hourlog_matched_hours(word) == all[k].from_32);
        assert(!hourlog_is_refused(word) && hourlog_refusal(word) == 0);
    }
}

static inline void refusals(void)
{
    static const struct {
        int name;
        const char *text;
    } all[] = {
        {0, "no refusal"},
        {HOURLOG_REFUSED_PAGE_SIZE, "e must be 2 to 8"},
        {HOURLOG_REFUSED_LIST, "more than 65,536 counts"},
        {HOURLOG_REFUSED_TOTAL, "total would pass its limit"},
        {HOURLOG_REFUSED_BUFFER, "buffer too short"},
        {HOURLOG_REFUSED_HEADER, "not an image"},
        {HOURLOG_REFUSED_BODY, "image is damaged"},
        {HOURLOG_REFUSED_HOUR, "hour not logged"},
        {HOURLOG_REFUSED_FIGURE, "figure not reached yet"},
        {HOURLOG_REFUSED_FRESH, "wrong size for a store"},
        {HOURLOG_REFUSED_UNSOUND, "store is not sound"},
        {HOURLOG_REFUSED_FULL, "log is full"},
        {HOURLOG_REFUSED_CELLS, "no cells left"},
        {HOURLOG_REFUSED_STRETCH, "not so many hours logged"},
        {HOURLOG_REFUSED_BOOK, "book is not packed decimal"},
        {HOURLOG_REFUSED_DIGITS, "a count needs more than four digits"},
        {HOURLOG_REFUSED_CHANGES, "list of changed days is wrong"},
        {HOURLOG_REFUSED_BAG, "bag holds no coins"},
        {HOURLOG_REFUSED_REPAIR, "store cannot be repaired"},
    };
    const int known = sizeof all / sizeof *all;
    for (int number = 0; number < known; number++) {
        assert(all[number].name == number);
        assert(strcmp(hourlog_refusal_text(number), all[number].text) == 0);
    }
    for (int number = 1; number < 1000; number++) {
        assert(hourlog_is_refused(-number) == 1 && hourlog_refusal(-number) == number);
        assert(hourlog_is_refused(number) == 0 && hourlog_refusal(number) == 0);
        assert(number < known || strcmp(hourlog_refusal_text(number), "unknown refusal") == 0);
    }
    assert(strcmp(hourlog_refusal_text(-1), "unknown refusal") == 0);
    assert(strcmp(hourlog_refusal_text(INT_MAX), "unknown refusal") == 0);
}

/* A store whose bytes are all the same, but for a part. */
static inline const uint8_t *only(size_t from, size_t length, uint8_t part, uint8_t other)
{
    static uint8_t bytes[HOURLOG_STORE_LENGTH(1024, 1)];
    memset(bytes, other, sizeof bytes);
    memset(bytes + from, part, length);
    return bytes;
}

/* Every number of the header, full where all else is zero and the reverse, and which of its bytes is the low one. */
static inline void header_of_a_store(void)
{
    static const uint8_t rising[] = {0x10, 0x21, 0x32, 0x43, 0x54, 0x65, 0x76, 0x87, 0x98, 0xA9, 0xBA, 0xCB, 0xDC, 0xED, 0xFE, 0x0F};
    assert(hourlog_two_bytes(rising + 1) == 0x3221 && hourlog_four_bytes(rising + 3) == 0x76655443);
    assert(hourlog_pages(rising) == 0x4332 && hourlog_cells(rising) == 0x6554 && hourlog_hours(rising) == 0x0FFEEDDC);

    assert(hourlog_pages(only(2, 2, 0xFF, 0)) == 0xFFFF && hourlog_pages(only(2, 2, 0, 0xFF)) == 0);
    assert(hourlog_cells(only(4, 2, 0xFF, 0)) == 0xFFFF && hourlog_cells(only(4, 2, 0, 0xFF)) == 0);
    assert(hourlog_hours(only(12, 4, 0xFF, 0)) == 0xFFFFFFFF && hourlog_hours(only(12, 4, 0, 0xFF)) == 0);
}

/* 1,024 pages: coins in none, in the last, and in all of them; a page's first cell is no coin. */
static inline void total_of_a_store(void)
{
    static const uint8_t sum[] = {0x78, 0x56, 0x34, 0x12};
    static uint8_t store[HOURLOG_STORE_LENGTH(1024, 1)];
    memset(store, 0xFF, sizeof store);
    store[2] = 0;
    store[3] = 4;
    for (size_t page = 0; page < 1024; page++) {
        memset(store + 16 + 6 * page, 0, 4);
    }
    assert(hourlog_total(store) == 0);
    memcpy(store + 16 + 6 * 1023, sum, sizeof sum);
    assert(hourlog_total(store) == 0x12345678);
    for (size_t page = 0; page < 1023; page++) {
        store[16 + 6 * page + 1] = 3;
    }
    assert(hourlog_total(store) == 0x12345678 + 1023 * 3 * 256);
}

static inline void header_words(void)
{
    limits();
    lengths();
    words();
    refusals();
    header_of_a_store();
    total_of_a_store();
}
