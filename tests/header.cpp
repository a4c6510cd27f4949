// The header as C++ sees it: it compiles, its constants are constants, its names
// link without C++'s mangling, its numbers and texts are those of header_words.h, and what
// it says of lengths, cells, NULL, the bytes of a store, those that a change writes and what a
// repair keeps is so of the library. The stores and the wide image that docs/FORMAT.md works out are so too.
#include "header_words.h"

#include <algorithm>
#include <cstdio>
#include <sys/mman.h>
#include <vector>

static_assert(HOURLOG_STORE_LENGTH(1, 2) == 86, "16 + 6 + 64");
static_assert(HOURLOG_STORE_LENGTH(HOURLOG_PAGES_MAX, HOURLOG_CELLS_MAX) == 63760,
              "the largest store");
static_assert(HOURLOG_IMAGE_LENGTH_MAX(5, 2) == 24 + 8 + 36, "two pages of 142 bits");
static_assert(HOURLOG_NARROW_LENGTH_MAX(5, 2) == 16 + 8 + 32, "two pages of 128 bits");
static_assert(HOURLOG_FREEZE_LENGTH_MAX(1, 2, 6) == 16 + 8 + 60, "one page of two cells");
static_assert(HOURLOG_FREEZE_LENGTH_MAX(4, 12, 8) == 16 + 4 + 864, "one page of 6,908 bits");

// How long the library says that the image of a list is.
static size_t image_length(const std::vector<uint32_t> &counts, uint32_t e)
{
    const int64_t length = hourlog_image_length(counts.data(), counts.size(), e);
    assert(!hourlog_is_refused(length));
    return static_cast<size_t>(length);
}

// One page that holds a store's greatest total is the longest page of its size in edition 1.
// In edition 2 pages of full hours are, where their roots have 40 bits: in 256 hours.
static void longest_images()
{
    const std::vector<uint32_t> one{HOURLOG_TOTAL_MAX}, full(256, UINT32_MAX);
    for (uint32_t e = HOURLOG_E_MIN; e <= HOURLOG_E_MAX; e++) {
        assert(image_length(one, e) == HOURLOG_NARROW_LENGTH_MAX(1, e));
        assert(image_length(full, e) == HOURLOG_IMAGE_LENGTH_MAX(256, e));
    }
}

// The header's table: the greatest sum of a page of 1, 2, .. 8 cells.
static const uint32_t most[] = {122,     1771,     25226,     353686,
                                4860066, 66043643, 954437176, HOURLOG_TOTAL_MAX};

static void cells_of_a_page()
{
    std::vector<uint8_t> store(HOURLOG_STORE_LENGTH(1, HOURLOG_CELLS_A_PAGE_MAX));
    uint32_t cells = 0;
    for (const uint32_t sum : most) {
        cells++;
        assert(hourlog_fresh(store.data(), store.size(), 1, HOURLOG_CELLS_A_PAGE_MAX) == 0);
        assert(hourlog_taken(hourlog_append(store.data(), store.size(), sum)) == cells);
        assert(sum == HOURLOG_TOTAL_MAX ||
               hourlog_taken(hourlog_set(store.data(), store.size(), 0, sum + 1)) == 1);
    }
    assert(cells == HOURLOG_CELLS_A_PAGE_MAX);
}

// The image of a store fits the buffer that the header measures, for every e.
static void freezes(const std::vector<uint8_t> &store)
{
    const uint32_t pages = hourlog_pages(store.data()), cells = hourlog_cells(store.data());
    for (uint32_t e = HOURLOG_E_MIN; e <= HOURLOG_E_MAX; e++) {
        std::vector<uint8_t> image(HOURLOG_FREEZE_LENGTH_MAX(pages, cells, e));
        const int64_t length =
            hourlog_freeze(store.data(), store.size(), e, image.data(), image.size());
        assert(length > 0);
    }
}

// As many hours as a store takes, of which hour i is to have counts(i) coins: an hour
// that is refused has none.
template <typename Counts>
static std::vector<uint8_t> filled(uint32_t pages, uint32_t cells, Counts counts)
{
    std::vector<uint8_t> store(HOURLOG_STORE_LENGTH(pages, cells));
    assert(hourlog_fresh(store.data(), store.size(), pages, cells) == 0);
    for (uint32_t hour = 0; hour < pages * HOURLOG_HOURS_A_PAGE; hour++) {
        if (hourlog_append(store.data(), store.size(), counts(hour)) < 0) {
            assert(hourlog_append(store.data(), store.size(), 0) == 0);
        }
    }
    return store;
}

// Stores that make long images: each hour dearer than the one before; and in every page,
// every second, .. eighth one the most coins that 1 to 8 cells hold, in its first hour, or
// shared out over its hours.
static void freezing_fits()
{
    for (uint32_t pages = 1; pages <= 9; pages += 2) {
        for (uint32_t cells = 1; cells <= pages * HOURLOG_CELLS_A_PAGE_MAX; cells += 1 + cells / 8) {
            uint32_t dearer = 1;
            freezes(filled(pages, cells, [&](uint32_t) { return dearer += 1 + dearer / 16; }));
            for (uint32_t step = 1; step <= 8; step *= 2) {
                for (const uint32_t sum : most) {
                    freezes(filled(pages, cells, [=](uint32_t hour) {
                        return hour % (64 * step) == 0 ? sum : 0;
                    }));
                    freezes(filled(pages, cells, [=](uint32_t hour) {
                        return hour / 64 % step == 0 ? sum / 64 : 0;
                    }));
                }
            }
        }
    }
}

// For e of 7 and 8, where no store page holds the image's, no fewer bytes would do.
static void freezing_needs_it()
{
    for (uint32_t e = 7; e <= HOURLOG_E_MAX; e++) {
        const uint32_t pages = 1u << (e - 6);
        std::vector<uint8_t> store(HOURLOG_STORE_LENGTH(pages, 8));
        assert(hourlog_fresh(store.data(), store.size(), pages, 8) == 0);
        assert(hourlog_taken(hourlog_append(store.data(), store.size(), HOURLOG_TOTAL_MAX)) == 8);
        std::vector<uint8_t> image(HOURLOG_FREEZE_LENGTH_MAX(pages, 8, e));
        assert(hourlog_freeze(store.data(), store.size(), e, image.data(), image.size() - 1) ==
               -HOURLOG_REFUSED_BUFFER);
        assert(static_cast<size_t>(hourlog_freeze(store.data(), store.size(), e, image.data(),
                                                  image.size())) == image.size());
    }
}

// P, C, N and the total as the store lays them out and as the calls count.
static void bytes_of_a_store()
{
    std::vector<uint8_t> store(HOURLOG_STORE_LENGTH(5, 10));
    assert(hourlog_fresh(store.data(), store.size(), 5, 10) == 0);
    assert(store[0] == HOURLOG_STORE_EDITION);
    assert(hourlog_pages(store.data()) == 5 && hourlog_cells(store.data()) == 10);
    uint32_t hours = 0, total = 0;
    do {
        assert(hourlog_hours(store.data()) == hours && hourlog_total(store.data()) == total);
        assert(hourlog_reading(store.data(), store.size(), hours) == total);
        total += hours % 5;
        hours++;
    } while (!hourlog_is_refused(hourlog_append(store.data(), store.size(), (hours - 1) % 5)));
    assert(hourlog_hours(store.data()) == 5 * HOURLOG_HOURS_A_PAGE);
}

// docs/FORMAT.md's store of two pages and two cells, counts 3, 0, 5.
static void worked_store()
{
    std::vector<uint8_t> expected{1, 0, 2, 0, 2, 0, 2, 0, 1, 0, 0, 0, 3, 0, 0, 0,
                                  8, 0, 0, 0, 1, 0, 0, 0, 0, 0, 0, 0,
                                  0, 0, 0x88, 0x88, 0x3E, 0x80};
    expected.resize(HOURLOG_STORE_LENGTH(2, 2));
    std::vector<uint8_t> store(expected.size());
    assert(hourlog_fresh(store.data(), store.size(), 2, 2) == 0);
    for (const uint32_t count : {3u, 0u, 5u}) {
        assert(!hourlog_is_refused(hourlog_append(store.data(), store.size(), count)));
    }
    assert(store == expected);
}

// The cells of a chain, from the number of its first one that stands at an address.
static std::vector<uint32_t> chain(const std::vector<uint8_t> &store, size_t first)
{
    const size_t cells = HOURLOG_STORE_LENGTH(hourlog_pages(store.data()), 0);
    std::vector<uint32_t> numbers;
    uint32_t next = hourlog_two_bytes(&store[first]);
    while (next != 0) {
        numbers.push_back(next);
        next = hourlog_two_bytes(&store[cells + 32 * (next - 1)]);
    }
    return numbers;
}

// docs/FORMAT.md's table of chains: the order in which cells are taken and given back.
static void worked_chains()
{
    std::vector<uint8_t> store(HOURLOG_STORE_LENGTH(2, 4));
    const auto chains = [&](const std::vector<uint32_t> &page_0, const std::vector<uint32_t> &page_1,
                            const std::vector<uint32_t> &free) {
        assert(chain(store, 20) == page_0 && chain(store, 26) == page_1 && chain(store, 6) == free);
    };
    assert(hourlog_fresh(store.data(), store.size(), 2, 4) == 0);
    chains({}, {}, {1, 2, 3, 4});
    assert(hourlog_taken(hourlog_append(store.data(), store.size(), 123)) == 2);
    chains({1, 2}, {}, {3, 4});
    for (uint32_t hour = 1; hour < 64; hour++) {
        assert(hourlog_append(store.data(), store.size(), 0) == 0);
    }
    assert(hourlog_taken(hourlog_append(store.data(), store.size(), 1)) == 1);
    chains({1, 2}, {3}, {4});
    assert(hourlog_taken(hourlog_set(store.data(), store.size(), 0, 1772)) == 1);
    chains({1, 2, 4}, {3}, {});
    assert(hourlog_returned(hourlog_set(store.data(), store.size(), 0, 5)) == 2);
    chains({1}, {3}, {2, 4});
    assert(hourlog_returned(hourlog_strike(store.data(), store.size(), 1)) == 1);
    chains({1}, {}, {3, 2, 4});
    assert(hourlog_taken(hourlog_insert(store.data(), store.size(), 0, 200)) == 2);
    chains({1, 3}, {2}, {4});
}

// Every byte that differs is among those that the header names for an append or a set in a
// page: the entry and the cells that the page has or had where its sum is another, bytes 6
// to 9 where cells are taken or given back, and N.  How many they are.
static size_t bytes_changed(const std::vector<uint8_t> &before, const std::vector<uint8_t> &after, uint32_t page)
{
    const size_t entry = 16 + 6 * page, cells = HOURLOG_STORE_LENGTH(hourlog_pages(after.data()), 0);
    const std::vector<uint32_t> had = chain(before, entry + 4), has = chain(after, entry + 4);
    std::vector<bool> named(after.size());
    const auto name = [&](size_t from, size_t length) {
        for (size_t k = from; k < from + length; k++) {
            named[k] = true;
        }
    };
    if (hourlog_hours(before.data()) != hourlog_hours(after.data())) {
        name(12, 4);
    }
    if (hourlog_four_bytes(&before[entry]) != hourlog_four_bytes(&after[entry])) {
        name(entry, 6);
        for (const auto &page_cells : {had, has}) {
            for (const uint32_t cell : page_cells) {
                name(cells + 32 * (cell - 1), 32);
            }
        }
    }
    if (had.size() != has.size()) {
        name(6, 4);
    }
    size_t changed = 0;
    for (size_t k = 0; k < after.size(); k++) {
        assert(before[k] == after[k] || named[k]);
        changed += named[k];
    }
    return changed;
}

// Hours from none to many coins, and cells that go to and fro between three pages.
static void bytes_of_a_change()
{
    std::vector<uint8_t> store(HOURLOG_STORE_LENGTH(3, 24));
    assert(hourlog_fresh(store.data(), store.size(), 3, 24) == 0);
    size_t most_changed = 0;
    for (uint32_t hour = 0; hour < 3 * HOURLOG_HOURS_A_PAGE; hour++) {
        const uint32_t count = hour % 3 == 0 ? 0 : 1u << (hour * 7 % 25);
        std::vector<uint8_t> before = store;
        assert(!hourlog_is_refused(hourlog_append(store.data(), store.size(), count)));
        assert(bytes_changed(before, store, hour / 64) <= 270);
        before = store;
        assert(!hourlog_is_refused(hourlog_set(store.data(), store.size(), hour / 2, count / 1000)));
        most_changed = std::max(most_changed, bytes_changed(before, store, hour / 128));
    }
    assert(most_changed > 32);
    std::vector<uint8_t> one(HOURLOG_STORE_LENGTH(1, 8)), none;
    assert(hourlog_fresh(one.data(), one.size(), 1, 8) == 0);
    none = one;
    assert(hourlog_append(one.data(), one.size(), 0) == 0 && bytes_changed(none, one, 0) == 4);
    none = one;
    assert(hourlog_append(one.data(), one.size(), HOURLOG_TOTAL_MAX) == 8 && bytes_changed(none, one, 0) == 270);
}

// A store of three full pages of which the middle one is damaged: it alone is listed and reads 0, N stays, and the log goes on. A sound
// store keeps its counts, and has its free chain sorted.
static void repaired_store()
{
    std::vector<uint8_t> store = filled(3, 9, [](uint32_t hour) { return hour % 3; });
    const std::vector<uint8_t> sound = store;
    std::vector<uint32_t> lost(HOURLOG_PAGES_MAX, 77);
    const std::vector<uint32_t> unwritten = lost;
    const auto repair = [&](uint64_t n) { return hourlog_repair(store.data(), store.size(), lost.data(), n); };
    assert(repair(3) == 0 && store == sound && lost == unwritten);
    store[22] ^= 0x80;
    assert(hourlog_free(store.data(), store.size()) == -HOURLOG_REFUSED_UNSOUND);
    assert(repair(lost.size()) == 1 && lost[0] == 1);
    assert(std::vector<uint32_t>(lost.begin() + 1, lost.end()) == std::vector<uint32_t>(lost.size() - 1, 77));
    assert(hourlog_hours(store.data()) == 192 && hourlog_free(store.data(), store.size()) == 7);
    for (uint32_t hour = 0; hour < 192; hour++) {
        assert(hourlog_count(store.data(), store.size(), hour) == (hour / 64 == 1 ? 0 : hour % 3));
    }
    assert(hourlog_taken(hourlog_set(store.data(), store.size(), 64, 5)) == 1 && chain(store, 26) == std::vector<uint32_t>{2});
    assert(hourlog_returned(hourlog_set(store.data(), store.size(), 64, 0)) == 1 && repair(3) == 0);
    assert(chain(store, 6) == (std::vector<uint32_t>{2, 4, 5, 6, 7, 8, 9}));
}

// Each cause of 18 alone, of a store that repair takes; nothing changes.
static void not_repaired()
{
    const std::vector<uint8_t> sound = filled(3, 9, [](uint32_t) { return 1u; });
    std::vector<uint32_t> lost(3, 77);
    for (const auto &wrong : {std::make_pair(0, 2), {1, 1}, {2, 2}, {3, 1}, {4, 8}, {5, 1}, {10, 1}, {11, 1}, {12, 193}, {13, 1}, {14, 1}, {15, 1}}) {
        std::vector<uint8_t> store = sound;
        store[static_cast<size_t>(wrong.first)] = static_cast<uint8_t>(wrong.second);
        const std::vector<uint8_t> before = store;
        assert(hourlog_repair(store.data(), store.size(), lost.data(), 3) == -HOURLOG_REFUSED_REPAIR && store == before);
    }
    std::vector<uint8_t> store = sound;
    store.push_back(0);
    assert(hourlog_repair(store.data(), store.size(), lost.data(), 3) == -HOURLOG_REFUSED_REPAIR);
    assert(hourlog_repair(store.data(), store.size() - 2, lost.data(), 3) == -HOURLOG_REFUSED_REPAIR);
    assert(hourlog_repair(store.data(), store.size() - 1, lost.data(), 2) == -HOURLOG_REFUSED_REPAIR);
    assert(hourlog_repair(store.data(), store.size() - 1, lost.data(), 3) == 0 && lost == std::vector<uint32_t>(3, 77));
}

// docs/FORMAT.md's image of edition 2: e = 2, counts 4,294,967,295, 0, 2, 0, 5.
static void worked_wide_image()
{
    const std::vector<uint8_t> expected{2,    2, 0, 0, 5,    0,    0,    0,    6,    0,    0,    0,    1,    0, 0, 0,
                                        0xAA, 0, 0, 0, 0,    0,    0,    0,    0,    0,    0,    0,    0x82, 0, 0, 0,
                                        0x80, 0, 0, 0, 0xBF, 0xFF, 0xFF, 0xFF, 0xFF, 0xFF, 0xFF, 0xFF, 0xE0, 0, 0, 0,
                                        0x20, 0, 0, 0, 0xD6, 0x80};
    const std::vector<uint32_t> counts{UINT32_MAX, 0, 2, 0, 5};
    std::vector<uint8_t> image(expected.size());
    assert(static_cast<size_t>(hourlog_image_write(counts.data(), 5, 2, image.data(), image.size())) == image.size());
    assert(image == expected && image[0] == HOURLOG_IMAGE_EDITION_WIDE);
}

// The greatest total that an image has is read whole; with one coin more there is no image.
static void greatest_image()
{
    std::vector<uint32_t> counts(257, UINT32_MAX);
    counts[256] = 255;
    std::vector<uint8_t> image(HOURLOG_IMAGE_LENGTH_MAX(257, 6));
    const int64_t length = hourlog_image_write(counts.data(), 257, 6, image.data(), image.size());
    const size_t len = static_cast<size_t>(length);
    assert(!hourlog_is_refused(length) && image[0] == HOURLOG_IMAGE_EDITION_WIDE);
    const int64_t checked = hourlog_image_check(image.data(), len);
    assert(hourlog_checked_total(checked) == HOURLOG_IMAGE_TOTAL_MAX && hourlog_checked_hours(checked) == 257);
    assert(hourlog_image_reading(image.data(), len, 257) == static_cast<int64_t>(HOURLOG_IMAGE_TOTAL_MAX));
    assert(hourlog_image_reach(image.data(), len, HOURLOG_IMAGE_TOTAL_MAX) == 257);
    const int64_t busiest = hourlog_image_busiest(image.data(), len, 256);
    assert(hourlog_busiest_sum(busiest) == HOURLOG_IMAGE_TOTAL_MAX - 255 && hourlog_busiest_first(busiest) == 0);
    const int64_t bag = hourlog_image_match(image.data(), len, HOURLOG_IMAGE_TOTAL_MAX);
    assert(hourlog_matched_first(bag) == 0 && hourlog_matched_hours(bag) == 257);
    counts[256]++;
    assert(hourlog_image_length(counts.data(), 257, 6) == -HOURLOG_REFUSED_TOTAL);
    assert(hourlog_image_write(counts.data(), 257, 6, nullptr, 0) == -HOURLOG_REFUSED_TOTAL);
}

// docs/FORMAT.md's book of three hours, 10, 1234 and 9999 coins, over and back; a buffer of a byte
// less is refused, and so is a count of one coin more.
static void worked_book()
{
    static_assert(HOURLOG_BOOK_LENGTH(3) == 6, "two bytes an hour");
    const std::vector<uint8_t> book{0x00, 0x10, 0x12, 0x34, 0x99, 0x99};
    std::vector<uint32_t> counts{10, 1234, HOURLOG_BOOK_COUNT_MAX};
    std::vector<uint8_t> image(HOURLOG_IMAGE_LENGTH_MAX(3, 2)), written(image.size()), back(book.size());
    const int64_t length = hourlog_image_from_bcd(book.data(), book.size(), 2, image.data(), image.size());
    assert(!hourlog_is_refused(length));
    assert(hourlog_image_write(counts.data(), counts.size(), 2, written.data(), written.size()) == length);
    assert(image == written);
    const auto bytes = static_cast<size_t>(length);
    assert(hourlog_image_to_bcd(image.data(), bytes, back.data(), back.size()) == 6 && back == book);
    assert(hourlog_image_to_bcd(image.data(), bytes, back.data(), 5) == -HOURLOG_REFUSED_BUFFER);
    assert(hourlog_image_from_bcd(book.data(), 5, 2, image.data(), bytes) == -HOURLOG_REFUSED_BOOK);
    counts[2]++;
    const int64_t wide = hourlog_image_write(counts.data(), counts.size(), 2, image.data(), image.size());
    assert(hourlog_image_to_bcd(image.data(), static_cast<size_t>(wide), nullptr, 0) == -HOURLOG_REFUSED_DIGITS);
}

// The image of a list.
static std::vector<uint8_t> image_of(const std::vector<uint32_t> &counts, uint32_t e)
{
    std::vector<uint8_t> image(image_length(counts, e));
    assert(hourlog_image_write(counts.data(), counts.size(), e, image.data(), image.size()) == static_cast<int64_t>(image.size()));
    return image;
}

// What a merge of two images answers, into a buffer of this length.
static int64_t merge(const std::vector<uint8_t> &first, const std::vector<uint8_t> &second, uint32_t e, std::vector<uint8_t> &image)
{
    return hourlog_image_merge(first.data(), first.size(), second.data(), second.size(), e, image.data(), image.size());
}

// Two doors: the sums, the longer log's hours, the later bytes; the same bytes lent as both; each refusal before the next.
static void two_doors()
{
    const std::vector<uint8_t> first = image_of({1, 0, 2, 0, 5}, 2), second = image_of({3, 4}, 8), sums = image_of({4, 4, 2, 0, 5}, 3);
    std::vector<uint8_t> image(HOURLOG_NARROW_LENGTH_MAX(5, 3), 0x5A), none;
    assert(merge(first, second, 3, image) == static_cast<int64_t>(sums.size()));
    assert(std::vector<uint8_t>(image.begin(), image.begin() + static_cast<std::ptrdiff_t>(sums.size())) == sums);
    for (size_t k = sums.size(); k < image.size(); k++) {
        assert(image[k] == 0x5A);
    }
    const std::vector<uint8_t> twice = image_of({2, 0, 4, 0, 10}, 2);
    std::vector<uint8_t> doubled(twice.size());
    assert(merge(first, first, 2, doubled) == static_cast<int64_t>(twice.size()) && doubled == twice);

    std::vector<uint8_t> five = first, six = first;
    five[0] = 3;
    six[8] ^= 1;
    const std::vector<uint8_t> full = image_of({UINT32_MAX}, 2), one = image_of({1}, 2);
    assert(merge(five, second, HOURLOG_E_MAX + 1, none) == -HOURLOG_REFUSED_PAGE_SIZE);
    assert(merge(five, six, 2, none) == -HOURLOG_REFUSED_HEADER && merge(six, five, 2, none) == -HOURLOG_REFUSED_BODY);
    assert(merge(full, five, 2, none) == -HOURLOG_REFUSED_HEADER && merge(full, six, 2, none) == -HOURLOG_REFUSED_BODY);
    assert(merge(full, one, 2, none) == -HOURLOG_REFUSED_TOTAL);
    image.resize(sums.size() - 1);
    assert(merge(first, second, 3, image) == -HOURLOG_REFUSED_BUFFER);
}

// The figures for a merge's buffer suffice, and no less does where all hours are full.
static void merging_fits()
{
    const std::vector<uint32_t> low(256, UINT32_MAX / 2), high(256, UINT32_MAX / 2 + 1), one{HOURLOG_TOTAL_MAX}, some{0, 0};
    for (uint32_t e = HOURLOG_E_MIN; e <= HOURLOG_E_MAX; e++) {
        std::vector<uint8_t> wide(HOURLOG_IMAGE_LENGTH_MAX(256, e)), narrow(HOURLOG_NARROW_LENGTH_MAX(2, e));
        assert(merge(image_of(low, 6), image_of(high, 2), e, wide) == static_cast<int64_t>(wide.size()));
        assert(wide[0] == HOURLOG_IMAGE_EDITION_WIDE);
        assert(merge(image_of(one, 6), image_of(some, 2), e, narrow) == static_cast<int64_t>(narrow.size()));
        assert(narrow[0] == HOURLOG_IMAGE_EDITION);
    }
}

// With length 0 a pointer is not followed and may be NULL, in every call that takes one.
static void null_with_length_0()
{
    assert(hourlog_fresh(nullptr, 0, 1, 2) == -HOURLOG_REFUSED_FRESH);
    assert(hourlog_append(nullptr, 0, 1) == -HOURLOG_REFUSED_UNSOUND);
    assert(hourlog_set(nullptr, 0, 0, 1) == -HOURLOG_REFUSED_UNSOUND);
    assert(hourlog_insert(nullptr, 0, 0, 1) == -HOURLOG_REFUSED_UNSOUND);
    assert(hourlog_strike(nullptr, 0, 0) == -HOURLOG_REFUSED_UNSOUND);
    assert(hourlog_count(nullptr, 0, 0) == -HOURLOG_REFUSED_UNSOUND);
    assert(hourlog_reading(nullptr, 0, 0) == -HOURLOG_REFUSED_UNSOUND);
    assert(hourlog_reach(nullptr, 0, 0) == -HOURLOG_REFUSED_UNSOUND);
    assert(hourlog_day(nullptr, 0, 0, nullptr, 0) == -HOURLOG_REFUSED_UNSOUND);
    assert(hourlog_free(nullptr, 0) == -HOURLOG_REFUSED_UNSOUND);
    assert(hourlog_repair(nullptr, 0, nullptr, 0) == -HOURLOG_REFUSED_REPAIR);
    assert(hourlog_image_check(nullptr, 0) == -HOURLOG_REFUSED_HEADER);
    assert(hourlog_image_count(nullptr, 0, 0) == -HOURLOG_REFUSED_HEADER);
    assert(hourlog_image_reading(nullptr, 0, 0) == -HOURLOG_REFUSED_HEADER);
    assert(hourlog_image_reach(nullptr, 0, 0) == -HOURLOG_REFUSED_HEADER);
    assert(hourlog_image_busiest(nullptr, 0, 0) == -HOURLOG_REFUSED_HEADER);
    assert(hourlog_image_match(nullptr, 0, 0) == -HOURLOG_REFUSED_HEADER);
    assert(hourlog_image_to_bcd(nullptr, 0, nullptr, 0) == -HOURLOG_REFUSED_HEADER);
    assert(hourlog_image_merge(nullptr, 0, nullptr, 0, 2, nullptr, 0) == -HOURLOG_REFUSED_HEADER);

    // The calls with several buffers, any of them NULL and all. An image of no hours is its header.
    std::vector<uint8_t> store(HOURLOG_STORE_LENGTH(1, 2));
    assert(hourlog_fresh(store.data(), store.size(), 1, 2) == 0);
    assert(hourlog_day(store.data(), store.size(), 0, nullptr, 0) == -HOURLOG_REFUSED_HOUR);
    assert(hourlog_repair(store.data(), store.size(), nullptr, 0) == -HOURLOG_REFUSED_REPAIR);
    const std::vector<uint32_t> counts{1, 0, 2, 0, 5};
    for (uint32_t e = HOURLOG_E_MIN; e <= HOURLOG_E_MAX; e++) {
        std::vector<uint8_t> image(16);
        assert(hourlog_freeze(nullptr, 0, e, image.data(), 16) == -HOURLOG_REFUSED_UNSOUND);
        assert(hourlog_freeze(nullptr, 0, e, nullptr, 0) == -HOURLOG_REFUSED_UNSOUND);
        assert(hourlog_freeze(store.data(), store.size(), e, nullptr, 0) == -HOURLOG_REFUSED_BUFFER);
        assert(hourlog_image_length(nullptr, 0, e) == 16);
        assert(hourlog_image_write(nullptr, 0, e, image.data(), 16) == 16);
        assert(hourlog_image_check(image.data(), 16) == 0);
        assert(hourlog_image_from_bcd(nullptr, 0, e, image.data(), 16) == 16);
        assert(hourlog_image_from_bcd(nullptr, 0, e, nullptr, 0) == -HOURLOG_REFUSED_BUFFER);
        assert(hourlog_image_to_bcd(image.data(), 16, nullptr, 0) == 0);
        assert(hourlog_image_merge(image.data(), 16, nullptr, 0, e, nullptr, 0) == -HOURLOG_REFUSED_HEADER);
        assert(hourlog_image_merge(image.data(), 16, image.data(), 16, e, nullptr, 0) == -HOURLOG_REFUSED_BUFFER);
        assert(hourlog_image_write(nullptr, 0, e, nullptr, 0) == -HOURLOG_REFUSED_BUFFER);
        assert(hourlog_image_write(counts.data(), counts.size(), e, nullptr, 0) ==
               -HOURLOG_REFUSED_BUFFER);
    }
}

// A length is 64 bits wide: one whose low 32 bits alone would be good is refused. So much
// memory is mapped, and hardly any of it used.
static void lengths_above_32_bits()
{
    const size_t more = static_cast<size_t>(1) << 32;
    void *const memory = mmap(nullptr, 5 * more, PROT_READ | PROT_WRITE, MAP_PRIVATE | MAP_ANONYMOUS | MAP_NORESERVE, -1, 0);
    assert(memory != MAP_FAILED);
    uint8_t *const bytes = static_cast<uint8_t *>(memory);
    const uint32_t *const counts = static_cast<const uint32_t *>(memory);
    const size_t store = HOURLOG_STORE_LENGTH(1, 2);
    assert(hourlog_fresh(bytes, store + more, 1, 2) == -HOURLOG_REFUSED_FRESH);
    assert(hourlog_fresh(bytes, store, 1, 2) == 0 && hourlog_free(bytes, store) == 2);
    assert(hourlog_free(bytes, store + more) == -HOURLOG_REFUSED_UNSOUND);
    assert(hourlog_append(bytes, store + more, 1) == -HOURLOG_REFUSED_UNSOUND);
    uint32_t *const lost = static_cast<uint32_t *>(memory) + 64;
    assert(hourlog_repair(bytes, store + more, lost, 1) == -HOURLOG_REFUSED_REPAIR);
    assert(hourlog_repair(bytes, store, lost, more) == 0);
    assert(hourlog_image_length(counts, more, 2) == -HOURLOG_REFUSED_LIST);
    assert(hourlog_image_write(counts, more, 2, nullptr, 0) == -HOURLOG_REFUSED_LIST);
    assert(hourlog_image_write(nullptr, 0, 2, bytes, 16 + more) == 16);
    assert(hourlog_image_check(bytes, 16) == 0);
    assert(hourlog_image_check(bytes, 16 + more) == -HOURLOG_REFUSED_HEADER);
    assert(hourlog_image_reading(bytes, 16 + more, 0) == -HOURLOG_REFUSED_HEADER);
    assert(hourlog_image_merge(bytes, 16 + more, bytes, 16, 2, nullptr, 0) == -HOURLOG_REFUSED_HEADER);
    assert(hourlog_image_merge(bytes, 16, bytes, 16 + more, 2, nullptr, 0) == -HOURLOG_REFUSED_HEADER);
    assert(hourlog_image_merge(bytes, 16, bytes, 16, 2, bytes + 16, 16 + more) == 16);
    assert(munmap(memory, 5 * more) == 0);
}

// What a pair is taken apart into: the busiest two hours, first hour and sum; a bag's first hour and hours.
static void pairs_of_images()
{
    const std::vector<uint32_t> counts{1, 0, HOURLOG_TOTAL_MAX - 9, 3, 5};
    std::vector<uint8_t> image(HOURLOG_IMAGE_LENGTH_MAX(5, 2));
    const int64_t length = hourlog_image_write(counts.data(), 5, 2, image.data(), image.size());
    const int64_t busiest = hourlog_image_busiest(image.data(), static_cast<size_t>(length), 2);
    assert(hourlog_busiest_first(busiest) == 2 && hourlog_busiest_sum(busiest) == HOURLOG_TOTAL_MAX - 6);
    assert(hourlog_refusal(hourlog_image_busiest(image.data(), static_cast<size_t>(length), 6)) ==
           HOURLOG_REFUSED_STRETCH);
    const int64_t bag = hourlog_image_match(image.data(), static_cast<size_t>(length), 8);
    assert(hourlog_matched_first(bag) == 3 && hourlog_matched_hours(bag) == 2);
    assert(hourlog_matched_hours(hourlog_image_match(image.data(), static_cast<size_t>(length), 7)) == 0);
    assert(hourlog_refusal(hourlog_image_match(image.data(), static_cast<size_t>(length), 0)) ==
           HOURLOG_REFUSED_BAG);
}

int main()
{
    header_words();
    pairs_of_images();
    longest_images();
    cells_of_a_page();
    freezing_fits();
    freezing_needs_it();
    bytes_of_a_store();
    worked_store();
    worked_chains();
    bytes_of_a_change();
    repaired_store();
    not_repaired();
    worked_wide_image();
    greatest_image();
    worked_book();
    two_doors();
    merging_fits();
    null_with_length_0();
    lengths_above_32_bits();
    std::vector<uint8_t> store(HOURLOG_STORE_LENGTH(1, 2));
    assert(hourlog_fresh(store.data(), store.size(), 1, 2) == 0);

    const int64_t grown = hourlog_append(store.data(), store.size(), 123);
    assert(!hourlog_is_refused(grown) && hourlog_refusal(grown) == 0);
    assert(hourlog_taken(grown) == 2 && hourlog_returned(grown) == 0);

    const int64_t shrunk = hourlog_set(store.data(), store.size(), 0, 122);
    assert(hourlog_taken(shrunk) == 0 && hourlog_returned(shrunk) == 1);

    const int64_t inserted = hourlog_insert(store.data(), store.size(), 0, 1);
    assert(hourlog_taken(inserted) == 1 && hourlog_returned(inserted) == 0);

    const int64_t struck = hourlog_strike(store.data(), store.size(), 0);
    assert(hourlog_taken(struck) == 0 && hourlog_returned(struck) == 1);

    const int64_t refused = hourlog_count(store.data(), store.size(), 1);
    assert(hourlog_is_refused(refused) && hourlog_refusal(refused) == HOURLOG_REFUSED_HOUR);

    std::vector<uint8_t> image(HOURLOG_IMAGE_LENGTH_MAX(1, 2));
    const int64_t length =
        hourlog_freeze(store.data(), store.size(), 2, image.data(), image.size());
    assert(length > 0 && static_cast<size_t>(length) <= image.size());
    const int64_t checked = hourlog_image_check(image.data(), static_cast<size_t>(length));
    assert(hourlog_checked_hours(checked) == 1 && hourlog_checked_total(checked) == 122);
    assert(image[0] == HOURLOG_IMAGE_EDITION);

    std::puts("header as C++: good");
    return 0;
}
