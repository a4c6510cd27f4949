/*
 * book.c - an old credit book turned into an image, and back.
 *
 * usage: book in BOOK-FILE E IMAGE-FILE     the image of a book, pages of 2^E hours
 *        book out IMAGE-FILE BOOK-FILE      the book of an image
 *
 * Restored boards come in with their books in packed decimal: two bytes an hour,
 * four digits, the high digit first.  Nothing is written where a call is refused.
 * It compiles as C99 and as C++.
 */
#include "hourlog.h"

#include <stdio.h>
#include <stdlib.h>
#include <string.h>

/* The longest book, and an hour more, so that one that is too long is refused;
 * the longest image of all, at the smallest pages. */
static uint8_t book[HOURLOG_BOOK_LENGTH(HOURLOG_IMAGE_HOURS_MAX + 1)];
static uint8_t image[HOURLOG_IMAGE_LENGTH_MAX(HOURLOG_IMAGE_HOURS_MAX, HOURLOG_E_MIN)];

static void fail(const char *what, const char *path)
{
    fprintf(stderr, "book: %s %s\n", path, what);
    exit(EXIT_FAILURE);
}

static size_t read_file(const char *path, uint8_t *bytes, size_t room)
{
    FILE *file = fopen(path, "rb");
    if (file == NULL) {
        fail("cannot be read", path);
    }
    size_t length = fread(bytes, 1, room, file);
    if (ferror(file) || fgetc(file) != EOF) {
        fail("cannot be read, or is too long", path);
    }
    fclose(file);
    return length;
}

static void write_file(const char *path, const uint8_t *bytes, size_t length)
{
    FILE *file = fopen(path, "wb");
    if (file == NULL || fwrite(bytes, 1, length, file) != length || fclose(file) != 0) {
        fail("cannot be written", path);
    }
}

/* The bytes that a call wrote; says why if there are none. */
static size_t written(int64_t answer)
{
    if (hourlog_is_refused(answer)) {
        int number = hourlog_refusal(answer);
        printf("refused %d: %s\n", number, hourlog_refusal_text(number));
        exit(EXIT_FAILURE);
    }
    return (size_t)answer;
}

static void come_in(const char *from, uint32_t e, const char *to)
{
    size_t length = read_file(from, book, sizeof book);
    size_t bytes = written(hourlog_image_from_bcd(book, length, e, image, sizeof image));
    int64_t checked = hourlog_image_check(image, bytes);
    write_file(to, image, bytes);
    printf("%lu hours, %llu coins: an image of %lu bytes\n", (unsigned long)hourlog_checked_hours(checked),
           (unsigned long long)hourlog_checked_total(checked), (unsigned long)bytes);
}

static void go_out(const char *from, const char *to)
{
    size_t length = read_file(from, image, sizeof image);
    size_t bytes = written(hourlog_image_to_bcd(image, length, book, sizeof book));
    write_file(to, book, bytes);
    printf("a book of %lu bytes\n", (unsigned long)bytes);
}

int main(int argc, char **argv)
{
    if (argc == 5 && strcmp(argv[1], "in") == 0) {
        come_in(argv[2], (uint32_t)strtoul(argv[3], NULL, 10), argv[4]);
    } else if (argc == 4 && strcmp(argv[1], "out") == 0) {
        go_out(argv[2], argv[3]);
    } else {
        fprintf(stderr, "usage: book in BOOK-FILE E IMAGE-FILE, or book out IMAGE-FILE BOOK-FILE\n");
        return EXIT_FAILURE;
    }
    return EXIT_SUCCESS;
}
