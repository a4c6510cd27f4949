/*
 * tiny.c - the little of C's library that the programs here use, for emulated
 * boards for which none is at hand.  There is one file, in memory, whatever its
 * path.  A firmware engineer's own C library takes its place.
 */
#include <stdarg.h>
#include <stdint.h>
#include <stdio.h>
#include <stdlib.h>
#include <string.h>

/* What a board gives: where text goes, and how a program ends. */
void tiny_write(const char *text, size_t length);
_Noreturn void tiny_exit(int status);

/* ---- what the library itself needs -------------------------------------- */

void *memcpy(void *to, const void *from, size_t n)
{
    for (size_t k = 0; k < n; k++) {
        ((uint8_t *)to)[k] = ((const uint8_t *)from)[k];
    }
    return to;
}

void *memset(void *to, int byte, size_t n)
{
    for (size_t k = 0; k < n; k++) {
        ((uint8_t *)to)[k] = (uint8_t)byte;
    }
    return to;
}

#if defined(__riscv) && __riscv_xlen == 32
/* Division of 64 bits, which libgcc would have. */
uint64_t __udivdi3(uint64_t a, uint64_t b)
{
    uint64_t quotient = 0, rest = 0;
    for (int k = 63; k >= 0; k--) {
        rest = rest << 1 | (a >> k & 1);
        if (rest >= b) {
            rest -= b;
            quotient |= (uint64_t)1 << k;
        }
    }
    return quotient;
}
#endif

/* ---- text ---------------------------------------------------------------- */

static char line[1024];
static size_t held;

static void flush(void)
{
    tiny_write(line, held);
    held = 0;
}

static void put(char c)
{
    line[held++] = c;
    if (c == '\n' || held == sizeof line) {
        flush();
    }
}

static void pad(char c, int n)
{
    for (; n > 0; n--) {
        put(c);
    }
}

static void put_text(const char *text, int width, int left)
{
    int length = 0;
    while (text[length] != 0) {
        length++;
    }
    pad(' ', left ? 0 : width - length);
    for (int k = 0; k < length; k++) {
        put(text[k]);
    }
    pad(' ', left ? width - length : 0);
}

static void put_number(uint64_t n, int negative, const char *figures, unsigned base, int width, char filling)
{
    char digits[24];
    int k = sizeof digits - 1;
    digits[k] = 0;
    do {
        uint64_t rest = n / base;
        digits[--k] = figures[n - rest * base];
        n = rest;
    } while (n != 0);
    if (negative) {
        digits[--k] = '-';
    }
    pad(filling, width - (int)(sizeof digits - 1) + k);
    put_text(digits + k, 0, 0);
}

/* Takes %s %d %u %x %X: before the letter '-' or '0', a width, and 'l', 'll' or
 * 'z'. */
static void put_all(const char *format, va_list given)
{
    for (; *format != 0; format++) {
        if (*format != '%') {
            put(*format);
            continue;
        }
        int left = 0, width = 0, longs = 0;
        char filling = ' ';
        for (format++; *format == '-' || *format == '0'; format++) {
            left |= *format == '-';
            filling = *format == '0' ? '0' : ' ';
        }
        for (; *format >= '0' && *format <= '9'; format++) {
            width = 10 * width + (*format - '0');
        }
        for (; *format == 'l' || *format == 'z'; format++) {
            longs++;
        }
        if (*format == 's') {
            put_text(va_arg(given, const char *), width, left);
        } else {
            int64_t n = longs == 2   ? va_arg(given, long long)
                        : longs == 1 ? va_arg(given, long)
                                     : va_arg(given, int);
            int bits = 8 * (int)(longs == 2 ? sizeof(long long) : longs == 1 ? sizeof(long) : sizeof(int));
            int negative = *format == 'd' && n < 0;
            uint64_t size = negative ? -(uint64_t)n : (uint64_t)n << (64 - bits) >> (64 - bits);
            put_number(size, negative, *format == 'x' ? "0123456789abcdef" : "0123456789ABCDEF",
                       *format == 'x' || *format == 'X' ? 16 : 10, width, filling);
        }
    }
}

int printf(const char *format, ...)
{
    va_list given;
    va_start(given, format);
    put_all(format, given);
    va_end(given);
    return 0;
}

int puts(const char *text)
{
    return printf("%s\n", text);
}

/* Error text goes where all text goes. */
int fprintf(FILE *file, const char *format, ...)
{
    va_list given;
    (void)file;
    va_start(given, format);
    put_all(format, given);
    va_end(given);
    return 0;
}

void perror(const char *text)
{
    printf("%s: failed\n", text);
}

void exit(int status)
{
    flush();
    tiny_exit(status);
}

/* ---- one file -------------------------------------------------------------- */

struct tiny_file {
    uint8_t bytes[4096];
    size_t length;
};

static struct tiny_file only;
FILE *const stderr = 0;

FILE *fopen(const char *path, const char *mode)
{
    (void)path;
    if (mode[0] == 'w') {
        only.length = 0;
    }
    return &only;
}

int fclose(FILE *file)
{
    (void)file;
    return 0;
}

size_t fwrite(const void *from, size_t size, size_t n, FILE *file)
{
    if (size * n > sizeof file->bytes) {
        return 0;
    }
    memcpy(file->bytes, from, size * n);
    file->length = size * n;
    return n;
}

size_t fread(void *to, size_t size, size_t n, FILE *file)
{
    size_t most = file->length < size * n ? file->length : size * n;
    memcpy(to, file->bytes, most);
    return most / size;
}
