/* The little of <stdio.h> that the programs here use, for boards without a C library: see tiny.c. */
#ifndef TINY_STDIO_H
#define TINY_STDIO_H

#include <stddef.h>

typedef struct tiny_file FILE;
extern FILE *const stderr;

int printf(const char *format, ...);
int fprintf(FILE *file, const char *format, ...);
int puts(const char *text);
void perror(const char *text);
FILE *fopen(const char *path, const char *mode);
int fclose(FILE *file);
size_t fwrite(const void *from, size_t size, size_t n, FILE *file);
size_t fread(void *to, size_t size, size_t n, FILE *file);

#endif
