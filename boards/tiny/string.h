/* The little of <string.h> that the programs here use: see tiny.c. */
#ifndef TINY_STRING_H
#define TINY_STRING_H

#include <stddef.h>

void *memcpy(void *to, const void *from, size_t n);
void *memset(void *to, int byte, size_t n);

#endif
