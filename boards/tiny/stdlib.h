/* The little of <stdlib.h> that the programs here use: see tiny.c. */
#ifndef TINY_STDLIB_H
#define TINY_STDLIB_H

#define EXIT_SUCCESS 0
#define EXIT_FAILURE 1

_Noreturn void exit(int status);

#endif
