#ifndef _STDLIB_H
#define _STDLIB_H

#include <stddef.h>
#include <evl/absent.h>

#define EXIT_SUCCESS 0
#define EXIT_FAILURE 1
#define RAND_MAX 2147483647

__EVL_BEGIN

/* The heap is what kit/link.ld leaves of RAM, or heap_size bytes of it. These go in-band. */
void *malloc(size_t size) __attribute__((__malloc__));
void *calloc(size_t count, size_t size) __attribute__((__malloc__));
void *realloc(void *block, size_t size);
void free(void *block);

/* The thread ends, each other one at its next call of EVL or of the C library. A status that isn't 0 stops at EBREAK first. */
void exit(int status) __attribute__((__noreturn__));
void abort(void) __attribute__((__noreturn__)); /* EBREAK */
int atexit(void (*fn)(void));                   /* 8 at most */

int atoi(const char *text);
long atol(const char *text);
long strtol(const char *text, char **end, int base);
unsigned long strtoul(const char *text, char **end, int base);
int abs(int number);
long labs(long number);
int rand(void);
void srand(unsigned int seed);
void qsort(void *items, size_t count, size_t size, int (*compare)(const void *one, const void *other));

char *getenv(const char *name) __EVL_ABSENT("getenv() isn't here: there is no environment");
int system(const char *command) __EVL_ABSENT("system() isn't here: there are no processes");

__EVL_END

#endif
