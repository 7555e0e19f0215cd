/* The heap, the end of a program, numbers and sorting. */
#include "kit.h"
#include <stdint.h>
#include <stdio.h>
#include <stdlib.h>
#include <string.h>
#include <unistd.h>

/* ---- The heap: blocks from its begin to its end, each with its size before it, and bit 0 of that set while it is used. */

extern unsigned long heap_begin[], heap_end[];

#define HEADER 16

struct block {
	unsigned long size; /* with the header */
	unsigned long unused;
};

static int is_set_up;

static struct block *after(struct block *block)
{
	return (struct block *)((char *)block + (block->size & -2UL));
}

static bool is_last(struct block *block)
{
	return (unsigned long *)block >= heap_end;
}

static void set_up(void)
{
	unsigned long size = ((unsigned long)heap_end - (unsigned long)heap_begin) & -16UL;

	if (!is_set_up && size >= 2 * HEADER)
		((struct block *)heap_begin)->size = size;
	is_set_up = 1;
}

/* The first free block of this size, with the free ones behind it. */
static struct block *find(unsigned long size)
{
	for (struct block *block = (struct block *)heap_begin; !is_last(block) && block->size; block = after(block)) {
		if (block->size & 1)
			continue;
		for (struct block *next = after(block); !is_last(next) && next->size && !(next->size & 1); next = after(block))
			block->size += next->size;
		if (block->size >= size)
			return block;
	}
	return 0;
}

void *malloc(size_t wanted)
{
	unsigned long size = (wanted + HEADER + 15) & -16UL;
	struct block *block = 0;

	kit_enter();
	kit_lock();
	set_up();
	if (wanted < (unsigned long)heap_end)
		block = find(size);
	if (block) {
		unsigned long left = block->size - size;

		block->size = (left >= 2 * HEADER ? size : block->size) | 1;
		if (left >= 2 * HEADER)
			after(block)->size = left;
	}
	kit_unlock();
	if (!block)
		errno = ENOMEM;
	return block ? (char *)block + HEADER : 0;
}

void free(void *bytes)
{
	if (!bytes)
		return;
	kit_lock();
	((struct block *)((char *)bytes - HEADER))->size &= -2UL;
	kit_unlock();
}

void *calloc(size_t count, size_t size)
{
	void *bytes = size && count > SIZE_MAX / size ? 0 : malloc(count * size);

	return bytes ? memset(bytes, 0, count * size) : 0;
}

void *realloc(void *bytes, size_t size)
{
	size_t room = bytes ? (((struct block *)((char *)bytes - HEADER))->size & -2UL) - HEADER : 0;
	void *other = malloc(size);

	if (other && bytes) {
		memcpy(other, bytes, room < size ? room : size);
		free(bytes);
	}
	return other;
}

/* ---- The end. */

static void (*at_exit[8])(void);
static int at_exit_count;

int atexit(void (*fn)(void))
{
	if (at_exit_count == 8)
		return -1;
	at_exit[at_exit_count++] = fn;
	return 0;
}

void _exit(int status)
{
	if (status)
		kit_fail("exit with a status that isn't 0", status);
	kit_exiting = 1;
	kit_end(kit_self());
}

void exit(int status)
{
	kit_enter();
	while (at_exit_count > 0)
		at_exit[--at_exit_count]();
	_exit(status);
}

void abort(void)
{
	for (;;)
		kit_fail("abort", 0);
}

/* ---- Numbers. */

static int digit_of(char byte)
{
	if (byte >= '0' && byte <= '9')
		return byte - '0';
	if (byte >= 'a' && byte <= 'z')
		return byte - 'a' + 10;
	return byte >= 'A' && byte <= 'Z' ? byte - 'A' + 10 : 99;
}

unsigned long strtoul(const char *text, char **end, int base)
{
	const char *next = text;
	unsigned long number = 0;
	bool negative = false, any = false;

	while (*next == ' ' || (*next >= '\t' && *next <= '\r'))
		next++;
	if (*next == '-' || *next == '+')
		negative = *next++ == '-';
	if ((base == 0 || base == 16) && *next == '0' && (next[1] | 32) == 'x' && digit_of(next[2]) < 16) {
		next += 2;
		base = 16;
	} else if (base == 0) {
		base = *next == '0' ? 8 : 10;
	}
	for (; digit_of(*next) < base; next++) {
		any = true;
		if (number > (UINT64_MAX - digit_of(*next)) / base)
			errno = ERANGE;
		number = number * base + digit_of(*next);
	}
	if (end)
		*end = (char *)(any ? next : text);
	return negative ? -number : number;
}

long strtol(const char *text, char **end, int base)
{
	return strtoul(text, end, base);
}

long atol(const char *text)
{
	return strtol(text, 0, 10);
}

int atoi(const char *text)
{
	return strtol(text, 0, 10);
}

int abs(int number)
{
	return number < 0 ? -number : number;
}

long labs(long number)
{
	return number < 0 ? -number : number;
}

static unsigned long seed = 1;

void srand(unsigned int start)
{
	seed = start;
}

/* The multiplier of Knuth, MMIX. */
int rand(void)
{
	seed = seed * 6364136223846793005UL + 1442695040888963407UL;
	return seed >> 33;
}

static void swap(char *one, char *other, size_t size)
{
	while (size-- > 0) {
		char byte = *one;

		*one++ = *other;
		*other++ = byte;
	}
}

/* Of insertion: the arrays here are short. */
void qsort(void *items, size_t count, size_t size, int (*compare)(const void *one, const void *other))
{
	char *first = items;

	for (size_t sorted = 1; sorted < count; sorted++)
		for (char *item = first + sorted * size; item > first && compare(item - size, item) > 0; item -= size)
			swap(item - size, item, size);
}
