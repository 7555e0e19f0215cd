/* What programs take from the C library: formats, texts, the heap, sorting, division, and constructors before main(). */
#include <assert.h>
#include <errno.h>
#include <inttypes.h>
#include <stdint.h>
#include <stdio.h>
#include <stdlib.h>
#include <string.h>
#include <time.h>

static int constructed;

static void __attribute__((constructor(200))) second(void)
{
	constructed = constructed * 10 + 2;
}

static void __attribute__((constructor(150))) first(void)
{
	constructed = constructed * 10 + 1;
}

#define FORMATS(wanted, ...) \
	do { \
		char buffer[64]; \
		int length = snprintf(buffer, sizeof(buffer), __VA_ARGS__); \
 \
		assert(length == (int)strlen(wanted)); \
		assert(strcmp(buffer, wanted) == 0); \
	} while (0)

#ifdef __clang__
/* numbers that don't fit their format are cut */
#pragma clang diagnostic ignored "-Wformat"
#endif

static void formats(void)
{
	const char *volatile longer = "longer";
	char small[4];

	FORMATS("-7 42 +5  3", "%d %u %+d % d", -7, 42u, 5, 3);
	FORMATS("[   17][17   ][00017]", "[%5d][%-5d][%05d]", 17, 17, 17);
	FORMATS("beef 0xbeef BEEF 17", "%x %#x %X %o", 0xbeef, 0xbeef, 0xbeef, 15);
	FORMATS("-9223372036854775808 18446744073709551615", "%ld %" PRIu64, INT64_MIN, UINT64_MAX);
	FORMATS("text|tex|  text|c|%", "%s|%.3s|%6s|%c|%%", "text", "text", "text", 'c');
	FORMATS("  007|-0042", "%5.3d|%05d", 7, -42);
	FORMATS("  12|34  ", "%*d|%-*d", 4, 12, 4, 34);
	FORMATS("-1 255 65535", "%hhd %hhu %hu", 255, 255, 65535);
	FORMATS("0x80000000", "%p", (void *)0x80000000UL);
	assert(snprintf(small, sizeof(small), "%s", longer) == 6 && strcmp(small, "lon") == 0);
}

static void texts(void)
{
	char text[32] = "one";
	char *end;

	strcat(text, ", two");
	assert(strlen(text) == 8 && strcmp(text, "one, two") == 0);
	assert(strchr(text, ',') == text + 3 && strrchr(text, 'o') == text + 7);
	assert(strstr(text, "two") == text + 5 && !strstr(text, "three"));
	assert(strncmp(text, "one more", 3) == 0 && memcmp("ab", "ac", 2) < 0);
	memmove(text + 2, text, 9);
	assert(strcmp(text, "onone, two") == 0);
	assert(strtol("  -0x1f rest", &end, 0) == -31 && strcmp(end, " rest") == 0);
	assert(atoi("1234") == 1234 && strtoul("777", NULL, 8) == 511);
	assert(strcmp(strerror(ETIMEDOUT), "Connection timed out") == 0);
}

static void heap(void)
{
	char *one = malloc(100), *two = calloc(10, 10), *three, *volatile none;
	int i;

	assert(one && two && (uintptr_t)one % 16 == 0);
	for (i = 0; i < 100; i++)
		assert(two[i] == 0);
	strcpy(one, "kept");
	one = realloc(one, 300);
	assert(one && strcmp(one, "kept") == 0);
	free(two);
	free(one);
	three = malloc(400);
	assert(three == (char *)two || three != NULL);
	free(three);
	none = malloc(1 << 24);
	assert(!none && errno == ENOMEM);
}

static int compare(const void *one, const void *other)
{
	return *(const int *)one - *(const int *)other;
}

int main(void)
{
	int numbers[] = { 5, 3, 9, 1, 7 }, i;
	volatile int64_t big = -1000000007, small = 97;
	struct timespec ts;

	assert(constructed == 12);
	formats();
	texts();
	heap();
	qsort(numbers, 5, sizeof(numbers[0]), compare);
	for (i = 0; i < 4; i++)
		assert(numbers[i] < numbers[i + 1]);
	assert(big / small == -10309278 && big % small == -41 && big * small == -97000000679);
	assert(clock_gettime(CLOCK_MONOTONIC, &ts) == 0 && ts.tv_nsec < 1000000000);
	assert(clock_gettime(12, &ts) == -1 && errno == EINVAL);
	puts("the C library does what it should");
	return 0;
}
