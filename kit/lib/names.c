/*
 * Names of threads and elements, for tools and assertions: kit_names[kind][number] of KIT_NAME bytes, by the number of the
 * task, mutex, semaphore, event, flag group or timer.
 */
#include "kit.h"
#include <stdio.h>
#include <string.h>
#include <evl/element.h>

char kit_names[KIT_KINDS - 1][64][KIT_NAME];
static unsigned char is_gone[KIT_KINDS - 1][64];

/* Another element may have the name from now on. */
void kit_forget(int kind, int number)
{
	is_gone[kind - 1][number] = 1;
}

/* A slash stands at the beginning of a public name alone, and no two elements of a kind have the same public name. */
static bool is_taken(int kind, int number, const char *name)
{
	for (int other = 0; other < 64; other++)
		if (other != number && !is_gone[kind - 1][other] && strcmp(kit_names[kind - 1][other], name) == 0)
			return true;
	return false;
}

/* number: of the element, or -1 where the name is only looked at. */
int kit_name(int kind, int number, int flags, const char *fmt, va_list arguments)
{
	char name[64];
	int length;

	if (!fmt)
		return 0;
	length = vsnprintf(name, sizeof(name), fmt, arguments);
	if (length >= (int)sizeof(name))
		return -ENAMETOOLONG;
	if (length == 0 || strchr(name + 1, '/') || (name[0] == '/' && length == 1))
		return -EINVAL;
	name[KIT_NAME - 1] = 0;
	if (((flags & EVL_CLONE_PUBLIC) || name[0] == '/') && is_taken(kind, number, name))
		return -EEXIST;
	if (number >= 0) {
		strcpy(kit_names[kind - 1][number], name);
		is_gone[kind - 1][number] = 0;
	}
	return 0;
}

const char *kit_own_name(void)
{
	long number = kit_self()->number;

	if (number >= 0 && number < 64 && kit_names[KIT_THREAD - 1][number][0])
		return kit_names[KIT_THREAD - 1][number];
	return number == 0 ? "main" : "a thread without a name";
}
