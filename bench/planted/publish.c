/* A flag is set before the words that it stands for, so that a reader on another processor sees half of them. */
#include "evl.h"

static volatile long ready, words[2];
static struct evl_stack stack;

void writer(void *arg)
{
	(void)arg;
#ifdef MENDED
	words[0] = 1;
	words[1] = 1;
	ready = 1;
#else
	words[0] = 1;
	ready = 1;
	words[1] = 1;
#endif
}

int main(void)
{
	evl_create(writer, 0, 1, &stack);
	while (!ready)
		;
	evl_assert(words[0] + words[1] == 2);
	return 0;
}
