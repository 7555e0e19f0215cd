/*
 * A demotion in a time-critical section. A print between lock and unlock is an in-band call: the task goes in-band
 * with its mutex, and whoever waits for that mutex waits for everything in-band.
 */
#include "evl.h"

static long mutex;
static struct evl_stack stack;

/* In-band work on the same processor. */
void background(void *arg)
{
	(void)arg;
	for (int i = 0; i < 100; i++)
		__asm__ volatile("");
}

EVL_NAME(background, "background");

int main(void)
{
	mutex = evl_create_mutex(EVL_MUTEX_INHERITANCE, 0);
	evl_create(background, 0, 0, &stack);
	evl_attach_self(EVL_FIFO, 30);
	evl_set_thread_mode(EVL_T_WOSS);
	evl_lock_mutex(mutex);
#ifndef MENDED
	evl_putc('x');
#endif
	evl_assert(!evl_is_inband());
	evl_unlock_mutex(mutex);
#ifdef MENDED
	evl_set_thread_mode(0);
	evl_putc('x');
#endif
	return 0;
}
