/*
 * A consumer looks only once whether there is an item. Another one of a higher priority waits for the mutex when the producer
 * signals, and takes the item first.
 */
#include "evl.h"

static long mutex, event;
static volatile long items;
static struct evl_stack stacks[2];

static void take(void)
{
	evl_lock_mutex(mutex);
#ifdef MENDED
	while (items == 0)
#else
	if (items == 0)
#endif
		evl_wait_event(event, mutex);
	evl_assert(items > 0);
	items = items - 1;
	evl_unlock_mutex(mutex);
}

static void put(void)
{
	evl_lock_mutex(mutex);
	items = items + 1;
	evl_signal_event(event);
	evl_unlock_mutex(mutex);
}

void consumer(void *arg)
{
	evl_attach_self(EVL_FIFO, (long)arg);
	take();
}

int main(void)
{
	mutex = evl_create_mutex(EVL_MUTEX_INHERITANCE, 0);
	event = evl_create_event();
	evl_create(consumer, (void *)20, 1, &stacks[0]);
	evl_create(consumer, (void *)30, 1, &stacks[1]);
	evl_attach_self(EVL_FIFO, 10);
	put();
	put();
	return 0;
}
