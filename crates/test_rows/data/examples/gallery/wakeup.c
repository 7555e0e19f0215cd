/*
 * A lost wake-up. The consumer looks at `full` before it takes the mutex. If the producer fills the slot and signals
 * between the look and the wait, nobody waits yet, the signal is not kept, and the consumer waits for ever.
 */
#include "evl.h"

static long mutex, event;
static volatile long full;
static struct evl_stack stack;

void producer(void *arg)
{
	(void)arg;
	evl_attach_self(EVL_FIFO, 20);
	evl_lock_mutex(mutex);
	full = 1;
	evl_signal_event(event);
	evl_unlock_mutex(mutex);
}

static void wait_until_full(void)
{
#ifdef MENDED
	evl_lock_mutex(mutex);
	while (!full)
		evl_wait_event(event, mutex);
	evl_unlock_mutex(mutex);
#else
	if (!full) {
		evl_lock_mutex(mutex);
		evl_wait_event(event, mutex);
		evl_unlock_mutex(mutex);
	}
#endif
}

EVL_NAME(producer, "producer");

int main(void)
{
	mutex = evl_create_mutex(EVL_MUTEX_INHERITANCE, 0);
	event = evl_create_event();
	evl_create(producer, 0, 1, &stack);
	evl_attach_self(EVL_FIFO, 30);
	wait_until_full();
	return 0;
}
