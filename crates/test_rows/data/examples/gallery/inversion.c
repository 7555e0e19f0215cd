/*
 * Unbounded priority inversion. A semaphore is used as a lock. A semaphore has no owner, so nobody inherits a
 * priority: high waits for low, and middle, which needs no lock, runs instead of low.
 */
#include "evl.h"

#ifdef MENDED
#define new_lock() evl_create_mutex(EVL_MUTEX_INHERITANCE, 0)
#define take(lock) evl_lock_mutex(lock)
#define give(lock) evl_unlock_mutex(lock)
#else
#define new_lock() evl_create_sem(1)
#define take(lock) evl_get_sem(lock)
#define give(lock) evl_put_sem(lock)
#endif

static long lock, begin_high, begin_middle;
static volatile long low_has_it, middle_is_done;
static struct evl_stack stacks[3];

/* Priority 10: works with the lock. */
void low(void *arg)
{
	(void)arg;
	evl_attach_self(EVL_FIFO, 10);
	take(lock);
	low_has_it = 1;
	for (int i = 0; i < 20; i++)
		__asm__ volatile("");
	give(lock);
}

/* Priority 20: works longer, and without the lock. */
void middle(void *arg)
{
	(void)arg;
	evl_attach_self(EVL_FIFO, 20);
	evl_get_sem(begin_middle);
	for (int i = 0; i < 200; i++)
		__asm__ volatile("");
	middle_is_done = 1;
}

/* Priority 30: middle is ready when high asks for the lock, so it runs only while high waits. */
void high(void *arg)
{
	(void)arg;
	evl_attach_self(EVL_FIFO, 30);
	evl_get_sem(begin_high);
	evl_put_sem(begin_middle);
	take(lock);
	evl_assert(!middle_is_done);
	give(lock);
}

EVL_NAME(low, "low");
EVL_NAME(middle, "middle");
EVL_NAME(high, "high");

/* On processor 0: wakes high once low has the lock. The other three are on processor 1. */
int main(void)
{
	lock = new_lock();
	begin_high = evl_create_sem(0);
	begin_middle = evl_create_sem(0);
	evl_create(high, 0, 1, &stacks[0]);
	evl_create(middle, 0, 1, &stacks[1]);
	evl_create(low, 0, 1, &stacks[2]);
	while (!low_has_it)
		;
	evl_put_sem(begin_high);
	return 0;
}
