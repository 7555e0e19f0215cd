/*
 * ABBA over two processors. Each task takes two mutexes, in opposite orders. In most runs one is done before the
 * other begins; in some each has one and wants the other, and the second lock is refused: its answer is not looked at.
 */
#include "evl.h"

static long a, b;
static volatile long sum;
static struct evl_stack stack;

static void add_with(long first, long second)
{
	long answer;

	evl_lock_mutex(first);
	answer = evl_lock_mutex(second);
	/* -EVL_EDEADLK: it works on `sum` without the second mutex. */
	evl_assert(answer == 0);
	sum++;
	evl_unlock_mutex(second);
	evl_unlock_mutex(first);
}

void other(void *arg)
{
	(void)arg;
	evl_attach_self(EVL_FIFO, 20);
#ifdef MENDED
	add_with(a, b);
#else
	add_with(b, a);
#endif
}

EVL_NAME(other, "other");

int main(void)
{
	a = evl_create_mutex(EVL_MUTEX_INHERITANCE, 0);
	b = evl_create_mutex(EVL_MUTEX_INHERITANCE, 0);
	evl_create(other, 0, 1, &stack);
	evl_attach_self(EVL_FIFO, 20);
	add_with(a, b);
	return 0;
}
