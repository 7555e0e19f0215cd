/*
 * A round-robin slice that ends in a critical section. Two tasks of one processor and one rank count in a variable,
 * without a mutex, since "only one runs at a time". A slice may end between the load and the store: one count is lost.
 */
#include "evl.h"

#define ROUNDS 8

static long mutex, begin, done;
static volatile long count;
static struct evl_stack stacks[2];

void counter(void *arg)
{
	(void)arg;
	evl_attach_self(EVL_RR, 20);
	evl_get_sem(begin);
	for (int i = 0; i < ROUNDS; i++) {
		long old;

#ifdef MENDED
		evl_lock_mutex(mutex);
#endif
		old = count;
		for (int work = 0; work < 4; work++)
			__asm__ volatile("");
		count = old + 1;
#ifdef MENDED
		evl_unlock_mutex(mutex);
#endif
	}
	evl_put_sem(done);
}

EVL_NAME(counter, "counter");

int main(void)
{
	mutex = evl_create_mutex(EVL_MUTEX_INHERITANCE, 0);
	begin = evl_create_sem(0);
	done = evl_create_sem(0);
	evl_create(counter, 0, 1, &stacks[0]);
	evl_create(counter, 0, 1, &stacks[1]);
	evl_attach_self(EVL_FIFO, 30);
	evl_put_sem(begin);
	evl_put_sem(begin);
	evl_get_sem(done);
	evl_get_sem(done);
	evl_assert(count == 2 * ROUNDS);
	return 0;
}
