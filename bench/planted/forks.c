/*
 * Three philosophers take the left fork and then the right one. If each has the left one, all would wait for ever, and the
 * last lock is refused.
 */
#include "evl.h"

static long fork_of[3];
static struct evl_stack stacks[2];

static void eat(long first, long second)
{
#ifdef MENDED
	/* in one order for all */
	if (first > second) {
		long other = first;

		first = second;
		second = other;
	}
#endif
	evl_assert(evl_lock_mutex(fork_of[first]) == 0);
	evl_assert(evl_lock_mutex(fork_of[second]) == 0);
	evl_unlock_mutex(fork_of[second]);
	evl_unlock_mutex(fork_of[first]);
}

void philosopher(void *arg)
{
	long seat = (long)arg;

	evl_attach_self(EVL_FIFO, 10 + seat);
	eat(seat, (seat + 1) % 3);
}

int main(void)
{
	for (int i = 0; i < 3; i++)
		fork_of[i] = evl_create_mutex(EVL_MUTEX_INHERITANCE, 0);
	evl_create(philosopher, (void *)1, 1, &stacks[0]);
	evl_create(philosopher, (void *)2, 0, &stacks[1]);
	philosopher(0);
	return 0;
}
