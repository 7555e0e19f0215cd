/*
 * Two tasks on two processors share a mutex. A third task never uses it, and delays the first one all the same.
 *
 * high (main) runs on processor 0, low and middle run on processor 1. high measures how many ticks it waits for the
 * mutex, and prints the number. docs/TUTORIAL.md goes through this program step by step.
 */
#include "evl.h"

static long gate;   /* the mutex that holds middle back until high unlocks it */
static long shared; /* the mutex of high and low */
static volatile int low_has_it;
static struct evl_stack middle_stack, low_stack;

/* Two instructions a round. */
static void work(long rounds)
{
	while (rounds-- > 0)
		__asm__ volatile("");
}

__attribute__((noinline)) void middle_work(void)
{
	work(500);
}

void middle(void *arg)
{
	(void)arg;
	evl_assert(evl_attach_self(EVL_FIFO, 20) == 0);
	evl_assert(evl_lock_mutex(gate) == 0);
	evl_assert(evl_unlock_mutex(gate) == 0);
	middle_work();
}

void low(void *arg)
{
	(void)arg;
	evl_assert(evl_attach_self(EVL_FIFO, 10) == 0);
	evl_assert(evl_lock_mutex(shared) == 0);
	low_has_it = 1;
	work(50);
	evl_assert(evl_unlock_mutex(shared) == 0);
}

int main(void)
{
	long begin, end;

	gate = evl_create_mutex(EVL_MUTEX_INHERITANCE, 0);
#ifdef MENDED
	shared = evl_create_mutex(EVL_MUTEX_INHERITANCE, 0);
#else
	shared = evl_create_mutex(EVL_MUTEX_CEILING, 10);
#endif
	evl_assert(evl_attach_self(EVL_FIFO, 30) == 0);
	evl_assert(evl_lock_mutex(gate) == 0);
	evl_create(middle, 0, 1, &middle_stack);
	evl_create(low, 0, 1, &low_stack);
	while (!low_has_it)
		;
	evl_assert(evl_unlock_mutex(gate) == 0);
	begin = evl_read_clock();
	evl_assert(evl_lock_mutex(shared) == 0);
	end = evl_read_clock();
	evl_assert(evl_unlock_mutex(shared) == 0);
	evl_puts("waited ");
	evl_put_decimal(end - begin);
	evl_puts(" ticks\n");
	return 0;
}

EVL_NAME(main, "high");
EVL_NAME(middle, "middle");
EVL_NAME(low, "low");
