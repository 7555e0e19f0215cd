/*
 * A timer overrun. The task works once for each return of evl_wait_timer(). If its work takes longer than the period,
 * the call returns 2 or more: periods have passed by, and the task falls behind without noticing.
 */
#include "evl.h"

static long passed;	/* periods */
static volatile long work_done;

static void work(void)
{
	for (int i = 0; i < 50; i++)
		__asm__ volatile("");
}

int main(void)
{
	long timer = evl_new_timer();

	evl_attach_self(EVL_FIFO, 50);
	evl_set_timer(timer, evl_read_clock() + 1, 1);
	for (int round = 0; round < 4; round++) {
		long expiries = evl_wait_timer(timer);

#ifdef MENDED
		/* It catches up: once for each period that has passed. */
		work_done += expiries;
#else
		work_done++;
#endif
		passed += expiries;
		work();
	}
	evl_set_timer(timer, 0, 0);
	evl_assert(work_done == passed);
	return 0;
}
