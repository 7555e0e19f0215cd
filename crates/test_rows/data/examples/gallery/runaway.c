/*
 * A task that never yields. It polls a word that an in-band task of its processor sets. It never waits, so that task never
 * runs: both hang. A watchdog sends the polling task in-band; without one the supervisor misses it at its deadline.
 */
#include "evl.h"

static volatile long ready;
static long filled, done;
static struct evl_stack stacks[2];

/* In-band, on the processor of main. */
void filler(void *arg)
{
	(void)arg;
	ready = 1;
	evl_put_sem(filled);
}

/* Out-of-band, on the other processor. */
void supervisor(void *arg)
{
	(void)arg;
	evl_attach_self(EVL_FIFO, 30);
	evl_assert(evl_timedget_sem(done, evl_read_clock() + 20) == 0);
}

EVL_NAME(filler, "filler");
EVL_NAME(supervisor, "supervisor");

int main(void)
{
	filled = evl_create_sem(0);
	done = evl_create_sem(0);
	evl_create(filler, 0, 0, &stacks[0]);
	evl_create(supervisor, 0, 1, &stacks[1]);
	evl_attach_self(EVL_FIFO, 50);
	evl_switch_oob();
#ifdef MENDED
	evl_get_sem(filled);
#else
	while (!ready)
		;
#endif
	evl_put_sem(done);
	evl_assert(!evl_is_inband());
	return 0;
}
