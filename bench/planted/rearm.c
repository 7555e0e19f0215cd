/* A task turns off the timer that another one waits for, so that it waits for ever. Mended, the timer expires at the next tick. */
#include "evl.h"

static long timer;
static struct evl_stack stack;

void canceller(void *arg)
{
	(void)arg;
	evl_attach_self(EVL_FIFO, 10);
#ifdef MENDED
	evl_set_timer(timer, 1, 0);
#else
	evl_set_timer(timer, 0, 0);
#endif
}

int main(void)
{
	timer = evl_new_timer();
	evl_create(canceller, 0, 1, &stack);
	evl_attach_self(EVL_FIFO, 10);
	evl_set_timer(timer, evl_read_clock() + 2, 0);
	evl_wait_timer(timer);
	return 0;
}
