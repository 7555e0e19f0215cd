/*
 * An interrupt storm into a stalled stage. The device raises line 4 once for each unit of work. While in-band is
 * stalled the raises merge into one, so one play stands for many, and units of work are lost.
 */
#include "evl.h"

static volatile long units;
static struct evl_stack stack;

#ifdef MENDED
static long sem;

/* A line that puts a semaphore is played out-of-band: a stalled in-band stage does not hold it back. */
void handler(void *arg)
{
	(void)arg;
	evl_attach_self(EVL_FIFO, 50);
	for (;;) {
		evl_get_sem(sem);
		units++;
	}
}
#else
void handler(void *arg)
{
	(void)arg;
	for (;;) {
		evl_wait_line(4);
		units++;
	}
}
#endif

EVL_NAME(handler, "handler");

/* The pins raise line 4 whenever a pin goes from 0 to 1. */
static void pulse(void)
{
	evl_store_device(EVL_PINS, EVL_PINS_LEVEL, 1);
	evl_store_device(EVL_PINS, EVL_PINS_LEVEL, 0);
}

int main(void)
{
#ifdef MENDED
	sem = evl_create_sem(0);
	evl_set_line(EVL_DEVICE_LINE(EVL_PINS), EVL_LINE_PUT, sem);
#endif
	evl_store_device(EVL_PINS, EVL_PINS_MASK, 1);
	evl_create(handler, 0, 0, &stack);
	evl_yield_inband();
	evl_stall_inband();
	for (int i = 0; i < 5; i++)
		pulse();
	evl_unstall_inband();
	evl_yield_inband();
	evl_assert(units == 5);
	return 0;
}
