/*
 * A chain that inheritance can't follow. high waits for the mutex `outer`, whose owner, helper, waits for `inner`, and
 * low has that. Two mutexes with inheritance pass high's rank along the chain; here `inner` has a ceiling that is
 * too low, so the chain ends at helper and low stays behind middle.
 */
#include "evl.h"

#ifdef MENDED
#define INNER EVL_MUTEX_INHERITANCE, 0
#else
#define INNER EVL_MUTEX_CEILING, 10
#endif

static long outer, inner, begin_helper, begin_high, begin_middle;
static volatile long low_has_it, helper_has_it, middle_is_done;
static struct evl_stack stacks[4];

/* Priority 10: works with `inner`. */
void low(void *arg)
{
	(void)arg;
	evl_attach_self(EVL_FIFO, 10);
	evl_lock_mutex(inner);
	low_has_it = 1;
	for (int i = 0; i < 20; i++)
		__asm__ volatile("");
	evl_unlock_mutex(inner);
}

/* Priority 15: has `outer` and wants `inner`. */
void helper(void *arg)
{
	(void)arg;
	evl_attach_self(EVL_FIFO, 15);
	evl_get_sem(begin_helper);
	evl_lock_mutex(outer);
	helper_has_it = 1;
	evl_lock_mutex(inner);
	evl_unlock_mutex(inner);
	evl_unlock_mutex(outer);
}

/* Priority 20: works longer, and without a mutex. */
void middle(void *arg)
{
	(void)arg;
	evl_attach_self(EVL_FIFO, 20);
	evl_get_sem(begin_middle);
	for (int i = 0; i < 200; i++)
		__asm__ volatile("");
	middle_is_done = 1;
}

/* Priority 30: middle is ready when high asks for `outer`, so it runs only while high waits. */
void high(void *arg)
{
	(void)arg;
	evl_attach_self(EVL_FIFO, 30);
	evl_get_sem(begin_high);
	evl_put_sem(begin_middle);
	evl_lock_mutex(outer);
	evl_assert(!middle_is_done);
	evl_unlock_mutex(outer);
}

EVL_NAME(low, "low");
EVL_NAME(helper, "helper");
EVL_NAME(middle, "middle");
EVL_NAME(high, "high");

/* On processor 0: wakes helper once low has `inner`, and high once helper has `outer`. The other four are on processor 1. */
int main(void)
{
	outer = evl_create_mutex(EVL_MUTEX_INHERITANCE, 0);
	inner = evl_create_mutex(INNER);
	begin_helper = evl_create_sem(0);
	begin_high = evl_create_sem(0);
	begin_middle = evl_create_sem(0);
	evl_create(high, 0, 1, &stacks[0]);
	evl_create(middle, 0, 1, &stacks[1]);
	evl_create(helper, 0, 1, &stacks[2]);
	evl_create(low, 0, 1, &stacks[3]);
	while (!low_has_it)
		;
	evl_put_sem(begin_helper);
	while (!helper_has_it)
		;
	evl_put_sem(begin_high);
	return 0;
}
