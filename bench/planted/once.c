/* Two tasks ask whether a thing is made, and both make it. */
#include "evl.h"

static volatile long is_made, made, ended;
static long mutex;
static struct evl_stack stack;

static void make_once(void)
{
#ifdef MENDED
	evl_lock_mutex(mutex);
#endif
	if (!is_made) {
		made = made + 1;
		is_made = 1;
	}
#ifdef MENDED
	evl_unlock_mutex(mutex);
#endif
}

void worker(void *arg)
{
	(void)arg;
	evl_attach_self(EVL_FIFO, 10);
	make_once();
	ended = 1;
}

int main(void)
{
	mutex = evl_create_mutex(EVL_MUTEX_INHERITANCE, 0);
	evl_create(worker, 0, 1, &stack);
	evl_attach_self(EVL_FIFO, 10);
	make_once();
	while (!ended)
		;
	evl_assert(made == 1);
	return 0;
}
