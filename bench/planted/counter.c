/* Two tasks add to a counter without a mutex. What one adds between the load and the store of the other is lost. */
#include "evl.h"

static volatile long counter, ended;
static long mutex;
static struct evl_stack stack;

static void add(void)
{
#ifdef MENDED
	evl_lock_mutex(mutex);
	counter = counter + 1;
	evl_unlock_mutex(mutex);
#else
	counter = counter + 1;
#endif
}

void worker(void *arg)
{
	(void)arg;
	evl_attach_self(EVL_FIFO, 10);
	for (int i = 0; i < 4; i++)
		add();
	ended = 1;
}

int main(void)
{
	mutex = evl_create_mutex(EVL_MUTEX_INHERITANCE, 0);
	evl_create(worker, 0, 1, &stack);
	evl_attach_self(EVL_FIFO, 10);
	for (int i = 0; i < 4; i++)
		add();
	while (!ended)
		;
	evl_assert(counter == 8);
	return 0;
}
