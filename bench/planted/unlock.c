/* A path that gives up after an error leaves the mutex locked, so that another task waits for it for ever. */
#include "evl.h"

static long mutex, token, done;
static struct evl_stack stack;

static void use(void)
{
	long answer;

	evl_lock_mutex(mutex);
	answer = evl_tryget_sem(token);
#ifndef MENDED
	if (answer != 0)
		return;
#endif
	(void)answer;
	evl_unlock_mutex(mutex);
}

void worker(void *arg)
{
	(void)arg;
	evl_attach_self(EVL_FIFO, 10);
	use();
	evl_put_sem(token);
	use();
	evl_put_sem(done);
}

int main(void)
{
	mutex = evl_create_mutex(EVL_MUTEX_INHERITANCE, 0);
	token = evl_create_sem(1);
	done = evl_create_sem(0);
	evl_create(worker, 0, 1, &stack);
	evl_attach_self(EVL_FIFO, 10);
	use();
	evl_get_sem(done);
	return 0;
}
