/* A recursive mutex: its owner locks it three times, and it is free after as many unlocks. */
#include <assert.h>
#include <errno.h>
#include <pthread.h>
#include <stdio.h>
#include <unistd.h>
#include <evl/mutex.h>
#include <evl/thread.h>

static struct evl_mutex mutex;

static void *other(void *arg)
{
	int ret = evl_attach_self("other:%d", getpid());

	assert(ret >= 0);
	ret = evl_trylock_mutex(&mutex);
	if (ret == 0)
		assert(evl_unlock_mutex(&mutex) == 0);
	*(int *)arg = ret;
	return NULL;
}

static int try_elsewhere(void)
{
	pthread_t tid;
	int ret;

	assert(pthread_create(&tid, NULL, other, &ret) == 0);
	assert(pthread_join(tid, NULL) == 0);
	return ret;
}

int main(void)
{
	int efd, depth;

	efd = evl_attach_self("main:%d", getpid());
	assert(efd >= 0);
	efd = evl_create_mutex(&mutex, EVL_CLOCK_MONOTONIC, 0, EVL_MUTEX_RECURSIVE, "recursive:%d", getpid());
	assert(efd >= 0);

	for (depth = 0; depth < 3; depth++)
		assert(evl_lock_mutex(&mutex) == 0);
	for (; depth > 0; depth--) {
		assert(try_elsewhere() == -EBUSY);
		assert(evl_unlock_mutex(&mutex) == 0);
	}
	assert(try_elsewhere() == 0);
	assert(evl_unlock_mutex(&mutex) == -EPERM);

	printf("locked and unlocked three times\n");
	return 0;
}
