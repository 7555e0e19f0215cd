/* A worker tries a lock in place of waiting for it, and counts what it got and what it didn't. */
#include <assert.h>
#include <errno.h>
#include <pthread.h>
#include <stdio.h>
#include <stdlib.h>
#include <unistd.h>
#include <evl/mutex.h>
#include <evl/sem.h>
#include <evl/thread.h>

static struct evl_mutex lock = EVL_MUTEX_INITIALIZER("trylock");
static struct evl_sem held = EVL_SEM_INITIALIZER("held"), tried = EVL_SEM_INITIALIZER("tried");

static void *holder(void *arg)
{
	(void)arg;
	assert(evl_attach_self("holder:%d", getpid()) >= 0);
	assert(evl_lock_mutex(&lock) == 0);
	assert(evl_trylock_mutex(&lock) == -EDEADLK);
	assert(evl_put_sem(&held) == 0);
	assert(evl_get_sem(&tried) == 0);
	assert(evl_unlock_mutex(&lock) == 0);
	return NULL;
}

int main(void)
{
	int busy = 0, got = 0, i;
	pthread_attr_t attr;
	cpu_set_t cpus;
	pthread_t tid;

	assert(evl_trylock_mutex(&lock) == -EPERM); /* not attached */
	assert(evl_attach_self("main:%d", getpid()) >= 0);

	CPU_ZERO(&cpus);
	CPU_SET(1, &cpus);
	assert(pthread_attr_init(&attr) == 0);
	assert(pthread_attr_setaffinity_np(&attr, sizeof(cpus), &cpus) == 0);
	assert(pthread_create(&tid, &attr, holder, NULL) == 0);
	pthread_attr_destroy(&attr);

	assert(evl_get_sem(&held) == 0);
	for (i = 0; i < 4; i++) {
		int ret = evl_trylock_mutex(&lock);

		if (ret == -EBUSY)
			busy++;
	}
	assert(evl_put_sem(&tried) == 0);
	assert(pthread_join(tid, NULL) == 0);
	if (evl_trylock_mutex(&lock) == 0) {
		got++;
		assert(evl_unlock_mutex(&lock) == 0);
	}
	printf("busy %d, got %d\n", busy, got);
	return busy == 4 && got == 1 ? EXIT_SUCCESS : EXIT_FAILURE;
}
