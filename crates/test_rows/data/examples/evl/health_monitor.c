/* The health monitor: a thread asks for T_WOSS and T_WOLI, unlocks what it doesn't own, and makes an in-band call. */
#include <assert.h>
#include <errno.h>
#include <pthread.h>
#include <stdio.h>
#include <unistd.h>
#include <evl/mutex.h>
#include <evl/thread.h>

static struct evl_mutex mutex = EVL_MUTEX_INITIALIZER("monitored");

static void *monitored(void *arg)
{
	int efd, old = -1;

	(void)arg;
	efd = evl_attach_self("monitored:%d", getpid());
	assert(efd >= 0);
	assert(evl_lock_mutex(&mutex) == 0);
	assert(evl_unlock_mutex(&mutex) == 0);

	assert(evl_set_thread_mode(efd, T_WOSS, &old) == 0);
	assert(old == 0);
	assert(evl_set_thread_mode(efd, T_WOLI, &old) == 0);
	assert(old == T_WOSS);

	assert(evl_unlock_mutex(&mutex) == -EPERM);     /* imbalance */
	assert(evl_lock_mutex(&mutex) == 0);
	assert(evl_lock_mutex(&mutex) == -EDEADLK);     /* would never end */
	assert(evl_unlock_mutex(&mutex) == 0);
	assert(!evl_is_inband());
	sched_yield();                                  /* an in-band call demotes */
	assert(evl_is_inband());

	assert(evl_clear_thread_mode(efd, T_WOSS | T_WOLI, &old) == 0);
	assert(old == (T_WOSS | T_WOLI));
	return NULL;
}

int main(void)
{
	struct sched_param param = { .sched_priority = 20 };
	pthread_attr_t attr;
	pthread_t tid;

	pthread_attr_init(&attr);
	pthread_attr_setinheritsched(&attr, PTHREAD_EXPLICIT_SCHED);
	pthread_attr_setschedpolicy(&attr, SCHED_FIFO);
	pthread_attr_setschedparam(&attr, &param);
	assert(pthread_create(&tid, &attr, monitored, NULL) == 0);
	assert(pthread_join(tid, NULL) == 0);
	printf("three mistakes were made\n");
	return 0;
}
