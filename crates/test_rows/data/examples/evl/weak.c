/*
 * Weak scheduling: a thread of SCHED_WEAK is in-band after each of its calls, but while it owns a mutex. It shares a semaphore and
 * a mutex with a real-time thread.
 */
#include <assert.h>
#include <pthread.h>
#include <stdio.h>
#include <stdlib.h>
#include <unistd.h>
#include <evl/mutex.h>
#include <evl/sem.h>
#include <evl/thread.h>

static struct evl_mutex mutex;
static struct evl_sem request, answer;
static int shared;

static void *server(void *arg)
{
	(void)arg;
	assert(evl_attach_self("server:%d", getpid()) >= 0);
	assert(evl_get_sem(&request) == 0);
	assert(!evl_is_inband());
	assert(evl_lock_mutex(&mutex) == 0);
	shared *= 2;
	assert(evl_unlock_mutex(&mutex) == 0);
	assert(evl_put_sem(&answer) == 0);
	return NULL;
}

int main(void)
{
	struct sched_param param = { .sched_priority = 50 };
	struct evl_sched_attrs attrs;
	pthread_attr_t attr;
	pthread_t tid;
	int efd;

	assert(evl_new_mutex(&mutex, "mutex:%d", getpid()) >= 0);
	assert(evl_new_sem(&request, "request:%d", getpid()) >= 0);
	assert(evl_new_sem(&answer, "answer:%d", getpid()) >= 0);

	efd = evl_attach_self("client:%d", getpid()); /* SCHED_OTHER: weak */
	assert(efd >= 0);
	assert(evl_get_schedattr(efd, &attrs) == 0);
	assert(attrs.sched_policy == SCHED_WEAK && attrs.sched_priority == 0);

	pthread_attr_init(&attr);
	pthread_attr_setinheritsched(&attr, PTHREAD_EXPLICIT_SCHED);
	pthread_attr_setschedpolicy(&attr, SCHED_FIFO);
	pthread_attr_setschedparam(&attr, &param);
	assert(pthread_create(&tid, &attr, server, NULL) == 0);

	assert(evl_lock_mutex(&mutex) == 0);
	assert(!evl_is_inband()); /* it owns a mutex */
	shared = 21;
	assert(evl_unlock_mutex(&mutex) == 0);
	assert(evl_is_inband());
	assert(evl_put_sem(&request) == 0);
	assert(evl_get_sem(&answer) == 0);
	assert(evl_is_inband());
	assert(pthread_join(tid, NULL) == 0);
	printf("weak client got %d\n", shared);
	return 0;
}
