/* A thread attaches, works, detaches and attaches again; one that is detached from its creator ends by itself. */
#include <assert.h>
#include <errno.h>
#include <pthread.h>
#include <stdio.h>
#include <unistd.h>
#include <evl/mutex.h>
#include <evl/sem.h>
#include <evl/thread.h>

static struct evl_mutex mutex;
static struct evl_sem done;

static void *worker(void *arg)
{
	(void)arg;
	assert(evl_get_self() == -EPERM);
	assert(evl_lock_mutex(&mutex) == -EPERM);
	assert(evl_detach_self() == -EPERM);

	assert(evl_attach_self("worker:%d", getpid()) >= 0);
	assert(evl_attach_self("worker-again:%d", getpid()) == -EBUSY);
	assert(evl_lock_mutex(&mutex) == 0);
	assert(evl_detach_self() == -EBUSY);
	assert(evl_unlock_mutex(&mutex) == 0);
	assert(evl_detach_self() == 0);
	assert(evl_lock_mutex(&mutex) == -EPERM);
	assert(evl_is_inband());

	assert(evl_attach_self("worker:%d", getpid()) >= 0);
	assert(evl_lock_mutex(&mutex) == 0);
	assert(evl_unlock_mutex(&mutex) == 0);
	assert(evl_put_sem(&done) == 0);
	return NULL;
}

int main(void)
{
	pthread_attr_t attr;
	pthread_t tid;

	assert(evl_new_mutex(&mutex, "mutex:%d", getpid()) >= 0);
	assert(evl_new_sem(&done, "done:%d", getpid()) >= 0);
	assert(evl_attach_self("main:%d", getpid()) >= 0);

	pthread_attr_init(&attr);
	pthread_attr_setdetachstate(&attr, PTHREAD_CREATE_DETACHED);
	assert(pthread_create(&tid, &attr, worker, NULL) == 0);
	assert(evl_get_sem(&done) == 0);
	assert(evl_detach_self() == 0);
	printf("attached twice\n");
	return 0;
}
