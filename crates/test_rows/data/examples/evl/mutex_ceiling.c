/*
 * A mutex with a ceiling: its owner of priority 10 runs at 40 while it owns the mutex, so a thread of priority 20, which it
 * wakes on its own CPU, runs only when the mutex is free again.
 */
#include <assert.h>
#include <error.h>
#include <pthread.h>
#include <stdio.h>
#include <unistd.h>
#include <evl/mutex.h>
#include <evl/sem.h>
#include <evl/thread.h>

static struct evl_mutex mutex;
static struct evl_sem ready, go;
static volatile int has_run;

static int checked(const char *what, int ret)
{
	if (ret < 0)
		error(1, -ret, "%s", what);
	return ret;
}

static void *urgent(void *arg)
{
	struct evl_sched_attrs attrs = { .sched_policy = SCHED_FIFO, .sched_priority = 20 };
	int efd;

	(void)arg;
	efd = checked("attach", evl_attach_self("urgent:%d", getpid()));
	checked("schedattr", evl_set_schedattr(efd, &attrs));
	checked("switch", evl_switch_oob());
	checked("put", evl_put_sem(&ready));
	checked("get", evl_get_sem(&go));
	has_run = 1;
	return NULL;
}

int main(void)
{
	struct sched_param param = { .sched_priority = 10 };
	pthread_t tid;
	int ret, seen;

	ret = pthread_setschedparam(pthread_self(), SCHED_FIFO, &param);
	if (ret)
		error(1, ret, "pthread_setschedparam()");
	checked("attach", evl_attach_self("owner:%d", getpid()));
	checked("mutex", evl_create_mutex(&mutex, EVL_CLOCK_MONOTONIC, 40, EVL_MUTEX_NORMAL, "pp-mutex:%d", getpid()));
	assert(evl_get_mutex_ceiling(&mutex) == 40);
	checked("sem", evl_new_sem(&ready, "ready:%d", getpid()));
	checked("sem", evl_new_sem(&go, "go:%d", getpid()));
	ret = pthread_create(&tid, NULL, urgent, NULL);
	if (ret)
		error(1, ret, "pthread_create()");
	checked("get", evl_get_sem(&ready));

	checked("lock", evl_lock_mutex(&mutex));
	checked("put", evl_put_sem(&go));
	seen = has_run;
	checked("unlock", evl_unlock_mutex(&mutex));
	assert(seen == 0);
	assert(has_run == 1);

	pthread_join(tid, NULL);
	printf("before unlock %d, after %d\n", seen, has_run);
	return 0;
}
