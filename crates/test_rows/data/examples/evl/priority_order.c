/* Threads that wait for a semaphore are served by priority, and not in the order in which they came. */
#include <errno.h>
#include <error.h>
#include <pthread.h>
#include <stdio.h>
#include <unistd.h>
#include <evl/sem.h>
#include <evl/thread.h>

#define THREADS 3

static struct evl_sem ready, turn;
static int order[THREADS], served;

static void check(int ret, const char *text)
{
	if (ret < 0)
		error(1, -ret, "%s", text);
}

static void *waiter(void *arg)
{
	int prio = (int)(long)arg;

	check(evl_attach_self("waiter-%d:%d", prio, getpid()), "evl_attach_self()");
	check(evl_switch_oob(), "evl_switch_oob()");
	check(evl_put_sem(&ready), "evl_put_sem()");
	check(evl_get_sem(&turn), "evl_get_sem()");
	order[served++] = prio;
	return NULL;
}

int main(void)
{
	static const int prios[THREADS] = { 20, 40, 30 };
	struct sched_param param = { .sched_priority = 5 };
	pthread_t tids[THREADS];
	int n, ret;

	check(evl_new_sem(&ready, "ready:%d", getpid()), "evl_new_sem()");
	check(evl_new_sem(&turn, "turn:%d", getpid()), "evl_new_sem()");
	ret = pthread_setschedparam(pthread_self(), SCHED_FIFO, &param);
	if (ret)
		error(1, ret, "pthread_setschedparam()");
	check(evl_attach_self("main:%d", getpid()), "evl_attach_self()");
	for (n = 0; n < THREADS; n++) {
		pthread_attr_t attr;

		param.sched_priority = prios[n];
		pthread_attr_init(&attr);
		pthread_attr_setinheritsched(&attr, PTHREAD_EXPLICIT_SCHED);
		pthread_attr_setschedpolicy(&attr, SCHED_FIFO);
		pthread_attr_setschedparam(&attr, &param);
		ret = pthread_create(&tids[n], &attr, waiter, (void *)(long)prios[n]);
		if (ret)
			error(1, ret, "pthread_create()");
		/* on this CPU it goes on until it waits for its turn */
		check(evl_get_sem(&ready), "evl_get_sem()");
	}
	for (n = 0; n < THREADS; n++)
		check(evl_put_sem(&turn), "evl_put_sem()");
	for (n = 0; n < THREADS; n++)
		pthread_join(tids[n], NULL);
	printf("order %d %d %d\n", order[0], order[1], order[2]);
	return order[0] == 40 && order[1] == 30 && order[2] == 20 ? 0 : 1;
}
