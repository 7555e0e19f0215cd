/*
 * Two threads of SCHED_RR with one priority share a CPU. Each counts until the other has counted, so both would hang
 * under SCHED_FIFO.
 */
#include <error.h>
#include <pthread.h>
#include <stdio.h>
#include <unistd.h>
#include <evl/sched.h>
#include <evl/sem.h>
#include <evl/thread.h>

#define TURNS 2

static struct evl_sem ready, start;
static volatile int turns[2];

static void *spinner(void *arg)
{
	int me = (int)(long)arg, efd, ret;
	struct evl_sched_attrs attrs;

	efd = evl_attach_self("spinner:%d.%d", getpid(), me);
	if (efd < 0)
		error(1, -efd, "evl_attach_self()");
	attrs.sched_policy = SCHED_RR;
	attrs.sched_priority = 15;
	attrs.sched_rr_quantum = (struct timespec){ .tv_sec = 0, .tv_nsec = 4000000 };
	ret = evl_set_schedattr(efd, &attrs);
	if (ret)
		error(1, -ret, "evl_set_schedattr()");
	ret = evl_switch_oob();
	if (ret)
		error(1, -ret, "evl_switch_oob()");
	ret = evl_put_sem(&ready);
	if (ret)
		error(1, -ret, "evl_put_sem()");
	ret = evl_get_sem(&start);
	if (ret)
		error(1, -ret, "evl_get_sem()");
	while (turns[me] < TURNS) {
		turns[me]++;
		while (turns[!me] < turns[me])
			;
	}
	return NULL;
}

int main(void)
{
	pthread_t tids[2];
	long n;
	int ret;

	ret = evl_attach_self("main:%d", getpid());
	if (ret < 0)
		error(1, -ret, "evl_attach_self()");
	ret = evl_new_sem(&ready, "ready:%d", getpid());
	if (ret < 0)
		error(1, -ret, "evl_new_sem()");
	ret = evl_new_sem(&start, "start:%d", getpid());
	if (ret < 0)
		error(1, -ret, "evl_new_sem()");
	for (n = 0; n < 2; n++) {
		cpu_set_t cpus;
		pthread_attr_t attr;

		CPU_ZERO(&cpus);
		CPU_SET(1, &cpus);
		pthread_attr_init(&attr);
		pthread_attr_setaffinity_np(&attr, sizeof(cpus), &cpus);
		ret = pthread_create(&tids[n], &attr, spinner, (void *)n);
		if (ret)
			error(1, ret, "pthread_create()");
	}
	for (n = 0; n < 2; n++)
		evl_get_sem(&ready);
	for (n = 0; n < 2; n++)
		evl_put_sem(&start);
	for (n = 0; n < 2; n++)
		pthread_join(tids[n], NULL);
	printf("turns %d and %d\n", turns[0], turns[1]);
	return 0;
}
