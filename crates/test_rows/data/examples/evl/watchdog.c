/* The watchdog: a thread that never waits goes in-band, so that the in-band thread of its processor runs. make run WATCHDOG=3 */
#include <assert.h>
#include <pthread.h>
#include <stdio.h>
#include <unistd.h>
#include <evl/thread.h>

static volatile int started, stop;

static void *runaway(void *arg)
{
	(void)arg;
	assert(evl_attach_self("runaway:%d", getpid()) >= 0);
	assert(evl_switch_oob() == 0);
	started = 1;
	while (!stop)                                   /* it waits for main, and keeps the processor that main needs */
		;
	assert(evl_is_inband());
	return NULL;
}

int main(void)
{
	struct sched_param param = { .sched_priority = 20 };
	pthread_attr_t attr;
	pthread_t tid;

	pthread_attr_init(&attr);
	pthread_attr_setinheritsched(&attr, PTHREAD_EXPLICIT_SCHED);
	pthread_attr_setschedpolicy(&attr, SCHED_FIFO);
	pthread_attr_setschedparam(&attr, &param);
	assert(pthread_create(&tid, &attr, runaway, NULL) == 0);
	while (!started)
		sched_yield();
	stop = 1;
	assert(pthread_join(tid, NULL) == 0);
	printf("the watchdog caught it\n");
	return 0;
}
