/*
 * A cyclic task with a watchdog of its own, as in a controller: each cycle starts at an absolute time and must report within a
 * deadline. The supervisor waits for reports with a timeout and counts the cycle that is late on purpose.
 */
#include <errno.h>
#include <stdio.h>
#include <stdlib.h>
#include <pthread.h>
#include <unistd.h>
#include <evl/evl.h>

#define CYCLES 4
#define LATE_CYCLE 2

static struct evl_sem report, resume;
static int cycles_done;

static void must(const char *what, int ret)
{
	if (ret < 0) {
		errno = -ret;
		perror(what);
		exit(1);
	}
}

static void timespec_after(struct timespec *ts, long ns)
{
	must("evl_read_clock", evl_read_clock(EVL_CLOCK_MONOTONIC, ts));
	ts->tv_sec += (ts->tv_nsec + ns) / 1000000000;
	ts->tv_nsec = (ts->tv_nsec + ns) % 1000000000;
}

static void *cyclic(void *arg)
{
	struct timespec start;
	int n;

	(void)arg;
	must("evl_attach_self", evl_attach_self("/cyclic:%d", getpid()));
	for (n = 0; n < CYCLES; n++) {
		timespec_after(&start, 1000000);
		must("evl_sleep_until", evl_sleep_until(EVL_CLOCK_MONOTONIC, &start));
		if (n == LATE_CYCLE)
			must("evl_get_sem", evl_get_sem(&resume)); /* until the supervisor has noticed */
		cycles_done++;
		must("evl_put_sem", evl_put_sem(&report));
	}
	return arg;
}

int main(void)
{
	struct sched_param param = { .sched_priority = 40 };
	int late = 0, seen = 0, ret;
	struct timespec deadline;
	pthread_attr_t attr;
	pthread_t tid;

	must("evl_new_sem", evl_new_sem(&report, "/report:%d", getpid()));
	must("evl_new_sem", evl_new_sem(&resume, "/resume:%d", getpid()));
	must("pthread_setschedparam", -pthread_setschedparam(pthread_self(), SCHED_FIFO, &param));
	must("evl_attach_self", evl_attach_self("/supervisor:%d", getpid()));
	pthread_attr_init(&attr);
	param.sched_priority = 30;
	pthread_attr_setinheritsched(&attr, PTHREAD_EXPLICIT_SCHED);
	pthread_attr_setschedpolicy(&attr, SCHED_FIFO);
	pthread_attr_setschedparam(&attr, &param);
	must("pthread_create", -pthread_create(&tid, &attr, cyclic, NULL));

	while (seen < CYCLES) {
		timespec_after(&deadline, 20000000);
		ret = evl_timedget_sem(&report, &deadline);
		if (ret == 0) {
			seen++;
			continue;
		}
		if (ret != -ETIMEDOUT)
			must("evl_timedget_sem", ret);
		late++;
		if (cycles_done == LATE_CYCLE && seen == LATE_CYCLE)
			must("evl_put_sem", evl_put_sem(&resume));
	}
	pthread_join(tid, NULL);
	if (late < 1)
		exit(1);
	printf("%d cycles, one of them late\n", seen);
	return 0;
}
