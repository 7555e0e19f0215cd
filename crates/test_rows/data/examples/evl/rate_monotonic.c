/* Three periodic tasks of 2, 4 and 8 milliseconds: the shorter the period, the higher the priority. Each counts its jobs. */
#include <errno.h>
#include <error.h>
#include <pthread.h>
#include <stdio.h>
#include <stdlib.h>
#include <time.h>
#include <unistd.h>
#include <evl/clock.h>
#include <evl/thread.h>
#include <evl/timer.h>

#define TASKS 3
#define HYPERPERIOD_MS 16

struct task {
	const char *name;
	int prio;
	long period_ms;
	unsigned long jobs, overruns;
	pthread_t tid;
};

static struct timespec epoch;

static struct task tasks[TASKS] = {
	{ .name = "fast", .prio = 30, .period_ms = 2 },
	{ .name = "medium", .prio = 20, .period_ms = 4 },
	{ .name = "slow", .prio = 10, .period_ms = 8 },
};

static void add_ms(struct timespec *ts, long ms)
{
	ts->tv_sec += ms / 1000;
	ts->tv_nsec += (ms % 1000) * 1000000L;
	if (ts->tv_nsec >= 1000000000L) {
		ts->tv_nsec -= 1000000000L;
		ts->tv_sec++;
	}
}

static int start_timer(const struct task *task)
{
	struct itimerspec its = { .it_interval = { .tv_nsec = task->period_ms * 1000000L } };
	struct itimerspec left;
	int tmfd, ret;

	tmfd = evl_new_timer(EVL_CLOCK_MONOTONIC);
	if (tmfd < 0)
		error(EXIT_FAILURE, -tmfd, "evl_new_timer");
	its.it_value = epoch;
	add_ms(&its.it_value, task->period_ms);
	ret = evl_set_timer(tmfd, &its, NULL);
	if (ret)
		error(EXIT_FAILURE, -ret, "evl_set_timer");
	ret = evl_get_timer(tmfd, &left);
	if (ret)
		error(EXIT_FAILURE, -ret, "evl_get_timer");
	if (left.it_interval.tv_nsec != its.it_interval.tv_nsec)
		error(EXIT_FAILURE, EINVAL, "interval %ld", left.it_interval.tv_nsec);
	return tmfd;
}

static void *run(void *arg)
{
	struct task *task = arg;
	unsigned long wanted = HYPERPERIOD_MS / task->period_ms;
	int ret, tmfd;

	ret = evl_attach_self("%s-task:%d", task->name, getpid());
	if (ret < 0)
		error(EXIT_FAILURE, -ret, "evl_attach_self");
	tmfd = start_timer(task);
	while (task->jobs + task->overruns < wanted) {
		__u64 ticks;

		if (oob_read(tmfd, &ticks, sizeof(ticks)) < 0)
			error(EXIT_FAILURE, errno, "oob_read");
		task->jobs++;
		task->overruns += ticks - 1;
	}
	close(tmfd);
	return NULL;
}

int main(void)
{
	int n, ret;

	ret = evl_read_clock(EVL_CLOCK_MONOTONIC, &epoch);
	if (ret)
		error(EXIT_FAILURE, -ret, "evl_read_clock");
	for (n = 0; n < TASKS; n++) {
		struct sched_param param = { .sched_priority = tasks[n].prio };
		pthread_attr_t attr;

		pthread_attr_init(&attr);
		pthread_attr_setinheritsched(&attr, PTHREAD_EXPLICIT_SCHED);
		pthread_attr_setschedpolicy(&attr, SCHED_FIFO);
		pthread_attr_setschedparam(&attr, &param);
		ret = pthread_create(&tasks[n].tid, &attr, run, &tasks[n]);
		if (ret)
			error(EXIT_FAILURE, ret, "pthread_create");
	}
	for (n = 0; n < TASKS; n++)
		pthread_join(tasks[n].tid, NULL);
	for (n = 0; n < TASKS; n++)
		if (tasks[n].jobs + tasks[n].overruns < (unsigned long)(HYPERPERIOD_MS / tasks[n].period_ms))
			return EXIT_FAILURE;
	printf("three tasks ran %d ms\n", HYPERPERIOD_MS);
	return EXIT_SUCCESS;
}
