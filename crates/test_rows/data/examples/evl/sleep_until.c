/* A loop that sleeps until absolute times, a period apart, so that it doesn't drift. */
#include <assert.h>
#include <errno.h>
#include <error.h>
#include <pthread.h>
#include <stdio.h>
#include <time.h>
#include <unistd.h>
#include <evl/clock.h>
#include <evl/thread.h>

#define PERIOD_MS 2
#define LOOPS 5

static long ms_of(const struct timespec *ts)
{
	return ts->tv_sec * 1000L + ts->tv_nsec / 1000000;
}

static void *loop(void *arg)
{
	struct timespec next, now, past = { .tv_sec = 0, .tv_nsec = 1 };
	long first, least;
	int ret, n;

	(void)arg;
	ret = evl_attach_self("sleeper:%d", getpid());
	if (ret < 0)
		error(1, -ret, "evl_attach_self()");
	ret = evl_read_clock(EVL_CLOCK_MONOTONIC, &next);
	if (ret)
		error(1, -ret, "evl_read_clock()");
	first = ms_of(&next);
	for (n = 1; n <= LOOPS; n++) {
		next.tv_nsec += PERIOD_MS * 1000000;
		if (next.tv_nsec >= 1000000000) {
			next.tv_nsec -= 1000000000;
			next.tv_sec++;
		}
		ret = evl_sleep_until(EVL_CLOCK_MONOTONIC, &next);
		if (ret)
			error(1, -ret, "evl_sleep_until()");
		evl_read_clock(EVL_CLOCK_MONOTONIC, &now);
		least = first + n * PERIOD_MS;
		assert(ms_of(&now) >= least);
	}
	assert(ms_of(&next) == first + LOOPS * PERIOD_MS);

	assert(evl_sleep_until(EVL_CLOCK_MONOTONIC, &past) == 0);
	past.tv_nsec = 1000000000;
	assert(evl_sleep_until(EVL_CLOCK_MONOTONIC, &past) == -EINVAL);
	assert(evl_sleep_until(1234, &next) == -EBADF);
	return NULL;
}

int main(void)
{
	struct sched_param param = { .sched_priority = 1 };
	struct timespec resolution;
	pthread_attr_t attr;
	pthread_t tid;
	int ret;

	pthread_attr_init(&attr);
	pthread_attr_setinheritsched(&attr, PTHREAD_EXPLICIT_SCHED);
	pthread_attr_setschedpolicy(&attr, SCHED_FIFO);
	pthread_attr_setschedparam(&attr, &param);
	ret = pthread_create(&tid, &attr, loop, NULL);
	if (ret)
		error(1, ret, "pthread_create()");
	pthread_join(tid, NULL);
	ret = evl_get_clock_resolution(EVL_CLOCK_MONOTONIC, &resolution);
	if (ret)
		error(1, -ret, "evl_get_clock_resolution()");
	printf("%d periods, resolution %ld ns\n", LOOPS, resolution.tv_nsec);
	return 0;
}
