/* A periodic timer of one millisecond. The thread is late once, by sleeping over five periods: the next read tells the overrun. */
#include <error.h>
#include <errno.h>
#include <stdio.h>
#include <unistd.h>
#include <evl/clock.h>
#include <evl/thread.h>
#include <evl/timer.h>

#define PERIOD_NS 1000000

static void timespec_add_ns(struct timespec *ts, long ns)
{
	ts->tv_nsec += ns;
	while (ts->tv_nsec >= 1000000000) {
		ts->tv_sec++;
		ts->tv_nsec -= 1000000000;
	}
}

static __u64 wait_period(int tmfd)
{
	__u64 ticks;
	ssize_t ret;

	ret = oob_read(tmfd, &ticks, sizeof(ticks));
	if (ret != sizeof(ticks))
		error(1, errno, "oob_read()");
	return ticks;
}

int main(void)
{
	struct itimerspec value, old;
	struct timespec now;
	__u64 total = 0, late;
	int tmfd, ret, n;

	ret = evl_attach_self("periodic:%d", getpid());
	if (ret < 0)
		error(1, -ret, "evl_attach_self()");
	tmfd = evl_new_timer(EVL_CLOCK_MONOTONIC);
	if (tmfd < 0)
		error(1, -tmfd, "evl_new_timer()");

	ret = evl_read_clock(EVL_CLOCK_MONOTONIC, &now);
	if (ret)
		error(1, -ret, "evl_read_clock()");
	timespec_add_ns(&now, 2 * PERIOD_NS);
	value.it_value = now;
	value.it_interval.tv_sec = 0;
	value.it_interval.tv_nsec = PERIOD_NS;
	ret = evl_set_timer(tmfd, &value, NULL);
	if (ret)
		error(1, -ret, "evl_set_timer()");

	for (n = 0; n < 4; n++)
		total += wait_period(tmfd);
	if (total < 4)
		error(1, EINVAL, "%lu expiries in 4 periods", (unsigned long)total);

	ret = evl_usleep(5 * PERIOD_NS / 1000);
	if (ret)
		error(1, -ret, "evl_usleep()");
	late = wait_period(tmfd);
	if (late < 4)
		error(1, EINVAL, "%lu expiries in 5 periods", (unsigned long)late);

	value.it_value.tv_sec = 0;
	value.it_value.tv_nsec = 0;
	ret = evl_set_timer(tmfd, &value, &old);
	if (ret)
		error(1, -ret, "evl_set_timer()");
	if (old.it_interval.tv_nsec != PERIOD_NS)
		error(1, EINVAL, "interval %ld", old.it_interval.tv_nsec);
	close(tmfd);
	printf("overruns were counted\n");
	return 0;
}
