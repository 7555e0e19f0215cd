/* Clocks, sleeps and timers. A tick has __evl_tick_ns nanoseconds; a time becomes the first tick that isn't before it. */
#include "kit.h"
#include <time.h>
#include <unistd.h>
#include <evl/evl.h>

#define SECOND 1000000000L

bool kit_is_clock(int clockfd)
{
	return clockfd == EVL_CLOCK_MONOTONIC || clockfd == EVL_CLOCK_REALTIME;
}

/* Of no time, -EFAULT; of one that is none, -EINVAL. */
int kit_tick(const struct timespec *time, long *tick)
{
	if (!time)
		return -EFAULT;
	if (time->tv_sec < 0 || time->tv_nsec < 0 || time->tv_nsec >= SECOND)
		return -EINVAL;
	if (time->tv_sec > INT64_MAX / SECOND - 1)
		*tick = INT64_MAX;
	else
		*tick = ((unsigned long)time->tv_sec * SECOND + time->tv_nsec + __evl_tick_ns - 1) / __evl_tick_ns;
	return 0;
}

static void set_time(struct timespec *time, unsigned long ticks)
{
	unsigned long ns = ticks * __evl_tick_ns;

	time->tv_sec = ns / SECOND;
	time->tv_nsec = ns % SECOND;
}

int evl_read_clock(int clockfd, struct timespec *tp)
{
	kit_enter();
	if (!kit_is_clock(clockfd))
		return -EBADF;
	if (!tp)
		return -EFAULT;
	set_time(tp, call_read_clock());
	return 0;
}

int evl_get_clock_resolution(int clockfd, struct timespec *tp)
{
	kit_enter();
	if (!kit_is_clock(clockfd))
		return -EBADF;
	if (!tp)
		return -EFAULT;
	set_time(tp, 1);
	return 0;
}

int evl_sleep_until(int clockfd, const struct timespec *timeout)
{
	long tick;
	int answer;

	kit_enter();
	if (!kit_is_clock(clockfd))
		return -EBADF;
	answer = kit_tick(timeout, &tick);
	if (answer < 0)
		return answer;
	answer = call_sleep_until(tick);
	kit_enter();
	return answer;
}

/* The tick that is as many microseconds after now. */
static long after(useconds_t usecs)
{
	return call_read_clock() + (usecs * 1000UL + __evl_tick_ns - 1) / __evl_tick_ns;
}

int evl_usleep(useconds_t usecs)
{
	int answer;

	kit_enter();
	answer = call_sleep_until(after(usecs));
	kit_enter();
	return answer;
}

/* ---- Timers. */

static struct {
	int made, clockfd;
	long first, period;
} timers[EVL_TIMERS];

static int timer_of(int efd)
{
	int number = efd - KIT_FD(KIT_TIMER, 0);

	return number >= 0 && number < EVL_TIMERS && timers[number].made ? number : -EBADF;
}

int evl_new_timer(int clockfd)
{
	long number;

	kit_enter();
	kit_go_inband();
	if (!kit_is_clock(clockfd))
		return -EBADF;
	number = call_new_timer();
	if (number < 0)
		return number;
	timers[number].clockfd = clockfd;
	timers[number].made = 1;
	return KIT_FD(KIT_TIMER, number);
}

/* The time until the next expiry, and the interval: 0 of a timer that is off. */
static void setting(int number, struct itimerspec *value)
{
	long now = call_read_clock(), next = timers[number].first, period = timers[number].period;

	if (next && period && next <= now)
		next += (now - next) / period * period + period;
	set_time(&value->it_value, next > now ? next - now : 0);
	set_time(&value->it_interval, period);
}

int evl_set_timer(int efd, const struct itimerspec *value, struct itimerspec *ovalue)
{
	int number = timer_of(efd), answer;
	struct itimerspec old;
	long first, period;

	kit_enter();
	if (number < 0)
		return number;
	if (!value)
		return -EFAULT;
	if ((answer = kit_tick(&value->it_value, &first)) < 0 || (answer = kit_tick(&value->it_interval, &period)) < 0)
		return answer;
	setting(number, &old);
	answer = kit_from_any_stage(48, number, first, period);
	if (answer < 0)
		return answer;
	timers[number].first = first;
	timers[number].period = period;
	if (ovalue)
		*ovalue = old;
	return 0;
}

int evl_get_timer(int efd, struct itimerspec *value)
{
	int number = timer_of(efd);

	kit_enter();
	if (number < 0)
		return number;
	if (!value)
		return -EFAULT;
	setting(number, value);
	return 0;
}

static ssize_t refused(int number)
{
	errno = number;
	return -1;
}

ssize_t oob_read(int efd, void *buffer, size_t size)
{
	int number = timer_of(efd);
	long answer;

	kit_enter();
	if (efd >= KIT_FD(KIT_THREAD, 0) && efd < KIT_FD(KIT_TIMER, 0))
		return refused(EINVAL);
	if (number < 0)
		return refused(EBADF);
	if (size < sizeof(__u64))
		return refused(EINVAL);
	if (!buffer)
		return refused(EFAULT);
	answer = call_wait_timer(number);
	kit_enter();
	if (answer < 0)
		return refused(-answer);
	*(__u64 *)buffer = answer;
	return sizeof(__u64);
}

int close(int fd)
{
	kit_enter();
	if (timer_of(fd) >= 0) {
		kit_from_any_stage(48, timer_of(fd), 0, 0);
		timers[timer_of(fd)].made = 0;
		return 0;
	}
	return fd >= KIT_FD(KIT_THREAD, 0) && fd < KIT_FD(KIT_TIMER, 0) ? 0 : refused(EBADF);
}

/* ---- Of the C library. */

static int sleep_inband(long tick)
{
	kit_go_inband();
	kit_from_any_stage(47, tick, 0, 0);
	kit_enter();
	return 0;
}

int usleep(useconds_t microseconds)
{
	kit_enter();
	return sleep_inband(after(microseconds));
}

unsigned int sleep(unsigned int seconds)
{
	kit_enter();
	return sleep_inband(call_read_clock() + (seconds * 1000000000UL + __evl_tick_ns - 1) / __evl_tick_ns);
}

int nanosleep(const struct timespec *time, struct timespec *left)
{
	return clock_nanosleep(CLOCK_MONOTONIC, 0, time, left) ? refused(EINVAL) : 0;
}

int clock_nanosleep(clockid_t clock, int flags, const struct timespec *time, struct timespec *left)
{
	long tick;

	kit_enter();
	if ((clock != CLOCK_MONOTONIC && clock != CLOCK_REALTIME) || kit_tick(time, &tick) < 0)
		return EINVAL;
	if (left)
		set_time(left, 0);
	return sleep_inband(flags & TIMER_ABSTIME ? tick : call_read_clock() + tick);
}

int clock_gettime(clockid_t clock, struct timespec *time)
{
	int answer = evl_read_clock(-clock, time);

	return answer < 0 ? refused(clock == CLOCK_MONOTONIC || clock == CLOCK_REALTIME ? -answer : EINVAL) : 0;
}

int clock_getres(clockid_t clock, struct timespec *resolution)
{
	int answer = evl_get_clock_resolution(-clock, resolution);

	return answer < 0 ? refused(EINVAL) : 0;
}

time_t time(time_t *seconds)
{
	struct timespec now;

	evl_read_clock(EVL_CLOCK_REALTIME, &now);
	if (seconds)
		*seconds = now.tv_sec;
	return now.tv_sec;
}
