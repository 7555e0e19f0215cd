#ifndef _TIME_H
#define _TIME_H

#include <sys/types.h>
#include <evl/absent.h>

struct timespec {
	time_t tv_sec;
	long tv_nsec;
};

struct itimerspec {
	struct timespec it_interval;
	struct timespec it_value;
};

#define CLOCK_REALTIME 0
#define CLOCK_MONOTONIC 1
#define TIMER_ABSTIME 1

__EVL_BEGIN

/* The nanoseconds of a tick: one millisecond, or what the program is compiled with, as -DEVL_TICK_NS=100000. */
#ifdef EVL_TICK_NS
extern const unsigned long __evl_tick_ns;
const unsigned long __evl_tick_ns __attribute__((weak)) = EVL_TICK_NS;
#endif

/* Both clocks are the machine's, which is 0 at boot. Sleeps go in-band; evl_sleep_until() doesn't. */
int clock_gettime(clockid_t clock, struct timespec *time);
int clock_getres(clockid_t clock, struct timespec *resolution);
int clock_nanosleep(clockid_t clock, int flags, const struct timespec *time, struct timespec *left);
int nanosleep(const struct timespec *time, struct timespec *left);
time_t time(time_t *seconds);

int clock_settime(clockid_t clock, const struct timespec *time) __EVL_ABSENT("clock_settime() isn't here: the clock is the ticks since boot");

__EVL_END

#endif
