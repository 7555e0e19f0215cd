#ifndef _EVL_CLOCK_H
#define _EVL_CLOCK_H

#include <evl/element.h>

/* Both are the clock of the machine, which counts the ticks since boot. */
#define EVL_CLOCK_MONOTONIC (-CLOCK_MONOTONIC)
#define EVL_CLOCK_REALTIME (-CLOCK_REALTIME)

__EVL_BEGIN

int evl_read_clock(int clockfd, struct timespec *tp);
int evl_get_clock_resolution(int clockfd, struct timespec *tp);
int evl_sleep_until(int clockfd, const struct timespec *timeout);
int evl_usleep(useconds_t usecs);

int evl_set_clock(int clockfd, const struct timespec *tp) __EVL_ABSENT("evl_set_clock() isn't here: the clock is the ticks since boot");
int evl_adjust_clock(int clockfd, void *tx) __EVL_ABSENT("evl_adjust_clock() isn't here: the clock is the ticks since boot");

__EVL_END

#endif
