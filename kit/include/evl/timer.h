#ifndef _EVL_TIMER_H
#define _EVL_TIMER_H

#include <evl/clock.h>
#include <evl/syscall.h>

__EVL_BEGIN

/* oob_read() of the descriptor waits for the timer, and reads the number of expiries into a __u64. */
int evl_new_timer(int clockfd);
int evl_set_timer(int efd, const struct itimerspec *value, struct itimerspec *ovalue);
int evl_get_timer(int efd, struct itimerspec *value);

__EVL_END

#endif
