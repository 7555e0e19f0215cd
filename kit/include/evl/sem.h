#ifndef _EVL_SEM_H
#define _EVL_SEM_H

#include <evl/clock.h>

struct evl_sem {
	unsigned int __state;
	int __number;
	const char *__name;
	int __clockfd;
	int __initval;
	int __flags;
};

#define __EVL_SEM_LATER 0xed25ed25
#define EVL_SEM_ANY_INITIALIZER(name, clockfd, initval, flags) \
	((struct evl_sem) { \
		.__state = __EVL_SEM_LATER, .__number = -1, .__name = (name), .__clockfd = (clockfd), \
		.__initval = (initval), .__flags = (flags), \
	})
#define EVL_SEM_INITIALIZER(list...) \
	EVL_SEM_ANY_INITIALIZER(__EVL_FIRST(list, 0), __EVL_SECOND(list), __EVL_THIRD(list), EVL_CLONE_PRIVATE)

#define evl_new_sem(sem, fmt, args...) \
	evl_create_sem(sem, EVL_CLOCK_MONOTONIC, 0, EVL_CLONE_PRIVATE, fmt, ##args)

__EVL_BEGIN

int evl_create_sem(struct evl_sem *sem, int clockfd, int initval, int flags, const char *fmt, ...);
int evl_get_sem(struct evl_sem *sem);
int evl_timedget_sem(struct evl_sem *sem, const struct timespec *timeout);
int evl_tryget_sem(struct evl_sem *sem);
int evl_put_sem(struct evl_sem *sem);
int evl_close_sem(struct evl_sem *sem);

int evl_peek_sem(struct evl_sem *sem, int *r_val) __EVL_ABSENT("evl_peek_sem() isn't here: no call tells the count of a semaphore; the debugger shows who waits");
int evl_flush_sem(struct evl_sem *sem) __EVL_ABSENT("evl_flush_sem() isn't here: no call wakes all waiters of a semaphore; use evl_broadcast_event()");
int evl_open_sem(struct evl_sem *sem, const char *fmt, ...) __EVL_NO_OPEN;

__EVL_END

#endif
