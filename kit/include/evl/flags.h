#ifndef _EVL_FLAGS_H
#define _EVL_FLAGS_H

#include <evl/clock.h>

struct evl_flags {
	unsigned int __state;
	int __number;
	const char *__name;
	int __clockfd;
	int __initval;
	int __flags;
};

#define __EVL_FLAGS_LATER 0xed45ed45
#define EVL_FLAGS_ANY_INITIALIZER(name, clockfd, initval, flags) \
	((struct evl_flags) { \
		.__state = __EVL_FLAGS_LATER, .__number = -1, .__name = (name), .__clockfd = (clockfd), \
		.__initval = (initval), .__flags = (flags), \
	})
#define EVL_FLAGS_INITIALIZER(list...) \
	EVL_FLAGS_ANY_INITIALIZER(__EVL_FIRST(list, 0), __EVL_SECOND(list), __EVL_THIRD(list), EVL_CLONE_PRIVATE)

#define evl_new_flags(flg, fmt, args...) \
	evl_create_flags(flg, EVL_CLOCK_MONOTONIC, 0, EVL_CLONE_PRIVATE, fmt, ##args)

__EVL_BEGIN

int evl_create_flags(struct evl_flags *flg, int clockfd, int initval, int flags, const char *fmt, ...);
int evl_wait_flags(struct evl_flags *flg, int *r_bits);
int evl_timedwait_flags(struct evl_flags *flg, const struct timespec *timeout, int *r_bits);
int evl_trywait_flags(struct evl_flags *flg, int *r_bits);
int evl_post_flags(struct evl_flags *flg, int bits);
int evl_close_flags(struct evl_flags *flg);

#define __EVL_WHOLE_WORD __EVL_ABSENT("a wait for some of the bits isn't here: a wait takes the whole word of the group")
int evl_wait_some_flags(struct evl_flags *flg, int bits, int *r_bits) __EVL_WHOLE_WORD;
int evl_timedwait_some_flags(struct evl_flags *flg, int bits, const struct timespec *timeout, int *r_bits) __EVL_WHOLE_WORD;
int evl_trywait_some_flags(struct evl_flags *flg, int bits, int *r_bits) __EVL_WHOLE_WORD;
int evl_broadcast_flags(struct evl_flags *flg, int bits) __EVL_ABSENT("evl_broadcast_flags() isn't here: a post wakes one waiter; use evl_broadcast_event()");
int evl_peek_flags(struct evl_flags *flg, int *r_bits) __EVL_ABSENT("evl_peek_flags() isn't here: no call tells the word of a group without taking it");
int evl_open_flags(struct evl_flags *flg, const char *fmt, ...) __EVL_NO_OPEN;

__EVL_END

#endif
