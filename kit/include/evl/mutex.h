#ifndef _EVL_MUTEX_H
#define _EVL_MUTEX_H

#include <evl/clock.h>

#define EVL_MUTEX_NORMAL (0 << 0)
#define EVL_MUTEX_RECURSIVE (1 << 0)

struct evl_mutex {
	unsigned int __state;
	int __number;
	const char *__name;
	int __clockfd;
	unsigned int __ceiling;
	int __flags;
};

#define __EVL_MUTEX_LATER 0xed15ed15
#define EVL_MUTEX_ANY_INITIALIZER(name, clockfd, ceiling, flags) \
	((struct evl_mutex) { \
		.__state = __EVL_MUTEX_LATER, .__number = -1, .__name = (name), .__clockfd = (clockfd), \
		.__ceiling = (ceiling), .__flags = (flags), \
	})
#define EVL_MUTEX_INITIALIZER(list...) \
	EVL_MUTEX_ANY_INITIALIZER(__EVL_FIRST(list, 0), __EVL_SECOND(list), 0, EVL_MUTEX_NORMAL)
#define EVL_MUTEX_CEILING_INITIALIZER(name, clockfd, ceiling) \
	EVL_MUTEX_ANY_INITIALIZER(name, clockfd, ceiling, EVL_MUTEX_NORMAL)

#define evl_new_mutex(mutex, fmt, args...) \
	evl_create_mutex(mutex, EVL_CLOCK_MONOTONIC, 0, EVL_MUTEX_NORMAL, fmt, ##args)

__EVL_BEGIN

int evl_create_mutex(struct evl_mutex *mutex, int clockfd, unsigned int ceiling, int flags, const char *fmt, ...);
int evl_lock_mutex(struct evl_mutex *mutex);
int evl_timedlock_mutex(struct evl_mutex *mutex, const struct timespec *timeout);
int evl_trylock_mutex(struct evl_mutex *mutex);
int evl_unlock_mutex(struct evl_mutex *mutex);
int evl_get_mutex_ceiling(struct evl_mutex *mutex);
int evl_close_mutex(struct evl_mutex *mutex);

int evl_set_mutex_ceiling(struct evl_mutex *mutex, unsigned int ceiling) __EVL_ABSENT("evl_set_mutex_ceiling() isn't here: a mutex keeps the ceiling of evl_create_mutex()");
int evl_open_mutex(struct evl_mutex *mutex, const char *fmt, ...) __EVL_NO_OPEN;

__EVL_END

#endif
