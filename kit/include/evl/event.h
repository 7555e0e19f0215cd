#ifndef _EVL_EVENT_H
#define _EVL_EVENT_H

#include <evl/mutex.h>

struct evl_event {
	unsigned int __state;
	int __number;
	const char *__name;
	int __clockfd;
	int __flags;
};

#define __EVL_EVENT_LATER 0xed35ed35
#define EVL_EVENT_ANY_INITIALIZER(name, clockfd, flags) \
	((struct evl_event) { \
		.__state = __EVL_EVENT_LATER, .__number = -1, .__name = (name), .__clockfd = (clockfd), .__flags = (flags), \
	})
#define EVL_EVENT_INITIALIZER(list...) EVL_EVENT_ANY_INITIALIZER(__EVL_FIRST(list, 0), __EVL_SECOND(list), EVL_CLONE_PRIVATE)

#define evl_new_event(event, fmt, args...) evl_create_event(event, EVL_CLOCK_MONOTONIC, EVL_CLONE_PRIVATE, fmt, ##args)

__EVL_BEGIN

int evl_create_event(struct evl_event *event, int clockfd, int flags, const char *fmt, ...);
int evl_wait_event(struct evl_event *event, struct evl_mutex *mutex);
int evl_timedwait_event(struct evl_event *event, struct evl_mutex *mutex, const struct timespec *timeout);
int evl_signal_event(struct evl_event *event);
int evl_broadcast_event(struct evl_event *event);
int evl_close_event(struct evl_event *event);

int evl_signal_event_targeted(struct evl_event *event, int thrfd) __EVL_ABSENT("evl_signal_event_targeted() isn't here: a signal wakes the first waiter");
int evl_open_event(struct evl_event *event, const char *fmt, ...) __EVL_NO_OPEN;

int __evl_absent_priority(void) __EVL_ABSENT("EVL_EVENT_FIFO and EVL_EVENT_PRIO aren't here: waiters always go by rank, then by when they began");
#define EVL_EVENT_FIFO __evl_absent_priority()
#define EVL_EVENT_PRIO __evl_absent_priority()

__EVL_END

#endif
