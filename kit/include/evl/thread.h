#ifndef _EVL_THREAD_H
#define _EVL_THREAD_H

#include <stdbool.h>
#include <sys/types.h>
#include <evl/clock.h>
#include <evl/sched.h>

struct evl_thread_state {
	/* the effective attributes, with what a mutex gives: no call tells them */
	struct evl_sched_attrs eattrs __attribute__((__unavailable__("no call tells a boosted priority: evl_get_schedattr() has the thread's own")));
	int cpu;
};

/* Mode bits: of what the thread leaves a notice. */
#define EVL_T_WOSS (1 << 0) /* it goes in-band by an in-band call or a fault */
#define EVL_T_WOLI (1 << 1) /* a lock is refused with -EDEADLK, an unlock since the thread isn't the owner */
#define T_WOSS EVL_T_WOSS
#define T_WOLI EVL_T_WOLI

#define evl_attach_self(fmt, args...) evl_attach_thread(EVL_CLONE_PRIVATE, fmt, ##args)
#define evl_detach_self() evl_detach_thread(0)

__EVL_BEGIN

int evl_attach_thread(int flags, const char *fmt, ...);
int evl_detach_thread(int flags);
int evl_get_self(void);
int evl_switch_oob(void);
int evl_switch_inband(void);
bool evl_is_inband(void);
int evl_get_state(int efd, struct evl_thread_state *statebuf);
int evl_set_thread_mode(int efd, int mask, int *oldmask);
int evl_clear_thread_mode(int efd, int mask, int *oldmask);

int evl_unblock_thread(int efd) __EVL_ABSENT("evl_unblock_thread() isn't here: no call ends the wait of another task; give the wait a deadline");
int evl_demote_thread(int efd) __EVL_ABSENT("evl_demote_thread() isn't here: a task is demoted by its own call alone");
int evl_signal_thread(int efd, int signal) __EVL_ABSENT("evl_signal_thread() isn't here: there are no signals");
int evl_subscribe(int ofd, unsigned int backlog_count, int flags) __EVL_ABSENT("evl_subscribe() isn't here: there are no observables");
int evl_unsubscribe(int ofd) __EVL_ABSENT("evl_unsubscribe() isn't here: there are no observables");
int __evl_absent_mode(void) __EVL_ABSENT("of the mode bits T_WOSS and T_WOLI are here: a notice is neither a signal nor an observable");

#define EVL_T_WOSX __evl_absent_mode()
#define EVL_T_WOSO __evl_absent_mode()
#define EVL_T_HMSIG __evl_absent_mode()
#define EVL_T_HMOBS __evl_absent_mode()
#define T_WOSX EVL_T_WOSX
#define T_WOSO EVL_T_WOSO
#define T_HMSIG EVL_T_HMSIG
#define T_HMOBS EVL_T_HMOBS

__EVL_END

#endif
