/* What EVL answers to handles that were never made or are closed, to clocks that aren't there, and to bad names and times. */
#include <errno.h>
#include <error.h>
#include <pthread.h>
#include <stdio.h>
#include <string.h>
#include <unistd.h>
#include <evl/evl.h>

static int asked;

static void expect(const char *what, long got, long wanted)
{
	asked++;
	if (got != wanted)
		error(1, 0, "%s: %ld in place of %ld", what, got, wanted);
}

#define EXPECT(call, wanted) expect(#call, call, wanted)

static struct evl_mutex no_mutex, mutex;
static struct evl_sem no_sem, sem;
static struct evl_event no_event, event;
static struct evl_flags no_flags, flags;

static void never_made(void)
{
	struct timespec later = { .tv_sec = 1 };
	int bits;

	EXPECT(evl_lock_mutex(&no_mutex), -EINVAL);
	EXPECT(evl_trylock_mutex(&no_mutex), -EINVAL);
	EXPECT(evl_unlock_mutex(&no_mutex), -EINVAL);
	EXPECT(evl_get_mutex_ceiling(&no_mutex), -EINVAL);
	EXPECT(evl_get_sem(&no_sem), -EINVAL);
	EXPECT(evl_timedget_sem(&no_sem, &later), -EINVAL);
	EXPECT(evl_put_sem(&no_sem), -EINVAL);
	EXPECT(evl_signal_event(&no_event), -EINVAL);
	EXPECT(evl_wait_flags(&no_flags, &bits), -EINVAL);
	EXPECT(evl_post_flags(&no_flags, 1), -EINVAL);
	EXPECT(evl_close_sem(&no_sem), -EINVAL);
}

static void bad_creations(void)
{
	EXPECT(evl_create_mutex(&mutex, 77, 0, EVL_MUTEX_NORMAL, "mutex"), -EINVAL);
	EXPECT(evl_create_mutex(&mutex, EVL_CLOCK_MONOTONIC, 100, EVL_MUTEX_NORMAL, "mutex"), -EINVAL);
	EXPECT(evl_create_mutex(&mutex, EVL_CLOCK_MONOTONIC, 0, 1 << 5, "mutex"), -EINVAL);
	EXPECT(evl_new_mutex(&mutex, "a/b"), -EINVAL);
	EXPECT(evl_create_sem(&sem, -17, 0, EVL_CLONE_PRIVATE, "sem"), -EINVAL);
	EXPECT(evl_create_sem(&sem, EVL_CLOCK_MONOTONIC, -1, EVL_CLONE_PRIVATE, "sem"), -EINVAL);
	EXPECT(evl_lock_mutex(&mutex), -EINVAL);
	expect("public", evl_create_sem(&sem, EVL_CLOCK_MONOTONIC, 0, EVL_CLONE_PUBLIC, "shared") >= 0, 1);
	EXPECT(evl_create_sem(&no_sem, EVL_CLOCK_MONOTONIC, 0, EVL_CLONE_PUBLIC, "shared"), -EEXIST);
}

static void bad_descriptors(int efd)
{
	struct itimerspec value = { .it_value = { .tv_sec = 1 } };
	struct evl_sched_attrs attrs = { .sched_policy = SCHED_FIFO, .sched_priority = 1 };
	struct timespec now, never = { .tv_nsec = 1000000000 };
	__u64 ticks;
	int tmfd;

	EXPECT(evl_read_clock(99, &now), -EBADF);
	EXPECT(evl_sleep_until(EVL_CLOCK_MONOTONIC, &never), -EINVAL);
	EXPECT(evl_new_timer(99), -EBADF);
	EXPECT(evl_set_timer(5, &value, NULL), -EBADF);
	EXPECT(evl_set_timer(efd, &value, NULL), -EBADF);
	EXPECT(oob_read(5, &ticks, sizeof(ticks)), -1);
	expect("errno", errno, EBADF);
	EXPECT(oob_read(efd, &ticks, sizeof(ticks)), -1);
	expect("errno", errno, EINVAL);
	EXPECT(evl_set_schedattr(5, &attrs), -EBADF);
	attrs.sched_policy = SCHED_OTHER;
	EXPECT(evl_set_schedattr(efd, &attrs), -EINVAL);
	EXPECT(evl_set_thread_mode(5, T_WOSS, NULL), -EBADF);
	tmfd = evl_new_timer(EVL_CLOCK_REALTIME);
	EXPECT(oob_read(tmfd, &ticks, 4), -1);
	EXPECT(oob_read(tmfd, &ticks, sizeof(ticks)), -1); /* it is off */
	expect("errno", errno, EAGAIN);
	EXPECT(close(tmfd), 0);
	EXPECT(evl_set_timer(tmfd, &value, NULL), -EBADF);
}

int main(void)
{
	int efd;

	EXPECT(evl_get_sem(&no_sem), -EINVAL);
	EXPECT(evl_yield(), -EPERM);
	efd = evl_attach_self("bad-handles:%d", getpid());
	expect("attached", efd >= 0, 1);
	never_made();
	bad_creations();
	bad_descriptors(efd);
	EXPECT(evl_close_sem(&sem), 0);
	EXPECT(evl_get_sem(&sem), -EINVAL);
	expect("name again", evl_create_sem(&sem, EVL_CLOCK_MONOTONIC, 0, EVL_CLONE_PUBLIC, "shared") >= 0, 1);
	expect("event", evl_new_event(&event, NULL) >= 0, 1);
	EXPECT(evl_wait_event(&event, &no_mutex), -EINVAL);
	expect("flags", evl_new_flags(&flags, "flags") >= 0, 1);
	EXPECT(evl_post_flags(&flags, 0), -EINVAL);
	EXPECT(pthread_join((pthread_t)12345, NULL), ESRCH);
	printf("%d answers are as they should be\n", asked);
	return 0;
}
