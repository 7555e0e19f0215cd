/* Waits with deadlines: each ends with -ETIMEDOUT, none before its time, and one in the past at once. */
#include <assert.h>
#include <errno.h>
#include <pthread.h>
#include <stdio.h>
#include <time.h>
#include <unistd.h>
#include <evl/clock.h>
#include <evl/event.h>
#include <evl/flags.h>
#include <evl/mutex.h>
#include <evl/sem.h>
#include <evl/thread.h>

static struct evl_sem sem, locked, done;
static struct evl_mutex mutex, taken;
static struct evl_event event;
static struct evl_flags flags;

static struct timespec in_ms(long ms)
{
	struct timespec ts;

	assert(evl_read_clock(EVL_CLOCK_MONOTONIC, &ts) == 0);
	ts.tv_nsec += ms * 1000000;
	if (ts.tv_nsec >= 1000000000) {
		ts.tv_sec++;
		ts.tv_nsec -= 1000000000;
	}
	return ts;
}

static int has_come(const struct timespec *deadline)
{
	struct timespec now;

	assert(evl_read_clock(EVL_CLOCK_MONOTONIC, &now) == 0);
	return now.tv_sec > deadline->tv_sec || (now.tv_sec == deadline->tv_sec && now.tv_nsec >= deadline->tv_nsec);
}

static void *owner(void *arg)
{
	(void)arg;
	assert(evl_attach_self("owner:%d", getpid()) >= 0);
	assert(evl_lock_mutex(&taken) == 0);
	assert(evl_put_sem(&locked) == 0);
	assert(evl_get_sem(&done) == 0);
	assert(evl_unlock_mutex(&taken) == 0);
	return NULL;
}

static void create_all(void)
{
	assert(evl_new_sem(&sem, "sem:%d", getpid()) >= 0);
	assert(evl_new_sem(&locked, "locked:%d", getpid()) >= 0);
	assert(evl_new_sem(&done, "done:%d", getpid()) >= 0);
	assert(evl_new_mutex(&mutex, "mutex:%d", getpid()) >= 0);
	assert(evl_new_mutex(&taken, "taken:%d", getpid()) >= 0);
	assert(evl_new_event(&event, "event:%d", getpid()) >= 0);
	assert(evl_new_flags(&flags, "flags:%d", getpid()) >= 0);
}

int main(void)
{
	struct timespec deadline;
	pthread_t tid;
	int bits = 0;

	create_all();
	assert(evl_attach_self("main:%d", getpid()) >= 0);
	assert(pthread_create(&tid, NULL, owner, NULL) == 0);
	assert(evl_get_sem(&locked) == 0);

	deadline = in_ms(3);
	assert(evl_timedget_sem(&sem, &deadline) == -ETIMEDOUT);
	assert(has_come(&deadline));
	assert(evl_timedget_sem(&sem, &deadline) == -ETIMEDOUT); /* past */
	assert(evl_put_sem(&sem) == 0);
	assert(evl_timedget_sem(&sem, &deadline) == 0); /* past, but it need not wait */

	deadline = in_ms(2);
	assert(evl_timedlock_mutex(&taken, &deadline) == -ETIMEDOUT);
	assert(has_come(&deadline));
	assert(evl_put_sem(&done) == 0);

	deadline = in_ms(2);
	assert(evl_lock_mutex(&mutex) == 0);
	assert(evl_timedwait_event(&event, &mutex, &deadline) == -ETIMEDOUT);
	assert(has_come(&deadline));
	assert(evl_unlock_mutex(&mutex) == 0); /* owned again */

	deadline = in_ms(2);
	assert(evl_timedwait_flags(&flags, &deadline, &bits) == -ETIMEDOUT);
	assert(has_come(&deadline));
	assert(evl_post_flags(&flags, 5) == 0);
	assert(evl_timedwait_flags(&flags, &deadline, &bits) == 0 && bits == 5);

	deadline.tv_nsec = -1;
	assert(evl_timedget_sem(&sem, &deadline) == -EINVAL);
	assert(pthread_join(tid, NULL) == 0);
	printf("four waits timed out\n");
	return 0;
}
