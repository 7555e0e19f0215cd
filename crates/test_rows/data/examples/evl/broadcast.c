/* Three threads wait for one event, and one broadcast lets all of them go. */
#include <assert.h>
#include <pthread.h>
#include <stdio.h>
#include <unistd.h>
#include <evl/event.h>
#include <evl/mutex.h>
#include <evl/sem.h>
#include <evl/thread.h>

#define WAITERS 3

static struct evl_mutex lock;
static struct evl_event start;
static struct evl_sem waiting;
static int started, gone;

static void *waiter(void *arg)
{
	int number = (int)(long)arg;

	assert(evl_attach_self("waiter-%d:%d", number, getpid()) >= 0);
	assert(evl_lock_mutex(&lock) == 0);
	assert(evl_put_sem(&waiting) == 0);
	while (!started)
		assert(evl_wait_event(&start, &lock) == 0);
	gone++;
	assert(evl_unlock_mutex(&lock) == 0);
	return NULL;
}

int main(void)
{
	pthread_t tids[WAITERS];
	long n;

	assert(evl_new_mutex(&lock, "lock:%d", getpid()) >= 0);
	assert(evl_new_event(&start, "start:%d", getpid()) >= 0);
	assert(evl_new_sem(&waiting, "waiting:%d", getpid()) >= 0);
	assert(evl_attach_self("main:%d", getpid()) >= 0);
	for (n = 0; n < WAITERS; n++) {
		struct sched_param param = { .sched_priority = 10 * (n + 1) };
		pthread_attr_t attr;
		cpu_set_t set;

		CPU_ZERO(&set);
		CPU_SET(n % 2, &set);
		pthread_attr_init(&attr);
		pthread_attr_setinheritsched(&attr, PTHREAD_EXPLICIT_SCHED);
		pthread_attr_setschedpolicy(&attr, n == 1 ? SCHED_RR : SCHED_FIFO);
		pthread_attr_setschedparam(&attr, &param);
		pthread_attr_setaffinity_np(&attr, sizeof(set), &set);
		assert(pthread_create(&tids[n], &attr, waiter, (void *)n) == 0);
	}
	/* each has the lock when it puts, so all wait for the event once main has the lock */
	for (n = 0; n < WAITERS; n++)
		assert(evl_get_sem(&waiting) == 0);
	assert(evl_lock_mutex(&lock) == 0);
	assert(gone == 0);
	started = 1;
	assert(evl_broadcast_event(&start) == 0);
	assert(gone == 0);
	assert(evl_unlock_mutex(&lock) == 0);
	for (n = 0; n < WAITERS; n++)
		assert(pthread_join(tids[n], NULL) == 0);
	assert(gone == WAITERS);
	printf("%d waiters have gone\n", gone);
	return 0;
}
