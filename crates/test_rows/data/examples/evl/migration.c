/* Migration: a thread moves to another processor by its affinity, with the mutex for which another waits, and back. */
#include <assert.h>
#include <errno.h>
#include <pthread.h>
#include <stdio.h>
#include <unistd.h>
#include <evl/mutex.h>
#include <evl/sched.h>
#include <evl/sem.h>
#include <evl/thread.h>

static struct evl_mutex mutex = EVL_MUTEX_INITIALIZER("mutex");
static struct evl_sem owned = EVL_SEM_INITIALIZER("owned");
static int moves;

static cpu_set_t only(int cpu)
{
	cpu_set_t set;

	CPU_ZERO(&set);
	CPU_SET(cpu, &set);
	return set;
}

static void go_to(int cpu)
{
	cpu_set_t there = only(cpu), nowhere = only(63);

	assert(pthread_setaffinity_np(pthread_self(), sizeof(nowhere), &nowhere) == EINVAL);
	assert(pthread_setaffinity_np(pthread_self(), sizeof(there), &there) == 0);
	assert(evl_is_inband());                        /* it is a call of Linux */
	assert(sched_getcpu() == cpu);
	moves++;
}

static void *mover(void *arg)
{
	struct evl_sched_attrs attrs;
	struct evl_thread_state state;
	int efd, tid = gettid();

	(void)arg;
	efd = evl_attach_self("mover:%d", getpid());
	assert(efd >= 0);
	assert(evl_get_state(efd, &state) == 0 && state.cpu == 0);
	assert(evl_lock_mutex(&mutex) == 0);
	assert(evl_put_sem(&owned) == 0);

	go_to(1);
	assert(gettid() == tid);
	assert(evl_get_state(efd, &state) == 0 && state.cpu == 1);
	assert(evl_get_schedattr(efd, &attrs) == 0);
	assert(attrs.sched_policy == SCHED_FIFO && attrs.sched_priority == 20);
	assert(evl_switch_oob() == 0);
	assert(evl_unlock_mutex(&mutex) == 0);          /* it is still its own */

	go_to(0);
	return NULL;
}

static void *waiter(void *arg)
{
	(void)arg;
	assert(evl_attach_self("waiter:%d", getpid()) >= 0);
	assert(evl_get_sem(&owned) == 0);
	assert(evl_lock_mutex(&mutex) == 0);            /* until the mover unlocks it, on processor 1 */
	assert(sched_getcpu() == 0);
	assert(evl_unlock_mutex(&mutex) == 0);
	return NULL;
}

static pthread_t start(void *(*fn)(void *), int priority)
{
	struct sched_param param = { .sched_priority = priority };
	cpu_set_t first = only(0);
	pthread_attr_t attr;
	pthread_t tid;

	pthread_attr_init(&attr);
	pthread_attr_setinheritsched(&attr, PTHREAD_EXPLICIT_SCHED);
	pthread_attr_setschedpolicy(&attr, SCHED_FIFO);
	pthread_attr_setschedparam(&attr, &param);
	assert(pthread_attr_setaffinity_np(&attr, sizeof(first), &first) == 0);
	assert(pthread_create(&tid, &attr, fn, NULL) == 0);
	return tid;
}

int main(void)
{
	pthread_t tids[2];

	go_to(1);                                       /* a thread that isn't attached moves too */
	tids[0] = start(mover, 20);
	tids[1] = start(waiter, 30);
	assert(pthread_join(tids[0], NULL) == 0);
	assert(pthread_join(tids[1], NULL) == 0);
	go_to(0);
	printf("%d moves, one with a mutex\n", moves);
	return 0;
}
