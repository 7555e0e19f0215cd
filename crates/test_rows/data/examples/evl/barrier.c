/* A barrier for three threads, made of a mutex and an event; a thread that is a round ahead would be seen. */
#include <assert.h>
#include <pthread.h>
#include <stdbool.h>
#include <stdio.h>
#include <stdlib.h>
#include <unistd.h>
#include <evl/event.h>
#include <evl/mutex.h>
#include <evl/thread.h>

struct barrier {
	struct evl_mutex lock;
	struct evl_event turned;
	int width, arrived;
	unsigned long round;
};

#define PARTIES 3
#define ROUNDS 3

static struct barrier barrier;
static int progress[PARTIES];

static void barrier_init(struct barrier *b, int width)
{
	int ret;

	ret = evl_create_mutex(&b->lock, EVL_CLOCK_MONOTONIC, 0, EVL_MUTEX_NORMAL, "barrier-lock:%d", getpid());
	assert(ret >= 0);
	ret = evl_create_event(&b->turned, EVL_CLOCK_MONOTONIC, EVL_CLONE_PRIVATE, "barrier-event:%d", getpid());
	assert(ret >= 0);
	b->width = width;
	b->arrived = 0;
	b->round = 0;
}

/* true for the one that arrived last */
static bool barrier_wait(struct barrier *b)
{
	bool last = false;
	unsigned long round;
	int ret;

	ret = evl_lock_mutex(&b->lock);
	assert(ret == 0);
	round = b->round;
	if (++b->arrived == b->width) {
		b->arrived = 0;
		b->round++;
		last = true;
		ret = evl_broadcast_event(&b->turned);
		assert(ret == 0);
	} else {
		while (b->round == round) {
			ret = evl_wait_event(&b->turned, &b->lock);
			assert(ret == 0);
		}
	}
	ret = evl_unlock_mutex(&b->lock);
	assert(ret == 0);
	return last;
}

static void barrier_destroy(struct barrier *b)
{
	evl_close_event(&b->turned);
	evl_close_mutex(&b->lock);
}

static void *party(void *arg)
{
	long me = (long)arg, lasts = 0;
	int n, other;

	assert(evl_attach_self("party-%ld:%d", me, getpid()) >= 0);
	for (n = 1; n <= ROUNDS; n++) {
		progress[me] = n;
		lasts += barrier_wait(&barrier);
		for (other = 0; other < PARTIES; other++)
			assert(progress[other] >= n);
		lasts += 0 * barrier_wait(&barrier);
	}
	return (void *)lasts;
}

int main(void)
{
	long lasts = 0;
	pthread_t tids[PARTIES];
	long n;

	barrier_init(&barrier, PARTIES);
	for (n = 0; n < PARTIES; n++) {
		struct sched_param param = { .sched_priority = 50 };
		pthread_attr_t attr;
		cpu_set_t set;

		CPU_ZERO(&set);
		CPU_SET(n == 2, &set);
		pthread_attr_init(&attr);
		pthread_attr_setinheritsched(&attr, PTHREAD_EXPLICIT_SCHED);
		pthread_attr_setschedpolicy(&attr, SCHED_FIFO);
		pthread_attr_setschedparam(&attr, &param);
		pthread_attr_setaffinity_np(&attr, sizeof(set), &set);
		if (pthread_create(&tids[n], &attr, party, (void *)n))
			abort();
	}
	for (n = 0; n < PARTIES; n++) {
		void *result;

		pthread_join(tids[n], &result);
		lasts += (long)result;
	}
	barrier_destroy(&barrier);
	printf("%ld rounds\n", lasts);
	return lasts != ROUNDS;
}
