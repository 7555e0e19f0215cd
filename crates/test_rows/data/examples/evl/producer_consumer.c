/* A ring of four items between a producer and a consumer, counted by two semaphores. */
#include <error.h>
#include <pthread.h>
#include <stdio.h>
#include <string.h>
#include <unistd.h>
#include <evl/mutex.h>
#include <evl/sem.h>
#include <evl/thread.h>
#include <evl/proxy.h>

#define ITEMS 12
#define ROOM 4

static struct evl_sem free_slots, filled_slots;
static struct evl_mutex guard;
static int ring[ROOM], head, tail;

static void check(int ret)
{
	if (ret < 0)
		error(1, -ret, "EVL call");
}

static void *producer(void *arg)
{
	int item;

	(void)arg;
	check(evl_attach_self("producer:%d", getpid()));
	for (item = 1; item <= ITEMS; item++) {
		check(evl_get_sem(&free_slots));
		check(evl_lock_mutex(&guard));
		ring[head++ % ROOM] = item;
		check(evl_unlock_mutex(&guard));
		check(evl_put_sem(&filled_slots));
	}
	return NULL;
}

static void *consumer(void *arg)
{
	int *sum = arg, n;

	check(evl_attach_self("consumer:%d", getpid()));
	for (n = 1; n <= ITEMS; n++) {
		int item;

		check(evl_get_sem(&filled_slots));
		check(evl_lock_mutex(&guard));
		item = ring[tail++ % ROOM];
		check(evl_unlock_mutex(&guard));
		check(evl_put_sem(&free_slots));
		if (item != n)
			error(1, 0, "item %d in place of %d", item, n);
		*sum += item;
	}
	evl_printf("consumed %d items\n", ITEMS);
	return NULL;
}

static void start(pthread_t *tid, void *(*fn)(void *), void *arg, int cpu, int prio)
{
	struct sched_param param;
	pthread_attr_t attr;
	cpu_set_t set;
	int ret;

	memset(&param, 0, sizeof(param));
	param.sched_priority = prio;
	CPU_ZERO(&set);
	CPU_SET(cpu, &set);
	pthread_attr_init(&attr);
	pthread_attr_setdetachstate(&attr, PTHREAD_CREATE_JOINABLE);
	pthread_attr_setinheritsched(&attr, PTHREAD_EXPLICIT_SCHED);
	pthread_attr_setschedpolicy(&attr, SCHED_FIFO);
	pthread_attr_setschedparam(&attr, &param);
	pthread_attr_setaffinity_np(&attr, sizeof(set), &set);
	ret = pthread_create(tid, &attr, fn, arg);
	pthread_attr_destroy(&attr);
	if (ret)
		error(1, ret, "pthread_create()");
}

int main(void)
{
	pthread_t prod, cons;
	int sum = 0;

	check(evl_create_sem(&free_slots, EVL_CLOCK_MONOTONIC, ROOM, EVL_CLONE_PRIVATE, "free:%d", getpid()));
	check(evl_create_sem(&filled_slots, EVL_CLOCK_MONOTONIC, 0, EVL_CLONE_PRIVATE, "filled:%d", getpid()));
	check(evl_new_mutex(&guard, "guard:%d", getpid()));
	start(&cons, consumer, &sum, 0, 20);
	start(&prod, producer, NULL, 1, 10);
	pthread_join(prod, NULL);
	pthread_join(cons, NULL);
	printf("sum %d\n", sum);
	return sum != ITEMS * (ITEMS + 1) / 2;
}
