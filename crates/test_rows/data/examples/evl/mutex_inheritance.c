/*
 * A mutex with priority inheritance: low owns it on CPU1, middle keeps that CPU busy, and high waits for it. Middle stops
 * when high has had the mutex. So the program ends only because low inherits the priority of high.
 */
#include <error.h>
#include <pthread.h>
#include <stdio.h>
#include <stdlib.h>
#include <string.h>
#include <unistd.h>
#include <evl/mutex.h>
#include <evl/sem.h>
#include <evl/thread.h>

#define CHECK(call) \
	do { \
		int __ret = (call); \
		if (__ret < 0) \
			error(1, -__ret, "%s", #call); \
	} while (0)

static struct evl_mutex mutex;
static struct evl_sem ready, go, locked, spinning;
static volatile int middle_spins, high_has_had_it;

static void *low(void *arg)
{
	(void)arg;
	CHECK(evl_attach_self("low:%d", getpid()));
	CHECK(evl_lock_mutex(&mutex));
	CHECK(evl_put_sem(&locked));
	while (!middle_spins)
		;
	CHECK(evl_unlock_mutex(&mutex));
	return NULL;
}

static void *middle(void *arg)
{
	(void)arg;
	CHECK(evl_attach_self("middle:%d", getpid()));
	CHECK(evl_switch_oob());
	CHECK(evl_put_sem(&ready));
	CHECK(evl_get_sem(&go));
	middle_spins = 1;
	CHECK(evl_put_sem(&spinning));
	while (!high_has_had_it)
		;
	return NULL;
}

static pthread_t create(void *(*fn)(void *), int prio, int cpu)
{
	struct sched_param param = { .sched_priority = prio };
	pthread_attr_t attr;
	cpu_set_t set;
	pthread_t tid;
	int ret;

	CPU_ZERO(&set);
	CPU_SET(cpu, &set);
	pthread_attr_init(&attr);
	pthread_attr_setinheritsched(&attr, PTHREAD_EXPLICIT_SCHED);
	pthread_attr_setschedpolicy(&attr, SCHED_FIFO);
	pthread_attr_setschedparam(&attr, &param);
	pthread_attr_setaffinity_np(&attr, sizeof(set), &set);
	ret = pthread_create(&tid, &attr, fn, NULL);
	if (ret)
		error(1, ret, "pthread_create()");
	return tid;
}

int main(void)
{
	struct sched_param param = { .sched_priority = 30 };
	pthread_t tlow, tmiddle;
	int ret;

	ret = pthread_setschedparam(pthread_self(), SCHED_FIFO, &param);
	if (ret)
		error(1, ret, "pthread_setschedparam()");
	CHECK(evl_attach_self("high:%d", getpid()));
	CHECK(evl_new_mutex(&mutex, "pi-mutex:%d", getpid()));
	CHECK(evl_new_sem(&ready, "ready:%d", getpid()));
	CHECK(evl_new_sem(&go, "go:%d", getpid()));
	CHECK(evl_new_sem(&locked, "locked:%d", getpid()));
	CHECK(evl_new_sem(&spinning, "spinning:%d", getpid()));
	tmiddle = create(middle, 20, 1);
	CHECK(evl_get_sem(&ready));
	tlow = create(low, 10, 1);
	CHECK(evl_get_sem(&locked));
	CHECK(evl_put_sem(&go));
	CHECK(evl_get_sem(&spinning));
	CHECK(evl_lock_mutex(&mutex));
	high_has_had_it = 1;
	CHECK(evl_unlock_mutex(&mutex));
	pthread_join(tlow, NULL);
	pthread_join(tmiddle, NULL);
	printf("high got the mutex of low\n");
	return EXIT_SUCCESS;
}
