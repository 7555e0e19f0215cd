/* Two threads on two CPUs, pinned by sched_setaffinity() as they begin, wake each other by semaphores. */
#include <assert.h>
#include <errno.h>
#include <pthread.h>
#include <sched.h>
#include <stdio.h>
#include <unistd.h>
#include <evl/sem.h>
#include <evl/thread.h>

#define ROUNDS 5

static struct evl_sem ping = EVL_SEM_INITIALIZER("ping"), pong = EVL_SEM_INITIALIZER("pong");
static int ball;

static void pin_to(int cpu)
{
	cpu_set_t cpus;

	CPU_ZERO(&cpus);
	CPU_SET(cpu, &cpus);
	assert(sched_setaffinity(0, sizeof(cpus), &cpus) == 0);
	assert(sched_getcpu() == cpu);
}

static void *player(void *arg)
{
	int n;

	(void)arg;
	pin_to(1);
	assert(evl_attach_self("/player:%d", getpid()) >= 0);
	for (n = 0; n < ROUNDS; n++) {
		assert(evl_get_sem(&ping) == 0);
		assert(ball == 2 * n + 1);
		ball++;
		assert(evl_put_sem(&pong) == 0);
	}
	return (void *)(long)ball;
}

int main(void)
{
	cpu_set_t nowhere;
	void *result;
	pthread_t tid;
	int n;

	pin_to(0);
	CPU_ZERO(&nowhere);
	assert(sched_setaffinity(0, sizeof(nowhere), &nowhere) == -1 && errno == EINVAL);
	assert(evl_attach_self("/main:%d", getpid()) >= 0);
	assert(pthread_create(&tid, NULL, player, NULL) == 0);
	for (n = 0; n < ROUNDS; n++) {
		ball++;
		assert(evl_put_sem(&ping) == 0);
		assert(evl_get_sem(&pong) == 0);
		assert(ball == 2 * n + 2);
	}
	assert(pthread_join(tid, &result) == 0);
	printf("ball %ld\n", (long)result);
	return 0;
}
