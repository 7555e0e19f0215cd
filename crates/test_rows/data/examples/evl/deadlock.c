/* Two threads take two mutexes in opposite orders. The lock that would close the cycle is refused, and that thread backs off. */
#include <errno.h>
#include <error.h>
#include <pthread.h>
#include <stdio.h>
#include <unistd.h>
#include <evl/evl.h>

static struct evl_mutex left, right;
static struct evl_sem arrived[2];
static int refusals[2], rounds[2];

static void check(int ret, const char *text)
{
	if (ret < 0)
		error(1, -ret, "%s", text);
}

static void take_both(int who, struct evl_mutex *first, struct evl_mutex *second)
{
	int ret;

	for (;;) {
		ret = evl_lock_mutex(second);
		if (ret == 0)
			break;
		if (ret != -EDEADLK)
			check(ret, "evl_lock_mutex()");
		refusals[who]++;
		check(evl_unlock_mutex(first), "evl_unlock_mutex()");
		check(evl_lock_mutex(first), "evl_lock_mutex()");
	}
	rounds[who]++;
	check(evl_unlock_mutex(second), "evl_unlock_mutex()");
	check(evl_unlock_mutex(first), "evl_unlock_mutex()");
}

static void *thread(void *arg)
{
	int who = (int)(long)arg;
	struct evl_mutex *first = who ? &right : &left, *second = who ? &left : &right;

	check(evl_attach_self("thread:%d.%d", getpid(), who), "evl_attach_self()");
	check(evl_lock_mutex(first), "evl_lock_mutex()");
	check(evl_put_sem(&arrived[!who]), "evl_put_sem()");
	check(evl_get_sem(&arrived[who]), "evl_get_sem()");
	take_both(who, first, second);
	return NULL;
}

int main(void)
{
	pthread_t tids[2];
	int n, ret;

	check(evl_new_mutex(&left, "left:%d", getpid()), "evl_new_mutex()");
	check(evl_new_mutex(&right, "right:%d", getpid()), "evl_new_mutex()");
	for (n = 0; n < 2; n++)
		check(evl_new_sem(&arrived[n], "arrived:%d.%d", getpid(), n), "evl_new_sem()");

	for (n = 0; n < 2; n++) {
		struct sched_param param = { .sched_priority = 10 + n };
		pthread_attr_t attr;
		cpu_set_t cpus;

		CPU_ZERO(&cpus);
		CPU_SET(n, &cpus);
		pthread_attr_init(&attr);
		pthread_attr_setinheritsched(&attr, PTHREAD_EXPLICIT_SCHED);
		pthread_attr_setschedpolicy(&attr, SCHED_FIFO);
		pthread_attr_setschedparam(&attr, &param);
		pthread_attr_setaffinity_np(&attr, sizeof(cpus), &cpus);
		ret = pthread_create(&tids[n], &attr, thread, (void *)(long)n);
		if (ret)
			error(1, ret, "pthread_create()");
	}
	for (n = 0; n < 2; n++)
		pthread_join(tids[n], NULL);
	if (refusals[0] + refusals[1] < 1 || rounds[0] != 1 || rounds[1] != 1)
		error(1, EINVAL, "refusals %d and %d", refusals[0], refusals[1]);
	printf("both took both\n");
	return 0;
}
