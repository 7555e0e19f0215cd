/* Four philosophers on two CPUs: each takes the lower fork first, so they never wait in a circle. */
#include <stdio.h>
#include <stdlib.h>
#include <string.h>
#include <pthread.h>
#include <unistd.h>
#include <evl/evl.h>

#define SEATS 4
#define MEALS 2

static struct evl_mutex forks[SEATS];
static unsigned int meals[SEATS];
static volatile unsigned int holders[SEATS];

static void fail(const char *what, int ret)
{
	fprintf(stderr, "%s: %s\n", what, strerror(-ret));
	exit(EXIT_FAILURE);
}

static void take(unsigned int fork)
{
	int ret = evl_lock_mutex(&forks[fork]);

	if (ret)
		fail("evl_lock_mutex", ret);
	if (holders[fork]++)
		fail("fork", -EBUSY);
}

static void put_down(unsigned int fork)
{
	int ret;

	holders[fork]--;
	ret = evl_unlock_mutex(&forks[fork]);
	if (ret)
		fail("evl_unlock_mutex", ret);
}

static void *philosopher(void *arg)
{
	unsigned int seat = (unsigned int)(unsigned long)arg;
	unsigned int left = seat, right = (seat + 1) % SEATS;
	unsigned int low = left < right ? left : right, high = left < right ? right : left;
	struct evl_sched_attrs attrs;
	int tfd, ret;

	tfd = evl_attach_self("philosopher-%u", seat);
	if (tfd < 0)
		fail("evl_attach_self", tfd);
	memset(&attrs, 0, sizeof(attrs));
	attrs.sched_policy = SCHED_FIFO;
	attrs.sched_priority = 10 + seat;
	ret = evl_set_schedattr(tfd, &attrs);
	if (ret)
		fail("evl_set_schedattr", ret);
	while (meals[seat] < MEALS) {
		take(low);
		take(high);
		meals[seat]++;
		put_down(high);
		put_down(low);
		evl_yield();
	}
	return NULL;
}

int main(int argc, char *argv[])
{
	pthread_t threads[SEATS];
	unsigned int seat, total = 0;
	int ret;

	(void)argc;
	(void)argv;
	ret = evl_init();
	if (ret)
		fail("evl_init", ret);
	for (seat = 0; seat < SEATS; seat++) {
		ret = evl_new_mutex(&forks[seat], "fork-%u", seat);
		if (ret < 0)
			fail("evl_new_mutex", ret);
	}
	for (seat = 0; seat < SEATS; seat++) {
		pthread_attr_t attr;
		cpu_set_t affinity;

		CPU_ZERO(&affinity);
		CPU_SET(seat % 2, &affinity);
		pthread_attr_init(&attr);
		pthread_attr_setaffinity_np(&attr, sizeof(affinity), &affinity);
		ret = pthread_create(&threads[seat], &attr, philosopher, (void *)(unsigned long)seat);
		pthread_attr_destroy(&attr);
		if (ret)
			fail("pthread_create", -ret);
	}
	for (seat = 0; seat < SEATS; seat++) {
		pthread_join(threads[seat], NULL);
		total += meals[seat];
	}
	printf("%u meals\n", total);
	return total == SEATS * MEALS ? EXIT_SUCCESS : EXIT_FAILURE;
}
