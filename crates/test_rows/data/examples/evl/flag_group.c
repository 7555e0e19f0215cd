/* Three sources post a bit each to a flag group, and a collector waits until it has seen all of them. */
#include <error.h>
#include <errno.h>
#include <pthread.h>
#include <stdio.h>
#include <unistd.h>
#include <evl/flags.h>
#include <evl/thread.h>

#define SOURCES 3
#define ALL ((1 << SOURCES) - 1)

static struct evl_flags flags;

static void *source(void *arg)
{
	int n = (int)(long)arg, ret;

	ret = evl_attach_self("source:%d.%d", getpid(), n);
	if (ret < 0)
		error(1, -ret, "evl_attach_self()");
	ret = evl_post_flags(&flags, 1 << n);
	if (ret)
		error(1, -ret, "evl_post_flags()");
	return NULL;
}

int main(void)
{
	pthread_t tids[SOURCES];
	int seen = 0, bits, ret;
	long n;

	ret = evl_attach_self("collector:%d", getpid());
	if (ret < 0)
		error(1, -ret, "evl_attach_self()");
	ret = evl_create_flags(&flags, EVL_CLOCK_MONOTONIC, 1 << 8, EVL_CLONE_PRIVATE, "flags:%d", getpid());
	if (ret < 0)
		error(1, -ret, "evl_create_flags()");

	ret = evl_trywait_flags(&flags, &bits); /* what the group was made with */
	if (ret || bits != 1 << 8)
		error(1, -ret, "evl_trywait_flags()");
	ret = evl_trywait_flags(&flags, &bits);
	if (ret != -EAGAIN)
		error(1, -ret, "evl_trywait_flags() of nothing");
	ret = evl_post_flags(&flags, 0);
	if (ret != -EINVAL)
		error(1, -ret, "evl_post_flags() of nothing");

	for (n = 0; n < SOURCES; n++) {
		cpu_set_t cpus;
		pthread_attr_t attr;

		CPU_ZERO(&cpus);
		CPU_SET(n & 1, &cpus);
		pthread_attr_init(&attr);
		pthread_attr_setaffinity_np(&attr, sizeof(cpus), &cpus);
		ret = pthread_create(&tids[n], &attr, source, (void *)n);
		if (ret)
			error(1, ret, "pthread_create()");
	}
	while (seen != ALL) {
		ret = evl_wait_flags(&flags, &bits);
		if (ret)
			error(1, -ret, "evl_wait_flags()");
		if (bits & seen)
			error(1, EINVAL, "bits %#x again", bits & seen);
		seen |= bits;
	}
	for (n = 0; n < SOURCES; n++)
		pthread_join(tids[n], NULL);
	printf("seen %#x\n", seen);
	return 0;
}
