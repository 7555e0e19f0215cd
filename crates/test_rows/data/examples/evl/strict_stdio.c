/*
 * With EVL_STRICT_STDIO printf() demotes, as on Linux, and leaves a notice; evl_printf() doesn't. With EVL_TICK_NS a tick has
 * another length.
 */
/* ---- For this machine alone, as -D in the Makefile would. */
#define EVL_STRICT_STDIO
#define EVL_TICK_NS 250000
/* ---- The end of that place. */
#include <assert.h>
#include <pthread.h>
#include <stdio.h>
#include <unistd.h>
#include <evl/clock.h>
#include <evl/proxy.h>
#include <evl/thread.h>

int main(void)
{
	struct sched_param param = { .sched_priority = 1 };
	struct timespec resolution;
	int efd;

	assert(evl_get_clock_resolution(EVL_CLOCK_MONOTONIC, &resolution) == 0);
	assert(resolution.tv_sec == 0 && resolution.tv_nsec == 250000);
	assert(pthread_setschedparam(pthread_self(), SCHED_FIFO, &param) == 0);
	efd = evl_attach_self("strict:%d", getpid());
	assert(efd >= 0);
	assert(evl_switch_oob() == 0);
	assert(evl_set_thread_mode(efd, T_WOSS, NULL) == 0);
	evl_printf("out-of-band\n");
	assert(!evl_is_inband());
	printf("in-band\n");
	assert(evl_is_inband());
	return 0;
}
