/* A thread uses more stack than it has: its next call stops the processor, and the console names the thread. */
#include <error.h>
#include <pthread.h>
#include <stdio.h>
#include <unistd.h>
#include <evl/thread.h>

#define STACK_SIZE 4096

static char room[2 * STACK_SIZE] __attribute__((aligned(16)));

static int __attribute__((noinline)) deep(int levels, volatile char *above)
{
	volatile char frame[512];

	for (size_t i = 0; i < sizeof(frame); i += 8)
		frame[i] = 200 + levels;
	above[0] = levels;
	return levels ? deep(levels - 1, frame) + frame[0] : frame[0];
}

static void *thread(void *arg)
{
	int ret = evl_attach_self("deep:%d", getpid());

	if (ret < 0)
		error(1, -ret, "evl_attach_self()");
	*(int *)arg = deep(8, room);
	evl_switch_oob();
	return NULL;
}

int main(void)
{
	pthread_attr_t attr;
	pthread_t tid;
	int ret, sum = 0;

	pthread_attr_init(&attr);
	ret = pthread_attr_setstack(&attr, room + STACK_SIZE, STACK_SIZE);
	if (ret)
		error(1, ret, "pthread_attr_setstack()");
	ret = pthread_create(&tid, &attr, thread, &sum);
	if (ret)
		error(1, ret, "pthread_create()");
	pthread_join(tid, NULL);
	printf("not reached: %d\n", sum);
	return 0;
}
