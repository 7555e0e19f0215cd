/*
 * A device's interrupt puts a semaphore, and a thread that waits for it runs at once. With EVL a driver does this in its
 * out-of-band handler; here the place that is marked stands for the driver.
 */
#include <error.h>
#include <pthread.h>
#include <stdio.h>
#include <unistd.h>
#include <evl/sem.h>
#include <evl/thread.h>

#define INTERRUPTS 3

static struct evl_sem arrived;

/* ---- In the place of a driver: the pins raise their line when their count becomes 0, two ticks after they are armed. */
#include <evl/machine.h>

#define PINS 2
#define PINS_COUNT 2
#define PINS_LINE (2 + PINS)

static int driver_init(void)
{
	return evl_line_puts_sem(PINS_LINE, &arrived);
}

static void driver_arm(void)
{
	evl_store_register(PINS, PINS_COUNT, 2);
}
/* ---- The end of that place. */

static void *handler(void *arg)
{
	int *count = arg, ret;

	ret = evl_attach_self("irq-thread:%d", getpid());
	if (ret < 0)
		error(1, -ret, "evl_attach_self()");
	while (*count < INTERRUPTS) {
		driver_arm();
		ret = evl_get_sem(&arrived);
		if (ret)
			error(1, -ret, "evl_get_sem()");
		++*count;
	}
	return NULL;
}

int main(void)
{
	struct sched_param param = { .sched_priority = 90 };
	pthread_attr_t attr;
	cpu_set_t cpus;
	pthread_t tid;
	int ret, count = 0;

	ret = evl_new_sem(&arrived, "arrived:%d", getpid());
	if (ret < 0)
		error(1, -ret, "evl_new_sem()");
	ret = driver_init();
	if (ret < 0)
		error(1, -ret, "driver");
	CPU_ZERO(&cpus);
	CPU_SET(1, &cpus);
	pthread_attr_init(&attr);
	pthread_attr_setaffinity_np(&attr, sizeof(cpus), &cpus);
	pthread_attr_setinheritsched(&attr, PTHREAD_EXPLICIT_SCHED);
	pthread_attr_setschedpolicy(&attr, SCHED_FIFO);
	pthread_attr_setschedparam(&attr, &param);
	ret = pthread_create(&tid, &attr, handler, &count);
	if (ret)
		error(1, ret, "pthread_create()");
	pthread_join(tid, NULL);
	printf("%d interrupts\n", count);
	return 0;
}
