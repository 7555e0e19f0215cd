/* A mailbox of one message, guarded by a mutex, with an event for each side, as a monitor. */
#include <error.h>
#include <pthread.h>
#include <stdio.h>
#include <unistd.h>
#include <evl/event.h>
#include <evl/mutex.h>
#include <evl/thread.h>

#define MESSAGES 6

static struct {
	struct evl_mutex mutex;
	struct evl_event full, empty;
	int message, is_full;
} box = {
	.mutex = EVL_MUTEX_INITIALIZER("box-mutex"),
	.full = EVL_EVENT_INITIALIZER("box-full"),
	.empty = EVL_EVENT_INITIALIZER("box-empty"),
};

static int check(int ret)
{
	if (ret < 0)
		error(1, -ret, "monitor");
	return ret;
}

static void send(int message)
{
	check(evl_lock_mutex(&box.mutex));
	while (box.is_full)
		check(evl_wait_event(&box.empty, &box.mutex));
	box.message = message;
	box.is_full = 1;
	check(evl_signal_event(&box.full));
	check(evl_unlock_mutex(&box.mutex));
}

static int receive(void)
{
	int message;

	check(evl_lock_mutex(&box.mutex));
	while (!box.is_full)
		check(evl_wait_event(&box.full, &box.mutex));
	message = box.message;
	box.is_full = 0;
	check(evl_signal_event(&box.empty));
	check(evl_unlock_mutex(&box.mutex));
	return message;
}

static void *sender(void *arg)
{
	int n;

	(void)arg;
	check(evl_attach_thread(EVL_CLONE_PRIVATE, "sender:%d", getpid()));
	for (n = 1; n <= MESSAGES; n++)
		send(n * n);
	return NULL;
}

int main(void)
{
	int n, message, sum = 0, ret;
	pthread_attr_t attr;
	cpu_set_t cpus;
	pthread_t tid;

	check(evl_attach_thread(EVL_CLONE_PRIVATE, "receiver:%d", getpid()));
	CPU_ZERO(&cpus);
	CPU_SET(1, &cpus);
	pthread_attr_init(&attr);
	pthread_attr_setaffinity_np(&attr, sizeof(cpus), &cpus);
	ret = pthread_create(&tid, &attr, sender, NULL);
	if (ret)
		error(1, ret, "pthread_create()");
	for (n = 1; n <= MESSAGES; n++) {
		message = receive();
		if (message != n * n)
			error(1, 0, "message %d is %d", n, message);
		sum += message;
	}
	pthread_join(tid, NULL);
	printf("sum of squares %d\n", sum);
	return 0;
}
