/*
 * A real-time thread has a helper for what is done in-band: it queues text, and the helper, which is weak, prints it. The
 * real-time thread never leaves the out-of-band stage.
 */
#include <assert.h>
#include <pthread.h>
#include <stdio.h>
#include <stdlib.h>
#include <string.h>
#include <unistd.h>
#include <evl/mutex.h>
#include <evl/sem.h>
#include <evl/thread.h>

#define LINES 3

struct request {
	struct request *next;
	char text[16];
};

static struct evl_mutex lock;
static struct evl_sem queued;
static struct request *first, **last = &first;
static struct request pool[LINES];

static void ask_for(struct request *request, const char *text)
{
	strcpy(request->text, text);
	request->next = NULL;
	assert(evl_lock_mutex(&lock) == 0);
	*last = request;
	last = &request->next;
	assert(evl_unlock_mutex(&lock) == 0);
	assert(evl_put_sem(&queued) == 0);
	assert(!evl_is_inband());
}

static void *realtime(void *arg)
{
	static const char *const words[LINES] = { "one", "two", "three" };
	int n;

	(void)arg;
	assert(evl_attach_self("realtime:%d", getpid()) >= 0);
	assert(evl_switch_oob() == 0);
	for (n = 0; n < LINES; n++)
		ask_for(&pool[n], words[n]);
	return NULL;
}

static void *helper(void *arg)
{
	int n;

	(void)arg;
	assert(evl_attach_self("helper:%d", getpid()) >= 0);
	for (n = 0; n < LINES; n++) {
		struct request *request;
		char *copy;

		assert(evl_get_sem(&queued) == 0);
		assert(evl_is_inband());
		assert(evl_lock_mutex(&lock) == 0);
		request = first;
		first = request->next;
		if (!first)
			last = &first;
		assert(evl_unlock_mutex(&lock) == 0);
		copy = malloc(strlen(request->text) + 1); /* in-band, as it may be here */
		assert(copy);
		strcpy(copy, request->text);
		printf("%s ", copy);
		free(copy);
	}
	printf("\n");
	return NULL;
}

int main(void)
{
	struct sched_param param = { .sched_priority = 80 };
	pthread_attr_t attr;
	pthread_t rt, help;
	cpu_set_t cpus;

	assert(evl_new_mutex(&lock, "lock:%d", getpid()) >= 0);
	assert(evl_new_sem(&queued, "queued:%d", getpid()) >= 0);
	assert(pthread_create(&help, NULL, helper, NULL) == 0);
	CPU_ZERO(&cpus);
	CPU_SET(1, &cpus);
	pthread_attr_init(&attr);
	pthread_attr_setaffinity_np(&attr, sizeof(cpus), &cpus);
	pthread_attr_setinheritsched(&attr, PTHREAD_EXPLICIT_SCHED);
	pthread_attr_setschedpolicy(&attr, SCHED_FIFO);
	pthread_attr_setschedparam(&attr, &param);
	assert(pthread_create(&rt, &attr, realtime, NULL) == 0);
	assert(pthread_join(rt, NULL) == 0);
	assert(pthread_join(help, NULL) == 0);
	return 0;
}
