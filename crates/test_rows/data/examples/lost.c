/*
 * Two tasks add to a counter that they share: main adds 1 on processor 0, worker adds 10 on processor 1. Each addition is a
 * load, some work and a store, and no mutex guards it. worker loads before main stores, and stores after that: so what
 * main added is lost, and its assertion fails.
 */
#include "evl.h"

static volatile long shared_counter, loaded, added;
static struct evl_stack stack;

static void work(long rounds)
{
	for (volatile long round = 0; round < rounds; round++)
		;
}

void worker(void *arg)
{
	long seen;

	(void)arg;
	evl_assert(evl_attach_self(EVL_FIFO, 10) == 0);
	seen = shared_counter;
	loaded = 1;
	work(20);
	shared_counter = seen + 10;
	added = 1;
}

EVL_NAME(worker, "worker");

int main(void)
{
	evl_assert(evl_create(worker, 0, 1, &stack) == 1);
	while (!loaded)
		;
	shared_counter = shared_counter + 1;
	while (!added)
		;
	evl_assert(shared_counter == 11);
	return 0;
}
