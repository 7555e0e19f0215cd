/*
 * A free list whose head is compared and exchanged with interrupts off. A task reads the head and the node behind it; one that
 * preempts it takes both nodes and gives the first back. The head is the same again (ABA), the node behind it is in use.
 */
#include "evl.h"

struct node {
	struct node *volatile next;
	volatile long used;
};

static struct node nodes[2] = { { &nodes[1], 0 }, { 0, 0 } };
static struct node *volatile head = &nodes[0];
static long sem;
static struct evl_stack stacks[2];

static struct node *take(void)
{
	struct node *first, *next;
	int done;

	do {
#ifdef MENDED
		evl_stall_oob();
#endif
		first = head;
		next = first ? first->next : 0;
#ifndef MENDED
		evl_stall_oob();
#endif
		done = head == first;
		if (done)
			head = next;
		evl_unstall_oob();
	} while (!done);
	if (first) {
		evl_assert(!first->used);
		first->used = 1;
	}
	return first;
}

static void give(struct node *node)
{
	evl_stall_oob();
	node->used = 0;
	node->next = head;
	head = node;
	evl_unstall_oob();
}

void high(void *arg)
{
	struct node *first;

	(void)arg;
	evl_attach_self(EVL_FIFO, 20);
	evl_get_sem(sem);
	first = take();
	take();
	if (first)
		give(first);
}

void waker(void *arg)
{
	(void)arg;
	evl_attach_self(EVL_FIFO, 10);
	evl_put_sem(sem);
}

int main(void)
{
	sem = evl_create_sem(0);
	evl_create(high, 0, 0, &stacks[0]);
	evl_create(waker, 0, 1, &stacks[1]);
	/* high begins to wait */
	evl_yield_inband();
	evl_attach_self(EVL_FIFO, 10);
	take();
	take();
	return 0;
}
