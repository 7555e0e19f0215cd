/* Threads of EVL, and what each function of the library begins with. */
#include "kit.h"
#include <stdio.h>
#include <stdlib.h>
#include <evl/evl.h>

struct kit_thread kit_main = { .joiner = -1, .alive = KIT_GUARD, .slot = -1 };
volatile int kit_exiting;

static struct kit_thread *threads[EVL_TASKS]; /* by slot */

/* The processor stops, with a number in a0. */
void kit_fail(const char *text, long number)
{
	const char *name = kit_own_name();

	while (*name)
		kit_put(0, *name++);
	kit_put(0, ':');
	kit_put(0, ' ');
	while (*text)
		kit_put(0, *text++);
	kit_put(0, '\n');
	call_break(number);
}

void kit_enter(void)
{
	struct kit_thread *self = kit_self();

	if (*self->guard != KIT_GUARD) {
		*self->guard = KIT_GUARD;
		kit_fail("the stack has overflowed", 0);
	}
	if (kit_exiting)
		kit_end(self);
}

long kit_number(struct kit_thread *thread)
{
	while (thread->number < 0)
		call_yield_inband();
	return thread->number;
}

/* By a call that is always refused. */
void kit_go_inband(void)
{
	if (!call_is_inband())
		call_create_sem(-1);
}

/*
 * The lock of what the library shares: Lamport's bakery, with a place for each processor. It is taken in-band, where tasks
 * don't preempt one another, and no call below it waits: so a processor has one task at its place.
 */
static volatile unsigned char choosing[8];
static volatile unsigned int tickets[8];

void kit_lock(void)
{
	int cpu = kit_self()->cpu;
	unsigned int mine = 0;

	kit_go_inband();
	choosing[cpu] = 1;
	for (int other = 0; other < 8; other++)
		if (tickets[other] > mine)
			mine = tickets[other];
	tickets[cpu] = ++mine;
	choosing[cpu] = 0;
	for (int other = 0; other < 8; other++) {
		while (choosing[other])
			;
		while (tickets[other] && (tickets[other] < mine || (tickets[other] == mine && other < cpu)))
			;
	}
}

void kit_unlock(void)
{
	tickets[kit_self()->cpu] = 0;
}

/*
 * A call of the out-of-band stage, after which the thread is on the stage that it was on. One that isn't attached is weak
 * while the call is made.
 */
long kit_from_any_stage(long number, long first, long second, long third)
{
	long state = call_state(), answer;

	if (!(state & EVL_STATE_ATTACHED)) {
		answer = call_attach_self(EVL_WEAK, 0);
		if (answer < 0)
			return answer;
	}
	answer = evl_call3(number, first, second, third);
	if (!(state & EVL_STATE_ATTACHED))
		call_detach_self();
	else if (!(state & EVL_STATE_OOB))
		call_switch_inband();
	return answer;
}

static struct kit_thread *thread_of(int efd)
{
	int slot = efd - KIT_FD(KIT_THREAD, 0);

	return slot >= 0 && slot < EVL_TASKS ? threads[slot] : 0;
}

static bool fits(int policy, int priority)
{
	int least = policy == SCHED_WEAK ? 0 : 1;

	return (policy == SCHED_FIFO || policy == SCHED_RR || policy == SCHED_WEAK) && priority >= least && priority <= 99;
}

static long class_of(int policy)
{
	return policy == SCHED_FIFO ? EVL_FIFO : policy == SCHED_RR ? EVL_RR : EVL_WEAK;
}

int evl_init(void)
{
	kit_enter();
	return 0;
}

struct evl_version evl_get_version(void)
{
	return (struct evl_version) { .api_level = __EVL__, .abi_level = -1, .version_string = "evl.48 -- emulated core" };
}

/* -EBUSY where it is attached already. */
static int attach(struct kit_thread *self)
{
	int slot = 0;
	long answer;

	kit_lock();
	while (slot < EVL_TASKS - 1 && threads[slot])
		slot++;
	answer = call_attach_self(class_of(self->evl_policy), self->evl_priority);
	if (answer == 0) {
		self->slot = slot;
		self->attached = 1;
		threads[slot] = self;
	}
	kit_unlock();
	return answer;
}

int evl_attach_thread(int flags, const char *fmt, ...)
{
	struct kit_thread *self = kit_self();
	va_list arguments;
	int answer;

	kit_enter();
	kit_go_inband();
	if (flags & ~EVL_CLONE_MASK)
		return -EINVAL;
	if (self->attached)
		return -EBUSY;
	va_start(arguments, fmt);
	answer = kit_name(KIT_THREAD, kit_number(self), flags, fmt, arguments);
	va_end(arguments);
	if (answer < 0)
		return answer;
	self->named = fmt != 0;
	self->evl_policy = self->policy == SCHED_OTHER ? SCHED_WEAK : self->policy;
	self->evl_priority = self->policy == SCHED_OTHER ? 0 : self->priority;
	self->mode = 0;
	answer = attach(self);
	return answer < 0 ? answer : KIT_FD(KIT_THREAD, self->slot);
}

/* The thread has no class, no descriptor and no name any more. */
void kit_detached(struct kit_thread *self)
{
	if (!self->attached)
		return;
	kit_forget(KIT_THREAD, self->number);
	threads[self->slot] = 0;
	self->slot = -1;
	self->attached = 0;
	self->mode = 0;
}

int evl_detach_thread(int flags)
{
	struct kit_thread *self = kit_self();
	long answer;

	kit_enter();
	if (flags)
		return -EINVAL;
	answer = call_detach_self();
	if (answer == 0)
		kit_detached(self);
	return answer;
}

int evl_get_self(void)
{
	struct kit_thread *self = kit_self();

	kit_enter();
	return self->attached ? KIT_FD(KIT_THREAD, self->slot) : -EPERM;
}

int evl_switch_oob(void)
{
	kit_enter();
	return call_switch_oob();
}

int evl_switch_inband(void)
{
	kit_enter();
	return call_switch_inband();
}

bool evl_is_inband(void)
{
	kit_enter();
	return call_is_inband();
}

int evl_get_state(int efd, struct evl_thread_state *statebuf)
{
	struct kit_thread *thread = thread_of(efd);

	kit_enter();
	if (!thread)
		return -EBADF;
	if (!statebuf)
		return -EFAULT;
	statebuf->cpu = thread->cpu;
	return 0;
}

static int set_mode(int efd, int mask, int *oldmask, int set)
{
	struct kit_thread *self = kit_self();
	int mode = set ? self->mode | mask : self->mode & ~mask;
	long answer;

	kit_enter();
	if (!thread_of(efd))
		return -EBADF;
	if (mask & ~(EVL_T_WOSS | EVL_T_WOLI))
		return -EINVAL;
	if (thread_of(efd) != self)
		return -EPERM;
	answer = kit_from_any_stage(35, mode, 0, 0);
	if (answer < 0)
		return answer;
	if (oldmask)
		*oldmask = self->mode;
	self->mode = mode;
	return 0;
}

int evl_set_thread_mode(int efd, int mask, int *oldmask)
{
	return set_mode(efd, mask, oldmask, 1);
}

int evl_clear_thread_mode(int efd, int mask, int *oldmask)
{
	return set_mode(efd, mask, oldmask, 0);
}

/* A slice has 4 ticks: another quantum is refused, and 0 is the default. */
static bool is_slice(const struct timespec *quantum)
{
	long ticks;

	return (quantum->tv_sec == 0 && quantum->tv_nsec == 0) || (kit_tick(quantum, &ticks) == 0 && ticks == 4);
}

int evl_set_schedattr(int efd, const struct evl_sched_attrs *attrs)
{
	struct kit_thread *thread = thread_of(efd);
	long answer;

	kit_enter();
	if (!thread)
		return -EBADF;
	if (!attrs)
		return -EFAULT;
	if (!fits(attrs->sched_policy, attrs->sched_priority))
		return -EINVAL;
	if (attrs->sched_policy == SCHED_RR && !is_slice(&attrs->sched_rr_quantum))
		return -EINVAL;
	thread->evl_policy = attrs->sched_policy;
	thread->evl_priority = attrs->sched_priority;
	answer = kit_from_any_stage(34, kit_number(thread), class_of(attrs->sched_policy), attrs->sched_priority);
	return answer;
}

int evl_get_schedattr(int efd, struct evl_sched_attrs *attrs)
{
	struct kit_thread *thread = thread_of(efd);

	kit_enter();
	if (!thread)
		return -EBADF;
	if (!attrs)
		return -EFAULT;
	*attrs = (struct evl_sched_attrs) { .sched_policy = thread->evl_policy, .sched_priority = thread->evl_priority };
	if (thread->evl_policy == SCHED_RR) {
		attrs->sched_rr_quantum.tv_sec = 4 * __evl_tick_ns / 1000000000;
		attrs->sched_rr_quantum.tv_nsec = 4 * __evl_tick_ns % 1000000000;
	}
	return 0;
}

int evl_yield(void)
{
	kit_enter();
	return call_yield();
}
