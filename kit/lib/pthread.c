/* Threads of pthread.h. Each is a task, with its struct kit_thread at the end of its stack. */
#include "kit.h"
#include <pthread.h>
#include <stdlib.h>
#include <string.h>
#include <unistd.h>
#include <evl/evl.h>

extern void (*__init_array_start[])(void), (*__init_array_end[])(void);
extern unsigned long heap_end[]; /* where main's stack ends */

static struct kit_thread *all; /* those that are detached, until their stacks are free */
static int joiners[EVL_SEMS], joiner_count; /* semaphores for joins, which are used again */

int main(int argc, char *argv[]);

/* What main() begins with. */
__attribute__((noreturn)) void kit_begin(void)
{
	static char *arguments[] = { (char *)"main", 0 };

	kit_main.guard = heap_end;
	*kit_main.guard = KIT_GUARD;
	for (void (**fn)(void) = __init_array_start; fn < __init_array_end; fn++)
		(*fn)();
	exit(main(1, arguments));
}

/* What each other thread begins with. */
__attribute__((noreturn)) void kit_run(void)
{
	struct kit_thread *self = kit_self();

	pthread_exit(self->fn(self->arg));
}

void kit_end(struct kit_thread *self)
{
	kit_detached(self);
	self->done = 1;
	if (self->joiner >= 0)
		call_put_sem(self->joiner);
	kit_leave(&self->gone);
}

void pthread_exit(void *result)
{
	struct kit_thread *self = kit_self();

	kit_enter();
	self->result = result;
	kit_end(self);
}

pthread_t pthread_self(void)
{
	return (pthread_t)kit_self();
}

int pthread_equal(pthread_t one, pthread_t other)
{
	return one == other;
}

/* The thread of a handle, or none where it was never made or is joined. */
static struct kit_thread *thread_of(pthread_t handle)
{
	struct kit_thread *thread = (struct kit_thread *)handle;

	if (handle < 0x80000000UL || handle % 8 || handle > (unsigned long)heap_end || thread->alive != KIT_GUARD)
		return 0;
	return thread;
}

int pthread_attr_init(pthread_attr_t *attr)
{
	memset(attr, 0, sizeof(*attr));
	attr->__stack_size = __evl_stack_size;
	return 0;
}

int pthread_attr_destroy(pthread_attr_t *attr)
{
	(void)attr;
	return 0;
}

int pthread_attr_setdetachstate(pthread_attr_t *attr, int state)
{
	if (state != PTHREAD_CREATE_JOINABLE && state != PTHREAD_CREATE_DETACHED)
		return EINVAL;
	attr->__detached = state;
	return 0;
}

int pthread_attr_setinheritsched(pthread_attr_t *attr, int inherit)
{
	if (inherit != PTHREAD_INHERIT_SCHED && inherit != PTHREAD_EXPLICIT_SCHED)
		return EINVAL;
	attr->__explicit = inherit;
	return 0;
}

static bool is_policy(int policy)
{
	return policy == SCHED_OTHER || policy == SCHED_FIFO || policy == SCHED_RR;
}

int pthread_attr_setschedpolicy(pthread_attr_t *attr, int policy)
{
	if (!is_policy(policy))
		return EINVAL;
	attr->__policy = policy;
	return 0;
}

int pthread_attr_setschedparam(pthread_attr_t *attr, const struct sched_param *param)
{
	if (param->sched_priority < 0 || param->sched_priority > 99)
		return EINVAL;
	attr->__priority = param->sched_priority;
	return 0;
}

int pthread_attr_setaffinity_np(pthread_attr_t *attr, size_t size, const cpu_set_t *set)
{
	if (size < sizeof(*set) || !set->__bits)
		return EINVAL;
	attr->__affinity = *set;
	return 0;
}

/* Without an affinity, all processors. */
int pthread_attr_getaffinity_np(const pthread_attr_t *attr, size_t size, cpu_set_t *set)
{
	if (size < sizeof(*set))
		return EINVAL;
	set->__bits = attr->__affinity.__bits ? attr->__affinity.__bits : -1UL;
	return 0;
}

int pthread_attr_setstacksize(pthread_attr_t *attr, size_t size)
{
	if (size < PTHREAD_STACK_MIN)
		return EINVAL;
	attr->__stack_size = size;
	return 0;
}

int pthread_attr_getstacksize(const pthread_attr_t *attr, size_t *size)
{
	*size = attr->__stack_size;
	return 0;
}

int pthread_attr_setstack(pthread_attr_t *attr, void *stack, size_t size)
{
	attr->__stack = stack;
	return pthread_attr_setstacksize(attr, size);
}

/* The stacks of detached threads that have gone are free again. */
static void free_detached(void)
{
	struct kit_thread **place = &all, *gone = 0;

	kit_lock();
	while (*place) {
		struct kit_thread *thread = *place;

		if (thread->gone) {
			*place = thread->next;
			thread->next = gone;
			gone = thread;
		} else {
			place = &thread->next;
		}
	}
	kit_unlock();
	while (gone) {
		struct kit_thread *thread = gone;

		gone = thread->next;
		free(thread->block);
	}
}

static int least(const cpu_set_t *set)
{
	int cpu = 0;

	while (!CPU_ISSET(cpu, set))
		cpu++;
	return cpu;
}

/* A thread at the end of its stack: 0 if there is no memory. */
static struct kit_thread *prepare(const pthread_attr_t *attr)
{
	size_t size = attr->__stack_size & -16UL;
	void *block = attr->__stack ? 0 : malloc(size + sizeof(struct kit_thread) + 16);
	char *stack = attr->__stack ? attr->__stack : block;
	struct kit_thread *thread;

	if (!stack)
		return 0;
	if (attr->__stack)
		size -= sizeof(struct kit_thread) + 16;
	stack = (char *)(((unsigned long)stack + 15) & -16UL);
	thread = (struct kit_thread *)(stack + (size & -16UL));
	memset(thread, 0, sizeof(*thread));
	thread->block = block;
	thread->stack_end = thread;
	thread->guard = (unsigned long *)stack;
	*thread->guard = KIT_GUARD;
	thread->alive = KIT_GUARD;
	thread->number = thread->joiner = thread->slot = -1;
	return thread;
}

int pthread_create(pthread_t *handle, const pthread_attr_t *attr, void *(*fn)(void *arg), void *arg)
{
	struct kit_thread *self = kit_self(), *thread;
	pthread_attr_t usual;
	long number;

	kit_enter();
	kit_go_inband();
	if (!attr) {
		pthread_attr_init(&usual);
		attr = &usual;
	}
	if (attr->__explicit && (attr->__policy == SCHED_OTHER) != (attr->__priority == 0))
		return EINVAL;
	free_detached();
	thread = prepare(attr);
	if (!thread)
		return EAGAIN;
	thread->fn = fn;
	thread->arg = arg;
	thread->cpu = attr->__affinity.__bits ? least(&attr->__affinity) : self->cpu;
	thread->policy = attr->__explicit ? attr->__policy : self->policy;
	thread->priority = attr->__explicit ? attr->__priority : self->priority;
	thread->detached = attr->__detached;
	*handle = (pthread_t)thread;
	number = call_spawn(kit_thread_start, (long)thread, thread->cpu);
	if (number < 0) {
		free(thread->block);
		return number == -EINVAL ? EINVAL : EAGAIN;
	}
	thread->number = number;
	if (thread->detached)
		pthread_detach((pthread_t)thread);
	return 0;
}

/* A thread that was made detached is in the list once. */
int pthread_detach(pthread_t handle)
{
	struct kit_thread *thread = thread_of(handle);

	kit_enter();
	if (!thread)
		return ESRCH;
	if (thread->detached == 2)
		return EINVAL;
	thread->detached = 2;
	kit_lock();
	thread->next = all;
	all = thread;
	kit_unlock();
	return 0;
}

/* Waits for the end of a thread, on a semaphore that it puts. */
static void wait_for(struct kit_thread *thread)
{
	int semaphore;

	kit_lock();
	semaphore = joiner_count ? joiners[--joiner_count] : call_create_sem(0);
	kit_unlock();
	thread->joiner = semaphore;
	if (semaphore >= 0 && !thread->done) {
		kit_from_any_stage(39, semaphore, 0, 0);
	} else {
		while (!thread->gone)
			call_yield_inband();
		if (semaphore >= 0)
			kit_from_any_stage(40, semaphore, 0, 0);
	}
	if (semaphore >= 0) {
		kit_lock();
		joiners[joiner_count++] = semaphore;
		kit_unlock();
	}
}

int pthread_join(pthread_t handle, void **result)
{
	struct kit_thread *thread = thread_of(handle);

	kit_enter();
	kit_go_inband();
	if (!thread)
		return ESRCH;
	if (thread == kit_self())
		return EDEADLK;
	if (thread->detached || thread->joiner >= 0)
		return EINVAL;
	if (!thread->done)
		wait_for(thread);
	while (!thread->gone)
		call_yield_inband();
	kit_enter();
	if (result)
		*result = thread->result;
	thread->alive = 0;
	free(thread->block);
	return 0;
}

int pthread_setname_np(pthread_t handle, const char *name)
{
	struct kit_thread *thread = thread_of(handle);

	if (!thread)
		return ESRCH;
	if (strlen(name) > 15)
		return ERANGE;
	strcpy(kit_names[KIT_THREAD - 1][kit_number(thread)], name);
	return 0;
}

int pthread_getname_np(pthread_t handle, char *name, size_t size)
{
	struct kit_thread *thread = thread_of(handle);

	if (!thread)
		return ESRCH;
	if (size < 16)
		return ERANGE;
	strncpy(name, kit_names[KIT_THREAD - 1][kit_number(thread)], 15);
	name[15] = 0;
	return 0;
}

int pthread_setschedparam(pthread_t handle, int policy, const struct sched_param *param)
{
	struct kit_thread *thread = thread_of(handle);
	int priority = param->sched_priority;

	kit_enter();
	if (!thread)
		return ESRCH;
	if (!is_policy(policy) || priority < 0 || priority > 99 || (policy == SCHED_OTHER) != (priority == 0))
		return EINVAL;
	thread->policy = policy;
	thread->priority = priority;
	return 0;
}

int pthread_getschedparam(pthread_t handle, int *policy, struct sched_param *param)
{
	struct kit_thread *thread = thread_of(handle);

	if (!thread)
		return ESRCH;
	*policy = thread->policy;
	param->sched_priority = thread->priority;
	return 0;
}

int pthread_setschedprio(pthread_t handle, int priority)
{
	struct kit_thread *thread = thread_of(handle);
	struct sched_param param = { priority };

	return thread ? pthread_setschedparam(handle, thread->policy, &param) : ESRCH;
}

/* The thread goes on in-band on the other processor, with its class, its mode and its mutexes. */
static int move_to(struct kit_thread *self, int cpu)
{
	long answer;

	kit_go_inband();
	answer = kit_from_any_stage(55, cpu, 0, 0);
	if (answer == 0)
		self->cpu = cpu;
	return -answer;
}

int pthread_setaffinity_np(pthread_t handle, size_t size, const cpu_set_t *set)
{
	struct kit_thread *thread = thread_of(handle);

	kit_enter();
	if (!thread)
		return ESRCH;
	if (size < sizeof(*set) || !set->__bits)
		return EINVAL;
	if (CPU_ISSET(thread->cpu, set))
		return 0;
	return thread == kit_self() ? move_to(thread, least(set)) : ENOSYS;
}

int pthread_getaffinity_np(pthread_t handle, size_t size, cpu_set_t *set)
{
	struct kit_thread *thread = thread_of(handle);

	if (!thread)
		return ESRCH;
	if (size < sizeof(*set))
		return EINVAL;
	CPU_ZERO(set);
	CPU_SET(thread->cpu, set);
	return 0;
}

/* ---- Of sched.h and unistd.h. */

static int answered(int number)
{
	if (!number)
		return 0;
	errno = number;
	return -1;
}

static bool is_self(pid_t pid)
{
	return pid == 0 || pid == gettid();
}

int sched_setaffinity(pid_t pid, size_t size, const cpu_set_t *set)
{
	return answered(is_self(pid) ? pthread_setaffinity_np(pthread_self(), size, set) : ESRCH);
}

int sched_getaffinity(pid_t pid, size_t size, cpu_set_t *set)
{
	return answered(is_self(pid) ? pthread_getaffinity_np(pthread_self(), size, set) : ESRCH);
}

int sched_setscheduler(pid_t pid, int policy, const struct sched_param *param)
{
	return answered(is_self(pid) ? pthread_setschedparam(pthread_self(), policy, param) : ESRCH);
}

int sched_getcpu(void)
{
	return kit_self()->cpu;
}

int sched_yield(void)
{
	kit_enter();
	kit_go_inband();
	return call_yield_inband();
}

int pthread_yield(void)
{
	return sched_yield();
}

int sched_get_priority_min(int policy)
{
	return policy == SCHED_FIFO || policy == SCHED_RR;
}

int sched_get_priority_max(int policy)
{
	return policy == SCHED_FIFO || policy == SCHED_RR || policy == SCHED_WEAK ? 99 : 0;
}

pid_t getpid(void)
{
	return 1;
}

pid_t gettid(void)
{
	return 1 + kit_number(kit_self());
}

int *__errno_location(void)
{
	return &kit_self()->errno_value;
}
