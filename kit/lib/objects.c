/* Mutexes, semaphores, events and flag groups, made when they are created or, by a static initialiser, at their first use. */
#include "kit.h"
#include <evl/evl.h>
#include <evl/machine.h>

#define ACTIVE(kind) (0xac71fe00u + (kind))
#define CLOSED 0xc105edu

/* What is looked at before an element is made. */
static int check(int kind, int clockfd, int flags, int own_flags, const char *fmt, va_list arguments)
{
	kit_enter();
	kit_go_inband();
	if (!kit_is_clock(clockfd) || (flags & ~(EVL_CLONE_MASK | own_flags)))
		return -EINVAL;
	return kit_name(kind, -1, flags, fmt, arguments);
}

/* An element has its number; with its name it becomes usable. */
static int made(int kind, long number, unsigned int *state, int *place, int flags, const char *fmt, va_list arguments)
{
	int answer;

	if (number < 0)
		return number;
	answer = kit_name(kind, number, flags, fmt, arguments);
	if (answer < 0)
		return answer;
	*place = number;
	*(volatile unsigned int *)state = ACTIVE(kind);
	return KIT_FD(kind, number);
}

/* CREATE makes the number of an element of this kind, where CHECKED is true. */
#define CREATE(kind, element, flags, own_flags, checked, create) \
	va_list arguments; \
	int answer; \
 \
	va_start(arguments, fmt); \
	answer = check(kind, clockfd, flags, own_flags, fmt, arguments); \
	va_end(arguments); \
	if (answer < 0) \
		return answer; \
	if (!(checked)) \
		return -EINVAL; \
	va_start(arguments, fmt); \
	answer = made(kind, create, &element->__state, &element->__number, flags, fmt, arguments); \
	va_end(arguments); \
	return answer

/* The number of an element, which is made now if its initialiser is static: CREATE makes it. */
#define NUMBER(kind, element, later, create) \
	int answer = 0; \
 \
	kit_enter(); \
	if (!element) \
		return -EFAULT; \
	if (element->__state == later) { \
		kit_lock(); \
		if (*(volatile unsigned int *)&element->__state == later) \
			answer = create; \
		kit_unlock(); \
	} \
	return answer < 0 ? answer : element->__state == ACTIVE(kind) ? element->__number : -EINVAL

/* What a wait answered, for a thread that goes on. */
static int waited(long answer)
{
	kit_enter();
	return answer;
}

static int closed(int kind, unsigned int *state, int number)
{
	if (number < 0)
		return number;
	*state = CLOSED;
	kit_forget(kind, number);
	return 0;
}

/* ---- Mutexes. */

static long mutex_kind(unsigned int ceiling, int flags)
{
	return (ceiling ? EVL_MUTEX_CEILING : EVL_MUTEX_INHERITANCE) + (flags & EVL_MUTEX_RECURSIVE);
}

int evl_create_mutex(struct evl_mutex *mutex, int clockfd, unsigned int ceiling, int flags, const char *fmt, ...)
{
	mutex->__ceiling = ceiling;
	CREATE(KIT_MUTEX, mutex, flags, EVL_MUTEX_RECURSIVE, ceiling <= 99, call_create_mutex(mutex_kind(ceiling, flags), ceiling));
}

static int mutex_number(struct evl_mutex *mutex)
{
	NUMBER(KIT_MUTEX, mutex, __EVL_MUTEX_LATER,
	       mutex->__name ? evl_create_mutex(mutex, mutex->__clockfd, mutex->__ceiling, mutex->__flags, "%s", mutex->__name)
			     : evl_create_mutex(mutex, mutex->__clockfd, mutex->__ceiling, mutex->__flags, 0));
}

int evl_lock_mutex(struct evl_mutex *mutex)
{
	int number = mutex_number(mutex);

	return number < 0 ? number : waited(call_lock_mutex(number));
}

int evl_timedlock_mutex(struct evl_mutex *mutex, const struct timespec *timeout)
{
	int number = mutex_number(mutex), answer;
	long tick;

	if (number < 0)
		return number;
	answer = kit_tick(timeout, &tick);
	return answer < 0 ? answer : waited(call_timedlock_mutex(number, tick));
}

int evl_trylock_mutex(struct evl_mutex *mutex)
{
	int number = mutex_number(mutex);

	return number < 0 ? number : call_trylock_mutex(number);
}

int evl_unlock_mutex(struct evl_mutex *mutex)
{
	int number = mutex_number(mutex);

	return number < 0 ? number : call_unlock_mutex(number);
}

/* 0 of a mutex with inheritance. */
int evl_get_mutex_ceiling(struct evl_mutex *mutex)
{
	int number = mutex_number(mutex);

	return number < 0 ? number : (int)mutex->__ceiling;
}

int evl_close_mutex(struct evl_mutex *mutex)
{
	return closed(KIT_MUTEX, &mutex->__state, mutex_number(mutex));
}

/* ---- Semaphores. */

int evl_create_sem(struct evl_sem *sem, int clockfd, int initval, int flags, const char *fmt, ...)
{
	CREATE(KIT_SEM, sem, flags, 0, initval >= 0, call_create_sem(initval));
}

static int sem_number(struct evl_sem *sem)
{
	NUMBER(KIT_SEM, sem, __EVL_SEM_LATER,
	       sem->__name ? evl_create_sem(sem, sem->__clockfd, sem->__initval, sem->__flags, "%s", sem->__name)
			   : evl_create_sem(sem, sem->__clockfd, sem->__initval, sem->__flags, 0));
}

int evl_get_sem(struct evl_sem *sem)
{
	int number = sem_number(sem);

	return number < 0 ? number : waited(call_get_sem(number));
}

int evl_timedget_sem(struct evl_sem *sem, const struct timespec *timeout)
{
	int number = sem_number(sem), answer;
	long tick;

	if (number < 0)
		return number;
	answer = kit_tick(timeout, &tick);
	return answer < 0 ? answer : waited(call_timedget_sem(number, tick));
}

int evl_tryget_sem(struct evl_sem *sem)
{
	int number = sem_number(sem);

	return number < 0 ? number : kit_from_any_stage(40, number, 0, 0);
}

int evl_put_sem(struct evl_sem *sem)
{
	int number = sem_number(sem);

	return number < 0 ? number : call_put_sem(number);
}

int evl_close_sem(struct evl_sem *sem)
{
	return closed(KIT_SEM, &sem->__state, sem_number(sem));
}

/* ---- Events. */

int evl_create_event(struct evl_event *event, int clockfd, int flags, const char *fmt, ...)
{
	CREATE(KIT_EVENT, event, flags, 0, 1, call_create_event());
}

static int event_number(struct evl_event *event)
{
	NUMBER(KIT_EVENT, event, __EVL_EVENT_LATER,
	       event->__name ? evl_create_event(event, event->__clockfd, event->__flags, "%s", event->__name)
			     : evl_create_event(event, event->__clockfd, event->__flags, 0));
}

static int wait_event(struct evl_event *event, struct evl_mutex *mutex, long tick)
{
	int number = event_number(event), guard = mutex_number(mutex);

	if (number < 0 || guard < 0)
		return number < 0 ? number : guard;
	return waited(call_timedwait_event(number, guard, tick));
}

int evl_wait_event(struct evl_event *event, struct evl_mutex *mutex)
{
	return wait_event(event, mutex, 0);
}

int evl_timedwait_event(struct evl_event *event, struct evl_mutex *mutex, const struct timespec *timeout)
{
	long tick;
	int answer = kit_tick(timeout, &tick);

	return answer < 0 ? answer : wait_event(event, mutex, tick);
}

int evl_signal_event(struct evl_event *event)
{
	int number = event_number(event);

	return number < 0 ? number : kit_from_any_stage(43, number, 0, 0);
}

int evl_broadcast_event(struct evl_event *event)
{
	int number = event_number(event);

	return number < 0 ? number : kit_from_any_stage(44, number, 0, 0);
}

int evl_close_event(struct evl_event *event)
{
	return closed(KIT_EVENT, &event->__state, event_number(event));
}

/* ---- Flag groups. */

/* A new group, with these bits. */
static long create_flags(unsigned int bits)
{
	long number = call_create_flags();

	if (number >= 0 && bits)
		call_post_flags(number, bits);
	return number;
}

int evl_create_flags(struct evl_flags *flg, int clockfd, int initval, int flags, const char *fmt, ...)
{
	CREATE(KIT_FLAGS, flg, flags, 0, 1, create_flags(initval));
}

static int flags_number(struct evl_flags *flg)
{
	NUMBER(KIT_FLAGS, flg, __EVL_FLAGS_LATER,
	       flg->__name ? evl_create_flags(flg, flg->__clockfd, flg->__initval, flg->__flags, "%s", flg->__name)
			   : evl_create_flags(flg, flg->__clockfd, flg->__initval, flg->__flags, 0));
}

/* The word goes to r_bits, which may be missing. */
static int taken(long word, int *r_bits)
{
	if (word < 0)
		return word;
	if (r_bits)
		*r_bits = word;
	return 0;
}

int evl_wait_flags(struct evl_flags *flg, int *r_bits)
{
	int number = flags_number(flg);
	long word;

	if (number < 0)
		return number;
	word = call_wait_flags(number);
	kit_enter();
	return taken(word, r_bits);
}

int evl_timedwait_flags(struct evl_flags *flg, const struct timespec *timeout, int *r_bits)
{
	int number = flags_number(flg), answer;
	long tick, word;

	if (number < 0)
		return number;
	answer = kit_tick(timeout, &tick);
	if (answer < 0)
		return answer;
	word = call_timedwait_flags(number, tick);
	kit_enter();
	return taken(word, r_bits);
}

/*
 * While out-of-band is stalled, a wait that would have to wait is refused. A weak thread would go in-band at the answer of the
 * stall, so it is a FIFO one meanwhile.
 */
int evl_trywait_flags(struct evl_flags *flg, int *r_bits)
{
	struct kit_thread *self = kit_self();
	int number = flags_number(flg), is_weak = self->evl_policy == SCHED_WEAK;
	long word, was;

	if (number < 0)
		return number;
	if (!self->attached)
		return -EPERM;
	if (is_weak)
		call_set_schedattr(kit_number(self), EVL_FIFO, 1);
	was = call_stall_oob();
	word = call_wait_flags(number);
	if (!was)
		call_unstall_oob();
	if (is_weak)
		call_set_schedattr(self->number, EVL_WEAK, self->evl_priority);
	return taken(word == -EPERM ? -EAGAIN : word, r_bits);
}

int evl_post_flags(struct evl_flags *flg, int bits)
{
	int number = flags_number(flg);

	return number < 0 ? number : call_post_flags(number, (unsigned int)bits);
}

int evl_close_flags(struct evl_flags *flg)
{
	return closed(KIT_FLAGS, &flg->__state, flags_number(flg));
}

/* ---- Lines. */

static int set_line(int line, long action, int number)
{
	if (number < 0)
		return number;
	return line < 2 || line >= EVL_LINES ? -EINVAL : call_set_line(line, action, number);
}

int evl_line_puts_sem(int line, struct evl_sem *sem)
{
	return set_line(line, EVL_LINE_PUT, sem_number(sem));
}

int evl_line_posts_flags(int line, struct evl_flags *flg)
{
	return set_line(line, EVL_LINE_POST, flags_number(flg));
}

int evl_line_does_nothing(int line)
{
	kit_enter();
	return set_line(line, EVL_LINE_NONE, 0);
}
