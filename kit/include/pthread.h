#ifndef _PTHREAD_H
#define _PTHREAD_H

#include <sched.h>
#include <time.h>

typedef unsigned long pthread_t;

typedef struct {
	size_t __stack_size;
	void *__stack;
	int __detached;
	int __explicit;
	int __policy;
	int __priority;
	cpu_set_t __affinity;
} pthread_attr_t;

#define PTHREAD_STACK_MIN 2048
#define PTHREAD_CREATE_JOINABLE 0
#define PTHREAD_CREATE_DETACHED 1
#define PTHREAD_INHERIT_SCHED 0
#define PTHREAD_EXPLICIT_SCHED 1
#define PTHREAD_CANCEL_ENABLE 0
#define PTHREAD_CANCEL_DISABLE 1

__EVL_BEGIN

/* The bytes of a stack without an attribute: 4096, or what the program is compiled with, as -DEVL_STACK_SIZE=8192. */
#ifdef EVL_STACK_SIZE
extern const unsigned long __evl_stack_size;
const unsigned long __evl_stack_size __attribute__((weak)) = EVL_STACK_SIZE;
#endif

int pthread_attr_init(pthread_attr_t *attr);
int pthread_attr_destroy(pthread_attr_t *attr);
int pthread_attr_setdetachstate(pthread_attr_t *attr, int state);
int pthread_attr_setinheritsched(pthread_attr_t *attr, int inherit);
int pthread_attr_setschedpolicy(pthread_attr_t *attr, int policy);
int pthread_attr_setschedparam(pthread_attr_t *attr, const struct sched_param *param);
int pthread_attr_setaffinity_np(pthread_attr_t *attr, size_t size, const cpu_set_t *set);
int pthread_attr_getaffinity_np(const pthread_attr_t *attr, size_t size, cpu_set_t *set);
int pthread_attr_setstacksize(pthread_attr_t *attr, size_t size);
int pthread_attr_getstacksize(const pthread_attr_t *attr, size_t *size);
int pthread_attr_setstack(pthread_attr_t *attr, void *stack, size_t size);

/* In-band. Without an affinity the thread is on the processor of its creator. */
int pthread_create(pthread_t *thread, const pthread_attr_t *attr, void *(*fn)(void *arg), void *arg);
int pthread_join(pthread_t thread, void **result);
int pthread_detach(pthread_t thread);
void pthread_exit(void *result) __attribute__((__noreturn__));
pthread_t pthread_self(void);
int pthread_equal(pthread_t one, pthread_t other);
int pthread_setname_np(pthread_t thread, const char *name);
int pthread_getname_np(pthread_t thread, char *name, size_t size);
int pthread_yield(void);

/* evl_attach_self() takes the class and the priority from here; an attached thread uses evl_set_schedattr(). */
int pthread_setschedparam(pthread_t thread, int policy, const struct sched_param *param);
int pthread_getschedparam(pthread_t thread, int *policy, struct sched_param *param);
int pthread_setschedprio(pthread_t thread, int priority);

/* Of the calling thread: it goes on in-band on the first processor of the set, unless it is on one of them. Of another only if it is there. */
int pthread_setaffinity_np(pthread_t thread, size_t size, const cpu_set_t *set);
int pthread_getaffinity_np(pthread_t thread, size_t size, cpu_set_t *set);

/* There is no cancellation, so what allows it does nothing. */
static inline int pthread_setcancelstate(int state, int *old)
{
	(void)state;
	if (old)
		*old = PTHREAD_CANCEL_ENABLE;
	return 0;
}

int pthread_cancel(pthread_t thread) __EVL_ABSENT("pthread_cancel() isn't here: no call ends another task; let the thread look at a variable");
int pthread_kill(pthread_t thread, int signal) __EVL_ABSENT("pthread_kill() isn't here: there are no signals");

/* A wait in-band, by a futex, has no call here: use evl_mutex, evl_event and evl_sem. */
typedef struct { int __absent; } pthread_mutex_t, pthread_cond_t, pthread_mutexattr_t, pthread_condattr_t, pthread_barrier_t;
#define PTHREAD_MUTEX_INITIALIZER { 0 }
#define PTHREAD_COND_INITIALIZER { 0 }
#define __EVL_NO_FUTEX __EVL_ABSENT("pthread's mutexes, conditions and barriers aren't here: use evl_mutex, evl_event and evl_sem")
int pthread_mutex_init(pthread_mutex_t *mutex, const pthread_mutexattr_t *attr) __EVL_NO_FUTEX;
int pthread_mutex_destroy(pthread_mutex_t *mutex) __EVL_NO_FUTEX;
int pthread_mutex_lock(pthread_mutex_t *mutex) __EVL_NO_FUTEX;
int pthread_mutex_trylock(pthread_mutex_t *mutex) __EVL_NO_FUTEX;
int pthread_mutex_unlock(pthread_mutex_t *mutex) __EVL_NO_FUTEX;
int pthread_cond_init(pthread_cond_t *cond, const pthread_condattr_t *attr) __EVL_NO_FUTEX;
int pthread_cond_destroy(pthread_cond_t *cond) __EVL_NO_FUTEX;
int pthread_cond_wait(pthread_cond_t *cond, pthread_mutex_t *mutex) __EVL_NO_FUTEX;
int pthread_cond_timedwait(pthread_cond_t *cond, pthread_mutex_t *mutex, const struct timespec *time) __EVL_NO_FUTEX;
int pthread_cond_signal(pthread_cond_t *cond) __EVL_NO_FUTEX;
int pthread_cond_broadcast(pthread_cond_t *cond) __EVL_NO_FUTEX;
int pthread_barrier_init(pthread_barrier_t *barrier, const void *attr, unsigned int count) __EVL_NO_FUTEX;
int pthread_barrier_wait(pthread_barrier_t *barrier) __EVL_NO_FUTEX;

__EVL_END

#endif
