/* What the files of this library share. */
#ifndef KIT_H
#define KIT_H

/* The library's own texts aren't strict, and both forms of each function are in stdio.c. */
#undef EVL_STRICT_STDIO

#include <assert.h>
#include <errno.h>
#include <pthread.h>
#include <stddef.h>
#include <stdarg.h>
#include <stdbool.h>
#include "calls.h"

#define KIT_NAME 24 /* bytes of a name, with its end */
#define KIT_GUARD 0x6b6174735f646e65UL

/*
 * A thread. Its address is its pthread_t, and what tp holds while it runs. start.S knows the offset of the first member.
 * It stands at the end of its stack, and main's by itself.
 */
struct kit_thread {
	void *stack_end;
	volatile long number; /* of its task, or -1 while spawn hasn't answered */
	unsigned long alive;  /* KIT_GUARD until it is joined */
	volatile unsigned long *guard;
	void *(*fn)(void *);
	void *arg, *result, *block; /* block: what malloc() gave for the stack, or 0 */
	struct kit_thread *next;
	volatile int done, gone, joiner;
	int cpu, policy, priority; /* of pthread_setschedparam() */
	int detached, attached, mode, errno_value, named;
	int slot; /* its descriptor, while it is attached */
	int evl_policy, evl_priority;
};

static_assert(offsetof(struct kit_thread, stack_end) == 0, "start.S");

/* Descriptors: 64 numbers for each kind. */
enum kit_kind { KIT_THREAD = 1, KIT_MUTEX, KIT_SEM, KIT_EVENT, KIT_FLAGS, KIT_TIMER, KIT_KINDS };
#define KIT_FD(kind, number) (64 * (kind) + (number))

extern struct kit_thread kit_main;
extern volatile int kit_exiting;

static inline struct kit_thread *kit_self(void)
{
	struct kit_thread *self;

	__asm__ volatile("mv %0, tp" : "=r"(self));
	return self;
}

/* start.S */
void kit_leave(volatile int *gone) __attribute__((noreturn));
extern const char kit_thread_start[];

/* thread.c */
void kit_enter(void);
void kit_fail(const char *text, long number);
void kit_detached(struct kit_thread *self);
void kit_end(struct kit_thread *self) __attribute__((noreturn));
long kit_number(struct kit_thread *thread);
void kit_go_inband(void);
void kit_lock(void);
void kit_unlock(void);
long kit_from_any_stage(long number, long first, long second, long third);

/* names.c */
int kit_name(int kind, int number, int flags, const char *fmt, va_list arguments);
void kit_forget(int kind, int number);
const char *kit_own_name(void);
extern char kit_names[KIT_KINDS - 1][64][KIT_NAME];

/* defaults.c: what the program may define by EVL_TICK_NS and EVL_STACK_SIZE */
extern const unsigned long __evl_tick_ns, __evl_stack_size;

/* clock.c */
bool kit_is_clock(int clockfd);
int kit_tick(const struct timespec *time, long *tick);

/* stdio.c */
int kit_format(void (*put)(void *to, int byte), void *to, const char *format, va_list arguments);
void kit_put(void *to, int byte);

#endif
