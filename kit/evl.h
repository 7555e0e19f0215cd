/*
 * evl.h - the calls of the emulated EVL core, for C programs.
 *
 * Each call of docs/CALLS.md is an inline function here. A call that means what a function of libevl means has
 * that function's name; a comment says where it differs. docs/EVL.md compares the two in full.
 *
 * A call returns a number of 0 or above, or a negated errno. Nothing sets a variable `errno`.
 */
#ifndef EVL_H
#define EVL_H

/* Errnos. A call that is refused returns one of them, negated. */
#define EVL_EPERM 1       /* not permitted: no class, a stalled stage, or not the owner */
#define EVL_ESRCH 3       /* no such task */
#define EVL_EAGAIN 11     /* it would have to wait */
#define EVL_ENOMEM 12     /* all numbers of this kind are used */
#define EVL_EBUSY 16      /* busy: has a class already, owns a mutex, or is owned by another task */
#define EVL_EINVAL 22     /* an argument out of range, or no such object */
#define EVL_EDEADLK 35    /* the wait would never end */
#define EVL_ENOSYS 38     /* no such call */
#define EVL_ETIMEDOUT 110 /* the deadline has come */

/* Limits. */
#define EVL_TASKS 64   /* tasks, task 0 among them */
#define EVL_MUTEXES 32 /* mutexes */
#define EVL_SEMS 32    /* semaphores */
#define EVL_EVENTS 32  /* events */
#define EVL_FLAGS 32   /* flag groups */
#define EVL_TIMERS 32  /* timers */
#define EVL_LINES 64   /* interrupt lines of a processor */

/* Interrupt lines with a meaning of their own. */
#define EVL_TIMER_LINE 0
#define EVL_RESCHEDULE_LINE 1

/* Classes of evl_attach_self() and evl_set_schedattr(). */
#define EVL_FIFO 1 /* first in first out, priority 1 to 99 */
#define EVL_RR 2   /* round robin, priority 1 to 99, slices of 4 ticks */
#define EVL_WEAK 3 /* weak, priority 0 to 99, below the other two */

/*
 * Mode bits of evl_set_thread_mode(): of what the task leaves a notice. The view `notices` shows the last 64. A task that the
 * watchdog sends in-band leaves notice 5, whatever its mode.
 */
#define EVL_T_WOSS 1 /* it goes in-band by an in-band call (notice 1) or by a fault (notice 2) */
#define EVL_T_WOLI 2 /* a lock or trylock is refused with -EVL_EDEADLK (3), an unlock since it isn't the owner (4) */

/* Kinds of evl_create_mutex(): a protocol, and EVL_MUTEX_RECURSIVE. */
#define EVL_MUTEX_INHERITANCE 0
#define EVL_MUTEX_CEILING 2
#define EVL_MUTEX_NORMAL 0
#define EVL_MUTEX_RECURSIVE 1

/* Devices: at most 8, each with 16 registers of 8 bytes. An access of another width is a fault, as of a missing register. */
#define EVL_DEVICES 8
#define EVL_DEVICE(device) (0x10000000UL + 0x1000UL * (device))
#define EVL_DEVICE_LINE(device) (2 + (device)) /* the line that the device raises, on processor 0 */

/* The devices that evltool attaches, and their registers. */
#define EVL_CONSOLE 0
#define EVL_CONSOLE_BYTE 0 /* stored: the low byte comes last, unless there are 256; loaded: how many there are */
#define EVL_MAILBOX 1
#define EVL_MAILBOX_WORD 0  /* stored: the word comes last, of 16 the oldest leaves; raises. Loaded: the oldest leaves, or 0 */
#define EVL_MAILBOX_COUNT 1 /* loaded: how many words there are; stored: none from now on */
#define EVL_PINS 2
#define EVL_PINS_LEVEL 0 /* a bit for each pin; a store raises if a bit of the mask goes from 0 to 1 */
#define EVL_PINS_MASK 1
#define EVL_PINS_COUNT 2 /* falls by 1 with each tick; raises when it becomes 0 */

/* Actions of evl_set_line(). */
#define EVL_LINE_NONE 0 /* the line goes to the in-band stage */
#define EVL_LINE_PUT 1  /* its play puts a semaphore */
#define EVL_LINE_POST 2 /* its play posts the bit of its own number, 2 to 31, to a flag group */

/* Bits of evl_state(). */
#define EVL_STATE_OOB 1      /* the task is out-of-band */
#define EVL_STATE_ATTACHED 2 /* the task has a class */
#define EVL_STATE_STALLED 4  /* the stage that the task is on is stalled */

/*
 * The ECALL: the number in a7, arguments from a0 on, the answer in a0. No other register changes. Other tasks may
 * run before it returns, so memory may change.
 */
static inline __attribute__((always_inline)) long evl_call0(long number)
{
	register long a7 __asm__("a7") = number;
	register long a0 __asm__("a0");

	__asm__ volatile("ecall" : "=r"(a0) : "r"(a7) : "memory");
	return a0;
}

static inline __attribute__((always_inline)) long evl_call1(long number, long first)
{
	register long a7 __asm__("a7") = number;
	register long a0 __asm__("a0") = first;

	__asm__ volatile("ecall" : "+r"(a0) : "r"(a7) : "memory");
	return a0;
}

static inline __attribute__((always_inline)) long evl_call2(long number, long first, long second)
{
	register long a7 __asm__("a7") = number;
	register long a0 __asm__("a0") = first;
	register long a1 __asm__("a1") = second;

	__asm__ volatile("ecall" : "+r"(a0) : "r"(a7), "r"(a1) : "memory");
	return a0;
}

static inline __attribute__((always_inline)) long evl_call3(long number, long first, long second, long third)
{
	register long a7 __asm__("a7") = number;
	register long a0 __asm__("a0") = first;
	register long a1 __asm__("a1") = second;
	register long a2 __asm__("a2") = third;

	__asm__ volatile("ecall" : "+r"(a0) : "r"(a7), "r"(a1), "r"(a2) : "memory");
	return a0;
}

/* ---- In-band calls. An out-of-band task that makes one goes in-band first. */

/* The task ends. Its mutexes pass on. libevl: a thread returns from its function. */
static inline __attribute__((noreturn)) void evl_exit(void)
{
	for (;;)
		evl_call0(0);
}

/* A byte to the console. libevl: evl_printf(), which stays out-of-band; this call doesn't. */
static inline long evl_putc(int byte)
{
	return evl_call1(1, byte);
}

/* Behind the other tasks that are ready in-band on the processor. Linux: sched_yield(). */
static inline long evl_yield_inband(void)
{
	return evl_call0(2);
}

/*
 * A new task on a processor, which begins at `entry` with `value` in a0 and all other registers 0, sp among them.
 * So `entry` can't be a C function: use evl_create(). Returns the task's number.
 */
static inline long evl_spawn(const void *entry, long value, long cpu)
{
	return evl_call3(3, (long)entry, value, cpu);
}

/* The in-band stage of the processor plays no lines. Returns the old bit. Dovetail: stall_inband(). */
static inline long evl_stall_inband(void)
{
	return evl_call0(4);
}

/* It plays lines again. Returns the old bit. Dovetail: unstall_inband(). */
static inline long evl_unstall_inband(void)
{
	return evl_call0(5);
}

/*
 * Waits until the line is played in-band on this processor. A line that was played before isn't kept.
 * libevl has no such call: there a driver's handler posts a semaphore or flags.
 */
static inline long evl_wait_line(long line)
{
	return evl_call1(6, line);
}

/*
 * The task gets a class and a priority, and may go out-of-band.
 * libevl: takes a name, and gives SCHED_WEAK 0; the class comes from pthread_setschedparam() or evl_set_schedattr().
 */
static inline long evl_attach_self(long sched_class, long priority)
{
	return evl_call2(7, sched_class, priority);
}

/* The task has no class any more. -EVL_EBUSY while it owns a mutex. */
static inline long evl_detach_self(void)
{
	return evl_call0(8);
}

/*
 * A new mutex; returns its number, which the calls below take. The ceiling counts with EVL_MUTEX_CEILING alone.
 * libevl: fills a struct evl_mutex, and takes a clock and a name; a ceiling of 0 there means inheritance.
 */
static inline long evl_create_mutex(long kind, long ceiling)
{
	return evl_call2(9, kind, ceiling);
}

/* A new semaphore; returns its number. libevl: fills a struct evl_sem, and takes a clock and a name. */
static inline long evl_create_sem(long count)
{
	return evl_call1(10, count);
}

/* A new event; returns its number. libevl: fills a struct evl_event, and takes a clock and a name. */
static inline long evl_create_event(void)
{
	return evl_call0(11);
}

/* A new flag group, with no bit set; returns its number. libevl: fills a struct evl_flags, and takes the first word. */
static inline long evl_create_flags(void)
{
	return evl_call0(12);
}

/* A new timer, which is off; returns its number. libevl: takes a clock, and returns a file descriptor. */
static inline long evl_new_timer(void)
{
	return evl_call0(13);
}

/*
 * What the line does from now on, on each processor: an action EVL_LINE_ with its semaphore or flag group. A line with
 * an action goes to the out-of-band stage, so it wakes an out-of-band task by itself.
 * libevl has no such call: there a driver's handler posts.
 */
static inline long evl_set_line(long line, long action, long object)
{
	return evl_call3(14, line, action, object);
}

/* ---- Out-of-band calls. An in-band task that has a class goes out-of-band first. */

static inline long evl_switch_oob(void)
{
	return evl_call0(32);
}

/* -EVL_EPERM while out-of-band is stalled. */
static inline long evl_switch_inband(void)
{
	return evl_call0(33);
}

/* The class and the priority of a task, by its number. libevl: takes a file descriptor and a struct. */
static inline long evl_set_schedattr(long task, long sched_class, long priority)
{
	return evl_call3(34, task, sched_class, priority);
}

/*
 * The mode bits of the calling task become `bits`; returns the old ones.
 * libevl: sets bits of any thread, and evl_clear_thread_mode() clears them.
 */
static inline long evl_set_thread_mode(long bits)
{
	return evl_call1(35, bits);
}

static inline long evl_lock_mutex(long mutex)
{
	return evl_call2(36, mutex, 0);
}

/*
 * -EVL_ETIMEDOUT if the task would have to wait and the deadline, a tick of evl_read_clock(), has come, or comes while
 * it waits. 0 is no deadline; so in all calls with one. libevl: a struct timespec of the mutex's clock.
 */
static inline long evl_timedlock_mutex(long mutex, long deadline)
{
	return evl_call2(36, mutex, deadline);
}

/* -EVL_EBUSY where another task owns it; that is EBUSY with libevl too. */
static inline long evl_trylock_mutex(long mutex)
{
	return evl_call1(37, mutex);
}

static inline long evl_unlock_mutex(long mutex)
{
	return evl_call1(38, mutex);
}

static inline long evl_get_sem(long sem)
{
	return evl_call2(39, sem, 0);
}

/* -EVL_ETIMEDOUT as evl_timedlock_mutex(). libevl: a struct timespec of the semaphore's clock. */
static inline long evl_timedget_sem(long sem, long deadline)
{
	return evl_call2(39, sem, deadline);
}

/* -EVL_EAGAIN where the count is 0; that is EAGAIN with libevl too. */
static inline long evl_tryget_sem(long sem)
{
	return evl_call1(40, sem);
}

/*
 * Gives the mutex back and waits for the event; returns with the mutex, also at -EVL_ETIMEDOUT. The task must own the
 * mutex, locked once, and no other. -EVL_EINVAL if others wait for the event with another mutex.
 * libevl: the same; a mutex may be locked more often there.
 */
static inline long evl_wait_event(long event, long mutex)
{
	return evl_call3(42, event, mutex, 0);
}

static inline long evl_timedwait_event(long event, long mutex, long deadline)
{
	return evl_call3(42, event, mutex, deadline);
}

/* Wakes the first waiter. It isn't kept for later ones. */
static inline long evl_signal_event(long event)
{
	return evl_call1(43, event);
}

/* Wakes all waiters, one by one. */
static inline long evl_broadcast_event(long event)
{
	return evl_call1(44, event);
}

/* Returns the word of the group, which is 0 then, once it has a bit. libevl: writes the bits to a variable. */
static inline long evl_wait_flags(long flags)
{
	return evl_call2(45, flags, 0);
}

static inline long evl_timedwait_flags(long flags, long deadline)
{
	return evl_call2(45, flags, deadline);
}

/* Waits until the clock has come to a tick. libevl: takes a clock and a struct timespec. */
static inline long evl_sleep_until(long tick)
{
	return evl_call1(47, tick);
}

/*
 * The timer expires at the tick `first`, then every `period`, or once if that is 0; a first of 0 turns it off. Its
 * expiries are 0 then, and the ticks of this processor count. libevl: a struct itimerspec.
 */
static inline long evl_set_timer(long timer, long first, long period)
{
	return evl_call3(48, timer, first, period);
}

/*
 * Returns the number of expiries since the last call, once there is one. -EVL_EAGAIN if there is none and the timer is
 * off. libevl: oob_read() of the timer's file descriptor.
 */
static inline long evl_wait_timer(long timer)
{
	return evl_call1(49, timer);
}

/* Behind the others of its rank that are ready out-of-band on the processor. */
static inline long evl_yield(void)
{
	return evl_call0(50);
}

/* The out-of-band stage of the processor plays no lines, and this task stays current. Dovetail: stall_oob(). */
static inline long evl_stall_oob(void)
{
	return evl_call0(51);
}

/* It plays lines again. Returns the old bit. Dovetail: unstall_oob(). */
static inline long evl_unstall_oob(void)
{
	return evl_call0(52);
}

/*
 * The task goes on on another processor, out-of-band, with its class, its slice and its mutexes; a weak one without a mutex
 * goes in-band there. Its timers stay. -EVL_EINVAL if there is no such processor, -EVL_EBUSY while out-of-band is stalled.
 * libevl: pthread_setaffinity_np(), an in-band call; the thread moves when it goes out-of-band again.
 */
static inline long evl_migrate(long cpu)
{
	return evl_call1(55, cpu);
}

/* ---- Calls of either stage. */

/* Wakes the first waiter, or adds one to the count. */
static inline long evl_put_sem(long sem)
{
	return evl_call1(41, sem);
}

/*
 * Sets bits of the group's word, 1 to 2^32 - 1; the first waiter wakes with the word. libevl: evl_broadcast_flags()
 * wakes all.
 */
static inline long evl_post_flags(long flags, long bits)
{
	return evl_call2(46, flags, bits);
}

/* Ticks since boot. libevl: fills a struct timespec of a clock. */
static inline long evl_read_clock(void)
{
	return evl_call0(53);
}

/* A sum of EVL_STATE_ bits of the calling task. libevl: evl_get_state() of any thread. */
static inline long evl_state(void)
{
	return evl_call0(54);
}

static inline int evl_is_inband(void)
{
	return !(evl_state() & EVL_STATE_OOB);
}

/* ---- Devices. An access of 8 bytes, on either stage; it isn't a call. */

static inline unsigned long evl_load_device(long device, long number)
{
	return ((volatile unsigned long *)EVL_DEVICE(device))[number];
}

static inline void evl_store_device(long device, long number, unsigned long value)
{
	((volatile unsigned long *)EVL_DEVICE(device))[number] = value;
}

/* ---- Tasks of C functions. */

#ifndef EVL_STACK_SIZE
#define EVL_STACK_SIZE 4096
#endif

struct evl_stack {
	unsigned char bytes[EVL_STACK_SIZE];
} __attribute__((aligned(16)));

struct evl_start {
	void (*fn)(void *arg);
	void *arg;
};

/* crt0.S: sp becomes the address in a0, which is that of an evl_start; then fn(arg), then the task ends. */
extern const char evl_task_start[];

/*
 * A new task that runs fn(arg) on a processor and ends when it returns. Returns its number.
 * A stack must not be used by two tasks. Nothing guards its end.
 */
static inline long evl_create(void (*fn)(void *arg), void *arg, long cpu, struct evl_stack *stack)
{
	struct evl_start *start = (struct evl_start *)(stack + 1) - 1;

	start->fn = fn;
	start->arg = arg;
	return evl_spawn(evl_task_start, (long)start, cpu);
}

/*
 * Names, which kit/map takes into the map of the program: EVL_NAME(producer, "producer") of the tasks that run a function, and
 * EVL_NAME_MUTEX(guard, "guard") of the mutex whose number a variable holds. Section .evl.names has records of 32 bytes: the address
 * of the function or the variable (8 bytes, little-endian), a name of at most 22 bytes, ended and padded by zeros, and at the end a
 * kind. The section isn't loaded. The function or the variable is one of the file, and is used.
 */
#define EVL_NAME(fn, name) EVL_NAME_OF(fn, name, 0)
#define EVL_NAME_MUTEX(variable, name) EVL_NAME_OF(variable, name, 1)
#define EVL_NAME_SEM(variable, name) EVL_NAME_OF(variable, name, 2)
#define EVL_NAME_EVENT(variable, name) EVL_NAME_OF(variable, name, 3)
#define EVL_NAME_FLAGS(variable, name) EVL_NAME_OF(variable, name, 4)
#define EVL_NAME_TIMER(variable, name) EVL_NAME_OF(variable, name, 5)
#define EVL_NAME_OF(symbol, name, kind)                                                                                \
	__asm__(".pushsection .evl.names,\"\",@progbits\n"                                                             \
		"\t.dword " #symbol "\n"                                                                               \
		"0:\t.asciz \"" name "\"\n"                                                                            \
		"\t.org 0b + 23\n"                                                                                     \
		"\t.byte " #kind "\n"                                                                                  \
		"\t.popsection\n")

/* ---- Assertions. */

/* EBREAK with a number in a0: the debugger has stopped the processor then, and the view `regs` shows the number. */
static inline void evl_break(long number)
{
	register long a0 __asm__("a0") = number;

	__asm__ volatile("ebreak" : : "r"(a0) : "memory");
}

/* A condition that must hold; where it doesn't, a0 is the number of the source's line. */
#define evl_assert(condition)                                                                                          \
	do {                                                                                                           \
		if (!(condition))                                                                                      \
			evl_break(__LINE__);                                                                           \
	} while (0)

/* ---- The console, which the view `console` shows. Each byte is an in-band call. */

static inline void evl_puts(const char *text)
{
	while (*text)
		evl_putc(*text++);
}

/* 16 hexadecimal digits. */
static inline void evl_put_hex(unsigned long number)
{
	for (int shift = 60; shift >= 0; shift -= 4)
		evl_putc("0123456789abcdef"[number >> shift & 15]);
}

/* Decimal digits, by subtraction: RV64I has no division. */
static inline void evl_put_decimal(long number)
{
	unsigned long rest = number;
	static const unsigned long powers[] = {
		10000000000000000000UL, 1000000000000000000UL, 100000000000000000UL, 10000000000000000UL,
		1000000000000000UL, 100000000000000UL, 10000000000000UL, 1000000000000UL, 100000000000UL, 10000000000UL,
		1000000000UL, 100000000UL, 10000000UL, 1000000UL, 100000UL, 10000UL, 1000UL, 100UL, 10UL, 1UL,
	};
	int begun = 0;

	if (number < 0) {
		evl_putc('-');
		rest = -rest;
	}
	for (int place = 0; place < 20; place++) {
		int digit = 0;

		while (rest >= powers[place]) {
			rest -= powers[place];
			digit++;
		}
		if (digit || begun || place == 19) {
			evl_putc('0' + digit);
			begun = 1;
		}
	}
}

#endif
