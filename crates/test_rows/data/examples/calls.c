/*
 * Makes each call of kit/evl.h, and asserts its answer. An assertion that fails stops the processor with the number of its
 * line in a0. At the end the console has "all calls".
 */
#include "evl.h"

static struct evl_stack stacks[2];
static volatile long woken, argument;

void waiter(void *arg)
{
	argument = (long)arg;
	evl_assert(evl_wait_line(EVL_LINES) == -EVL_EINVAL);
	evl_assert(evl_wait_line(5) == 0);
	woken = 1;
}

EVL_NAME(waiter, "waiter");

static void in_band_calls(void)
{
	evl_assert(evl_spawn((void *)2, 0, 0) == -EVL_EINVAL);
	evl_assert(evl_create(waiter, (void *)77, 1, &stacks[0]) == -EVL_EINVAL);
	evl_assert(evl_create(waiter, (void *)77, 0, &stacks[0]) == 1);
	evl_assert(evl_yield_inband() == 0);
	evl_assert(argument == 77);
	evl_assert(evl_stall_inband() == 0);
	evl_assert(evl_stall_inband() == 1);
	evl_assert(evl_state() == EVL_STATE_STALLED);
	evl_assert(evl_yield_inband() == -EVL_EPERM);
	evl_assert(evl_unstall_inband() == 1);
	evl_assert(evl_set_line(2, EVL_LINE_NONE, 0) == 0);
	evl_assert(evl_set_line(1, EVL_LINE_NONE, 0) == -EVL_EINVAL);
	evl_assert(evl_set_line(63, EVL_LINE_NONE, 0) == 0);
	evl_assert(evl_detach_self() == -EVL_EPERM);
	evl_assert(evl_switch_oob() == -EVL_EPERM);
	evl_assert(evl_attach_self(EVL_FIFO, 0) == -EVL_EINVAL);
	evl_assert(evl_attach_self(EVL_RR, 50) == 0);
	evl_assert(evl_attach_self(EVL_FIFO, 50) == -EVL_EBUSY);
}

static void out_of_band_calls(void)
{
	evl_assert(evl_is_inband());
	evl_assert(evl_switch_oob() == 0);
	evl_assert(!evl_is_inband());
	evl_assert(evl_state() == (EVL_STATE_OOB | EVL_STATE_ATTACHED));
	evl_assert(evl_set_schedattr(1, EVL_FIFO, 1) == -EVL_ESRCH);
	evl_assert(evl_set_schedattr(0, EVL_FIFO, 40) == 0);
	evl_assert(evl_set_thread_mode(EVL_T_WOSS | EVL_T_WOLI) == 0);
	evl_assert(evl_set_thread_mode(4) == -EVL_EINVAL);
	evl_assert(evl_set_thread_mode(0) == (EVL_T_WOSS | EVL_T_WOLI));
	evl_assert(evl_yield() == 0);
	evl_assert(evl_migrate(1) == -EVL_EINVAL);
	evl_assert(evl_migrate(0) == 0);
	evl_assert(evl_stall_oob() == 0);
	evl_assert(evl_switch_inband() == -EVL_EPERM);
	evl_assert(evl_unstall_oob() == 1);
	evl_assert(evl_read_clock() == 2);
	evl_assert(evl_switch_inband() == 0);
}

static void mutex_calls(void)
{
	long plain = evl_create_mutex(EVL_MUTEX_INHERITANCE | EVL_MUTEX_NORMAL, 0);
	long nested = evl_create_mutex(EVL_MUTEX_CEILING | EVL_MUTEX_RECURSIVE, 60);

	evl_assert(plain == 0 && nested == 1);
	evl_assert(evl_create_mutex(EVL_MUTEX_CEILING, 100) == -EVL_EINVAL);
	evl_assert(evl_lock_mutex(plain) == 0);
	evl_assert(evl_lock_mutex(plain) == -EVL_EDEADLK);
	evl_assert(evl_trylock_mutex(nested) == 0);
	evl_assert(evl_timedlock_mutex(nested, 9) == 0);
	evl_assert(evl_unlock_mutex(nested) == 0);
	evl_assert(evl_unlock_mutex(nested) == 0);
	evl_assert(evl_unlock_mutex(nested) == -EVL_EPERM);
	evl_assert(evl_detach_self() == -EVL_EBUSY);
	evl_assert(evl_unlock_mutex(plain) == 0);
	evl_assert(evl_unlock_mutex(2) == -EVL_EINVAL);
	evl_assert(evl_detach_self() == 0);
}

static void semaphore_calls(void)
{
	long sem = evl_create_sem(1);
	long now = evl_read_clock();

	evl_assert(sem == 0);
	evl_assert(evl_create_sem(-1) == -EVL_EINVAL);
	evl_assert(evl_get_sem(sem) == -EVL_EPERM);
	evl_assert(evl_attach_self(EVL_FIFO, 50) == 0);
	evl_assert(evl_get_sem(sem) == 0);
	evl_assert(evl_tryget_sem(sem) == -EVL_EAGAIN);
	evl_assert(evl_put_sem(sem) == 0);
	evl_assert(evl_timedget_sem(sem, now) == 0);
	evl_assert(evl_timedget_sem(sem, now) == -EVL_ETIMEDOUT);
	evl_assert(evl_timedget_sem(sem, now + 1) == -EVL_ETIMEDOUT);
	evl_assert(evl_read_clock() == now + 1);
	evl_assert(evl_set_line(9, EVL_LINE_PUT, sem) == 0);
	evl_assert(evl_get_sem(sem) == 0);
}

static void flags_calls(void)
{
	long flags = evl_create_flags();
	long now = evl_read_clock();

	evl_assert(flags == 0);
	evl_assert(evl_post_flags(flags, 6) == 0);
	evl_assert(evl_post_flags(flags, 0) == -EVL_EINVAL);
	evl_assert(evl_wait_flags(flags) == 6);
	evl_assert(evl_timedwait_flags(flags, now) == -EVL_ETIMEDOUT);
	evl_assert(evl_set_line(10, EVL_LINE_POST, flags + 1) == -EVL_EINVAL);
	evl_assert(evl_set_line(32, EVL_LINE_POST, flags) == -EVL_EINVAL);
	evl_assert(evl_set_line(10, EVL_LINE_POST, flags) == 0);
	evl_assert(evl_wait_flags(flags) == 1 << 10);
}

static void timer_calls(void)
{
	long timer = evl_new_timer();
	long now = evl_read_clock();

	evl_assert(timer == 0);
	evl_assert(evl_wait_timer(timer) == -EVL_EAGAIN);
	evl_assert(evl_sleep_until(now) == 0);
	evl_assert(evl_sleep_until(now + 1) == 0);
	evl_assert(evl_read_clock() == now + 1);
	evl_assert(evl_set_timer(timer, now + 2, 1) == 0);
	evl_assert(evl_wait_timer(timer) == 1);
	evl_assert(evl_wait_timer(timer) == 1);
	evl_assert(evl_set_timer(timer, 0, 0) == 0);
	evl_assert(evl_wait_timer(timer) == -EVL_EAGAIN);
	evl_assert(evl_read_clock() == now + 3);
}

static void event_calls(void)
{
	long event = evl_create_event();
	long mutex = evl_create_mutex(EVL_MUTEX_INHERITANCE, 0);
	long now = evl_read_clock();

	evl_assert(event == 0 && mutex == 2);
	evl_assert(evl_wait_event(event, mutex) == -EVL_EPERM);
	evl_assert(evl_wait_event(event, mutex + 1) == -EVL_EINVAL);
	evl_assert(evl_lock_mutex(mutex) == 0);
	evl_assert(evl_signal_event(event) == 0);
	evl_assert(evl_broadcast_event(event) == 0);
	evl_assert(evl_timedwait_event(event, mutex, now) == -EVL_ETIMEDOUT);
	evl_assert(evl_timedwait_event(event, mutex, now + 1) == -EVL_ETIMEDOUT);
	evl_assert(evl_unlock_mutex(mutex) == 0);
	evl_assert(evl_detach_self() == 0);
}

int main(void)
{
	evl_assert(evl_call0(63) == -EVL_ENOSYS);
	in_band_calls();
	out_of_band_calls();
	mutex_calls();
	semaphore_calls();
	flags_calls();
	timer_calls();
	event_calls();
	while (!woken)
		evl_yield_inband();
	evl_puts("all calls ");
	evl_put_hex(0x1f);
	evl_putc(' ');
	evl_put_decimal(-1024);
	evl_exit();
}
