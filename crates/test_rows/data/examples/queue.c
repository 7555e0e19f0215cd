/*
 * A producer and a consumer. Line 8 stands for a device: its play puts the semaphore `arrived`, so it wakes the producer
 * on processor 1 by itself. The producer puts a sample into a queue under the mutex `guard` and signals the event
 * `filled`. The consumer on processor 0 takes samples, and waits at most 3 ticks for each. It writes what it took to the
 * console, "late" for a deadline that passed, and ends after the third sample.
 */
#include "evl.h"

#define DEVICE_LINE 8
#define ROOM 4
#define PATIENCE 3

static long arrived, filled, guard;
static struct evl_stack stack;
static volatile long samples[ROOM], first, next, silent;

/* A sample for each put of the line. It counts how often the device was silent for 5 ticks. */
void producer(void *arg)
{
	(void)arg;
	evl_assert(evl_attach_self(EVL_FIFO, 10) == 0);
	for (long sample = 1; sample <= 3;) {
		if (evl_timedget_sem(arrived, evl_read_clock() + 5) == -EVL_ETIMEDOUT) {
			silent++;
			continue;
		}
		evl_assert(evl_lock_mutex(guard) == 0);
		samples[next++ % ROOM] = sample++;
		evl_assert(evl_signal_event(filled) == 0);
		evl_assert(evl_unlock_mutex(guard) == 0);
	}
}

EVL_NAME(producer, "producer");

/* The oldest sample, or -EVL_ETIMEDOUT if none came in time. */
static long take(void)
{
	long deadline = evl_read_clock() + PATIENCE, answer = 0;

	evl_assert(evl_lock_mutex(guard) == 0);
	while (first == next && answer == 0)
		answer = evl_timedwait_event(filled, guard, deadline);
	if (first != next)
		answer = samples[first++ % ROOM];
	evl_assert(evl_unlock_mutex(guard) == 0);
	return answer;
}

int main(void)
{
	long taken = 0;

	arrived = evl_create_sem(0);
	filled = evl_create_event();
	guard = evl_create_mutex(EVL_MUTEX_INHERITANCE, 0);
	evl_assert(evl_set_line(DEVICE_LINE, EVL_LINE_PUT, arrived) == 0);
	evl_assert(evl_create(producer, 0, 1, &stack) == 1);
	evl_assert(evl_attach_self(EVL_FIFO, 20) == 0);
	while (taken < 3) {
		long answer = take();

		if (answer == -EVL_ETIMEDOUT) {
			evl_puts("late ");
			continue;
		}
		evl_put_decimal(answer);
		evl_putc(' ');
		taken++;
	}
	evl_puts("silent ");
	evl_put_decimal(silent);
	evl_exit();
}
