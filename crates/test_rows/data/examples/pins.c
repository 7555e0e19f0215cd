/*
 * A device's line wakes an out-of-band task, and the task answers the device by a store. The pins count PERIOD ticks and
 * raise line 4 on processor 0. Its play puts the semaphore `due`, for which `answer` waits on processor 1. It sets one
 * pin more, puts the tick into the mailbox and starts the next count. The mailbox raises line 3, which puts the semaphore
 * `posted`: `main` takes the tick from the mailbox and writes it to the console.
 *
 * `answer` asks for notices, since it makes two mistakes: in the second round it calls in-band, so it isn't out-of-band
 * any more; in the third it unlocks a mutex that it doesn't own.
 */
#include "evl.h"

#define PERIOD 2
#define ROUNDS 3

static long due, posted, guard;
static struct evl_stack stack;

void answer(void *arg)
{
	(void)arg;
	evl_assert(evl_attach_self(EVL_FIFO, 20) == 0);
	evl_assert(evl_set_thread_mode(EVL_T_WOSS | EVL_T_WOLI) == 0);
	for (int round = 1; round <= ROUNDS; round++) {
		evl_assert(evl_get_sem(due) == 0);
		evl_store_device(EVL_PINS, EVL_PINS_LEVEL, evl_load_device(EVL_PINS, EVL_PINS_LEVEL) << 1 | 1);
		evl_store_device(EVL_MAILBOX, EVL_MAILBOX_WORD, evl_read_clock());
		evl_store_device(EVL_PINS, EVL_PINS_COUNT, round < ROUNDS ? PERIOD : 0);
		if (round == 2)
			evl_putc('!');
		if (round == 3)
			evl_assert(evl_unlock_mutex(guard) == -EVL_EPERM);
	}
	/* Its end is an in-band call too, but no mistake. */
	evl_assert(evl_set_thread_mode(0) == (EVL_T_WOSS | EVL_T_WOLI));
}

EVL_NAME(answer, "answer");

int main(void)
{
	due = evl_create_sem(0);
	posted = evl_create_sem(0);
	guard = evl_create_mutex(EVL_MUTEX_INHERITANCE, 0);
	evl_assert(evl_set_line(EVL_DEVICE_LINE(EVL_PINS), EVL_LINE_PUT, due) == 0);
	evl_assert(evl_set_line(EVL_DEVICE_LINE(EVL_MAILBOX), EVL_LINE_PUT, posted) == 0);
	evl_assert(evl_create(answer, 0, 1, &stack) == 1);
	evl_assert(evl_attach_self(EVL_FIFO, 10) == 0);
	evl_store_device(EVL_PINS, EVL_PINS_COUNT, PERIOD);
	for (int round = 0; round < ROUNDS; round++) {
		evl_assert(evl_get_sem(posted) == 0);
		evl_put_decimal(evl_load_device(EVL_MAILBOX, EVL_MAILBOX_WORD));
		evl_putc(' ');
	}
	return 0;
}
